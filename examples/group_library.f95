/* A library for groups: three sync functions, each used twice.

       echo 3 1 4 1 5 9 2 6 | ./fork95 run examples/group_library.f95 --harts 8 --cycles 1000000

   A sync function is called by a whole group and has shared variables of its own. All members see the
   same ones, each call has new ones, and their words are given back when the call ends. An sh parameter
   is shared too: it has the value of the highest member.

   scan gives each member the sum of the values up to its own. Its loop counts in a shared variable, so
   the condition is shared, and the group stays together. greatest puts all values into one word at once,
   by a multiprefix. broadcast gives all members the value of the highest one, which its parameter has.

   Each member has one number, up to as many as there are processors. The first scan adds the numbers up:
   3 4 8 9 14 23 25 31, a line each. The sum of the highest member is that of all, so 31 / 8 = 3 is the
   average. The second scan numbers those above it: the members that keep their numbers get the places
   1, 2, 3 and 4. The others write to place 0, which nobody reads, and so no member takes another way. It
   prints the greatest number, 9, the least one, 1, and then the numbers above the average: 4 5 9 6.
   Cost: a scan takes log n turns of its loop for n members, the other two the same for all n. */
#include <fork.h>
#include <io.h>

sync int scan(pr int value) {
  sh int sums[2048];
  sh int distance;
  sums[$] = 0;
  sums[groupsize() + $] = value;
  for (distance = 1; distance < groupsize(); distance *= 2)
    sums[groupsize() + $] += sums[groupsize() + $ - distance];
  return sums[groupsize() + $];
}

sync int greatest(pr int value) {
  sh int found = -2147483647 - 1;
  mpmax(&found, value);
  return found;
}

sync int broadcast(sh int value) { return value; }

void main(void) {
  start (__inputs) {
    sh int kept[1025];
    sh int count;
    pr int number = __input[$];
    pr int sum = scan(number);
    pr int is_above = number > broadcast(sum) / groupsize();
    pr int place = scan(is_above);
    pr int most = greatest(number), least = -greatest(-number);
    count = broadcast(place);
    kept[is_above * place] = number;
    putint(sum);
    seq {
      int i;
      putint(most);
      putint(least);
      for (i = 1; i <= count; i++) putint(kept[i]);
    }
  }
}
