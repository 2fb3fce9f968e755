/* Odd-even transposition sort in lockstep: n numbers in n turns.

       echo 31 4 15 9 26 5 35 8 | ./fork95 run examples/odd_even_sort.f95 --harts 8 --cycles 1000000

   Each processor has one number. In even turns the pairs from number 0 on are compared, in odd turns
   those from number 1 on. The lower one of a pair compares, and exchanges both if they stand in the wrong
   order: an `if` in lockstep, so those who have nothing to exchange wait for the others in each turn. It
   prints 4 5 8 9 15 26 31 35, a line each. Cost: as many turns as numbers, each with n / 2 comparisons:
   n * n / 2 in all, where a good sort of one processor needs some n * log n. */
#include <fork.h>
#include <io.h>

sh int words[1024];

void main(void) {
  start (__inputs) {
    sh int turn;
    words[$] = __input[$];
    for (turn = 0; turn < __inputs; turn++)
      if ($ % 2 == turn % 2 && $ + 1 < __inputs)
        if (words[$] > words[$ + 1]) {
          int larger = words[$];
          words[$] = words[$ + 1];
          words[$ + 1] = larger;
        }
    seq {
      int i;
      for (i = 0; i < __inputs; i++) putint(words[i]);
    }
  }
}
