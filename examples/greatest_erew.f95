/* The greatest number without any concurrent access: EREW.

       seq 3 5 78 | ./fork95 run examples/greatest_erew.f95 --harts 16 --cycles 1000000
       seq 3 5 78 | ./fork95 audit examples/greatest_erew.f95 --harts 16 --cycles 1000000

   A tree of comparisons: each processor has a word of its own. In the first turn every second one
   takes its neighbour's number if that is greater, in the next one every fourth, and so on. A barrier
   stands between the turns. So in each cycle each word is read or written by one processor at most,
   and the audit says EREW. It prints 78, after four turns for 16 numbers. */
#include <fork.h>
#include <io.h>

sh int best[1024];

void main(void) {
  int distance;
  int other;
  best[__PROC_NR__] = -2147483647 - 1;
  if (__PROC_NR__ < __inputs) best[__PROC_NR__] = __input[__PROC_NR__];
  barrier;
  for (distance = 1; distance < groupsize(); distance *= 2) {
    if (__PROC_NR__ % (2 * distance) == 0 && __PROC_NR__ + distance < groupsize()) {
      other = best[__PROC_NR__ + distance];
      if (other > best[__PROC_NR__]) best[__PROC_NR__] = other;
    }
    barrier;
  }
  if (__PROC_NR__ == 0) putint(best[0]);
}
