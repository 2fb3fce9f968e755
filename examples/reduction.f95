/* A reduction tree: 256 processors find the greatest input number in 8 steps.

       seq 3 7 1780 | ./fork95 run examples/reduction.f95 --harts 256 --cycles 1000000

   In a farm each processor goes its own way, so at each level of the tree those who have no more to do
   meet the others at the barrier: it is passed by all at once when the last one has come, and so
   nobody reads a number before it is written. It prints the greatest number, here 1774, and the sum of
   all, 225679. Cost: 1,533 cycles. */
#include <fork.h>
#include <io.h>

sh int greatest[256];
sh int sum;

void main(void) {
  start (256) farm {
    int i, step;
    for (i = $; i < __inputs; i += groupsize()) {
      if (i == $ || __input[i] > greatest[$]) greatest[$] = __input[i];
      mpadd(&sum, __input[i]);
    }
    barrier;
    for (step = 128; step; step /= 2) {
      if ($ < step && $ + step < __inputs && greatest[$ + step] > greatest[$]) greatest[$] = greatest[$ + step];
      barrier;
    }
    if ($ == 0) {
      putint(greatest[0]);
      putint(sum);
    }
  }
}
