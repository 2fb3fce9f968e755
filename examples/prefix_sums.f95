/* Prefix sums of the input numbers, in lockstep: no processor waits for another, and none is overtaken.

       seq 1 16 | ./fork95 run examples/prefix_sums.f95 --harts 16 --cycles 1000000

   Each processor of the group has one number, up to as many as there are processors. In each turn of
   the loop each adds what stands a distance before its own, and the distance doubles: after 4 turns
   of 16 processors each sum is whole. In synchronous code all do one operation at a time, so all have
   read both numbers before any of them writes. The numbers stand behind as many zeros, so that whoever
   has nothing before it adds 0, and no processor takes another way than the others.

   It prints 1 3 6 10 15 21 28 36 45 55 66 78 91 105 120 136, a line each, in one cycle.
   Cost: 685 cycles. */
#include <fork.h>
#include <io.h>

sh int sums[2048];
sh int distance;

void main(void) {
  start (__inputs) {
    sums[1024 + $] = __input[$];
    for (distance = 1; distance < groupsize(); distance *= 2)
      sums[1024 + $] = sums[1024 + $] + sums[1024 + $ - distance];
    putint(sums[1024 + $]);
  }
}
