/* Recursion: each processor computes the Fibonacci number of its own number.

       ./fork95 run examples/recursion.f95 --harts 16 --cycles 1000000 </dev/null

   Every call has its own private variables, on the stack of its processor. All begin together, and
   each prints when it is done, so small numbers come first: 0 1 1 2 3 5 8 .. 610, a line each. How
   long each takes grows as the numbers do, and the processors don't wait for each other.
   Cost: 79,917 cycles. */
#include <fork.h>
#include <io.h>

int fibonacci(int n) {
  if (n < 2) return n;
  return fibonacci(n - 1) + fibonacci(n - 2);
}

void main(void) {
  putint(fibonacci(__PROC_NR__));
}
