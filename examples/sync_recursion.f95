/* Recursion in lockstep: a sync function that calls itself.

       ./fork95 run examples/sync_recursion.f95 --harts 8 --cycles 1000000 </dev/null

   power gives base to the n by squaring: half the exponent in each call. The exponent is an sh parameter,
   one of each call for the whole group. So the conditions are shared, and all members go down and come
   back together; the bases are private. A straight function has no branch and may be called everywhere.
   It prints $ to the 10: 0 1 1024 59049 .., a line each. Cost: log n calls, the same for all members. */
#include <fork.h>
#include <io.h>

straight int square(int x) { return x * x; }

sync int power(int base, sh int n) {
  int half;
  if (n == 0) return 1;
  half = square(power(base, n / 2));
  if (n % 2) return base * half;
  return half;
}

void main(void) {
  start putint(power($, 10));
}
