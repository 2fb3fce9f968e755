/* The maximum of n numbers in constant time, with a processor for each pair: a classic of the CRCW PRAM.

       echo 3 14 15 9 26 5 35 8 | ./fork95 run examples/maximum.f95 --harts 64 --cycles 1000000

   Processor (i, j) compares the numbers i and j. If number i is smaller, it can't be the maximum, and the
   processor says so. Many processors write the same word in one round, and all of them write 1: so it
   doesn't matter who wins. If two numbers are equal, the later one counts as the larger. Of n numbers
   exactly one is left, and its processor (i, 0) prints it: 35.
   Cost: the same number of rounds for 8 numbers and for 32; the work is n * n comparisons. */
#include <fork.h>
#include <io.h>

sh int is_smaller[32];

void main(void) {
  start (__inputs * __inputs) {
    int i = $ / __inputs, j = $ % __inputs;
    if (__input[i] < __input[j] || __input[i] == __input[j] && i < j) is_smaller[i] = 1;
    if (j == 0 && !is_smaller[i]) putint(__input[i]);
  }
}
