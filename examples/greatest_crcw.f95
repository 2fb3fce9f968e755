/* The greatest number with concurrent writes: CRCW.

       seq 3 5 78 | ./fork95 run examples/greatest_crcw.f95 --harts 16 --cycles 1000000
       seq 3 5 78 | ./fork95 audit examples/greatest_crcw.f95 --harts 16 --cycles 1000000

   All processors combine their numbers with one word by mpmax, in one operation, whatever their
   number. So they write that word in one cycle. The audit says CRCW, and shows the cycle and the
   address of the word. It prints 78. */
#include <fork.h>
#include <io.h>

sh int greatest = -2147483647 - 1;

void main(void) {
  if (__PROC_NR__ < __inputs) mpmax(&greatest, __input[__PROC_NR__]);
  barrier;
  if (__PROC_NR__ == 0) putint(greatest);
}
