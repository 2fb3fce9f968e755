/* Words have 32 bits: sums wrap, and putint prints them signed.

       ./fork95 run examples/sums.f95 --harts 1 --cycles 1000000 </dev/null

   prints 5, -1, 0 and -2147483648. With --harts 3 each line comes three times: the processors
   stand at the same putint in the same cycle, and print in ascending number.

   To look inside, build an image of it and list its code; exec runs the image as run does:

       ./fork95 build examples/sums.f95 -o sums.image
       ./fork95 list sums.image
       ./fork95 exec sums.image --harts 1 --cycles 1000000 </dev/null

   The first words of code set the registers of a hart, and behind them stands the code that all
   calls and all starts share. The rest are the operations of main, each with a block of its own: a
   number is pushed by three instructions. The value list stands at the end of the call's frame, which
   s1 points to, in the hart's own memory at 0x20000000, and putint is a store to the device at
   0x30000000. Cost: 97 cycles. */
#include <fork.h>
#include <io.h>

sh int small;
sh int large;

void main(void) {
  small = 2 + 3;
  putint(small);

  large = 0xFFFFFFFF;
  putint(large);
  putint(large + 1);

  large = 2147483647 + 1;
  putint(large);
}
