/* count = count + 1 is a read, a sum and a write, and not one step.

       ./fork95 run examples/lost_updates.f95 --harts 1024 --cycles 1000000 </dev/null

   All 1,024 processors read count in one cycle, add 1, and write the same value in another. After
   three updates each, every one of them prints 3: 3,069 updates of 3,072 are lost.
   Cost: 84 cycles. */
#include <fork.h>
#include <io.h>

sh int count;

void main(void) {
  count = count + 1;
  count = count + 1;
  count = count + 1;
  putint(count);
}
