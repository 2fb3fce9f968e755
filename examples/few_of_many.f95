/* A few of many: who is in the group of a `start`, and who waits.

       ./fork95 run examples/few_of_many.f95 --harts 6 --cycles 1000000 </dev/null

   All processors meet at each start. The count of the highest one decides: the processors below it
   form the group, and the others wait until it has ended. With a count of 0 or less there is no group,
   and with one above the number of processors all are in it. It prints a row for each of the counts
   -1, 0, 1, 5 and 7, with the size of the group below each processor in it, and a dot below each
   other one:

       ......
       ......
       1.....
       55555.
       666666

   Cost: 3,065 cycles. */
#include <fork.h>
#include <io.h>

sh int size[40];

void show(int row) {
  int i;
  if (__PROC_NR__ == 0) {
    for (i = 0; i < __STARTED_PROCS__; i++) putchar(size[row * 8 + i] ? '0' + size[row * 8 + i] : '.');
    putchar('\n');
  }
}

void main(void) {
  start (-1) size[$] = groupsize();
  start (0) size[8 + $] = groupsize();
  start (1) size[16 + $] = groupsize();
  start (__STARTED_PROCS__ - 1) size[24 + $] = groupsize();
  start (__STARTED_PROCS__ + 1) size[32 + $] = groupsize();
  show(0);
  show(1);
  show(2);
  show(3);
  show(4);
}
