/* A race lost, and the same counted right.

       ./fork95 run examples/race.f95 --harts 64 --cycles 1000000 </dev/null

   Each of 64 processors adds 1 to lost a hundred times: a read, a sum and a write, between which
   others read and write. And it adds 1 to right a hundred times by mpadd, which reads and writes in
   one step. When all have come to the barrier, processor 0 prints both: 6400 is the second number, and
   the first is whatever was not lost. With --harts 1 both are 100. Cost: a barrier takes 10 cycles
   from the cycle in which the last processor comes. */
#include <fork.h>
#include <io.h>

sh int lost;
sh int right;

void main(void) {
  int i;
  for (i = 0; i < 100; i++) {
    lost = lost + 1;
    mpadd(&right, 1);
  }
  barrier;
  if (__PROC_NR__ == 0) {
    putint(lost);
    putint(right);
  }
}
