/* A work queue: processors take the next task whenever they are free.

       echo 27 97 6171 1 2 3 4 5 6 7 | ./fork95 run examples/queue.f95 --harts 4 --cycles 1000000

   The input numbers are the tasks: how many steps does each take to reach 1, where an even number is
   halved and an odd one goes to 3n + 1? next is the first task that nobody has taken, and mpadd takes
   it in one step, so that no task is done twice. Long tasks keep one processor busy while the others
   go on, and wait at the barrier when no task is left. Then processor 0 prints the answers in their order, here 111 118 261 0 1
   7 2 5 8 16, and each processor how many tasks it did. Cost: 14,881 cycles. */
#include <fork.h>
#include <io.h>

sh int next;
sh int answers[1000];
sh int did[1024];

int steps(unsigned n) {
  int count = 0;
  while (n > 1) {
    n = n % 2 ? 3 * n + 1 : n / 2;
    count++;
  }
  return count;
}

void main(void) {
  int task, i;
  while ((task = mpadd(&next, 1)) < __inputs && task < 1000) {
    answers[task] = steps(__input[task]);
    did[__PROC_NR__]++;
  }
  barrier;
  if (__PROC_NR__ == 0) {
    for (i = 0; i < __inputs && i < 1000; i++) putint(answers[i]);
    puts("tasks of each processor:\n");
    for (i = 0; i < __STARTED_PROCS__; i++) putint(did[i]);
  }
}
