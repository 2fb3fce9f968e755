/* A farm with a queue of tasks: each member of the group takes the next one whenever it is free, and
   all are in lockstep again when the last task is done.

       seq 1000 1040 | ./fork95 run examples/farm.f95 --harts 8 --cycles 1000000

   A task is an input number: how many numbers below it divide it? In the farm the members run apart,
   since some tasks take longer. Behind it they are one group again, in one cycle: so no flag or count
   is needed to know that all answers are there. A seq lets one member print while the others wait: the
   most divisors that a number has, 29 (of 1008), and the first number that has so many, 1008. A farm
   takes 12 cycles beside its body. Cost: 286,233 cycles. */
#include <fork.h>
#include <io.h>

sh int next;
sh int divisors[1024];

int count(int number) {
  int by, found = 0;
  for (by = 1; by < number; by++)
    if (number % by == 0) found++;
  return found;
}

void main(void) {
  start {
    farm {
      int task;
      while ((task = mpadd(&next, 1)) < __inputs) divisors[task] = count(__input[task]);
    }
    seq {
      int task, best = 0;
      for (task = 0; task < __inputs; task++)
        if (divisors[task] > divisors[best]) best = task;
      putint(divisors[best]);
      putint(__input[best]);
    }
  }
}
