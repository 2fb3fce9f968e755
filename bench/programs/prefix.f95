/* Prefix sums of 65,536 numbers: each processor sums its range, takes its place by mpadd, and adds
   what stands before it. */
#include <fork.h>

sh int numbers[65536], sums[65536];
sh int total, turn;

void main(void) {
  int low = 65536 / __STARTED_PROCS__ * __PROC_NR__;
  int high = low + 65536 / __STARTED_PROCS__;
  int i, sum = 0;
  for (i = low; i < high; i++) {
    numbers[i] = i;
    sum += i;
  }
  while (turn < __PROC_NR__) ;
  sum = mpadd(&total, sum);
  mpadd(&turn, 1);
  for (i = low; i < high; i++) {
    sum += numbers[i];
    sums[i] = sum;
  }
}
