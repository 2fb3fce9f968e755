/* A histogram by mpadd: many processors count into few words.

       seq 0 7 693 | ./fork95 run examples/histogram.f95 --harts 100 --cycles 1000000

   Each processor takes every groupsize()-th input number and adds 1 to the count of its last digit.
   Several add to one word in one round, and none is lost: a multiprefix operation serves them in
   ascending processor number. It prints the ten counts, here ten times 10. Cost: all processors add in
   one round, so the time is that of one number for each, whatever the digits are. */
#include <fork.h>
#include <io.h>

sh int counts[10];

void main(void) {
  start {
    farm {
      int i;
      for (i = $; i < __inputs; i += groupsize()) mpadd(&counts[(unsigned)__input[i] % 10], 1);
    }
    seq {
      int digit;
      for (digit = 0; digit < 10; digit++) putint(counts[digit]);
    }
  }
}
