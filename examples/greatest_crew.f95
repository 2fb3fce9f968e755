/* The greatest number with concurrent reads and exclusive writes: CREW.

       seq 3 5 78 | ./fork95 run examples/greatest_crew.f95 --harts 16 --cycles 1000000
       seq 3 5 78 | ./fork95 audit examples/greatest_crew.f95 --harts 16 --cycles 1000000

   Each processor has one number, and counts how many of all numbers come behind it: those that are
   greater, and equal ones of higher processors. All read the same word in the same cycle. Only for
   the greatest number the count is 0, so one processor writes it. The audit says CREW, and shows the
   first cycle in which a word was read by many. It prints 78. */
#include <fork.h>
#include <io.h>

sh int greatest;

void main(void) {
  int i;
  int number;
  int behind = 0;
  if (__PROC_NR__ < __inputs) {
    number = __input[__PROC_NR__];
    for (i = 0; i < __inputs; i++)
      behind += (__input[i] > number) + (__input[i] == number) * (i > __PROC_NR__);
    if (behind == 0) greatest = number;
  }
  barrier;
  if (__PROC_NR__ == 0) putint(greatest);
}
