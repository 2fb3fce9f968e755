/* A pipeline of parts: four stages work at the same time, each on another row of numbers.

       seq 1 48 | ./fork95 run examples/pipeline.f95 --harts 32 --cycles 1000000

   The input has six rows of eight numbers. In each step of the pipeline a `fork` makes a part for each
   stage, of eight members, whose rank is their column:

       part 0   takes a row from the input: each number becomes its square's last two digits
       part 1   smooths it: each number becomes the sum of itself and its two neighbours
       part 2   compares each number with the one before it: 1 where the row rises
       part 3   counts where the row rises

   A stage that has no row in this step names a part that isn't there, and waits outside. The stages do
   different work for different times. Behind the fork all are in lockstep again, and each member hands its
   number on to the next stage: so nobody needs a lock or a flag. It prints a row for each step: which
   stage had which row, a to f; and then the counts of the six rows:

       a...
       ba..
       cba.
       dcba
       edcb
       fedc
       .fed
       ..fe
       ...f

   Cost: 7,239 cycles. */
#include <fork.h>
#include <io.h>

sh int belt[32];        /* the row that stands before each stage */
sh int counts[6];
sh int picture[36];

void main(void) {
  start (32) {
    sh int step;
    int stage = $ / 8, column = $ % 8;
    int row, value;
    for (step = 0; step < 9; step++) {
      row = step - stage;
      fork (4; @=stage + 4 * (row < 0 | row > 5); $=column) {
        if (@ == 0) value = __input[8 * row + $] * __input[8 * row + $] % 100;
        else if (@ == 1) value = belt[8 + ($ + 7) % 8] + belt[8 + $] + belt[8 + ($ + 1) % 8];
        else if (@ == 2) value = belt[16 + $] > belt[16 + ($ + 7) % 8];
        else mpadd(&counts[row], belt[24 + $]);
        seq picture[4 * step + @] = 'a' + row;
      }
      belt[8 * ((stage + 1) % 4) + column] = value;
    }
    seq {
      int i;
      for (i = 0; i < 36; i++) {
        putchar(picture[i] ? picture[i] : '.');
        if (i % 4 == 3) putchar('\n');
      }
      for (i = 0; i < 6; i++) putint(counts[i]);
    }
  }
}
