/* Who stands where in a group that splits: a picture, drawn by its members.

       ./fork95 run examples/if_in_lockstep.f95 --harts 8 --cycles 1000000 </dev/null

   Each member notes a letter of what it does: g is in the whole group, o is in the part of an `if`
   without else, t and e are in the two parts of an `if` with else, l is in a loop, and a dot waits. The
   lowest member of a part copies all letters into the next row of the picture, by a seq of that part.

       gggggggg     the whole group
       .o.o.o.o     if ($ % 2): the odd members go on in lockstep, and the others wait
       ttteeeee     if ($ < 3) .. else ..: two groups, side by side
       ...eeeee     the first has ended and waits for the second
       ...lllll     while (left > 2): all but three are in the loop
       .....lll     in each turn those leave it whose condition is 0
       .......l     one is left
       gggggggg     all go on in one round

   Cost: 16,881 cycles. */
#include <fork.h>
#include <io.h>

sh int letter[8];
sh int picture[64];
sh int rows;

/* Waits for so long, and draws a row. */
void draw(int turns) {
  int i;
  while (turns--) ;
  for (i = 0; i < 8; i++) picture[8 * rows + i] = letter[i];
  rows++;
}

void main(void) {
  start (8) {
    int left = $;
    letter[$] = 'g';
    seq draw(0);
    letter[$] = '.';
    if ($ % 2) {
      letter[$] = 'o';
      seq draw(0);
      letter[$] = '.';
    }
    if ($ < 3) {
      letter[$] = 't';
      seq draw(100);
      letter[$] = '.';
    } else {
      letter[$] = 'e';
      seq draw(300);
      letter[$] = '.';
    }
    while (left > 2) {
      letter[$] = 'l';
      seq draw(0);
      letter[$] = '.';
      left -= 2;
    }
    letter[$] = 'g';
    seq draw(0);
    seq {
      int i;
      for (i = 0; i < 8 * rows; i++) {
        putchar(picture[i]);
        if (i % 8 == 7) putchar('\n');
      }
    }
  }
}
