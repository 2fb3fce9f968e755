/* Who stands where: a picture of a group, drawn by one of its members.

       ./fork95 run examples/who_is_where.f95 --harts 8 --cycles 1000000 </dev/null

   Each processor notes a letter of what it is about to do: r runs alone in main, w waits there for the
   group, g is in the group, in lockstep, s runs a seq, f a farm, b waits at a barrier, e at the end of
   a farm. From time to time one of them copies all letters into the next row of the picture, and at
   the end processor 0 prints it. Cost: 22,706 cycles. */
#include <fork.h>
#include <io.h>

sh int letter[8];
sh int picture[56];
sh int rows;

/* Waits for so long, and draws a row. */
void draw(int turns) {
  int i;
  while (turns--) ;
  for (i = 0; i < 8; i++) picture[8 * rows + i] = letter[i];
  rows++;
}

void main(void) {
  int i;
  letter[__PROC_NR__] = 'r';
  if (__PROC_NR__ == 7) draw(100);
  letter[__PROC_NR__] = 'w';
  start (6) {
    letter[$] = 'g';
    seq {
      letter[$] = 's';
      draw(0);
    }
    letter[$] = 'g';
    farm {
      letter[$] = 'f';
      if ($ == 2) draw(100);
      if ($ > 3) for (i = 0; i < 200; i++) ;
      if ($ == 4) draw(100);
      letter[$] = 'b';
      barrier;
      letter[$] = 'f';
      if ($ == 1) draw(100);
      letter[$] = 'e';
    }
    letter[$] = 'g';
    seq draw(0);
  }
  letter[__PROC_NR__] = 'r';
  if (__PROC_NR__ == 0) {
    draw(100);
    for (i = 0; i < 8 * rows; i++) {
      putchar(picture[i]);
      if (i % 8 == 7) putchar('\n');
    }
  }
}
