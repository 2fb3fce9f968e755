/* Who is in which part of a `fork`, with which number and rank.

       ./fork95 run examples/parts.f95 --harts 8 --cycles 1000000 </dev/null

   `fork (k; @=p; $=r) S` makes k parts at once: a member whose p is from 0 to k-1 enters the part of that
   number, and the others wait. In a part `@` is its number and `$` is r, and groupsize() counts its
   members. Here k is 3, p is $ % 4 and r is $ / 4: so two members enter each part, and 3 and 7 wait. Each
   part forks again, into two parts of one member each. It prints a row for `@`, for `$` and for the size in
   the parts, a row for `@` in the parts of the parts, and a row for `$` behind it all:

       012.012.     @: who has the same number is in one group
       000.111.     $: ranks begin anew in each part
       222.222.     groupsize()
       000.111.     the parts of the parts: each member is alone in one
       01234567     $ is as it was

   Cost: 4,099 cycles. */
#include <fork.h>
#include <io.h>

sh int picture[40];

/* Puts a digit into a row of the picture, below this processor. */
straight void draw(int row, int digit) {
  picture[8 * row + __PROC_NR__] = '0' + digit;
}

void main(void) {
  start (8) {
    fork (3; @=$%4; $=$/4) {
      draw(0, @);
      draw(1, $);
      draw(2, groupsize());
      fork (2; @=$; $=0) draw(3, @);
    }
    draw(4, $);
    seq {
      int i;
      for (i = 0; i < 40; i++) {
        putchar(picture[i] ? picture[i] : '.');
        if (i % 8 == 7) putchar('\n');
      }
    }
  }
}
