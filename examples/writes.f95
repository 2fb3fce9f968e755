/* Concurrent writes: who wins.

       ./fork95 run examples/writes.f95 --harts 8 --cycles 1000000 </dev/null

   Requests of one round are served in ascending processor number. So of the eight processors that
   write their numbers to one word in one round the highest wins, and all read 7. When all write the
   same value, it doesn't matter who wins. When each writes to a word of its own, nobody loses: the
   exclusive writes below give 0 1 4 9 16 25 36 49. The group stays in lockstep, so no barrier is
   needed between the writes and the reads. Cost: 201 cycles. */
#include <fork.h>
#include <io.h>

sh int winner;
sh int doubled = 21;
sh int squares[1024];

void main(void) {
  start {
    winner = $;                     /* concurrent: the highest wins */
    seq putint(winner);             /* 7 */
    doubled = doubled + doubled;    /* concurrent: all have read before any writes, and write 42 */
    seq putint(doubled);            /* 42 */
    squares[$] = $ * $;             /* exclusive */
    putint(squares[$]);
  }
}
