/* Exclusive reads and writes: no word is touched by two processors in one round.

       seq 1 3 46 | ./fork95 run examples/exclusive.f95 --harts 16 --cycles 1000000

   How many of the input numbers are even? Each processor reads its own number and writes its own
   count. Then a tree adds the counts: in the first turn every second processor adds its neighbour's,
   in the next one every fourth, and so on. A barrier stands between the turns, so nobody reads a
   count before it is written, and nobody else touches it meanwhile. So a PRAM of the weakest model,
   EREW, is enough. The sum by mpadd in histogram.f95 needs one turn, and concurrent writes. It
   prints 8. Cost: 785 cycles. */
#include <fork.h>
#include <io.h>

sh int counts[1024];

void main(void) {
  start farm {
    int distance;
    if ($ < __inputs) counts[$] = __input[$] % 2 == 0;
    barrier;
    for (distance = 1; distance < groupsize(); distance *= 2) {
      if ($ % (2 * distance) == 0 && $ + distance < groupsize())
        counts[$] = counts[$] + counts[$ + distance];
      barrier;
    }
    if ($ == 0) putint(counts[0]);
  }
}
