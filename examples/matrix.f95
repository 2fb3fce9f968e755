/* A matrix product in lockstep: a processor for each element.

       ./fork95 run examples/matrix.f95 --harts 64 --cycles 1000000 </dev/null

   Matrices of 8 by 8 stand row by row in arrays of 64 words. Processor $ computes the element of row
   $ / 8 and column $ % 8. All members read a[row] and b[column] in one round each, which is a
   concurrent read: eight of them read the same word. The product of the matrix with a[i][j] = i + j and
   the unit matrix twice over is 2 (i + j): it prints the 64 elements, row by row. The loop counts in a
   shared variable, so its condition is shared and all members stay together. Cost: 1,267 cycles; 8
   turns, where one processor has 512. */
#include <fork.h>
#include <io.h>

sh int a[64];
sh int b[64];
sh int c[64];
sh int k;

void main(void) {
  start (64) {
    int row = $ / 8, column = $ % 8, sum = 0;
    a[$] = row + column;
    b[$] = 2 * (row == column);
    for (k = 0; k < 8; k++) sum += a[row * 8 + k] * b[k * 8 + column];
    c[$] = sum;
    putint(c[$]);
  }
}
