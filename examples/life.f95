/* The Game of Life in lockstep: a processor for each cell.

       ./fork95 run examples/life.f95 --harts 64 --cycles 1000000 </dev/null

   Cells of 8 by 8 with edges that meet. All members read their eight neighbours before any of them
   writes its cell, so no second field is needed. A cell lives in the next generation if it has three
   neighbours, or two and lives now: computed without a branch. A glider goes one cell down and right in
   four generations: it prints the field at first and after four, # for a cell that lives. Cost: a
   generation takes the same time for any number of cells up to 1,024. */
#include <fork.h>
#include <io.h>

sh int cells[64];
sh int generation;

sync int at(int row, int column) {
  return cells[(row & 7) * 8 + (column & 7)];
}

sync void draw(void) {
  seq {
    int i;
    for (i = 0; i < 64; i++) {
      putchar(cells[i] ? '#' : '.');
      if (i % 8 == 7) putchar('\n');
    }
    putchar('\n');
  }
}

void main(void) {
  start (64) {
    int row = $ / 8, column = $ % 8, neighbours;
    cells[$] = (row == 0 & column == 1) | (row == 1 & column == 2) | (row == 2 & column < 3);
    draw();
    for (generation = 0; generation < 4; generation++) {
      neighbours = at(row - 1, column - 1) + at(row - 1, column) + at(row - 1, column + 1)
        + at(row, column - 1) + at(row, column + 1)
        + at(row + 1, column - 1) + at(row + 1, column) + at(row + 1, column + 1);
      cells[$] = neighbours == 3 | (neighbours == 2 & cells[$]);
    }
    draw();
  }
}
