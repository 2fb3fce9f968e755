/* Divide and conquer by `fork`: quicksort in lockstep.

       printf '%s\n' 42 7 91 15 7 63 28 80 3 56 34 77 19 42 88 50 | ./fork95 run examples/quicksort.f95 --harts 16 --cycles 1000000

   Each member has one number. The group takes the number of its highest member as the pivot, and forks:
   who has a smaller number enters part 0, who has a larger one part 1. Who has the pivot itself enters
   none, since it knows its place: behind all smaller ones. Both parts are groups of their own and sort
   side by side, each in lockstep. So a level of the recursion takes the same time however many groups it
   has. It prints the sorted numbers, and how many levels there were.

   Each fork divides the space of its group, so some fourteen levels fit into one another.

   Cost: 3,751 cycles. */
#include <fork.h>
#include <io.h>

sh int sorted[1024];
sh int levels;

/* Sorts the numbers of a group into the places from `low` on. */
sync void sort(sh int low, sh int level, int number) {
  sh int pivot, count[3];
  int side, place;
  pivot = number;                                      /* of all who write, the highest member wins */
  side = (number > pivot) + 2 * (number == pivot);     /* 0: smaller, 1: larger, 2: the pivot itself */
  count[0] = count[1] = count[2] = 0;
  place = mpadd(&count[side], 1);                      /* how many of my side stand before me */
  if (side == 2) sorted[low + count[0] + place] = number;
  mpmax(&levels, level);
  fork (2; @=side; $=place) sort(low + @ * (count[0] + count[2]), level + 1, number);
}

void main(void) {
  start (__inputs) {
    sort(0, 1, __input[$]);
    seq {
      int i;
      for (i = 0; i < __inputs; i++) putint(sorted[i]);
      puts("levels: ");
      putint(levels);
    }
  }
}
