/* List ranking by pointer jumping: how far is each node from the end of its list?

       ./fork95 run examples/list_ranking.f95 --harts 16 --cycles 1000000 </dev/null

   Node i is linked to node (5 i + 3) % 16, up to the last one, 6, which has no next node. In each turn
   every node adds the rank of the node that it is linked to, and links itself to the one behind that. A
   node that has come to the end leaves the loop: the condition is private, so the group of the loop
   shrinks, from 15 members over 14, 12 and 8 to none. All members read before any of them writes. It
   prints the rank of each node, 15 down to 0 along the list. Cost: log n turns for n processors, where
   one processor needs n steps. */
#include <fork.h>
#include <io.h>

sh int next[16];
sh int rank[16];

void main(void) {
  start (16) {
    next[$] = $ == 6 ? -1 : (5 * $ + 3) % 16;
    rank[$] = $ != 6;
    while (next[$] >= 0) {
      int follow = next[$];
      rank[$] = rank[$] + rank[follow];
      next[$] = next[follow];
    }
    putint(rank[$]);
  }
}
