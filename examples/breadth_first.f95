/* Breadth-first search: all nodes of one distance at once.

       ./fork95 run examples/breadth_first.f95 --harts 16 --cycles 1000000 </dev/null

   The graph has 64 nodes, and node i has edges to 2 i + 1, 2 i + 2 and i + 7, where these are nodes. In
   each level the members of a farm take the nodes of the last level from a queue by mpadd, and put
   those that nobody has reached yet into the queue of the next one. Several may reach a node at once:
   mpmax tells who was first, so each node comes into the queue once. It prints how many nodes have
   distance 0, 1, 2 .. from node 0: 1 3 9 17 24 10. Cost: one farm for each level. */
#include <fork.h>
#include <io.h>

sh int reached[64];
sh int queue[64];
sh int taken, level_end, end, level;

void visit(int node) {
  if (node < 64 && mpmax(&reached[node], 1) == 0) queue[mpadd(&end, 1)] = node;
}

void main(void) {
  start {
    seq visit(0);
    for (level = 0; taken < end; level++) {
      level_end = end;
      seq putint(level_end - taken);
      farm {
        int i;
        while ((i = mpadd(&taken, 1)) < level_end) {
          visit(2 * queue[i] + 1);
          visit(2 * queue[i] + 2);
          visit(queue[i] + 7);
        }
      }
      taken = level_end;
    }
  }
}
