/* A linked list in shared memory, to which all processors link at once.

       ./fork95 run examples/list.f95 --harts 100 --cycles 1000000 </dev/null

   mpadd gives each processor a node of its own, and a number by which it is linked before the node of
   the number below. When all have passed the barrier, processor 0 follows the pointers from the last node
   to the first, and prints how many nodes there are and the sum of their values: 100, and 328350, the
   sum of the squares 0 to 99 * 99, whatever the order in which the nodes were taken.
   Cost: 10,395 cycles. */
#include <fork.h>
#include <io.h>

struct Node {
  int value;
  struct Node *next;
};

sh struct Node nodes[1024];
sh int used;

void link(struct Node *node, int value, struct Node *next) {
  node->value = value;
  node->next = next;
}

int length(struct Node *node) {
  return node ? 1 + length(node->next) : 0;
}

int sum(struct Node *node) {
  int s = 0;
  for ( ; node; node = node->next) s += node->value;
  return s;
}

void main(void) {
  int k = mpadd(&used, 1);
  if (k == 0) link(&nodes[0], __PROC_NR__ * __PROC_NR__, 0);
  else link(&nodes[k], __PROC_NR__ * __PROC_NR__, &nodes[k - 1]);
  barrier;
  if (__PROC_NR__ == 0) {
    putint(length(&nodes[__STARTED_PROCS__ - 1]));
    putint(sum(&nodes[__STARTED_PROCS__ - 1]));
  }
}
