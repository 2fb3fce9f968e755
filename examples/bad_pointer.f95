/* A pointer that leads nowhere, told by its place and its processor.

       ./fork95 run examples/bad_pointer.f95 --harts 5 --cycles 1000000 </dev/null

   Four nodes are linked in a ring that is not closed: the last one's next is 0. Processor h follows h
   pointers from the first node and prints the value it comes to, 10 20 30 40. Processor 4 comes to 0,
   and to use that is a fault. The run ends at once with status 6 and the report

       fault BadAddress at 32:14 by processor 4 after T cycles

   where 32:14 is the place of the -> in the last putint. Each use of a pointer is checked so, before
   anything is read or written. Cost: 784 cycles. */
#include <fork.h>
#include <io.h>

struct Node {
  int value;
  struct Node *next;
};

sh struct Node nodes[4];

void main(void) {
  int i;
  struct Node *node;
  for (i = 0; i < 4; i++) {
    nodes[i].value = 10 * (i + 1);
    if (i < 3) nodes[i].next = &nodes[i + 1];
  }
  node = &nodes[0];
  for (i = 0; i < __PROC_NR__; i++) node = node->next;
  putint(node->value);
}
