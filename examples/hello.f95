/* Who is there: each processor prints its number.

       ./fork95 run examples/hello.f95 --harts 4 --cycles 1000000 </dev/null

   All processors begin main at once, each by itself. They print 0 1 2 3, a line each, in one cycle, in
   ascending number. Processor 0 alone prints the text, when it has come past the barrier. Cost: it
   finishes after 98 cycles, most of them for the text, since each byte is an operation. */
#include <fork.h>
#include <io.h>

void main(void) {
  putint(__PROC_NR__);
  barrier;
  if (__PROC_NR__ == 0) puts("that were all\n");
}
