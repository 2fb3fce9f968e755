struct FairLock { unsigned next; unsigned now; };
void fair_take(struct FairLock *l) { pr unsigned t = mpadd(&l->next, 1); while (l->now != t) ; }
void fair_give(struct FairLock *l) { mpadd(&l->now, 1); }
/* A lock that is used unfairly excludes nobody.

       ./fork95 run examples/unfair.f95 --harts 3 --cycles 100000 </dev/null

   Processor 0 takes the lock and keeps it. Processor 1 takes it too, and waits. Processor 2 gives the
   lock, which it never took: so processor 1 enters while processor 0 is inside, and 2 are inside at
   once. That at most one is inside is promised only where each processor takes and gives the lock in
   turn. */
#include <io.h>

sh struct FairLock k;
sh int inside;

void main(void) {
  if (__PROC_NR__ == 0) {
    fair_take(&k);
    mpadd(&inside, 1);
  }
  barrier;
  if (__PROC_NR__ == 2) fair_give(&k);
  if (__PROC_NR__ == 1) {
    fair_take(&k);
    putint(mpadd(&inside, 1) + 1);
  }
}
