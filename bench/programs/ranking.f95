/* How far each of 4,096 elements is from the end of its list, by pointer jumping. */
#include <fork.h>

sh int next[4096], rank[4096], next_then[4096], rank_then[4096];
sh int met;

void meet(int turn) {
  mpadd(&met, 1);
  while (met < turn * __STARTED_PROCS__) ;
}

void main(void) {
  int i, step;
  for (i = __PROC_NR__; i < 4096; i += __STARTED_PROCS__) {
    next[i] = i > 0 ? i - 1 : 0;
    rank[i] = i > 0;
  }
  meet(1);
  for (step = 1; step <= 12; step++) {
    for (i = __PROC_NR__; i < 4096; i += __STARTED_PROCS__) {
      rank_then[i] = rank[i] + rank[next[i]];
      next_then[i] = next[next[i]];
    }
    meet(2 * step);
    for (i = __PROC_NR__; i < 4096; i += __STARTED_PROCS__) {
      rank[i] = rank_then[i];
      next[i] = next_then[i];
    }
    meet(2 * step + 1);
  }
}
