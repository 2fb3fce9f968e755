/* The product of two matrices of 64 rows and columns: processors take rows from a queue. */
#include <fork.h>

sh int a[4096], b[4096], c[4096];
sh int next, ready;

void main(void) {
  int i, j, k, sum;
  for (i = __PROC_NR__; i < 4096; i += __STARTED_PROCS__) {
    a[i] = i % 7;
    b[i] = i % 5;
  }
  mpadd(&ready, 1);
  while (ready < __STARTED_PROCS__) ;
  while ((i = mpadd(&next, 1)) < 64) {
    for (j = 0; j < 64; j++) {
      sum = 0;
      for (k = 0; k < 64; k++) sum += a[64 * i + k] * b[64 * k + j];
      c[64 * i + j] = sum;
    }
  }
}
