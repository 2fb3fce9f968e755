/* 8,192 keys go into a shared hash table of 16,384 places, each at the first free one. */
#include <fork.h>

sh int taken[16384], keys[16384];

void main(void) {
  int i;
  unsigned key, place;
  for (i = __PROC_NR__; i < 8192; i += __STARTED_PROCS__) {
    key = 2654435761u * (i + 1);
    place = key >> 18;
    while (mpadd(&taken[place], 1) != 0) place = (place + 1) & 16383;
    keys[place] = key;
  }
}
