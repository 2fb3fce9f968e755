/* The sum of 65,536 numbers in a farm: each member adds up its own, and a tree of additions joins the
   sums, with a barrier behind each level. */
sh int numbers[65536], sums[1024];

void main(void) {
  start farm {
    int i, step, sum = 0;
    for (i = $; i < 65536; i += groupsize()) numbers[i] = i;
    for (i = $; i < 65536; i += groupsize()) sum += numbers[i];
    sums[$] = sum;
    barrier;
    for (step = groupsize() / 2; step; step /= 2) {
      if ($ < step) sums[$] += sums[$ + step];
      barrier;
    }
  }
}
