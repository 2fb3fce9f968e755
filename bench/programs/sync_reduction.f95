/* The sum of 65,536 numbers in lockstep: each processor of the group adds up its own, and a tree of
   additions joins the sums. */
sh int numbers[65536], sums[2048];
sh int i, step;

void main(void) {
  start {
    int sum = 0;
    for (i = 0; i < 65536; i += groupsize()) numbers[i + $] = i + $;
    for (i = 0; i < 65536; i += groupsize()) sum += numbers[i + $];
    sums[$] = sum;
    for (step = groupsize() / 2; step; step /= 2) sums[$] += sums[$ + step];
  }
}
