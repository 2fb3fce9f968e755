/* Prefix sums of 65,536 numbers in a farm: each member adds up its range, the sums of the ranges are
   added by doubling, with barriers between reads and writes, and each goes through its range again. */
sh int numbers[65536], sums[65536], parts[2048];

void main(void) {
  start farm {
    int low = 65536 / groupsize() * $;
    int high = low + 65536 / groupsize();
    int i, distance, before, sum = 0;
    for (i = low; i < high; i++) {
      numbers[i] = i;
      sum += i;
    }
    parts[1024 + $] = sum;
    barrier;
    for (distance = 1; distance < groupsize(); distance *= 2) {
      before = parts[1024 + $ - distance];
      barrier;
      parts[1024 + $] += before;
      barrier;
    }
    sum = parts[1024 + $] - sum;
    for (i = low; i < high; i++) {
      sum += numbers[i];
      sums[i] = sum;
    }
  }
}
