/* Prefix sums of 65,536 numbers in lockstep: each processor of the group adds up its range, the sums
   of the ranges are added by doubling, and each goes through its range again. */
sh int numbers[65536], sums[65536], parts[2048];
sh int i, distance;

void main(void) {
  start {
    int low = 65536 / groupsize() * $;
    int sum = 0;
    for (i = 0; i < 65536 / groupsize(); i++) {
      numbers[low + i] = low + i;
      sum += low + i;
    }
    parts[1024 + $] = sum;
    for (distance = 1; distance < groupsize(); distance *= 2)
      parts[1024 + $] += parts[1024 + $ - distance];
    sum = parts[1024 + $] - sum;
    for (i = 0; i < 65536 / groupsize(); i++) {
      sum += numbers[low + i];
      sums[low + i] = sum;
    }
  }
}
