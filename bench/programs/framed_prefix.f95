/* Prefix sums of 65,536 numbers by a function in lockstep that counts in its own shared variables: each
   processor of the group adds up its range, the sums of the ranges are added by doubling, and each goes
   through its range again. */
sh int numbers[65536], sums[65536];

sync void prefix_sums(sh int *from, sh int *to, sh int count) {
  sh int parts[2048];
  sh int i, distance;
  sh int length = count / groupsize();
  int low = length * $;
  int sum = 0;
  for (i = 0; i < length; i++) sum += from[low + i];
  parts[$] = 0;
  parts[groupsize() + $] = sum;
  for (distance = 1; distance < groupsize(); distance *= 2)
    parts[groupsize() + $] += parts[groupsize() + $ - distance];
  sum = parts[groupsize() + $] - sum;
  for (i = 0; i < length; i++) {
    sum += from[low + i];
    to[low + i] = sum;
  }
}

void main(void) {
  start {
    sh int i;
    for (i = 0; i < 65536; i += groupsize()) numbers[i + $] = i + $;
    prefix_sums(numbers, sums, 65536);
  }
}
