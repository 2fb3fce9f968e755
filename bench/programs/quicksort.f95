/* Quicksort of 65,536 numbers, in lockstep. A group puts its numbers around the mean of some of them, and forks into
   two parts, which have as many members as their numbers ask for. A member that is alone sorts by itself. */
sh int numbers[65536], parted[65536];

/* Sorts the numbers from `low` on, up to the one before `high`. */
void sort_alone(int low, int high) {
  while (high - low > 1) {
    int pivot = numbers[(low + high) / 2], i = low, j = high - 1;
    while (i <= j) {
      while (numbers[i] < pivot) i++;
      while (numbers[j] > pivot) j--;
      if (i <= j) {
        int number = numbers[i];
        numbers[i++] = numbers[j];
        numbers[j--] = number;
      }
    }
    if (j - low < high - i) { sort_alone(low, j + 1); low = i; }
    else { sort_alone(i, high); high = j + 1; }
  }
}

sync void sort(sh int low, sh int high) {
  sh int mean, next, ends[2], few;
  int i;
  if (groupsize() == 1 || high - low <= 8 * groupsize()) { seq sort_alone(low, high); return; }
  for (next = 0; next < 8; next++) mpadd(&mean, numbers[low + 8 * $ + next]);
  mean = mean / (8 * groupsize());
  ends[0] = low;
  ends[1] = high - 1;
  for (i = low + $; i < high; i += groupsize()) {
    int number = numbers[i], larger = number > mean;
    parted[mpadd(&ends[larger], 1 - 2 * larger)] = number;
  }
  for (i = low + $; i < high; i += groupsize()) numbers[i] = parted[i];
  few = groupsize() * (ends[0] - low) / (high - low);
  few += few == 0;
  fork (2; @=$>=few; $=$-few*($>=few)) sort(low + @ * (ends[0] - low), high - (1 - @) * (high - ends[0]));
}

void main(void) {
  start {
    sh int first;
    for (first = 0; first < 65536; first += groupsize()) numbers[first + $] = (first + $) * 40503 & 65535;
    sort(0, 65536);
  }
}
