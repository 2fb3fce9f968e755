static volatile int numbers[65536];
static void sort(int low, int high) {
  while (high - low > 1) {
    int pivot = numbers[(low + high) / 2], i = low, j = high - 1;
    while (i <= j) {
      while (numbers[i] < pivot) i++;
      while (numbers[j] > pivot) j--;
      if (i <= j) {
        int number = numbers[i];
        numbers[i++] = numbers[j];
        numbers[j--] = number;
      }
    }
    if (j - low < high - i) { sort(low, j + 1); low = i; }
    else { sort(i, high); high = j + 1; }
  }
}
int main(void) {
  int i;
  for (i = 0; i < 65536; i++) numbers[i] = (int)((unsigned)i * 40503u % 65536u);
  sort(0, 65536);
  return 0;
}
