static volatile int numbers[65536], sums[65536];
int main(void) {
  int i, sum = 0;
  for (i = 0; i < 65536; i++) numbers[i] = i;
  for (i = 0; i < 65536; i++) { sum += numbers[i]; sums[i] = sum; }
  return 0;
}
