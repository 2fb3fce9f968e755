static volatile int numbers[65536], parted[65536];
int main(void) {
  int below = 0, above = 65535, i;
  for (i = 0; i < 65536; i++) numbers[i] = (int)((unsigned)i * 40503u % 65536u);
  for (i = 0; i < 65536; i++) {
    int number = numbers[i];
    if (number < 32768) parted[below++] = number;
    else parted[above--] = number;
  }
  return 0;
}
