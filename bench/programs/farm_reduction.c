static volatile int numbers[65536], sum;
int main(void) {
  int i, all = 0;
  for (i = 0; i < 65536; i++) numbers[i] = i;
  for (i = 0; i < 65536; i++) all += numbers[i];
  sum = all;
  return 0;
}
