static volatile int a[4096], b[4096], c[4096];
int main(void) {
  int i, j, k, sum;
  for (i = 0; i < 4096; i++) { a[i] = i % 7; b[i] = i % 5; }
  for (i = 0; i < 64; i++)
    for (j = 0; j < 64; j++) {
      sum = 0;
      for (k = 0; k < 64; k++) sum += a[64 * i + k] * b[64 * k + j];
      c[64 * i + j] = sum;
    }
  return 0;
}
