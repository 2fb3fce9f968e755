static volatile int table[16384], found[65536];
int main(void) {
  int i;
  for (i = 0; i < 16384; i++) table[i] = 4 * i;
  for (i = 0; i < 65536; i++) {
    int low = 0, high = 16384;
    while (low < high) {
      int middle = (low + high) / 2;
      if (table[middle] < i) low = middle + 1;
      else high = middle;
    }
    found[i] = low;
  }
  return 0;
}
