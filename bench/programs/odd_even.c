static volatile int words[1024];
int main(void) {
  int i, turn;
  for (i = 0; i < 1024; i++) words[i] = i * 619 % 1024;
  for (turn = 0; turn < 1024; turn++)
    for (i = turn % 2; i < 1023; i += 2)
      if (words[i] > words[i + 1]) {
        int larger = words[i];
        words[i] = words[i + 1];
        words[i + 1] = larger;
      }
  return 0;
}
