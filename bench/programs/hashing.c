static volatile int taken[16384], keys[16384];
int main(void) {
  int i;
  unsigned key, place;
  for (i = 0; i < 8192; i++) {
    key = 2654435761u * (i + 1);
    place = key >> 18;
    while (taken[place]++ != 0) place = (place + 1) & 16383;
    keys[place] = key;
  }
  return 0;
}
