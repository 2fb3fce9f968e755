/* 65,536 keys are looked for in a sorted table of 16,384 numbers, in lockstep: the members of a loop whose
   keys are found leave it, and the others go on. */
sh int table[16384], found[65536];

void main(void) {
  start {
    sh int first;
    for (first = 0; first < 16384; first += groupsize()) table[first + $] = 4 * (first + $);
    for (first = 0; first < 65536; first += groupsize()) {
      int key = first + $, low = 0, high = 16384;
      while (low < high) {
        int middle = (low + high) / 2;
        if (table[middle] < key) low = middle + 1;
        else high = middle;
      }
      found[key] = low;
    }
  }
}
