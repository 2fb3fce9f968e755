/* 65,536 numbers around their pivot, as a step of quicksort does it, in lockstep: each member goes through
   the numbers of its turn, and a multiprefix gives the smaller ones places from below and the others places
   from above. */
sh int numbers[65536], parted[65536];
sh int below, above = 65535;

void main(void) {
  start {
    sh int first;
    for (first = 0; first < 65536; first += groupsize()) numbers[first + $] = (first + $) * 40503 & 65535;
    for (first = 0; first < 65536; first += groupsize()) {
      int number = numbers[first + $];
      if (number < 32768) parted[mpadd(&below, 1)] = number;
      else parted[mpadd(&above, -1)] = number;
    }
  }
}
