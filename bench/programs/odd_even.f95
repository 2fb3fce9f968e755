/* 1,024 numbers by odd-even transposition sort in lockstep, as a textbook writes it: in each of 1,024 turns
   the lower one of each pair of neighbours compares, and exchanges them in an `if`. */
sh int words[1024];

void main(void) {
  start {
    sh int turn, first;
    for (first = 0; first < 1024; first += groupsize()) words[first + $] = (first + $) * 619 % 1024;
    for (turn = 0; turn < 1024; turn++)
      for (first = turn % 2; first < 1023; first += 2 * groupsize()) {
        int low = first + 2 * $;
        if (low < 1023)
          if (words[low] > words[low + 1]) {
            int larger = words[low];
            words[low] = words[low + 1];
            words[low + 1] = larger;
          }
      }
  }
}
