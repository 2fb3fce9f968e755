/* The product of two matrices of 64 rows and columns, in lockstep: the group forks into 16 parts, and each computes a
   block of 16 rows and columns. With fewer than 16 members there is one block. */
sh int a[4096], b[4096], c[4096];

void main(void) {
  start {
    sh int first, of_row = groupsize() < 16 ? 1 : 4;
    for (first = 0; first < 4096; first += groupsize()) {
      a[first + $] = (first + $) % 7;
      b[first + $] = (first + $) % 5;
    }
    fork (of_row * of_row; @=$%(of_row*of_row); $=$/(of_row*of_row)) {
      sh int size = 64 / of_row, next, k;
      for (next = 0; next < size * size; next += groupsize()) {
        int row = size * (@ / of_row) + (next + $) / size;
        int column = size * (@ % of_row) + (next + $) % size;
        int sum = 0;
        for (k = 0; k < 64; k++) sum += a[64 * row + k] * b[64 * k + column];
        c[64 * row + column] = sum;
      }
    }
  }
}
