/* The Fibonacci number of 20, by recursion, on each processor. */
sh int result;

int fibonacci(int n) {
  if (n < 2) return n;
  return fibonacci(n - 1) + fibonacci(n - 2);
}

void main(void) {
  result = fibonacci(20);
}
