static volatile int result;
__attribute__((noinline)) static int fibonacci(int n) {
  if (n < 2) return n;
  return fibonacci(n - 1) + fibonacci(n - 2);
}
int main(void) { result = fibonacci(20); return 0; }
