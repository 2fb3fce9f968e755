static volatile int next[4096], rank[4096], next_then[4096], rank_then[4096];
int main(void) {
  int i, step;
  for (i = 0; i < 4096; i++) { next[i] = i > 0 ? i - 1 : 0; rank[i] = i > 0; }
  for (step = 1; step <= 12; step++) {
    for (i = 0; i < 4096; i++) { rank_then[i] = rank[i] + rank[next[i]]; next_then[i] = next[next[i]]; }
    for (i = 0; i < 4096; i++) { rank[i] = rank_then[i]; next[i] = next_then[i]; }
  }
  return 0;
}
