"""Programs of the asynchronous language, with what they print: (harts, input, text, standard output).

What one processor prints is what a C compiler makes of the same text, where the meaning is the same; what several print was
worked out by hand. And programs that fault: (harts, text, standard output, kind, place, processor).
"""

PROGRAMS = {
    "division": (1, b"", b"void main(void) { pr int x = -2147483647 - 1; pr int y = -1; pr int z = 7; pr int w = 0;"
        b" putint(x / y); putint(x % y); putint(z / w); putint(z % w); putint(4294967295 / 2); }",
        b"-2147483648\n0\n-1\n7\n2147483647\n"),
    "bytes": (1, b"", b'void main(void) { puts("ab\\n"); putchar(353); }', b"ab\na"),
    "deepest call": (1, b"", b"int f(int n) { return n ? 1 + f(n - 1) : 0; }\nvoid main(void) { putint(f(254)); }", b"254\n"),
    "private heap": (1, b"", b"void main(void) { putint(malloc(65536) != 0); putint(malloc(4) != 0); putint(malloc(0) != 0); }", b"1\n0\n0\n"),
    "signed and unsigned": (1, b"", b"""void main(void) {
  int a = -7; unsigned b = 7u; int c = 3;
  putint(a / 2); putint(a % 2); putint(a >> 1); putint(b - 8 >> 28); putint(a * c); putint(a < c); putint(a < b);
  putint(a >= c); putint(~a); putint(!a); putint(-a); putint(a & 12); putint(a | 12); putint(a ^ 12); putint(1 << 31 >> 31);
  putint(1u << 31 >> 31); putint(a == -7); putint(a != -7); putint(a > c); putint(b <= 7);
}""", b"-3\n-1\n-4\n15\n-21\n1\n0\n0\n6\n0\n7\n8\n-3\n-11\n-1\n1\n1\n0\n0\n1\n"),
    "assignments": (1, b"", b"""int x;
void main(void) {
  int a;
  putint(a = 5); putint(a += 3); putint(a -= 10); putint(a *= -7); putint(a /= 4); putint(a %= 2); putint(a <<= 5);
  putint(a |= 9); putint(a &= 12); putint(a ^= 5); putint(a >>= 1); putint(a++); putint(a); putint(a--); putint(a);
  putint(++a); putint(--a); putint((a = 1, x = a + 1, x * 10));
}""", b"5\n8\n-2\n14\n3\n1\n32\n41\n8\n13\n6\n6\n7\n7\n6\n7\n6\n20\n"),
    "shared assignments": (1, b"", b"""sh int s[4]; sh unsigned u;
void main(void) {
  s[1] = 5; putint(s[1] += 3); putint(s[1]++); putint(s[1]); putint(--s[1]); putint(s[1] <<= 2); putint(s[0]);
  u = 1; putint(u -= 2); putint(u >> 31); putint(u /= 2); putint(s[1] % 5); putint(s[2] |= 6); putint(s[2]-- * 10); putint(s[2]);
}""", b"8\n8\n9\n8\n32\n0\n-1\n1\n2147483647\n2\n6\n60\n5\n"),
    "conditions": (1, b"", b"""int calls;
int count(int value) { calls++; return value; }
void main(void) {
  putint(count(0) && count(1)); putint(calls); putint(count(2) && count(3)); putint(calls);
  putint(count(4) || count(0)); putint(calls); putint(count(0) || count(0)); putint(calls);
  putint(count(1) ? 10 : 20); putint(count(0) ? 10 : 20); putint(calls); putint(!count(0) && !(count(1) && count(0)));
  if (count(0)) putint(1); else if (count(5)) putint(2); else putint(3);
}""", b"0\n1\n1\n3\n1\n4\n0\n6\n10\n20\n8\n1\n2\n"),
    "loops": (1, b"", b"""void main(void) {
  int i, j, n = 0;
  for (i = 0; i < 10; i++) { if (i == 3) continue; if (i == 8) break; n = n * 10 + i; }
  putint(n); putint(i);
  i = 0; do { i += 3; if (i == 6) continue; n--; } while (i < 12); putint(n); putint(i);
  for (i = 0, n = 0; i < 5; i++) for (j = 0; ; j++) { if (j > i) break; n += j; if (n > 100) continue; }
  putint(n);
  while (1) { while (n) { n--; if (n % 4 == 0) break; } if (n < 3) break; } putint(n);
  for ( ; ; ) break;
  do ; while (0);
}""", b"124567\n8\n124564\n12\n20\n0\n"),
    "a hundred loops in one another": (1, b"", b"void main(void) { int a = 3, b = 0; while (a--) " + b"while (b) " * 99 + b"b = 0; putint(a); }", b"-1\n"),
    "recursion": (1, b"", b"""int fib(int n) { return n < 2 ? n : fib(n - 1) + fib(n - 2); }
int even(int n);
int odd(int n) { return n == 0 ? 0 : even(n - 1); }
int even(int n) { return n == 0 ? 1 : odd(n - 1); }
int ack(int m, int n) { if (m == 0) return n + 1; if (n == 0) return ack(m - 1, 1); return ack(m - 1, ack(m, n - 1)); }
int gcd(int a, int b) { while (b) { int r = a % b; a = b; b = r; } return a; }
void main(void) { putint(fib(15)); putint(even(50)); putint(odd(50)); putint(ack(2, 5)); putint(gcd(1071, 462)); }""",
        b"610\n1\n0\n13\n21\n"),
    "arguments in order": (1, b"", b"""int n;
int next(void) { return ++n; }
int digits(int a, int b, int c, int d) { return a * 1000 + b * 100 + c * 10 + d; }
int nothing(int a) { a; }
void main(void) { putint(digits(next(), next(), next(), next())); putint(1 + digits(1, 2, 3, 4) * 2); putint(nothing(5)); }""",
        b"1234\n2469\n0\n"),
    "private variables": (1, b"", b"""int first = 40, second = -2; pr unsigned third;
int bump(int by) { int kept = first; first += by; { int kept; kept++; third += kept; } return kept; }
void main(void) { int i; for (i = 0; i < 3; i++) { int fresh; fresh += i; putint(fresh); } putint(bump(2)); putint(bump(3)); putint(first); putint(second); putint(third); }""",
        b"0\n1\n2\n40\n42\n45\n-2\n2\n"),
    "pointers": (1, b"", b"""sh int a[10]; sh int *p; sh int **q;
void swap(int *x, int *y) { int t = *x; *x = *y; *y = t; }
void main(void) {
  int *r, i;
  for (i = 0; i < 10; i++) a[i] = i * i;
  r = a + 3; putint(*r); putint(r[2]); putint(*(r - 1)); r++; putint(*r++); putint(*r); putint(*--r); r += 2; putint(*r); r -= 5; putint(*r);
  p = &a[9]; q = &p; putint(**q); **q = 7; putint(a[9]); swap(&a[0], p); putint(a[0]); putint(a[9]);
  putint(p > r); putint(p == &a[9]); putint(&a[2] != a + 2); putint(!p); putint(p && r); putint(sizeof(int *)); putint(*&a[4]);
}""", b"9\n25\n4\n16\n25\n16\n36\n1\n81\n7\n7\n0\n1\n1\n0\n0\n1\n4\n16\n"),
    "structs": (1, b"", b"""struct In { int x; int v[3]; }; struct S { int a; struct In in; struct S *next; unsigned b; };
sh struct S s, many[3]; sh int other = 77;
void main(void) {
  struct S *p = &s; int i;
  s.a = 1; s.in.x = 2; s.b = 3; p->in.v[0] = 4; p->in.v[1] = 5; (*p).in.v[2] = 6; s.next = &many[1];
  for (i = 0; i < 3; i++) { many[i].a = 10 * i; many[i].next = i < 2 ? &many[i + 1] : p; }
  putint(s.a + s.in.x * 10 + s.b * 100); putint(p->in.v[0] + s.in.v[1] * 10 + s.in.v[2] * 100);
  putint(p->next->a); putint(p->next->next->a); putint(s.next->next->next->in.v[1]); putint(sizeof(struct S)); putint(other);
  p = many; p++; putint(p->a); p->a++; putint(many[1].a); putint((p + 1)->a);
}""", b"321\n654\n10\n20\n5\n28\n77\n10\n11\n20\n"),
    "heaps": (1, b"", b"""struct Node { int value; struct Node *next; };
struct Node *list;
void add(int value) { struct Node *node = (struct Node *)malloc(sizeof(struct Node)); node->value = value; node->next = list; list = node; }
void main(void) { int i; for (i = 1; i <= 5; i++) add(i * i); while (list) { putint(list->value); list = list->next; } }""",
        b"25\n16\n9\n4\n1\n"),
    "straight functions": (1, b"", b"straight int square(int x) { return x * x; }\nstraight void show(int x) { putint(square(x) - 1); }\n"
        b"void main(void) { show(3); show(square(2)); }", b"8\n15\n"),
    "initial values": (1, b"", b"sh int a = 5, b = -3; sh unsigned c = 0xFFFFFFFF; int d = 'a'; sh int *p = 0;\n"
        b"void main(void) { putint(a); putint(b); putint(c); putint(d); putint(p == 0); }", b"5\n-3\n-1\n97\n1\n"),
    "input numbers": (1, b"3 -4 16 4294967295", b"void main(void) { int i, s = 0; for (i = 0; i < __inputs; i++) { putint(__input[i]); s += __input[i]; } putint(s); putint(__inputs); *__input = 9; putint(__input[0]); }",
        b"3\n-4\n16\n-1\n14\n4\n9\n"),
    "who is who": (3, b"", b"sh int all[3];\nvoid main(void) { all[__PROC_NR__] = $ * 100 + @ * 10 + groupsize() + __STARTED_PROCS__; while (!all[0] || !all[1] || !all[2]) ; if (__PROC_NR__ == 2) { putint(all[0]); putint(all[1]); putint(all[2]); } }",
        b"6\n106\n206\n"),
    "multiprefix": (64, b"", b"""sh int sum, most = -5, all = -1, some, done, places[64];
void main(void) {
  int i = __PROC_NR__;
  places[mpadd(&sum, 1)]++;
  mpmax(&most, i * 3 - 100); mpand(&all, ~(1 << i % 32)); mpor(&some, 1 << i % 16);
  mpadd(&done, 1);
  if (i == 0) { while (done < 64) ; for (i = 0; i < 64; i++) sum += places[i] * 1000; putint(sum); putint(most); putint(all); putint(some); }
}""", b"64064\n89\n0\n65535\n"),
    "the highest writes last": (5, b"", b"sh int x;\nvoid main(void) { x = __PROC_NR__; putint(x); }", b"4\n4\n4\n4\n4\n"),
    "each its own": (4, b"", b"int own = 5;\nint *make(int v) { int *p = (int *)malloc(8); p[1] = v; return p; }\n"
        b"void main(void) { int *p = make(__PROC_NR__ + 10); own += __PROC_NR__; putint(p[1] + own); }", b"15\n17\n19\n21\n"),
    "in its own initial value": (1, b"", b"""int f(void) { int x = x; x += 7; return x - 7; }
int g(int a, int b) { int c = c, d = 5; c += a * b + d; return c; }
int deep(int n) { int a = 1, b = 2, c = 3; return n ? deep(n - 1) + a + b + c : 9; }
void main(void) { putint(f()); putint(deep(3)); putint(f()); putint(g(2, 3)); putint(f()); putint(g(1, 1)); }""", b"0\n27\n0\n11\n0\n6\n"),
    "a frame of main full of variables": (1, b"", b"int v0 = 3" + b"".join(b", v%d = %d" % (number, number) for number in range(1, 56)) + b""";
void show(void) { v0 += v55; putint(v0); putint(v1); putint(v54); v55++; }
void twice(void) { show(); show(); }
void main(void) { twice(); show(); }""", b"58\n1\n54\n114\n1\n54\n171\n1\n54\n"),
}

FAULTS_OF_RUNS = {
    "null": (2, b"void main(void) { pr int *p = 0; putint(*p); }", b"", "BadAddress", "1:41", 0),
    "too deep": (1, b"int f(int n) { return n ? 1 + f(n - 1) : 0; }\nvoid main(void) { putint(f(255)); }", b"", "CallDepth", "1:31", 0),
    "unaligned": (1, b"sh int a[2];\nvoid main(void) { int *p = (int *)((unsigned)&a[0] + 2); a[1] = 3; putint(a[1]); *p = 1; }", b"3\n", "BadAddress", "2:82", 0),
    "index": (1, b"sh int a[2]; sh int far = 1048576;\nvoid main(void) { a[far - 3] = 1; putint(1); a[far] = 2; }", b"1\n", "BadAddress", "2:47", 0),
    "member": (3, b"struct S { int a; int b; };\nvoid main(void) { struct S *p = 0; if (__PROC_NR__ == 2) putint(p->b); }", b"", "BadAddress", "2:66", 2),
    "private address in a multiprefix": (1, b"void main(void) { int *p = (int *)malloc(4); *p = 1; mpadd(p, 1); }", b"", "BadAddress", "1:54", 0),
    "the lowest processor": (8, b"sh int x;\nvoid main(void) { int *p = &x; if (__PROC_NR__ > 4) p = 0; putint(__PROC_NR__ < 9); x = *p; }", b"1\n" * 8, "BadAddress", "2:89", 5),
    "before and behind shared data": (1, b"sh int a[1];\nvoid main(void) { a[-1] = 1; }", b"", "BadAddress", "2:20", 0),
}
