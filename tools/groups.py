"""Programs with one group at a time, with what they print: (harts, input, text, the variable that is shown, standard output).

What is printed was worked out by hand from what the language says. And such programs that fault: (harts, text, standard output,
kind, place, processor), and that never end: (harts, text, the variable that is shown, standard output).
"""

HARTS = 1024


def lines(numbers):
    return b"".join(b"%d\n" % number for number in numbers)


def shown(name, *values):
    return name.encode() + b" =" + b"".join(b" %d" % value for value in values) + b"\n"


def sums(numbers):
    """The sums of the first one, two, .. of these numbers."""
    return [sum(numbers[: count + 1]) for count in range(len(numbers))]


SQUARES = [number * number % 1000 - 300 for number in range(HARTS)]

# who runs in the group of a `start`, by its count, with 4 processors
STARTS = {
    "0": [0, 0, 0, 0],
    "-1": [0, 0, 0, 0],
    "-2147483647 - 1": [0, 0, 0, 0],
    "1": [2, 0, 0, 0],
    "3": [4, 4, 4, 0],
    "4": [5, 5, 5, 5],
    "5": [5, 5, 5, 5],
    "2147483647": [5, 5, 5, 5],
    "4294967295": [0, 0, 0, 0],
    # the value of the highest processor counts
    "__PROC_NR__": [4, 4, 4, 0],
    "3 - __PROC_NR__": [0, 0, 0, 0],
    "__PROC_NR__ * 5 - 13": [3, 3, 0, 0],
}

PROGRAMS = {
    "start": (4, b"", b"sh int x; void main(void) { start { x = $; } }", "x", shown("x", 3)),
    "start of one": (1, b"", b"sh int x; void main(void) { start { x = 5 + $; } }", "x", shown("x", 5)),
    "multiprefix in a group": (HARTS, b"", b"sh int c; void main(void) { start { pr int r; r = mpadd(&c, $); farm if ($ == 1023) putint(r); } }",
        "c", b"522753\n" + shown("c", 523776)),
    "downwards in a group": (3, b"", b"sh int c; sh int r[3]; void main(void) { start { r[$] = mpadd(&c, -1); } }", "r", shown("r", 0, -1, -2)),
    "who is who in a group": (5, b"", b"""sh int a[5], b[5], c[5];
void main(void) {
  start (3) { a[$] = groupsize() * 100 + @ * 10 + $; b[__PROC_NR__] = __STARTED_PROCS__; farm a[$] += 1000 * groupsize(); seq c[$] = groupsize(); }
  c[$] += groupsize() * 100 + @ * 10 + $;
  if (__PROC_NR__ == 4) { while (!c[0] || !c[1] || !c[2] || !c[3]) ; putint(a[0]); putint(a[1]); putint(a[2]); putint(a[3]); putint(b[2] * 10 + b[3]); }
}""", "c", lines([3300, 3301, 3302, 0, 50]) + shown("c", 503, 501, 502, 503, 504)),
    "an empty group": (3, b"", b"sh int x; void main(void) { start (0) { x = 1; } start (0) ; start ; start (2) x = x + 10; putint(x); }", "x", b"10\n10\n10\n" + shown("x", 10)),
    "many groups one after another": (7, b"", b"sh int s; void main(void) { start (1) s += 1; start (2) s += 10; start (7) s += 100; start (3) mpadd(&s, 1000); start (8) mpadd(&s, 1); putint(s); }",
        "s", lines([3118] * 7) + shown("s", 3118)),
    "all read before any writes": (6, b"", b"sh int a[7] ; void main(void) { start { a[$] = $; a[$] = a[$ + 1]; a[$ + 1] = a[$] * 10; } }", "a", shown("a", 1, 10, 20, 30, 40, 50, 0)),
    "output in a group": (4, b"", b'void main(void) { start { putint($); putchar(97 + $); seq putchar(10); puts("!"); farm ; seq putchar(10); } }', "", b"0\n1\n2\n3\nabcd\n!!!!\n"),
    "a shared loop that one member ends": (5, b"", b"sh int go = 1, turns; void main(void) { start { while (go) { turns = turns + 1; farm if ($ == 3) if (turns == 7) go = 0; } seq putint(turns); } }",
        "turns", b"7\n" + shown("turns", 7)),
    "shared conditions": (4, b"", b"""sh int n, x, s[6];
sync int next(void) { n = n + 1; return n; }
void main(void) {
  start {
    for (x = 0; x < 10; x = x + 1) { if (x == 3) continue; if (x == 7) break; s[0] = s[0] + x; }
    x = 0; do { x = x + 1; s[1] = s[1] + x; } while (x < 4);
    s[2] = x > 3 ? 5 : 6; s[3] = x && n ? 1 : 2; s[4] = x || n; s[5] = !(x > 3 && n == 0);
    n = 0; next(); next(); if (n == 2) { if (n - 2) s[5] = 9; else s[5] += 10; } else s[5] = 100;
    while (1) { if (n == 6) break; next(); }
    seq { putint(s[0]); putint(s[1]); putint(n); }
  }
}""", "s", lines([18, 10, 6]) + shown("s", 18, 10, 5, 2, 1, 10)),
    "recursion of a group": (3, b"", b"""sh int n = 5, sum, deep;
sync void down(void) { if (n) { sum = sum + n; n = n - 1; down(); deep = deep + 1; } }
sync int halves(int k) { n = n + 1; if (n < 20) return halves(k / 2) + 1; return k + $; }
sh int r[3];
void main(void) { start { down(); r[$] = halves(1 << 18); } }""", "r", shown("r", 19, 20, 21)),
    "sums in a recursion of a group": (2, b"", b"""sh int n = 5, sum, deep;
sync void down(void) { if (n) { sum = sum + n; n = n - 1; down(); deep = deep + 1; } }
void main(void) { start down(); putint(n * 1000 + sum * 10 + deep); }""", "", b"155\n155\n"),
    "recursion as deep as calls go": (4, b"", b"sh int n; sync int f(void) { n = n + 1; if (n < 255) return f() + 1; return $; } sh int r[4]; void main(void) { start r[$] = f(); }",
        "r", shown("r", 254, 255, 256, 257)),
    "a function that leaves early": (3, b"", b"sh int k; sync int f(int a) { if (k) return a * 2; a = a + 1; return a; } sh int r[3]; void main(void) { start { r[$] = f($); k = 1; r[$] += f($) * 10; } }",
        "r", shown("r", 1, 22, 43)),
    "a farm": (6, b"", b"""sh int all[6], sum;
int steps(unsigned n) { int count = 0; while (n > 1) { n = n % 2 ? 3 * n + 1 : n / 2; count++; } return count; }
void main(void) { start { farm all[$] = steps($ + 25); sum = 0; farm mpadd(&sum, all[$]); farm ; seq putint(sum); } }""", "all",
        lines([23 + 10 + 111 + 18 + 18 + 18]) + shown("all", 23, 10, 111, 18, 18, 18)),
    "a queue in a farm": (8, b"", b"""sh int next, done[50], took[8];
void main(void) {
  start {
    farm { int task; while ((task = mpadd(&next, 1)) < 50) { done[task] = task * 2 + 1; took[$]++; } }
    seq { int i, sum = 0, all = 0; for (i = 0; i < 50; i++) sum += done[i]; for (i = 0; i < 8; i++) all += took[i]; putint(sum); putint(all); }
  }
}""", "next", lines([2500, 50]) + shown("next", 58)),
    "the lowest runs a seq": (5, b"", b"sh int a[5]; void main(void) { start { a[$] = $; seq { a[$ + 1] += 100; putint($); } } }", "a", b"0\n" + shown("a", 0, 101, 2, 3, 4)),
    "barrier in the root": (9, b"", b"sh int c, r[9]; void main(void) { mpadd(&c, 1 + __PROC_NR__); barrier; r[$] = c; barrier; if ($ == 0) { c = 0; putint(r[0] + r[8]); } }",
        "r", b"90\n" + shown("r", *[45] * 9)),
    "barriers in a farm": (6, b"", b"""sh int a[12];
void main(void) {
  start farm {
    int i;
    a[$ + 6] = $ + 1; barrier;
    for (i = 1; i < 6; i = i * 2) { int from = a[$ + 6 - i]; barrier; a[$ + 6] += from; barrier; }
  }
}""", "a", shown("a", 0, 0, 0, 0, 0, 0, 1, 3, 6, 10, 15, 21)),
    "a barrier in a seq": (4, b"", b"void main(void) { start { seq { putint(1); barrier; putint(2); barrier; barrier; } seq putint(3); } }", "", b"1\n2\n3\n"),
    "two barriers that meet": (5, b"", b"""sh int c, r[5];
void main(void) {
  start farm {
    if ($ % 2) { int i; for (i = 0; i < 100; i++) ; mpadd(&c, 1); barrier; r[$] = c; }
    else { mpadd(&c, 10); barrier; r[$] = c + 100; }
  }
}""", "r", shown("r", 132, 32, 132, 32, 132)),
    "barriers as often as one goes": (3, b"", b"sh int t; void main(void) { int i; for (i = 0; i < 40; i++) { if (__PROC_NR__ == i % 3) t++; barrier; } start { t = t * 2; } barrier; if ($ == 0) putint(t); barrier; }",
        "t", b"80\n" + shown("t", 80)),
    "barriers of the root before and behind a group": (4, b"", b"sh int c; void main(void) { barrier; mpadd(&c, 1); barrier; start (2) farm { barrier; mpadd(&c, 10); } barrier; putint(c); }", "", lines([24] * 4)),
    "sums by doubling": (HARTS, b" ".join(b"%d" % number for number in SQUARES), b"""sh int a[2048], d;
void main(void) {
  start {
    a[1024 + $] = __input[$];
    for (d = 1; d < groupsize(); d = d + d) a[1024 + $] = a[1024 + $] + a[1024 + $ - d];
    putint(a[1024 + $]);
  }
}""", "d", lines(sums(SQUARES)) + shown("d", 1024)),
    "a tree of sums": (HARTS, b"", b"""sh int a[1024];
void main(void) {
  start farm {
    int d;
    a[$] = $; barrier;
    for (d = 512; d; d = d / 2) { if ($ < d) a[$] += a[$ + d]; barrier; }
    if ($ == 0) putint(a[0]);
  }
}""", "", b"523776\n"),
    "a group of some": (HARTS, b"", b"sh int c; void main(void) { start (37) { c = groupsize(); farm { barrier; mpadd(&c, $); } } barrier; if (__PROC_NR__ == 1023) putint(c); }", "c", b"703\n" + shown("c", 703)),
    "heaps of each in a group": (3, b"", b"sh int r[3]; void main(void) { start { int *p = (int *)malloc(8); p[1] = $ + 5; farm p[0] = p[1]; r[$] = p[0] * 10 + (malloc(65536) != 0); } }", "r", shown("r", 50, 60, 70)),
    "input numbers in a group": (3, b"4 5 6 7", b"sh int s; void main(void) { start { mpadd(&s, __input[$] * __inputs); } }", "s", shown("s", 60)),
}
for count, values in STARTS.items():
    PROGRAMS["start of " + count.replace(" ", "")] = (4, b"", b"sh int n[4]; void main(void) { start (%s) n[$] = 1 + groupsize(); putint($ * 10 + groupsize()); }" % count.encode(),
        "n", lines([4, 14, 24, 34]) + shown("n", *values))


def dereference(who):
    """All of a group print their numbers and then follow a pointer, which leads nowhere for some of them."""
    return b"sh int x;\nvoid main(void) {\n  start {\n    int *p = &x;\n    farm if (%s) p = 0;\n    putint($);\n    x = *p;\n    putint(x);\n  }\n}" % who


FAULTS = {
    "the lowest of a group": (8, dereference(b"$ == 0"), lines(range(8)), "BadAddress", "7:9", 0),
    "one of a group": (8, dereference(b"$ == 5"), lines(range(8)), "BadAddress", "7:9", 5),
    "the highest of a group": (8, dereference(b"$ == 7"), lines(range(8)), "BadAddress", "7:9", 7),
    "several of a group": (8, dereference(b"$ % 3 == 2"), lines(range(8)), "BadAddress", "7:9", 2),
    "all of a group": (8, dereference(b"1"), lines(range(8)), "BadAddress", "7:9", 0),
    "the highest of many": (HARTS, dereference(b"$ == 1023"), lines(range(HARTS)), "BadAddress", "7:9", 1023),
    "a call of a group": (3, b"sh int n; sync int f(void) {\n n = n + 1; return f(); }\nvoid main(void) {\n start f(); }", b"", "CallDepth", "2:20", 0),
    "in a farm": (4, b"sh int x; void main(void) { start farm { int *p = 0; if ($ == 2) x = *p; barrier; } }", b"", "BadAddress", "1:70", 2),
    "in a seq": (4, b"sh int x; void main(void) { start (3) seq { int *p = 0; x = *p; } }", b"", "BadAddress", "1:61", 0),
}

ENDLESS = {
    "one at the end of a farm while others wait": (3, b"sh int x; void main(void) { start { farm { if ($) barrier; x = 1; } x = 2; } }", "x", shown("x", 1)),
    "one loops while others wait": (3, b"void main(void) { start { farm { if ($ == 0) putint(7); while ($ == 1) ; } seq putint(9); } }", "", b"7\n"),
    "one has ended main while others wait": (3, b"sh int x; void main(void) { if (__PROC_NR__) { x = 1; barrier; x = 2; } }", "x", shown("x", 1)),
    "one loops while others are at a start": (3, b"sh int x; void main(void) { while (__PROC_NR__ == 2) ; start x = 1; }", "x", shown("x", 0)),
    "a barrier and a start don't meet": (3, b"sh int x; void main(void) { if (__PROC_NR__ == 2) barrier; start x = 1; }", "x", shown("x", 0)),
    "a seq that never ends": (3, b"sh int x; void main(void) { start { seq while (1) x++; x = -1; } }", "", b""),
    "a loop of a group": (3, b"void main(void) { start while (1) ; }", "", b""),
}
