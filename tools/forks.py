"""Programs with `fork`, with what they print, as in splits.py.

(harts, input, text, the variable that is shown, standard output); those that fault: (harts, text, standard output, kind, place,
processor); those that never end: (harts, text, the variable that is shown, standard output); and texts with the report that they
are refused by. The numbers are sums of what the language says of members, parts and spaces.
"""

from fork_model import programs
from frames import DATA, NONE, Memory, column
from groups import HARTS, lines, shown
from splits import HEADER, KEPT, LEAST_SHARE, body, room, share, splits, values

BITS = 10
# how many random programs are run
RANDOM = 40
assert HARTS == 1 << BITS


def parts(members, count, part):
    """The members of each part of a `fork`."""
    return [[rank for rank in members if part(rank) == number] for number in range(max(count, 0))]


def sizes(members, count, part):
    return [len(one) for one in parts(members, count, part)]


def reversed_bits(number):
    return int(f"{number:0{BITS}b}"[::-1], 2)


def forked(count, text):
    """A `fork` into so many parts, of which the first takes all members, in a group with so many free words."""
    return lambda free: b"void main(void) {\n  start { sh int t[%d]; t[0] = 1;\n    fork (%s; @=0) %s }\n}" % (NONE.free - free, count, text)


assert all(share(room(count), count) == LEAST_SHARE and share(room(count) - 1, count) < LEAST_SHARE for count in (1, 2, 3, 100, HARTS))

SIX, SEVEN = range(6), range(7)
OF_FIVE = b"sh int s[5]; void main(void) { start %s }"
# some free words of which a count of parts keeps back all
ALL_KEPT = NONE.free - 2 * KEPT
# three words of globals, a group frame of five, and three parts
PLACED, FRAME, THREE = Memory(3), 5, 3
# the words that a part into which the whole space of a text without globals is divided has for frames and blocks
LARGEST = share(NONE.free, THREE) - HEADER
# the same of two parts in a text of `body`
OF_BODY = Memory(17)
BLOCK = share(OF_BODY.free, 2) - HEADER
# the members of each part, and the sizes of the parts of these by half of a member's rank
HALVES = parts(range(13), 2, lambda rank: rank % 2)
OF_HALVES = [sizes(half, 3, lambda rank: rank // 2 % 3) for half in HALVES]

PROGRAMS = {
    # ---- who is in which part
    "a fork into three parts": (7, b"", b"sh int s[3]; void main(void) { start fork (3; @=$%3; $=$/3) s[@] = groupsize(); }", "s", shown("s", *sizes(SEVEN, 3, lambda rank: rank % 3))),
    "a fork into nothing": (2, b"", OF_FIVE % b"{ fork (0; @=0; $=$) s[0] = 9; s[1] = groupsize(); }", "s", shown("s", 0, 2, 0, 0, 0)),
    "more parts than members": (2, b"", OF_FIVE % b"fork (5; @=$; $=0) s[@] = groupsize();", "s", shown("s", 1, 1, 0, 0, 0)),
    "more members than parts": (3, b"", OF_FIVE % b"fork (2; @=$; $=0) s[@] = groupsize();", "s", shown("s", 1, 1, 0, 0, 0)),
    "parts before the first and behind the last": (8, b"", body(b"fork (3; @=$-3) mpadd(&r[@], 10 * $ + groupsize()); r[3] = groupsize();"), "r", values(31, 41, 51, 8)),
    "parts far away": (6, b"", body(b"pr int p; if ($ == 0) p = -2147483647 - 1; else p = $ == 1 ? 2147483647 : $ == 2 ? -1 : 1; fork (2; @=p) { mpadd(&r[@], $); r[2 + @] = groupsize(); } r[4] = groupsize();"),
        "r", values(0, 3 + 4 + 5, 0, 3, 6)),
    "nobody in any part": (3, b"", body(b"fork (3; @=7; $=8) r[0] = 1; r[1] = groupsize(); r[2] = $; r[3] = @;"), "r", values(0, 3, 2, 0)),
    "all in one part": (5, b"", body(b"fork (1; @=0; $=4-$) r[$] = 10 * __PROC_NR__ + groupsize(); mpadd(&r[5 + $], $);"), "r", values(45, 35, 25, 15, 5, 0, 1, 2, 3, 4)),
    "all in the last of 1,024 parts": (HARTS, b"", body(b"fork (1024; @=1023) { r[0] = @; r[1] = groupsize(); } r[2] = groupsize();"), "r", values(HARTS - 1, HARTS, HARTS)),
    "all 1,024 alone": (HARTS, b"", b"sh int a[1024], c; void main(void) { start { fork (1024; @=1023-$; $=5) { sh int k = @; seq a[k] = 100 * __PROC_NR__ + 10 * groupsize() + $; } mpadd(&c, groupsize() + $ + @); seq putint(c); } }",
        "a", lines([HARTS * HARTS + HARTS * (HARTS - 1) // 2]) + shown("a", *[100 * (HARTS - 1 - part) + 15 for part in range(HARTS)])),
    "a part for every second of 1,024": (HARTS, b"", b"sh int a[1024]; void main(void) { start { fork (512; @=$%2?-1:$/2) a[@] = groupsize() * 1000 + $; } }", "a", shown("a", *[1000 + 2 * part for part in range(HARTS // 2)], *[0] * (HARTS // 2))),
    # ---- counts, parts and ranks
    "the count of the highest": (5, b"", body(b"fork ($; @=$) r[@] = groupsize(); r[5] = groupsize();"), "r", values(1, 1, 1, 1, 0, 5)),
    "a count below nothing": (4, b"", body(b"fork (3-$-$; @=0; $=9) r[0] = 1; r[1] = groupsize(); r[2] = $; r[3] = @;"), "r", values(0, 4, 3, 0)),
    "the least count": (3, b"", body(b"fork (-2147483647-1; @=0; $=9) r[0] = 1; r[1] = groupsize();"), "r", values(0, 3)),
    "a count of nothing needs no word": (2, b"", forked(b"-5", b"t[0] = 2; fork (0; @=0) t[0] = 3; seq putint(t[0] * 10 + groupsize());")(0), "", lines([12])),
    "count, part and rank in order": (5, b"", body(b"fork (mpadd(&r[0], 1) + 1; @=mpadd(&r[0], 10) / 10; $=mpadd(&r[0], 100)) r[1 + @] = $; r[6] = groupsize();"),
        # the highest member has seen the four below it: so there are five parts. Then each adds 10 after those below it, and then 100
        "r", values(5 + 50 + 500, *[55 + 100 * rank for rank in range(5)], 5)),
    "pointers as numbers": (6, b"", body(b"fork ((int *)3; @=(int *)($%3); $=(void *)($+1)) mpadd(&r[@], $);"), "r", values(1 + 4, 2 + 5, 3 + 6)),
    "several expressions": (4, b"", body(b"pr int a; fork (n = 2, n; @=a=$/2, a; $=a, 7) mpadd(&r[@], $ + a + n);"), "r", values(2 * (7 + 0 + 2), 2 * (7 + 1 + 2))),
    "signs that split in each expression": (7, b"", body(b"fork ($ > 5 ? 3 : 1; @=$ && $ % 3; $=$ % 2 || $ > 4 ? 10 : 20) mpadd(&r[@], $);"),
        "r", values(*[sum(10 if rank % 2 or rank > 4 else 20 for rank in part) for part in parts(SEVEN, 2, lambda rank: int(rank % 3 > 0))])),
    "ranks that stay": (6, b"", body(b"fork (2; @=$%2) r[$] = 10 * @ + groupsize(); r[6 + $] = 10 * @ + groupsize();"), "r", values(3, 13, 3, 13, 3, 13, 6, 6, 6, 6, 6, 6)),
    "ranks that come back": (5, b"", body(b"fork (2; @=$/3; $=100-$) { fork (1; @=0; $=-$) r[10 + __PROC_NR__] = $; r[__PROC_NR__] = $ + @; } r[5 + $] = @;"),
        "r", values(100, 99, 98, 98, 97, 0, 0, 0, 0, 0, -100, -99, -98, -97, -96)),
    # ---- forks in one another, in parts, loops and calls
    "forks in forks": (13, b"", body(b"fork (2; @=$%2; $=$/2) { sh int outer = @; fork (3; @=$%3; $=outer) mpadd(&r[outer * 3 + @], 10 + $); r[6 + @] = groupsize(); } r[8] = groupsize();"),
        "r", values(*[(10 + outer) * size for outer, of_part in enumerate(OF_HALVES) for size in of_part], *map(len, HALVES), 13)),
    "a fork in each part of an if": (7, b"", body(b"if ($ < 3) fork (2; @=$%2) mpadd(&r[@], groupsize()); else fork (3; @=$-4; $=$*2) mpadd(&r[2 + @], $); r[5] = groupsize();"),
        "r", values(2 * 2, 1, 2 * 4, 2 * 5, 2 * 6, 7)),
    "ifs in parts": (9, b"", body(b"fork (3; @=$%3; $=$/3) { if ($ < @) mpadd(&r[@], groupsize()); else mpadd(&r[3 + @], groupsize()); if ($ == 0 || @) r[6 + @] = groupsize(); }"),
        "r", values(0, 1, 4, 9, 4, 1, 1, 3, 3)),
    "forks in a loop of the group": (7, b"", body(b"for (n = 1; n <= 4; n++) fork (n; @=$%n) mpadd(&r[4 * n + @ - 4], groupsize()); r[15] = r[15] * 10 + groupsize();"),
        "r", (lambda squares: values(*squares[:15], squares[15] * 10 + 7))([size**2 for count in range(1, 5) for size in sizes(SEVEN, count, lambda rank, count=count: rank % count) + [0] * (4 - count)])),
    "forks in a loop that shrinks": (6, b"", body(b"pr int i; for (i = 0; i < $; i++) fork (2; @=$%2) mpadd(&r[@], groupsize()); r[2] = groupsize();"),
        "r", values(*[sum(of_part**2 for of_part in [len([rank for rank in SIX if rank > turn and rank % 2 == part]) for turn in SIX]) for part in (0, 1)], 6)),
    "loops in parts": (9, b"", body(b"fork (3; @=$%3; $=$/3) { pr int i = $ + @; while (i) { r[@] = r[@] * 10 + groupsize(); i--; } } r[3] = groupsize();"),
        "r", values(21, 321, 3321, 9)),
    "a loop of each part": (6, b"", body(b"fork (3; @=$%3; $=$/3) { sh int t; for (t = 0; t < 10 * @ + 2; t++) { if (t == 12) break; if (t % 2) continue; r[@] = r[@] + groupsize(); } }"),
        "r", values(2 * 1, 2 * 6, 2 * 6)),
    "a fork and its break": (5, b"", body(b"while (1) { fork (2; @=$%2) mpadd(&r[@], 1); n = n + 1; if (n == 4) break; }"), "r", values(4 * 3, 4 * 2)),
    "halves of halves": (HARTS, b"", b"sh int a[1024]; sync void halve(sh int name) { if (groupsize() == 1) a[name - 1024] = __PROC_NR__; else fork (2; @=$%2; $=$/2) halve(2 * name + @); } void main(void) { start halve(1); }",
        "a", shown("a", *map(reversed_bits, range(HARTS)))),
    "fewer and fewer call themselves": (10, b"", b"sh int r[16]; sync void f(sh int d) { mpadd(&r[d], groupsize()); fork (2; @=$>d) if (@) f(d + 1); else mpadd(&r[15], 1); } void main(void) { start f(0); }",
        # the members of depth d are those from d on, and each ends once as the lowest of them
        "r", values(*[(10 - depth) ** 2 for depth in range(10)], 0, 0, 0, 0, 0, 10)),
    "a function in all parts at once": (6, b"", b"sh int r[16]; sync int f(sh int n) { sh int k = n * 10; pr int s = k + groupsize(); return s; } void main(void) { start { fork (3; @=$/2) r[$] = f(@ + 1) + $ * 100; r[6] = f(7); } }",
        "r", values(*[10 * (rank // 2 + 1) + 2 + 100 * rank for rank in SIX], 76)),
    "a fork in a function with a result": (6, b"", b"sh int r[16]; sync int f(pr int n) { pr int s; fork (2; @=n%2; $=0) s = 10 * groupsize() + @; return s + $; } void main(void) { start { r[$] = 1000 * $ + f($) + f($ / 3); if ($ > 3) r[6 + $] = f($); } }",
        "r", values(*[1000 * rank + 30 + rank % 2 + rank + 30 + rank // 3 + rank for rank in SIX], 0, 0, 0, 0, 10 + 4, 11 + 5)),
    "a fork in a function of a condition": (6, b"", b"sh int r[16]; sync int f(void) { pr int s = 0; fork (2; @=$%3) s = groupsize(); return s; } void main(void) { start { if (f() == 2) r[$] = groupsize(); r[6] = f() && f(); r[7 + $] = $ > 2 ? f() : -f(); } }",
        # of 0 to 5 the ranks 2 and 5 stand outside both parts; below 3 and from 3 on each part has one
        "r", values(4, 4, 0, 4, 4, 0, 0, -1, -1, 0, 1, 1, 0)),
    # ---- what a part does
    "a farm in each part": (7, b"", body(b"fork (2; @=$%2; $=$/2) farm { mpadd(&r[@], 1); barrier; mpadd(&r[2 + @], r[@]); if ($ == 0) r[4 + @] = groupsize(); } r[6] = groupsize();"),
        "r", values(4, 3, 16, 9, 4, 3, 7)),
    "a seq in each part": (7, b"", body(b"fork (3; @=$%3; $=9-$) seq r[@] = 100 * __PROC_NR__ + 10 * $ + groupsize();"), "r", values(93, 182, 272)),
    "a part agrees by itself": (7, b"", body(b"fork (3; @=$%3; $=$*3) { sh int k = $; if (k > 12) r[@] = k; else r[3 + @] = k; for (k = $; k > 10; k--) ; r[6 + @] = k; }"), "r", values(18, 0, 15, 0, 12, 0, 10, 10, 10)),
    "multiprefix in each part": (8, b"", body(b"fork (2; @=$%2) r[$] = mpadd(&r[14 + @], $);"), "r", values(0, 0, 0, 1, 2, 1 + 3, 2 + 4, 1 + 3 + 5, 0, 0, 0, 0, 0, 0, 12, 16)),
    "one part is far longer than another": (6, b"", body(b"fork (3; @=$%3) if (@ == 1) { for (n = 0; n < 1000; n++) ; r[0] = 7; } else r[9 + @] = @; r[3 + $] = r[0] + n;"), "r", values(7, 0, 0, *[1007] * 6, 0, 0, 2)),
    "who waits outside waits for the last": (4, b"", body(b"fork (1; @=1-$) { for (n = 0; n < 1000; n++) ; r[0] = 7; } r[1 + $] = r[0];"), "r", values(7, 7, 7, 7, 7)),
    "a fork of some of the processors": (8, b"", b"sh int r[8]; void main(void) { start (5) fork (2; @=$%2) r[$] = groupsize(); mpadd(&r[7], groupsize()); start fork (2; @=$/6) mpadd(&r[5 + @], groupsize()); }",
        "r", shown("r", 3, 2, 3, 2, 3, 36, 4, 64)),
    # ---- frames and heaps of parts
    "frames of forks and functions around": (8, b"", b"sh int s[8]; sync void f(sh int n) { sh int t; t = n; fork (2; @=$%2; $=$/2) { sh int q[3]; q[2] = groupsize();"
        b" fork (2; @=$%2; $=7+$) { sh int w; w = q[2] * 10 + t; mpadd(&s[2 * @], w); mpmax(&s[5], $); } mpadd(&s[4], q[2] + @); } mpadd(&s[6], t); s[7] = $; }"
        b" void main(void) { start { sh int z[5]; z[4] = 3; f(z[4]); } }",
        # each part of two, in both parts of four, adds 43 twice; the highest rank of a part of four is 3
        "s", shown("s", 4 * 43, 0, 4 * 43, 0, 4 * 4 + 4 * 5, 7 + 3, 8 * 3, 7)),
    "variables of each part": (7, b"", body(b"sh int k = 1; fork (3; @=$%3; $=$/3) { sh int m = @ + k; sh int q[2]; q[1] = m * 10; mpadd(&m, 1); r[@] = m + q[1]; } r[3] = k;"), "r", values(1 + 3 + 10, 2 + 2 + 20, 3 + 2 + 30, 1)),
    "where the parts of a group lie": (3, b"", b"sh unsigned at[3]; void main(void) { start { sh int t[5]; t[0] = 1; fork (3; @=$) { sh int k; at[@] = (unsigned)&k - 0x%X; } } }" % DATA,
        # the parts begin behind the frame and the words that are kept back for them
        "at", shown("at", *[PLACED.address(FRAME + KEPT * THREE + part * share(PLACED.free - FRAME, THREE) + HEADER) for part in range(THREE)])),
    "the largest frame of a part": (2, b"", b"void main(void) { start fork (3; @=2*$) { sh int t[%d]; t[%d] = @ + 1; seq mpadd(&t[%d], 5); farm if (@) putint(t[%d]); } }" % (LARGEST, LARGEST - 1, LARGEST - 1, LARGEST - 1),
        "", lines([8])),
    "the largest block of a part": (4, b"", body(b"fork (2; @=$%%2) { r[@] = shalloc(4 * %d) != 0; r[2 + @] = shalloc(4 * %d) != 0; r[4 + @] = shalloc(4) != 0; } r[6] = shalloc(4 * %d) != 0;"
        % (BLOCK + 1, BLOCK, OF_BODY.free)), "r", values(0, 0, 1, 1, 0, 0, 1)),
    "a space that is lent a thousand times": (3, b"", body(b"for (n = 0; n < 1000; n++) fork (2; @=$%2; $=n) { sh int t[100]; pr int *p = shalloc(4000); t[99] = n; p[999] = t[99]; r[@] = p[999] + groupsize(); }"), "r", values(1001, 1000)),
    "as many parts as fit": (1, b"", b"void main(void) { start { fork (26214; @=0; $=0) seq putint(1); } }", "", lines([1])),
    "as many parts as fit for 1,024": (HARTS, b"", forked(b"1024", b"{ mpadd(&t[0], $); seq putint(t[0]); }")(room(HARTS)), "", lines([1 + HARTS * (HARTS - 1) // 2])),
    "forks as deep as a frame allows": (2, b"", b"void main(void) { start %s seq putint(groupsize()); }" % (b"fork (1; @=0) " * 11), "", lines([2])),
}

# each form of statement and most of expressions, by eight processors. The first part of `main` is what each does by itself
EVERY_FORM = b"""#include <fork.h>
#include <io.h>
struct Pair { int key, at[2]; struct Pair *next; };
sh struct Pair pairs[8];
sh int r[32], k, last = 5;
sh unsigned top = 1 << 31;
int own = 3;
straight int twice(int a) { return a + a; }
int down(int n) { if (n == 0) return 0; else return 1 + down(n - 1); }
async void note(int at, int what) { mpadd(&r[at], what); return; }
sync int spread(sh int n, int a) {
  sh int t[2];
  int s = 0, i;
  t[1] = n * 2;
  for (i = 0; i < a; i++) s += t[1];
  return s + n;
}
void main(void) {
  int i = 0, turns;
  ;
  { int inner = 2; own += inner; }
  if (__PROC_NR__ == 0) last = 6; else if (__PROC_NR__ == 1) ; else own++;
  while (i < 3) { i++; if (i == 2) continue; own += i; }
  do { i--; } while (i > 0);
  for (i = 0; ; i++) { if (i == 4) break; }
  for (turns = 0; turns < 2; turns++) own += twice(i);
  note(0, own);
  barrier;
  start (6) {
    sh int g = 7;
    int *p;
    if (g > 6) r[1] = g; else r[1] = 1;
    if ($ % 2) mpadd(&r[2], groupsize()); else mpadd(&r[3], $);
    if ($ == 4) r[4] = twice($ * 5);
    while (k < 3) k = k + 1;
    do k = k + 2; while (k < 8);
    r[5] = k;
    for (k = 0; k < 10; k++) { if (k == 2) continue; if (k == 5) break; r[6] = r[6] + k; }
    i = $;
    while (i > 2) { mpadd(&r[7], 1); i--; }
    i = 0;
    do { mpadd(&r[8], groupsize()); i++; } while (i < $);
    for (i = 0; i < $; i++) { k = i; if (k == 1) continue; mpadd(&r[9], 1); }
    i = $ > 1 && mpadd(&r[10], 1) >= 0;
    mpadd(&r[11], i);
    i = $ > 1 || mpadd(&r[12], 1) < 0;
    mpadd(&r[13], i);
    i = $ < 2 ? groupsize() : -groupsize();
    mpadd(&r[14], i);
    r[15] = g == 7 && k >= 0 ? g || 0 : 99;
    fork (3; @=$-1; $=$/2) {
      sh int h = @ + 10;
      mpadd(&r[16 + @], h * groupsize() + $);
      farm { barrier; r[16 + @] += h; }
      seq r[16 + @] -= 1;
    }
    farm { int j; for (j = 0; j < $; j++) { if (j == 3) break; note(19, 1); } barrier; if ($ == 0) r[20] = r[19]; }
    seq { r[21] = down(5); while (r[22] < 4) r[22]++; }
    r[23] = spread(2, $);
    p = shalloc(12); p[2] = $; mpadd(&r[24], p[2]);
    p = shmalloc(4); *p = $; mpadd(&r[25], *p);
    p = malloc(4); *p = $ + 1; r[26] = *p;
    pairs[$].key = $ * $; pairs[$].next = &pairs[5 - $]; r[27] = pairs[$].next->key + pairs[0].next->key;
    mpmax(&r[28], $ * 3); mpor(&r[29], 1 << $); mpand(&k, 6);
    top = top / 2u + 1; r[30] = top >> 28;
  }
  if (__PROC_NR__ == 7) { puts("end\\n"); putint(own); putchar('.'); putchar(10); return; }
  mpadd(&r[31], groupsize());
}
"""


def of_every_form():
    """What it leaves in its array, and what its last processor prints."""
    own = [3 + 2 + (rank > 1) + (1 + 3) + 2 * twice(4) for rank in range(8)]
    turns = [sum(rank > turn for rank in SIX) for turn in SIX]
    array = [
        sum(own), 7, 3 * 3, 0 + 2 + 4, twice(4 * 5), 3 + 2 + 2 + 2, 0 + 1 + 3 + 4,
        # loops: the members above 2 as often as they are; as many as are left in each turn, where all do the first
        sum(max(rank - 2, 0) for rank in SIX), 36 + sum(size**2 for size in turns[1:]), sum(turns) - turns[1],
        # signs
        4, 4, 2, 4, 2 * 6 - 4 * 6, 1,
        # the members 1, 2 and 3, each alone, with the ranks 0, 1 and 1
        *[2 * (10 + part) + (part + 1) // 2 - 1 for part in range(3)],
        sum(min(rank, 3) for rank in SIX), sum(min(rank, 3) for rank in SIX), 5, 4, 5 * 2 * 2 + 2,
        # the highest writes a word that all have, and each one of its own
        6 * 5, sum(SIX), 5 + 1, 0 + 5 * 5, 5 * 3, 63, 4, 7 * 8,
    ]
    return b"end\n%d\n.\n" % own[7] + shown("r", *array)


def twice(number):
    return number + number


PROGRAMS["every form of statement"] = (8, b"", EVERY_FORM, "r", of_every_form())
PROGRAMS |= programs(RANDOM)

# ---- faults
TOO_DEEP = b"sh int n; sync void f(void) {\n f(); }\nvoid main(void) {\n start fork (2; @=$/2) if (@) f(); }"
LOST = b"sh int x;\nvoid main(void) {\n  start {\n    pr int *p = 0;\n    fork (3; @=$%3)\n      if (@ == 2) x = *p; else while (@) x = 1;\n  }\n}"
OUTSIDE = b"sh int x;\nvoid main(void) {\n  start {\n    pr int *p = 0;\n    fork (1; @=3-$)\n      x = p[2];\n  }\n}"
LATER = b"sh int x, n;\nvoid main(void) {\n  start {\n    pr int *p = 0;\n    fork (2; @=$<3) { if (@) for (n = 0; n < 1000; n++) ;\n      mpadd(p, @); }\n  }\n}"
THREEFOLD = b"sync void f(pr int d) {\n  fork (3; @=0) { seq putint(d); f(d + 1); } }\nvoid main(void) { start f(0); }"
IN_PART = b"void main(void) {\n  start if ($ > 2)\n    fork (1000000; @=0) ; }"
WIDE = b"void main(void) {\n  start\n    fork (3; @=$<2?5:1) { sh int t[%d]; t[0] = 1; } }" % (LARGEST + 1)
CALLED = b"sync void f(void) { sh int t[%d]; t[0] = 1; }\nvoid main(void) {\n  start fork (3; @=$<2?5:1)\n    f(); }" % (LARGEST + 1)
FAULTS = {
    "one part more than fit": (1, b"void main(void) { start { fork (26215; @=0; $=0) seq putint(1); } }", b"", "GroupSpace", "1:27", 0),
    **{f"a word less for {count} parts": (5, forked(b"%d" % count, b"seq putint(1);")(room(count) - 1), b"", "GroupSpace", "3:5", 0) for count in (1, 2, 3, 100, HARTS)},
    # the words that are kept back are all that are free, and more; 2^32 of them; and the largest count
    **{f"a count of {count}": (3, forked(b"%d" % count, b"seq putint(1);")(ALL_KEPT), b"", "GroupSpace", "3:5", 0) for count in (ALL_KEPT // KEPT, ALL_KEPT // KEPT + 1, 2**30, 2**31 - 1)},
    "the lowest of a part": (6, IN_PART, b"", "GroupSpace", "3:5", 3),
    "a frame of a part with a word too many": (6, WIDE, b"", "GroupSpace", "3:5", 2),
    "a frame of a call in a part": (6, CALLED, b"", "GroupSpace", "4:5", 2),
    "forks into three parts until the space is full": (2, THREEFOLD, lines(range(splits(NONE.free, 3))), "GroupSpace", "2:3", 0),
    "calls too deep in a part": (4, TOO_DEEP, b"", "CallDepth", "2:2", 2),
    "a fault in a part while another runs": (6, LOST, b"", "BadAddress", column(LOST, b"*p", 6), 2),
    "a fault in a part while others wait outside": (6, OUTSIDE, b"", "BadAddress", column(OUTSIDE, b"[2]", 6), 3),
    "the part that faults first": (6, LATER, b"", "BadAddress", column(LATER, b"mpadd", 6), 3),
}
ENDLESS = {
    "a part of a fork never ends": (5, b"sh int x; void main(void) { start { fork (2; @=$%2) if (@) while (1) ; else x = 1; x = 2; } }", "x", shown("x", 1)),
    "one never comes to the end of a farm in a part": (6, b"sh int x, y; void main(void) { start { fork (2; @=$%2) farm if ($ == 3) while (1) ; else mpadd(&x, 1); y = 1; } }", "x", shown("x", 5)),
    "two parts, each with a barrier that one doesn't come to": (4, b"sh int x; void main(void) { start { fork (2; @=$%2) farm { if ($ > 1) barrier; mpadd(&x, 1); } x = 9; } }", "x", shown("x", 2)),
}
# texts that are refused
DEEPER = b"void main(void) { start %s seq ; }" % (b"fork (1; @=0) " * 12)
REFUSED = {
    "forks deeper than a frame allows": (DEEPER, "10 FrameTooLarge main 67"),
    "a fork in asynchronous code": (b"void main(void) { fork (1; @=0) ; }", "8 Rule 24 at 1:19"),
    "a return out of a fork": (b"sync void f(void) { fork (1; @=0) return; } void main(void) { start f(); }", "8 Rule 31 at 1:35"),
    "a break out of a fork": (b"void main(void) { start while (1) fork (1; @=0) break; }", "8 Rule 32 at 1:49"),
    "a continue out of a fork": (b"void main(void) { start while (1) fork (1; @=0) continue; }", "8 Rule 32 at 1:49"),
    "a fork without parts": (b"void main(void) { start fork (1) ; }", "5 Unexpected at 1:32"),
    "a fork with a rank alone": (b"void main(void) { start fork (1; $=0) ; }", "5 Unexpected at 1:34"),
    "a fork of a struct": (b"struct S { int a; }; sh struct S s; void main(void) { start fork (s; @=0) ; }", "8 Rule 19 at 1:67"),
}
