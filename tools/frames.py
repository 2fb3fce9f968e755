"""Programs with group frames, `shalloc` and `shmalloc`, with what they print, as in groups.py.

(harts, input, text, the variable that is shown, standard output); those that fault: (harts, text, standard output, kind, place,
processor). The numbers are sums of what the language says of spaces, in words: see `Memory`.
"""

from dataclasses import dataclass

from groups import HARTS, lines, shown

DATA = 0x10000000
HEADER = 8


@dataclass
class Memory:
    """Shared data of a program with so many words of globals and no input."""

    of_globals: int

    @property
    def rest(self):
        return (1 << 20) - self.of_globals

    @property
    def group(self):
        """The words of the space of the group of `start`. It begins directly after the globals."""
        return self.rest // 2

    @property
    def free(self):
        """Its free words, before any frame."""
        return self.group - HEADER

    @property
    def heap(self):
        """The words of the global heap."""
        return self.rest - self.group

    def address(self, word):
        """The bytes from the beginning of shared data to a word of the group's space after its header."""
        return 4 * (self.of_globals + HEADER + word)


NONE, ONE, THREE = Memory(0), Memory(1), Memory(3)
assert (NONE.group, NONE.free, NONE.heap) == (524288, 524280, 524288)

# calls in one another whose frames of WORDS words fill the space of a text without globals to its last word: 255 * 2,056 = 524,280
DEEPEST, WORDS = 255, 2056
assert DEEPEST * WORDS == NONE.free
# all harts ask for SHARE words of a heap of 1024 * 511 words, which a text with 2,048 words of globals has
WHOLE, SHARE = Memory(2048), 511
assert HARTS * SHARE == WHOLE.heap
# of a text with 1,025 words of globals 872 harts get 600 words: 872 * 600 = 523,200, and 523,776 - 523,200 = 576 are left
PART, PIECE = Memory(1025), 600
SERVED = PART.heap // PIECE
assert (PART.heap, SERVED) == (523776, 872)


def deep(words):
    """A `sync` function with a frame of so many words, of which 255 calls stand in one another."""
    return b"""sync int deep(sh int n) {
  sh int k = n;
  sh int t[%d];
  t[%d] = k;
  if (n < %d)
    return deep(n + 1) + t[%d] - k;
  return k;
}
void main(void) { start { pr int r = deep(1); seq putint(r); } }""" % (words - 2, words - 3, DEEPEST, words - 3)


PROGRAMS = {
    # ---- variables and parameters of functions
    "the highest member's parameter": (4, b"", b"sh int r; sync int twice(sh int n) { sh int k; k = n + n; return k; } void main(void) { start { r = twice($); } }", "r", shown("r", 2 * 3)),
    "a parameter and a member's own": (4, b"", b"sh int r[4]; sync int both(sh int n, pr int own) { return n * 100 + own; } void main(void) { start r[$] = both($ * 3, $); }",
        "r", shown("r", *[9 * 100 + rank for rank in range(4)])),
    "parameters in their order": (3, b"", b"sh int r[3]; sync int f(pr int a, sh int b, pr int c, sh int d) { return a * 1000 + b * 100 + c * 10 + d; } void main(void) { start r[$] = f($ + 1, $ + 4, $ + 5, $ + 7); }",
        "r", shown("r", *[(rank + 1) * 1000 + 6 * 100 + (rank + 5) * 10 + 9 for rank in range(3)])),
    "a parameter that is set": (3, b"", b"sh int r[3]; sync int f(sh int n) { n = n * 10 + $; return n; } void main(void) { start r[$] = f($); }", "r", shown("r", *[2 * 10 + 2] * 3)),
    "the highest writer of a variable": (5, b"", b"sh int r[5]; sync int f(void) { sh int k = $ + 1; k = k * 10 + $; return k; } void main(void) { start r[$] = f(); }", "r", shown("r", *[5 * 10 + 4] * 5)),
    "a variable of each call": (2, b"", b"sh int r[4]; sync int zero(void) { sh int k; k = k + 1; return k; } sync int five(void) { sh int k = 5; k = k + 1; return k; }"
        b" void main(void) { start { r[0] = zero(); r[1] = zero(); r[2] = five(); r[3] = five(); } }", "r", shown("r", 1, 1, 6, 6)),
    "frames in one another": (2, b"", b"sh int r; sync int inner(sh int n) { sh int k = 2; return k * 10 + n; } sync int outer(sh int n) { sh int k = 1; pr int in = inner(n + 1); return k * 1000 + n * 100 + in; }"
        b" void main(void) { start r = outer(5); }", "r", shown("r", 1 * 1000 + 5 * 100 + 2 * 10 + 6)),
    "a recursion with a variable of its own": (3, b"", b"sh int r[3]; sync int product(sh int n) { sh int p = 1; if (n > 1) p = n * product(n - 1); return p; } void main(void) { start r[$] = product(7); }",
        "r", shown("r", *[5040] * 3)),
    "a loop that a shared variable counts": (4, b"", b"sh int r[4]; sync int sum(sh int n) { sh int i; pr int s = 0; for (i = 1; i <= n; i++) s += i * ($ + 1); return s; } void main(void) { start r[$] = sum(10); }",
        "r", shown("r", *[55 * (rank + 1) for rank in range(4)])),
    "a struct through its address": (3, b"", b"""struct P { int x; int y[2]; };
sh int r[3];
sync void read(struct P *p) { r[0] = p->x; r[1] = p->y[0]; r[2] = (*p).y[1]; }
sync void f(void) { sh int before = 1; sh struct P s; sh int behind = 2; s.x = 5; s.y[0] = 6; s.y[1] = $; read(&s); r[0] += before * 100; r[1] += behind * 100; }
void main(void) { start f(); }""", "r", shown("r", 105, 206, 2)),
    "values under a call": (7, b"", b"sh int r[7]; sync int twice(sh int n) { sh int k; k = n + n; return k; } void main(void) { start r[$] = 1 + $ * (3 + twice(3) * twice(4) - twice(twice(1))); }",
        "r", shown("r", *[1 + rank * (3 + 6 * 8 - 4) for rank in range(7)])),
    "many parameters": (5, b"", b"""sh int r[5];
sync int f(sh int a, pr int b, sh int c, pr int d, sh int e, sh int g, pr int h, sh int i) {
  sh int t[3];
  t[2] = 5;
  return a + 2 * b + 3 * c + 4 * d + 5 * e + 6 * g + 7 * h + 8 * i + 9 * t[2];
}
void main(void) { start r[$] = f($, $, 2 * $, 2 * $, 3 * $, $ + 1, $ + 1, $ + 2); }""",
        # the shared ones have the values of member 4
        "r", shown("r", *[4 + 2 * rank + 3 * 8 + 4 * 2 * rank + 5 * 12 + 6 * 5 + 7 * (rank + 1) + 8 * 6 + 9 * 5 for rank in range(5)])),
    "functions with frames and without": (3, b"", b"""sh int r[3];
sync int framed(sh int n);
sync int unframed(int x) { return framed(x - 1) + $; }
sync int framed(sh int n) { sh int k = n * 10; int inner; if (n <= 0) return 1; inner = unframed(n); return inner + k + n; }
void main(void) { start r[$] = framed(5); }""", "r", shown("r", *[1 + sum(11 * n + rank for n in range(1, 6)) for rank in range(3)])),
    "a farm and a seq in a function with a frame": (HARTS, b"", b"""sh int r;
sync int count(sh int by) { sh int c, t[4]; farm { mpadd(&c, by); barrier; if ($ == 0) c += 1; barrier; mpadd(&c, by); } seq { t[by] = $ + 7; c += t[by]; } return c; }
void main(void) { start { sh int z = count(1); z += count(2); r = z; } }""", "r", shown("r", (2 * HARTS + 1 + 7) + (4 * HARTS + 1 + 7))),
    "returns out of loops": (4, b"", b"sh int r[4]; sync int f(sh int n) { sh int i; for (i = 0; i < 100; i++) { if (i == n) return i * 10; if (n < 0) return -1; } return 7; } void main(void) { start { r[0] = f(5); r[1] = f(-3); r[2] = f(200); r[3] = f(0); } }",
        "r", shown("r", 50, -1, 7, 0)),
    "private variables of file scope beside a frame": (6, b"", b"".join(b"int v%d = %d; " % (number, number) for number in range(40)) + b"""sh int r[6];
sync int f(sh int n) { sh int k = n + v39; v0 += k; return k + v20; }
void main(void) { start { sh int z = 3; sh int y = 4; v1 += $; r[$] = f(z) * 10 + y + v1; v2 = r[$]; } start { sh int u; u += 5; r[$] = v2 + v0 + u; } }""",
        "r", shown("r", *[(3 + 39 + 20) * 10 + 4 + 1 + rank + 3 + 39 + 5 for rank in range(6)])),
    # ---- where frames lie
    "frames one after another": (2, b"", b"""sh unsigned at[2]; sh int sum;
sync void first(void) { sh int a[2]; at[0] = (unsigned)&a[1]; a[0] = 7; a[1] = 8; }
sync void second(void) { sh int b[3]; at[1] = (unsigned)&b[1]; sum = b[0] * 10 + b[1]; }
void main(void) { start { first(); second(); seq { putint(at[0] - 0x10000000); putint(at[1] - 0x10000000); } } }""", "sum",
        # both begin directly after the header: an array keeps what its words hold
        lines([THREE.address(1)] * 2) + shown("sum", 78)),
    "a frame behind that of its caller": (2, b"", b"""sh unsigned at[3];
sync void inner(void) { sh int a[4]; at[2] = (unsigned)&a[0]; }
sync void outer(void) { sh int b[5]; at[1] = (unsigned)&b[0]; inner(); }
void main(void) { start { sh int c[6]; at[0] = (unsigned)&c[0]; outer(); seq { putint(at[0] - 0x10000000); putint(at[1] - 0x10000000); putint(at[2] - 0x10000000); } } }""", "",
        # 6 words of the body of `start`, and 5 of the caller
        lines([THREE.address(0), THREE.address(6), THREE.address(6 + 5)])),
    "frames are given back": (3, b"", b"sh int r, i; sync int next(void) { sh int t[500000]; t[499999] = t[499999] + 1; if (t[499999] > 50) return t[499999]; return -1; }"
        b" void main(void) { start for (i = 0; i < 100; i++) r = next(); }", "r", shown("r", 100)),
    "variables of a body of start": (3, b"", b"sh int r[3]; void main(void) { start { sh int g; sh int h = 3; g = $; { sh int in = 4; h += in; } r[$] = g * 10 + h; } }", "r", shown("r", *[2 * 10 + 7] * 3)),
    "a variable of a group in its farm and seq": (8, b"", b"void main(void) { start { sh int c; farm { mpadd(&c, 1); barrier; if ($ == 3) c += c; } seq putint(c); } }", "", lines([16])),
    "each start has its frame": (4, b"", b"sh int r[2]; void main(void) { start { sh int k; k = k + 7; r[0] = k; } start (2) { sh int k; k = k + $; r[1] = k; } }", "r", shown("r", 7, 1)),
    "the largest frame of a start": (2, b"", b"void main(void) { start { sh int t[%d]; t[%d] = $ + 1; seq putint(t[%d]); } }" % (NONE.free, NONE.free - 1, NONE.free - 1), "", lines([2])),
    "frames that fill the space": (2, b"", deep(WORDS), "", lines([DEEPEST])),
    # ---- shalloc
    "blocks of a group": (1, b"", b"void main(void) { start { putint(shalloc(2097124) != 0); putint(shalloc(2097120) != 0); putint(shalloc(4) != 0); } }", "", lines([0, 1, 0])),
    "no block": (2, b"", b"void main(void) { start { pr int *a = shalloc(0), *b = shalloc(-1), *c = shalloc(-2147483647 - 1), *d = shalloc(2147483647); seq { putint(a != 0); putint(b != 0); putint(c != 0); putint(d != 0); } } }",
        "", lines([0, 0, 0, 0])),
    "all that is free beside a frame": (3, b"", b"""void main(void) {
  start {
    sh int k = 9;
    pr int *more = shalloc(%d), *all = shalloc(%d), *one = shalloc(1);
    all[0] = 1; all[%d] = 2;
    seq { putint(more != 0); putint((unsigned)all - 0x10000000); putint(one != 0); putint(all[0] * 100 + all[%d] * 10 + k); }
  }
}""" % (4 * NONE.free, 4 * (NONE.free - 1), NONE.free - 2, NONE.free - 2), "",
        # the frame has a word, so one word less than 524,280 is free: the block begins directly after it
        lines([0, NONE.address(1), 0, 129])),
    "blocks from the end downwards": (2, b"", b"""void main(void) {
  start {
    pr unsigned a = (unsigned)shalloc(1), b = (unsigned)shalloc(4), c = (unsigned)shalloc(5);
    seq { putint(a - 0x10000000); putint(b - 0x10000000); putint(c - 0x10000000); }
  }
}""", "", lines([4 * (NONE.group - 1), 4 * (NONE.group - 2), 4 * (NONE.group - 4)])),
    "a block of the size of the highest": (3, b"", b"void main(void) { start { pr unsigned a = (unsigned)shalloc(4 * $ + 4), b = (unsigned)shalloc(4); seq { putint(a - 0x10000000); putint(a - b); } } }",
        "", lines([4 * (NONE.group - 3), 4])),
    "a block outlives the call": (2, b"", b"""sync int *block(sh int n) { sh int t[100]; pr int *p = shalloc(8); t[0] = n; p[$] = n * 10 + $; return p; }
void main(void) { start { pr int *a = block(1), *b = block(2); seq { putint(a[0]); putint(a[1]); putint(b[0]); putint(b[1]); putint((unsigned)a - (unsigned)b); } } }""",
        "", lines([10, 11, 20, 21, 8])),
    "blocks end with their group": (2, b"", b"void main(void) { pr int *p; start { p = shalloc(2097120); p[1] = 5; } putint(p[1]); start { pr int *q = shalloc(2097120); seq { putint(q == p); putint(q[1]); } } }",
        # behind the group its words are words of shared data; the next group begins with an empty space
        "", lines([5, 5, 1, 5])),
    "frame and block leave no word": (2, b"", b"sh int r; sync int f(sh int n) { sh int t[7]; t[6] = n; return t[6]; } void main(void) { start { pr int *p = shalloc(%d); p[0] = 1; r = f(6) * 10 + (p != 0); } }" % (4 * (ONE.free - 8)),
        "r", shown("r", 61)),
    # ---- shmalloc
    "the heap to its last word": (1, b"", b"void main(void) { putint(shmalloc(2097148) != 0); putint(shmalloc(1) != 0); putint(shmalloc(1) != 0); putint(shmalloc(4) != 0); }", "", lines([1, 1, 0, 0])),
    "a full heap": (1, b"", b"void main(void) { putint(shmalloc(2097156) != 0); putint(shmalloc(4) != 0); }", "", lines([0, 0])),
    "a size of nothing fills no heap": (1, b"", b"void main(void) { putint(shmalloc(0) != 0); putint(shmalloc(-1) != 0); putint(shmalloc(-2147483647 - 1) != 0); putint(shmalloc(2097152) != 0); putint(shmalloc(0) != 0); }",
        "", lines([0, 0, 0, 1, 0])),
    "the largest size fills the heap": (1, b"", b"void main(void) { putint(shmalloc(2147483647) != 0); putint(shmalloc(4) != 0); }", "", lines([0, 0])),
    "blocks of the heap in a group": (4, b"", b"sh unsigned a[4]; void main(void) { start { a[$] = (unsigned)shmalloc(4 * $ + 1) - 0x10000000; } }", "a",
        # 1, 2, 3 and 4 words, in the order of the members, from the end of the group's space on
        shown("a", *[4 * (4 + Memory(4).group + words) for words in (0, 1, 3, 6)])),
    "the heap in a farm": (64, b"", b"""sh int c; sh unsigned behind;
void main(void) {
  start {
    farm { int i; for (i = 0; i < $ % 7 + 1; i++) { unsigned *q = shmalloc(8); mpadd(&c, 1); q[0] = $; q[1] = i; if (q[0] != $ || q[1] != i) mpadd(&c, 100000); } }
    seq behind = (unsigned)shmalloc(4) - 0x10000000;
    seq putint(behind);
  }
}""", "c",
        # so many blocks of 2 words each, in whatever order
        (lambda blocks: lines([4 * (2 + Memory(2).group + 2 * blocks)]) + shown("c", blocks))(sum(rank % 7 + 1 for rank in range(64)))),
    "all take of the heap at once": (HARTS, b"", b"""sh unsigned a[1024]; sh int c;
void main(void) {
  start {
    a[$] = (unsigned)shmalloc(%d);
    mpadd(&c, a[$] != 0);
    mpadd(&c, (shmalloc(4) != 0) * 10000);
    seq { putint(c); putint(a[0] - 0x10000000); putint(a[%d] - a[0]); putint(a[%d]); putint(a[1023]); }
  }
  mpadd(&c, (shmalloc(1) != 0) * 10000);
}""" % (4 * PIECE, SERVED - 1, SERVED), "c",
        lines([SERVED, 4 * (PART.of_globals + PART.group), 4 * PIECE * (SERVED - 1), 0, 0]) + shown("c", SERVED)),
    "all take the whole heap": (HARTS, b"", b"""sh int a[1024], b[1022], c, d;
void main(void) {
  start {
    pr int *p = shmalloc(%d);
    mpadd(&c, p != 0);
    p[%d] = $; a[$] = p[%d] - $;
    mpadd(&d, (a[$] != 0) + (shmalloc(1) != 0));
    seq putint(d);
  }
}""" % (4 * SHARE, SHARE - 1, SHARE - 1), "c", lines([0]) + shown("c", HARTS)),
    "all take of the heap by themselves": (HARTS, b"", b"sh int a[1024], b[1022], c, d; void main(void) { pr int *p = shmalloc(%d); p[0] = $; mpadd(&c, p[0] == $); barrier; mpadd(&d, shmalloc(1) != 0); barrier; if ($ == 0) putint(d); }" % (4 * SHARE),
        "c", lines([0]) + shown("c", HARTS)),
}


def column(text, piece, line):
    """The place of a piece of a line, which occurs there once."""
    of_line = text.split(b"\n")[line - 1]
    assert of_line.count(piece) == 1
    return f"{line}:{of_line.index(piece) + 1}"


# the parameter and the array: 5,001 words a call. 104 * 5,001 = 520,104, and 4,176 words are left
FRAMES = b"sync int frames(sh int a) {\n  sh int t[5000]; t[a] = 1; seq putint(a);\n  return frames(a + 1);\n}\nvoid main(void) { start frames(0); }"
DEEP = deep(WORDS + 1)
ONE_MORE = b"void main(void) {\n  start { sh int t[%d]; t[0] = 1; }\n}" % (NONE.free + 1)
WIDE = b"void main(void) {\n  start (2) { sh int a[524288]; sh int b[524288]; sh int c[2]; c[1] = 1; }\n}"
BLOCKED = b"sync int f(void) {\n  sh int t[8]; return t[0]; }\nvoid main(void) {\n  start { shalloc(%d);\n    f(); }\n}" % (4 * (NONE.free - 7))
FAULTS = {
    "a recursion with an array": (3, FRAMES, lines(range(NONE.free // 5001)), "GroupSpace", column(FRAMES, b"frames", 3), 0),
    # 2,057 words a call: 254 * 2,057 = 522,478, and 1,802 are left for the call of depth 256
    "one word more in each of 255 frames": (2, DEEP, b"", "GroupSpace", column(DEEP, b"deep", 6), 0),
    "a frame of one word too many": (4, ONE_MORE, b"", "GroupSpace", "2:3", 0),
    "a frame of more than all shared data": (5, WIDE, b"", "GroupSpace", "2:3", 0),
    # a block that leaves 7 words, and a frame of 8
    "a block before a frame": (3, BLOCKED, b"", "GroupSpace", column(BLOCKED, b"f()", 5), 0),
}
assert NONE.free // 5001 == 104 and NONE.free // (WORDS + 1) == 254
