"""Programs with groups that split, with what they print, as in groups.py.

(harts, input, text, the variable that is shown, standard output); those that fault: (harts, text, standard output, kind, place,
processor); those that never end: (harts, text, the variable that is shown, standard output). The numbers are sums of what the
language says of members, sizes and spaces.
"""

from frames import NONE, column
from groups import HARTS, lines, shown, sums

HEADER, KEPT, LEAST_SHARE = 8, 4, 16


def share(free, parts):
    """The words of each part of a split, from the free words of a group."""
    return (free - KEPT * parts) // parts


def room(parts):
    """The fewest free words that so many parts need."""
    return parts * (LEAST_SHARE + KEPT)


def splits(free, parts):
    """How many splits into so many parts fit into one another, from the free words of a group."""
    count = 0
    while share(free, parts) >= LEAST_SHARE:
        free = share(free, parts) - HEADER
        count += 1
    return count


# 64 members add up the numbers 1 to 1000, as whole ranges
NUMBERS = range(1, 1001)
SCAN = b"""#include <fork.h>
#include <io.h>
sh int total;
sh int sums[1000];
sync void scan(sh int n) {
  pr int i;
  pr int lo = $ * n / groupsize();
  pr int hi = ($ + 1) * n / groupsize();
  pr int s = 0;
  for (i = lo; i < hi; i++) s += __input[i];
  s = mpadd(&total, s);
  for (i = lo; i < hi; i++) { s += __input[i]; sums[i] = s; }
}
void main(void) {
  start {
    scan(__inputs);
    farm { barrier; if ($ == 63) { putint(sums[0]); putint(sums[499]); putint(sums[999]); } }
  }
}
"""


def body(text):
    """A program of this statement in lockstep, with an array that it fills."""
    return b"sh int r[16], n; void main(void) { start { %s } }" % text


def values(*numbers):
    """The array of `body`, which begins with these numbers."""
    return shown("r", *numbers, *[0] * (16 - len(numbers)))


def of_parts(harts, part):
    """The sizes of the parts that the members stand in, who are told by their part's name."""
    names = [part(rank) for rank in range(harts)]
    return [names.count(name) for name in names]


EIGHTHS = of_parts(13, lambda rank: rank & 7)

# each statement and sign that splits: the token at whose place it has no room, and how many parts it makes
SPLITTING = {
    b"if ($ < 0) ;": (b"if", 1),
    b"if ($ < 0) ; else ;": (b"if", 2),
    b"while ($ < 0) ;": (b"while", 1),
    b"do ; while ($ < 0);": (b"do", 1),
    b"for (; $ < 0; ) ;": (b"for", 1),
    b"$ < 0 && 1;": (b"&&", 1),
    b"$ < 0 || 1;": (b"||", 1),
    b"$ < 0 ? 1 : 2;": (b"?", 2),
    b"fork (3; @=$) ;": (b"fork", 3),
}
# each statement whose part has a frame of nine words, and the token at whose place these have no room
WITH_FRAMES = {
    b"if ($ > 1) { sh int u[9]; }": (b"if", 1),
    b"if ($ > 1) { sh int u[9]; } else ;": (b"if", 2),
    b"if ($ < 2) ; else { sh int u[9]; }": (b"if", 2),
    b"fork (1; @=$<2) { sh int u[9]; }": (b"fork", 1),
}
# the same of statements whose part all members enter
WITH_FRAMES_OF_ALL = {
    b"while ($ < 0) { sh int u[9]; }": (b"while", 1),
    b"do { sh int u[9]; } while ($ < 0);": (b"do", 1),
    b"for (; $ < 0; ) { sh int u[9]; }": (b"for", 1),
}


def tight(free, statement):
    """A group with so many free words that does this statement."""
    return b"void main(void) {\n  start { sh int t[%d]; t[0] = 7;\n    %s\n    seq putint(t[0]); }\n}" % (NONE.free - free, statement)


def has_no_room(free, statement, token, processor):
    text = tight(free, statement)
    return (5, text, b"", "GroupSpace", column(text, token, 3), processor)


PROGRAMS = {
    # ---- if
    "an if without else": (5, b"", body(b"if ($ % 2) r[0] = groupsize(); r[1] = groupsize();"), "r", values(2, 5)),
    "two parts, each with its highest writer": (5, b"", body(b"if ($ % 2) r[0] = $; else r[1] = $;"), "r", values(3, 4)),
    "both parts add": (6, b"", body(b"if ($ % 2) mpadd(&r[0], 1); else mpadd(&r[0], 1);"), "r", values(6)),
    "both parts with a seq": (4, b"", body(b"if ($ % 2) seq r[0] = $ + 10; else seq r[1] = $ + 10;"), "r", values(11, 10)),
    "both parts with a farm and a barrier": (7, b"", body(b"if ($ % 2) farm { mpadd(&r[0], 1); barrier; mpadd(&r[1], r[0]); } else farm { mpadd(&r[2], 1); barrier; mpadd(&r[3], r[2]); }"),
        "r", values(3, 3 * 3, 4, 4 * 4)),
    "nobody in the only part": (3, b"", body(b"if ($ < 0) r[0] = 1; r[1] = groupsize();"), "r", values(0, 3)),
    "nobody in the first part": (3, b"", body(b"if ($ < 0) r[0] = 1; else r[1] = groupsize(); r[2] = groupsize();"), "r", values(0, 3, 3)),
    "nobody in the second part": (3, b"", body(b"if ($ >= 0) r[0] = groupsize(); else r[1] = 1; r[2] = groupsize();"), "r", values(3, 0, 3)),
    "one alone": (1, b"", body(b"if ($) r[0] = 1; else r[1] = groupsize(); if ($ == 0) r[2] = groupsize();"), "r", values(0, 1, 1)),
    "one of 1,024 enters": (HARTS, b"", body(b"if ($ == 1000) r[0] = groupsize(); r[1] = groupsize();"), "r", values(1, HARTS)),
    "all but one of 1,024 enter": (HARTS, b"", body(b"if ($ != 1000) r[0] = groupsize(); else r[1] = groupsize(); r[2] = groupsize();"), "r", values(HARTS - 1, 1, HARTS)),
    "rank and name stay in parts": (6, b"", body(b"if ($ > 3) r[$] = @ * 1000 + $ * 10 + groupsize(); else r[$] = @ * 1000 + $ * 10 + groupsize(); mpadd(&r[8 + $], @ * 1000 + $ * 10 + groupsize());"),
        "r", values(*[10 * rank + (2 if rank > 3 else 4) for rank in range(6)], 0, 0, *[10 * rank + 6 for rank in range(6)])),
    "splits in splits": (13, b"", body(b"if ($ & 1) if ($ & 2) if ($ & 4) r[$] = groupsize(); else r[$] = groupsize(); else if ($ & 4) r[$] = groupsize(); else r[$] = groupsize();"
        b" else if ($ & 2) if ($ & 4) r[$] = groupsize(); else r[$] = groupsize(); else if ($ & 4) r[$] = groupsize(); else r[$] = groupsize();"), "r", values(*EIGHTHS)),
    "who waits waits for the last": (4, b"", body(b"if ($ == 0) { for (n = 0; n < 1000; n++) ; r[15] = 7; } r[$] = r[15]; seq r[15] = 0;"), "r", values(7, 7, 7, 7)),
    "one part is far longer": (6, b"", body(b"if ($ < 3) for (n = 0; n < 1000; n++) ; else r[6] = 5; r[$] = r[6] + n; r[7] = groupsize();"), "r", values(*[1005] * 6, 5, 6)),
    "two parts that end in one round": (8, b"", body(b"if ($ % 2) r[0] = groupsize(); else r[1] = groupsize(); if ($ % 2) r[2] = 1; else r[3] = 1; r[4] = groupsize();"), "r", values(4, 4, 1, 1, 8)),
    "a shared condition in a part": (5, b"", body(b"if ($ > 1) { n = groupsize(); if (n == 3) r[0] = n; else r[1] = n; }"), "r", values(3)),
    # ---- signs
    "a conditional": (7, b"", body(b"r[$] = $ % 3 ? $ * groupsize() : -groupsize();"), "r", values(*[rank * 4 if rank % 3 else -3 for rank in range(7)])),
    "an and whose part counts": (4, b"", body(b"pr int a; a = $ > 1 && mpadd(&r[0], 1) >= 0; r[1] = groupsize(); mpadd(&r[2], a);"), "r", values(2, 4, 2)),
    "an or whose part counts": (4, b"", body(b"pr int a; a = $ > 1 || mpadd(&r[0], 1) >= 5; r[1] = groupsize(); mpadd(&r[2], a);"), "r", values(2, 4, 2)),
    "signs in signs": (8, b"", body(b"r[$] = $ & 1 && ($ & 2 || groupsize() == 2) ? groupsize() : 10 * groupsize();"), "r", values(*[4 if rank & 1 else 40 for rank in range(8)])),
    "values under a split": (5, b"", body(b"r[$] = 1 + $ * (100 + ($ > 2 ? 10 : 20) * ($ < 1 || $ > 3));"), "r", values(*[1 + rank * (100 + (10 if rank > 2 else 20) * (rank < 1 or rank > 3)) for rank in range(5)])),
    # ---- loops
    "a loop whose members leave": (4, b"", body(b"pr int i; i = $; while (i) { mpadd(&r[0], 1); i--; } r[1] = $; r[2] = groupsize();"), "r", values(6, 3, 4)),
    "sizes in a loop": (4, b"", body(b"pr int i = $; while (i) { r[$] = r[$] * 10 + groupsize(); i--; }"), "r", values(0, 3, 32, 321)),
    "a do loop": (4, b"", body(b"pr int i = $; do { mpadd(&r[0], 1); r[1] = r[1] * 10 + groupsize(); i--; } while (i > 0);"), "r", values(1 + 1 + 2 + 3, 421)),
    "nobody in a loop": (4, b"", body(b"pr int i; for (i = 0; i < 0; i++) r[0] = 1; while ($ < 0) r[0] = 1; r[1] = groupsize();"), "r", values(0, 4)),
    "all leave a loop at once": (4, b"", body(b"pr int i; for (i = 0; i < 5; i++) r[0] = r[0] + groupsize(); r[1] = groupsize();"), "r", values(20, 4)),
    "a loop in a loop": (6, b"", body(b"pr int i, j; for (i = 0; i < $; i++) for (j = 0; j <= i; j++) mpadd(&r[0], 1);"), "r", values(sum(rank * (rank + 1) // 2 for rank in range(6)))),
    "an if in a loop": (4, b"", body(b"pr int i = $; while (i) { if (i % 2) mpadd(&r[0], groupsize()); i--; }"), "r", values(2 + 2 + 1 + 1)),
    "loops of unequal length in both parts": (6, b"", body(b"pr int i = $ % 2 ? $ : 10 * $; if ($ % 2) while (i) { mpadd(&r[0], 1); i--; } else for (; i; i--) mpadd(&r[1], 1); r[2] = groupsize();"),
        "r", values(1 + 3 + 5, 20 + 40, 6)),
    "continue in a while": (4, b"", body(b"pr int i = $; while (i) { i--; n = n + 1; if (n == 2) continue; mpadd(&r[0], 1); }"), "r", values(3 + 1)),
    "continue in a for": (4, b"", body(b"pr int i; for (i = $; i; i--) { n = n + 1; if (n == 2) continue; mpadd(&r[0], 1); }"), "r", values(3 + 1)),
    "continue in a do": (4, b"", body(b"pr int i = $; do { n = n + 1; i--; if (n == 2) continue; mpadd(&r[0], 1); } while (i > 0);"), "r", values(4 + 1)),
    "break of a shared loop in a part": (5, b"", body(b"if ($ % 2) { while (1) { n = n + 1; if (n == 5) break; } r[0] = n; } else { while (n >= 0) { r[1] = r[1] + 1; if (r[1] == 9) break; } }"), "r", values(5, 9)),
    "1,024 members leave one by one": (HARTS, b"", body(b"pr int i = $; while (i) { r[0] = r[0] + groupsize(); i--; } r[1] = groupsize();"), "r", values(HARTS * (HARTS - 1) // 2, HARTS)),
    "prefix sums of an input": (64, b" ".join(b"%d" % number for number in NUMBERS), SCAN, "total", lines(sums(NUMBERS)[at] for at in (0, 499, 999)) + shown("total", sum(NUMBERS))),
    # ---- frames, heaps and calls in parts
    "a frame in each part": (5, b"", body(b"if ($ % 2) { sh int k = $ * 10; r[$] = k + $; } else { sh int k = $; sh int m[3]; m[1] = $; r[$] = k * 100 + m[1]; }"), "r", values(404, 31, 404, 33, 404)),
    "frames of groups around": (4, b"", body(b"sh int k = $ + 1; if ($ < 3) { sh int m = 7; k = k + m; r[0] = k; if ($ == 1) { sh int z = 2; k = k * z + m; } m = m + 1; r[2] = m; } r[1] = k;"), "r", values(11, 29, 8)),
    "the frame of a function around": (4, b"", b"sh int r[16]; sync void g(sh int n) { sh int k = n; if ($ % 2) { sh int m = k * 2; r[0] = m + k; k = k + 100; } r[1] = k; } void main(void) { start g(5); }", "r", values(15, 105)),
    "a frame in a loop": (4, b"", body(b"pr int i = $; while (i) { sh int k; k = k + groupsize(); r[$] = r[$] * 10 + k; i--; }"), "r", values(0, 3, 32, 321)),
    "a function in both parts at once": (5, b"", b"sh int r[16]; sync int f(sh int n) { sh int k = n * 10; pr int s = k + groupsize(); return s; } void main(void) { start { if ($ < 2) r[$] = f($ + 1); else r[$] = f($); r[5] = f(7); } }",
        "r", values(22, 22, 43, 43, 43, 75)),
    "blocks in both parts": (5, b"", body(b"pr int *p; if ($ < 2) { p = shalloc(8); p[1] = $ + 5; r[0] = p[1]; } else { p = shalloc(8); p[1] = $ * 3; r[1] = p[1]; } p = shalloc(8); p[0] = $; r[2] = p[0];"), "r", values(6, 12, 4)),
    "recursion in parts": (5, b"", b"sh int r[16]; sync int steps(pr int n) { pr int s = 0; mpadd(&r[5], 1); if (n > 0) s = 1 + steps(n - 1); return s; } void main(void) { start r[$] = steps($ * 2); }",
        "r", values(0, 2, 4, 6, 8, sum(2 * rank + 1 for rank in range(5)))),
    **{f"just enough words for {statement.decode()}": (5, b"", tight(room(count), statement), "", lines([7])) for statement, (_, count) in SPLITTING.items()},
    **{f"just enough words for {statement.decode()}": (5, b"", tight(room(count) + count, statement), "", lines([7])) for statement, (_, count) in (WITH_FRAMES | WITH_FRAMES_OF_ALL).items()},
    "splits of calls in splits": (7, b"", b"sh int r[16]; sync int f(pr int n) { pr int s; if (n % 2) s = n ? groupsize() : 9; else s = 10 * groupsize(); return s; } void main(void) { start { if ($ > 2) r[$] = f($); else r[$] = 100 + f($ + 1); } }",
        "r", values(102, 110, 102, 2, 20, 2, 20)),
}

CONDITIONS = b"sync void f(pr int d) {\n  if ($ >= 2) { seq putint(d); f(d + 1); } %s}\nvoid main(void) { start { sh int t[%d]; t[0] = 1; f(0); } }"


def nested(free, other):
    """Splits in one another, from so many free words, with this after the `if`."""
    return CONDITIONS % (other, NONE.free - free)


BOTH = b"sync void f(pr int d) {\n  if ($ < 1) { seq putint(d); f(d + 1); } else ; }\nvoid main(void) { start f(0); }"
DEREFERENCE = b"sh int x;\nvoid main(void) {\n  start {\n    pr int *p = &x;\n    if ($ == 5) p = 0;\n    putint($);\n    x = *p;\n  }\n}"
WAITING = b"sh int x;\nvoid main(void) {\n  start {\n    pr int *p = 0;\n    if ($ % 2)\n      x = *p;\n  }\n}"
RUNNING = b"sh int x;\nvoid main(void) {\n  start {\n    pr int *p = 0;\n    if ($ < 2) while (1) x = 1;\n    else x = *p;\n  }\n}"
LATER = b"sh int x, n;\nvoid main(void) {\n  start {\n    pr int *p = 0;\n    if ($ < 2) { for (n = 0; n < 1000; n++) ; x = *p; }\n    else\n      x = *p;\n  }\n}"
FAULTS = {
    "splits into two parts until the space is full": (1, BOTH, lines(range(splits(NONE.free, 2))), "GroupSpace", "2:3", 0),
    "splits into one part until the space is full": (5, nested(100, b""), lines(range(splits(100, 1))), "GroupSpace", "2:3", 2),
    "just enough words for one part": (5, nested(room(1), b""), lines([0]), "GroupSpace", "2:3", 2),
    "a word less for one part": (5, nested(room(1) - 1, b""), b"", "GroupSpace", "2:3", 0),
    "just enough words for two parts": (5, nested(room(2), b"else ; "), lines([0]), "GroupSpace", "2:3", 2),
    "a word less for two parts": (5, nested(room(2) - 1, b"else ; "), b"", "GroupSpace", "2:3", 0),
    **{f"a word less for {statement.decode()}": has_no_room(room(count) - 1, statement, token, 0) for statement, (token, count) in SPLITTING.items()},
    # the share has a word less than header and frame
    **{f"a word less for {statement.decode()}": has_no_room(room(count), statement, token, 2) for statement, (token, count) in WITH_FRAMES.items()},
    **{f"a word less for {statement.decode()}": has_no_room(room(count), statement, token, 0) for statement, (token, count) in WITH_FRAMES_OF_ALL.items()},
    "one that went by itself": (8, DEREFERENCE, lines(range(8)), "BadAddress", column(DEREFERENCE, b"*p", 7), 5),
    "a fault in a part while the others wait": (6, WAITING, b"", "BadAddress", column(WAITING, b"*p", 6), 1),
    "a fault in a part while another runs": (6, RUNNING, b"", "BadAddress", column(RUNNING, b"*p", 6), 2),
    "the part that faults first": (6, LATER, b"", "BadAddress", column(LATER, b"*p", 7), 2),
}
assert splits(NONE.free, 2) == 14 and splits(100, 1) == 7

ENDLESS = {
    "a part that never ends": (4, b"sh int x; void main(void) { start { if ($ < 2) while (1) ; else x = 1; x = 2; } }", "x", shown("x", 1)),
    "one never leaves a loop": (4, b"sh int x; void main(void) { start { while ($ == 2) ; x = 1; } }", "x", shown("x", 0)),
}
