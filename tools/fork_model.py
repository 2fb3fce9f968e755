"""Random programs whose groups split and fork, with what they leave in an array, by a model of groups.

The members of all groups add to the array by `mpadd` alone, so what it holds at the end doesn't rest on the order in which parts
that stand side by side do it. The model runs one part after another. It knows nothing of rounds, frames and code, only of members,
parts and the words of a space.
"""

import random
from dataclasses import dataclass, field

from frames import Memory
from groups import shown
from splits import HEADER, LEAST_SHARE, share

# the words of the array, and the most that one function has of splits in one another
WORDS, DEEPEST = 16, 4
# a program is given up where a group has no room for its parts, or where its run takes more steps
STEPS = 4000


class GivenUp(Exception):
    pass


@dataclass
class Member:
    number: int
    rank: int
    own: int


@dataclass
class Group:
    """Its members in ascending order, the number `@`, its free words, and the shared variables that they see."""

    members: list
    name: int
    free: int
    shared: dict = field(default_factory=dict)

    def part(self, members, name, free):
        return Group(members, name, free, dict(self.shared))


@dataclass
class Value:
    """An expression: its text, and its value for a member of a group."""

    text: str
    of: object


@dataclass
class Statement:
    """Its text, what a group does by it, and the shared words that it declares outside inner parts."""

    text: str
    by: object
    words: int = 0


def quotient(dividend, divisor):
    """As in C: towards 0."""
    return abs(dividend) // divisor * (1 if dividend >= 0 else -1)


def remainder(dividend, divisor):
    return dividend - divisor * quotient(dividend, divisor)


def into_parts(group, count, part_of, words, bodies, rank_of=None):
    """A split into so many parts: each member enters the part that it names, if there is one. With ranks it is a `fork`."""
    free = share(group.free, count) - HEADER
    if free < LEAST_SHARE - HEADER:
        raise GivenUp
    # all members name their parts and ranks before any part runs
    named = [(part_of(member), member, rank_of(member) if rank_of else member.rank) for member in group.members]
    for name in range(count):
        inside = [(member, member.rank, rank) for part, member, rank in named if part == name]
        if not inside:
            continue
        if free < words:
            raise GivenUp
        for member, _, rank in inside:
            member.rank = rank
        bodies[name % len(bodies)](group.part([member for member, _, _ in inside], name if rank_of else group.name, free - words))
        for member, before, _ in inside:
            member.rank = before


class Maker:
    """Makes the statements of one program, and runs them on its array."""

    def __init__(self, seed):
        self.random = random.Random(seed)
        self.names = 0
        self.array = [0] * WORDS
        self.steps = 0

    def shared_value(self, visible):
        number = self.random.randrange(1, 4)
        values = [
            Value(f"{number}", lambda group, member: number),
            Value("@", lambda group, member: group.name),
            Value("groupsize()", lambda group, member: len(group.members)),
            Value(f"(@ + {number})", lambda group, member: group.name + number),
            Value(f"groupsize() / {number}", lambda group, member: len(group.members) // number),
        ]
        values += [Value(name, lambda group, member, name=name: group.shared[name]) for name in visible]
        return self.random.choice(values)

    def private_value(self):
        number = self.random.randrange(2, 5)
        return self.random.choice(
            [
                Value("$", lambda group, member: member.rank),
                Value(f"$ % {number}", lambda group, member: remainder(member.rank, number)),
                Value(f"$ / {number}", lambda group, member: quotient(member.rank, number)),
                Value(f"({number} - $)", lambda group, member: number - member.rank),
                Value("own", lambda group, member: member.own),
                Value(f"__PROC_NR__ % {number}", lambda group, member: member.number % number),
            ]
        )

    def value(self, visible):
        return self.shared_value(visible) if self.random.random() < 0.5 else self.private_value()

    def block(self, visible, depth, inside_loop=0):
        made = [self.statement(visible, depth, inside_loop) for _ in range(self.random.randrange(1, 4))]

        def by(group):
            for one in made:
                one.by(group)

        return Statement("{ " + " ".join(one.text for one in made) + " }", by, sum(one.words for one in made))

    def statement(self, visible, depth, inside_loop):
        simple = [self.add, self.add, self.own, self.seq, self.farm]
        if depth == 0:
            return self.random.choice(simple)(visible)
        splits = [self.fork, self.fork, self.fork, self.if_private, self.if_shared, self.for_shared]
        splits += [] if inside_loop > 1 else [self.while_private]
        make = self.random.choice(splits if self.random.random() < 0.75 else simple)
        return make(visible) if make in simple else make(visible, depth - 1, inside_loop)

    def plus(self, index, value):
        self.array[index] = (self.array[index] + value + 2**31) % 2**32 - 2**31

    def add(self, visible):
        index, value = self.random.randrange(WORDS), self.value(visible)

        def by(group):
            self.steps += 1
            if self.steps > STEPS:
                raise GivenUp
            for member in group.members:
                self.plus(index, value.of(group, member))

        return Statement(f"mpadd(&r[{index}], {value.text});", by)

    def own(self, visible):
        value = self.value(visible)

        def by(group):
            for member in group.members:
                member.own = value.of(group, member)

        return Statement(f"own = {value.text};", by)

    def seq(self, visible):
        index, value = self.random.randrange(WORDS), self.value(visible)
        return Statement(f"seq mpadd(&r[{index}], {value.text});", lambda group: self.plus(index, value.of(group, group.members[0])))

    def farm(self, visible):
        index, value = self.random.randrange(WORDS), self.private_value()

        def by(group):
            for member in group.members:
                if value.of(group, member) > 1:
                    self.plus(index, len(group.members))

        return Statement(f"farm {{ barrier; if ({value.text} > 1) mpadd(&r[{index}], groupsize()); barrier; }}", by)

    def fork(self, visible, depth, inside_loop):
        count = self.shared_value(visible) if self.random.random() < 0.8 else self.private_value()
        part, rank = self.private_value(), self.random.choice([self.private_value(), None])
        self.names += 1
        name, start = f"k{self.names}", self.shared_value(visible)
        body = self.block([*visible, name], depth, inside_loop)

        def inside(group):
            group.shared[name] = start.of(group, group.members[-1])
            body.by(group)

        def by(group):
            agreed = count.of(group, group.members[-1])
            if agreed > 0:
                new_rank = rank or Value("", lambda group, member: member.rank)
                into_parts(group, agreed, lambda member: part.of(group, member), body.words + 1, [inside], lambda member: new_rank.of(group, member))

        ranks = f"; $={rank.text}" if rank else ""
        return Statement(f"fork ({count.text}; @={part.text}{ranks}) {{ sh int {name} = {start.text}; {body.text} }}", by)

    def if_private(self, visible, depth, inside_loop):
        value, number = self.private_value(), self.random.randrange(-1, 4)
        bodies = [self.block(visible, depth, inside_loop) for _ in range(self.random.randrange(1, 3))]

        def by(group):
            # the first part is that of the members for whom the condition holds; each part has a frame of its own
            into_parts(group, len(bodies), lambda member: 0 if value.of(group, member) > number else 1, max(body.words for body in bodies), [body.by for body in bodies])

        otherwise = f" else {bodies[1].text}" if len(bodies) > 1 else ""
        return Statement(f"if ({value.text} > {number}) {bodies[0].text}{otherwise}", by)

    def if_shared(self, visible, depth, inside_loop):
        value, number = self.shared_value(visible), self.random.randrange(0, 3)
        body, other = self.block(visible, depth, inside_loop), self.block(visible, depth, inside_loop)

        def by(group):
            (body if value.of(group, group.members[-1]) > number else other).by(group)

        return Statement(f"if ({value.text} > {number}) {body.text} else {other.text}", by, body.words + other.words)

    def for_shared(self, visible, depth, inside_loop):
        self.names += 1
        name, most = f"t{self.names}", self.random.randrange(1, 4)
        body = self.block([*visible, name], depth, inside_loop + 1)

        def by(group):
            for turn in range(most):
                group.shared[name] = turn
                body.by(group)

        return Statement(f"{{ sh int {name}; for ({name} = 0; {name} < {most}; {name}++) {body.text} }}", by, body.words + 1)

    def while_private(self, visible, depth, inside_loop):
        self.names += 1
        name, value = f"i{self.names}", self.private_value()
        body = self.block(visible, depth, inside_loop + 1)

        def by(group):
            turns = {member.number: 0 for member in group.members}
            free = share(group.free, 1)
            if free < LEAST_SHARE or free - HEADER < body.words:
                raise GivenUp
            inside = list(group.members)
            while inside:
                one = group.part(inside, group.name, free - HEADER - body.words)
                inside = [member for member in inside if turns[member.number] < remainder(value.of(one, member), 4)]
                if inside:
                    body.by(group.part(inside, group.name, free - HEADER - body.words))
                for member in inside:
                    turns[member.number] += 1

        return Statement(f"{{ pr int {name} = 0; while ({name} < ({value.text}) % 4) {{ {body.text} {name}++; }} }}", by)

    def program(self, harts):
        """A text whose group calls a function as deep as it is told, and what its array holds at the end."""
        first, last = self.block(["d"], DEEPEST - 1), self.block(["d"], 2)
        start = self.random.randrange(0, 3)
        kept = first.words + last.words + 1

        def call(group, depth, own):
            inner = Group(group.members, group.name, group.free - kept, {"d": depth})
            if inner.free < 0:
                raise GivenUp
            before = [member.own for member in group.members]
            for member, value in zip(group.members, own):
                member.own = value
            first.by(inner)
            if depth > 0:
                parts = depth + 1
                into_parts(inner, parts, lambda member: remainder(member.rank, parts), 0, [lambda part: call(part, depth - 1, [member.own + 1 for member in part.members])], lambda member: quotient(member.rank, parts))
            last.by(inner)
            for member, value in zip(group.members, before):
                member.own = value

        call(Group([Member(number, number, 0) for number in range(harts)], 0, Memory(WORDS).free), start, list(range(harts)))
        text = f"""sh int r[{WORDS}];
sync void f(sh int d, int own) {{
  {first.text}
  if (d > 0) fork (d + 1; @=$ % (d + 1); $=$ / (d + 1)) f(d - 1, own + 1);
  {last.text}
}}
void main(void) {{ start f({start}, $); }}
"""
        return (harts, b"", text.encode(), "r", shown("r", *self.array))


def programs(count, first=0):
    """So many programs, by the numbers that they are made from."""
    made = {}
    seed = first
    while len(made) < count:
        harts = (1, 2, 3, 5, 8, 13, 16, 64)[seed % 8]
        try:
            made[f"a random program {seed}"] = Maker(seed).program(harts)
        except GivenUp:
            pass
        seed += 1
    return made
