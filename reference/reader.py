"""Writes and reads job files, from docs/RULES.md alone, and has the files that are stated one by one.

It is no program, and shares nothing with crates/.
"""

from collections import namedtuple

CHOICE, FITTING = 67, 70

Choice = namedtuple("Choice", "wishes order articles")
Article = namedtuple("Article", "wishes clashes name price", defaults=[0])  # a price in cents, 0 if there is none
Fitting = namedtuple("Fitting", "facts horizon start goal steps")
Step = namedtuple("Step", "needs gives takes name")


class Refused(Exception):
    def __init__(self, reason, place):
        super().__init__(reason, place)
        self.reason, self.place = reason, place


# Writing


def stored(s, width):
    """A set as a number of that many bytes, the lowest first."""
    return sum(2**i for i in s).to_bytes(width, "little")


def record(sets, name, width, price=0):
    """The bit map, then what is marked in it: the sets that have members, the name if there is one, and a price that is not 0."""
    fields = [stored(s, width) if s else b"" for s in sets]
    fields.append(bytes([len(name)]) + name if name else b"")
    fields.append(price.to_bytes(4, "little", signed=True) if price else b"")
    marks = sum(2**k for k, field in enumerate(fields) if field)
    return bytes([marks]) + b"".join(fields)


def written(job):
    if isinstance(job, Choice):
        head = bytes([CHOICE, len(job.articles), job.wishes]) + stored(job.order, 8)
        return head + b"".join(record((a.wishes, a.clashes), a.name, 8, a.price) for a in job.articles)
    head = bytes([FITTING, len(job.steps), job.facts, job.horizon])
    head += stored(job.start, 4) + stored(job.goal, 4)
    return head + b"".join(record((s.needs, s.gives, s.takes), s.name, 4) for s in job.steps)


# Reading


class Reader:
    """Takes the items of a file from the front; the first fault is raised."""

    def __init__(self, file):
        self.file, self.at = file, 0

    def item(self, width):
        """The next item and its place."""
        place = self.at
        if place + width > len(self.file):
            raise Refused(2, len(self.file))
        self.at += width
        return self.file[place : self.at], place

    def count(self, limit):
        item, place = self.item(1)
        if item[0] > limit:
            raise Refused(3, place)
        return item[0]

    def marks(self, fields):
        """A bit map: whether each of that many fields follows."""
        item, place = self.item(1)
        if item[0] >= 2**fields:
            raise Refused(4, place)
        return [item[0] >> k & 1 == 1 for k in range(fields)]

    def set(self, width, bound, may_be_empty):
        """A set whose members are all below the bound."""
        item, place = self.item(width)
        bits = int.from_bytes(item, "little")  # member i is bit i % 8 of byte i // 8
        members = {i for i in range(bits.bit_length()) if bits >> i & 1}
        if not members and not may_be_empty:
            raise Refused(5, place)
        if max(members, default=-1) >= bound:
            raise Refused(6, place)
        return members

    def field(self, marked, width, bound):
        return self.set(width, bound, may_be_empty=False) if marked else set()

    def name(self, marked):
        if not marked:
            return b""
        item, place = self.item(1)
        if item[0] == 0:
            raise Refused(5, place)
        if item[0] > 32:
            raise Refused(7, place)
        return self.item(item[0])[0]

    def price(self, marked):
        """A number of 32 bits with a sign, which is not 0."""
        if not marked:
            return 0
        item, place = self.item(4)
        if not any(item):
            raise Refused(5, place)
        price = sum(byte << 8 * k for k, byte in enumerate(item))
        return price - 2**32 if price >= 2**31 else price

    def article(self, number, wishes):
        marks = self.marks(4)
        sets = self.field(marks[0], 8, wishes), self.field(marks[1], 8, number)
        return Article(*sets, self.name(marks[2]), self.price(marks[3]))

    def step(self, facts):
        marks = self.marks(4)
        needs, gives, takes = [self.field(marked, 4, facts) for marked in marks[:3]]
        return Step(needs, gives, takes, self.name(marks[3]))

    def choice(self):
        n, w = self.count(64), self.count(64)
        return Choice(w, self.set(8, w, may_be_empty=True), [self.article(i, w) for i in range(n)])

    def fitting(self):
        n, facts, horizon = self.count(32), self.count(32), self.count(16)
        start = self.set(4, facts, may_be_empty=True)
        goal = self.set(4, facts, may_be_empty=True)
        return Fitting(facts, horizon, start, goal, [self.step(facts) for _ in range(n)])

    def job(self, kinds):
        if not self.file or self.file[0] not in kinds:
            raise Refused(1, 0)
        self.at = 1
        job = self.choice() if self.file[0] == CHOICE else self.fitting()
        if self.at < len(self.file):
            raise Refused(8, self.at)
        return job


def read(file, kinds=(CHOICE, FITTING)):
    return Reader(file).job(kinds)


# The files that are stated one by one


def step(needs, gives, takes, name=b""):
    return Step(set(needs), set(gives), set(takes), name)


ARTICLES = [Article({0}, set(), b""), Article({1}, {0}, b""), Article({0, 1}, set(), b"")]
A = written(Choice(2, {0, 1}, ARTICLES))
TWIN = written(Choice(2, {0, 1}, [a._replace(name=given) for a, given in zip(ARTICLES, (b"x", b"", b"yz"))]))
OTHER_ORDER = written(Choice(2, {0}, ARTICLES))

# A with prices: of its selections 4, 5 and 6 the last two cost least, -50 each.
PRICES = (-150, -150, 100)
P = written(Choice(2, {0, 1}, [a._replace(price=price) for a, price in zip(ARTICLES, PRICES)]))
P_NAMED = written(Choice(2, {0, 1}, [a._replace(name=b"x", price=price) for a, price in zip(ARTICLES, (7, 0, -(2**31)))]))

B = written(Choice(3, {0, 1, 2}, [Article({0}, set(), b""), Article({0, 1}, {0}, b""), Article({2}, set(), b"")]))

NOTHING = written(Choice(0, set(), []))

LONG = b"a name of exactly two and thirty"
N = written(
    Choice(
        3,
        {0, 2},
        [
            Article({0}, set(), b"a"),
            Article({1, 2}, {0}, LONG),
            Article(set(), set(), b"a"),
            Article({2}, {0, 2}, b""),
        ],
    )
)

F = bytes.fromhex(
    "46 03 04 03 01 00 00 00 0C 00 00 00"
    "07 01 00 00 00 02 00 00 00 01 00 00 00"
    "03 02 00 00 00 04 00 00 00"
    "03 02 00 00 00 08 00 00 00"
)

G = written(Fitting(2, 2, set(), {0, 1}, [step([], [0], []), step([], [1], [0])]))

M = written(
    Fitting(
        4,
        2,
        {0},
        {1, 3},
        [
            step([], [1], [0, 2], b"cut"),
            step([1], [3], [], b"b"),
            step([0, 1], [], [1], b"cut"),
            step([], [], []),
        ],
    )
)

# Step 4 takes the facts 6 and 7 and gives both back; only 6 held before. It needs the facts 1 and 2, which are mutex in fact
# layer 2 and not in 3. Step 5 takes fact 2, which it does not need.
H = written(
    Fitting(
        10,
        6,
        {0, 3, 6},
        {5, 8, 9},
        [
            step([0], [1], [0]),
            step([1], [0, 2], [1]),
            step([3], [4], [3]),
            step([4], [3, 5], [4]),
            step([1, 2, 3, 6], [6, 7], [6, 7]),
            step([5, 7], [8], [2]),
            step([0, 8], [9], []),
            step([1, 4], [0], []),
        ],
    )
)

NO_STEP = written(Fitting(2, 1, {1}, {0, 1}, []))

CHOICES = [A, N, B, NOTHING, TWIN, OTHER_ORDER, P, P_NAMED]
FITTINGS = [F, M, G, H, NO_STEP]
BASES = {"A": A, "N": N, "F": F, "M": M}  # those that are damaged in every place


def outcome(action, *arguments):
    """What the action gives, or how it is turned down."""
    try:
        return action(*arguments)
    except Refused as fault:
        return f"refused {fault.reason} at {fault.place}"


def counts(tally):
    """What was counted, in a line; `refused 2` before `refused 10`."""
    order = lambda pair: [word.rjust(3) if word.isdigit() else word for word in pair[0].split()]
    return ", ".join(f"{what}: {count}" for what, count in sorted(tally.items(), key=order))
