"""Files to compare on: drawn, all small ones of a sort, damaged, over their limits.

It is no program, and shares nothing with crates/. A draw is a random.Random of a fixed seed.
"""

from itertools import islice, product

from reader import CHOICE, FITTING, Article, Choice, Fitting, Step, step, written

LOWEST, HIGHEST = -(2**31), 2**31 - 1  # prices


def some(draw, bound, chance):
    return {i for i in range(bound) if draw.random() < chance}


def drawn_name(draw):
    return draw.choice([b"", b"", b"a", b"b", b"ab", b"n" * 32, bytes([draw.randrange(256)])])


def drawn_choice(draw):
    n, w = draw.randrange(7), draw.randrange(6)
    wish, clash = draw.choice([0.2, 0.4, 0.6]), draw.choice([0.1, 0.3, 0.7])
    articles = [Article(some(draw, w, wish), some(draw, i, clash), drawn_name(draw)) for i in range(n)]
    return Choice(w, some(draw, w, draw.choice([0.3, 0.7, 1])), articles)


def wide_choice(draw):
    """64 articles and 64 wishes, at the edge of the words. There are two or three sorts of articles, and two of one sort
    clash; if there are three sorts, many others do, too, so that there are few sets to try."""
    sorts, further, ordered = draw.choice([(2, 0, 10), (3, 0.5, 5)])
    sort = [draw.randrange(sorts) for _ in range(64)]
    clashes = [{j for j in range(i) if sort[j] == sort[i] or draw.random() < further} for i in range(64)]
    articles = [Article(some(draw, 64, draw.choice([0, 0.4, 0.5])), clashes[i], drawn_name(draw)) for i in range(64)]
    return Choice(64, {63, *draw.sample(range(63), ordered - 1)}, articles)


def full_choice():
    """The longest file: 64 articles and 64 wishes, each article with all fields that it may have, and names of 32 bytes."""
    articles = [Article({i, 63}, {0, i - 1} if i else set(), bytes([i]) * 32, 64 - 3 * i) for i in range(64)]
    return Choice(64, {0, 63}, articles)


def drawn_price(draw):
    """Often none, and often a small one, so that totals are equal; sometimes at the edge."""
    edges = [LOWEST, LOWEST + 1, HIGHEST, HIGHEST - 1, -1, 1]
    return draw.choice([0, 0, draw.randint(-3, 3), draw.randint(-3, 3), draw.randint(-500, 5000), draw.choice(edges)])


def priced(draw, job, price=drawn_price):
    """A choice with drawn prices."""
    return job._replace(articles=[article._replace(price=price(draw)) for article in job.articles])


def grouped_choice(draw, n, sorts):
    """As a catalogue is: n articles of so many sorts, two of one sort exclude each other, and the prices are mostly above 0."""
    w, sort = draw.randint(3, 12), [draw.randrange(sorts) for _ in range(n)]
    clashes = [{j for j in range(i) if sort[j] == sort[i] or draw.random() < 0.05} for i in range(n)]
    articles = [Article(some(draw, w, 0.35), clashes[i], drawn_name(draw)) for i in range(n)]
    amount = draw.choice([lambda draw: draw.randint(-2, 6), lambda draw: draw.randint(-2000, 90_000), drawn_price])
    return priced(draw, Choice(w, some(draw, w, 0.8), articles), amount)


def drawn_fitting(draw):
    n, facts = draw.randrange(6), draw.randrange(7)
    needs, gives, takes = draw.choice([(0.3, 0.4, 0.3), (0.3, 0.2, 0.1), (0.2, 0.2, 0.3)])
    steps = []
    for _ in range(n):
        sets = [some(draw, facts, chance) for chance in (needs, gives, takes)]
        steps.append(Step(*sets, drawn_name(draw)))
    return Fitting(facts, draw.randrange(7), some(draw, facts, 0.2), some(draw, facts, draw.choice([0.3, 0.6])), steps)


def walk(draw, n, horizon):
    """Two start at two of n places; each step leads one of them on to a place not far after its own, and some need the other
    to be where it started. It takes many rounds."""
    place = draw.sample(range(n), n)
    steps = []
    for i in range(n):
        here, there = place[i], place[(i + 1 + draw.randrange(4)) % n]
        steps.append(Step({here, draw.choice([here] * 9 + [place[0]])}, {there}, {here}, drawn_name(draw)))
    draw.shuffle(steps)
    return Fitting(n, horizon, {place[0], place[1]}, {place[-1], draw.choice([place[-1], *place])}, steps)


def xorshift(x):
    """Marsaglia's xorshift of 64 bits."""
    while True:
        x ^= x << 13 & (2**64 - 1)
        x ^= x >> 7
        x ^= x << 17 & (2**64 - 1)
        yield x


def full_fitting():
    """As many steps, facts and rounds as a file can have. Each step comes of one number: its lowest bits, by fives, are the two
    facts needed, the three given, the four taken."""
    steps = []
    for x in islice(xorshift(88172645463331289), 32):
        facts = [x >> 5 * i & 31 for i in range(9)]
        steps.append(step(facts[:2], facts[2:5], facts[5:]))
    return Fitting(32, 16, {0, 1, 2}, {29, 30, 31}, steps)


def small_choices():
    """All choice files of two articles and two wishes without names."""
    subsets = [set(), {0}, {1}, {0, 1}]
    for order, first, second, clash in product(subsets, subsets, subsets, (set(), {0})):
        yield written(Choice(2, order, [Article(first, set(), b""), Article(second, clash, b"")]))


def small_fittings():
    """All fitting files of one fact and two steps, with horizons 0 to 2."""
    subsets = [set(), {0}]
    for horizon, start, goal, *sets in product(range(3), subsets, subsets, *[subsets] * 6):
        yield written(Fitting(1, horizon, start, goal, [Step(*sets[:3], b""), Step(*sets[3:], b"")]))


def priced_choices():
    """All choice files of two articles and one wish without names, with prices of -1 to 1."""
    subsets = [set(), {0}]
    for order, first, second, clash, one, two in product(subsets, subsets, subsets, subsets, (-1, 0, 1), (-1, 0, 1)):
        yield written(Choice(1, order, [Article(first, set(), b"", one), Article(second, clash, b"", two)]))


def damaged(file, draw):
    """Every truncation; each byte with a bit changed and as another byte; bytes after the end."""
    for n in range(len(file)):
        yield file[:n]
        for byte in (file[n] ^ 1 << draw.randrange(8), draw.randrange(256), 255):
            yield file[:n] + bytes([byte]) + file[n + 1 :]
    yield file + b"\0"
    yield file + file


def over_limits():
    """Files that end with a count over its limit, and the same with bytes after it."""
    for head in ([CHOICE, 65], [CHOICE, 64, 65], [FITTING, 33], [FITTING, 32, 33], [FITTING, 0, 32, 17]):
        yield bytes(head)
        yield bytes(head) + bytes(200)
