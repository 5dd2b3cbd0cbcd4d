#!/usr/bin/env python3
"""Runs the second program beside ours: all fifteen calls, with their buffers, through the C interface.

    beside.py LIBRARY [--fault N]

It takes the files that are stated one by one, the examples of docs/RULES.md among them, with arguments of every sort; then all
small files of a sort, drawn ones, wide ones, at the edge of the words, and damaged ones: cut at every place, with single bytes
changed, lengthened, over their limits, with forbidden bits; and some whose plan is long looked for. What is saved is saved once
more, and back. What falls short is tried on every selection. Names are searched for in other writings, and among names that are
nearly the same. What is cheapest is asked of files of few articles and of many, at rates that there are and such that there are
not, and again with one price moved, which the total has to follow. What a fair answers to an order has to be what is chosen on the
file that is saved with it. The same files come in every run. A difference is printed, and ends it with status 1; otherwise it prints
how much was compared, and what of it mattered. --fault makes the second program err on purpose (FAULTS in rules.py): then a
difference has to be found.
"""

import argparse
import random
import sys
from collections import Counter
from itertools import cycle, product
from unicodedata import normalize

import rules
from drawn import HIGHEST, LOWEST, damaged, drawn_choice, drawn_fitting, drawn_name, drawn_price, full_choice, full_fitting
from drawn import grouped_choice, over_limits, priced, priced_choices, small_choices, small_fittings, some, walk, wide_choice
from library import Library, slices
from long import LONG as LONG_SEARCHES
from names import APART, COVERED, EQUAL, apart_by, as_bytes, drawn_search, equal_by, last_of, named_steps
from reader import CHOICE, CHOICES, FITTING, FITTINGS, LONG, NOTHING, A, Article, B, Choice, F, G, H, M, N, P, Refused
from reader import counts, step, written
from rules import FIELDS, Change, number, of

MARK = {1: 0xA5, 4: 0xA5A5A5A5, 8: 0xA5A5A5A5A5A5A5A5}
FULL = 2**64 - 1

# What is asked of the stated files. Names and goals that some of them have, and such that none has.
NAMES = [b"", b"a", b"b", b"x", b"yz", b"cut", b"cu", b"cuts", LONG, LONG[:-1], LONG + b"y"]
GOALS = [[], [0], [1], [3], [5], [7], [8], [1, 7], [4, 5, 1], [3, 7, 9, 0]]

# 64 articles, no two of which clash, and each carries all of 64 wishes: no sum is greater than theirs.
MOST = written(Choice(64, set(range(64)), [Article(set(range(64)), set(), b"")] * 64))

# Rates that there are, in hundredths of a percent, and such that there are not. At 5,000 an odd total comes to a half.
RATES = [0, 1, 50, 100, 700, 1900, 5000, 9999, 10_000]
TOO_HIGH = [10_001, 2**16, 2**32, 2**32 + 100, 2**63, FULL]

# What is saved: names of these lengths; a change of each sort, for files that need not be in order; and these in turn with one that
# is wrong for every file: five, so that they do not keep step with the four ways in which a byte is damaged.
LENGTHS = [0, 1, 31, 32, 33, 255, 256, 257, 288, 65536]
PLAIN = [Change("order", None, set()), Change("wishes", 0, {0}), Change("clashes", 0, set()), Change("name", 0, b"a")]
IN_TURN = [*PLAIN, Change("name", FULL, b"n" * 33)]
LONGER = 40  # more bytes than a change adds to a file

# Orders at a fair and a count of words, in turn for files that need not be in order: enough words, too few, and no orders. They are
# three, so that they do not keep step, either.
FAIRS_IN_TURN = [([1, 0, FULL], 11), ([0], 2), ([], 1)]

# Two files without a selection: articles 0 and 1 of P alone, where the order falls short; and two articles that carry one wish of two.
SHORT = written(rules.read(P, (CHOICE,))._replace(articles=rules.read(P, (CHOICE,)).articles[:2]))
UNCARRIED = written(Choice(2, {0, 1}, [Article({0}, set(), b"", 5), Article({0}, set(), b"")]))

# Orders at a fair, and what is answered to each: a status, the selection and the set aside.
FAIRS = [
    (A, {3: (0, 4, 0), 0: (0, 0, 0), 1: (0, 1, 0), 2: (0, 2, 0), 4: (18, 0, 0), 7: (18, 0, 0), 2**63: (18, 0, 0), FULL: (18, 0, 0)}),
    (B, {7: (0, 6, 1), 2: (0, 2, 1), 3: (0, 2, 1), 5: (0, 5, 0), 4: (0, 4, 0), 8: (18, 0, 0)}),
    (SHORT, {0: (0, 0, 0), 3: (14, 0, 0), 1: (0, 1, 2), 2: (0, 2, 1), 5: (18, 0, 0)}),
    (UNCARRIED, {3: (14, 0, 0), 1: (0, 1, 0), 2: (14, 0, 0)}),
    (NOTHING, {0: (0, 0, 0), 1: (18, 0, 0)}),
]


# Prices of A's articles, a rate, and what comes of it: the cheapest of the selections 4, 5 and 6, its total and its tax.
PRICED = [
    ((0, 0, 0), 1900, (4, 0, 0)),
    ((0, 0, 12990), 1900, (4, 12990, 2468)),
    ((-4000, 0, 12990), 1900, (5, 8990, 1708)),
    ((0, -4000, 100), 1900, (6, -3900, -741)),
    ((1, 1, 5), 10_000, (4, 5, 5)),
    ((-150, -150, 100), 0, (5, -50, 0)),
    ((-150, -150, 100), 99, (5, -50, 0)),
    ((-150, -150, 100), 100, (5, -50, -1)),
    ((-150, -150, 100), 101, (5, -50, -1)),
    ((-150, -150, 100), 300, (5, -50, -2)),
    ((-150, -150, 100), 299, (5, -50, -1)),
    ((-150, -150, 100), 10_000, (5, -50, -50)),
    ((-150, -151, 100), 9900, (6, -51, -50)),
    ((0, 0, 50), 99, (4, 50, 0)),
    ((0, 0, 50), 100, (4, 50, 1)),
    ((0, 0, 50), 300, (4, 50, 2)),
    ((0, 0, 1), 5000, (4, 1, 1)),
    ((0, 0, -1), 5000, (4, -1, -1)),
    ((0, 0, 1), 4999, (4, 1, 0)),
    ((0, 0, -1), 4999, (4, -1, 0)),
    ((LOWEST, 0, LOWEST), 10_000, (5, 2 * LOWEST, 2 * LOWEST)),
    ((0, LOWEST, LOWEST), 1, (6, 2 * LOWEST, -429_497)),
    ((HIGHEST, HIGHEST, HIGHEST), 10_000, (4, HIGHEST, HIGHEST)),
    ((HIGHEST, LOWEST, HIGHEST), 5000, (6, -1, -1)),
    ((0, -1, 2**24), 9999, (6, 2**24 - 1, 16_775_537)),
]


class Differ(Exception):
    pass


def in_short(argument):
    return argument.hex() if isinstance(argument, bytes) else str(argument)


def wrong(test, *arguments):
    """Whether a test of rules.py turns these arguments down."""
    try:
        test(*arguments)
    except Refused:
        return True
    return False


# What is saved


def name_of(length):
    """A name of that many bytes, 0 and 255 among them."""
    return (b"\0\xff of any length" * (length // 16 + 1))[:length]


def held(file, field, article):
    """What a file has there already."""
    job = rules.read(file, (CHOICE,))
    return getattr(job if field == "order" else job.articles[article], field)


def absent(n):
    """Numbers that none of n articles has."""
    return sorted({i for i in (n, n + 1, 63, 64, 2**32, 2**63, FULL) if i >= n})


def prices_in(file):
    """The prices of a file that is in order."""
    return [article.price for article in rules.read(file, (CHOICE,)).articles]


def always_priced(draw):
    """A price for each article."""
    return drawn_price(draw) or -1


def bound_of(job, field, article):
    """The members of such a set are below it."""
    return article if field == "clashes" else job.wishes


def at_the_edge(bound):
    """The empty set, all that fits and all that there is; the highest that fits and what does not, alone and with 0."""
    alone = [2**i for i in (bound - 1, bound, bound + 1, 63) if 0 <= i < 64]
    return [0, 2**bound - 1, FULL, *alone, *(member | 1 for member in alone)]


def values(file, field, article, few):
    """What is there already; names of every length; sets at the edge of what fits, and all sets if they are to have few members."""
    if field == "name":
        return [held(file, field, article), *map(name_of, LENGTHS)]
    bound = bound_of(rules.read(file, (CHOICE,)), field, article)
    numbers = {number(held(file, field, article)), *at_the_edge(bound), *(range(2 ** (bound + 1)) if few else ())}
    return list(map(of, sorted(numbers)))


def changes(file, articles, few=False):
    """Of the order, and of each field of these articles."""
    places = [("order", None), *product(FIELDS, articles)]
    return [Change(*place, value) for place in places for value in values(file, *place, few)]


def drawn_place(job, draw):
    n, field = len(job.articles), draw.choice(["order", *FIELDS])
    return field, None if field == "order" else draw.choice([*range(n)] * 6 + absent(n))


def drawn_change(job, draw, field, article):
    """One that mostly fits."""
    if field == "name":
        return Change(field, article, draw.choice([drawn_name(draw), name_of(draw.choice(LENGTHS[:-1]))]))
    bound = min(bound_of(job, field, article), 64)
    fitting = [draw.randrange(2**bound) for _ in range(4)]
    return Change(field, article, of(draw.choice(fitting * 3 + at_the_edge(bound))))


# What may fall short


def place_of_14(job, order):
    """Where the program tells 14, if this is the order and there is no selection."""
    return rules.first_short(job, rules.own_groups(job), [order])


def crowded_choice(draw):
    """Most articles clash, and each carries few wishes: a pass may strike all that carry what a later goal asks for."""
    n, w = draw.randint(3, 6), draw.randint(2, 5)
    return Choice(w, set(range(w)), [Article(some(draw, w, 0.3), some(draw, i, 0.8), b"") for i in range(n)])


def goals_of(order):
    """Every projection goal that is in order."""
    return [goal for goal in range(1, number(order) + 1) if of(goal) <= order]


def drawn_lists(order, draw):
    """Lists of up to four goals: single wishes, and then the whole order; ever more wishes; and goals as they are drawn."""
    wishes, drawn = sorted(order), draw.sample(sorted(order), min(len(order), 4))
    yield [*(2**wish for wish in drawn[:3]), number(order)]
    yield [number(drawn[: k + 1]) for k in range(len(drawn))]
    yield [number(draw.sample(wishes, draw.randint(1, len(wishes)))) for _ in range(draw.randint(2, 4))]


# What is cheapest


def repriced(file, prices):
    job = rules.read(file, (CHOICE,))
    return written(job._replace(articles=[a._replace(price=price) for a, price in zip(job.articles, prices, strict=True)]))


def as_words(selection, total, tax):
    """A selection, and two numbers with a sign, as words of 64 bits."""
    return selection, total % 2**64, tax % 2**64


def from_words(selection, total, tax):
    """The same, from words back to numbers."""
    return selection, *(word - 2**64 if word >> 63 else word for word in (total, tax))


def other_prices(price, draw):
    """Near by and far away on either side, and across 0; none, the lowest and the highest; and the same once more."""
    moves = [by * side for by, side in product((1, 40, draw.randint(41, 500_000)), (-1, 1))]
    prices = {*(price + move for move in moves), -price, 0, LOWEST, HIGHEST, price}
    return [each for each in sorted(prices) if LOWEST <= each <= HIGHEST]


def drawn_rates(draw):
    """Two rates that there are, often the same."""
    one, other = (draw.choice([*RATES, draw.randint(0, 10_000)]) for _ in range(2))
    return one, draw.choice([one, other])


# What is asked at a fair


def without_63(job):
    """A job of 64 wishes without the last."""
    articles = [article._replace(wishes=article.wishes - {63}) for article in job.articles]
    return Choice(63, job.order - {63}, articles)


def drawn_order(job, draw):
    """One without a wish, the file's own, a few wishes, these with one that the file lacks, or one at the edge of what fits."""
    few = number(draw.sample(range(job.wishes), draw.randint(0, min(job.wishes, 6))))
    lacked = [few | 2 ** draw.randrange(job.wishes, 64)] if job.wishes < 64 else []
    return draw.choice([0, number(job.order), few, few, few, few, *lacked, draw.choice(at_the_edge(job.wishes))])


def drawn_orders(job, draw):
    """Up to five, and often one of them twice."""
    orders = [drawn_order(job, draw) for _ in range(draw.randrange(5))]
    return orders + draw.choice([orders[:1], [drawn_order(job, draw)]])


def words_for(orders, more):
    """How many words are lent: one too few, if that can be, just enough, two more, and so many more."""
    return [count for count in (3 * len(orders) + by for by in (-1, 0, 2, more)) if count >= 0]


def entries_in(words):
    """A status, a selection and a set aside for each order."""
    return list(zip(words[::3], words[1::3], words[2::3]))


# What is asked


class Beside:
    """Asks ours and the second program, compares, and counts what was compared and what of it mattered."""

    def __init__(self, library):
        self.ours, self.tally, self.in_turn, self.fairs_in_turn = Library(library), Counter(), cycle(IN_TURN), cycle(FAIRS_IN_TURN)
        self.draw = random.Random(20261121)  # for rates and other prices

    def answer(self, words, action, *arguments):
        """The second program's answer, None for a refusal; and status and words that C is to have for it."""
        try:
            found = action(*arguments)
        except Refused as fault:
            self.tally[f"refused {fault.reason}"] += 1
            return None, (fault.reason, (fault.place, 0))
        return found, (0, words(found))

    def same(self, call, arguments, expected, buffer=None):
        """Status, words and all slices of ours are as expected; the slices keep what they held, but for the last, the buffer."""
        lent = slices(arguments)
        self.tally["comparisons"] += 1
        self.tally["null slices"] += lent.count([])
        ours = self.ours.call(call, *arguments, words=len(expected[1]))
        theirs = (*expected, lent if buffer is None else lent[:-1] + [buffer])
        if ours != theirs:
            asked = " ".join(map(in_short, arguments))
            raise Differ(f"{call} {asked}: ours {ours}, the second program {theirs}")
        return ours

    def partition(self, file, count):
        buffer = [MARK[1]] * count
        found, expected = self.answer(lambda after: (0, 0), rules.partition, file, buffer)
        self.same("partition", (file, (1, buffer)), expected, found)

    def filter_pass(self, file, groups, live, goal):
        """The sum of ours; None if the pass is refused. If it falls short, every selection has an article that is not live."""
        words = lambda pair: (number(pair[0]), pair[1])
        found, expected = self.answer(words, rules.filter_pass, file, groups, of(live), of(goal))
        _, (left, total), _ = self.same("pass", (file, (1, groups), live, goal), expected)
        if not found:
            return None
        count = len(of(goal))
        self.tally["passes that struck"] += left != live
        self.tally["passes whose sum is the count"] += total == count
        self.tally["passes whose sum is over the count"] += total > count
        self.tally["sums of 4096"] += total == 4096
        if total < count:
            self.tally["short passes beside a selection"] += self.excluded("short passes", file, of(live))
        return total

    def choose(self, file, groups, goals, floor):
        lists = [of(goal) for goal in goals]
        found, expected = self.answer(lambda pair: tuple(map(number, pair)), rules.choose, file, groups, lists, floor)
        if found:
            self.tally["floors that mattered"] += floor > 0 and found != rules.choose(file, groups, lists, 0)
            self.tally["choices that set aside"] += bool(found[1])
            self.tally["choices of article 63"] += 63 in found[0]
            self.tally["choices that set article 63 aside"] += 63 in found[1]
        status, (place, _), _ = self.same("choose", (file, (1, groups), (8, goals), floor), expected)
        if status == 14:
            self.none(file, groups, lists, place, floor)

    def none(self, file, groups, goals, place, floor):
        """Counts what the place of 14 tells. If it is the index of a goal, there is no selection below the floor, either."""
        job = rules.read(file, (CHOICE,))
        if place == len(goals):
            self.tally["14 at the end of the list" if goals else "14 without goals"] += 1
            self.tally["14 by the floor alone"] += bool(rules.selections(job))
            return
        every = set(range(len(job.articles)))
        self.tally["14 at a later goal" if place else "14 at the first goal"] += 1
        self.tally["14 with goals after the short one"] += place + 1 < len(goals)
        self.tally["14 at a goal that earlier passes made short"] += not rules.falls_short(job, groups, every, goals[place])
        if floor:
            self.excluded("short goals", file, every)

    def fair(self, file, orders, count):
        """The entries of ours, if so many words are lent; None if the fair is refused."""
        words = [MARK[8]] * count
        found, expected = self.answer(lambda after: (0, 0), rules.fair, file, list(map(of, orders)), words)
        status, _, after = self.same("fair", (file, (8, orders), (8, words)), expected, found)
        if status:
            self.tally[f"fair refused {status}"] += 1
            self.tally["words of a refused fair that stayed"] += count
            return None
        entries = entries_in(after[-1][: 3 * len(orders)])
        self.tally["words after a fair that stayed"] += count - 3 * len(orders)
        self.count_fair(rules.read(file, (CHOICE,)), orders, entries)
        return entries

    def count_fair(self, job, orders, entries):
        """Counts what was asked at a fair that is not refused, and what came of it."""
        statuses = [status for status, _, _ in entries]
        self.tally["fairs"] += 1
        self.tally["fairs without orders"] += not orders
        self.tally["fairs of one order"] += len(orders) == 1
        self.tally["fairs with every status"] += {0, 14, 18} <= set(statuses)
        for at, (order, (status, selection, aside)) in enumerate(zip(orders, entries)):
            self.tally[f"entries of {status}"] += 1
            self.tally["entries for no wish"] += order == 0
            self.tally["entries for the order of the file"] += order == number(job.order)
            self.tally["entries for an order once more"] += order in orders[:at]
            self.tally["entries for the lowest wish that the file lacks"] += order == 2**job.wishes
            self.tally["entries that set aside"] += aside > 0
            self.tally["entries that choose article 63"] += selection >> 63
            self.tally["entries that set article 63 aside"] += aside >> 63
            self.tally["entries of 14 where the choice has another place"] += status == 14 and place_of_14(job, of(order)) > 0

    def price(self, file, rate):
        """Status and words of ours."""
        words = lambda found: as_words(number(found[0]), *found[1:])
        found, (status, told) = self.answer(words, rules.price, file, rate)
        ours = self.same("price", (file, rate), (status, told if found else (*told, 0)))
        self.tally[f"price refused {status}" if status else "priced"] += 1
        if rate in (0, 10_000, 10_001, FULL):
            self.tally[f"rates of {rate}"] += 1
        if found:
            self.count_priced(rules.read(file, (CHOICE,)), *found, rate)
        elif status == 14:
            self.not_priced(rules.read(file, (CHOICE,)))
        return ours[:2]

    def count_priced(self, job, selection, total, tax, rate):
        """Counts what prices came to."""
        prices = {article.price for article in job.articles}
        sign = "below zero" if total < 0 else "above zero" if total else "of zero"
        self.tally["priced with prices"] += prices != {0}
        self.tally[f"totals {sign}"] += 1
        if total * rate % 10_000 == 5_000:
            self.tally[f"halves {sign}"] += 1
        self.tally["taxes rounded away from zero"] += abs(tax) * 10_000 > abs(total) * rate
        self.tally["prices of the lowest"] += LOWEST in prices
        self.tally["prices of the highest"] += HIGHEST in prices
        self.tally["totals beyond 32 bits"] += not LOWEST <= total <= HIGHEST
        self.tally["cheapest with article 63"] += 63 in selection
        self.tally["cheapest of over 10 articles"] += len(job.articles) > rules.FEW
        if len(job.articles) <= rules.FEW:
            self.beside_others(job, selection, total)

    def beside_others(self, job, selection, total):
        """Counts how the cheapest of few articles stands among all selections."""
        others = [other for other in rules.selections(job) if other != selection]
        self.tally["ties in total"] += any(rules.cost(job, other) == total for other in others)
        self.tally["cheapest that is not the smallest"] += any(number(other) < number(selection) for other in others)
        free = [i for i in selection if job.articles[i].price < 0 and selection - {i} in others]
        self.tally["trade ins that no wish asks for"] += bool(free)

    def not_priced(self, job):
        """Counts where the choice tells 14, whose place the price does not tell."""
        self.tally["14 of the price where the choice has another place"] += place_of_14(job, job.order) > 0

    def both_ways(self, job):
        """The second program finds the same among all selections as by its search with bounds."""
        self.tally["cheapest found both ways"] += 1
        found = rules.cheapest_of_all(job), rules.cheapest_by_bounds(job)
        if found[0] != found[1] and not rules.FAULT:
            raise Differ(f"the second program finds {found} of {written(job).hex()}")

    def excluded(self, what, file, articles):
        """No selection is made of these articles only. Whether there is one of others."""
        selections = rules.selections(rules.read(file, (CHOICE,)))
        self.tally[f"{what} tried on every selection"] += 1
        for selection in selections:
            if selection <= articles:
                raise Differ(f"{what}: {file.hex()} has the selection {selection}, made of {articles} only")
        return bool(selections)

    def bounded(self, file, groups, live, goal):
        """A pass that is in order. No clash-free set of live articles carries more wishes of the goal than its sum."""
        total, job = self.filter_pass(file, groups, live, goal), rules.read(file, (CHOICE,))
        most = max(len(rules.wishes(job, s) & of(goal)) for s in rules.clash_free(job) if s <= of(live))
        self.tally["sums tried on every set"] += 1
        self.tally["sums that a set comes up to"] += most == total
        if most > total:
            raise Differ(f"pass {file.hex()} {groups} {live} {goal}: the sum is {total}, and one set carries {most}")

    def layer(self, file, sort, k, count):
        width, size = (4, 32) if sort == "fact" else (8, 64)
        buffer = [MARK[width]] * count
        found, expected = self.answer(lambda pair: (number(pair[0]), 0), rules.layer, file, sort, k, buffer)
        self.tally["layers with mutexes"] += bool(found) and any(found[1][:size])
        self.tally[f"{sort} layers with {size - 1}"] += bool(found) and size - 1 in found[0]
        self.same(f"{sort}_layer", (file, k, (width, buffer)), expected, found and found[1])

    def plan(self, file, count):
        """Which of the shortest plans ours gives is free: its words are tried, and the others have to stay as they were."""
        buffer = [MARK[4]] * count
        found, expected = self.answer(lambda pair: (pair[1], 0), rules.plan, file, count)
        if not found:
            return self.same("plan", (file, (4, buffer)), expected)
        job, length = found
        words = self.ours.call("plan", file, (4, buffer))[2][-1][:length]
        self.tally[f"plans of {length}"] += 1
        self.tally["plans with step 31"] += any(word >> 31 for word in words)
        good = rules.is_plan(job, [of(word) for word in words])
        self.same("plan", (file, (4, buffer)), expected, (words if good else ["no plan"]) + buffer[length:])

    def name(self, file, at):
        start, length = rules.name(file, at)
        self.tally["names given"] += length > 0
        self.same("name", (file, at), (0, (start, length)))

    def find(self, file, wanted):
        """The number that has the name; None if it is found nowhere."""
        found, expected = self.answer(lambda i: (i, 0), rules.find, file, wanted)
        self.tally["names found"] += found is not None
        self.same("find", (file, wanted), expected)
        return found

    def search(self, file, names, wanted):
        """Finds a name in a file that has these. Counts what made that one equal, and what kept those before it apart."""
        at = self.find(file, wanted)
        self.tally["searches in names"] += 1
        self.tally["searches for an empty name"] += not wanted
        self.tally["searches for over 64 bytes"] += len(wanted) > 64
        if at is not None:
            self.tally[f"equal by {equal_by(names[at], wanted)}"] += 1
            self.tally["names found by over 32 bytes"] += len(wanted) > 32
            self.tally["names found at 31 or 63"] += at in (31, 63)
            self.tally["the lowest of several equal names"] += any(rules.equal(name, wanted) for name in names[at + 1 :])
        for name in names[:at] if wanted else ():
            self.tally["pairs of unequal names"] += 1
            kept = apart_by(name, wanted)
            if kept:
                self.tally[f"kept apart by {kept}"] += 1

    def compare(self, first, second):
        found, expected = self.answer(lambda alike: (int(alike), 0), rules.compare, first, second)
        self.tally["alike though not the same"] += bool(found) and first != second
        self.tally["alike though prices differ"] += bool(found) and prices_in(first) != prices_in(second)
        self.same("compare", (first, second), expected)

    def save(self, file, change, count):
        """The new file of ours; None if there is none."""
        field, article, value = change
        buffer = [MARK[1]] * count
        found, expected = self.answer(lambda pair: (pair[0], 0), rules.save, file, change, buffer)
        self.count_saved(file, change, count, *expected)
        given = (value if field == "name" else number(value), (1, buffer))
        arguments = (file, *given) if field == "order" else (file, article, *given)
        status, (length, _), slices_after = self.same(f"save_{field}", arguments, expected, found and found[1])
        return None if status else bytes(slices_after[-1][:length])

    def count_saved(self, file, change, count, status, words):
        """Counts what each call was answered, and what the change came to."""
        field, _, value = change
        call = f"save_{field}"
        if status:
            of_the_new = status in (6, 7) and not wrong(rules.read, file, (CHOICE,))
            self.tally[f"{call} refused {status}" + (" for the new file" if of_the_new else "")] += 1
            self.tally["names longer than a byte tells"] += of_the_new and field == "name" and len(value) > 255
            return
        was = held(file, *change[:2])
        self.tally[f"{call} answered"] += 1
        if value == was:
            self.tally["saved as it was"] += 1
        elif field != "order":
            self.tally["fields dropped" if not value else "fields replaced" if was else "fields new"] += 1
        self.tally["orders of zero"] += field == "order" and not value
        self.tally["longest names saved"] += field == "name" and len(value) == 32
        self.tally["saved into just enough"] += count == words[0]
        self.tally["saved into less than the old file"] += count < len(file)
        self.tally["saved with prices"] += any(prices_in(file))

    def agree(self, what, found, expected):
        """Two files are the same bytes."""
        self.tally[what] += 1
        if found != expected:
            raise Differ(f"{what}: {found and found.hex()} and not {expected and expected.hex()}")

    # Several calls on one file

    def saving(self, file, change):
        """Into a buffer that is long enough, and none; if it is saved, also into one that is a byte too short, one that has just the
        length, and one of three bytes more. Then what was there before is saved back."""
        new = self.save(file, change, len(file) + LONGER)
        self.save(file, change, 0)
        if new is None:
            return
        for count in (len(new) - 1, len(new), len(new) + 3):
            self.save(file, change, count)
        back = change._replace(value=held(file, *change[:2]))
        self.agree("saved back", self.save(new, back, len(file)), file)

    def after(self, file, *changes):
        """The file after these changes; None if one is refused."""
        for change in changes:
            file = file and self.save(file, change, len(file) + LONGER)
        return file

    def saving_twice(self, file, first, second):
        """Two changes one after the other: of one field the second counts; of two fields it makes no difference which comes first."""
        if self.after(file, first) and self.after(file, second):
            other = self.after(file, second) if first[:2] == second[:2] else self.after(file, second, first)
            self.agree("saved twice", self.after(file, first, second), other)

    def on_saved(self, file, order):
        """What ours chooses, as the program does, on the file that ours saves with this order; 18 if it cannot be saved with it."""
        status, (length, _), slices_after = self.ours.call("save_order", file, order, (1, [MARK[1]] * len(file)))
        if (status, length) == (6, 3):
            return 18, 0, 0
        new = bytes(slices_after[-1][:length])
        groups = self.ours.call("partition", new, (1, [MARK[1]] * 64))[2][-1]
        status, words, _ = self.ours.call("choose", new, (1, groups), (8, [order] if order else []), 0)
        return status, *((0, 0) if status else words)

    def fairing(self, file, orders, counts):
        """Into so many words, the last time into enough. Each entry is what is chosen on the file that is saved with that order."""
        for count in counts:
            entries = self.fair(file, orders, count)
        for order, entry in zip(orders, entries):
            chosen = self.on_saved(file, order)
            self.tally[f"entries as on the saved file of {entry[0]}"] += 1
            if entry != chosen:
                raise Differ(f"fair {file.hex()} {orders}: the entry for {order} is {entry}, and on the saved file {chosen}")

    def saves(self, file):
        """Each call that saves, on a file that need not be in order."""
        for change in PLAIN:
            self.save(file, change, len(file) + LONGER)

    def reading(self, file):
        """The eleven calls that do not save, and in turn one that does, with little else than the file: a refused one has to be
        refused alike by all."""
        self.partition(file, 64)
        self.filter_pass(file, [0] * 64, 0, 1)
        self.choose(file, [0] * 64, [], FULL)
        self.layer(file, "fact", 0, 32)
        self.layer(file, "round", 0, 64)
        self.plan(file, 0)
        self.name(file, 0)
        self.find(file, b"a")
        self.compare(file, A)
        self.compare(A, file)
        self.compare(file, file[:-1])
        self.price(file, 1900)
        self.price(file, 10_001)
        self.fair(file, *next(self.fairs_in_turn))
        self.save(file, next(self.in_turn), len(file) + LONGER)

    def choice(self, file, draw):
        """The calls on a choice file that is in order, with arguments that are and such that are not."""
        job = rules.read(file, (CHOICE,))
        n, order, own = len(job.articles), number(job.order), rules.own_groups(job)
        self.partition(file, n + draw.randrange(3))
        self.partition(file, max(0, n - 1))
        part = lambda: number(i for i in job.order if draw.random() < 0.7)
        lent = [own, [g + 1 if n > max(own, default=0) + 1 else g for g in own], list(range(n)), own[:-1], own + [255, 0]]
        lent += [[draw.randrange(n + 1) for _ in range(n)], [0] * n]
        known = [0, *map(number, rules.selections(job))]
        for groups in lent:
            live = draw.choice([2**n - 1, draw.randrange(2**n), min(2**n, FULL)])
            self.filter_pass(file, groups, live, draw.choice([order, part(), 0, order + 1, FULL]))
            goals = draw.choice([[part() for _ in range(draw.randrange(4))], [order], [order, part(), order]])
            self.choose(file, groups, goals, min(draw.choice(known) + draw.randrange(2), FULL))
        for floor in sorted({0, 1, 2**n - 1, min(2**n, FULL), FULL}):
            self.choose(file, own, [order] if order else [], floor)
        self.names(file, [article.name for article in job.articles], draw)
        renamed = job._replace(articles=[article._replace(name=drawn_name(draw)) for article in job.articles])
        for other in (renamed, job._replace(order=of(part())), job._replace(articles=job.articles[:-1])):
            self.compare(file, written(other))
        self.pricing(file)

    def pricing(self, file):
        """At a rate that halves odd totals, at others, and at one that is too high. A file with other prices is alike."""
        for rate in (5000, self.draw.choice(RATES), self.draw.randint(0, 10_000), self.draw.choice(TOO_HIGH)):
            self.price(file, rate)
        self.compare(file, written(priced(self.draw, rules.read(file, (CHOICE,)))))

    def moving(self, file, article, price, rates):
        """A file, and the same with another price of an article, at a rate each: both have a selection or neither has, and the
        total of ours follows the price."""
        prices = prices_in(file)
        was, other = prices[article], repriced(file, [*prices[:article], price, *prices[article + 1 :]])
        answers = [self.price(file, rates[0]), self.price(other, rates[1])]
        statuses, found = [status for status, _ in answers], [from_words(*words) for _, words in answers]
        self.count_move(was, price, rates, len(prices))
        if statuses == [14, 14]:
            self.tally["moves without a selection"] += 1
            return
        if statuses != [0, 0] or not rules.follows(price - was, *found):
            asked = f"{file.hex()} {rates[0]} and {other.hex()} {rates[1]}"
            moved = f"article {article} goes from {was} to {price}, ours from {found[0]} to {found[1]}"
            raise Differ(f"price {asked}: {moved}, with the statuses {statuses}")
        self.count_followed(price - was, *found)

    def count_move(self, was, price, rates, articles):
        """Counts which way a price was moved, and where."""
        self.tally["prices moved"] += 1
        self.tally["prices that rose" if price > was else "prices that fell" if price < was else "prices that stayed"] += 1
        self.tally["moves across zero"] += min(was, price) < 0 < max(was, price)
        self.tally["moves from no price"] += was == 0 != price
        self.tally["moves to no price"] += price == 0 != was
        self.tally["moves at two rates"] += rates[0] != rates[1]
        self.tally["moves among 64 articles"] += articles == 64

    def count_followed(self, move, first, second):
        """Counts how far a total followed, and whether what is cheapest changed."""
        moved = abs(second[1] - first[1])
        self.tally["moves that changed the cheapest"] += first[0] != second[0]
        self.tally["totals that moved as far as a price"] += 0 < moved == abs(move)
        self.tally["totals that moved less far than a price"] += 0 < moved < abs(move)
        self.tally["totals that stayed though a price moved"] += moved == 0 != move

    def reaching(self, file, draw):
        """Passes and lists of goals, all of them in order, of a file whose order is not empty."""
        job = rules.read(file, (CHOICE,))
        n = len(job.articles)
        for groups in (rules.own_groups(job), list(range(n))):
            for goals in drawn_lists(job.order, draw):
                self.bounded(file, groups, draw.choice([2**n - 1, draw.randrange(2**n)]), draw.choice(goals))
                for floor in (0, FULL):
                    self.choose(file, groups, goals, floor)

    def fitting(self, file, draw):
        job = rules.read(file, (FITTING,))
        self.plan(file, job.horizon + draw.randrange(2))
        self.plan(file, max(0, job.horizon - 1))
        self.layers(file, job, draw)
        self.names(file, [step.name for step in job.steps], draw)

    def layers(self, file, job, draw):
        for k in sorted({0, 1, job.horizon // 2, job.horizon, job.horizon + 1, 2**32, FULL}):
            self.layer(file, "fact", k, draw.choice([32, 33, 32, 31]))
            self.layer(file, "round", k, draw.choice([64, 65, 64, 63]))

    def names(self, file, names, draw):
        for at in (0, max(0, len(names) - 1), len(names), 2**32, FULL):
            self.name(file, at)
        for wanted in (draw.choice([b"", *names]), drawn_name(draw), b"n" * 33):
            self.find(file, wanted)

    # The calls on a stated file, with arguments of every sort, each with each

    def faults(self, *found):
        """Counts the calls with two faults or more: only the one with the lowest number is told, and of two wrong goals the first."""
        self.tally["two faults"] += sum(found) > 1

    def choice_in_full(self, file):
        """Every live set, goal and floor, with groups that are right and such that are not; and files that differ in a bit."""
        job = rules.read(file, (CHOICE,))
        n, own = len(job.articles), rules.own_groups(job)
        for count in range(n + 2):
            self.partition(file, count)
        renamed = [(group - 1) % n for group in own]
        for groups in (own, [*renamed, 9], list(range(n)), [0] * n, own[:-1], [n, *[0] * (n - 1)]):
            false = wrong(rules.check_groups, job, groups)
            for live, goal in product([*range(2**n + 1), FULL], [*range(2 ** (job.wishes + 1)), FULL]):
                self.faults(false, live >= 2**n, wrong(rules.check_goal, job, of(goal), 0))
                self.filter_pass(file, groups, live, goal)
            for goals, floor in product(GOALS, [*range(2**n + 1), FULL]):
                self.faults(false, *(wrong(rules.check_goal, job, of(goal), 0) for goal in goals))
                self.choose(file, groups, goals, floor)
        for rate in RATES + TOO_HIGH:
            self.faults(rate > 10_000, not rules.selections(job))
            self.price(file, rate)
        for place, bit in product(range(len(file)), range(8)):
            self.compare(file, file[:place] + bytes([file[place] ^ 1 << bit]) + file[place + 1 :])

    def fair_in_full(self, file):
        """Every order by itself and every two, those among them that name wishes that the file lacks, and no orders."""
        orders = [*range(2 ** (rules.read(file, (CHOICE,)).wishes + 1)), 2**63, FULL]
        for listed in [[], *([order] for order in orders), *map(list, product(orders, repeat=2))]:
            self.fairing(file, listed, words_for(listed, 5))

    def reaching_in_full(self, file):
        """Every live set with every goal, and every list of up to three goals, by our own groups and by groups of one article."""
        job = rules.read(file, (CHOICE,))
        n, goals = len(job.articles), goals_of(job.order)
        for groups in (rules.own_groups(job), list(range(n))):
            for live, goal in product(range(2**n), goals):
                self.bounded(file, groups, live, goal)
            for count, floor in product(range(4), (0, FULL)):
                for listed in product(goals, repeat=count):
                    self.choose(file, groups, list(listed), floor)

    def saving_in_full(self, file):
        """Every change of a few members, names of every length, and articles that there are not, with values of either sort."""
        job = rules.read(file, (CHOICE,))
        for change in changes(file, range(len(job.articles)), few=True):
            self.tally["two faults"] += bool(rules.wrong_value(job, change))  # once there is no buffer, either
            self.saving(file, change)
        for article, field in product(absent(len(job.articles)), FIELDS):
            for value in (b"", b"a", b"n" * 33) if field == "name" else (set(), {0}, {63}):
                for count in (0, len(file) + LONGER):
                    self.tally["two faults"] += bool(rules.wrong_value(job, Change(field, 0, value))) or not count
                    self.save(file, Change(field, article, value), count)

    def layers_in_full(self, file):
        """Every layer, and some that there are not, in buffers that are too short, long enough, and longer."""
        horizon = rules.read(file, (FITTING,)).horizon
        for sort, lowest, size in (("fact", 0, 32), ("round", 1, 64)):
            for k, count in product([*range(horizon + 2), 2**32, FULL], (0, 1, size - 1, size, size + 1)):
                self.faults(not lowest <= k <= horizon, count < size)
                self.layer(file, sort, k, count)

    def fitting_in_full(self, file):
        """Every layer, and the plan in 0 words up to one more than the horizon. If there are few facts, every start and goal
        as well, and every start with each step alone: by these the layers tell what each step needs, takes, and gives beyond what
        it needs."""
        job = rules.read(file, (FITTING,))
        self.layers_in_full(file)
        for count in range(job.horizon + 2):
            self.plan(file, count)
        for start, goal in product(range(2**job.facts), repeat=2) if job.facts <= 4 else ():
            other = written(job._replace(start=of(start), goal=of(goal)))
            self.plan(other, job.horizon)
            for k in range(job.horizon + 1):
                self.layer(other, "fact", k, 32)
                self.layer(other, "round", k, 64)
        for alone, start in product(range(len(job.steps)), range(2**job.facts)) if job.facts <= 4 else ():
            steps = [each if a == alone else step([], [], []) for a, each in enumerate(job.steps)]
            other = written(job._replace(start=of(start), steps=steps))
            self.layer(other, "round", 1, 64)
            self.layer(other, "fact", 1, 32)

    def refused(self, file):
        """What is wrong with a file is told before what is wrong with the arguments: a goal without a wish, and a buffer of one word,
        are wrong for every file."""
        self.partition(file, 2)
        self.filter_pass(file, [0], FULL, 0)
        self.choose(file, [0], [0], FULL)
        self.layer(file, "fact", 4, 1)
        self.layer(file, "round", 4, 1)
        for change in (Change("order", None, {63}), Change("wishes", FULL, {63}), Change("clashes", 64, {63}), IN_TURN[-1]):
            self.save(file, change, 1)
        self.price(file, FULL)
        self.fair(file, [FULL], 2)
        self.tally["two faults"] += 10

    def names_in_full(self, file):
        for at in (*range(66), 2**32, 2**63, FULL):
            self.name(file, at)
        for wanted in NAMES:
            self.find(file, wanted)


# The run


def stated_names(beside):
    """Names of which it is stated whether they are equal, searched for one by the other, both ways if both can be in a file."""
    for pairs, answer in ((EQUAL, (0, (0, 0))), (APART, (16, (0, 0)))):
        for pair in pairs:
            one, other = map(as_bytes, pair)
            for name, wanted in [(one, other), *([(other, one)] if len(other) <= 32 else [])]:
                beside.same("find", (named_steps([name]), wanted), answer)
                beside.search(named_steps([name, b"", name]), [name, b"", name], wanted)


def stated_prices(beside):
    """Prices of which it is stated what comes of them; and which fault of a file, of a rate and of an order is told."""
    for prices, rate, (selection, total, tax) in PRICED:
        file = repriced(A, prices)
        beside.same("price", (file, rate), (0, as_words(selection, total, tax)))
        beside.price(file, rate)
    zero, cut, bit = P[:-4] + bytes(4), P[:-1], P[:11] + bytes([P[11] | 16]) + P[12:]
    tries = [(SHORT, 10_000, 14, 0), (UNCARRIED, 0, 14, 0), (SHORT, 10_001, 17, 0), (P, FULL, 17, 0), (F, 0, 1, 0)]
    tries += [(zero, FULL, 5, len(P) - 4), (cut, FULL, 2, len(P) - 1), (bit, FULL, 4, 11), (P + b"\0", 0, 8, len(P))]
    for file, rate, reason, place in tries:
        beside.same("price", (file, rate), (reason, (place, 0, 0)))
        beside.price(file, rate)
    if len(P) != 58:
        raise Differ(f"P has {len(P)} bytes")
    beside.same("choose", (P, (1, [0, 0, 1]), (8, [3]), 0), (0, (4, 0)))
    beside.same("compare", (A, P), (0, (1, 0)))
    beside.same("save_order", (P, 1, (1, [MARK[1]] * 58)), (0, (58, 0)), [*P[:3], 1, *P[4:]])


def stated_fairs(beside):
    """Orders of which it is stated what is answered, each by itself and all together; and which fault of a fair is told."""
    for file, answers in FAIRS:
        orders, entries = list(answers), list(answers.values())
        told = [word for entry in entries for word in entry]
        for count in (len(told), len(told) + 2):
            beside.same("fair", (file, (8, orders), (8, [MARK[8]] * count)), (0, (0, 0)), told + [MARK[8]] * (count - len(told)))
        for order, entry in answers.items():
            beside.same("fair", (file, (8, [order]), (8, [MARK[8]] * 3)), (0, (0, 0)), list(entry))
        beside.same("fair", (file, (8, orders), (8, [MARK[8]] * (len(told) - 1))), (10, (0, 0)))
        beside.fairing(file, orders, words_for(orders, 3))
    for file, reason, place in ((A[:-1], 2, 45), (A + b"\0", 8, 46), (P[:-4] + bytes(4), 5, len(P) - 4), (F, 1, 0), (b"", 1, 0)):
        for count in (0, 2, 3):
            beside.same("fair", (file, (8, [FULL]), (8, [MARK[8]] * count)), (reason, (place, 0)))
            beside.fair(file, [FULL], count)


def stated(beside):
    """The files that are stated one by one, and some with a fault. Of the examples without a star, also what the rules say."""
    stated_names(beside)
    stated_prices(beside)
    cut, longer, too_many = A[:-1], A + b"\0", bytes([CHOICE, 65, 0]) + bytes(8)
    if len(A) != 46:
        raise Differ(f"A has {len(A)} bytes")
    for file, reason, place in ((cut, 2, 45), (longer, 8, 46), (too_many, 3, 1)):
        beside.same("partition", (file, (1, [])), (reason, (place, 0)))
    ordered, dropped = [*A[:3], 1, *A[4:]], [*A[:20], 1, *A[21:29], *A[37:]]
    beside.same("save_order", (A, 1, (1, [MARK[1]] * 46)), (0, (46, 0)), ordered)
    beside.same("save_clashes", (A, 1, 0, (1, [MARK[1]] * 38)), (0, (38, 0)), dropped)
    faulty = [cut, longer, too_many, b"", b"B", N[:-1], F[:-1], M[:-1], P[:-1], P[:-4] + bytes(4)]
    for file in CHOICES:
        beside.choice_in_full(file)
        beside.fair_in_full(file)
        beside.saving_in_full(file)
    stated_fairs(beside)
    for file in FITTINGS:
        beside.fitting_in_full(file)
    beside.layers_in_full(written(full_fitting()))
    for file in faulty:
        beside.refused(file)
    for file in CHOICES + FITTINGS + faulty:
        beside.reading(file)
        beside.names_in_full(file)
        beside.saves(file)
        for other in CHOICES + FITTINGS + faulty:
            beside.compare(file, other)
    beside.tally["calls on stated files"] = beside.tally["comparisons"]


def named(beside):
    """Drawn names, in files of either kind; the last name of a file that has as many as it can; each covered character and its
    decomposition, one by the other; and each string of two bytes, beside the text that it is, or that a careless reader makes of it."""
    draw = random.Random(20261118)
    drawn = [drawn_search(draw) for _ in range(12_500)] + [last_of(count, draw) for count in [32, 64] * 20]
    for file, names, searched in drawn:
        for wanted in searched:
            beside.search(file, names, wanted)
    for character in COVERED:
        pair = character.encode(), normalize("NFD", character).encode()
        for name, wanted in (pair, pair[::-1]):
            beside.search(named_steps([name]), [name], wanted)
        beside.tally["covered characters"] += 1
    for high, low in product(range(256), repeat=2):
        pair = bytes([high, low])
        text = normalize("NFD", pair.decode("utf-8", "ignore")).encode()
        for names, wanted in (([text, pair], pair), ([pair, text], text)):
            beside.search(named_steps(names), names, wanted)
        beside.tally["strings of two bytes"] += 1


def reached(beside):
    """Small files, drawn ones, and ones of 64 articles, with goals that fall short and such that do not; and the greatest sum."""
    draw = random.Random(20261117)
    for file in small_choices():
        beside.reaching_in_full(file)
    jobs = [drawn_choice(draw) for _ in range(400)] + [crowded_choice(draw) for _ in range(400)]
    for job in jobs + [wide_choice(draw) for _ in range(10)]:
        if job.order:
            beside.reaching(written(job), draw)
    beside.filter_pass(MOST, list(range(64)), FULL, FULL)


def priced_files(beside):
    """All small files of a sort at every rate that is stated; drawn files, ones like a catalogue, some of them with 64 articles, and
    ones of 64 articles with few selections; the longest; and damaged ones."""
    draw = random.Random(20261119)
    for file, rate in product(priced_choices(), (0, 5000, 10_000)):
        beside.price(file, rate)
    few = [priced(draw, drawn_choice(draw)) for _ in range(1500)]
    some_more = [grouped_choice(draw, draw.randint(11, 18), draw.randint(3, 5)) for _ in range(150)]
    wide = [priced(draw, wide_choice(draw)) for _ in range(15)]
    for job in few + some_more + wide:
        beside.both_ways(job)
    many = [grouped_choice(draw, draw.choice([24, 32, 48, 64]), draw.randint(5, 7)) for _ in range(60)]
    for job in [*few, *some_more, *wide, *many, full_choice()]:
        beside.pricing(written(job))
    for _ in range(15):
        for file in damaged(written(priced(draw, drawn_choice(draw), always_priced)), draw):
            beside.reading(file)


def moved(beside):
    """Drawn files, ones like a catalogue, some of them with 64 articles, and ones of 64 articles with few selections: each with
    other prices of two of its articles."""
    draw = random.Random(20261122)
    few = [priced(draw, drawn_choice(draw)) for _ in range(400)]
    some_more = [grouped_choice(draw, draw.randint(11, 18), draw.randint(3, 5)) for _ in range(40)]
    wide = [priced(draw, wide_choice(draw)) for _ in range(10)]
    many = [grouped_choice(draw, 64, draw.randint(5, 7)) for _ in range(8)]
    for job in few + some_more + wide + many:
        n = len(job.articles)
        for article in draw.sample(range(n), min(n, 2)):
            prices = other_prices(job.articles[article].price, draw)
            for price in draw.sample(prices, 2) if n == 64 else prices:
                beside.moving(written(job), article, price, drawn_rates(draw))


def fairs(beside):
    """Small files with every order by itself; these, drawn ones, and ones like a catalogue, with drawn orders; ones of 64 articles, with
    64 wishes and with 63 of them, for one order more: what article 63 carries; and damaged ones."""
    draw = random.Random(20261123)
    small = [rules.read(file, (CHOICE,)) for file in small_choices()]
    for job, order in product(small, (*range(8), FULL)):
        beside.fairing(written(job), [order], [3])
    few = [drawn_choice(draw) for _ in range(700)] + [priced(draw, crowded_choice(draw)) for _ in range(200)]
    some_more = [grouped_choice(draw, draw.randint(11, 18), draw.randint(3, 5)) for _ in range(40)]
    for job in small + few + some_more:
        orders = drawn_orders(job, draw)
        beside.fairing(written(job), orders, words_for(orders, draw.randint(3, 9)))
    wide = [wide_choice(draw) for _ in range(10)]
    for job in wide + list(map(without_63, wide)):
        orders = [*drawn_orders(job, draw), number(job.articles[63].wishes)]
        beside.fairing(written(job), orders, [3 * len(orders) + 2])
    for job in [priced(draw, drawn_choice(draw)) for _ in range(10)]:
        for file in damaged(written(job), draw):
            orders = drawn_orders(job, draw)
            beside.fair(file, orders, draw.choice(words_for(orders, 9)))


def saved(beside):
    """Small files, drawn ones, and ones of 64 articles, with drawn changes; and the longest, with changes at the edge. Of the drawn
    ones every other has prices."""
    draw, prices = random.Random(20261116), random.Random(20261120)
    for file in over_limits():
        beside.saves(file)
    jobs = [*(rules.read(file, (CHOICE,)) for file in small_choices()), *(drawn_choice(draw) for _ in range(300))]
    for turn, job in enumerate(jobs + [wide_choice(draw) for _ in range(10)]):
        job = priced(prices, job) if turn % 2 else job
        file = written(job)
        for _ in range(4):
            beside.saving(file, drawn_change(job, draw, *drawn_place(job, draw)))
        one, other = drawn_place(job, draw), drawn_place(job, draw)
        for first, second in ((one, other), (one, one)):
            beside.saving_twice(file, drawn_change(job, draw, *first), drawn_change(job, draw, *second))
    longest = written(full_choice())
    for change in changes(longest, (0, 1, 63)):
        beside.saving(longest, change)


def run(beside):
    draw, prices = random.Random(20261115), random.Random(20261120)
    stated(beside)
    moved(beside)
    priced_files(beside)
    fairs(beside)
    for file in [A, N, B, NOTHING, *small_choices(), *(written(drawn_choice(draw)) for _ in range(700))]:
        beside.choice(file, draw)
    for _ in range(150):
        beside.choice(written(priced(prices, drawn_choice(prices))), prices)
    for file in [F, M, G, H, *small_fittings(), *(written(drawn_fitting(draw)) for _ in range(1500))]:
        beside.fitting(file, draw)
    for _ in range(400):
        beside.fitting(written(walk(draw, draw.randrange(2, 12), draw.randrange(17))), draw)
    for _ in range(20):
        beside.choice(written(wide_choice(draw)), draw)
        beside.fitting(written(walk(draw, 32, 16)), draw)
    for _ in range(300):
        beside.plan(written(walk(draw, 32, 16)), 16)
    for file in over_limits():
        beside.reading(file)
    for _ in range(25):
        for job in (drawn_choice(draw), drawn_fitting(draw)):
            for file in damaged(written(job), draw):
                beside.reading(file)
    reached(beside)
    saved(beside)
    named(beside)
    for file in LONG_SEARCHES.values():
        beside.plan(file, 16)
        beside.tally["long searches"] += 1


def main():
    parser = argparse.ArgumentParser(description="Runs the second program beside ours.")
    parser.add_argument("library")
    parser.add_argument("--fault", type=int, default=0, choices=rules.FAULTS, help=str(rules.FAULTS))
    given = parser.parse_args()
    rules.FAULT = given.fault
    beside = Beside(given.library)
    try:
        run(beside)
    except Differ as difference:
        erring = f"the second program {rules.FAULTS[rules.FAULT]}; " if rules.FAULT else ""
        print(f"{erring}after {beside.tally['comparisons']} comparisons: {difference}")
        return 1
    print(counts(beside.tally))
    return 0


if __name__ == "__main__":
    sys.exit(main())
