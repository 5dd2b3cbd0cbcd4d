#!/usr/bin/env python3
"""Prints what the program show_plans must print, from docs/RULES.md alone.

It shares nothing with crates/. The gate compares the two texts and says how many lines it compared. Which of the shortest
plans is answered is free, so the text has only their length; the program tries the plan that it gets by itself. The rounds
are printed if there is one shortest plan, and this is tested here. Facts are sets of reader.py in a file, and a
number by its bits in the search.
"""

from collections import namedtuple

from reader import Fitting, Refused, Step, outcome, read, written

WORD = 2**64 - 1


# Rounds


def number(s):
    return sum(2**i for i in s)


class Steps:
    """The steps of a job, and for each the others that it is disturbed by."""

    def __init__(self, steps):
        self.needs, self.gives, self.takes = ([number(s[k]) for s in steps] for k in range(3))
        every = range(len(steps))
        self.foes = [sum(2**b for b in every if b != a and (self.spoils(a, b) or self.spoils(b, a))) for a in every]

    def spoils(self, a, b):
        return self.takes[a] & (self.needs[b] | self.gives[b])

    def ready(self, facts):
        return [a for a in range(len(self.needs)) if not self.needs[a] & ~facts]

    def after(self, facts, steps):
        for a in steps:
            facts &= ~self.takes[a]
        for a in steps:
            facts |= self.gives[a]
        return facts

    def rounds(self, facts):
        """Every round that may follow on the facts: a step more at a time."""
        found = [((), 0)]
        for a in self.ready(facts):
            found += [((*round, a), foes | self.foes[a]) for round, foes in found if not foes >> a & 1]
        return [round for round, _ in found]

    def follow(self, facts):
        """What the facts can be after one round."""
        return {self.after(facts, round) for round in self.rounds(facts)}

    def ever(self, start):
        """What the facts can be after any rounds. The steps of a round can as well be done in rounds of their own."""
        seen, left = {start}, [start]
        while left:
            facts = left.pop()
            new = {self.after(facts, [a]) for a in self.ready(facts)} - seen
            seen |= new
            left += new
        return seen


def reached(goal, states):
    return any(not goal & ~facts for facts in states)


def fewest(job):
    """The fewest rounds of a plan within the horizon; None if there is none."""
    steps, start, goal = Steps(job.steps), number(job.start), number(job.goal)
    if not reached(goal, steps.ever(start)):
        return None
    seen, last = {start}, {start}
    for count in range(job.horizon + 1):
        if reached(goal, last):
            return count
        last = set().union(*map(steps.follow, last)) - seen
        seen |= last
    return None


def plans(job, count):
    """All plans of `count` rounds."""
    steps, goal = Steps(job.steps), number(job.goal)

    def further(facts, left):
        if not left:
            return [] if goal & ~facts else [[]]
        return [[round, *rest] for round in steps.rounds(facts) for rest in further(steps.after(facts, round), left - 1)]

    return further(number(job.start), count)


# The planner's answer


def plan(file, words):
    """The job and its fewest rounds, if `words` words are lent."""
    job = read(file)
    if words < job.horizon:
        raise Refused(10, 0)
    count = fewest(job)
    if count is None:
        raise Refused(15, 0)
    return job, count


# The jobs


def step(needs=(), gives=(), takes=()):
    return Step(set(needs), set(gives), set(takes), b"")


def like_f(horizon, start, goal):
    return Fitting(4, horizon, start, goal, [step({0}, {1}, {0}), step({1}, {2}), step({1}, {3})])


def pair(needs, takes):
    """Two steps that need the same and take the same, and each give a fact of the goal."""
    return Fitting(3, 16, {2}, {0, 1}, [step(needs, {0}, takes), step(needs, {1}, takes)])


def row(n):
    """Each step leads from a fact to the next."""
    return Fitting(n + 1, 16, {0}, {n}, [step({i}, {i + 1}, {i}) for i in range(n)])


def named(*facts):
    """Numbers for facts, by the order in which they are first named."""
    return {fact: i for i, fact in enumerate(facts)}


def tower(n, horizon):
    """The discs, disc 0 the smallest, go from peg 0 to peg 2."""
    pegs, discs = range(3), range(n)
    at = named(*((d, p, there) for d in discs for there in (True, False) for p in pegs))
    moves = [
        step(
            {at[d, p, True]} | {at[e, x, False] for e in range(d) for x in (p, q)},
            {at[d, q, True], at[d, p, False]},
            {at[d, p, True], at[d, q, False]},
        )
        for d in discs
        for p in pegs
        for q in pegs
        if p != q
    ]
    start = {at[d, p, p == 0] for d in discs for p in pegs}
    return Fitting(len(at), horizon, start, {at[d, 2, True] for d in discs}, moves)


def rings(n, first, last):
    """A ring goes on or off if the one before it is on, and all before that are off. The sets are of rings that are on."""
    at = named(*((r, on) for r in range(n) for on in (True, False)))
    moves = [
        step({at[r, on]} | {at[e, e == r - 1] for e in range(r)}, {at[r, not on]}, {at[r, on]})
        for r in range(n)
        for on in (True, False)
    ]
    start, goal = ({at[r, r in on] for r in range(n)} for on in (first, last))
    return Fitting(2 * n, 16, start, goal, moves)


def robots(places, goal):
    """Robot r is at place r of a ring, and goes on to the next place if that is free. The goal has a place a robot."""
    every, circle = range(len(goal)), range(places)
    at = named(*((r, p) for r in every for p in circle), *circle)
    moves = []
    for r in every:
        for p in circle:
            q = (p + 1) % places
            moves.append(step({at[r, p], at[q]}, {at[r, q], at[p]}, {at[r, p], at[q]}))
    start = {at[r, r] for r in every} | {at[p] for p in circle if p not in every}
    return Fitting(len(at), 16, start, {at[r, p] for r, p in enumerate(goal)}, moves)


def lamps(sizes, goal):
    """Lamps on rings, all dark. Two neighbours that are both lit or both dark are switched together."""
    at = named(*((lamp, lit) for lamp in range(sum(sizes)) for lit in (True, False)))
    moves, first = [], 0
    for size in sizes:
        for i in range(size):
            both = first + i, first + (i + 1) % size
            for lit in (True, False):
                now = {at[lamp, lit] for lamp in both}
                moves.append(step(now, {at[lamp, not lit] for lamp in both}, now))
        first += size
    start = {at[lamp, False] for lamp in range(first)}
    return Fitting(len(at), 16, start, {at[lamp, lamp in goal] for lamp in range(first)}, moves)


def generator(x):
    """Marsaglia's xorshift of 64 bits, as numbers of 32 bits: its upper half."""
    while True:
        x ^= x << 13 & WORD
        x ^= x >> 7
        x ^= x << 17 & WORD
        yield x >> 32


def draws(numbers, count, bound):
    """A set by `count` draws; a number may be drawn twice."""
    return {next(numbers) % bound for _ in range(count)}


Case = namedtuple("Case", "label job words in_full", defaults=(16, False))

F = like_f(3, {0}, {2, 3})
G = Fitting(2, 2, set(), {0, 1}, [step(gives={0}), step(gives={1}, takes={0})])

CASES = [
    Case("F", F, in_full=True),
    Case("F with horizon 1", F._replace(horizon=1)),
    Case("F with horizon 2", F._replace(horizon=2)),
    Case("F with horizon 17", F._replace(horizon=17)),
    Case("F with 2 words", F, 2),
    Case("F with 3 words", F, 3),
    Case("G", G, in_full=True),
    Case("goal within the start", like_f(3, {2, 3}, {3})),
    Case("goal within the start, horizon 0", like_f(0, {2, 3}, {3}), 0),
    Case("goal not within the start, horizon 0", F._replace(horizon=0), 0),
    Case("empty goal", F._replace(goal=set())),
    Case("no steps", Fitting(4, 16, {0, 1}, {1}, [])),
    Case("no steps, goal not within the start", Fitting(4, 16, {0, 1}, {1, 2}, [])),
    Case("nothing at all", Fitting(0, 0, set(), set(), []), 0),
    Case("a step of nothing", Fitting(1, 16, set(), {0}, [step()])),
    Case("two steps that take one fact", pair(set(), {2})),
    Case("two steps that need and take one fact", pair({2}, {2})),
    Case("a step that gives back what it takes", Fitting(2, 16, {0}, {0, 1}, [step({0}, {0, 1}, {0})])),
    Case("16 steps in a row", row(16)),
    Case("17 steps in a row", row(17)),
    Case("tower of 3 discs", tower(3, 16)),
    Case("tower of 4 discs", tower(4, 16)),
    Case("tower of 4 discs, horizon 14", tower(4, 14)),
    Case("tower of 5 discs", tower(5, 16)),
    Case("4 rings, all off", rings(4, {0, 1, 2, 3}, ())),
    Case("4 rings, only the last on", rings(4, (), {3})),
    Case("5 rings, all off", rings(5, {0, 1, 2, 3, 4}, ())),
    Case("16 rings, all off", rings(16, range(16), ())),
    Case("4 robots, 2 places on", robots(6, [2, 3, 4, 5])),
    Case("4 robots, 2 of them change places", robots(6, [1, 0, 2, 3])),
    Case("5 robots on a full ring, 1 place on", robots(5, [1, 2, 3, 4, 0])),
    Case("16 lamps, 0 3 6 and 11 lit", lamps((6, 10), {0, 3, 6, 11})),
    Case("16 lamps, 0 3 6 and 8 lit", lamps((6, 10), {0, 3, 6, 8})),
]


# Rounds that are a plan, and such that are none

TRIED = [
    ("F", F, [[0], [1, 2]]),
    ("F", F, [[1, 2], [0]]),
    ("F", F, [[0, 1, 2]]),
    ("F", F, [[0], [1]]),
    ("F", F, [[0]]),
    ("F", F, [[0, 3], [1, 2]]),
    ("F", F, []),
    ("G", G, [[1], [0]]),
    ("G", G, [[0], [1]]),
    ("G", G, [[0, 1]]),
]


def is_plan(job, rounds):
    """By the rules, over Python's own sets: each round in turn, then the goal."""
    facts = set(job.start)
    for round in rounds:
        if any(a >= len(job.steps) for a in round):
            return False
        steps = [job.steps[a] for a in round]
        for n, one in enumerate(steps):
            others = steps[:n] + steps[n + 1 :]
            if not set(one.needs) <= facts or any(set(one.takes) & (set(b.needs) | set(b.gives)) for b in others):
                return False
        facts = facts.difference(*(s.takes for s in steps)).union(*(s.gives for s in steps))
    return set(job.goal) <= facts


def tried(label, job, rounds):
    by = ", then ".join(" ".join(map(str, round)) for round in rounds) or "no round"
    return f"{label} by {by}: plan {'holds' if is_plan(job, rounds) else 'fails'}"


# Printing


def lines():
    for label, job, rounds in TRIED:
        yield tried(label, job, rounds)
    for case in CASES:
        found = outcome(plan, written(case.job), case.words)
        if isinstance(found, str):
            yield f"{case.label}: {found}, all words kept"
            continue
        job, count = found
        yield f"{case.label}: rounds {count}, plan holds, other words kept"
        if case.in_full:
            (only,) = plans(job, count)
            for k, round in enumerate(only, 1):
                yield f"{k}:" + "".join(f" {a}" for a in round)


if __name__ == "__main__":
    for line in lines():
        print(line)
