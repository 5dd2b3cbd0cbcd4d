#!/usr/bin/env python3
"""Prints what the program show_random_plans must print, from docs/RULES.md alone.

It shares nothing with crates/. The gate compares the two texts and says how many lines it compared. After each round it
has every set of facts that can hold then, by trying every set of steps on every set of facts before.
"""

from collections import Counter
from itertools import chain, combinations

from plans import draws, generator, step
from reader import Fitting


def disturb(a, b):
    return bool(a.takes & (b.needs | b.gives) or b.takes & (a.needs | a.gives))


def quiet_rounds(steps):
    """All sets of steps of which no two disturb each other."""
    every = chain.from_iterable(combinations(steps, size) for size in range(len(steps) + 1))
    return [round for round in every if not any(disturb(a, b) for a, b in combinations(round, 2))]


def after(facts, round):
    taken = set().union(*(s.takes for s in round))
    given = set().union(*(s.gives for s in round))
    return frozenset(facts - taken | given)


def fewest(job):
    """The fewest rounds of a plan within the horizon; None if there is none."""
    rounds = quiet_rounds(job.steps)
    states = {frozenset(job.start)}
    for count in range(job.horizon + 1):
        if any(job.goal <= facts for facts in states):
            return count
        states = {after(facts, round) for facts in states for round in rounds if all(s.needs <= facts for s in round)}
    return None


def some(numbers, least, choices, bound):
    """A set by as many draws as are drawn first: `least`, or up to `choices` - 1 more."""
    return draws(numbers, least + next(numbers) % choices, bound)


def drawn_step(numbers, fact, facts):
    """Leads from a fact to the next. It may need a fact up to the first of these, may give one more, and takes up to two."""
    needs, gives, takes = some(numbers, 0, 2, fact + 1), some(numbers, 0, 2, facts), some(numbers, 0, 3, facts)
    return step(needs | {fact}, gives | {(fact + 1) % facts}, takes)


def drawn_job(numbers):
    """4 to 6 steps, 5 to 7 facts, a horizon of 1 to 5. Fact 0 holds first, and up to three are the goal."""
    steps, facts, horizon = 4 + next(numbers) % 3, 5 + next(numbers) % 3, 1 + next(numbers) % 5
    goal = some(numbers, 1, 3, facts)
    return Fitting(facts, horizon, {0}, goal, [drawn_step(numbers, i % facts, facts) for i in range(steps)])


def lines():
    numbers, tally = generator(88172645463325252), Counter()
    for i in range(300):
        count = fewest(drawn_job(numbers))
        tally[count] += 1
        yield f"{i}: 15" if count is None else f"{i}: {count} holds"
    counts = " ".join(str(tally[count]) for count in range(6))
    yield f"rounds 0 to 5: {counts}, refused: {tally[None]}"


if __name__ == "__main__":
    for line in lines():
        print(line)
