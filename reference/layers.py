"""The layers of the planning graph, from docs/RULES.md alone.

It is no program, and shares nothing with crates/. A layer here has its members, and the pairs of members that are mutex.
"""

from collections import namedtuple
from itertools import combinations

from reader import Step

Layer = namedtuple("Layer", "members pairs")


def pairs(members, test):
    """The pairs of different members that pass the test."""
    return {frozenset(pair) for pair in combinations(members, 2) if test(*pair)}


def vertices(job):
    """The keepers of all facts, and from 32 on the steps."""
    table = {t: Step(needs={t}, gives={t}, takes=set(), name=b"") for t in range(job.facts)}
    table.update({32 + a: step for a, step in enumerate(job.steps)})
    return table


def disturb(a, b):
    return any(x.takes & (y.needs | y.gives) for x, y in ((a, b), (b, a)))


def round_layer(job, facts):
    """The round layer over a fact layer."""
    table = vertices(job)

    def stands(step):
        return step.needs <= facts.members and not any(frozenset(p) in facts.pairs for p in combinations(step.needs, 2))

    def mutex(x, y):
        a, b = table[x], table[y]
        return disturb(a, b) or any(frozenset((p, q)) in facts.pairs for p in a.needs for q in b.needs)

    members = {x for x, step in table.items() if stands(step)}
    return Layer(members, pairs(members, mutex))


def fact_layer(job, rounds):
    """The fact layer over a round layer."""
    table = vertices(job)
    members = set().union(*(table[x].gives for x in rounds.members))
    givers = {p: {x for x in rounds.members if p in table[x].gives} for p in members}

    def mutex(p, q):
        if givers[p] & givers[q]:
            return False
        return all(frozenset((x, y)) in rounds.pairs for x in givers[p] for y in givers[q])

    return Layer(members, pairs(members, mutex))


def layers(job):
    """All layers of a job, each with its sort and number."""
    facts = Layer(job.start, set())
    yield "fact", 0, facts
    for k in range(1, job.horizon + 1):
        rounds = round_layer(job, facts)
        yield "round", k, rounds
        facts = fact_layer(job, rounds)
        yield "fact", k, facts
