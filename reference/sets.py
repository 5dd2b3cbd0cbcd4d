#!/usr/bin/env python3
"""Prints what the program show_sets must print, from docs/RULES.md alone: a set of articles is a Python set here.

It shares nothing with crates/. The gate compares the two texts and says how many lines it compared.
"""

CAPACITY = 64


def taking(s, i):
    """Taking a member again, or a number at or above the capacity, changes nothing."""
    return s | {i} if i < CAPACITY else s


def giving_up(s, i):
    """Giving up a non-member changes nothing."""
    return s - {i}


def number(s):
    """A set's number is the sum of 2^i over its members."""
    return sum(2**i for i in s)


def members(n):
    """The set that has this number."""
    return {i for i, digit in enumerate(reversed(f"{n:b}")) if digit == "1"}


def shown(s):
    return f" {number(s)} count {len(s)}"


def edges(name, s):
    yield f"{name}:{shown(s)}"
    for i in (0, 63, 64, 2**32, 2**63):
        yield (
            f"  article {i} {'in' if i in s else 'out'}, with:{shown(taking(s, i))}, "
            f"again:{shown(taking(taking(s, i), i))}, without:{shown(giving_up(s, i))}"
        )


def lines():
    yield f"capacity {CAPACITY}"
    yield from edges("empty", set())
    yield from edges("full", set(range(CAPACITY)))
    for n in (0, 1, 2**63 + 1, 2**63 + 2**32):
        yield f"members of {n}:" + "".join(f" {i}" for i in sorted(members(n)))
    table = {0: {1, 2}, 63: {1, 63}}
    for n in (0, 1, 2, 2**63 + 1):
        together = set().union(*(table.get(i, set()) for i in members(n)))
        yield f"gathered from {n}: {number(together)}"


if __name__ == "__main__":
    for line in lines():
        print(line)
