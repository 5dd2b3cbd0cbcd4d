#!/usr/bin/env python3
"""Prints what the program show_damage must print, with reader.py and rules.py, which are written from docs/RULES.md alone.

It shares nothing with crates/. The gate compares the two texts and says how many lines it compared.
"""

from collections import Counter

import rules
from reader import BASES, M, N, Refused, read


def reason_and_place(file):
    """Both are 0 if the file is accepted."""
    try:
        read(file)
        return 0, 0
    except Refused as fault:
        return fault.reason, fault.place


def flipped(file, place, bit):
    return file[:place] + bytes([file[place] ^ 1 << bit]) + file[place + 1 :]


def damage(label, file):
    """For each place: the bytes before it alone, then the file with each bit of that byte flipped."""
    tally = Counter()
    for place in range(len(file)):
        faults = [reason_and_place(f) for f in [file[:place]] + [flipped(file, place, bit) for bit in range(8)]]
        tally.update(reason for reason, _ in faults)
        first, *rest = (f"{reason}@{at}" if reason else "ok" for reason, at in faults)
        yield f"{label} {place}: {first}, bits {' '.join(rest)}"
    yield f"{label} damaged, accepted and refused by 1 to 8:" + "".join(f" {tally[reason]}" for reason in range(9))


def names(label, file):
    """The names of articles or steps, at numbers that there are and at some that there are not."""
    for at in (0, 1, 2, 3, 4, 64, 2**63):
        start, length = rules.name(file, at)
        yield f"{label} name {at}: [{file[start : start + length].decode()}]"


if __name__ == "__main__":
    for label, file in BASES.items():
        for line in damage(label, file):
            print(line)
    for label, file in (("N", N), ("M", M), ("N cut", N[:-1])):
        for line in names(label, file):
            print(line)
