#!/usr/bin/env python3
"""Runs the program that it is given on many files, and compares what it prints with docs/RULES.md, by readers and
searches of its own.

    kitchen.py PROGRAM

It shares nothing with crates/. Which of the shortest plans is printed is free: a plan is tried, and its count compared.
The last line says how many files of each outcome were compared; a difference is printed, and ends it with status 1.
"""

import random
import subprocess
import sys
from collections import Counter

from drawn import drawn_choice, drawn_fitting, over_limits, priced, small_choices, small_fittings, walk, wide_choice
from plans import like_f, row
from reader import BASES, CHOICE, FITTING, NOTHING, P_NAMED, Article, B, Choice, G, H, P, Refused, counts, written
from rules import is_plan, offer, plan, shown

# what 64 articles, 64 wishes, names of 32 bytes and prices come to
LONGEST = written(Choice(64, set(range(64)), [Article(set(range(64)), set(range(i)), b"n" * 32, -1) for i in range(64)]))


def plan_text(file, printed):
    """The text of a shortest plan: the printed one if that is one, and else its first line."""
    job, count = plan(file, 16)
    rounds = [[int(step) for step in line.partition(":")[2].split() if step.isdigit()] for line in printed.splitlines()[1:]]
    text = f"rounds {count}\n" + "".join(f"{k}:{shown(round)}\n" for k, round in enumerate(rounds, 1))
    good = len(rounds) == count and is_plan(job, rounds)
    return f"plans of {count}", text if good else f"rounds {count}\n..."


def expected(file, printed):
    """The name of the outcome, which has the place of 14, and the text. The file is the first 4,096 bytes."""
    file = file[:4096]
    try:
        return plan_text(file, printed) if file[:1] == bytes([FITTING]) else ("chosen", offer(file))
    except Refused as fault:
        told = f"refused {fault.reason} at {fault.place}"
        return told if fault.reason == 14 else f"refused {fault.reason}", f"{told}\n"


def files():
    """The examples, whole, cut, lengthened and with each byte changed in two ways; jobs at the edges; long input; all small
    files of a sort, and drawn ones."""
    yield "n 65", bytes([CHOICE, 65, 0]) + bytes(8)
    bases = {**BASES, "B": B, "G": G, "no order": NOTHING, "P": P, "P with names": P_NAMED}
    for label, file in bases.items():
        yield label, file
        for n in range(len(file)):
            yield f"{label} cut to {n}", file[:n]
            for bit in (1, 128):
                yield f"{label} with byte {n} changed by {bit}", file[:n] + bytes([file[n] ^ bit]) + file[n + 1 :]
        yield f"{label} and a byte", file + b"\0"
    yield "none of four", written(Choice(4, {0, 1, 2, 3}, [Article({0, 1}, set(), b""), Article({2, 3}, {0}, b"")]))
    yield "H", H
    yield "a row of 12", written(row(12))
    yield "nothing to do", written(like_f(0, {0}, {0}))
    yield "no horizon", written(like_f(0, {0}, {1}))
    yield "the longest file", LONGEST
    yield "the longest file cut", LONGEST[:-1]
    yield "4,097 bytes", LONGEST + bytes(4097 - len(LONGEST))
    yield "longer input", b"\x43" + bytes(100_000)
    draw, prices = random.Random(20261115), random.Random(20261120)
    lists = {
        "over a limit": over_limits(),
        "small choice": small_choices(),
        "small fitting": small_fittings(),
        "drawn choice": (written(drawn_choice(draw)) for _ in range(300)),
        "wide choice": (written(wide_choice(draw)) for _ in range(20)),
        "priced choice": (written(priced(prices, drawn_choice(prices))) for _ in range(100)),
        "drawn fitting": (written(drawn_fitting(draw)) for _ in range(300)),
        "walk": (written(walk(draw, draw.randrange(2, 12), draw.randrange(17))) for _ in range(300)),
        "wide walk": (written(walk(draw, 32, 16)) for _ in range(40)),
    }
    for label, drawn in lists.items():
        for number, file in enumerate(drawn):
            yield f"{label} {number}, {file.hex()}", file


def main():
    tally = Counter()
    for label, file in files():
        run = subprocess.run([sys.argv[1]], input=file, capture_output=True)
        printed = run.stdout.decode("latin-1")
        name, text = expected(file, printed)
        if run.returncode or run.stderr or printed != text:
            print(f"{label}: expected {text!r}, printed {printed!r}, status {run.returncode}")
            return 1
        tally[name] += 1
    print(counts(tally))
    return 0


if __name__ == "__main__":
    sys.exit(main())
