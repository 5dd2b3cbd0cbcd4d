"""Asks the proved program, in one process and without a file: these bytes go in, and what comes back is tried by the rules."""

import pathlib
import re
import subprocess
from itertools import islice

from kitchen import CHOICE, Library, NoPlan, NoSelection, Plan, Refused, Selection, Unusable, number_of, written
from showroom.rules import Broken, own_sum
from showroom.rules import try_aside, try_no_plan, try_no_selection, try_place, try_plan, try_priced, try_selection, try_smallest

ROOT = pathlib.Path(__file__).resolve().parent.parent.parent
# Where the program is in the project, built by `rt run` in its crate's folder, and where in an unpacked distribution.
PLACES = (ROOT / "crates" / "kitchen" / "out" / "kitchen", ROOT / "bin" / "kitchen")

CHOSEN = re.compile(r"chosen((?: [0-9]{1,2})*)\naside((?: [0-9]{1,2})*)\n")
NO_CHOICE = re.compile(r"refused 14 at ([01])\n")
ROUNDS = re.compile(r"rounds (0|[1-9][0-9]?)\n((?:[0-9]{1,2}:(?: [0-9]{1,2})*\n)*)")


class Failed(Exception):
    """There is no answer: the program is missing, was killed, or printed what cannot be its answer."""


def program():
    path = next((path for path in PLACES if path.exists()), None)
    if path is None:
        raise Failed(f"{PLACES[0]} is missing; build it with 'rt run' in crates/kitchen")
    return path


def printed(file, limit=None):
    """What kitchen prints of these bytes. It ends with 0 whatever it prints, so status 0 alone says nothing."""
    path = program()
    try:
        run = subprocess.run([path], input=file, capture_output=True, timeout=limit)
    except OSError as trouble:
        raise Failed(f"{path} cannot be run: {trouble.strerror}") from None
    if run.returncode:
        ended = f"was ended by signal {-run.returncode}" if run.returncode < 0 else f"ended with status {run.returncode}"
        raise Failed(f"{path} {ended}, so there is no answer")
    if run.stderr:
        raise Failed(f"{path} wrote to standard error, which it never does, so there is no answer")
    return run.stdout


def numbers_in(job, text):
    """A list of numbers of articles or steps, as kitchen prints it: rising, and all of them in the file."""
    numbers = [int(word) for word in text.split()]
    if "".join(f" {number}" for number in sorted(set(numbers))) != text:
        raise Broken("numbers do not rise")
    for number in numbers:
        if number >= len(job.records):
            raise Broken(f"the file has no {job.kind.record} {number}")
    return set(numbers)


def choice_answer(job, output):
    none = NO_CHOICE.fullmatch(output)
    if none:
        place = int(none[1])
        try_no_selection(job)
        try_place(job, place)
        return NoSelection(place)
    found = CHOSEN.fullmatch(output)
    if not found:
        raise Broken('expected "chosen" and "aside", or "refused 14" at 0 or 1')
    chosen, aside = numbers_in(job, found[1]), numbers_in(job, found[2])
    try_selection(job, chosen)
    try_smallest(job, chosen)
    try_aside(job, aside)
    return Selection(chosen, aside)


def plan_answer(job, output):
    if output == "refused 15 at 0\n":
        try_no_plan(job, job.horizon)
        return NoPlan
    found = ROUNDS.fullmatch(output)
    if not found:
        raise Broken('expected "rounds" and the rounds, or "refused 15 at 0"')
    lines = [line.partition(":") for line in found[2].splitlines()]
    numbers = [str(number) for number in range(1, len(lines) + 1)]
    if found[1] != str(len(lines)) or [line[0] for line in lines] != numbers:
        raise Broken(f"expected the rounds 1 to {found[1]}, each in its line")
    rounds = [numbers_in(job, line[2]) for line in lines]
    try_plan(job, rounds)
    return Plan(rounds)


def asked(job, limit=None):
    """The answer of kitchen for a job, within `limit` seconds if a limit is given."""
    output = printed(written(job), limit)
    try:
        text = output.decode("ascii")
        return choice_answer(job, text) if job.kind is CHOICE else plan_answer(job, text)
    except (Broken, UnicodeDecodeError) as trouble:
        shown = repr(output[:200])[1:]
        raise Failed(f"this cannot be what kitchen prints of this job: {trouble}; it printed {shown}") from None


def there_is_none(answer):
    """Whether the answer is that there is no kitchen, or no plan."""
    return isinstance(answer, NoSelection) or answer is NoPlan


def bound(job):
    """How far the wishes of the order can go, from the library's own call; None if it has no wish."""
    if not job.sets[0]:
        return None
    try:
        found = Library().bound(written(job), job.sets[0])
        if found != own_sum(job):
            raise Broken("the sum is not the one that is defined")
    except (Unusable, Refused, Broken) as trouble:
        raise Failed(f"how far the wishes can go cannot be told: {trouble}; without --bound all else is told") from None
    return found


def further(job, first, count):
    """The next selections after the first, by rising number, from the library's own calls."""
    try:
        found = list(islice(Library().selections(written(job)), count + 1))
        for answer in found:
            try_selection(job, answer.articles)
            try_aside(job, answer.aside)
        numbers = [number_of(answer.articles) for answer in found]
        if numbers != sorted(set(numbers)):
            raise Broken("the numbers of the selections do not rise")
    except (Unusable, Refused, Broken) as trouble:
        raise Failed(f"further kitchens cannot be told: {trouble}; without --next the first is told") from None
    if found[:1] != [first]:
        raise Failed("the library chooses something else than kitchen; build both anew")
    return found[1:]


def cheapest(job, rate, first):
    """The cheapest selection with its total and its tax, from the library's own call, for a job that has the first one."""
    try:
        found = Library().price(written(job), rate)
        if isinstance(found, NoSelection):
            raise Broken("it says that there is none, and kitchen gave one")
        try_priced(job, rate, found, first.articles)
    except (Unusable, Refused, Broken) as trouble:
        raise Failed(f"the cheapest kitchen cannot be told: {trouble}; without --rate all else is told") from None
    return found
