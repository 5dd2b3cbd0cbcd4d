"""Why, why not, what else: by asking kitchen about jobs that differ from the one in question.

What is concluded of a choice are theorems (crates/advice/proofs/Advice.antt): with the wishes of some articles emptied
there is a selection exactly if there is one without these articles; an article is in some selection exactly if the order
without its wishes has one without the article itself and those that it clashes with; it is in every one exactly if there is
none without it; and what has no selection for a part of the order has none for the order. What a change of one price can
do to the cheapest total is a theorem, too (`one-price-moves`, crates/demands/proofs/Moving.antt), and needs no question. Of
a fitting nothing is concluded: what is said of another horizon is the answer for a job that has it.
"""

import subprocess
from collections import namedtuple

from kitchen import CHOICE, NoPlan, NoSelection, Selection
from showroom.asking import Failed, asked
from showroom.rules import both_ways
from showroom.telling import bound_told, change_told, listed, member_names, told
from showroom.words import counted, names_of, series

PATIENCE = 60  # seconds for the question whether a longer horizon would do: no plan may be long looked for

# If there is a kitchen: the articles that are in every one for this order, in none, and in some but not in every one.
Articles = namedtuple("Articles", "every none some")
# If there is none: wishes of the order that no article carries; a part of the order that has no kitchen, and from which no
# wish can be left out; and for each wish of it a kitchen for the rest of the part, and whether the rest of the whole order
# has one.
Conflict = namedtuple("Conflict", "uncarried part rests")
Rest = namedtuple("Rest", "wish kitchen enough")
# If there is no plan: goal facts that do not hold at the start and that nothing gives; the rounds of a shortest plan, 0 if
# there is none within the longest horizon that a file can state, and None if that was not answered in time.
Horizon = namedtuple("Horizon", "ungiven rounds")


# ---- the jobs that are asked about


def ordered(job, order):
    """The job with another order."""
    return job._replace(sets=[set(order)])


def emptied(job, out):
    """The job with the wishes of these articles emptied."""
    records = [
        record._replace(sets=[set() if number in out else record.sets[0], record.sets[1]])
        for number, record in enumerate(job.records)
    ]
    return job._replace(records=records)


def has_selection(job):
    return isinstance(asked(job), Selection)


# ---- what is found


def in_some(job, number):
    """Whether an article is in some selection."""
    out = both_ways(job.records)[number] | {number}
    return has_selection(ordered(emptied(job, out), job.sets[0] - job.records[number].sets[0]))


def in_every(job, number):
    """Whether an article is in every selection."""
    return not has_selection(emptied(job, {number}))


def articles(job, answer):
    """Takes the answer for the job, a selection: what is in every one is in this one, and what is in this one is in some."""
    every = {number for number in answer.articles if in_every(job, number)}
    none = {number for number in set(range(len(job.records))) - answer.articles if not in_some(job, number)}
    return Articles(every, none, set(range(len(job.records))) - every - none)


def conflict(job):
    """Takes a job without a selection. Wishes are left out one by one, as long as what is left has no selection, either."""
    part = set(job.sets[0])
    for wish in sorted(part):
        if not has_selection(ordered(job, part - {wish})):
            part.discard(wish)
    rests = []
    for wish in sorted(part):
        kitchen = asked(ordered(job, part - {wish}))
        if isinstance(kitchen, NoSelection):
            raise Failed("kitchen gave two answers to one question")
        rests.append(Rest(wish, kitchen, has_selection(ordered(job, job.sets[0] - {wish}))))
    carried = set().union(*(record.sets[0] for record in job.records))
    return Conflict(job.sets[0] - carried, part, rests)


def horizon(job):
    """Takes a job without a plan."""
    start, goal = job.sets
    ungiven = goal - start.union(*(record.sets[1] for record in job.records))
    if job.horizon == job.kind.horizon:
        return Horizon(ungiven, 0)
    try:
        return Horizon(ungiven, fewest(job))
    except subprocess.TimeoutExpired:
        return Horizon(ungiven, None)


def fewest(job):
    """The rounds of a shortest plan with the longest horizon, 0 if there is none; that horizon itself is then asked about, too."""
    answer = asked(job._replace(horizon=job.kind.horizon), PATIENCE)
    if answer is NoPlan:
        return 0
    rounds = len(answer.rounds)
    again = asked(job._replace(horizon=rounds), PATIENCE)
    if rounds <= job.horizon or again is NoPlan or len(again.rounds) != rounds:
        raise Failed("kitchen gave two answers to one question")
    return rounds


def advice(job, answer):
    """What can be said beyond the answer; None if that is a plan."""
    if isinstance(answer, NoSelection):
        return conflict(job)
    if answer is NoPlan:
        return horizon(job)
    return articles(job, answer) if job.kind is CHOICE else None


# ---- in words


def standings(text, found):
    """What is said of the articles, and the articles of which it is said."""
    return [
        ("In every kitchen for this order:", names_of(text.job, found.every) or "no article"),
        ("In none:", names_of(text.job, found.none) or "no article"),
        ("In some:", names_of(text.job, found.some) or "no article"),
    ]


def rest_told(text, rest):
    wish = member_names(text, {rest.wish})[0]
    still = "" if rest.enough else "; the rest of the whole order cannot be had, either"
    return f'Without "{wish}"{still}:', names_of(text.job, rest.kitchen.articles)


def conflict_told(text, found):
    lines = [f'No article carries "{wish}".' for wish in member_names(text, found.uncarried)]
    part = series([f'"{wish}"' for wish in member_names(text, found.part)])
    if len(found.part) == 1:
        return [*lines, f"Already {part} alone cannot be had."]
    rest = "Each wish of these can be left out, and the others of them can be had:"
    return [*lines, f"These wishes cannot be had together: {part}.", rest, *listed([rest_told(text, r) for r in found.rests])]


def horizon_told(text, found):
    lines = [f'Nothing gives "{fact}", and it does not hold at the start.' for fact in member_names(text, found.ungiven)]
    most = counted(text.job.kind.horizon, "round", "rounds")
    if found.rounds is None:
        return [*lines, f"Whether more rounds would do, up to {most}, was not answered within {PATIENCE} seconds."]
    if found.rounds == 0:
        return [*lines, f"No plan takes {most} or fewer, and no job can have more."]
    return [*lines, f"A horizon of {counted(found.rounds, 'round', 'rounds')} would do; no plan has fewer."]


def advised(text, answer, bound=None):
    """The answer and the advice, in lines; before them how far the wishes can go, if that is given."""
    found = advice(text.job, answer)
    lines = ([] if bound is None else [bound_told(text, bound)]) + told(text, answer)
    if isinstance(found, Articles):
        return lines + listed(standings(text, found)) + change_told(text)
    if isinstance(found, Conflict):
        return lines + conflict_told(text, found)
    return lines + (horizon_told(text, found) if found else [])
