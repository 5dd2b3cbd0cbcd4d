"""A choice file with one change, by the proved library: another order, or other wishes, clashes or another name of an article.

What the library gives is tried by the rules: it has to state the old job with that change. That a change cannot be made is
told only if the library refused it for these bytes, and the rules have nothing against the refusal.
"""

import re
from collections import namedtuple

from kitchen import CHOICE, LARGEST, Library, Reader, Refused, Unusable, usable
from showroom.asking import Failed
from showroom.reasons import explained
from showroom.rules import Broken
from showroom.texts import BLANKS, LAST_COMMA, Faulty, Listing, Names, kind_of, split
from showroom.words import brief, cited, decoded

CHANGES = {
    "order": "another order",
    "wishes": "other wishes of one article",
    "clashes": "other clashes of one article, with articles of lower numbers",
    "name": "another name of one article",
}
# What is changed, by its word; the number of the article, None for the order; and what comes in its place: a set, or the
# bytes of a name.
Change = namedtuple("Change", "what article value")

WIDTH = 8 * CHOICE.width  # a set has room for the numbers below it
NUMBER = re.compile("#([0-9]+)")
WISH = re.compile("wish (0|[1-9][0-9]*)")  # what `tools/job read` calls a wish: a job file has no names of wishes


class Beyond(Exception):
    """A number that no call can be given."""


# ---- from arguments to a change


class Meaning(Listing):
    """What the arguments of a change mean in a choice. A fault has the name of its argument in place of a line."""

    def __init__(self, articles):
        super().__init__(CHOICE)
        self.names = Names([article.name for article in articles])

    def fault(self, argument, message, text=""):
        """Notes a fault. An argument has no comments, so nothing is said of them."""
        self.faults.append((argument, message))

    def number(self, argument, text, most, expected):
        """The number that `#3` or `wish 3` states."""
        found = NUMBER.fullmatch(text) or WISH.fullmatch(text)
        if not found:
            return self.fault(argument, f"{brief(text)} is no number; expected one, as #3, or a name in quotation marks", text)
        digits = found[1].lstrip("0") or "0"
        if len(digits) > len(str(most)) or int(digits) > most:
            return self.beyond(argument, f"{brief(text)} is too large; expected {expected}")
        return int(digits)

    def beyond(self, argument, message):
        raise Beyond(f"argument {argument}: {message}")

    def member(self, argument, text):
        return self.number(argument, text, WIDTH - 1, f"numbers below {WIDTH}, as no set has room for others")

    def article(self, argument, text):
        """The number of the article that is changed; whether it is in the file is not asked."""
        if not text:
            return self.fault(argument, "no article is named; expected the name of one, or its number, as #3")
        if text.startswith("#"):
            return self.number(argument, text, LARGEST, "a number below 2^64")
        return self.named(argument, text)

    def named(self, argument, text):
        """The number of the article with that name."""
        name = self.name(argument, text)
        if name is not None:
            return self.bearer(argument, name, CHOICE.record, self.names, len(self.names), "its number, as #3")

    def wish(self, argument, text):
        """The number of the wish that `tools/job read` calls so; whether it is in the file is not asked."""
        name = self.name(argument, text)
        if name is None:
            return None
        if WISH.fullmatch(decoded(name)):
            return self.member(argument, decoded(name))
        self.fault(argument, f'no wish is named {cited(name)}; expected its number, as #3 or "wish 3": job files name no wishes')

    def members(self, argument, text, named):
        """The set that a list states; whether its members are in the file is not asked."""
        items, found = split(text) if text else [], set()
        if len(items) > 1 and not items[-1]:
            self.fault(argument, LAST_COMMA)
            items.pop()
        for item in items:
            number = self.member(argument, item) if item.startswith("#") else named(argument, item)
            if number is not None:
                self.include(argument, item, number, found)
        return found


def choice_in(file):
    """The choice that a file states; None if it is no choice file that is in order."""
    reader = Reader(file)
    return reader.job if reader.kind is CHOICE else None


def wanted(file, what, article, value):
    """The change of a file that the arguments ask for. Without a value, or with an empty one, it is an empty set, or no name.

    If the file is no choice file that is in order, there is nothing to look names up in. The library then refuses the file,
    whatever the change is, and that is told, and no fault.
    """
    job, value = choice_in(file), (value or "").strip(BLANKS)
    meaning = Meaning(job.records if job else [])
    number = None if what == "order" else meaning.article("ARTICLE", article.strip(BLANKS)) or 0
    if what == "name":
        found = value and meaning.name("NAME", value) or b""
    else:
        found = meaning.members("LIST", value, meaning.named if what == "clashes" else meaning.wish)
    if job and meaning.faults:
        raise Faulty(meaning.faults)
    return Change(what, number, found)


# ---- from a change to a file


def changed(job, change):
    """The job with that change; None if there is no job, or no such article in it."""
    if job is None or change.article is not None and change.article >= len(job.records):
        return None
    if change.what == "order":
        return job._replace(sets=[change.value])
    records = list(job.records)
    record = records[change.article]
    if change.what == "name":
        records[change.article] = record._replace(name=change.value)
    else:
        at = CHOICE.fields.index(change.what)
        records[change.article] = record._replace(sets=[*record.sets[:at], change.value, *record.sets[at + 1 :]])
    return job._replace(records=records)


def try_saved(file, change, new):
    """The new file is in order, and states the old job with that change."""
    found, job = Reader(new), changed(choice_in(file), change)
    if found.refusal:
        raise Broken(f"the new file is {found.refusal}")
    if job is None or found.job != job:
        raise Broken("the new file is not the old job with this change")


def refused_choice(file):
    """By which reason the rules refuse a file that should be a choice, and at which place; None if they do not."""
    reader = Reader(file)
    if reader.kind is not CHOICE:
        return 1, 0
    return (reader.refusal.number, reader.refusal.place) if reader.refusal else None


def ruled_out(file, change):
    """By which reason the rules refuse a change, and at which place, None for one of the new file; None if they do not."""
    refusal = refused_choice(file)
    if refusal:
        return refusal
    job = changed(choice_in(file), change)
    if job is None:
        return 9, 0
    try:
        usable(job)
    except Unusable:
        return 7 if change.what == "name" else 6, None
    return None


def try_refused(file, change, refusal):
    """The refusal has the number of the rules, and their place if that is in the old file; a place in the new one is not tried.

    One that the library did not give is never told.
    """
    if ruled_out(file, change) not in ((refusal.number, refusal.place), (refusal.number, None)):
        raise Broken(f"it is {refusal}, and the rules have no such reason")


def from_library(file, change):
    """What the library gives for these bytes, tried by the rules: the new file, or its refusal."""
    call = getattr(Library(), f"save_{change.what}")
    try:
        new = call(file, change.value) if change.article is None else call(file, change.article, change.value)
    except Refused as refusal:
        try_refused(file, change, refusal)
        raise
    try_saved(file, change, new)
    return new


def saved(file, change):
    """The new file. A refusal is raised as the library gave it."""
    try:
        return from_library(file, change)
    except Unusable as trouble:
        raise Failed(f"there is no new file: {trouble}") from None
    except Broken as trouble:
        raise Failed(f"this cannot be what the library gives for this change: {trouble}") from None


def reason(file, refusal):
    """A refusal in words. Its place is in the old file, or in the new one, which is not there to be looked at."""
    if choice_in(file) is None:
        hint = "The file begins as a text does: `tools/job write` makes a job file of it.\n" if kind_of(file) else ""
        return explained(refusal.number, refusal.place, Reader(file)) + hint
    new = "The place is in the new file, which was not written.\n" if refusal.number in (6, 7) else ""
    return explained(refusal.number, refusal.place) + new
