"""The orders of a fair against one catalogue, by the proved library: what comes of each order in place of the catalogue's own.

What is told of an order is what the library answered for the bytes of the catalogue and that order, and is tried by the rules.
The list is given to the library in shares, each in one call; no call depends on another.
"""

import re
from collections import Counter, namedtuple

from kitchen import CHOICE, Library, NoSelection, OrderOutsideFile, Refused, Selection, Unusable, written
from showroom.advising import ordered
from showroom.asking import Failed
from showroom.changing import Meaning, choice_in, refused_choice
from showroom.rules import Broken, try_aside, try_in_file, try_no_selection, try_selection, try_smallest
from showroom.telling import article_data, record_data
from showroom.texts import BLANKS, QUOTED, Faulty, Listing, Names, Text, split, text_lines
from showroom.words import cited, counted, names, printed, series

SHARE = 500  # orders that the library is given in one call
WIDEST = 60  # columns of a label or a kitchen in a table
LABELLED = re.compile(rf'({QUOTED}[{BLANKS}]*|[^":,]*):(.*)')

# A catalogue: the bytes that the library is given; what they state, None if they are no choice file that is in order; and
# whether its wishes have names of their own, which a job file does not have.
Catalogue = namedtuple("Catalogue", "file text named")
# An order of a list: its line, the bytes of its label, None if it has none, and its wishes.
Order = namedtuple("Order", "line label wishes")


# ---- the catalogue


def is_job_file(found):
    """Whether these bytes are taken for a job file: it begins with a capital C or F, and its count is no letter."""
    return found[:1] in (b"C", b"F") and not found[1:2].isalpha()


def from_text(text):
    return Catalogue(written(text.job), text, True)


def from_file(file):
    """The catalogue of a job file, with the names that `tools/job read` gives to its wishes."""
    job = choice_in(file)
    return Catalogue(file, job and Text(job, [b"wish %d" % number for number in range(job.members)], []), False)


# ---- the orders


class Orders(Meaning):
    """What the lines of a list mean. Whether the catalogue has a wish is not asked of its number."""

    def __init__(self, catalogue):
        super().__init__([])
        self.wishes, self.named = Names(catalogue.text.names), catalogue.named

    fault = Listing.fault  # by its line

    def beyond(self, line, message):
        return self.fault(line, message)

    def wish(self, line, text):
        """The number of the wish with that name."""
        if not self.named:
            return super().wish(line, text)
        name = self.name(line, text)
        if name is not None:
            return self.bearer(line, name, CHOICE.member, self.wishes, len(self.wishes), "its number, as #3")

    def order(self, line, text):
        """The order of a line; None if its label is faulty. What may be a label or a wish is not guessed at."""
        found = LABELLED.fullmatch(text)
        if not found:
            return Order(line, None, self.members(line, text, self.wish))
        label, listed = (part.strip(BLANKS) for part in found.groups())
        if not label:
            return self.fault(line, "there is no label in front of the colon; expected one, or no colon")
        for name in (label.encode(), split(text)[0].encode()):
            if self.wishes.found(name):
                return self.fault(line, f"{cited(name)} is the name of a wish; expected the wish or the label in quotation marks")
        return Order(line, self.name(line, label), self.members(line, listed, self.wish))


def orders_in(text, catalogue):
    """The orders that a text's bytes list, one in each line; all faults are raised together."""
    found = Orders(catalogue)
    orders = [found.order(line, words) for line, words in text_lines(text)]
    if found.faults:
        raise Faulty(found.faults)
    return orders


# ---- the answers


def lacking(job, order):
    """The wishes of an order that the catalogue lacks."""
    return {wish for wish in order if wish >= job.members}


def try_entry(job, order, answer):
    """The answer to an order is one by the rules, as far as that can be tried."""
    lacks = lacking(job, order)
    if lacks and answer is not OrderOutsideFile:
        raise Broken(f"it takes an order with wish {min(lacks)}, which the file lacks")
    if lacks:
        return
    job = ordered(job, order)
    if answer == NoSelection(None):
        return try_no_selection(job)
    if not isinstance(answer, Selection):
        raise Broken(f"{answer} is no answer to an order whose wishes the file has")
    try_in_file(job, answer.articles)
    try_selection(job, answer.articles)
    try_smallest(job, answer.articles)
    try_aside(job, answer.aside)


def shared(library, catalogue, share):
    """What the library answers to a share of the orders, in one call, tried by the rules: the answers, or its refusal."""
    try:
        found = library.fair(catalogue.file, share)
    except Refused as refusal:
        if refused_choice(catalogue.file) != (refusal.number, refusal.place):
            raise Broken(f"it is {refusal}, and the rules have no such reason") from None
        raise
    if catalogue.text is None:
        raise Broken("it takes a file that the rules refuse")
    if len(found) != len(share):
        raise Broken(f"{len(found)} answers to {counted(len(share), 'order', 'orders')}")
    for order, answer in zip(share, found):
        try_entry(catalogue.text.job, order, answer)
    return found


def asked(catalogue, orders, done=lambda count: None):
    """The answer to each order. A refusal is raised as the library gave it. `done` is told how many have their answers.

    A list without orders is put to the library, too: it tests the catalogue.
    """
    found = []
    try:
        library = Library()
        for start in range(0, max(1, len(orders)), SHARE):
            found += shared(library, catalogue, [order.wishes for order in orders[start : start + SHARE]])
            done(len(found))
    except Unusable as trouble:
        raise Failed(f"the orders cannot be answered: {trouble}") from None
    except Broken as trouble:
        raise Failed(f"this cannot be what the library answers: {trouble}") from None
    return found


# ---- in words


def lacking_told(job, order):
    numbers = [f"#{wish}" for wish in sorted(lacking(job, order))]
    return f"the catalogue has no wish {series(numbers, 'or')}"


def row(catalogue, called, order, answer):
    """A line of the table: of an order its line and its label, what is chosen, and what is set aside."""
    head = [str(order.line), "" if order.label is None else printed(order.label)]
    if isinstance(answer, NoSelection):
        return [*head, "no such kitchen", ""]
    if answer is OrderOutsideFile:
        return [*head, lacking_told(catalogue.text.job, order.wishes), ""]
    chosen, aside = ("; ".join(called[number] for number in sorted(articles)) for articles in answer)
    return [*head, chosen or "(no article is needed)", aside or "-"]


def table(rows):
    """Rows of texts with a bar between their columns, which are as wide as the widest text, but not too wide."""
    widths = [min(WIDEST, max(map(len, column))) for column in zip(*rows)]
    lines = [[row[0].rjust(widths[0]), *(text.ljust(width) for text, width in zip(row[1:], widths[1:]))] for row in rows]
    return [" | ".join(line).rstrip() for line in lines]


def counts(answers):
    """How many orders have a kitchen, how many have none, and how many name a wish that the catalogue lacks."""
    found = Counter(type(answer) for answer in answers)
    return found[Selection], found[NoSelection], found[type(OrderOutsideFile)]


def told(catalogue, orders, answers):
    """The answers as a table, a row for each order, and how many there are of each sort."""
    if not orders:
        return ["The list has no order."]
    called = names(catalogue.text.job, range(len(catalogue.text.job.records)))
    rows = [["line", "order", "kitchen", "set aside"]]
    rows += [row(catalogue, called, order, answer) for order, answer in zip(orders, answers)]
    if all(order.label is None for order in orders):
        rows = [[line, *rest] for line, _, *rest in rows]
    chosen, none, outside = counts(answers)
    sorts = f"with a kitchen: {chosen}; no such kitchen: {none}; with a wish that the catalogue lacks: {outside}"
    return [*table(rows), "", f"{counted(len(orders), 'order', 'orders')}; {sorts}."]


# ---- for programs


def data(catalogue, order, answer):
    """An order and its answer as JSON has it."""
    text = catalogue.text._replace(job=ordered(catalogue.text.job, order.wishes))
    lacks = lacking(text.job, order.wishes)
    wishes = [f"#{wish}" if wish in lacks else printed(text.names[wish]) for wish in sorted(order.wishes)]
    found = {"line": order.line, "label": None if order.label is None else printed(order.label), "order": wishes}
    if isinstance(answer, NoSelection):
        return found | {"answer": "no such kitchen"}
    if answer is OrderOutsideFile:
        return found | {"answer": "no such wish", "lacks": sorted(lacks)}
    aside = [record_data(text.job, number) for number in sorted(answer.aside)]
    return found | {"answer": "kitchen", "articles": article_data(text, answer.articles), "set_aside": aside}
