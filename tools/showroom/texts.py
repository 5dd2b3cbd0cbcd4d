"""From a text to a job: what is in it, its faults by line, and warnings."""

import difflib
import re
from collections import namedtuple

from kitchen import CHOICE, FITTING, HIGHEST_PRICE, KINDS, LONGEST_NAME, LOWEST_PRICE, Job, Record, name_key
from showroom.words import brief, cited, look, money, series

MOST_FAULTS = 20  # that are shown at once
LONGEST_HINT = 100  # a longer word is not compared with the names that there are
ORDER = 0  # the line of a fault in an order that was given in place of the text's own

# Every character that is a blank and nothing else: what a word processor or a web page puts in place of a space, too.
BLANKS = " \t\u00a0\u1680\u2000\u2001\u2002\u2003\u2004\u2005\u2006\u2007\u2008\u2009\u200a\u202f\u205f\u3000"
BLANK = f"[{BLANKS}]"
QUOTED = r'"[^"\\]*(?:\\.[^"\\]*)*"'
COMMENT = re.compile(rf"{BLANK}*#(?![0-9])")
ITEM = re.compile(rf"{BLANK}*({QUOTED}(?={BLANK}*(?:,|$))|[^,]*){BLANK}*(,|$)")
ESCAPE = re.compile(rb'\\(?:(["\\])|x([0-9A-Fa-f]{2})|)')
NUMBER = re.compile(r"[0-9]{1,9}")
AMOUNT = re.compile(r"(-?[0-9]{1,20})(?:\.([0-9]{1,2}))?")
WORDS = {word: kind for kind in KINDS for word in (kind.word, kind.record, kind.members, *kind.heads, *kind.fields)}
WORDS |= {"horizon": FITTING, "price": CHOICE}
OPENINGS = tuple(word for kind in KINDS for word in (kind.word, kind.record))
FIELD = re.compile(rf"({'|'.join(word for word in WORDS if word not in OPENINGS)}){BLANK}*:{BLANK}*(.*)")
OPENING = re.compile(rf"({'|'.join(OPENINGS)})(?:{BLANK}+(.*))?")
# One of the words with capitals, or with or without a colon if it should be the other way.
ALMOST = re.compile(rf"({'|'.join(WORDS)})(?:{BLANK}*:|{BLANK}|$){BLANK}*(.*)", re.IGNORECASE)
OWN_LINE = "a comment has a line of its own"
UNSEEN = "the line has a character that does not print"
LAST_COMMA = "the list ends with a comma; expected a further name"

# What a text states: the job, the names of its wishes or facts, and warnings, pairs of a line number and a message.
Text = namedtuple("Text", "job names warnings")
# A field of a text: its first line, and its items, each with its line.
Field = namedtuple("Field", "line items")
# An article or step of a text: its line, its name, or None if that is faulty, and its fields.
Entry = namedtuple("Entry", "line name fields")


class Faulty(Exception):
    """A text has faults: pairs of a line number and a message."""

    def __init__(self, faults):
        super().__init__(faults)
        self.faults = sorted(faults, key=lambda fault: fault[0])


def byte_lines(text):
    """The lines of a text's bytes, whatever ends them, without a byte order mark in front."""
    return text.removeprefix(b"\xef\xbb\xbf").splitlines()


def text_lines(text):
    """Pairs of a line number and a line, without comments and empty lines."""
    lines, faults = [], []
    for number, line in enumerate(byte_lines(text), 1):
        try:
            lines.append((number, uncommented(line.decode())))
        except UnicodeDecodeError:
            faults.append((number, "the line is not in UTF-8; expected a text that is saved in UTF-8"))
    if faults:
        raise Faulty(faults)
    return [(number, line) for number, line in lines if line]


def uncommented(line):
    return "" if COMMENT.match(line) else line.strip(BLANKS)


def split(text):
    """What is between the commas of a list; a quoted name is not split."""
    items, at = [], 0
    while True:
        found = ITEM.match(text, at)
        items.append(found[1].rstrip(BLANKS))
        at = found.end()
        if not found[2]:
            return items


class Names:
    """The names that a list may refer to, by their numbers; None means a faulty one. Equal names are one, as for the call `find`."""

    def __init__(self, names):
        self.names, self.numbers = names, {}
        for number, name in enumerate(names):
            if name:
                self.numbers.setdefault(name_key(name), []).append(number)

    def __len__(self):
        return len(self.names)

    def found(self, name):
        return self.numbers.get(name_key(name), [])

    def near(self, name, bound):
        """A name below the bound that is nearly this one."""
        known = {look(other).casefold(): other for other in self.names[:bound] if other}
        near = difflib.get_close_matches(look(name).casefold(), known, 1)
        return known[near[0]] if near else None


class Listing:
    """How lists name things, and the faults found so far."""

    def __init__(self, kind):
        self.kind, self.faults = kind, []

    def fault(self, line, message, text=""):
        """Notes a fault. If the text in question has a `#`, it says where comments belong; and that something is unseen."""
        message += f"; {OWN_LINE}" if "#" in text else ""
        self.faults.append((line, message + ("" if text.isprintable() else f"; {UNSEEN}")))

    def name(self, line, text):
        """The bytes of a name; None if it is faulty."""
        if not text:
            return self.fault(line, "a name is missing in front of a comma; expected one")
        if re.fullmatch(QUOTED, text):
            return self.unquoted(line, text[1:-1])
        if '"' in text:
            form = 'expected the whole name in quotation marks, with \\" for a mark inside'
            return self.fault(line, f"{brief(text)} has a quotation mark; {form}", text)
        if "#" in text:
            form = f"expected the name as {cited(text.encode())}, with the marks"
            return self.fault(line, f"{brief(text)} has a #; {form}", text)
        if not text.isprintable():
            form = f"expected the name without it, or as {cited(text.encode())}"
            return self.fault(line, f"the name has a character that does not print; {form}")
        return text.encode()

    def unquoted(self, line, text):
        if not text:
            return self.fault(line, "the name is empty; expected at least 1 byte, or no name at all")
        wrong = [found for found in ESCAPE.finditer(text.encode()) if not found[1] and not found[2]]
        if wrong:
            return self.fault(line, 'a backslash stands alone; expected \\", \\\\ or \\x and two digits from 0 to F')
        return ESCAPE.sub(lambda found: found[1] or bytes([int(found[2], 16)]), text.encode())

    def bearer(self, line, name, what, names, bound, numbered):
        """The number of what has this name; None if that is nothing, or several. Those below the bound are hinted at."""
        numbers = names.found(name)
        if len(numbers) == 1:
            return numbers[0]
        if numbers:
            several = self.kind.members if what == self.kind.member else self.kind.records
            which = series([f"#{number}" for number in numbers], "or")
            return self.fault(line, f"{len(numbers)} {several} are named {cited(name)}; expected a number, {which}")
        worthwhile = len(self.faults) < MOST_FAULTS and len(name) <= LONGEST_HINT
        near = names.near(name, bound) if worthwhile else None
        same = ", in other characters" if near and look(near) == look(name) else ""
        hint = f" (near: {cited(near)}{same})" if near else ""
        self.fault(line, f"no {what} is named {cited(name)}; expected the name of one, or {numbered}{hint}")

    def include(self, line, text, number, found):
        """Adds what an item means to a set; twice is a fault. Gives the item as messages show it."""
        shown = brief(text if text[0] in '"#' else f'"{text}"')
        if number in found:
            self.fault(line, f"{shown} is in the list twice; expected once")
        found.add(number)
        return shown


class Draft(Listing):
    """What is in a text, and the faults found in it so far."""

    def __init__(self, lines, order=None):
        """Takes pairs of a line number and a line, and a list in place of the text's order."""
        words = [re.match("[a-z]*", text.lower())[0] for _, text in lines]
        super().__init__(next((WORDS[word] for word in words if word in WORDS), CHOICE))
        self.lines, self.head, self.entries = lines, {}, []
        self.open = None  # a field that goes on in the next line, and the line of its last comma
        self.first, text = lines[0] if lines else (1, "")
        if text != self.kind.word:
            self.fault(self.first, 'expected "choice" or "fitting" as the first line', text)
        is_part = FIELD.fullmatch(text) or text.split()[:1] == [self.kind.record]
        for number, text in lines if is_part else lines[1:]:
            self.take(number, text)
        self.close()
        if order is not None:
            self.head["order"] = Field(ORDER, [])
            if order.strip(BLANKS):
                self.extend(self.head["order"], ORDER, order.strip(BLANKS))
            self.close()

    def stop(self, line, message):
        """What follows is not looked at: it would only be misread."""
        self.fault(line, message)
        raise Faulty(self.faults)

    # -- lines

    def take(self, number, text):
        field, opening = FIELD.fullmatch(text), OPENING.fullmatch(text)
        if self.open and not field and not opening:
            return self.extend(self.open[0], number, text)
        self.close()
        if field:
            return self.add_field(number, field[1], field[2])
        if opening and opening[1] == self.kind.record:
            return self.add_entry(number, opening[2] or "")
        if opening and opening[1] == self.kind.word:
            return self.fault(number, f'"{opening[1]}" has no place here; expected in the first line only')
        almost = ALMOST.fullmatch(text)
        word = almost[1].lower() if almost else ""
        if word == self.kind.record:
            self.fault(number, f'expected "{word}" in small letters and without a colon')
            return self.add_entry(number, almost[2])
        if WORDS.get(word) is self.kind and word != self.kind.word:
            self.fault(number, f'expected "{word}:" in small letters and with a colon')
            return self.add_field(number, word, almost[2])
        self.fault(number, self.expected(), "" if text.startswith("#") else text)

    def close(self):
        """No list goes on any more."""
        if self.open:
            line = self.open[1]
            self.fault(line, LAST_COMMA + ("" if line == ORDER else ", in this line or the next"))
        self.open = None

    def head_words(self):
        horizon = () if self.kind.horizon is None else ("horizon",)
        return (*horizon, self.kind.members, *self.kind.heads)

    def entry_words(self):
        return (*self.kind.fields, *(("price",) if self.kind.priced else ()))

    def expected(self):
        """What may come in this part of the text."""
        words = self.entry_words() if self.entries else self.head_words()
        return "expected " + series([f'"{word}:"' for word in words] + [f'"{self.kind.record}"'], "or")

    def add_field(self, line, word, text):
        fields = self.head
        if self.entries and word in self.entry_words():
            fields = self.entries[-1].fields
        elif word not in self.head_words():
            fields = {}
            self.fault(line, f'"{word}:" has no place here; {self.expected()}')
        elif self.entries:
            self.fault(line, f'"{word}:" comes too late; expected above the first {self.kind.record}')
        field = Field(line, [])
        if word in fields:
            self.fault(line, f'"{word}:" is in line {fields[word].line} already; expected once')
        else:
            fields[word] = field
        if text:
            self.extend(field, line, text)

    def add_entry(self, line, text):
        if len(self.entries) == self.kind.limit:
            self.stop(line, f"too many {self.kind.records}; expected at most {self.kind.limit}")
        name = self.name(line, text) if text else b""
        if name and len(name) > LONGEST_NAME:
            limit = f"expected at most {LONGEST_NAME} (a letter such as ä has 2)"
            self.fault(line, f"the name has {len(name)} bytes; {limit}")
        self.entries.append(Entry(line, name, {}))

    def extend(self, field, line, text):
        items = split(text)
        self.open = (field, line) if len(items) > 1 and not items[-1] else None
        field.items.extend((line, item) for item in (items[:-1] if self.open else items))

    # -- names and numbers

    def naming(self):
        """The names that the head gives to wishes or facts, in their order; None if the head has no such list."""
        field = self.head.get(self.kind.members)
        if field is None:
            return None
        names, seen = [], set()
        for line, text in field.items:
            if len(names) == self.kind.limit:
                self.stop(line, f"too many {self.kind.members}; expected at most {self.kind.limit}")
            name = self.name(line, text)
            if name is not None and name_key(name) in seen:
                self.fault(line, f"two {self.kind.members} are named {cited(name)}; expected different names")
            names.append(name)
            seen.add(None if name is None else name_key(name))
        return Names(names)

    def horizon(self):
        field = self.head.get("horizon")
        if self.kind.horizon is None or field is None:
            return None
        text = ", ".join(item for _, item in field.items)
        if not NUMBER.fullmatch(text) or int(text) > self.kind.horizon:
            limit = f"expected a number from 0 to {self.kind.horizon}"
            return self.fault(field.line, f"the horizon is a count of rounds; {limit}", text)
        return int(text)

    def reference(self, line, text, what, names, bound):
        """The number that an item of a list means; None if it is faulty. Those below the bound are expected."""
        span = "#0" + (f" to #{bound - 1}" if bound > 1 else "") if bound else f"none, as there is no {what} to name"
        if text.startswith("#"):
            if NUMBER.fullmatch(text[1:]) and int(text[1:]) < len(names):
                return int(text[1:])
            behind = "" if re.fullmatch("#[0-9]+", text) else text
            return self.fault(line, f"there is no {what} {brief(text)}; expected {span}", behind)
        name = self.name(line, text)
        return None if name is None else self.bearer(line, name, what, names, bound, span)

    def members(self, field, what, names, own=None):
        """The set that a field states. What an article clashes with has to be lower than its own number."""
        found, bound = set(), len(names) if own is None else own
        for line, text in field.items:
            number = self.reference(line, text, what, names, bound)
            if number is None:
                continue
            shown = self.include(line, text, number, found)
            if number == own:
                self.fault(line, f"the {what} clashes with itself; expected {self.kind.records} above it")
            elif number > bound:
                above = f"expected {self.kind.records} above it: write the clash there"
                self.fault(line, f"{shown} is below this {what}; {above}")
        return found

    # -- the job

    def entry_sets(self, number, names, entries):
        sets = []
        for word in self.kind.fields:
            field = self.entries[number].fields.get(word, Field(0, []))
            if word == "clashes":
                sets.append(self.members(field, self.kind.record, entries, number))
            else:
                sets.append(set() if names is None else self.members(field, self.kind.member, names))
        return sets

    def price(self, entry):
        """The price of an article in cents; 0 if it has none, or a faulty one."""
        field = entry.fields.get("price")
        if field is None:
            return 0
        text = ", ".join(item for _, item in field.items)
        found = AMOUNT.fullmatch(text)
        if not found:
            form = "expected one such as 129.90 or -40, with a point and at most two decimals"
            return self.fault(field.line, f"the price is an amount; {form}", text) or 0
        cents = int(found[1] + (found[2] or "").ljust(2, "0"))
        if LOWEST_PRICE <= cents <= HIGHEST_PRICE:
            return cents
        span = f"expected an amount from {money(LOWEST_PRICE)} to {money(HIGHEST_PRICE)}"
        return self.fault(field.line, f"no file has room for the price {text}; {span}") or 0

    def text(self):
        """What the text states; all faults are raised together."""
        for word in self.head_words() if self.lines else ():
            if word not in self.head:
                self.fault(self.first, f'"{word}:" is missing; expected above the first {self.kind.record}')
        names, horizon = self.naming(), self.horizon()
        known = [self.head.get(word, Field(0, [])) for word in self.kind.heads]
        sets = [set() if names is None else self.members(field, self.kind.member, names) for field in known]
        entries = Names([entry.name for entry in self.entries])
        records = [
            Record(self.entry_sets(number, names, entries), entry.name, self.price(entry))
            for number, entry in enumerate(self.entries)
        ]
        if self.faults:
            raise Faulty(self.faults)
        job = Job(self.kind, len(names), horizon, sets, records)
        return Text(job, names.names, sorted(self.warnings(job, names.names, entries), key=lambda warning: warning[0]))

    # -- what is allowed, and seldom meant

    def warnings(self, job, names, entries):
        for numbers in entries.numbers.values():
            for number in numbers[1:]:
                entry, first = self.entries[number], self.entries[numbers[0]].line
                yield entry.line, f"two {self.kind.records} are named {cited(entry.name)}; the first is in line {first}"
        yield from self.unfulfilled(job, names) if self.kind is CHOICE else self.unreached(job, names)

    def unfulfilled(self, job, names):
        """Ordered wishes that no article carries, and articles that carry none, unless they are trade-ins."""
        carried = set().union(*(record.sets[0] for record in job.records))
        for wish in sorted(job.sets[0] - carried):
            yield self.head["order"].line, f"no article carries the wish {cited(names[wish])} of the order"
        for entry, record in zip(self.entries, job.records):
            if not record.sets[0] and record.price >= 0:
                yield entry.line, "the article carries no wish"

    def unreached(self, job, names):
        """Facts of the goal, and needs of steps, that do not hold at the start and that nothing gives."""
        start, goal = job.sets
        given = start.union(*(record.sets[1] for record in job.records))
        for fact in sorted(goal - given):
            yield self.head["goal"].line, f"nothing gives the fact {cited(names[fact])} of the goal"
        for entry, record in zip(self.entries, job.records):
            for fact in sorted(record.sets[0] - given):
                yield entry.line, f"the step needs {cited(names[fact])}, which nothing gives"


def stated(text, order=None):
    """What a text's bytes state, with this list in place of its order if there is one."""
    lines = text_lines(text)
    return Draft(lines, order).text()


def kind_of(text):
    """The kind that a text says of itself, faulty or not; None if it says none."""
    lines = (uncommented(line.decode("utf-8", "replace")) for line in byte_lines(text))
    first = next(filter(None, lines), "")
    return next((kind for kind in KINDS if kind.word == first), None)


def remarks(path, text, found, word=""):
    """Faults or warnings of a text, each with its place and its line. An argument has no line, but a name."""
    lines, report = byte_lines(text) or [b""], []
    for number, message in found[:MOST_FAULTS]:
        if number == ORDER or isinstance(number, str):
            report.append(f"{path}, {number or '--order'}: {word}{message}")
            continue
        report.append(f"{path}:{number}: {word}{message}")
        start = lines[number - 1].strip()[:1000].decode("utf-8", "replace")
        line = "".join(c if c.isprintable() else " " for c in start).strip()
        if line:
            report.append("    " + (line if len(line) <= 120 else line[:120] + " ..."))
    if len(found) > MOST_FAULTS:
        report.append(f"{path}: {len(found) - MOST_FAULTS} further {'warnings' if word else 'faults'} are not shown")
    return "".join(line + "\n" for line in report)
