"""Choice and fitting for cabinet shops, from Python: jobs built and read, and the proved calls on job files.

    import kitchen

    job = kitchen.choice(2, {0, 1}, [kitchen.article({0}, name="Larder"), kitchen.article({1}, name="Smooth front")])
    shop = kitchen.Library()
    answer = shop.choose(kitchen.written(job))
    if isinstance(answer, kitchen.NoSelection):
        print("no such kitchen")
    else:
        print(sorted(answer.articles))

A job file is bytes; docs/RULES.md says how it is laid out, and include/kitchen.h what each call takes and answers. Sets
are Python sets of numbers. Prices are in cents, and below 0 for a trade-in: `article({0}, name="Larder", price=12990)`; then
`shop.price(file, 1900)` answers the cheapest selection, its total, and its tax at 19 percent. `shop.fair(file, orders)`
answers a list of orders against one file. A `NoSelection(place)`, `NoPlan` and `OrderOutsideFile` are answers.
`Refused(number, place)` is raised if a call is turned down, and `Unusable` if a job cannot be written or the library cannot be
used.

What is built, written and read here, and whether two names are equal by `same_name`, is plain Python and only tested; what
`Library` answers is what the proved calls answered for these very bytes.
"""

import ctypes
import pathlib
import unicodedata
from collections import namedtuple

# The number of the interface in include/kitchen.h. A library of another number is not used.
VERSION = 7

# A kind of job: its first byte and word, its records and what sets are counted against, the limit of both counts, the
# limit of the horizon if there is one, the bytes of a set, the sets of its head and those of a record, and whether a record
# may have a price.
Kind = namedtuple("Kind", "byte word record records member members limit horizon width heads fields priced")
CHOICE = Kind(67, "choice", "article", "articles", "wish", "wishes", 64, None, 8, ("order",), ("wishes", "clashes"), True)
FITTING = Kind(
    70, "fitting", "step", "steps", "fact", "facts", 32, 16, 4, ("start", "goal"), ("needs", "gives", "takes"), False
)
KINDS = (CHOICE, FITTING)
LONGEST_NAME = 32
PRICE_BYTES, LOWEST_PRICE, HIGHEST_PRICE = 4, -(2**31), 2**31 - 1  # prices are in cents

# A job: its kind, how many wishes or facts there are, the horizon (None for a choice), the sets of its head in the order
# of `heads`, and its records, each with the sets in the order of `fields`, its name, as bytes, and its price, 0 if it has none.
Job = namedtuple("Job", "kind members horizon sets records")
Record = namedtuple("Record", "sets name price", defaults=[0])

# What is answered. Both of a selection are sets of articles; if there is none, the place is the index of the first goal
# that falls short, and the count of goals if none does. A pass leaves a set of articles live; its sum is that of all
# contributions before it. What is priced is a set of articles, with its total and its tax in cents; if there is none, the place
# is always 0. Of a list of orders no place is told: it is None. The rounds of a plan are sets of steps, in order.
Selection = namedtuple("Selection", "articles aside")
NoSelection = namedtuple("NoSelection", "place")
Passed = namedtuple("Passed", "live sum")
Priced = namedtuple("Priced", "articles total tax")
Plan = namedtuple("Plan", "rounds")


class Answer:
    """An answer without a value."""

    def __init__(self, name):
        self.name = name

    def __repr__(self):
        return self.name


NoPlan = Answer("NoPlan")
OrderOutsideFile = Answer("OrderOutsideFile")  # an order of a list names a wish that the file lacks
NO_SELECTION, NO_PLAN, NO_NAME, ORDER_OUTSIDE_FILE = 14, 15, 16, 18  # their numbers in docs/RULES.md


class Refused(Exception):
    """A call is turned down, with the number and the place of docs/RULES.md."""

    def __init__(self, number, place):
        super().__init__(f"refused {number} at {place}")
        self.number, self.place = number, place


class Unusable(Exception):
    """A job that no file can state, or a library that is missing or of another version."""


# ---- jobs


def named(name):
    return name.encode() if isinstance(name, str) else as_bytes(name)


def as_bytes(given):
    """What is given, if it is bytes: text, or a number, would be passed on as something else."""
    if not isinstance(given, bytes):
        raise Unusable(f"expected bytes, found {type(given).__name__}")
    return given


def is_covered(character):
    """Whether names with this character are compared by their text."""
    return character < "\u0180" or "\u0300" <= character <= "\u036f"


def name_key(name):
    """Bytes that are the same for equal names, and for no others.

    A name that is UTF-8, with all characters below U+0180 or from U+0300 to U+036F, goes by its normalization form D, so it
    makes no difference whether ü is one character, or u and a mark. Any other name goes by its own bytes.
    """
    name = named(name)
    try:
        text = name.decode()
    except UnicodeDecodeError:
        return name
    return unicodedata.normalize("NFD", text).encode() if all(map(is_covered, text)) else name


def same_name(a, b):
    """Whether two names, as text or as bytes, are equal: the rule by which `Library.find` finds them."""
    return name_key(a) == name_key(b)


def article(wishes=(), clashes=(), name=b"", price=0):
    """An article; a price of 0 is none."""
    return Record([set(wishes), set(clashes)], named(name), price)


def step(needs=(), gives=(), takes=(), name=b""):
    return Record([set(needs), set(gives), set(takes)], named(name))


def choice(wishes, order, articles):
    """A job with this many wishes. A clash may be said at either of two articles; a file says it at the later."""
    articles = list(articles)
    clashes = [set() for _ in articles]
    for number, record in enumerate(articles):
        for other in sets_of(CHOICE, number, record)[1]:
            low, high = sorted((number, other))
            if low < 0 or high >= len(articles) or low == high:
                raise Unusable(f"article {number} cannot clash with {other}")
            clashes[high].add(low)
    records = [record._replace(sets=[set(record.sets[0]), clash]) for record, clash in zip(articles, clashes)]
    return usable(Job(CHOICE, wishes, None, [set(order)], records))


def fitting(facts, horizon, start, goal, steps):
    """A job with this many facts."""
    return usable(Job(FITTING, facts, horizon, [set(start), set(goal)], list(steps)))


def sets_of(kind, number, record):
    """The sets of a record, if it is one of this kind."""
    if len(record.sets) != len(kind.fields):
        raise Unusable(f"{kind.record} {number} has {len(record.sets)} sets; {kind.records} have {len(kind.fields)}")
    return record.sets


def check_price(kind, number, price):
    """Whether a file can state this price of that record."""
    if price and not kind.priced:
        raise Unusable(f"{kind.record} {number} has a price; {kind.records} have none")
    if not isinstance(price, int) or not LOWEST_PRICE <= price <= HIGHEST_PRICE:
        raise Unusable(f"the price of {kind.record} {number} is {price!r}; expected cents from {LOWEST_PRICE} to {HIGHEST_PRICE}")


def usable(job):
    """The job itself, if a file can state it."""
    kind = job.kind
    for count, what, limit in (
        (len(job.records), kind.records, kind.limit),
        (job.members, kind.members, kind.limit),
        (job.horizon or 0, "rounds of the horizon", kind.horizon or 0),
    ):
        if not 0 <= count <= limit:
            raise Unusable(f"{count} {what}; a {kind.word} has 0 to {limit}")
    heads = [(f"the {word}", members, job.members) for word, members in zip(kind.heads, job.sets)]
    for number, record in enumerate(job.records):
        if len(record.name) > LONGEST_NAME:
            raise Unusable(f"the name of {kind.record} {number} has {len(record.name)} bytes; at most {LONGEST_NAME} do")
        check_price(kind, number, record.price)
        for word, members in zip(kind.fields, sets_of(kind, number, record)):
            bound = number if word == "clashes" else job.members
            heads.append((f"the {word} of {kind.record} {number}", members, bound))
    for what, members, bound in heads:
        for member in members:
            if not 0 <= member < bound:
                raise Unusable(f"{what}: there is no {member} below {bound}")
    return job


# ---- writing a job file


def stored(members, width):
    """A set as a number of that many bytes, the lowest first."""
    return number_of(members).to_bytes(width, "little")


def record_bytes(record, width):
    """The bit map, and the fields that it marks: those that are not empty."""
    fields = [stored(members, width) if members else b"" for members in record.sets]
    fields.append(bytes([len(record.name)]) + record.name if record.name else b"")
    fields.append(record.price.to_bytes(PRICE_BYTES, "little", signed=True) if record.price else b"")
    return bytes([sum(1 << bit for bit, field in enumerate(fields) if field)]) + b"".join(fields)


def written(job):
    """The file of a job."""
    kind = usable(job).kind
    counts = [len(job.records), job.members] + ([] if kind.horizon is None else [job.horizon])
    sets = [stored(members, kind.width) for members in job.sets]
    records = [record_bytes(record, kind.width) for record in job.records]
    return bytes([kind.byte, *counts]) + b"".join(sets + records)


# ---- reading a job file

# What is where: the first byte, how many there are, what they hold, the record or None, and for a set the number
# that its members have to be below; None for all else.
Item = namedtuple("Item", "place width what record bound")


class Reader:
    """Reads a job file item by item, and notes the items. It has a job in the end, or a refusal at the last item."""

    def __init__(self, file):
        self.file, self.at, self.items = file, 0, []
        self.kind = self.job = self.refusal = None
        try:
            self.job = self.read()
        except Refused as refusal:
            self.refusal = refusal

    def item(self, width, what, record=None, bound=None):
        place = self.at
        self.items.append(Item(place, width, what, record, bound))
        if place + width > len(self.file):
            raise Refused(2, len(self.file))
        self.at += width
        return self.file[place : self.at]

    def count(self, what, limit):
        place, count = self.at, self.item(1, what)[0]
        if count > limit:
            raise Refused(3, place)
        return count

    def marks(self, number):
        """The bits of a record's bit map, a truth value for each set, one for the name, and one for the price if there are prices."""
        width = len(self.kind.fields) + 1 + self.kind.priced
        place, bits = self.at, self.item(1, "the bit map", number)[0]
        if bits >> width:
            raise Refused(4, place)
        return [bits >> bit & 1 == 1 for bit in range(width)]

    def members(self, what, bound, record=None):
        """A set whose members are below the bound. Only sets of the head may be empty."""
        place, number = self.at, int.from_bytes(self.item(self.kind.width, what, record, bound), "little")
        if record is not None and number == 0:
            raise Refused(5, place)
        if number >> bound:
            raise Refused(6, place)
        return members_of(number)

    def name(self, number):
        place, length = self.at, self.item(1, "the length of the name", number)[0]
        if length == 0:
            raise Refused(5, place)
        if length > LONGEST_NAME:
            raise Refused(7, place)
        return self.item(length, "the name", number)

    def price(self, number):
        place, price = self.at, int.from_bytes(self.item(PRICE_BYTES, "the price", number), "little", signed=True)
        if price == 0:
            raise Refused(5, place)
        return price

    def record(self, number, members):
        sets, marks = [], self.marks(number)
        for what, present in zip(self.kind.fields, marks):
            bound = number if what == "clashes" else members
            sets.append(self.members(f"the {what}", bound, number) if present else set())
        named, *priced = marks[len(self.kind.fields) :]
        return Record(sets, self.name(number) if named else b"", self.price(number) if any(priced) else 0)

    def read(self):
        self.kind = next((kind for kind in KINDS if self.file[:1] == bytes([kind.byte])), None)
        if self.kind is None:
            self.items.append(Item(0, 1, "the kind", None, None))
            raise Refused(1, 0)
        kind = self.kind
        self.item(1, "the kind")
        count = self.count(f"the count of {kind.records}", kind.limit)
        members = self.count(f"the count of {kind.members}", kind.limit)
        horizon = None if kind.horizon is None else self.count("the horizon", kind.horizon)
        sets = [self.members(f"the {what}", members) for what in kind.heads]
        records = [self.record(number, members) for number in range(count)]
        if self.at < len(self.file):
            raise Refused(8, self.at)
        return Job(kind, members, horizon, sets, records)


def read(file):
    """The job that a file states."""
    reader = Reader(file)
    if reader.refusal:
        raise reader.refusal
    return reader.job


# ---- sets


def number_of(members):
    """The number of a set: the sum of 2^i over its members i."""
    return sum(1 << member for member in set(members))


def members_of(number):
    return {member for member in range(number.bit_length()) if number >> member & 1}


# ---- the proved calls

FACT_WORDS, ROUND_WORDS = 32, 64  # the mutex words of a fact layer and of a round layer
ENTRY_WORDS = 3  # of an order in a list: status, selection, set aside
LONGEST_CHOICE = 3467  # bytes; no choice file that is in order has more
LARGEST = 2**64 - 1


def library_path():
    """Where the library is in the project, built by tools/library, and where in an unpacked distribution."""
    root = pathlib.Path(__file__).resolve().parent.parent
    paths = [root / "target" / "lib" / "libkitchen.so", root / "lib" / "libkitchen.so"]
    return next((path for path in paths if path.exists()), None)


def word(number):
    """A number as the C interface takes it; none is cut to 64 bits in silence."""
    if not 0 <= number <= LARGEST:
        raise Unusable(f"{number} is not a number from 0 to 2^64 - 1")
    return ctypes.c_uint64(number)


def signed(word):
    """The number that a word of 64 bits is in two's complement."""
    return word - 2**64 if word >> 63 else word


def group_bytes(groups):
    groups = list(groups)
    for group in groups:
        if not 0 <= group <= 255:
            raise Unusable(f"{group} is not the number of a group, from 0 to 255")
    return bytes(groups)


def set_words(sets):
    """Sets as words, one after the other."""
    words = [word(number_of(members)).value for members in sets]
    return (ctypes.c_uint64 * len(words))(*words)


def entry(status, articles, aside):
    """The answer to one order of a list, from its three words."""
    if status == 0:
        return Selection(members_of(articles), members_of(aside))
    none = {NO_SELECTION: NoSelection(None), ORDER_OUTSIDE_FILE: OrderOutsideFile}
    if status not in none:
        raise Unusable(f"the library answers an order by the status {status}, which no order has")
    return none[status]


def own_goals(file):
    """The whole order as the only goal, and none if it is empty. What is no choice file has none: the call refuses it."""
    job = Reader(as_bytes(file)).job
    return [job.sets[0]] if job and job.kind is CHOICE and job.sets[0] else []


class Library:
    """The shared library, with a method for each call. A path may be given; otherwise it is looked for."""

    def __init__(self, path=None):
        path = library_path() if path is None else pathlib.Path(path).absolute()
        if path is None:
            raise Unusable("libkitchen.so is missing; build it with tools/library")
        try:
            self.library = ctypes.CDLL(str(path))
            version = self.library.kitchen_version
        except (OSError, AttributeError) as trouble:
            raise Unusable(f"{path} is no library of ours: {trouble}") from None
        version.restype = ctypes.c_uint32
        self.version = version()
        if self.version != VERSION:
            raise Unusable(f"{path} has the interface {self.version}; this module is for {VERSION}")

    def call(self, name, file, *arguments, words=2):
        """The status and the words. A number comes as a word; bytes and arrays are slices: a pointer and a length."""
        passed = []
        for argument in (as_bytes(file), *arguments):
            passed.append(argument)
            if not isinstance(argument, ctypes.c_uint64):
                passed.append(ctypes.c_size_t(len(argument)))
        out = (ctypes.c_uint64 * words)()
        function = getattr(self.library, f"kitchen_{name}")
        function.restype = ctypes.c_uint32
        return function(*passed, out), *out

    def answered(self, name, file, *arguments):
        """The two words of an answer."""
        status, first, second = self.call(name, file, *arguments)
        if status:
            raise Refused(status, first)
        return first, second

    # -- choice files

    def partition(self, file):
        """The group of each article, by our own partition; a byte for each of 64 articles, of which the file's count."""
        groups = (ctypes.c_uint8 * CHOICE.limit)()
        self.answered("partition", file, groups)
        return bytes(groups)[: file[1]]

    def filter_pass(self, file, live, goal, groups=None):
        """What a pass leaves live, and the sum of the contributions by which it was made.

        If the sum is below the count of the goal's wishes, every selection has an article that is not live here. Without
        groups our own partition is lent.
        """
        groups = self.partition(file) if groups is None else group_bytes(groups)
        left, total = self.answered("pass", file, groups, word(number_of(live)), word(number_of(goal)))
        return Passed(members_of(left), total)

    def bound(self, file, goal, groups=None):
        """Articles no two of which clash carry no more wishes of the goal than this; it is told without a search.

        It is the sum of a pass with all articles live. If it is below the count of the goal's wishes, there is no
        selection; if it is not, there may be none, either. A goal that is empty or not within the order is refused by 13.
        """
        return self.filter_pass(file, range(len(self.partition(file))), goal, groups).sum

    def choose(self, file, floor=0, goals=None, groups=None):
        """The smallest selection, by its number, that is not below the floor, with its set aside; or a NoSelection.

        If the place of that is below the count of the goals, there is no selection at all, whatever the floor. Without
        groups our own partition is lent; without goals the whole order is the only one (none if it is empty), so the place
        is 0 if the order falls short, and 1 if it does not.
        """
        groups = self.partition(file) if groups is None else group_bytes(groups)
        goals = own_goals(file) if goals is None else goals
        status, first, second = self.call("choose", file, groups, set_words(goals), word(floor))
        if status == NO_SELECTION:
            return NoSelection(first)
        if status:
            raise Refused(status, first)
        return Selection(members_of(first), members_of(second))

    def selections(self, file, floor=0):
        """All selections at or above the floor, by rising number. There may be very many: take as many as are wanted."""
        while isinstance(answer := self.choose(file, floor), Selection):
            yield answer
            floor = number_of(answer.articles) + 1
            if floor > LARGEST:
                return

    def price(self, file, rate):
        """The cheapest selection, of several the one with the smallest number, with its total and its tax in cents; or NoSelection(0).

        The rate is in hundredths of a percent, 1900 for 19 percent; one above 10,000 is refused by 17. An article without a
        price counts as 0, and what lowers the total is taken, even if no wish asks for it. A half cent of tax goes away from zero.
        """
        status, first, total, tax = self.call("price", file, word(rate), words=3)
        if status == NO_SELECTION:
            return NoSelection(first)
        if status:
            raise Refused(status, first)
        return Priced(members_of(first), signed(total), signed(tax))

    def fair(self, file, orders):
        """An answer for each order of a list, in one call: a Selection, as `choose` gives it for the file with that order, a
        NoSelection(None), or OrderOutsideFile.

        An order is a set of wishes, and stands in place of the file's own. One that names a wish which the file lacks is
        OrderOutsideFile, and the others are answered all the same; a wish from 64 on is not usable.
        """
        orders = set_words(orders)
        words = (ctypes.c_uint64 * (ENTRY_WORDS * len(orders)))()
        self.answered("fair", file, orders, words)
        return [entry(*words[at : at + ENTRY_WORDS]) for at in range(0, len(words), ENTRY_WORDS)]

    # -- choice files with a change

    def saved(self, name, file, *arguments):
        """The new file, from a buffer that is long enough for every one. It has the prices of the old one."""
        to = (ctypes.c_uint8 * LONGEST_CHOICE)()
        length, _ = self.answered(name, file, *arguments, to)
        return bytes(to)[:length]

    def save_order(self, file, order):
        """The file with this order, a set of wishes."""
        return self.saved("save_order", file, word(number_of(order)))

    def save_wishes(self, file, article, wishes):
        """The file in which that article, by its number, carries these wishes."""
        return self.saved("save_wishes", file, word(article), word(number_of(wishes)))

    def save_clashes(self, file, article, clashes):
        """The file in which that article names these as its clashes: lower articles only, as in every file."""
        return self.saved("save_clashes", file, word(article), word(number_of(clashes)))

    def save_name(self, file, article, name):
        """The file in which that article has this name; an empty one is none."""
        return self.saved("save_name", file, word(article), named(name))

    # -- fitting files

    def plan(self, file):
        """A plan with as few rounds as can be, or NoPlan."""
        rounds = (ctypes.c_uint32 * FITTING.horizon)()
        status, first, _ = self.call("plan", file, rounds)
        if status == NO_PLAN:
            return NoPlan
        if status:
            raise Refused(status, first)
        return Plan([members_of(rounds[number]) for number in range(first)])

    def fact_layer(self, file, layer):
        """The facts of a layer, and for each of 32 facts those that it is mutex with."""
        words = (ctypes.c_uint32 * FACT_WORDS)()
        facts, _ = self.answered("fact_layer", file, word(layer), words)
        return members_of(facts), [members_of(number) for number in words]

    def round_layer(self, file, layer):
        """The vertices of a layer (keeper t is t, step a is 32 + a), and for each of 64 those that it is mutex with."""
        words = (ctypes.c_uint64 * ROUND_WORDS)()
        vertices, _ = self.answered("round_layer", file, word(layer), words)
        return members_of(vertices), [members_of(number) for number in words]

    # -- either kind

    def name(self, file, number):
        """The name of an article or step, a part of the file's bytes; empty if there is none."""
        start, length = self.answered("name", file, word(number))
        return file[start : start + length]

    def find(self, file, name):
        """The lowest article or step whose name is equal to this one, or None: in another writing, too, as `same_name` says."""
        status, first, _ = self.call("find", file, named(name))
        if status == NO_NAME:
            return None
        if status:
            raise Refused(status, first)
        return first

    def alike(self, a, b):
        """Whether two choice files agree in all but their names and prices."""
        return self.answered("compare", a, as_bytes(b))[0] == 1
