"""Names to search for: one text in all its writings, texts that are nearly the same, characters that are not covered, and bytes
that are no text; and what it shows if two names are equal, or are not.

It is no program, and shares nothing with crates/. A draw is a random.Random of a fixed seed.
"""

import re
from unicodedata import combining, normalize

from drawn import some
from reader import Article, Choice, Fitting, Step, written
from rules import in_any_order

COVERED = [chr(code) for code in (*range(0x180), *range(0x300, 0x370))]
LETTERS = "abBuUs 0\u00fc\u00dc\u00c5\u00e7\u00df\u00f8\u0130\u0132\u0140\u0151\u017b\u017f"
# Marks of every class, several of some; then four that have a mapping, and one of class 0, which no mark passes.
MARKS = "\u0334\u0338\u0327\u0328\u031b\u0323\u0331\u0300\u0301\u0308\u0313\u0315\u031a\u035c\u035f\u0360\u0361\u0345"
MARKS += "\u0340\u0341\u0343\u0344\u034f"
# Characters at the edges of what is covered, such that are canonically equivalent to covered ones, and others.
OUTSIDE = "\u0180\u02ff\u0370\u1e69\u212b\u2126\u0374\u0439\ud7a3\uffff\U0001d15e\U0001f600"
# What no text has: stray bytes, characters that are cut, longer forms than are needed, surrogates, and what is above U+10FFFF.
BROKEN = [b"\x80", b"\xbf", b"\xc3", b"\xcc", b"\xe2\x84", b"\xf0\x9f\x98", b"\xc0\x80", b"\xc0\xbf", b"\xc1\x81", b"\xc1\xbc"]
BROKEN += [b"\xe0\x81\x81", b"\xe0\x83\xbc", b"\xf0\x80\x83\xbc", b"\xed\xa0\x80", b"\xed\xbf\xbf", b"\xf4\x90\x80\x80"]
BROKEN += [b"\xf5\x80\x80\x80", b"\xff"]

# Names that are equal, and names that are not. The first of a pair has up to 32 bytes.
EQUAL = [
    ("B\u00fcfett", "Bu\u0308fett"),
    ("Z\u0307o\u030bc\u0327", "\u017b\u0151\u00e7"),
    ("a\u0301\u0323", "a\u0323\u0301"),
    ("\u00e1\u0323", "a\u0323\u0301"),
    ("a\u0345\u0301\u0323\u0338", "a\u0338\u0323\u0301\u0345"),
    ("\u0340\u0341\u0343\u0344", "\u0300\u0301\u0313\u0308\u0301"),
    ("\u0344" * 16, "\u0308\u0301" * 16),
    ("\u00fc" * 16, "u\u0308" * 16),
    ("\0\u00fc", "\0u\u0308"),
    ("\u212b", "\u212b"),
    (b"\xff", b"\xff"),
]
APART = [
    ("a\u0301\u0300", "a\u0300\u0301"),
    ("\u00e1\u0300", "\u00e0\u0301"),
    ("a\u0301\u034f\u0323", "a\u0323\u034f\u0301"),
    ("a\u0301\u034f\u0323", "a\u0301\u0323\u034f"),
    ("\u00fc\u0180", "u\u0308\u0180"),
    ("\u212b", "\u00c5"),
    ("\u1e69", "s\u0323\u0307"),
    ("\u0439", "\u0438\u0306"),
    ("\u0132", "IJ"),
    ("\u017f", "s"),
    ("\u00fc", "\u00dc"),
    ("\u00fc", "u"),
    ("\u0344" * 16, "\u0308\u0301" * 17),
    ("\u00fc" * 16, "u\u0308" * 40_000),
    ("A", b"\xc1\x81"),
    ("\u00fc", b"\xe0\x83\xbc"),
    ("\u00fc", b"\xfc"),
    ("u", b"u\xcc"),
    ("u", b"\xffu"),
]


def as_bytes(name):
    return name.encode() if isinstance(name, str) else name


# Files


def named_steps(names):
    """A file of steps that have nothing but these names."""
    return written(Fitting(0, 0, set(), set(), [Step(set(), set(), set(), name) for name in names]))


def drawn_file(names, draw):
    """A file of either kind, some of whose names have sets in front of them. Over 32 names only a choice has."""
    sets = lambda count: [some(draw, 3, draw.choice([0, 0, 0.5])) for _ in range(count)]
    if len(names) <= 32 and draw.random() < 0.5:
        return written(Fitting(3, 1, {0}, {1}, [Step(*sets(3), name) for name in names]))
    return written(Choice(3, {0, 1}, [Article(*sets(1), set(), name) for name in names]))


# Names of one text


def drawn_text(draw):
    """Letters, each with some marks of a few sorts; now and then characters of every sort, or many that have a mapping."""
    sort = draw.random()
    if sort < 0.2:
        return "".join(draw.choices(COVERED, k=draw.randint(1, 8)))
    if sort < 0.3:
        return "".join(draw.choices("\u00fc\u0151\u0344", k=draw.randint(11, 16)))
    marks, most = draw.sample(MARKS, 4), draw.choice([1, 3, 5])
    with_marks = lambda: draw.choice(LETTERS) + "".join(draw.choices(marks, k=draw.randint(0, most)))
    return "".join(with_marks() for _ in range(draw.randint(1, 4)))


def exchanged(text, draw, may):
    """A text in which neighbours have changed places here and there: those whose classes say that they may."""
    characters = list(text)
    for at in draw.choices(range(len(text)), k=2 * len(text)):
        pair = characters[at : at + 2]
        if len(pair) == 2 and may(*map(combining, pair)):
            characters[at : at + 2] = reversed(pair)
    return "".join(characters)


def writings(text, draw):
    """The same text in several writings. They are equal names but for those that are not covered: a composed form need not be."""
    apart, cut = normalize("NFD", text), draw.randrange(len(text) + 1)
    yield from (text, apart, normalize("NFC", text))
    yield normalize("NFC", text[:cut]) + normalize("NFD", text[cut:])
    for form in (text, apart):
        yield exchanged(form, draw, lambda a, b: a and b and a != b)


def others(text, draw):
    """Texts that are nearly the same: with marks of one class exchanged, with a mark on the other side of a starter, by mappings that
    are not canonical, with a character less or a mark more, in capitals, and twice over."""
    apart, cut = normalize("NFD", text), draw.randrange(len(text) + 1)
    yield exchanged(apart, draw, lambda a, b: a and b)
    yield exchanged(apart, draw, lambda a, b: a or b)
    yield normalize("NFKD", text)
    yield text[:cut] + text[cut + 1 :]
    yield text[:cut] + draw.choice(MARKS) + text[cut:]
    yield apart.swapcase()
    yield apart + apart


def overlong(name, draw):
    """A name with one of its plain characters in two bytes, a longer form than it needs."""
    plain = [at for at, byte in enumerate(name) if byte < 0x80]
    if not plain:
        return draw.choice(BROKEN)
    at = draw.choice(plain)
    return name[:at] + bytes([0xC0 | name[at] >> 6, 0x80 | name[at] & 0x3F]) + name[at + 1 :]


def damaged(name, draw):
    """Bytes with a fault: cut, with some put in, with one changed, with a longer form."""
    cut = draw.randrange(len(name) + 1)
    yield name[:cut]
    yield name[:cut] + draw.choice(BROKEN) + name[cut:]
    yield name[:cut] + bytes([draw.randrange(256)]) + name[cut + 1 :]
    yield overlong(name, draw)


def drawn_names(draw):
    """Names that come of one text: its writings, more often than the others; texts like it; such with a character outside; and such
    that are damaged."""
    text, outside = drawn_text(draw), draw.choice(OUTSIDE)
    same = list(writings(text, draw))
    beyond = [draw.choice(same) + draw.choice([outside, normalize("NFD", outside)]) for _ in range(4)]
    names = [form.encode() for form in (*same, *same, *others(text, draw), *beyond)]
    return [*names, *damaged(draw.choice(names), draw)]


def drawn_search(draw):
    """A file whose names come of one text, these names, and eight to search for in it."""
    drawn = drawn_names(draw)
    names = draw.choices([name for name in drawn if len(name) <= 32] or [b""], k=draw.randint(1, 4))
    return drawn_file(names, draw), names, draw.choices([*drawn, b""], k=8)


def last_of(count, draw):
    """A file of that many names, these names, and the last of them in other writings, to search for."""
    texts = []
    while len(texts) < count:
        text = drawn_text(draw)
        texts += [text] if len(text.encode()) <= 32 else []
    names = [text.encode() for text in texts]
    return drawn_file(names, draw), names, [form.encode() for form in writings(texts[-1], draw)]


# What it shows


def text_of(name):
    """The text of a name, covered or not; None if it is not UTF-8."""
    try:
        return name.decode()
    except UnicodeDecodeError:
        return None


def loose(name):
    """The text of a name by a reader that takes longer forms than are needed, and passes over all else that is not UTF-8."""
    needed = lambda pair: bytes([(pair[0][0] & 1) << 6 | pair[0][1] & 0x3F])
    return re.sub(rb"[\xc0\xc1][\x80-\xbf]", needed, name).decode("utf-8", "ignore")


def equal_by(name, wanted):
    """What makes two equal names equal."""
    if name == wanted:
        text = text_of(name)
        sort = "not utf8" if text is None else "covered" if set(text) <= set(COVERED) else "not covered"
        return f"the same bytes that are {sort}"
    apart = ["".join(normalize("NFD", c) for c in text_of(each)) for each in (name, wanted)]
    return "other bytes" if apart[0] == apart[1] else "other bytes with marks in another order"


def apart_by(name, wanted):
    """What keeps two names apart that a looser rule would take for equal; None if nothing of these."""
    forms = [normalize("NFD", loose(each)) for each in (name, wanted)]
    same = lambda form: form(forms[0]) == form(forms[1])
    if forms[0] == forms[1]:
        return "bytes that are not utf8" if None in (text_of(name), text_of(wanted)) else "a character that is not covered"
    if same(in_any_order):
        return "two marks of one class"
    if same(lambda form: normalize("NFD", form.replace("\u034f", ""))):
        return "a starter between marks"
    if same(lambda form: normalize("NFKD", form)):
        return "a mapping that is not canonical"
    return None
