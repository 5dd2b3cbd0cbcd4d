#!/usr/bin/env python3
"""The table of crates/unicode_forms: canonical mappings and combining classes, as UnicodeData.txt has them.

    tools/unicode_table.py FILE            writes the entries of FILE into both files of the table, between their marks
    tools/unicode_table.py FILE --compare  says which entries differ from those of FILE, and writes nothing

FILE is UnicodeData.txt of the Unicode Character Database. Each character from U+00C0 to U+017F and from U+0300 to U+036F
has an entry 0xCC_SSS_FFF: its combining class (field 3), and the second and the first character of its canonical mapping
(field 5). 000 is no second character. A mapping with a <tag> is not canonical; a character that has no other is its own
first character.

Status: 0 written, or nothing differs; 1 some entries differ; 2 FILE or a file of the table is not as it has to be, or the
arguments are wrong, and nothing is written.
"""

import argparse
import pathlib
import re
import sys
import unicodedata
from collections import namedtuple

ROOT = pathlib.Path(__file__).resolve().parent.parent
CHARACTERS = [*range(0xC0, 0x180), *range(0x300, 0x370)]  # those that have an entry, in this order
ENTRY = "0x[0-9a-f]{2}_[0-9a-f]{3}_[0-9a-f]{3}"
CODE = "[0-9A-F]{4,6}"
# The fields of a line that are looked at: 0, 3 and 5. The name and what follows the mapping may be anything.
LINE = re.compile(f"({CODE});[^;]*;[A-Z][a-z];([0-9]{{1,3}});[A-Z]+;((?:<[A-Za-z]+> )?{CODE}(?: {CODE})*|)(?:;[^;]*){{9}}")

# A file of the table: what an entry has behind it, how many are in a line, and the lines around the two marks.
Part = namedtuple("Part", "path sign row opens closes")
PARTS = (
    Part("crates/unicode_forms/src/table.rt", ",", 1, "const TABLE: [u32; 304] = [", "];"),
    Part("crates/unicode_forms/specs/Table.antt", " ∷", 8, "table =", "[]"),
)


class Unfit(Exception):
    """What is read is not as it has to be."""


def shown(character):
    return f"U+{character:04X}"


# ---- what Unicode says


def entry(character, mapping, combining):
    """The entry of a character with this mapping, as field 5 has it, and this class."""
    parts = [] if mapping.startswith("<") else [int(part, 16) for part in mapping.split()]
    if len(parts) > 2 or not all(0 < part < 0x1000 for part in parts):
        raise Unfit(f"{shown(character)} has the mapping {mapping}; expected one or two characters below U+1000")
    if combining > 0xFF:
        raise Unfit(f"{shown(character)} has the class {combining}; expected one below 256")
    first, second = [*(parts or [character]), 0][:2]
    return f"0x{combining:02x}_{second:03x}_{first:03x}"


def of_python():
    """The entries by Python's own data."""
    return [entry(c, unicodedata.decomposition(chr(c)), unicodedata.combining(chr(c))) for c in CHARACTERS]


def of_text(text):
    """The entries by the text of UnicodeData.txt."""
    known = {}
    for number, line in enumerate(text.splitlines(), 1):
        found = LINE.fullmatch(line)
        if not found:
            raise Unfit(f"line {number} is no line of UnicodeData.txt")
        character = int(found[1], 16)
        if character in known:
            raise Unfit(f"line {number} has {shown(character)} once more")
        known[character] = found[3], int(found[2])
    for character in CHARACTERS:
        if character not in known:
            raise Unfit(f"{shown(character)} is missing")
    return [entry(character, *known[character]) for character in CHARACTERS]


# ---- what the files of the table have


def text_at(path):
    try:
        return path.read_text(encoding="utf-8")
    except OSError as trouble:
        raise Unfit(trouble.strerror) from None
    except UnicodeDecodeError:
        raise Unfit("it is not in UTF-8") from None


def around(part, text):
    """The lines of a file up to the first mark, those between the marks, and those from the second mark on."""
    lines = text.splitlines(keepends=True)
    begin, end = ([at for at, line in enumerate(lines) if mark in line] for mark in ("BEGIN TABLE", "END TABLE"))
    if not (len(begin) == len(end) == 1 and 0 < begin[0] < end[0] < len(lines) - 1):
        raise Unfit("expected one line with BEGIN TABLE, and one with END TABLE below it")
    if (lines[begin[0] - 1].strip(), lines[end[0] + 1].strip()) != (part.opens, part.closes):
        raise Unfit(f"expected the marks right below '{part.opens}' and right above '{part.closes}'")
    return lines[: begin[0] + 1], lines[begin[0] + 1 : end[0]], lines[end[0] :]


def of_file(part, text):
    """The entries between the marks of a file; nothing else may be there."""
    between = "".join(around(part, text)[1])
    entries = re.compile(rf"({ENTRY}){part.sign}(?=\s)")
    others = entries.sub("", between).split()
    if others:
        raise Unfit(f"'{others[0]}' between the marks is no entry")
    return entries.findall(between)


def with_entries(part, text, entries):
    """The text of a file with these entries between its marks."""
    before, _, after = around(part, text)
    rows = [entries[at : at + part.row] for at in range(0, len(entries), part.row)]
    lines = ["    " + " ".join(found + part.sign for found in row) + "\n" for row in rows]
    return "".join([*before, *lines, *after])


def differences(part, found, wanted):
    """How the entries of a file differ from those that are wanted, a line each."""
    if len(found) != len(wanted):
        return [f"{part.path} has {len(found)} entries, and not {len(wanted)}"]
    triples = zip(CHARACTERS, found, wanted)
    return [f"{shown(c)} in {part.path} is {ours}, and not {theirs}" for c, ours, theirs in triples if ours != theirs]


# ---- the command


def each_part(action):
    """Pairs of a path and what an action makes of the text that is there, for both files of the table."""
    made = []
    for part in PARTS:
        path = ROOT / part.path
        try:
            made.append((path, action(part, text_at(path))))
        except Unfit as fault:
            raise Unfit(f"{part.path}: {fault}") from None
    return made


def wanted_by(path):
    try:
        return of_text(text_at(path))
    except Unfit as fault:
        raise Unfit(f"{path}: {fault}") from None


def compare(wanted):
    found = each_part(lambda part, text: differences(part, of_file(part, text), wanted))
    lines = [line for _, differing in found for line in differing]
    print("\n".join(lines) or f"{len(wanted)} entries are the same in both files")
    return 1 if lines else 0


def write(wanted):
    for path, text in each_part(lambda part, text: with_entries(part, text, wanted)):
        path.write_text(text, encoding="utf-8")
    print(f"{len(wanted)} entries are written into both files")
    return 0


def main():
    parser = argparse.ArgumentParser(
        description="The table of crates/unicode_forms, from UnicodeData.txt: its entries are written into both files of the table.",
        epilog="Status: 0 written, or nothing differs; 1 some entries differ; 2 something is not as it has to be.",
    )
    parser.add_argument("file", metavar="FILE", type=pathlib.Path, help="UnicodeData.txt of the Unicode Character Database")
    parser.add_argument("--compare", action="store_true", help="only say which entries differ")
    given = parser.parse_args()
    try:
        wanted = wanted_by(given.file)
        return compare(wanted) if given.compare else write(wanted)
    except Unfit as fault:
        print(f"tools/unicode_table.py: {fault}", file=sys.stderr)
        return 2


if __name__ == "__main__":
    sys.exit(main())
