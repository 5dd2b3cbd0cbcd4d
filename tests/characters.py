"""Whether the table of crates/unicode_forms is what Unicode says of its characters; tools/unicode_table.py writes it.

The files of the table are read below a root folder, so that a test can plant a fault in a copy.
"""
import pathlib
import re
import sys
import unicodedata

from run import demand

sys.path.append(str(pathlib.Path(__file__).resolve().parent.parent / "tools"))
import unicode_table as table  # noqa: E402

INSTALLED = pathlib.Path("/usr/share/unicode/UnicodeData.txt")


def fitting(what, action, *arguments):
    """What an action of the script gives; what does not fit is a failure."""
    try:
        return action(*arguments)
    except table.Unfit as fault:
        demand(False, f"{what}: {fault}")


def version_beside(path):
    """The version that another file of the database says at its head; UnicodeData.txt itself has none."""
    other = path.with_name("Blocks.txt")
    said = re.match(r"# Blocks-([0-9.]+)\.txt", other.read_text()) if other.exists() else None
    return said[1] if said else "of a version that is not said"


def sources(installed):
    """What the table is compared with, by its name and version."""
    found = {f"Python's unicodedata {unicodedata.unidata_version}": fitting("unicodedata", table.of_python)}
    if installed.exists():
        found[f"{installed} {version_beside(installed)}"] = fitting(installed, table.of_text, installed.read_text())
    return found


def maps_itself(character):
    """Whether Python's data have neither a canonical mapping nor a class for a character."""
    return unicodedata.is_normalized("NFD", chr(character)) and not unicodedata.combining(chr(character))


def complete(entries):
    """All that can come of a covered name is covered: what has no entry maps to itself, and an entry leads to what can be taken apart no further."""
    for character in range(table.CHARACTERS[0]):
        demand(maps_itself(character), f"{table.shown(character)} has a canonical mapping or a class, and no entry")
    full = {}
    for character, entry in zip(table.CHARACTERS, entries):
        _, second, first = (int(part, 16) for part in entry[2:].split("_"))
        full[character] = [first, second] if second else [first]
    for character, parts in full.items():
        known = all(part < table.CHARACTERS[0] or full.get(part) == [part] for part in parts)
        demand(known, f"{table.shown(character)} leads to a character that has no entry, or that is taken apart further")
        told = unicodedata.normalize("NFD", chr(character))
        demand("".join(map(chr, parts)) == told, f"{table.shown(character)} is not its full decomposition")


def compared(root, installed=INSTALLED):
    """How many entries were compared: all of both files, with each source."""
    wanted = sources(installed)
    print(f"compared with {' and '.join(wanted)}" + ("" if installed.exists() else f"; there is no {installed}"), flush=True)
    faults, count = [], 0
    for part in table.PARTS:
        found = fitting(part.path, lambda: table.of_file(part, table.text_at(root / part.path)))
        for name, entries in wanted.items():
            faults += [f"{line} (by {name})" for line in table.differences(part, found, entries)]
            count += len(found)
    demand(not faults, "; ".join(faults))
    complete(found)
    return count
