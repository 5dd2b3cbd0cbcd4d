"""What the crates declare, and whether the names of docs/TRACE.md and docs/ARCHITECTURE.md are declared there and not only mentioned.

Everything is read below a root folder, so that a test can plant a fault in a copy.
"""
import dataclasses
import re

import source
from run import demand

PROMISES = "crates/demands/proofs/Promises.antt"
LIB = "crates/demands/proofs/Lib.antt"
# The files of theorems that are promised, each with the section of docs/TRACE.md that names them.
THEOREMS = {"Demands": "The demands", "Saving": "The requests", "Bounds": "The requests", "Naming": "The requests", "Pricing": "The requests", "Moving": "The requests", "Fairs": "The requests"}
NAME = r"[^\s(){}.;,@\"]+"
# The files of a function's proof, in its own folder below proofs/: what they declare are answers and invariants, and no theorems.
ANSWERS = ("Answers.antt", "Invariants.antt", "Proof.antt")
MARKS = r"((?:(?:pub|abbrev|unfoldable) )*)"
SIGNATURE = re.compile(rf"{MARKS}({NAME}(?: {NAME})*) :(?:\s|$)")
BLOCK = re.compile(rf"{MARKS}(?:record|data) ({NAME})")
OPENED = re.compile(rf"{MARKS}(?:record|data|module)\b")


@dataclasses.dataclass
class Declared:
    """The names that are declared, by the sort of place: of a function all that may come before it (`crate::`, `module::`, `Type::`)."""

    crates: set = dataclasses.field(default_factory=set)
    edits: set = dataclasses.field(default_factory=set)
    definitions: set = dataclasses.field(default_factory=set)
    theorems: set = dataclasses.field(default_factory=set)
    functions: dict = dataclasses.field(default_factory=dict)

    def function(self, name):
        """Whether there is such a function, in that place if one is named."""
        place, _, last = name.rpartition("::")
        return last in self.functions and (not place or place in self.functions[last])

    def anything(self, name):
        return name in self.crates | self.edits | self.definitions | self.theorems or self.function(name)


def signatures(text):
    """The names that a file of antt declares, each with whether it is `pub`: definitions, fields and constructors. What is not `pub` counts at the
    top of the file, and of a block that begins there: what is deeper is mostly local to a definition."""
    opened = False
    for line in source.antt(text).splitlines():
        indent = len(line) - len(line.lstrip())
        if line and not indent:
            opened = bool(OPENED.match(line))
        found = BLOCK.match(line.strip()) or SIGNATURE.match(line.strip())
        if found and (not indent or "pub" in found[1] or opened and indent == 2):
            for name in found[2].split():
                yield name, "pub" in found[1]


def in_code(text):
    """Of a file of code the types and their variants; and the functions and constants, each with the type that it belongs to, or none."""
    code = source.rattle(text)
    kinds = set(re.findall(r"\b(?:struct|enum|type) (\w+)", code))
    for body in re.findall(r"\benum \w+ \{(.*?)^\}", code, re.M | re.S):
        kinds.update(re.findall(r"^ {4}(\w+)\b", body, re.M))
    owner, functions = "", []
    for line in code.splitlines():
        owner = (re.findall(r"^impl (?:.* for )?(\w+)", line) or [""])[0] if line[:1].strip() else owner
        functions += [(name, owner) for name in re.findall(r"\b(?:fn|const) (\w+)", line)]
    return kinds, functions


def written(root, only="*"):
    """The files of the crates below a root, or of one of them, without what rt made there."""
    return sorted(path for part in ("src", "specs", "proofs", "must-fail") for path in (root / "crates").glob(f"{only}/{part}/**/*") if path.is_file())


def names(root, only="*"):
    """What the crates below a root declare, or one of them."""
    found = Declared()
    for path in written(root, only):
        crate, part = path.relative_to(root / "crates").parts[:2]
        if path.suffix == ".edit":
            found.edits.add(path.stem)
        elif path.suffix == ".antt" and not (part == "proofs" and path.name in ANSWERS):
            sort = found.definitions if part == "specs" else found.theorems
            sort.update(name for name, _ in signatures(path.read_text()))
        elif path.suffix == ".rt":
            kinds, functions = in_code(path.read_text())
            found.crates.add(crate)
            found.definitions |= kinds
            for name, owner in functions:
                found.functions.setdefault(name, set()).update({owner} if owner else {crate, path.stem})
    return found


# ---- docs/TRACE.md


def quoted(text):
    return re.findall(r"`([^`\n]+)`", text)


def tables(text):
    """The cells of all tables of a page, each with the heading of its column; all other lines have the heading ''."""
    headings = []
    for line in text.splitlines():
        if not line.startswith("|"):
            headings = []
            yield "", line
            continue
        cells = [cell.strip() for cell in line.strip().strip("|").split("|")]
        if not headings:
            headings = cells
        elif not re.fullmatch(r"[|\s:-]+", line):
            yield from zip(headings, cells)


def traced(root):
    """How many names docs/TRACE.md has: each is declared in the crates, in the way of its column, or is a file; and every edit is named there."""
    text, there = (root / "docs" / "TRACE.md").read_text(), names(root)
    is_file = lambda name: "/" in name and (root / name).is_file()
    by_column = {
        "definition": lambda name: name in there.definitions,
        "contract": there.function,
        "theorem": lambda name: name in there.theorems,
        "law": lambda name: name in there.theorems,
        "must-fail edit": lambda name: name in there.edits,
        "edit": lambda name: name in there.edits,
        "refused in": lambda name: name in there.crates,
        "test": lambda name: name in there.crates | there.theorems or is_file(name),
    }
    found = [(column, name) for column, cell in tables(text) for name in quoted(cell)]
    demand(found, "docs/TRACE.md names nothing")
    anything = lambda name: there.anything(name) or is_file(name)
    absent = [f"{name} ({column})" if column else name for column, name in found if not by_column.get(column, anything)(name)]
    demand(not absent, "docs/TRACE.md names what is not declared: " + ", ".join(dict.fromkeys(absent)))
    untraced = sorted(there.edits - {name for _, name in found})
    demand(not untraced, "docs/TRACE.md lacks the must-fail edits " + ", ".join(untraced))
    return len(set(found))


# ---- the theorems of the demands and of the requests


def theorem_file(module):
    return f"crates/demands/proofs/{module}.antt"


def import_of(module):
    return f"Rattle.demands.proofs.{module}"


def in_trace(text, module):
    """The theorems of a file that docs/TRACE.md names: in its section, in the column whose heading has the file."""
    section = text.partition(f"\n## {THEOREMS[module]}\n")[2].partition("\n## ")[0]
    column = f"theorems of `{theorem_file(module)}`"
    return {name for heading, cell in tables(section) if heading == column for name in quoted(cell) if name != "calls"}


def named_under(root, section):
    """How many theorems a section of docs/TRACE.md names."""
    text = (root / "docs" / "TRACE.md").read_text()
    return sum(len(in_trace(text, module)) for module in THEOREMS if THEOREMS[module] == section)


def imported(text, module):
    """The names that a file of antt imports from a module."""
    lists = re.findall(rf"^(?:pub )?use {re.escape(module)}\.\{{([^}}]*)\}}", source.antt(text), re.M)
    return {name.split(" as ")[0].strip() for names in lists for name in names.split(",") if name.strip()}


def promised(root):
    """How many theorems are promised: docs/TRACE.md names those that each file declares, and Promises.antt, which the checker reads, imports just these."""
    for path in (PROMISES, *map(theorem_file, THEOREMS)):
        demand((root / path).is_file(), f"{path} is missing")
    total = 0
    for module in THEOREMS:
        path = theorem_file(module)
        stated = {name for name, public in signatures((root / path).read_text()) if public}
        named = in_trace((root / "docs" / "TRACE.md").read_text(), module)
        taken = imported((root / PROMISES).read_text(), import_of(module))
        demand(stated, f"{path} declares no theorem")
        demand(named == stated, f"docs/TRACE.md and {path} differ in {sorted(named ^ stated)}")
        demand(taken == stated, f"{PROMISES} and {path} differ in {sorted(taken ^ stated)}")
        total += len(stated)
    demand("Promises" in re.findall(r"^pub mod (\S+)", source.antt((root / LIB).read_text()), re.M), f"{LIB} does not declare Promises")
    return total


# ---- docs/ARCHITECTURE.md


def needs(text):
    """The needs of each crate by crates.txt, without the kit's own libraries."""
    lines = [line.split("#")[0].strip() for line in text.splitlines()]
    listed = {name.split()[0]: words.split() for name, _, words in (line.partition(":") for line in lines if line)}
    return {name: [word for word in words if word in listed] for name, words in listed.items()}


def unnamed(root):
    """The needs of crates.txt that a crate does not name in its code, definitions and proofs."""
    for crate, words in needs((root / "crates.txt").read_text()).items():
        files = [path for path in written(root, crate) if path.suffix in (".rt", ".antt")]
        text = "\n".join(source.rattle(path.read_text()) if path.suffix == ".rt" else source.antt(path.read_text()) for path in files)
        yield from (f"{crate}: {word}" for word in words if not re.search(rf"\bRattle\.{word}\.|(?<![\w:]){word}::", text))


def arrows(text):
    """The arrows of the pictures of a page: pairs of a crate and one that is built on it. The pictures are flowcharts of Mermaid."""
    found = []
    for picture in re.findall(r"^```mermaid\n(.*?)^```$", text, re.M | re.S):
        for line in picture.splitlines():
            chain = [word.strip() for word in line.split("-->")]
            found += zip(chain, chain[1:])
    return found


def drawn(root):
    """How many arrows the pictures of docs/ARCHITECTURE.md have: each need of crates.txt that does not follow from others, once, and nothing else.
    crates.txt lists just what a crate names: what is missing there, rt finds."""
    direct, idle = needs((root / "crates.txt").read_text()), list(unnamed(root))
    demand(not idle, "crates.txt lists what a crate does not name: " + ", ".join(idle))

    def below(name):
        return {each for need in direct[name] for each in (need, *below(need))}

    wanted = {(need, name) for name in direct for need in direct[name] if not any(need in below(other) for other in direct[name])}
    found = arrows((root / "docs" / "ARCHITECTURE.md").read_text())
    demand(found, "docs/ARCHITECTURE.md has no picture")
    demand(len(found) == len(set(found)), "docs/ARCHITECTURE.md draws an arrow twice")
    differ = [" --> ".join(pair) for pair in sorted(wanted ^ set(found))]
    demand(not differ, "the pictures of docs/ARCHITECTURE.md and crates.txt differ in " + ", ".join(differ))
    return len(found)


def described(root):
    """How many names docs/ARCHITECTURE.md gives as definitions, theorems and functions in the tables of the crates: each is declared
    in that crate, in the way of its row, or is a file, or a crate that this one needs."""
    text, found = (root / "docs" / "ARCHITECTURE.md").read_text(), []
    direct = needs((root / "crates.txt").read_text())

    def elsewhere(crate, name):
        if "/" in name:
            return (root / name).is_file()
        return any(path.name == name for path in written(root, crate)) if name.endswith((".rt", ".antt")) else name in direct[crate]

    for crate, table in re.findall(r"^### `(\w+)`\n\n((?:\|.*\n)+)", text, re.M):
        there = names(root, crate)
        by_row = {
            "main definitions": lambda name: name in there.definitions,
            "main theorems": lambda name: name in there.theorems,
            "main functions": lambda name: there.function(name) or name in there.definitions,
        }
        for line in table.splitlines():
            row, _, cell = line.strip("| ").partition(" | ")
            found += [(by_row[row](name) or elsewhere(crate, name), f"{name} ({row} of {crate})") for name in quoted(cell) if row in by_row]
    demand(found, "docs/ARCHITECTURE.md describes no crate")
    absent = [label for there, label in found if not there]
    demand(not absent, "docs/ARCHITECTURE.md names what a crate does not declare: " + ", ".join(absent))
    return len(found)
