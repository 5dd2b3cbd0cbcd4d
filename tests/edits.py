"""The must-fail edits: what a file of one has to say, and when what rt said of its refusal shows that a fact fails.

docs/CHANGING.md has the kinds of lines. Everything is read below a root folder or from a text, so that a test can plant a fault.
"""
import re

import source
from run import demand

KINDS = ("file", "old", "new", "input", "row")
# Crates whose functions are open calls, the promises on these, and the table itself: their edits name the row that states the right answer.
BY_ROW = ("bill", "calls", "capi", "fair", "demands", "report", "kitchen", "examples")
TABLE = "crates/examples/specs/Table.antt"
FEW = 3  # the words that an input takes at least
# What an edit may change in the files of a function's proof: the names of goals and of tests, which have the code's own numbers in them.
ANSWERS = r"proofs/.+/(?:Answers|Invariants)\.antt"
NAMED = re.compile(r"\b(returns|ensures|bounds|shape_of|overflow\w*|loop|if|decreases|invariant)(?:-\w+)+")


def labelled(root):
    """The edits below a root."""
    return sorted((root / "crates").glob("*/must-fail/*.edit"))


# ---- what an edit says


def lines(text):
    """The lines of an edit as pairs of a kind and what comes after it; rt passes over a line of no kind, so there must be none."""
    pairs = []
    for line in filter(str.strip, text.splitlines()):
        kind, colon, said = line.partition(":")
        demand(colon and kind in KINDS, f"'{line}' begins with none of {', '.join(KINDS)}")
        demand(kind == "new" or said.strip(), f"'{line}' says nothing")
        pairs.append((kind, said.removeprefix(" ")))
    return pairs


def follows(old, new):
    """Whether words of a proof differ in the names of goals and tests alone."""
    return NAMED.sub(r"\1", old) == NAMED.sub(r"\1", new)


def changes(pairs):
    """What an edit changes: a file, old words and new ones. Only code and definitions are wrong programs; a changed proof shows nothing, so that
    there an edit may only follow the code in the names of goals."""
    kinds = [kind for kind, _ in pairs if kind in ("file", "old", "new")]
    demand(re.fullmatch(r"(file( old new)+ ?)+", " ".join(kinds)), f"its lines are {', '.join(kinds)}: it takes 'file', and then 'old' and 'new'")
    made, file, old = [], "", ""
    for kind, said in pairs:
        file, old = (said if kind == "file" else file), (said if kind == "old" else old)
        code = re.fullmatch(r"(src/.+\.rt|specs/.+\.antt)", file)
        demand(code or re.fullmatch(ANSWERS, file) or not file, f"it edits {file}, and not code in src/ or definitions in specs/")
        if kind == "new":
            demand(code or follows(old, said), f"it edits {file}, and not only the names of goals there")
            made.append((file, old, said))
    demand(not all(re.fullmatch(ANSWERS, file) for file, _, _ in made), "it edits no code in src/ and no definitions in specs/")
    demand(all(old != new for _, old, new in made), "its old and new words are the same")
    return made


def rows(table):
    """The rows of the proved table, one a line: what a call says or leaves, or what a definition is, and what is stated of it."""
    return re.findall(r"^    (?:∷ )?((?:says|leaves|is) .*\S)$", source.antt(table), re.M)


def row_of(words, table):
    """The one row of the proved table that these words are."""
    found = [row for row in rows(table) if row == words]
    demand(len(found) == 1 and table.count(words) == 1, f"'{words}' is {table.count(words)} times in {TABLE}, and is {len(found)} of its rows")
    return found[0]


def said(crate, text, table):
    """An edit changes code or definitions, and says at which input the wrong program answers otherwise: in words, or by a row of the proved table."""
    pairs = lines(text)
    made = changes(pairs)
    inputs, named = ([words for kind, words in pairs if kind == wanted] for wanted in ("input", "row"))
    demand(len(inputs) <= 1, "it has more than one line 'input'")
    for words in inputs:
        demand(len(words.split()) >= FEW, f"'input: {words}' takes at least {FEW} words")
    stated = [row_of(words, table) for words in named]
    if crate in BY_ROW:
        demand(stated, f"it lacks a line 'row', with a row of {TABLE}")
    demand(inputs or stated, "it lacks a line 'input', which says where the wrong program answers otherwise")
    if crate == "examples":
        demand(any(old in row for _, old, _ in made for row in stated), "it changes another row than the one that it names")


def made_in(folder, made):
    """The old words of an edit are in the file of its crate, once, when it is their turn. rt asks for that, too, but only when it tries the edit."""
    texts = {}
    for file, old, new in made:
        demand((folder / file).is_file(), f"there is no {file}")
        text = texts.setdefault(file, (folder / file).read_text())
        demand(text.count(old) == 1, f"'{old}' is {text.count(old)} times in {file}")
        texts[file] = text.replace(old, new)


def all_said(root):
    """How many edits there are below a root: each says what it has to, and its words are there."""
    table, faults = (root / TABLE).read_text(), []
    for edit in labelled(root):
        crate = edit.parts[-3]
        try:
            said(crate, edit.read_text(), table)
            made_in(edit.parent.parent, changes(lines(edit.read_text())))
        except Exception as fault:  # all faults are told at once
            faults.append(f"{crate}/{edit.stem}: {fault}")
    demand(not faults, f"{len(faults)} must-fail edits: " + "; ".join(faults))
    return len(labelled(root))


# ---- why an edit was refused

# What rt ci says of an edit that was refused: its crate, its label, and why.
REFUSAL = re.compile(r"rt: must-fail (\S+?)/(\S+)\.edit: refused, as it must be(.*)")
# rt tells the first error that names no more than is there, or the first note on a goal that is not proved: its first line, cut after so many characters.
CUT = 160
ERROR = re.compile(r": (?:\./)?(\S+?):\d+:\d+: error: (?:`[^`]*`: )?(.*)")
NOTE = re.compile(r": note: (?:\./)?src/\S+?:\d+:\d+: it is not proved that ")
# How the checker says that a fact is not proved: two types differ, of which one is the fact, or a way of proving it fails. Everything
# else, as "has no field" or "is not in scope", only says that a proof file no longer fits the code, and shows nothing about the contract.
# Each form begins with its first words, and goes on with the others; of an error that is cut, these may be missing.
FACTS = (
    ("as printed, the two types ",),
    ("computed as far as they go, the two types ",),
    ("compared part by part, the two types ",),
    ("expected type `", "but this has type `"),
    ("`search`: no proof of `",),
    ("`omega`: ", "follow from what it read"),
    ("`grind`: the goal does not follow",),
    ("`cc`: the equations do not join `",),
    ("list the missing equation with its arguments",),
    ("give a proof of that as the last argument, `rw L t`",),
    ("give a proof of that as the last argument, `simp L t`",),
)


def is_fact(words, cut):
    """Whether an error says that a fact is not proved, as far as it is told."""
    for begins, *others in FACTS:
        if cut and len(words) < len(begins):
            if begins.startswith(words) and len(words) >= 12:
                return True
        elif words.startswith(begins) and (cut or all(each in words for each in others)):
            return True
    return False


def refused_for(why):
    """What rt says of a refused edit shows that a fact fails: the error that it tells is one, in a proof; or a note names a goal that is not proved."""
    if NOTE.match(why):
        return
    demand(why, "rt names no fact that fails")
    found = ERROR.fullmatch(why)
    demand(found, f"what rt tells is no failed fact: {why.strip(' :')[:300]}")
    place, words = found.groups()
    demand(place.startswith("proofs/"), f"the error that rt tells is in no proof: {place}: {words[:300]}")
    demand(is_fact(words, len(why) - len(": ") >= CUT), f"the error that rt tells is no failed fact: {words[:300]}")


def refusals(said):
    """What rt said of the edits that were refused, by crate and label."""
    return {(name, label): why for name, label, why in map(lambda line: line.groups(), filter(None, map(REFUSAL.fullmatch, said.splitlines())))}


def all_refused(root, said):
    """How many edits there are below a root: what rt said of each shows that a fact fails."""
    told, faults = refusals(said), []
    for edit in labelled(root):
        name, label = edit.parts[-3], edit.stem
        try:
            demand((name, label) in told, "rt does not say that it was refused")
            refused_for(told[name, label])
        except Exception as fault:  # all faults are told at once
            faults.append(f"{name}/{label}: {fault}")
    demand(not faults, f"{len(faults)} must-fail edits: " + "; ".join(faults))
    return len(labelled(root))
