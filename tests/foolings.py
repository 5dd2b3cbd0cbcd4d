"""Ways to fool the gate, each planted in a scratch copy or in a text: the gate has to find every one.

Called as `python3 -B tests/foolings.py` in the repository's root, after tools/library has built the library. The last line is
`N checks`, and the status 0; or what failed is printed, and the status is 1.
"""
import contextlib
import io
import pathlib
import shutil
import subprocess
import sys
import tempfile
import unicodedata

import characters
import declared
import edits
import gate
import interface
from run import Failed, enough, tried

HERE = pathlib.Path(__file__).resolve().parent.parent
CAPI, EXPORTS = ((HERE / "crates" / name / "src" / "lib.rt").read_text() for name in ("capi", gate.ARCHIVE))
HEADER = (HERE / "include" / "kitchen.h").read_text()
TABLE = (HERE / edits.TABLE).read_text()

checks = 0
failures = []


def check(holds, label):
    global checks
    checks += 1
    if not holds:
        failures.append(label)


def passes(label, function, *arguments):
    """If nothing is planted, nothing is found."""
    try:
        function(*arguments)
        check(True, label)
    except Failed as fault:
        check(False, f"{label}: nothing is wrong, and it says: {fault}")


def found(label, words, function, *arguments):
    """What is planted is found, and these words are said of it."""
    try:
        function(*arguments)
        check(False, f"{label}: it is not found")
    except Failed as fault:
        check(words in str(fault), f"{label}: expected '{words}', it says: {fault}")


def changed(text, old, new):
    """A text with these words changed, which are in it once."""
    if text.count(old) != 1:
        raise ValueError(f"'{old}' is {text.count(old)} times in what is to be changed")
    return text.replace(old, new)


@contextlib.contextmanager
def planted(path, old, new):
    """A file with a fault, for a while."""
    kept = path.read_text()
    path.write_text(changed(kept, old, new))
    try:
        yield
    finally:
        path.write_text(kept)


# ---- the header

# Of each wrong header: what is changed in ours, and who sees it: WORDS are compared, and a compiler sees TYPES, of which no name is a part.
WORDS, TYPES = {"words"}, {"types"}
BOTH = WORDS | TYPES
WRONG_HEADERS = {
    "arguments swapped": ("uint64_t layer, uint32_t *mutexes,\n                            size_t mutexes_len", "uint32_t *mutexes,\n                            size_t mutexes_len, uint64_t layer", BOTH),
    "pointer and length swapped": ("(const uint8_t *file, size_t file_len, uint64_t number", "(size_t file_len, const uint8_t *file, uint64_t number", BOTH),
    "arguments of one type swapped": ("uint64_t live,\n                      uint64_t goal", "uint64_t goal,\n                      uint64_t live", WORDS),
    "files swapped": ("const uint8_t *first, size_t first_len, const uint8_t *second, size_t second_len", "const uint8_t *second, size_t second_len, const uint8_t *first, size_t first_len", WORDS),
    "a narrower number": ("uint64_t floor", "uint32_t floor", BOTH),
    "a wider element": ("uint32_t *rounds", "uint64_t *rounds", BOTH),
    "a shorter length": ("size_t rounds_len", "uint32_t rounds_len", BOTH),
    "a length of another name": ("size_t goals_len", "uint64_t goals_len", WORDS),
    "a sign": ("uint64_t number", "int64_t number", BOTH),
    "another result": ("uint32_t kitchen_find(", "uint64_t kitchen_find(", BOTH),
    "no result": ("uint32_t kitchen_version(void)", "void kitchen_version(void)", BOTH),
    "a buffer that is only read": ("uint8_t *groups, size_t groups_len, uint64_t out[2]);\n\n/* A pass", "const uint8_t *groups, size_t groups_len, uint64_t out[2]);\n\n/* A pass", BOTH),
    "a file that is written": ("uint32_t kitchen_plan(const uint8_t *file", "uint32_t kitchen_plan(uint8_t *file", BOTH),
    "no parameters": ("uint32_t kitchen_version(void)", "uint32_t kitchen_version()", BOTH),
    "an argument too many": ("uint64_t number, uint64_t out[2]", "uint64_t number, uint64_t kind, uint64_t out[2]", BOTH),
    "out of three words": ("uint64_t number, uint64_t out[2]", "uint64_t number, uint64_t out[3]", WORDS),
    "a price of two words": ("uint64_t rate, uint64_t out[3]", "uint64_t rate, uint64_t out[2]", WORDS),
    "orders that are written": ("const uint64_t *orders", "uint64_t *orders", BOTH),
    "words that are only read": ("size_t orders_len, uint64_t *words", "size_t orders_len, const uint64_t *words", BOTH),
    "a function of another name": ("kitchen_compare(const", "kitchen_compares(const", BOTH),
    "a call of the interface left out": ("uint32_t kitchen_version(void);", "", BOTH),
    "a function too many": ("uint32_t kitchen_version(void);", "uint32_t kitchen_version(void);\nuint32_t kitchen_news(void);", WORDS),
    "a function of another sort": ("uint32_t kitchen_version(void);", "uint32_t kitchen_version(void);\nvoid *news(const char *of, int day);", WORDS),
    "another size": ("#include <stdint.h>\n", "#include <stdint.h>\n#define size_t uint32_t\n", TYPES),
}  # fmt: skip


def headers(folder):
    passes("our header", interface.same_prototypes, HEADER, EXPORTS)
    passes("our header for a compiler", interface.compiled, EXPORTS, folder, HERE / "include")
    for label, (old, new, seen) in WRONG_HEADERS.items():
        wrong = changed(HEADER, old, new)
        (folder / "kitchen.h").write_text(wrong)
        if seen >= WORDS:
            found(label, "the header declares ", interface.same_prototypes, wrong, EXPORTS)
        if seen >= TYPES:
            found(f"{label}, for a compiler", "redeclared.c", interface.compiled, EXPORTS, folder, folder)
    for label, old, new in (
        ("capi_c with another width", "floor: u64,", "floor: u32,"),
        ("capi_c with swapped arguments", "live: u64,\n    goal: u64,", "goal: u64,\n    live: u64,"),
        ("capi_c that lends a file to be written", "fn kitchen_name(file: &[u8]", "fn kitchen_name(file: &mut [u8]"),
    ):
        found(label, "the header declares ", interface.same_prototypes, HEADER, changed(EXPORTS, old, new))
        found(f"{label}, beside capi", " in capi, and ", interface.same_functions, CAPI, changed(EXPORTS, old, new))
    passes("the functions of capi", interface.same_functions, CAPI, EXPORTS)
    clause = "    ensures { result ≡ interface_number }\n"
    found("capi_c that promises less", " in capi, and ", interface.same_functions, CAPI, changed(EXPORTS, clause, ""))
    found("capi_c that asks for more", " in capi, and ", interface.same_functions, CAPI, changed(EXPORTS, clause, f"    requires {{ 0 < 1 }}\n{clause}"))
    for label, old, new in (
        ("a call that is not exported", "pub fn kitchen_version(", "pub fn kitchen_news() -> u32 {\n    0\n}\n\npub fn kitchen_version("),
        ("a call that capi lacks", "pub fn kitchen_version(", "fn kitchen_version("),
    ):
        found(label, "and capi_c exports", interface.same_functions, changed(CAPI, old, new), EXPORTS)
    found("a function that is not exported", "no_mangle", interface.prototypes, EXPORTS.replace("#[unsafe(no_mangle)]\n", "", 1))
    found("a parameter that C cannot have", "which C cannot have", interface.prototypes, changed(EXPORTS, "floor: u64,", "floor: bool,"))


def every_call(folder):
    """The program that makes every call sees a header whose numbers are wrong, and an answer or a buffer that is not as known."""
    program, archive = (HERE / "tests" / "every_call.c").read_text(), HERE / "target" / "lib" / "libkitchen.a"
    calls = [
        ("every call", "", HEADER, program, 0),
        ("reasons that changed places", "", changed(changed(HEADER, "NO_SELECTION = 14", "NO_SELECTION = 15"), "NO_PLAN = 15", "NO_PLAN = 14"), program, 1),
        ("a longer name", "", changed(HEADER, "KITCHEN_NAME_BYTES = 32", "KITCHEN_NAME_BYTES = 33"), program, 1),
        ("a layer of fewer words", "", changed(HEADER, "KITCHEN_ROUND_WORDS = 64", "KITCHEN_ROUND_WORDS = 63"), program, 1),
        ("another answer", "expected 0, 7 3", HEADER, changed(program, "7, 7, out), 0, 6, 3)", "7, 7, out), 0, 7, 3)"), 1),
        ("another number for a rate", "", changed(HEADER, "KITCHEN_HIGH_RATE = 17", "KITCHEN_HIGH_RATE = 18"), program, 1),
        ("another number for an order outside the file", "", changed(HEADER, "KITCHEN_ORDER_OUTSIDE_FILE = 18", "KITCHEN_ORDER_OUTSIDE_FILE = 19"), program, 1),
        ("another tax", "expected 0, 5 ", HEADER, changed(program, "5, -50, -1); /* half", "5, -50, 0); /* half"), 1),
        ("another entry of a fair", "buffers", HEADER, changed(program, "OUTSIDE, 0, 4, 0)", "OUTSIDE, 0, 5, 0)"), 1),
        ("a third word that a call of two has", " 999, and buffers", HEADER, changed(program, "PRICES(kitchen_price(SLICE(A), 1900, out), 0, 4, 0, 0)", "GIVES(kitchen_price(SLICE(A), 1900, out), 0, 4, 0)"), 1),
        ("another buffer", "buffers", HEADER, changed(program, "2, 4, 0, 1, 6)", "2, 4, 0, 1, 7)"), 1),
        ("a buffer that is not kept", "buffers", HEADER, changed(program, "2, 4, 0, 2, 1)", "2, 4, 0, 2, 1, 0)"), 1),
    ]
    for label, words, header, text, status in calls:
        (folder / "kitchen.h").write_text(header)
        (folder / "every_call.c").write_text(text)
        gate.run(["cc", "-std=c99", *interface.WARNINGS, "-I", str(folder), str(folder / "every_call.c"), str(archive), "-o", str(folder / "every_call")])
        done = subprocess.run([str(folder / "every_call")], stdin=subprocess.DEVNULL, capture_output=True, text=True)
        check(done.returncode == status and words in done.stdout, f"{label}: status {done.returncode}, {done.stdout}")


# ---- the second program


def deleted_scripts(folder):
    shutil.copytree(HERE / "reference", folder / "reference", ignore=shutil.ignore_patterns("__pycache__"))
    programs = gate.programs()
    passes("the scripts", gate.scripts, folder, programs)
    for path in sorted((folder / "reference").glob("*.py")):
        kept = path.read_text()
        path.unlink()
        found(f"without {path.name}", f"lacks ['{path.stem}']", gate.scripts, folder, programs)
        path.write_text(kept)
    (folder / "reference" / "stray.py").write_text("")
    found("a script of no program", "has ['stray']", gate.scripts, folder, programs)


# ---- the table of characters

# Of each wrong entry: what the table has, what is put in its place, and the character.
WRONG_ENTRIES = {
    "a compatibility mapping": ("0x00_000_132", "0x00_04a_049", "U+0132"),
    "another class": ("0x00_000_34f", "0xe6_000_34f", "U+034F"),
    "no mapping": ("0x00_308_075", "0x00_000_0fc", "U+00FC"),
    "half a mapping": ("0xe6_301_308", "0xe6_000_308", "U+0344"),
    "a mapping of another character": ("0x00_30a_041", "0x00_30a_061", "U+00C5"),
}


def database(changed=()):
    """A text as UnicodeData.txt, with what Python's data have; of some characters another pair of mapping and class, or no line for None."""
    lines = []
    for code in range(0x380):
        fields = dict(changed).get(code, (unicodedata.decomposition(chr(code)), unicodedata.combining(chr(code))))
        lines += [f"{code:04X};NAME;Lo;{fields[1]};L;{fields[0]};;;;N;;;;;\n"] if fields else []
    return "".join(lines)


def compared(folder):
    """The check of the table, without what it prints. A file UnicodeData.txt in that folder is taken for the one that is installed."""
    with contextlib.redirect_stdout(io.StringIO()):
        characters.compared(folder, folder / "UnicodeData.txt")


def character_table(folder):
    """A table that is wrong in both files is one that no proof can refuse."""
    for name in (*(part.path for part in characters.table.PARTS), "tools/unicode_table.py"):
        (folder / name).parent.mkdir(parents=True)
        shutil.copy(HERE / name, folder / name)
    passes("the table", compared, folder)
    code, definitions = (folder / part.path for part in characters.table.PARTS)
    for label, (old, new, character) in WRONG_ENTRIES.items():
        words = [f"{character} in {part.path} is {new}, and not {old} (by Python's" for part in characters.table.PARTS]
        with planted(code, old, new):
            found(f"{label} in the code", words[0], compared, folder)
            with planted(definitions, old, new):
                found(f"{label} in both files", f"{words[0]} unicodedata {unicodedata.unidata_version}); {words[1]}", compared, folder)
        with planted(definitions, old, new):
            found(f"{label} in the definitions", words[1], compared, folder)
    for part, comment in zip(characters.table.PARTS, ("//", "--")):
        marks(folder, part, comment)
    databases(folder)
    written_tables(folder)


def marks(folder, part, comment):
    """Entries that are not where the script and the check look, and such that are none."""
    path, one = folder / part.path, f"0x00_000_132{part.sign}"
    outside = "expected the marks right below"
    for label, old, new, words in (
        ("an entry missing", one, "", " has 303 entries, and not 304"),
        ("an entry too many", one, f"{one} {one}", " has 305 entries, and not 304"),
        ("an entry in a comment", one, f"{comment} {one}\n   ", f": '{comment}' between the marks is no entry"),
        ("an entry that is computed", one, f"0x00_000_131 + 1{part.sign}", ": '0x00_000_131' between the marks is no entry"),
        ("an entry above the marks", f"{part.opens}\n", f"{part.opens}\n    {one}\n", f": {outside}"),
        ("an entry below the marks", "END TABLE\n", f"END TABLE\n    {one}\n", f": {outside}"),
        ("no first mark", "BEGIN TABLE", "THE TABLE", ": expected one line with BEGIN TABLE"),
        ("two last marks", "END TABLE\n", f"END TABLE\n    {comment} END TABLE\n", ": expected one line with BEGIN TABLE"),
    ):
        with planted(path, old, new):
            found(f"{label}, {part.path}", part.path + words, compared, folder)
    kept = path.read_text()
    path.unlink()
    found(f"without {part.path}", f"{part.path}: No such file", compared, folder)
    path.write_text(kept)


def databases(folder):
    """What is installed is looked at, and has to be what it says; what is covered leads nowhere else."""
    installed = folder / "UnicodeData.txt"
    installed.write_text(database())
    passes("the same data, installed", compared, folder)
    for label, text, words in (
        ("another mapping", database({0x132: ("0049 004A", 0)}), "U+0132 in crates/unicode_forms/src/table.rt is 0x00_000_132, and not 0x00_04a_049 (by /"),
        ("another class", database({0x34F: ("", 230)}), "U+034F in crates/unicode_forms/specs/Table.antt is 0x00_000_34f, and not 0xe6_000_34f (by /"),
        ("a character missing", database({0x344: None}), "UnicodeData.txt: U+0344 is missing"),
        ("a character there twice", database() + "0041;NAME;Lo;0;L;;;;;N;;;;;\n", "UnicodeData.txt: line 897 has U+0041 once more"),
    ):
        installed.write_text(text)
        found(f"{label}, installed", words, compared, folder)
    installed.unlink()
    entries = characters.table.of_python()
    passes("what is covered", characters.complete, entries)
    for label, old, new, words in (
        ("no entry", "0x00_300_041", "0x00_300_180", "U+00C0 leads to a character that has no entry"),
        ("an entry that leads further", "0x00_300_041", "0x00_300_0c1", "U+00C0 leads to a character that has no entry, or"),
        ("half an entry", "0x00_300_041", "0x00_000_041", "U+00C0 is not its full decomposition"),
    ):
        found(f"a mapping to {label}", words, characters.complete, [new if entry == old else entry for entry in entries])


def written_tables(folder):
    """The script writes both files as they are, and writes nothing if FILE or a file of the table is not as it has to be."""
    text, script = folder / "data", folder / "tools" / "unicode_table.py"
    paths = [folder / part.path for part in characters.table.PARTS]
    good, there = database(), [path.read_text() for path in paths]
    wrong = [changed(each, "0x00_000_132", "0x00_04a_049") for each in there]

    def told(before, *options):
        """Status and output of the script, and the files afterwards."""
        for path, each in zip(paths, before):
            path.write_text(each)
        done = subprocess.run([sys.executable, "-B", script, text, *options], stdin=subprocess.DEVNULL, capture_output=True, text=True)
        return done.returncode, done.stdout + done.stderr, [path.read_text() for path in paths]

    text.write_text(good)
    check(told(wrong) == (0, "304 entries are written into both files\n", there), "the script writes both files")
    check(told(there, "--compare") == (0, "304 entries are the same in both files\n", there), "the script compares both files")
    status, printed, left = told(wrong, "--compare")
    check((status, left) == (1, wrong) and printed.count("U+0132 in crates/unicode_forms/") == 2, f"the script finds what differs: {printed}")
    for label, given, before, words in (
        ("no line of the file", "junk\n" + good, there, "data: line 1 is no line of UnicodeData.txt"),
        ("a line with a field less", good.replace(";;;;N;;;;;\n", ";;;;N;;;;\n", 1), there, "data: line 1 is no line"),
        ("a mapping that is none", database({0xC0: ("0041+0300", 0)}), there, "data: line 193 is no line"),
        ("an empty file", "", there, "data: U+00C0 is missing"),
        ("a mapping of three", database({0xC0: ("0041 0300 0301", 0)}), there, "data: U+00C0 has the mapping 0041 0300 0301"),
        ("a mapping that does not fit", database({0xC5: ("212B", 0)}), there, "data: U+00C5 has the mapping 212B"),
        ("a class that does not fit", database({0x300: ("", 256)}), there, "data: U+0300 has the class 256"),
        ("no mark", good, [there[0], there[1].replace("END TABLE", "")], "Table.antt: expected one line with BEGIN TABLE"),
    ):
        text.write_text(given)
        for options in ((), ("--compare",)):
            status, printed, left = told(before, *options)
            check((status, left) == (2, before) and words in printed and printed.count("\n") == 1, f"the script, {label}: {status}, {printed}")
    text.unlink()
    check(told(there)[0] == 2 and "data: No such file" in told(there)[1], "the script, without a file")


# ---- must-fail edits

GOOD_LOGS = (
    "./proofs/f/Answers.antt:12:13: error: `returns`: `search`: no proof of `a ≡ b`",
    "proofs/f/Answers.antt:11:17: error: `overflow_cast-result`: `omega`: the part `.fits` of the goal does not follow from what it read. All of that holds",
    "./proofs/f/Answers.antt:11:17: error: `returns`: `omega`: a listed rule or a hypothesis proves the goal from `a < 0`, and that does not follow from what it read",
    "./proofs/f/Answers.antt:14:14: error: `returns`: as printed, the two types first differ where one has `64` (expected)",
    "./proofs/Laws.antt:14:14: error: `law`: computed as far as they go, the two types differ only where one has `1`",
    "./proofs/f/Proof.antt:65:38: error: `returns`: expected type `a < b`, but this has type `a ≤ b`",
    "./proofs/Laws.antt:9:13: error: `law`: give a proof of that as the last argument, `rw L t` (`rw L ?` shows it as a hole's goal), or add what is",
    "./proofs/f/Answers.antt:19:56: error: `returns`: list the missing equation with its arguments, or rewrite by `rw` or `simp`",
    "note: src/word.rt:65:18: it is not proved that the index is below the slice's length (`bounds-bytes-at-2`); `search` gave up at one of its limits",
)
# Errors that are cut: so much of them is told.
CUT_LOGS = (
    "./proofs/f/Answers.antt:15:54: error: `returns-then-file-kind`: expected type `◌≡◌ (get_or c.args.file.now 0 0)",
    "./proofs/Fair/Answers.antt:15:54: error: `returns`: `omega`: the part",
    "./proofs/Fair/Answers.antt:15:54: error: `returns`: as printed, the t",
)
NAMES_ALONE = " (only because a proof file names what the edit took away, so this says little of the contract: change a value and keep the names): "
BAD_LOGS = {
    "a name that is not in scope": (": ./proofs/f/Answers.antt:12:13: error: `returns`: `taken` is not in scope", "no failed fact"),
    "a goal that is gone": (NAMES_ALONE + "./proofs/f/Answers.antt:12:13: error: `returns-2`: module `Rattle.one.proofs.f.Goals` has no `returns-2`", "no failed fact"),
    "a fact beside names alone": (f"{NAMES_ALONE}{GOOD_LOGS[0]}", "no failed fact"),
    "a limit": (f" (only by a limit of the prover, which gave no verdict, so this says less of the contract: choose a change that it refuses sooner): {GOOD_LOGS[0]}", "no failed fact"),
    "a field that is gone": (": ./proofs/f/Answers.antt:12:13: error: `returns`: record `f.Lts.Then1` has no field `args`", "no failed fact"),
    "a definition that is gone": (": ./proofs/Laws.antt:3:1: error: module `Rattle.one.specs.Sets` has no `lowest` that can be named from here", "no failed fact"),
    "a fact that comes after": (": ./proofs/f/Answers.antt:12:13: error: `returns`: `taken` is not in scope: `search`: no proof of `a ≡ b`", "no failed fact"),
    "a proof that cannot be read": (": ./proofs/f/Answers.antt:12:13: error: expected a term, found `)`", "no failed fact"),
    "a definition that has no type": (": ./specs/Rules.antt:3:1: error: `rule`: as printed, the two types first differ where one has `ℕ`", "in no proof"),
    "another note": (": note: src/word.rt:65:18: this function calls itself", "no failed fact"),
    "a type that is expected": (": ./proofs/f/Answers.antt:12:13: error: `returns`: expected type `ℕ`", "no failed fact"),
    "nothing": ("", "names no fact"),
    "what rests on something else": (": ./proofs/f/Answers.antt:1:1: error: `f-spec`: `returns` was not admitted", "no failed fact"),
}


def told(why, label="wrong"):
    return f"rt: must-fail one/{label}.edit: refused, as it must be{why}"


def why_of(line):
    return edits.refusals(line)["one", "wrong"]


def logs():
    for log in GOOD_LOGS:
        passes(log, edits.refused_for, why_of(told(f": {log}")))
    for log in CUT_LOGS:
        found(f"not cut: {log}", "no failed fact", edits.refused_for, f": {log}")
        long = log.replace("./proofs/", f"./proofs/{'x' * (edits.CUT - len(log) - 1)}/")
        passes(f"cut: {log}", edits.refused_for, f": {long}")
    for label, (log, words) in BAD_LOGS.items():
        found(f"a log of {label}", words, edits.refused_for, why_of(told(log)))
    check(edits.refusals("\n".join([told(""), "rt: must-fail one/other.edit: NOT REFUSED: the crate is still proved", "rt: one proved"])) == {("one", "wrong"): ""}, "the edits that were refused")


def refused(folder):
    """The edits of a tree beside what rt said of them."""
    (folder / "crates" / "one" / "must-fail").mkdir(parents=True)
    for label in ("wrong", "worse"):
        (folder / "crates" / "one" / "must-fail" / f"{label}.edit").write_text("")
    lines = [told(f": {GOOD_LOGS[0]}", label) for label in ("wrong", "worse")]
    passes("what rt said of two edits", edits.all_refused, folder, "\n".join(lines))
    found("an edit of which rt says nothing", "1 must-fail edits: one/worse: rt does not say", edits.all_refused, folder, lines[0])
    found("an edit that is not refused", "1 must-fail edits: one/worse: rt does not say", edits.all_refused, folder, "\n".join([lines[0], lines[1].replace("refused, as it must be", "NOT REFUSED")]))
    found("an edit refused for no fact", "1 must-fail edits: one/wrong: ", edits.all_refused, folder, "\n".join([told(": nothing"), lines[1]]))


ROW = "says (plan_of file_f (nines 3)) (answered 2)"
CHANGE = "file: src/lib.rt\nold: a + b\nnew: a - b\n"
INPUT = "input: the file F of the rules\n"
GOOD_EDITS = {
    "an input": ("sets", CHANGE + INPUT),
    "a definition": ("sets", CHANGE.replace("src/lib.rt", "specs/Sets.antt") + INPUT),
    "two changes and an empty one": ("sets", CHANGE + "old: c\nnew:\nfile: src/word.rt\nold: d\nnew: e\n" + INPUT),
    "a row": ("calls", f"{CHANGE}row: {ROW}\n"),
    "a row and an input": ("report", f"{INPUT}row: {ROW}\n{CHANGE}"),
    "a row of another crate": ("planner", f"{INPUT}row: {ROW}\n{CHANGE}"),
    "goals that follow the code": ("sets", CHANGE + "file: proofs/f/Answers.antt\nold: pub returns-a-ge3 : goal.returns-a-ge3\nnew: pub returns-a-ge4 : goal.returns-a-ge4\nold: c.if-a-ge3.true\nnew: c.if-a-ge4.true\n" + INPUT),
    "a row that it changes": ("examples", f"file: specs/Table.antt\nold: {ROW}\nnew: says (plan_of file_f (nines 3)) (answered 3)\nrow: {ROW}\n"),
}  # fmt: skip
BAD_EDITS = {
    "an edit of a proof": ("sets", CHANGE.replace("src/lib.rt", "proofs/f/Proof.antt") + INPUT, "not code in src/"),
    "an edit of an answer": ("sets", CHANGE + "file: proofs/f/Answers.antt\nold: returns-a c = refl\nnew: returns-b c = sym refl\n" + INPUT, "not only the names of goals"),
    "an edit of a law that is cited": ("sets", CHANGE + "file: proofs/f/Answers.antt\nold: pasted-end c\nnew: pasted-start c\n" + INPUT, "not only the names of goals"),
    "an edit of another kind of goal": ("sets", CHANGE + "file: proofs/f/Answers.antt\nold: returns-a c\nnew: loop-a c\n" + INPUT, "not only the names of goals"),
    "an edit of a goal's name alone": ("sets", "file: proofs/f/Answers.antt\nold: returns-a c\nnew: returns-b c\n" + INPUT, "no code in src/"),
    "an edit of a proof after one of code": ("sets", CHANGE + "file: proofs/Bits.antt\nold: a\nnew: b\n" + INPUT, "not code in src/"),
    "an edit by a way round": ("sets", CHANGE.replace("src/lib.rt", "src/../proofs/Bits.antt") + INPUT, "not code in src/"),
    "no input": ("sets", CHANGE, "lacks a line 'input'"),
    "an empty input": ("sets", CHANGE + "input:\n", "says nothing"),
    "an input of blanks": ("sets", CHANGE + "input:   \n", "says nothing"),
    "an input of a word": ("sets", CHANGE + "input: any\n", "at least 3 words"),
    "two inputs": ("sets", CHANGE + INPUT + INPUT, "more than one"),
    "a line of no kind": ("sets", CHANGE + "inputs: the file F\n", "begins with none of"),
    "no row": ("calls", CHANGE + INPUT, "lacks a line 'row'"),
    "an empty row": ("calls", CHANGE + "row:\n", "says nothing"),
    "a row that is not there": ("calls", f"{CHANGE}row: {ROW.replace('answered 2', 'answered 3')}\n", "is 0 times"),
    "a row that is not there, of another crate": ("planner", f"{CHANGE}{INPUT}row: {ROW.replace('answered 2', 'answered 3')}\n", "is 0 times"),
    "words of many rows": ("capi", CHANGE + "row: (answered 2)\n", "and is 0 of its rows"),
    "words of a row without its answer": ("capi", CHANGE + "row: says (plan_of file_f (nines 3))\n", "and is 0 of its rows"),
    "another row than it changes": ("examples", f"file: specs/Table.antt\nold: (answered 6)\nnew: (answered 7)\nrow: {ROW}\n", "another row"),
    "nothing that is changed": ("sets", INPUT, "it takes 'file'"),
    "old words without new ones": ("sets", "file: src/lib.rt\nold: a\n" + INPUT, "it takes 'file'"),
    "the same words": ("sets", CHANGE.replace("a - b", "a + b") + INPUT, "are the same"),
}  # fmt: skip


def edit_files(folder):
    for label, (crate, text) in GOOD_EDITS.items():
        passes(f"an edit with {label}", edits.said, crate, text, TABLE)
    for label, (crate, text, words) in BAD_EDITS.items():
        found(f"an edit with {label}", words, edits.said, crate, text, TABLE)
    hidden = TABLE.replace(ROW, "says (plan_of file_f (nines 3)) (answered 3)") + f"-- {ROW}\n"
    found("a row in a comment", "is 0 of its rows", edits.said, "calls", GOOD_EDITS["a row"][1], hidden)
    for crate, text in (("one", CHANGE + INPUT), ("two", CHANGE)):
        (folder / "crates" / crate / "must-fail").mkdir(parents=True)
        (folder / "crates" / crate / "must-fail" / "wrong.edit").write_text(text)
        (folder / "crates" / crate / "src").mkdir()
        (folder / "crates" / crate / "src" / "lib.rt").write_text("fn f() { a + b }\n")
    (folder / edits.TABLE).parent.mkdir(parents=True)
    (folder / edits.TABLE).write_text(TABLE)
    found("an edit of a tree", "1 must-fail edits: two/wrong: it lacks a line 'input'", edits.all_said, folder)
    (folder / "crates" / "two" / "must-fail" / "wrong.edit").write_text(CHANGE + INPUT)
    passes("two edits of a tree", edits.all_said, folder)
    code = folder / "crates" / "one" / "src" / "lib.rt"
    for label, text, count in (("gone", "fn f() { a * b }\n", 0), ("there twice", "fn f() { a + b }\nfn g() { a + b }\n", 2)):
        code.write_text(text)
        found(f"an edit whose words are {label}", f"one/wrong: 'a + b' is {count} times in src/lib.rt", edits.all_said, folder)
    code.unlink()
    found("an edit of a file that is not there", "one/wrong: there is no src/lib.rt", edits.all_said, folder)


# ---- names


def theorems(folder, module):
    return [name for name, public in declared.signatures((folder / declared.theorem_file(module)).read_text()) if public]


def with_promises(folder):
    """A copy of all that docs/TRACE.md names, with a file Promises.antt that imports all theorems of the demands and of the requests."""
    for part in ("crates", "docs", "host", "include", "reference", "tests", "tools"):
        shutil.copytree(HERE / part, folder / part, ignore=shutil.ignore_patterns("__pycache__"))
    lines = ["-- All of them.\n"]
    for module in declared.THEOREMS:
        stated = theorems(folder, module)
        lines += [f"pub use {declared.import_of(module)}.{{{', '.join(part)}}}\n" for part in (stated[:1], stated[1:3], stated[3:])]
    (folder / declared.PROMISES).write_text("".join(lines))
    lib = folder / declared.LIB
    lib.write_text("\n".join([*(line for line in lib.read_text().splitlines() if line != "pub mod Promises"), "pub mod Promises", ""]))


def declared_names(folder):
    with_promises(folder)
    page, laws = folder / "docs" / "TRACE.md", folder / "crates" / "jobfile" / "proofs" / "Theorems.antt"
    code, specs = folder / "crates" / "reachability" / "src" / "lib.rt", folder / "crates" / "reachability" / "specs"
    passes("the names", declared.traced, folder)
    for label, path, old, new, words in (
        ("a theorem in a comment", laws, "pub one-writing :", "-- pub one-writing :", "one-writing (theorem)"),
        ("a theorem of another name", laws, "pub one-writing :", "-- one-writing\npub two-writings :", "one-writing (theorem)"),
        ("a theorem in a long comment", laws, "pub one-writing :", "{- {- -}\npub one-writing : -}\npub two-writings :", "one-writing (theorem)"),
        ("a function in a comment", code, "fn hopeless(", "fn helpless(/* fn hopeless( */", "reachability::hopeless (contract)"),
        ("a function in a line of comment", code, "pub fn hopeless(", "// pub fn hopeless(\npub fn helpless(", "reachability::hopeless (contract)"),
        ("a row of a theorem that is not there", page, "`closed-hopeless`", "`closed-hopeless`, `open-hopeless`", "open-hopeless (theorem)"),
        ("a theorem as a definition", page, "| `Hopeless` |", "| `closed-hopeless` |", "closed-hopeless (definition)"),
        ("a function of another crate", page, "`reachability::hopeless`", "`planner::hopeless`", "planner::hopeless (contract)"),
        ("an edit that is not there", page, "`crowded_is_closed`", "`crowded_is_open`", "crowded_is_open (must-fail edit)"),
        ("a test that is not there", page, "`include/kitchen.h` |", "`include/kitchens.h` |", "include/kitchens.h (test)"),
    ):
        with planted(path, old, new):
            found(label, words, declared.traced, folder)
    (definition,) = [path for path in specs.glob("*.antt") if "pub Hopeless :" in path.read_text()]
    with planted(definition, "pub Hopeless :", "pub Hopeful :"):
        found("a definition of another name", "Hopeless (definition)", declared.traced, folder)
    new = folder / "crates" / "sets" / "must-fail" / "new.edit"
    new.write_text("")
    found("an edit that is not traced", "lacks the must-fail edits new", declared.traced, folder)
    new.unlink()


def promises(folder):
    page, taken = folder / "docs" / "TRACE.md", folder / declared.PROMISES
    passes("the theorems of the demands and of the requests", declared.promised, folder)
    for module, heading in declared.THEOREMS.items():
        stated, one = folder / declared.theorem_file(module), theorems(folder, module)[0]
        table = page.read_text().partition(f"\n## {heading}\n")[2]
        row = next(line for line in table.splitlines() if f"`{one}`" in line)
        first = f"pub use {declared.import_of(module)}.{{{one}}}\n"
        for label, path, old, new in (
            ("a theorem deleted", stated, f"pub {one} :", f"-- {one}\npub another-{one} :"),
            ("a theorem in a comment", stated, f"pub {one} :", f"-- pub {one} :"),
            ("a theorem that is not pub", stated, f"pub {one} :", f"{one} :"),
            ("a theorem that is not imported", taken, first, ""),
            ("a theorem that is imported from elsewhere", taken, first, first.replace(f".{module}.", ".DemandLaws.")),
            ("an import in a comment", taken, first, f"-- {first}"),
            ("an import in a long comment", taken, first, f"{{-\n{first}-}}\n"),
            ("a row without a theorem", page, row, row.replace(f"`{one}`", "")),
            ("a row of a theorem too many", page, row, row.replace(f"`{one}`", f"`{one}`, `another-{one}`")),
        ):
            with planted(path, old, new):
                found(f"{module}: {label}", f"{one}'", declared.promised, folder)
    second = "## The requests\n\n| promise | theorems of `crates/demands/proofs/Second.antt` |\n|---|---|\n| another | `one-more` |\n"
    with planted(page, "## The requests\n", second):
        passes("the table of another request", declared.promised, folder)
    with planted(folder / declared.LIB, "pub mod Promises", "-- pub mod Promises"):
        found("a file that the checker does not read", "does not declare Promises", declared.promised, folder)
    taken.unlink()
    found("no file of promises", "Promises.antt is missing", declared.promised, folder)


# ---- docs/ARCHITECTURE.md


def architecture(folder):
    page, listed = folder / "docs" / "ARCHITECTURE.md", folder / "crates.txt"
    listed.write_text((HERE / "crates.txt").read_text())
    passes("the pictures", declared.drawn, folder)
    passes("the tables of the crates", declared.described, folder)
    line = next(line for line in listed.read_text().splitlines() if line.startswith("text:"))
    for label, path, old, new, words in (
        ("a picture without an arrow", page, "    sets --> text\n", "", "differ in sets --> text"),
        ("an arrow that no need gives", page, "    sets --> text\n", "    sets --> text\n    filter --> text\n", "differ in filter --> text"),
        ("an arrow that follows from others", page, "    sets --> text\n", "    sets --> text\n    sets --> jobfile\n", "differ in sets --> jobfile"),
        ("an arrow twice", page, "    sets --> text\n", "    sets --> text\n    sets --> text\n", "an arrow twice"),
        ("a need that the crate does not name", listed, line, f"{line} filter", "does not name: text: filter"),
        ("a need that is not drawn", page, "    filter --> arguments\n", "", "differ in filter --> arguments"),
        ("a need that is left out", listed, line, "text:", "differ in sets --> text"),
    ):
        with planted(path, old, new):
            found(label, words, declared.drawn, folder)
    for label, old, new, words in (
        ("a definition that the crate lacks", "`lowest_named`; `alike`", "`lowest_named`, `contribution`; `alike`", "contribution (main definitions of names)"),
        ("a theorem that is none", "`name-symmetric`, `name-transitive`", "`name-symmetric`, `same_name`", "same_name (main theorems of names)"),
        ("a function of another crate", "`equal`, `search`,", "`equal`, `search`, `first_bad`,", "first_bad (main functions of names)"),
        ("a crate for a function", "`equal`, `search`,", "`filter`, `search`,", "filter (main functions of names)"),
        ("a file that is not there", "in `likeness.rt`", "in `likenes.rt`", "likenes.rt (main functions of names)"),
        ("a tool that is not there", "`tools/library` builds", "`tools/libraries` builds", "tools/libraries (main functions of capi_c)"),
    ):
        with planted(page, old, new):
            found(label, words, declared.described, folder)


# ---- counts and verdicts


def result_of(seen, least):
    """Why a check that sees this many things fails, if these are demanded."""

    def emptied():
        return seen

    with contextlib.redirect_stdout(io.StringIO()):
        return tried(emptied, least).fault


def least_counts():
    check(result_of(9, {"emptied": 9}) == "", "as many things as there have to be")
    for label, fault in {
        "fewer things": result_of(8, {"emptied": 9}),
        "nothing": result_of(0, {"emptied": 0}),
        "no least count": result_of(9, {}),
        "no count": result_of(None, {"emptied": 9}),
    }.items():
        check(fault, f"a check that sees {label}: it is not found")
    passes("enough", enough, {"crates": 36, "edits": 9}, {"crates": 36})
    found("too few", "crates: 35 and not 36", enough, {"crates": 35}, {"crates": 36})
    found("none", "edits: 0 and not 1", enough, {"crates": 36}, {"crates": 36, "edits": 1})
    found("no least counts", "", enough, {"crates": 36}, {})
    with contextlib.redirect_stdout(io.StringIO()):
        found("a sort that is not compared", "refused 2: 0 and not 5", gate.counted, "refused 1: 9, refused 12: 7", {"refused 1": 9, "refused 2": 5})


VERDICT = "logic=proved functions=12 axioms=2 target=x86_64-unknown-linux-gnu sum=0"
AXIOMS = ["axioms libc: 2 reached of the 3 declared", "  libc::read   reached", "  libc::sync", "  libc::write   reached"]


def verdicts():
    check(gate.assumed(["axioms libc: none reached of the 128 declared", VERDICT.replace(" axioms=2", "")]) == [], "a library that assumes nothing")
    check(gate.assumed([*AXIOMS, VERDICT]) == ["read", "write"], "a library that assumes two C functions")
    for label, lines, words in (
        ("that counts no C functions", ["logic=proved functions=12 sum=0"], "counts no C functions"),
        ("that is none", [], "counts no C functions"),
        ("of a crate that is not proved", [*AXIOMS, VERDICT.replace("proved", "not-proved")], "counts no C functions"),
        ("that counts more", [*AXIOMS, VERDICT.replace("axioms=2", "axioms=3")], "counts 3 C functions, and lists"),
        ("that counts none of those that are listed", [*AXIOMS, VERDICT.replace(" axioms=2", "")], "and lists"),
        ("without a list", [VERDICT.replace(" axioms=2", "")], "lists no C functions"),
    ):
        found(f"a verdict {label}", words, gate.assumed, lines)
    rows = "| program | C functions assumed |\n| `one`, the first | `axioms=0` (none) |\n| `two` | `axioms=2` (write, read) |\n"
    check(gate.stated_assumptions(rows) == {"one": (0, []), "two": (2, ["read", "write"])}, "what is stated of two programs")
    passes("verdicts without C functions", gate.no_foreign, "logic=proved functions=1 sum=0\nrt: one proved\n")
    found("a verdict of a crate with C functions", "declares C functions", gate.no_foreign, "logic=proved functions=1 foreign=c::f sum=0\n")
    found("a verdict that is none", "not proved", gate.no_foreign, "logic=not-proved functions=1 sum=0\n")


OK = "rt: ok; handles allowed: none; must-fail edits: 2 refused; every proof and must-fail edit was done in this run"


def ends():
    """The line of rt that all is well, beside two crates and two edits."""
    names = {"proved": ["one", "two"], "must-fail": ["one/a", "two/b"]}
    for line in (OK, OK.replace("2 refused;", "2 refused, 1 of them only by a limit;")):
        passes(line, gate.all_well, [f"{line}\n"], names, 4)
    for label, lines, count, words in (
        ("bad edits", [OK.replace("refused;", "refused, 1 bad;")], 4, "bad must-fail edits"),
        ("bad edits beside a limit", [OK.replace("refused;", "refused, 1 of them only by a limit, 3 bad;")], 4, "bad must-fail edits"),
        ("fewer edits", [OK.replace("2 refused", "1 refused")], 3, "refused 1 of 2"),
        ("no edits", ["rt: ok; handles allowed: none; every proof and must-fail edit was done in this run"], 2, "has to say once"),
        ("a handle", [OK.replace("allowed: none", "allowed: Wait")], 4, "has to say once"),
        ("no such line", [], 4, "has to say once"),
        ("two such lines", [OK, OK], 4, "has to say once"),
        ("another count", [OK], 5, "rt counts 5"),
    ):
        found(f"rt with {label}", words, gate.all_well, [f"{line}\n" for line in lines], names, count)


def own_code(folder):
    """A tree of two crates, one of which is for C."""
    code = "// extern\n#[unsafe(no_mangle)]\npub extern \"C\" fn f() -> u32 {\n    0\n}\n"
    needs = {"one": ["two", "std"], "two": []}
    for name in needs:
        (folder / "crates" / name / "src").mkdir(parents=True)
        (folder / "crates" / name / "src" / "lib.rt").write_text(code)
    passes("code of our own", gate.all_own, folder, needs)
    path = folder / "crates" / "two" / "src" / "lib.rt"
    for label, old, new in (
        ("a function of C", "// extern\n", "unsafe extern \"C\" {\n    fn g() -> u32;\n}\n"),
        ("a function that is exported otherwise", "#[unsafe(no_mangle)]", "#[unsafe(export_name = \"g\")]"),
    ):
        with planted(path, old, new):
            found(label, "two: lib.rt has extern", gate.all_own, folder, needs)
    for word in ("libc", "os"):
        found(f"a crate that lists {word}", f"two: crates.txt lists {word}", gate.all_own, folder, {**needs, "two": [word]})
    (folder / "crates" / "one" / "c").mkdir()
    found("code in C", "one has a folder c/", gate.all_own, folder, needs)


LAID_OUT = "// One.\n#![tactic(auto)]\n\npub fn one() -> u32 {\n    1\n}\n"


def out_of_layout(folder):
    """A tree of one crate, whose files are laid out or not."""
    tree = folder / "tree"
    for part, name, text in (("src", "lib.rt", LAID_OUT), ("specs", "Lib.antt", "pub mod One\n"), ("specs", "One.antt", "-- One.\n")):
        (tree / "crates" / "one" / part).mkdir(parents=True, exist_ok=True)
        (tree / "crates" / "one" / part / name).write_text(text)

    def laid_out():
        with tempfile.TemporaryDirectory() as room:
            return gate.laid_out(tree, pathlib.Path(room))

    passes("a crate that is laid out", laid_out)
    for path, old, new in (("src/lib.rt", "    1\n", "  1\n"), ("src/lib.rt", "\n\npub", "\n\n\n\npub"), ("specs/Lib.antt", "pub mod", "pub  mod")):
        with planted(tree / "crates" / "one" / path, old, new):
            found(f"{path} that is not laid out", f"not in the layout of rt fmt: crates/one/{path}", laid_out)
            check((tree / "crates" / "one" / path).read_text().count(new) == 1, f"{path} stays as it is")


def main():
    for part in (logs, least_counts, verdicts, ends):
        part()
    alone = (headers, every_call, deleted_scripts, character_table, refused, edit_files, own_code, out_of_layout)
    for parts in (*((part,) for part in alone), (declared_names, architecture, promises)):
        with tempfile.TemporaryDirectory() as folder:
            for part in parts:
                part(pathlib.Path(folder))
    for failure in failures:
        print(f"FAILED {failure}")
    print(f"{checks} checks" + (f", {len(failures)} failed" if failures else ""))
    return 1 if failures else 0


if __name__ == "__main__":
    sys.exit(main())
