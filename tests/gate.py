"""The checks of the gate, one function each. Called by ./test in the repository's root; docs/ARCHITECTURE.md says what each is for.

A check returns how many things it saw pass, and raises Failed with the reason if one did not; its docstring is what
`./test --list` says of it. One that finds nothing to look at fails, and so does one that sees fewer things than
tests/least.py says: it has shown nothing. tests/run.py runs them.
"""
import ctypes
import functools
import pathlib
import re
import resource
import shlex
import shutil
import subprocess
import sys
import tempfile
import textwrap
import threading
from collections import Counter
from concurrent.futures import ThreadPoolExecutor

import characters
import declared
import edits as must_fail
import interface as c_interface
import least
import source
from interface import STRICT
from run import Failed, RtRun, demand, enough, main, run

ROOT = pathlib.Path(".")
ARCHIVE = "capi_c"  # the crate that is built into the C library: its exports call the functions of capi


def listed():
    """The lines of crates.txt: of each the name of a crate, and the libraries that it names."""
    lines = (line.split("#")[0].strip() for line in (ROOT / "crates.txt").read_text().splitlines())
    return {line.split(":")[0].split()[0]: line.partition(":")[2].split() for line in lines if line}


def crates():
    """The names of crates.txt."""
    return list(listed())


def programs():
    return [name for name in crates() if (ROOT / "crates" / name / "src" / "main.rt").exists()]


def program(name):
    """Where rt puts a program: `rt ci` does, and `rt run` in the crate's folder."""
    return f"crates/{name}/out/{name}"


def edits():
    return must_fail.labelled(ROOT)


LOG = ROOT / "target" / "test.log"


def said():
    """What the last rt ci said here."""
    demand(LOG.exists(), f"{LOG} is missing: prove_and_run leaves it")
    return LOG.read_text()


# ---- the checks

OK = re.compile(r"rt: ok; handles allowed: none; must-fail edits: (\d+) refused(?:, \d+ of them only by a limit)?(, \d+ bad)?; .*")


def all_well(lines, names, count):
    """The line `rt: ok` is there, once, and says that each edit was refused, and that none is bad; the last line counts crates and edits."""
    found = [line.strip() for line in lines if line.startswith("rt: ok")]
    demand(len(found) == 1 and OK.fullmatch(found[0]), f"rt ci has to say once that all is well, and it says {found}")
    refused, bad = OK.fullmatch(found[0]).groups()
    demand(not bad, f"rt ci met bad must-fail edits: {found[0]}")
    demand(int(refused) == len(names["must-fail"]), f"rt ci refused {refused} of {len(names['must-fail'])} must-fail edits")
    demand(count == len(names["proved"]) + int(refused), f"rt counts {count}, and there are {len(names['proved'])} crates and {refused} edits")


def prove_and_run():
    """rt ci, with no names: every crate proved and laid out, every must-fail edit refused, every program's output as stored, by both compilers."""
    strays = [str(path) for path in (ROOT / "crates").glob("*/must-fail/*") if path.suffix != ".edit"]
    demand(not strays, "rt tries no edit of this name: " + ", ".join(strays))
    there = {"proved": crates(), "must-fail": [f"{edit.parts[-3]}/{edit.stem}" for edit in edits()], "ran": programs(), "ran as Rattle builds it": programs()}
    rt = RtRun(["rt", "ci"], sum(map(len, there.values())), LOG)
    try:
        demand(rt.status == 0, f"rt ci ended with status {rt.status}; {LOG} has what it said")
        counted = re.fullmatch(r"([1-9][0-9]*) passed, 0 failed", rt.last_line())
        demand(counted, f"rt ci's last line is '{rt.last_line()}'")
        for kind, names in there.items():
            lacks, more = Counter(names) - Counter(rt.steps[kind]), Counter(rt.steps[kind]) - Counter(names)
            demand(names and not lacks and not more, f"of {len(names)} '{kind}' rt does not report {sorted(lacks)}; it reports {sorted(more)} beyond them")
        all_well(rt.lines, there, int(counted[1]))
    except Failed:
        print(rt.to_read(), end="", flush=True)
        raise
    return int(counted[1])


def refused_for_a_fact():
    """Each must-fail edit was refused because a fact fails, by what rt ci said of it, and not because a proof file lost its shape or a definition its type."""
    return must_fail.all_refused(ROOT, said())


def edits_say_where():
    """Each must-fail edit changes code or definitions, and says at which input the wrong program answers otherwise, or which row of the proved table it breaks."""
    return must_fail.all_said(ROOT)


def counts():
    """There are no fewer crates, programs, edits, rows of the proved table, theorems of the demands and of the requests, and calls than tests/least.py says."""
    there = {
        "crates": len(crates()),
        "programs": len(programs()),
        "must-fail edits": len(edits()),
        "crates with must-fail edits": len({edit.parts[-3] for edit in edits()}),
        "rows of the proved table": len(must_fail.rows((ROOT / must_fail.TABLE).read_text())),
        "theorems of the demands": declared.named_under(ROOT, "The demands"),
        "theorems of the requests": declared.named_under(ROOT, "The requests"),
        "functions of the header": len(c_interface.declarations((ROOT / "include" / "kitchen.h").read_text())),
        "scripts of the second program": len(list((ROOT / "reference").glob("*.py"))),
        "sample jobs": len(list((ROOT / "jobs").glob("*.txt"))),
    }
    print(", ".join(f"{name}: {count}" for name, count in there.items()), flush=True)
    demand(set(there) == set(least.THERE), f"tests/least.py counts {sorted(least.THERE)}")
    enough(there, least.THERE)
    return len(there)


def laid_out(root, folder):
    """How many files of Rattle there are below a root: rt fmt, on a copy in this folder, leaves each as it is. rt ci refuses others, too."""
    faults, count = [], 0
    for crate in sorted(path.parent for path in (root / "crates").glob("*/src")):
        copy = folder / crate.name
        for part in ("src", "specs", "proofs"):
            if (crate / part).is_dir():
                shutil.copytree(crate / part, copy / part)
        there = sorted(path for path in copy.rglob("*") if path.suffix in (".rt", ".antt"))
        demand(there, f"{crate.name} has no file of Rattle")
        done = subprocess.run(["rt", "fmt"], cwd=copy, stdin=subprocess.DEVNULL, capture_output=True, text=True)
        demand(done.returncode == 0, f"rt fmt in a copy of {crate.name} ended with status {done.returncode}: {(done.stdout + done.stderr).strip()[-2000:]}")
        differ = [path for path in there if path.read_bytes() != (crate / path.relative_to(copy)).read_bytes()]
        faults += [str(pathlib.Path("crates") / path.relative_to(folder)) for path in differ]
        count += len(there)
    demand(not faults, "not in the layout of rt fmt: " + ", ".join(faults))
    return count


def layout():
    """Every file of Rattle is in the layout of rt fmt: on a copy, it changes none."""
    with tempfile.TemporaryDirectory() as folder:  # rt ci refuses a file of Rattle in target/
        return laid_out(ROOT, pathlib.Path(folder))


EXPORT = re.compile(r'#\[unsafe\(no_mangle\)\]\s*pub extern "C" fn ')


def all_own(root, needs):
    """How many crates there are: none lists a library of C's functions, has code in C, or declares a function of C's; what C is given is no such function."""
    faults = []
    for name, words in needs.items():
        faults += [f"{name}: crates.txt lists {word}" for word in words if word in ("libc", "os")]
        faults += [f"{name} has a folder c/"] * (root / "crates" / name / "c").exists()
        for path in sorted((root / "crates" / name / "src").rglob("*.rt")):
            code = source.rattle(path.read_text())
            others = len(re.findall(r"\bextern\b", code)) - len(EXPORT.findall(code))
            faults += [f"{name}: {path.name} has extern where nothing is exported"] * (others > 0)
    demand(not faults, "; ".join(faults))
    return len(needs)


def no_foreign(text):
    """No verdict that rt ci printed says that a crate declares C functions. What an earlier run proved has none in this one; rt ci refuses a crate that does."""
    found = [line for line in text.splitlines() if line.startswith("logic=") and (" foreign=" in line or not line.startswith("logic=proved "))]
    demand(not found, f"a crate declares C functions, or is not proved: {found}")


def nothing_foreign():
    """No crate declares a C function of its own, lists a library of such, or has code in C."""
    no_foreign(said())
    return all_own(ROOT, listed())


def assumed(lines):
    """How many C functions a verdict assumes, and which. rt counts them if something is made to run, says so by `target=`, and lists them above."""
    verdicts = [line for line in lines if line.startswith("logic=")]
    demand(verdicts and verdicts[-1].startswith("logic=proved ") and " target=" in verdicts[-1], f"this verdict counts no C functions: {verdicts}")
    counted = re.search(r" axioms=(\d+) ", verdicts[-1])
    names = [found[1] for found in (re.fullmatch(r"  (?:\w+::)+(\w+)   reached", line) for line in lines) if found]
    demand(any(line.startswith("axioms ") for line in lines), "rt lists no C functions")
    demand(len(names) == (int(counted[1]) if counted else 0), f"rt counts {counted and counted[1]} C functions, and lists {names}")
    return sorted(names)


def checked(name):
    """What rt says of a crate that is made to run, with the C functions that it reaches, a line each."""
    done = subprocess.run(["rt", "check", "--list-axioms"], cwd=ROOT / "crates" / name, stdin=subprocess.DEVNULL, capture_output=True, text=True)
    demand(done.returncode == 0, f"rt check of {name} ended with status {done.returncode}: {(done.stdout + done.stderr).strip()[-2000:]}")
    return done.stdout.splitlines()


def stated_assumptions(readme):
    """What README.md says of programs and the C library: of each the count `axioms=N`, and the names in parentheses."""
    rows = re.findall(r"^\| `(\w+)`[^\n]*`axioms=(\d+)` \(([^()]*)\) \|$", readme, re.M)
    return {name: (int(count), sorted(set(re.findall(r"\w+", names)) - {"none"})) for name, count, names in rows}


def assumptions_as_stated():
    """Each program, and the C library, assumes just the C functions that README.md says, in a row with its name, `axioms=N` and their names; the library none."""
    found = {"libkitchen": assumed(checked(ARCHIVE)), **{name: assumed(checked(name)) for name in programs()}}
    stated = stated_assumptions((ROOT / "README.md").read_text())
    counted = {name: (len(names), names) for name, names in found.items()}
    demand(stated == counted, f"README.md states {stated}, the check finds {counted}")
    demand(not found["libkitchen"], "the C library assumes C functions")
    return len(counted)


def trace():
    """Every name in docs/TRACE.md is declared in crates/ or is a file of the repository, and every must-fail edit is in docs/TRACE.md."""
    return declared.traced(ROOT)


def promises():
    """The theorems of the demands and of the requests in docs/TRACE.md are those that their files declare, and Promises.antt, which the checker reads, imports each."""
    return declared.promised(ROOT)


def documents():
    """docs/ARCHITECTURE.md has the graph of crates.txt as a picture, a table or a row for every crate, names that it declares, and a row for every check; and every relative link of the documents leads to a file."""
    text = (ROOT / "docs" / "ARCHITECTURE.md").read_text()
    absent = [name for name in crates() if (f"\n| `{name}` | " if name.startswith("show_") else f"\n### `{name}`\n") not in text]
    absent += [name for name in least.CHECKS if f"\n| `{name}` | " not in text]
    demand(not absent, f"docs/ARCHITECTURE.md lacks {', '.join(absent)}")
    seen = len(crates()) + len(least.CHECKS) + declared.drawn(ROOT) + declared.described(ROOT)
    links = 0
    for page in [ROOT / "README.md", *sorted((ROOT / "docs").rglob("*.md"))]:
        for target in re.findall(r"\]\(([^)#\s]+)[^)]*\)", page.read_text()):
            demand("://" in target or (page.parent / target).exists(), f"{page}: no file {target}")
            links += 1
    demand(links, "the documents have no link")
    return seen + links


def unicode_table():
    """Every entry of the table of crates/unicode_forms, in the code and in the definitions, is as in Python's unicodedata, and in UnicodeData.txt if that is installed; no character below it has a mapping or a class, and none leads out of what is covered."""
    return characters.compared(ROOT)


def scripts(root, programs):
    """The scripts that print what a program has to print, by the program. Each program has one, and what they share is there."""
    script_of = {name: name.removeprefix("show_") for name in programs}
    wanted = {*script_of.values(), "beside", "drawn", "layers", "library", "long", "names", "reader", "rules"}
    found = {path.stem for path in (root / "reference").glob("*.py")}
    demand(found == wanted, f"reference/ lacks {sorted(wanted - found)}, and has {sorted(found - wanted)} beyond what is known")
    return {name: root / "reference" / f"{stem}.py" for name, stem in script_of.items() if stem != name}


def second_program():
    """What reference/ says that a program prints is what the program, just built, prints; no script is missing there."""
    compared = 0
    for name, script in scripts(ROOT, programs()).items():  # kitchen_prints and beside run the others
        expected = run([sys.executable, "-B", str(script)])
        printed = run([program(name)])
        ours, theirs = printed.splitlines(), expected.splitlines()
        demand(theirs, f"{script} prints nothing")
        for number, (a, b) in enumerate(zip(ours, theirs), 1):
            demand(a == b, f"line {number}: {name} prints '{a}', {script} '{b}'")
        demand(printed == expected, f"{name} prints {len(ours)} lines, {script} {len(theirs)}")
        compared += len(theirs)
    demand(compared, "reference/ has no program")
    return compared


def counts_in(printed):
    """The counts in lines of `what: count, ..`."""
    return {name.strip(): int(count) for name, count in re.findall(r"([a-z0-9_ ]+): (\d+)", printed)}


def counted(printed, wanted):
    """The counts in what was printed, which is printed here; of all that is wanted there are as many as tests/least.py says."""
    print(printed.strip(), flush=True)
    enough(counts_in(printed), wanted)
    return counts_in(printed)


def kitchen_prints():
    """What kitchen prints of many files, good, damaged and cut, is what reference/kitchen.py says; every outcome is among them."""
    return sum(counted(run([sys.executable, "-B", "reference/kitchen.py", program("kitchen")]), least.KITCHEN_PRINTS).values())


BUILDING = threading.Lock()


@functools.cache
def built():
    run(["tools/library"])
    return "target/lib/libkitchen.a", "target/lib/libkitchen.so"


def built_library():
    """The archive of the C interface and the shared library, as tools/library builds them, once."""
    with BUILDING:
        return built()


def fed(command, file, status=0):
    """What a command prints that has this file on its standard input."""
    return run(["sh", "-c", 'exec "$@" <"$0"', str(file), *command], status)


def sample(name):
    """The job file of a sample text."""
    path = f"target/{name}.job"
    run(["tools/job", "write", f"jobs/{name}.txt", "-o", path])
    return path


def made(name, file):
    """A job file of these bytes."""
    path = f"target/{name}.job"
    (ROOT / path).write_bytes(file)
    return path


def interface():
    """The header's text, and the number of the interface that it states."""
    text = (ROOT / "include" / "kitchen.h").read_text()
    stated = re.findall(r"^#define KITCHEN_VERSION ([1-9][0-9]*)$", text, re.M)
    demand(len(stated) == 1, f"the header states the versions {stated}")
    return text, stated[0]


def one_number(stated, capi, shared):
    """The header, the constant of capi and the function that was built have one number of the interface."""
    constant = re.findall(r"^const VERSION: u32 = ([0-9]+);$", capi, re.M)
    returned = str(ctypes.CDLL(shared).kitchen_version())
    demand(constant == [stated] and returned == stated, f"the number is {stated} in the header, {constant} in capi, and {returned} when it is called")


def one_set_of_names(functions, shared):
    """The shared library has the functions of the header and no others to be seen."""
    exported = re.findall(r" T (\w+)$", run(["nm", "-D", "--defined-only", shared]), re.M)
    demand(sorted(functions) == sorted(exported), f"the header declares {functions}, the shared library has {exported}")


def named_numbers(text, shared):
    """The reasons of the header go from 0 to 18, and its limits are those of the rules and of the library."""
    reasons, limits = (dict(re.findall(r"^    KITCHEN_(\w+) = (\d+)", block, re.M)) for block in re.findall(r"^enum \{\n(.*?)^\};", text, re.M | re.S))
    demand(list(map(int, reasons.values())) == list(range(19)), f"the header's reasons are {reasons}")
    limits = {name: int(value) for name, value in limits.items()}
    name_field, price = 1 + limits["NAME_BYTES"], 4
    longest = (11 + limits["ARTICLES"] * (1 + 2 * 8 + name_field + price), 12 + limits["STEPS"] * (1 + 3 * 4 + name_field))
    demand((limits["LONGEST_CHOICE"], limits["LONGEST_FITTING"], limits["LONGEST"]) == (*longest, max(longest)), f"the longest files have {longest} bytes")
    library, out = ctypes.CDLL(shared), (ctypes.c_uint64 * 2)()
    for kind, place, limit in ((67, 1, "ARTICLES"), (67, 2, "WISHES"), (70, 1, "STEPS"), (70, 2, "FACTS"), (70, 3, "ROUNDS")):
        for count in (limits[limit], limits[limit] + 1):
            file = bytes([kind, 0, 0, 0][:place] + [count])
            refused = library.kitchen_find(file, ctypes.c_size_t(len(file)), None, ctypes.c_size_t(0), out), out[0]
            demand(refused == ((2, len(file)) if count == limits[limit] else (3, place)), f"{limit} {count}: refused {refused}")
    nothing, three = bytes([67, *[0] * 10]), (ctypes.c_uint64 * 3)()
    for rate, reason in ((limits["RATE"], 0), (limits["RATE"] + 1, 17)):
        refused = library.kitchen_price(nothing, ctypes.c_size_t(len(nothing)), ctypes.c_uint64(rate), three)
        demand(refused == reason, f"RATE {rate}: refused {refused}")
    orders, lent = (ctypes.c_uint64 * 2)(), (ctypes.c_uint64 * (2 * limits["ENTRY_WORDS"]))()
    for words, reason in ((len(lent), 0), (len(lent) - 1, 10)):
        refused = library.kitchen_fair(nothing, ctypes.c_size_t(len(nothing)), orders, ctypes.c_size_t(2), lent, ctypes.c_size_t(words), out)
        demand(refused == reason, f"ENTRY_WORDS, {words} for two orders: refused {refused}")
    return len(reasons) + len(limits)


def header():
    """include/kitchen.h declares the functions that capi_c exports, which are those of capi, with their types and no others, has its number, its reasons and its limits, and is plain C; the two programs in it run, and its lines that price, that answer a fair and that save do."""
    text, number = interface()
    capi, exports = ((ROOT / "crates" / name / "src" / "lib.rt").read_text() for name in ("capi", ARCHIVE))
    functions = list(c_interface.declarations(text))
    c_interface.same_functions(capi, exports)
    c_interface.same_prototypes(text, exports)
    c_interface.compiled(exports, ROOT / "target")
    archive, shared = built_library()
    one_set_of_names(functions, shared)
    one_number(number, capi, shared)
    named = named_numbers(text, shared)
    run(["cc", "-std=c99", *STRICT, "-fsyntax-only", "-x", "c", "include/kitchen.h"])
    in_c, in_python, prices, fair, saves = shown(text)
    (ROOT / "target" / "first.c").write_text(in_c)
    (ROOT / "target" / "first.py").write_text(in_python)
    run(["cc", "-std=c99", *STRICT, "target/first.c", archive, "-o", "target/first"])
    first_program(["target/first"])
    first_program([sys.executable, "-B", "target/first.py"])
    pricing_lines(prices, archive)
    fair_lines(fair, archive)
    saving_lines(saves, archive)
    return len(functions) + named + 5


def every_call():
    """tests/every_call.c calls every function of the header on the examples of the rules; answers and buffers are as known."""
    archive, _ = built_library()
    run(["cc", "-std=c99", *STRICT, "tests/every_call.c", archive, "-o", "target/every_call"])
    counts = counted(run(["target/every_call"]), least.EVERY_CALL)
    functions = c_interface.declarations((ROOT / "include" / "kitchen.h").read_text())
    demand(sorted(counts) == sorted(functions), f"the header declares {sorted(functions)}, and {sorted(counts)} are called")
    return sum(counts.values())


def shown(text):
    """The programs in C and in Python in the header's comment, after the command that builds the library; and last the lines in C that price, those that answer a fair, and those that save."""
    blocks = [re.sub(r"^ \*     ", "", block, flags=re.M) for block in re.findall(r"(?:^ \*     .*\n)+", text, re.M)]
    calls = ("kitchen_choose", "kitchen_choose", "kitchen_price", "kitchen_fair", "kitchen_save_order")
    found = len(blocks) == 6 and blocks[0] == "tools/library\n" and all(call in block for call, block in zip(calls, blocks[1:]))
    demand(found, "the header shows how to build, a program in C, one in Python, how to price, how to answer a fair and how to save")
    return blocks[1:]


SAVES = """#include "kitchen.h"
#include <stdio.h>
int main(void)
{
    uint8_t file[KITCHEN_LONGEST + 1];
    uint64_t out[2], order = 1;
    size_t len = fread(file, 1, sizeof file, stdin);
    FILE *saved = stdout;
%s    return 0;
}
"""


PRICES = """#include "kitchen.h"
#include <inttypes.h>
#include <stdio.h>
int main(void)
{
    uint8_t file[KITCHEN_LONGEST + 1];
    uint64_t rate = 1900;
    size_t len = fread(file, 1, sizeof file, stdin);
%s    return 0;
}
"""


FAIR = """#include "kitchen.h"
#include <inttypes.h>
#include <stdio.h>
int main(void)
{
    uint8_t file[KITCHEN_LONGEST + 1];
    uint64_t out[2];
    size_t len = fread(file, 1, sizeof file, stdin);
%s    return 0;
}
"""


def pricing_lines(lines, archive):
    """The header's lines that price, in a program around them, tell the total and the tax of the sample with prices."""
    (ROOT / "target" / "prices.c").write_text(PRICES % textwrap.indent(lines, "    "))
    run(["cc", "-std=c99", *STRICT, "target/prices.c", archive, "-o", "target/prices"])
    printed = fed(["target/prices"], sample("prices"))
    demand(printed == "164450 and 31246\n", f"the header's lines that price print {printed}")


def fair_lines(lines, archive):
    """The header's lines that answer a fair, in a program around them, tell of A a selection, and an order with a wish that it lacks."""
    (ROOT / "target" / "fair.c").write_text(FAIR % textwrap.indent(lines, "    "))
    run(["cc", "-std=c99", *STRICT, "target/fair.c", archive, "-o", "target/fair"])
    printed = fed(["target/fair"], sample("A"))
    demand(printed == "status 0, selection 4\nstatus 18, selection 0\n", f"the header's lines that answer a fair print {printed}")


def saving_lines(lines, archive):
    """The header's lines that save, in a program around them, save A with the order {0}."""
    (ROOT / "target" / "saves.c").write_text(SAVES % textwrap.indent(lines, "    "))
    run(["cc", "-std=c99", *STRICT, "target/saves.c", archive, "-o", "target/saves"])
    a = (ROOT / sample("A")).read_bytes()
    with open(ROOT / sample("A"), "rb") as file:
        saved = subprocess.run([str(ROOT / "target" / "saves")], stdin=file, capture_output=True, timeout=60)
    demand(saved.stdout == a[:3] + b"\1" + a[4:], f"the header's lines that save give {saved.stdout.hex()}")


def first_program(command):
    """A first program of the header tells an answer, an answer that there is none, and a refusal."""
    expected = {sample("A"): (0, "article 2\n"), sample("impossible"): (3, "no such kitchen\n"), made("empty", b""): (1, "refused 1 at 0\n")}
    for file, (status, text) in expected.items():
        printed = fed(command, file, status)
        demand(printed == text, f"{command[-1]} of the header prints of {file}: {printed}")


def example(command):
    """An example prints what is stored of the sample jobs, and its status tells refused from none from fine."""
    files = [sample(text.stem) for text in sorted((ROOT / "jobs").glob("*.txt"))]
    demand({"target/A.job", "target/F.job"} <= set(files), "jobs/ lacks the samples A and F")
    a, f = ((ROOT / "target" / name).read_bytes() for name in ("A.job", "F.job"))
    short, too_long = made("short", f[:3] + b"\1" + f[4:]), made("too_long", a + bytes(5000))
    fine = "chosen: number 2;\nset aside:\n"
    tries = [
        (files, 3, (ROOT / "host" / "stdout").read_text()),  # one of the samples has no selection
        (["target/A.job"], 0, fine),
        ([short, "target/A.job"], 3, "no such plan\n" + fine),
        ([too_long, short], 1, f"refused 8 at {len(a)}\nno such plan\n"),
        (["target/absent.job", "target/A.job"], 1, fine),
    ]
    for given, status, expected in tries:
        printed = run([*command, *given], status)
        demand(printed == expected, f"{command[-1]} prints something else of {given}: {printed}")
    return len(files) + len(tries) - 1


def hosts():
    """The C example and the Python example print what is stored of the sample jobs, and end with the status that fits."""
    archive, _ = built_library()
    run(["cc", "-std=c99", *STRICT, "host/example.c", archive, "-o", "target/example"])
    commands = (["target/example"], [sys.executable, "-B", "host/example.py"])
    for command in commands:
        run(command, status=2)
    return sum(map(example, commands))


def as_cpp():
    """The header and the C example are C++, too, and what comes of that prints the same."""
    archive, _ = built_library()
    run(["c++", "-std=c++11", *STRICT, "-fsyntax-only", "-x", "c++", "include/kitchen.h"])
    run(["c++", "-std=c++11", *STRICT, "-x", "c++", "host/example.c", "-x", "none", archive, "-o", "target/example_cpp"])
    return 1 + example(["target/example_cpp"])


def rust():
    """The Rust example is built without packages and prints the same."""
    folder = pathlib.Path(built_library()[0]).parent
    run(["rustc", "--edition", "2021", "-D", "warnings", "-L", f"native={folder}", "-l", "static=kitchen", "host/example.rs", "-o", "target/example_rs"])
    run(["target/example_rs"], status=2)
    return example(["target/example_rs"])


def to_install():
    shared = f"lib/libkitchen.so.{interface()[1]}"
    return ["bin/kitchen", "include/kitchen.h", "lib/libkitchen.a", "lib/libkitchen.so", shared, "lib/pkgconfig/kitchen.pc"]


def files_in(folder):
    return sorted(str(path.relative_to(folder)) for path in folder.rglob("*") if path.is_symlink() or not path.is_dir())


def flags(folder):
    """What the compiler is told of an installed library: by pkg-config, if that is there."""
    if not shutil.which("pkg-config"):
        return [f"-I{folder}/include", f"-L{folder}/lib", "-lkitchen"]
    # the folder where it is staged, in place of the one that it is made for
    asked = ["env", f"PKG_CONFIG_PATH={folder}/lib/pkgconfig", "pkg-config", f"--define-variable=prefix={folder}", "--cflags", "--libs", "kitchen"]
    return shlex.split(run(asked))


def programs_of(folder):
    """The first programs of the installed header, in C and in Python, which know nothing but what was installed."""
    source, program = "target/first_installed.c", "target/first_installed"
    (ROOT / source).write_text(shown((folder / "include" / "kitchen.h").read_text())[0])
    run(["cc", "-std=c99", source, *flags(folder), "-o", program])
    first_program(["env", f"LD_LIBRARY_PATH={folder}/lib", program])
    in_python = shown((folder / "include" / "kitchen.h").read_text())[1]
    demand(in_python.count("target/lib/libkitchen.so") == 1, "the Python program of the header loads something else")
    script = "target/first_installed.py"
    (ROOT / script).write_text(in_python.replace("target/lib/libkitchen.so", str(folder / "lib" / "libkitchen.so")))
    first_program([sys.executable, "-B", script])


def installed():
    """make install, with blanks in both folders, serves a C and a Python program that know nothing else; make uninstall leaves no file."""
    built_library()
    stage, prefix = ROOT.resolve() / "target" / "a stage", "/opt/a kitchen"
    shutil.rmtree(stage, ignore_errors=True)
    where, folder = [f"DESTDIR={stage}", f"PREFIX={prefix}"], pathlib.Path(f"{stage}{prefix}")
    run(["make", "install", *where])
    demand(files_in(stage) == [f"{prefix[1:]}/{name}" for name in to_install()], f"make install made {files_in(stage)}")
    demand(f"prefix={prefix}\n" in (folder / "lib" / "pkgconfig" / "kitchen.pc").read_text(), "kitchen.pc has another prefix")
    answers_f(folder / "bin" / "kitchen")
    programs_of(folder)
    run(["make", "uninstall", *where])
    demand(not files_in(stage), f"make uninstall leaves {files_in(stage)}")
    return len(to_install())


def answers_f(kitchen):
    """The program answers the fitting file F of the rules as they say."""
    rules = (ROOT / "docs" / "RULES.md").read_text()
    file = bytes.fromhex(re.search(r"^F in hexadecimal: ([0-9A-F ]+)\.$", rules, re.M)[1])
    expected = re.search(r"gives exactly:\n\n```\n(.*?)```", rules, re.S)[1]
    printed = fed([str(kitchen)], made("F_of_the_rules", file))
    demand(printed == expected, f"{kitchen} prints of F: {printed}")


def packed(tarball):
    """The bytes of the tarball that make dist makes."""
    run(["make", "dist"])
    return (ROOT / tarball).read_bytes()


def unpacked(tarball):
    """The only folder of a tarball; every file in it has its sum, and the sums hold."""
    place = ROOT / "target" / "unpacked"
    shutil.rmtree(place, ignore_errors=True)
    place.mkdir()
    run(["tar", "-C", str(place), "-xzf", tarball])
    (folder,) = place.iterdir()
    run(["sh", "-c", 'cd "$0" && sha256sum -c --strict --quiet SHA256SUMS', str(folder)])
    summed = sorted(line.split("  ./")[1] for line in (folder / "SHA256SUMS").read_text().splitlines())
    demand(summed == [name for name in files_in(folder) if name != "SHA256SUMS"], f"SHA256SUMS has {summed}")
    return folder


def dist():
    """make dist gives the same bytes twice; unpacked, its sums hold, its program answers F, its tool changes A and answers the sample of a fair, and the C example is built against its library."""
    built_library()
    tarball = f"target/dist/kitchen-{interface()[1]}.tar.gz"
    demand(packed(tarball) == packed(tarball), "make dist made two different tarballs")
    folder = unpacked(tarball)
    links = re.findall(r"\]\(([^)#\s:]+)\)", (ROOT / "README.md").read_text())
    wanted = {*to_install(), *links, "KIT", "README.md", "host/example.c", "jobs/A.txt", "show", "tools/job"}
    demand(wanted <= set(files_in(folder)), f"the tarball lacks {wanted - set(files_in(folder))}")
    answers_f(folder / "bin" / "kitchen")
    run(["cc", "-std=c99", f"-I{folder}/include", f"{folder}/host/example.c", f"{folder}/lib/libkitchen.a", "-o", "target/example_unpacked"])
    shown = run([f"{folder}/show", f"{folder}/jobs/A.txt"])
    demand(shown.startswith("A kitchen of 1 article "), f"./show of the tarball tells of A: {shown}")
    told = run([f"{folder}/tools/job", "ask", "--next", "2", f"{folder}/jobs/A.txt"])
    demand("Further kitchen 2" in told, f"tools/job of the tarball tells of A: {told}")
    run([f"{folder}/tools/job", "write", f"{folder}/jobs/A.txt", "-o", "target/A.job"])
    run([f"{folder}/tools/job", "change", "target/A.job", "order", "#1", "-o", "target/A_changed.job"])
    shown = run([f"{folder}/tools/job", "show", "target/A_changed.job"])
    demand("The order has the wish 1." in shown, f"tools/job of the tarball changed A to: {shown}")
    told = run([f"{folder}/tools/job", "fair", f"{folder}/jobs/kitchen.txt", f"{folder}/jobs/fair.orders"], status=3)  # one order has no kitchen
    demand("6 orders; with a kitchen: 4; no such kitchen: 1; " in told, f"tools/job of the tarball tells of a fair: {told}")
    return len(wanted) + 4 + example(["target/example_unpacked"])


def beside():
    """The second program beside ours through the C interface, in three minutes of processor time: every sort of comparison, as often as tests/least.py says."""
    limited = ["sh", "-c", 'ulimit -S -t 180 && exec "$@"', "sh"]  # a command that takes longer is ended by SIGXCPU
    return counted(run([*limited, sys.executable, "-B", "reference/beside.py", built_library()[1]]), least.BESIDE)["comparisons"]


def faults():
    """Each mistake that the second program makes on purpose is found."""
    planted = range(1, 34)
    for fault in planted:
        printed = run([sys.executable, "-B", "reference/beside.py", built_library()[1], "--fault", str(fault)], status=1)
        demand(re.search(r"^the second program .*; after \d+ comparisons: ", printed), f"fault {fault}: {printed}")
        print(f"fault {fault}: {printed[:printed.index(': ')]}", flush=True)
    return len(planted)


def checks_of(script, parts=None):
    """How many checks a script of tests/ made; all but its last line is printed, and has the parts that are wanted."""
    said, _, last = run([sys.executable, "-B", f"tests/{script}.py"]).rstrip().rpartition("\n")
    if said:
        print(said, flush=True)
    if parts:
        enough(counts_in(said), parts)
    return int(re.fullmatch(r"(\d+) checks", last)[1])


def tool():
    """tests/tool.py: job texts are written and read, faults are named by line, what cannot be an answer is not taken for one."""
    return checks_of("tool")


def first_command():
    """The README's first command, run as it is written there, tells a kitchen and a plan."""
    command = re.search(r"^```\n(.*)\n```$", (ROOT / "README.md").read_text(), re.M)[1]
    printed = run(["sh", "-c", command])
    told = [line for line in ("A kitchen of 7 articles ", "A plan of 8 rounds; ") if f"\n{line}" in printed]
    demand(len(told) == 2, f"{command}: {printed}")
    return len(told)


def showroom():
    """tests/showroom.py: what tools/job and host/kitchen.py answer, beside the second program, brute force and lying stand-ins."""
    built_library()
    return checks_of("showroom", least.SHOWROOM)


def showroom_faults():
    """Each mistake that tests/showroom.py plants in the tool on purpose is found."""
    built_library()
    table = (ROOT / "tests" / "showroom.py").read_text().partition("\nFAULTS = {\n")[2].partition("\n}")[0]
    planted = re.findall(r"^    (\d+): ", table, re.M)
    found = lambda fault: run([sys.executable, "-B", "tests/showroom.py", "--fault", fault], status=1)
    with ThreadPoolExecutor(2) as pool:
        for fault, printed in zip(planted, pool.map(found, planted)):
            print(f"fault {fault}: {printed.splitlines()[0]}", flush=True)
    return len(planted)


def page():
    """tests/page.py: pages are well formed, load nothing, and say what advise says."""
    return checks_of("page")


def small_stack():
    """The planner's program prints the same within a stack of 1 MB: its recursion is not deep."""
    name = "show_plans"
    limit = lambda: resource.setrlimit(resource.RLIMIT_STACK, (2**20, 2**20))
    run = subprocess.run([program(name)], stdin=subprocess.DEVNULL, capture_output=True, text=True, preexec_fn=limit)
    demand(run.returncode == 0, f"{name} ended with status {run.returncode} within a stack of 1 MB")
    demand(run.stdout == (ROOT / "crates" / name / "stdout").read_text(), f"{name} prints something else within a stack of 1 MB")
    return len(run.stdout.splitlines())


def foolings():
    """tests/foolings.py: each way to fool the gate that was found is planted, and the gate finds it."""
    built_library()
    return checks_of("foolings")


def runner():
    """tests/runner.py: ./test and ./bench touch nothing if they are asked wrongly or for help, and what fails is counted."""
    return checks_of("runner")


CHECKS = [
    *(prove_and_run, refused_for_a_fact, edits_say_where, counts, layout, nothing_foreign, assumptions_as_stated, trace, promises, documents),
    *(unicode_table, second_program, kitchen_prints, small_stack, header, every_call, hosts, beside, faults, tool, first_command),
    *(showroom, showroom_faults, page, runner, foolings),
]
# Scripts that write nothing, in target/ neither: two of them are run at a time, after the others, the longest first.
TOGETHER = (beside, showroom, tool, page, faults, foolings, kitchen_prints, runner)
# Pairs of a check and a further tool that it needs. They are run if the tool is there, and counted apart.
EXTRA = [(as_cpp, "c++"), (rust, "rustc"), (installed, "make"), (dist, "make")]

if __name__ == "__main__":
    sys.exit(main(CHECKS, EXTRA, each=prove_and_run, least=least.CHECKS, together=TOGETHER))
