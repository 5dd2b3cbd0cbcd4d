"""How the checks of tests/gate.py are run: the arguments of ./test, the progress of rt, the summary.

A check is a function whose docstring says in one sentence what it sees. It returns how many things it saw pass,
and raises Failed with the reason if one did not. A check that breaks, or saw nothing, or saw fewer things than
tests/least.py says, has not passed.
"""
import argparse
import dataclasses
import hashlib
import os
import pathlib
import re
import shutil
import subprocess
import time
from concurrent.futures import ThreadPoolExecutor

ROOT = pathlib.Path(".")
NEEDED = ("rt", "cc")


class Failed(Exception):
    pass


def demand(condition, reason):
    if not condition:
        raise Failed(reason)


def enough(seen, least):
    """Of each thing that has a least count, at least that many were seen."""
    few = [f"{name}: {seen.get(name, 0)} and not {count}" for name, count in least.items() if seen.get(name, 0) < count]
    demand(least and not few, "fewer than tests/least.py says; " + ", ".join(few))


def run(command, status=0):
    """What a command prints; it has to end with this status."""
    done = subprocess.run(command, stdin=subprocess.DEVNULL, capture_output=True, text=True)
    demand(done.returncode == status, f"{' '.join(command)} ended with status {done.returncode}: {(done.stdout + done.stderr).strip()[-2000:]}")
    return done.stdout


# ---- a run of rt

# What rt says of a step that ended as it should: the group is its name. A crate is proved in this run or in an earlier one on this machine; a
# program is run as each of two compilers builds it.
STEPS = {
    "proved": re.compile(r"rt: (\S+) (?:proved|is kept: an earlier run on this machine proved the same files over the same libraries)"),
    "must-fail": re.compile(r"rt: must-fail (\S+)\.edit: refused, as it must be.*"),
    "ran": re.compile(r"rt: (\S+) ran, and wrote what its file stdout has"),
    "ran as Rattle builds it": re.compile(r"rt: (\S+) ran \(built by Rattle's own compiler\), and wrote what its file stdout has"),
}
# What rt says when it begins what takes long.
BEGUN = re.compile(r"rt: \S+: trying its must-fail edits \(\d+\)")
TROUBLE = re.compile(r"error|failed|differ|warning|NOT PROVED|NOT REFUSED|NOT TRIED|BAD EDIT", re.I)


class RtRun:
    """A run of rt: its lines, the names of the steps that ended as they should, by kind, and its status."""

    def __init__(self, command, total, log):
        """Runs it. Its lines go to the log; a step that ended, or came to trouble, is one line here."""
        self.lines, self.steps, self.total = [], {kind: [] for kind in STEPS}, total
        self.began = time.monotonic()
        log.parent.mkdir(exist_ok=True)
        with log.open("w", encoding="utf-8") as kept:
            process = subprocess.Popen(
                command, stdin=subprocess.DEVNULL, stdout=subprocess.PIPE, stderr=subprocess.STDOUT, encoding="utf-8", errors="replace"
            )
            for line in process.stdout:
                kept.write(line)
                kept.flush()
                self.lines.append(line)
                self.tell(line)
        self.status = process.wait()

    def tell(self, line):
        step = ended_well(line)
        if step:
            self.steps[step[0]].append(step[1])
            ended = sum(map(len, self.steps.values()))
            print(f"[{ended}/{self.total}] {time.monotonic() - self.began:.0f} s  {' '.join(step)}", flush=True)
        elif BEGUN.fullmatch(line.strip()) or line.startswith("rt: ") and TROUBLE.search(line):
            print(line.rstrip(), flush=True)

    def last_line(self):
        return next((line.strip() for line in reversed(self.lines) if line.strip()), "")

    def to_read(self, last=200):
        """What to read if it failed: the last lines, and all before them that speak of trouble."""
        return "".join([line for line in self.lines[:-last] if TROUBLE.search(line) and not ended_well(line)] + self.lines[-last:])


def ended_well(line):
    """The kind and the name of the step that this line of rt says ended as it should, if it says so."""
    found = ((kind, pattern.fullmatch(line.strip())) for kind, pattern in STEPS.items())
    return next(((kind, step[1]) for kind, step in found if step), None)


# ---- a run of checks


def snapshot():
    """What is in the tree beside target/, .git/ and what rt makes, each crate's out/."""
    seen = {}
    for base, folders, names in os.walk(ROOT):
        is_crate = os.path.dirname(base) == "./crates"
        folders[:] = [f for f in folders if os.path.join(base, f) not in ("./target", "./.git") and not (is_crate and f == "out")]
        for name in names:
            path = os.path.join(base, name)
            seen[path] = hashlib.sha256(open(path, "rb").read()).hexdigest()
    return seen


@dataclasses.dataclass
class Result:
    name: str
    least: int = 0
    seen: int = 0
    seconds: float = 0.0
    fault: str = ""  # why it failed
    lacks: str = ""  # why it was not tried

    def row(self):
        saw = "FAILED" if self.fault else "not tried" if self.lacks else self.seen
        reason = (self.fault or self.lacks).partition("\n")[0][:120]
        return f"{self.name:24}{saw:>10}{self.least:>10}{self.seconds:10.1f}  {reason}".rstrip()


def tried(check, least):
    """Runs a check, and says at once what came of it. It has to see as many things as `least` says of it, and one at least."""
    result, began = Result(check.__name__, least.get(check.__name__, 0)), time.monotonic()
    try:
        result.seen = check()
        demand(isinstance(result.seen, int) and result.seen > 0, "it looked at nothing")
        demand(result.name in least, "tests/least.py does not say how many things it has to see")
        enough({"it saw": result.seen}, {"it saw": result.least})
    except Failed as reason:
        result.fault = str(reason) or "it gives no reason"
    except (Exception, SystemExit) as trouble:  # a check that breaks has not passed
        result.fault = f"{type(trouble).__name__}: {trouble}"
    result.seconds = time.monotonic() - began
    print(f"FAILED {result.name}: {result.fault}" if result.fault else f"ok {result.name}: {result.seen} ({result.seconds:.1f} s)", flush=True)
    return result


def tried_with(tool, check, named, least):
    """Runs a check that needs a further tool. Without the tool it is not tried, which is a failure if it was named."""
    if shutil.which(tool):
        return tried(check, least)
    print(f"not tried {check.__name__}: {tool} is missing", flush=True)
    return Result(check.__name__, **{"fault" if named else "lacks": f"{tool} is missing"})


def sentence(check):
    return " ".join((check.__doc__ or "").split())


def listed(checks, extra):
    for check in checks:
        print(f"{check.__name__:24}{sentence(check)}")
    for check, tool in extra:
        print(f"{check.__name__:24}{sentence(check)} (needs {tool})")


def arguments(names):
    parser = argparse.ArgumentParser(
        prog="./test",
        allow_abbrev=False,
        formatter_class=argparse.RawDescriptionHelpFormatter,
        description="Runs the checks of tests/gate.py. Status 0: none failed; 1: some did; 2: bad usage, and nothing was done.\n"
        "Without arguments it runs all: first rt ci, which proves from nothing what no run of it on this machine has passed as it is.\n"
        "The last line is 'N passed, M failed'.",
        epilog="A check that is named looks at what is built: programs in the folders out/ of their crates, the library in target/.\n"
        "docs/CHANGING.md says which check looks at what, and what builds that.",
    )
    parser.add_argument("check", nargs="*", metavar="CHECK", help="run these checks alone")
    parser.add_argument("--list", action="store_true", help="list the checks, each with what it sees, and run none")
    given = parser.parse_args()
    unknown = [name for name in given.check if name not in names]
    if unknown:
        parser.error(f"no such check: {', '.join(unknown)} ('./test --list' has their names)")
    return given


def further(results):
    """The line on the checks that need further tools."""
    passed = [result.name for result in results if not result.fault and not result.lacks]
    failed = [result.name for result in results if result.fault]
    untried = [f"{result.name}: {result.lacks}" for result in results if result.lacks]
    counts = [("passed", passed), *([("failed", failed)] if failed else []), ("not tried", untried)]
    return "with further tools: " + ", ".join(f"{len(names)} {what}" + (f" ({', '.join(names)})" if names else "") for what, names in counts)


def main(checks, extra, each, least, together=()):
    """Runs what the arguments ask for: in turn, and then the checks of `together` two at a time. Of the check `each` every
    thing that it saw counts, of the others the check. A check that `least` names and that is not there is a failure."""
    before = {}

    def leaves_the_tree_clean():
        """A run of the checks writes nothing beside target/ and what rt makes, each crate's out/."""
        after = snapshot()
        changed = sorted(path for path in before.keys() | after.keys() if before.get(path) != after.get(path))
        demand(not changed, "the gate changed " + ", ".join(changed))
        return len(before)

    everything = [*checks, *(check for check, _ in extra), leaves_the_tree_clean]
    given = arguments([check.__name__ for check in everything])
    wanted = lambda check: not given.check or check.__name__ in given.check
    if given.list:
        listed(filter(wanted, [*checks, leaves_the_tree_clean]), [pair for pair in extra if wanted(pair[0])])
        return 0
    missing = [tool for tool in NEEDED if not shutil.which(tool)]
    if missing:
        print(f"test: missing: {', '.join(missing)}\n0 passed, {len(missing)} failed")
        return 1

    absent = sorted(set(least) - {check.__name__ for check in everything})
    before.update(snapshot())
    results = [tried(check, least) for check in checks if wanted(check) and check not in together]
    with ThreadPoolExecutor(2) as pool:
        results += pool.map(lambda check: tried(check, least), filter(wanted, together))
    with_tools = [tried_with(tool, check, bool(given.check), least) for check, tool in extra if wanted(check)]
    last = [tried(leaves_the_tree_clean, least)] if wanted(leaves_the_tree_clean) else []
    last += [Result(name, least[name], fault="there is no such check, and tests/least.py names it") for name in absent]

    print(f"\n{'check':24}{'saw':>10}{'least':>10}{'seconds':>10}")
    for result in results + with_tools + last:
        print(result.row())
    if with_tools:
        print(further(with_tools))
    passed = sum(result.seen if result.name == each.__name__ else 1 for result in results + last if not result.fault)
    failed = sum(1 for result in results + with_tools + last if result.fault)
    print(f"{passed} passed, {failed} failed")
    return 1 if failed else 0
