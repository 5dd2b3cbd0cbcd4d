"""Tests of ./test and ./bench. Called as `python3 -B tests/runner.py` in the repository's root.

They run in a temporary copy without target/, where rt, cc, rustc and apt-get are stand-ins that write down each call, and rt the folder of it.
The last line is `N checks`, and the status 0; or what failed is printed, and the status is 1.
"""
import pathlib
import shutil
import subprocess
import sys
import tempfile

import gate

HERE = pathlib.Path(__file__).resolve().parent.parent

# A program that has each word of its call written down, and then does what its case says.
STAND_IN = """#!/bin/sh
echo "$(basename "$0") $*" >> "$CALLS"
case "$(basename "$0") $*" in
rt*) echo "in $(basename "$PWD")" >> "$CALLS" ;;
esac
case "$(basename "$0") $*" in
'rt ci') cat "$REPORT"; exit "$STATUS" ;;
rustc*) printf '#!/bin/sh\\necho "measured $*"\\n' > target/bench/bench; chmod +x target/bench/bench ;;
*' install '*) for name in clasp gringo cadical cbc; do cp "$0" "$(dirname "$0")/$name"; done ;;
esac
"""

REPORT = """rt: one is kept: an earlier run on this machine proved the same files over the same libraries
rt: one: trying its must-fail edits (1)
== two
fn two::a: proved
logic=proved functions=1 target=x86_64-unknown-linux-gnu sum=0
rt: two proved
rt: must-fail one/wrong.edit: refused, as it must be: ./proofs/f/Answers.antt:8:13: error: `returns`: as printed, the two types differ only where one has `x`
rt: two ran, and wrote what its file stdout has
rt: two ran (built by Rattle's own compiler), and wrote what its file stdout has
rt: ok; handles allowed: none; must-fail edits: 1 refused; every proof and must-fail edit was done in this run
3 passed, 0 failed
"""

# In place of the checks of the gate.
PLANTED = '''import os
import sys
import threading

from run import Failed, main


def passes():
    """It passes."""
    return 3


def fails():
    """It fails."""
    raise Failed("on purpose")


def breaks():
    """It breaks."""
    return 1 // 0


def ends():
    """It ends the run."""
    sys.exit(0)


def sees_nothing():
    """It looks at nothing."""
    return 0


def sees_few():
    """It looks at fewer things than it has to."""
    return 2


def writes():
    """It leaves a file behind."""
    open("stray", "w").close()
    return 1


def comes_late():
    """It needs what another check leaves behind."""
    return int(os.path.exists("stray"))


def meets():
    """It waits until another check waits, too."""
    BARRIER.wait(10)
    return 1


def meets_too():
    """It waits until another check waits, too."""
    return meets()


BARRIER = threading.Barrier(2)
CHECKS = [passes, fails, breaks, ends, sees_nothing, sees_few, writes]
EXTRA = [(FURTHER)]
LEAST = {check.__name__: 3 if check == sees_few else 1 for check in [*CHECKS, *(check for check, _ in EXTRA)]}
LEAST["leaves_the_tree_clean"] = 1
sys.exit(main(CHECKS, EXTRA, each=passes, least=LEAST))
'''

checks = 0
failures = []


def equal(found, expected, label):
    global checks
    checks += 1
    if found != expected:
        failures.append(f"{label}\n  expected {expected!r}\n  found    {found!r}")


class Copy:
    """A small repository with our ./test and ./bench, and the stand-ins for all that these start."""

    def __init__(self, folder):
        self.root, self.tools, self.calls, self.report = (folder / name for name in ("tree", "tools", "calls", "report"))
        for name, text in {"crates.txt": "one:\ntwo: one\n", "crates/one/src/lib.rt": "", "crates/one/must-fail/wrong.edit": "", "crates/two/src/main.rt": "", "crates/capi_c/src/lib.rt": ""}.items():
            path = self.root / name
            path.parent.mkdir(parents=True, exist_ok=True)
            path.write_text(text)
        for name in ("tests", "tools"):
            (self.root / name).mkdir()
        (self.root / ".ci").mkdir()
        for path in (HERE / "test", HERE / "bench", HERE / ".ci" / "run", HERE / "tools" / "unicode_table.py", *sorted((HERE / "tests").glob("*.py"))):
            shutil.copy(path, self.root / path.relative_to(HERE))
        (self.root / "tests" / "least.py").write_text('CHECKS = {"prove_and_run": 3, "leaves_the_tree_clean": 1}\n')
        self.tools.mkdir()
        for name in ("rt", "cc", "rustc", "apt-get"):
            self.tool(name, STAND_IN)
        self.tool("python3", f'#!/bin/sh\nexec "{sys.executable}" "$@"\n')
        for name in ("sh", "bash", "basename", "dirname", "cat", "chmod", "cp", "mkdir", "rm"):
            (self.tools / name).symlink_to(shutil.which(name))

    def tool(self, name, text):
        (self.tools / name).write_text(text)
        (self.tools / name).chmod(0o755)

    def stands(self):
        """All files and folders with their contents."""
        return {str(path): path.read_bytes() if path.is_file() else None for path in self.root.rglob("*")}

    def run(self, command, report=REPORT, status=0):
        """The status of a call, its output, its errors, and the calls of stand-ins that it made."""
        self.calls.write_text("")
        self.report.write_text(report)
        surroundings = {"PATH": str(self.tools), "CALLS": str(self.calls), "REPORT": str(self.report), "STATUS": str(status)}
        done = subprocess.run(command, cwd=self.root, stdin=subprocess.DEVNULL, capture_output=True, text=True, env=surroundings)
        return done.returncode, done.stdout, done.stderr, self.calls.read_text()

    def result(self, *names, **words):
        """The status of ./test and its last line."""
        status, printed, _, _ = self.run(["./test", *names], **words)
        return status, printed.rstrip().rpartition("\n")[2]


def nothing_is_touched(copy):
    before = copy.stands()
    for status, *command in [
        (0, "./test", "--help"),
        (0, "./test", "--list"),
        (2, "./test", "no_such_check"),
        (2, "./test", "trace", "no_such_check"),
        (2, "./test", "--no-such"),
        (2, "./test", "--lis"),
        (0, "./bench", "--help"),
        (0, "./bench", "--quick", "--help"),
        (2, "./bench", "--nonsense"),
        (2, "./bench", "--quick", "surplus"),
        (2, "./bench", "--pass", "surplus"),
        (2, "./bench", "--fair", "surplus"),
        (2, "./bench", "--family"),
        (2, "./bench", "--peers-limit", "0"),
    ]:
        label = " ".join(command)
        found, printed, errors, calls = copy.run(command)
        equal((found, calls), (status, ""), f"{label}: status and calls")
        equal(bool(printed) and not errors, status == 0, f"{label}: where it says what is so: {printed}{errors}")
        equal(command[-1] in errors or status == 0, True, f"{label} names what is wrong: {errors}")
        equal(copy.stands(), before, f"{label}: the tree")


def the_list(copy):
    printed = copy.run(["./test", "--list"])[1]
    there = [*gate.CHECKS, *(check for check, _ in gate.EXTRA)]
    said = dict(line.split(maxsplit=1) for line in printed.splitlines())
    equal(sorted(said), sorted([*(check.__name__ for check in there), "leaves_the_tree_clean"]), "./test --list")
    for check in there:
        equal(said.get(check.__name__, "").startswith(" ".join(check.__doc__.split())), True, f"--list: the sentence of {check.__name__}")


def reports_of_rt(copy):
    """What rt says is held against the tree."""
    _, printed, _, calls = copy.run(["./test", "prove_and_run"])
    equal(calls, "rt ci\nin tree\n", "rt is called once, with no names, at the top of the tree")
    equal("fn two::a: proved" in printed, False, "rt's own lines are not printed where all is well")
    equal("[4/5]" in printed and "must-fail one/wrong\n" in printed, True, f"progress: {printed}")
    equal("rt: one: trying its must-fail edits (1)\n" in printed, True, f"what is begun: {printed}")
    equal((copy.root / "target" / "test.log").read_text(), REPORT, "target/test.log")
    equal(copy.result("prove_and_run"), (0, "3 passed, 0 failed"), "prove_and_run")
    for line in REPORT.splitlines(keepends=True):
        if line.startswith("rt: ") and "trying" not in line:
            equal(copy.result("prove_and_run", report=REPORT.replace(line, "")), (1, "0 passed, 1 failed"), f"without {line}")
            equal(copy.result("prove_and_run", report=REPORT.replace(line, line + line)), (1, "0 passed, 1 failed"), f"twice {line}")
    for label, old, new in (
        ("another count", "3 passed", "4 passed"),
        ("one crate twice", "two proved", "one proved"),
        ("a crate that is not proved", "two proved", "two NOT PROVED"),
        ("an edit that is not refused", "refused, as it must be", "NOT REFUSED"),
        ("a bad edit", "refused, as it must be: ./", "BAD EDIT: ./"),
        ("bad edits at the end", "1 refused;", "1 refused, 2 bad;"),
        ("bad edits beside a limit", "1 refused;", "1 refused, 1 of them only by a limit, 2 bad;"),
        ("no edits at the end", "; must-fail edits: 1 refused", ""),
        ("fewer edits at the end", "1 refused;", "0 refused;"),
        ("a handle", "allowed: none", "allowed: Net"),
        ("a failure", "0 failed", "1 failed"),
        ("a run by names", "0 failed", "0 failed (one and the crates below alone: not the gate)"),
        ("a program that writes something else", "two ran, and wrote", "two: what the program wrote"),
    ):
        equal(REPORT.count(old), 1, f"what is changed for {label}")
        equal(copy.result("prove_and_run", report=REPORT.replace(old, new)), (1, "0 passed, 1 failed"), label)
    equal(copy.result("prove_and_run", report=""), (1, "0 passed, 1 failed"), "rt says nothing")
    status, printed, _, _ = copy.run(["./test", "prove_and_run"], status=1)
    equal((status, "fn two::a: proved" in printed), (1, True), "rt's lines are printed where it failed")
    few = copy.root / "tests" / "least.py"
    few.write_text(few.read_text().replace("3", "4"))
    equal(copy.result("prove_and_run"), (1, "0 passed, 1 failed"), "fewer crates and edits than there have to be")
    few.write_text(few.read_text().replace("4", "3"))
    stray = copy.root / "crates" / "one" / "must-fail" / "forgotten.edi"
    stray.write_text("")
    equal(copy.result("prove_and_run"), (1, "0 passed, 1 failed"), "an edit that rt does not see")
    stray.unlink()


# A gate of rt ci alone.
ALONE = """import sys
from every_check import prove_and_run
from run import main
sys.exit(main([prove_and_run], [], each=prove_and_run, least={"prove_and_run": 3, "leaves_the_tree_clean": 1}))
"""


def what_ci_runs(copy):
    """.ci/run calls rt ci once, with no names, at the top of the tree, touches nothing before, and fails where it fails or meets bad edits."""
    gate_file, checks_file = copy.root / "tests" / "gate.py", copy.root / "tests" / "every_check.py"
    gate_file.rename(checks_file)
    gate_file.write_text(ALONE)
    before = copy.stands()
    for label, status, report, wanted in (
        ("all is well", 0, REPORT, 0),
        ("rt ci fails", 1, REPORT, 1),
        ("rt ci is killed", 137, REPORT, 1),
        ("there are bad edits", 0, REPORT.replace("1 refused;", "1 refused, 1 bad;"), 1),
        ("rt ci says nothing", 0, "", 1),
    ):
        found, printed, _, calls = copy.run([".ci/run"], report=report, status=status)
        equal((found, calls), (wanted, f"rt ci\nin {copy.root.name}\n"), f".ci/run where {label}: {printed}")
        equal({path: content for path, content in copy.stands().items() if "/target" not in path}, {path: content for path, content in before.items() if "/target" not in path}, f".ci/run where {label}: the tree")
    checks_file.rename(gate_file)


def the_tools_are_there(copy):
    (copy.tools / "cc").rename(copy.tools / "no-cc")
    equal(copy.result("leaves_the_tree_clean"), (1, "0 passed, 1 failed"), "without cc")
    (copy.tools / "no-cc").rename(copy.tools / "cc")


def planted_checks(copy):
    gate_file = copy.root / "tests" / "gate.py"
    gate_file.write_text(PLANTED.replace("(FURTHER)", ""))
    kept = copy.root / "target" / "kept"
    kept.parent.mkdir(exist_ok=True)
    kept.write_text("")
    equal(copy.result("passes"), (0, "3 passed, 0 failed"), "a check that passes")
    for name in ("fails", "breaks", "ends", "sees_nothing", "sees_few"):
        equal(copy.result(name), (1, "0 passed, 1 failed"), f"a check that {name}")
    equal(copy.result("leaves_the_tree_clean", "passes"), (0, "4 passed, 0 failed"), "a run that writes nothing")
    equal(copy.result("leaves_the_tree_clean", "writes"), (1, "1 passed, 1 failed"), "a run that leaves a file")
    (copy.root / "stray").unlink()
    equal(copy.result(), (1, "4 passed, 6 failed"), "all of them")
    (copy.root / "stray").unlink()
    equal(kept.exists(), True, "target/ is kept")

    gate_file.write_text(PLANTED.replace("(FURTHER)", "").replace("least=LEAST)", "least=LEAST, together=[passes, fails, writes])"))
    equal(copy.result(), (1, "4 passed, 6 failed"), "some of them two at a time")
    (copy.root / "stray").unlink()
    equal(copy.result("passes", "leaves_the_tree_clean"), (0, "4 passed, 0 failed"), "one of those that run two at a time")
    planted = PLANTED.replace("(FURTHER)", "").replace("[passes, fails,", "[comes_late, meets, meets_too, passes, fails,")
    gate_file.write_text(planted.replace("least=LEAST)", "least=LEAST, together=[meets, meets_too, comes_late])"))
    equal(copy.result("meets", "meets_too"), (0, "2 passed, 0 failed"), "two at a time")
    equal(copy.result("comes_late", "writes"), (0, "2 passed, 0 failed"), "after the others")
    (copy.root / "stray").unlink()

    gate_file.write_text(PLANTED.replace("(FURTHER)", '(writes, "sh"), (ends, "no-such-tool")').replace("fails, breaks, ends, sees_nothing, sees_few, writes", ""))
    (copy.root / "stray").write_text("")
    printed = copy.run(["./test"])[1].splitlines()
    equal(printed[-2:], ["with further tools: 1 passed (writes), 1 not tried (ends: no-such-tool is missing)", "4 passed, 0 failed"], "further tools")
    equal(copy.result("ends"), (1, "0 passed, 1 failed"), "a check that is named and can't be tried")
    gate_file.write_text(PLANTED.replace("(FURTHER)", '(fails, "sh")').replace("fails, breaks, ends, sees_nothing, sees_few, writes", ""))
    printed = copy.run(["./test"])[1].splitlines()
    equal(printed[-2:], ["with further tools: 0 passed, 1 failed (fails), 0 not tried", "4 passed, 1 failed"], "a further check that fails")
    gate_file.write_text(PLANTED.replace("(FURTHER)", "").replace('LEAST["leaves', 'LEAST["gone"] = 1\nLEAST["leaves'))
    equal(copy.result("passes"), (1, "3 passed, 1 failed"), "a check that is gone, and has to see something")


def peers_of_the_bench(copy):
    status, printed, errors, calls = copy.run(["./bench", "--family", "a b", "--quick"])
    equal((status, printed), (0, "measured --family a b --quick\n"), "./bench measures without the peers")
    equal(errors.rstrip().endswith(": clasp gringo cadical"), True, f"./bench says which are missing: {errors}")
    equal("apt-get" in calls, False, "./bench installs nothing unasked")
    equal(calls.startswith("rt lib\nin capi_c\nrustc "), True, f"./bench builds the library of capi_c: {calls}")
    _, _, errors, _ = copy.run(["./bench", "--prices"])
    equal(errors.rstrip().endswith(": clasp gringo cbc"), True, f"./bench --prices says which are missing: {errors}")
    for word in ("--no-peers", "--pass", "--fair"):
        equal(copy.run(["./bench", word])[1:3], (f"measured {word}\n", ""), f"./bench {word} misses none")
    status, printed, _, calls = copy.run(["./bench", "--install-peers", "--quick"])
    equal((status, printed), (0, "measured --quick\n"), "./bench --install-peers")
    equal("apt-get -qq install -y clasp gringo cadical coinor-cbc\n" in calls, True, f"./bench --install-peers installs them: {calls}")
    for name in ("clasp", "gringo", "cadical", "cbc"):
        (copy.tools / name).unlink()
    copy.tool("apt-get", "#!/bin/sh\nexit 1\n")
    equal(copy.run(["./bench", "--install-peers"])[:2], (2, ""), "./bench --install-peers where they can't be had")


with tempfile.TemporaryDirectory() as folder:
    small = Copy(pathlib.Path(folder))
    for part in (nothing_is_touched, the_list, the_tools_are_there, reports_of_rt, what_ci_runs, planted_checks, peers_of_the_bench):
        part(small)
for failure in failures:
    print(failure)
if failures:
    sys.exit(1)
print(f"{checks} checks")
