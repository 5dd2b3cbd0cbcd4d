"""Tests of what tools/job answers. Called as `python3 -B tests/showroom.py [SECTION...]` in the repository's root.

It needs crates/kitchen/out/kitchen and target/lib/libkitchen.so. Each section prints a line of counts, `name: count, name: count`;
the last line is `N checks`, and the status 0; or what failed is printed, and the status is 1. Files are written to a
temporary folder only. `--fault K` makes a mistake in the tool on purpose (FAULTS below): then the status has to be 1.

Answers are compared with reference/, which is written from docs/RULES.md alone, and advice with searches over all sets of
articles and all rounds, which are here.
"""

import argparse
import contextlib
import functools
import json
import os
import pathlib
import random
import re
import shlex
import shutil
import subprocess
import sys
import tempfile
from collections import Counter
from concurrent.futures import ThreadPoolExecutor
from itertools import combinations, islice

sys.dont_write_bytecode = True
ROOT = pathlib.Path(__file__).resolve().parent.parent
sys.path[:0] = [str(ROOT / "tools"), str(ROOT / "host")]
sys.path.append(str(ROOT / "reference"))

import drawn as draws  # noqa: E402
import kitchen  # noqa: E402
import names as namings  # noqa: E402
import reader  # noqa: E402
import rules  # noqa: E402
import tool  # noqa: E402
from showroom import advising, asking, changing, commands, fairs, telling, texts  # noqa: E402
from showroom import rules as trying  # noqa: E402
from showroom.changing import Change  # noqa: E402
from showroom.files import job_text  # noqa: E402
from showroom.guide import CHOICE_EXAMPLE  # noqa: E402
from showroom.texts import stated  # noqa: E402

TOOL = ROOT / "tools" / "job"
PLACE = pathlib.Path("crates", "kitchen", "out", "kitchen")
KITCHEN = ROOT / PLACE
LIBRARY = ROOT / "target" / "lib" / "libkitchen.so"
SAMPLES = sorted((ROOT / "jobs").glob("*.txt"))
ANSWERS = ("No such", "A kitchen of", "A plan of", "needs no article", "takes no round", "Counting the wishes", "How far", "cheapest kitchen, of")
MOST_SHOWN = 10  # failures of a section
ROOM = 4096  # bytes, more than any file has
MOST_SELECTIONS = 2**6 + 1  # more than any job has whose selections are all looked at

checks = 0
failures = []
on_purpose = False  # whether a mistake of the tool is planted


class Found(BaseException):
    """A mistake that was made on purpose is found: no more has to be looked at."""


def check(condition, label):
    global checks
    checks += 1
    if not condition:
        failures.append(label)
        if on_purpose:
            raise Found


def equal(found, expected, label):
    check(found == expected, f"{label}\n  expected {expected!r}\n  found    {found!r}")


SECTIONS = {}


def section(name, *wanted):
    """A section takes its counts and a folder; each of these counts has to be at least 1 in the end."""

    def register(function):
        SECTIONS[name] = function, wanted
        return function

    return register


# ---- calls of the tool


def ran(command, stdin=b"", cwd=ROOT):
    """Status, output and errors of a command."""
    done = subprocess.run([str(word) for word in command], input=stdin, capture_output=True, cwd=cwd)
    return done.returncode, done.stdout.decode(), done.stderr.decode()


def called(*arguments, stdin=b"", program=None):
    """Status, output and errors of a call of the tool, in a child of this process, which need not start anew."""
    with tempfile.TemporaryFile() as given, tempfile.TemporaryFile() as output, tempfile.TemporaryFile() as errors:
        given.write(stdin)
        given.seek(0)
        sys.stdout.flush()
        child = os.fork()
        if child == 0:
            for number, file in enumerate((given, output, errors)):
                os.dup2(file.fileno(), number)
            os._exit(child_status([str(word) for word in arguments], program))
        status = os.waitstatus_to_exitcode(os.waitpid(child, 0)[1])
        output.seek(0)
        errors.seek(0)
        return status, output.read().decode(), errors.read().decode()


def child_status(arguments, program):
    try:
        if program is not None:
            asking.PLACES = (program,)
        return commands.main(arguments)
    except SystemExit as end:
        return end.code
    except BaseException as trouble:
        sys.stderr.write(f"{type(trouble).__name__}: {trouble}\n")
        return 99
    finally:
        sys.stderr.flush()


def tells_nothing(output):
    return not any(answer in output for answer in ANSWERS)


# ---- what the second program says of a text


def record_name(job, number):
    """An article or step by its name, and by its number if that is not enough."""
    name, plain = job.records[number].name.decode(), f"{job.kind.record} {number}"
    alone = sum(record.name == job.records[number].name for record in job.records) == 1
    return plain if not name else name if alone else f"{name} ({plain})"


@functools.cache
def second_output(file):
    """What the second program prints of a choice file."""
    return reader.outcome(rules.offer, file)


def second_choice(job):
    """The selection and the set aside, or None."""
    found = second_output(kitchen.written(job))
    if found.startswith("refused 14 at "):
        return None
    return [{int(word) for word in line.split()[1:]} for line in found.splitlines()]


def second_place(job):
    """The place of 14, of a job without a selection."""
    return int(second_output(kitchen.written(job)).removeprefix("refused 14 at "))


def second_bound(job):
    """What the groups contribute to the order, added up."""
    state = reader.read(kitchen.written(job))
    return tool.most_carried(state, rules.own_groups(state), range(len(state.articles)), state.order)


@functools.cache
def fewest_of(file):
    return rules.fewest(reader.read(file))


def second_count(job):
    """The fewest rounds, or None."""
    return fewest_of(kitchen.written(job))


def rows(output):
    """The indented lines of an answer, in two columns."""
    return [tuple(re.split(" {2,}", line.strip(), maxsplit=1)) for line in output.splitlines() if line.startswith("  ")]


def article_rows(text, articles):
    order = text.job.sets[0]
    found = []
    for number in sorted(articles):
        wishes = [text.names[wish].decode() for wish in sorted(text.job.records[number].sets[0] & order)]
        found.append((record_name(text.job, number), "; ".join(wishes) or "(no wish of the order)"))
    return found


def told_as_second(text, output, status, label):
    """What is told of a text, and the status, are those of the second program's answer."""
    if text.job.kind is kitchen.CHOICE:
        return choice_as_second(text, output, status, label)
    fewest, found = second_count(text.job), rows(output)
    if fewest is None:
        return check(status == 3 and output.startswith("No such plan exists: "), f"{label}: no plan\n{output}")
    if fewest == 0:
        return equal((status, output), (0, "The goal holds at the start, so the fitting takes no round.\n"), label)
    named = {record_name(text.job, number): number for number in range(len(text.job.records))}
    rounds = [{named.get(name) for name in line.split("; ")} for _, line in found]
    good = all(None not in steps for steps in rounds) and rules.is_plan(reader.read(kitchen.written(text.job)), rounds)
    word = "round" if fewest == 1 else "rounds"
    check(good and status == 0, f"{label}: a plan\n{output}")
    equal(output.splitlines()[0], f"A plan of {fewest} {word}; no plan has fewer:", label)
    equal([name for name, _ in found], [f"round {number}" for number in range(1, fewest + 1)], label)


def choice_as_second(text, output, status, label):
    answer, order = second_choice(text.job), len(text.job.sets[0])
    if answer is None:
        start, end = tool.COUNTED[second_place(text.job)]
        first, counted, *rest = output.splitlines()
        check(status == 3 and first.startswith("No such kitchen exists: "), f"{label}: no kitchen\n{output}")
        check(counted.startswith(start) and counted.endswith(end), f"{label}: whether the order falls short\n{output}")
        return check("Counting" not in "".join([first, *rest]), f"{label}: it is told once\n{output}")
    chosen, aside = answer
    equal((status, rows(output)), (0, article_rows(text, chosen)), label)
    check(("Set aside at once: " in output) == bool(aside), f"{label}: the set aside\n{output}")
    for number in aside:
        check(record_name(text.job, number) in output.split("Set aside at once: ")[-1], f"{label}: {number} aside\n{output}")
    covers = f"A kitchen of {len(chosen)} article{'s' * (len(chosen) > 1)} covers the order of {order} wish{'es' * (order > 1)}"
    check(output.startswith(covers if chosen else "The order has no wish, so"), f"{label}: the first line\n{output}")


# ---- drawn jobs


def renamed(draw, job):
    """The job with names that print: some alone, some twice, some none."""
    names = [draw.choice([b"", b"a", b"b", b"n" * 32] + [b"Unit %d" % number] * 6) for number in range(len(job.records))]
    return job._replace(records=[record._replace(name=name) for record, name in zip(job.records, names)])


def ours_of(job):
    """A job of reference/ as the module has it."""
    return kitchen.read(reader.written(job))


def text_of(job):
    text = stated(job_text(job).encode())
    equal(text.job, job, "a job, written as a text and read")
    return text


def drawn_choice(draw, articles, wishes):
    n, w = draw.randrange(articles + 1), draw.randrange(wishes + 1)
    wish, clash = draw.choice([0.15, 0.3, 0.5]), draw.choice([0.1, 0.4, 0.7])
    records = [
        kitchen.article(draws.some(draw, w, wish), draws.some(draw, number, clash)) for number in range(n)
    ]
    return renamed(draw, kitchen.choice(w, draws.some(draw, w, draw.choice([0.5, 0.8, 1])), records))


def with_prices(draw, job):
    return job._replace(records=[record._replace(price=draws.drawn_price(draw)) for record in job.records])


def tight_choice(draw, articles, wishes):
    """Each article carries a wish or two, all wishes are ordered, and many articles clash: several wishes are in conflict."""
    n, w = draw.randrange(2, articles + 1), draw.randrange(2, wishes + 1)
    clash = draw.choice([0.3, 0.5, 0.7])
    records = []
    for number in range(n):
        carried = {number % w, draw.choice([number % w, draw.randrange(w)])}
        others = {other for other in range(number) if other % w != number % w and draw.random() < clash}
        records.append(kitchen.article(carried, others))
    return renamed(draw, kitchen.choice(w, range(w), records))


def linked_choice(draw, wishes):
    """Wishes in a row: the first and the last are carried by one article, those between by two, and each article excludes
    one of the next wish. So no wish can be left out of the conflict. There may be a further wish or article."""
    carried = [0] + [wish for wish in range(1, wishes - 1) for _ in range(2)] + [wishes - 1]
    pairs = [(low, low + 1) for low in range(0, len(carried), 2)]
    free = draw.randrange(2)
    place = draw.sample(range(len(carried) + free), len(carried))
    records = [kitchen.article({wishes} if draw.random() < 0.5 else ()) for _ in range(len(carried) + free)]
    for number, wish in enumerate(carried):
        records[place[number]] = kitchen.article({wish})
    for low, high in pairs:
        records[place[low]].sets[1].add(place[high])
    return renamed(draw, kitchen.choice(wishes + 1, range(wishes + draw.randrange(2)), records))


def drawn_fitting(draw, steps, facts, horizon):
    n, f = draw.randrange(steps + 1), draw.randrange(1, facts + 1)
    chances = draw.choice([(0.3, 0.4, 0.3), (0.3, 0.2, 0.1), (0.2, 0.2, 0.3), (0.4, 0.3, 0)])
    records = [kitchen.step(*(draws.some(draw, f, chance) for chance in chances)) for _ in range(n)]
    start, goal = draws.some(draw, f, 0.2), draws.some(draw, f, draw.choice([0.3, 0.6]))
    return renamed(draw, kitchen.fitting(f, draw.randrange(horizon + 1), start, goal, records))


def chain(draw, length, horizon):
    """Steps that need each other in turn, so that a plan takes many rounds."""
    records = [kitchen.step({number}, {number + 1}, draws.some(draw, number, 0.2)) for number in range(length)]
    return renamed(draw, kitchen.fitting(length + 1, horizon, {0}, {length}, records))


# ---- the README's command

BUILD = "(cd crates/kitchen && rt run </dev/null >/dev/null)"


def readme_command():
    """Of the README's first command the part after the build."""
    blocks = re.findall(r"^```\n(.*?)^```$", (ROOT / "README.md").read_text(), re.M | re.S)
    found = [block.strip() for block in blocks if block.startswith(BUILD)]
    check(len(found) == 1, f"README.md has the command once: {found}")
    build, _, rest = (found or [""])[0].rpartition(" && ")
    check(build == BUILD and rest, f"README.md builds kitchen, and then runs something: {found}")
    return rest


def snapshot():
    """The files of the tree, of target/ and of what rt made, with their sizes and times."""
    found = {}
    for base, folders, names in os.walk(ROOT):
        folders[:] = [name for name in folders if name != ".git"]
        for name in names:
            state = os.lstat(os.path.join(base, name))
            found[os.path.join(base, name)] = state.st_size, state.st_mtime_ns
    return found


def parts(output, paths):
    """What is told of each of several texts, each below its path."""
    found, rest = [], output
    for path, following in zip(paths, [*paths[1:], None]):
        check(rest.startswith(f"{path}\n"), f"{path} is above its answer:\n{rest}")
        rest = rest.removeprefix(f"{path}\n")
        part, mark, rest = rest.partition(f"\n\n{following}\n") if following else (rest, "", "")
        found.append(part + "\n" if mark else part)
        rest = f"{following}\n{rest}"
    return found


@section("readme", "texts shown", "texts shown together", "pairs at once", "files kept")
def readme(tally, folder):
    before, rest = snapshot(), readme_command()
    status, output, errors = ran(["sh", "-c", rest])
    paths = rest.split()[1:]
    check((status, errors) == (0, ""), f"{rest}: {status}\n{output}{errors}")
    check("A kitchen of" in output and "A plan of" in output, f"{rest} tells of a kitchen and of a plan\n{output}")
    for path, part in zip(paths, parts(output, paths)):
        told_as_second(stated((ROOT / path).read_bytes()), part, 0, f"{rest}, {path}")
        tally["texts of the command"] += 1
    for path in SAMPLES:
        status, output, _ = ran(["./show", path.relative_to(ROOT)])
        told_as_second(stated(path.read_bytes()), output, status, f"./show {path.name}")
        tally["texts shown"] += 1
    paths = [str(path.relative_to(ROOT)) for path in SAMPLES]
    status, output, _ = ran(["./show", *paths])
    equal(status, 3, "./show of all samples, of which one has no kitchen")
    for path, part in zip(paths, parts(output, paths)):
        text = stated((ROOT / path).read_bytes())
        told_as_second(text, part, 3 if "No such" in part else 0, f"./show of all, {path}")
        tally["texts shown together"] += 1
    same_name(tally, folder)
    after = snapshot()
    changed = sorted(path for path in before.keys() | after.keys() if before.get(path) != after.get(path))
    equal(changed, [], "nothing in the tree was written")
    tally["files kept"] += len(after)


def same_name(tally, folder):
    """Two texts of one name, in different folders, at the same time."""
    paths = [folder / part / "job.txt" for part in ("with", "without")]
    for path, sample in zip(paths, ("kitchen", "impossible")):
        path.parent.mkdir()
        shutil.copy(ROOT / "jobs" / f"{sample}.txt", path)
    runs = []
    for _ in range(20):
        for path, status in zip(paths, (0, 3)):
            run = subprocess.Popen([ROOT / "show", path], stdout=subprocess.PIPE, stderr=subprocess.PIPE, text=True)
            runs.append((run, path, status))
    told = Counter()
    for run, path, status in runs:
        output, errors = run.communicate()
        good = output.startswith("No such kitchen exists: " if status else "A kitchen of 7 articles")
        check(run.returncode == status and good and not errors, f"{path}: {run.returncode}\n{output}{errors}")
        told[output] += 1
    equal(sorted(told.values()), [20, 20], "each of two texts has one answer")
    tally["pairs at once"] += 20


# ---- statuses

FAULTY = b"choice\nwishes: a\norder: b\narticle X\n wishes: a\n"
SHORT = (ROOT / "jobs" / "F.txt").read_bytes().replace(b"horizon: 3", b"horizon: 1")  # has no plan


def sample(name):
    return ROOT / "jobs" / f"{name}.txt"


def larder_in(folder):
    """The choice of the help, as a text: it has no kitchen, and the order falls short."""
    path = folder / "larder.txt"
    path.write_text(CHOICE_EXAMPLE)
    return path


@section("statuses", "asked", "misused", "unwritable", "lines of json", "orders", "other keyboards", "from standard input", "advised")
def statuses(tally, folder):
    faulty, missing, short = folder / "faulty.txt", folder / "missing.txt", folder / "short.txt"
    larder = larder_in(folder)
    faulty.write_bytes(FAULTY)
    short.write_bytes(SHORT)
    ask_statuses(tally, faulty, missing, short, larder)
    misuse(tally)
    unwritable(tally)
    from_standard_input(tally, larder)
    advise_statuses(tally, faulty, missing, short, larder)
    json_lines(tally, faulty, missing, short, larder)
    orders(tally, folder)
    other_keyboards(tally, folder)


def ask_statuses(tally, faulty, missing, short, larder):
    with_one, plan, none, folder = sample("kitchen"), sample("fitting"), sample("impossible"), ROOT / "jobs"
    cases = [
        ([with_one], 0), ([plan], 0), ([none], 3), ([short], 3), ([faulty], 1), ([missing], 1), ([folder], 1),
        ([with_one, plan], 0), ([with_one, none], 3), ([none, with_one], 3), ([with_one, short, plan], 3),
        ([with_one, faulty], 1), ([none, missing, with_one], 1), ([faulty, none, plan], 1), ([missing, faulty], 1),
        ([larder], 3), ([larder, none], 3), ([none, larder, with_one], 3), ([larder, faulty], 1), ([larder, short], 3),
    ]  # fmt: skip
    told = {with_one: "A kitchen of 7 articles", plan: "A plan of 8 rounds", short: "No such plan"}
    told |= {larder: tool.COUNTED[0][0], none: tool.COUNTED[1][0]}
    for number, (paths, expected) in enumerate(cases):
        status, output, errors = ran([TOOL, "ask", *paths]) if number % 2 else called("ask", *paths)
        label = f"ask {' '.join(path.name for path in paths)}"
        check(status == expected, f"{label}: status {status}\n{output}{errors}")
        for path, answer in told.items():
            equal(output.count(answer), paths.count(path), f"{label}: the answer of {path.name}\n{output}")
        equal(output.count("No such kitchen"), paths.count(none) + paths.count(larder), f"{label}: no kitchen\n{output}")
        for path in {faulty, missing, folder} & set(paths):
            check(str(path) in errors, f"{label}: what is wrong with {path.name}\n{errors}")
        tally["asked"] += 1


def misuse(tally):
    one, plan = sample("kitchen"), sample("fitting")
    for arguments in (
        ["ask"], ["bogus"], ["ask", "--bogus", one], ["ask", "--order", "no hood", plan], ["ask", "--next", "1", plan],
        ["ask", "--order", "no hood", one, plan], ["ask", one, plan, "--next", "2"], ["ask", "--next", "0", one],
        ["ask", "--next", "x", one], ["ask", "--next", "-1", one], ["ask", "-", "-"], ["ask", one, "--order"],
        ["ask", "--nex", "1", one], ["advise"], ["advise", one, plan], ["advise", "--order", "no hood", plan],
        ["advise", "--json", one], ["advise", "--bound", plan], ["ask", "--bound", one], ["page", "--bound", one],
        ["advise", one, "--bound", "2"], ["advise", "--bound=2", one], ["ask", "--rate", "19", plan], ["ask", one, plan, "--rate", "19"],
        ["ask", "--rate", "x", one], ["ask", "--rate", "100.01", one], ["ask", "--rate", "-1", one], ["advise", "--rate", "19", one],
        ["page", "--rate", "19", one], ["ask", "--rat", "19", one], ["ask", one, "--rate"], ["fair", one], ["fair", plan, one],
        ["fair", one, one, one], ["fair", "-", "-"], ["fair", one, one, "--order", "no hood"], ["fair", one, one, "--jso"],
    ):  # fmt: skip
        status, output, errors = called(*arguments)
        equal((status, output), (2, ""), f"{arguments}: misuse, {errors}")
        check("tools/job" in errors, f"{arguments}: misuse is said\n{errors}")
        tally["misused"] += 1
    equal(ran([TOOL, "ask"])[:2], (2, ""), "misuse through the command line")
    equal(called()[0], 0, "no argument at all is a call for help")


def unwritable(tally):
    """An answer that cannot be written is none."""
    for command in ("ask jobs/A.txt", "ask jobs/A.txt jobs/F.txt", "ask --json jobs/impossible.txt", "advise jobs/A.txt", "fair jobs/kitchen.txt jobs/fair.orders"):
        for stream, trouble in ((">/dev/full", "No space left on device"), (">&-", "Bad file descriptor")):
            status, _, errors = ran(["sh", "-c", f"tools/job {command} {stream}"])
            equal((status, errors), (1, f"standard output: {trouble}\n"), f"{command} {stream}")
            tally["unwritable"] += 1


def from_standard_input(tally, larder):
    for path in [*SAMPLES, larder]:
        direct, piped = called("ask", path), called("ask", "-", stdin=path.read_bytes())
        equal(piped[0], direct[0], f"the status of {path.name} from standard input")
        equal(piped[1].replace("advise -", f"advise {path}"), direct[1], f"{path.name} from standard input")
        tally["from standard input"] += 1
    status, output, _ = ran([TOOL, "ask", "-", sample("A")], stdin=sample("impossible").read_bytes())
    check(status == 3 and output.startswith("standard input\nNo such") and "A kitchen of 1" in output, output)
    status, output, errors = called("ask", "-")
    check(status == 1 and not output and "standard input" in errors, f"nothing on standard input: {errors}")


def advise_statuses(tally, faulty, missing, short, larder):
    for path, status, start in (
        (sample("kitchen"), 0, "A kitchen of 7 articles"), (sample("fitting"), 0, "A plan of 8 rounds"),
        (sample("impossible"), 3, "No such kitchen"), (short, 3, "No such plan"), (faulty, 1, ""), (missing, 1, ""),
        (larder, 3, "No such kitchen"),
    ):  # fmt: skip
        found, output, errors = called("advise", path)
        check(found == status and output.startswith(start), f"advise {path.name}: {found}\n{output}{errors}")
        check(bool(output) == (status != 1), f"advise {path.name} tells something exactly if it can\n{output}")
        check(status != 1 or str(path) in errors, f"advise {path.name}: what is wrong\n{errors}")
        tally["advised"] += 1
    _, output, _ = ran([TOOL, "advise", short])
    check("A horizon of 2 rounds would do; no plan has fewer." in output, output)
    for path, place in ((larder, 0), (sample("impossible"), 1)):
        output = ran([TOOL, "advise", path])[1]
        start, end = tool.COUNTED[place]
        line = output.splitlines()[1]
        check(line.startswith(start) and line.endswith(end) and output.count("Counting") == 1, f"{path.name}: {output}")
        check("These wishes cannot be had together: " in output, f"{path.name}: {output}")


def json_lines(tally, faulty, missing, short, larder):
    paths = [*SAMPLES, short, larder, faulty, missing]
    status, output, errors = ran([TOOL, "ask", "--json", *paths])
    check(status == 1 and str(missing) in errors, f"json of all: {status}, {errors}")
    lines = output.splitlines()
    equal(len(lines), len(paths), "a line of JSON for each text")
    for path, line in zip(paths, lines):
        found = json.loads(line)
        equal(found.pop("text"), str(path), "the text of a line of JSON")
        json_as_second(path, found)
        tally["lines of json"] += 1
    for path, status in zip(paths, (0, 0, 0, 3, 0, 0, 3, 3, 1, 1), strict=True):
        equal(called("ask", "--json", path)[:2], (status, lines[paths.index(path)] + "\n"), f"json of {path.name}")
    status, output, _ = called("ask", "--json", "--next", "1", sample("A"))
    further = json.loads(output)["further"]
    equal((status, [[article["number"] for article in other] for other in further]), (0, [[0, 2]]), "further in JSON")


def json_as_second(path, found):
    if path.name in ("faulty.txt", "missing.txt"):
        return check(found["answer"] == "error" and str(path) in found["message"], f"json of {path.name}: {found}")
    text = stated(path.read_bytes())
    names = [record.name.decode() or None for record in text.job.records]
    data = lambda numbers: [{"number": number, "name": names[number]} for number in sorted(numbers)]
    if text.job.kind is kitchen.FITTING:
        fewest = second_count(text.job)
        if fewest is None:
            return equal(found, {"kind": "fitting", "answer": "no such plan", "horizon": text.job.horizon}, path.name)
        rounds = [{step["number"] for step in steps} for steps in found["rounds"]]
        expected = {"kind": "fitting", "answer": "plan", "rounds": [data(steps) for steps in rounds]}
        good = len(rounds) == fewest and rules.is_plan(reader.read(kitchen.written(text.job)), rounds)
        return check(good and found == expected, f"json of {path.name}: {found}")
    answer = second_choice(text.job)
    if answer is None:
        short = {"larder": True, "impossible": False}[path.stem]
        equal(short, second_place(text.job) == 0, f"whether the order of {path.name} falls short")
        return equal(found, {"kind": "choice", "answer": "no such kitchen", "falls_short": short}, path.name)
    articles = data(answer[0])
    for article in articles:
        wishes = text.job.records[article["number"]].sets[0] & text.job.sets[0]
        article["wishes"] = [text.names[wish].decode() for wish in sorted(wishes)]
    expected = {"kind": "choice", "answer": "kitchen", "articles": articles, "set_aside": data(answer[1])}
    equal(found, expected, f"json of {path.name}")


def orders(tally, folder):
    """An order in place of the text's own is told as a text that has it."""
    draw, text = random.Random(1), sample("kitchen").read_text()
    head, rest = re.split(r"(?<=\n)order:", text)[0], re.split(r"\n\n", text, maxsplit=1)[1]
    names = [name.decode() for name in stated(text.encode()).names]
    path = folder / "ordered.txt"
    for number in range(24):
        order = ", ".join(draw.sample(names, draw.randrange(6)))
        path.write_text(f"{head}order: {order}\n\n{rest}")
        direct, given = called("ask", path), called("ask", "--order", order, sample("kitchen"))
        equal(given[0], direct[0], f"the status with --order {order!r}")
        expected = direct[1].replace(f"advise {path}`", f"advise {sample('kitchen')} --order {shlex.quote(order)}`")
        equal(given[1], expected, f"--order {order!r}")
        if number % 4 == 0:
            equal(called("advise", "--order", order, sample("kitchen")), called("advise", path), f"advise --order {order!r}")
        tally["orders without a kitchen" if given[0] else "orders with a kitchen"] += 1
        tally["orders"] += 1
    status, output, errors = called("ask", "--order", "bogus", sample("kitchen"))
    check(status == 1 and not output and "--order" in errors and "bogus" in errors, f"an unknown wish: {errors}")


def other_keyboards(tally, folder):
    """A wish and a clash in another writing are told as if they were in the same; another name is not found."""
    path = folder / "keyboards.txt"
    for one, pairs in ((True, tool.ONE_NAME), (False, tool.TWO_NAMES)):
        for name, other in pairs:
            text = f"choice\nwishes: {name}, x\norder: {name}\narticle {name}\nwishes: x\narticle Y\nwishes: {name}\nclashes: %s\n"
            path.write_text(text % name)
            same = called("ask", path), called("advise", path)
            check(same[0][0] == 0 and "A kitchen of 1 article " in same[0][1], f"{name!r}: {same[0]}")
            path.write_text(text % other)
            found = called("ask", "--order", other, path), called("advise", "--order", other, path)
            for (status, output, errors), expected in zip(found, same):
                told = (status, output, errors) == expected if one else status == 1 and tells_nothing(output) and "is named" in errors
                check(told, f"{name!r} by {other!r}: {status}\n{output}{errors}")
            tally["other keyboards"] += 1


# ---- a stand-in for kitchen


def script(path, *lines):
    """A program in place of kitchen. It is put there at once, so that no process can find it half written."""
    new = path.with_name("new")
    new.write_text("\n".join(["#!/bin/sh", *lines, ""]))
    new.chmod(0o755)
    new.replace(path)


def says(path, output):
    """A stand-in that prints this, whatever it is asked."""
    path.with_name("output").write_bytes(output)
    script(path, f'exec cat "{path.with_name("output")}"')


def right_output(file):
    return subprocess.run([KITCHEN], input=file, capture_output=True).stdout


def numbered(rounds):
    rounds = list(rounds)
    lines = [f"{number}:" + "".join(f" {step}" for step in steps) for number, steps in enumerate(rounds, 1)]
    return "\n".join([f"rounds {len(rounds)}", *lines, ""]).encode()


def lies_of_any(right):
    """Outputs that are no answer to anything, or to no job of this kind."""
    yield from (f"refused {number} at 0\n".encode() for number in (0, 1, 2, 3, 8, 9, 10, 13, 16, 17, 18))
    yield from (b"", b"\n", b"\0", b"\xff\xfe\xfd", b"junk\n", b"x" * 100_000, b"chosen\n", b"rounds\n", b"none\n")
    yield from (right.replace(b"\n", b"\r\n"), right + right, right + b"\n", b"\n" + right, b" " + right, right.upper())
    yield from (right.replace(b"\n", b" \n", 1), right.replace(b"\n", b"\0\n"), right.replace(b"\n", b"", 1))
    yield from (f"refused 14 at {place}\n".encode() for place in (0, 1, 2, "00", "01", 64))
    yield b"refused 15 at 00\n"


def choice_lies(right):
    """Of a selection: articles too few, too many, not there, not in order; another set aside."""
    chosen, aside = (line.partition(b" ")[2].split() for line in right.splitlines())
    line = lambda word, numbers: b" ".join([word, *numbers]) + b"\n"
    for number in chosen:
        yield line(b"chosen", [other for other in chosen if other != number]) + line(b"aside", aside)
    for number in (b"1", b"7", b"17", b"19", b"63", b"64", b"99", b"-1", b"00", b"x"):
        yield line(b"chosen", sorted({*chosen, number}, key=lambda word: (len(word), word))) + line(b"aside", aside)
    yield line(b"chosen", chosen[::-1] + [b"98"]) + line(b"aside", aside)
    yield line(b"chosen", chosen + chosen[-1:]) + line(b"aside", aside)
    for other in ([*chosen[:1], *aside], sorted(chosen), aside[:-1] if aside else [b"0"], [*aside, b"18"], [*aside, b"70"]):
        yield line(b"chosen", chosen) + line(b"aside", other)
    yield line(b"aside", aside) + line(b"chosen", chosen)
    yield b"refused 14 at 0\n"
    yield b"refused 14 at 1\n"
    yield b"refused 15 at 0\n"


def plan_lies(right):
    """Of a plan: an empty round, a round too many, too few, steps that are not there, another count."""
    rounds = [line.partition(b":")[2].decode().split() for line in right.splitlines()[1:]]
    yield from (numbered(rounds[:at] + [[]] + rounds[at:]) for at in range(len(rounds) + 1))
    yield from (numbered(rounds[:at] + [[], []] + rounds[at:]) for at in (0, len(rounds)))
    yield from (numbered(rounds[:at] + rounds[at + 1 :]) for at in range(len(rounds)))
    yield numbered(rounds[:-1] + [rounds[-1][:1], rounds[-1][1:]])  # the last round in two
    yield numbered(rounds + rounds[-1:])
    yield numbered(rounds[:-1] + [[*rounds[-1], "31"]])
    yield numbered([*rounds[:-1], rounds[-1][::-1]])
    yield numbered(rounds[::-1])
    yield from (right.replace(b"rounds ", b"rounds 0"), right.replace(b"\n1:", b"\n01:"), right.replace(b"\n2:", b"\n1:"))
    yield re.sub(rb"rounds \d+", b"rounds 1", right)
    yield b"refused 15 at 0\n"
    yield b"refused 14 at 0\n"
    yield b"refused 14 at 1\n"


def no_answer(tally, path, stand_in, label, commands=("ask", "json", "advise")):
    """Status 1, and no answer is told."""
    for command in commands:
        arguments = ["ask", "--json"] if command == "json" else [command]
        status, output, errors = called(*arguments, path, program=stand_in)
        check(status == 1 and tells_nothing(output) and errors, f"{label}: {command} {path.name}: {status}\n{output}{errors}")
        if command == "json":
            check([json.loads(line)["answer"] for line in output.splitlines()] == ["error"], f"{label}: {output}")
        else:
            equal(output, "", f"{label}: {command} {path.name} tells something")
        tally["lies asked" if command != "advise" else "lies advised"] += 1


def copied_tree(folder):
    """The tool in a tree of its own, without kitchen."""
    tree = folder / "tree"
    for name in ("tools", "host", "jobs"):
        shutil.copytree(ROOT / name, tree / name)
    shutil.copy(ROOT / "show", tree)
    (tree / PLACE).parent.mkdir(parents=True)
    return tree


@section(
    "stand_in", "lies asked", "lies advised", "cuts", "lies in a copied tree", "ends", "later lies", "honest",
    "other places than 0", "other places than 1"
)  # fmt: skip
def stand_in(tally, folder):
    tree = copied_tree(folder)
    path = tree / PLACE
    texts = [larder_in(tree / "jobs"), *SAMPLES]
    files = {text: kitchen.written(stated(text.read_bytes()).job) for text in texts}
    script(path, f'exec "{KITCHEN}"')
    honest(tally, tree, path, texts)
    for text, file in files.items():
        right = right_output(file)
        lies(tally, tree, path, text, right, [right_output(other) for other in files.values() if other != file])
        cuts(tally, path, text, right)
        ends(tally, path, text, right)
    later_lies(tally, folder, path, files)
    unusable_programs(tally, tree, path)


def honest(tally, tree, path, texts):
    """What hands the bytes on to kitchen itself gives the right answers, so that all else fails for its own reason."""
    for text in texts:
        for command in ("ask", "advise"):
            equal(called(command, text, program=path), called(command, text), f"honest: {command} {text.name}")
        equal(ran(["./show", text], cwd=tree), ran(["./show", text]), f"honest: {text.name}")
        tally["honest"] += 1


def lies(tally, tree, path, text, right, others):
    own = plan_lies(right) if right.startswith(b"rounds") else choice_lies(right) if right.startswith(b"chosen") else []
    own = [b"refused 14 at %d\n" % place for place in (0, 1)] if right.startswith(b"refused 14") else own
    any_time = [] if text.stem in ("A", "F") else lies_of_any(right)
    found = [output for output in dict.fromkeys([*own, *any_time, *others]) if output != right]
    for place in (0, 1):
        if right == b"refused 14 at %d\n" % place:
            tally[f"other places than {place}"] += b"refused 14 at %d\n" % (1 - place) in found
    for number, output in enumerate(found):
        says(path, output)
        label = f"{output[:120]!r}"
        no_answer(tally, text, path, label, ("ask", "json", "advise") if number % 4 == 0 else ("ask", "advise"))
        if number % 16 == 0:
            status, output, errors = ran(["./show", f"jobs/{text.name}"], cwd=tree)
            check((status, output) == (1, "") and errors, f"{label} in a copied tree: {status}\n{output}{errors}")
            tally["lies in a copied tree"] += 1


def cuts(tally, path, text, right):
    """A write that failed on its way, at every byte."""
    for size in range(len(right)):
        says(path, right[:size])
        no_answer(tally, text, path, f"cut to {size} bytes", ("ask", "advise"))
        tally["cuts"] += 1


def ends(tally, path, text, right):
    """The right output, and another end than that of kitchen."""
    says(path, right)
    show = ["cat >/dev/null", f'cat "{path.with_name("output")}"']
    for label, lines in {
        "status 1": [*show, "exit 1"], "status 14": [*show, "exit 14"], "killed": [*show, "kill -9 $$"],
        "ended": [*show, "kill -15 $$"], "noise": [*show, "echo trouble >&2"],
        "all on standard error": [show[0], show[1] + " >&2"], "unread": ["exit 0"], "unread and failed": ["exit 3"],
    }.items():  # fmt: skip
        script(path, *lines)
        no_answer(tally, text, path, label)
        tally["ends"] += 1


def later_lies(tally, folder, path, files):
    """A stand-in that is right about the text, and not about what is asked to give advice."""
    short = folder / "short.txt"
    short.write_bytes(SHORT)
    files = files | {short: kitchen.written(stated(SHORT).job)}
    asks_more = [text for text in files if text.stem in ("A", "kitchen", "impossible", "larder", "short")]
    for text in asks_more:
        path.with_name("file").write_bytes(files[text])
        right = right_output(files[text])
        refused = [b"refused %d at 0\n" % number for number in (1, 14, 15)] + [b"refused 14 at 1\n"]
        for output in dict.fromkeys([b"", right[:-1], *refused, b"chosen\naside\n", right]):
            path.with_name("output").write_bytes(output)
            keep, file, lie = (f'"{path.with_name(name)}"' for name in ("asked", "file", "output"))
            script(path, f"cat >{keep}", f'if cmp -s {keep} {file}; then "{KITCHEN}" <{keep}; else cat {lie}; fi')
            no_answer(tally, text, path, f"{output!r} to what follows", ("advise",))
            tally["later lies"] += 1


def unusable_programs(tally, tree, path):
    path.unlink()
    for label, make in {
        "missing": lambda: None,
        "not executable": lambda: path.write_bytes(KITCHEN.read_bytes()),
        "no program": lambda: (path.write_bytes(b"\x7fELF junk"), path.chmod(0o755)),
        "a directory": lambda: (path.unlink(), path.mkdir()),
    }.items():
        make()
        for text in SAMPLES:
            no_answer(tally, text, path, label)
        status, output, errors = ran(["./show", "jobs/kitchen.txt"], cwd=tree)
        check((status, output) == (1, "") and str(path) in errors, f"{label}: {status}\n{output}{errors}")
        tally["ends"] += 1


# ---- drawn jobs beside the second program


@section(
    "drawn", "kitchens", "no kitchens", "no rounds", "plans", "long plans", "no plans", "set aside", "through the command line",
    "other selections not taken", "other plans taken", "other plans not taken", "falls short", "does not fall short",
    "with prices that are not asked for"
)  # fmt: skip
def drawn(tally, folder):
    draw = random.Random(20261116)
    jobs = [drawn_choice(draw, 8, 7) for _ in range(220)] + [tight_choice(draw, 8, 6) for _ in range(80)]
    jobs += [drawn_fitting(draw, 5, 6, 6) for _ in range(260)] + [drawn_fitting(draw, 7, 4, 4) for _ in range(40)]
    jobs += [chain(draw, draw.randrange(1, 9), draw.randrange(1, 10)) for _ in range(40)]
    jobs += [ours_of(draws.walk(draw, draw.randrange(2, 9), draw.randrange(17))) for _ in range(40)]
    jobs += [with_prices(draw, drawn_choice(draw, 8, 7)) for _ in range(60)]
    for number, job in enumerate(jobs):
        job = renamed(draw, job)
        text = text_of(job)
        if number % 8:
            answer = asking.asked(text.job)
            lines = telling.told(text, answer) + (telling.aside_told(text, answer.aside) if hasattr(answer, "aside") else [])
            status, output = commands.status_of(answer), "\n".join(lines) + "\n"
        else:
            path = folder / "drawn.txt"
            path.write_text(job_text(job))
            status, output, _ = ran([TOOL, "ask", path]) if number % 32 == 0 else called("ask", path)
            tally["through the command line"] += 1
        told_as_second(text, output, status, f"drawn {number}, {kitchen.written(job).hex()}")
        other_answers(tally, job, draw, f"drawn {number}, {kitchen.written(job).hex()}")
        tally[outcome(output)] += 1
        tally["long plans"] += outcome(output) == "plans" and len(rows(output)) > 3
        tally["set aside"] += "Set aside at once" in output
        tally["with prices that are not asked for"] += any(record.price for record in job.records)
        tally["falls short"] += tool.COUNTED[0][0] in output
        tally["does not fall short"] += tool.COUNTED[1][0] in output


def other_answers(tally, job, draw, label):
    """Of all that could be printed only the smallest selection, or a plan of the fewest rounds, is taken for an answer."""
    if job.kind is kitchen.CHOICE:
        return other_choices(tally, job, draw, label)
    fewest = second_count(job)
    equal(accepted(asking.plan_answer, job, "refused 15 at 0\n"), fewest is None, f"{label}: no plan")
    equal(trying.found_plan(job, job.horizon) is None, fewest is None, f"{label}: whether a search of all rounds finds a plan")
    for rounds in drawn_rounds(job, draw, fewest):
        good = len(rounds) == fewest and all(rounds) and rules.is_plan(reader.read(kitchen.written(job)), rounds)
        equal(accepted(asking.plan_answer, job, numbered(map(sorted, rounds)).decode()), good, f"{label}: {rounds} as the plan")
        tally["other plans taken" if good else "other plans not taken"] += 1


def other_choices(tally, job, draw, label):
    answer, n = second_choice(job), len(job.records)
    for place in range(3):
        right = answer is None and place == second_place(job)
        equal(accepted(asking.choice_answer, job, f"refused 14 at {place}\n"), right, f"{label}: no selection, at {place}")
    kitchens = [rules.number(chosen) for chosen in covering(clash_free(job), job.sets[0])]
    numbers = draw.sample(kitchens, min(8, len(kitchens))) + [draw.randrange(2**n) for _ in range(4)]
    _, aside = answer or (set(), draws.some(draw, n, 0.3))
    for number in numbers + ([rules.number(answer[0])] if answer else []):
        for out in (aside, draws.some(draw, n, 0.2)):
            output = f"chosen{rules.shown(rules.of(number))}\naside{rules.shown(out)}\n"
            good = answer is not None and [rules.of(number), out] == answer
            equal(accepted(asking.choice_answer, job, output), good, f"{label}: {output!r}")
            tally["other selections not taken"] += number in kitchens and not good


def drawn_rounds(job, draw, fewest):
    """Rounds that can be done, as many as needed, one more or one less; the goal may hold then or not."""
    state = reader.read(kitchen.written(job))
    for _ in range(12):
        holds, found = set(state.start), []
        for _ in range((fewest or 0) + draw.choice([-1, 0, 0, 1, 1])):
            found.append(draw.choice([steps for steps in rules.rounds(state, holds) if steps] or [set()]))
            holds = rules.after(state, holds, found[-1])
        yield found


def accepted(action, job, output):
    """Whether an output is taken for an answer."""
    try:
        action(job, output)
    except trying.Broken:
        return False
    return True


def outcome(output):
    kinds = {"A kitchen of": "kitchens", "No such kitchen": "no kitchens", "A plan of": "plans", "No such plan": "no plans"}
    kinds |= {"The goal holds at the start": "no rounds", "The order has no wish": "empty orders"}
    return next((name for start, name in kinds.items() if output.startswith(start)), "nothing told")


# ---- advice, beside all sets of articles and all rounds


def clash_free(job):
    """Every set of articles in which no two clash, with the wishes that they carry."""
    found, articles = [], range(len(job.records))
    for number in range(2 ** len(job.records)):
        chosen = {article for article in articles if number >> article & 1}
        if not any(low in job.records[high].sets[1] for low, high in combinations(sorted(chosen), 2)):
            found.append((chosen, set().union(*(job.records[article].sets[0] for article in chosen))))
    return found


def covering(sets, order):
    return [chosen for chosen, wishes in sets if order <= wishes]


def spoken(names):
    """Names in a sentence."""
    if any("," in name or " and " in name for name in names) or len(names) < 2:
        return "; ".join(names)
    return ", ".join(names[:-1]) + " and " + names[-1]


# What is told last of a kitchen if there are prices.
ONE_PRICE = (
    "If the price of one article changes and all else stays as it is, the total of the cheapest kitchen for this order, before "
    "tax, changes by no more than the price does, and never the other way, even if another kitchen is the cheapest then: if an "
    "article becomes 0.40 dearer, the total rises by 0.40 at most and does not fall."
)
SHOP = "choice\nwishes: a, b\norder: a\narticle X\nwishes: a\n"
# A text, options, and whether it is told what a change of one price can do.
PRICED = [
    (sample("prices").read_text(), [], True),
    (sample("prices").read_text(), ["--order", ""], True),
    (sample("prices").read_text(), ["--bound", "--order", "oven"], True),
    (SHOP, [], False),
    (SHOP + "price: 0\n", [], False),
    (SHOP + "price: 0.00\narticle Y\nwishes: b\nprice: -0\n", ["--bound"], False),
    (SHOP + "price: 0\narticle Y\nwishes: b\nprice: -0.01\n", [], True),
    (SHOP + "article Y\nwishes: b\nclashes: X\nprice: 21474836.47\n", ["--bound"], True),
    (SHOP + "price: 12.5\n", ["--order", "b"], False),
    (SHOP + "price: 12.5\narticle Y\nwishes: b\nclashes: X\nprice: 7\n", ["--bound", "--order", "a, b"], False),
    *((path.read_text(), [], False) for path in SAMPLES if path.stem != "prices"),
    (SHORT.decode(), [], False),
    (CHOICE_EXAMPLE, [], False),
]


@section(
    "advise", "every", "none", "some", "parts of 1", "parts of 2", "parts of 3", "parts of more", "not enough", "uncarried",
    "horizons that would do", "horizons that none would", "ungiven", "goals that are given in vain", "command lines",
    "falls short", "does not fall short", "told of one price", "prices without a kitchen", "not told of one price"
)  # fmt: skip
def advise(tally, folder):
    draw = random.Random(7)
    jobs = [drawn_choice(draw, 7, 6) for _ in range(150)] + [tight_choice(draw, 7, 6) for _ in range(130)]
    jobs += [linked_choice(draw, draw.choice([2, 3, 3, 4, 4])) for _ in range(40)]
    jobs += with_drawn_prices(60)
    for number, job in enumerate(jobs):
        text, sets = text_of(job), clash_free(job)
        label = f"advice {number}, {kitchen.written(job).hex()}"
        answer = asking.asked(job)
        found = advising.advice(job, answer)
        kitchens = covering(sets, job.sets[0])
        check(isinstance(answer, kitchen.NoSelection) == (not kitchens), f"{label}: whether there is a kitchen")
        if kitchens:
            expected = every_none_some(tally, job, kitchens, found, label) + ([ONE_PRICE] if priced(job) else [])
        else:
            short = second_bound(job) < len(job.sets[0])
            equal(answer, kitchen.NoSelection(0 if short else 1), f"{label}: whether the order falls short")
            tally["falls short" if short else "does not fall short"] += 1
            expected = why_not(tally, text, sets, found, label)
        as_lines(tally, folder, text, answer, expected, number, label)
    for number in range(220):
        job = drawn_fitting(draw, 5, 5, 3) if number % 3 else chain(draw, draw.randrange(1, 18), draw.randrange(17))
        text, label = text_of(job), f"advice on fitting {number}, {kitchen.written(job).hex()}"
        answer = asking.asked(job)
        expected = [] if answer is not kitchen.NoPlan else which_horizon(tally, text, advising.advice(job, answer), label)
        as_lines(tally, folder, text, answer, expected, number, label)
    told_of_one_price(tally, folder)


def priced(job):
    return any(record.price for record in job.records)


def with_drawn_prices(count):
    """Drawn jobs with prices, by a source of their own; some of them have no kitchen."""
    draw = random.Random(23)
    return [with_prices(draw, draw.choice([drawn_choice, drawn_choice, tight_choice])(draw, 7, 6)) for _ in range(count)]


def told_of_one_price(tally, folder):
    """What a change of one price can do is told last, if there are a price and a kitchen; all else as if there were no prices."""
    path = folder / "priced.txt"
    for text, options, told in PRICED:
        path.write_text(text)
        status, output, _ = called("advise", path, *options)
        path.write_text(re.sub(r"\n *price: .*", "", text))
        plain, without, _ = called("advise", path, *options)
        equal((status, output), (plain, without + f"{ONE_PRICE}\n" * told), f"advise {options} of\n{text}")
        check("cheapest" not in without, f"advise {options}, without prices: {without}")
        tally["told of one price" if told else "not told of one price"] += 1


def every_none_some(tally, job, kitchens, found, label):
    every, some = set.intersection(*kitchens), set.union(*kitchens)
    none = set(range(len(job.records))) - some
    equal(found, advising.Articles(every, none, some - every), label)
    lists = {"every": every, "none": none, "some": some - every}
    for word, articles in lists.items():
        tally[word] += bool(articles)
    names = [spoken([record_name(job, number) for number in sorted(articles)]) or "no article" for articles in lists.values()]
    return list(zip(("In every kitchen for this order:", "In none:", "In some:"), names))


def why_not(tally, text, sets, found, label):
    job, order = text.job, text.job.sets[0]
    carried = set().union(*(record.sets[0] for record in job.records))
    equal(found.uncarried, order - carried, f"{label}: wishes that no article carries")
    check(found.part <= order and not covering(sets, found.part), f"{label}: the part {found.part} cannot be had")
    equal([rest.wish for rest in found.rests], sorted(found.part), f"{label}: each wish of the part")
    expected, quoted = [], lambda wish: f'"{text.names[wish].decode()}"'
    for rest in found.rests:
        check(covering(sets, found.part - {rest.wish}), f"{label}: the part without {rest.wish} can be had")
        check(rest.kitchen.articles in covering(sets, found.part - {rest.wish}), f"{label}: a kitchen without {rest.wish}")
        equal(rest.enough, bool(covering(sets, order - {rest.wish})), f"{label}: the order without {rest.wish}")
        still = "" if rest.enough else "; the rest of the whole order cannot be had, either"
        names = spoken([record_name(job, number) for number in sorted(rest.kitchen.articles)])
        expected.append((f"Without {quoted(rest.wish)}{still}:", names))
        tally["not enough"] += not rest.enough
    tally[f"parts of {len(found.part) if len(found.part) < 4 else 'more'}"] += 1
    tally["uncarried"] += bool(found.uncarried)
    part = spoken([quoted(wish) for wish in sorted(found.part)])
    head = [f"No article carries {quoted(wish)}." for wish in sorted(found.uncarried)]
    if len(found.part) == 1:
        return [*head, f"Already {part} alone cannot be had."]
    together = "Each wish of these can be left out, and the others of them can be had:"
    return [*head, f"These wishes cannot be had together: {part}.", together, *expected]


def all_rounds(job, holds):
    """Every set of steps that may be done together if this holds."""
    found = [()]
    for number, step in enumerate(job.records):
        if step.sets[0] <= holds:
            found += [(*others, number) for others in found if not any(disturb(step, job.records[u]) for u in others)]
    return found


def disturb(a, b):
    return bool(a.sets[2] & (b.sets[0] | b.sets[1]) or b.sets[2] & (a.sets[0] | a.sets[1]))


def fewest_rounds(job, most):
    """The fewest rounds after which the goal can hold, 0 if there is no plan of at most `most`."""
    states, seen = {frozenset(job.sets[0])}, set()
    for number in range(most + 1):
        if any(job.sets[1] <= holds for holds in states):
            return number
        seen |= states
        following = set()
        for holds in states:
            for steps in all_rounds(job, holds):
                taken = set().union(*(job.records[step].sets[2] for step in steps))
                following.add(frozenset((holds - taken).union(*(job.records[step].sets[1] for step in steps))))
        states = following - seen
    return 0


def which_horizon(tally, text, found, label):
    job, most = text.job, text.job.kind.horizon
    ungiven = {fact for fact in job.sets[1] if fact not in job.sets[0] and not any(fact in r.sets[1] for r in job.records)}
    rounds = fewest_rounds(job, most)
    equal(found, advising.Horizon(ungiven, rounds), label)
    check(rounds == 0 or rounds > job.horizon, f"{label}: a plan within the horizon")
    tally["horizons that would do" if rounds else "horizons that none would"] += 1
    tally["ungiven"] += bool(ungiven)
    tally["goals that are given in vain"] += not ungiven and not rounds
    lines = [f'Nothing gives "{text.names[fact].decode()}", and it does not hold at the start.' for fact in sorted(ungiven)]
    word = "round" if rounds == 1 else "rounds"
    would = f"A horizon of {rounds} {word} would do; no plan has fewer."
    return [*lines, would if rounds else f"No plan takes {most} rounds or fewer, and no job can have more."]


def as_lines(tally, folder, text, answer, expected, number, label):
    """The advice comes after the answer: now and then it is put into words, in turn here and by the command."""
    answered = telling.told(text, answer)
    if number % 3:
        return
    if number % 6:
        lines, status = advising.advised(text, answer), commands.status_of(answer)
    else:
        path = folder / "advised.txt"
        path.write_text(job_text(text.job))
        status, output, _ = ran([TOOL, "advise", path]) if number % 30 == 0 else called("advise", path)
        lines = output.splitlines()
        tally["command lines"] += 1
    equal(lines[: len(answered)], answered, f"{label}: the answer comes first")
    split = [rows(line)[0] if line.startswith("  ") else line for line in lines[len(answered) :]]
    none = isinstance(answer, kitchen.NoSelection) or answer is kitchen.NoPlan
    equal((status, split), (3 if none else 0, expected), f"{label}: in words")
    tally["told of one price"] += ONE_PRICE in expected
    tally["prices without a kitchen"] += priced(text.job) and none


# ---- further kitchens


def second_further(job, number):
    """The second program's choices at rising floors, after the first."""
    state = reader.read(kitchen.written(job))
    groups, goals, found, floor = rules.own_groups(state), [state.order] if state.order else [], [], 0
    while len(found) <= number:
        try:
            chosen, aside = rules.chosen(state, groups, goals, floor)
        except reader.Refused:
            break
        found.append(kitchen.Selection(chosen, aside))
        floor = rules.number(chosen) + 1
    return found[1:]


def further_lines(text, following):
    found = []
    for number, other in enumerate(following, 1):
        found.append(f"Further kitchen {number}, of {len(other.articles)} article{'s' * (len(other.articles) != 1)}:")
        found += article_rows(text, other.articles)
    return found or ["There is no further kitchen."]


@section(
    "next", "further kitchens", "fewer than asked for", "no further", "all 64", "command lines", "libraries that are not used"
)
def next_kitchens(tally, folder):
    draw = random.Random(3)
    for number in range(200):
        job = drawn_choice(draw, 7, 4)
        text, first, wanted = text_of(job), asking.asked(job), draw.choice([1, 1, 2, 3, 5, 8])
        label = f"{wanted} further, {kitchen.written(job).hex()}"
        if isinstance(first, kitchen.NoSelection):
            continue
        expected = second_further(job, wanted)
        equal(asking.further(job, first, wanted), expected, label)
        tally["further kitchens"] += len(expected)
        tally["fewer than asked for"] += 0 < len(expected) < wanted
        tally["no further"] += not expected
        if number % 5 == 0:
            path = folder / "next.txt"
            path.write_text(job_text(job))
            call = ["ask", "--next", wanted, path]
            status, output, errors = ran([TOOL, *call]) if number % 25 == 0 else called(*call)
            lines = telling.told(text, first) + telling.aside_told(text, first.aside)
            equal(output.splitlines()[: len(lines)], lines, f"{label}: the first comes first")
            split = [rows(line)[0] if line.startswith("  ") else line for line in output.splitlines()[len(lines) :]]
            equal((status, split), (0, further_lines(text, expected)), f"{label}: in words, {errors}")
            tally["command lines"] += 1
    wide_next(tally)
    none_at_all(tally)
    unusable_libraries(tally, folder)


def wide_next(tally):
    """All 64 articles are needed, or all but the first: the numbers come to the last one that there is."""
    for free, expected in ((0, []), (1, [kitchen.Selection(set(range(64)), set())])):
        articles = [kitchen.article({number} - set(range(free))) for number in range(64)]
        job = kitchen.choice(64, range(free, 64), articles)
        equal(asking.further(job, asking.asked(job), 3), expected, f"64 articles, {free} of them free")
        tally["all 64"] += 1


def none_at_all(tally):
    path = sample("impossible")
    equal(called("ask", "--next", 2, path), called("ask", path), "no kitchen, and so no further one")
    status, output, _ = called("ask", "--next", "3", sample("A"))
    check(status == 0 and output.count("Further kitchen") == 2, f"two further kitchens of A: {output}")
    status, output, _ = called("ask", "--next", "1", "--json", sample("A"), path)
    lines = [json.loads(line) for line in output.splitlines()]
    equal((status, [len(line.get("further", [])) for line in lines]), (3, [1, 0]), "further kitchens as JSON")


def put_libraries(tree):
    """Into a tree come libraries that cannot be used, in turn, each with what is said of it; and at last one that can."""
    path, module = tree / "target" / "lib" / "libkitchen.so", tree / "host" / "kitchen.py"
    path.parent.mkdir(parents=True)
    for label, content, version, phrase in (
        ("missing", None, kitchen.VERSION, "libkitchen.so is missing; build it with tools/library"),
        ("empty", b"", kitchen.VERSION, f"{path} is no library of ours"),
        ("junk", b"junk", kitchen.VERSION, f"{path} is no library of ours"),
        ("no such functions", KITCHEN.read_bytes(), kitchen.VERSION, f"{path} is no library of ours"),
        ("older", LIBRARY.read_bytes(), kitchen.VERSION + 1, f"has the interface {kitchen.VERSION}; this module is for"),
        ("usable", LIBRARY.read_bytes(), kitchen.VERSION, ""),
    ):
        if content is not None:
            path.write_bytes(content)
        text = (ROOT / "host" / "kitchen.py").read_text()
        module.write_text(text.replace(f"\nVERSION = {kitchen.VERSION}\n", f"\nVERSION = {version}\n"))
        yield f"a library, {label}", phrase
    path.unlink()


def unusable_libraries(tally, folder):
    """Without a library of this version nothing is told of a text; without --next all is."""
    tree = copied_tree(folder)
    shutil.copy(KITCHEN, tree / PLACE)
    call = ["tools/job", "ask", "--next", "1"]
    for label, phrase in put_libraries(tree):
        status, output, errors = ran([*call, "jobs/kitchen.txt"], cwd=tree)
        if not phrase:
            check(status == 0 and "Further kitchen 1, of 7 articles:" in output, f"{label}: {status}\n{output}{errors}")
            continue
        check((status, output) == (1, "") and phrase in errors, f"{label}: {status}\n{output}{errors}")
        status, output, _ = ran([*call, "--json", "jobs/kitchen.txt", "jobs/impossible.txt"], cwd=tree)
        equal((status, [json.loads(line)["answer"] for line in output.splitlines()]), (1, ["error", "no such kitchen"]), label)
        tally["libraries that are not used"] += 1
    status, output, _ = ran(["tools/job", "ask", "jobs/kitchen.txt"], cwd=tree)
    check(status == 0 and output.startswith("A kitchen of 7 articles"), f"without --next no library is needed: {output}")


# ---- how far the wishes can go


@section(
    "bound", "bounds", "reached", "not reached", "falls short", "does not fall short", "empty orders", "command lines", "lies",
    "honest", "libraries that are not used"
)  # fmt: skip
def bounds(tally, folder):
    draw, path = random.Random(13), folder / "bound.txt"
    jobs = [drawn_choice(draw, 7, 6) for _ in range(150)] + [tight_choice(draw, 7, 6) for _ in range(80)]
    jobs += [linked_choice(draw, draw.choice([2, 3, 4])) for _ in range(20)]
    for number, job in enumerate(jobs):
        label = f"bound {number}, {kitchen.written(job).hex()}"
        expected = how_far(tally, job, label)
        equal(asking.bound(job), expected, label)
        if number % 5 == 0:
            path.write_text(job_text(job))
            call = ["advise", "--bound", path]
            found = ran([TOOL, *call]) if number % 25 == 0 else called(*call)
            equal(found, with_bound(text_of(job), called("advise", path), expected), f"{label}: in words")
            tally["command lines"] += 1
    for text in [*(path for path in SAMPLES if stated(path.read_bytes()).job.kind is kitchen.CHOICE), larder_in(folder)]:
        lies_about_bounds(tally, text)
    bound_libraries(tally, folder)


def how_far(tally, job, label):
    """The sum of all contributions to the order, which no set of articles without a clash exceeds; None without a wish."""
    order, expected = job.sets[0], second_bound(job)
    if not order:
        tally["empty orders"] += 1
        return None
    most = max(len(wishes & order) for _, wishes in clash_free(job))
    check(most <= expected, f"{label}: {most} wishes of the order can be had together")
    tally["bounds"] += 1
    tally["reached" if most == expected else "not reached"] += 1
    tally["falls short" if expected < len(order) else "does not fall short"] += 1
    return expected


def with_bound(text, advised, expected):
    """What advise tells, with a line on the bound before it, if there is one."""
    status, output, errors = advised
    lines = output.splitlines()
    if expected is not None:
        groups = "the articles form groups in which all exclude each other; if every group gives the one that carries most wishes"
        wishes = f"{expected} wish{'es' * (expected != 1)}, each counted as often as it is carried"
        lines.insert(0, f"How far the wishes can go: {groups} of the order, that adds up to {wishes}; the order has {len(text.job.sets[0])}.")
    return status, "".join(f"{line}\n" for line in lines), errors


def lies_about_bounds(tally, path):
    """A library that answers another number, or refuses, is not believed: status 1, and nothing is told."""
    text, true = stated(path.read_bytes()), kitchen.Library.bound
    right, advised = second_bound(text.job), called("advise", path)
    refusals = [kitchen.Refused(number, 0) for number in (1, 11, 12, 13, 14)]
    try:
        for answer in [right - 1, right + 1, len(text.job.records), 2**64 - 1, *refusals, kitchen.Unusable("it is not usable")]:
            if answer == right:
                continue
            kitchen.Library.bound = tool.Bounding(answer).bound
            status, output, errors = called("advise", "--bound", path)
            said = errors.startswith("how far the wishes can go cannot be told: ")
            check((status, output) == (1, "") and said, f"{answer!r} for {path.name}: {status}, {output}{errors}")
            tally["lies"] += 1
        kitchen.Library.bound = tool.Bounding(right).bound
        equal(called("advise", "--bound", path), with_bound(text, advised, right), f"honest, {path.name}")
    finally:
        kitchen.Library.bound = true
    equal(called("advise", "--bound", path), with_bound(text, advised, right), f"the library itself, {path.name}")
    tally["honest"] += 1


def bound_libraries(tally, folder):
    """Without a library of this version nothing is told if --bound is asked for; without --bound all is."""
    tree = copied_tree(folder)
    shutil.copy(KITCHEN, tree / PLACE)
    advised = ran(["tools/job", "advise", "jobs/impossible.txt"])
    for label, phrase in put_libraries(tree):
        status, output, errors = ran(["tools/job", "advise", "--bound", "jobs/impossible.txt"], cwd=tree)
        if not phrase:
            check(status == 3 and "that adds up to 3 wishes, each counted as often as it is carried; the order has 3.\n" in output, f"{label}: {status}\n{output}{errors}")
            continue
        said = errors.startswith("how far the wishes can go cannot be told: ") and "; without --bound all else is told" in errors
        check((status, output) == (1, "") and said and phrase in errors, f"{label}: {status}\n{output}{errors}")
        equal(ran(["tools/job", "advise", "jobs/impossible.txt"], cwd=tree), advised, f"{label}, and --bound is not asked for")
        tally["libraries that are not used"] += 1


# ---- what the cheapest costs


def second_priced(job, rate):
    """The second program's answer; None if there is no selection."""
    try:
        return kitchen.Priced(*rules.price(kitchen.written(job), rate))
    except reader.Refused as refusal:
        equal((refusal.reason, refusal.place), (14, 0), f"a price of {job}")
        return None


def amount(cents):
    return f"{'-' * (cents < 0)}{abs(cents) // 100}.{abs(cents) % 100:02}"


def with_cheapest(text, asked, rate, expected):
    """What ask tells, with the cheapest kitchen after it: its articles, its total and its tax."""
    status, output, errors = asked
    if expected is None:
        return status, output.splitlines(), errors
    order, found = len(expected.articles), article_rows(text, expected.articles)
    prices = [text.job.records[number].price for number in sorted(expected.articles)]
    prices = [amount(price) if price else "-" for price in prices]
    lines = [f"The cheapest kitchen, of {order} article{'s' * (order != 1)}:"]
    lines += [" ".join([name, price, *wishes.split()]) for (name, wishes), price in zip(found, prices)]
    total = f"Its total is {amount(expected.total)}, and the tax of {rate} percent on it is {amount(expected.tax)}."
    return status, [*output.splitlines(), *lines, total], errors


def evened(found, told):
    """A call's outcome in lines; after those that are told without a rate blanks do not count."""
    status, output, errors = found
    lines, count = output.splitlines(), len(told[1].splitlines())
    return status, lines[:count] + [" ".join(line.split()) for line in lines[count:]], errors


@section(
    "price", "priced", "below zero", "not the smallest", "ties", "halves", "no kitchens", "command lines", "lines of json", "lies",
    "honest", "libraries that are not used", "dearer", "cheaper", "all of a change", "a part of a change",
    "nothing of a change", "another cheapest"
)  # fmt: skip
def prices(tally, folder):
    draw, path = random.Random(17), folder / "price.txt"
    jobs = [with_prices(draw, drawn_choice(draw, 8, 6)) for _ in range(250)] + [with_prices(draw, tight_choice(draw, 8, 5)) for _ in range(50)]
    jobs += [renamed(draw, ours_of(draws.grouped_choice(draw, 30, 5))) for _ in range(10)]
    for number, job in enumerate(jobs):
        percent, rate = draw.choice([("0", 0), ("0.01", 1), ("7.5", 750), ("19", 1900), ("50", 5000), ("50", 5000), ("100", 10_000)])
        label = f"{percent} percent of {number}, {kitchen.written(job).hex()}"
        expected = second_priced(job, rate)
        what_it_came_to(tally, job, rate, expected)
        if number % 6 and expected is not None:
            equal(asking.cheapest(job, rate, asking.asked(job)), expected, label)
            continue
        path.write_text(job_text(job))
        call, told = ["ask", "--rate", percent, path], called("ask", path)
        found = ran([TOOL, *call]) if number % 24 == 0 else called(*call)
        equal(evened(found, told), with_cheapest(text_of(job), told, percent, expected), f"{label}: in words")
        tally["command lines"] += 1
    changes_of_one_price(tally)
    asked_as_json(tally, folder)
    lies_about_prices(tally)
    price_libraries(tally, folder)


def repriced(job, number, price):
    """The job with another price of one article."""
    return job._replace(records=[r._replace(price=price) if u == number else r for u, r in enumerate(job.records)])


def other_price(draw, old):
    """None, one that is drawn, or one that is near."""
    near = max(kitchen.LOWEST_PRICE, min(kitchen.HIGHEST_PRICE, old + draw.choice([-40, -1, 1, 40])))
    return draw.choice([0, draws.drawn_price(draw), draws.drawn_price(draw), near, near])


def changes_of_one_price(tally):
    """The cheapest total, by the second program, changes by no more than the price does, and never the other way."""
    draw = random.Random(31)
    for job in with_drawn_prices(600) + [ours_of(draws.grouped_choice(draw, 20, 5)) for _ in range(100)]:
        before = second_priced(job, 0)
        if before is None or not job.records:
            continue
        number = draw.randrange(len(job.records))
        old = job.records[number].price
        new = other_price(draw, old)
        after = second_priced(repriced(job, number, new), 0)
        change, total = new - old, after.total - before.total
        label = f"{new} for {old} of article {number}, {kitchen.written(job).hex()}"
        check(min(change, 0) <= total <= max(change, 0), f"{label}: the total changes by {total}")
        tally["another cheapest"] += after.articles != before.articles
        if change:
            tally["dearer" if change > 0 else "cheaper"] += 1
            tally["all of a change" if total == change else "a part of a change" if total else "nothing of a change"] += 1


def what_it_came_to(tally, job, rate, expected):
    if expected is None:
        tally["no kitchens"] += 1
        return
    state = reader.read(kitchen.written(job))
    others = [other for other in rules.selections(state) if other != expected.articles] if len(job.records) < 10 else []
    tally["priced"] += 1
    tally["below zero"] += expected.total < 0
    tally["not the smallest"] += any(rules.number(other) < rules.number(expected.articles) for other in others)
    tally["ties"] += any(rules.cost(state, other) == expected.total for other in others)
    tally["halves"] += expected.total * rate % 10_000 == 5_000


def asked_as_json(tally, folder):
    """The cheapest kitchen for programs, in cents; only with a rate, and only if there is a kitchen."""
    short = larder_in(folder)
    status, output, _ = called("ask", "--json", "--rate", "19", sample("prices"), sample("A"), short)
    with_one, without, none = map(json.loads, output.splitlines())
    numbers = [(article["number"], article["price"]) for article in with_one["cheapest"]["articles"]]
    equal(numbers, [(0, 64900), (3, 15850), (4, 91200), (5, -7500)], "the cheapest kitchen of the sample")
    equal((with_one["cheapest"]["total"], with_one["cheapest"]["tax"]), (164450, 31246), "its total and its tax")
    cheapest = without["cheapest"]
    equal((cheapest["total"], cheapest["tax"], [article["number"] for article in cheapest["articles"]]), (0, 0, [2]), "without prices")
    equal((status, "cheapest" in none), (3, False), "no kitchen, and so no price")
    check("cheapest" not in json.loads(called("ask", "--json", sample("prices"))[1]), "without a rate nothing is priced")
    equal(called("ask", "--rate", "19", short), called("ask", short), "no kitchen, with a rate")
    status, output, _ = called("ask", "--next", "1", "--rate", "19", sample("prices"))
    check(status == 0 and output.index("Further kitchen 1") < output.index("The cheapest kitchen, of 4"), f"both: {output}")
    tally["lines of json"] += 3


def lies_about_prices(tally):
    """A library that answers anything else, or refuses, is not believed: status 1, and nothing is told."""
    path, true = sample("prices"), kitchen.Library.price
    text = stated(path.read_bytes())
    right, told, draw = second_priced(text.job, 1900), called("ask", path), random.Random(19)
    try:
        for answer in tool.wrong_prices(draw, reader.read(kitchen.written(text.job)), right):
            if answer == right:
                continue
            kitchen.Library.price = tool.Pricing(answer).price
            for call in (["ask"], ["ask", "--json"]):
                status, output, errors = called(*call, "--rate", "19", path)
                said = "the cheapest kitchen cannot be told: " in errors and "; without --rate all else is told" in errors
                check(status == 1 and said and tells_nothing(output), f"{answer!r}: {status}, {output}{errors}")
            tally["lies"] += 1
        kitchen.Library.price = tool.Pricing(right).price
        equal(evened(called("ask", "--rate", "19", path), told), with_cheapest(text, told, "19", right), "honest")
    finally:
        kitchen.Library.price = true
    equal(evened(called("ask", "--rate", "19", path), told), with_cheapest(text, told, "19", right), "the library itself")
    tally["honest"] += 1


def price_libraries(tally, folder):
    """Without a library of this version nothing is told if --rate is given; without it all is."""
    tree = copied_tree(folder)
    shutil.copy(KITCHEN, tree / PLACE)
    asked = ran(["tools/job", "ask", "jobs/prices.txt"])
    for label, phrase in put_libraries(tree):
        status, output, errors = ran(["tools/job", "ask", "--rate", "19", "jobs/prices.txt"], cwd=tree)
        if not phrase:
            check(status == 0 and "Its total is 1644.50, and the tax of 19 percent on it is 312.46.\n" in output, f"{label}: {status}\n{output}{errors}")
            continue
        check((status, output) == (1, "") and phrase in errors, f"{label}: {status}\n{output}{errors}")
        equal(ran(["tools/job", "ask", "jobs/prices.txt"], cwd=tree), asked, f"{label}, and no rate is given")
        tally["libraries that are not used"] += 1


# ---- changes

OAK = "Worktop oak, oiled"
# A sample, arguments, the change that they mean, and a part of the text that is read back, which the old one does not have.
SAVED = [
    ("kitchen", ["order", "wish 0, #3, wish 8"], Change("order", None, {0, 3, 8}), "order: wish 0, wish 3, wish 8\n"),
    ("kitchen", ["order"], Change("order", None, set()), "order:\n"),
    ("kitchen", ["wishes", "Sink unit 45", "#9, wish 14"], Change("wishes", 17, {9, 14}), "45\n  wishes: wish 9, wish 14\n"),
    ("kitchen", ["wishes", OAK, ""], Change("wishes", 12, set()), f'article "{OAK}"\n  clashes: Worktop laminate 38 mm\n'),
    ("kitchen", ["clashes", "#18", f'"{OAK}", #17, Corner carousel 80'], Change("clashes", 18, {2, 12, 17}),
     f'  clashes: Corner carousel 80, "{OAK}", Sink unit 45\n'),
    ("kitchen", ["clashes", "Downdraft hob (Muldenlüfter)"], Change("clashes", 16, set()),
     "article Downdraft hob (Muldenlüfter)\n  wishes: wish 8\n\n"),
    ("kitchen", ["name", "Downdraft hob (Muldenlüfter)", "Kochmulde, 80 cm"], Change("name", 16, b"Kochmulde, 80 cm"),
     'article "Kochmulde, 80 cm"\n  wishes: wish 8\n'),
    ("kitchen", ["name", "#0", ""], Change("name", 0, b""), "\narticle\n  wishes: wish 0\n"),
    ("A", ["order", "#1"], Change("order", None, {1}), "order: wish 1\n"),
    ("A", ["order", ""], Change("order", None, set()), "order:\n"),
    ("A", ["wishes", "#2", "wish 1"], Change("wishes", 2, {1}), "  clashes: #0\n\narticle\n  wishes: wish 1\n"),
    ("A", ["wishes", "#0"], Change("wishes", 0, set()), "order: wish 0, wish 1\n\narticle\n\narticle\n"),
    ("A", ["clashes", "#2", "#0, #1"], Change("clashes", 2, {0, 1}), "  clashes: #0, #1\n"),
    ("A", ["clashes", "#1"], Change("clashes", 1, set()), "article\n  wishes: wish 1\n\narticle\n"),
    ("A", ["name", "#1", '"Tür #2"'], Change("name", 1, "Tür #2".encode()), 'article "Tür #2"\n'),
    ("A", ["name", "#2", "x" * 32], Change("name", 2, b"x" * 32), f"article {'x' * 32}\n"),
    ("prices", ["order", "#1"], Change("order", None, {1}), "order: wish 1\n\narticle Oven 60\n  wishes: wish 0\n  price: 649.00\n"),
    ("prices", ["wishes", "#5", "#0"], Change("wishes", 5, {0}), 'taken back"\n  wishes: wish 0\n  price: -75.00\n'),
    ("prices", ["clashes", "Oven with steam"], Change("clashes", 1, set()), "steam\n  wishes: wish 0\n  price: 1149.90\n"),
    ("prices", ["name", "Worktop oak", "Eiche"], Change("name", 2, b"Eiche"), "article Eiche\n  wishes: wish 1\n  price: 389.50\n"),
]  # fmt: skip


def file_of(name):
    """The job file of a sample."""
    return kitchen.written(stated(sample(name).read_bytes()).job)


def saved_by(path, new, arguments, label):
    """What the command writes; None if it writes nothing. The file that it reads stays as it is."""
    before = path.read_bytes()
    status, output, errors = called("change", path, *arguments, "-o", new)
    equal((output, path.read_bytes()), ("", before), f"{label}: {errors}")
    equal((status, errors), (0, "") if new.exists() else (1, errors), f"{label}: the status")
    check(new.exists() or re.match(r".*: refused \d+ at \d+\n", errors), f"{label}: neither a file nor a refusal, {errors}")
    found = new.read_bytes() if new.exists() else None
    new.unlink(missing_ok=True)
    return found


def there(file, change):
    """The change that puts back what a file has."""
    job = kitchen.read(file)
    if change.what == "order":
        return change._replace(value=job.sets[0])
    record = job.records[change.article]
    old = record.name if change.what == "name" else record.sets[kitchen.CHOICE.fields.index(change.what)]
    return change._replace(value=old)


def arguments_of(change):
    return [argument for argument in tool.arguments_of(change) if argument is not None]


@section(
    "change", "order", "wishes", "clashes", "name", "dropped", "back again", "drawn changes", "drawn refusals", "command lines",
    "changes with prices",
    *(f"refused {number}" for number in (1, 2, 6, 7, 8, 9)), "made from a table", "own files", "streams", "lies", "honest",
    "libraries not used"
)  # fmt: skip
def change(tally, folder):
    samples_changed(tally, folder)
    changes_of_tables(tally, folder)
    drawn_changes(tally, folder)
    change_streams(tally, folder)
    lies_of_the_library(tally, folder)
    no_library_to_change(tally, folder)


def samples_changed(tally, folder):
    """Each change of the two samples is the one that was asked for, is read back, and back again it is the old file."""
    path, new = folder / "old.job", folder / "new.job"
    for name, arguments, found, part in SAVED:
        file, label = file_of(name), f"{name}, {arguments}"
        path.write_bytes(file)
        expected = tool.second_changed(file, found)
        equal(saved_by(path, new, arguments, label), expected, label)
        path.write_bytes(expected)
        status, text, _ = called("read", path)
        equal((status, text), (0, job_text(kitchen.read(expected))), f"{label}, read back")
        check(part in text and part not in job_text(kitchen.read(file)), f"{label}, read back: {text}")
        equal(saved_by(path, new, arguments_of(there(file, found)), f"{label}, back"), file, f"{label}, and back again")
        tally[found.what] += 1
        tally["dropped"] += not found.value
        tally["back again"] += 1


def changes_of_tables(tally, folder):
    """What tests/tool.py tries with a stand-in, with the library itself; refusals of each sort, and nothing is written."""
    path, new = folder / "shop.job", folder / "new.job"
    path.write_bytes(tool.SHOP)
    for arguments, part in tool.MADE:
        status, _, errors = called("change", "-o", new, path, *arguments)
        check((status, errors) == (0, "") and part in job_text(kitchen.read(new.read_bytes())), f"{arguments}: {status}, {errors}")
        new.unlink()
        tally["made from a table"] += 1
    for file, arguments, refusal, phrases in tool.NOT_MADE:
        path.write_bytes(file)
        equal(saved_by(path, new, arguments, f"{refusal} of {arguments}"), None, f"{refusal} of {arguments}")
        status, output, errors = called("change", "-", *arguments, stdin=file)
        check((status, output) == (1, "") and errors.startswith(f"standard input: {refusal}\n"), f"{arguments}: {status}, {errors}")
        check(all(phrase in errors for phrase in phrases), f"{refusal} of {arguments}: {errors}")
        tally[re.match(r"refused \d+", refusal)[0]] += 1
    for arguments, status, phrase in (
        (["order", "oak"], 1, 'LIST: no wish is named "oak"'), (["wishes", "a", "#0"], 1, 'ARTICLE: 2 articles are named "a"'),
        (["order", "#64"], 2, "LIST: #64 is too large"), (["name", "#18446744073709551616"], 2, "ARTICLE: #18446744073709551616"),
    ):  # fmt: skip
        path.write_bytes(tool.SHOP)
        found, output, errors = called("change", path, *arguments, "-o", new)
        check((found, output, new.exists()) == (status, "", False) and phrase in errors, f"{arguments}: {found}, {errors}")


def drawn_changes(tally, folder):
    """Drawn changes of drawn jobs, allowed or not, beside the rules with reference/."""
    draw, path, new = random.Random(11), folder / "drawn.job", folder / "new.job"
    jobs = [draws.drawn_choice(draw) for _ in range(300)] + [draws.wide_choice(draw) for _ in range(20)]
    jobs += [draws.priced(draw, draws.drawn_choice(draw)) for _ in range(100)]
    for number, job in enumerate(jobs):
        file, found = reader.written(job), tool.drawn_change(draw, job)
        label = f"{found} of {file.hex()}"
        expected = tool.outcome_of(tool.second_changed, file, found)
        equal(tool.outcome_of(changing.saved, file, found), expected, label)
        made = isinstance(expected, bytes)
        tally["drawn changes" if made else "drawn refusals"] += 1
        tally["changes with prices"] += made and any(article.price for article in job.articles)
        if made:
            equal(changing.saved(expected, there(file, found)), file, f"{label}, and back again")
            tally["back again"] += 1
        if number % 4 == 0:
            path.write_bytes(file)
            equal(saved_by(path, new, arguments_of(found), label), expected if made else None, f"{label}, by the command")
            tally["command lines"] += 1


def change_streams(tally, folder):
    """From standard input, to standard output, and not onto the file itself."""
    path, link, old = folder / "kitchen.job", folder / "link.job", file_of("kitchen")
    path.write_bytes(old)
    link.symlink_to(path)
    expected = job_text(kitchen.read(tool.second_saved(old, "order", {0, 2})))
    call = shlex.quote(str(path))
    for command in (
        f'tools/job change {call} order "#0, #2" | tools/job read -',
        f'tools/job change - order "#0, #2" <{call} | tools/job read -',
        f'cat {call} | tools/job change - order "#0, #2" -o - | tools/job read -',
        f'tools/job change {call} order "#2" | tools/job change - order "#0, #2" | tools/job read -',
    ):
        equal(ran(["sh", "-c", command]), (0, expected, ""), command)
        tally["streams"] += 1
    for stream, trouble in ((">/dev/full", "No space left on device"), (">&-", "Bad file descriptor")):
        found = ran(["sh", "-c", f'tools/job change {call} order "#0" {stream}'])
        equal(found, (1, "", f"standard output: {trouble}\n"), f"change {stream}")
        tally["streams"] += 1
    for target in (path, link, folder / "." / "kitchen.job"):
        for source in (path, link):
            status, output, errors = called("change", source, "order", "#0", "-o", target)
            check((status, output) == (1, "") and "is the job file itself" in errors, f"{source} onto {target}: {errors}")
            tally["own files"] += 1
    status, _, errors = ran(["sh", "-c", f'tools/job change - order "#0" -o {call} <{call}'])
    check(status == 1 and "is the job file itself" in errors, f"from standard input onto the file: {errors}")
    equal(path.read_bytes(), old, "the file is as it was")


@contextlib.contextmanager
def in_its_place(what, answer):
    """In place of the library's call that saves this, one that gives these bytes or this refusal, whatever it is asked."""
    name = f"save_{what}"
    true, lie = getattr(kitchen.Library, name), getattr(tool.says(answer), name)
    setattr(kitchen.Library, name, lambda library, *given: lie(*given))
    try:
        yield
    finally:
        setattr(kitchen.Library, name, true)


def other_answers_to(file, right):
    """What is not the answer: the old file, others, the answer damaged or changed once more, and refusals."""
    job = reader.read(right)
    yield from (file, b"", right[:-1], right + b"\0", file_of("impossible"), file_of("F"), reader.N)
    yield from (right[:at] + bytes([right[at] ^ 1]) + right[at + 1 :] for at in range(len(right)))
    yield reader.written(job._replace(order=job.order ^ {0}))
    yield reader.written(job._replace(articles=job.articles[:-1]))
    yield reader.written(job._replace(articles=[article._replace(name=b"x") for article in job.articles]))
    yield from (reader.written(draws.priced(None, job, lambda draw, price=price: price)) for price in (0, 1))
    yield from (kitchen.Refused(number, place) for number in range(19) for place in (0, 3))


def lies_of_the_library(tally, folder):
    """A library that gives other bytes, or refuses what the rules allow, is not believed: status 1, and nothing is written."""
    path, new = folder / "lie.job", folder / "new.job"
    for name, arguments, found, _ in SAVED:
        file = file_of(name)
        right = tool.second_changed(file, found)
        path.write_bytes(file)
        for number, answer in enumerate(other_answers_to(file, right)):
            if answer == right:
                continue
            with in_its_place(found.what, answer):
                equal(tool.outcome_of(changing.saved, file, found), "no answer", f"{answer!r} for {name}, {arguments}")
                if number % 24 == 0:
                    status, output, errors = called("change", path, *arguments, "-o", new)
                    said = errors.startswith("this cannot be what the library gives for this change: ")
                    check((status, output, new.exists()) == (1, "", False) and said, f"{answer!r} for {name}, {arguments}: {errors}")
            tally["lies"] += 1
        with in_its_place(found.what, right):
            equal(saved_by(path, new, arguments, f"honest, {arguments}"), right, f"honest, {name}, {arguments}")
        tally["honest"] += 1


def no_library_to_change(tally, folder):
    """Without a library of this version nothing is written."""
    tree = copied_tree(folder)
    (tree / "old.job").write_bytes(file_of("A"))
    for label, phrase in put_libraries(tree):
        status, output, errors = ran(["tools/job", "change", "old.job", "order", "#0", "-o", "new.job"], cwd=tree)
        check((status, output) == (1 if phrase else 0, "") and phrase in errors, f"{label}: {status}, {errors}")
        equal(errors.startswith("there is no new file: "), bool(phrase), f"{label}: {errors}")
        equal((tree / "new.job").exists(), not phrase, f"{label}: whether something is written")
        tally["libraries not used"] += bool(phrase)
    equal((tree / "new.job").read_bytes(), tool.second_saved(file_of("A"), "order", {0}), "what the usable one gives")


# ---- the orders of a fair


def told_entry(status, articles, aside):
    """Three words of an entry as the module tells them."""
    none = {14: kitchen.NoSelection(None), 18: kitchen.OrderOutsideFile}
    return none[status] if status else kitchen.Selection(rules.of(articles), rules.of(aside))


def second_entries(file, orders):
    """The second program's answers to a list of orders."""
    words = rules.fair(file, orders, [0] * (3 * len(orders)))
    return [told_entry(*words[at : at + 3]) for at in range(0, len(words), 3)]


def drawn_orders(draw, wishes, count):
    """Orders of wishes that there are, some twice, some without a wish, and some with a wish too many."""
    found = [draws.some(draw, min(64, wishes + (draw.random() < 0.2)), draw.choice([0.2, 0.5, 0.8])) for _ in range(count)]
    return [draw.choice(found) if draw.random() < 0.2 else order for order in found]


def drawn_list(draw, names, orders):
    """Orders as lines, with labels or without, by name or by number, with comments and empty lines; and what they mean."""
    lines, meant = [], []
    for order in orders:
        lines += draw.choice([[], [], [""], ["# no order"]])
        label, shown = draw.choice([(None, ""), (f"Kunde {len(lines)}", f"Kunde {len(lines)}: "), (f"A, {len(lines)}", f'"A, {len(lines)}" :')])
        items = [names[wish] if wish < len(names) and draw.random() < 0.6 else f"#{wish}" for wish in draw.sample(sorted(order), len(order))]
        if not items and label is None:
            label, shown = "none", "none:"
        lines.append(shown + ", ".join(items))
        meant.append(fairs.Order(len(lines), None if label is None else label.encode(), order))
    return "".join(f"{line}\n" for line in lines), meant


def expected_row(text, order, answer):
    """The cells of a row of the table."""
    head = [str(order.line), "" if order.label is None else order.label.decode()]
    if isinstance(answer, kitchen.NoSelection):
        return [*head, "no such kitchen", ""]
    if answer is kitchen.OrderOutsideFile:
        lacks = [f"#{wish}" for wish in sorted(order.wishes) if wish >= text.job.members]
        return [*head, "the catalogue has no wish " + ", ".join(lacks[:-1]) + " or " * (len(lacks) > 1) + lacks[-1], ""]
    chosen, aside = ("; ".join(record_name(text.job, number) for number in sorted(articles)) for articles in answer)
    return [*head, chosen or "(no article is needed)", aside or "-"]


def expected_data(text, path, order, answer):
    """An order's line of JSON."""
    names = [name.decode() for name in text.names]
    found = {"text": str(path), "line": order.line, "label": order.label and order.label.decode()}
    found["order"] = [names[wish] if wish < len(names) else f"#{wish}" for wish in sorted(order.wishes)]
    if isinstance(answer, kitchen.NoSelection):
        return found | {"answer": "no such kitchen"}
    if answer is kitchen.OrderOutsideFile:
        return found | {"answer": "no such wish", "lacks": sorted(wish for wish in order.wishes if wish >= len(names))}
    data = lambda number: {"number": number, "name": text.job.records[number].name.decode() or None}
    wishes = lambda number: [names[wish] for wish in sorted(text.job.records[number].sets[0] & order.wishes)]
    articles = [data(number) | {"wishes": wishes(number)} for number in sorted(answer.articles)]
    return found | {"answer": "kitchen", "articles": articles, "set_aside": [data(number) for number in sorted(answer.aside)]}


def table_told(text, catalogue, meant, answers):
    """The status, and the table in cells with the lines after it."""
    rows = [["line", "order", "kitchen", "set aside"], *(expected_row(text, order, answer) for order, answer in zip(meant, answers))]
    rows = rows if any(order.label for order in meant) else [[row[0], *row[2:]] for row in rows]
    none, outside = answers.count(kitchen.NoSelection(None)), answers.count(kitchen.OrderOutsideFile)
    sorts = f"with a kitchen: {len(answers) - none - outside}; no such kitchen: {none}; with a wish that the catalogue lacks: {outside}"
    hint = [f"`tools/job advise {catalogue} --order LIST` says why there is none."] if none and catalogue else []
    last = ["", f"{len(meant)} order{'s' * (len(meant) != 1)}; {sorts}.", *hint]
    return (3 if none or outside else 0, rows + [[line] for line in last]) if meant else (0, [["The list has no order."]])


def in_cells(output):
    return [[cell.strip() for cell in re.split(r" \|(?: |$)", line)] for line in output.splitlines()]


@section(
    "fair", "kitchens", "no kitchens", "no such wishes", "no wishes", "set aside", "as kitchen chooses", "tables", "lines of json", "job files",
    "long lists", "from standard input", "the sample", "refused files", "faulty lists", "lies", "honest", "libraries that are not used"
)  # fmt: skip
def fair(tally, folder):
    draw = random.Random(37)
    jobs = [drawn_choice(draw, 7, 6) for _ in range(80)] + [tight_choice(draw, 7, 6) for _ in range(40)]
    jobs += [with_prices(draw, drawn_choice(draw, 6, 5)) for _ in range(20)] + [renamed(draw, ours_of(draws.wide_choice(draw))) for _ in range(2)]
    for number, job in enumerate(jobs):
        text = text_of(job)
        names = [name.decode() for name in text.names]
        listed, meant = drawn_list(draw, names, drawn_orders(draw, job.members, draw.randrange(7)))
        answers = second_entries(kitchen.written(job), [order.wishes for order in meant])
        label = f"fair {number}, {kitchen.written(job).hex()}\n{listed}"
        equal(fairs.orders_in(listed.encode(), fairs.from_text(text)), meant, label)
        equal(fairs.asked(fairs.from_text(text), meant), answers, label)
        what_came(tally, job, meant, answers, label)
        if number % 4 == 0:
            by_command(tally, folder, text, listed, meant, answers, number, label)
    sample_fair(tally)
    long_fair(tally)
    no_fair(tally, folder)
    lies_about_orders(tally)
    fair_libraries(tally, folder)


def what_came(tally, job, meant, answers, label):
    """Each answer is what kitchen chooses if that is the order of the file; it is asked now and then."""
    for order, answer in zip(meant, answers):
        tally["no wishes"] += not order.wishes
        tally["kitchens"] += isinstance(answer, kitchen.Selection)
        tally["no kitchens"] += isinstance(answer, kitchen.NoSelection)
        tally["no such wishes"] += answer is kitchen.OrderOutsideFile
        tally["set aside"] += isinstance(answer, kitchen.Selection) and bool(answer.aside)
    for order, answer in list(zip(meant, answers))[:2]:
        if answer is not kitchen.OrderOutsideFile:
            asked = asking.asked(advising.ordered(job, order.wishes))
            equal(kitchen.NoSelection(None) if isinstance(asked, kitchen.NoSelection) else asked, answer, f"{label}: as kitchen chooses")
            tally["as kitchen chooses"] += 1


def by_command(tally, folder, text, listed, meant, answers, number, label):
    """The table and the lines of JSON of a text, and of its job file, which has numbers in place of the names of wishes."""
    path, orders, file = folder / "catalogue.txt", folder / "list.orders", folder / "catalogue.job"
    path.write_text(job_text(text.job))
    orders.write_text(listed)
    file.write_bytes(kitchen.written(text.job))
    expected = table_told(text, path, meant, answers)
    status, output, errors = ran([TOOL, "fair", path, orders]) if number % 32 == 0 else called("fair", path, orders)
    equal((status, in_cells(output)), expected, f"{label}: in words, {errors}")
    lines = [expected_data(text, orders, order, answer) for order, answer in zip(meant, answers)]
    status, output, _ = called("fair", "--json", path, orders)
    equal((status, [json.loads(line) for line in output.splitlines()]), (expected[0], lines), f"{label}: as JSON")
    status, output, errors = called("fair", file, "-", stdin=listed.encode())
    equal((status, in_cells(output)), table_told(text, None, meant, answers), f"{label}: of a job file, {errors}")
    status, output, _ = called("fair", "-", orders, "--json", stdin=file.read_bytes())
    equal((status, [json.loads(line) for line in output.splitlines()]), (expected[0], lines), f"{label}: of a job file, as JSON")
    tally["tables"] += 2
    tally["lines of json"] += 2 * len(lines)
    tally["job files"] += 1
    tally["from standard input"] += 2


def sample_fair(tally):
    """The sample of a list, beside the second program and beside what is told of each of its orders alone."""
    path, orders = sample("kitchen"), ROOT / "jobs" / "fair.orders"
    text = stated(path.read_bytes())
    meant = fairs.orders_in(orders.read_bytes(), fairs.from_text(text))
    answers = second_entries(kitchen.written(text.job), [order.wishes for order in meant])
    equal(sorted({type(answer).__name__ for answer in answers}), ["Answer", "NoSelection", "Selection"], "the sample has answers of each sort")
    status, output, errors = ran([TOOL, "fair", "jobs/kitchen.txt", "jobs/fair.orders"])
    equal((status, in_cells(output), errors), (*table_told(text, "jobs/kitchen.txt", meant, answers), ""), "the sample of a list")
    for line in ran([TOOL, "fair", "--json", path, orders])[1].splitlines():
        told = json.loads(line)
        if told["answer"] != "no such wish":
            alone = json.loads(called("ask", "--json", "--order", ", ".join(told["order"]), path)[1])
            same = [told.get(key) == alone.get(key) for key in ("answer", "articles", "set_aside")]
            check(all(same), f"an order of the sample, and the same alone: {told}, {alone}")
        tally["the sample"] += 1


def long_fair(tally):
    """Lists that are given to the library in shares. Of a table that differs the first row that does is shown."""
    draw, path = random.Random(41), sample("impossible")
    text, kinds = stated(path.read_bytes()), [rules.of(number) for number in range(2**5)]
    known = second_entries(kitchen.written(text.job), kinds)
    for count in (fairs.SHARE, fairs.SHARE + 1, 2 * fairs.SHARE + 3):
        listed, meant = drawn_list(draw, [name.decode() for name in text.names], draw.choices(kinds, k=count))
        answers = [known[rules.number(order.wishes)] for order in meant]
        status, output, errors = called("fair", path, "-", stdin=listed.encode())
        expected, rows = table_told(text, path, meant, answers), in_cells(output)
        equal((status, len(rows), errors), (expected[0], len(expected[1]), ""), f"a list of {count} orders")
        first = next((pair for pair in zip(rows, expected[1]) if pair[0] != pair[1]), None)
        equal(first, None, f"the first row that differs of a list of {count} orders")
        tally["long lists"] += 1


def no_fair(tally, folder):
    """A job file that is refused, by the library itself, and lists that are at fault: nothing is told."""
    path, faulty = folder / "refused.job", folder / "faulty.orders"
    faulty.write_text("bogus\n")
    for file in (file_of("F"), file_of("A")[:-1], file_of("A") + b"\0", b"C", b"F\0", b"C\xff", file_of("prices")[:-4] + bytes(4)):
        path.write_bytes(file)
        refusal = reader.outcome(rules.fair, file, [], [])
        status, output, errors = called("fair", path, faulty)
        check((status, output) == (1, "") and errors.startswith(f"{path}: {refusal}\nReason "), f"{file.hex()}: {status}, {output}{errors}")
        tally["refused files"] += 1
    for listed, phrase in (("bogus", ":1: no wish is named"), ("#0\n#64", ":2: #64 is too large"), ("no hood: #0", ":1: \"no hood\" is the name")):
        faulty.write_text(listed)
        status, output, errors = called("fair", sample("kitchen"), faulty)
        check((status, output) == (1, "") and errors.startswith(f"{faulty}{phrase}"), f"{listed!r}: {status}, {output}{errors}")
        tally["faulty lists"] += 1


def lies_about_orders(tally):
    """A library that answers anything else, or refuses, is not believed: status 1, and nothing is told."""
    true, draw = kitchen.Library.fair, random.Random(47)
    try:
        for name in ("A", "prices"):
            job = reader.read(file_of(name))
            orders = [job.order, set(), {0}, {1}, {job.wishes}]
            listed = "".join("M: " + ", ".join(f"#{wish}" for wish in sorted(order)) + "\n" for order in orders)
            right = second_entries(file_of(name), orders)
            told = called("fair", sample(name), "-", stdin=listed.encode())
            for answers in wrong_lists(draw, job, orders, right):
                kitchen.Library.fair = lambda library, *given: tool.Fair(answers).fair(*given)
                for call in (["fair"], ["fair", "--json"]):
                    status, output, errors = called(*call, sample(name), "-", stdin=listed.encode())
                    said = errors.startswith(("this cannot be what the library answers: ", "the orders cannot be answered: "))
                    empty = [json.loads(line)["answer"] for line in output.splitlines()] == ["error"] if "--json" in call else not output
                    check(status == 1 and said and empty, f"{answers!r}: {status}, {output}{errors}")
                tally["lies"] += 1
            kitchen.Library.fair = lambda library, *given: tool.Fair(right).fair(*given)
            equal(called("fair", sample(name), "-", stdin=listed.encode()), told, f"honest, {name}")
            tally["honest"] += 1
            kitchen.Library.fair = true
    finally:
        kitchen.Library.fair = true


def wrong_lists(draw, job, orders, right):
    """Answers to a list, of which one is another, or one is missing or too many; and refusals."""
    for at, order in enumerate(orders):
        yield from ([*right[:at], answer, *right[at + 1 :]] for answer in tool.wrong_answers(draw, job, order, right[at]))
    yield from (right[:-1], [*right, right[-1]], [])
    yield from (kitchen.Refused(number, place) for number in (1, 6, 10, 14, 18) for place in (0, 3))
    yield kitchen.Unusable("it is not usable")


def fair_libraries(tally, folder):
    """Without a library of this version nothing is told; kitchen is not needed."""
    tree = copied_tree(folder)
    told = ran(["tools/job", "fair", "jobs/kitchen.txt", "jobs/fair.orders"])
    for label, phrase in put_libraries(tree):
        found = ran(["tools/job", "fair", "jobs/kitchen.txt", "jobs/fair.orders"], cwd=tree)
        if not phrase:
            equal(found, told, label)
            continue
        status, output, errors = found
        said = errors.startswith("the orders cannot be answered: ") and phrase in errors
        check((status, output) == (1, "") and said, f"{label}: {status}\n{output}{errors}")
        tally["libraries that are not used"] += 1


# ---- the module


class Beside:
    """The module's calls beside those of the second program."""

    def __init__(self, tally):
        self.ours, self.tally = kitchen.Library(), tally

    def same(self, label, ours, theirs):
        """Both are called; a refusal of one has to be the same refusal of the other."""
        try:
            found = ours()
        except kitchen.Refused as refusal:
            found = f"refused {refusal.number} at {refusal.place}"
        expected = reader.outcome(theirs)
        answers = {"refused 15 at 0": kitchen.NoPlan, "refused 16 at 0": None}
        if isinstance(expected, str) and expected.startswith("refused 14 at "):
            expected = kitchen.NoSelection(int(expected.removeprefix("refused 14 at ")))
            self.tally["answers NoSelection"] += 1
        elif isinstance(expected, str) and expected in answers:
            expected = answers[expected]
            self.tally[f"answers {expected}"] += 1
        elif isinstance(expected, str):
            self.tally[re.match(r"refused \d+", expected)[0]] += 1
        self.tally[label.split()[0]] += 1
        equal(found, expected, label)
        return expected

    def choose(self, file, floor=0, goals=None, groups=None):
        def second():
            job = rules.read(file, (reader.CHOICE,))
            lists = ([job.order] if job.order else []) if goals is None else goals
            return kitchen.Selection(*rules.choose(file, rules.own_groups(job) if groups is None else groups, lists, floor))

        label = f"choose {file.hex()}, {floor}, {goals}, {groups}"
        answer = self.same(label, lambda: self.ours.choose(file, floor, goals, groups), second)
        if isinstance(answer, kitchen.NoSelection):
            count = len(kitchen.own_goals(file) if goals is None else goals)
            self.tally[f"goal {answer.place} falls short" if answer.place < count else f"none of {count} falls short"] += 1

    def passed(self, file, live, goal, groups):
        """A pass of the second program; its sum is also that of the plain definition, which is here."""
        job = rules.read(file, (reader.CHOICE,))
        lent = rules.own_groups(job) if groups is None else groups
        left, total = rules.filter_pass(file, lent, live, goal)
        equal(total, tool.most_carried(job, lent[: len(job.articles)], live, goal), f"the sum of {file.hex()}, {live}, {goal}, {groups}")
        return kitchen.Passed(left, total)

    def filter_pass(self, file, live, goal, groups=None):
        label = f"pass {file.hex()}, {live}, {goal}, {groups}"
        second = lambda: self.passed(file, live, goal, groups)
        answer = self.same(label, lambda: self.ours.filter_pass(file, live, goal, groups), second)
        if isinstance(answer, kitchen.Passed):
            self.tally["passes that fall short" if answer.sum < len(goal) else "passes that do not fall short"] += 1

    def bound(self, file, goal, groups=None):
        """The sum of a pass with all articles live."""

        def second():
            count = len(rules.read(file, (reader.CHOICE,)).articles)
            return self.passed(file, set(range(count)), goal, groups).sum

        self.same(f"bound {file.hex()}, {goal}, {groups}", lambda: self.ours.bound(file, goal, groups), second)

    def price(self, file, rate):
        answer = self.same(f"price {rate} {file.hex()}", lambda: self.ours.price(file, rate), lambda: kitchen.Priced(*rules.price(file, rate)))
        if isinstance(answer, kitchen.Priced):
            self.tally["totals below zero" if answer.total < 0 else "totals of zero or more"] += 1
            self.tally["taxes below zero"] += answer.tax < 0

    def fair(self, file, orders):
        """A list of orders. Each answer is also that of the module's own choice, on the file that is saved with that order."""
        answers = self.same(f"fair {orders} {file.hex()}", lambda: self.ours.fair(file, orders), lambda: second_entries(file, orders))
        for order, answer in zip(orders, answers) if isinstance(answers, list) else ():
            self.tally["entries"] += 1
            self.tally["entries without a selection"] += isinstance(answer, kitchen.NoSelection)
            self.tally["entries with a wish that is not there"] += answer is kitchen.OrderOutsideFile
            self.tally["entries that set aside"] += isinstance(answer, kitchen.Selection) and bool(answer.aside)
            equal(self.chosen_alone(file, order), answer, f"fair {order} {file.hex()}, and the choice alone")

    def chosen_alone(self, file, order):
        try:
            found = self.ours.choose(self.ours.save_order(file, order))
        except kitchen.Refused as refusal:
            equal((refusal.number, refusal.place), (6, 3), f"{file.hex()} with the order {order}")
            return kitchen.OrderOutsideFile
        return kitchen.NoSelection(None) if isinstance(found, kitchen.NoSelection) else found

    def partition(self, file):
        second = lambda: bytes(rules.own_groups(rules.read(file, (reader.CHOICE,))))
        self.same(f"partition {file.hex()}", lambda: self.ours.partition(file), second)

    def selections(self, file, floor=0):
        second = lambda: [s for s in rules.selections(rules.read(file, (reader.CHOICE,))) if rules.number(s) >= floor]
        ours = lambda: [answer.articles for answer in islice(self.ours.selections(file, floor), MOST_SELECTIONS)]
        self.same(f"selections {file.hex()}, {floor}", ours, second)

    def plan(self, file):
        def ours():
            answer = self.ours.plan(file)
            if answer is kitchen.NoPlan:
                return answer
            return rules.is_plan(reader.read(file), answer.rounds), len(answer.rounds)

        self.same(f"plan {file.hex()}", ours, lambda: (True, rules.plan(file, 16)[1]))

    def layers(self, file, layer):
        for sort, size in (("fact", 32), ("round", 64)):
            def second():
                members, words = rules.layer(file, sort, layer, [0] * size)
                return members, [rules.of(word) for word in words]

            call = self.ours.fact_layer if sort == "fact" else self.ours.round_layer
            self.same(f"{sort} layer {layer} {file.hex()}", lambda: call(file, layer), second)

    def names(self, file, numbers, names):
        for number in numbers:
            start, length = rules.name(file, number)
            self.same(f"name {number} {file.hex()}", lambda: self.ours.name(file, number), lambda: file[start : start + length])
        for name in names:
            self.find(file, name)

    def find(self, file, name):
        """The name may be text."""
        second = lambda: rules.find(file, namings.as_bytes(name))
        return self.same(f"find {name} {file.hex()}", lambda: self.ours.find(file, name), second)

    def same_name(self, a, b):
        second = lambda: rules.equal(namings.as_bytes(a), namings.as_bytes(b))
        return self.same(f"same_name {a!r} {b!r}", lambda: kitchen.same_name(a, b), second)

    def alike(self, a, b):
        self.same(f"alike {a.hex()} {b.hex()}", lambda: self.ours.alike(a, b), lambda: rules.compare(a, b))

    def save(self, file, field, article, value):
        """The order has no article; a name may be text."""
        change = rules.Change(field, article, value.encode() if isinstance(value, str) else value)

        def second():
            length, buffer = rules.save(file, change, [0] * ROOM)
            return bytes(buffer[:length])

        call, given = getattr(self.ours, f"save_{field}"), (value,) if field == "order" else (article, value)
        self.same(f"save_{field} {article} {value} {file.hex()}", lambda: call(file, *given), second)

    def read(self, file):
        ours = lambda: kitchen.written(kitchen.read(file))
        self.same(f"read {file.hex()}", ours, lambda: reader.written(reader.read(file)))

    def each(self, file):
        """Every call on a file that need not be in order."""
        self.read(file)
        self.partition(file)
        self.choose(file)
        self.choose(file, groups=[0] * 64)
        self.choose(file, goals=[], groups=[])
        self.filter_pass(file, set(), {0})
        self.filter_pass(file, {0}, {0}, [0] * 64)
        self.bound(file, {0})
        self.bound(file, set(), [0] * 64)
        self.price(file, 1900)
        self.price(file, 10_001)
        self.fair(file, [])
        self.fair(file, [{0}, set(), {63}, {0}])
        self.selections(file)
        self.plan(file)
        self.layers(file, 0)
        self.names(file, [0, 1, 2**64 - 1], [b"", b"a"])
        self.alike(file, reader.A)
        self.alike(reader.A, file)
        self.save(file, "order", None, set())
        self.save(file, "wishes", 0, {0})
        self.save(file, "clashes", 1, {0})
        self.save(file, "name", 0, b"a")


@section(
    "module", "read", "choose", "pass", "bound", "partition", "selections", "plan", "fact", "round", "name", "find", "alike",
    "same_name", "equal and found", "unequal", "found by other bytes", "the lowest of several", "save_order", "save_wishes", "save_clashes", "save_name", "unusable", "built", "answers NoSelection", "answers NoPlan",
    "answers None", "goal 0 falls short", "goal 1 falls short", *(f"none of {count} falls short" for count in range(3)),
    "passes that fall short", "passes that do not fall short", "price", "totals below zero", "totals of zero or more", "taxes below zero",
    "fair", "entries", "entries without a selection", "entries with a wish that is not there", "entries that set aside", "fairs in one call",
    *(f"refused {number}" for number in (*range(1, 14), 17))
)  # fmt: skip
def module(tally, folder):
    draw, beside = random.Random(5), Beside(tally)
    for file in [*reader.BASES.values(), reader.P, reader.P_NAMED, *draws.over_limits()]:
        beside.each(file)
    for _ in range(150):
        choice_calls(beside, reader.written(draws.drawn_choice(draw)), draw)
        fitting_calls(beside, reader.written(draws.drawn_fitting(draw)), draw)
    for _ in range(5):
        for job in (draws.drawn_choice(draw), draws.drawn_fitting(draw)):
            for file in draws.damaged(reader.written(job), draw):
                beside.each(file)
    for job in [*(draws.drawn_choice(draw) for _ in range(150)), draws.full_choice()]:
        save_calls(beside, reader.written(job), draw)
    for _ in range(400):
        name_calls(beside, draw)
    for _ in range(300):
        price_calls(beside, draws.priced(draw, draws.drawn_choice(draw)), draw)
    fair_calls(beside)
    past_the_words(tally, beside.ours)
    built(tally, draw)
    shown_in_the_module(tally)


def choice_calls(beside, file, draw):
    job = reader.read(file)
    n, numbers = len(job.articles), list(map(rules.number, rules.selections(job)))
    part = lambda: {wish for wish in job.order if draw.random() < 0.7}
    beside.partition(file)
    beside.selections(file, draw.choice([0, *numbers]))
    lent = [None, list(range(n)), [0] * n, rules.own_groups(job)[:-1], [draw.randrange(n + 1) for _ in range(n)], [255] * 64]
    for groups in lent:
        goals = draw.choice([None, [], [part()], [job.order, part()], [part(), {63}]])
        beside.choose(file, draw.choice([0, *numbers]) + draw.randrange(2), goals, groups)
        beside.filter_pass(file, draws.some(draw, n + draw.randrange(2), 0.8), draw.choice([job.order, part(), {63}]), groups)
        beside.bound(file, draw.choice([job.order, job.order, part(), {63}]), groups)
    wishes = sorted(job.order)
    for goals in ([{wish} for wish in wishes], [job.order, job.order], [set(wishes[:1]), job.order], [set(wishes[1:]), job.order]):
        beside.choose(file, 0, goals)
    for floor in (0, 2**n - 1, 2**64 - 1):
        beside.choose(file, floor)
    beside.names(file, range(n + 1), [article.name for article in job.articles] + [b"", b"no such", b"n" * 33])
    renamed_job = job._replace(articles=[article._replace(name=b"x") for article in job.articles])
    for other in (renamed_job, job._replace(order=part()), job._replace(articles=job.articles[:-1])):
        beside.alike(file, reader.written(other))


def price_calls(beside, job, draw):
    """Of a choice with prices: what it costs, what it is read as and saved as, and that it is alike without its prices."""
    file = reader.written(job)
    for rate in (0, 5000, draw.randint(0, 10_000), draw.choice([10_000, 10_001, 2**64 - 1])):
        beside.price(file, rate)
    beside.read(file)
    beside.alike(file, reader.written(draws.priced(draw, job)))
    beside.choose(file)
    beside.names(file, range(len(job.articles) + 1), [article.name for article in job.articles])
    beside.save(file, "order", None, draws.some(draw, job.wishes, 0.5))
    beside.save(file, "name", 0, draws.drawn_name(draw))


def fair_calls(beside):
    """Lists of orders for drawn files, by a source of their own; each list is one call."""
    draw = random.Random(53)
    for job in [*(draws.drawn_choice(draw) for _ in range(300)), *(draws.wide_choice(draw) for _ in range(3)), draws.priced(draw, draws.drawn_choice(draw))]:
        beside.fair(reader.written(job), [job.order, *drawn_orders(draw, job.wishes, draw.randrange(9))])
    calls, true = [], beside.ours.call
    beside.ours.call = lambda name, *given, **options: calls.append(name) or true(name, *given, **options)
    try:
        for count in (0, 1, 1000):
            equal(beside.ours.fair(reader.A, iter([{0, 1}] * count)), [kitchen.Selection({2}, set())] * count, f"{count} orders of A")
            beside.tally["fairs in one call"] += calls == ["fair"]
            calls.clear()
    finally:
        del beside.ours.call
    equal(beside.tally["fairs in one call"], 3, "a list of orders is one call")


def save_calls(beside, file, draw):
    """Sets that fit and such that do not, names as bytes and as text, and articles that there are not."""
    job = reader.read(file)
    n, w = len(job.articles), job.wishes
    for order in (draws.some(draw, w, 0.5), {draw.randrange(64)}):
        beside.save(file, "order", None, order)
    for article in sorted({0, n // 2, max(0, n - 1), n, draw.choice([64, 2**32, 2**64 - 1])}):
        for bound in (w, min(w + 1, 64)):
            beside.save(file, "wishes", article, draws.some(draw, bound, 0.6))
        for bound in (min(article, n), min(article + 2, 64)):
            beside.save(file, "clashes", article, draws.some(draw, bound, 0.6))
        for name in (draws.drawn_name(draw), draw.randbytes(draw.choice([32, 33, 257])), draw.choice(["", "Larder", "Küche"])):
            beside.save(file, "name", article, name)


def fitting_calls(beside, file, draw):
    job = reader.read(file)
    beside.plan(file)
    for layer in sorted({0, 1, job.horizon, job.horizon + 1, 2**64 - 1}):
        beside.layers(file, layer)
    beside.names(file, range(len(job.steps) + 1), [step.name for step in job.steps] + [b"no such"])


def name_calls(beside, draw):
    """Names in other writings, as bytes or as text: what is found is the first of those that are equal by `same_name`."""
    file, names, searched = namings.drawn_search(draw)
    beside.names(file, range(len(names) + 1), [])
    for wanted in searched:
        text = namings.text_of(wanted)
        given = draw.choice([wanted, wanted if text is None else text])
        equals = [number for number, name in enumerate(names) if beside.same_name(name, given)]
        at = beside.find(file, given)
        equal(at, min(equals, default=None) if wanted else None, f"find {given!r} by same_name in {file.hex()}")
        beside.tally["unequal" if at is None else "equal and found"] += 1
        beside.tally["found by other bytes"] += at is not None and names[at] != wanted
        beside.tally["the lowest of several"] += at is not None and len(equals) > 1


def unusable(action):
    """Whether it is turned down as not usable."""
    try:
        action()
    except kitchen.Unusable:
        return True
    return False


def past_the_words(tally, library):
    """No number is cut to 64 bits in silence, no group to a byte, and no job is written that a file cannot state."""
    a, f, step, article = reader.A, reader.F, kitchen.step, kitchen.article
    for label, action in {
        "a floor past the words": lambda: library.choose(a, 2**64),
        "a floor below 0": lambda: library.choose(a, -1),
        "a floor of selections": lambda: next(library.selections(a, 2**64)),
        "a goal": lambda: library.choose(a, goals=[{64}]),
        "a second goal": lambda: library.choose(a, goals=[{0}, {70}]),
        "live articles": lambda: library.filter_pass(a, {64}, {0}),
        "a rate past the words": lambda: library.price(a, 2**64),
        "a rate below 0": lambda: library.price(a, -1),
        "a file of a price, as text": lambda: library.price(a.decode("latin-1"), 0),
        "an order of a fair": lambda: library.fair(a, [{64}]),
        "a later order of a fair": lambda: library.fair(a, [{0}, {1, 70}]),
        "a file of a fair, as text": lambda: library.fair(a.decode("latin-1"), []),
        "a number as the file of a fair": lambda: library.fair(7, [{0}]),
        "a price past its bytes": lambda: kitchen.choice(0, (), [article(price=2**31)]),
        "a price below its bytes": lambda: kitchen.choice(0, (), [article(price=-(2**31) - 1)]),
        "a price that is no number of cents": lambda: kitchen.choice(0, (), [article(price=0.5)]),
        "the goal of a pass": lambda: library.filter_pass(a, {0}, {64}),
        "the goal of a bound": lambda: library.bound(a, {0, 64}),
        "a group of a bound": lambda: library.bound(a, {0}, [0, 0, 256]),
        "a file of a bound, as text": lambda: library.bound(a.decode("latin-1"), {0}),
        "a group past a byte": lambda: library.choose(a, groups=[0, 0, 256]),
        "a group below 0": lambda: library.filter_pass(a, {0}, {0}, [-1, 0, 0]),
        "a fact layer": lambda: library.fact_layer(f, 2**64),
        "a round layer": lambda: library.round_layer(f, 2**65 + 1),
        "a layer below 0": lambda: library.fact_layer(f, -1),
        "the number of a name": lambda: library.name(a, 2**64),
        "a number below 0": lambda: library.name(a, -1),
        "a file as text": lambda: library.plan(f.decode("latin-1")),
        "a number as a file": lambda: library.plan(7),
        "nothing as a file": lambda: library.choose(None),
        "an array as a file": lambda: library.plan(bytearray(f)),
        "a number as the second file": lambda: library.alike(a, 7),
        "a number as a named file": lambda: library.name(7, 0),
        "a number as a name": lambda: library.find(a, 5),
        "a number as one of two names": lambda: kitchen.same_name("a", 5),
        "an array as one of two names": lambda: kitchen.same_name(bytearray(b"a"), b"a"),
        "an order to save": lambda: library.save_order(a, {64}),
        "wishes to save": lambda: library.save_wishes(a, 1, {0, 64}),
        "clashes to save": lambda: library.save_clashes(a, 1, {0, 64}),
        "an article with other wishes": lambda: library.save_wishes(a, 2**64, {0}),
        "an article with other clashes": lambda: library.save_clashes(a, 2**64 + 1, {0}),
        "an article with another name": lambda: library.save_name(a, 2**64, "a"),
        "an article below 0": lambda: library.save_name(a, -1, "a"),
        "a number as a name to save": lambda: library.save_name(a, 1, 5),
        "an array as a name to save": lambda: library.save_name(a, 1, bytearray(b"a")),
        "text as a file to save": lambda: library.save_order(a.decode("latin-1"), {0}),
        "no library": lambda: kitchen.Library(ROOT / "missing.so"),
        "no library of ours": lambda: kitchen.Library(ROOT / "README.md"),
        "65 articles": lambda: kitchen.choice(0, (), [article()] * 65),
        "65 wishes": lambda: kitchen.choice(65, (), []),
        "an order with a wish too high": lambda: kitchen.choice(2, {2}, []),
        "an article with a wish too high": lambda: kitchen.choice(2, {0}, [article({2})]),
        "a clash with itself": lambda: kitchen.choice(1, (), [article((), {0})]),
        "a clash with no article": lambda: kitchen.choice(1, (), [article((), {1})]),
        "a long name": lambda: kitchen.choice(1, (), [article(name="ä" * 17)]),
        "33 steps": lambda: kitchen.fitting(0, 0, (), (), [step()] * 33),
        "33 facts": lambda: kitchen.fitting(33, 0, (), (), []),
        "17 rounds": lambda: kitchen.fitting(0, 17, (), (), []),
        "a fact below 0": lambda: kitchen.fitting(2, 1, {-1}, (), []),
        "a fact too high": lambda: kitchen.fitting(2, 1, (), (), [step(takes={2})]),
    }.items():
        check(unusable(action), f"{label} is not usable")
        tally["unusable"] += 1


def built(tally, draw):
    """A job that is built here is written as the second program writes it; of two that clash either may say so."""
    for _ in range(60):
        theirs = draws.priced(draw, draws.drawn_choice(draw))
        articles = [kitchen.article(article.wishes, (), article.name, article.price) for article in theirs.articles]
        for high, article in enumerate(theirs.articles):
            for low in article.clashes:
                one, other = draw.choice([(low, high), (high, low)])
                articles[one].sets[1].add(other)
        equal(kitchen.written(kitchen.choice(theirs.wishes, theirs.order, articles)), reader.written(theirs), "a choice, built")
        theirs = draws.drawn_fitting(draw)
        steps = [kitchen.step(*step) for step in theirs.steps]
        ours = kitchen.fitting(theirs.facts, theirs.horizon, theirs.start, theirs.goal, steps)
        equal(kitchen.written(ours), reader.written(theirs), "a fitting, built")
        tally["built"] += 2


def shown_in_the_module(tally):
    """The example at the head of the module does what it says."""
    example = "\n".join(line[4:] for line in kitchen.__doc__.splitlines() if line.startswith("    "))
    status, output, errors = ran([sys.executable, "-B", "-c", example], cwd=ROOT / "host")
    equal((status, output), (0, "[0, 1]\n"), f"the example of the module: {errors}")
    tally["built"] += 1


# ---- mistakes on purpose


def with_last_wish(job):
    """A conflict that never leaves the last wish out."""
    found = true_conflict(job)
    last = max(job.sets[0])
    if last in found.part:
        return found
    enough = advising.has_selection(advising.ordered(job, job.sets[0] - {last}))
    rest = advising.Rest(last, kitchen.Selection(set(), set()), enough)
    return found._replace(part=found.part | {last}, rests=[*found.rests, rest])


def skipping(job, first, wanted):
    """The further kitchens, but for the first of them."""
    return true_further(job, first, wanted + 1)[1:]


def floorless(library, file, floor=0, goals=None, groups=None):
    return true_choose(library, file, 0, goals, groups)


def left_counted(library, file, goal, groups=None):
    return len(library.filter_pass(file, range(len(library.partition(file))), goal, groups).live)


def placeless(library, file, floor=0, goals=None, groups=None):
    answer = true_choose(library, file, floor, goals, groups)
    return kitchen.NoSelection(0) if isinstance(answer, kitchen.NoSelection) else answer


def untried_bound(job):
    return kitchen.Library().bound(kitchen.written(job), job.sets[0]) if job.sets[0] else None


def cut_to_fit(library, file, article, name):
    return true_name(library, file, article, kitchen.named(name)[: kitchen.LONGEST_NAME])


def tax_for_total(text, rate, priced):
    return true_told(text, rate, priced._replace(total=priced.tax))


def first_share_again(catalogue, orders, done=lambda count: None):
    """Each share of a list is answered as the first."""
    answers = true_asked(catalogue, orders[: fairs.SHARE], done)
    return (answers * len(orders))[: len(orders)]


def backwards(library, file, orders):
    return true_fair(library, file, orders)[::-1]


def none_for_outside(status, articles, aside):
    return true_entry(14 if status == 18 else status, articles, aside)


def aside_for_chosen(catalogue, called, order, answer):
    return true_row(catalogue, called, order, kitchen.Selection(*answer[::-1]) if isinstance(answer, kitchen.Selection) else answer)


true_conflict, true_further, true_told = advising.conflict, asking.further, telling.cheapest_told
true_choose, true_name = kitchen.Library.choose, kitchen.Library.save_name
true_fair, true_entry, true_asked, true_row = kitchen.Library.fair, kitchen.entry, fairs.asked, fairs.row
# What errs, where, what is put in its place, and the section that has to find it.
FAULTS = {
    1: ("in_every answers what in_some does", advising, "in_every", advising.in_some, "advise"),
    2: ("conflict leaves the last wish in", advising, "conflict", with_last_wish, "advise"),
    3: ("emptied empties nothing", advising, "emptied", lambda job, out: job, "advise"),
    4: ("further skips one", asking, "further", skipping, "next"),
    5: ("no set aside is tried", asking, "try_aside", lambda job, aside: None, "stand_in"),
    6: ("no shorter plan is looked for", trying, "found_plan", lambda job, most: None, "stand_in"),
    7: ("every answer has status 0", commands, "status_of", lambda answer: 0, "statuses"),
    8: ("all wishes of an article are told, not only those of the order", telling, "fulfilled",
        lambda text, number: text.job.records[number].sets[0], "drawn"),
    9: ("choose ignores the floor", kitchen.Library, "choose", floorless, "module"),
    10: ("the old file is written in place of the new one", changing, "saved", lambda file, change: file, "change"),
    11: ("a saved file is not tried", changing, "try_saved", lambda file, change, new: None, "change"),
    12: ("a refusal of a change is not tried", changing, "try_refused", lambda file, change, refusal: None, "change"),
    13: ("save_name cuts a name that is too long", kitchen.Library, "save_name", cut_to_fit, "module"),
    14: ("save_clashes saves wishes", kitchen.Library, "save_clashes", kitchen.Library.save_wishes, "module"),
    15: ("bound counts the articles that a pass leaves", kitchen.Library, "bound", left_counted, "module"),
    16: ("choose answers 14 at 0 whatever falls short", kitchen.Library, "choose", placeless, "module"),
    17: ("the place of 14 is told the other way round", telling, "NO_KITCHEN_AT",
         {place: telling.NO_KITCHEN_AT[1 - place] for place in (0, 1)}, "drawn"),
    18: ("the place of 14 is not tried", asking, "try_place", lambda job, place: None, "stand_in"),
    19: ("what the library says of the bound is not tried", commands, "bound", untried_bound, "bound"),
    20: ("names are the same by their bytes only", kitchen, "name_key", kitchen.named, "module"),
    21: ("names are the same by their form, covered or not", kitchen, "is_covered", lambda character: True, "module"),
    22: ("a list finds names by their bytes only", texts, "name_key", kitchen.named, "statuses"),
    23: ("what the library says of a price is not tried", asking, "try_priced", lambda job, rate, found, first: None, "price"),
    24: ("totals and taxes are words without a sign", kitchen, "signed", lambda word: word, "module"),
    25: ("prices of a text are lost", texts.Draft, "price", lambda draft, entry: 0, "price"),
    26: ("the tax is told in place of the total", telling, "cheapest_told", tax_for_total, "price"),
    27: ("what a change of one price can do is told without prices, too", telling, "has_prices", lambda job: True, "advise"),
    28: ("what the library says of an order is not tried", fairs, "try_entry", lambda job, order, answer: None, "fair"),
    29: ("each share of a list is answered as the first", fairs, "asked", first_share_again, "fair"),
    30: ("what is set aside is told as what is chosen", fairs, "row", aside_for_chosen, "fair"),
    31: ("a list of orders is answered backwards", kitchen.Library, "fair", backwards, "module"),
    32: ("an order with a wish that the file lacks is answered as one without a selection", kitchen, "entry", none_for_outside, "module"),
}  # fmt: skip


def plant(fault):
    global on_purpose
    on_purpose = True
    words, where, name, mistake, place = FAULTS[fault]
    setattr(where, name, mistake)
    print(f"on purpose, {words}", flush=True)
    return place


# ---- the run


def run(name):
    function, wanted = SECTIONS[name]
    before, tally, known = checks, Counter(), len(failures)
    try:
        with tempfile.TemporaryDirectory() as folder:
            try:
                function(tally, pathlib.Path(folder).resolve())
            except Exception as trouble:
                check(False, f"{name} broke: {type(trouble).__name__}: {trouble}")
        for word in wanted:
            check(tally[word], f"{name} looked at nothing of: {word}")
    except Found:
        pass
    for failure in failures[known : known + MOST_SHOWN]:
        print(f"FAILED {name}: {failure}", flush=True)
    if len(failures) - known > MOST_SHOWN:
        print(f"FAILED {name}: {len(failures) - known - MOST_SHOWN} more", flush=True)
    print(", ".join(f"{word}: {number}" for word, number in {f"{name} checks": checks - before, **tally}.items()), flush=True)


def run_apart(names, fault):
    """Each section in a process of its own, two at a time."""
    global checks
    options = ["--fault", fault] if fault else []
    with ThreadPoolExecutor(2) as pool:
        for name, found in zip(names, pool.map(lambda name: ran([sys.executable, "-B", __file__, name, *options]), names)):
            status, output, errors = found
            lines = output.splitlines()
            counted = re.match(r"(\d+) checks", lines[-1] if lines else "")
            print("\n".join(lines[:-1] if counted else lines), errors, sep="", flush=True)
            checks += int(counted[1]) if counted else 0
            if status or not counted:
                failures.append(name)
                print(f"FAILED {name}: status {status}", flush=True)


def main():
    parser = argparse.ArgumentParser(description="Tests of what tools/job answers.")
    parser.add_argument("sections", nargs="*", metavar="SECTION", help=", ".join(SECTIONS))
    parser.add_argument("--fault", type=int, choices=FAULTS, help="a mistake of the tool, made on purpose")
    given = parser.parse_args()
    unknown = [name for name in given.sections if name not in SECTIONS]
    if unknown:
        parser.error(f"there is no section {unknown[0]}; expected {', '.join(SECTIONS)}")
    for path in (KITCHEN, LIBRARY):
        if not path.exists():
            print(f"FAILED {path} is missing")
            return 1
    place = [plant(given.fault)] if given.fault else list(SECTIONS)
    names = given.sections or place
    if len(names) == 1:
        run(names[0])
    else:
        run_apart(names, given.fault)
    print(f"{checks} checks" + (f", {len(failures)} failed" if failures else ""))
    return 1 if failures else 0


if __name__ == "__main__":
    sys.exit(main())
