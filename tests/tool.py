"""Tests of tools/job and host/kitchen.py. Called as `python3 -B tests/tool.py` in the repository's root.

Neither kitchen nor the library is needed: what asks them is in tests/showroom.py, and changes and fairs have stand-ins here. The
last line is `N checks`, and the status 0; or what failed is printed, and the status is 1. Files are written to a temporary folder
only.
"""

import contextlib
import json
import os
import pathlib
import pty
import random
import re
import select
import shlex
import signal
import subprocess
import sys
import tempfile
import time
import traceback
import unicodedata

sys.dont_write_bytecode = True
ROOT = pathlib.Path(__file__).resolve().parent.parent
sys.path[:0] = [str(ROOT / "tools"), str(ROOT / "host")]
sys.path.append(str(ROOT / "reference"))

import _ctypes  # noqa: E402
import drawn  # noqa: E402
import kitchen  # noqa: E402
import names as namings  # noqa: E402
import reader as reference  # noqa: E402
import rules as second  # noqa: E402
from showroom import asking, changing, commands, fairs, files, guide, reasons, rules, telling, texts, words  # noqa: E402

TOOL = ROOT / "tools" / "job"
RULES = (ROOT / "docs" / "RULES.md").read_text()
SAMPLES = sorted((ROOT / "jobs").glob("*.txt"))
SMALL_TEXT = ROOT / "jobs" / "A.txt"

A = bytes.fromhex(
    "43 03 02 03 00 00 00 00 00 00 00"
    "01 01 00 00 00 00 00 00 00"
    "03 02 00 00 00 00 00 00 00 01 00 00 00 00 00 00 00"
    "01 03 00 00 00 00 00 00 00"
)
F = bytes.fromhex(re.search(r"F in hexadecimal: ([0-9A-F ]+)\.", RULES)[1])

checks = 0
failures = []


def check(condition, label):
    global checks
    checks += 1
    if not condition:
        failures.append(label)


def equal(found, expected, label):
    check(found == expected, f"{label}\n  expected {expected!r}\n  found    {found!r}")


def raised(kind, phrase, action, *arguments):
    """The action raises this kind, with this part of a message."""
    label = f"{getattr(action, '__name__', action)}{arguments!r}"[:300]
    try:
        found = action(*arguments)
        check(False, f"{label} gives {found!r}; expected {kind.__name__}: {phrase}")
    except kind as trouble:
        check(phrase in str(trouble), f"{label} raises {trouble}; expected {phrase}")


def call(*arguments, **options):
    """A call of the tool as a process that has begun."""
    return subprocess.Popen([sys.executable, "-B", TOOL, *arguments], **options)


def run(*arguments, stdin=b"", **options):
    """The status of a call of the tool, its output and its errors."""
    command = [sys.executable, "-B", TOOL, *arguments]
    done = subprocess.run(command, input=stdin, capture_output=True, timeout=100, **options)
    return done.returncode, done.stdout, done.stderr.decode()


def copied(arguments, streams):
    """What the tool does in a copy of this process, with these files as its streams."""
    for number, file in enumerate(streams):
        os.dup2(file.fileno(), number)
    try:
        status = commands.main(list(map(str, arguments)))
    except SystemExit as end:
        status = end.code or 0
    except BaseException:
        traceback.print_exc()
        status = 70
    os._exit(status)


def quick(*arguments, stdin=b""):
    """As run, without a new process's start."""
    with tempfile.TemporaryFile() as given, tempfile.TemporaryFile() as output, tempfile.TemporaryFile() as errors:
        given.write(stdin)
        given.seek(0)
        child = os.fork()
        if child == 0:
            copied(arguments, (given, output, errors))
        status = os.waitstatus_to_exitcode(os.waitpid(child, 0)[1])
        output.seek(0)
        errors.seek(0)
        return status, output.read(), errors.read().decode()


def written(text, order=None):
    """The job file of a text."""
    return kitchen.written(texts.stated(text.encode(), order).job)


def text_of(file):
    return files.job_text(kitchen.read(file)).encode()


# ---- samples


def samples(folder):
    """Every sample is written without a warning, and read back to the same file."""
    check({path.stem for path in SAMPLES} >= {"A", "F", "fitting", "impossible", "kitchen", "prices"}, "a sample is missing")
    for path in SAMPLES:
        target = folder / f"{path.stem}.job"
        equal(run("write", path, "-o", target), (0, b"", ""), f"write {path.name}")
        file = target.read_bytes()
        equal(written(path.read_text()), file, f"{path.name} by the function")
        status, text, _ = run("read", target)
        equal((status, written(text.decode())), (0, file), f"{path.name}, read back")
        equal(text_of(written(text.decode())), text, f"{path.name}, read back twice")
        status, shown, _ = run("show", target)
        state = kitchen.read(file)
        named = all(words.printed(record.name) in shown.decode() for record in state.records)
        check(status == 0 and named, f"show {path.name}")
        check(len(shown.decode().splitlines()) > len(state.records), f"show {path.name}: a line for each record")
    equal((folder / "A.job").read_bytes(), A, "A has the bytes of the rules")
    equal((folder / "F.job").read_bytes(), F, "F has the bytes of the rules")
    equal(len(A), 46, "A has 46 bytes")
    for name, least, most in (("kitchen", 12, 20), ("fitting", 8, 14)):
        count = len(kitchen.read((folder / f"{name}.job").read_bytes()).records)
        check(least <= count <= most, f"{name} has {count} records")


# ---- texts that are in order

KITCHEN = "choice\nwishes: a, b\norder: b\narticle X\n wishes: a\narticle Y\n wishes: b\n clashes: X\n"
# Each of these texts states the same job as the first.
SAME = {
    "by numbers": "choice\nwishes: a, b\norder: #1\narticle X\nwishes: #0\narticle Y\nwishes: #1\nclashes: #0\n",
    "other names, other order": "choice\norder: q\nwishes: p, q\narticle X\nwishes: p\narticle Y\nclashes: X\nwishes: q",
    "quoted": 'choice\nwishes: "a,\\"", "b"\norder: b\narticle "X"\nwishes: "a,\\x22"\narticle "\\x59"\nwishes: b\nclashes: "X"',
    "comments": "# A\n\n#\nchoice\n  # it is\nwishes: a, b\norder: b\narticle X\n#x\nwishes: a\narticle Y\n#\"\nwishes: b\nclashes: X",
    "over lines": "choice\nwishes: a,\n\n # more\n  b\norder: b\narticle X\nwishes: a\narticle Y\nwishes:b\nclashes  :  X",
    "line ends of Windows": KITCHEN.replace("\n", "\r\n"),
    "line ends of old": KITCHEN.replace("\n", "\r"),
    "byte order mark": "\ufeff" + KITCHEN,
    "tabs": KITCHEN.replace(" ", "\t").replace("article\t", "article \t"),
}
# Texts with the form that the tool gives them when it reads them back.
CANONICAL = {
    "choice\nwishes:\norder:": "choice\nwishes:\norder:\n",
    "fitting\ngoal:\nstart: #0\nfacts: x\nhorizon: 16\nstep": (
        "fitting\nhorizon: 16\nfacts: fact 0\nstart: fact 0\ngoal:\n\nstep\n"
    ),
    'choice\nwishes: x, y\norder: y, x\narticle A, B\narticle\n wishes: y,x\n clashes: "A, B"\narticle "Nr #4"\n clashes: #1': (
        "choice\nwishes: wish 0, wish 1\norder: wish 0, wish 1\n\n"
        'article "A, B"\n\narticle\n  wishes: wish 0, wish 1\n  clashes: "A, B"\n\narticle "Nr #4"\n  clashes: #1\n'
    ),
    'choice\nwishes:\norder:\narticle a\narticle a\narticle\n clashes: #0\narticle "order: x"\narticle Küche\n clashes: #3': (
        "choice\nwishes:\norder:\n\narticle a\n\narticle a\n\narticle\n  clashes: #0\n\n"
        'article "order: x"\n\narticle Küche\n  clashes: "order: x"\n'
    ),
    'choice\nwishes:\norder:\narticle\nprice: 7\nclashes:\narticle "price: 3"\nprice:-0.5\narticle\nclashes: "price: 3"\nprice: 0': (
        'choice\nwishes:\norder:\n\narticle\n  price: 7.00\n\narticle "price: 3"\n  price: -0.50\n\narticle\n  clashes: "price: 3"\n'
    ),
}
# What may stand after `price:`, with the price in cents.
AMOUNTS = {
    "129.90": 12990, "129.9": 12990, "129": 12900, "-40": -4000, "0.05": 5, "-0.05": -5, "-0.5": -50, "0.5": 50, "1": 100, "00.01": 1, "007": 700,
    "0": 0, "0.0": 0, "0.00": 0, "-0": 0, "-0.00": 0, "21474836.47": 2**31 - 1, "-21474836.48": -(2**31), "21474836": 2147483600,
}  # fmt: skip
# What may not, and a part of the message.
NO_AMOUNTS = {
    **{text: "the price is an amount; expected one such as 129.90 or -40, with a point and at most two decimals" for text in (
        "", "-", ".", "5.", ".5", "-.5", "+5", "129,90", "1,299.00", "1 299", "129.905", "1.2.3", "--5", "5-", "- 5", "1e3", "0x10", "5 EUR", "€5",
        "٣", "\u22125", '"5"', "five", "5, 6", "1" * 5000, "5 % ",
    )},
    **{text: f"no file has room for the price {text}; expected an amount from -21474836.48 to 21474836.47" for text in (
        "21474836.48", "-21474836.49", "21474837", "-21474837", "99999999.99", "-99999999", "123456789", "-" + "9" * 20, "42949672.97",
    )},
    "#5": "a comment has a line of its own",
    "5 # net": "a comment has a line of its own",
    "5\u200b": "the line has a character that does not print",
    "5,": "the list ends with a comma",
}  # fmt: skip


def texts_in_order():
    file = written(KITCHEN)
    equal(len(file), 11 + 9 + 2 + 17 + 2, "the length of a small job")
    for label, text in SAME.items():
        equal(written(text), file, f"the same job, {label}")
    for text, form in CANONICAL.items():
        equal(text_of(written(text)).decode(), form, f"the form of {text!r}")


def amounts():
    """Prices of texts, and what is none; what a file has comes back as a text with two decimals."""
    for amount, cents in AMOUNTS.items():
        for line in (f"price: {amount}", f"price : {amount} ", f"  price:{amount}"):
            job = kitchen.read(written(f"{CHOICE}article X\n{line}\nwishes: a\n"))
            equal((job.records[0].price, job.records[0].sets[0]), (cents, {0}), line)
    for amount, phrase in NO_AMOUNTS.items():
        faults = faults_of(f"{CHOICE}article X\nwishes: a\nprice: {amount}\n")
        check([line for line, _ in faults] == [6] and phrase in faults[0][1], f"price: {amount[:20]!r}: {faults}")
        check("expected" in faults[0][1] and len(faults[0][1]) < 200, f"price: {amount[:20]!r}: {faults}")
    for cents in (1, -1, 10, 99, 100, -100, 101, 12990, -4000, -5, 2**31 - 1, -(2**31)):
        amount = files.money(cents)
        check(re.fullmatch(r"-?[0-9]+\.[0-9]{2}", amount) and round(float(amount) * 100) == cents, f"{cents} cents are {amount}")
        file = reference.written(reference.Choice(0, set(), [reference.Article(set(), set(), b"", cents)]))
        equal(text_of(file).decode(), f"choice\nwishes:\norder:\n\narticle\n  price: {amount}\n", f"{cents} cents in a text")
        equal(written(text_of(file).decode()), file, f"{cents} cents, there and back")
        check(files.job_table(kitchen.read(file)).splitlines()[-1].split() == ["0", "-", "-", "-", amount], f"{cents} cents in a table")
    table = files.job_table(kitchen.read(reference.P_NAMED)).splitlines()
    equal([line.split()[-1] for line in table[-4:]], ["price", "0.07", "-", "-21474836.48"], "a table with prices")
    check("price" not in files.job_table(kitchen.read(A)), "a table without prices")


# ---- texts with faults

CHOICE = "choice\nwishes: a, b\norder: a\n"
FITTING = "fitting\nhorizon: 3\nfacts: a, b\nstart: a\ngoal: b\n"
# A text, and for each of its faults, in this order, the line and a part of the message.
FAULTY = [
    ("", [(1, 'expected "choice" or "fitting"')]),
    ("# nothing\n\n", [(1, 'expected "choice" or "fitting"')]),
    ("kitchen\nwishes:\norder:\n", [(1, 'expected "choice" or "fitting"')]),
    ("Choice\nwishes:\norder:\n", [(1, 'expected "choice" or "fitting"')]),
    ("Fitting\n" + FITTING[8:].replace("horizon", "Horizon"), [(1, 'expected "choice" or "fitting"'), (2, 'expected "horizon:"')]),
    ("choice 2\nwishes:\norder:\n", [(1, 'expected "choice" or "fitting"')]),
    ("\nwishes:\norder:\n", [(2, 'expected "choice" or "fitting"')]),
    ("article X\n", [(1, '"choice" or "fitting"'), (1, '"wishes:" is missing'), (1, '"order:" is missing')]),
    ("step X\n", [(1, '"choice" or'), (1, '"horizon:" is'), (1, '"facts:" is'), (1, '"start:" is'), (1, '"goal:" is')]),
    (CHOICE + "choice\n", [(4, "expected in the first line only")]),
    (CHOICE + "fitting\n", [(4, 'expected "wishes:", "order:" or "article"')]),
    (CHOICE + "step X\n", [(4, 'expected "wishes:", "order:" or "article"')]),
    (CHOICE + "article: X\n wishes: a\n", [(4, 'expected "article" in small letters and without a colon')]),
    (CHOICE + "Article X\n wishes: a\n", [(4, 'expected "article" in small letters')]),
    (CHOICE + "article X\nWishes: a\n", [(5, 'expected "wishes:" in small letters and with a colon')]),
    (CHOICE + "article X\nwishes c\n", [(5, 'expected "wishes:" in small letters and with a colon'), (5, "no wish is named")]),
    (CHOICE + "article X\nwish: a\n", [(5, 'expected "wishes:", "clashes:", "price:" or "article"')]),
    (CHOICE + "article X\nPrice: 5\n", [(5, 'expected "price:" in small letters and with a colon')]),
    (CHOICE + "article X\nprice 5,5\n", [(5, 'expected "price:" in small letters and with a colon'), (5, "the price is an amount")]),
    (CHOICE + "article X\nprice: 5\nprice: 6\n", [(6, '"price:" is in line 5 already')]),
    (CHOICE + "article X\nprice: 5,\n  6\n", [(5, "the price is an amount")]),
    (CHOICE + "price: 5\n", [(4, '"price:" has no place here; expected "wishes:", "order:" or "article"')]),
    (FITTING + "step X\nprice: 5\n", [(7, '"price:" has no place here; expected "needs:", "gives:", "takes:" or "step"')]),
    (FITTING.replace("horizon:", "Horizon"), [(2, 'expected "horizon:" in small letters and with a colon')]),
    (FITTING + "article X\n", [(6, 'expected "horizon:", "facts:", "start:", "goal:" or "step"')]),
    (FITTING + "step X\nwishes: a\n", [(7, 'expected "needs:", "gives:", "takes:" or "step"')]),
    ("choice\nwishes: a\narticle X\n", [(1, '"order:" is missing')]),
    ("choice\norder: a\narticle\nwishes: b\n", [(1, '"wishes:" is missing')]),
    ("fitting\nfacts: a\nstart: a\ngoal: a\n", [(1, '"horizon:" is missing')]),
    ("fitting\nhorizon: 1\nfacts: a\n", [(1, '"start:" is missing'), (1, '"goal:" is missing')]),
    (CHOICE + "order: b\n", [(4, '"order:" is in line 3 already')]),
    (CHOICE + "wishes: b\n", [(4, '"wishes:" is in line 2 already')]),
    (CHOICE + "article X\nwishes: a\nwishes: b\n", [(6, '"wishes:" is in line 5 already')]),
    (CHOICE + "article X\norder: a\n", [(5, "above the first article"), (5, "is in line 3 already")]),
    ("choice\nwishes: a\narticle X\norder: a\n", [(4, '"order:" comes too late')]),
    (CHOICE + "clashes: X,\n  Y\n", [(4, '"clashes:" has no place here')]),
    (FITTING + "needs: a\n", [(6, '"needs:" has no place here')]),
    (FITTING.replace("3", "17"), [(2, "expected a number from 0 to 16")]),
    (FITTING.replace("3", "three"), [(2, "expected a number from 0 to 16")]),
    (FITTING.replace("3", ""), [(2, "expected a number from 0 to 16")]),
    (FITTING.replace("3", "-1"), [(2, "expected a number from 0 to 16")]),
    (FITTING.replace("3", "٣"), [(2, "expected a number from 0 to 16")]),
    (FITTING.replace("3", "3, 4"), [(2, "expected a number from 0 to 16")]),
    (FITTING.replace("3", "9" * 5000), [(2, "expected a number from 0 to 16")]),
    (CHOICE + "article X\nwishes: c\n", [(5, 'no wish is named "c"; expected the name of one, or #0 to #1')]),
    (FITTING + "step X\nneeds: c\n", [(7, 'no fact is named "c"')]),
    ("choice\nwishes: corner larder\norder: corner lader\n", [(3, 'or #0 (near: "corner larder")')]),
    ("choice\nwishes: oak\norder: OAK\n", [(3, 'or #0 (near: "oak")')]),
    ("choice\nwishes:\norder: a\n", [(3, "expected the name of one, or none, as there is no wish")]),
    (CHOICE + "article X\nwishes: #2\n", [(5, "there is no wish #2; expected #0 to #1")]),
    (CHOICE + "article X\nwishes: #" + "1" * 5000, [(5, "there is no wish #111")]),
    (CHOICE + "article X\nwishes: a, b, a\n", [(5, '"a" is in the list twice')]),
    (CHOICE + "article X\nwishes: a, #0\n", [(5, "#0 is in the list twice")]),
    (CHOICE + "article X\nwishes: a,, b\n", [(5, "a name is missing in front of a comma")]),
    (CHOICE + "article X\nwishes: ,\n", [(5, "ends with a comma"), (5, "in front of a comma")]),
    (CHOICE + "article X\nwishes: a,\narticle Y\n", [(5, "the list ends with a comma; expected a further name, in this line or the next")]),
    (CHOICE + "article X\nwishes: a,\n  b,\n", [(6, "the list ends with a comma")]),
    (CHOICE + "article X\nwishes: a,\n  c\n", [(6, 'no wish is named "c"')]),
    ("choice\nwishes: a, b, a\norder:\n", [(2, 'two wishes are named "a"')]),
    ("choice\nwishes: a, #1\norder:\n", [(2, '#1 has a #; expected the name as "#1", with the marks')]),
    (CHOICE + "article X\nclashes: X\n", [(5, "clashes with itself")]),
    (CHOICE + "article X\nclashes: #0\n", [(5, "clashes with itself")]),
    (CHOICE + "article X\nclashes: Y\narticle Y\n", [(5, '"Y" is below this article')]),
    (CHOICE + "article X\nclashes: #1\narticle Y\n", [(5, "#1 is below this article")]),
    (CHOICE + "article X\nclashes: Y\n", [(5, 'no article is named "Y"')]),
    (CHOICE + "article X\narticle\nclashes: #2\n", [(6, "there is no article #2; expected #0")]),
    (CHOICE + "article X\narticle X\narticle\nclashes: X\n", [(7, '2 articles are named "X"; expected a number, #0 or #1')]),
    (CHOICE + "article " + "x" * 33, [(4, "the name has 33 bytes; expected at most 32")]),
    (CHOICE + "article " + "ä" * 17, [(4, "the name has 34 bytes; expected at most 32")]),
    (FITTING + "step " + "x" * 33, [(6, "the name has 33 bytes; expected at most 32")]),
    (CHOICE + 'article ""\n', [(4, "the name is empty")]),
    (CHOICE + 'article "X\n', [(4, "has a quotation mark")]),
    (CHOICE + 'article 19" rack\n', [(4, "has a quotation mark")]),
    (CHOICE + 'article "X" "Y"\n', [(4, "has a quotation mark")]),
    (CHOICE + 'article "X\\n"\n', [(4, "a backslash stands alone")]),
    (CHOICE + 'article "\\xG0"\n', [(4, "a backslash stands alone")]),
    (CHOICE + 'article "X\\"\n', [(4, "has a quotation mark")]),
    (CHOICE + "article #3\n", [(4, "#3 has a #")]),
    (CHOICE + "article X\tY\n", [(4, 'expected the name without it, or as "X\\x09Y"')]),
    (CHOICE + "article X\u00a0Y\n", [(4, 'expected the name without it, or as "X\\xC2\\xA0Y"')]),
    (CHOICE + "article X\u202eY\n", [(4, "does not print")]),
    (CHOICE + "article X\0\n", [(4, 'expected the name without it, or as "X\\x00"')]),
    ("\u200b" + CHOICE, [(1, "; the line has a character that does not print")]),
    ("\ufeff\ufeff" + CHOICE, [(1, "; the line has a character that does not print")]),
    (CHOICE.replace("wishes", "wish\u00ades"), [(1, '"wishes:" is missing'), (2, "; the line has a character that does not print")]),
    (FITTING.replace("3", "3\u200b"), [(2, "; the line has a character that does not print")]),
    (CHOICE + "article\n" * 66, [(68, "too many articles; expected at most 64")]),
    (FITTING + "step\n" * 33, [(38, "too many steps; expected at most 32")]),
    ("choice\norder:\nwishes: " + ", ".join(map(str, range(65))), [(3, "too many wishes; expected at most 64")]),
    ("fitting\nhorizon: 0\nstart:\ngoal:\nfacts: " + ",\n".join(map(str, range(33))), [(37, "too many facts; expected at most 32")]),
    (
        CHOICE + "article X\nwishes: c\nclashes: X\nnonsense\narticle " + "x" * 40 + "\nwishes: d\n",
        [(5, '"c"'), (6, "with itself"), (7, "expected"), (8, "40 bytes"), (9, '"d"')],
    ),
]
# What comes after something else is no comment. The line of the fault comes first.
NO_COMMENT = [
    (1, CHOICE.replace("choice", "choice # it is")),
    (1, FITTING.replace("fitting", "fitting #")),
    (2, CHOICE.replace(" a, b", "  # none").replace("order: a", "order:")),
    (2, CHOICE.replace("a, b", "a, b # two")),
    (2, FITTING.replace("3", "3 # rounds")),
    (2, FITTING.replace("3", "3#")),
    (3, CHOICE.replace("order: a", "order: #0 # x")),
    (3, CHOICE.replace("order: a", "order: # nothing")),
    (3, CHOICE.replace("order: a", "order: a # x")),
    (4, CHOICE + "nonsense # x\n"),
    (4, CHOICE + "article Hinge # 12\n"),
    (4, CHOICE + "article # a name is to follow\n"),
    (4, CHOICE + "article Hinge #12\n"),
    (4, CHOICE + "article C#\n"),
    (4, CHOICE + 'article "Hinge" # left\n'),
    (4, CHOICE + "article X # the last\nwishes: a\n"),
    (5, CHOICE + "article X\nwishes: a, # one\n"),
    (5, CHOICE + "article X\nwishes: #x\n"),
    (5, CHOICE + 'article X\nwishes: "a" # one\n'),
    (6, CHOICE + "article X\nwishes: a,\n  #1 # two\n"),
    (7, FITTING + "step X\nneeds: #0# a\n"),
]


def faults_of(text):
    """The faults that are found in a text."""
    try:
        texts.stated(text.encode())
        return []
    except texts.Faulty as faulty:
        return faulty.faults


def texts_with_faults(folder):
    for text, expected in FAULTY:
        label, faults = f"faults of {text[:200]!r}", faults_of(text)
        equal([line for line, _ in faults], [line for line, _ in expected], label + f" {faults}")
        for (_, message), (_, phrase) in zip(faults, expected):
            check(phrase in message, f"{label}: {phrase!r} is not in {message!r}")
            check("expected" in message, f"{label}: {message!r} does not say what was expected")
            check("comment" not in message or "#" in text, f"{label}: {message!r} has nothing to do with comments")
            check(len(message) < 400, f"{label}: the message has {len(message)} characters")
    path, target = folder / "faulty.txt", folder / "faulty.job"
    path.write_text(CHOICE + "article X\n  wishes: c\n  clashes: X\n")
    status, output, errors = quick("write", path, "-o", target)
    equal((status, output, target.exists()), (1, b"", False), "a faulty text writes nothing")
    heads = [line for line in errors.splitlines() if not line.startswith(" ")]
    check(len(heads) == 2 and heads[0].startswith(f"{path}:5: no wish") and heads[1].startswith(f"{path}:6: "), errors)
    check("    wishes: c\n" in errors and "    clashes: X\n" in errors, f"the lines are printed: {errors}")


def comments():
    """Only lines of their own are comments, and the help says so; a # elsewhere is a fault, or quoted."""
    for line, text in NO_COMMENT:
        faults = faults_of(text)
        equal([number for number, _ in faults], [line], f"a comment after something: {text!r} {faults}")
        check(faults[0][1].endswith("; a comment has a line of its own"), f"{text!r}: {faults}")
    for name in ("Hinge # 12", "# 12", "#12", "C#", "#"):
        text = f'choice\nwishes: "{name}"\norder: "{name}"\narticle "{name}"\nwishes: "{name}"\narticle\nclashes: "{name}"\n'
        equal(kitchen.read(written(text)).records[0].name, name.encode(), f"{name} as a name")
        check("comment" in faults_of(f"{CHOICE}article {name}\n")[0][1], f"{name} without marks")
    for number in ("#2", "#99999999999"):
        check("comment" not in faults_of(f"{CHOICE}article X\nwishes: {number}\n")[0][1], f"{number} is meant as a number")
    for line in ("#", "# x", "#x", "  # x", "##", '#"', "\u00a0#", "\u3000 # x", "#,"):
        equal(written(f"{line}\n" + KITCHEN.replace("\n", f"\n{line}\n")), written(KITCHEN), f"the comment {line!r}")
    check(faults_of("#1 rounds\n" + KITCHEN), "a line that begins with # and a digit is no comment")
    said = "A comment is a line of its own that begins with `#` and has no digit after it."
    check(said in guide.GUIDE and "A name with `#`" in guide.GUIDE, "the help says where comments are")


def odd_texts(folder):
    """What is no text, and what would spoil a terminal."""
    path = folder / "odd.txt"
    path.write_bytes(b"choice\nwishes: K\xfcche\norder:\n")
    status, output, errors = quick("write", path)
    check(status == 1 and f"{path}:2: the line is not in UTF-8" in errors, f"a text in Latin-1: {errors}")
    for encoding in ("utf-16", "utf-16-le", "utf-32"):
        check(broken(KITCHEN.encode(encoding)), f"a text in {encoding}")
    for data in (A, F, b"\0", b"\xef\xbb\xbf", b"\xed\xa0\x80", bytes(range(256))):
        check(broken(data), f"{data[:20]!r} is no text")
    path.write_bytes(b"\x1b[31m\0\n" + b"\x07junk " * 100 + b"\n" * 2 + b"nonsense\n" * 50)
    status, output, errors = quick("write", path)
    check(status == 1 and all(line.isprintable() and len(line) < 300 for line in errors.splitlines()), f"junk: {errors!r}")
    check("further faults are not shown" in errors and len(errors.splitlines()) < 50, f"junk in few lines: {errors}")
    path.write_text(CHOICE + 'article \x1b[2J"X\nwishes: #\x1b[2J, "\x1b[2J", "a\x1b"\narticle "\x1b"\narticle "\x1b"\n')
    status, output, errors = quick("write", path)
    check(status == 1 and all(line.isprintable() for line in errors.splitlines()), f"control characters: {errors!r}")
    for text in ('article "', "article ", "article #", "article X\nwishes: ", "article X\nwishes: #", "article X\nwishes: \u0301"):
        long = CHOICE + text + "x" * 10**5
        report = texts.remarks("", long.encode(), faults_of(long))
        check(report and max(map(len, report.splitlines())) < 600, f"{text} with a long name: {report[:700]}")
    long = CHOICE + "article X\nwishes: a" + " " * 10**6 + "b\n"
    check("no wish" in texts.remarks("", long.encode(), faults_of(long)), "a line of a million blanks")


def broken(data):
    """Whether bytes are no text that is in order."""
    try:
        texts.stated(data)
        return False
    except texts.Faulty as faulty:
        return bool(texts.remarks("", data, faulty.faults))


def in_time(seconds, text, line, phrase):
    """The first fault of a large text is found within this many seconds."""
    start = time.process_time()
    faults = faults_of(text)
    report = texts.remarks("", text.encode(), faults)
    used = time.process_time() - start
    label = f"{len(text)} characters from {text[-20:]!r}"
    check(used < seconds, f"{label}: {used:.1f} seconds of {seconds}")
    check(faults[0][0] == line and phrase in faults[0][1], f"{label}: {faults[:1]}")
    check(len(report.splitlines()) <= 2 * texts.MOST_FAULTS + 1, f"{label}: a short report")
    return faults


def large_texts():
    many = [f"wish {number}" for number in range(20000)]
    equal(len(in_time(1, CHOICE + "article X\nwishes: a\n" * 20000, 132, "too many articles")), 1, "stopped at the 65th")
    equal(len(in_time(1, "choice\norder:\nwishes: " + ", ".join(many), 3, "too many wishes")), 1, "stopped at the 65th")
    equal(len(in_time(1, "choice\norder:\nwishes: " + ",\n".join(many), 67, "too many wishes")), 1, "stopped at the 65th")
    equal(len(in_time(1, FITTING + "step X\n" * 20000, 38, "too many steps")), 1, "stopped at the 33rd")
    equal(len(in_time(5, CHOICE + "junk\n" * 100000, 4, "expected")), 100000, "each of the junk lines is a fault")
    in_time(5, "junk\n" * 100000, 1, '"choice" or "fitting"')
    in_time(5, CHOICE + "article X\nwishes: " + ", ".join(many * 5), 5, "no wish")
    in_time(5, CHOICE + "article X\nwishes:" + "," * 300000, 5, "comma")
    in_time(5, CHOICE + 'article "' + "x" * 10**6, 4, "quotation mark")
    in_time(5, CHOICE + "article X\nwishes: " + '"\\",' * 100000, 5, "")


# ---- one name, two keyboards; blanks of other sorts

ONE, TWO = unicodedata.normalize("NFC", "Tür für Öl"), unicodedata.normalize("NFD", "Tür für Öl")
# One name, as it is written in a text: by one character or two, with marks of two classes in either order, by the bytes of UTF-8.
ONE_NAME = [
    (ONE, TWO),
    ("a\u0301\u0323", "a\u0323\u0301"),
    ("\u00e1\u0323", "a\u0323\u0301"),
    ("\u0344" * 8, "\u0308\u0301" * 8),
    ("Büfett", '"Bu\\xCC\\x88fett"'),
]
# Two names: marks of one class, with a starter between marks, a character that is not covered, bytes that are not UTF-8, and what a
# compatibility mapping or capitals would make one.
TWO_NAMES = [
    ("a\u0301\u0300", "a\u0300\u0301"),
    ("\u00e1\u0300", "\u00e0\u0301"),
    ("a\u0301\u034f\u0323", "a\u0323\u034f\u0301"),
    ("\u0439", "\u0438\u0306"),
    ("\u212b", "\u00c5"),
    ("s\u0323\u0307", "\u1e69"),
    (f"{ONE} €", f"{TWO} €"),
    ("ü", '"\\xFC"'),
    ("u", '"u\\xCC"'),
    ("A", '"\\xC1\\x81"'),
    ("\u0132", "IJ"),
    ("ü", "Ü"),
]


def names_of(*texts_of_names):
    """The bytes of names that are written so in a text."""
    return [record.name for record in kitchen.read(written(CHOICE + "".join(f"article {name}\n" for name in texts_of_names))).records]


def one_name(a, b):
    """A list finds by b what is named a; both are not allowed as wishes, and are a warning as articles."""
    text = f"choice\nwishes: {a}, x\norder: {b}\narticle {b}\nwishes: {b}\narticle\nwishes: x\nclashes: {a}\n"
    numbers = f"choice\nwishes: {a}, x\norder: #0\narticle {b}\nwishes: #0\narticle\nwishes: x\nclashes: #0\n"
    equal(written(text), written(numbers), "wishes and articles by the other keyboard")
    equal(kitchen.read(written(text)).records[0].name, names_of(b)[0], "the bytes are those that were typed")
    equal(written(text.replace(f"order: {b}", "order: x"), b), written(numbers), "--order by the other keyboard")
    text = f"fitting\nhorizon: 1\nfacts: x, {a}\nstart: {b}\ngoal: {b}\nstep {b}\nneeds: {b}\ngives: {b}\ntakes: {b}\n"
    equal(written(text), written(text.replace(f": {b}", ": #1")), "facts by the other keyboard")
    faults = faults_of(f"choice\nwishes: {a}, {b}\norder:\n")
    check(len(faults) == 1 and faults[0][0] == 2 and "two wishes are named" in faults[0][1], f"two wishes: {faults}")
    faults = faults_of(f"{CHOICE}article {a}\narticle {b}\narticle\nclashes: {a}\n")
    check(len(faults) == 1 and faults[0][0] == 7 and "2 articles are named" in faults[0][1], f"two articles: {faults}")
    twice = f"{CHOICE}article {a}\nwishes: a\narticle {b}\nwishes: a\narticle\nwishes: a\nclashes: #1\n"
    equal([line for line, _ in texts.stated(twice.encode()).warnings], [6], "two articles are a warning")
    check(kitchen.same_name(*names_of(a, b)), f"{a} and {b} are one name")


def two_names(a, b):
    """A list finds each of the two by itself, and neither by the other; there may be both."""
    text = f"choice\nwishes: {a}, {b}\norder: {b}\narticle {a}\nwishes: {a}\narticle {b}\nwishes: {b}\narticle\nwishes: {a}\nclashes: {b}\n"
    numbers = f"choice\nwishes: x, y\norder: #1\narticle {a}\nwishes: #0\narticle {b}\nwishes: #1\narticle\nwishes: #0\nclashes: #1\n"
    equal(written(text), written(numbers), f"{a} and {b}, two wishes and two articles")
    equal(written(text, a), written(numbers, "x"), f"{a} and {b}, --order")
    equal(texts.stated(text.encode()).warnings, [], f"{a} and {b} are no warning")
    equal(written(text_of(written(text)).decode()), written(text), f"{a} and {b}, there and back")
    for text in (f"choice\nwishes: {a}\norder: {b}\n", f"fitting\nhorizon: 1\nfacts: {a}\nstart:\ngoal: {b}\n"):
        faults = faults_of(text)
        check(len(faults) == 1 and " is named " in faults[0][1], f"{a} is not found by {b}: {faults}")
    check(not kitchen.same_name(*names_of(a, b)), f"{a} and {b} are two names")


def keyboards(folder):
    for names, test in ((ONE_NAME, one_name), (TWO_NAMES, two_names)):
        for a, b in names:
            test(a, b)
            test(b, a)
    articles = [reference.Article({0}, set(), ONE.encode()), reference.Article({0}, {0}, TWO.encode())]
    file = reference.written(reference.Choice(1, {0}, [*articles, reference.Article({0}, {0, 1}, b"x")]))
    check("clashes: #0\n" in text_of(file).decode() and "clashes: #0, #1\n" in text_of(file).decode(), "both by number")
    equal(written(text_of(file).decode()), file, "there and back with both")
    job = kitchen.read(file)
    equal(words.names(job, {0, 1, 2}), [f"{ONE} (article 0)", f"{TWO} (article 1)", "x"], "both look the same in a sentence")
    path = folder / "keyboards.txt"
    path.write_text(f"choice\nwishes: {ONE}\norder:\narticle\nwishes: {ONE}\n")
    equal(quick("write", path, "--order", TWO), (0, written(path.read_text(), ONE), ""), "--order from the other keyboard")
    same_looks()


def same_looks():
    """Names that look the same and are not equal have their numbers in a sentence, and a fault says why one is not found."""
    names = ["\u0439\u043e\u0434", "\u0438\u0306\u043e\u0434"]
    job = kitchen.choice(0, (), [kitchen.article(name=name) for name in names])
    equal(words.names(job, {0, 1}), [f"{name} (article {number})" for number, name in enumerate(names)], "they look the same in a sentence")
    ((line, message),) = faults_of(f"choice\nwishes: {names[0]}\norder: {names[1]}\n")
    check(line == 3 and f'(near: "{names[0]}", in other characters)' in message, f"a name that looks the same: {message}")
    ((_, message),) = faults_of("choice\nwishes: Tür\norder: Tor\n")
    check(message.endswith('(near: "Tür")'), f"a name that is nearly the same: {message}")


def names_by_the_second_program():
    """Whether names are equal is what the second program says, of names that come of one text; as text and as bytes."""
    draw = random.Random(7)
    for expected, pairs in ((True, namings.EQUAL), (False, namings.APART)):
        for a, b in pairs:
            equal((kitchen.same_name(a, b), kitchen.same_name(b, a)), (expected, expected), f"{a!r} and {b!r}")
    seen = {True: 0, False: 0}
    for _ in range(500):
        drawn_names = namings.drawn_names(draw)
        for a, b in zip(draw.choices(drawn_names, k=20), draw.choices(drawn_names, k=20)):
            found = kitchen.same_name(a, b)
            equal(found, second.equal(a, b), f"{a!r} and {b!r}")
            seen[found] += a != b
    check(min(seen.values()) > 300, f"equal names of other bytes, and unequal ones: {seen}")


def blanks():
    for blank in texts.BLANKS:
        text = re.sub(r"([:,])", rf"{blank}\1{blank}", KITCHEN).replace("\n", f"{blank}\n{blank}")
        text = f"{blank}{text}".replace("article ", f"article{blank}{blank}")
        equal(written(text), written(KITCHEN), f"blanks are {blank!r}")
        equal(written(KITCHEN, f"{blank}a{blank},{blank}b{blank}"), written(KITCHEN, "a, b"), f"--order with {blank!r}")
        equal(written(KITCHEN, blank), written(KITCHEN, ""), f"--order of {blank!r} only")
        if blank != " ":
            faults = faults_of(f"{CHOICE}article X{blank}Y\n")
            check(len(faults) == 1 and "does not print" in faults[0][1], f"{blank!r} in a name: {faults}")
            name = kitchen.read(written(f'{CHOICE}article "X{blank}Y"\n')).records[0].name
            equal(name, f"X{blank}Y".encode(), f"{blank!r} in a quoted name")
            check(faults_of(f"choice\nwishes: a{blank}b\norder:\n"), f"{blank!r} in the name of a wish")
    for other in ("\u200b", "\u2060", "\ufeff", "\x0b", "\x0c", "\x85", "\u2028"):
        check(faults_of(f"{CHOICE}article{other}X\n") and faults_of(f"{CHOICE}article X{other}\n"), f"{other!r} is no blank")


# ---- warnings and --order

GOOD = "choice\nwishes: a, b\norder: a\narticle X\nwishes: a\narticle Y\nwishes: b\n"
READY = "fitting\nhorizon: 1\nfacts: a, b\nstart: a\ngoal: b\nstep X\nneeds: a\ngives: b\n"
# A text, and its warnings by line.
WARNED = [
    (GOOD, []),
    (READY, []),
    (GOOD.replace("wishes: a\n", "wishes: b\n"), [(3, 'no article carries the wish "a" of the order')]),
    (CHOICE, [(3, 'no article carries the wish "a" of the order')]),
    ("choice\nwishes: a\norder:\n", []),
    (GOOD + "article X\nwishes: b\n", [(8, 'two articles are named "X"; the first is in line 4')]),
    (GOOD + "article X\nwishes: b\narticle X\nwishes: a\n", [(8, "in line 4"), (10, "in line 4")]),
    (GOOD + "article\nwishes: b\narticle\nwishes: b\n", []),
    (GOOD + "article Z\n", [(8, "the article carries no wish")]),
    (GOOD + "article\nclashes: X\n", [(8, "the article carries no wish")]),
    (GOOD + "article Z\nprice: 5\n", [(8, "the article carries no wish")]),
    (GOOD + "article Z\nprice: -5\n", []),
    (READY.replace("gives: b", ""), [(5, 'nothing gives the fact "b" of the goal')]),
    (READY.replace("goal: b", "goal: a, b").replace("start: a", "start:"), [(5, '"a" of the goal'), (6, 'the step needs "a"')]),
    (READY + "step Y\nneeds: b\n", []),
    (READY + "step X\nneeds: b\n", [(9, 'two steps are named "X"; the first is in line 6')]),
    (READY.replace("a, b", "a, b, c") + "step Y\nneeds: c\n", [(9, 'the step needs "c", which nothing gives')]),
    (READY.replace("a, b", "a, b, c") + "step Y\nneeds: c, b\ngives: c\n", []),
]


def warnings(folder):
    for text, expected in WARNED:
        found = texts.stated(text.encode()).warnings
        equal([line for line, _ in found], [line for line, _ in expected], f"warnings of {text!r}: {found}")
        for (_, message), (_, phrase) in zip(found, expected):
            check(phrase in message, f"warnings of {text!r}: {message}")
    for path in SAMPLES:
        equal(texts.stated(path.read_bytes()).warnings, [], f"{path.name} has no warnings")
    path = folder / "warned.txt"
    path.write_text(GOOD + "article X\n")
    status, output, errors = quick("write", path)
    equal((status, output), (0, written(path.read_text())), "a text with warnings is written")
    lines = [f"{path}:8: warning: two articles", "    article X", f"{path}:8: warning: the article carries no wish", "    article X"]
    check([line.startswith(start) for line, start in zip(errors.splitlines(), lines)] == [True] * 4, errors)
    path.write_text(CHOICE)
    status, _, errors = quick("write", path, "--order", "b")
    equal((status, errors), (0, f'{path}, --order: warning: no article carries the wish "b" of the order\n'), "of --order")
    path.write_text("choice\nwishes: a\norder: a\n" + "article\n" * 64)
    status, _, errors = quick("write", path)
    check(status == 0 and errors.endswith(": 45 further warnings are not shown\n"), f"many warnings: {errors[-200:]}")


def orders(folder):
    """A list in place of the text's order."""
    path, plan = folder / "order.txt", ROOT / "jobs" / "F.txt"
    path.write_text(GOOD)
    for order in ("", "a", "b", "a, b", "#1", '"a",#1'):
        text = GOOD.replace("order: a", f"order: {order}")
        equal(quick("write", path, "--order", order), (0, written(text), ""), f"--order {order!r}")
        equal(written(GOOD.replace("order: a\n", ""), order), written(text), f"--order {order!r} without one in the text")
    for order, phrase in (
        ("c", 'no wish is named "c"; expected the name of one, or #0 to #1'),
        ("#2", "there is no wish #2; expected #0 to #1"),
        ("a, b,", "the list ends with a comma; expected a further name\n"),
        (",", "a name is missing in front of a comma"),
        ("a, #0", "#0 is in the list twice"),
        ("a # x", "a comment has a line of its own"),
        ("a\nb", 'expected the name without it, or as "a\\x0Ab"'),
    ):
        status, output, errors = quick("write", path, "--order", order, "-o", folder / "order.job")
        check((status, output) == (1, b"") and errors.startswith(f"{path}, --order: "), f"--order {order!r}: {errors}")
        check(phrase in errors and not (folder / "order.job").exists(), f"--order {order!r}: {errors}")
    for order in ("", "a"):
        status, output, errors = quick("write", plan, "--order", order)
        check((status, output) == (2, b"") and "is a fitting" in errors, f"a fitting has no order: {errors}")
    status, output, errors = quick("write", path, "--order", os.fsdecode(b"a, \xff"))
    check((status, output) == (2, b"") and "not in UTF-8" in errors and "Traceback" not in errors, f"no UTF-8: {errors}")
    for data, fitting in (
        (b"fitting", True), (b"\xef\xbb\xbf# x\r\n\xc2\xa0fitting\r", True), (b"# \xff\n\nfitting\n\xff", True),
        (b"choice", False), (b"", False), (b"# x\xe2\x80\xa8fitting\nchoice", False), (b"fitting\x0b", False),
    ):
        equal(texts.kind_of(data) is kitchen.FITTING, fitting, f"whether {data!r} is a fitting")


# ---- job files

N, M = reference.N, reference.M  # with names
OTHER = b"\x43\x01\x00" + bytes(8)  # an article's record is to follow
STEP = b"\x46\x01\x01\x00" + bytes(8)  # a step's record is to follow
REFUSED = [
    (b"", 1, 0),
    (b"\x00", 1, 0),
    (b"choice\n", 1, 0),
    (b"\x43", 2, 1),
    (A[:-1], 2, 45),
    (F[:-1], 2, len(F) - 1),
    (A[:7], 2, 7),
    (OTHER, 2, 11),
    (OTHER + b"\x04\x02a", 2, 14),
    (b"\x43\x41", 3, 1),
    (b"\x43\x40\x41", 3, 2),
    (b"\x46\x21", 3, 1),
    (b"\x46\x20\x21", 3, 2),
    (b"\x46\x20\x20\x11", 3, 3),
    (OTHER + b"\x10", 4, 11),
    (OTHER + b"\x80" + bytes(4), 4, 11),
    (OTHER + b"\xf8" + bytes(4), 4, 11),
    (OTHER + b"\x08", 2, 12),
    (OTHER + b"\x08\x01\x00\x00", 2, 15),
    (OTHER + b"\x08" + bytes(3), 2, 15),
    (OTHER + b"\x08" + bytes(4), 5, 12),
    (OTHER + b"\x0c\x01a" + bytes(4), 5, 14),
    (OTHER + b"\x0c\x01a" + bytes(3), 2, 17),
    (OTHER + b"\x08\x01\x00\x00\x00\x00", 8, 16),
    (STEP + b"\x10", 4, 12),
    (OTHER + b"\x01" + bytes(8), 5, 12),
    (OTHER + b"\x02" + bytes(8), 5, 12),
    (OTHER + b"\x04\x00", 5, 12),
    (STEP + b"\x05\x01\x00\x00\x00" + bytes(4), 5, 17),
    (STEP + b"\x08\x00", 5, 13),
    (b"\x43\x00\x02\x04" + bytes(7), 6, 3),
    (b"\x46\x00\x01\x00\x02" + bytes(7), 6, 4),
    (b"\x46\x00\x01\x00\x00\x00\x00\x00\x02" + bytes(3), 6, 8),
    (OTHER + b"\x01\x01" + bytes(7), 6, 12),
    (OTHER + b"\x02\x01" + bytes(7), 6, 12),
    (A[:29] + b"\x02" + A[30:], 6, 29),
    (STEP + b"\x01\x02" + bytes(3), 6, 13),
    (OTHER + b"\x04\x21", 7, 12),
    (STEP + b"\x08\xff" + bytes(300), 7, 13),
    (A + b"\x00", 8, 46),
    (F + F, 8, len(F)),
]


def outcome(file):
    """How kitchen.py takes a file: a refusal, or the file that its job is written as."""
    try:
        return kitchen.written(kitchen.read(file))
    except kitchen.Refused as refusal:
        equal(str(refusal), f"refused {refusal.number} at {refusal.place}", "a refusal in words")
        return str(refusal)


def second_outcome(file):
    answer = reference.outcome(reference.read, file)
    return answer if isinstance(answer, str) else reference.written(answer)


def damaged(file):
    """A file whole, cut everywhere, lengthened, and with each byte changed in three ways."""
    yield file
    yield file + b"\0"
    for at in range(len(file)):
        yield file[:at]
        for bits in (1, 8, 128):
            yield file[:at] + bytes([file[at] ^ bits]) + file[at + 1 :]


def files_refused(folder):
    for file, number, place in REFUSED:
        equal(outcome(file), f"refused {number} at {place}", f"the file {file[:40].hex(' ')}")
        text = reasons.explained(number, place, kitchen.Reader(file))
        check(f"Reason {number}: " in text and f"here it is {place}." in text, f"a refusal in words: {text}")
        check("Read by itself" not in text, f"a refusal in words, with its own file: {text}")
    for base in (A, F, N, M, reference.P, reference.P_NAMED):
        for file in damaged(base):
            equal(outcome(file), second_outcome(file), f"the file {file.hex(' ')}, read by reference/")
    for file in drawn.over_limits():
        equal(outcome(file), second_outcome(file), f"the file {file[:20].hex(' ')}, read by reference/")
    path = folder / "refused.job"
    path.write_bytes(A[:-1])
    for command in ("read", "show"):
        status, output, errors = quick(command, path)
        check(status == 1 and not output and errors.startswith(f"{path}: refused 2 at 45\nReason 2: "), errors)
        check("the wishes of article 2, but the file has only 7 of them" in errors, errors)
    status, _, errors = quick("show", folder / "missing.job")
    equal((status, errors), (1, f"{folder / 'missing.job'}: No such file or directory\n"), "a missing file")
    status, _, errors = quick("read", ROOT / "jobs" / "A.txt")
    check(status == 1 and "make one from it with tools/job write" in errors, f"a text in place of a file: {errors}")


NAMES = [
    b"a", b"a", b"", b"Oven", "Küche 60".encode(), b"A, B", b"#3", b"# 3", b"x # y", b"#", b'19" rack', b'"', b'"a"', b"\\", b"\\x41",
    b" a", b"a ", b"\t", b"a\nb", b"a\r", b"\x00", b"\xff\xfe", b"\xc3", b"\xed\xa0\x80", b"order: a", b"wishes :", b"article", b"step x",
    b"choice", b"wish 0", "\u2028".encode(), "\ufeffa".encode(), "\u00a0".encode(), b"x" * 32, b"\x80" * 32, "€".encode() * 10, b"a,", b",",
    "\u0301".encode(), "\u0301\u0308".encode(), "\u00e9".encode(), "e\u0301".encode(), "\u0301e".encode(), "\u202eab".encode(), "\u200d".encode(),
    "Article X".encode(), "wishes: a".encode(), "order\u00a0:".encode(), "\u212a".encode(), b"K", "\u3000".encode(), b"\x1b[2J", b"\\", b";",
]  # fmt: skip


def random_job(source):
    """A job of either kind, with names that are not easy to write down."""
    some = lambda bound: {i for i in range(bound) if source.random() < source.choice((0, 0.1, 0.5, 1))}
    name = lambda: source.choice(NAMES) if source.random() < 0.7 else source.randbytes(source.randrange(33))
    price = drawn.drawn_price if source.random() < 0.5 else lambda source: 0
    if source.random() < 0.5:
        n, wishes = source.choice((0, 1, 3, 20, 64)), source.choice((0, 1, 5, 64))
        articles = [reference.Article(some(wishes), some(i), name(), price(source)) for i in range(n)]
        return reference.Choice(wishes, some(wishes), articles)
    n, facts = source.choice((0, 1, 3, 32)), source.choice((0, 1, 5, 32))
    steps = [reference.Step(some(facts), some(facts), some(facts), name()) for _ in range(n)]
    return reference.Fitting(facts, source.randrange(17), some(facts), some(facts), steps)


def there_and_back():
    """A file that is read to a text and written again is the same file; the text is stable, and so are names in sentences."""
    source = random.Random(1)
    found = [A, F, N, M, reference.P, reference.P_NAMED] + [reference.written(random_job(source)) for _ in range(90)]
    named = [reference.Article(set(), set(range(i)), name) for i, name in enumerate(NAMES)]
    found.append(reference.written(reference.Choice(0, set(), named)))
    for file in found:
        text = text_of(file)
        equal(written(text.decode()), file, f"there and back: {file[:60].hex(' ')}")
        equal(text_of(written(text.decode())), text, "the text is stable")
        check(all(line == line.rstrip() for line in text.decode().split("\n")), "no blank at the end of a line")
        job = kitchen.read(file)
        shown = files.job_table(job)
        check(all(line.isprintable() for line in shown.split("\n")), f"what is shown prints: {shown!r}")
        called = words.names(job, range(len(job.records)))
        check(all(map(str.isprintable, called)) and len(set(map(words.look, map(str.encode, called)))) == len(called), f"{called}")


# ---- words


def stated_reasons():
    """The rows of the rules' table: number, what is wrong, place."""
    rows = re.findall(r"^\| (\d+) \| (.+?) \| (.+?) \|$", RULES.split("## Reasons")[1].split("\n## ")[0], re.M)
    return {int(number): (wrong, place) for number, wrong, place in rows}


def explanations(folder):
    found = stated_reasons()
    equal(sorted(found), list(range(1, 19)), "the rules have 18 reasons")
    for number, (wrong, place) in found.items():
        text = reasons.explained(number)
        check(text.startswith(f"Reason {number}: {wrong}.\n"), f"explain {number}: {text}")
        if number in (2, 3, 4, 5, 6, 7, 8, 11):
            check(f"The place is {place}.\n" in text, f"the place of {number}: {text}")
        check(len(text.splitlines()) == 3, f"explain {number}, three lines: {text}")
    check(reasons.NO_KITCHEN in reasons.explained(14), "14 in words")
    check(reasons.NO_PLAN.format("the horizon") in reasons.explained(15), "15 in words")
    for place in (None, 0):
        check("\nIt has no place: no call is turned down by it.\n" in reasons.explained(18, place), "18 has no place")
    places_explained()
    small, short = A[:29] + b"\x02" + A[30:], N[:-1]
    for number, place, file, phrase in [
        (6, 29, small, "Byte 29 is number 1 of the 8 bytes that hold the clashes of article 1: the set of 1; only numbers below 1"),
        (6, None, small, "Byte 29 is number 1 of the 8 bytes that hold the clashes of article 1"),
        (6, 30, small, "Read by itself, the file is refused 6 at 29."),
        (6, 40, small, "The file is not read as far as byte 40"),
        (6, 99, small, "The file has 46 bytes, so it has no byte 99."),
        (3, 1, small, "Byte 1 holds the count of articles: 3."),
        (3, 3, M, "Byte 3 holds the horizon: 2."),
        (6, 8, M, "Byte 8 is number 1 of the 4 bytes that hold the goal: the set of 1 and 3."),
        (4, 12, M, 'Byte 12 holds the bit map of step 0, "cut": 14, with the bits 1, 2 and 3.'),
        (7, 21, M, 'Byte 21 holds the length of the name of step 0, "cut": 3.'),
        (7, 22, M, 'Byte 22 is number 1 of the 3 bytes that hold the name of step 0: "cut".'),
        (1, 0, M, "Read by itself, the file is a fitting file that is in order."),
        (5, 20, reference.P, "Byte 20 is number 1 of the 4 bytes that hold the price of article 0: -1.50."),
        (5, None, reference.P[:-4] + bytes(4), "is number 1 of the 4 bytes that hold the price of article 2: 0.00."),
        (2, None, reference.P[:-1], "the 4 bytes that hold the price of article 2, but the file has only 3 of them."),
        (4, 11, reference.P_NAMED, 'Byte 11 holds the bit map of article 0, "x": 13, with the bits 0, 2 and 3.'),
        (2, len(N) - 1, short, "that hold the clashes of article 3, but the file has only 7 of them."),
        (14, 0, short, f"Read by itself, the file is refused 2 at {len(N) - 1}."),
        (11, 2, N, "Here that is a (article 2)."),
        (11, 99, N, "The file has no article 99."),
    ]:
        text = reasons.explained(number, place, kitchen.Reader(file))
        check(phrase in text, f"explain {number} {place}: {text}")
    path = folder / "explained.job"
    path.write_bytes(small)
    whole = reasons.explained(6, 29, kitchen.Reader(small)).encode()
    for arguments, stdin, output in (
        (("6", "29", path), b"", whole),
        (("6", "29", "-"), small, whole),
        (("6", "-"), small, reasons.explained(6, None, kitchen.Reader(small)).encode()),
        (("6", path), b"", reasons.explained(6, None, kitchen.Reader(small)).encode()),
        (("11", "1"), b"", reasons.explained(11, 1).encode()),
        (("16",), b"", reasons.explained(16).encode()),
        (("17",), b"", reasons.explained(17).encode()),
        (("17", "0", path), b"", reasons.explained(17, 0, kitchen.Reader(small)).encode()),
        (("18",), b"", reasons.explained(18).encode()),
        (("14", "0"), b"", reasons.explained(14, 0).encode()),
        (("14", "1", path), b"", reasons.explained(14, 1, kitchen.Reader(small)).encode()),
        (("14", "2"), b"", reasons.explained(14, 2).encode()),
    ):
        equal(quick("explain", *arguments, stdin=stdin), (0, output, ""), f"explain {arguments}")
    for number in ("0", "19", "x", "", "9" * 5000, "٣", os.fsdecode(b"\xff")):
        status, output, errors = quick("explain", number)
        check((status, output) == (1, b"") and "expected a number from 1 to 18" in errors, f"explain {number[:9]!r}: {errors}")
    for arguments, phrase in ((("6", "x", path), "'x' is no place; expected a number"), (("6", "1", path, path), "unrecognized")):
        status, output, errors = quick("explain", *arguments)
        check((status, output) == (2, b"") and phrase in errors, f"explain {arguments}: {errors}")


# What counting the wishes says of a kitchen that does not exist, by the place of 14: how it begins, and how it ends.
COUNTED = {
    0: ("Counting the wishes already rules such a kitchen out, without a search: ", " add up to fewer wishes than the order has."),
    1: ("Counting the wishes alone does not rule such a kitchen out: ", " and no combination is left."),
}


def places_explained():
    """The place of 14: as far as it can be said of a list of goals, and what it means in kitchen."""
    place = "the index of the first goal in the list that falls short, and the list's length if none does; of a price it is 0"
    place += ", and of an order of a fair it is not told"
    check(f"The place is {place}.\n" in reasons.explained(14), "the place of 14")
    for number, goals in ((0, "0 goals"), (1, "1 goal"), (2, "2 goals"), (64, "64 goals"), (10**30, f"{10**30} goals")):
        text = reasons.explained(14, number)
        lines = text.splitlines()
        equal(lines[:1] + lines[2:3], [reasons.explained(14).splitlines()[line] for line in (0, 2)], f"explain 14 {number}")
        equal(lines[1], f"The place is {place}; here it is {number}.", f"explain 14 {number}")
        said = f"With {goals} in the list none falls short; with more, the goal of index {number} is the first that does."
        equal((len(lines), lines[3]), (5, said), f"explain 14 {number}")
        for other, (start, end) in COUNTED.items():
            check((start in lines[4] and lines[4].endswith(end)) == (number == other), f"explain 14 {number}: {text}")
        check(lines[4].endswith("the place is 0 or 1.") == (number > 1), f"explain 14 {number}: {text}")
        check(text in reasons.explained(14, number, kitchen.Reader(A)), f"explain 14 {number} with a file")


# ---- host/kitchen.py


def built(job, source):
    """A job of reference/, built with kitchen.py; each clash is said at either article."""
    if isinstance(job, reference.Fitting):
        steps = [kitchen.step(*step) for step in job.steps]
        return kitchen.fitting(job.facts, job.horizon, job.start, job.goal, steps)
    said = [set() for _ in job.articles]
    for number, article in enumerate(job.articles):
        for other in article.clashes:
            for one, two in source.choice((((number, other),), ((other, number),), ((number, other), (other, number)))):
                said[one].add(two)
    articles = (kitchen.article(a.wishes, clashes, a.name, a.price) for a, clashes in zip(job.articles, said))
    return kitchen.choice(job.wishes, job.order, articles)


def host_jobs():
    """Jobs that are built are written as reference/ writes them, and read back."""
    source = random.Random(2)
    jobs = [random_job(source) for _ in range(60)] + [drawn.drawn_choice(source) for _ in range(100)]
    jobs += [drawn.drawn_fitting(source) for _ in range(100)] + [drawn.wide_choice(source) for _ in range(3)]
    jobs += [drawn.priced(source, drawn.drawn_choice(source)) for _ in range(100)]
    for job in jobs:
        mine = built(job, source)
        file = kitchen.written(mine)
        equal(file, reference.written(job), f"{job} is built and written")
        equal(kitchen.read(file), mine, f"{job} is read back")
    for file in (*drawn.small_choices(), *drawn.priced_choices(), *drawn.small_fittings()):
        equal(outcome(file), file, f"{file.hex(' ')} is read and written")
    job = kitchen.choice(2, {1}, [kitchen.article({0}, {1}, "Tür"), kitchen.article({1}, name=b"\xff")])
    equal([record.name for record in job.records], ["Tür".encode(), b"\xff"], "a name is a text or bytes")
    equal([record.sets[1] for record in job.records], [set(), {0}], "a clash is kept at the later article")


def article(*arguments, **names):
    return kitchen.article(*arguments, **names)


def host_limits():
    choice, fitting, step = kitchen.choice, kitchen.fitting, kitchen.step
    for phrase, build, *arguments in (
        ("65 articles; a choice has 0 to 64", choice, 0, (), [article()] * 65),
        ("65 wishes; a choice has 0 to 64", choice, 65, (), []),
        ("-1 wishes; a choice has 0 to 64", choice, -1, (), []),
        ("article 0 cannot clash with 0", choice, 0, (), [article((), {0})]),
        ("article 1 cannot clash with 2", choice, 0, (), [article(), article((), {2})]),
        ("article 1 cannot clash with -1", choice, 0, (), [article(), article((), {-1})]),
        ("the wishes of article 1: there is no 2 below 2", choice, 2, (), [article(), article({2})]),
        ("the wishes of article 0: there is no -1 below 2", choice, 2, (), [article({-1})]),
        ("the order: there is no 2 below 2", choice, 2, {0, 2}, []),
        ("the order: there is no -1 below 2", choice, 2, {-1}, []),
        ("the name of article 0 has 33 bytes", choice, 0, (), [article(name="x" * 33)]),
        ("the name of article 0 has 34 bytes", choice, 0, (), [article(name="ä" * 17)]),
        ("article 0 has 3 sets; articles have 2", choice, 2, (), [step({0}, {1})]),
        ("the price of article 0 is 2147483648; expected cents from -2147483648 to", choice, 0, (), [article(price=2**31)]),
        ("the price of article 1 is -2147483649", choice, 0, (), [article(), article(price=-(2**31) - 1)]),
        ("the price of article 0 is 12.9", choice, 0, (), [article(price=12.9)]),
        ("the price of article 0 is '12.90'", choice, 0, (), [article(price="12.90")]),
        ("step 0 has a price; steps have none", fitting, 0, 0, (), (), [step()._replace(price=5)]),
        ("33 steps; a fitting has 0 to 32", fitting, 0, 0, (), (), [step()] * 33),
        ("33 facts; a fitting has 0 to 32", fitting, 33, 0, (), (), []),
        ("-1 facts; a fitting has 0 to 32", fitting, -1, 0, (), (), []),
        ("17 rounds of the horizon; a fitting has 0 to 16", fitting, 0, 17, (), (), []),
        ("-1 rounds of the horizon", fitting, 0, -1, (), (), []),
        ("the start: there is no 1 below 1", fitting, 1, 0, {1}, (), []),
        ("the goal: there is no 32 below 32", fitting, 32, 0, (), {32}, []),
        ("the needs of step 0: there is no 1 below 1", fitting, 1, 0, (), (), [step({1})]),
        ("the gives of step 0: there is no 1 below 1", fitting, 1, 0, (), (), [step((), {1})]),
        ("the takes of step 0: there is no -1 below 1", fitting, 1, 0, (), (), [step((), (), {-1})]),
        ("the name of step 0 has 33 bytes", fitting, 0, 0, (), (), [step(name=b"x" * 33)]),
        ("step 0 has 2 sets; steps have 3", fitting, 2, 0, (), (), [article({0}, {1}, "x")]),
    ):
        raised(kitchen.Unusable, phrase, build, *arguments)
    later = kitchen.Job(kitchen.CHOICE, 0, None, [set()], [article((), {1}), article()])
    raised(kitchen.Unusable, "the clashes of article 0: there is no 1 below 0", kitchen.written, later)
    raised(kitchen.Unusable, "expected bytes, found int", article, (), (), 5)
    prices = [-(2**31), 2**31 - 1] * 32
    largest = choice(64, range(64), [article(range(64), range(number), "x" * 32, prices[number]) for number in range(64)])
    equal(kitchen.read(kitchen.written(largest)), largest, "the largest choice")
    equal(len(kitchen.written(largest)), kitchen.LONGEST_CHOICE - 8, "its length: article 0 has no clashes")
    largest = fitting(32, 16, range(32), range(32), [step(range(32), range(32), range(32), "x" * 32)] * 32)
    equal(kitchen.read(kitchen.written(largest)), largest, "the largest fitting")


def host_rest(folder):
    equal(kitchen.number_of(()), 0, "the number of the empty set")
    equal(kitchen.number_of([0, 2, 2, 63]), 2**63 + 5, "the number of a set")
    for number in (0, 1, 6, 2**63, 2**64 - 1, 2**63 + 2**32 + 1):
        equal(kitchen.number_of(kitchen.members_of(number)), number, f"the members of {number}")
    equal(kitchen.members_of(2**63 + 5), {0, 2, 63}, "the members of a number")
    for number in (0, 1, 2**63 - 1, -1, -(2**63), -50, 64 * (2**31 - 1), -64 * 2**31):
        equal(kitchen.signed(number % 2**64), number, f"{number} in two's complement")
    nones = [repr(kitchen.NoSelection(1)), repr(kitchen.NoPlan), repr(kitchen.OrderOutsideFile)]
    equal(nones, ["NoSelection(place=1)", "NoPlan", "OrderOutsideFile"], "that there is none")
    equal(kitchen.entry(0, 5, 2**63), kitchen.Selection({0, 2}, {63}), "an entry with a selection")
    equal([kitchen.entry(14, 0, 0), kitchen.entry(18, 0, 0)], [kitchen.NoSelection(None), kitchen.OrderOutsideFile], "entries without one")
    for status in (1, 10, 13, 15, 17, 19, 2**64 - 1):
        raised(kitchen.Unusable, f"by the status {status}, which no order has", kitchen.entry, status, 0, 0)
    text, loop = folder / "no library.so", folder / "loop.so"
    text.write_text("no library")
    loop.symlink_to(loop)
    for path in (folder / "missing.so", folder, text, loop, text / "x.so", _ctypes.__file__, str(folder / "missing.so")):
        raised(kitchen.Unusable, f"{path} is no library of ours", kitchen.Library, path)
    check("import kitchen" in kitchen.__doc__, "the module has an example")


# ---- answers that are tried

GROUPED = "choice\nwishes: a, b, c\norder: a, b, c\narticle\nwishes: a\narticle\nwishes: a, b\nclashes: #0\narticle\nwishes: c\n"  # B
NO_KITCHEN = "choice\nwishes: a, b\norder: a, b\narticle\nwishes: a\narticle\nwishes: b\nclashes: #0\n"
# Neither has a kitchen, and counting the wishes does not tell it: a wish that no article carries, and wishes carried twice.
UNCARRIED = "choice\nwishes: a, b\norder: a, b\narticle\nwishes: a\narticle\nwishes: a\n"
TWICE = UNCARRIED.replace("a, b", "a, b, c") + "article\nwishes: a, b\narticle\nwishes: b, c\nclashes: #0, #1, #2\n"
EMPTY = "choice\nwishes:\norder:\narticle\n"
NO_PLAN = "fitting\nhorizon: 4\nfacts: a, b\nstart: a\ngoal: a, b\nstep\nneeds: a\ngives: b\ntakes: a\n"
# Both facts in one round, and a step that gives both; each is a plan of one round.
SHORT = "fitting\nhorizon: 2\nfacts: a, b, c\nstart:\ngoal: a, b\nstep\ngives: a\nstep\ngives: b\nstep\ngives: a, b\nstep\ntakes: a\n"
# A text, what is printed of it, and the answer.
TOLD = [
    (KITCHEN, "chosen 1\naside 0\n", kitchen.Selection({1}, {0})),
    (GROUPED, "chosen 1 2\naside 0\n", kitchen.Selection({1, 2}, {0})),
    (EMPTY, "chosen\naside\n", kitchen.Selection(set(), set())),
    (NO_KITCHEN, "refused 14 at 0\n", kitchen.NoSelection(0)),
    (CHOICE, "refused 14 at 0\n", kitchen.NoSelection(0)),
    (UNCARRIED, "refused 14 at 1\n", kitchen.NoSelection(1)),
    (TWICE, "refused 14 at 1\n", kitchen.NoSelection(1)),
    ("impossible", "refused 14 at 1\n", kitchen.NoSelection(1)),
    (SHORT, "rounds 1\n1: 2\n", kitchen.Plan([{2}])),
    (SHORT, "rounds 1\n1: 0 1\n", kitchen.Plan([{0, 1}])),
    (SHORT, "rounds 1\n1: 0 1 2\n", kitchen.Plan([{0, 1, 2}])),
    (NO_PLAN, "refused 15 at 0\n", kitchen.NoPlan),
    (NO_PLAN.replace("start: a", "start: a, b"), "rounds 0\n", kitchen.Plan([])),
]
# Whatever the job is, this is no answer.
NO_ANSWER = [
    "", "\n", "chosen", "chosen\n", "chosen \naside\n", "aside\nchosen\n", "rounds\n", "rounds \n", "rounds 1\n", "rounds -1\n", "rounds 1\n1:\n",
    "refused\n", "refused 9 at 0\n", "refused 1 at 0\n", "refused 2 at 45\n", "refused 13 at 0\n", "refused 16 at 0\n", "refused 17 at 0\n", "refused 18 at 0\n",
    "refused 14 at 2\n", "refused 15 at 1\n", "refused 14 at 0", "refused 15 at 0", "refused 14 at 0\r\n", "refused 15 at 0\r\n", "refused 014 at 0\n",
    "refused 14 at 0\n\n", "refused 15 at 0\n ", " refused 14 at 0\n", "Refused 14 at 0\n", "refused 14 at 0\nrefused 14 at 0\n", "\0", "rounds 1\n1: ٠\n",
    "refused 14\n", "refused 14 at\n", "refused 14 at \n", "refused 14 at -1\n", "refused 14 at 00\n", "refused 14 at 01\n", "refused 14 at 10\n",
    "refused 14 at 11\n", "refused 14 at 64\n", "refused 14 at ١\n", "refused 14 at 1", "refused 14 at 1\r\n", "refused 14 at 1\n\n", " refused 14 at 1\n",
    "refused 14 at 0 1\n", "refused 14 at 0\nrefused 14 at 1\n", "chosen\naside\nrefused 14 at 1\n", "refused 13 at 1\n",
]  # fmt: skip
# A text, an output that cannot be its own, and a part of the message.
NOT_TOLD = [
    ("A", "chosen 2\n", 'expected "chosen" and "aside"'),
    ("A", "chosen 2\naside", 'expected "chosen" and "aside"'),
    ("A", "chosen 2\r\naside\r\n", 'expected "chosen" and "aside"'),
    ("A", "chosen 2\naside\n\n", 'expected "chosen" and "aside"'),
    ("A", "chosen  2\naside\n", 'expected "chosen" and "aside"'),
    ("A", "chosen 2 \naside\n", 'expected "chosen" and "aside"'),
    ("A", "chosen 2\naside\nchosen 2\naside\n", 'expected "chosen" and "aside"'),
    ("A", "chosen 02\naside\n", "numbers do not rise"),
    ("A", "chosen 2 0\naside\n", "numbers do not rise"),
    ("A", "chosen 2 2\naside\n", "numbers do not rise"),
    ("A", "chosen 2\naside 1 0\n", "numbers do not rise"),
    ("A", "chosen 3\naside\n", "the file has no article 3"),
    ("A", "chosen 2\naside 3\n", "the file has no article 3"),
    ("A", "chosen 100\naside\n", 'expected "chosen" and "aside"'),
    ("A", "chosen 0 1\naside\n", "article 1 and article 0 exclude each other"),
    ("A", "chosen 0\naside\n", "no chosen article carries wish 1"),
    ("A", "chosen\naside\n", "no chosen article carries wish 0"),
    ("A", "chosen 2\naside 0\n", "the set aside is not the one that is defined"),
    ("A", "chosen 2\naside 2\n", "the set aside is not the one that is defined"),
    ("A", "refused 14 at 0\n", "and articles [2] are one"),
    ("A", "refused 14 at 1\n", "and articles [2] are one"),
    ("A", "refused 14 at 2\n", 'expected "chosen" and "aside", or "refused 14" at 0 or 1'),
    ("A", "refused 15 at 0\n", 'expected "chosen" and "aside"'),
    ("A", "rounds 0\n", 'expected "chosen" and "aside"'),
    ("A", "rounds 1\n1: 2\n", 'expected "chosen" and "aside"'),
    (GROUPED, "chosen 1 2\naside\n", "the set aside is not the one that is defined"),
    (GROUPED, "chosen 1 2\naside 0 2\n", "the set aside is not the one that is defined"),
    (GROUPED, "refused 14 at 0\n", "it says that there is none"),
    (GROUPED, "refused 14 at 1\n", "it says that there is none"),
    (EMPTY, "refused 14 at 0\n", "and articles [] are one"),
    (EMPTY, "refused 14 at 1\n", "and articles [] are one"),
    (NO_KITCHEN, "chosen 0 1\naside\n", "exclude each other"),
    (NO_KITCHEN, "refused 14 at 1\n", "the order falls short, so the place would be 0"),
    (NO_KITCHEN, "refused 14 at 2\n", 'or "refused 14" at 0 or 1'),
    (CHOICE, "refused 14 at 1\n", "the order falls short, so the place would be 0"),
    (UNCARRIED, "refused 14 at 0\n", "the order does not fall short, so the place would be 1"),
    (TWICE, "refused 14 at 0\n", "the order does not fall short, so the place would be 1"),
    ("impossible", "refused 14 at 0\n", "the order does not fall short, so the place would be 1"),
    ("impossible", "refused 14 at 2\n", 'or "refused 14" at 0 or 1'),
    ("F", "chosen\naside\n", 'expected "rounds" and the rounds'),
    ("F", "refused 14 at 0\n", 'expected "rounds" and the rounds'),
    ("F", "refused 14 at 1\n", 'expected "rounds" and the rounds'),
    ("F", "refused 15 at 0\n", "and the rounds [[0], [1, 2]] are one"),
    ("F", "rounds 3\n1: 0\n2: 1 2\n", "expected the rounds 1 to 3"),
    ("F", "rounds 1\n1: 0\n2: 1 2\n", "expected the rounds 1 to 1"),
    ("F", "rounds 2\n1: 0\n3: 1 2\n", "expected the rounds 1 to 2"),
    ("F", "rounds 2\n2: 0\n1: 1 2\n", "expected the rounds 1 to 2"),
    ("F", "rounds 02\n1: 0\n2: 1 2\n", 'expected "rounds" and the rounds'),
    ("F", "rounds 2\n01: 0\n2: 1 2\n", "expected the rounds 1 to 2"),
    ("F", "rounds 2\n1: 00\n2: 1 2\n", "numbers do not rise"),
    ("F", "rounds 2\n1: 0\n2: 2 1\n", "numbers do not rise"),
    ("F", "rounds 2\n1: 0\n2: 1 2", 'expected "rounds" and the rounds'),
    ("F", "rounds 2\r\n1: 0\r\n2: 1 2\r\n", 'expected "rounds" and the rounds'),
    ("F", "rounds 2\n1:0\n2: 1 2\n", 'expected "rounds" and the rounds'),
    ("F", "rounds 1\n1: 3\n", "the file has no step 3"),
    ("F", "rounds 1\n1: 1\n", "in round 1, step 1 needs fact 1, which does not hold"),
    ("F", "rounds 2\n1: 0\n2: 1\n", "fact 3 of the goal does not hold in the end"),
    ("F", "rounds 0\n", "fact 2 of the goal does not hold in the end"),
    ("F", "rounds 3\n1: 0\n2:\n3: 1 2\n", "round 2 is empty"),
    ("F", "rounds 4\n1: 0\n2: 1\n3: 2\n4: 2\n", "4 rounds are more than the horizon has"),
    ("fitting", "rounds 3\n1: 0 1\n2: 2 4\n3: 3\n", "in round 2, step 2 takes what step 4 needs or gives"),
    (SHORT, "rounds 2\n1: 0\n2: 1\n", "there is none of at most 1 rounds, and the rounds [[0, 1, 2]] are one"),
    (SHORT, "rounds 1\n1: 0 3\n", "in round 1, step 3 takes what step 0 needs or gives"),
    (SHORT, "refused 15 at 0\n", "it says that there is none of at most 2 rounds"),
    (NO_PLAN, "rounds 1\n1: 0\n", "fact 0 of the goal does not hold in the end"),
    (NO_PLAN.replace("start: a", "start: a, b"), "refused 15 at 0\n", "and the rounds [] are one"),
]


def job_of(text):
    """The job of a text, or of a sample by its name."""
    sample = ROOT / "jobs" / f"{text}.txt" if "\n" not in text else None
    return texts.stated(sample.read_bytes() if sample else text.encode()).job


def answer(job, output):
    return (asking.choice_answer if job.kind is kitchen.CHOICE else asking.plan_answer)(job, output)


def answers():
    for text, output, expected in TOLD:
        equal(answer(job_of(text), output), expected, f"{output!r} of {text!r}")
    for text, output, phrase in NOT_TOLD:
        raised(rules.Broken, phrase, answer, job_of(text), output)
    for output in NO_ANSWER:
        for text in ("A", "F", "kitchen", "impossible", NO_KITCHEN, UNCARRIED, NO_PLAN):
            raised(rules.Broken, "", answer, job_of(text), output)


def printed_junk():
    """What a program prints that is not kitchen, whatever its bytes are."""
    real = asking.printed
    try:
        for output in (b"", b"\xff\xfe", b"chosen 2\naside\n\x80", b"\0" * 1000, "chosen ２\naside\n".encode(), b"junk\x1b[2J" * 10000):
            asking.printed = lambda file, limit=None: output
            raised(asking.Failed, "this cannot be what kitchen prints of this job", asking.asked, job_of("A"))
            raised(asking.Failed, "this cannot be what kitchen prints of this job", asking.asked, job_of("F"))
            try:
                asking.asked(job_of("A"))
            except asking.Failed as failed:
                check(str(failed).isprintable() and len(str(failed)) < 1500, f"junk is told in a line: {failed!r}")
        asking.printed = lambda file, limit=None: b"chosen 2\naside\n"
        equal(asking.asked(job_of("A")), kitchen.Selection({2}, set()), "what kitchen prints of A")
    finally:
        asking.printed = real


def none_told():
    """That there is no kitchen, in words and as data: what counting the wishes says is told by the place."""
    text = texts.stated(NO_KITCHEN.encode())
    for place, (start, end) in COUNTED.items():
        first, *rest = telling.told(text, kitchen.NoSelection(place))
        check(first == reasons.NO_KITCHEN and len(rest) == 1, f"no kitchen, at {place}: {rest}")
        check(rest[0].startswith(start) and rest[0].endswith(end), f"no kitchen, at {place}: {rest}")
        expected = {"kind": "choice", "answer": "no such kitchen", "falls_short": place == 0}
        equal(telling.data(text, kitchen.NoSelection(place)), expected, f"no kitchen, at {place}, as data")
        equal(commands.status_of(kitchen.NoSelection(place)), commands.NONE, f"the status at {place}")
    equal(commands.status_of(kitchen.NoPlan), commands.NONE, "the status of no plan")
    for found in (kitchen.Selection(set(), set()), kitchen.Plan([])):
        equal(commands.status_of(found), commands.DONE, f"the status of {found}")


class Bounding:
    """In place of the library, with the call for the bound: it answers this, or raises it."""

    def __init__(self, answer):
        self.answer = answer

    def bound(self, file, goal, groups=None):
        if goal != kitchen.read(file).sets[0]:  # raised and not only counted: this may run in a process of its own
            raise AssertionError("the goal of a bound is the order")
        if isinstance(self.answer, Exception):
            raise self.answer
        return self.answer


def bounds():
    """How far the wishes can go is told as the library says it, if that is the sum that is defined."""
    real = asking.Library
    try:
        for text, right in ((NO_KITCHEN, 1), (UNCARRIED, 2), (TWICE, 5), (GROUPED, 3), (CHOICE, 0), ("A", 3), ("impossible", 3)):
            job = job_of(text)
            asking.Library = lambda: Bounding(right)
            equal(asking.bound(job), right, f"how far the wishes of {text!r} can go")
            for answer in (right - 1, right + 1, 2**64 - 1, kitchen.Refused(13, 0), kitchen.Unusable("it is missing")):
                asking.Library = lambda: Bounding(answer)
                phrase = str(answer) if isinstance(answer, Exception) else "the sum is not the one that is defined"
                phrase = f"how far the wishes can go cannot be told: {phrase}; without --bound all else is told"
                raised(asking.Failed, phrase, asking.bound, job)
        asking.Library = lambda: Bounding(kitchen.Refused(13, 0))
        equal(asking.bound(job_of(EMPTY)), None, "an empty order has no bound, and nothing is asked")
    finally:
        asking.Library = real
    no_library_to_bound()
    text = texts.stated(NO_KITCHEN.encode())
    for bound, wishes in ((0, "0 wishes"), (1, "1 wish"), (7, "7 wishes")):
        said = telling.bound_told(text, bound)
        check(said.startswith("How far the wishes can go: ") and said.endswith(f" adds up to {wishes}, each counted as often as it is carried; the order has 2."), said)


class Pricing:
    """In place of the library, with the call for the price: it answers this, or raises it."""

    def __init__(self, answer):
        self.answer = answer

    def price(self, file, rate):
        if isinstance(self.answer, Exception):
            raise self.answer
        return self.answer


def second_priced(job, rate):
    """The cheapest selection of a job of reference/, with its total and its tax; None if there is none."""
    found = second.cheapest_of_all(job)
    return None if found is None else kitchen.Priced(found, second.cost(job, found), second.tax(second.cost(job, found), rate))


def wrong_prices(source, job, right):
    """Other answers: each other set of articles, with its own total and tax; and other totals and taxes of the right one."""
    n, total = len(job.articles), right.total
    for number in source.sample(range(2**n), min(12, 2**n)):
        articles = second.of(number)
        yield kitchen.Priced(articles, second.cost(job, articles), right.tax)
        yield kitchen.Priced(articles, total, right.tax)
    yield right._replace(articles=right.articles | {n})
    yield right._replace(articles=right.articles | {63})
    yield from (right._replace(total=other) for other in (total - 1, total + 1, -total, total + 2**32, total + 2**64))
    yield from (right._replace(tax=other) for other in (right.tax - 1, right.tax + 1, -right.tax, right.tax + 2**64))
    yield from (kitchen.NoSelection(0), kitchen.Refused(14, 0), kitchen.Refused(17, 0), kitchen.Unusable("it is missing"))


def prices():
    """What the library says of a price is told if the rules allow it, and of all answers only the right one."""
    source, real, seen = random.Random(6), asking.Library, {"right": 0, "wrong": 0, "tie": 0, "below": 0}
    try:
        for job in [drawn.priced(source, drawn.drawn_choice(source)) for _ in range(300)]:
            rate, mine = source.choice([0, 1, 50, 100, 1900, 5000, 10_000]), kitchen.read(reference.written(job))
            right, label = second_priced(job, rate), f"{rate} of {job}"
            if right is None:
                continue
            first = kitchen.Selection(second.selections(job)[0], set())
            asking.Library = lambda: Pricing(right)
            equal(asking.cheapest(mine, rate, first), right, label)
            for answer in wrong_prices(source, job, right):
                if answer != right:
                    asking.Library = lambda: Pricing(answer)
                    raised(asking.Failed, "the cheapest kitchen cannot be told: ", asking.cheapest, mine, rate, first)
                    seen["wrong"] += 1
            seen["right"] += 1
            seen["tie"] += sum(second.cost(job, s) == right.total for s in second.selections(job)) > 1
            seen["below"] += right.total < 0
    finally:
        asking.Library = real
    check(min(seen.values()) > 50, f"prices that are told, and that are not: {seen}")
    many_articles()
    for total in range(-60, 61):
        for rate in (0, 1, 99, 100, 101, 250, 300, 1900, 5000, 9999, 10_000):
            equal(rules.tax(total, rate), second.tax(total, rate), f"the tax of {total} at {rate}")
    for total, rate, expected in ((50, 100, 1), (-50, 100, -1), (49, 100, 0), (-49, 100, 0), (150, 100, 2), (-150, 100, -2), (164450, 1900, 31246)):
        equal((rules.tax(total, rate), second.tax(total, rate)), (expected, expected), f"the tax of {total} at {rate}")
    rates()


def many_articles():
    """Of many articles not every set is tried: one that is dearer than the first selection, or near a better one, is not told."""
    source, seen = random.Random(8), 0
    for job in [drawn.grouped_choice(source, 14, 4) for _ in range(40)]:
        right, mine = second_priced(job, 1900), kitchen.read(reference.written(job))
        if right is None:
            continue
        first = second.selections(job)[0]
        check(keeps(rules.try_priced, mine, 1900, right, first), f"the cheapest of {job}")
        for other in second.selections(job)[:200]:
            total = second.cost(job, other)
            if total > second.cost(job, first) or len(other ^ right.articles) == 1:
                found = kitchen.Priced(other, total, second.tax(total, 1900))
                check(not keeps(rules.try_priced, mine, 1900, found, first), f"{other} for {job}")
                seen += 1
    check(seen > 20, f"{seen} selections that are not the cheapest")


def rates():
    """Rates of the command, and how they are told."""
    for text, rate in IN_PERCENT.items():
        equal(commands.percentage(text), rate, f"{text} percent")
        equal(commands.percentage(words.percent(rate)), rate, f"{rate} in words")
    told = [words.percent(rate) for rate in (0, 1, 50, 700, 750, 1000, 1925, 10_000)]
    equal(told, ["0", "0.01", "0.5", "7", "7.5", "10", "19.25", "100"], "rates in words")


def prices_told():
    """The cheapest kitchen in words and as data."""
    text = texts.stated((ROOT / "jobs" / "prices.txt").read_bytes())
    priced = kitchen.Priced({0, 3, 4, 5}, 164450, 31246)
    equal(
        telling.cheapest_told(text, 1900, priced),
        [
            "The cheapest kitchen, of 4 articles:",
            "  Oven 60               649.00  oven",
            "  Worktop laminate      158.50  worktop",
            "  Smooth front          912.00  no handles",
            "  Old oven, taken back  -75.00  (no wish of the order)",
            "Its total is 1644.50, and the tax of 19 percent on it is 312.46.",
        ],
        "the cheapest kitchen in words",
    )
    free = texts.stated(GOOD.encode())
    equal(telling.cheapest_told(free, 1900, kitchen.Priced({0}, 0, 0))[1], "  X  -  a", "an article without a price")
    none = kitchen.Priced(set(), 0, 0)
    equal(telling.cheapest_told(text, 0, none)[0], "The cheapest kitchen, of 0 articles:", "a kitchen without articles")
    found = telling.data(text, kitchen.Selection({0, 2, 4}, set()), None, priced)["cheapest"]
    equal((found["total"], found["tax"]), (164450, 31246), "total and tax as data")
    equal([(each["number"], each["price"]) for each in found["articles"]], [(0, 64900), (3, 15850), (4, 91200), (5, -7500)], "prices as data")
    check("cheapest" not in telling.data(text, kitchen.Selection({0, 2, 4}, set())), "without a rate nothing is priced")


def no_library_to_bound():
    """Without a library nothing is told if --bound is asked for."""
    real, path = asking.printed, kitchen.library_path
    asking.printed, kitchen.library_path = lambda file, limit=None: b"refused 14 at 0\n", lambda: None
    try:
        missing = "libkitchen.so is missing; build it with tools/library"
        said = f"how far the wishes can go cannot be told: {missing}; without --bound all else is told\n"
        equal(quick("advise", "-", "--bound", stdin=NO_KITCHEN.encode()), (1, b"", said), "--bound without a library")
    finally:
        asking.printed, kitchen.library_path = real, path


def keeps(trial, *arguments):
    """Whether a trial finds no rule broken."""
    try:
        trial(*arguments)
        return True
    except rules.Broken:
        return False


def most_carried(job, groups, live, goal):
    """The sum of all contributions to a goal: of each group, what the live article that carries most of it carries."""
    best = [max((len(job.articles[i].wishes & goal) for i in live if groups[i] == group), default=0) for group in set(groups)]
    return sum(best)


def choice_rules():
    """The rules of a choice, beside reference/ on drawn jobs: every set of articles is tried."""
    source, found, none, short = random.Random(3), 0, 0, 0
    for job in [drawn.drawn_choice(source) for _ in range(300)]:
        file = reference.written(job)
        mine, n = kitchen.read(file), len(job.articles)
        subsets = [second.of(number) for number in range(2**n)]
        selections = [s for s in subsets if keeps(rules.try_selection, mine, s)]
        equal(selections, second.selections(job), f"the selections of {job}")
        groups = rules.own_groups(mine)
        equal([next(g for g, group in enumerate(groups) if i in group) for i in range(n)], second.own_groups(job), f"groups of {job}")
        every = set(range(n))
        struck = every - second.supported(job, second.own_groups(job), every, job.order) if job.order else set()
        equal([s for s in subsets if keeps(rules.try_aside, mine, s)], [struck], f"the set aside of {job}")
        equal(rules.set_aside(mine), struck, f"the set aside of {job}")
        equal(keeps(rules.try_no_selection, mine), not selections, f"that there is none of {job}")
        if selections:
            expected = kitchen.Selection(selections[0], struck)
            equal(asking.choice_answer(mine, second.offer(file)), expected, f"what the second program prints of {job}")
        found, none = found + bool(selections), none + (not selections)
        short += no_selection_at(job, mine, selections)
    check(found > 50 and none > 50, f"{found} jobs with a selection, {none} without")
    check(short > 50 and none - short > 10, f"{none} jobs without a selection, of which {short} fall short")
    for job in [drawn.wide_choice(source) for _ in range(10)]:
        mine, every = kitchen.read(reference.written(job)), set(range(64))
        struck = every - second.supported(job, second.own_groups(job), every, job.order)
        equal(rules.set_aside(mine), struck, "the set aside of 64 articles")
        equal(rules.own_sum(mine), most_carried(job, second.own_groups(job), every, job.order), "the sum of 64 articles")


def no_selection_at(job, mine, selections):
    """Of the places of 14 only the right one is taken, if there is no selection. Answers whether the order falls short."""
    bound = most_carried(job, second.own_groups(job), range(len(job.articles)), job.order)
    equal(rules.own_sum(mine), bound, f"the sum of {job}")
    short = bound < len(job.order)
    check(not (short and selections), f"the order falls short, and {selections} are selections of {job}")
    taken = [place for place in range(3) if keeps(asking.choice_answer, mine, f"refused 14 at {place}\n")]
    equal(taken, [] if selections else [0 if short else 1], f"the places of 14 that are taken of {job}")
    return short


def drawn_rounds(job, source, most):
    """Rounds that may follow each other, until the goal holds or there are `most` of them; and whether it holds."""
    facts, found = set(job.start), []
    while not job.goal <= facts and len(found) < most:
        possible = [r for r in second.rounds(job, facts) if r]
        if not possible:
            return found, False
        found.append(source.choice(possible))
        facts = second.after(job, facts, found[-1])
    return found, job.goal <= facts


def plan_rules():
    """The rules of a plan, beside reference/ on drawn jobs, with rounds that are drawn."""
    source, kept, refused = random.Random(4), 0, 0
    for job in [drawn.drawn_fitting(source) for _ in range(300)]:
        mine, fewest = kitchen.read(reference.written(job)), second.fewest(job)
        tries = [drawn_rounds(job, source, job.horizon + 1)[0] for _ in range(6)]
        tries += [[drawn.some(source, len(job.steps), 0.4) for _ in range(source.randrange(4))] for _ in range(6)]
        for rounds in tries:
            holds = second.is_plan(job, rounds) and len(rounds) <= job.horizon and all(rounds)
            found = keeps(rules.try_plan, mine, rounds)
            check(holds or not found, f"{rounds} is no plan for {job}")
            check(found or not holds or len(rounds) > fewest, f"{rounds} is a shortest plan for {job}")
            lines = "".join(f"{k}:{second.shown(r)}\n" for k, r in enumerate(rounds, 1))
            same = keeps(asking.plan_answer, mine, f"rounds {len(rounds)}\n{lines}")
            equal(same, found, f"{rounds} as they are printed, for {job}")
            kept, refused = kept + found, refused + (not found)
        short = rules.found_plan(mine, job.horizon)
        within = short is not None and len(short) <= job.horizon and second.is_plan(job, list(map(set, short)))
        check(short is None or within, f"{short} for {job}")
        check(fewest is not None or short is None, f"there is no plan for {job}, and {short} was found")
        check(keeps(rules.try_no_plan, mine, job.horizon) == (short is None), f"that there is none for {job}")
        holds = set(range(job.facts)) & job.start
        for steps in ({a} for a in range(len(job.steps))):
            equal(rules.after(mine, holds, steps), second.after(job, holds, steps), f"the facts after {steps} of {job}")
    check(kept > 100 and refused > 100, f"{kept} plans, {refused} that are none")


# ---- changes

SHOP = reference.written(
    reference.Choice(
        3,
        {0, 1},
        [
            reference.Article({0}, set(), b"Oven"),
            reference.Article({1}, {0}, b"Oven, 60", 12990),
            reference.Article({2}, set(), b""),
            reference.Article(set(), {0, 2}, b"a"),
            reference.Article({0, 2}, set(), b"a"),
            reference.Article({1}, {4}, ONE.encode()),
            reference.Article(set(), set(), b"#1", -4000),
            reference.Article({0}, {6}, b"\xff"),
            reference.Article({0}, {6}, b'19" rack'),
        ],
    )
)
HIGHEST = "#18446744073709551615"
# Arguments, and the article and the value that they mean in SHOP. What is not there, or has no room, is not asked here.
MEANT = [
    (("order", None, None), None, set()),
    (("order", None, ""), None, set()),
    (("order", None, " \u00a0\t"), None, set()),
    (("order", None, "#1"), None, {1}),
    (("order", None, "wish 1"), None, {1}),
    (("order", None, '"wish 1"'), None, {1}),
    (("order", None, "#0,wish 2"), None, {0, 2}),
    (("order", None, " #2 ,\u3000wish 0 "), None, {0, 2}),
    (("order", None, "#2, #1, #0"), None, {0, 1, 2}),
    (("order", None, "#3, #63, wish 62"), None, {3, 62, 63}),
    (("order", None, "#" + "0" * 5000 + "63"), None, {63}),
    (("wishes", "Oven", "wish 2"), 0, {2}),
    (("wishes", " Oven\u00a0", None), 0, set()),
    (("wishes", "Oven, 60", "#1"), 1, {1}),
    (("wishes", '"Oven, 60"', "#1"), 1, {1}),
    (("wishes", "#2", "#63"), 2, {63}),
    (("wishes", "#007", ""), 7, set()),
    (("wishes", '"#1"', "#0"), 6, {0}),
    (("wishes", '"\\xFF"', "#0"), 7, {0}),
    (("wishes", '"19\\" rack"', "#0"), 8, {0}),
    (("wishes", ONE, "#0"), 5, {0}),
    (("wishes", TWO, "#0"), 5, {0}),
    (("wishes", "#9", "#0"), 9, {0}),
    (("wishes", HIGHEST, "#0"), 2**64 - 1, {0}),
    (("wishes", "#" + "0" * 5000 + "1", "#0"), 1, {0}),
    (("clashes", "#5", 'Oven, "Oven, 60", #2'), 5, {0, 1, 2}),
    (("clashes", "#5", f'"#1", {TWO}, "\\xFF"'), 5, {5, 6, 7}),
    (("clashes", "Oven", "Oven, #1, #63"), 0, {0, 1, 63}),
    (("clashes", HIGHEST, None), 2**64 - 1, set()),
    (("name", "#0", "Ofen"), 0, b"Ofen"),
    (("name", "#0", " Oven, 70 cm "), 0, b"Oven, 70 cm"),
    (("name", "#0", '" Oven"'), 0, b" Oven"),
    (("name", "#0", '"\\x00\\xff\\"#"'), 0, b'\x00\xff"#'),
    (("name", "#0", TWO), 0, TWO.encode()),
    (("name", "#0", "x" * 70000), 0, b"x" * 70000),
    (("name", "#0", "a"), 0, b"a"),
    (("name", "#0", "wish 3"), 0, b"wish 3"),
    (("name", "#0", ""), 0, b""),
    (("name", "#0", " "), 0, b""),
    (("name", "Oven", None), 0, b""),
]
# Arguments for SHOP, and their faults: the argument, and a part of the message.
NOT_MEANT = [
    (("order", None, "oak"), [("LIST", 'no wish is named "oak"; expected its number, as #3 or "wish 3"')]),
    (("order", None, "Oven"), [("LIST", 'no wish is named "Oven"')]),
    (("order", None, "wish 01"), [("LIST", 'no wish is named "wish 01"')]),
    (("order", None, "Wish 1, wish1"), [("LIST", 'named "Wish 1"'), ("LIST", 'named "wish1"')]),
    (("order", None, "wish ٣"), [("LIST", "no wish is named")]),
    (("order", None, "1"), [("LIST", 'no wish is named "1"; expected its number, as #3')]),
    (("order", None, "#1, wish 1"), [("LIST", '"wish 1" is in the list twice')]),
    (("order", None, "#1, #01"), [("LIST", "#01 is in the list twice")]),
    (("order", None, "#1,"), [("LIST", "the list ends with a comma; expected a further name")]),
    (("order", None, "#1,, #2"), [("LIST", "a name is missing in front of a comma")]),
    (("order", None, ","), [("LIST", "ends with a comma"), ("LIST", "in front of a comma")]),
    (("order", None, "#"), [("LIST", "# is no number; expected one, as #3, or a name in quotation marks")]),
    (("order", None, "#-1, #٣, #1x"), [("LIST", "#-1 is"), ("LIST", "#٣ is"), ("LIST", "#1x is no number")]),
    (("order", None, "#1 # x"), [("LIST", "#1 # x is no number")]),
    (("order", None, '"wish 1'), [("LIST", "has a quotation mark")]),
    (("order", None, "wish\n1"), [("LIST", 'expected the name without it, or as "wish\\x0A1"')]),
    (("wishes", "", "#1"), [("ARTICLE", "no article is named; expected the name of one, or its number, as #3")]),
    (("wishes", "\u2003", "#1"), [("ARTICLE", "no article is named")]),
    (("wishes", "Owen", "#1"), [("ARTICLE", 'no article is named "Owen"; expected the name of one, or its number, as #3 (near: "Oven")')]),
    (("wishes", "3", "#1"), [("ARTICLE", 'no article is named "3"')]),
    (("wishes", "OVEN", "#1"), [("ARTICLE", '(near: "Oven")')]),
    (("wishes", "a", "#1"), [("ARTICLE", '2 articles are named "a"; expected a number, #3 or #4')]),
    (("wishes", "#x", "#1"), [("ARTICLE", "#x is no number")]),
    (("wishes", "wish 1", "#1"), [("ARTICLE", 'no article is named "wish 1"')]),
    (("wishes", "Owen", "oak,"), [("ARTICLE", "Owen"), ("LIST", "a comma"), ("LIST", "oak")]),
    (("clashes", "#5", "Oven, 60"), [("LIST", 'no article is named "60"')]),
    (("clashes", "#5", "a"), [("LIST", '2 articles are named "a"; expected a number, #3 or #4')]),
    (("clashes", "#5", "wish 1"), [("LIST", 'no article is named "wish 1"')]),
    (("clashes", "#5", "Oven, #0"), [("LIST", "#0 is in the list twice")]),
    (("clashes", "#5", f"{ONE}, {TWO}"), [("LIST", "is in the list twice")]),
    (("name", "#0", '""'), [("NAME", "the name is empty")]),
    (("name", "#0", "Nr #4"), [("NAME", 'Nr #4 has a #; expected the name as "Nr #4", with the marks')]),
    (("name", "#0", "#4"), [("NAME", 'expected the name as "#4", with the marks')]),
    (("name", "#0", '19" rack'), [("NAME", "has a quotation mark")]),
    (("name", "#0", '"\\n"'), [("NAME", "a backslash stands alone")]),
    (("name", "#0", "a\u202eb"), [("NAME", "does not print")]),
    (("name", "Owen", "#"), [("ARTICLE", "Owen"), ("NAME", "# has a #")]),
]
# Arguments that no call can be given, and a part of the message.
TOO_LARGE = [
    (("order", None, "#64"), "argument LIST: #64 is too large; expected numbers below 64, as no set has room for others"),
    (("order", None, "wish 64"), "argument LIST: wish 64 is too large"),
    (("order", None, "#0, #0064"), "argument LIST: #0064 is too large"),
    (("order", None, "#" + "9" * 5000), "argument LIST: #999"),
    (("wishes", "#0", "#1, #100"), "argument LIST: #100 is too large"),
    (("wishes", "#18446744073709551616", "#1"), "argument ARTICLE: #18446744073709551616 is too large; expected a number below 2^64"),
    (("clashes", "#" + "1" * 5000, "#1"), "argument ARTICLE: #111"),
    (("clashes", "#5", "oak, #64"), "argument LIST: #64 is too large"),
    (("name", "#99999999999999999999", ""), "argument ARTICLE: #99999999999999999999 is too large"),
]


def cut_name(article):
    """A name whose length has no byte is as wrong as one of 255 bytes, and at the same place."""
    return article._replace(name=article.name[:255])


def second_saved(file, what, *arguments):
    """A file with a change, by the rules and with reference/."""
    try:
        job = reference.read(file, (reference.CHOICE,))
        if what == "order":
            job = job._replace(order=arguments[0])
        elif arguments[0] >= len(job.articles):
            raise reference.Refused(9, 0)
        else:
            job.articles[arguments[0]] = cut_name(job.articles[arguments[0]]._replace(**{what: arguments[1]}))
        new = reference.written(job)
        reference.read(new)
        return new
    except reference.Refused as refusal:
        raise kitchen.Refused(refusal.reason, refusal.place) from None


def second_changed(file, found):
    return second_saved(file, *(part for part in found if part is not None))


class StandIn:
    """In place of the library, with the calls that save."""

    def __init__(self, saves=second_saved):
        for what in changing.CHANGES:
            setattr(self, f"save_{what}", lambda file, *arguments, what=what: saves(file, what, *arguments))


def says(answer):
    """A stand-in that gives these bytes or raises this refusal, whatever it is asked."""

    def saves(file, what, *arguments):
        if isinstance(answer, Exception):
            raise answer
        return answer

    return StandIn(saves)


def with_library(library, action, *arguments, **options):
    """The action, with this in place of the library."""
    real, changing.Library = changing.Library, lambda: library
    try:
        return action(*arguments, **options)
    finally:
        changing.Library = real


def change(*arguments, stdin=b"", library=StandIn()):
    return with_library(library, quick, "change", *arguments, stdin=stdin)


def meant():
    """Lists and names of a change."""
    for arguments, article, value in MEANT:
        equal(changing.wanted(SHOP, *arguments), changing.Change(arguments[0], article, value), f"{arguments!r}"[:200])
    for arguments, expected in NOT_MEANT:
        try:
            found = changing.wanted(SHOP, *arguments)
            check(False, f"{arguments!r} means {found}")
        except texts.Faulty as faulty:
            equal([where for where, _ in faulty.faults], [where for where, _ in expected], f"{arguments!r}: {faulty.faults}")
            for (_, message), (_, phrase) in zip(faulty.faults, expected):
                check(phrase in message, f"{arguments!r}: {phrase!r} is not in {message!r}")
                check("expected" in message and "comment" not in message, f"{arguments!r}: {message!r}")
        for file in (b"", F, SHOP[:-1], SMALL_TEXT.read_bytes()):
            check(changing.wanted(file, *arguments).what == arguments[0], f"{arguments!r}: no fault is told of {file[:20]}")
    for arguments, phrase in TOO_LARGE:
        for file in (SHOP, A, F, b""):
            raised(changing.Beyond, phrase, changing.wanted, file, *arguments)
    for word, kind in (("choice", kitchen.CHOICE), ("fitting", kitchen.FITTING), ("Choice", None), ("choices", None), ("", None)):
        equal(texts.kind_of(f"# x\n\n {word}\nwishes:\n".encode()), kind, f"the kind of a text that says {word!r}")


def arguments_of(found):
    """What is changed, the article and the value, as arguments; None is one that there is not."""
    article = None if found.article is None else f"#{found.article}"
    if found.what == "name":
        return found.what, article, words.quoted(found.value) if found.value else ""
    return found.what, article, ", ".join(f"#{member}" for member in sorted(found.value))


def drawn_change(source, job):
    """A change that the job may allow or not."""
    what, n = source.choice(list(changing.CHANGES)), len(job.articles)
    article = None if what == "order" else source.choice([*range(n)] * 4 + [n, 63, 2**64 - 1])
    if what == "name":
        return changing.Change(what, article, source.choice([*NAMES, b"y" * 32, b"z" * 33, b"z" * 300]))
    bound = job.wishes if what != "clashes" else article if source.random() < 0.8 else n
    return changing.Change(what, article, drawn.some(source, min(64, bound + (source.random() < 0.3)), 0.4))


def outcome_of(action, *arguments):
    """The new file, a refusal in words, or that there is no answer."""
    try:
        return action(*arguments)
    except kitchen.Refused as refusal:
        return str(refusal)
    except asking.Failed:
        return "no answer"


def changes_tried():
    """What is told of a change is what the rules say; a library that gives another file or another reason is not believed."""
    source, made, refused = random.Random(5), 0, 0
    jobs = [drawn.drawn_choice(source) for _ in range(200)] + [drawn.wide_choice(source) for _ in range(3)]
    jobs += [drawn.priced(source, drawn.drawn_choice(source)) for _ in range(100)]
    for job in jobs:
        file, found = reference.written(job), drawn_change(source, job)
        equal(changing.wanted(file, *arguments_of(found)), found, f"{found} of {job}, as arguments")
        right = outcome_of(second_changed, file, found)
        equal(outcome_of(with_library, StandIn(), changing.saved, file, found), right, f"{found} of {job}")
        made, refused = made + isinstance(right, bytes), refused + isinstance(right, str)
        if isinstance(right, bytes) and any(article.price for article in job.articles):
            without = reference.written(drawn.priced(source, reference.read(right), lambda source: 0))
            equal(outcome_of(with_library, says(without), changing.saved, file, found), "no answer", f"{found} of {job} without prices")
        others = [file, file[:-1], file + b"\0", b"", F, A, reference.written(job._replace(order=job.order ^ {0} if job.wishes else set()))]
        for other in others:
            expected = right if other == right else "no answer"
            equal(outcome_of(with_library, says(other), changing.saved, file, found), expected, f"{other.hex()} for {found} of {job}")
        for number in (0, *range(1, 19), 99):
            same = isinstance(right, str) and right.startswith(f"refused {number} at ")
            told = outcome_of(with_library, says(kitchen.Refused(number, 0)), changing.saved, file, found)
            equal(told, f"refused {number} at 0" if same else "no answer", f"a refusal by {number} for {found} of {job}")
    check(made > 80 and refused > 40, f"{made} changes, {refused} refusals")


# Arguments of the command for SHOP, and the new job as a text begins or has it.
MADE = [
    (["order", "wish 2"], "order: wish 2\n"),
    (["order"], "order:\n"),
    (["order", ""], "order:\n"),
    (["wishes", "Oven", "#1, #2"], "article Oven\n  wishes: wish 1, wish 2\n\n"),
    (["wishes", "Oven"], "article Oven\n\n"),
    (["clashes", "#3", '"Oven, 60"'], 'article a\n  clashes: "Oven, 60"\n\n'),
    (["clashes", "#3"], "article a\n\narticle a\n"),
    (["name", "#2", "Sink"], "article Sink\n  wishes: wish 2\n"),
    (["name", "Oven", ""], "\narticle\n  wishes: wish 0\n\narticle \"Oven, 60\"\n"),
    (["name", "#2", "--", "-5 cm"], "article -5 cm\n"),
    (["name", "#2", "--", "-x"], "article -x\n"),
    (["name", '"Oven, 60"', "Ofen"], "article Ofen\n  wishes: wish 1\n  clashes: Oven\n  price: 129.90\n"),
    (["wishes", '"#1"', "#0"], 'article "#1"\n  wishes: wish 0\n  price: -40.00\n'),
]
# A file, arguments, the refusal, and parts of what is said of it.
NOT_MADE = [
    (SHOP, ["order", "#3"], "refused 6 at 3", ["Reason 6: ", "here it is 3.", "The place is in the new file, which was not written."]),
    (SHOP, ["wishes", "Oven", "wish 3"], "refused 6 at 12", ["The place is in the new file, which was not written."]),
    (SHOP, ["clashes", "Oven", "Oven"], "refused 6 at 20", ["an article clashes with a number that is not lower than its own"]),
    (SHOP, ["clashes", "Oven", "#1"], "refused 6 at 20", ["Reason 6: "]),
    (SHOP, ["name", "Oven", "x" * 33], "refused 7 at 20", ["Reason 7: ", "The place is in the new file, which was not written."]),
    (SHOP, ["name", "Oven", "ä" * 128], "refused 7 at 20", ["Reason 7: "]),
    (SHOP, ["wishes", "#9", "#0"], "refused 9 at 0", ["Reason 9: " + reasons.REASONS[9][0]]),
    (SHOP, ["name", HIGHEST], "refused 9 at 0", ["Reason 9: "]),
    (A[:-1], ["order", "#0"], "refused 2 at 45", ["Reason 2: ", "the wishes of article 2, but the file has only 7 of them"]),
    (A[:-1], ["name", "Owen", "#"], "refused 2 at 45", ["Reason 2: "]),
    (A + A, ["order", "#0"], "refused 8 at 46", ["Reason 8: ", "The last record ends in front of byte 46"]),
    (b"", ["order"], "refused 1 at 0", ["Reason 1: "]),
    (F, ["name", "#0", "x"], "refused 1 at 0", ["Byte 0 holds the kind: 70.", "Read by itself, the file is a fitting file that is in order."]),
    (F[:-1], ["order"], "refused 1 at 0", [f"Read by itself, the file is refused 2 at {len(F) - 1}."]),
    (KITCHEN.encode(), ["order", "b"], "refused 1 at 0", ["The file begins as a text does: `tools/job write` makes a job file of it."]),
    (b"\xef\xbb\xbf# x\r\n\r\nfitting\r\n", ["order", "b,"], "refused 1 at 0", ["The file begins as a text does"]),
]


def changes(folder):
    """The command, with a stand-in for the library."""
    path, new = folder / "shop.job", folder / "new.job"
    path.write_bytes(SHOP)
    for arguments, part in MADE:
        status, output, errors = change(path, *arguments)
        check((status, errors) == (0, "") and part in text_of(output).decode(), f"change {arguments}: {status}, {errors}\n{output}")
        equal(change("-", *arguments, stdin=SHOP), (0, output, ""), f"change {arguments} of standard input")
        for places in ((path, "-o", new), ("-o", new, path), (path, f"-o{new}")):
            equal(change(*places, *arguments), (0, b"", ""), f"change {places} {arguments}")
            equal(new.read_bytes(), output, f"what change {places} {arguments} wrote")
            new.unlink()
    equal(change(path, "order", "#1", "-o", new), (0, b"", ""), "-o after the list")
    new.unlink()
    for number, (file, arguments, refusal, phrases) in enumerate(NOT_MADE):
        path.write_bytes(file)
        status, output, errors = change(path, *arguments, "-o", new)
        check((status, output, new.exists()) == (1, b"", False), f"{refusal} of {arguments}: {status}, {output}, {errors}")
        check(errors.startswith(f"{path}: {refusal}\nReason "), f"{refusal} of {arguments}: {errors}")
        check(all(phrase in errors for phrase in phrases), f"{refusal} of {arguments}: {errors}")
        equal("begins as a text" in errors, number >= len(NOT_MADE) - 2, f"that it is a text: {errors}")
        status, output, errors = change("-", *arguments, stdin=file)
        check((status, output) == (1, b"") and errors.startswith(f"standard input: {refusal}\n"), f"{arguments}: {errors}")
    changes_not_asked(folder)
    changes_not_believed(folder)
    own_file(folder)


def changes_not_asked(folder):
    """What is not put to the library, and that it is missing."""
    path, new = folder / "shop.job", folder / "new.job"
    path.write_bytes(SHOP)
    for arguments, phrase in ((["order", "oak"], "LIST: no wish is named"), (["wishes", "a"], "ARTICLE: 2 articles are named")):
        status, output, errors = change(path, *arguments, "-o", new, library=None)
        check((status, output, new.exists()) == (1, b"", False) and errors.startswith(f"{path}, {phrase}"), f"{arguments}: {errors}")
    status, output, errors = change(path, "order", "x, " * 30 + "\x1b[2J", library=None)
    check((status, output) == (1, b"") and errors.endswith(f"{path}: 11 further faults are not shown\n"), f"many faults: {errors}")
    check(all(line.isprintable() for line in errors.splitlines()), f"what does not print: {errors!r}")
    for (what, article, value), phrase in TOO_LARGE:
        arguments = [argument for argument in (what, article, value) if argument is not None]
        status, output, errors = change(path, *arguments, "-o", new, library=None)
        check((status, output, new.exists()) == (2, b"", False) and errors.startswith(f"tools/job: {phrase}"), f"{arguments}: {errors}")
    real, kitchen.library_path = kitchen.library_path, lambda: None
    try:
        for file in (SHOP, F, KITCHEN.encode()):
            path.write_bytes(file)
            expected = (1, b"", "there is no new file: libkitchen.so is missing; build it with tools/library\n")
            equal(quick("change", path, "order", "#0", "-o", new), expected, "without a library")
            check(not new.exists(), "nothing is written without a library")
    finally:
        kitchen.library_path = real


def changes_not_believed(folder):
    """Libraries that give other bytes, or another reason than the rules: there is no answer, and nothing is written."""
    path, new = folder / "shop.job", folder / "new.job"
    right, other, refusal = second_saved(SHOP, "order", {2}), second_saved(SHOP, "order", {1}), kitchen.Refused
    for file, arguments, answers in (
        (SHOP, ["order", "#2"], [SHOP, right[:-1], right + b"\0", b"", F, A, other, refusal(6, 3), refusal(9, 0), refusal(14, 0)]),
        (SHOP, ["order", "#3"], [SHOP, right, refusal(7, 3), refusal(2, len(SHOP)), refusal(99, 0), refusal(0, 0)]),
        (SHOP, ["name", "#9"], [SHOP, refusal(9, 1), refusal(6, 0), refusal(16, 0)]),
        (SHOP[:-1], ["order", "#2"], [SHOP, SHOP[:-1], right, refusal(2, 3), refusal(1, 0), refusal(9, 0)]),
        (F, ["order", "#2"], [F, SHOP, refusal(1, 1), refusal(2, 0)]),
    ):
        path.write_bytes(file)
        for answer in answers:
            status, output, errors = change(path, *arguments, "-o", new, library=says(answer))
            check((status, output, new.exists()) == (1, b"", False), f"{answer!r} for {arguments}: {status}, {output}, {errors}")
            what = "the new file is " if isinstance(answer, bytes) else f"it is {answer}, and the rules have no such reason"
            check(errors.startswith(f"this cannot be what the library gives for this change: {what}"), f"{answer!r}: {errors}")
            part = str(kitchen.Reader(answer).refusal or "not the old job") if isinstance(answer, bytes) else ""
            check(part in errors, f"{answer!r}: {errors}")
    path.write_bytes(SHOP)
    equal(change(path, "order", "#2", library=says(right)), (0, right, ""), "the right answer")


def own_file(folder):
    """A job file is not overwritten, however it is named."""
    path, link, hard = folder / "own.job", folder / "link.job", folder / "hard.job"
    path.write_bytes(SHOP)
    link.symlink_to(path)
    hard.hardlink_to(path)
    for source, target in ((path, path), (path, link), (link, path), (path, hard), (path, folder / "." / "own.job")):
        status, output, errors = change(source, "order", "#0", "-o", target)
        check((status, output) == (1, b"") and "is the job file itself; expected another file" in errors, f"{source} onto {target}: {errors}")
    equal(path.read_bytes(), SHOP, "the job file is as it was")


# ---- the orders of a fair

CATALOGUE = (
    'choice\nwishes: a, b, front: oak, oak, "x, y", "#7", ü\n'
    "article A\nwishes: a\narticle B\nwishes: b\nclashes: A\narticle\nwishes: a, b\nclashes: A, B\narticle Oak\nwishes: front: oak, oak\n"
)
# A line of a list for it, and the label and the wishes that it means.
ORDERED = [
    ("a", None, {0}),
    (" a ,b ", None, {0, 1}),
    ("#1,a, #2", None, {0, 1, 2}),
    ("#0063", None, {63}),
    ("#7, #40", None, {7, 40}),
    ('"#7", "x, y"', None, {4, 5}),
    ('"front: oak"', None, {2}),
    ("a, front: oak", None, {0, 2}),
    ("u\u0308", None, {6}),
    ("Miller: a, b", b"Miller", {0, 1}),
    ("Miller:a", b"Miller", {0}),
    ("\u00a0Miller\t:\u3000a", b"Miller", {0}),
    ("Miller:", b"Miller", set()),
    ("order: front: oak", b"order", {2}),
    ("Table 4 (Halle 2): #9", b"Table 4 (Halle 2)", {9}),
    ('"Jones, Ann" : oak', b"Jones, Ann", {3}),
    ('"a": b', b"a", {1}),
    ('"front": oak', b"front", {3}),
    ('"12:30": oak', b"12:30", {3}),
    ('"\\"": #0', b'"', {0}),
    ('"\\xFF": #0', b"\xff", {0}),
    ("M\u00fcller: a", "Müller".encode(), {0}),
]
# A line that is none for it, and a part of each of its faults.
NOT_ORDERED = [
    ("c", ['no wish is named "c"; expected the name of one, or its number, as #3']),
    ("Miller: a, d, e", ['no wish is named "d"', 'no wish is named "e"']),
    ("fron: aok", ['(near: "oak")']),
    ("wish 1", ['no wish is named "wish 1"']),
    ("A", ['(near: "a")']),
    ("a, a", ['"a" is in the list twice']),
    ("M: a, #0", ["#0 is in the list twice"]),
    ("a,", ["the list ends with a comma; expected a further name"]),
    ("M: ,", ["the list ends with a comma", "a name is missing in front of a comma"]),
    ("#64", ["#64 is too large; expected numbers below 64, as no set has room for others"]),
    ("M: a, #" + "9" * 5000, ["is too large"]),
    ("#3x", ["#3x is no number; expected one, as #3, or a name in quotation marks; a comment has a line of its own"]),
    ("M: #-1", ["#-1 is no number"]),
    ("a # b", ["a comment has a line of its own"]),
    ("M: a, # b", ["a comment has a line of its own"]),
    (": a", ["there is no label in front of the colon; expected one, or no colon"]),
    (" :", ["there is no label in front of the colon"]),
    ("front: oak", ['"front: oak" is the name of a wish; expected the wish or the label in quotation marks']),
    ("front: oak, b", ['"front: oak" is the name of a wish']),
    ("a: b", ['"a" is the name of a wish; expected the wish or the label in quotation marks']),
    ("u\u0308 : b", ['"u\u0308" is the name of a wish']),
    ("Miller, Ann: a", ['no wish is named "Miller"', 'no wish is named "Ann: a"']),
    ("M: N: a", ['no wish is named "N: a"']),
    ("#3: a", ['#3 has a #; expected the name as "#3", with the marks']),
    ('"": a', ["the name is empty"]),
    ('M": a', ["has a quotation mark"]),
    ('"M: a', ["has a quotation mark"]),
    ('"\\y": a', ["a backslash stands alone"]),
    ("M\u200b: a", ["does not print"]),
    ("M: a\u200b", ["does not print"]),
    ("choice", ["no wish is named"]),
    ("wishes: a, c", ['no wish is named "c"']),
]
# Bytes that are taken for a job file, and such that are taken for a text.
JOB_FILES = [A, F, A[:1], A[:2], F[:1], b"C\0", b"F ", b"C\xff", b"C\n", reference.N, reference.P]
NO_JOB_FILES = [b"", b"choice\n", b"Choice\n", b"CHOICE", b"Fitting", b"fitting", b"# C\n", b"\xef\xbb\xbfC", b" C", b"B\0", b"Cx"]


def catalogue_of(text):
    """The catalogue of a text; its own order plays no part."""
    return fairs.from_text(texts.stated(text.encode(), ""))


def second_answer(job, order):
    """The answer to one order against a job of reference/, by the rules and with reference/."""
    if max(order, default=-1) >= job.wishes:
        return kitchen.OrderOutsideFile
    job = job._replace(order=order)
    try:
        return kitchen.Selection(*second.chosen(job, second.own_groups(job), [order] if order else [], 0))
    except reference.Refused:
        return kitchen.NoSelection(None)


def second_answers(file, orders):
    """The answers to a list of orders, or the refusal of the file."""
    try:
        job = reference.read(file, (reference.CHOICE,))
    except reference.Refused as refusal:
        raise kitchen.Refused(refusal.reason, refusal.place) from None
    return [second_answer(job, order) for order in orders]


class Fair:
    """In place of the library, with the call for a list of orders. It keeps what it was given."""

    def __init__(self, answers=second_answers):
        self.answers, self.calls = answers, []

    def fair(self, file, orders):
        self.calls.append((file, orders))
        found = self.answers(file, orders) if callable(self.answers) else self.answers
        if isinstance(found, Exception):
            raise found
        return found


def at_a_fair(library, action, *arguments, **options):
    """The action, with this in place of the library."""
    real, fairs.Library = fairs.Library, lambda: library
    try:
        return action(*arguments, **options)
    finally:
        fairs.Library = real


def fair(*arguments, stdin=b"", library=None):
    return at_a_fair(library or Fair(), quick, "fair", *arguments, stdin=stdin)


def orders_listed():
    """Lines of a list: what they mean, and what is at fault in them, with their numbers."""
    named, plain = catalogue_of(CATALOGUE), fairs.from_file(A)
    for line, label, wishes in ORDERED:
        equal(fairs.orders_in(line.encode(), named), [fairs.Order(1, label, wishes)], f"the order {line!r}")
    for line, phrases in NOT_ORDERED:
        faults = faults_in(f"# a list\n\n{line}\noak\n", named)
        equal([number for number, _ in faults], [3] * len(phrases), f"the order {line[:80]!r}: {faults}")
        for (_, message), phrase in zip(faults, phrases):
            check(phrase in message and "expected" in message and len(message) < 400, f"the order {line[:80]!r}: {message}")
    for line, label, wishes in (("wish 1, #0", None, {0, 1}), ("M: wish 2", b"M", {2}), ("wish 63", None, {63}), ('"wish 0"', None, {0})):
        equal(fairs.orders_in(line.encode(), plain), [fairs.Order(1, label, wishes)], f"the order {line!r} for a job file")
    for line, phrase in (
        ("oak", 'no wish is named "oak"; expected its number, as #3 or "wish 3": job files name no wishes'),
        ("wish 64", "wish 64 is too large; expected numbers below 64"), ("wish 01", 'no wish is named "wish 01"'),
        ("wish 1: #0", '"wish 1" is the name of a wish'), ("wish 1, #1", "#1 is in the list twice"),
    ):  # fmt: skip
        faults = faults_in(line, plain)
        check(len(faults) == 1 and phrase in faults[0][1], f"the order {line!r} for a job file: {faults}")
    lines = "\ufeffa\r\n\r\n  # it is\r\nM: b\roak\n".encode()
    equal([order.line for order in fairs.orders_in(lines, named)], [1, 4, 5], "the lines of a list, whatever ends them")
    check("the line is not in UTF-8" in faults_in(b"a\n\xfc\n", named)[0][1], "a list in Latin-1")
    equal(fairs.orders_in(b"\n# none\n", named), [], "a list without orders")
    equal([fairs.is_job_file(found) for found in JOB_FILES + NO_JOB_FILES], [True] * len(JOB_FILES) + [False] * len(NO_JOB_FILES), "what is a job file")
    for file in [reference.written(job) for job in (drawn.full_choice(), *(random_job(random.Random(seed)) for seed in range(40)))]:
        check(fairs.is_job_file(file) and not fairs.is_job_file(text_of(file)), f"{file[:20]!r} is a job file, and its text is none")


def faults_in(text, catalogue):
    """The faults of a list of orders."""
    try:
        fairs.orders_in(text if isinstance(text, bytes) else text.encode(), catalogue)
        return []
    except texts.Faulty as faulty:
        return faulty.faults


def long_lists():
    """A long list is read in time, and given to the library in shares: each order once, and the same bytes each time."""
    catalogue, start = catalogue_of(CATALOGUE), time.process_time()
    orders = fairs.orders_in("".join(f"Kunde {number}: a, #{number % 64 or 1}\n" for number in range(40_000)).encode(), catalogue)
    used = time.process_time() - start
    check(len(orders) == 40_000 and used < 5, f"{len(orders)} orders in {used:.1f} seconds")
    start = time.process_time()
    faults = faults_in("junk: junk, junk\n" * 40_000 + "x" * 10**6 + "\n" + " " * 10**6 + "y", catalogue)
    used = time.process_time() - start
    check(len(faults) == 80_002 and used < 8, f"{len(faults)} faults in {used:.1f} seconds")
    for count in (0, 1, fairs.SHARE - 1, fairs.SHARE, fairs.SHARE + 1, 3 * fairs.SHARE + 7):
        library, told = Fair(), []
        answers = at_a_fair(library, fairs.asked, catalogue, orders[:count], told.append)
        shares = [order for _, share in library.calls for order in share]
        equal(shares, [order.wishes for order in orders[:count]], f"{count} orders, each once")
        equal(len(library.calls), max(1, -(-count // fairs.SHARE)), f"{count} orders in shares")
        equal({file for file, _ in library.calls}, {catalogue.file}, "the bytes of the catalogue")
        check(told == sorted(told) and told[-1] == len(answers) == count, f"{count} orders, how far it is: {told}")


def wrong_answers(source, job, order, right):
    """Other answers to an order, none of which is the right one."""
    n = len(job.articles)
    chosen, aside = right if isinstance(right, kitchen.Selection) else (set(), set())
    others = [kitchen.Selection(second.of(number), aside) for number in source.sample(range(2**n), min(6, 2**n))]
    others += [kitchen.Selection(chosen, drawn.some(source, n, 0.4)), kitchen.Selection(chosen | {n}, aside), kitchen.Selection(chosen, aside | {63})]
    others += [kitchen.NoSelection(None), kitchen.NoSelection(0), kitchen.OrderOutsideFile, kitchen.NoPlan, None]
    return [other for other in others if other != right]


def fairs_tried():
    """Of all answers to an order only the right one is told; and no other list, and no refusal."""
    source, seen = random.Random(9), {"kitchens": 0, "none": 0, "outside": 0, "wrong": 0}
    for job in [drawn.drawn_choice(source) for _ in range(200)] + [drawn.wide_choice(source) for _ in range(2)]:
        file = reference.written(job)
        catalogue = fairs.from_file(file)
        sets = [job.order, set(), *(drawn.some(source, min(64, job.wishes + source.randrange(2)), 0.5) for _ in range(3))]
        orders, right = [fairs.Order(line, None, order) for line, order in enumerate(sets, 1)], second_answers(file, sets)
        equal(at_a_fair(Fair(), fairs.asked, catalogue, orders), right, f"{sets} of {job}")
        seen["kitchens"] += sum(isinstance(answer, kitchen.Selection) for answer in right)
        seen["none"] += right.count(kitchen.NoSelection(None))
        seen["outside"] += right.count(kitchen.OrderOutsideFile)
        at = source.randrange(len(sets))
        wrong = [] if len(job.articles) > 8 else wrong_answers(source, job, sets[at], right[at])
        lists = [[*right[:at], answer, *right[at + 1 :]] for answer in wrong] + [right[:-1], [*right, right[-1]], []]
        for answers in lists + [kitchen.Refused(number, 0) for number in (0, 1, 6, 10, 14, 18)] + [kitchen.Unusable("it is missing")]:
            phrase = "the orders cannot be answered: it is missing" if isinstance(answers, kitchen.Unusable) else "this cannot be what the library answers: "
            raised(asking.Failed, phrase, at_a_fair, Fair(answers), fairs.asked, catalogue, orders)
            seen["wrong"] += 1
    check(min(seen.values()) > 100, f"answers to orders that are told, and that are not: {seen}")
    refused_catalogues()


def refused_catalogues():
    """The refusal of a job file is told if the rules have it, and nothing else is."""
    for file, right in ((b"C", (2, 1)), (A[:-1], (2, 45)), (A + b"\0", (8, 46)), (F, (1, 0)), (b"F\0", (1, 0)), (b"C\x41", (3, 1))):
        catalogue = fairs.from_file(file)
        equal(catalogue.text, None, f"{file[:9]!r} is no catalogue")
        raised(kitchen.Refused, "refused %d at %d" % right, at_a_fair, Fair(), fairs.asked, catalogue, [])
        for answer in ([], kitchen.Refused(right[0], right[1] + 1), kitchen.Refused(right[0] % 8 + 1, right[1]), kitchen.Refused(10, 0)):
            raised(asking.Failed, "this cannot be what the library answers: it ", at_a_fair, Fair(answer), fairs.asked, catalogue, [])


# A list for CATALOGUE, and what is told of it.
LIST = 'Miller: a, b\n# no more\n"Jones, Ann": front: oak, a\n\n#0, #7, #50\nü\nempty:\n'
TABLE = """\
line | order      | kitchen                             | set aside
   1 | Miller     | article 2                           | A; B
   3 | Jones, Ann | A; Oak                              | B
   5 |            | the catalogue has no wish #7 or #50 |
   6 |            | no such kitchen                     |
   7 | empty      | (no article is needed)              | -

5 orders; with a kitchen: 3; no such kitchen: 1; with a wish that the catalogue lacks: 1.
"""
LINES = [
    {"line": 1, "label": "Miller", "order": ["a", "b"], "answer": "kitchen",
     "articles": [{"number": 2, "name": None, "wishes": ["a", "b"]}],
     "set_aside": [{"number": 0, "name": "A"}, {"number": 1, "name": "B"}]},
    {"line": 3, "label": "Jones, Ann", "order": ["a", "front: oak"], "answer": "kitchen",
     "articles": [{"number": 0, "name": "A", "wishes": ["a"]}, {"number": 3, "name": "Oak", "wishes": ["front: oak"]}],
     "set_aside": [{"number": 1, "name": "B"}]},
    {"line": 5, "label": None, "order": ["a", "#7", "#50"], "answer": "no such wish", "lacks": [7, 50]},
    {"line": 6, "label": None, "order": ["ü"], "answer": "no such kitchen"},
    {"line": 7, "label": "empty", "order": [], "answer": "kitchen", "articles": [], "set_aside": []},
]  # fmt: skip


def fairs_told(folder):
    """The command, with a stand-in for the library: a table, or lines of JSON, and the status."""
    path, listed, job = folder / "catalogue.txt", folder / "fair.orders", folder / "catalogue.job"
    path.write_text(CATALOGUE)
    listed.write_text(LIST)
    job.write_bytes(catalogue_of(CATALOGUE).file)
    hint = f"`tools/job advise {path} --order LIST` says why there is none.\n"
    equal(fair(path, listed), (3, (TABLE + hint).encode(), ""), "a table")
    equal(fair(path, "-", stdin=LIST.encode()), (3, (TABLE + hint).encode(), ""), "orders from standard input")
    equal(fair("-", listed, stdin=CATALOGUE.encode())[:2], (3, (TABLE + hint.replace(str(path), "-")).encode()), "a catalogue from standard input")
    ordered = CATALOGUE.replace("article A\n", "order: b, c\narticle A\n")
    equal(fair("-", listed, stdin=ordered.encode())[1], fair("-", listed, stdin=CATALOGUE.encode())[1], "the catalogue's own order plays no part")
    lines = [{"text": str(listed)} | line for line in LINES]
    equal(lines_in(fair(path, listed, "--json")), (3, lines, ""), "lines of JSON")
    equal(lines_in(fair("--json", path, "-", stdin=LIST.encode()))[1], [line | {"text": "standard input"} for line in lines], "JSON of standard input")
    by_number = 'Miller: #0, wish 1\n#\n"Jones, Ann": wish 2, #0\n\n#0, #7, wish 50\n#6\nempty:'
    equal(fair(job, "-", stdin=by_number.encode()), (3, TABLE.encode(), ""), "the table of a job file")
    found = lines_in(fair(job, "-", "--json", stdin=by_number.encode()))[1]
    equal([line["order"] for line in found], [["wish 0", "wish 1"], ["wish 0", "wish 2"], ["wish 0", "#7", "#50"], ["wish 6"], []], "wishes of a job file")
    for text, status, rows in (
        ("a\n", 0, ["line | kitchen | set aside", "   1 | A       | B", "", "1 order; with a kitchen: 1; no such kitchen: 0; with a wish that the catalogue lacks: 0."]),
        ("", 0, ["The list has no order."]), ("# none\n", 0, ["The list has no order."]),
    ):  # fmt: skip
        equal(fair(path, "-", stdin=text.encode()), (status, "".join(f"{row}\n" for row in rows).encode(), ""), f"the list {text!r}")
    equal(fair(path, "-", "--json", stdin=b"\n"), (0, b"", ""), "no order, and so no line")
    for text, status in (("a\nb", 0), ("a\nü", 3), ("#9", 3), ("M:", 0)):
        equal(fair(path, "-", stdin=text.encode())[0], status, f"the status of {text!r}")
    sample = fairs.orders_in((ROOT / "jobs" / "fair.orders").read_bytes(), catalogue_of((ROOT / "jobs" / "kitchen.txt").read_text()))
    check(len(sample) > 4 and any(order.label for order in sample), f"the sample of a list: {sample}")
    fairs_not_told(folder, path, listed)
    at_terminals(path, listed)


def lines_in(found):
    """What a call with --json gives, its lines read."""
    status, output, errors = found
    return status, [json.loads(line) for line in output.decode().splitlines()], errors


def fairs_not_told(folder, path, listed):
    """What is at fault, and who cannot be asked or believed: the status, nothing of a table, and with --json an error."""
    faulty, plan, other = folder / "faulty.orders", ROOT / "jobs" / "F.txt", folder / "other"
    faulty.write_text("Miller: a\nb, c\n\nd\n")
    missing = kitchen.Unusable("libkitchen.so is missing; build it with tools/library")
    refused = [(A[:-1], "refused 2 at 45"), (F, "refused 1 at 0"), (b"C", "refused 2 at 1"), (A + b"\0", "refused 8 at 46")]
    cases = [
        (path, faulty, Fair(), f"{faulty}:2: no wish is named "), (folder / "missing", listed, Fair(), "missing: No such file or directory"),
        (path, folder / "missing", Fair(), "missing: No such file or directory"), (path, folder, Fair(), "Is a directory"),
        (faulty, listed, Fair(), f'{faulty}:1: expected "choice" or "fitting"'), (path, listed, Fair(missing), f"the orders cannot be answered: {missing}"),
        (path, listed, Fair([]), "this cannot be what the library answers: 0 answers to 5 orders"),
    ]
    for file, refusal in refused:
        (folder / f"{refusal}.job").write_bytes(file)
        cases += [(folder / f"{refusal}.job", faulty, Fair(), f"{refusal}\nReason {refusal.split()[1]}: ")]
    for catalogue, orders, library, phrase in cases:
        status, output, errors = fair(catalogue, orders, library=library)
        check((status, output) == (1, b"") and phrase in errors, f"{catalogue.name}, {orders.name}: {status}, {output}, {errors}")
        status, lines, said = lines_in(fair(catalogue, orders, "--json", library=library))
        equal((status, lines, said), (1, [{"text": str(orders), "answer": "error", "message": errors.rstrip()}], errors), f"{phrase}, as JSON")
    equal(fair(path, faulty)[2].splitlines()[:2], [f'{faulty}:2: no wish is named "c"; expected the name of one, or its number, as #3', "    b, c"], "a fault")
    other.write_text("Choice\nwishes: a\n")
    check(f"{other}:1: expected" in fair(other, listed)[2], "a text that begins with a capital")
    for arguments, phrase in (((plan, listed), "is a fitting, which has no orders; expected a choice"), (("-", "-"), "standard input can be read only once")):
        status, output, errors = fair(*arguments)
        check((status, output) == (2, b"") and phrase in errors, f"fair {arguments}: {errors}")
    real, kitchen.library_path = kitchen.library_path, lambda: None
    try:
        equal(quick("fair", path, listed), (1, b"", f"the orders cannot be answered: {missing}\n"), "without a library")
    finally:
        kitchen.library_path = real


def errors_at_terminal(*arguments):
    """The status of a call whose standard error is a terminal, and what came there."""
    mine, its = pty.openpty()
    child = os.fork()
    if child == 0:
        with open(os.devnull, "r+b") as nothing, open(its, "wb") as terminal:
            copied(arguments, (nothing, nothing, terminal))
    os.close(its)
    came = b""
    with contextlib.suppress(OSError):  # it ends so, once nobody writes any more
        while part := os.read(mine, 10_000):
            came += part
    os.close(mine)
    return os.waitstatus_to_exitcode(os.waitpid(child, 0)[1]), came.decode()


def at_terminals(path, listed):
    """How far a long list is, is told at a terminal only, and in a line that is cleared; nothing is of a short one."""
    kept = listed.read_text()
    equal(at_a_fair(Fair(), errors_at_terminal, "fair", path, listed), (3, ""), "a short list at a terminal")
    count = 2 * fairs.SHARE + 1
    listed.write_text("#0\n" * count)
    status, came = at_a_fair(Fair(), errors_at_terminal, "fair", path, listed)
    told = [line for line in came.split("\r") if line.strip()]
    equal((status, [line.rstrip() for line in told]), (0, [f"{done:,} of {count:,} orders" for done in (fairs.SHARE, 2 * fairs.SHARE, count)]), f"a long list: {came!r}")
    check(came.endswith(f"\r{' ' * 40}\r"), f"the line is cleared: {came!r}")
    status, output, errors = fair(path, listed)
    check((status, errors) == (0, "") and output.count(b"\n") == count + 3, f"a long list without a terminal: {status}, {errors!r}")
    status, came = at_a_fair(Fair([]), errors_at_terminal, "fair", path, listed)
    check(status == 1 and re.fullmatch(r"\r {40}\rthis cannot be what the library answers: 0 answers to 500 orders\r?\n", came), f"a long list that fails: {came!r}")
    listed.write_text(kept)


# ---- streams


def standard_input(folder):
    """A text or a file from standard input."""
    text = SMALL_TEXT.read_bytes()
    equal(quick("write", "-", stdin=text), (0, A, ""), "write -")
    equal(quick("write", "-", "-o", folder / "in.job", stdin=text)[0], 0, "write - -o")
    equal((folder / "in.job").read_bytes(), A, "what write - -o wrote")
    equal(quick("read", "-", stdin=A), (0, text_of(A), ""), "read -")
    equal(quick("show", "-", stdin=A), (0, files.job_table(kitchen.read(A)).encode(), ""), "show -")
    status, output, errors = quick("write", "-", stdin=CHOICE.encode() + b"nonsense\n")
    check((status, output) == (1, b"") and errors.startswith("standard input:4: expected "), errors)
    status, output, errors = quick("write", "-", "--order", "c", stdin=CHOICE.encode())
    check((status, output) == (1, b"") and errors.startswith("standard input, --order: no wish"), errors)
    status, output, errors = quick("show", "-", stdin=b"x")
    check((status, output) == (1, b"") and errors.startswith("standard input: refused 1 at 0\n"), errors)


def own_text(folder):
    """A text is not overwritten, however it is named."""
    text, link, hard = folder / "text.txt", folder / "link.txt", folder / "hard.txt"
    text.write_text(KITCHEN)
    link.symlink_to(text)
    hard.hardlink_to(text)
    for source, target in ((text, text), (text, link), (link, text), (text, hard), (text, folder / "." / "text.txt")):
        status, output, errors = quick("write", source, "-o", target)
        check((status, output) == (1, b"") and "is the text itself" in errors, f"{source} onto {target}: {errors}")
    with open(text, "rb") as opened:
        done = subprocess.run([sys.executable, "-B", TOOL, "write", "-", "-o", text], stdin=opened, capture_output=True)
    status, output, errors = done.returncode, done.stdout, done.stderr.decode()
    check((status, output) == (1, b"") and "is the text itself" in errors, f"from standard input: {errors}")
    equal(text.read_text(), KITCHEN, "the text is as it was")
    equal(run("write", text, "-o", "-", cwd=folder), (0, written(KITCHEN), ""), "-o - is standard output")
    check(not (folder / "-").exists(), "-o - makes no file")


def on_terminal(*arguments):
    """The status of a call whose standard output is a terminal, what came there, and the errors."""
    mine, its = pty.openpty()
    try:
        with call(*arguments, stdout=its, stderr=subprocess.PIPE) as process:
            errors = process.stderr.read().decode()
        came = b""
        while select.select([mine], [], [], 0.1)[0]:
            came += os.read(mine, 10000)
    finally:
        os.close(its)
        os.close(mine)
    return process.returncode, came, errors


def terminals(folder):
    to_it = [("write", SMALL_TEXT), ("write", SMALL_TEXT, "-o", "-"), ("write", SMALL_TEXT, "--order", "")]
    to_it += [("change", folder / "A.job", "order"), ("change", folder / "missing.job", "name", "#0", "-o", "-")]
    for arguments in to_it:
        status, came, errors = on_terminal(*arguments)
        check((status, came) == (2, b"") and "expected -o FILE or a pipe" in errors, f"{arguments}: {came!r} {errors}")
    target = folder / "terminal.job"
    equal(on_terminal("write", SMALL_TEXT, "-o", target), (0, b"", ""), "write -o at a terminal")
    equal(target.read_bytes(), A, "what it wrote")
    status, came, errors = on_terminal("show", target)
    check(status == 0 and b"A choice with 3 articles" in came and not errors, f"show at a terminal: {came!r} {errors}")


def closed_streams(folder):
    job = folder / "A.job"
    for arguments, stream, phrase in (
        (("write", SMALL_TEXT), ">&-", "standard output: Bad file descriptor"),
        (("show", job), ">&-", "standard output: Bad file descriptor"),
        (("--help",), ">&-", "standard output: Bad file descriptor"),
        (("--version",), ">&-", "standard output: Bad file descriptor"),
        ((), ">&-", "standard output: Bad file descriptor"),
        (("write", SMALL_TEXT), ">/dev/full", "standard output: No space left on device"),
        (("--help",), ">/dev/full", "standard output: No space left on device"),
        (("write", "--help"), ">/dev/full", "standard output: No space left on device"),
        (("--version",), ">/dev/full", "standard output: No space left on device"),
        (("write", SMALL_TEXT, "-o", "/dev/full"), "", "/dev/full: No space left on device"),
        (("write", "-"), "<&-", "standard input is closed"),
        (("read", "-"), "<&-", "standard input is closed"),
        (("show", "-"), "<&-", "standard input is closed"),
        (("explain", "6", "-"), "<&-", "standard input is closed"),
        (("change", "-", "order"), "<&-", "standard input is closed"),
        (("change", "/dev/zero", "order"), "", "/dev/zero: it has more than 4,000,000 bytes"),
        (("change", folder, "name", "#0"), "", f"{folder}: Is a directory"),
        (("change", folder / "missing.job", "order"), "", "missing.job: No such file or directory"),
        (("fair", "-", SMALL_TEXT), "<&-", "standard input is closed"),
        (("fair", SMALL_TEXT, "-"), "<&-", "standard input is closed"),
        (("fair", "/dev/zero", SMALL_TEXT), "", "/dev/zero: it has more than 4,000,000 bytes"),
        (("fair", SMALL_TEXT, "/dev/zero"), "", "/dev/zero: it has more than 4,000,000 bytes"),
        (("fair", SMALL_TEXT, folder), "", f"{folder}: Is a directory"),
        (("show", "-"), "0>/dev/null", "standard input: Bad file descriptor"),
        (("show", "-"), "</dev/zero", "standard input: it has more than 4,000,000 bytes"),
        (("show", "/dev/zero"), "", "/dev/zero: it has more than 4,000,000 bytes"),
        (("write", "/dev/zero"), "", "/dev/zero: it has more than 4,000,000 bytes"),
        (("write", folder), "", f"{folder}: Is a directory"),
        (("write", SMALL_TEXT, "-o", folder), "", f"{folder}: Is a directory"),
        (("write", SMALL_TEXT, "-o", folder / "no folder" / "a.job"), "", "a.job: No such file or directory"),
        (("write", SMALL_TEXT, "-o", job / "a.job"), "", "a.job: Not a directory"),
        (("write", ""), "", '"": No such file or directory'),
        (("write", SMALL_TEXT, "-o", ""), "", '"": No such file or directory'),
        (("show", "x" * 300), "", "File name too long"),
        (("show", "a\x1b[31m\nb"), "", '"a\\x1B[31m\\x0Ab": No such file or directory'),
        (("show", os.fsdecode(b"\xff")), "", '"\\xFF": No such file or directory'),
    ):
        command = ["sh", "-c", f'"$0" "$@" {stream}', TOOL, *arguments]
        done = subprocess.run(command, capture_output=True)
        errors = done.stderr.decode()
        equal((done.returncode, done.stdout, errors.count("\n")), (1, b"", 1), f"{arguments} {stream}: {errors}")
        check(phrase in errors, f"{arguments} {stream}: {errors}")
    for arguments, status in ((("show", job), 0), (("show", folder), 1), (("bogus",), 2), (("write", folder / "faulty.txt"), 1)):
        for stream in ("2>&-", "2>/dev/full"):
            done = subprocess.run(["sh", "-c", f'"$0" "$@" {stream}', TOOL, *arguments], capture_output=True)
            equal((done.returncode, done.stderr), (status, b""), f"{arguments} {stream}")


def rights(folder):
    """Files that may not be read or written, if that can be tried."""
    text, closed = folder / "secret.txt", folder / "closed"
    text.write_text(KITCHEN)
    text.chmod(0)
    closed.mkdir(mode=0o500)
    if os.access(text, os.R_OK):
        return
    for arguments in (("write", text), ("write", SMALL_TEXT, "-o", text), ("write", SMALL_TEXT, "-o", closed / "a.job")):
        status, output, errors = quick(*arguments)
        check((status, output) == (1, b"") and errors.endswith(": Permission denied\n"), f"{arguments}: {errors}")


def ended_in_time(process):
    """The errors of a process that ends by itself; one that does not is killed."""
    try:
        process.wait(60)
    except subprocess.TimeoutExpired:
        process.kill()
    return process.stderr.read()


def ended(folder):
    """A reader that goes away, Ctrl-C, and two runs at once."""
    for arguments in (("show", folder / "A.job"), ("--help",), ("write", SMALL_TEXT)):
        out, into = os.pipe()
        os.close(out)
        with call(*arguments, stdout=into, stderr=subprocess.PIPE) as process:
            errors = process.stderr.read()
        os.close(into)
        equal((process.returncode, errors), (1, b""), f"{arguments}, and nobody reads")
    listen = lambda: signal.signal(signal.SIGINT, signal.default_int_handler)
    for number in (signal.SIGINT, signal.SIGTERM):
        with call("write", "-", stdin=subprocess.PIPE, stderr=subprocess.PIPE, preexec_fn=listen) as process:
            process.stdin.write(b"#\n" * 500000)  # more than a pipe holds, so it is being read
            time.sleep(1)  # and now it waits for more
            process.send_signal(number)
            errors = ended_in_time(process)
        equal((process.returncode, errors), (1, b"tools/job: interrupted, so there is no answer\n"), f"signal {number}")
    targets = [folder / name for name in ("one.job", "two.job", "both.job", "both.job")]
    for process in [call("write", SMALL_TEXT, "-o", target) for target in targets]:
        equal(process.wait(), 0, "runs at once")
    equal([target.read_bytes() for target in targets], [A] * 4, "what they wrote")


# ---- usage

COMMANDS = {
    "ask": ("TEXT", "--order LIST", "--next N", "--rate PERCENT", "--json", "- for standard input"),
    "advise": ("TEXT", "--order LIST", "--bound", "- for standard input", "needs tools/library"),
    "write": ("TEXT", "--order LIST", "-o FILE", "- for standard input", "standard output"),
    "read": ("FILE", "- for standard input"),
    "show": ("FILE", "- for standard input"),
    "change": ("[-o NEW] FILE WHAT", "- for standard input", "standard output", "needs tools/library", *changing.CHANGES.values()),
    "fair": ("[--json] CATALOGUE ORDERS", "- for standard input", "needs tools/library"),
    "explain": ("NUMBER", "[PLACE] [FILE]", "- for standard input"),
}
# The arguments of each change.
CHANGES = {"order": "[LIST]", "wishes": "ARTICLE [LIST]", "clashes": "ARTICLE [LIST]", "name": "ARTICLE [NAME]"}
# Rates in percent, with their hundredths; and what is none.
IN_PERCENT = {"0": 0, "0.0": 0, "0.01": 1, "0.5": 50, "7": 700, "7.5": 750, "07.50": 750, "19": 1900, "19.25": 1925, "99.99": 9999, "100": 10_000, "100.00": 10_000}
NO_RATES = ("", "x", "-1", "100.01", "101", "1000", "19%", "19,5", "19.", ".5", "7.525", "1e1", "+19", " 19", "٣", os.fsdecode(b"\xff"))
# Calls that cannot be, and a part of what is said.
MISUSED = [
    (("bogus",), "invalid choice: 'bogus'"),
    (("tell", "x"), "invalid choice: 'tell'"),
    (("wri", "x"), "invalid choice: 'wri'"),
    (("",), "invalid choice: ''"),
    ((os.fsdecode(b"\xff"),), "invalid choice"),
    (("--bogus",), "required: COMMAND"),
    (("--versio",), "required: COMMAND"),
    (("write",), "required: TEXT"),
    (("write", "a", "b"), "unrecognized arguments: b"),
    (("write", "a", "-o"), "argument -o: expected one argument"),
    (("write", "a", "-x"), "unrecognized arguments: -x"),
    (("write", "a", "--ord", "x"), "unrecognized arguments: --ord x"),
    (("write", "a", "--json"), "unrecognized arguments: --json"),
    (("write", "a", "--order"), "argument --order: expected one argument"),
    (("write", "-x.txt"), "required: TEXT"),
    (("write", "a", "\x1b[2J"), "unrecognized arguments: ?[2J"),
    (("read",), "required: FILE"),
    (("show", "a", "b"), "unrecognized arguments: b"),
    (("show", "a", "-o", "b"), "unrecognized arguments: -o b"),
    (("explain",), "required: NUMBER\n"),
    (("ask",), "required: TEXT"),
    (("ask", "a", "--next", "0"), "'0' is no count; expected 1 or more"),
    (("ask", "a", "--next", "-1"), "'-1' is no count"),
    (("ask", "a", "--next", "many"), "'many' is no count"),
    *((("ask", "a", "--rate", rate), "is no rate; expected percent from 0 to 100, with at most two decimals") for rate in NO_RATES),
    (("ask", "a", "--rate"), "argument --rate: expected one argument"),
    (("ask", ROOT / "jobs" / "F.txt", "--rate", "19"), "is a fitting, which --rate does not go with"),
    (("advise", "a", "--rate", "19"), "unrecognized arguments: --rate 19"),
    (("page", "a", "--rate", "19"), "unrecognized arguments: --rate 19"),
    (("write", "a", "--rate", "19"), "unrecognized arguments: --rate 19"),
    (("ask", "-", "-"), "standard input can be read only once"),
    (("advise", "a", "b"), "unrecognized arguments: b"),
    (("advise", "a", "--boun"), "unrecognized arguments: --boun"),
    (("advise", "a", "--bound", "b"), "unrecognized arguments: b"),
    (("advise", ROOT / "jobs" / "F.txt", "--bound"), "is a fitting, which --bound does not go with"),
    (("ask", "a", "--bound"), "unrecognized arguments: --bound"),
    (("page", "a", "--bound"), "unrecognized arguments: --bound"),
    (("change",), "required: FILE, WHAT"),
    (("change", "a"), "required: WHAT"),
    (("change", "a", "orders", "b"), "invalid choice: 'orders'"),
    (("change", "a", "wish"), "invalid choice: 'wish'"),
    (("change", "a", "order", "b", "c"), "unrecognized arguments: c"),
    (("change", "a", "wishes"), "required: ARTICLE"),
    (("change", "a", "name", "b", "c", "d"), "unrecognized arguments: d"),
    (("change", "a", "order", "-o"), "argument -o: expected one argument"),
    (("change", "a", "order", "--order", "b"), "unrecognized arguments: --order"),
    (("change", "a", "order", os.fsdecode(b"\xff")), "argument LIST: it is not in UTF-8; expected UTF-8"),
    (("change", "a", "name", os.fsdecode(b"\xff"), "b"), "argument ARTICLE: it is not in UTF-8"),
    (("change", "a", "name", "b", os.fsdecode(b"\xe4")), "argument NAME: it is not in UTF-8"),
    (("fair",), "required: CATALOGUE, ORDERS"),
    (("fair", "a"), "required: ORDERS"),
    (("fair", "a", "b", "c"), "unrecognized arguments: c"),
    (("fair", "a", "b", "--order", "c"), "unrecognized arguments: --order"),
    (("fair", "a", "b", "--rate", "19"), "unrecognized arguments: --rate"),
    (("fair", "a", "b", "-o", "c"), "unrecognized arguments: -o c"),
    (("fair", "-", "-"), "standard input can be read only once"),
    (("fair", ROOT / "jobs" / "F.txt", "b"), "is a fitting, which has no orders; expected a choice"),
]


def usage(folder):
    status, whole, errors = quick("--help")
    equal((status, errors), (0, ""), "--help")
    for arguments in ((), ("-h",)):
        equal(quick(*arguments), (0, whole, ""), f"help by {arguments}")
    status, output, errors = quick("--version")
    check((status, errors) == (0, "") and f"interface {kitchen.VERSION} of include/kitchen.h" in output.decode(), "--version")
    for command, parts in COMMANDS.items():
        check(re.search(rf"(?m)^ +{command} ", whole.decode()), f"--help names {command}")
        status, output, errors = quick(command, "--help")
        text = " ".join(output.decode().split())
        check((status, errors) == (0, "") and f"usage: tools/job {command} " in text, f"{command} --help: {errors}")
        check(all(part in text for part in parts), f"{command} --help says its arguments: {text}")
    for what, rest in CHANGES.items():
        status, output, errors = quick("change", "x", what, "--help")
        text = " ".join(output.decode().split())
        usage = f"usage: tools/job change FILE {what} [-h] [-o NEW] {rest} {changing.CHANGES[what]} "
        check((status, errors) == (0, "") and text.startswith(usage), f"change x {what} --help: {text} {errors}")
    equal(list(CHANGES), list(changing.CHANGES), "the changes that there are")
    for arguments, phrase in MISUSED:
        status, output, errors = quick(*arguments)
        check((status, output) == (2, b"") and phrase in errors, f"{arguments}: status {status}, {output!r}, {errors}")
        check(errors.startswith("tools/job: ") and "Traceback" not in errors, f"{arguments}: {errors}")
    (folder / "-x.txt").write_text(KITCHEN)
    equal(run("write", "--", "-x.txt", cwd=folder), (0, written(KITCHEN), ""), "a path that begins with -, after --")
    equal(run("write", "./-x.txt", "-o-x.job", cwd=folder), (0, b"", ""), "a path that begins with -, after ./")
    equal((folder / "-x.job").read_bytes(), written(KITCHEN), "-o without a blank")
    check(TOOL.stat().st_mode & 0o111, "tools/job can be executed")


def locales(folder):
    """A locale that knows ASCII only."""
    plain = os.environ | {"LC_ALL": "C", "PYTHONUTF8": "0", "PYTHONCOERCECLOCALE": "0"}
    path = folder / "Küche.txt"
    path.write_text(f"choice\nwishes: {ONE}\norder:\narticle {ONE}\nwishes: {TWO}\n", encoding="utf-8")
    for language in (plain, os.environ | {"LANG": "C", "LC_ALL": "C"}):
        status, output, errors = run("--help", env=language)
        check((status, errors) == (0, "") and "ä has 2" in output.decode(), f"--help in C: {errors}")
        equal(run("write", path, "--order", ONE, env=language), (0, written(path.read_text("utf-8"), ONE), ""), "write")
        status, output, errors = run("write", path, "--order", "Ölofen", env=language)
        check(status == 1 and f"{path}, --order: no wish is named \"Ölofen\"" in errors, f"faults in C: {errors}")
        status, output, errors = run("read", "-", stdin=written(path.read_text("utf-8")), env=language)
        check(status == 0 and f"article {ONE}\n" in output.decode(), f"read in C: {errors}")
        status, output, errors = run("show", folder / "Tür", env=language)
        equal((status, errors), (1, f"{folder / 'Tür'}: No such file or directory\n"), f"a missing file in C")
        status, output, errors = run("Tür", env=language)
        check((status, output) == (2, b"") and "invalid choice" in errors, f"misuse in C: {errors}")


def helpful(folder):
    """What the help says is so."""
    text = " ".join(run("--help")[1].decode().split())
    for phrase in (
        "64 articles, 64 wishes",
        "32 steps, 32 facts, a horizon of 16 rounds",
        "32 bytes of an article or step; a letter such as ä has 2",
        f"a file {commands.LARGEST:,} bytes, be it a text or a job file",
        "Of several kitchens the one with the smallest number comes, so what comes first in the text is preferred.",
        "Without --rate `ask` tells all as if there were no prices.",
        "If there are prices and a kitchen, `advise` also tells what a change of one price can do to the cheapest total.",
        "an amount from -21474836.48 to 21474836.47, with a point and at most two decimals. A price of 0 is the same as none.",
        "Prices stay as they are: to change one, change it in the text that `tools/job read` gives.",
        "0 there is a kitchen, there is a plan; or what was asked for is done",
        "1 a text, a file or a change is at fault, or there is no answer",
        "2 the tool was called in another way than it can be",
        '3 there is none: "no such kitchen", "no such plan"',
        "Of several texts: 1 if one failed, else 3 if one has none.",
        '"no such kitchen" has falls_short, which is true if counting the wishes rules it out without a search;',
        " ".join(guide.CHOICE_EXAMPLE.split()),
        " ".join(guide.FITTING_EXAMPLE.split()),
        guide.CHANGE_EXAMPLE.strip(),
        " ".join(guide.FAIR_EXAMPLE.split()),
        "A name that no wish has is a fault, and then nothing is told.",
        "Of a fair: 3 if an order has none, or names a wish that the catalogue lacks.",
    ):
        check(phrase in text, f"--help says: {phrase}")
    limits = [kitchen.CHOICE.limit, kitchen.FITTING.limit, kitchen.FITTING.horizon, kitchen.LONGEST_NAME]
    equal(limits, [64, 32, 16, 32], "the limits that the help names")
    statuses = [commands.DONE, commands.FAILED, commands.MISUSED, commands.NONE]
    equal(statuses, [0, 1, 2, 3], "the statuses that the help names")
    check("--" not in re.sub(r"--(order|next|rate|json|help|version)\b", "", text), "no other option is named")
    for name, example in (("choice", guide.CHOICE_EXAMPLE), ("fitting", guide.FITTING_EXAMPLE)):
        path = folder / f"example {name}.txt"
        path.write_text(example)
        equal(quick("write", path), (0, written(example), ""), f"the example of a {name}")
        equal(texts.stated(example.encode()).warnings, [], f"the example of a {name} has no warnings")
    equal(answer(job_of(guide.CHOICE_EXAMPLE), "refused 14 at 0\n"), kitchen.NoSelection(0), "no kitchen for the example")
    plan = kitchen.Plan([{0}, {1}])
    equal(answer(job_of(guide.FITTING_EXAMPLE), "rounds 2\n1: 0\n2: 1\n"), plan, "a plan for the example")
    (folder / "larder.job").write_bytes(written(guide.CHOICE_EXAMPLE))
    _, _, path, *rest, target = shlex.split(guide.CHANGE_EXAMPLE)
    equal(change(folder / path, *rest, folder / target), (0, b"", ""), "the example of a change")
    example = guide.CHOICE_EXAMPLE.replace("wishes: corner larder\n#", "wishes: #0, #1\n#")
    check(example != guide.CHOICE_EXAMPLE and (folder / target).read_bytes() == written(example), "what the example changes")
    orders = fairs.orders_in(guide.FAIR_EXAMPLE.encode(), catalogue_of(guide.CHOICE_EXAMPLE))
    equal([(order.label, order.wishes) for order in orders], [(b"Miller", {0}), (b"Jones, Ann", {1}), (None, {0, 1})], "the example of a fair")
    found = second_answers(written(guide.CHOICE_EXAMPLE), [order.wishes for order in orders])
    equal(found, [kitchen.Selection({0}, {1}), kitchen.Selection({1}, {0}), kitchen.NoSelection(None)], "what comes of the example of a fair")


def tried(part, *arguments):
    """A part that does not come to its end has failed."""
    try:
        part(*arguments)
    except Exception:
        check(False, traceback.format_exc())


def main():
    with tempfile.TemporaryDirectory() as name:
        folder = pathlib.Path(name).resolve()
        for part in (samples, texts_with_faults, odd_texts, keyboards, warnings, orders, files_refused, explanations, changes, fairs_told):
            tried(part, folder)
        for part in (texts_in_order, amounts, comments, large_texts, blanks, names_by_the_second_program, there_and_back):
            tried(part)
        for part in (host_jobs, host_limits, answers, printed_junk, none_told, bounds, prices, prices_told, choice_rules, plan_rules):
            tried(part)
        for part in (meant, changes_tried, orders_listed, long_lists, fairs_tried):
            tried(part)
        for part in (host_rest, standard_input, own_text, terminals, closed_streams, rights, ended, usage, locales, helpful):
            tried(part, folder)
    for failure in failures:
        print(f"FAILED {failure}")
    print(f"{checks} checks" + (f", {len(failures)} failed" if failures else ""))
    return 1 if failures else 0


if __name__ == "__main__":
    sys.exit(main())
