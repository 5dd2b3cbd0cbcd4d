"""Tests of the pages of tools/job. Called as `python3 -B tests/page.py` in the repository's root; kitchen is needed.

The last line is `N checks`, and the status 0; or what failed is printed, and the status is 1.
Files are written to a temporary folder only.
"""

import pathlib
import random
import re
import subprocess
import sys
import tempfile
import xml.etree.ElementTree

sys.dont_write_bytecode = True
ROOT = pathlib.Path(__file__).resolve().parent.parent
TOOL = ROOT / "tools" / "job"
SAMPLES = sorted((ROOT / "jobs").glob("*.txt"))
sys.path[:0] = [str(ROOT / "tools"), str(ROOT / "host")]

import kitchen  # noqa: E402
from showroom.advising import Horizon, advice, advised  # noqa: E402
from showroom.asking import asked  # noqa: E402
from showroom.guide import CHOICE_EXAMPLE  # noqa: E402
from showroom.page import STYLE, element, page  # noqa: E402
from showroom.rules import both_ways  # noqa: E402
from showroom.telling import told  # noqa: E402
from showroom.texts import Text, stated  # noqa: E402
from showroom.words import called, money, names_of, printed, series  # noqa: E402

checks = 0
failures = []


def check(condition, label):
    global checks
    checks += 1
    if not condition:
        failures.append(label)


def equal(found, expected, label):
    check(found == expected, f"{label}\n  expected {expected!r}\n  found    {found!r}")


def run(*arguments, stdin=b""):
    """The status of a call of the tool, its output and its errors."""
    result = subprocess.run([sys.executable, "-B", str(TOOL), *map(str, arguments)], input=stdin, capture_output=True)
    return result.returncode, result.stdout, result.stderr.decode()


# ---- jobs that are made up

ODD = r"""choice
wishes: <b>bold</b>, a & b, "say \"hi\"", 🍳 pan, "\xFF\xFE", "x&#60;y", ●, 'single'
order: <b>bold</b>, a & b, "say \"hi\"", 🍳 pan, "\xFF\xFE"
article <script>alert(1)</script>
  wishes: <b>bold</b>, a & b
article "</style>\"><img src=x>"
  wishes: "say \"hi\"", 🍳 pan, "\xFF\xFE", ●
article "\x00\x1B\xFF\x0A"
  wishes: 🍳 pan
  clashes: <script>alert(1)</script>
article ✓ not chosen
  wishes: 🍳 pan
article "  two  blanks "
article
article same & same
article same & same
  clashes: ✓ not chosen
article &lt;&amp;]]>
"""
NO_PLAN = "fitting\nhorizon: 2\nfacts: a, <c>, moon & stars\nstart: a\ngoal: <c>, moon & stars\nstep\n gives: <c>\nstep\n"
MADE = {
    "odd": ODD,
    "empty": "choice\nwishes:\norder:\n",
    "no article": "choice\nwishes: a, b\norder: b\n",
    "no wish": "choice\nwishes:\norder:\narticle A\narticle B\n clashes: A\n",
    "no order": "choice\nwishes: a\norder:\narticle A\n wishes: a\n",
    "prices": "choice\nwishes: a, b\norder: a\narticle A\n wishes: a\n price: 12.5\narticle B\n clashes: A\narticle C\n price: -21474836.48\n",
    "prices in vain": "choice\nwishes: a\norder: a\narticle A\n price: 0.01\narticle B\n price: 0\n",
    "one wish": "choice\nwishes: a, b\norder: a, b\narticle A\n wishes: a\n",
    "two in vain": "choice\nwishes: a, b, c, d\norder: a, b, c, d\narticle A\n wishes: a\narticle B\n wishes: b\n clashes: A\n"
    "article C\n wishes: c\narticle D\n wishes: d\n clashes: C\n",
    "nothing": "fitting\nhorizon: 0\nfacts:\nstart:\ngoal:\n",
    "at the start": "fitting\nhorizon: 3\nfacts: a\nstart: a\ngoal: a\nstep Rest\n takes: a\n",
    "no plan": NO_PLAN,
    "most rounds": NO_PLAN.replace("horizon: 2", "horizon: 16"),
    "too short": (ROOT / "jobs" / "fitting.txt").read_text().replace("horizon: 10", "horizon: 5"),
    # the room is cleaned twice
    "twice": "fitting\nhorizon: 9\nfacts: clean, a, b\nstart:\ngoal: a, b, clean\nstep Clean\n gives: clean\n"
    "step A\n needs: clean\n gives: a\n takes: clean\nstep B\n needs: clean, a\n gives: b\n takes: clean\nstep C\n",
}


def large(clash):
    """A choice of 64 articles and 64 wishes with long names."""
    source = random.Random(clash)
    wishes = [f"wish {number}, which has a <long> name & a comma" for number in range(64)]
    lines = ["choice", "wishes: " + ", ".join(f'"{wish}"' for wish in wishes)]
    lines.append("order: " + ", ".join(f"#{number}" for number in range(0, 64, 2)))
    for number in range(64):
        lines.append(f"article {number} of them, <has> 32 bytes".ljust(40, "x")[:40])
        lines.append(" wishes: " + ", ".join(f"#{wish}" for wish in range(64) if source.random() < 0.25))
        lines.append(" clashes: " + ", ".join(f"#{other}" for other in range(number) if source.random() < clash))
    return "\n".join(lines)


def long_fitting():
    """32 steps, of which a plan takes 16 rounds."""
    lines = ["fitting", "horizon: 16", "facts: " + ", ".join(f"fact {number}" for number in range(32)), "start:"]
    lines.append("goal: " + ", ".join(f"fact {number}" for number in range(10, 24)))
    for number in range(32):
        lines += [f"step Work {number}", f" gives: #{number}"]
        lines += [f" needs: #{number - 1}"] if 0 < number < 16 else [f" needs: #{number - 16}"] if number else []
    return "\n".join(lines)


NAMES = [
    b"a", b"a", b"", b"<", b"&amp;", b'"', b"'", b"]]>", b"<!--", b"-->", b" a ", b"\t", b"\0", b"\xff", b"\xed\xa0\x80",
    "ü".encode(), "u\u0308".encode(), "\u202ea".encode(), "\ufeffa".encode(), "\ufffe".encode(), "🍳".encode(), b"x" * 32,
]


def random_text(source):
    """What a text of either kind may state, with names that are not easy to show."""

    def some(bound):
        share = source.choice((0, 0.1, 0.3, 1))
        return {number for number in range(bound) if source.random() < share}

    def name():
        return source.choice(NAMES) if source.random() < 0.7 else source.randbytes(source.randrange(33))

    count, members = source.choice((0, 1, 3, 9)), source.choice((0, 1, 3, 6))
    if source.random() < 0.5:
        priced = source.random() < 0.5
        price = lambda: source.choice((0, 5, -5, 12990, -(2**31), 2**31 - 1)) if priced else 0
        articles = [kitchen.article(some(members), some(number), name(), price()) for number in range(count)]
        job = kitchen.choice(members, some(members), articles)
    else:
        steps = [kitchen.step(some(members), some(members), some(members), name()) for _ in range(count)]
        job = kitchen.fitting(members, source.randrange(17), some(members), some(members), steps)
    return Text(job, [name() + b"%d" % member for member in range(members)], [])


# ---- reading a page


def plain(node):
    """The text of an element without its signs."""
    if node.get("role") == "img":
        return node.tail or ""
    return (node.text or "") + "".join(map(plain, node)) + (node.tail or "")


def held(node):
    """The text in an element without its signs, and the words of its signs."""
    text = (node.text or "") + "".join(map(plain, node))
    return text, [sign.get("aria-label") for sign in node.iter() if sign.get("role") == "img"]


def evened(text):
    return " ".join(text.split())


def lines_of(root):
    """Paragraphs, and rows of lists, as lines."""
    found = [held(node)[0] for node in root.iter("p")]
    for table in root.iter("table"):
        if table.get("class") == "list":
            found += [" ".join(held(cell)[0] for cell in row) for row in table.find("tbody")]
    return {evened(text) for text in found}


def prices_in(table):
    """The texts of the cells that have prices, by row; those of each row are as many as the headers that say so."""
    found = [[cell.text or "" for cell in row if cell.get("class") == "price"] for row in table.find("tbody")]
    heads = [cell.text for cell in table.find("thead/tr")].count("Price")
    check(all(len(row) == heads for row in found), f"a header for each column of prices: {found}, {heads}")
    return [text for row in found for text in row]


def tables(root):
    return {table.findtext("caption"): table for table in root.iter("table")}


def name_of(cell):
    """The name in a header, and whether it has the sign of what is chosen."""
    text, signs = held(cell)
    return (text[1:], True) if signs == ["chosen"] else (text, False) if not signs else (text, signs)


def grid(table, word):
    """The names of the columns and of the rows of a grid, which rows are chosen, the words, and where the sign is."""
    columns = [name_of(cell)[0] for cell in table.findall("thead/tr")[-1].findall("th") if cell.get("class") != "corner"]
    rows, chosen, words, marks = [], set(), [], set()
    for number, row in enumerate(table.find("tbody")):
        head, *cells = row
        name, taken = name_of(head)
        rows.append(name)
        chosen |= {number} if taken else set()
        words += [cell.text for cell in cells if cell.get("class") == "word"]
        for column, cell in enumerate(cell for cell in cells if cell.get("class") not in ("word", "price")):
            text, signs = held(cell)
            check(signs in ([], [word]) and not text, f"a cell of {name}: {text!r} {signs}")
            marks |= {(number, column)} if signs else set()
    return columns, rows, chosen, words, marks


# ---- what every page is

TAGS = set("html head meta title style body main div h1 h2 p section table caption colgroup thead tbody tr th td span".split())
ATTRIBUTES = set("lang charset name content http-equiv class style role aria-label tabindex scope span colspan rowspan".split())
FIXED = {
    "● the article carries the wish.",
    "✓ the article is chosen; ● the article carries the wish; in every, in some, in none: of the kitchens for this order.",
    "● the article carries the wish; in every, in some, in none: of the kitchens for this order.",
    "× the two articles exclude each other.",
    "✓ the article is chosen; × the two articles exclude each other.",
    "No two articles of the text exclude each other.",
    "The text has no article.",
    "The text has no step.",
    "● the step is done in this round.",
}


def header_width(table):
    """The columns of a header of one or two rows, if both have as many."""
    rows = table.findall("thead/tr")
    beside = sum(int(cell.get("rowspan", 1)) > 1 for cell in rows[0])
    widths = {sum(int(cell.get("colspan", 1)) for cell in rows[0]), *(beside + len(row) for row in rows[1:])}
    return widths.pop() if len(widths) == 1 else None


def form(label, source):
    """The elements of a page; none if it is not well formed."""
    try:
        root = xml.etree.ElementTree.fromstring(source)
    except (xml.etree.ElementTree.ParseError, UnicodeEncodeError) as error:
        check(False, f"{label}: not well formed: {error}")
        return xml.etree.ElementTree.Element("html")
    check(source.startswith("<!DOCTYPE html>\n<html lang=\"en\"><head><meta charset=\"utf-8\"/>"), f"{label}: how it begins")
    equal([meta.get("name") for meta in root.iter("meta")], [None, "viewport", None], f"{label}: the meta elements")
    equal({node.tag for node in root.iter()} - TAGS, set(), f"{label}: other elements")
    equal({name for node in root.iter() for name in node.attrib} - ATTRIBUTES, set(), f"{label}: other attributes")
    style = root.find("head/style")
    equal((style.text, list(style)), (STYLE, []), f"{label}: the style")
    for node in root.iter("table"):
        check(node.find("caption") is not None, f"{label}: a table without a caption")
        widths = {sum(int(cell.get("colspan", 1)) for cell in row) for row in node.find("tbody")}
        check(len(widths) < 2, f"{label}: rows of one width: {widths}")
        spans = sum(int(part.get("span")) for part in node.findall("colgroup"))
        check(not spans or widths == {spans} == {header_width(node)}, f"{label}: {spans} columns, {widths}")
    for node in root.iter("th"):
        check(node.get("scope") in ("row", "col", "colgroup"), f"{label}: a header without a scope")
    return root


def choice_page(label, text, answer, found, root):
    job, shown = text.job, tables(root)
    chosen = answer.articles if isinstance(answer, kitchen.Selection) else set()
    articles = [called(job, number) for number in range(len(job.records))]
    order = sorted(job.sets[0])
    wishes = order + sorted(set(range(job.members)) - job.sets[0])
    allowed = {series([printed(text.names[wish]) for wish in order]) or "no wish"}
    check({evened(line) for line in allowed} <= lines_of(root), f"{label}: the order")
    equal("Which article carries which wish" in shown, bool(articles), f"{label}: a grid of wishes")
    if "Which article carries which wish" in shown:
        columns, rows, marked, words, marks = grid(shown["Which article carries which wish"], "carried")
        equal(columns if wishes else [], [printed(text.names[wish]) for wish in wishes], f"{label}: the columns")
        equal((rows, marked), (articles, chosen), f"{label}: the articles, and those that are chosen")
        carried = {(u, c) for u, record in enumerate(job.records) for c, wish in enumerate(wishes) if wish in record.sets[0]}
        equal(marks, carried, f"{label}: what articles carry")
        standing = []
        if isinstance(answer, kitchen.Selection):
            sets = (("in every", found.every), ("in some", found.some), ("in none", found.none))
            word = {number: word for word, numbers in sets for number in numbers}
            standing = [word[number] for number in range(len(articles))]
        equal(words, standing, f"{label}: the standing of articles")
        prices = [money(record.price) if record.price else "" for record in job.records]
        shown_prices = prices_in(shown["Which article carries which wish"])
        equal(shown_prices, prices if any(prices) else [], f"{label}: the prices")
    clashes = {(u, v) for u, others in enumerate(both_ways(job.records)) for v in others}
    equal("Which articles exclude each other" in shown, bool(clashes), f"{label}: a grid of clashes")
    if "Which articles exclude each other" in shown:
        columns, rows, marked, _, marks = grid(shown["Which articles exclude each other"], "clash")
        equal((columns, rows, marked, marks), (articles, articles, chosen, clashes), f"{label}: the clashes")
    return allowed


def fitting_page(label, text, answer, found, root):
    job, shown = text.job, tables(root)
    allowed = {"horizon " + ("1 round" if job.horizon == 1 else f"{job.horizon} rounds")}
    for word, facts in zip(("start", "goal"), job.sets):
        allowed.add(f"{word} " + (series([printed(text.names[fact]) for fact in sorted(facts)]) or "no fact"))
    for number, record in enumerate(job.records):
        sets = ["; ".join(printed(text.names[fact]) for fact in sorted(facts)) for facts in record.sets]
        allowed.add(" ".join([called(job, number), *sets]))
    rounds = [] if answer is kitchen.NoPlan else answer.rounds
    equal("Which step is done in which round" in shown, bool(rounds), f"{label}: a chart")
    if "Which step is done in which round" in shown:
        columns, rows, marked, _, marks = grid(shown["Which step is done in which round"], "done")
        equal((columns, marked), ([str(number) for number in range(1, len(rounds) + 1)], set()), f"{label}: the rounds")
        done = [(called(job, step), number) for number, steps in enumerate(rounds) for step in steps]
        equal(sorted((rows[row], column) for row, column in marks), sorted(done), f"{label}: when steps are done")
        equal(sorted(set(rows)), sorted({step for step, _ in done}), f"{label}: the steps of the plan")
    unused = set(range(len(job.records))).difference(*rounds)
    if unused and answer is not kitchen.NoPlan:
        allowed.add(names_of(job, unused))
    check({evened(line) for line in allowed} <= lines_of(root), f"{label}: the text, and unused steps: {lines_of(root)}")
    return allowed


def whole_page(label, title, text, answer, found, lines, source):
    """A page has the answer first, all lines of the answer and the advice, what is in the text, and nothing more."""
    root = form(label, source)
    if not len(root):
        return
    equal((root.findtext("head/title"), root.findtext("body/main/h1")), (title, title), f"{label}: the title")
    first = next(root.iter("div"))
    sentences = [line for line in told(text, answer) if not line.startswith(" ")]
    equal([node.text for node in first], sentences, f"{label}: the answer comes first")
    none = isinstance(answer, kitchen.NoSelection) or answer is kitchen.NoPlan
    equal(first.get("class"), "answer none" if none else "answer", f"{label}: how the answer is shown")
    lines = {evened(line) for line in lines}
    equal(lines - lines_of(root), set(), f"{label}: lines of the answer or the advice that are missing")
    kind = choice_page if text.job.kind is kitchen.CHOICE else fitting_page
    allowed = {evened(line) for line in kind(label, text, answer, found, root)}
    equal(lines_of(root) - lines - FIXED - allowed, set(), f"{label}: lines that say more")


# ---- the tests


def pages(folder):
    """The page of each sample and of each job that is made up, from the tool; its status is that of ask."""
    made = MADE | {"large": large(0.1), "large, none": large(0.9), "long fitting": long_fitting()}
    for name, text in made.items():
        (folder / f"{name}.txt").write_text(text)
    statuses, places = set(), set()
    for path in [*SAMPLES, *(folder / f"{name}.txt" for name in made)]:
        content, target = path.read_bytes(), folder / "page.html"
        status, _, warnings = run("ask", path)
        equal(run("page", path, "-o", target), (status, b"", warnings), f"page {path.name}")
        source = target.read_bytes()
        target.unlink()
        equal(run("page", path), (status, source, warnings), f"{path.name} to standard output")
        text = stated(content)
        answer = asked(text.job)
        lines = run("advise", path)[1].decode().splitlines()
        whole_page(path.name, path.stem, text, answer, advice(text.job, answer), lines, source.decode())
        statuses.add((text.job.kind.word, status))
        places.add(getattr(answer, "place", None))
    equal(statuses, {("choice", 0), ("choice", 3), ("fitting", 0), ("fitting", 3)}, "each kind with each answer")
    equal(places, {None, 0, 1}, "orders that fall short, and orders without a kitchen that do not")


def falling_short(folder):
    """The page says whether counting the wishes rules the kitchen out, and nothing else is said of it."""
    path = folder / "larder.txt"
    path.write_text(CHOICE_EXAMPLE)
    for sample, start in (
        (path, "Counting the wishes already rules such a kitchen out, without a search: "),
        (ROOT / "jobs" / "impossible.txt", "Counting the wishes alone does not rule such a kitchen out: "),
    ):
        status, source, _ = run("page", sample)
        said = [node.text for node in form(sample.name, source.decode()).iter("p")]
        check(status == 3 and said[0].startswith("No such kitchen exists: ") and said[1].startswith(start), f"{sample.name}: {said}")
        equal(source.count(b"Counting"), 1, f"{sample.name}: it is said once")
    for order in ("corner larder", "no handles"):
        status, source, _ = run("page", path, "--order", order)
        equal((status, source.count(b"Counting")), (0, 0), f"with {order} there is a kitchen")


def change_of_one_price(folder):
    """What a change of one price can do is said once, after what else there is, if there are prices and a kitchen."""
    jobs = ROOT / "jobs"
    for path, told in (
        (jobs / "prices.txt", 1), (folder / "prices.txt", 1), (folder / "prices in vain.txt", 0), (jobs / "kitchen.txt", 0),
        (jobs / "impossible.txt", 0), (jobs / "fitting.txt", 0),
    ):  # fmt: skip
        root = form(path.name, run("page", path)[1].decode())
        said = [part for part in root.iter("p") if part.text.startswith("If the price of one article changes")]
        last = [part[-1] for part in root.iter("section") if part.findtext("h2") == "What else"]
        equal(len(said), told, f"{path}: a change of one price")
        check(not told or said == last, f"{path}: where it is said")


def names_of_any_bytes():
    source = random.Random(1)
    for number in range(40):
        text = random_text(source)
        answer = asked(text.job)
        found, lines = advice(text.job, answer), advised(text, answer)
        whole_page(f"random {number}", "any", text, answer, found, lines, page("any", text, answer, found))
    text = stated(b"choice\nwishes:\norder:\n")
    answer = asked(text.job)
    found = advice(text.job, answer)
    for title, shown in (("<i>&\"'", "<i>&\"'"), ("a\x01", '"a\\x01"'), ("\udcff", '"\\xFF"'), ("Küche 🍳", "Küche 🍳")):
        root = form(f"the title {title!r}", page(title, text, answer, found))
        equal((root.findtext("head/title"), root.findtext("body/main/h1")), (shown, shown), f"the title {title!r}")
    equal(element("p", "<", element("td"), title='"<', class_=None), '<p title="&quot;&lt;">&lt;<td></td></p>\n', "an element")


def horizons():
    """Whether a longer horizon would do may be left open."""
    text = stated(NO_PLAN.encode())
    for rounds, phrase in ((None, "was not answered within"), (0, "No plan takes 16 rounds or fewer"), (7, "A horizon of 7 rounds")):
        root = form(f"{rounds} rounds", page("plan", text, kitchen.NoPlan, Horizon({2}, rounds)))
        said = [node.text for node in root.iter("p")]
        equal(said[1:-1], ['Nothing gives "moon & stars", and it does not hold at the start.'], f"{rounds} rounds, ungiven")
        check(any(phrase in line for line in said[-1:]), f"{rounds} rounds: {said}")


def usage(folder):
    sample, target = ROOT / "jobs" / "impossible.txt", folder / "out.html"
    faulty = folder / "faulty.txt"
    faulty.write_text("choice\nwishes: a\norder: b\n")
    for arguments, status, phrase in (
        ((faulty,), 1, 'no wish is named "b"'),
        ((folder / "missing.txt",), 1, "No such file"),
        ((sample, "--order", "moon"), 1, 'no wish is named "moon"'),
        ((ROOT / "jobs" / "F.txt", "--order", "x"), 2, "is a fitting"),
    ):
        for there in (False, True):
            if there:
                target.write_text("as it was")
            found, output, errors = run("page", *arguments, "-o", target)
            check((found, output) == (status, b"") and phrase in errors, f"page {arguments}: {found} {errors}")
            check(target.read_text() == "as it was" if there else not target.exists(), f"page {arguments}: the file")
        target.unlink()
    equal(run("page", sample, "--order", "corner larder, no handles", "-o", target)[0], 0, "another order")
    said = [node.text for node in xml.etree.ElementTree.parse(target).getroot().iter("p")]
    check("corner larder and no handles" in said, f"another order: {said}")
    status, source, _ = run("page", "-", stdin=sample.read_bytes())
    equal((status, form("-", source.decode()).findtext("head/title")), (3, "standard input"), "a text from standard input")
    copy = folder / "copy.txt"
    copy.write_bytes(sample.read_bytes())
    status, _, errors = run("page", copy, "-o", copy)
    check(status == 1 and "is the text itself" in errors, f"the text itself: {errors}")
    equal(copy.read_bytes(), sample.read_bytes(), "the text is not overwritten")


def brightness(colour):
    """The relative luminance of a colour, as the guidelines for web content (WCAG) define it."""
    digits = colour if len(colour) == 6 else "".join(digit * 2 for digit in colour)
    parts = [int(digits[at : at + 2], 16) / 255 for at in (0, 2, 4)]
    red, green, blue = [part / 12.92 if part <= 0.04045 else ((part + 0.055) / 1.055) ** 2.4 for part in parts]
    return 0.2126 * red + 0.7152 * green + 0.0722 * blue


def style():
    """Nothing is loaded; there are rules for dark screens and for paper; text stands out on every ground that it has."""
    check(not re.search(r"url\(|@import|expression|<", STYLE), "the style loads nothing")
    check("@media screen and (prefers-color-scheme: dark)" in STYLE and "@media print" in STYLE, "dark, and paper")
    light, dark = [dict(re.findall(r"--(\w+): #(\w+);", part)) for part in re.findall(r":root \{(.*?)\}", STYLE, re.S)]
    equal(set(light), set(dark), "the colours of both")
    for kind, colours in (("light", light), ("dark", dark)):
        for text in ("ink", "soft", "yes", "no"):
            for ground in ("paper", "band", "chosen"):
                low, high = sorted((brightness(colours[text]), brightness(colours[ground])))
                ratio = (high + 0.05) / (low + 0.05)
                check(ratio >= 4.5, f"{kind}: {text} on {ground} has a contrast of {ratio:.1f}")


def main():
    with tempfile.TemporaryDirectory() as name:
        folder = pathlib.Path(name)
        pages(folder)
        falling_short(folder)
        change_of_one_price(folder)
        names_of_any_bytes()
        horizons()
        usage(folder)
        style()
    for failure in failures:
        print(f"FAILED {failure}")
    print(f"{checks} checks" + (f", {len(failures)} failed" if failures else ""))
    return 1 if failures else 0


if __name__ == "__main__":
    sys.exit(main())
