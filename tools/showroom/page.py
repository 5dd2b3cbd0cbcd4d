"""An answer as one page for a browser: one file, without scripts, that loads nothing.

The page claims no more than the answer and the advice. All else on it is in the text.
"""

import html

from kitchen import CHOICE, NoPlan, Selection
from showroom.advising import conflict_told, horizon_told, rest_told, standings
from showroom.asking import there_is_none
from showroom.rules import both_ways
from showroom.telling import article_rows, change_told, has_prices, member_names, round_rows, told
from showroom.words import called, counted, money, names_of, printed, series

# Signs of a cell or a name, with the word that is read out.
CHOSEN, CARRIED, CLASH, DONE = ("✓", "chosen"), ("●", "carried"), ("×", "clash"), ("●", "done")
WIDE = 24  # columns; a grid with more is printed on a sheet that lies on its side

# Nothing may be loaded and nothing may run, even if some text were not escaped.
POLICY = "default-src 'none'; style-src 'unsafe-inline'"
STYLE = """
:root { color-scheme: light dark; --paper: #fff; --ink: #1b1f1d; --soft: #59615d; --line: #ccd4d0; --band: #f1f4f2;
  --yes: #12603d; --chosen: #dff1e6; --no: #a2231b; }
@media screen and (prefers-color-scheme: dark) { :root { --paper: #151917; --ink: #e8edea; --soft: #a9b3ae;
  --line: #3d4642; --band: #202623; --yes: #7edba9; --chosen: #1c3b2b; --no: #ff9d92; } }
* { box-sizing: border-box; }
body { margin: 0 auto; padding: 1rem; max-width: 80rem; background: var(--paper); color: var(--ink);
  font: 1rem/1.45 system-ui, sans-serif; overflow-wrap: anywhere; }
h1 { margin: 0 0 .75rem; font-size: 1.5rem; line-height: 1.2; }
h2 { margin: 2rem 0 .5rem; font-size: 1.15rem; }
p, .list { max-width: 60rem; }
p { margin: .5rem 0; }
p, th, td { white-space: pre-wrap; }
.answer { margin-bottom: 1rem; padding: .25rem 1rem; border-left: .4rem solid var(--yes); background: var(--band); }
.answer.none { border-color: var(--no); }
.answer p { font-size: 1.1rem; font-weight: 600; }
.answer p + p { font-size: 1rem; font-weight: 400; }
.key { color: var(--soft); font-size: .9rem; }
.box { overflow: auto; width: fit-content; max-width: 100%; max-height: max(85vh, 32rem);
  border: 1px solid var(--line); border-radius: .3rem; }
table { border-collapse: separate; border-spacing: 0; font-size: .9rem; line-height: 1.3; }
caption { padding: .4rem .5rem; color: var(--soft); text-align: left; }
th, td { padding: .3rem .5rem; border-top: 1px solid var(--line); text-align: left; vertical-align: top; font-weight: 400; }
thead th { background: var(--band); color: var(--soft); vertical-align: bottom; }
.list th { min-width: min(9rem, 30vw); }
.list tbody th { font-weight: 600; }
.list td { min-width: 8rem; }
.grid thead { position: sticky; top: 0; z-index: 2; }
.grid .corner, th[scope=row] { position: sticky; left: 0; z-index: 1; }
th[scope=row] { background: var(--paper); }
.grid th[scope=row] { border-right: 1px solid var(--line); }
.grid th[scope=row] > span { display: block; width: max-content; min-width: 5rem; max-width: min(20rem, 38vw); }
.grid td { min-width: 1.9rem; padding: .2rem; border-right: 1px solid var(--line); color: var(--soft);
  text-align: center; vertical-align: middle; }
.grid td.word { padding: .2rem .5rem; text-align: left; white-space: nowrap; }
.grid td.price { padding: .2rem .5rem; text-align: right; white-space: nowrap; }
.grid thead th { border-right: 1px solid var(--line); overflow-wrap: normal; }
.grid thead [scope=colgroup] { width: 0; }
.grid tr > :last-child { border-right: 0; }
.grid tr + tr > [scope=col], .turned { text-align: center; }
.grid thead .turned { padding: .4rem .2rem; }
.turned > span { display: inline-block; max-height: 15rem; writing-mode: vertical-rl; text-orientation: sideways;
  transform: rotate(180deg); text-align: left; vertical-align: bottom; overflow-wrap: anywhere; }
.grid .turned.ordered, .grid .turned.chosen { color: var(--ink); }
.grid th.chosen, .grid .chosen th { font-weight: 700; }
.grid .chosen th, .grid .chosen td, .grid td.done { background: var(--chosen); }
.grid tbody tr:hover th, .grid tbody tr:hover td { background: var(--band); }
.grid colgroup.other { background: var(--band); }
.grid td.clash { color: var(--no); font-weight: 700; }
.grid .chosen td.ordered, .grid td.done, .grid .chosen > span > [role=img] { color: var(--yes); }
.grid td.self { background: var(--line); }
@page { margin: 12mm; }
@page wide { size: landscape; }
@media print {
  body { max-width: none; padding: 0; font-size: 10pt; }
  h2, .key { break-after: avoid; }
  tr, .key, .box:has(.grid) { break-inside: avoid; }
  .box { overflow: visible; max-height: none; border: 0; }
  section:has(.wide) { page: wide; }
  .grid { font-size: min(9pt, calc((184mm - .27mm * var(--columns)) / (1.8 * var(--columns) + 27))); }
  .grid.wide { font-size: min(9pt, calc((255mm - .27mm * var(--columns)) / (1.4 * var(--columns) + 27))); }
  .grid thead, .grid .corner, th[scope=row] { position: static; }
  .grid th, .grid td, .grid td.word, .grid td.price, .grid thead .turned { min-width: 0; padding: .2em; }
  .grid.wide td, .grid.wide thead .turned { padding: .1em; }
  .grid th[scope=row] > span { max-width: 18em; }
  .turned > span { max-height: 48mm; line-height: 1.1; }
  .wide .turned > span { max-height: 40mm; }
}
"""


# ---- elements


class Markup(str):
    """Text that is HTML already. Any other text is escaped when it comes into an element."""


def inside(parts):
    return Markup("".join(part if isinstance(part, Markup) else html.escape(part) for part in parts))


def element(tag, *parts, **attributes):
    """An attribute that is None is left out. `class_` means class, and `aria_label` means aria-label."""
    given = [(name.rstrip("_").replace("_", "-"), str(value)) for name, value in attributes.items() if value is not None]
    start = tag + "".join(f' {name}="{html.escape(value)}"' for name, value in given)
    end = "\n" if tag in ("h1", "h2", "p", "caption", "tr") else ""
    return Markup(f"<{start}/>" if tag == "meta" else f"<{start}>{inside(parts)}</{tag}>{end}")


def paragraphs(lines):
    """The lines that are sentences. Those of a list, which are indented, are a table here."""
    return inside(element("p", line) for line in lines if not line.startswith(" "))


def section(title, *parts):
    return element("section", element("h2", title), *parts)


def mark(sign):
    return element("span", sign[0], role="img", aria_label=sign[1])


def key(*lines):
    """What the signs of a table mean."""
    return element("p", "; ".join(lines) + ".", class_="key")


# ---- tables


def boxed(caption, *parts, **attributes):
    """A table in a box that scrolls by itself."""
    table = element("table", element("caption", caption), *parts, **attributes)
    return element("div", table, class_="box", role="region", aria_label=caption, tabindex="0")


def texts_table(caption, rows, heads=()):
    """Rows of texts; the first of each says what the others are about."""
    head = element("thead", element("tr", *(element("th", text, scope="col") for text in heads))) if heads else ""
    lines = [element("tr", element("th", row[0], scope="row"), *(element("td", text) for text in row[1:])) for row in rows]
    return boxed(caption, head, element("tbody", *lines), class_="list")


def grid(caption, groups, head, rows):
    """A table of signs. The groups of its columns after the names are pairs of a count and a kind."""
    count = sum(count for count, _ in groups)
    columns = [element("colgroup", span=count, class_=kind) for count, kind in [(1, None), *groups] if count]
    kind, style = "grid wide" if count > WIDE else "grid", f"--columns: {count}"
    return boxed(caption, *columns, element("thead", *head), element("tbody", *rows), class_=kind, style=style)


def corner(title, depth=None):
    """The header above the names of the rows, beside `depth` header rows if there are several."""
    return element("th", title, scope="col", rowspan=depth, class_="corner")


def group(title, count):
    """The header above `count` columns, if there are any."""
    return [element("th", title, scope="colgroup", colspan=count)] if count else []


def name_cell(name, chosen, scope, kind=None):
    parts = [mark(CHOSEN), " ", name] if chosen else [name]
    return element("th", element("span", *parts), scope=scope, class_=kind)


def cell(sign, there, kind):
    return element("td", mark(sign), class_=kind) if there else element("td")


def grid_row(name, cells, chosen=False):
    return element("tr", name_cell(name, chosen, "row"), *cells, class_="chosen" if chosen else None)


# ---- choice


def chosen_table(text, articles):
    rows = article_rows(text, articles)
    return texts_table("The articles, and what they carry of the order", rows) if rows else ""


def articles_section(text, advice):
    table = texts_table("The articles, by the kitchens for this order", standings(text, advice))
    return section("What else", table, paragraphs(change_told(text)))


def conflict_section(text, advice):
    sentences = paragraphs(conflict_told(text, advice))
    if len(advice.part) == 1:
        return section("Why not", sentences)
    rests = texts_table("Kitchens for the others of these wishes", [rest_told(text, rest) for rest in advice.rests])
    return section("Why not", sentences, rests)


def standing(advice, number):
    """Of an article: in which kitchens for the order it is."""
    word = "in every" if number in advice.every else "in none" if number in advice.none else "in some"
    return element("td", word, class_="word")


def price_cell(record):
    return element("td", money(record.price) if record.price else "", class_="price")


def wish_grid(text, chosen, advice):
    """A row an article, a column a wish, those of the order first. The standing of articles is said if there is advice, and
    their prices if the text has any."""
    job, order = text.job, sorted(text.job.sets[0])
    others = sorted(set(range(job.members)) - job.sets[0])
    wishes = [(wish, "ordered") for wish in order] + [(wish, "other") for wish in others]
    depth = 2 if wishes else None
    priced = has_prices(job)
    words = [element("th", "In kitchens", scope="col", rowspan=depth)] if advice else []
    words += [element("th", "Price", scope="col", rowspan=depth)] if priced else []
    above = [corner("Article", depth), *words, *group("Wishes of the order", len(order)), *group("Other wishes", len(others))]
    below = [name_cell(printed(text.names[wish]), False, "col", f"turned {kind}") for wish, kind in wishes]
    rows = []
    for number, record in enumerate(job.records):
        cells = [standing(advice, number)] if advice else []
        cells += [price_cell(record)] if priced else []
        cells += [cell(CARRIED, wish in record.sets[0], kind) for wish, kind in wishes]
        rows.append(grid_row(called(job, number), cells, number in chosen))
    head = [element("tr", *above), *([element("tr", *below)] if below else [])]
    groups = [(len(words), None), (len(order), None), (len(others), "other")]
    return grid("Which article carries which wish", groups, head, rows)


def clash_grid(text, chosen):
    """A row an article, a column an article."""
    clashes, numbers = both_ways(text.job.records), range(len(text.job.records))
    head, rows = [corner("Article")], []
    for number in numbers:
        name, taken = called(text.job, number), number in chosen
        cells = [cell(CLASH, other in clashes[number], "clash") for other in numbers]
        cells[number] = element("td", class_="self")
        rows.append(grid_row(name, cells, taken))
        head.append(name_cell(name, taken, "col", "turned chosen" if taken else "turned"))
    return grid("Which articles exclude each other", [(len(numbers), None)], [element("tr", *head)], rows)


def choice_parts(text, answer, advice):
    found = isinstance(answer, Selection)
    chosen = answer.articles if found else set()
    yield chosen_table(text, chosen)
    yield articles_section(text, advice) if found else conflict_section(text, advice)
    yield section("The order", element("p", series(member_names(text, text.job.sets[0])) or "no wish"))
    if not text.job.records:
        yield section("The articles", element("p", "The text has no article."))
        return
    signs = ["✓ the article is chosen"] if chosen else []
    words = ["in every, in some, in none: of the kitchens for this order"] if found else []
    wishes = wish_grid(text, chosen, advice if found else None)
    yield section("Articles and wishes", key(*signs, "● the article carries the wish", *words), wishes)
    clashes = element("p", "No two articles of the text exclude each other.")
    if any(record.sets[1] for record in text.job.records):
        clashes = inside([key(*signs, "× the two articles exclude each other"), clash_grid(text, chosen)])
    yield section("Clashes", clashes)


# ---- fitting


def round_chart(text, rounds):
    """A row a step of the plan, those of the first round first; a column a round."""
    steps = list(dict.fromkeys(step for round_steps in rounds for step in sorted(round_steps)))
    head = [element("tr", corner("Step", 2), *group("Round", len(rounds)))]
    head.append(element("tr", *(element("th", str(number), scope="col") for number in range(1, len(rounds) + 1))))
    rows = [grid_row(called(text.job, step), [cell(DONE, step in done, "done") for done in rounds]) for step in steps]
    return grid("Which step is done in which round", [(len(rounds), None)], head, rows)


def plan_parts(text, rounds):
    if rounds:
        yield texts_table("The rounds", round_rows(text, rounds))
        yield section("Steps and rounds", key("● the step is done in this round"), round_chart(text, rounds))
    unused = set(range(len(text.job.records))).difference(*rounds)
    if unused:
        yield section("Steps that this plan does not use", element("p", names_of(text.job, unused)))


def fitting_parts(text, answer, advice):
    if answer is NoPlan:
        yield section("Why not", paragraphs(horizon_told(text, advice)))
    else:
        yield from plan_parts(text, answer.rounds)
    job = text.job
    heads = [(word, series(member_names(text, facts)) or "no fact") for word, facts in zip(job.kind.heads, job.sets)]
    heads.append(("horizon", counted(job.horizon, "round", "rounds")))
    yield section("The fitting", texts_table("Start, goal and horizon", heads))
    rows = [
        (called(job, number), *("; ".join(member_names(text, facts)) for facts in record.sets))
        for number, record in enumerate(job.records)
    ]
    caption = "What each step needs, gives and takes"
    steps = texts_table(caption, rows, (job.kind.record, *job.kind.fields)) if rows else element("p", "The text has no step.")
    yield section("The steps", steps)


# ---- the page


def page(title, text, answer, advice):
    title = printed(title.encode("utf-8", "surrogateescape"))
    kind = "answer none" if there_is_none(answer) else "answer"
    parts = choice_parts if text.job.kind is CHOICE else fitting_parts
    head = [
        element("meta", charset="utf-8"),
        element("meta", name="viewport", content="width=device-width, initial-scale=1"),
        element("meta", http_equiv="Content-Security-Policy", content=POLICY),
        element("title", title),
        element("style", Markup(STYLE)),
    ]
    first = element("div", paragraphs(told(text, answer)), class_=kind)
    main = element("main", element("h1", title), first, *parts(text, answer, advice))
    return "<!DOCTYPE html>\n" + element("html", element("head", *head), element("body", main), lang="en") + "\n"
