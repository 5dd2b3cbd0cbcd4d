"""A job file as a text and as a table."""

from kitchen import CHOICE
from showroom.texts import FIELD, OPENING, Names
from showroom.rules import both_ways
from showroom.words import counted, decoded, money, printed, quoted, series

# ---- from a job to a text


def bare(name):
    """Whether a name can be in a text without quotation marks."""
    text = decoded(name)
    clear = text.isprintable() and text == text.strip(" ") and not set(text) & set('",#')
    return clear and not FIELD.fullmatch(text) and not OPENING.fullmatch(text)


def name_text(name):
    return decoded(name) if bare(name) else quoted(name)


def field_lines(indent, word, items):
    """A field and its list, in lines of up to 100 characters if the names allow it."""
    lines = [f"{indent}{word}:"]
    for number, item in enumerate(items, 1):
        item += "," if number < len(items) else ""
        if lines[-1].endswith(",") and len(lines[-1]) + 1 + len(item) > 100:
            lines.append(f"{indent}   ")
        lines[-1] += " " + item
    return lines


def reference_texts(job):
    """How a list refers to each article or step: by its name if that is clear, else by its number."""
    names = Names([record.name for record in job.records])
    clear = [bool(name) and len(names.found(name)) == 1 for name in names.names]
    return [name_text(name) if clear[number] else f"#{number}" for number, name in enumerate(names.names)]


def job_text(job):
    """The text of a job, in the one form that this tool gives it."""
    kind = job.kind
    names, references = [f"{kind.member} {number}" for number in range(job.members)], reference_texts(job)
    lines = [kind.word]
    if kind.horizon is not None:
        lines.append(f"horizon: {job.horizon}")
    lines += field_lines("", kind.members, names)
    for word, members in zip(kind.heads, job.sets):
        lines += field_lines("", word, [names[member] for member in sorted(members)])
    for record in job.records:
        lines += ["", f"{kind.record} {name_text(record.name)}" if record.name else kind.record]
        for word, members in zip(kind.fields, record.sets):
            source = references if word == "clashes" else names
            if members:
                lines += field_lines("  ", word, [source[member] for member in sorted(members)])
        lines += [f"  price: {money(record.price)}"] if record.price else []
    return "\n".join(lines) + "\n"


# ---- a job for people


def table(rows):
    """Rows of texts, each column as wide as its widest text; the first column is set to the right."""
    first, *widths = [max(map(len, column)) for column in zip(*rows)]
    lines = [[row[0].rjust(first), *(text.ljust(width) for text, width in zip(row[1:], widths))] for row in rows]
    return ["  ".join(line).rstrip() for line in lines]


def price_column(job):
    """The prices of the records, below a header and set to the right; None if no record has one."""
    if not any(record.price for record in job.records):
        return None
    column = ["price", *(money(record.price) if record.price else "-" for record in job.records)]
    return [text.rjust(max(map(len, column))) for text in column]


def job_table(job):
    """What a job file holds. Sets are shown by the numbers of their members."""

    def shown(members):
        return " ".join(map(str, sorted(members))) or "-"

    kind = job.kind
    counts = [counted(len(job.records), kind.record, kind.records), counted(job.members, kind.member, kind.members)]
    if kind.horizon is not None:
        counts.append("a horizon of " + counted(job.horizon, "round", "rounds"))
    lines = [f"A {kind.word} with {series(counts)}."]
    for word, members in zip(kind.heads, job.sets):
        what = kind.member if len(members) == 1 else kind.members
        numbers = series([str(member) for member in sorted(members)])
        lines.append(f"The {word} has the {what} {numbers}." if members else f"The {word} is empty.")
    clashes = both_ways(job.records) if kind is CHOICE else None
    rows = [["number", kind.record, *("clashes with" if word == "clashes" else word for word in kind.fields)]]
    for number, record in enumerate(job.records):
        sets = [record.sets[0], clashes[number]] if clashes else record.sets
        rows.append([str(number), printed(record.name) if record.name else "-", *map(shown, sets)])
    prices = price_column(job)
    rows = [[*row, price] for row, price in zip(rows, prices)] if prices else rows
    return "\n".join(lines + ([""] + table(rows) if job.records else [])) + "\n"


