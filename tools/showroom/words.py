"""How names and numbers are put in a sentence."""

import unicodedata

LONGEST = 140  # characters of a name in a message; a quoted name of an article or step has fewer


def counted(count, one, several):
    return f"{count} {one if count == 1 else several}"


def money(cents):
    """An amount in cents as texts have it, with two decimals."""
    return f"{'-' if cents < 0 else ''}{abs(cents) // 100}.{abs(cents) % 100:02}"


def percent(rate):
    """A rate in hundredths of a percent, without decimals that are 0."""
    return money(rate).rstrip("0").rstrip(".")


def series(parts, word="and"):
    """Parts as they are put in a sentence; with semicolons if a part has a comma or that word itself."""
    if len(parts) < 2 or any("," in part or f" {word} " in part for part in parts):
        return "; ".join(parts)
    return ", ".join(parts[:-1]) + f" {word} " + parts[-1]


def decoded(name):
    """The text of a name's bytes. Bytes that are not UTF-8 become characters that do not print."""
    return name.decode("utf-8", "surrogateescape")


def quoted(name):
    """A name in quotation marks, as it may be in a text."""

    def shown(character):
        if character in '"\\':
            return "\\" + character
        if character.isprintable():
            return character
        return "".join(f"\\x{byte:02X}" for byte in character.encode("utf-8", "surrogateescape"))

    return '"' + "".join(map(shown, decoded(name))) + '"'


def cited(name):
    """A name in quotation marks in a message; a long one is cut."""
    return brief(quoted(name))


def brief(text):
    return text if len(text) <= LONGEST else text[:LONGEST] + " ..."


def clean(text):
    """Lines for a terminal: a question mark takes the place of what does not print."""
    return "".join(c if c.isprintable() or c == "\n" else "?" for c in text)


def look(name):
    """What names have in common that look the same. They need not be equal: only some characters have two writings there."""
    return unicodedata.normalize("NFC", decoded(name))


def printed(name):
    """A name as people read it: quoted only if something in it does not print."""
    return decoded(name) if decoded(name).isprintable() else quoted(name)


def called(job, number):
    """An article or step in a sentence: its name, and its number if there is no name or another looks the same."""
    name, plain = job.records[number].name, f"{job.kind.record} {number}"
    if not name:
        return plain
    alone = sum(look(record.name) == look(name) for record in job.records) == 1
    return printed(name) if alone else f"{printed(name)} ({plain})"


def names(job, numbers):
    """Articles or steps, in the order of their numbers."""
    return [called(job, number) for number in sorted(numbers)]


def names_of(job, numbers):
    return series(names(job, numbers))
