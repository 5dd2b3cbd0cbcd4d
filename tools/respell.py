#!/usr/bin/env python3
"""Brings the names of definitions and lemmas to snake case, once, after the kit's port.py: run at the top of the repository.

A word of specs/, proofs/ or a clause that is spelled `likeThis` becomes `like_this`; types, modules and facts keep their capitals. Where a lemma
would then have the name of the function that it speaks of, it has had `_lem` put after it first. The crate `unicode`, named as a library of the
kit, becomes `unicode_forms`.
"""
import pathlib
import re

# Names of the kit, and what only looks like a name.
KEPT = {"getD", "natAbs", "setAt"}
# Lemmas whose name would fall together with a definition's.
LEMMAS = {"as_it_was": "as_it_was_lem", "each_at": "each_at_lem", "first_short": "first_short_lem", "in_all": "in_all_lem"}
CAMEL = re.compile(r"(?<![\w\\])[a-z][a-z0-9_]*[A-Z]\w*")
LEMMA = re.compile(r"(?<![\w-])(%s)(?![\w-])" % "|".join(LEMMAS))


def snake(word):
    """`word` in snake case, if it begins in lower case and goes on in camel case."""
    return word if word in KEPT else re.sub("[A-Z]", lambda found: "_" + found[0].lower(), word)


def respelled(text, lemmas):
    """The text with its names in snake case."""
    text = LEMMA.sub(lambda found: LEMMAS[found[1]], text) if lemmas else text
    return CAMEL.sub(lambda found: snake(found[0]), text)


def rename_crate():
    """`unicode` under its new name: the folder, crates.txt, `use` lines and paths."""
    old, new = pathlib.Path("crates/unicode"), pathlib.Path("crates/unicode_forms")
    if old.exists():
        old.rename(new)
    listed = pathlib.Path("crates.txt")
    listed.write_text(re.sub(r"\bunicode\b", "unicode_forms", listed.read_text()))
    for path in sorted(pathlib.Path("crates").rglob("*")):
        if path.suffix in (".antt", ".rt") and "out" not in path.parts:
            text = path.read_text()
            new_text = re.sub(r"\bRattle\.unicode\b|\bunicode(?=::)", lambda found: found[0] + "_forms", text)
            if new_text != text:
                path.write_text(new_text)


def main():
    rename_crate()
    texts = {path: path.read_text() for path in sorted(pathlib.Path("crates").rglob("*")) if path.suffix in (".antt", ".rt") and "out" not in path.parts}
    # Run again it changes nothing: a definition may by now have the name that a lemma had.
    first = any(snake(word) != word for text in texts.values() for word in CAMEL.findall(text))
    for path, text in texts.items():
        new = respelled(text, first and path.suffix == ".antt")
        if new != text:
            path.write_text(new)
            print(path)


if __name__ == "__main__":
    main()
