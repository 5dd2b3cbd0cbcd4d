"""What the files of the project say without their comments: a name in a comment is no declaration."""
import re

QUOTED = r'b?"(?:\\.|[^"\\])*"'
# A comment of antt begins with `--` where a name may begin, or is between `{-` and `-}`, one in another.
IN_ANTT = re.compile(rf'{QUOTED}|(?<![^\s(){{}}.;,@])--[^\n]*|\{{-|-\}}')
# Rattle and C have the same comments.
IN_RATTLE = re.compile(rf"{QUOTED}|b?'(?:\\.|[^'\\\n])'|//[^\n]*|/\*.*?(?:\*/|\Z)", re.S)


def antt(text):
    """A file of definitions or proofs without its comments."""
    kept, depth, at = [], 0, 0
    for found in IN_ANTT.finditer(text):
        if not depth:
            kept.append(text[at : found.start()])
        at = found.start() if not depth and found[0][0] in 'b"' else found.end()
        if found[0] == "{-":
            depth += 1
        elif found[0] == "-}":
            depth = max(0, depth - 1)
    return "".join([*kept, "" if depth else text[at:]])


def rattle(text):
    """A file of code without its comments; of C, too."""
    return IN_RATTLE.sub(lambda found: " " if found[0].startswith("/") else found[0], text)
