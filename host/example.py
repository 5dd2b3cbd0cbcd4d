#!/usr/bin/env python3
"""Loads job files, chooses or plans, and prints the answer with the names of the articles or steps.

    tools/library
    tools/job write jobs/kitchen.txt -o target/kitchen.job
    host/example.py target/kitchen.job

Status 0 if each has an answer, 3 if one has none, 1 if one was refused or could not be read, 2 for misuse.
"""

import pathlib
import sys

sys.dont_write_bytecode = True
sys.path.insert(0, str(pathlib.Path(__file__).resolve().parent))

import kitchen  # noqa: E402


def names(library, file, members):
    found = [library.name(file, number).decode("utf-8", "replace") or f"number {number}" for number in sorted(members)]
    return "".join(f" {name};" for name in found)


def told(library, file):
    """The status and the lines of one file."""
    if file[:1] == bytes([kitchen.FITTING.byte]):
        answer = library.plan(file)
        if answer is kitchen.NoPlan:
            return 3, ["no such plan"]
        return 0, [f"round {k}:{names(library, file, steps)}" for k, steps in enumerate(answer.rounds, 1)]
    answer = library.choose(file)
    if isinstance(answer, kitchen.NoSelection):
        return 3, ["no such kitchen"]
    chosen, aside = (names(library, file, members) for members in answer)
    return 0, [f"chosen:{chosen}", f"set aside:{aside}"]


def main(paths):
    if not paths:
        print("usage: example.py JOB...", file=sys.stderr)
        return 2
    library, statuses = kitchen.Library(), set()
    for path in paths:
        try:
            status, lines = told(library, pathlib.Path(path).read_bytes())
        except kitchen.Refused as refusal:
            status, lines = 1, [str(refusal)]
        except OSError as trouble:
            status, lines = 1, []
            print(f"{path}: {trouble.strerror}", file=sys.stderr)
        print("".join(line + "\n" for line in lines), end="")
        statuses.add(status)
    return 1 if 1 in statuses else max(statuses)


if __name__ == "__main__":
    try:
        sys.exit(main(sys.argv[1:]))
    except kitchen.Unusable as trouble:
        sys.exit(str(trouble))
