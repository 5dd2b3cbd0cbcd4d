"""What `tools/job --help` says."""

import textwrap

CHOICE_EXAMPLE = """\
choice
wishes: corner larder, no handles
order: corner larder, no handles
article Larder unit 60
  wishes: corner larder
# a clash is written at the later of the two articles
article Smooth front
  wishes: no handles
  clashes: Larder unit 60
"""
FITTING_EXAMPLE = """\
fitting
horizon: 4
facts: walls dry, units hung, worktop fitted
start: walls dry
goal: worktop fitted
step Hang the units
  needs: walls dry
  gives: units hung
step Fit the worktop
  needs: units hung
  gives: worktop fitted
"""
CHANGE_EXAMPLE = """\
tools/job change larder.job wishes "Larder unit 60" "#0, #1" -o new.job
"""
FAIR_EXAMPLE = """\
# orders of a fair
Miller: corner larder
"Jones, Ann": no handles
corner larder, no handles
"""
SUMMARY = """\
From a text to an answer: a kitchen for an order, or the rounds of its fitting, by the proved program `kitchen`.
"""


def indented(text):
    return textwrap.indent(text.rstrip(), "  ")


GUIDE = f"""\
A text for a choice, for example:

{indented(CHOICE_EXAMPLE)}

With that in larder.txt, `tools/job ask larder.txt` tells that no such kitchen exists, and `tools/job advise larder.txt`
why. A text for a fitting:

{indented(FITTING_EXAMPLE)}

jobs/ has longer ones.

Which kitchen comes:
  Of several kitchens the one with the smallest number comes, so what comes first in the text is preferred. Prices play no
  part in that. With --rate the cheapest comes as well; of several that cost the same, it is the one with the smallest number.

What a kitchen costs:
  `price: 129.90` in an article is its price; one of a trade-in is below zero, as `price: -40`. With `--rate 19` the cheapest
  kitchen is told, its total, and a tax of 19 percent on it, to the nearest cent; half a cent goes away from zero. An article
  without a price counts as 0. What lowers the total is taken, even if no wish asks for it. The proved library answers this:
  tools/library builds it, once, and a folder from `make dist` has it. Without --rate `ask` tells all as if there were no
  prices. If there are prices and a kitchen, `advise` also tells what a change of one price can do to the cheapest total.

How a text is written:
- The first line is `choice` or `fitting`. A choice goes on with `wishes:` and `order:`, then has its articles; a
  fitting goes on with `horizon:`, `facts:`, `start:` and `goal:`, then has its steps.
- `article NAME` or `article` opens an article, which has `wishes:`, `clashes:` and `price:`. `step NAME` or `step` opens
  a step, which has `needs:`, `gives:` and `takes:`. These fields may be left out, the others may not. Lines may be
  indented.
- Wishes, facts, articles and steps are numbered from 0, in the order of the text. `wishes:` and `facts:` of the head
  give names to wishes and facts; the job file has only their count.
- After a colon comes a list: names, or numbers as `#3`, with commas between them. An empty list is the empty set.
  A list that ends with a comma goes on in the next line.
- After `price:` comes an amount from -21474836.48 to 21474836.47, with a point and at most two decimals. A price of 0 is
  the same as none.
- An article names those above it that it clashes with: a clash is written once, at the later of the two.
- A name with `#`, a quotation mark, a character that does not print, or a blank at its end is quoted, and in a list
  also one with a comma: "Oven, 60 cm". Inside, \\" and \\\\ stand for the two characters themselves, and \\xE4 for the
  byte E4.
- A letter with a mark, such as ü, may be typed as one character or as two: a list finds the name either way, if all
  characters of the name are below U+0180 or from U+0300 to U+036F. A name with any other character, such as й or €, goes
  by its bytes.
- A comment is a line of its own that begins with `#` and has no digit after it.

How a job file is changed:
  `tools/job change` makes a job file from another, which stays as it is. The two differ in one thing: the order, or the
  wishes, the clashes or the name of one article. Prices stay as they are: to change one, change it in the text that
  `tools/job read` gives. The proved library makes the new file: tools/library builds it, once, and a folder from
  `make dist` has it. An example, on what `tools/job write larder.txt -o larder.job` makes of the first text above:

{indented(indented(CHANGE_EXAMPLE))}

  Lists and names are written as in a text; in a shell, `#` has to be quoted. A wish has its number, as `#1`, or the name
  that `tools/job read` gives it, `wish 1`; an article has its number, or its name in the file. If the list or the name is
  empty or left out, the order becomes empty, or the article is left without wishes, without clashes or without a name.
  `tools/job read new.job | tools/job ask -` asks for the kitchen of the new file.

How the orders of a fair are answered together:
  `tools/job fair` takes one catalogue, the text or the job file of a choice, and a text with an order in each line. It tells
  in a table what is chosen for each order and what is set aside, or that there is no such kitchen. The order of the catalogue
  itself plays no part, and a text need not have one. The proved library answers: tools/library builds it, once, and a folder
  from `make dist` has it. A list of orders for the first text above:

{indented(indented(FAIR_EXAMPLE))}

  With that in fair.orders, `tools/job fair larder.txt fair.orders` tells two kitchens, and that the third order has none.
  Lists, names and comments are written as in a text, but a list has to end in its line. A name with a colon after it is a
  label, which is told with the order; `Miller:` alone is an order without a wish. A name that no wish has is a fault, and then
  nothing is told. A number, as `#1`, may be that of a wish which the catalogue lacks: this is told of the order, and the others
  have their answers. If the catalogue is a job file, a wish has its number, or the name that `tools/job read` gives it.

With --json each text has one line:
  text, kind, and answer: "kitchen", "no such kitchen", "plan", "no such plan" or "error"; a kitchen has articles, each
  with number, name and wishes, and set_aside (and further, with --next; and cheapest, with --rate: its articles, which have
  a price, too, its total and its tax, all in cents); "no such kitchen" has falls_short, which is true if counting the
  wishes rules it out without a search; a plan has rounds; an error has a message. Of a fair each order has one line: text,
  line, label, order, and answer: "kitchen", "no such kitchen" or "no such wish"; a kitchen has articles and set_aside, and "no
  such wish" has lacks, the numbers that the catalogue lacks. If it cannot be answered, there is one line with an error.

Limits:
  a choice   64 articles, 64 wishes
  a fitting  32 steps, 32 facts, a horizon of 16 rounds
  a name     32 bytes of an article or step; a letter such as ä has 2
  a file     4,000,000 bytes, be it a text or a job file

Status:
  0  there is a kitchen, there is a plan; or what was asked for is done
  1  a text, a file or a change is at fault, or there is no answer: kitchen or the library is missing, was ended, or gave
     what cannot be its answer
  2  the tool was called in another way than it can be
  3  there is none: "no such kitchen", "no such plan"
  Of several texts: 1 if one failed, else 3 if one has none. Of a fair: 3 if an order has none, or names a wish that the
  catalogue lacks.
"""
