"""The commands of `tools/job`, and its status."""

import argparse
import contextlib
import json
import os
import re
import shlex
import signal
import sys

from kitchen import CHOICE, FITTING, VERSION, Reader, Refused, written
from showroom import advising, changing, fairs, telling
from showroom.asking import Failed, asked, bound, cheapest, further, there_is_none
from showroom.files import job_table, job_text
from showroom.guide import GUIDE, SUMMARY
from showroom.page import page
from showroom.reasons import REASONS, explained
from showroom.texts import NUMBER, Faulty, kind_of, remarks, stated
from showroom.words import brief, clean, printed

DONE, FAILED, MISUSED, NONE = 0, 1, 2, 3
STANDARD = "-"  # means standard input, and after -o standard output
LARGEST = 4_000_000  # bytes of a text or job file; none comes near it
RATE, HIGHEST_RATE = re.compile(r"([0-9]{1,3})(?:\.([0-9]{1,2}))?"), 10_000  # in percent, and in hundredths of a percent


class Trouble(Exception):
    """A text, a file or a run is at fault; the user has to know it."""


class Misuse(Exception):
    """The tool was called in another way than it can be."""


# ---- what is read and written


@contextlib.contextmanager
def naming(what):
    """What goes wrong with a file is told with its name. If a pipe has no reader any more, nothing is told."""
    try:
        yield
    except BrokenPipeError:
        raise
    except OSError as trouble:
        raise Trouble(f"{what}: {trouble.strerror or trouble}") from None


def contents(path):
    if path == STANDARD and sys.stdin is None:
        raise Trouble("standard input is closed")
    with naming(shown(path)), open(0 if path == STANDARD else path, "rb", closefd=path != STANDARD) as file:
        found = file.read(LARGEST + 1)
    if len(found) > LARGEST:
        raise Trouble(f"{shown(path)}: it has more than {LARGEST:,} bytes, so it is neither a text nor a job file")
    return found


def shown(path):
    """A path in a message."""
    return "standard input" if path == STANDARD else printed(os.fsencode(path)) or '""'


def emit(output):
    """Writes to standard output. It is closed here, so that what cannot be written is known."""
    with naming("standard output"), open(1, "wb", closefd=False) as out:
        out.write(output)


def note(message):
    """Writes to standard error. If that cannot be written, the status says what there is to say."""
    with contextlib.suppress(OSError):
        if sys.stderr is not None:
            with open(2, "wb", closefd=False) as out:
                out.write(clean(message).encode())


def put(output, target, source, what="text"):
    """Writes to a file, or to standard output if none is named. The text or file itself is not overwritten."""
    if target is None:
        return emit(output)
    with naming(shown(target)):
        if os.path.exists(target) and os.path.samestat(os.stat(0 if source == STANDARD else source), os.stat(target)):
            raise Trouble(f"{shown(target)} is the {what} itself; expected another file after -o")
        with open(target, "wb") as out:
            out.write(output)


def read_text(path, text, order=None):
    """What a text states. Its warnings are told."""
    try:
        found = stated(text, order)
    except Faulty as faulty:
        raise Trouble(remarks(shown(path), text, faulty.faults)) from None
    note(remarks(shown(path), text, found.warnings, "warning: "))
    return found


def accepted(path):
    """The job that a file states. A refusal is put into words."""
    reader = Reader(contents(path))
    if reader.refusal:
        raise refused(path, reader.refusal, explained(reader.refusal.number, reader.refusal.place, reader))
    return reader.job


def refused(path, refusal, reason):
    """A refusal, with its reason in words."""
    return Trouble(f"{shown(path)}: {refusal}\n{reason}")


def not_for_terminal(options):
    """A job file is not written to a terminal."""
    if options.output is None and sys.stdout is not None and sys.stdout.isatty():
        raise Misuse("a job file is no text for a terminal; expected -o FILE or a pipe")


@contextlib.contextmanager
def progress(count):
    """Gives what tells how many orders of a long list are done, in one line that is cleared in the end; only at a terminal."""
    shows = count > fairs.SHARE and sys.stderr is not None and sys.stderr.isatty()

    def tell(line):
        with contextlib.suppress(OSError), open(2, "wb", closefd=False) as out:
            out.write(f"\r{line:40}\r".encode())

    try:
        yield lambda done: tell(f"{done:,} of {count:,} orders") if shows else None
    finally:
        if shows:
            tell("")


def lines_of(lines):
    return clean("".join(line + "\n" for line in lines)).encode()


def status_of(answer):
    return NONE if there_is_none(answer) else DONE


# ---- commands


def suits(path, text, options, *words):
    """A fitting has no order, no further kitchens, no prices and no wishes."""
    for word in words:
        if getattr(options, word) is not None and kind_of(text) is FITTING:
            raise Misuse(f"{shown(path)} is a fitting, which --{word} does not go with")
    return text


def one_text(options, *words):
    """What the one text of a command states. Neither --order nor the options with these words go with a fitting."""
    return read_text(options.text, suits(options.text, contents(options.text), options, "order", *words), options.order)


def ask_one(path, text, options):
    """The status, and what is told of one text."""
    if isinstance(text, Exception):
        raise text
    text = read_text(path, text, options.order)
    answer = asked(text.job)
    following = priced = None
    if options.next is not None and not there_is_none(answer):
        following = further(text.job, answer, options.next)
    if options.rate is not None and not there_is_none(answer):
        priced = cheapest(text.job, options.rate, answer)
    if options.json:
        return status_of(answer), json_line(path, telling.data(text, answer, following, priced))
    lines = telling.told(text, answer)
    if there_is_none(answer):
        lines.append(f"`{advise_command(path, options.order)}` says why.")
    elif text.job.kind is CHOICE:
        lines += telling.aside_told(text, answer.aside)
    lines += [] if following is None else telling.further_told(text, following)
    lines += [] if priced is None else telling.cheapest_told(text, options.rate, priced)
    return status_of(answer), lines_of(lines)


def advise_command(path, order):
    return shlex.join(["tools/job", "advise", path, *([] if order is None else ["--order", order])])


def json_line(path, found):
    """The text is named as it was in the call."""
    named = shown(path) if path == STANDARD else path
    return (json.dumps({"text": named} | found, ensure_ascii=False) + "\n").encode("utf-8", "replace")


def all_texts(options):
    """All texts are read before one is answered, so that misuse comes first. What cannot be read comes as its error."""
    if options.texts.count(STANDARD) > 1:
        raise Misuse("standard input can be read only once")
    for path in options.texts:
        try:
            yield path, suits(path, contents(path), options, "order", "next", "rate")
        except Trouble as trouble:
            yield path, trouble


def ask(options):
    """Each text by itself: one that fails does not keep the others from their answers."""
    statuses = set()
    for number, (path, text) in enumerate(list(all_texts(options))):
        if len(options.texts) > 1 and not options.json:
            emit(lines_of(([""] if number else []) + [shown(path)]))
        try:
            status, output = ask_one(path, text, options)
        except (Trouble, Failed) as trouble:
            status, output = FAILED, b""
            message = words_of(trouble, path)
            note(message)
            if options.json:
                output = json_line(path, {"answer": "error", "message": message.rstrip()})
        emit(output)
        statuses.add(status)
    return FAILED if FAILED in statuses else max(statuses)


def advise(options):
    text = one_text(options, "bound")
    far = bound(text.job) if options.bound else None  # before the search for an answer
    answer = asked(text.job)
    emit(lines_of(advising.advised(text, answer, far)))
    return status_of(answer)


def draw(options):
    text = one_text(options)
    answer = asked(text.job)
    title = os.path.splitext(os.path.basename(shown(options.text)))[0]
    put(page(title, text, answer, advising.advice(text.job, answer)).encode("utf-8", "replace"), options.output, options.text)
    return status_of(answer)


def write(options):
    not_for_terminal(options)
    put(written(one_text(options).job), options.output, options.text)
    return DONE


def read(options):
    emit(job_text(accepted(options.file)).encode())
    return DONE


def show(options):
    emit(job_table(accepted(options.file)).encode())
    return DONE


def change(options):
    not_for_terminal(options)
    file = contents(options.file)
    try:
        new = changing.saved(file, changing.wanted(file, options.what, options.article, options.value))
    except changing.Beyond as beyond:
        raise Misuse(str(beyond)) from None
    except Faulty as faulty:
        raise Trouble(remarks(shown(options.file), b"", faulty.faults)) from None
    except Refused as refusal:
        raise refused(options.file, refusal, changing.reason(file, refusal)) from None
    put(new, options.output, options.file, "job file")
    return DONE


def catalogue_at(path):
    """The catalogue of a fair, from a text or from a job file. A text need not have an order of its own."""
    found = contents(path)
    if fairs.is_job_file(found):
        return fairs.from_file(found)
    if kind_of(found) is FITTING:
        raise Misuse(f"{shown(path)} is a fitting, which has no orders; expected a choice")
    return fairs.from_text(read_text(path, found, ""))


def orders_at(path, catalogue):
    """The orders of a list. If the catalogue is refused, there is nothing to look names up in, and the refusal is told."""
    text = contents(path)
    try:
        return fairs.orders_in(text, catalogue) if catalogue.text else []
    except Faulty as faulty:
        raise Trouble(remarks(shown(path), text, faulty.faults)) from None


def all_orders(options):
    """The status, and what is told of all orders of a list together."""
    catalogue = catalogue_at(options.catalogue)
    orders = orders_at(options.orders, catalogue)
    try:
        with progress(len(orders)) as done:
            answers = fairs.asked(catalogue, orders, done)
    except Refused as refusal:
        reason = explained(refusal.number, refusal.place, Reader(catalogue.file))
        raise refused(options.catalogue, refusal, reason) from None
    chosen, none, _ = fairs.counts(answers)
    status = DONE if chosen == len(orders) else NONE
    if options.json:
        data = (fairs.data(catalogue, order, answer) for order, answer in zip(orders, answers))
        return status, b"".join(json_line(options.orders, found) for found in data)
    lines = fairs.told(catalogue, orders, answers)
    if none and catalogue.named:
        lines.append(f"`{advise_command(options.catalogue, 'LIST')}` says why there is none.")
    return status, lines_of(lines)


def fair(options):
    if options.catalogue == options.orders == STANDARD:
        raise Misuse("standard input can be read only once")
    try:
        status, output = all_orders(options)
    except (Trouble, Failed) as trouble:
        if options.json:
            emit(json_line(options.orders, {"answer": "error", "message": words_of(trouble).rstrip()}))
        raise
    emit(output)
    return status


def explain(options):
    number, place, file = options.number, options.place, options.file
    if not NUMBER.fullmatch(number) or int(number) not in REASONS:
        raise Trouble(f"{brief(number)!r} is no reason; expected a number from 1 to {len(REASONS)}")
    if place is not None and not NUMBER.fullmatch(place):
        if file is not None:
            raise Misuse(f"{brief(place)!r} is no place; expected a number")
        place, file = None, place
    place = None if place is None else int(place)
    emit(explained(int(number), place, None if file is None else Reader(contents(file))).encode())
    return DONE


# ---- arguments


class Arguments(argparse.ArgumentParser):
    """Help goes out as all else does, and what cannot be taken is misuse."""

    def _print_message(self, message, file=None):
        emit(message.encode())

    def error(self, message):
        raise Misuse(f"{message}\n{self.format_usage().rstrip()}")


def in_utf8(text):
    """A list or a name in UTF-8, whatever the locale took its bytes for."""
    try:
        return os.fsencode(text).decode()
    except UnicodeDecodeError:
        raise argparse.ArgumentTypeError("it is not in UTF-8; expected UTF-8") from None


def target(path):
    """The file after -o; None for standard output."""
    return None if path == STANDARD else path


def several(text):
    """A count of kitchens."""
    if not NUMBER.fullmatch(text) or int(text) == 0:
        raise argparse.ArgumentTypeError(f"{text!r} is no count; expected 1 or more")
    return int(text)


def percentage(text):
    """A tax rate, in hundredths of a percent."""
    found = RATE.fullmatch(text)
    rate = int(found[1] + (found[2] or "").ljust(2, "0")) if found else None
    if rate is None or rate > HIGHEST_RATE:
        raise argparse.ArgumentTypeError(f"{text!r} is no rate; expected percent from 0 to 100, with at most two decimals")
    return rate


def parser():
    form = argparse.RawDescriptionHelpFormatter
    top = Arguments("tools/job", description=SUMMARY, epilog=GUIDE, formatter_class=form, allow_abbrev=False)
    top.add_argument("--version", action="version", version=f"tools/job, for interface {VERSION} of include/kitchen.h")
    commands = top.add_subparsers(metavar="COMMAND", required=True)

    def command(name, action, sentence):
        part = commands.add_parser(name, help=sentence, description=sentence, allow_abbrev=False)
        part.set_defaults(action=action)
        return part

    def takes_text(part):
        part.add_argument("text", metavar="TEXT", help="the text, - for standard input")
        takes_order(part, "text's")

    def takes_order(part, whose):
        example = 'as "corner larder, no handles"'
        part.add_argument("--order", metavar="LIST", type=in_utf8, help=f"an order in place of the {whose} own, {example}")

    def takes_target(part, what):
        part.add_argument("-o", dest="output", metavar="FILE", type=target, help=f"{what}; without it, standard output")

    part = command("ask", ask, "a kitchen or a plan for each text, or that there is none")
    part.add_argument("texts", metavar="TEXT", nargs="+", help="a text, - for standard input")
    takes_order(part, "texts'")
    part.add_argument("--next", metavar="N", type=several, help="up to N further kitchens, by rising number (needs tools/library)")
    sentence = "also the cheapest kitchen, with its total and a tax of so many percent, as 19 or 7.5 (needs tools/library)"
    part.add_argument("--rate", metavar="PERCENT", type=percentage, help=sentence)
    part.add_argument("--json", action="store_true", help="a line of JSON for each text")
    part = command("advise", advise, "why, why not, what else")
    takes_text(part)
    sentence = "how far the wishes of the order can go, counted before any search (needs tools/library)"
    part.add_argument("--bound", action="store_true", default=None, help=sentence)
    part = command("page", draw, "the answer and the advice as one page for a browser")
    takes_text(part)
    takes_target(part, "the page")
    part = command("write", write, "a job file from a text")
    takes_text(part)
    takes_target(part, "the job file")
    for name, action, sentence in (("read", read, "a text from a job file"), ("show", show, "a job file as a table")):
        command(name, action, sentence).add_argument("file", metavar="FILE", help="the job file, - for standard input")
    takes_change(command("change", change, "a choice file with one change, as a new job file (needs tools/library)"))
    part = command("fair", fair, "a kitchen for each order of a list, from one catalogue (needs tools/library)")
    part.add_argument("catalogue", metavar="CATALOGUE", help="the text or the job file of a choice, - for standard input")
    part.add_argument("orders", metavar="ORDERS", help="a text with an order in each line, - for standard input")
    part.add_argument("--json", action="store_true", help="a line of JSON for each order")
    part = command("explain", explain, "what a refusal means, and what is at its place")
    part.add_argument("number", metavar="NUMBER", help="the number of the reason")
    part.add_argument("place", metavar="PLACE", nargs="?", help="its place")
    part.add_argument("file", metavar="FILE", nargs="?", help="the job file that was refused, - for standard input")
    return top


def takes_change(part):
    """What is changed is a command in turn. The file after -o may be named before it or after it."""
    new = {"dest": "output", "metavar": "NEW", "type": target, "help": "the new job file; without it, standard output"}
    part.add_argument("-o", **new)
    part.add_argument("file", metavar="FILE", help="the job file, - for standard input")
    changes = part.add_subparsers(metavar="WHAT", dest="what", required=True)
    for what, sentence in changing.CHANGES.items():
        one = changes.add_parser(what, help=sentence, description=sentence, allow_abbrev=False)
        one.set_defaults(article=None)
        if what != "order":
            one.add_argument("article", metavar="ARTICLE", type=in_utf8, help='the article, by its name or as "#3"')
        metavar, form = ("NAME", "the name") if what == "name" else ("LIST", "a list, as in texts")
        one.add_argument("value", metavar=metavar, nargs="?", type=in_utf8, help=f"{form}; without it, none")
        one.add_argument("-o", default=argparse.SUPPRESS, **new)


def words_of(trouble, path=None):
    where = f"{shown(path)}: " if path is not None and isinstance(trouble, Failed) else ""
    return where + str(trouble).rstrip() + "\n"


def interrupt(number, frame):
    raise KeyboardInterrupt


def main(arguments):
    signal.signal(signal.SIGTERM, interrupt)  # as Ctrl-C does, this ends kitchen, too
    try:
        if not arguments:
            emit(parser().format_help().encode())
            return DONE
        options = parser().parse_args(arguments)
        return options.action(options)
    except (Trouble, Failed) as trouble:
        note(words_of(trouble))
        return FAILED
    except BrokenPipeError:
        return FAILED
    except Misuse as misuse:
        note(f"tools/job: {misuse}\n")
        return MISUSED
    except KeyboardInterrupt:
        note("tools/job: interrupted, so there is no answer\n")
        return FAILED
