"""Refusals in words: what a reason means, and what is at its place in a file."""

from kitchen import CHOICE, NO_SELECTION
from showroom.words import called, counted, money, quoted, series

NO_KITCHEN = (
    "No such kitchen exists: whatever articles are put together, a wish of the order is not covered, or two of the "
    "articles exclude each other. At least one wish has to be given up, or the catalogue has to change."
)
# What the place of 14 says in the program kitchen, whose only goal is the order.
NO_KITCHEN_AT = {
    0: (
        "Counting the wishes already rules such a kitchen out, without a search: the articles form groups in which all "
        "exclude each other, so a kitchen has at most one of each group; even if every group gave the one that carries "
        "most wishes of the order, that would add up to fewer wishes than the order has."
    ),
    1: (
        "Counting the wishes alone does not rule such a kitchen out: it takes a look at how the articles can be combined, "
        "and no combination is left."
    ),
}
NO_PLAN = (
    "No such plan exists: whatever steps are done in whatever rounds, the goal is not reached within {}. "
    "Either the horizon has too few rounds, or these steps cannot reach the goal at all."
)
NOWHERE = ""  # the place of a reason that is a status only
# What is wrong, what the place is (None if it is always 0 and says nothing), and a remark.
REASONS = {
    1: (
        "the file is empty, or of a kind that the call does not take",
        "always 0, the first byte",
        "A choice file begins with the byte 67, a capital C, and a fitting file with 70, a capital F. "
        "A text is no job file: make one from it with tools/job write.",
    ),
    2: (
        "the file ends before an item is complete",
        "the length of the file",
        "The file was cut off, or a count, a bit map or a length in it stands for more than the file has.",
    ),
    3: (
        "a count or the horizon exceeds its limit",
        "that byte",
        "A choice has at most 64 articles and 64 wishes; a fitting has at most 32 steps, 32 facts and 16 rounds.",
    ),
    4: (
        "a bit map has a bit that must be 0",
        "that byte",
        "An article has the bits 0 to 3, for wishes, clashes, name and price; a step has the bits 0 to 3, for needs, gives, "
        "takes and name.",
    ),
    5: (
        "a record's field is present and zero, or a name has length 0",
        "the first byte of the field, or the length byte",
        "An empty set is left out, and so are a missing name and a price of 0; the bit in the bit map is then 0.",
    ),
    6: (
        "a set has a member that the file does not have, or an article clashes with a number that is not lower than "
        "its own",
        "the first byte of the set",
        "Wishes, facts and articles are numbered from 0. Of two articles that clash, the one with the higher number "
        "names the other.",
    ),
    7: (
        "a name is longer than 32 bytes",
        "the length byte",
        "Bytes are counted, not letters: ä, ö, ü and ß have 2 bytes each.",
    ),
    8: (
        "something follows the last record",
        "the first byte too many",
        "The count of articles or steps is too small, or something was added to the file.",
    ),
    9: (
        "a layer number is out of range, or there is no such article to change",
        None,
        "Fact layers go from 0 to the horizon, and round layers from 1 to the horizon. The first article is number 0.",
    ),
    10: (
        "a lent buffer is too short",
        None,
        "A partition has a byte for each article, a plan a word for each round of the horizon, a fact layer 32 words, "
        "a round layer 64, and a fair three words for each order; a file that is saved has its own length, at most 3,467 bytes.",
    ),
    11: (
        "a lent partition is false: an article has a group byte that is not below n, or is in one group with an article "
        "that it does not clash with",
        "the lowest article that has such a byte, or that does not clash with a lower one of its group",
        "Here n is the count of articles.",
    ),
    12: (
        "the live set has an article that the file does not have",
        None,
        "Its members have to be lower than the count of articles.",
    ),
    13: (
        "a projection goal is empty, or has a wish that the order lacks",
        "the index of the first such goal in the list, and 0 for a pass, which takes one goal",
        "A goal has at least one wish, and wishes of the order only.",
    ),
    14: (
        "there is no selection whose number is the floor or greater",
        "the index of the first goal in the list that falls short, and the list's length if none does; of a price it is 0, and of "
        "an order of a fair it is not told",
        "The file is in order. A goal falls short if it has more wishes than the sum of its pass says; then there is no "
        "selection at all, whatever the floor. With the floor 0, as in the program kitchen, 14 means: "
        + NO_KITCHEN,
    ),
    15: (
        "there is no plan whose count of rounds is the horizon or less",
        None,
        "The file is in order. " + NO_PLAN.format("the horizon"),
    ),
    16: (
        "that name belongs to no article and to no step",
        None,
        "The file is in order. Capitals and blanks of a name count. Whether a letter with a mark, such as ü, is one character "
        "or two makes no difference if the whole name is UTF-8 and has only characters below U+0180 and from U+0300 to "
        "U+036F; of any other name each byte counts.",
    ),
    17: (
        "a tax rate is above 10,000",
        None,
        "A rate is in hundredths of a percent: 1900 is 19 percent, and 10,000 is all of the total.",
    ),
    18: (
        "an order of a fair names a wish that the file lacks: never of a call, only of an order's entry",
        NOWHERE,
        "A fair is a list of orders against one choice file, whose wishes are numbered from 0. The other orders of the list are "
        "answered all the same.",
    ),
}


def owner(reader, item):
    """The record that an item is part of, with its name if the reading came to that."""
    if item.record is None:
        return ""
    text = f" of {reader.kind.record} {item.record}"
    for other in reader.items:
        end = other.place + other.width
        if other.what == "the name" and other.record == item.record and other is not item and end <= len(reader.file):
            text += f", {quoted(reader.file[other.place : end])}"
    return text


def holding(reader, item):
    """What the bytes of an item say, or that they are not all there."""
    data = reader.file[item.place : item.place + item.width]
    if len(data) < item.width:
        have = "the file has none of them" if not data else f"the file has only {len(data)} of them"
        return ", but the file ends before it." if item.width == 1 else f", but {have}."
    number = int.from_bytes(data, "little")
    bits = series([str(bit) for bit in range(8 * item.width) if number >> bit & 1])
    if item.bound is not None:
        limit = f"only numbers below {item.bound} may be in it" if item.bound else "nothing may be in it"
        members = f"the set of {bits}" if bits else "the empty set"
        return f": {members}; {limit}." if number >> item.bound else f": {members}."
    if item.what == "the bit map":
        return f": {number}, with the bits {bits}." if bits else ": 0."
    if item.what == "the price":
        return f": {money(int.from_bytes(data, 'little', signed=True))}."
    return f": {quoted(data)}." if item.what == "the name" else f": {number}."


def standing(reader, place):
    """What is at a place of a file."""
    item = next((item for item in reader.items if item.place <= place < item.place + item.width), None)
    if item:
        content = f"{item.what}{owner(reader, item)}{holding(reader, item)}"
        if item.width == 1:
            return f"Byte {place} holds {content}"
        return f"Byte {place} is number {place - item.place + 1} of the {item.width} bytes that hold {content}"
    size = counted(len(reader.file), "byte", "bytes")
    if place >= len(reader.file):
        return f"The file has {size}, so it has no byte {place}."
    if reader.refusal and reader.refusal.number != 8:
        return f"The file is not read as far as byte {place}: it is refused before that."
    return f"The last record ends in front of byte {reader.at}; the file has {size}."


def verdict(reader):
    if reader.refusal:
        return f"refused {reader.refusal.number} at {reader.refusal.place}"
    return f"a {reader.kind.word} file that is in order"


def place_in_file(number, place, reader):
    """What is at the place of a refusal, and how the file reads by itself if that is something else."""
    same = reader.refusal and reader.refusal.number == number
    place = reader.refusal.place if same and place is None else place
    lines = []
    if number <= 8 and place is not None:
        lines.append(standing(reader, place))
    if number == 11 and place is not None and reader.job and reader.kind is CHOICE:
        known = place < len(reader.job.records)
        lines.append(f"Here that is {called(reader.job, place)}." if known else f"The file has no article {place}.")
    if not same and (number <= 8 or reader.refusal) or same and reader.refusal.place != place:
        lines.append(f"Read by itself, the file is {verdict(reader)}.")
    return "\n".join(lines)


def none_at(place):
    """What the place of 14 says, of a list of goals and in the program kitchen."""
    goals = counted(place, "goal", "goals")
    meaning = f"this means: {NO_KITCHEN_AT[place]}" if place in NO_KITCHEN_AT else "the place is 0 or 1."
    return (
        f"With {goals} in the list none falls short; with more, the goal of index {place} is the first that does.\n"
        f"In the program kitchen, whose only goal is the order, {meaning}"
    )


def place_told(meaning, place):
    if meaning is None:
        return "The place is always 0 and says nothing."
    if meaning == NOWHERE:
        return "It has no place: no call is turned down by it."
    return f"The place is {meaning}" + ("." if place is None else f"; here it is {place}.")


def explained(number, place=None, reader=None):
    """A refusal in words, and what is at its place if a file was read."""
    wrong, meaning, remark = REASONS[number]
    lines = [f"Reason {number}: {wrong}.", place_told(meaning, place), remark]
    lines.append(none_at(place) if number == NO_SELECTION and place is not None else "")
    lines.append(place_in_file(number, place, reader) if reader else "")
    return "\n".join(line for line in lines if line) + "\n"
