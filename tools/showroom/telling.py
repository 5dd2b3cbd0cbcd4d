"""Answers in words, by the names that the text has, and as data for programs."""

from kitchen import CHOICE, NoPlan, NoSelection
from showroom.reasons import NO_KITCHEN, NO_KITCHEN_AT, NO_PLAN
from showroom.words import called, counted, money, names, names_of, percent, printed

WIDEST = 40  # columns of a name in a list


def member_names(text, members):
    """Wishes or facts by the names that the text gives them."""
    return [printed(text.names[member]) for member in sorted(members)]


def listed(rows):
    """Pairs of texts, the second ones below each other."""
    width = min(WIDEST, max((len(first) for first, _ in rows), default=0))
    return [f"  {first.ljust(width)}  {second}".rstrip() for first, second in rows]


def fulfilled(text, number):
    """The ordered wishes that an article fulfils."""
    return text.job.records[number].sets[0] & text.job.sets[0]


def article_rows(text, articles):
    """Articles, with the ordered wishes that each fulfils."""
    rows = []
    for number in sorted(articles):
        wishes = "; ".join(member_names(text, fulfilled(text, number)))
        rows.append((called(text.job, number), wishes or "(no wish of the order)"))
    return rows


def round_rows(text, rounds):
    """Rounds, with the steps of each."""
    return [(f"round {number}", "; ".join(names(text.job, steps))) for number, steps in enumerate(rounds, 1)]


def kitchen_told(text, answer):
    articles, wishes = len(answer.articles), counted(len(text.job.sets[0]), "wish", "wishes")
    if not articles:
        return ["The order has no wish, so the kitchen needs no article."]
    exclude = "; no two of them exclude each other" if articles > 1 else ""
    lines = [f"A kitchen of {counted(articles, 'article', 'articles')} covers the order of {wishes}{exclude}:"]
    return lines + listed(article_rows(text, answer.articles))


def aside_told(text, aside):
    if not aside:
        return []
    none = f"No kitchen for this order has {'any of them' if len(aside) > 1 else 'it'}"
    return [f"Set aside at once: {names_of(text.job, aside)}. {none}; `tools/job advise` tells all that are in none."]


def rounds_told(text, rounds):
    if not rounds:
        return ["The goal holds at the start, so the fitting takes no round."]
    lines = [f"A plan of {counted(len(rounds), 'round', 'rounds')}; no plan has fewer:"]
    return lines + listed(round_rows(text, rounds))


def told(text, answer):
    """An answer in lines."""
    if isinstance(answer, NoSelection):
        return [NO_KITCHEN, NO_KITCHEN_AT[answer.place]]
    if answer is NoPlan:
        return [NO_PLAN.format(counted(text.job.horizon, "round", "rounds"))]
    return kitchen_told(text, answer) if text.job.kind is CHOICE else rounds_told(text, answer.rounds)


def bound_told(text, bound):
    """What the groups contribute to the order, added up."""
    wishes, order = counted(bound, "wish", "wishes"), len(text.job.sets[0])
    return (
        "How far the wishes can go: the articles form groups in which all exclude each other; if every group gives the one "
        f"that carries most wishes of the order, that adds up to {wishes}, each counted as often as it is carried; the order "
        f"has {order}."
    )


def further_told(text, kitchens):
    """Further kitchens, by rising number."""
    lines = []
    for number, other in enumerate(kitchens, 1):
        lines += [f"Further kitchen {number}, of {counted(len(other.articles), 'article', 'articles')}:"]
        lines += listed(article_rows(text, other.articles))
    return lines if kitchens else ["There is no further kitchen."]


def has_prices(job):
    """Whether some article has a price; one of 0 is none."""
    return any(record.price for record in job.records)


def change_told(text):
    """What a change of one price can do to the cheapest total, if there are prices: a theorem of each order with a kitchen."""
    if not has_prices(text.job):
        return []
    some = money(40)
    return [
        "If the price of one article changes and all else stays as it is, the total of the cheapest kitchen for this order, "
        "before tax, changes by no more than the price does, and never the other way, even if another kitchen is the cheapest "
        f"then: if an article becomes {some} dearer, the total rises by {some} at most and does not fall."
    ]


def priced_rows(text, articles):
    """Articles, with their prices below each other, a dash for none, and the ordered wishes that each fulfils."""
    prices = [text.job.records[number].price for number in sorted(articles)]
    prices = [money(price) if price else "-" for price in prices]
    width = max(map(len, prices), default=0)
    return [(name, f"{price.rjust(width)}  {wishes}") for price, (name, wishes) in zip(prices, article_rows(text, articles))]


def cheapest_told(text, rate, priced):
    """The cheapest kitchen, with its total and its tax."""
    lines = [f"The cheapest kitchen, of {counted(len(priced.articles), 'article', 'articles')}:"]
    lines += listed(priced_rows(text, priced.articles))
    return [*lines, f"Its total is {money(priced.total)}, and the tax of {percent(rate)} percent on it is {money(priced.tax)}."]


# ---- for programs


def record_data(job, number):
    name = job.records[number].name
    return {"number": number, "name": printed(name) if name else None}


def article_data(text, articles):
    return [record_data(text.job, u) | {"wishes": member_names(text, fulfilled(text, u))} for u in sorted(articles)]


def cheapest_data(text, priced):
    """Prices, total and tax are in cents."""
    articles = [found | {"price": text.job.records[found["number"]].price} for found in article_data(text, priced.articles)]
    return {"articles": articles, "total": priced.total, "tax": priced.tax}


def data(text, answer, following=None, priced=None):
    """An answer as JSON has it."""
    if isinstance(answer, NoSelection):
        return {"kind": "choice", "answer": "no such kitchen", "falls_short": answer.place == 0}
    if answer is NoPlan:
        return {"kind": "fitting", "answer": "no such plan", "horizon": text.job.horizon}
    if text.job.kind is not CHOICE:
        rounds = [[record_data(text.job, step) for step in sorted(steps)] for steps in answer.rounds]
        return {"kind": "fitting", "answer": "plan", "rounds": rounds}
    found = {"kind": "choice", "answer": "kitchen", "articles": article_data(text, answer.articles)}
    found["set_aside"] = [record_data(text.job, number) for number in sorted(answer.aside)]
    if following is not None:
        found["further"] = [article_data(text, other.articles) for other in following]
    if priced is not None:
        found["cheapest"] = cheapest_data(text, priced)
    return found
