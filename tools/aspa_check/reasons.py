"""An answer in words: the hops that decided it, marked on the path, and what their records say."""

from typing import NamedTuple

from .console import REFUSALS
from .inputs import Stop
from .routes import DOWNSTREAM

GROUNDS = {1: "the path is empty", 2: "first AS is not the neighbour", 3: "the path has a set"}
# Providers of a list that a line shows; --json has them all.
MOST_SHOWN = 8


class Hop(NamedTuple):
    """From a customer to the next number of the path; upward is towards the left end."""

    place: int  # i of AS(i), the customer
    customer: int
    provider: int
    upward: bool
    kind: str  # none, provider or other


def at(route, i):
    """AS(i): AS(1), the origin, is the last number."""
    return route.merged[-i]


def hop(records, route, i, upward):
    customer, provider = at(route, i), at(route, i + 1 if upward else i - 1)
    return Hop(i, customer, provider, upward, records.hop(customer, provider))


def deciding(records, route):
    """The hops that decided an answer.

    Their kinds are worked out from the files, and the answer was the console's: where they do not agree, something is wrong
    with this program, and nothing that it says can be trusted.
    """
    answer = route.answer
    if answer.ground or answer.verdict not in ("Invalid", "Unknown"):
        return []
    down = route.role in DOWNSTREAM
    if answer.verdict == "Invalid":
        hops = [hop(records, route, answer.a - 1, True)]
        if down:
            hops.append(hop(records, route, answer.b + 1, False))
        sides = tuple("drawer" if records.counting(h.customer)[1] else "public" for h in hops)
        agreed = all(h.kind == "other" for h in hops) and sides == answer.sides
    elif down:
        hops = [hop(records, route, answer.a, True), hop(records, route, answer.b, False)]
        agreed = all(h.kind != "provider" for h in hops)
    else:
        hops = [hop(records, route, answer.a - 1, True)]
        agreed = hops[0].kind == "none"
    if not agreed:
        raise Stop(f"the console's answer for {route.written()} from AS{route.neighbour} does not follow from the files")
    return hops


def marked(route, hops):
    """The path with its deciding hops marked: x where the customer's list lacks the other, ? where it has no record."""
    if route.answer.ground or route.answer.row:
        return route.written() or "(empty)"
    marks = {}
    for h in hops:
        sign = "?" if h.kind == "none" else "x"
        # Between AS(i + 1) on the left and AS(i).
        marks[h.place if h.upward else h.place - 1] = f"<{sign}-" if h.upward else f"-{sign}>"
    words = []
    for i in range(len(route.merged), 0, -1):
        words.append(str(at(route, i)))
        if i - 1 in marks:
            words.append(marks[i - 1])
    return " ".join(words)


def listed(numbers):
    words = [f"AS{number}" for number in numbers[:MOST_SHOWN]]
    if len(numbers) > MOST_SHOWN:
        words.append(f"{len(numbers) - MOST_SHOWN} more")
    return ", ".join(words)


def origin_in_words(lists, override):
    names = " and ".join(record.label for record in lists)
    what = "override" if override else "source"
    return f"({what}{'s' if len(lists) > 1 else ''} {names})"


def hop_in_words(records, h):
    """What the record of a hop's customer says of the other number."""
    lists, override = records.counting(h.customer)
    if not lists:
        return f"AS{h.customer} has no record"
    if h.kind == "provider":
        lists = [record for record in lists if h.provider in record.providers]
        return f"AS{h.customer} lists AS{h.provider} {origin_in_words(lists, override)}"
    providers = sorted({number for record in lists for number in record.providers})
    if providers == [0]:
        return f"AS{h.customer} lists AS0 alone and not AS{h.provider} {origin_in_words(lists, override)}"
    return f"AS{h.customer} lists {listed(providers)} and not AS{h.provider} {origin_in_words(lists, override)}"


def reason(records, route, hops):
    answer = route.answer
    if answer.ground:
        return GROUNDS[answer.ground]
    if answer.row:
        return f"refused by row {answer.row}: {REFUSALS.get(answer.row, 'no row has this number')}"
    return "; ".join(hop_in_words(records, h) for h in hops)
