"""One path hop by hop: the ramps, K and L, each hop's record; as text, as JSON and as a picture."""

from html import escape

from . import judging
from .console import answer_of
from .inputs import Stop
from .reasons import Hop, at, deciding, hop_in_words, marked, reason
from .report import KINDS, hop_as_json, route_as_json
from .routes import DOWNSTREAM

ARTICLES = {
    "customer": "a customer of ours", "peer": "a peer", "provider": "a provider of ours", "route-server": "a route server",
    "route-server-client": "a client of our route server", "mutual-transit": "a network in mutual transit with us",
}


class Explanation:
    """A judged route and what the console says of every hop, upward from AS(1) and downward from AS(N)."""

    def __init__(self, console, records, route):
        self.records, self.route, self.n = records, route, len(route.merged)
        (commands, _), = judging.batches(records, [route])
        console.expect(["empty"], "done")
        console.expect(commands, "new")
        route.answer = answer_of(console.ask([route.command()])[0])
        self.hops = deciding(records, route)
        self.up, self.down = [], []
        if not route.answer.ground and not route.answer.row:
            self.up = [self._ask(console, i, True) for i in range(1, self.n)]
            self.down = [self._ask(console, i, False) for i in range(self.n, 1, -1)]
            self.k = 1 + reach(self.up)
            self.l = self.n - reach(self.down)
            if route.answer.gap is not None and route.answer.gap != self.l - self.k:
                raise Stop("the console's gap is not the one of its hops")

    def _ask(self, console, i, upward):
        customer, provider = at(self.route, i), at(self.route, i + 1 if upward else i - 1)
        kind = console.ask([f"hop {customer} {provider}"])[0].split()[0]
        if kind != self.records.hop(customer, provider):
            raise Stop(f"the console's hop from AS{customer} to AS{provider} is not the one of the files")
        return Hop(i, customer, provider, upward, kind)

    @property
    def downstream(self):
        return self.route.role in DOWNSTREAM

    # ---- text

    def lines(self):
        route = self.route
        yield f"{marked(route, self.hops)}, from AS{route.neighbour}, {ARTICLES[route.role]}: {route.answer.verdict}"
        if route.answer.ground or route.answer.row:
            yield f"  {reason(self.records, route, [])}"
            return
        yield "  merged path: " + ", ".join(f"AS({i}) is AS{at(route, i)}" for i in range(self.n, 0, -1))
        yield "  upward, from the origin towards the neighbour:"
        yield from self._hop_lines(self.up, f"the up-ramp goes from AS(1) to AS({self.k}): K = {self.k}")
        if self.downstream:
            yield "  downward, from the neighbour's end towards the origin:"
            yield from self._hop_lines(self.down, f"the down-ramp goes from AS({self.n}) to AS({self.l}): L = {self.l}")
        yield f"  {self.conclusion()}"
        for note in self.records.notes:
            if note.customer in route.merged:
                yield f"  note: {note.text}"

    def _hop_lines(self, hops, end):
        for h in hops:
            other = h.place + 1 if h.upward else h.place - 1
            yield f"    AS({h.place}) to AS({other})  {KINDS[h.kind]:<14}  {hop_in_words(self.records, h)}"
        yield f"    {end}"

    def conclusion(self):
        answer = self.route.answer
        if not self.downstream:
            if answer.verdict == "Valid":
                return "Valid: every hop climbs from a customer to its provider" if self.n > 1 else "Valid: there is no hop"
            which = f"the hop from AS({answer.a - 1}) to AS({answer.a})"
            if answer.verdict == "Invalid":
                return f"Invalid: {which} does not climb, as every hop of a route from here must"
            return f"Unknown: no hop is Not Provider+, and {which} has no attestation"
        gap = f"L - K = {answer.gap}"
        if answer.verdict == "Valid":
            return f"Valid: {gap}, at most 1: the ramps meet"
        if answer.verdict == "Invalid":
            return (
                f"Invalid: the route stops climbing at AS({answer.a - 1}) at the latest, and comes down from AS({answer.b + 1}) at the"
                f" earliest: u = {answer.a}, v = {answer.b}, u <= v ({gap})"
            )
        return f"Unknown: {gap}, more than 1, and what lies between the ramps is not ruled out"

    # ---- JSON

    def as_json(self):
        held = route_as_json(self.records, None, self.route)
        del held["prefix"]
        if self.up or self.down or (not self.route.answer.ground and not self.route.answer.row):
            held.update(k=self.k, upward=[hop_as_json(self.records, h) for h in self.up])
            if self.downstream:
                held.update(l=self.l, downward=[hop_as_json(self.records, h) for h in self.down])
        return held

    # ---- picture

    def svg(self):
        return picture(self)


def reach(hops):
    """How many hops are Provider+ before the first that is not."""
    count = 0
    for h in hops:
        if h.kind != "provider":
            break
        count += 1
    return count


# ---- the picture: the path from left to right as it is written, who is above whom by the records

WIDE, HIGH, STEP_X, STEP_Y, MARGIN, TOP = 96, 30, 136, 62, 24, 72
GOOD, BAD, OPEN, PLAIN = "#1a7f37", "#cf222e", "#9a6700", "#57606a"
ABOUT_US = {"provider": -1, "customer": 1}


def rise(up, down):
    """From AS(i) to AS(i + 1): 1 up, -1 down, 0 level, by the records of both; what they leave open is level."""
    if up == down:
        return 0
    if up == "provider" or down == "other":
        return 1
    return -1


def picture(told):
    """A drawing of the path: each number above its customers, the deciding hops in colour, the reason below."""
    route, n = told.route, told.n
    levels = {}
    if told.up:
        levels = {1: 0}
        downs = {h.place - 1: h.kind for h in told.down}
        for h in told.up:
            levels[h.place + 1] = levels[h.place] + rise(h.kind, downs[h.place])
    else:
        levels = {i: 0 for i in range(1, n + 1)}
    ours = levels.get(n, 0) + ABOUT_US.get(route.role, 0)
    top = max([ours, *levels.values()])
    low = min([ours, *levels.values()])
    across = {i: MARGIN + WIDE / 2 + STEP_X * (n - i + 1) for i in levels}
    height = {i: TOP + HIGH / 2 + STEP_Y * (top - level) for i, level in levels.items()}
    us = (MARGIN + WIDE / 2, TOP + HIGH / 2 + STEP_Y * (top - ours))
    reasons = [reason(told.records, route, [h]) for h in told.hops] or [reason(told.records, route, [])]
    words = [line for line in [*reasons] if line] or ([told.conclusion()] if not route.answer.ground and not route.answer.row else [])
    floor = TOP + STEP_Y * (top - low) + HIGH + 26
    wide = max(2 * MARGIN + WIDE + STEP_X * n, *(2 * MARGIN + 7 * len(line) for line in words), 420)
    high = floor + 22 * len(words) + 12
    colour = {"Valid": GOOD, "Invalid": BAD}.get(route.answer.verdict, OPEN)
    out = [
        f'<svg xmlns="http://www.w3.org/2000/svg" width="{wide:g}" height="{high:g}" viewBox="0 0 {wide:g} {high:g}"'
        ' font-family="sans-serif" font-size="13">',
        f"<title>{escape(route.written())} from AS{route.neighbour}: {route.answer.verdict}</title>",
        f'<rect width="{wide:g}" height="{high:g}" fill="#ffffff"/>',
        f'<text x="{MARGIN}" y="30" font-size="16" fill="#1f2328">{escape(route.written()) or "(empty)"}, from AS{route.neighbour},'
        f' {ARTICLES[route.role]}: <tspan font-weight="bold" fill="{colour}">{route.answer.verdict}</tspan></text>',
        f'<text x="{MARGIN}" y="48" font-size="11" fill="{PLAIN}">It came from the right to the left. Providers stand above their customers.</text>',
    ]
    if n:
        out.append(line(us, (across[n], height[n]), PLAIN, dashed=True))
    for i in range(n - 1, 0, -1):
        out.extend(link(told, i, (across[i + 1], height[i + 1]), (across[i], height[i])))
    out.extend(box(us, "us", "", PLAIN))
    for i in range(n, 0, -1):
        out.extend(box((across[i], height[i]), f"AS{at(route, i)}", tag(told, i), "#1f2328"))
    for i, words_of in enumerate(words):
        out.append(f'<text x="{MARGIN}" y="{floor + 22 * i + 12:g}" fill="#1f2328">{escape(words_of)}</text>')
    out.append("</svg>\n")
    return "\n".join(out)


def tag(told, i):
    """AS(i), and whether a ramp ends there."""
    if told.route.answer.ground or told.route.answer.row:
        return ""
    ends = [name for name, end in (("K", told.k), ("L", told.l if told.downstream else 0)) if end == i]
    return f"AS({i})" + "".join(f", {name}" for name in ends)


def link(told, i, left, right):
    """Between AS(i + 1) on the left and AS(i)."""
    decided = [h for h in told.hops if (h.place if h.upward else h.place - 1) == i]
    kinds = {h.kind for h in [*told.up, *told.down] if (h.place if h.upward else h.place - 1) == i}
    if not decided:
        yield line(left, right, GOOD if "provider" in kinds else PLAIN, dashed=kinds == {"none"})
        return
    h = decided[0]
    colour, sign = (OPEN, "?") if h.kind == "none" else (BAD, "\u00d7")
    yield line(left, right, colour, dashed=h.kind == "none")
    x, y = (left[0] + right[0]) / 2, (left[1] + right[1]) / 2
    yield f'<circle cx="{x:g}" cy="{y:g}" r="10" fill="#ffffff" stroke="{colour}" stroke-width="2"/>'
    yield f'<text x="{x:g}" y="{y + 5:g}" text-anchor="middle" font-weight="bold" fill="{colour}">{sign}</text>'


def line(left, right, colour, dashed):
    dash = ' stroke-dasharray="6 4"' if dashed else ""
    return (
        f'<line x1="{left[0]:g}" y1="{left[1]:g}" x2="{right[0]:g}" y2="{right[1]:g}" stroke="{colour}" stroke-width="2"{dash}/>'
    )


def box(centre, name, below, colour):
    x, y = centre
    yield (
        f'<rect x="{x - WIDE / 2:g}" y="{y - HIGH / 2:g}" width="{WIDE}" height="{HIGH}" rx="6" fill="#f6f8fa" stroke="{colour}"/>'
    )
    yield f'<text x="{x:g}" y="{y + 5:g}" text-anchor="middle" fill="{colour}">{name}</text>'
    if below:
        yield f'<text x="{x:g}" y="{y + HIGH / 2 + 14:g}" text-anchor="middle" font-size="11" fill="{PLAIN}">{below}</text>'
