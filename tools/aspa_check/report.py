"""The report: counts by neighbour and verdict, a line for each route that is not Valid; as text and as JSON."""

import collections
import json

from .reasons import deciding, marked, reason

VERDICTS = ("Valid", "Invalid", "Unknown", "no verdict")


def counted(routes):
    """How many routes each neighbour has of each verdict, by neighbour and role."""
    table = {}
    for index, count in collections.Counter(routes.which).items():
        route = routes.different[index]
        row = table.setdefault((route.neighbour, route.role), dict.fromkeys(VERDICTS, 0))
        row[route.answer.verdict] += count
    return dict(sorted(table.items()))


def summed(table):
    return {verdict: sum(row[verdict] for row in table.values()) for verdict in VERDICTS}


class Lines:
    """Each different route is worded once, however many prefixes have it."""

    def __init__(self, records):
        self.records, self.held = records, {}

    def path_and_reason(self, route):
        found = self.held.get(id(route))
        if found is None:
            hops = deciding(self.records, route)
            why = reason(self.records, route, hops)
            found = self.held[id(route)] = marked(route, hops) + (f": {why}" if why else "")
        return found


# ---- text


def files_in_words(records):
    return "; ".join(f"{label} {count:,} {plural(what, count)}" for label, what, count in records.files) or "none"


def plural(what, count):
    return what[:-1] if count == 1 else what


def refused_in_words(refused):
    return f"{refused.label}, {refused.place}: AS{refused.customer}: {refused.why} (row {refused.row})"


def left_out_in_words(refused):
    return f"left out, with {refused.left_out} of its customer: {refused_in_words(refused)}"


def heading(records, routes, names):
    yield f"Records: {files_in_words(records)}"
    for refused in records.refused:
        yield f"L{left_out_in_words(refused)[1:]}"
    for note in records.notes:
        yield f"Note: {note.text}"
    yield f"Routes: {len(routes):,}, of which {len(routes.different):,} differ in path or neighbour, from {', '.join(names)}"


def table_in_words(table):
    rows = [(f"AS{neighbour}", role, row) for (neighbour, role), row in table.items()]
    rows.append(("all", "", summed(table)))
    first = max(len("neighbour"), *(len(row[0]) for row in rows))
    second = max(len("role"), *(len(row[1]) for row in rows))
    yield f"{'neighbour':{first}}  {'role':{second}}  " + "  ".join(f"{verdict:>10}" for verdict in VERDICTS)
    for neighbour, role, row in rows:
        yield f"{neighbour:{first}}  {role:{second}}  " + "  ".join(f"{row[verdict]:>10,}" for verdict in VERDICTS)


def not_valid(records, routes):
    lines = Lines(records)
    for prefix, route in routes:
        if route.answer.verdict != "Valid":
            yield f"{route.answer.verdict}  {prefix}  AS{route.neighbour}  {lines.path_and_reason(route)}"


def changes_in_words(records, routes, after):
    """Routes whose verdict changes: from what to what, and the new reason."""
    lines = Lines(records)
    for prefix, route, new in changed_routes(routes, after):
        yield f"{route.answer.verdict} -> {new.answer.verdict}  {prefix}  AS{route.neighbour}  {lines.path_and_reason(new)}"


def changed_routes(routes, after):
    for (prefix, route), index in zip(routes, routes.which):
        new = after.get(index)
        if new is not None and new.answer.verdict != route.answer.verdict:
            yield prefix, route, new


# ---- JSON


def route_as_json(records, prefix, route):
    answer = route.answer
    hops = deciding(records, route)
    held = {
        "prefix": prefix,
        "neighbour": route.neighbour,
        "role": route.role,
        "path": route.written(),
        "merged": list(route.merged),
        "verdict": answer.verdict,
        "reason": reason(records, route, hops),
    }
    if answer.ground:
        held["ground"] = answer.ground
    elif answer.row:
        held["row"] = answer.row
    elif answer.verdict != "Valid":
        held["places"] = [answer.a, answer.b]
        held["hops"] = [hop_as_json(records, h) for h in hops]
    if answer.gap is not None:
        held["gap"] = answer.gap
    return held


KINDS = {"none": "No Attestation", "provider": "Provider+", "other": "Not Provider+"}


def hop_as_json(records, h):
    lists, override = records.counting(h.customer)
    return {
        "from": h.customer,
        "to": h.provider,
        "upward": h.upward,
        "hop": KINDS[h.kind],
        "override": override,
        "lists": {record.label: list(record.providers) for record in lists},
    }


def head_as_json(records, routes, complaints):
    table = counted(routes)
    return {
        "records": [{"file": label, "what": what, "customers": count} for label, what, count in records.files],
        "refused": [refused._asdict() for refused in records.refused],
        "notes": [note.text for note in records.notes],
        "bad_lines": complaints.all,
        "routes": len(routes),
        "different": len(routes.different),
        "counts": summed(table),
        "neighbours": [{"neighbour": neighbour, "role": role, **row} for (neighbour, role), row in table.items()],
    }


def write_json(out, head, name, items):
    """An object with a list at its end, which may be long: it is written as it is made."""
    text = json.dumps(head, indent=1)
    out.write(text[: text.rindex("}")].rstrip() + f',\n "{name}": [')
    for i, item in enumerate(items):
        out.write((",\n  " if i else "\n  ") + json.dumps(item))
    out.write("]\n}\n")
