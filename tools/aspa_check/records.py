"""Provider records: validators' files, plain lines and local exceptions, and which lists count for a customer."""

from typing import NamedTuple, Optional, Tuple

from .console import REFUSALS, refusal_of
from .inputs import Stop, attempt, json_of, labels, whole_text
from .numbers import Wrong, as_number, numbers, shown

# The register has sources 0 to 7.
MOST_SOURCES = 8
MOST_PROVIDERS = 256


class Record(NamedTuple):
    source: int
    providers: Tuple[int, ...]
    label: str  # the file, as the report names it


class Entry(NamedTuple):
    """A list as a file has it."""

    customer: int
    providers: Tuple[int, ...]
    place: str


class Refused(NamedTuple):
    customer: int
    row: int
    label: str
    place: str
    why: str
    override: bool
    left_out: str = ""  # what of its customer is left out with it


class Note(NamedTuple):
    customer: Optional[int]  # None for a note that is about none
    text: str


class Records:
    """The lists of each customer: public ones, and overrides, which hide the public ones of their customer."""

    def __init__(self):
        self.public, self.overrides = {}, {}
        self.files = []  # (label, what it is, how many customers)
        self.refused = []
        self.notes = []
        self.filtered = {}  # customer: the file whose filter leaves its public lists out
        self.asserted = {}  # customer: its first assertion as the file has it, where public lists are added to it
        self.silenced = set()  # customers whose assertions are left out, since a list of theirs is refused

    def counting(self, customer):
        """The lists that count for a customer, and whether they are overrides."""
        if customer in self.overrides:
            return self.overrides[customer], True
        return self.public.get(customer, ()), False

    def hop(self, customer, provider):
        """'none', 'provider' or 'other': what the console is asked to confirm."""
        lists, _ = self.counting(customer)
        if not lists:
            return "none"
        return "provider" if any(provider in record.providers for record in lists) else "other"

    def changed(self, changes):
        """The records as they would be: each customer's public lists in place of those that it has. None for a withdrawal."""
        other = Records()
        other.public, other.overrides = dict(self.public), dict(self.overrides)
        for customer, providers in changes.items():
            if customer in self.filtered:
                continue
            other.public.pop(customer, None)
            if providers is not None:
                other.public[customer] = [Record(0, providers, "--what-if")]
            if customer in self.asserted:
                first = beside(self.asserted[customer], other.public.get(customer, []))
                other.overrides[customer] = [first, *self.overrides[customer][1:]]
        return other


# ---- files


def record_file(path, label, complaints):
    """The entries of a validator's JSON or of plain lines `CUSTOMER: PROVIDER PROVIDER`."""
    text = whole_text(path)
    if text.lstrip()[:1] in ("{", "["):
        return json_entries(json_of(path, text), path, label, complaints)
    entries = []
    for place, line in enumerate(text.split("\n"), 1):
        line = line.split("#")[0].strip()
        if line:
            entry = attempt(complaints, label, f"line {place}", plain_entry, line, f"line {place}")
            if entry:
                entries.append(entry)
    return entries


def plain_entry(line, place):
    customer, colon, rest = line.partition(":")
    if not colon:
        raise Wrong(f"{shown(line)} is not CUSTOMER: PROVIDER PROVIDER")
    return Entry(as_number(customer.strip()), tuple(numbers(rest)), place)


def json_entries(held, path, label, complaints):
    aspas = held.get("aspas") if isinstance(held, dict) else None
    if not isinstance(aspas, list):
        raise Stop(f"{path}: there is no list \"aspas\" in it, which rpki-client and Routinator write")
    entries = []
    for i, aspa in enumerate(aspas):
        entry = attempt(complaints, label, f"aspas[{i}]", json_entry, aspa, f"aspas[{i}]")
        if entry:
            entries.append(entry)
    return entries


# rpki-client's name, then Routinator's.
CUSTOMER_NAMES = ("customer_asid", "customer")


def json_entry(aspa, place):
    if not isinstance(aspa, dict):
        raise Wrong("this is no object")
    names = [name for name in CUSTOMER_NAMES if name in aspa]
    if len(names) != 1 or "providers" not in aspa:
        raise Wrong('an object with "customer_asid" or "customer", and "providers", is wanted')
    return Entry(json_number(aspa[names[0]]), json_numbers(aspa["providers"]), place)


def json_number(held):
    if isinstance(held, bool) or not isinstance(held, (int, str)):
        raise Wrong(f"{shown(held)} is not an AS number")
    return as_number(str(held))


def json_numbers(held):
    if not isinstance(held, list):
        raise Wrong(f"{shown(held)} is no list of AS numbers")
    return tuple(map(json_number, held))


# ---- SLURM (RFC 8416 and its extension to ASPA)

SLURM_VERSIONS = (1, 2)
# The extension is a draft, and its names have changed.
SLURM_CUSTOMER = ("customerAsid", "customer_asid", "customerAsn")
SLURM_PROVIDERS = ("providers", "providerSet", "providerAsns", "providerAsids")


def slurm_file(path):
    """Customers whose public records are left out, entries that are added, and how many members are not about ASPA.

    RFC 8416 wants a file with anything unknown in it rejected as a whole.
    """

    def members(held, what, names):
        if not isinstance(held, dict):
            raise Stop(f"{path}: {what} is no object")
        for name in held:
            if name not in names:
                raise Stop(f"{path}: {what} has a member {shown(name)}, which SLURM does not know")
        return held

    def listed(held, what, name):
        found = held.get(name, [])
        if not isinstance(found, list):
            raise Stop(f"{path}: {what}.{name} is no list")
        return found

    def one_of(held, place, names):
        there = [name for name in names if name in held]
        if len(there) != 1:
            raise Stop(f"{path}, {place}: {' or '.join(names)} is wanted, once")
        return held[there[0]]

    def number_in(held, place, read):
        try:
            return read(held)
        except Wrong as e:
            raise Stop(f"{path}, {place}: {e}") from e

    top = members(json_of(path, whole_text(path)), "the file", ("slurmVersion", "validationOutputFilters", "locallyAddedAssertions"))
    if type(top.get("slurmVersion")) is not int or top["slurmVersion"] not in SLURM_VERSIONS:
        raise Stop(f"{path}: slurmVersion is {shown(top.get('slurmVersion'))}, and not 1 or 2")
    for name in ("validationOutputFilters", "locallyAddedAssertions"):
        if name not in top:
            raise Stop(f"{path}: {name} is missing")
    out = members(top["validationOutputFilters"], "validationOutputFilters", ("prefixFilters", "bgpsecFilters", "aspaFilters"))
    added = members(top["locallyAddedAssertions"], "locallyAddedAssertions", ("prefixAssertions", "bgpsecAssertions", "aspaAssertions"))
    filters, assertions = [], []
    for i, held in enumerate(listed(out, "validationOutputFilters", "aspaFilters")):
        place = f"aspaFilters[{i}]"
        members(held, place, SLURM_CUSTOMER + ("comment",))
        filters.append(number_in(one_of(held, place, SLURM_CUSTOMER), place, json_number))
    for i, held in enumerate(listed(added, "locallyAddedAssertions", "aspaAssertions")):
        place = f"aspaAssertions[{i}]"
        members(held, place, SLURM_CUSTOMER + SLURM_PROVIDERS + ("comment",))
        customer = number_in(one_of(held, place, SLURM_CUSTOMER), place, json_number)
        assertions.append(Entry(customer, number_in(one_of(held, place, SLURM_PROVIDERS), place, json_numbers), place))
    others = sum(len(listed(held, name, part)) for held, name, parts in (
        (out, "validationOutputFilters", ("prefixFilters", "bgpsecFilters")),
        (added, "locallyAddedAssertions", ("prefixAssertions", "bgpsecAssertions")),
    ) for part in parts)
    return filters, assertions, others


# ---- all of them together


def united(entries):
    """Each customer's entries of one file as one list, sorted and without doubles; and where it stands."""
    lists, places = {}, {}
    for entry in entries:
        lists.setdefault(entry.customer, set()).update(entry.providers)
        places.setdefault(entry.customer, []).append(entry.place)
    return {customer: (tuple(sorted(held)), ", ".join(places[customer])) for customer, held in lists.items()}


def gathered(console, record_paths, slurm_paths, assertions, complaints):
    """The records of all files, without the customers of lists that the console refuses."""
    if len(record_paths) > MOST_SOURCES or len(slurm_paths) > MOST_SOURCES:
        raise Stop(f"there are more than {MOST_SOURCES} files: each is a source, and a register has {MOST_SOURCES}")
    records = Records()
    names = labels(list(record_paths) + list(slurm_paths))
    found = []  # (table, source, label, lists)
    for source, path in enumerate(record_paths):
        lists = united(record_file(path, names[source], complaints))
        records.files.append((names[source], "records", len(lists)))
        found.append((records.public, source, names[source], lists))
    for source, path in enumerate(slurm_paths):
        label = names[len(record_paths) + source]
        filters, entries, others = slurm_file(path)
        for customer in filters:
            records.filtered.setdefault(customer, label)
        lists = united(entries)
        records.files.append((label, "overrides", len(lists)))
        found.append((records.overrides, source, label, lists))
        if others:
            records.notes.append(Note(None, f"{label}: {others} filters and assertions for prefixes and router keys are not about ASPA"))
    refuse(console, records, found)
    leave_out(records, found, assertions)
    gone = {refused.customer for refused in records.refused}
    for table, source, label, lists in found:
        for customer, (providers, _) in lists.items():
            if customer not in (records.silenced if table is records.overrides else gone | records.filtered.keys()):
                table.setdefault(customer, []).append(Record(source, providers, label))
    tell_filters(records, found)
    settle_assertions(console, records, assertions)
    return records


def refuse(console, records, found):
    """Files each list alone, and keeps what the console refuses. What a filter leaves out is not filed."""
    every = [
        (customer, held, label, table is records.overrides)
        for table, _, label, lists in found
        for customer, held in lists.items()
        if not (table is records.public and customer in records.filtered)
    ]
    answers = console.ask(
        command
        for customer, (providers, _), _, _ in every
        # 257 numbers are too many as well as any more are, and a line has an end.
        for command in (filing("file", 0, customer, providers[: MOST_PROVIDERS + 1]), "empty")
    )[::2]
    for (customer, (providers, place), label, override), given in zip(every, answers):
        row = refusal_of(given)
        if row:
            records.refused.append(Refused(customer, row, label, place, why_refused(customer, providers, row), override))
        elif given != "new":
            raise Stop(f"the console answered {given!r} to a record of {len(providers)} providers")


def leave_out(records, found, assertions):
    """A refused list takes all lists of its customer with it: a part of them would make routes Invalid.

    Only an assertion that hides public lists does not need them, and stays.
    """
    asserted = {customer for table, _, _, lists in found if table is records.overrides for customer in lists}
    records.silenced = {refused.customer for refused in records.refused if refused.override or assertions == "add"} & asserted
    records.refused = [
        refused._replace(left_out="all public lists" if refused.customer in asserted - records.silenced else "all lists")
        for refused in records.refused
    ]


def why_refused(customer, providers, row):
    if row == 6 and customer in providers:
        return "the customer lists itself"
    if row == 6 and len(providers) > MOST_PROVIDERS:
        return f"{len(providers)} providers are more than {MOST_PROVIDERS}"
    if row == 6 and not providers:
        return "there are no providers"
    return REFUSALS.get(row, "")


def tell_filters(records, found):
    for customer, label in records.filtered.items():
        gone = [of for table, _, of, lists in found if table is records.public and customer in lists]
        what = f"leaves out the record of {' and '.join(gone)}" if gone else "leaves out nothing"
        records.notes.append(Note(customer, f"{label}: the filter for AS{customer} {what}"))


def settle_assertions(console, records, how):
    """An override hides its customer's public lists. `add` puts them beside the assertion, in the override."""
    for customer, lists in records.overrides.items():
        hidden = records.public.get(customer, [])
        files = " and ".join(record.label for record in hidden)
        if how == "override":
            if hidden:
                records.notes.append(Note(customer, f"{lists[0].label}: the assertion for AS{customer} hides the record of {files}"))
            continue
        records.asserted[customer] = lists[0]
        lists[0] = beside(lists[0], hidden)
        both = lists[0].providers
        row = refusal_of(console.ask([filing("file", 0, customer, both[: MOST_PROVIDERS + 1]), "empty"])[0])
        if row:
            raise Stop(f"{records.asserted[customer].label}: AS{customer} with the record of {files}: {why_refused(customer, both, row)} (row {row})")


def beside(assertion, hidden):
    """An assertion and the public lists that it would hide, as one list."""
    if not hidden:
        return assertion
    both = sorted({number for record in [*hidden, assertion] for number in record.providers})
    return assertion._replace(providers=tuple(both), label=" and ".join(record.label for record in [assertion, *hidden]))


def filing(command, source, customer, providers):
    return " ".join([command, str(source), str(customer), *map(str, providers)])
