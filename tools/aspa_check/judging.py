"""Routes judged in batches, each with the records that its paths need.

A register has room for 1,024 records of 8,192 provider numbers together, and the world has more. What the filter answers
for a route goes by the records of the numbers on its path and by no other. That is proved: where the lists for these
numbers are filed, Judge answers what the rules say over all lists (`part-judges` in crates/history/specs/Parts.antt). So a
batch is as many routes as have their records in one register, and the answers are those of all records.
"""

from .console import answer_of
from .records import filing

# Of the public register, and of the overrides likewise.
MOST_RECORDS = 1024
MOST_WORDS = 8192
LONGEST_PATH = 512


class Room:
    """Which customers' records are in both registers of a batch, and how much they take up."""

    def __init__(self, records):
        self.tables = ("file", records.public), ("dfile", records.overrides)
        self.customers, self.used = set(), [0, 0, 0, 0]

    def take(self, customers):
        """Adds these customers' records if all of them fit; otherwise leaves everything, and says so."""
        new = [customer for customer in customers if customer not in self.customers]
        used = list(self.used)
        for i, (_, table) in enumerate(self.tables):
            for customer in new:
                held = table.get(customer, ())
                used[2 * i] += len(held)
                used[2 * i + 1] += sum(len(record.providers) for record in held)
        if max(used[0], used[2]) > MOST_RECORDS or max(used[1], used[3]) > MOST_WORDS:
            return False
        self.used = used
        self.customers.update(new)
        return True

    def commands(self):
        return [
            filing(command, record.source, customer, record.providers)
            for command, table in self.tables
            for customer in self.customers
            for record in table.get(customer, ())
        ]


def judge(console, records, routes, progress=None):
    """Sets the answer of each route."""
    for done, (commands, batch) in enumerate(batches(records, routes), 1):
        console.expect(["empty"], "done")
        console.expect(commands, "new")
        for route, line in zip(batch, console.ask(route.command() for route in batch)):
            route.answer = answer_of(line)
        if progress:
            progress.tell(f"batches of paths judged: {done}")


def batches(records, routes):
    """The filings of each batch and its routes. Every route is in one of them."""
    attested = records.public.keys() | records.overrides.keys()
    often = {}
    # A path that is too long is refused whatever the records are.
    needs = [attested.intersection(route.merged) if len(route.merged) <= LONGEST_PATH else () for route in routes]
    for customers in needs:
        for customer in customers:
            often[customer] = often.get(customer, 0) + 1
    # Rarest first: routes that share a customer which few have come together, so that its records are filed once; those
    # that many have are in every batch anyway.
    rank = {customer: i for i, customer in enumerate(sorted(often, key=lambda customer: (often[customer], customer)))}
    order = sorted((sorted(map(rank.__getitem__, customers)), i) for i, customers in enumerate(needs))
    room, batch = Room(records), []
    for _, i in order:
        if not room.take(needs[i]):
            if batch:
                yield room.commands(), batch
            room, batch = Room(records), []
            if not room.take(needs[i]):
                yield cut(records, routes[i].merged), [routes[i]]
                continue
        batch.append(routes[i])
    if batch:
        yield room.commands(), batch


def cut(records, path):
    """The filings for one path whose own records do not fit: of each list only the customer's neighbours on the path.

    Between neighbours these lists say the same, and only that is read (`any-hops` in crates/effects/specs/Local.antt). Each
    pair of neighbours is put in the list of the lowest source that has it, and a customer that lists none of its neighbours
    gets {0}: so there are at most two records for each number of the path, and 1,022 for the longest.
    """
    beside = {}
    for x, y in [*zip(path, path[1:]), *zip(path[1:], path)]:
        beside.setdefault(x, set()).add(y)
    commands = []
    for command, table in (("file", records.public), ("dfile", records.overrides)):
        for customer, neighbours in beside.items():
            left, lists = set(neighbours), {}
            for record in sorted(table.get(customer, ()), key=lambda record: record.source):
                found = left.intersection(record.providers)
                if found:
                    lists[record.source] = found
                    left -= found
            if not lists and table.get(customer):
                lists = {min(record.source for record in table[customer]): {0}}
            commands += [filing(command, source, customer, sorted(found)) for source, found in sorted(lists.items())]
    return commands
