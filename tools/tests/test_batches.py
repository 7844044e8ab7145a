"""Any RIB fits: the answers of batches are those of registers without any limit, which hold all records at once."""

import io
import os
import random
import subprocess
import sys
from unittest import mock

from helper import CONSOLE, TOOLS, UNLIMITED, Case

from aspa_check import judging
from aspa_check.console import Console, answer_of
from aspa_check.inputs import Complaints, Progress
from aspa_check.numbers import segments
from aspa_check.records import Record, Records, filing, gathered
from aspa_check.routes import ROLES, Roles, Route, Routes

HUGE = 10**9


class Watched(Console):
    """Keeps what it is asked."""

    def __init__(self, program):
        self.asked = []
        super().__init__(program)

    def ask(self, commands):
        commands = list(commands)
        self.asked += commands
        return super().ask(commands)


def limits(records, words):
    return mock.patch.multiple(judging, MOST_RECORDS=records, MOST_WORDS=words)


def drawn_lists(draw, customers, others, most):
    """Lists from up to eight sources, few of them long. Some hold only 0."""
    table = {}
    for customer in customers:
        for source in sorted(draw.sample(range(8), draw.choice((1, 1, 1, 2, 3, 8)))):
            count = draw.choice((1, 2, 3, 5, 8, most if draw.random() < 0.1 else 4))
            providers = {0} if draw.random() < 0.1 else set(draw.sample(others, count)) - {customer} or {0}
            table.setdefault(customer, []).append(Record(source, tuple(sorted(providers)), f"file {source}"))
    return table


def drawn_records(draw, numbers, attested, overridden, most=256):
    records = Records()
    records.public = drawn_lists(draw, draw.sample(numbers, attested), numbers, most)
    records.overrides = drawn_lists(draw, draw.sample(numbers, overridden), numbers, most)
    return records


def drawn_path(draw, records, numbers, most):
    """Mostly along the records, up or down, so that there are ramps."""
    path = [draw.choice(numbers)]
    for _ in range(draw.randint(0, most)):
        lists, _ = records.counting(path[-1])
        listed = [number for record in lists for number in record.providers if number]
        path.append(draw.choice(listed) if listed and draw.random() < 0.85 else draw.choice(numbers))
    turn = draw.randint(0, len(path))
    return path[:turn] + path[turn:][::-1] if draw.random() < 0.5 else path[::-1]


def drawn_routes(draw, records, numbers, count, most=9):
    routes = []
    for _ in range(count):
        path = drawn_path(draw, records, numbers, most)
        words = [str(number) for number in path]
        if draw.random() < 0.04:
            words[draw.randrange(len(words))] = draw.choice(("0", "{1,2}", "(3)", "[4]", "{}"))
        neighbour = path[0] if draw.random() < 0.97 else draw.choice([0, *numbers])
        routes.append(Route(neighbour, draw.choice(list(ROLES)), segments(" ".join(words))))
    return routes


def sizes(records):
    """Records and provider numbers of both registers."""
    return [size for table in (records.public, records.overrides) for size in (
        sum(map(len, table.values())), sum(len(record.providers) for held in table.values() for record in held))]


class Compared(Case):
    """Two consoles, one of them without limits."""

    def setUp(self):
        super().setUp()
        self.console, self.unlimited = Watched(CONSOLE), Watched(UNLIMITED)
        for console in (self.console, self.unlimited):
            console.__enter__()
            self.addCleanup(console.__exit__)

    def wanted(self, records, routes):
        """By the second program's maps with every record in them, also those of customers on no path."""
        filings = [
            filing(command, record.source, customer, record.providers)
            for command, table in (("file", records.public), ("dfile", records.overrides))
            for customer, held in table.items() for record in held
        ]
        self.unlimited.expect(["empty"], "done")
        self.unlimited.expect(filings, "new")
        return [answer_of(line) for line in self.unlimited.ask(route.command() for route in routes)]

    def given(self, console, records, routes):
        """By `judge`; the filings and routes of each batch are checked on the way."""
        console.asked.clear()
        for route in routes:
            route.answer = None
        judging.judge(console, records, routes)
        self.count = console.asked.count("empty")
        judged = [command for command in console.asked if command.startswith("judge ")]
        self.assertEqual(sorted(judged), sorted(route.command() for route in routes))
        return [route.answer for route in routes]

    def agree(self, records, routes, small=((7, 60), (40, 400))):
        wanted = self.wanted(records, routes)
        self.assertEqual(self.given(self.console, records, routes), wanted)
        real = self.count
        for most_records, most_words in small:
            with limits(most_records, most_words):
                self.assertEqual(self.given(self.console, records, routes), wanted)
                self.assertGreater(self.count, real)
        with limits(HUGE, HUGE):
            self.assertEqual(self.given(self.unlimited, records, routes), wanted)
            self.assertEqual(self.count, 1)
        return wanted, real


class Batches(Compared):
    def test_random_topologies(self):
        seen = set()
        for seed in range(6):
            with self.subTest(seed=seed):
                draw = random.Random(seed)
                numbers = draw.sample(range(1, 2**32), 420)
                records = drawn_records(draw, numbers, 330, (0, 60)[seed % 2])
                wanted, _ = self.agree(records, drawn_routes(draw, records, numbers, 500))
                seen |= {(answer.verdict, answer.sides) for answer in wanted}
        # Every verdict, and every order of the registers that an Invalid names.
        p, d = "public", "drawer"
        self.assertLessEqual({("Valid", ()), ("Unknown", ()), ("no verdict", ()), ("Invalid", ()), ("Invalid", (p,)), ("Invalid", (d,)),
                              ("Invalid", (p, p)), ("Invalid", (p, d)), ("Invalid", (d, p)), ("Invalid", (d, d))}, seen)

    def test_few_numbers_with_many_records(self):
        # Every path wants nearly all records, and with small limits none fits.
        for seed in range(4):
            draw = random.Random(seed)
            numbers = list(range(1, 13))
            records = drawn_records(draw, numbers, 12, 5, most=11)
            routes = drawn_routes(draw, records, numbers, 200)
            wanted = self.wanted(records, routes)
            for most in (1, 2, 5, 12):
                with limits(most, most):
                    self.assertEqual(self.given(self.console, records, routes), wanted)

    def test_more_than_a_register_holds(self):
        draw = random.Random(7)
        numbers = draw.sample(range(1, 2**32), 3000)
        records = drawn_records(draw, numbers, 2500, 1500)
        held = sizes(records)
        self.assertTrue(min(held[0], held[2]) > 1024 and min(held[1], held[3]) > 8192, held)
        _, batches = self.agree(records, drawn_routes(draw, records, numbers, 1500), small=((100, 1000),))
        self.assertGreater(batches, 3)

    def test_either_limit_alone(self):
        # Lists of one, so that records run out; lists of 256, so that words do; and the same of the overrides.
        for count, length, name in ((1600, 1, "public"), (100, 256, "public"), (1600, 1, "overrides"), (100, 256, "overrides")):
            with self.subTest(count=count, name=name):
                records = Records()
                table = getattr(records, name)
                for customer in range(1, count + 1):
                    table[customer] = [Record(0, tuple(range(customer + 1, customer + 1 + length)), "file")]
                routes = [Route(x + 1, "peer", segments(f"{x + 1} {x}")) for x in range(1, count)]
                routes += [Route(x, "provider", segments(f"{x} {x + 1}")) for x in range(1, count)]
                self.agree(records, routes, small=((5, HUGE), (HUGE, 5 * length)))

    def test_exactly_full(self):
        # 1,024 records and 8,192 words are one batch; one more of either is another.
        for count, length, extra, batches in ((1024, 8, 0, 1), (1024, 7, 1, 2), (512, 16, 1, 2), (512, 16, 0, 1)):
            records = Records()
            for customer in range(1, count + extra + 1):
                records.public[customer] = [Record(0, tuple(range(5000, 5000 + length)), "file")]
            routes = [Route(5000, "customer", segments(f"5000 {x}")) for x in range(1, count + extra + 1)]
            self.assertEqual(self.given(self.console, records, routes), self.wanted(records, routes))
            self.assertEqual(self.count, batches, (count, length, extra))

    def test_a_path_that_does_not_fit(self):
        # 512 numbers, each with lists of 256 providers from several sources, in both registers.
        for seed, (role, sources, overridden) in enumerate((
            ("customer", (0,), 0), ("provider", (1, 5), 0), ("mutual-transit", (0, 1, 2, 3, 4, 5, 6, 7), 100), ("provider", (7,), 512),
        )):
            draw = random.Random(seed)
            path = draw.sample(range(1, 2**32), 512)
            beside = {x: {y for y in path[max(i - 1, 0) : i + 2] if y != x} for i, x in enumerate(path)}
            records = Records()
            for i, x in enumerate(path):
                for table in (records.public, records.overrides)[: 2 if i < overridden else 1]:
                    for source in sources:
                        # Most list the neighbour on the path, some only at a high source, some not at all.
                        found = {y for y in beside[x] if draw.random() < (0.999 if len(sources) == 1 else 0.8)}
                        spare = draw.sample(range(1, 2**32), 256 - len(found))
                        table.setdefault(x, []).append(Record(source, tuple(sorted({*found, *spare} - {x})), f"file {source}"))
            route = Route(path[0], role, ((2, tuple(path)),))
            (commands, batch), = judging.batches(records, [route])
            self.assertEqual(batch, [route])
            # Cut, it fits: at most two records for each number, and as many numbers.
            for name in ("file ", "dfile "):
                held = [command.split() for command in commands if command.startswith(name)]
                self.assertLessEqual(len(held), 1022)
                self.assertLessEqual(sum(len(words) - 3 for words in held), 1022)
            self.assertGreater(max(sizes(records)), 8192)
            self.assertEqual(self.given(self.console, records, [route]), self.wanted(records, [route]))
            # Beside others the same.
            others = [Route(path[i], "peer", ((2, tuple(path[i : i + 3])),)) for i in range(0, 500, 20)]
            routes = [*others[:9], route, *others[9:]]
            self.assertEqual(self.given(self.console, records, routes), self.wanted(records, routes))

    def test_a_path_that_comes_back_to_its_numbers(self):
        # A number with many neighbours on the path; what it lists is cut to all of them.
        for seed in range(8):
            draw = random.Random(seed)
            numbers = draw.sample(range(1, 2**32), 40)
            records = drawn_records(draw, numbers, 36, 12, most=39)
            path = [draw.choice(numbers)]
            while len(path) < 512:
                path.append(draw.choice([number for number in numbers if number != path[-1]]))
            routes = [Route(path[0], role, ((2, tuple(path[:length])),)) for role in ROLES for length in (512, 300, 30, 7, 4)]
            wanted = self.wanted(records, routes)
            with limits(1, 1):
                self.assertEqual(self.given(self.console, records, routes), wanted)

    def test_an_order_of_sources_does_not_matter(self):
        # The lists of a customer stand in the order of the files, which a cut sorts.
        records = Records()
        records.public = {1: [Record(5, (2, 9), "f"), Record(2, (2, 8), "e")], 2: [Record(3, (0,), "g")]}
        route = Route(2, "provider", segments("2 1"))
        self.assertEqual(judging.cut(records, route.merged), ["file 3 2 0", "file 2 1 2"])

    def test_only_what_is_on_the_paths_is_filed(self):
        draw = random.Random(3)
        numbers = draw.sample(range(1, 2**32), 1000)
        records = drawn_records(draw, numbers, 900, 200)
        routes = drawn_routes(draw, records, numbers, 60, most=4)
        seen = []
        for commands, batch in judging.batches(records, routes):
            on_paths = {str(number) for route in batch for number in route.merged}
            filed = [command.split()[2] for command in commands]
            self.assertLessEqual(set(filed), on_paths)
            wanted = sum(len(table.get(int(number), ())) for number in on_paths for table in (records.public, records.overrides))
            self.assertEqual(len(filed), wanted)
            seen += batch
        self.assertEqual(sorted(map(id, seen)), sorted(map(id, routes)))

    def test_a_path_that_is_too_long_needs_no_records(self):
        records = Records()
        records.public = {x: [Record(0, (x + 1,), "f")] for x in range(1, 600)}
        route = Route(1, "peer", ((2, tuple(range(1, 514))),))
        self.assertEqual(list(judging.batches(records, [route])), [([], [route])])
        self.assertEqual(self.given(self.console, records, [route]), self.wanted(records, [route]))
        self.assertEqual(route.answer.row, 17)

    def test_no_routes(self):
        self.assertEqual(list(judging.batches(Records(), [])), [])
        judging.judge(self.console, Records(), [])

    def test_progress(self):
        told = io.StringIO()
        judging.judge(self.console, Records(), [Route(1, "peer", segments("1"))], Progress(every=0, out=told))
        self.assertEqual(told.getvalue(), "aspa-check: batches of paths judged: 1\n")


class MadeRib(Compared):
    """What tools/make-rib makes, read from its files as a user's would be."""

    def test_a_made_rib(self):
        done = subprocess.run([sys.executable, os.path.join(TOOLS, "make-rib"), "made", "6000", "2500", "2500", "5"],
                              capture_output=True, text=True, timeout=60, check=False)
        self.assertEqual((done.returncode, done.stderr), (0, ""))
        complaints = Complaints()
        records = gathered(self.console, ["made/records.json"], [], "override", complaints)
        routes = Routes(Roles({}, "provider"), complaints, Progress(quiet=True))
        routes.read("made/rib.txt", "rib.txt")
        self.assertEqual((len(routes), len(routes.different), complaints.all), (6000, 2500, []))
        count, words = sizes(records)[:2]
        self.assertTrue(count > 1024 and words > 8192, (count, words))
        wanted, batches = self.agree(records, routes.different, small=((50, 300),))
        self.assertGreater(batches, 1)
        self.assertEqual({answer.verdict for answer in wanted}, {"Valid", "Invalid", "Unknown"})
        # The report by the console is the one by the program without limits, in one batch.
        arguments = ["--records", "made/records.json", "--routes", "made/rib.txt", "--default-role", "provider"]
        by_console = self.run_tool(*arguments)
        with limits(HUGE, HUGE):
            self.assertEqual(self.call(*arguments, "--console", UNLIMITED), by_console)
        self.assertEqual((by_console[0], by_console[2]), (1, ""))

    def test_the_same_arguments_make_the_same_rib(self):
        for name in ("one", "two"):
            subprocess.run([sys.executable, os.path.join(TOOLS, "make-rib"), name, "50", "20", "700", "9"], timeout=60, check=True)
        for name in ("records.json", "rib.txt"):
            with open(f"one/{name}", "rb") as one, open(f"two/{name}", "rb") as two:
                self.assertEqual(one.read(), two.read())
