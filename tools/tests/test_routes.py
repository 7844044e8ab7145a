"""Routes in: every format, paths as people write them, roles, every error."""

import bz2
import gzip
import io
import json
import os
import subprocess
import sys

from helper import REGISTER_D, TOOLS, Case

from aspa_check.inputs import Progress
from aspa_check.numbers import attribute, merged, segments, written
from aspa_check.routes import ALIASES, ROLES

BGPDUMP = "TABLE_DUMP2|1700000000|B|192.0.2.1|{}|{}|{}|IGP|192.0.2.1|0|0||NAG||\n"
C = "50 <x- 20 10: AS20 lists AS40 and not AS50 (source d.txt)"


class Routes(Case):
    def setUp(self):
        super().setUp()
        self.write("d.txt", REGISTER_D)

    def routes(self, text, *more, role="customer", name="routes"):
        self.write(name, text)
        return self.reported("--records", "d.txt", "--routes", name, "--default-role", role, *more)

    def errors(self, text, *messages, more=()):
        """The messages, of which the last counts; returns what is reported."""
        self.write("routes", text)
        count = f"bad lines, which are in no count: {len(messages)}"
        out = self.says(2, [*messages, count], "--records", "d.txt", "--routes", "routes", "--default-role", "customer", *more)
        return out.split("\n\n", 2)[2].splitlines()

    def test_plain_lines(self):
        lines = self.routes("10.0.0.0/24|50|50 20 10\n10.0.1.0/24|20|20 10\n2001:db8::/32|50|50 20 10\n::/0|50|50 20 10\n")
        self.assertEqual(lines, [f"Invalid  {prefix}  AS50  {C}" for prefix in ("10.0.0.0/24", "2001:db8::/32", "::/0")])

    def test_one_path_however_it_is_written(self):
        for i, text in enumerate((
            "50|50 20 10", "AS50|AS50 AS20 AS10", "as50|as50 as20 as10", "50|50,20,10", " 50 | 50  20\t10 ", "0.50|0.50 0.20 0.10",
            "50|50 50 20 20 20 10 10", "50|050 0000000000020 10", "50|50 20 10\r", "50|50 20 10   # seen today",
        )):
            with self.subTest(text=text):
                self.assertEqual(self.routes(f"10.0.{i}.0/24|{text}\n"), [f"Invalid  10.0.{i}.0/24  AS50  {C}"])

    def test_comments_blank_lines_and_line_ends(self):
        text = "# PREFIX|NEIGHBOUR|PATH\r\n\r\n  \t\n10.0.0.0/24|50|50 20 10\r\n   # 10.0.1.0/24|50|50 20 10\n#10.0.0.0/24|50|50 20 10\n  10.0.2.0/24 |50|50 20 10"
        self.assertEqual(self.routes(text), [f"Invalid  {prefix}  AS50  {C}" for prefix in ("10.0.0.0/24", "10.0.2.0/24")])

    def test_grounds(self):
        lines = self.routes(
            "10.0.0.0/24|50|50 {20,10}\n10.0.1.0/24|50|\n10.0.2.0/24|50|20 10\n10.0.3.0/24|50|{50} 20\n10.0.4.0/24|50|50 { 20 10 } 30\n")
        self.assertEqual(lines, [
            "Invalid  10.0.0.0/24  AS50  50 {20,10}: the path has a set",
            "Invalid  10.0.1.0/24  AS50  (empty): the path is empty",
            "Invalid  10.0.2.0/24  AS50  20 10: first AS is not the neighbour",
            "Invalid  10.0.3.0/24  AS50  {50} 20: the path has a set",
            "Invalid  10.0.4.0/24  AS50  50 {20,10} 30: the path has a set"])

    def test_refused_paths(self):
        numbers = " ".join(str(20 + i % 2) for i in range(513))
        long = " ".join(["20"] * 1022)
        lines = self.routes(
            "10.0.0.0/24|50|50 (64512 64513) 20\n10.0.1.0/24|50|50 [64512] 20\n10.0.2.0/24|50|50 0 20\n10.0.3.0/24|0|50 20\n"
            f"10.0.4.0/24|20|{numbers}\n10.0.5.0/24|20|{long}\n10.0.6.0/24|50|50 {{}} 20\n10.0.7.0/24|50|(64512) 50\n")
        self.assertEqual(lines, [
            "no verdict  10.0.0.0/24  AS50  50 (64512 64513) 20: refused by row 14: a segment is of a confederation",
            "no verdict  10.0.1.0/24  AS50  50 [64512] 20: refused by row 14: a segment is of a confederation",
            "no verdict  10.0.2.0/24  AS50  50 0 20: refused by row 16: an AS number is 0",
            "no verdict  10.0.3.0/24  AS0  50 20: refused by row 10: the neighbour is 0",
            f"no verdict  10.0.4.0/24  AS20  {numbers}: refused by row 17: the merged path has more than 512 numbers",
            f"no verdict  10.0.5.0/24  AS20  {long}: refused by row 11: the path has more than 4,096 bytes",
            "no verdict  10.0.6.0/24  AS50  50 {} 20: refused by row 15: a segment has no numbers",
            "no verdict  10.0.7.0/24  AS50  (64512) 50: refused by row 14: a segment is of a confederation"])

    def test_the_longest_paths(self):
        # 512 merged numbers; 1,021 prepended ones in 4,094 bytes; and one of any length, which has no verdict and stops nothing.
        most = " ".join(str(20 + i % 2) for i in range(512))
        self.assertEqual(len(attribute(segments(" ".join(["20"] * 1021)))), 4096 - 2)
        lines = self.routes(f"10.0.0.0/24|20|{most}\n10.0.1.0/24|20|{'20 ' * 1021}\n10.0.2.0/24|20|{'20 30 ' * 30000}\n10.0.3.0/24|50|50 20 10\n")
        # The numbers alternate: AS20 lists AS40 and not AS21, and the first such hop is from AS(2).
        self.assertEqual(lines[0], f"Invalid  10.0.0.0/24  AS20  {most[:-6]} <x- 20 21: AS20 lists AS40 and not AS21 (source d.txt)")
        self.assertTrue(lines[1].startswith("no verdict  10.0.2.0/24  AS20  20 30 20 30"), lines[1][:99])
        self.assertTrue(lines[1].endswith(": refused by row 11: the path has more than 4,096 bytes"), lines[1][-99:])
        self.assertEqual(lines[2:], [f"Invalid  10.0.3.0/24  AS50  {C}"])

    def test_bgpdump(self):
        text = BGPDUMP.format(50, "10.0.0.0/24", "50 20 10") + BGPDUMP.format(20, "10.0.0.0/24", "20 10")
        text += BGPDUMP.format(50, "2001:db8::/32", "50 20 {10,30}") + BGPDUMP.format(50, "10.0.1.0/24", "50 20 10").replace("\n", "\r\n")
        text += BGPDUMP.format(30, "10.0.2.0/24", "") + BGPDUMP.format(50, "10.0.3.0/24", "50 (20) 10")
        self.assertEqual(self.routes(text), [
            f"Invalid  10.0.0.0/24  AS50  {C}", "Invalid  2001:db8::/32  AS50  50 20 {10,30}: the path has a set",
            f"Invalid  10.0.1.0/24  AS50  {C}", "Invalid  10.0.2.0/24  AS30  (empty): the path is empty",
            "no verdict  10.0.3.0/24  AS50  50 (20) 10: refused by row 14: a segment is of a confederation"])

    def test_bgpdump_lines_that_are_wrong(self):
        good = BGPDUMP.format(50, "10.0.9.0/24", "50 20 10")
        withdrawn, short = "TABLE_DUMP2|1700000000|W|192.0.2.1|50|10.0.0.0/24", "TABLE_DUMP2|1700000000|B|192.0.2.1|50|10.0.0.0/24|50 20"
        other = "TABLE_DUMP2_AP|1700000000|B|192.0.2.1|50|10.0.0.0/24|7|50 20 10|IGP|"
        # As long as a route is, and none.
        letter = good.replace("|B|", "|W|")
        update = "BGP4MP|1700000000|A|192.0.2.1|50|10.0.0.0/24|50 20 10|IGP|192.0.2.1|0|0||NAG||"
        lines = self.errors(
            f"{withdrawn}\n{good}{short}\n{BGPDUMP.format('x', '10.0.0.0/24', '50')}{BGPDUMP.format(50, '10.0.0.0', '50')}"
            f"{BGPDUMP.format(50, '10.0.0.0/24', '50 y')}{other}\n{update}\n{good}{letter}",
            f"routes, line 1: '{withdrawn}' is no route as bgpdump -m writes it",
            f"routes, line 3: '{short}' is no route as bgpdump -m writes it",
            "routes, line 4: 'x' is not an AS number",
            "routes, line 5: '10.0.0.0' is no prefix",
            "routes, line 6: 'y' is not an AS number",
            f"routes, line 7: '{other[:60]}...' is not PREFIX|NEIGHBOUR|PATH",
            f"routes, line 8: '{update[:60]}...' is not PREFIX|NEIGHBOUR|PATH",
            f"routes, line 10: '{letter[:60]}...' is no route as bgpdump -m writes it")
        self.assertEqual(lines, [f"Invalid  10.0.9.0/24  AS50  {C}"] * 2)

    def test_prefixes(self):
        right = ["0.0.0.0/0", "255.255.255.255/32", "10.9.0.0/9", "::/0", "2001:db8::/128", "3fff::/20", "::ffff:192.0.2.1/128"]
        wrong = ["256.0.0.0/8", "10.0.0/8", "10.0.0.0.0/8", "10.0.0.0/33", "10.0.0.0/", "/8", "2001:db8::/129", "2001:db8::", "db8/32", "10.0.0.0/-1"]
        self.write("routes", "".join(f"{prefix}|20|20 10\n" for prefix in right + wrong))
        _, out, err = self.call("--records", self.write("r.txt", "10: 30\n"), "--routes", "routes", "--default-role", "customer")
        self.assertEqual([line.split()[1] for line in out.splitlines() if line.startswith("Invalid")], right)
        self.assertEqual(err.splitlines(), [
            *(f"aspa-check: routes, line {i}: '{prefix}' is no prefix" for i, prefix in enumerate(wrong, len(right) + 1)),
            f"aspa-check: bad lines, which are in no count: {len(wrong)}"])

    def test_bad_lines_are_named_and_the_others_reported(self):
        lines = self.errors(
            "10.0.0.0/24|50|50 20 10\n10.0.1.0/24 50 50 20 10\n10.0.2.0/24|50\n10.0.3.0/24|50|50|20\n10.0.4.0|50|50 20 10\n"
            "10.0.5.0/24|fifty|50 20\n10.0.6.0/24||50 20\n10.0.7.0/24|50|50 {20\n10.0.8.0/24|50|50 20}\n10.0.9.0/24|50|50 {20)\n"
            "10.0.10.0/24|50|50 {20 {10}}\n10.0.11.0/24|50|50 20 4294967296\n10.0.12.0/24|50|50 -20\n10.0.13.0/24|50|50 20 i\n"
            "example|50|50 20 10\n10.0.14.0/24|50|50 \u00e9\n|50|50 20 10\n10.0.15.0/24|50|50 20 10\n",
            "routes, line 2: '10.0.1.0/24 50 50 20 10' is not PREFIX|NEIGHBOUR|PATH",
            "routes, line 3: '10.0.2.0/24|50' is not PREFIX|NEIGHBOUR|PATH",
            "routes, line 4: '10.0.3.0/24|50|50|20' is not PREFIX|NEIGHBOUR|PATH",
            "routes, line 5: '10.0.4.0' is no prefix",
            "routes, line 6: 'fifty' is not an AS number",
            "routes, line 7: '' is not an AS number",
            "routes, line 8: '}' is missing",
            "routes, line 9: '}' closes nothing",
            "routes, line 10: ')' closes nothing",
            "routes, line 11: '{' where '}' is wanted",
            "routes, line 12: '4294967296' is not an AS number: it is above 4294967295",
            "routes, line 13: '-20' is not an AS number",
            "routes, line 14: 'i' is not an AS number",
            "routes, line 15: 'example' is no prefix",
            "routes, line 16: '\\\\xc3\\\\xa9' is not an AS number",
            "routes, line 17: '' is no prefix")
        self.assertEqual(lines, [f"Invalid  {prefix}  AS50  {C}" for prefix in ("10.0.0.0/24", "10.0.15.0/24")])

    def test_a_bad_line_counts_more_than_an_invalid_route(self):
        self.write("routes", "10.0.0.0/24|20|20 10\nx\n")
        for more in ((), ("--fail-on", "never"), ("--summary",), ("--what-if", "10: 30")):
            self.says(2, ["routes, line 2: 'x' is not PREFIX|NEIGHBOUR|PATH", "bad lines, which are in no count: 1"],
                      "--records", "d.txt", "--routes", "routes", "--default-role", "customer", *more)

    def test_bad_lines_in_json(self):
        self.write("routes", "10.0.0.0/24|50|50 20 10\nx\n")
        status, out, _ = self.call("--records", "d.txt", "--routes", "routes", "--default-role", "customer", "--json")
        held = json.loads(out)
        self.assertEqual((status, held["routes"], held["bad_lines"]),
                         (2, 1, [{"file": "routes", "place": "line 2", "why": "'x' is not PREFIX|NEIGHBOUR|PATH"}]))

    def test_the_limit_of_complaints(self):
        self.write("routes", "10.0.0.0/24|50|50 20 10\n" + "x\n" * 999)
        status, out, err = self.call("--records", "d.txt", "--routes", "routes", "--default-role", "customer")
        self.assertEqual((status, len(err.splitlines()), out.splitlines()[-1]), (2, 1000, f"Invalid  10.0.0.0/24  AS50  {C}"))
        self.assertEqual(err.splitlines()[-1], "aspa-check: bad lines, which are in no count: 999")
        self.write("routes", "x\n" * 1001)
        status, out, err = self.call("--records", "d.txt", "--routes", "routes", "--default-role", "customer")
        self.assertEqual((status, len(err.splitlines()), out), (2, 1001, ""))
        self.assertEqual(err.splitlines()[-1], "aspa-check: 1000 bad lines: this is not what it should be")

    def test_packed_and_from_standard_input(self):
        text = "10.0.0.0/24|50|50 20 10\n" + BGPDUMP.format(50, "10.0.1.0/24", "50 20 10")
        wanted = [f"Invalid  {prefix}  AS50  {C}" for prefix in ("10.0.0.0/24", "10.0.1.0/24")]
        for name in ("routes.gz", "routes.bz2"):
            self.assertEqual(self.routes(text, name=name), wanted)
        for held in (text.encode(), gzip.compress(text.encode()), bz2.compress(text.encode())):
            status, out, err = self.run_tool("--records", "d.txt", "--routes", "-", "--default-role", "customer", stdin=held)
            self.assertEqual((status, err, out.splitlines()[-2:]), (1, "", wanted))
            self.assertIn("Routes: 2, of which 1 differ in path or neighbour, from standard input\n", out)

    def test_several_files(self):
        self.write("a", "10.0.0.0/24|50|50 20 10\n")
        self.write("b.gz", "10.0.0.0/24|50|50 20 10\n10.0.1.0/24|20|20 10\n")
        status, out, _ = self.call("--records", "d.txt", "--routes", "a", "b.gz", "--default-role", "customer")
        self.assertEqual(out.splitlines()[1], "Routes: 3, of which 2 differ in path or neighbour, from a, b.gz")
        # A route that stands twice is reported twice.
        self.assertEqual(out.splitlines()[-2:], [f"Invalid  10.0.0.0/24  AS50  {C}"] * 2)
        self.write("b", "\nx\n")
        self.says(2, ["b, line 2: 'x' is not PREFIX|NEIGHBOUR|PATH", "bad lines, which are in no count: 1"],
                  "--records", "d.txt", "--routes", "a", "b", "--default-role", "customer")

    def test_no_routes(self):
        status, out, err = self.call("--records", "d.txt", "--routes", self.write("routes", ""), "--default-role", "customer")
        self.assertEqual((status, err), (0, ""))
        self.assertEqual(out.splitlines()[1], "Routes: 0, of which 0 differ in path or neighbour, from routes")

    def test_files_that_cannot_be_read(self):
        os.mkdir("directory")
        packed = gzip.compress("".join(f"10.0.{i >> 8}.{i & 255}/32|50|50 20 10 {i}\n" for i in range(5000)).encode())
        bzipped = bz2.compress(b"10.0.0.0/24|50|50 20 10\n" * 1000)
        self.write("cut", packed[: len(packed) // 2])
        self.write("short", packed[:15])
        self.write("bzipped", bzipped[:20])
        self.write("zeros", b"\x00" * 20)
        self.write("utf16", "10.0.0.0/24|50|50 20 10\n".encode("utf-16"))
        cut = "Compressed file ended before the end-of-stream marker was reached"
        for name, message in (
            ("none", "none: No such file or directory"),
            ("directory", "directory: Is a directory"),
            ("short", f"short: {cut}"),
            ("bzipped", f"bzipped: {cut}"),
            ("zeros", "zeros: this is neither text nor MRT that begins as a TABLE_DUMP_V2 does"),
            ("utf16", "utf16: this is neither text nor MRT that begins as a TABLE_DUMP_V2 does"),
        ):
            with self.subTest(name=name):
                self.says(2, message, "--records", "d.txt", "--routes", name, "--default-role", "customer")
        status, out, err = self.run_tool("--records", "d.txt", "--routes", "cut", "--default-role", "customer")
        self.assertEqual((status, out), (2, ""))
        self.assertRegex(err, rf"\Aaspa-check: cut, after line [0-9]+: {cut}\n\Z")


class RolesOfNeighbours(Case):
    def setUp(self):
        super().setUp()
        self.write("d.txt", REGISTER_D)
        self.write("routes", "10.0.0.0/24|20|20 10 30\n10.0.1.0/24|50|50 20\n10.0.2.0/24|20|20 10 40\n")

    def table(self, *more):
        status, out, err = self.call("--records", "d.txt", "--routes", "routes", *more)
        self.assertEqual(err, "")
        return [line.split() for line in out.split("\n\n")[1].splitlines()[1:]]

    def test_every_role_by_name_and_alias(self):
        # Only from a provider or in mutual transit is 50 20 Valid.
        valid = {"provider", "mutual-transit"}
        for name in [*ROLES, *ALIASES, "Provider", "RS-CLIENT", "Mutual-Transit"]:
            role = ALIASES.get(name.lower(), name.lower())
            with self.subTest(name=name):
                counts = ["1", "0"] if role in valid else ["0", "1"]
                table = self.table("--role", f"AS50={name}", "--default-role", "customer")
                self.assertEqual(table[1], ["AS50", role, *counts, "0", "0"])
        self.assertEqual(sorted(ALIASES), ["lateral-peer", "rs", "rs-client"])

    def test_the_number_of_each_role(self):
        # As in docs/RULES.md: a wrong one would be judged the other way.
        self.assertEqual(ROLES, {
            "customer": 1, "peer": 2, "provider": 3, "route-server": 4, "route-server-client": 5, "mutual-transit": 6})

    def test_a_route_server_need_not_be_on_the_path(self):
        self.write("routes", "10.0.0.0/24|30|20 10\n")
        self.assertEqual(self.table("--default-role", "rs")[0][2:], ["1", "0", "0", "0"])
        self.assertEqual(self.table("--default-role", "rs-client")[0][2:], ["0", "1", "0", "0"])

    def test_role_and_default_role(self):
        self.assertEqual(self.table("--role", "20=provider", "--default-role", "peer"), [
            ["AS20", "provider", "0", "1", "1", "0"], ["AS50", "peer", "0", "1", "0", "0"], ["all", "0", "2", "1", "0"]])
        self.assertEqual(self.table("--role", "AS20 = provider", "--role", "0.50=mutual-transit", "--role", "20=provider"), [
            ["AS20", "provider", "0", "1", "1", "0"], ["AS50", "mutual-transit", "1", "0", "0", "0"], ["all", "1", "1", "1", "0"]])

    def test_neighbours_without_role(self):
        arguments = ["--records", "d.txt", "--routes", "routes"]
        give = "--role AS=ROLE, or --default-role ROLE"
        self.says(2, f"no role is given for AS20, AS50: {give}", *arguments, run=self.run_tool)
        self.says(2, f"no role is given for AS50: {give}", *arguments, "--role", "20=peer")
        self.write("routes", "".join(f"10.0.{i}.0/24|{i}|{i}\n" for i in range(1, 31)))
        first = ", ".join(f"AS{i}" for i in range(1, 21))
        self.says(2, f"no role is given for {first} and 10 more: {give}", *arguments)

    def test_wrong_roles(self):
        arguments = ["--records", "d.txt", "--routes", "routes", "--default-role", "peer"]
        known = "customer, peer, provider, route-server, route-server-client, mutual-transit"
        for more, message in (
            (["--role", "20=friend"], f"'friend' is no role: {known}"),
            (["--role", "20="], f"'' is no role: {known}"),
            (["--role", "20=3"], f"'3' is no role: {known}"),
            (["--role", "x=peer"], "'x' is not an AS number"),
            (["--role", "peer"], "--role 'peer' is not AS=ROLE"),
            (["--role", "20=peer", "--role", "AS20=customer"], "AS20 has two roles"),
            (["--default-role", "friend"], f"'friend' is no role: {known}"),
        ):
            with self.subTest(more=more):
                self.says(2, message, *arguments, *more)

    def test_arguments_from_a_file(self):
        self.write("arguments", "--records\nd.txt\n--role\n20=provider\n--role\n50=peer\n--routes\nroutes\n")
        status, out, err = self.run_tool("@arguments")
        self.assertEqual((status, err), (1, ""))
        self.assertIn("\nAS20       provider           0           1           1           0\n", out)
        status, _, err = self.run_tool("@none")
        self.assertEqual(status, 2)
        self.assertIn("No such file or directory: 'none'", err)


class Options(Case):
    def test_what_does_not_go_together(self):
        self.write("d.txt", REGISTER_D)
        self.write("routes", "10.0.0.0/24|20|20 10\n")
        for arguments, message in (
            (["--records", "d.txt"], "--routes or --explain is wanted, and not both"),
            (["--records", "d.txt", "--routes", "routes", "--explain", "1"], "--routes or --explain is wanted, and not both"),
            (["--records", "d.txt", "--routes", "routes", "--svg", "x"], "--svg and --neighbour go with --explain"),
            (["--records", "d.txt", "--routes", "routes", "--neighbour", "1"], "--svg and --neighbour go with --explain"),
            (["--records", "d.txt", "--explain", "1", "--what-if", "1: 2"], "--what-if and --summary go with --routes"),
            (["--records", "d.txt", "--explain", "1", "--summary"], "--what-if and --summary go with --routes"),
            (["--routes", "routes", "--default-role", "peer"], "there are no records: --records FILE"),
            (["--records", "-", "--routes", "-", "--default-role", "peer"], "standard input can be read once"),
            (["--records", "d.txt", "--explain", "1"], "--role ROLE is wanted with --explain"),
            (["--records", "d.txt", "--explain", "", "--role", "peer"], "--neighbour is wanted for an empty path"),
            (["--records", "d.txt", "--explain", "{}", "--role", "peer"], "--neighbour is wanted for an empty path"),
            (["--records", "d.txt", "--routes", "routes", "--fail-on", "x"],
             "argument --fail-on: invalid choice: 'x' (choose from 'invalid', 'unknown', 'never')"),
            (["--record"], "argument --records: expected at least one argument"),
            (["--records", "d.txt", "--unheard-of"], "unrecognized arguments: --unheard-of"),
        ):
            with self.subTest(arguments=arguments):
                status, out, err = self.call(*arguments)
                # Newer versions of Python quote choices otherwise.
                told = err.splitlines()[-1].replace("(choose from invalid, unknown, never)", "(choose from 'invalid', 'unknown', 'never')")
                self.assertEqual((status, out, told), (2, "", f"aspa-check: error: {message}"))

    def test_help_names_every_role_and_option(self):
        status, out, err = self.run_tool("--help")
        self.assertEqual((status, err), (0, ""))
        self.assertIn(f"roles       what the neighbour is to us: {', '.join(ROLES)}.\n", out)

    def test_progress(self):
        told = io.StringIO()
        Progress(every=0, out=told).tell("1 of 2")
        Progress(every=1000, out=told).tell("not yet")
        Progress(quiet=True, every=0, out=told).tell("never")
        self.assertEqual(told.getvalue(), "aspa-check: 1 of 2\n")

    def test_progress_of_a_long_input(self):
        # The clock stands two seconds apart at each look.
        self.write("d.txt", REGISTER_D)
        self.write("routes", "10.0.0.0/24|20|20 10\n" * 70000)
        self.write("clock.py", "import itertools, sys, time\ntime.monotonic = itertools.count(0, 2.0).__next__\n"
                   "sys.path.insert(0, sys.argv.pop(1))\nfrom aspa_check.cli import main\nsys.exit(main(sys.argv[1:]))\n")
        command = [sys.executable, "clock.py", TOOLS, "--records", "d.txt", "--routes", "routes", "--default-role", "customer"]
        done = subprocess.run(command, capture_output=True, text=True, timeout=60, check=False)
        self.assertEqual((done.returncode, done.stderr), (0, "aspa-check: 65,536 routes read\naspa-check: batches of paths judged: 1\n"))
        done = subprocess.run([*command, "--quiet"], capture_output=True, text=True, timeout=60, check=False)
        self.assertEqual((done.returncode, done.stderr), (0, ""))


class Paths(Case):
    def test_segments(self):
        for text, wanted in (
            ("", ()),
            ("20 10", ((2, (20, 10)),)),
            ("20 {10}", ((2, (20,)), (1, (10,)))),
            ("{10 20} 30 {40}", ((1, (10, 20)), (2, (30,)), (1, (40,)))),
            ("(1 2) [3 4] {} 5", ((3, (1, 2)), (4, (3, 4)), (1, ()), (2, (5,)))),
            ("4294967295", ((2, (4294967295,)),)),
            ("65535.65535 0.1", ((2, (4294967295, 1)),)),
        ):
            with self.subTest(text=text):
                self.assertEqual(segments(text), wanted)
                self.assertEqual(segments(written(wanted)), wanted)

    def test_attribute(self):
        self.assertEqual(attribute(()), b"")
        # Vector A of the rules.
        self.assertEqual(attribute(segments("20 10")).hex(), "0202000000140000000a")
        self.assertEqual(attribute(segments("20 {10}")).hex(), "02010000001401010000000a")
        # 256 numbers are a segment of 255 and one of 1.
        held = attribute(segments("7 " * 256))
        self.assertEqual((held[:2], held[1022:1024], len(held)), (b"\x02\xff", b"\x02\x01", 1028))

    def test_merged(self):
        self.assertEqual(merged(segments("20 20 {20} 10 20 20")), (20, 10, 20))

    def test_a_set_of_256(self):
        self.write("d.txt", REGISTER_D)
        numbers = " ".join(map(str, range(1, 257)))
        self.write("routes", f"10.0.0.0/24|20|20 {{{numbers}}}\n")
        self.says(2, ["routes, line 1: a segment of 256 numbers: its count is one byte", "bad lines, which are in no count: 1"],
                  "--records", "d.txt", "--routes", "routes", "--default-role", "customer")
