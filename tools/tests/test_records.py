"""Records in: every format, several sources, what is refused, every error."""

import gzip
import json
import os
import subprocess
import sys

from helper import REGISTER_D, TOOLS, Case

# Judged by these records, 20 10 from a customer says of AS10 whether AS20 is its provider, and by which file.
LISTS_30 = "20 <x- 10: AS10 lists AS30 and not AS20 (source {})"
NO_RECORD = "Unknown  10.0.0.0/24  AS20  20 <?- 10: AS10 has no record"
UNJUDGED = "a record that cannot be read might be any customer's: nothing is judged"

RPKI_CLIENT = {
    "metadata": {"buildmachine": "vm", "aspas": 2},
    "roas": [{"asn": 10, "prefix": "10.0.0.0/8", "maxLength": 8, "ta": "ripe", "expires": 1}],
    "aspas": [{"customer_asid": 10, "expires": 1700000000, "providers": [30, 40]}, {"customer_asid": 4294967295, "providers": [1]}],
}
ROUTINATOR = {
    "metadata": {"generated": 1},
    "aspas": [{"customer": "AS10", "providers": ["AS30", "AS40"], "ta": "ripe"}, {"customer": "AS4294967295", "providers": ["1"]}],
}
BOTH = "20 <x- 10: AS10 lists AS30, AS40 and not AS20 (source {})"


class Formats(Case):
    def test_rpki_client(self):
        self.write_json("rpki.json", RPKI_CLIENT)
        self.assertEqual(self.judged(["rpki.json"], "20 10"), BOTH.format("rpki.json"))

    def test_rpki_client_with_old_lists(self):
        # A member twice by both names is ambiguous, one by either name is not.
        self.write_json("rpki.json", {"aspas": [{"customer_asid": "10", "providers": ["30", 40]}]})
        self.assertEqual(self.judged(["rpki.json"], "20 10"), BOTH.format("rpki.json"))

    def test_routinator_with_as(self):
        self.write_json("r.json", ROUTINATOR)
        self.assertEqual(self.judged(["r.json"], "20 10"), BOTH.format("r.json"))

    def test_routinator_without_as(self):
        self.write("r.json", json.dumps(ROUTINATOR).replace("AS", ""))
        self.assertEqual(self.judged(["r.json"], "20 10"), BOTH.format("r.json"))

    def test_json_with_spaces_before_it(self):
        self.write("r.json", "\n \t" + json.dumps(ROUTINATOR))
        self.assertEqual(self.judged(["r.json"], "20 10"), BOTH.format("r.json"))

    def test_plain_lines_as_people_write_them(self):
        for text in (
            "10: 30 40\n", "AS10: AS30 AS40\n", "as10:as30,as40", "  10 :  40,\t30,40 30 \r\n", "# all of them\n\n10: 30 40 # both\n",
            "0.10: 0.30 0.40\n", "10:30\n10:40\n10: 30\n", "0010: 00030 40\n", "# \u00fcber \u2028 10: 20\n10: 30 40\n",
        ):
            with self.subTest(text=text):
                self.write("plain.txt", text)
                self.assertEqual(self.judged(["plain.txt"], "20 10"), BOTH.format("plain.txt"))

    def test_an_entry_twice_is_united(self):
        self.write_json("r.json", {"aspas": [{"customer": 10, "providers": [40, 30, 40]}, {"customer": "AS10", "providers": [30]}]})
        self.assertEqual(self.judged(["r.json"], "20 10"), BOTH.format("r.json"))

    def test_no_records_at_all(self):
        for text in ("", "# none\n", '{"aspas": []}'):
            self.write("none", text)
            self.assertEqual(self.judged(["none"], "20 10"), NO_RECORD)

    def test_asdot(self):
        self.write("plain.txt", "1.10: 65536.0\n1.10: 1.11\n")
        self.says(2, ["plain.txt, line 1: '65536.0' is not an AS number: both halves are below 65536", UNJUDGED],
                  "--records", "plain.txt", "--explain", "20 10", "--role", "peer")
        self.write("plain.txt", "1.10: 1.11\n")
        self.assertEqual(self.judged(["plain.txt"], "20 65546"), "20 <x- 65546: AS65546 lists AS65547 and not AS20 (source plain.txt)")

    def test_packed_and_from_standard_input(self):
        text = json.dumps(RPKI_CLIENT)
        for name in ("r.json.gz", "r.json.bz2", "named-otherwise.gz"):
            self.write(name, text)
            self.assertEqual(self.judged([name], "20 10"), BOTH.format(name))
        # What it is goes by its first bytes and not by its name.
        os.rename("r.json.gz", "r.json")
        self.assertEqual(self.judged(["r.json"], "20 10"), BOTH.format("r.json"))
        self.write("routes", "10.0.0.0/24|20|20 10\n")
        for held in (text.encode(), gzip.compress(text.encode())):
            status, out, err = self.run_tool("--records", "-", "--routes", "routes", "--default-role", "peer", stdin=held)
            self.assertEqual((status, err), (1, ""))
            self.assertTrue(out.endswith("AS20  " + BOTH.format("standard input") + "\n"), out)

    def test_closed_standard_input(self):
        done = subprocess.run(
            ["sh", "-c", 'exec "$@" <&-', "sh", sys.executable, os.path.join(TOOLS, "aspa-check"), "--records", "-", "--explain", "1", "--role", "peer"],
            capture_output=True, text=True, timeout=60, check=False,
        )
        self.assertEqual((done.returncode, done.stderr), (2, "aspa-check: standard input is closed\n"))


class Sources(Case):
    def test_two_files_of_one_customer_are_both_named(self):
        self.write("a.txt", "10: 30 50\n")
        self.write("b.txt", "10: 40 30\n")
        self.assertEqual(self.judged(["a.txt", "b.txt"], "20 10"),
                         "20 <x- 10: AS10 lists AS30, AS40, AS50 and not AS20 (sources a.txt and b.txt)")
        # Either file is enough for Valid.
        for number in (30, 40, 50):
            self.assertEqual(self.judged(["a.txt", "b.txt"], f"{number} 10"), "Valid")

    def test_files_of_one_name_are_named_as_given(self):
        for name in ("one", "two"):
            os.mkdir(name)
        self.write("one/r.txt", "10: 30\n")
        self.write("two/r.txt", "11: 30\n")
        self.assertEqual(self.judged(["one/r.txt", "two/r.txt"], "20 10"), LISTS_30.format("one/r.txt"))
        self.assertEqual(self.judged(["one/r.txt"], "20 10"), LISTS_30.format("r.txt"))

    def test_eight_files_and_no_more(self):
        names = [self.write(f"r{i}.txt", f"10: {30 + i}\n") for i in range(9)]
        listed = ", ".join(f"AS{30 + i}" for i in range(8))
        files = " and ".join(names[:8])
        self.assertEqual(self.judged(names[:8], "20 10"), f"20 <x- 10: AS10 lists {listed} and not AS20 (sources {files})")
        for i in range(8):
            self.assertEqual(self.judged(names[:8], f"{30 + i} 10"), "Valid")
        self.says(2, "there are more than 8 files: each is a source, and a register has 8",
                  "--records", *names, "--explain", "20 10", "--role", "peer")

    def test_records_may_be_given_several_times(self):
        self.write("a.txt", "10: 30\n")
        self.write("b.txt", "10: 40\n")
        self.assertEqual(self.judged(["a.txt", "--records", "b.txt"], "20 10"),
                         "20 <x- 10: AS10 lists AS30, AS40 and not AS20 (sources a.txt and b.txt)")

    def test_the_heading_counts_customers(self):
        self.write("a.txt", "10: 30\n10: 40\n11: 5\n")
        self.write("b.txt", "10: 30\n")
        self.write("routes", "10.0.0.0/24|30|30 10\n")
        _, out, _ = self.call("--records", "a.txt", "b.txt", "--routes", "routes", "--default-role", "peer")
        self.assertEqual(out.splitlines()[0], "Records: a.txt 2 records; b.txt 1 record")

    def test_a_long_list_is_cut_in_words_only(self):
        self.write("a.txt", "10: " + " ".join(map(str, range(100, 356))))
        listed = ", ".join(f"AS{number}" for number in range(100, 108))
        self.assertEqual(self.judged(["a.txt"], "20 10"), f"20 <x- 10: AS10 lists {listed}, 248 more and not AS20 (source a.txt)")
        self.assertEqual(self.judged(["a.txt"], "355 10"), "Valid")


class Errors(Case):
    def errors(self, cases, name):
        for text, messages in cases:
            with self.subTest(text=text[:80]):
                self.write(name, text)
                self.says(2, messages, "--records", name, "--explain", "20 10", "--role", "peer")

    def test_plain_lines(self):
        self.errors([
            ("10: 20\n10 30\n", ["r.txt, line 2: '10 30' is not CUSTOMER: PROVIDER PROVIDER", UNJUDGED]),
            ("\n# x\n10: 20 thirty\n", ["r.txt, line 3: 'thirty' is not an AS number", UNJUDGED]),
            ("ten: 20", ["r.txt, line 1: 'ten' is not an AS number", UNJUDGED]),
            (": 20", ["r.txt, line 1: '' is not an AS number", UNJUDGED]),
            ("10: -20", ["r.txt, line 1: '-20' is not an AS number", UNJUDGED]),
            ("10: 2.5.1", ["r.txt, line 1: '2.5.1' is not an AS number", UNJUDGED]),
            ("10: 4294967296", ["r.txt, line 1: '4294967296' is not an AS number: it is above 4294967295", UNJUDGED]),
            ("10: " + "9" * 25, ["r.txt, line 1: '" + "9" * 25 + "' is not an AS number", UNJUDGED]),
            ("10: 20: 30", ["r.txt, line 1: '20:' is not an AS number", UNJUDGED]),
            ("10: \u0662\u0660", ["r.txt, line 1: '\\u0662\\u0660' is not an AS number", UNJUDGED]),
            ("10: A\u017f20", ["r.txt, line 1: 'A\\u017f20' is not an AS number", UNJUDGED]),
            ("a\nb: 1\n10: 20\nc", [
                "r.txt, line 1: 'a' is not CUSTOMER: PROVIDER PROVIDER", "r.txt, line 2: 'b' is not an AS number",
                "r.txt, line 4: 'c' is not CUSTOMER: PROVIDER PROVIDER", UNJUDGED,
            ]),
            # Lines are those that an editor counts.
            ("# \u2028 \x0c \x1c\nx\n", ["r.txt, line 2: 'x' is not CUSTOMER: PROVIDER PROVIDER", UNJUDGED]),
            ("x" * 100, ["r.txt, line 1: '" + "x" * 60 + "...' is not CUSTOMER: PROVIDER PROVIDER", UNJUDGED]),
        ], "r.txt")

    def test_json_that_is_none(self):
        self.errors([
            ('{"aspas": [\n  {"customer": 1,}\n]}', "r.json, line 2: not JSON: Expecting property name enclosed in double quotes"),
            ('{"aspas": [', "r.json, line 1: not JSON: Expecting value"),
            ('{"aspas": []}\n{}', "r.json, line 2: not JSON: Extra data"),
            ('{"roas": []}', 'r.json: there is no list "aspas" in it, which rpki-client and Routinator write'),
            ('{"aspas": {}}', 'r.json: there is no list "aspas" in it, which rpki-client and Routinator write'),
            ('[{"customer": 1, "providers": [2]}]', 'r.json: there is no list "aspas" in it, which rpki-client and Routinator write'),
            ('{"aspas": [], "aspas": [{"customer": 1, "providers": [2]}]}', "r.json: the member 'aspas' stands twice in one object"),
            ('{"aspas": [{"customer": 1, "providers": [2], "customer": 3}]}', "r.json: the member 'customer' stands twice in one object"),
            ("[" * 100000, "r.json: not JSON that a validator writes: it is nested too deep"),
        ], "r.json")

    def test_numbers_that_python_does_not_read(self):
        if not hasattr(sys, "get_int_max_str_digits"):
            self.skipTest("this Python reads numbers of any length")
        self.write("r.json", '{"aspas": [{"customer": %s, "providers": [2]}]}' % ("9" * 5000))
        status, _, err = self.call("--records", "r.json", "--explain", "20 10", "--role", "peer")
        self.assertEqual(status, 2)
        self.assertTrue(err.startswith("aspa-check: r.json: not JSON that a validator writes: Exceeds the limit"), err)

    def test_json_entries(self):
        wanted = 'an object with "customer_asid" or "customer", and "providers", is wanted'
        self.errors([
            ('{"aspas": [%s]}' % text, [f"r.json, aspas[0]: {message}", UNJUDGED])
            for text, message in [
                ("7", "this is no object"),
                ("null", "this is no object"),
                ("[10, [20]]", "this is no object"),
                ("{}", wanted),
                ('{"customer": 10}', wanted),
                ('{"providers": [10]}', wanted),
                ('{"customer": 10, "customer_asid": 10, "providers": [20]}', wanted),
                ('{"customer": true, "providers": [20]}', "'True' is not an AS number"),
                ('{"customer": null, "providers": [20]}', "'None' is not an AS number"),
                ('{"customer": 10.0, "providers": [20]}', "'10.0' is not an AS number"),
                ('{"customer": 1e3, "providers": [20]}', "'1000.0' is not an AS number"),
                ('{"customer": NaN, "providers": [20]}', "'nan' is not an AS number"),
                ('{"customer": -1, "providers": [20]}', "'-1' is not an AS number"),
                ('{"customer": 4294967296, "providers": [20]}', "'4294967296' is not an AS number: it is above 4294967295"),
                ('{"customer": [10], "providers": [20]}', "'[10]' is not an AS number"),
                ('{"customer": "", "providers": [20]}', "'' is not an AS number"),
                ('{"customer": "AS 10", "providers": [20]}', "'AS 10' is not an AS number"),
                ('{"customer": "10\\n", "providers": [20]}', "'10\\n' is not an AS number"),
                ('{"customer": "\\ud800", "providers": [20]}', "'\\ud800' is not an AS number"),
                ('{"customer": 10, "providers": "20"}', "'20' is no list of AS numbers"),
                ('{"customer": 10, "providers": null}', "'None' is no list of AS numbers"),
                ('{"customer": 10, "providers": {"v4": [20]}}', "\"{'v4': [20]}\" is no list of AS numbers"),
                ('{"customer": 10, "providers": [20, false]}', "'False' is not an AS number"),
                ('{"customer": 10, "providers": [20, 2.5]}', "'2.5' is not an AS number"),
                ('{"customer": 10, "providers": [[20]]}', "'[20]' is not an AS number"),
                ('{"customer": 10, "providers": ["AS20", "x"]}', "'x' is not an AS number"),
            ]
        ], "r.json")

    def test_every_bad_entry_is_named(self):
        self.write_json("r.json", {"aspas": [1, {"customer": 10, "providers": [20]}, {"customer": "x", "providers": []}]})
        self.says(2, ["r.json, aspas[0]: this is no object", "r.json, aspas[2]: 'x' is not an AS number", UNJUDGED],
                  "--records", "r.json", "--explain", "20 10", "--role", "peer", run=self.run_tool)

    def test_files_that_cannot_be_read(self):
        os.mkdir("directory")
        self.write("latin.txt", b"# caf\xe9\n10: 20\n")
        packed = gzip.compress(REGISTER_D.encode() * 100)
        self.write("cut", packed[: len(packed) // 2])
        self.write("bad", packed[:20] + bytes(10) + packed[30:])
        self.write("rest", packed + b"more")
        for name, message in (
            ("none", "none: No such file or directory"),
            ("directory", "directory: Is a directory"),
            ("latin.txt", "latin.txt: byte 5 is no UTF-8"),
            ("cut", "cut: Compressed file ended before the end-of-stream marker was reached"),
            ("rest", "rest: Not a gzipped file (b'mo')"),
        ):
            with self.subTest(name=name):
                self.says(2, message, "--records", name, "--explain", "20 10", "--role", "peer")
        status, _, err = self.call("--records", "bad", "--explain", "20 10", "--role", "peer")
        self.assertEqual((status, err[:17]), (2, "aspa-check: bad: "))

    def test_the_limit_of_complaints(self):
        self.write("r.txt", "x\n" * 1500)
        status, _, err = self.call("--records", "r.txt", "--explain", "20 10", "--role", "peer")
        lines = err.splitlines()
        self.assertEqual((status, len(lines)), (2, 1001))
        self.assertEqual(lines[999], "aspa-check: r.txt, line 1000: 'x' is not CUSTOMER: PROVIDER PROVIDER")
        self.assertEqual(lines[1000], "aspa-check: 1000 bad lines: this is not what it should be")


class Refused(Case):
    GO_ON = "the filter refuses these records; --skip-refused goes on without their customers"
    LONG = " ".join(map(str, range(1000, 1257)))
    CASES = [
        ("10: 20 10\n", "AS10: the customer lists itself (row 6)"),
        (f"10: {LONG}\n", "AS10: 257 providers are more than 256 (row 6)"),
        (f"10: {LONG} 2000\n", "AS10: 258 providers are more than 256 (row 6)"),
        (f"10: 10 {LONG}\n", "AS10: the customer lists itself (row 6)"),
        ("10:\n", "AS10: there are no providers (row 6)"),
        ("0: 20\n", "AS0: the customer is 0 (row 5)"),
        ("0:\n", "AS0: the customer is 0 (row 5)"),
    ]

    def test_each_is_shown_and_nothing_is_judged(self):
        self.write("routes", "10.0.0.0/24|20|20 10\n")
        for text, message in self.CASES:
            with self.subTest(text=text[:20]):
                self.write("r.txt", "# one\n" + text)
                out = self.says(2, [f"r.txt, line 2: {message}", self.GO_ON],
                                "--records", "r.txt", "--routes", "routes", "--default-role", "customer")
                self.assertEqual(out, "")

    def test_256_are_filed_and_doubles_do_not_count(self):
        self.write("r.txt", "10: " + " ".join(map(str, range(1000, 1256))) + " 1000 1001")
        self.assertEqual(self.judged(["r.txt"], "1255 10"), "Valid")

    def test_0_beside_others_is_filed(self):
        self.write("r.txt", "10: 0 30\n")
        self.assertEqual(self.judged(["r.txt"], "20 10"), "20 <x- 10: AS10 lists AS0, AS30 and not AS20 (source r.txt)")

    def test_doubles_of_one_file_are_refused_together(self):
        # Each alone would be filed, both together are too many; and the place names both.
        self.write("r.txt", "10: " + " ".join(map(str, range(1000, 1200))) + "\n11: 5\n10: " + " ".join(map(str, range(1100, 1300))))
        self.says(2, ["r.txt, line 1, line 3: AS10: 300 providers are more than 256 (row 6)", self.GO_ON],
                  "--records", "r.txt", "--explain", "20 10", "--role", "customer")

    def test_all_of_several(self):
        self.write_json("r.json", {"aspas": [
            {"customer": 10, "providers": [10]}, {"customer": 11, "providers": [1]}, {"customer": 12, "providers": []}]})
        self.write("r.txt", "13: 13\n")
        self.says(2, [
            "r.json, aspas[0]: AS10: the customer lists itself (row 6)", "r.json, aspas[2]: AS12: there are no providers (row 6)",
            "r.txt, line 1: AS13: the customer lists itself (row 6)", self.GO_ON,
        ], "--records", "r.json", "r.txt", "--explain", "20 10", "--role", "customer", run=self.run_tool)

    def test_skipped_with_all_lists_of_the_customer(self):
        self.write("routes", "10.0.0.0/24|20|20 10\n10.0.1.0/24|20|20 11\n")
        for text, message in self.CASES[:5]:
            with self.subTest(text=text[:20]):
                self.write("a.txt", "11: 30\n" + text)
                # Alone this would make 20 10 Valid; as the other list is left out, so is this.
                self.write("b.txt", "10: 20\n")
                status, out, err = self.call(
                    "--records", "a.txt", "b.txt", "--routes", "routes", "--default-role", "customer", "--skip-refused")
                self.assertEqual((status, err), (1, ""))
                self.assertEqual(out.splitlines()[:3], [
                    "Records: a.txt 2 records; b.txt 1 record", f"Left out, with all lists of its customer: a.txt, line 2: {message}",
                    "Routes: 2, of which 2 differ in path or neighbour, from routes"])
                self.assertEqual(out.splitlines()[-2:], [
                    "Unknown  10.0.0.0/24  AS20  20 <?- 10: AS10 has no record",
                    "Invalid  10.0.1.0/24  AS20  20 <x- 11: AS11 lists AS30 and not AS20 (source a.txt)"])

    def test_skipped_ones_are_told_by_explain_and_what_if_too(self):
        self.write("r.txt", "10: 10\n")
        self.write("routes", "10.0.0.0/24|20|20 10\n")
        left_out = "left out, with all lists of its customer: r.txt, line 1: AS10: the customer lists itself (row 6)"
        self.says(0, left_out, "--records", "r.txt", "--skip-refused", "--explain", "20 10", "--role", "customer")
        out = self.says(0, left_out, "--records", "r.txt", "--skip-refused", "--routes", "routes", "--default-role", "customer",
                        "--what-if", "10: 20")
        self.assertEqual(out.splitlines()[-1], "Unknown -> Valid  10.0.0.0/24  AS20  20 10")

    def test_skipped_in_json(self):
        self.write("r.txt", "10: 10\n")
        self.write("routes", "10.0.0.0/24|20|20 10\n")
        _, out, _ = self.call("--records", "r.txt", "--skip-refused", "--routes", "routes", "--default-role", "customer", "--json")
        self.assertEqual(json.loads(out)["refused"],
                         [{"customer": 10, "row": 6, "label": "r.txt", "place": "line 1", "why": "the customer lists itself",
                           "override": False, "left_out": "all lists"}])

    def test_a_mark_at_the_start_of_a_text(self):
        # Some editors put a byte order mark there.
        self.write("r.json", b"\xef\xbb\xbf" + json.dumps({"aspas": [{"customer": "AS10", "providers": ["AS20"]}]}).encode())
        self.assertEqual(self.judged(["r.json"], "20 10"), "Valid")
