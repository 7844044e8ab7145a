"""The report: the vectors of the rules, counts, exit statuses, JSON."""

import json
import os
import subprocess
import sys

from helper import REGISTER_D, TOOLS, Case

# The vectors of docs/RULES.md over register D: name, role, neighbour, path, verdict, and what is said of it.
VECTORS = [
    ("A", "customer", 20, "20 10", "Valid", ""),
    ("B", "customer", 40, "40 20 10", "Valid", ""),
    ("C", "customer", 50, "50 20 10", "Invalid", "50 <x- 20 10: AS20 lists AS40 and not AS50 (source d.txt)"),
    ("D", "peer", 30, "30 60 10", "Invalid", "30 60 <x- 10: AS10 lists AS20, AS30 and not AS60 (source d.txt)"),
    ("E", "customer", 30, "30 60", "Unknown", "30 <?- 60: AS60 has no record"),
    ("F", "provider", 50, "50 40 20 10", "Valid", ""),
    ("G", "provider", 20, "20 10 30", "Unknown",
     "20 -x> 10 <?- 30: AS30 has no record; AS20 lists AS40 and not AS10 (source d.txt)"),
    ("H", "provider", 20, "20 10 40", "Invalid",
     "20 -x> 10 <x- 40: AS40 lists AS0 alone and not AS10 (source d.txt); AS20 lists AS40 and not AS10 (source d.txt)"),
    ("I", "provider", 50, "50 20", "Valid", ""),
    ("J", "mutual-transit", 80, "80 70", "Valid", ""),
    ("K", "customer", 30, "20 10", "Invalid", "20 10: first AS is not the neighbour"),
    ("L", "route-server", 30, "20 10", "Valid", ""),
]


class Vectors(Case):
    def setUp(self):
        super().setUp()
        self.write("d.txt", REGISTER_D)

    def judge(self, role, neighbour, path, *records):
        self.write("routes", f"10.0.0.0/24|{neighbour}|{path}\n")
        lines = self.reported("--records", "d.txt", *records, "--routes", "routes", "--default-role", role)
        return lines[0] if lines else "Valid"

    def test_a_to_l(self):
        for name, role, neighbour, path, verdict, said in VECTORS:
            with self.subTest(name=name):
                wanted = "Valid" if verdict == "Valid" else f"{verdict}  10.0.0.0/24  AS{neighbour}  {said}"
                self.assertEqual(self.judge(role, neighbour, path), wanted)

    def test_m(self):
        # 30 publishes that it has no providers.
        self.assertEqual(self.judge("provider", 20, "20 10 30", self.write("m.txt", "30: 0\n")), (
            "Invalid  10.0.0.0/24  AS20  20 -x> 10 <x- 30: AS30 lists AS0 alone and not AS10 (source m.txt);"
            " AS20 lists AS40 and not AS10 (source d.txt)"))

    def test_n(self):
        # Another source lists 50 for 20.
        self.write("n.txt", "20: 50\n")
        self.assertEqual(self.judge("customer", 50, "50 20 10", "n.txt"), "Valid")
        self.assertEqual(self.judge("customer", 40, "40 20 10", "n.txt"), "Valid")
        self.assertEqual(self.judge("customer", 60, "60 20 10", "n.txt"),
                         "Invalid  10.0.0.0/24  AS60  60 <x- 20 10: AS20 lists AS40, AS50 and not AS60 (sources d.txt and n.txt)")

    def test_o(self):
        # A run that goes on over a segment's end: here, over that of a sequence of 255.
        self.assertEqual(self.judge("customer", 20, "20 20 10"), "Valid")
        self.assertEqual(self.judge("customer", 20, "20 " * 256 + "10"), "Valid")

    def test_all_at_once(self):
        # Those of which each neighbour has one role.
        held = [vector for vector in VECTORS if vector[0] in "BCDEGH"]
        self.write("routes", "".join(f"10.0.{i}.0/24|{v[2]}|{v[3]}\n" for i, v in enumerate(held)))
        arguments = ["--records", "d.txt", "--routes", "routes", "--role", "30=peer", "--role", "20=provider", "--default-role", "customer"]
        status, out, err = self.run_tool(*arguments)
        self.assertEqual((status, err), (1, ""))
        self.assertEqual(out, "\n".join([
            "Records: d.txt 6 records",
            "Routes: 6, of which 6 differ in path or neighbour, from routes",
            "",
            "neighbour  role           Valid     Invalid     Unknown  no verdict",
            "AS20       provider           0           1           1           0",
            "AS30       peer               0           1           1           0",
            "AS40       customer           1           0           0           0",
            "AS50       customer           0           1           0           0",
            "all                           1           3           2           0",
            "",
            *(f"{v[4]}  10.0.{i}.0/24  AS{v[2]}  {v[5]}" for i, v in enumerate(held) if v[4] != "Valid"),
            "",
        ]))


class Counts(Case):
    def setUp(self):
        super().setUp()
        self.write("d.txt", REGISTER_D)

    def test_equal_routes_count_each(self):
        text = "".join(f"10.{i >> 8}.{i & 255}.0/24|{20 if i % 3 else 50}|{'20 10' if i % 3 else '50 20 10'}\n" for i in range(3000))
        self.write("routes", text + "10.99.0.0/24|4200000000|4200000000 0\n")
        status, out, _ = self.call("--records", "d.txt", "--routes", "routes", "--default-role", "route-server-client", "--summary")
        self.assertEqual((status, out), (1, "\n".join([
            "Records: d.txt 6 records",
            "Routes: 3,001, of which 3 differ in path or neighbour, from routes",
            "",
            "neighbour     role                      Valid     Invalid     Unknown  no verdict",
            "AS20          route-server-client       2,000           0           0           0",
            "AS50          route-server-client           0       1,000           0           0",
            "AS4200000000  route-server-client           0           0           0           1",
            "all                                     2,000       1,000           0           1",
            "",
        ])))

    def test_exit_status(self):
        routes = {
            "Valid": "10.0.0.0/24|20|20 10\n", "Unknown": "10.0.0.0/24|30|30 60\n", "Invalid": "10.0.0.0/24|50|50 20 10\n",
            "Ground": "10.0.0.0/24|50|20 10\n", "no verdict": "10.0.0.0/24|50|50 0\n",
        }
        for fail_on, failing in (
            (None, ("Invalid", "Ground", "no verdict")), ("invalid", ("Invalid", "Ground", "no verdict")),
            ("unknown", ("Invalid", "Ground", "no verdict", "Unknown")), ("never", ()),
        ):
            for name, text in routes.items():
                # A Valid one beside it changes nothing.
                self.write("routes", routes["Valid"] + text)
                for more in ((), ("--summary",), ("--json",)):
                    with self.subTest(fail_on=fail_on, name=name, more=more):
                        status, _, err = self.call("--records", "d.txt", "--routes", "routes", "--default-role", "customer",
                                                   *(("--fail-on", fail_on) if fail_on else ()), *more)
                        self.assertEqual((status, err), (1 if name in failing else 0, ""))

    def test_the_status_of_a_process(self):
        for text, status in (("10.0.0.0/24|20|20 10\n", 0), ("10.0.0.0/24|50|50 20 10\n", 1), ("x\n", 2)):
            self.write("routes", text)
            self.assertEqual(self.run_tool("--records", "d.txt", "--routes", "routes", "--default-role", "customer")[0], status)


class Json(Case):
    def setUp(self):
        super().setUp()
        self.write("d.txt", REGISTER_D)
        self.write("e.txt", "20: 70\n")
        self.write("routes", "".join(f"10.0.{i}.0/24|{v[2]}|{v[3]}\n" for i, v in enumerate(VECTORS)) + "10.0.99.0/24|50|50 0\n")

    def report(self, role, *more):
        status, out, err = self.run_tool("--records", "d.txt", "e.txt", "--routes", "routes", "--default-role", role, *more)
        self.assertEqual((status, err), (1, ""))
        return out

    def test_the_same_as_the_text(self):
        for role in ("customer", "provider"):
            with self.subTest(role=role):
                text, held = self.report(role), json.loads(self.report(role, "--json"))
                lines = text.split("\n\n", 2)[2].splitlines()
                self.assertEqual(len(lines), len(held["not_valid"]))
                for line, route in zip(lines, held["not_valid"]):
                    begin, end = f"{route['verdict']}  {route['prefix']}  AS{route['neighbour']}  ", f": {route['reason']}"
                    self.assertTrue(line.startswith(begin) and line.endswith(end), (line, route))
                    marked = line[len(begin) : -len(end)]
                    self.assertEqual([word for word in marked.split() if word.isdigit()], route["path"].split())
                    self.assertEqual(len(route.get("hops", ())), sum(not word.isdigit() for word in marked.split()))
                    self.assertEqual((route["role"], route["merged"]), (role, [int(word) for word in route["path"].split()]))
                rows = [line.split() for line in text.split("\n\n")[1].splitlines()[1:]]
                verdicts = ("Valid", "Invalid", "Unknown", "no verdict")
                self.assertEqual(rows, [
                    *([f"AS{row['neighbour']}", row["role"], *(str(row[v]) for v in verdicts)] for row in held["neighbours"]),
                    ["all", *(str(held["counts"][v]) for v in verdicts)]])
                self.assertEqual((held["routes"], held["different"]), (13, 12))

    def test_one_of_each(self):
        held = {route["prefix"]: route for route in json.loads(self.report("provider", "--json"))["not_valid"]}
        # Vector H.
        self.assertEqual(held["10.0.7.0/24"], {
            "prefix": "10.0.7.0/24", "neighbour": 20, "role": "provider", "path": "20 10 40", "merged": [20, 10, 40], "verdict": "Invalid",
            "reason": "AS40 lists AS0 alone and not AS10 (source d.txt);"
                      " AS20 lists AS40, AS70 and not AS10 (sources d.txt and e.txt)",
            "places": [2, 2], "gap": 2,
            "hops": [
                {"from": 40, "to": 10, "upward": True, "hop": "Not Provider+", "override": False, "lists": {"d.txt": [0]}},
                {"from": 20, "to": 10, "upward": False, "hop": "Not Provider+", "override": False, "lists": {"d.txt": [40], "e.txt": [70]}},
            ]})
        # Vector G.
        self.assertEqual([held["10.0.6.0/24"][name] for name in ("verdict", "places", "gap")], ["Unknown", [1, 3], 2])
        self.assertEqual([hop["hop"] for hop in held["10.0.6.0/24"]["hops"]], ["No Attestation", "Not Provider+"])
        self.assertEqual(held["10.0.10.0/24"], {
            "prefix": "10.0.10.0/24", "neighbour": 30, "role": "provider", "path": "20 10", "merged": [20, 10], "verdict": "Invalid",
            "reason": "first AS is not the neighbour", "ground": 2})
        self.assertEqual(held["10.0.99.0/24"], {
            "prefix": "10.0.99.0/24", "neighbour": 50, "role": "provider", "path": "50 0", "merged": [50, 0], "verdict": "no verdict",
            "reason": "refused by row 16: an AS number is 0", "row": 16})

    def test_summary(self):
        held = json.loads(self.report("provider", "--json", "--summary"))
        whole = json.loads(self.report("provider", "--json"))
        self.assertEqual(held, {**whole, "not_valid": []})
        self.assertEqual(whole["records"], [
            {"file": "d.txt", "what": "records", "customers": 6}, {"file": "e.txt", "what": "records", "customers": 1}])

    def test_nothing_to_tell(self):
        self.write("routes", "")
        _, out, _ = self.call("--records", "d.txt", "--routes", "routes", "--default-role", "peer", "--json")
        self.assertEqual(json.loads(out), {
            "records": [{"file": "d.txt", "what": "records", "customers": 6}], "refused": [], "notes": [], "bad_lines": [], "routes": 0,
            "different": 0, "counts": {"Valid": 0, "Invalid": 0, "Unknown": 0, "no verdict": 0}, "neighbours": [], "not_valid": []})


class Writing(Case):
    def setUp(self):
        super().setUp()
        self.write("d.txt", REGISTER_D)
        self.write("routes", "".join(f"10.{i >> 8}.{i & 255}.0/24|50|50 20 10\n" for i in range(5000)))

    def shell(self, text):
        """What a shell says of a command in which "$@" is the tool with its arguments."""
        command = [sys.executable, os.path.join(TOOLS, "aspa-check"), "--records", "d.txt", "--routes", "routes", "--default-role", "peer"]
        done = subprocess.run(["sh", "-c", text, "sh", *command], capture_output=True, text=True, timeout=60, check=False)
        return done.stdout, done.stderr

    def test_broken_pipe(self):
        # The report is longer than a pipe holds.
        for more in ("", "--json "):
            out, err = self.shell(f'{{ "$@" {more}; echo "status $?" >&2; }} | head -n 1')
            self.assertEqual((len(out.splitlines()), err), (1, "status 141\n"))

    def test_full_disk(self):
        out, err = self.shell('"$@" >/dev/full; echo "status $?"')
        self.assertEqual((out, err), ("status 2\n", "aspa-check: [Errno 28] No space left on device\n"))

    def test_names_that_are_no_text(self):
        name = os.fsdecode(b"\xff\xe9.txt")
        self.write(name, REGISTER_D)
        self.write("routes", "10.0.0.0/24|50|50 20 10\n")
        status, out, err = self.run_tool("--records", name, "--routes", "routes", "--default-role", "peer", PYTHONIOENCODING="utf-8:strict")
        self.assertEqual((status, err), (1, ""))
        self.assertEqual(out.splitlines()[-1],
                         "Invalid  10.0.0.0/24  AS50  50 <x- 20 10: AS20 lists AS40 and not AS50 (source \\udcff\\udce9.txt)")
        status, _, err = self.run_tool("--records", name, "--explain", "50 20 10", "--role", "peer", "--svg", "x.svg")
        self.assertEqual((status, err), (1, ""))
