"""--explain: one path hop by hop, as text, as JSON and as a picture."""

import json
import os
import xml.etree.ElementTree as xml

from helper import REGISTER_D, Case

from aspa_check.explain import rise

SVG = "{http://www.w3.org/2000/svg}"


class Explained(Case):
    def setUp(self):
        super().setUp()
        self.write("d.txt", REGISTER_D)

    def explain(self, path, role, *more, status=0):
        given, out, err = self.call("--records", "d.txt", "--explain", path, "--role", role, *more)
        self.assertEqual((given, err), (status, ""))
        return out.splitlines()

    def test_unknown_downstream(self):
        # As the request has it: vector G.
        status, out, err = self.run_tool("--records", "d.txt", "--explain", "20 10 30", "--role", "provider", "--neighbour", "20")
        self.assertEqual((status, err), (0, ""))
        self.assertEqual(out.splitlines(), [
            "20 -x> 10 <?- 30, from AS20, a provider of ours: Unknown",
            "  merged path: AS(3) is AS20, AS(2) is AS10, AS(1) is AS30",
            "  upward, from the origin towards the neighbour:",
            "    AS(1) to AS(2)  No Attestation  AS30 has no record",
            "    AS(2) to AS(3)  Provider+       AS10 lists AS20 (source d.txt)",
            "    the up-ramp goes from AS(1) to AS(1): K = 1",
            "  downward, from the neighbour's end towards the origin:",
            "    AS(3) to AS(2)  Not Provider+   AS20 lists AS40 and not AS10 (source d.txt)",
            "    AS(2) to AS(1)  Provider+       AS10 lists AS30 (source d.txt)",
            "    the down-ramp goes from AS(3) to AS(3): L = 3",
            "  Unknown: L - K = 2, more than 1, and what lies between the ramps is not ruled out",
        ])

    def test_invalid_downstream(self):
        lines = self.explain("20 10 40", "provider", status=1)
        self.assertEqual(lines[0], "20 -x> 10 <x- 40, from AS20, a provider of ours: Invalid")
        self.assertEqual([lines[5], lines[9]], [
            "    the up-ramp goes from AS(1) to AS(1): K = 1", "    the down-ramp goes from AS(3) to AS(3): L = 3"])
        self.assertEqual(lines[10], (
            "  Invalid: the route stops climbing at AS(1) at the latest, and comes down from AS(3) at the earliest:"
            " u = 2, v = 2, u <= v (L - K = 2)"))

    def test_valid_downstream(self):
        lines = self.explain("50 40 20 10", "provider")
        self.assertEqual(lines[:2], [
            "50 40 20 10, from AS50, a provider of ours: Valid", "  merged path: AS(4) is AS50, AS(3) is AS40, AS(2) is AS20, AS(1) is AS10"])
        self.assertEqual([lines[6], lines[11], lines[12]], [
            "    the up-ramp goes from AS(1) to AS(3): K = 3", "    the down-ramp goes from AS(4) to AS(3): L = 3",
            "  Valid: L - K = 0, at most 1: the ramps meet"])
        # The gap may be 1, and below 0.
        self.assertEqual(self.explain("50 20", "provider")[-1], "  Valid: L - K = 1, at most 1: the ramps meet")
        lines = self.explain("80 70", "mutual-transit")
        self.assertEqual((lines[0], lines[-1]), (
            "80 70, from AS80, a network in mutual transit with us: Valid", "  Valid: L - K = -1, at most 1: the ramps meet"))

    def test_upstream(self):
        self.assertEqual(self.explain("50 20 10", "customer", status=1), [
            "50 <x- 20 10, from AS50, a customer of ours: Invalid",
            "  merged path: AS(3) is AS50, AS(2) is AS20, AS(1) is AS10",
            "  upward, from the origin towards the neighbour:",
            "    AS(1) to AS(2)  Provider+       AS10 lists AS20 (source d.txt)",
            "    AS(2) to AS(3)  Not Provider+   AS20 lists AS40 and not AS50 (source d.txt)",
            "    the up-ramp goes from AS(1) to AS(2): K = 2",
            "  Invalid: the hop from AS(2) to AS(3) does not climb, as every hop of a route from here must",
        ])
        self.assertEqual(self.explain("30 60", "rs-client"), [
            "30 <?- 60, from AS30, a client of our route server: Unknown",
            "  merged path: AS(2) is AS30, AS(1) is AS60",
            "  upward, from the origin towards the neighbour:",
            "    AS(1) to AS(2)  No Attestation  AS60 has no record",
            "    the up-ramp goes from AS(1) to AS(1): K = 1",
            "  Unknown: no hop is Not Provider+, and the hop from AS(1) to AS(2) has no attestation",
        ])
        lines = self.explain("40 20 10", "peer")
        self.assertEqual((lines[0], lines[-2:]), ("40 20 10, from AS40, a peer: Valid", [
            "    the up-ramp goes from AS(1) to AS(3): K = 3", "  Valid: every hop climbs from a customer to its provider"]))

    def test_one_number(self):
        self.assertEqual(self.explain("AS7 7 7", "peer")[1:], [
            "  merged path: AS(1) is AS7", "  upward, from the origin towards the neighbour:",
            "    the up-ramp goes from AS(1) to AS(1): K = 1", "  Valid: there is no hop"])
        self.assertEqual(self.explain("7", "provider")[-3:], [
            "  downward, from the neighbour's end towards the origin:", "    the down-ramp goes from AS(1) to AS(1): L = 1",
            "  Valid: L - K = 0, at most 1: the ramps meet"])

    def test_prepends_are_merged(self):
        self.assertEqual(self.explain("50 50 20 20 10", "customer", status=1)[:2], [
            "50 <x- 20 10, from AS50, a customer of ours: Invalid", "  merged path: AS(3) is AS50, AS(2) is AS20, AS(1) is AS10"])

    def test_grounds_and_refusals(self):
        for path, more, lines in (
            ("20 10", ["--neighbour", "30"], ["20 10, from AS30, a peer: Invalid", "  first AS is not the neighbour"]),
            ("", ["--neighbour", "AS30"], ["(empty), from AS30, a peer: Invalid", "  the path is empty"]),
            ("20 {10,30}", [], ["20 {10,30}, from AS20, a peer: Invalid", "  the path has a set"]),
            ("{20}", [], ["{20}, from AS20, a peer: Invalid", "  the path has a set"]),
            ("20 0 10", [], ["20 0 10, from AS20, a peer: no verdict", "  refused by row 16: an AS number is 0"]),
            ("20 (10) 30", [], ["20 (10) 30, from AS20, a peer: no verdict", "  refused by row 14: a segment is of a confederation"]),
            ("{} 20", [], ["{} 20, from AS20, a peer: no verdict", "  refused by row 15: a segment has no numbers"]),
            ("20 10", ["--neighbour", "0"], ["20 10, from AS0, a peer: no verdict", "  refused by row 10: the neighbour is 0"]),
        ):
            with self.subTest(path=path):
                self.assertEqual(self.explain(path, "peer", *more, status=1), lines)
                # There is something to draw all the same.
                self.explain(path, "peer", *more, "--svg", "x.svg", status=1)
                self.assertIn(lines[1].strip(), [held.text for held in xml.parse("x.svg").iter(SVG + "text")])

    def test_route_server(self):
        self.assertEqual(self.explain("20 10", "rs", "--neighbour", "7")[0], "20 10, from AS7, a route server: Valid")

    def test_roles(self):
        # By the neighbour, by default, and the one given alone before both.
        for more, role in (
            (["--role", "20=provider"], "a provider of ours"), (["--default-role", "peer"], "a peer"),
            (["--role", "20=provider", "--default-role", "peer"], "a provider of ours"),
            (["--role", "20=provider", "--role", "customer"], "a customer of ours"),
        ):
            with self.subTest(more=more):
                _, out, err = self.call("--records", "d.txt", "--explain", "20 10", *more)
                self.assertEqual((out.splitlines()[0], err), (f"20 10, from AS20, {role}: Valid", ""))
        self.says(2, "--role 'peer' is not AS=ROLE", "--records", "d.txt", "--explain", "20", "--role", "customer", "--role", "peer")

    def test_wrong_arguments(self):
        for more, message in (
            (["--explain", "20 x", "--role", "peer"], "'x' is not an AS number"),
            (["--explain", "20 {10", "--role", "peer"], "'}' is missing"),
            (["--explain", "20 10", "--role", "peer", "--neighbour", "y"], "'y' is not an AS number"),
            (["--explain", "20 10", "--role", "friend"],
             "'friend' is no role: customer, peer, provider, route-server, route-server-client, mutual-transit"),
        ):
            with self.subTest(more=more):
                self.says(2, message, "--records", "d.txt", *more)
        self.says(2, "none/x.svg: No such file or directory",
                  "--records", "d.txt", "--explain", "20 10", "--role", "peer", "--svg", "none/x.svg")

    def test_fail_on(self):
        for path, verdict in (("20 10", "Valid"), ("30 60", "Unknown"), ("50 20", "Invalid"), ("50 0", "no verdict")):
            for fail_on, failing in (
                ("invalid", ("Invalid", "no verdict")), ("unknown", ("Unknown", "Invalid", "no verdict")), ("never", ())):
                self.explain(path, "peer", "--fail-on", fail_on, status=1 if verdict in failing else 0)

    def test_overrides_and_several_sources(self):
        self.write("e.txt", "10: 50\n20: 60\n")
        self.write_json("s.json", {"slurmVersion": 2, "validationOutputFilters": {}, "locallyAddedAssertions": {
            "aspaAssertions": [{"customerAsid": 20, "providers": [70]}]}})
        _, out, _ = self.call("--records", "d.txt", "e.txt", "--slurm", "s.json", "--explain", "60 20 10", "--role", "peer")
        self.assertEqual(out.splitlines()[3:5], [
            "    AS(1) to AS(2)  Provider+       AS10 lists AS20 (source d.txt)",
            "    AS(2) to AS(3)  Not Provider+   AS20 lists AS70 and not AS60 (override s.json)"])
        self.write("e.txt", "10: 20\n")
        _, out, _ = self.call("--records", "d.txt", "e.txt", "--explain", "20 10", "--role", "peer")
        self.assertEqual(out.splitlines()[3], "    AS(1) to AS(2)  Provider+       AS10 lists AS20 (sources d.txt and e.txt)")

    def test_notes_about_numbers_on_the_path(self):
        # Without them a record that a filter left out would be missed.
        self.write_json("s.json", {"slurmVersion": 2, "validationOutputFilters": {"aspaFilters": [{"customerAsid": 10}, {"customerAsid": 50}]},
                                   "locallyAddedAssertions": {"aspaAssertions": [{"customerAsid": 20, "providers": [40]}]}})
        lines = self.explain("40 20 10", "customer", "--slurm", "s.json")
        self.assertEqual(lines[-3:], [
            "  Unknown: no hop is Not Provider+, and the hop from AS(1) to AS(2) has no attestation",
            "  note: s.json: the filter for AS10 leaves out the record of d.txt",
            "  note: s.json: the assertion for AS20 hides the record of d.txt"])

    def test_json(self):
        held = json.loads("\n".join(self.explain("20 10 30", "provider", "--json")))
        none = {"from": 30, "to": 10, "upward": True, "hop": "No Attestation", "override": False, "lists": {}}
        other = {"from": 20, "to": 10, "upward": False, "hop": "Not Provider+", "override": False, "lists": {"d.txt": [40]}}
        both = {"hop": "Provider+", "override": False, "lists": {"d.txt": [20, 30]}}
        self.assertEqual(held, {
            "neighbour": 20, "role": "provider", "path": "20 10 30", "merged": [20, 10, 30], "verdict": "Unknown",
            "reason": "AS30 has no record; AS20 lists AS40 and not AS10 (source d.txt)", "places": [1, 3], "gap": 2, "hops": [none, other],
            "k": 1, "upward": [none, {"from": 10, "to": 20, "upward": True, **both}],
            "l": 3, "downward": [other, {"from": 10, "to": 30, "upward": False, **both}]})
        held = json.loads("\n".join(self.explain("40 20 10", "peer", "--json")))
        self.assertEqual((held["verdict"], held["reason"], held["k"], len(held["upward"]), "l" in held), ("Valid", "", 3, 2, False))
        held = json.loads("\n".join(self.explain("7", "provider", "--json")))
        self.assertEqual((held["k"], held["l"], held["gap"], held["upward"], held["downward"]), (1, 1, 0, [], []))
        held = json.loads("\n".join(self.explain("20 {10}", "peer", "--json", status=1)))
        self.assertEqual(held, {"neighbour": 20, "role": "peer", "path": "20 {10}", "merged": [20, 10], "verdict": "Invalid",
                                "reason": "the path has a set", "ground": 3})

    def test_a_path_whose_records_do_not_fit(self):
        # 33 lists of 256 are more than a register holds; what is shown is the files' lists and not those that were filed.
        numbers = list(range(1, 35))
        lists = [f"{x}: {' '.join(map(str, range(1000, 1255)))} {x + 1}\n" for x in numbers[:-1]]
        self.write("d.txt", "".join(lists))
        lines = self.explain(" ".join(map(str, numbers[::-1])), "customer")
        self.assertEqual((lines[3], lines[-1]), (
            "    AS(1) to AS(2)  Provider+       AS1 lists AS2 (source d.txt)", "  Valid: every hop climbs from a customer to its provider"))
        lines = self.explain(" ".join(map(str, numbers)), "customer", status=1)
        listed = ", ".join(f"AS{number}" for number in [33, *range(1000, 1007)])
        self.assertEqual(lines[5], f"    AS(3) to AS(4)  Not Provider+   AS32 lists {listed}, 248 more and not AS31 (source d.txt)")


class Drawn(Case):
    def setUp(self):
        super().setUp()
        self.write("d.txt", REGISTER_D)

    def draw(self, path, role, *more, records="d.txt"):
        _, out, err = self.call("--records", records, "--explain", path, "--role", role, "--svg", "x.svg", *more)
        self.assertEqual(err, "")
        root = xml.parse("x.svg").getroot()
        self.assertEqual(root.tag, SVG + "svg")
        return root, ["".join(held.itertext()) for held in root.iter(SVG + "text")], out

    def test_every_number_and_the_reasons(self):
        for path, role, verdict, reasons, tags in (
            ("20 10 30", "provider", "Unknown", ["AS30 has no record", "AS20 lists AS40 and not AS10 (source d.txt)"], ["AS(3), L", "AS(2)", "AS(1), K"]),
            ("50 20 10", "customer", "Invalid", ["AS20 lists AS40 and not AS50 (source d.txt)"], ["AS(3)", "AS(2), K", "AS(1)"]),
            ("50 40 20 10", "provider", "Valid", ["Valid: L - K = 0, at most 1: the ramps meet"], ["AS(4)", "AS(3), K, L", "AS(2)", "AS(1)"]),
            ("4294967295", "peer", "Valid", ["Valid: there is no hop"], ["AS(1), K"]),
            ("20 10", "peer", "Valid", ["Valid: every hop climbs from a customer to its provider"], ["AS(2), K", "AS(1)"]),
        ):
            with self.subTest(path=path):
                root, texts, out = self.draw(path, role)
                numbers = path.split()
                self.assertEqual(texts[0], out.splitlines()[0].replace(" -x>", "").replace(" <x-", "").replace(" <?-", ""))
                boxes = [text for text in texts if text == "us" or text[:2] == "AS" and text[2:].isdigit()]
                self.assertEqual(boxes, ["us", *(f"AS{number}" for number in numbers)])
                self.assertEqual([text for text in texts if text.startswith("AS(")], tags)
                self.assertEqual(texts[-len(reasons):], reasons)
                self.assertEqual(root.find(SVG + "title").text, f"{path} from AS{numbers[0]}: {verdict}")
                # A line for each hop and one to us; a box for each number and one for us, and the ground.
                self.assertEqual((len(root.findall(SVG + "line")), len(root.findall(SVG + "rect"))), (len(numbers), len(numbers) + 2))

    def test_the_deciding_hops_are_marked(self):
        for path, role, signs in (
            ("20 10 30", "provider", ["\u00d7", "?"]), ("20 10 40", "provider", ["\u00d7", "\u00d7"]), ("50 20 10", "peer", ["\u00d7"]),
            ("30 60", "peer", ["?"]), ("20 10", "peer", []), ("20 {10}", "peer", []),
        ):
            with self.subTest(path=path):
                root, texts, _ = self.draw(path, role)
                self.assertEqual([text for text in texts if text in "\u00d7?"], signs)
                self.assertEqual(len(root.findall(SVG + "circle")), len(signs))

    def test_everything_lies_within_the_picture(self):
        self.write("up.txt", "".join(f"{x}: {x + 1}\n" for x in range(1, 30)))
        for path in (" ".join(map(str, range(30, 0, -1))), " ".join(map(str, range(1, 31))), "7"):
            for role in ("provider", "customer", "peer"):
                root, _, _ = self.draw(path, role, records="up.txt")
                wide, high = float(root.get("width")), float(root.get("height"))
                for box in root.findall(SVG + "rect")[1:]:
                    x, y = float(box.get("x")), float(box.get("y"))
                    self.assertTrue(0 <= x and x + 92 <= wide and 0 <= y and y + 30 <= high, (x, y, wide, high))

    def test_who_is_above_whom(self):
        # By the hop upward and the one downward: none, provider or other.
        levels = {
            ("provider", "none"): 1, ("provider", "other"): 1, ("none", "other"): 1,
            ("none", "provider"): -1, ("other", "provider"): -1, ("other", "none"): -1,
            ("none", "none"): 0, ("provider", "provider"): 0, ("other", "other"): 0,
        }
        for (up, down), level in levels.items():
            self.assertEqual(rise(up, down), level, (up, down))

    def test_a_provider_is_drawn_above_its_customer(self):
        root, texts, _ = self.draw("40 20 10", "peer")
        height = {held.text: float(held.get("y")) for held in root.iter(SVG + "text") if (held.text or "").startswith("AS")}
        self.assertTrue(height["AS40"] < height["AS20"] < height["AS10"])

    def test_names_are_escaped(self):
        name = 'a<b>&"c\'.txt'
        self.write(name, REGISTER_D)
        _, texts, _ = self.draw("50 20 10", "peer", records=name)
        self.assertEqual(texts[-1], f"AS20 lists AS40 and not AS50 (source {name})")

    def test_a_long_path(self):
        path = " ".join(str(20 + i % 2) for i in range(513))
        root, texts, _ = self.draw(path, "peer")
        self.assertEqual(texts[-1], "refused by row 17: the merged path has more than 512 numbers")
        self.assertEqual(len(root.findall(SVG + "rect")), 515)

    def test_json_beside_the_picture(self):
        _, _, out = self.draw("20 10", "peer", "--json")
        self.assertEqual(json.loads(out)["verdict"], "Valid")
        self.assertTrue(os.path.exists("x.svg"))
