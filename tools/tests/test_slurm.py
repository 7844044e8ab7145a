"""Local exceptions: filters, assertions, both ways of counting an assertion, every error."""

import json

from helper import Case


def slurm(filters=(), assertions=(), **more):
    return {
        "slurmVersion": 2,
        "validationOutputFilters": {"prefixFilters": [], "bgpsecFilters": [], "aspaFilters": list(filters)},
        "locallyAddedAssertions": {"prefixAssertions": [], "bgpsecAssertions": [], "aspaAssertions": list(assertions)},
        **more,
    }


class Slurm(Case):
    def setUp(self):
        super().setUp()
        self.write("r.txt", "10: 30\n11: 30\n")
        self.write("routes", "10.0.0.0/24|20|20 10\n10.0.1.0/24|20|20 11\n10.0.2.0/24|30|30 10\n")

    def report(self, *slurms, more=()):
        """The notes, and the lines of routes."""
        for i, held in enumerate(slurms):
            self.write_json(f"s{i}.json", held)
        names = [f"s{i}.json" for i in range(len(slurms))]
        status, out, err = self.call(
            "--records", "r.txt", "--slurm", *names, "--routes", "routes", "--default-role", "customer", *more)
        self.assertEqual((err, status in (0, 1)), ("", True))
        head, _, lines = [*out.split("\n\n", 2), ""][:3]
        return [line[6:] for line in head.splitlines() if line.startswith("Note: ")], lines.splitlines()

    AS11 = "Invalid  10.0.1.0/24  AS20  20 <x- 11: AS11 lists AS30 and not AS20 (source r.txt)"

    def test_filter(self):
        notes, lines = self.report(slurm([{"customerAsid": 10, "comment": "wrong"}, {"customer_asid": "AS99"}]))
        self.assertEqual(notes, ["s0.json: the filter for AS10 leaves out the record of r.txt", "s0.json: the filter for AS99 leaves out nothing"])
        self.assertEqual(lines, [
            "Unknown  10.0.0.0/24  AS20  20 <?- 10: AS10 has no record", self.AS11,
            "Unknown  10.0.2.0/24  AS30  30 <?- 10: AS10 has no record"])

    def test_assertion_hides(self):
        notes, lines = self.report(slurm((), [{"customerAsid": 10, "providers": [20], "comment": "they forgot it"}]))
        self.assertEqual(notes, ["s0.json: the assertion for AS10 hides the record of r.txt"])
        self.assertEqual(lines, [self.AS11, "Invalid  10.0.2.0/24  AS30  30 <x- 10: AS10 lists AS20 and not AS30 (override s0.json)"])

    def test_assertion_for_a_customer_without_record(self):
        self.write("routes", "10.0.0.0/24|20|20 12\n10.0.1.0/24|30|30 12\n")
        notes, lines = self.report(slurm((), [{"customerAsid": "AS12", "providerSet": ["AS20"]}]))
        self.assertEqual((notes, lines), ([], ["Invalid  10.0.1.0/24  AS30  30 <x- 12: AS12 lists AS20 and not AS30 (override s0.json)"]))

    def test_assertion_added(self):
        notes, lines = self.report(slurm((), [{"customerAsid": 10, "providers": [20]}]), more=("--assertions", "add"))
        self.assertEqual((notes, lines), ([], [self.AS11]))
        self.write("routes", "10.0.0.0/24|40|40 10\n")
        notes, lines = self.report(slurm((), [{"customerAsid": 10, "providers": [20]}]), more=("--assertions", "add"))
        self.assertEqual(lines, ["Invalid  10.0.0.0/24  AS40  40 <x- 10: AS10 lists AS20, AS30 and not AS40 (override s0.json and r.txt)"])

    def test_assertion_added_that_gets_too_long(self):
        self.write_json("s.json", slurm((), [{"customerAsid": 10, "providers": list(range(1000, 1256))}]))
        self.says(2, "s.json: AS10 with the record of r.txt: 257 providers are more than 256 (row 6)",
                  "--records", "r.txt", "--slurm", "s.json", "--assertions", "add", "--explain", "20 10", "--role", "peer")

    def test_filter_and_assertion(self):
        both = slurm([{"customerAsid": 10}], [{"customerAsid": 10, "providers": [20]}])
        for more in ((), ("--assertions", "add")):
            # What a filter leaves out is neither hidden nor added to.
            notes, lines = self.report(both, more=more)
            self.assertEqual(notes, ["s0.json: the filter for AS10 leaves out the record of r.txt"])
            self.assertEqual(lines, [self.AS11, "Invalid  10.0.2.0/24  AS30  30 <x- 10: AS10 lists AS20 and not AS30 (override s0.json)"])

    def test_a_filter_in_one_file_and_assertions_in_two(self):
        notes, lines = self.report(
            slurm([{"customerAsid": 11}], [{"customerAsid": 10, "providers": [50]}]),
            slurm([{"customerAsid": 11}], [{"customerAsid": 10, "providers": [60, 50]}, {"customerAsid": 10, "providers": [61]}]))
        self.assertEqual(notes, [
            "s0.json: the filter for AS11 leaves out the record of r.txt", "s0.json: the assertion for AS10 hides the record of r.txt"])
        by = "AS10 lists AS50, AS60, AS61 and not {} (overrides s0.json and s1.json)"
        self.assertEqual(lines, [
            "Invalid  10.0.0.0/24  AS20  20 <x- 10: " + by.format("AS20"), "Unknown  10.0.1.0/24  AS20  20 <?- 11: AS11 has no record",
            "Invalid  10.0.2.0/24  AS30  30 <x- 10: " + by.format("AS30")])

    def test_both_registers_in_one_answer(self):
        self.write("r.txt", "30: 31\n")
        self.write("routes", "10.0.0.0/24|30|30 20 10\n")
        self.write_json("s0.json", slurm((), [{"customerAsid": 10, "providers": [0]}]))
        lines = self.reported("--records", "r.txt", "--slurm", "s0.json", "--routes", "routes", "--default-role", "provider")
        self.assertEqual(lines, [
            "Invalid  10.0.0.0/24  AS30  30 -x> 20 <x- 10: AS10 lists AS0 alone and not AS20 (override s0.json);"
            " AS30 lists AS31 and not AS20 (source r.txt)"])

    def test_assertions_alone(self):
        self.write_json("s.json", slurm((), [{"customerAsid": 10, "providers": [20]}]))
        status, out, err = self.run_tool("--slurm", "s.json", "--explain", "20 10", "--role", "customer")
        self.assertEqual((status, err), (0, ""))
        self.assertIn("    AS(1) to AS(2)  Provider+       AS10 lists AS20 (override s.json)\n", out)

    def test_other_filters_are_noted(self):
        held = slurm([{"customerAsid": 10}])
        held["validationOutputFilters"]["prefixFilters"] = [{"prefix": "192.0.2.0/24"}, {"asn": 1}]
        held["locallyAddedAssertions"]["bgpsecAssertions"] = [{"asn": 1}]
        notes, _ = self.report(held)
        self.assertEqual(notes, [
            "s0.json: 3 filters and assertions for prefixes and router keys are not about ASPA",
            "s0.json: the filter for AS10 leaves out the record of r.txt"])

    def test_version_1_and_missing_lists(self):
        notes, lines = self.report({"slurmVersion": 1, "validationOutputFilters": {}, "locallyAddedAssertions": {}})
        self.assertEqual((notes, len(lines)), ([], 2))

    def test_every_name_of_the_draft(self):
        self.write("routes", "10.0.0.0/24|20|20 12\n")
        for customer in ("customerAsid", "customer_asid", "customerAsn"):
            for providers in ("providers", "providerSet", "providerAsns", "providerAsids"):
                with self.subTest(customer=customer, providers=providers):
                    self.assertEqual(self.report(slurm((), [{customer: 12, providers: [20]}])), ([], []))

    def test_refused_assertions(self):
        self.write_json("s.json", slurm((), [{"customerAsid": 11, "providers": [5]}, {"customerAsid": 10, "providers": [10]}]))
        arguments = ["--records", "r.txt", "--slurm", "s.json", "--routes", "routes", "--default-role", "customer"]
        refused = "s.json, aspaAssertions[1]: AS10: the customer lists itself (row 6)"
        self.says(2, [refused, "the filter refuses these records; --skip-refused goes on without their customers"], *arguments)
        # Left out with the public record of the same customer.
        lines = self.reported(*arguments, "--skip-refused")
        self.assertEqual(lines[0], "Unknown  10.0.0.0/24  AS20  20 <?- 10: AS10 has no record")

    def test_an_assertion_stays_where_a_public_list_is_refused(self):
        # It hides that list anyway; added to it, it would be a part of what its customer has.
        self.write("r.txt", "10: 10\n11: 30\n")
        self.write_json("s.json", slurm((), [{"customerAsid": 10, "providers": [20]}]))
        arguments = ["--records", "r.txt", "--slurm", "s.json", "--routes", "routes", "--default-role", "customer", "--skip-refused"]
        _, out, _ = self.call(*arguments)
        self.assertEqual(out.splitlines()[1], (
            "Left out, with all public lists of its customer: r.txt, line 1: AS10: the customer lists itself (row 6)"))
        self.assertEqual(self.reported(*arguments), [
            self.AS11, "Invalid  10.0.2.0/24  AS30  30 <x- 10: AS10 lists AS20 and not AS30 (override s.json)"])
        _, out, _ = self.call(*arguments, "--assertions", "add")
        self.assertEqual(out.splitlines()[1], (
            "Left out, with all lists of its customer: r.txt, line 1: AS10: the customer lists itself (row 6)"))
        self.assertEqual(self.reported(*arguments, "--assertions", "add"), [
            "Unknown  10.0.0.0/24  AS20  20 <?- 10: AS10 has no record", self.AS11,
            "Unknown  10.0.2.0/24  AS30  30 <?- 10: AS10 has no record"])

    def test_a_filter_leaves_out_what_would_be_refused(self):
        self.write("r.txt", "10: 10\n11: 30\n")
        notes, lines = self.report(slurm([{"customerAsid": 10}]))
        self.assertEqual(notes, ["s0.json: the filter for AS10 leaves out the record of r.txt"])
        self.assertEqual(lines[0], "Unknown  10.0.0.0/24  AS20  20 <?- 10: AS10 has no record")

    def test_errors(self):
        other = slurm()
        del other["locallyAddedAssertions"]
        no_filters = slurm()
        del no_filters["validationOutputFilters"]
        customers = "customerAsid or customer_asid or customerAsn is wanted, once"
        providers = "providers or providerSet or providerAsns or providerAsids is wanted, once"
        for held, message in (
            ([], "s.json: the file is no object"),
            (slurm(more=1), "s.json: the file has a member 'more', which SLURM does not know"),
            (slurm(slurmVersion=3), "s.json: slurmVersion is '3', and not 1 or 2"),
            (slurm(slurmVersion="2"), "s.json: slurmVersion is '2', and not 1 or 2"),
            (slurm(slurmVersion=1.0), "s.json: slurmVersion is '1.0', and not 1 or 2"),
            (slurm(slurmVersion=True), "s.json: slurmVersion is 'True', and not 1 or 2"),
            ({}, "s.json: slurmVersion is 'None', and not 1 or 2"),
            (other, "s.json: locallyAddedAssertions is missing"),
            (no_filters, "s.json: validationOutputFilters is missing"),
            (slurm(validationOutputFilters=[]), "s.json: validationOutputFilters is no object"),
            (slurm(validationOutputFilters={"aspaFilter": []}),
             "s.json: validationOutputFilters has a member 'aspaFilter', which SLURM does not know"),
            (slurm(validationOutputFilters={"aspaFilters": {}}), "s.json: validationOutputFilters.aspaFilters is no list"),
            (slurm(validationOutputFilters={"prefixFilters": 1}), "s.json: validationOutputFilters.prefixFilters is no list"),
            (slurm(locallyAddedAssertions={"aspaAssertions": 1}), "s.json: locallyAddedAssertions.aspaAssertions is no list"),
            (slurm(locallyAddedAssertions={"x": 1}), "s.json: locallyAddedAssertions has a member 'x', which SLURM does not know"),
            (slurm([7]), "s.json: aspaFilters[0] is no object"),
            (slurm([{"customerAsid": 1}, {}]), f"s.json, aspaFilters[1]: {customers}"),
            (slurm([{"customerAsid": 1, "customerAsn": 1}]), f"s.json, aspaFilters[0]: {customers}"),
            (slurm([{"customerAsid": "x"}]), "s.json, aspaFilters[0]: 'x' is not an AS number"),
            (slurm([{"customerAsid": True}]), "s.json, aspaFilters[0]: 'True' is not an AS number"),
            (slurm([{"customerAsid": 1, "providers": [2]}]), "s.json: aspaFilters[0] has a member 'providers', which SLURM does not know"),
            (slurm((), [{"customerAsid": 1}]), f"s.json, aspaAssertions[0]: {providers}"),
            (slurm((), [{"providers": [1]}]), f"s.json, aspaAssertions[0]: {customers}"),
            (slurm((), [{"customerAsid": 1, "providers": 2}]), "s.json, aspaAssertions[0]: '2' is no list of AS numbers"),
            (slurm((), [{"customerAsid": 1, "providers": [2.5]}]), "s.json, aspaAssertions[0]: '2.5' is not an AS number"),
            (slurm((), [{"customerAsid": 1, "providers": [2], "providerSet": [3]}]), f"s.json, aspaAssertions[0]: {providers}"),
            (slurm((), [{"customerAsid": 1, "providers": [2], "until": 3}]),
             "s.json: aspaAssertions[0] has a member 'until', which SLURM does not know"),
        ):
            with self.subTest(held=held):
                self.write_json("s.json", held)
                self.says(2, message,
                          "--records", "r.txt", "--slurm", "s.json", "--explain", "20 10", "--role", "peer")

    def test_files(self):
        self.write("s.json", '{"slurmVersion": 2,\n')
        self.says(2, "s.json, line 2: not JSON: Expecting property name enclosed in double quotes",
                  "--records", "r.txt", "--slurm", "s.json", "--explain", "20 10", "--role", "peer", run=self.run_tool)
        self.says(2, "none: No such file or directory",
                  "--records", "r.txt", "--slurm", "none", "--explain", "20 10", "--role", "peer")
        self.write_json("s.json.gz", slurm((), [{"customerAsid": 10, "providers": [20]}]))
        lines = self.reported("--records", "r.txt", "--slurm", "s.json.gz", "--routes", "routes", "--default-role", "customer")
        self.assertEqual(lines[1], "Invalid  10.0.2.0/24  AS30  30 <x- 10: AS10 lists AS20 and not AS30 (override s.json.gz)")

    def test_eight_files_and_no_more(self):
        names = [f"s{i}.json" for i in range(9)]
        for i, name in enumerate(names):
            self.write_json(name, slurm((), [{"customerAsid": 10, "providers": [50 + i]}]))
        lines = self.reported("--records", "r.txt", "--slurm", *names[:8], "--routes", "routes", "--default-role", "customer")
        self.assertTrue(lines[0].endswith(f"(overrides {' and '.join(names[:8])})"), lines[0])
        self.says(2, "there are more than 8 files: each is a source, and a register has 8",
                  "--records", "r.txt", "--slurm", *names, "--explain", "20 10", "--role", "peer")

    def test_notes_in_json(self):
        self.write_json("s.json", slurm((), [{"customerAsid": 10, "providers": [20]}]))
        _, out, _ = self.call("--records", "r.txt", "--slurm", "s.json", "--routes", "routes", "--default-role", "customer", "--json")
        held = json.loads(out)
        self.assertEqual(held["notes"], ["s.json: the assertion for AS10 hides the record of r.txt"])
        self.assertEqual(held["records"], [
            {"file": "r.txt", "what": "records", "customers": 2}, {"file": "s.json", "what": "overrides", "customers": 1}])
        self.assertEqual([hop["override"] for route in held["not_valid"] for hop in route["hops"]], [False, True])
