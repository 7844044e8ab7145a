"""--what-if: which routes change. What is printed is the difference of two full runs, the second with the records file edited."""

import json
import os
import random

from helper import REGISTER_D, Case

VERDICTS = ("Valid", "Invalid", "Unknown", "no verdict")


class Told(Case):
    def setUp(self):
        super().setUp()
        self.write("d.txt", REGISTER_D)
        self.write("routes", "10.0.0.0/24|20|20 10\n10.0.1.0/24|50|50 20 10\n10.0.2.0/24|30|30 60\n10.0.3.0/24|50|50 20 10\n10.0.4.0/24|30|30 60 0\n")
        self.arguments = ["--records", "d.txt", "--routes", "routes", "--default-role", "customer"]

    def what_if(self, *changes, more=(), status=0):
        flags = [word for text in changes for word in ("--what-if", text)]
        given, out, err = self.call(*self.arguments, *more, *flags)
        self.assertEqual((given, err), (status, ""))
        return out.splitlines()

    def test_a_new_list(self):
        status, out, err = self.run_tool(*self.arguments, "--what-if", "AS20: 50 AS60,50")
        self.assertEqual((status, err), (0, ""))
        self.assertEqual(out.splitlines(), [
            "What if AS20: 50 AS60,50", "2 of 5 routes change their verdict",
            "Invalid -> Valid  10.0.1.0/24  AS50  50 20 10", "Invalid -> Valid  10.0.3.0/24  AS50  50 20 10"])

    def test_a_list_that_makes_invalid(self):
        # Status 1: a route becomes Invalid. That others are so already does not count.
        self.assertEqual(self.what_if("60: 40", status=1), [
            "What if 60: 40", "1 of 5 routes change their verdict",
            "Unknown -> Invalid  10.0.2.0/24  AS30  30 <x- 60: AS60 lists AS40 and not AS30 (source --what-if)"])
        self.what_if("60: 40", more=["--fail-on", "never"])
        self.assertEqual(self.what_if("60: 0", status=1)[-1],
                         "Unknown -> Invalid  10.0.2.0/24  AS30  30 <x- 60: AS60 lists AS0 alone and not AS30 (source --what-if)")

    def test_a_withdrawal(self):
        self.assertEqual(self.what_if("withdraw AS20"), [
            "What if withdraw AS20", "2 of 5 routes change their verdict",
            "Invalid -> Unknown  10.0.1.0/24  AS50  50 <?- 20 10: AS20 has no record",
            "Invalid -> Unknown  10.0.3.0/24  AS50  50 <?- 20 10: AS20 has no record"])
        self.what_if("withdraw AS20", more=["--fail-on", "unknown"], status=1)

    def test_nothing_to_withdraw(self):
        self.assertEqual(self.what_if("withdraw 60"), [
            "What if withdraw 60", "Note: AS60 has no record to withdraw", "0 of 5 routes change their verdict"])

    def test_several(self):
        self.assertEqual(self.what_if("60: 30", "withdraw 20", "10: 30", status=1), [
            "What if 60: 30", "What if withdraw 20", "What if 10: 30", "2 of 5 routes change their verdict",
            "Valid -> Invalid  10.0.0.0/24  AS20  20 <x- 10: AS10 lists AS30 and not AS20 (source --what-if)",
            "Unknown -> Valid  10.0.2.0/24  AS30  30 60"])
        # With each other they may say more: 50 20 10 is Invalid by AS10 now.
        self.assertEqual(self.what_if("20: 50", "10: 20 30")[1:], [
            "What if 10: 20 30", "2 of 5 routes change their verdict",
            "Invalid -> Valid  10.0.1.0/24  AS50  50 20 10", "Invalid -> Valid  10.0.3.0/24  AS50  50 20 10"])

    def test_nothing_changes(self):
        for text in ("10: 20 30", "99: 98", "10: 20 30 40"):
            self.assertEqual(self.what_if(text), [f"What if {text}", "0 of 5 routes change their verdict"])

    def test_summary(self):
        self.assertEqual(self.what_if("60: 40", more=["--summary"], status=1), ["What if 60: 40", "1 of 5 routes change their verdict"])

    def test_json(self):
        held = json.loads("\n".join(self.what_if("60: 40", "withdraw 99", more=["--json"], status=1)))
        self.assertEqual(held, {
            "what_if": ["60: 40", "withdraw 99"], "notes": ["AS99 has no record to withdraw"], "bad_lines": [], "routes": 5, "changed": 1,
            "changes": [{
                "before": "Unknown", "prefix": "10.0.2.0/24", "neighbour": 30, "role": "customer", "path": "30 60", "merged": [30, 60],
                "verdict": "Invalid", "reason": "AS60 lists AS40 and not AS30 (source --what-if)", "places": [2, 0],
                "hops": [{"from": 60, "to": 30, "upward": True, "hop": "Not Provider+", "override": False, "lists": {"--what-if": [40]}}]}]})
        held = json.loads("\n".join(self.what_if("60: 40", more=["--json", "--summary"], status=1)))
        self.assertEqual((held["changed"], held["changes"]), (1, []))

    def test_every_source_is_replaced(self):
        self.write("e.txt", "20: 50\n")
        self.arguments[1:2] = ["d.txt", "e.txt"]
        self.assertEqual(self.what_if("20: 60", status=1)[2],
                         "Valid -> Invalid  10.0.1.0/24  AS50  50 <x- 20 10: AS20 lists AS60 and not AS50 (source --what-if)")

    def test_an_override_hides(self):
        self.write_json("s.json", {"slurmVersion": 2, "validationOutputFilters": {}, "locallyAddedAssertions": {
            "aspaAssertions": [{"customerAsid": 20, "providers": [70]}]}})
        for text in ("20: 50", "withdraw 20"):
            self.assertEqual(self.what_if(text, more=["--slurm", "s.json"]), [
                f"What if {text}", "Note: AS20 has an override (s.json), which hides its public record: nothing changes",
                "0 of 5 routes change their verdict"])
        # An assertion that is added to the public record hides nothing.
        self.assertEqual(self.what_if("20: 50", more=["--slurm", "s.json", "--assertions", "add"])[1:3], [
            "2 of 5 routes change their verdict", "Invalid -> Valid  10.0.1.0/24  AS50  50 20 10"])
        long = ["--what-if", "20: " + " ".join(map(str, range(1000, 1256)))]
        self.says(2, "--what-if AS20: 257 providers are more than 256 (row 6)",
                  *self.arguments, "--slurm", "s.json", "--assertions", "add", *long)
        self.assertEqual(self.call(*self.arguments, "--slurm", "s.json", *long)[0], 0)

    def test_a_filter_leaves_out_the_new_list_too(self):
        self.write_json("s.json", {"slurmVersion": 2, "validationOutputFilters": {"aspaFilters": [{"customerAsid": 20}]},
                                   "locallyAddedAssertions": {}})
        self.assertEqual(self.what_if("20: 60", more=["--slurm", "s.json"]), [
            "What if 20: 60", "Note: a filter (s.json) leaves out the public record of AS20: nothing changes",
            "0 of 5 routes change their verdict"])

    def test_a_refused_list_that_is_mended(self):
        self.write("d.txt", REGISTER_D + "60: 60\n")
        _, out, _ = self.call(*self.arguments, "--skip-refused", "--what-if", "60: 30")
        self.assertEqual(out.splitlines()[1:], ["1 of 5 routes change their verdict", "Unknown -> Valid  10.0.2.0/24  AS30  30 60"])
        self.write_json("s.json", {"slurmVersion": 2, "validationOutputFilters": {}, "locallyAddedAssertions": {
            "aspaAssertions": [{"customerAsid": 60, "providers": [70]}]}})
        # The assertion hides the refused list, and a new one likewise.
        arguments = [*self.arguments, "--slurm", "s.json", "--skip-refused", "--what-if", "60: 30"]
        _, out, _ = self.call(*arguments)
        self.assertEqual(out.splitlines()[1:], [
            "Note: AS60 has an override (s.json), which hides its public record: nothing changes", "0 of 5 routes change their verdict"])
        status, out, err = self.call(*arguments, "--assertions", "add")
        self.assertEqual((status, out, err.splitlines()[-1]), (
            2, "", "aspa-check: --what-if AS60: it has an assertion, which is left out with a list that is refused: mend that first"))

    def test_what_is_refused_or_wrong(self):
        for texts, message in (
            (["20: 20"], "--what-if AS20: the customer lists itself (row 6)"),
            (["20:"], "--what-if AS20: there are no providers (row 6)"),
            (["0: 20"], "--what-if AS0: the customer is 0 (row 5)"),
            (["20: " + " ".join(map(str, range(1000, 1300)))], "--what-if AS20: 300 providers are more than 256 (row 6)"),
            (["20 30"], "--what-if '20 30' is neither 'CUSTOMER: PROVIDER PROVIDER' nor 'withdraw CUSTOMER'"),
            (["withdraw"], "--what-if 'withdraw' is neither 'CUSTOMER: PROVIDER PROVIDER' nor 'withdraw CUSTOMER'"),
            (["withdraw 20 30"], "--what-if 'withdraw 20 30' is neither 'CUSTOMER: PROVIDER PROVIDER' nor 'withdraw CUSTOMER'"),
            (["withdraw x"], "'x' is not an AS number"),
            (["x: 20"], "'x' is not an AS number"),
            (["20: y"], "'y' is not an AS number"),
            (["20: 50", "AS20: 60"], "--what-if names AS20 twice"),
            (["20: 50", "withdraw 20"], "--what-if names AS20 twice"),
        ):
            with self.subTest(texts=texts):
                flags = [word for text in texts for word in ("--what-if", text)]
                self.assertEqual(self.says(2, message, *self.arguments, *flags), "")


class AgainstFullRuns(Case):
    """Random records and routes."""

    ROLES = ("customer", "peer", "provider", "route-server", "route-server-client", "mutual-transit")

    def world(self, draw):
        numbers = list(range(1, 13))
        self.files = []
        for _ in range(draw.randint(1, 3)):
            held = {}
            for customer in draw.sample(numbers, draw.randint(0, 8)):
                held[customer] = sorted(draw.sample([number for number in [0, *numbers] if number != customer], draw.randint(1, 7)))
            self.files.append(held)
        filters, assertions = [], []
        if draw.random() < 0.6:
            filters = [{"customerAsid": number} for number in draw.sample(numbers, draw.randint(0, 2))]
            assertions = [
                {"customerAsid": customer, "providers": draw.sample([number for number in numbers if number != customer], 2)}
                for customer in draw.sample(numbers, draw.randint(0, 3))]
        self.write_json("s.json", {"slurmVersion": 2, "validationOutputFilters": {"aspaFilters": filters},
                                   "locallyAddedAssertions": {"aspaAssertions": assertions}})
        lines = []
        for i in range(60):
            path = [draw.choice(numbers) for _ in range(draw.randint(0, 6))]
            neighbour = path[0] if path and draw.random() < 0.95 else draw.choice(numbers)
            words = [str(number) for number in path]
            if path and draw.random() < 0.05:
                words[-1] = draw.choice(("0", "{3,4}", "(5)"))
            lines.append(f"10.0.{i}.0/24|{neighbour}|{' '.join(words)}\n")
        self.write("routes", "".join(lines))
        roles = [word for number in numbers for word in ("--role", f"{number}={draw.choice(self.ROLES)}")]
        self.common = ["--slurm", "s.json", "--assertions", draw.choice(("override", "add")), "--routes", "routes", *roles, "--fail-on", "never"]
        return numbers

    def full_run(self, directory, files):
        """The verdict of each prefix, and its line where it is not Valid."""
        os.makedirs(directory, exist_ok=True)
        names = []
        for name, held in files.items():
            names.append(self.write(f"{directory}/{name}", "".join(
                f"{customer}: {' '.join(map(str, providers))}\n" for customer, providers in held.items())))
        status, out, err = self.call("--records", *names, *self.common)
        self.assertEqual((status, err), (0, ""))
        lines = {}
        for line in out.split("\n\n", 2)[2].splitlines():
            verdict = next(verdict for verdict in VERDICTS if line.startswith(verdict + "  "))
            prefix, rest = line[len(verdict) + 2 :].split("  ", 1)
            lines[prefix] = verdict, rest
        return names, lines

    def test_the_difference_of_two_full_runs(self):
        seen = set()
        for seed in range(150):
            draw = random.Random(seed)
            numbers = self.world(draw)
            names, before = self.full_run("before", {f"r{i}.txt": held for i, held in enumerate(self.files)})
            changes, flags = {}, []
            for customer in draw.sample(numbers, draw.randint(1, 3)):
                changes[customer] = None if draw.random() < 0.3 else sorted(
                    draw.sample([number for number in [0, *numbers] if number != customer], draw.randint(1, 4)))
                flags += ["--what-if", f"withdraw AS{customer}" if changes[customer] is None
                          else f"{customer}: {' '.join(map(str, changes[customer]))}"]
            # The files without these customers, and their new lists in one that has the name which the report gives them.
            edited = {f"r{i}.txt": {c: held for c, held in file.items() if c not in changes} for i, file in enumerate(self.files)}
            edited["--what-if"] = {customer: held for customer, held in changes.items() if held is not None}
            _, after = self.full_run("after", edited)
            wanted = []
            with open("routes", encoding="ascii") as file:
                routes = [line.rstrip("\n").split("|") for line in file]
            for prefix, neighbour, path in routes:
                old, new = before.get(prefix, ("Valid",))[0], after.get(prefix, ("Valid",))[0]
                if old != new:
                    seen.add((old, new))
                    # A Valid route is in no report: its path is shown merged.
                    merged = [word for word, left in zip(path.split(), [None, *path.split()]) if word != left]
                    rest = after[prefix][1] if new != "Valid" else f"AS{neighbour}  {' '.join(merged)}"
                    wanted.append(f"{old} -> {new}  {prefix}  {rest}")
            status, out, err = self.call("--records", *names, *self.common, *flags)
            lines = [line for line in out.splitlines() if not line.startswith(("What if ", "Note: "))]
            self.assertEqual((status, err, lines), (0, "", [f"{len(wanted)} of 60 routes change their verdict", *wanted]), (seed, flags))
        # The worlds are not so small that nothing happens in them.
        self.assertEqual(seen, {(old, new) for old in VERDICTS[:3] for new in VERDICTS[:3] if old != new})
