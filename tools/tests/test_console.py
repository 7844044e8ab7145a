"""The console at the other end of the pipe: what is no console, what ends early, what answers wrongly."""

import os
import time
from unittest import mock

from helper import CONSOLE, REGISTER_D, UNLIMITED, Case

from aspa_check import console as module
from aspa_check.console import Answer, Console, answer_of, default_program
from aspa_check.explain import Explanation
from aspa_check.inputs import Stop
from aspa_check.numbers import segments
from aspa_check.reasons import deciding
from aspa_check.records import Record, Records
from aspa_check.routes import Route

# Answers as the console does at first, and goes on as the rest says.
BEGINS = 'read -r line; echo done; read -r line; echo "0 0"\n'


class Programs(Case):
    def setUp(self):
        super().setUp()
        self.write("d.txt", REGISTER_D)
        self.write("routes", "10.0.0.0/24|20|20 10\n")

    def ends(self, program, message, **more):
        status, out, err = self.run_tool(
            "--console", program, "--records", "d.txt", "--routes", "routes", "--default-role", "customer", **more)
        self.assertEqual((status, out, err), (2, "", f"aspa-check: {message}\n"))

    def test_no_console(self):
        for text, message in (
            ("exit 0", "the console {} ended early"),
            ("exit 1", "the console {} ended early"),
            ("echo done; exit 0", "the console {} ended early"),
            ("printf 'done\\n0 0'; exit 0", "the console {} ended early"),
            ("exec cat", "{} does not answer as the console does"),
            ("read -r line; read -r line; echo done; echo 0", "{} does not answer as the console does"),
            ("exec yes", "{} does not answer as the console does"),
        ):
            with self.subTest(text=text):
                program = self.script("program", text + "\n")
                self.ends(program, message.format(program))

    def test_programs_that_every_system_has(self):
        for name in ("true", "false", "cat"):
            program = next(path for path in (f"/bin/{name}", f"/usr/bin/{name}") if os.path.exists(path))
            message = f"{program} does not answer as the console does" if name == "cat" else f"the console {program} ended early"
            self.ends(program, message)

    def test_missing_and_not_to_be_run(self):
        self.ends("./none", "./none is not there: ./prove check console proves and builds it")
        self.ends("./d.txt", "the console ./d.txt cannot be run: Permission denied")
        self.ends(self.directory, f"the console {self.directory} cannot be run: Permission denied")
        self.write("junk", b"\x00\x01\x02\x03" * 100)
        os.chmod("junk", 0o755)
        self.ends("./junk", "the console ./junk cannot be run: Exec format error")

    def test_ends_in_the_midst(self):
        for text in ("exit 0\n", "read -r line; exit 1\n", "read -r line; echo new; read -r line; echo done; kill -9 $$\n"):
            with self.subTest(text=text):
                program = self.script("program", BEGINS + text)
                self.ends(program, f"the console {program} ended early")

    def test_ends_while_much_is_sent(self):
        # More than a pipe holds: the write itself fails, and the report's reader is not to blame.
        self.write("d.txt", "".join(f"{customer}: {' '.join(map(str, range(10000, 10200)))}\n" for customer in range(1, 1000)))
        program = self.script("program", BEGINS + "exit 0\n")
        self.ends(program, f"the console {program} ended early")

    def test_says_nothing(self):
        # Within this process, where waiting can be made short.
        for text in ("exec sleep 60\n", "echo done; exec sleep 60\n", "printf done; exec sleep 60\n"):
            with self.subTest(text=text), mock.patch.object(module, "PATIENCE", 0.2):
                program = self.script("program", text)
                begun = time.monotonic()
                self.says(2, f"{program} does not answer as the console does: nothing came for 0.2 seconds",
                          "--console", program, "--records", "d.txt", "--explain", "20 10", "--role", "peer")
                self.assertLess(time.monotonic() - begun, 10)

    def test_answers_wrongly(self):
        def answering(register_answer, judge_answer):
            return self.script("program", BEGINS + f"""while read -r word rest; do case $word in
                empty) echo done;; file) echo '{register_answer}';; judge) echo '{judge_answer}';; *) echo error;; esac; done\n""")

        for filed, judged, message in (
            ("error", "Valid", "the console answered 'error' to a record of 2 providers"),
            ("replaced", "Valid", "the console answered 'replaced' to a record of 2 providers"),
            ("new", "error", "the console answered 'error' to a route"),
            ("new", "Valid gap x", "the console answered 'Valid gap x' to a route"),
            # An answer that does not follow from the files is not reported.
            ("new", "Invalid 2 0 public -", "the console's answer for 20 10 from AS20 does not follow from the files"),
            ("new", "Unknown 2 0", "the console's answer for 20 10 from AS20 does not follow from the files"),
        ):
            with self.subTest(filed=filed, judged=judged):
                program = answering(filed, judged)
                status, _, err = self.call("--console", program, "--records", "d.txt", "--routes", "routes", "--default-role", "customer")
                self.assertEqual((status, err), (2, f"aspa-check: {message}\n"))

    def test_a_filing_that_is_refused_in_a_batch(self):
        with Console(CONSOLE) as console:
            with self.assertRaisesRegex(Stop, r"\Athe console answered 'refused 6' to 'file 0 1 1', and not 'new'\Z"):
                console.expect(["file 0 1 1"], "new")

    def test_which_console(self):
        with mock.patch.dict(os.environ, {"ASPA_CONSOLE": "/some/program"}):
            self.assertEqual(default_program(), "/some/program")
        for held in ({}, {"ASPA_CONSOLE": ""}):
            with mock.patch.dict(os.environ, held):
                if not held:
                    del os.environ["ASPA_CONSOLE"]
                self.assertTrue(default_program().endswith("/target/bin/console"))
        # By the environment, and --console goes before it.
        self.says(2, "/some/program is not there: ./prove check console proves and builds it",
                  "--records", "d.txt", "--explain", "20 10", "--role", "peer",
                  run=lambda *arguments: self.run_tool(*arguments, ASPA_CONSOLE="/some/program"))
        status, _, err = self.run_tool("--console", CONSOLE, "--records", "d.txt", "--explain", "20 10", "--role", "peer",
                                       ASPA_CONSOLE="/some/program")
        self.assertEqual((status, err), (0, ""))


class Lines(Case):
    def test_answers(self):
        for line, wanted in (
            ("Valid", Answer("Valid")),
            ("Valid gap -511", Answer("Valid", gap=-511)),
            ("Invalid ground 3", Answer("Invalid", ground=3)),
            ("Invalid 3 0 drawer -", Answer("Invalid", a=3, sides=("drawer",))),
            ("Invalid 2 5 public drawer gap 4", Answer("Invalid", a=2, b=5, sides=("public", "drawer"), gap=4)),
            ("Unknown 2 0", Answer("Unknown", a=2)),
            ("Unknown 1 3 gap 2", Answer("Unknown", a=1, b=3, gap=2)),
            ("refused 17", Answer("no verdict", row=17)),
            ("refused 16 at 4094", Answer("no verdict", row=16)),
        ):
            self.assertEqual(answer_of(line), wanted)
        for line in ("", "valid", "Valid ", "Invalid", "Invalid ground 4", "Invalid 1 2 public", "Unknown 1", "refused", "error", "Valid\n"):
            with self.subTest(line=line), self.assertRaises(Stop):
                answer_of(line)

    def test_many_commands_and_long_ones(self):
        # Several chunks, commands of some kilobytes: neither side waits for the other.
        with Console(CONSOLE) as console:
            long = "file 0 1 " + " ".join(map(str, range(4294967000, 4294967256)))
            answers = console.ask(word for _ in range(1500) for word in (long, "hop 1 4294967255", "empty"))
            self.assertEqual(answers, ["new", "provider public 0", "done"] * 1500)
            self.assertEqual(console.ask([]), [])

    def test_a_deciding_hop_of_the_wrong_register(self):
        records = Records()
        records.public = {10: [Record(0, (30,), "f")]}
        route = Route(20, "peer", segments("20 10"))
        route.answer = answer_of("Invalid 2 0 public -")
        self.assertEqual([hop.kind for hop in deciding(records, route)], ["other"])
        route.answer = answer_of("Invalid 2 0 drawer -")
        with self.assertRaises(Stop):
            deciding(records, route)

    def test_answers_that_do_not_follow_from_the_files(self):
        records = Records()
        records.public = {10: [Record(0, (20,), "f")], 30: [Record(0, (20,), "f")]}
        for role, path, right, wrong in (
            ("provider", "30 20 10", "Valid gap 0", "Unknown 1 3 gap 2"),
            ("provider", "30 40 10", "Invalid 2 2 public public gap 2", "Invalid 2 2 public drawer gap 2"),
            ("peer", "40 10", "Invalid 2 0 public -", "Unknown 2 0"),
            ("peer", "20 10", "Valid", "Invalid 2 0 public -"),
        ):
            with self.subTest(path=path):
                route = Route(int(path[:2]), role, segments(path))
                route.answer = answer_of(right)
                deciding(records, route)
                route.answer = answer_of(wrong)
                with self.assertRaises(Stop):
                    deciding(records, route)

    def test_hops_and_a_gap_that_do_not_follow(self):
        """--explain asks for each hop: a console that answers otherwise than the files is not believed."""

        class Told:
            def __init__(self, *answers):
                self.answers = list(answers)

            def expect(self, commands, answer):
                pass

            def ask(self, commands):
                return [self.answers.pop(0)]

        records = Records()
        records.public = {10: [Record(0, (20,), "f")]}

        def explain(*answers):
            return Explanation(Told(*answers), records, Route(20, "provider", segments("20 10")))

        told = explain("Valid gap 0", "provider public 0", "none")
        self.assertEqual((told.k, told.l), (2, 2))
        for answers in (("Valid gap 0", "other public", "none"), ("Valid gap 0", "provider public 0", "other public"),
                        ("Valid gap 1", "provider public 0", "none")):
            with self.subTest(answers=answers), self.assertRaises(Stop):
                explain(*answers)

    def test_unlimited_answers_as_the_console_does(self):
        # Where there are limits, and nothing is refused.
        commands = [
            "empty", "register", "file 0 10 20 30", "file 0 10 20", "file 7 10 40", "dfile 3 40 0", "file x 1", "file 1", "file", "lookup 10 0",
            "register", "drawer", "hop 10 40", "hop 40 10", "judge 1 20 0202000000140000000a", "withdraw 0 10", "dclear 3", "rejudge", "",
            "poke register 0 7", "judge 1 20 0202000000140000000a", "empty", "register",
        ]
        with Console(CONSOLE) as console, Console(UNLIMITED) as unlimited:
            self.assertEqual(unlimited.ask(commands), console.ask(commands))

    def test_unlimited_has_no_limits(self):
        with Console(UNLIMITED) as unlimited:
            self.assertEqual(set(unlimited.ask(f"file 0 {customer} {customer + 1}" for customer in range(1, 5000))), {"new"})
            self.assertEqual(set(unlimited.ask(f"dfile 0 {customer} {customer + 1}" for customer in range(1, 5000))), {"new"})
            self.assertEqual(unlimited.ask(["hop 4999 5000", "hop 4999 4998", "hop 5000 1"]), ["provider drawer 0", "other drawer", "none"])
