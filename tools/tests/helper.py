"""What the tests share: aspa-check as it is run from a shell, in a directory that each test has for itself."""

import bz2
import contextlib
import gzip
import io
import json
import os
import subprocess
import sys
import tempfile
import unittest
import warnings

sys.dont_write_bytecode = True
TOOLS = os.path.dirname(os.path.dirname(os.path.realpath(__file__)))
BUILT = os.path.join(os.path.dirname(TOOLS), "reference", "target", "release")
sys.path.insert(0, TOOLS)
# The same tests are run with the second program and with the proved console.
CONSOLE = os.environ.setdefault("ASPA_CONSOLE", os.path.join(BUILT, "reference"))
UNLIMITED = os.path.join(BUILT, "unlimited")

from aspa_check import cli  # noqa: E402

# The register of the vectors in docs/RULES.md.
REGISTER_D = "10: 20 30\n20: 40\n40: 0\n50: 40\n70: 80\n80: 70\n"


def without(beginning, text):
    return text[len(beginning) :] if text.startswith(beginning) else text


class Case(unittest.TestCase):
    maxDiff = None

    def setUp(self):
        self.before = os.getcwd()
        held = tempfile.TemporaryDirectory()
        self.addCleanup(held.cleanup)
        self.directory = held.name
        os.chdir(self.directory)
        self.addCleanup(os.chdir, self.before)

    def write(self, name, text):
        """A file; packed if its name says so. Returns the name."""
        held = text if isinstance(text, bytes) else text.encode("utf-8")
        if name.endswith(".gz"):
            held = gzip.compress(held)
        elif name.endswith(".bz2"):
            held = bz2.compress(held)
        with open(name, "wb") as file:
            file.write(held)
        return name

    def write_json(self, name, held):
        return self.write(name, json.dumps(held))

    def script(self, name, text):
        """A program in this directory."""
        self.write(name, "#!/bin/sh\n" + text)
        os.chmod(name, 0o755)
        return os.path.join(self.directory, name)

    def run_tool(self, *arguments, stdin=b"", **environment):
        """Status, standard output and standard error of a process. Nothing that it does may end in a traceback."""
        done = subprocess.run(
            [sys.executable, os.path.join(TOOLS, "aspa-check"), *arguments],
            input=stdin, capture_output=True, timeout=60, env={**os.environ, **environment}, check=False,
        )
        out, err = done.stdout.decode("utf-8"), done.stderr.decode("utf-8")
        self.assertNotIn("Traceback", err)
        self.assertNotIn("Exception ignored", err)
        return done.returncode, out, err

    def call(self, *arguments):
        """The same within this process, which takes less time: for tables of many errors."""
        out, err = io.StringIO(), io.StringIO()
        with contextlib.redirect_stdout(out), contextlib.redirect_stderr(err), warnings.catch_warnings():
            # Files are closed when the program ends.
            warnings.simplefilter("ignore", ResourceWarning)
            try:
                status = cli.main(list(arguments))
            except SystemExit as e:
                status = e.code
        return status, out.getvalue(), err.getvalue()

    def says(self, status, message, *arguments, run=None):
        """The tool ends so and says exactly this on standard error; a line each, without the program's name."""
        given, out, err = (run or self.call)(*arguments)
        lines = [without("aspa-check: ", line) for line in err.splitlines()]
        wanted = [message] if isinstance(message, str) else message
        self.assertEqual((given, lines), (status, wanted), (arguments, out))
        return out

    def reported(self, *arguments, run=None):
        """The lines of routes that are not Valid, of a report without errors."""
        status, out, err = (run or self.call)(*arguments)
        self.assertEqual(err, "")
        self.assertIn(status, (0, 1))
        return [*out.split("\n\n", 2), ""][2].splitlines()

    def judged(self, records, path, role="customer", more=()):
        """The line of one route from its first number, or Valid: what these records, by name of file, say."""
        number = path.split()[0].strip("{}")
        self.write("one.txt", f"10.0.0.0/24|{number}|{path}\n")
        lines = self.reported("--records", *records, "--routes", "one.txt", "--default-role", role, *more)
        self.assertLessEqual(len(lines), 1)
        return without(f"Invalid  10.0.0.0/24  AS{number}  ", lines[0]) if lines else "Valid"
