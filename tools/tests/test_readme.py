"""README's commands give what README says, and its picture is the one that is drawn."""

import os
import shlex
import subprocess
import tempfile
import unittest

from helper import CONSOLE, TOOLS

ROOT = os.path.dirname(TOOLS)


def shown_in(text):
    """Each command that stands behind `    $ ` with the indented lines that follow it."""
    found = []
    for line in text.split("\n"):
        if line.startswith("    $ "):
            found.append((line[6:], []))
            open_block = True
        elif found and open_block and (line.startswith("    ") or not line):
            found[-1][1].append(line[4:])
        else:
            open_block = False
    return [(command, "\n".join(lines).rstrip("\n") + "\n") for command, lines in found]


class Readme(unittest.TestCase):
    maxDiff = None

    def setUp(self):
        with open(os.path.join(ROOT, "README.md"), encoding="utf-8") as file:
            self.shown = [(command, lines) for command, lines in shown_in(file.read()) if command.startswith("tools/aspa-check ")]

    def test_outputs(self):
        self.assertEqual(len(self.shown), 3)
        for command, lines in self.shown:
            with tempfile.TemporaryDirectory() as held:
                words = [os.path.join(held, "out.svg") if word == "docs/leak.svg" else word for word in shlex.split(command)]
                done = subprocess.run(words, cwd=ROOT, env={**os.environ, "ASPA_CONSOLE": CONSOLE}, capture_output=True, text=True)
                self.assertEqual((done.stdout, done.stderr), (lines, ""), command)
                if "--svg" in words:
                    with open(os.path.join(held, "out.svg"), encoding="utf-8") as file, \
                            open(os.path.join(ROOT, "docs", "leak.svg"), encoding="utf-8") as drawn:
                        self.assertEqual(file.read(), drawn.read())

    def test_examples(self):
        """All sample files together, by the text of bgpdump and by plain lines: the same report."""
        reports = []
        for name in ("rib.txt", "rib.bgpdump"):
            sample = "examples/check/"
            done = subprocess.run(
                ["tools/aspa-check", "--records", f"{sample}rpki.json", f"{sample}routinator.json", f"{sample}extra.txt",
                 "--slurm", f"{sample}local.slurm", "--routes", sample + name, f"@{sample}roles"],
                cwd=ROOT, env={**os.environ, "ASPA_CONSOLE": CONSOLE}, capture_output=True, text=True,
            )
            self.assertEqual((done.returncode, done.stderr), (1, ""))
            reports.append(done.stdout.replace(name, "RIB"))
        self.assertEqual(reports[0], reports[1])
        self.assertIn("local.slurm 1 override", reports[0])
        self.assertIn("the filter for AS64511 leaves out the record of rpki.json", reports[0])


if __name__ == "__main__":
    unittest.main()
