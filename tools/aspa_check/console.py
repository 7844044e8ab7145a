"""The console at the other end of a pipe. It answers one line to each command; all verdicts come from it."""

import functools
import os
import re
import subprocess
import threading
from typing import NamedTuple, Optional, Tuple

from .inputs import Stop

# Commands that may be under way before their answers are read. None of these answers has more than 80 bytes, so that
# those of two chunks fit into a pipe, and neither side waits for the other.
CHUNK = 300
# Seconds for the first answers: a program that is no console may wait for more, and for ever.
PATIENCE = 10.0

REFUSALS = {
    5: "the customer is 0",
    6: "the list is empty, longer than 256, or holds its own customer",
    8: "the register has no room for the list",
    10: "the neighbour is 0",
    11: "the path has more than 4,096 bytes",
    12: "a segment is cut short",
    13: "a segment's type is 0 or above 4",
    14: "a segment is of a confederation",
    15: "a segment has no numbers",
    16: "an AS number is 0",
    17: "the merged path has more than 512 numbers",
}


class Answer(NamedTuple):
    """What the console says of a route."""

    verdict: str  # Valid, Invalid, Unknown, or no verdict
    ground: int = 0
    a: int = 0
    b: int = 0
    sides: Tuple[str, ...] = ()  # public or drawer, of the hops that an Invalid names
    gap: Optional[int] = None
    row: int = 0  # of a refusal


_ANSWER = re.compile(
    r"(?:(?P<valid>Valid)|Invalid ground (?P<ground>[123])|Invalid (?P<ia>\d+) (?P<ib>\d+) (?P<sa>public|drawer) (?P<sb>public|drawer|-)"
    r"|Unknown (?P<ua>\d+) (?P<ub>\d+)|refused (?P<row>\d+)(?: at \d+)?)(?: gap (?P<gap>-?\d+))?\Z"
)


@functools.lru_cache(maxsize=None)
def answer_of(line):
    found = _ANSWER.match(line)
    if not found:
        raise Stop(f"the console answered {line!r} to a route")
    gap = None if found["gap"] is None else int(found["gap"])
    if found["valid"]:
        return Answer("Valid", gap=gap)
    if found["ground"]:
        return Answer("Invalid", ground=int(found["ground"]))
    if found["ia"]:
        sides = tuple(side for side in (found["sa"], found["sb"]) if side != "-")
        return Answer("Invalid", a=int(found["ia"]), b=int(found["ib"]), sides=sides, gap=gap)
    if found["ua"]:
        return Answer("Unknown", a=int(found["ua"]), b=int(found["ub"]), gap=gap)
    return Answer("no verdict", row=int(found["row"]))


def refusal_of(line):
    """The row of `refused N`; 0 for any other answer."""
    return int(line.split()[1]) if line.startswith("refused ") else 0


class Console:
    def __init__(self, program):
        self.program = program
        try:
            self.process = subprocess.Popen([program], stdin=subprocess.PIPE, stdout=subprocess.PIPE)
        except OSError as e:
            raise Stop(f"the console {program} cannot be run: {e.strerror}") from e
        watch = threading.Timer(PATIENCE, self.process.kill)
        watch.start()
        try:
            if self.ask(["empty", "register"]) != ["done", "0 0"]:
                raise Stop(f"{program} does not answer as the console does")
        except Stop:
            self.process.kill()
            self.__exit__()
            if not watch.is_alive():
                raise Stop(f"{program} does not answer as the console does: nothing came for {PATIENCE:g} seconds") from None
            raise
        finally:
            watch.cancel()

    def __enter__(self):
        return self

    def __exit__(self, *_):
        try:
            self.process.stdin.close()
        except OSError:
            # It ended early, which was told when a command could not be sent.
            pass
        self.process.stdout.close()
        self.process.wait()

    def ask(self, commands):
        """The answers to all commands, in order. While the console works on one chunk the next is made."""
        answers, under_way, chunk = [], 0, []
        for command in commands:
            chunk.append(command)
            if len(chunk) == CHUNK:
                self._send(chunk)
                answers.extend(self._receive(under_way))
                under_way, chunk = len(chunk), []
        self._send(chunk)
        answers.extend(self._receive(under_way + len(chunk)))
        return answers

    def expect(self, commands, answer):
        for command, given in zip(commands, self.ask(commands)):
            if given != answer:
                raise Stop(f"the console answered {given!r} to {command[:60]!r}, and not {answer!r}")

    def _send(self, commands):
        if commands:
            try:
                self.process.stdin.write(("\n".join(commands) + "\n").encode("ascii"))
                self.process.stdin.flush()
            except OSError as e:
                raise Stop(f"the console {self.program} ended early") from e

    def _receive(self, count):
        lines = [self.process.stdout.readline() for _ in range(count)]
        if lines and not lines[-1].endswith(b"\n"):
            raise Stop(f"the console {self.program} ended early")
        return [line.decode("ascii", "backslashreplace").rstrip("\n") for line in lines]


def default_program():
    """What ASPA_CONSOLE names, or the console of this repository."""
    root = os.path.dirname(os.path.dirname(os.path.dirname(os.path.realpath(__file__))))
    return os.environ.get("ASPA_CONSOLE") or os.path.join(root, "target", "bin", "console")
