"""Files that are read: plain, gzip, bzip2 or standard input; and what is wrong with them, by file and line."""

import bz2
import gzip
import io
import json
import os
import sys
import time
import zlib

from .numbers import Wrong, shown

# More bad lines than this are a wrong file rather than wrong lines.
MOST_COMPLAINTS = 1000


# What a packed file that is cut or damaged raises.
UNREADABLE = (OSError, EOFError, zlib.error)


class Stop(Exception):
    """The input cannot be used at all."""


class Complaints:
    """Bad lines, each told on standard error when it is met and kept for the report."""

    def __init__(self, out=None):
        self.out = out or sys.stderr
        self.all = []

    def add(self, name, place, why):
        self.all.append({"file": name, "place": place, "why": why})
        print(f"aspa-check: {name}, {place}: {why}", file=self.out)
        if len(self.all) >= MOST_COMPLAINTS:
            raise Stop(f"{len(self.all)} bad lines: this is not what it should be")


class Progress:
    """A line on standard error every few seconds, for work that takes long."""

    def __init__(self, quiet=False, every=2.0, out=None):
        self.every, self.out = every, out or sys.stderr
        self.next = None if quiet else time.monotonic() + every

    def tell(self, what):
        if self.next is not None and time.monotonic() >= self.next:
            print(f"aspa-check: {what}", file=self.out, flush=True)
            self.next = time.monotonic() + self.every


def opened(path):
    """A file's bytes, unpacked; `-` is standard input."""
    if path == "-" and sys.stdin is None:
        raise Stop("standard input is closed")
    try:
        raw = sys.stdin.buffer if path == "-" else open(path, "rb")
        if not hasattr(raw, "peek"):
            raw = io.BufferedReader(raw)
        magic = raw.peek(4)[:4]
    except OSError as e:
        raise Stop(f"{path}: {e.strerror}") from e
    if magic[:2] == b"\x1f\x8b":
        return io.BufferedReader(gzip.GzipFile(fileobj=raw))
    if magic[:3] == b"BZh":
        return io.BufferedReader(bz2.BZ2File(raw))
    return raw


def text_of(stream):
    """Bytes as lines of ASCII; what is none shows as an escape, which no reader takes."""
    return io.TextIOWrapper(stream, encoding="ascii", errors="backslashreplace", newline="\n")


def whole_text(path):
    try:
        with opened(path) as stream:
            return stream.read().decode("utf-8-sig")
    except UNREADABLE as e:
        raise Stop(f"{path}: {e}") from e
    except UnicodeDecodeError as e:
        raise Stop(f"{path}: byte {e.start} is no UTF-8") from e


def json_of(path, text):
    """JSON in which no member stands twice: the second would hide the first."""

    def once(pairs):
        held = dict(pairs)
        if len(held) < len(pairs):
            names = [name for name, _ in pairs]
            double = next(name for name in names if names.count(name) > 1)
            raise Stop(f"{path}: the member {shown(double)} stands twice in one object")
        return held

    try:
        return json.loads(text, object_pairs_hook=once)
    except json.JSONDecodeError as e:
        raise Stop(f"{path}, line {e.lineno}: not JSON: {e.msg}") from e
    except ValueError as e:
        raise Stop(f"{path}: not JSON that a validator writes: {e}") from e
    except RecursionError as e:
        raise Stop(f"{path}: not JSON that a validator writes: it is nested too deep") from e


def labels(paths):
    """How the report names files: by their last part, or as they were given where that is not enough."""
    names = ["standard input" if path == "-" else os.path.basename(path) for path in paths]
    return [path if names.count(name) > 1 else name for path, name in zip(paths, names)]


def attempt(complaints, name, place, read, *arguments):
    """What `read` gives; None, and a complaint, where it is wrong."""
    try:
        return read(*arguments)
    except Wrong as e:
        complaints.add(name, place, str(e))
        return None
