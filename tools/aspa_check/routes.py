"""Routes: plain lines, the text of `bgpdump -m`, and MRT by the library that reads it. Equal ones are held once."""

import array
import io
import os
import re
import shutil
import subprocess
import tempfile

from .inputs import UNREADABLE, Stop, opened, text_of
from .numbers import Wrong, as_number, attribute, merged, segments, shown, written

# The number of each role, by name (RFC 9234 and the draft).
ROLES = {"customer": 1, "peer": 2, "provider": 3, "route-server": 4, "route-server-client": 5, "mutual-transit": 6}
ALIASES = {"lateral-peer": "peer", "rs": "route-server", "rs-client": "route-server-client"}
DOWNSTREAM = ("provider", "mutual-transit")
# Of an attribute, in bytes.
MOST_BYTES = 4096

# An MRT record begins with a time, a type and a subtype: those of TABLE_DUMP_V2's first, the table of peers.
MRT_BEGINS = b"\x00\x0d\x00\x01"
# Subtypes of TABLE_DUMP_V2 (RFC 6396, RFC 8050): the table of peers, and unicast routes of both families.
MRT_PEERS, MRT_UNICAST = 1, (2, 4, 8, 10)
AS_PATH = 2

# Of an IPv6 address the shape alone: what is judged is the path.
_PREFIX = re.compile(
    r"(?:(?:25[0-5]|2[0-4][0-9]|1?[0-9]{1,2})(?:\.(?:25[0-5]|2[0-4][0-9]|1?[0-9]{1,2})){3}/(?:3[0-2]|[12]?[0-9])"
    r"|[0-9A-Fa-f:.]*:[0-9A-Fa-f:.]*/(?:12[0-8]|1[01][0-9]|[1-9]?[0-9]))\Z"
)


def role_of(name):
    name = ALIASES.get(name.lower(), name.lower())
    if name not in ROLES:
        raise Wrong(f"{shown(name)} is no role: {', '.join(ROLES)}")
    return name


class Route:
    """What is judged: a path from a neighbour. Any number of prefixes may have it."""

    __slots__ = ("neighbour", "role", "segments", "merged", "answer")

    def __init__(self, neighbour, role, path):
        self.neighbour, self.role, self.segments = neighbour, role, path
        self.merged, self.answer = merged(path), None

    def command(self):
        # One byte too many is refused as any more are, and a line has an end.
        return f"judge {ROLES[self.role]} {self.neighbour} {attribute(self.segments)[: MOST_BYTES + 1].hex() or '-'}"

    def written(self):
        return written(self.segments)


class Roles:
    """The role of each neighbour; a neighbour without one is named once."""

    def __init__(self, roles, default):
        self.roles, self.default, self.missing = roles, default, set()

    def of(self, neighbour):
        role = self.roles.get(neighbour, self.default)
        if role is None:
            self.missing.add(neighbour)
        return role


class Routes:
    """All prefixes in the order in which they were read, each with the index of its route among the different ones."""

    def __init__(self, roles, complaints, progress):
        self.roles, self.complaints, self.progress = roles, complaints, progress
        self.prefixes, self.which, self.different = [], array.array("L"), []
        self._texts, self._keys = {}, {}

    def __len__(self):
        return len(self.prefixes)

    def __iter__(self):
        different = self.different
        return ((prefix, different[i]) for prefix, i in zip(self.prefixes, self.which))

    def read(self, path, label):
        stream = opened(path)
        try:
            head = stream.peek(8)[:8]
        except UNREADABLE as e:
            raise Stop(f"{label}: {e}") from e
        # Text has no byte 0.
        if head[4:8] == MRT_BEGINS:
            self._read_mrt(path, label, stream)
        elif b"\0" in head:
            raise Stop(f"{label}: this is neither text nor MRT that begins as a TABLE_DUMP_V2 does")
        else:
            with text_of(stream) as lines:
                self._read_lines(lines, label)

    def _read_lines(self, lines, label):
        add, texts, prefix_ok = self._add, self._texts, _PREFIX.match
        prefixes, which, tell = self.prefixes, self.which, self.progress.tell
        place = 0
        try:
            for place, line in enumerate(lines, 1):
                if line.startswith("TABLE_DUMP2|"):
                    parts = line.split("|", 7)
                    if len(parts) != 8 or parts[2] != "B":
                        self.complaints.add(label, f"line {place}", f"{shown(line.rstrip())} is no route as bgpdump -m writes it")
                        continue
                    prefix, text = parts[5], f"{parts[4]}|{parts[6]}"
                else:
                    prefix, _, text = line.partition("#")[0].rstrip().partition("|")
                index = texts.get(text)
                if index is not None and prefix_ok(prefix):
                    prefixes.append(prefix)
                    which.append(index)
                elif not line.isspace() and not line.lstrip().startswith("#"):
                    add(label, f"line {place}", prefix.strip(), text)
                if not place & 0xFFFF:
                    tell(f"{len(prefixes):,} routes read")
        except UNREADABLE as e:
            raise Stop(f"{label}, after line {place}: {e}") from e

    def _add(self, label, place, prefix, text):
        """A route whose text is new."""
        try:
            neighbour, bar, path = text.partition("|")
            if not bar or "|" in path:
                raise Wrong(f"{shown(prefix + '|' * bool(text) + text)} is not PREFIX|NEIGHBOUR|PATH")
            if not _PREFIX.match(prefix):
                raise Wrong(f"{shown(prefix)} is no prefix")
            index = self._index(as_number(neighbour.strip()), segments(path.strip()))
        except Wrong as e:
            self.complaints.add(label, place, str(e))
            return
        if index is not None:
            self._texts[text] = index
            self.prefixes.append(prefix)
            self.which.append(index)

    def _index(self, neighbour, path):
        """Of the route among the different ones. None while its neighbour has no role: it is not judged then."""
        role = self.roles.of(neighbour)
        if role is None:
            return None
        key = (neighbour, path)
        index = self._keys.get(key)
        if index is None:
            index = self._keys[key] = len(self.different)
            self.different.append(Route(neighbour, role, path))
        return index

    # ---- MRT

    def _read_mrt(self, path, label, stream):
        try:
            import mrtparse
        except ImportError:
            self._read_bgpdump(path, label, stream)
            return
        with unpacked(path, label, stream) as name:
            self.read_entries(mrtparse.Reader(name), label)

    def read_entries(self, reader, label):
        """What mrtparse yields: the table of peers, then for each prefix a route of each peer that has one."""
        peers = []
        for place, entry in enumerate(reader, 1):
            place = f"record {place}"
            if entry.err:
                raise Stop(f"{label}, {place}: mrtparse says: {entry.err_msg}")
            try:
                data, kind = entry.data, code(entry.data["subtype"])
                if kind == MRT_PEERS:
                    peers = [peer["peer_as"] for peer in data["peer_entries"]]
                elif kind in MRT_UNICAST:
                    prefix = f"{data['prefix']}/{data['prefix_length']}"
                    for route in data["rib_entries"]:
                        self._add(label, place, prefix, f"{peers[route['peer_index']]}|{mrt_path(route['path_attributes'])}")
                else:
                    self.complaints.add(label, place, f"subtype {kind} is no unicast route, and is not judged")
            except (KeyError, IndexError, StopIteration, TypeError, ValueError) as e:
                raise Stop(f"{label}, {place}: this is not what mrtparse 2 gives: {e!r}") from e
            if len(self.prefixes) & 0xFFF == 0:
                self.progress.tell(f"{len(self.prefixes):,} routes read")

    def _read_bgpdump(self, path, label, stream):
        program = shutil.which("bgpdump")
        if not program:
            raise Stop(
                f"{label} is an MRT file: install mrtparse (Debian: python3-mrtparse), or hand over what bgpdump -m writes of it"
            )
        with unpacked(path, label, stream) as name:
            process = subprocess.Popen([program, "-m", name], stdout=subprocess.PIPE)
            self._read_lines(text_of(process.stdout), label)
            if process.wait() != 0:
                raise Stop(f"{label}: bgpdump ended with status {process.returncode}")


def code(held):
    """The number of a type, which mrtparse gives together with its name."""
    return held if isinstance(held, int) else int(next(iter(held)))


def mrt_path(attributes):
    """The AS_PATH of a route as text. Without one, the empty path."""
    brackets = {1: "{%s}", 2: "%s", 3: "(%s)", 4: "[%s]"}
    for held in attributes:
        if code(held["type"]) == AS_PATH:
            return " ".join(brackets[code(part["type"])] % " ".join(map(str, part["value"])) for part in held["value"])
    return ""


class unpacked:
    """A file by name, for programs that take no stream: the file itself, or its bytes in a temporary one."""

    def __init__(self, path, label, stream):
        self.path, self.label, self.stream, self.made = path, label, stream, None

    def __enter__(self):
        if self.path != "-" and isinstance(self.stream.raw, io.FileIO):
            return self.path
        self.made = tempfile.NamedTemporaryFile(suffix=".mrt", delete=False)
        try:
            with self.made:
                shutil.copyfileobj(self.stream, self.made)
        except UNREADABLE as e:
            os.unlink(self.made.name)
            raise Stop(f"{self.label}: {e}") from e
        return self.made.name

    def __exit__(self, *_):
        if self.made:
            os.unlink(self.made.name)
