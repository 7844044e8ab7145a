"""MRT in: by mrtparse where it is installed, else by bgpdump, else not at all."""

import gzip
import io
import ipaddress
import os
import socket
import struct
import types
import unittest

from helper import REGISTER_D, Case

from aspa_check.inputs import Complaints, Progress, Stop
from aspa_check.routes import Roles, Routes

try:
    import mrtparse
except ImportError:
    mrtparse = None

# A module by this name on Python's path hides the real one, or stands for it.
MISSING = "raise ImportError('hidden by a test')\n"
C = "50 <x- 20 10: AS20 lists AS40 and not AS50 (source d.txt)"


def record(subtype, body):
    return struct.pack(">IHHI", 1700000000, 13, subtype, len(body)) + body


def peers(numbers):
    """A PEER_INDEX_TABLE (RFC 6396, 4.3.1): IPv4 peers with four-byte numbers."""
    body = socket.inet_aton("198.51.100.1") + struct.pack(">HH", 0, len(numbers))
    for i, number in enumerate(numbers):
        body += struct.pack(">B4s4sI", 2, bytes([192, 0, 2, i]), bytes([192, 0, 2, i]), number)
    return record(1, body)


def unicast(prefix, entries):
    """A RIB_IPV4_UNICAST or RIB_IPV6_UNICAST: for each peer's index the segments of its path."""
    network = ipaddress.ip_network(prefix)
    octets = network.network_address.packed[: (network.prefixlen + 7) // 8]
    body = struct.pack(">IB", 0, network.prefixlen) + octets + struct.pack(">H", len(entries))
    for index, segments in entries:
        path = b"".join(struct.pack(f">BB{len(held)}I", kind, len(held), *held) for kind, held in segments)
        attributes = b"\x40\x01\x01\x00" + b"\x40\x02" + bytes([len(path)]) + path + b"\x40\x03\x04\xc0\x00\x02\x01"
        body += struct.pack(">HIH", index, 1700000000, len(attributes)) + attributes
    return record(2 if network.version == 4 else 4, body)


FILE = peers([50, 20]) + unicast("10.0.0.0/24", [(0, [(2, (50, 20, 10))]), (1, [(2, (20, 10))])]) + unicast(
    "2001:db8::/32", [(0, [(2, (50,)), (1, (20, 10))])])
# What bgpdump -m writes of it.
TEXT = (
    "TABLE_DUMP2|1700000000|B|192.0.2.0|50|10.0.0.0/24|50 20 10|IGP|192.0.2.1|0|0||NAG||\n"
    "TABLE_DUMP2|1700000000|B|192.0.2.1|20|10.0.0.0/24|20 10|IGP|192.0.2.1|0|0||NAG||\n"
    "TABLE_DUMP2|1700000000|B|192.0.2.0|50|2001:db8::/32|50 {20,10}|IGP|192.0.2.1|0|0||NAG||\n"
)
WANTED = [f"Invalid  10.0.0.0/24  AS50  {C}", "Invalid  2001:db8::/32  AS50  50 {20,10}: the path has a set"]


class Programs(Case):
    def setUp(self):
        super().setUp()
        self.write("d.txt", REGISTER_D)
        for name in ("modules", "programs", "temporary"):
            os.mkdir(name)
        self.write("modules/mrtparse.py", MISSING)
        self.write("rib.mrt", FILE)
        self.write("text", TEXT)

    def run_mrt(self, name="rib.mrt", path=None, stdin=b""):
        held = {"PYTHONPATH": os.path.abspath("modules"), "TMPDIR": os.path.abspath("temporary")}
        held["PATH"] = os.path.abspath("programs") + (f":{os.environ['PATH']}" if path is None else path)
        done = self.run_tool("--records", "d.txt", "--routes", name, "--default-role", "customer", stdin=stdin, **held)
        # Whatever was unpacked is gone.
        self.assertEqual(os.listdir("temporary"), [])
        return done

    def bgpdump(self, more=""):
        # It says by which name it was given what bytes.
        self.script("programs/bgpdump", f'echo "$*" >asked\ncat "$2" >bytes\n{more}\ncat text\n')

    def test_by_bgpdump(self):
        self.bgpdump()
        status, out, err = self.run_mrt()
        self.assertEqual((status, err, out.splitlines()[-2:]), (1, "", WANTED))
        with open("asked", encoding="ascii") as asked, open("bytes", "rb") as given:
            self.assertEqual((asked.read(), given.read()), ("-m rib.mrt\n", FILE))

    def test_packed_and_from_standard_input_by_bgpdump(self):
        self.bgpdump()
        self.write("rib.gz", FILE)
        self.write("rib.bz2", FILE)
        for name, stdin in (("rib.gz", b""), ("rib.bz2", b""), ("-", FILE), ("-", gzip.compress(FILE))):
            with self.subTest(name=name):
                status, out, err = self.run_mrt(name, stdin=stdin)
                self.assertEqual((status, err, out.splitlines()[-2:]), (1, "", WANTED))
                with open("bytes", "rb") as given:
                    self.assertEqual(given.read(), FILE)

    def test_bgpdump_that_fails(self):
        self.bgpdump("exit 3")
        self.assertEqual(self.run_mrt(), (2, "", "aspa-check: rib.mrt: bgpdump ended with status 3\n"))

    def test_bgpdump_with_bad_lines(self):
        self.bgpdump("echo 'TABLE_DUMP2|1700000000|W|192.0.2.1|50|10.0.0.0/24'")
        status, out, err = self.run_mrt()
        self.assertEqual((status, out.splitlines()[-2:]), (2, WANTED))
        self.assertEqual(err.splitlines()[0],
                         "aspa-check: rib.mrt, line 1: 'TABLE_DUMP2|1700000000|W|192.0.2.1|50|10.0.0.0/24' is no route as bgpdump -m writes it")

    def test_neither(self):
        self.assertEqual(self.run_mrt(path=""), (
            2, "",
            "aspa-check: rib.mrt is an MRT file: install mrtparse (Debian: python3-mrtparse), or hand over what bgpdump -m writes of it\n"))

    def test_cut_gzip(self):
        self.bgpdump()
        many = FILE + b"".join(unicast(f"10.{i >> 8}.{i & 255}.0/24", [(0, [(2, (50, i + 1))])]) for i in range(2000))
        self.write("rib.cut", gzip.compress(many)[:-2000])
        self.assertEqual(self.run_mrt("rib.cut"),
                         (2, "", "aspa-check: rib.cut: Compressed file ended before the end-of-stream marker was reached\n"))

    def test_by_mrtparse_if_both_are_there(self):
        self.bgpdump("exit 3")
        self.write("modules/mrtparse.py", STAND_IN)
        status, out, err = self.run_mrt()
        self.assertEqual((status, err, out.splitlines()[-2:]), (1, "", WANTED))

    def test_other_mrt(self):
        # BGP4MP messages have no table of peers.
        self.write("rib.mrt", struct.pack(">IHHI", 1700000000, 16, 4, 0))
        self.assertEqual(self.run_mrt(), (2, "", "aspa-check: rib.mrt: this is neither text nor MRT that begins as a TABLE_DUMP_V2 does\n"))

    @unittest.skipIf(mrtparse is None, "mrtparse is not installed")
    def test_by_the_real_mrtparse(self):
        os.unlink("modules/mrtparse.py")
        self.bgpdump("exit 3")
        self.write("rib.gz", FILE)
        for name, stdin in (("rib.mrt", b""), ("rib.gz", b""), ("-", FILE)):
            status, out, err = self.run_mrt(name, stdin=stdin)
            self.assertEqual((status, err, out.splitlines()[-2:]), (1, "", WANTED))


# Yields what mrtparse 2 does of FILE.
STAND_IN = """
class Entry:
    err, err_msg = 0, ""

    def __init__(self, data):
        self.data = data


def path(*parts):
    return [{"type": {1: "ORIGIN"}, "value": {0: "IGP"}},
            {"type": {2: "AS_PATH"}, "value": [{"type": {k: "?"}, "length": len(v), "value": list(v)} for k, v in parts]}]


def Reader(name):
    assert open(name, "rb").read(8)[4:] == bytes([0, 13, 0, 1])
    yield Entry({"type": {13: "TABLE_DUMP_V2"}, "subtype": {1: "PEER_INDEX_TABLE"}, "peer_entries": [{"peer_as": "50"}, {"peer_as": "20"}]})
    yield Entry({"subtype": {2: "RIB_IPV4_UNICAST"}, "prefix": "10.0.0.0", "prefix_length": 24, "rib_entries": [
        {"peer_index": 0, "path_attributes": path((2, ["50", "20", "10"]))}, {"peer_index": 1, "path_attributes": path((2, ["20", "10"]))}]})
    yield Entry({"subtype": {4: "RIB_IPV6_UNICAST"}, "prefix": "2001:db8::", "prefix_length": 32, "rib_entries": [
        {"peer_index": 0, "path_attributes": path((2, ["50"]), (1, ["20", "10"]))}]})
"""


class Entries(Case):
    """`read_entries` over what mrtparse may yield."""

    def read(self, *entries):
        told = io.StringIO()
        routes = Routes(Roles({}, "peer"), Complaints(told), Progress(quiet=True))
        routes.read_entries((types.SimpleNamespace(**{"err": 0, "err_msg": "", **entry}) for entry in entries), "rib")
        return [(prefix, route.neighbour, route.written()) for prefix, route in routes], told.getvalue()

    @staticmethod
    def table(shape):
        return {"data": {"subtype": shape(1, "PEER_INDEX_TABLE"), "peer_entries": [{"peer_as": "50"}, {"peer_as": 4200000000}]}}

    @staticmethod
    def rib(shape, subtype, prefix, length, *routes):
        return {"data": {"subtype": shape(subtype, "RIB"), "prefix": prefix, "prefix_length": length, "rib_entries": [
            {"peer_index": index, "path_attributes": [
                {"type": shape(1, "ORIGIN"), "value": shape(0, "IGP")},
                {"type": shape(2, "AS_PATH"), "value": [{"type": shape(kind, "?"), "value": held} for kind, held in parts]},
            ]} for index, parts in routes]}}

    SHAPES = (lambda number, name: {number: name}, lambda number, name: [number, name], lambda number, name: {str(number): name},
              lambda number, name: number)

    def test_every_shape(self):
        for i, shape in enumerate(self.SHAPES):
            with self.subTest(shape=i):
                found, told = self.read(
                    self.table(shape),
                    self.rib(shape, 2, "10.0.0.0", 24, (0, [(2, ["50", "20"])]), (1, [(2, [4200000000, 7]), (1, ["8", "9"])])),
                    self.rib(shape, 4, "2001:db8::", 32, (0, [(2, ["50"]), (3, ["1", "2"]), (4, ["3"]), (2, ["4"])])),
                    self.rib(shape, 8, "10.0.1.0", 24, (0, [])),
                    self.rib(shape, 10, "::", 0, (1, [(2, ["1.10", "20"])])))
                self.assertEqual(told, "")
                self.assertEqual(found, [
                    ("10.0.0.0/24", 50, "50 20"), ("10.0.0.0/24", 4200000000, "4200000000 7 {8,9}"),
                    ("2001:db8::/32", 50, "50 (1 2) [3] 4"), ("10.0.1.0/24", 50, ""), ("::/0", 4200000000, "65546 20")])

    def test_a_route_without_path_is_an_empty_one(self):
        entry = {"data": {"subtype": {2: ""}, "prefix": "10.0.0.0", "prefix_length": 24,
                          "rib_entries": [{"peer_index": 0, "path_attributes": [{"type": {1: "ORIGIN"}, "value": {0: "IGP"}}]}]}}
        self.assertEqual(self.read(self.table(self.SHAPES[0]), entry), ([("10.0.0.0/24", 50, "")], ""))

    def test_a_new_table_of_peers(self):
        shape = self.SHAPES[0]
        other = {"data": {"subtype": {1: ""}, "peer_entries": [{"peer_as": "7"}]}}
        rib = self.rib(shape, 2, "10.0.0.0", 24, (0, [(2, ["1"])]))
        self.assertEqual(self.read(self.table(shape), rib, other, rib), ([("10.0.0.0/24", 50, "1"), ("10.0.0.0/24", 7, "1")], ""))

    def test_other_subtypes_are_named(self):
        shape = self.SHAPES[0]
        found, told = self.read(self.table(shape), self.rib(shape, 3, "224.0.0.0", 4), self.rib(shape, 2, "10.0.0.0", 24, (0, [(2, ["x"])])))
        self.assertEqual((found, told), ([], (
            "aspa-check: rib, record 2: subtype 3 is no unicast route, and is not judged\n"
            "aspa-check: rib, record 3: 'x' is not an AS number\n")))

    def test_what_mrtparse_calls_an_error(self):
        with self.assertRaisesRegex(Stop, r"\Arib, record 2: mrtparse says: cut short\Z"):
            self.read(self.table(self.SHAPES[0]), {"err": 3, "err_msg": "cut short", "data": {}})

    def test_what_is_not_as_mrtparse_2_gives_it(self):
        shape = self.SHAPES[0]
        for entry in (
            {"data": {}}, {"data": None}, {"data": {"subtype": {}}}, {"data": {"subtype": {2: ""}}},
            self.rib(shape, 2, "10.0.0.0", 24, (2, [(2, ["50"])])), self.rib(shape, 2, "10.0.0.0", 24, (0, [(9, ["50"])])),
            self.rib(shape, 2, "10.0.0.0", 24, ("0", [])),
        ):
            with self.subTest(entry=entry), self.assertRaisesRegex(Stop, r"\Arib, record 2: this is not what mrtparse 2 gives: "):
                self.read(self.table(shape), entry)
