"""MaxMind DB files: one that is worked by hand, what is refused, and the files of another writer, which two other readers read."""
import contextlib
import ipaddress
import math
import random
import subprocess
import tempfile
import unittest
from pathlib import Path

from pcidr import Address, mmdb

HERE = Path(__file__).resolve().parent
WRITER = HERE.parent.parent / "crates" / "cidr_mmdb" / "beside" / "write.pl"
# One node: its left record has the value at place 0, its right record none.
TREE, DATA = b"\x00\x00\x11\x00\x00\x01" + bytes(16), b"\xe1\x47country\x42NL"
METADATA = b"\xab\xcd\xefMaxMind.com\xe3\x4anode_count\xc1\x01\x4brecord_size\xa1\x18\x4aip_version\xa1\x04"
WORKED = TREE + DATA + METADATA
IPV6 = WORKED[:-1] + b"\x06"
# Prints the number and the length of each network of a file, and the name of its value.
ROWS = r"""use MaxMind::DB::Reader;
MaxMind::DB::Reader->new(file => $ARGV[0])->iterate_search_tree(sub { my ($n, $l, $d) = @_; print "$n/$l $d->{asn}\n" });"""


class Worked(unittest.TestCase):
    def test_look_ups(self):
        with mmdb.open_database(WORKED) as reader:
            self.assertEqual(reader.get("10.1.2.3"), {"country": "NL"})
            self.assertEqual(reader.get_with_prefix_len("10.1.2.3"), ({"country": "NL"}, 1))
            self.assertEqual(reader.get_with_prefix_len(ipaddress.ip_address("192.0.2.1")), (None, 1))
            self.assertEqual(reader.get(Address("10.1.2.3")), {"country": "NL"})
            self.assertRaisesRegex(ValueError, "IPv4 alone", reader.get, "2001:db8::1")
            self.assertRaises(ValueError, reader.get, "10.0.0.0/8")

    def test_ipv6(self):
        reader = mmdb.Reader(IPV6)
        self.assertEqual(reader.get_with_prefix_len("2001:db8::1"), ({"country": "NL"}, 1))
        self.assertEqual(reader.get_with_prefix_len("10.1.2.3"), ({"country": "NL"}, 0))
        self.assertEqual(list(reader), [(ipaddress.ip_network("::/1"), {"country": "NL"})])

    def test_rows_and_metadata(self):
        reader = mmdb.Reader(WORKED)
        self.assertEqual(list(reader), [(ipaddress.ip_network("0.0.0.0/1"), {"country": "NL"})])
        self.assertEqual(vars(reader.metadata()), {"node_count": 1, "record_size": 24, "ip_version": 4})
        self.assertEqual(reader.metadata().ip_version, 4)

    def test_closed(self):
        with mmdb.open_database(WORKED) as reader:
            self.assertFalse(reader.closed)
        self.assertTrue(reader.closed)
        for call in (lambda: reader.get("10.1.2.3"), reader.metadata, lambda: list(reader), reader.__enter__):
            self.assertRaisesRegex(ValueError, "closed", call)

    def test_files(self):
        with tempfile.TemporaryDirectory() as folder:
            path = Path(folder) / "country.mmdb"
            path.write_bytes(WORKED)
            for mapped in (False, True):
                with mmdb.open_database(path, mapped=mapped) as reader:
                    self.assertEqual(reader.get("10.1.2.3"), {"country": "NL"})
            path.write_bytes(b"")
            with self.assertRaisesRegex(mmdb.InvalidDatabaseError, f"no marker.*{path}"):
                mmdb.open_database(path, mapped=True)
            self.assertRaises(OSError, mmdb.open_database, folder)

    def test_refused(self):
        for content, why in [
            (b"", "no marker"), (WORKED.replace(b"node_count", b"node_coun_"), "no node_count"),
            (WORKED.replace(b"\xa1\x18", b"\xa1\x19"), "no record_size"), (WORKED[:-1] + b"\x05", "no ip_version"),
            (WORKED.replace(b"\xc1\x01", b"\xc1\x04"), "goes on behind"),
        ]:
            self.assertRaisesRegex(mmdb.InvalidDatabaseError, why, mmdb.open_database, content)
        malformed = mmdb.open_database(WORKED.replace(b"\x42NL", b"\x62NL"))
        self.assertRaisesRegex(mmdb.InvalidDatabaseError, "no value there", malformed.get, "10.1.2.3")
        broken = mmdb.open_database(b"\x00\x00\x02" + WORKED[3:])
        self.assertRaisesRegex(mmdb.InvalidDatabaseError, "broken", broken.get, "10.1.2.3")
        self.assertRaisesRegex(mmdb.InvalidDatabaseError, "broken", list, broken)

    def test_any_byte(self):
        """Each byte changed to some values: an answer or an error."""
        for place in range(len(WORKED)):
            for byte in (0, 1, 0x20, 0x7F, 0xE1, 0xFF):
                with contextlib.suppress(mmdb.InvalidDatabaseError, ValueError):
                    reader = mmdb.open_database(WORKED[:place] + bytes([byte]) + WORKED[place + 1 :])
                    reader.get("10.1.2.3")
                    reader.metadata()
                    for _, _ in zip(range(5), reader):
                        pass


def as_json(value):
    """A value of `maxminddb`, with what JSON does not have as text."""
    if isinstance(value, (bytes, bytearray)):
        return value.hex()
    if isinstance(value, float) and not math.isfinite(value):
        return "NaN" if math.isnan(value) else "Infinity" if value > 0 else "-Infinity"
    if isinstance(value, dict):
        return {name: as_json(item) for name, item in value.items()}
    return [*map(as_json, value)] if isinstance(value, list) else value


class Beside(unittest.TestCase):
    """Files that Perl's `MaxMind::DB::Writer` writes."""

    @classmethod
    def setUpClass(cls):
        if not WRITER.exists() or subprocess.run(["perl", "-MMaxMind::DB::Writer::Tree", "-e", "1"], capture_output=True).returncode:
            raise unittest.SkipTest("MaxMind::DB::Writer is not there")
        folder = tempfile.TemporaryDirectory()
        cls.addClassCleanup(folder.cleanup)
        subprocess.run(["perl", WRITER, folder.name], check=True)
        cls.names = sorted(str(name) for name in Path(folder.name).glob("*.mmdb"))

    def test_maxminddb(self):
        try:
            import maxminddb
        except ImportError:
            self.skipTest("maxminddb is not there")
        made = random.Random(7)
        for name in self.names:
            with maxminddb.open_database(name) as theirs, mmdb.open_database(name) as ours:
                for key, value in vars(ours.metadata()).items():
                    self.assertEqual(value, getattr(theirs.metadata(), key))
                for _ in range(1000):
                    address = str(ipaddress.IPv4Address(made.getrandbits(32)))
                    value, length = theirs.get_with_prefix_len(address)
                    self.assertEqual(ours.get_with_prefix_len(address), (as_json(value), length), f"{name}: {address}")

    def test_rows(self):
        if subprocess.run(["perl", "-MMaxMind::DB::Reader", "-e", "1"], capture_output=True).returncode:
            self.skipTest("MaxMind::DB::Reader is not there")
        for name in self.names:
            printed = subprocess.run(["perl", "-e", ROWS, name], capture_output=True, check=True, text=True).stdout
            with mmdb.open_database(name) as ours:
                more = 96 if ours.metadata().ip_version == 6 else 0
                rows = [f"{int(n.network_address)}/{n.prefixlen + more * (n.version == 4)} {value['asn']}" for n, value in ours]
            self.assertEqual(rows, printed.splitlines(), name)


if __name__ == "__main__":
    unittest.main()
