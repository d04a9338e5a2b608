"""Tables and sets in files: what is written is read, whatever happens meanwhile and whatever the bytes are."""
import copy
import ipaddress
import os
import pickle
import random
import resource
import signal
import struct
import subprocess
import sys
import tempfile
import threading
import time
import unittest
import warnings
from itertools import product
from pathlib import Path
from unittest import mock

import pcidr
from pcidr import Network, NetworkSet, StoredTable, Table, _files

RANDOM = random.Random(6)


def near_text():
    """A network of either family among few, so that they nest and touch, and at times the widest ones."""
    if RANDOM.random() < 0.05:
        return RANDOM.choice(("0.0.0.0/0", "::/0"))
    width, base = RANDOM.choice(((32, 0x0A000000), (128, 0x20010DB8 << 96)))
    length = RANDOM.randint(width - 12, width)
    number = (base | RANDOM.getrandbits(12)) >> width - length << width - length
    kind = ipaddress.IPv4Network if width == 32 else ipaddress.IPv6Network
    return str(kind((number, length)))


def near_table(count):
    return Table((near_text(), RANDOM.randbytes(RANDOM.choice((0, 1, 5, 300)))) for _ in range(count))


def around(networks, reach=1):
    """The addresses at both ends of networks and those up to `reach` before and behind them."""
    found = {"0.0.0.0", "255.255.255.255", "::", "ffff:ffff:ffff:ffff:ffff:ffff:ffff:ffff"}
    for network in map(ipaddress.ip_network, map(str, networks)):
        for end in (int(network[0]), int(network[-1])):
            for number in range(max(0, end - reach), min(end + reach + 1, 1 << network.max_prefixlen)):
                found.add(str(type(network[0])(number)))
    return sorted(found)


class InFolder(unittest.TestCase):
    def setUp(self):
        folder = tempfile.TemporaryDirectory()
        self.addCleanup(folder.cleanup)
        self.folder = Path(folder.name)
        self.path = self.folder / "rows"

    def saved(self, rows):
        rows.save(self.path)
        return self.path.read_bytes()

    def opened(self, content, **how):
        """The table of bytes, which are another file each time."""
        self.path.unlink(missing_ok=True)
        self.path.write_bytes(content)
        return Table.open(self.path, **how)


class Tables(InFolder):
    def test_what_is_saved_is_opened(self):
        for count in (0, 1, 2, 5, *[20] * 10):
            table = near_table(count)
            table.save(self.path)
            asked = around(table)
            networks = [near_text() for _ in range(20)] + ["any"]
            for checked, mapped in product((True, False), (True, False)):
                stored = Table.open(self.path, check=checked, mapped=mapped)
                for held in (stored, *(pickle.loads(pickle.dumps(stored, n)) for n in range(pickle.HIGHEST_PROTOCOL + 1))):
                    self.assertEqual(list(held.items()), list(table.items()))
                    self.assertEqual(held.lookup_each(asked), table.lookup_each(asked))
                for copied in (copy.copy(stored), copy.deepcopy(stored), Table(stored)):
                    self.assertEqual(copied, table)
                self.assertEqual(list(map(stored.lookup, asked)), table.lookup_each(asked))
                self.assertEqual(list(map(stored.lookup, networks)), table.lookup_each(networks))
                self.assertEqual(stored.lookup_each(networks + asked), table.lookup_each(networks + asked))
                self.assertEqual([*map(stored.covering, asked + networks)], [*map(table.covering, asked + networks)])
                self.assertEqual([*map(stored.get, networks)], [*map(table.get, networks)])
                self.assertEqual((len(stored), list(stored), list(stored.values())), (len(table), [*table], [*table.values()]))
                self.assertEqual(stored.lookup_each([]), [])
            stored.save(self.folder / "again")
            self.assertEqual((self.folder / "again").read_bytes(), self.path.read_bytes())

    def test_a_table_of_a_file_is_no_table_that_changes(self):
        stored = self.opened(self.saved(Table({"10.0.0.0/8": b"ten", "::/0": "six: \u00e4"})))
        self.assertIs(type(stored), StoredTable)
        self.assertEqual((repr(stored), stored["::/0"]), ("<StoredTable of 2 rows>", "six: \u00e4".encode()))
        with self.assertRaisesRegex(KeyError, "^'10.0.0.0/9'$"):
            stored["10.0.0.0/9"]
        with self.assertRaises(TypeError):
            stored["10.0.0.0/8"] = b"other"
        with self.assertRaises(TypeError):
            hash(stored)
        with self.assertRaises(ValueError):
            stored.lookup("10.0.0.0.0")
        table = Table(stored)
        table["10.0.0.0/8"] = b"other"
        self.assertEqual((stored["10.0.0.0/8"], table["10.0.0.0/8"]), (b"ten", b"other"))

    def test_few_rows_are_kept(self):
        table = near_table(200)
        asked = around(table)
        stored, wanted = self.opened(self.saved(table)), table.lookup_each(asked)
        with mock.patch.object(pcidr._tables._KeptRows, "MOST", 5):
            for _ in range(3):
                self.assertEqual(stored.lookup_each(asked), wanted)
                self.assertEqual([*map(stored.lookup, asked)], wanted)
        self.assertLessEqual(max(map(len, stored._kept.values())), 5)

    def test_a_row_is_made_once_in_a_call(self):
        table, kept = near_table(200), pcidr._tables._KeptRows
        asked = around(table) * 3
        stored, wanted = self.opened(self.saved(table)), table.lookup_each(asked)
        with mock.patch.object(kept, "MOST", 5), mock.patch.object(kept, "made", autospec=True, side_effect=kept.made) as made:
            self.assertEqual(stored.lookup_each(asked), wanted)
            self.assertEqual(made.call_count, len({row for row in wanted if row}))
            for one in (asked[:9], asked[:1]):
                self.assertEqual(stored.lookup_each(one), wanted[: len(one)])
                self.assertLessEqual(max(map(len, stored._kept.values())), 5)

    def test_rows_that_no_file_has(self):
        wrong = {5: TypeError, None: TypeError, "\ud800": ValueError}
        for value, kind in wrong.items():
            with self.assertRaisesRegex(kind, "the value of 10.0.0.0/8 is n.*: " + repr(value).replace("\\", "\\\\")):
                Table({"::/0": b"", "10.0.0.0/8": value}).save(self.path)
        with self.assertRaisesRegex(ValueError, "'any'"):
            Table({"any": b""}).save(self.path)
        with mock.patch.object(_files, "accumulate", lambda *_, **__: [0, 1 << 32]), self.assertRaises(ValueError):
            Table({"::/0": b""}).save(self.path)
        self.assertEqual(os.listdir(self.folder), [])

    def test_bytes_made_by_hand(self):
        """A file as the page of `cidr_files` describes it to the byte."""
        header = struct.pack("<4sI8x6I6I", b"\x89CID", 5, 1, 64, 5, 5, 3, 0, 1, 1024, 11, 20, 3, 0)
        first = (0, 0, 1 << 31, *[0] * 61)  # that of 8.0.0.0/6 is a node, and 10.0.0.0/8 its parts 32 to 47
        node = (1 << 31 | 1 << 15, 1 << 31, 0, 1, 0)
        ipv4 = struct.pack("<64I5I4xI4xB7x2I3s5x", *first, *node, 10 << 24, 8, 0, 3, b"ten")
        first = (*[0] * 128, (1 << 31) + 2 * 6, *[0] * 895)  # that of 2000::/10 is a node, whose part 1 is a list
        listed = (2, 0x0DB80000, 0x0DB90000, 0, 1, 0)  # the list of 2001::/16, which changes at 2001:db8:: and 2001:db9::
        node = (0, 7 << 29, 0, (1 << 31) + 1, 0)
        ipv6 = struct.pack("<1024I6I5I4x2QB7x2I3s5x", *first, *listed, *node, 0x20010DB8 << 32, 0, 32, 0, 3, b"doc")
        stored = self.opened(header + ipv4 + ipv6)
        self.assertEqual(dict(stored), {Network("10.0.0.0/8"): b"ten", Network("2001:db8::/32"): b"doc"})
        asked = ["9.255.255.255", "10.0.0.0", "10.255.255.255", "11.0.0.0", "::", "2001:db7:ffff::", "2001:db8::1", "2001:db9::"]
        ten, doc = (Network("10.0.0.0/8"), b"ten"), (Network("2001:db8::/32"), b"doc")
        self.assertEqual(list(map(stored.lookup, asked)), [None, ten, ten, None, None, None, doc, None])


class Sets(InFolder):
    def test_what_is_saved_is_opened(self):
        texts = [[], ["any"], ["0.0.0.0/0"], *([near_text() for _ in range(RANDOM.randrange(30))] for _ in range(40))]
        for networks in texts:
            made = NetworkSet(networks)
            Table((network, b"value") for network in networks if network != "any").save(self.folder / "rows of a table")
            made.save(self.path)
            again = NetworkSet.open(self.path)
            sets = [again, NetworkSet.open(self.path, check=False), NetworkSet.open(self.path, mapped=True), copy.copy(again)]
            if networks != ["any"]:
                sets.append(NetworkSet.open(self.folder / "rows of a table"))
            sets += (pickle.loads(pickle.dumps(held, n)) for held in (made, again) for n in range(pickle.HIGHEST_PROTOCOL + 1))
            asked = around(again.to_strings())
            wanted = [any(address in network for network in map(Network, networks)) for address in asked]
            for held in sets:
                self.assertEqual(held.contains_each(asked), wanted)
                self.assertEqual([address in held for address in asked], wanted)
                self.assertEqual((held, held.to_strings(), len(held)), (made, made.to_strings(), len(made)))
            others = [near_text() for _ in range(10)] + ["any"]
            self.assertEqual(again.contains_each(others), [other in made for other in others])
            self.assertEqual(again | NetworkSet(others[:3]), NetworkSet([*networks, *others[:3]]))


class Wrong(InFolder):
    """Bytes that are no file of tables."""

    def setUp(self):
        super().setUp()
        rows = {"10.0.0.0/8": b"outer", "10.1.0.0/16": b"inner", "192.0.2.1": b"", "::/0": b"six", "2001:db8::/32": b"doc"}
        self.table = Table(rows)
        self.content = self.saved(self.table)
        self.asked, self.few = around(self.table, 62), around(self.table)
        self.assertGreaterEqual(len(self.asked), 1000)
        self.answers, self.few_answers = self.table.lookup_each(self.asked), self.table.lookup_each(self.few)

    def answered(self, content, **how):
        """What a file gives: whether it is one, and whether its answers are the same."""
        try:
            stored = self.opened(content, **how)
        except ValueError:
            return False, False

        def answer(look, *asked):
            try:
                return look(*asked)
            except ValueError:
                return ValueError

        few = [answer(stored.lookup, address) for address in self.few]
        answers = answer(stored.lookup_each, self.asked)
        for other in (stored.get, stored.covering):
            answer(other, RANDOM.choice(self.asked))
        answer(list, stored.items())
        answer(list, NetworkSet.open(self.path, check=False))
        return True, (few, answers) == (self.few_answers, self.answers)

    def test_each_end(self):
        self.assertEqual(self.answered(self.content), (True, True))
        for end in range(len(self.content)):
            for checked in (True, False):
                self.assertEqual(self.answered(self.content[:end], check=checked), (False, False), end)
        self.assertEqual(self.answered(self.content + b"\0"), (False, False))

    def test_each_byte(self):
        refused = 0
        places = [place for place, byte in enumerate(self.content) if place < 64 or byte or RANDOM.random() < 0.2]
        for place, flip in product(places, (1, RANDOM.randrange(2, 256))):
            changed = bytearray(self.content)
            changed[place] ^= flip
            is_opened, is_same = self.answered(changed)
            if is_opened and not is_same:  # a value is another one, but of the same row
                answers = Table.open(self.path).lookup_each(self.asked)
                self.assertEqual([row and row[0] for row in answers], [row and row[0] for row in self.answers], place)
            refused += not is_opened
            self.answered(changed, check=False)
        self.assertGreater(refused, len(places))

    def test_what_is_wrong_is_said(self):
        versions = [b"\x89CID" + bytes([version, 0, 0, 0]) + bytes(56) for version in (1, 2, 3, 4, 6)]
        for content in (b"", b"10.0.0.0/8 value\n", *versions, self.content[:-1], self.content + b"\0"):
            self.path.write_bytes(content)
            for kind in (Table, NetworkSet):
                with self.assertRaisesRegex(ValueError, f"..+: '{self.path}'$"):
                    kind.open(self.path)
        for path, error in ((self.folder / "none", FileNotFoundError), (self.folder, IsADirectoryError)):
            with self.assertRaises(error):
                Table.open(path)

    def test_what_is_no_regular_file(self):
        """A pipe that nobody writes into, and a file without an end."""
        os.mkfifo(self.folder / "pipe")
        for path, kind, mapped in product((self.folder / "pipe", "/dev/zero"), (Table, NetworkSet), (False, True)):
            with self.assertRaisesRegex(OSError, "not a regular file"):
                kind.open(path, mapped=mapped)

    def test_numbers_are_no_names(self):
        """As of `open` they would be descriptors, which are closed behind it."""
        with open(self.path, "rb") as file:
            for number in (file.fileno(), True):
                for call in (Table.open, StoredTable, NetworkSet.open, self.table.save, NetworkSet(self.table).save):
                    with self.assertRaises(TypeError):
                        call(number)
            self.assertTrue(os.fstat(file.fileno()))

    def test_pickles_of_other_bytes(self):
        """They are checked as the bytes of a file are, whatever the pickle says."""
        swapped = bytearray(self.content)
        at = swapped.rindex((192 << 24 | 2 << 8 | 1).to_bytes(4, "little"))
        swapped[at : at + 4] = bytes(4)
        Table.open(self.path, check=False)
        for wrong in (bytes(swapped), self.content[:-1], b""):
            for held, state in ((StoredTable, (wrong, True)), (NetworkSet, wrong), (Table, {"_rows": (wrong, None, ())})):
                with self.assertRaises(ValueError):
                    held.__new__(held).__setstate__(state)
        unchecked = StoredTable.__new__(StoredTable)
        unchecked.__setstate__((bytes(swapped), False))
        with self.assertRaises(TypeError):
            unchecked.__setstate__((bytearray(self.content), True))
        again = pickle.loads(pickle.dumps(self.opened(self.content)))
        self.assertEqual(dict(again), dict(self.table))


class Writing(InFolder):
    def setUp(self):
        super().setUp()
        self.old, self.new = Table({"10.0.0.0/8": b"old"}), Table({"10.0.0.0/8": b"new" * 1000})
        self.content = self.saved(self.old)

    def assert_old(self):
        self.assertEqual((os.listdir(self.folder), self.path.read_bytes()), ([self.path.name], self.content))

    def test_permissions_and_links(self):
        mode = os.umask(0o027)
        try:
            self.new.save(str(self.folder / "fresh"))
            self.assertEqual((self.folder / "fresh").stat().st_mode & 0o777, 0o640)
            for kept in (0o600, 0o666, 0o440):
                self.path.chmod(kept)
                self.new.save(self.path)
                self.assertEqual(self.path.stat().st_mode & 0o777, kept)
        finally:
            os.umask(mode)
        (self.folder / "link").symlink_to("rows")
        self.old.save(self.folder / "link")
        self.assertTrue((self.folder / "link").is_symlink())
        self.assertEqual(self.path.read_bytes(), self.content)
        os.mkfifo(self.folder / "pipe")
        with self.assertRaisesRegex(OSError, "not a regular file"):
            self.old.save(self.folder / "pipe")
        self.assertTrue((self.folder / "pipe").is_fifo())
        self.assertEqual(sorted(os.listdir(self.folder)), ["fresh", "link", "pipe", "rows"])

    def seen_at_each_line(self, look):
        """What is seen at each line that is run while a file is written."""
        seen = set()

        def at_line(frame, *_):
            seen.update(look())
            return at_line if frame.f_code.co_filename == _files.__file__ else None

        before = sys.gettrace()
        sys.settrace(at_line)
        try:
            self.new.save(self.path)
        finally:
            sys.settrace(before)
        return seen

    def test_nobody_else_can_open_what_is_written(self):
        def modes():
            return [(each.stat().st_size, each.stat().st_mode & 0o7777) for each in self.folder.iterdir() if each != self.path]

        size = len(self.saved(self.new))
        mask = os.umask(0)
        try:
            for mode in (0o600, 0o666, 0o440, 0o7755):
                self.old.save(self.path)
                self.path.chmod(mode)
                seen = self.seen_at_each_line(modes)
                self.assertEqual({each for each in seen if each[0] < size}, {(0, 0o600)})
                self.assertEqual(seen - {(0, 0o600), (size, 0o600)}, {(size, mode)} - {(size, 0o600)})
                self.assertEqual(self.path.stat().st_mode & 0o7777, mode)
        finally:
            os.umask(mask)

    @unittest.skipUnless(os.geteuid() == 0, "only root has files of others")
    def test_owners_and_groups(self):
        nobody, group, other = 65534, 4242, 4243

        def written(owner, of_group, mode, groups):
            """Who has a file and what rights after somebody has written it anew."""
            os.chown(self.path, owner, of_group)
            self.path.chmod(mode)
            child = os.fork()
            if child == 0:
                try:
                    if groups is not None:
                        os.setgroups(groups)
                        os.setgid(nobody)
                        os.setuid(nobody)
                    self.new.save(self.path)
                    os._exit(0)
                finally:
                    os._exit(1)
            self.assertEqual(os.waitpid(child, 0)[1], 0)
            now = self.path.stat()
            return now.st_uid, now.st_gid, now.st_mode & 0o7777

        os.chown(self.folder, nobody, nobody)
        for mode in (0o660, 0o6755, 0o604):
            self.assertEqual(written(nobody, group, mode, None), (nobody, group, mode))
        self.assertEqual(written(nobody, group, 0o2660, [group]), (nobody, group, 0o2660))
        self.assertEqual(written(nobody, group, 0o660, []), (nobody, nobody, 0o600))
        self.assertEqual(written(0, group, 0o660, [other, group]), (nobody, group, 0o660))
        self.assertEqual(written(0, group, 0o6775, [group]), (nobody, group, 0o775))
        self.assertEqual(written(0, group, 0o6775, [other]), (nobody, nobody, 0o705))
        self.assertEqual(written(0, 0, 0o640, []), (nobody, nobody, 0o600))

    def test_names(self):
        """The longest ones, and those of others, which nobody can tell before."""
        longest = self.folder / ("n" * os.pathconf(self.folder, "PC_NAME_MAX"))
        for _ in range(2):
            self.new.save(longest)
        self.assertEqual(Table.open(longest)["10.0.0.0/8"], b"new" * 1000)
        names = [self.seen_at_each_line(lambda: os.listdir(self.folder)) - {"rows", longest.name} for _ in range(5)]
        self.assertEqual([len(each) for each in names], [1] * 5)
        self.assertEqual(len(set().union(*names)), 5)
        self.assertRegex(" ".join(set().union(*names)), "^([.]pcidr-[0-9a-f]{16} ?){5}$")
        with mock.patch.object(os, "urandom", return_value=bytes(8)):
            (self.folder / (".pcidr-" + "00" * 8)).symlink_to(self.folder / "led")
            with self.assertRaises(FileExistsError):
                self.old.save(self.path)
        self.assertFalse((self.folder / "led").exists())

    def test_links_that_the_system_does_not_follow(self):
        """Those of others in a folder where anybody may make some; here the system says so of one of them."""
        (self.folder / "link").symlink_to("rows")
        look = os.stat

        def refused(path, **how):
            if os.fspath(path).endswith("link"):
                raise PermissionError(13, "Permission denied", path)
            return look(path, **how)

        with mock.patch.object(os, "stat", refused), self.assertRaises(PermissionError):
            self.new.save(self.folder / "link")
        self.assertEqual((sorted(os.listdir(self.folder)), self.path.read_bytes()), (["link", "rows"], self.content))

    def test_a_name_that_leads_elsewhere_meanwhile(self):
        """A link that is there for a moment, while links are followed, leads nowhere."""
        (self.folder / "other").write_bytes(b"other")
        follow, moments = os.path.realpath, iter(range(1))

        def at_a_moment(path):
            if next(moments, None) is None:
                return follow(path)
            return str(self.folder / "other")

        with mock.patch.object(os.path, "realpath", at_a_moment):
            self.new.save(self.path)
        self.assertEqual((self.folder / "other").read_bytes(), b"other")
        self.assertEqual(Table.open(self.path)["10.0.0.0/8"], b"new" * 1000)
        with mock.patch.object(os.path, "realpath", lambda _: str(self.folder / "other")):
            with self.assertRaises(OSError):
                self.old.save(self.path)
        self.assertEqual((self.folder / "other").read_bytes(), b"other")

    def test_a_file_that_is_cut_short(self):
        """A table keeps what it has read. One that is mapped ends the process, as the page says."""
        for kind in (Table, NetworkSet):
            self.new.save(self.path)
            stored, unchecked = kind.open(self.path), kind.open(self.path, check=False)
            os.truncate(self.path, 8)
            for held in (stored, unchecked):
                self.assertIn("10.1.2.3" if kind is NetworkSet else "10.0.0.0/8", held)
            with self.assertRaisesRegex(ValueError, "file is shorter than its header says"):
                os.truncate(self.path, len(self.content))
                self.path.write_bytes(self.content[:-1])
                kind.open(self.path)
        self.new.save(self.path)
        program = "import os, sys; from pcidr import *; t = Table.open(sys.argv[1], mapped=True); os.truncate(sys.argv[1], 0)"
        ran = subprocess.run([sys.executable, "-c", program + "; t.lookup('10.1.2.3')", self.path])
        self.assertEqual(ran.returncode, -signal.SIGBUS)

    def test_an_opened_table_stays_as_it_was(self):
        for mapped in (False, True):
            self.old.save(self.path)
            stored = Table.open(self.path, mapped=mapped)
            self.new.save(self.path)
            self.assertEqual((stored.lookup("10.1.2.3")[1], Table.open(self.path)["10.0.0.0/8"]), (b"old", b"new" * 1000))
            stored.save(self.path)
            self.path.unlink()
            self.assertEqual(stored["10.0.0.0/8"], b"old")

    def test_an_error_leaves_the_old_file(self):
        for call in ("fsync", "replace", "fchmod"):
            with mock.patch.object(os, call, side_effect=OSError(28, "No space left on device")):
                with self.assertRaises(OSError):
                    self.new.save(self.path)
            self.assert_old()

    def test_a_full_disk_leaves_the_old_file(self):
        limits = resource.getrlimit(resource.RLIMIT_FSIZE)
        resource.setrlimit(resource.RLIMIT_FSIZE, (1000, limits[1]))
        try:
            with self.assertRaises(OSError):
                self.new.save(self.path)
        finally:
            resource.setrlimit(resource.RLIMIT_FSIZE, limits)
        self.assert_old()

    def test_an_interrupt_leaves_a_whole_file(self):
        """At each line that is run while a file is written."""
        seen = set()
        for place in range(1000):
            self.old.save(self.path)
            lines = iter(range(place))

            def at_line(frame, event, _):
                if frame.f_code.co_filename != _files.__file__:
                    return None
                if event == "line" and next(lines, None) is None:
                    raise KeyboardInterrupt
                return at_line

            before = sys.gettrace()
            with warnings.catch_warnings():
                warnings.simplefilter("ignore", ResourceWarning)  # of a file that is interrupted when it was opened
                sys.settrace(at_line)
                try:
                    self.new.save(self.path)
                except KeyboardInterrupt:
                    pass
                else:
                    break
                finally:
                    sys.settrace(before)
            self.assertEqual(os.listdir(self.folder), [self.path.name], place)
            seen.add(Table.open(self.path)["10.0.0.0/8"])
        self.assertGreater(place, 10)
        self.assertIn(b"old", seen)

    @unittest.skipUnless(hasattr(os, "fork"), "there is no fork")
    def test_a_process_that_is_killed_leaves_a_whole_file(self):
        for _ in range(100):
            child = os.fork()
            if child == 0:
                try:
                    while True:
                        self.new.save(self.path)
                        self.old.save(self.path)
                finally:
                    os._exit(1)
            time.sleep(RANDOM.random() * 0.01)
            os.kill(child, signal.SIGKILL)
            self.assertEqual(os.waitpid(child, 0)[1], signal.SIGKILL)
            self.assertIn(Table.open(self.path)["10.0.0.0/8"], (b"old", b"new" * 1000))
        self.new.save(self.path)


class Shared(InFolder):
    def test_threads_look_up_at_once(self):
        table = near_table(200)
        table.save(self.path)
        stored, held = Table.open(self.path), NetworkSet.open(self.path)
        asked = around(table)
        wanted = table.lookup_each(asked)
        wrong = []

        def look_up():
            for _ in range(8):
                if [*map(stored.lookup, asked)] != wanted or stored.lookup_each(asked) != wanted:
                    wrong.append("a table")
                if held.contains_each(asked) != [row is not None for row in wanted] or held != NetworkSet(table):
                    wrong.append("a set")

        threads = [threading.Thread(target=look_up) for _ in range(8)]
        interval = sys.getswitchinterval()
        sys.setswitchinterval(1e-5)
        try:
            for thread in threads:
                thread.start()
            for thread in threads:
                thread.join()
        finally:
            sys.setswitchinterval(interval)
        self.assertEqual(wrong, [])

    @unittest.skipUnless(hasattr(os, "fork"), "there is no fork")
    def test_a_child_looks_up(self):
        stored = self.opened(self.saved(Table({"10.0.0.0/8": b"ten"})))
        child = os.fork()
        if child == 0:
            os._exit(0 if stored.lookup("10.1.2.3") == (Network("10.0.0.0/8"), b"ten") else 1)
        self.assertEqual(os.waitpid(child, 0)[1], 0)
        self.assertEqual(stored["10.0.0.0/8"], b"ten")


if __name__ == "__main__":
    unittest.main()
