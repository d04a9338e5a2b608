"""The module's values, sets and tables as objects of Python: truth, copies, formats, other types, and wrong ones."""
import copy
import gc
import ipaddress
import pickle
import random
import tempfile
import unittest
import weakref
from collections.abc import ItemsView, KeysView, MutableMapping, ValuesView
from importlib.util import find_spec
from unittest import mock

import pcidr
from pcidr import Address, Host, Network, NetworkSet, Table, merge

RANDOM = random.Random(5)


def near_text():
    """A network of either family among few, so that they nest and touch, and at times the widest ones."""
    if RANDOM.random() < 0.05:
        return RANDOM.choice(("any", "0.0.0.0/0", "::/0"))
    width, base = RANDOM.choice(((32, 0x0A000000), (128, 0x20010DB8 << 96)))
    length = RANDOM.randint(width - 12, width)
    number = (base | RANDOM.getrandbits(12)) >> width - length << width - length
    kind = ipaddress.IPv4Network if width == 32 else ipaddress.IPv6Network
    return str(kind((number, length)))


def colliding(count):
    """Addresses of IPv6 whose tuples of tag and halves have one hash, which CPython makes of such by xxHash without a
    secret: the lower half takes back what the upper one did."""
    first, second, fifth, bits = 11400714785074694791, 14029467366897019727, 2870177450012600261, 2**64

    def lane(before, number):
        mixed = (before + number * second) % bits
        return (mixed << 31 | mixed >> 33) % bits * first % bits

    ahead, aim = lane(fifth, 192), 0x123456789ABCDEF0 * pow(first, -1, bits) % bits
    aim = (aim >> 31 | aim << 33) % bits
    high, found = 0x20010DB800000000, []
    while len(found) < count:
        high += 1
        low = (aim - lane(ahead, high % (2**61 - 1))) * pow(second, -1, bits) % bits
        if low < 2**61 - 1:
            found.append((high, low))
    return found


class Values(unittest.TestCase):
    def test_truth(self):
        for text in ("any", "::/0", "2001:db8::/32", "0.0.0.0"):
            self.assertTrue(Network(text))
        self.assertTrue(Address("0.0.0.0"))

    def test_a_network_is_one_object_of_an_array(self):
        """As one of `ipaddress`: what has a length beside its indexes is a sequence, whose items arrays have."""
        for network in (Network("10.0.0.0/22"), Network("any"), ipaddress.ip_network("10.0.0.0/22")):
            with self.assertRaises(TypeError):
                len(network)
            self.assertTrue(network)
            if find_spec("numpy"):
                import numpy

                self.assertEqual(numpy.array([network]).shape, (1,))

    def test_hashes_of_chosen_values(self):
        chosen = colliding(50)
        if len({hash((192, high, low)) for high, low in chosen}) > 1:
            self.skipTest("this Python has other hashes of tuples")
        numbers = [high << 64 | low for high, low in chosen]
        for kind in (Address, Host, Network):
            values = {kind(Address.from_int(number, 6)) for number in numbers}
            self.assertEqual((len(values), len(set(map(hash, values)))), (50, 50))
        alike = [place * (2**61 - 1) for place in range(50)]
        for numbers in (numbers, alike):
            table = Table((Address.from_int(number, 6), number) for number in numbers)
            self.assertEqual(len(table), 50)
        self.assertEqual(set(map(hash, alike)), {0})

    def test_weak_references(self):
        table = Table({"10.0.0.0/8": b"ten"})
        with tempfile.TemporaryDirectory() as room:
            table.save(room + "/rows")
            stored = Table.open(room + "/rows")
        sets = NetworkSet(["::/0"]), pcidr.MutableNetworkSet()
        for held in [Address("::1"), Host("10.0.0.1/8"), Network("any"), *sets, table, stored]:
            gone = []
            one = copy.copy(held) if held is table else type(held).__new__(type(held))
            kept = [weakref.ref(one, gone.append), weakref.proxy(one)]
            self.assertIs(kept[0](), one)
            del one
            gc.collect()
            self.assertEqual((gone, kept[0]()), ([kept[0]], None))
        cache = weakref.WeakValueDictionary({"one": (one := Network("10.0.0.0/8"))})
        self.assertIs(cache["one"], one)

    def test_copies(self):
        values = [Address("::1"), Host("10.0.0.5/8"), Host("10.0.0.5"), Network("any"), Network("2001:db8::/32")]
        for value in values:
            for protocol in range(pickle.HIGHEST_PROTOCOL + 1):
                self.assertEqual(pickle.loads(pickle.dumps(value, protocol)), value)
            for copied in (copy.copy(value), copy.deepcopy(value), type(value)(value)):
                self.assertEqual((type(copied), copied), (type(value), value))

    def test_formats_and_bytes(self):
        self.assertEqual(f"{Address('10.0.0.1'):>12}|{Network('10.0.0.0/8'):<11}|", "    10.0.0.1|10.0.0.0/8 |")
        self.assertEqual(f"{Host('::1/64')}", "::1/64")
        for text in ("10.0.0.1", "::1", "2001:db8::"):
            self.assertEqual(bytes(Address(text)), ipaddress.ip_address(text).packed)

    def test_those_of_ipaddress(self):
        for text in ("0.0.0.0", "10.0.0.1", "::1", "::", "::ffff:10.0.0.1"):
            theirs = ipaddress.ip_address(text)
            self.assertEqual(Address(theirs).to_ipaddress(), theirs)
            self.assertEqual(Network(theirs), Network(text))
        for text in ("10.0.0.5/8", "::5/64", "10.0.0.5/32", "::/0", "::1/128"):
            theirs = ipaddress.ip_interface(text)
            self.assertEqual(Host(theirs).to_ipaddress(), theirs)
            self.assertEqual(Network(theirs.network).to_ipaddress(), theirs.network)
            self.assertIn(theirs.ip, Network(theirs.network))
            self.assertIn(theirs.network, NetworkSet([theirs.network]))
            self.assertEqual(Table([(theirs.network, 1)]).lookup(theirs.ip), (Network(theirs.network), 1))
        self.assertEqual(merge([ipaddress.ip_network("10.0.0.0/9"), "10.128.0.0/9"]), ["10.0.0.0/8"])
        with self.assertRaises(ValueError):
            Network("any").to_ipaddress()
        with self.assertRaises(ValueError):
            Network(ipaddress.ip_interface("10.0.0.5/8"))

    def test_bytes_whose_length_is_said_wrong(self):
        class Other(bytearray):
            def __len__(self):
                return 4

        self.assertEqual(Address(Other(bytes(15) + b"\1")), Address("::1"))
        with self.assertRaises(ValueError):
            Address(Other(bytes(5)))

    def test_wrong_types(self):
        for wrong in (5, None, b"::1", ["::1"], object(), ("::1",)):
            for kind in (Address, Host, Network):
                with self.assertRaises(ValueError if wrong == b"::1" else TypeError):
                    kind(wrong)
            with self.assertRaises(TypeError):
                wrong in Network("any")
        with self.assertRaises(TypeError):
            Host("10.0.0.0/8") in Network("10.0.0.0/8")
        with self.assertRaises(TypeError):
            ipaddress.ip_interface("10.0.0.0/8") in Network("10.0.0.0/8")
        for wrong in (5, None, b"1.2.3.4", bytearray(b"x"), 1.5, ["::1"], Address("::1"), Network("any")):
            for call in (pcidr.text_fault, Network.from_reverse_pointer, Table().forwards_same):
                with self.assertRaises(TypeError):
                    call(wrong)
        with self.assertRaises(TypeError):
            Table().forwards_same({})

    def test_a_string_says_what_it_has(self):
        """Whatever a class below says of it."""

        class Other(str):
            def encode(self, *_):
                return b"::1"

        self.assertIsNone(pcidr.text_fault(Other("10.0.0.0/8")))
        self.assertEqual(Network.from_reverse_pointer(Other("10.in-addr.arpa")), Network("10.0.0.0/8"))
        self.assertEqual(Network(Other("10.0.0.9/8"), strict=False), Network("10.0.0.0/8"))

    def test_a_class_below_without_its_init(self):
        class Left(Network):
            def __init__(self):
                pass

        network = Network("10.0.0.0/8")
        for call in (lambda: "10.0.0.1" in Left(), lambda: Left() in network, lambda: Left() == Network("0.0.0.0/0")):
            try:
                self.assertFalse(call())
            except ValueError:  # without the extension
                pass
        table = Table({"any": 1})
        for call in (lambda: table.lookup(Left()), lambda: table.setdefault(Left(), 2), lambda: NetworkSet([Left()])):
            with self.assertRaises(ValueError):
                call()
        self.assertEqual(table, Table({"any": 1}))

    def test_numbers_of_other_classes(self):
        """Whatever has `__index__` is a number, and one without, as a float, is none."""

        class Three:
            def __index__(self):
                return 3

        network, pool = Network("10.0.0.0/24"), NetworkSet(["0.0.0.0/0"])
        self.assertEqual(network[Three()], Address("10.0.0.3"))
        self.assertEqual(network.supernet(Three()), Network("10.0.0.0/21"))
        self.assertEqual(network.supernet(new_prefix=Three()), Network("0.0.0.0/3"))
        self.assertEqual(list(network.subnets(Three()))[1], Network("10.0.0.32/27"))
        self.assertEqual(Address.from_int(Three(), 6), Address("::3"))
        self.assertEqual(pool.first_free(Three()), Network("0.0.0.0/3"))
        for wrong in (1.5, 1.0, "1", None, slice(1)):
            for call in (
                lambda: network[wrong],
                lambda: network.supernet(wrong),
                lambda: network.subnets(wrong),
                lambda: network.supernet(new_prefix=wrong) if wrong is not None else 1 + wrong,
                lambda: Address.from_int(wrong, 4),
                lambda: pool.best_free(wrong),
                lambda: Address("::") + wrong,
            ):
                with self.assertRaises(TypeError):
                    call()

    def test_integers_of_a_class_below(self):
        class Odd(int):
            def __abs__(self):
                return "odd"

            def __neg__(self):
                return 7

        for count in (5, 2**63, 2**64, 2**70, 2**127):
            self.assertEqual(int(Address("::") + Odd(count)), count)
            self.assertEqual(int(Address.from_int(2**128 - 1, 6) - Odd(count)), 2**128 - 1 - count)

    def test_one_where_a_list_is_wanted(self):
        sets = NetworkSet().contains_each, NetworkSet().isdisjoint
        for call in (merge, NetworkSet, pcidr.parse_networks, pcidr.print_networks, Table, Table().lookup_each, *sets):
            for wrong in ("10.0.0.0/8", Network("10.0.0.0/8"), ipaddress.ip_network("10.0.0.0/8")):
                with self.assertRaisesRegex(TypeError, "a list of networks is wanted"):
                    call(wrong)
            for wrong in ([5], [None], 5, None, Address("::"), Host("::/64"), b"::"):
                with self.assertRaises(TypeError):
                    call(wrong)
        for wrong in ("::", Host("::/64"), ipaddress.ip_network("::/64")):
            with self.assertRaises(TypeError):
                pcidr.print_networks([Network("::"), wrong])
        self.assertEqual(pcidr.print_networks(iter([Network("any"), Address("::")])), ["any", "::"])

    def test_another_type_decides_whether_it_is_equal(self):
        for value in (Address("::"), Network("::"), NetworkSet(), Table()):
            self.assertEqual(value, mock.ANY)
            self.assertNotEqual(value, "::")
        self.assertNotEqual(Address("::"), Network("::"))


class Library(unittest.TestCase):
    def test_another_version_is_refused(self):
        major, minor = pcidr._library.VERSION
        pcidr._library._check_version(65536 * major + 256 * minor + 1)
        for other in ((major, minor - 1), (major, minor + 1), (major + 1, minor)):
            with self.assertRaisesRegex(ImportError, f"this module wants {major}.{minor}"):
                pcidr._library._check_version(65536 * other[0] + 256 * other[1])


class Sets(unittest.TestCase):
    def test_one_and_many(self):
        for _ in range(500):
            held = NetworkSet(near_text() for _ in range(RANDOM.randrange(12)))
            asked = [near_text() for _ in range(10)] + ["any", "0.0.0.0/0", "::/0"]
            self.assertEqual([text in held for text in asked], held.contains_each(asked))

    def test_all_addresses_are_two_networks(self):
        both = ["0.0.0.0/0", "::/0"]
        self.assertEqual((merge(both), merge(["any"]), merge(["::/0"])), (both, both, ["::/0"]))
        whole = ~NetworkSet()
        self.assertEqual((whole.to_strings(), repr(whole)), (both, f"NetworkSet({both!r})"))
        self.assertEqual((list(whole), NetworkSet(both)), ([Network("any")], whole))

    def test_order_and_complement(self):
        for _ in range(200):
            one, other = (NetworkSet(near_text() for _ in range(RANDOM.randrange(6))) for _ in range(2))
            self.assertEqual(one < other, one <= other and one != other)
            self.assertEqual(one > other, other < one)
            self.assertEqual(one.isdisjoint(other), not one & other)
            self.assertEqual(one.isdisjoint(list(other)), one.isdisjoint(other))
            self.assertTrue(one.isdisjoint(~one))
            self.assertEqual((one | ~one, ~~one), (NetworkSet(["any"]), one))

    def test_copies(self):
        for held in (NetworkSet(), NetworkSet(["any"]), NetworkSet(["10.0.0.0/8", "2001:db8::/33"])):
            for protocol in range(pickle.HIGHEST_PROTOCOL + 1):
                self.assertEqual(pickle.loads(pickle.dumps(held, protocol)), held)
            self.assertEqual(copy.deepcopy(held), held)
        with self.assertRaises(TypeError):
            NetworkSet() < 5


class Named(Table):
    """A table with something of its own."""

    name = None


class Tables(unittest.TestCase):
    def test_one_and_many(self):
        for _ in range(500):
            table = Table((near_text(), i) for i in range(RANDOM.randrange(12)))
            for _ in range(RANDOM.randrange(3)):
                table[near_text()] = "later"
            for network in [*table][:1]:
                del table[network]
            asked = [near_text() for _ in range(10)] + ["any", "0.0.0.0/0", "::/0"]
            self.assertEqual([table.lookup(text) for text in asked], table.lookup_each(asked))
            for text in asked:
                wanted = [row for row in table.items() if text in row[0]]
                wanted.sort(key=lambda row: -1 if row[0].prefixlen is None else row[0].prefixlen, reverse=True)
                self.assertEqual(table.covering(text), wanted)

    def test_the_calls_of_a_dict(self):
        table = Table({"10.0.0.0/8": 1, "::/0": None})
        self.assertEqual(dict(table), {Network("10.0.0.0/8"): 1, Network("::/0"): None})
        self.assertEqual(list(table.keys()), [Network("10.0.0.0/8"), Network("::/0")])
        self.assertEqual(list(table.values()), [1, None])
        self.assertEqual((table.get("::/0", 5), table.get("10.1.0.0/16"), table.get("any", 5)), (None, None, 5))
        self.assertEqual(repr(table), "Table({'10.0.0.0/8': 1, '::/0': None})")
        self.assertEqual(eval(repr(table)), table)
        for call in (table.__getitem__, table.__delitem__):
            with self.assertRaisesRegex(KeyError, "^'10.1.0.0/16'$"):
                call("10.1.0.0/16")
        with self.assertRaises(TypeError):
            hash(table)

    def test_strings_that_are_no_networks_have_no_row(self):
        table = Table({"any": b"all", "0.0.0.0/0": b"four", "::/0": b"six"})
        with tempfile.TemporaryDirectory() as room:
            Table({"0.0.0.0/0": b"four", "::/0": b"six"}).save(room + "/rows")
            stored = Table.open(room + "/rows")
        for rows in (table, Table(), stored):
            for wrong in ("junk", "", "10.0.0.1/8", "fe80::1%eth0", "\ud800", ipaddress.ip_address("fe80::1%eth0")):
                self.assertEqual((wrong in rows, wrong in rows.keys(), rows.get(wrong), rows.get(wrong, 5)), (False, False, None, 5))
                calls = [rows.__getitem__, rows.lookup, rows.covering, lambda key: rows.lookup_each([key])]
                if rows is not stored:
                    self.assertEqual(rows.pop(wrong, 5), 5)
                    calls += [rows.pop, rows.__delitem__, rows.setdefault, lambda key: rows.update({key: 1})]
                for call in calls:
                    with self.assertRaises(ValueError):
                        call(wrong)
            for wrong in (5, None, b"::", Host("::/64"), ["::/0"]):
                for call in (rows.__contains__, rows.get, rows.__getitem__, rows.lookup):
                    with self.assertRaises(TypeError):
                        call(wrong)
        self.assertEqual([len(rows) for rows in (table, stored)], [3, 2])
        self.assertEqual([stored.get("::/0"), "0.0.0.0/0" in stored, "any" in stored], [b"six", True, False])

    def test_changes_are_those_of_a_dict(self):
        """The same random calls of a table and a dict return the same, raise the same and leave the same rows."""
        names = ["any", "0.0.0.0/0", "10.0.0.0/8", "10.1.0.0/16", "::/0", "2001:db8::/32"]
        calls = {
            "pop": lambda rows, key: rows.pop(key),
            "pop with a default": lambda rows, key: rows.pop(key, "none"),
            "popitem": lambda rows, _: rows.popitem(),
            "setdefault": lambda rows, key: rows.setdefault(key, "default"),
            "setdefault without one": lambda rows, key: rows.setdefault(key),
            "update": lambda rows, key: rows.update({key: "updated", names[0]: "first"}),
            "update with pairs": lambda rows, key: rows.update([(key, 1), (key, 2)]),
            "update with others between": lambda rows, key: rows.update([(key, 1), (names[0], 3), (names[1], 4), (key, 2)]),
            "del": lambda rows, key: rows.__delitem__(key),
            "get": lambda rows, key: rows.get(key, default="none") if isinstance(rows, Table) else rows.get(key, "none"),
            "in": lambda rows, key: key in rows,
        }

        def answer(call, rows, key):
            try:
                return call(rows, key)
            except KeyError:
                return KeyError

        ours, theirs = Table(), {}
        for _ in range(3000):
            name, call = RANDOM.choice([*calls.items()])
            key = RANDOM.choice(names)
            shown = answer(call, ours, key)
            if name == "popitem" and shown is not KeyError:
                shown = str(shown[0]), shown[1]
            self.assertEqual(shown, answer(call, theirs, key), name)
            self.assertEqual({str(network): value for network, value in ours.items()}, theirs, name)
            self.assertEqual(ours.lookup_each(names), [ours.lookup(key) for key in names], name)
        ours.update(theirs, any=5)
        self.assertEqual(ours["any"], 5)
        with self.assertRaises(ValueError):
            ours.update([("10.0.0.0/8", "first"), ("junk", 2)])
        self.assertNotEqual(ours.get("10.0.0.0/8"), "first")
        ours.clear()
        self.assertEqual((len(ours), list(ours.items()), ours.lookup("::")), (0, [], None))

    def test_updates_of_many_rows(self):
        """Tables that lists of rows are put into, one after the other, have the rows of a dict, which go as they came."""
        lengths = [(width, length) for width in (32, 128) for length in range(1, 33)] * 8
        numbers = [(RANDOM.getrandbits(length) << width - length, width, length) for width, length in lengths]
        names = [str(Network((number.to_bytes(width // 8, "big"), length))) for number, width, length in numbers]
        for count in (0, 1, 2, 5, 60, 300):
            ours, theirs = Table(), {}
            for turn in range(6):
                rows = [(RANDOM.choice(names), (turn, place)) for place in range(count if turn % 2 else 7)]
                ours.update(rows)
                theirs.update(rows)
                self.assertEqual({str(network): value for network, value in ours.items()}, theirs)
                self.assertEqual(list(ours), sorted(ours))
                self.assertEqual({name: ours.get(name) for name in names}, {name: theirs.get(name) for name in names})
                asked = [name.split("/")[0] for name in RANDOM.sample(names, 30)]
                self.assertEqual(ours.lookup_each(asked), [ours.lookup(address) for address in asked])
                self.assertEqual(ours.lookup_each(asked), [next(iter(ours.covering(address)), None) for address in asked])
            while theirs:
                network, value = ours.popitem()
                self.assertEqual((str(network), value), theirs.popitem())

    def test_views(self):
        table = Table({"::/0": 1, "10.0.0.0/8": 2})
        keys, values, items = table.keys(), table.values(), table.items()
        self.assertIsInstance(table, MutableMapping)
        for view, kind in ((keys, KeysView), (values, ValuesView), (items, ItemsView)):
            self.assertIsInstance(view, kind)
        table["any"] = 3
        first, last, whole = Network("10.0.0.0/8"), Network("::/0"), Network("any")
        self.assertEqual((list(keys), list(values)), ([whole, first, last], [3, 2, 1]))
        self.assertEqual(list(items), [(whole, 3), (first, 2), (last, 1)])
        self.assertEqual((len(keys), len(values), len(items)), (3, 3, 3))
        self.assertEqual(("::/0" in keys, "::/1" in keys, 1.0 in values, 4 in values), (True, False, True, False))
        self.assertEqual((("::/0", 1) in items, ("::/0", 2) in items, ("::/1", 1) in items), (True, False, False))
        self.assertEqual(keys & {last, Network("::/1")}, {last})
        self.assertEqual(keys - {last}, {whole, first})
        self.assertEqual(items, {whole: 3, first: 2, last: 1}.items())
        self.assertEqual(table, {whole: 3, first: 2, last: 1})
        self.assertNotEqual(table, {whole: 3, first: 2})

    def test_copies(self):
        for rows in ({}, {"10.0.0.0/8": [1], "any": "x"}):
            table = Named(rows)
            table.name = "mine"
            for protocol in range(pickle.HIGHEST_PROTOCOL + 1):
                copied = pickle.loads(pickle.dumps(table, protocol))
                self.assertEqual((copied, type(copied), copied.name), (table, Named, "mine"))
            self.assertEqual(copy.copy(table), table)
        self.assertIs(copy.copy(table)["10.0.0.0/8"], table["10.0.0.0/8"])
        self.assertIsNot(copy.deepcopy(table)["10.0.0.0/8"], table["10.0.0.0/8"])
        table["::/0"] = table
        for copied in (copy.deepcopy(table), pickle.loads(pickle.dumps(table))):
            self.assertIs(copied["::/0"], copied)
        typed = Table[int]({"::/0": 1})
        self.assertEqual(pickle.loads(pickle.dumps(typed)), typed)

    def test_pickles_are_the_bytes_of_files(self):
        names = ["any", "0.0.0.0/0", "10.0.0.0/8", "10.1.2.3", "::/0", "2001:db8::/32", "2001:db8::1"]
        for begin, end in ((0, 7), (1, 7), (1, 4), (4, 7), (0, 1), (7, 7)):
            for value in (lambda name: name.encode(), lambda name: name, lambda name: [name, 1], lambda name: None):
                table = Table({name: value(name) for name in names[begin:end]})
                content, values, of_any = table.__getstate__()["_rows"]
                self.assertEqual(len(of_any), begin == 0 and end > 0)
                held = [table[name] for name in names[max(begin, 1) : end]]
                self.assertEqual(values, None if set(map(type, held)) <= {bytes} else held)
                for protocol in range(pickle.HIGHEST_PROTOCOL + 1):
                    copied = pickle.loads(pickle.dumps(table, protocol))
                    self.assertEqual((copied, list(copied.items())), (table, list(table.items())))
                    for address in ("10.1.2.3", "11.0.0.0", "2001:db8::1", "fe80::"):
                        self.assertEqual(copied.lookup(address), table.lookup(address))
                    copied["10.9.0.0/16"] = 1
                    self.assertEqual(copied.lookup("10.9.1.1")[1], 1)
                    self.assertNotIn("10.9.0.0/16", table)

    def test_pickles_of_rows(self):
        table = Table.__new__(Named)
        table.__setstate__({"_rows": [("10.0.0.0/8", [1]), ("::/0", 2), ("any", 3)], "name": "mine"})
        self.assertEqual((table, table.name), (Table({"10.0.0.0/8": [1], "::/0": 2, "any": 3}), "mine"))
        self.assertEqual(table.lookup("10.1.2.3"), (Network("10.0.0.0/8"), [1]))
        table.__setstate__({"_rows": []})
        self.assertEqual(len(table), 0)

    def test_pickles_that_are_cut_or_changed(self):
        content, values, of_any = Table({"10.0.0.0/8": 1, "::/0": 2}).__getstate__()["_rows"]
        wrong = [(content[:end], values, of_any) for end in range(len(content))]
        wrong += [(content, values[1:], of_any), (content, [*values, 3], of_any)]
        wrong += [(content[:place] + b"\xff" + content[place + 1 :], values, of_any) for place in (0, 4, 16, 128)]
        for state in wrong:
            with self.assertRaises(ValueError):
                Table().__setstate__({"_rows": state})


if __name__ == "__main__":
    unittest.main()
