"""The module beside `ipaddress`, on random inputs where both have the call."""
import ipaddress
import random
import unittest

import pcidr
from pcidr import Address, Host, Network, NetworkSet, Table

RANDOM = random.Random(4)


def random_network():
    """A network of `ipaddress`, of either family."""
    width = RANDOM.choice((32, 128))
    length = RANDOM.randint(0, width)
    bits = RANDOM.getrandbits(width) >> (width - length) << (width - length) if length else 0
    kind = ipaddress.IPv4Network if width == 32 else ipaddress.IPv6Network
    return kind((bits, length))


def near_networks(count):
    """IPv4 networks that often nest and touch."""
    return [ipaddress.IPv4Network((RANDOM.randrange(64) << 24 + 2, 6 + RANDOM.randrange(2)), strict=False) for _ in range(count)]


def long_text(network):
    """The string of a network as this module prints it: without a full length."""
    return str(network.network_address) if network.prefixlen == network.max_prefixlen else str(network)


class Values(unittest.TestCase):
    def test_networks_are_those_of_ipaddress(self):
        for _ in range(2000):
            theirs = random_network()
            ours = Network(str(theirs))
            self.assertEqual(str(ours), long_text(theirs))
            self.assertEqual(ours.with_prefixlen, str(theirs))
            self.assertEqual(str(ours.first), str(theirs[0]))
            self.assertEqual(str(ours.last), str(theirs[-1]))
            self.assertEqual(str(ours.netmask), str(theirs.netmask))
            self.assertEqual(ours.prefixlen, theirs.prefixlen)
            self.assertEqual(ours.version, theirs.version)
            self.assertEqual(ours.num_addresses, theirs.num_addresses)
            place = RANDOM.randrange(theirs.num_addresses)
            self.assertEqual(str(ours[place]), str(theirs[place]))
            self.assertEqual(int(ours[place]), int(theirs[place]))

    def test_hosts_are_those_of_ipaddress(self):
        for _ in range(1000):
            network = random_network()
            address = network[RANDOM.randrange(network.num_addresses)]
            theirs = ipaddress.ip_interface(f"{address}/{network.prefixlen}")
            ours = Host(str(theirs))
            self.assertEqual(str(ours.ip), str(theirs.ip))
            self.assertEqual(ours.network, Network(str(theirs.network)))
            self.assertIn(ours.ip, ours.network)
            self.assertEqual(ours.with_prefixlen, str(theirs))
            self.assertEqual(str(ours), long_text(theirs.network) if theirs.network.num_addresses == 1 else str(theirs))

    def test_strings_that_are_none(self):
        for text in ("", "10.0.0.1/8", "10.0.0.0/33", "10.0.0/8", "::/129", "x", "10.0.0.0/8 ", "::1%1", "\ud800", "\n"):
            with self.assertRaises(ValueError):
                Network(text)
        with self.assertRaisesRegex(ValueError, "host part of address was not zero"):
            Network("10.0.0.1/8")

    def test_random_strings(self):
        for _ in range(5000):
            text = "".join(RANDOM.choice("0123456789./:af") for _ in range(RANDOM.randint(1, 12)))
            try:
                theirs = long_text(ipaddress.ip_network(text))
            except ValueError:
                theirs = None
            head, slash, tail = text.partition("/")
            if theirs is not None and slash and not tail.isdigit():
                continue  # `ipaddress` also takes masks
            try:
                ours = str(Network(text))
            except ValueError:
                ours = None
            self.assertEqual(ours, theirs, text)

    def test_order_and_hash(self):
        theirs = [random_network() for _ in range(300)] + near_networks(100)
        ours = sorted(Network(str(network)) for network in theirs)
        wanted = sorted(theirs, key=lambda n: (n.version, int(n[0]), n.prefixlen))
        self.assertEqual([str(network) for network in ours], [long_text(network) for network in wanted])
        self.assertEqual(len(set(ours)), len(set(theirs)))
        self.assertEqual(repr(Network("10.0.0.0/8")), "Network('10.0.0.0/8')")
        self.assertLess(Network("any"), Network("0.0.0.0/0"))

    def test_order_of_hosts(self):
        theirs = [ipaddress.ip_interface(f"{n[RANDOM.randrange(4) % n.num_addresses]}/{n.prefixlen}") for n in
                  [random_network() for _ in range(200)] + near_networks(100)]
        ours = sorted(Host(str(host)) for host in theirs)
        wanted = sorted(theirs, key=lambda host: (host.version, int(host.ip), host.network.prefixlen))
        self.assertEqual([host.with_prefixlen for host in ours], list(map(str, wanted)))
        self.assertLess(Host("10.0.0.0"), Host("10.0.0.1/8"))

    def test_containment(self):
        networks = near_networks(60)
        for one in networks:
            for other in networks:
                self.assertEqual(Network(str(other)) in Network(str(one)), other.subnet_of(one))
                self.assertEqual(Network(other).subnet_of(one), other.subnet_of(one))
                self.assertEqual(Network(other).supernet_of(Network(one)), other.supernet_of(one))
                self.assertEqual(Network(other).overlaps(str(one)), other.overlaps(one))
        self.assertIn(Address("10.0.0.1"), Network("10.0.0.0/8"))
        self.assertNotIn("::ffff:10.0.0.1", Network("10.0.0.0/8"))
        self.assertIn("::1", Network("any"))
        self.assertTrue(Network("::/0").subnet_of("any") and Network("any").overlaps("10.0.0.0/8"))
        self.assertFalse(Network("::/0").subnet_of("0.0.0.0/0") or Network("::/0").overlaps("0.0.0.0/0"))

    def test_bytes_and_formats_of_addresses(self):
        specs = [grid + group + kind for grid in ("", "#") for group in ("", "_") for kind in "bnxX"]
        for _ in range(200):
            theirs = random_network()[0]
            ours = Address(theirs)
            self.assertEqual((ours.packed, bytes(ours)), (theirs.packed, theirs.packed))
            self.assertEqual([format(ours, spec) for spec in specs], [format(theirs, spec) for spec in specs])
            self.assertEqual((f"{ours}", f"{ours:s}", f"{ours!s:^60}"), (f"{theirs}", f"{theirs:s}", f"{theirs!s:^60}"))

    def test_walks_from_both_ends(self):
        network = Network("192.0.2.252/30")
        addresses = ["192.0.2.252", "192.0.2.253", "192.0.2.254", "192.0.2.255"]
        self.assertEqual([str(address) for address in network], addresses)
        self.assertEqual([str(address) for address in reversed(network)], addresses[::-1])
        self.assertEqual(str(network[-1]), "192.0.2.255")
        with self.assertRaises(IndexError):
            network[4]


class Sets(unittest.TestCase):
    def test_merging_is_that_of_ipaddress(self):
        for count in (0, 1, 5, 200):
            for _ in range(20):
                theirs = near_networks(count)
                wanted = [long_text(network) for network in ipaddress.collapse_addresses(theirs)]
                self.assertEqual(pcidr.merge(map(str, theirs)), wanted)

    def test_algebra_is_that_of_sets_of_addresses(self):
        for _ in range(200):
            texts = [[f"192.0.2.{RANDOM.randrange(64) << 2}/30" for _ in range(RANDOM.randrange(20))] for _ in range(2)]
            one, other = (NetworkSet(part) for part in texts)
            mine, theirs = ({str(a) for text in part for a in Network(text)} for part in texts)

            def addresses(made):
                return {str(address) for network in made for address in network}

            self.assertEqual(addresses(one | other), mine | theirs)
            self.assertEqual(addresses(one & other), mine & theirs)
            self.assertEqual(addresses(one - other), mine - theirs)
            self.assertEqual(addresses(one ^ other), mine ^ theirs)
            self.assertEqual(one <= other, mine <= theirs)
            self.assertEqual(one == other, mine == theirs)
            self.assertEqual(one.size, len(mine))
            asked = [f"192.0.2.{i}" for i in range(256)]
            self.assertEqual(one.contains_each(asked), [address in mine for address in asked])
            self.assertEqual("192.0.2.7" in one, "192.0.2.7" in mine)

    def test_a_difference_may_have_more_networks(self):
        rest = NetworkSet(["::/0"]) - NetworkSet(["::1"])
        self.assertEqual(len(rest), 128)
        self.assertEqual(rest.size, 2**128 - 1)
        self.assertEqual(rest | NetworkSet(["::1"]), NetworkSet(["::/0"]))


class Tables(unittest.TestCase):
    def test_lookups(self):
        for _ in range(50):
            theirs = {network: i for i, network in enumerate(set(near_networks(RANDOM.randrange(30))))}
            ours = Table({str(network): value for network, value in theirs.items()})
            asked = [ipaddress.IPv4Address(RANDOM.getrandbits(32)) for _ in range(100)]
            wanted = []
            for address in asked:
                found = [network for network in theirs if address in network]
                best = max(found, key=lambda n: n.prefixlen, default=None)
                wanted.append(None if best is None else (Network(str(best)), theirs[best]))
            self.assertEqual(ours.lookup_each(map(str, asked)), wanted)
            self.assertEqual([ours.lookup(str(address)) for address in asked], wanted)
            self.assertEqual(list(ours), sorted(Network(str(network)) for network in theirs))

    def test_lookups_of_addresses_without_arrays_and_with_them(self):
        names = ["any", "10.0.0.0/8", "10.1.2.3", "::/0", "2001:db8::/32"]
        four, six = ["10.1.2.3", "10.9.9.9", "11.0.0.1", "0.0.0.0", "255.255.255.255"], ["::", "2001:db8::2", "fe80::1"]
        for rows in (names, names[1:], names[1:3], names[3:], names[:1], []):
            for asked in (four, six, [*four, *six], ["::ffff:10.1.2.3"]):
                table = Table((name, name) for name in rows)
                wanted = [next(iter(table.covering(text)), None) for text in asked]
                table._since = -len(asked) - 1  # as many look-ups come before the arrays are made
                self.assertEqual([table.lookup(text) for text in asked], wanted)
                self.assertIsNone(table._snapshot)
                table._since = len(rows)
                self.assertEqual([table.lookup(text) for text in asked], wanted)
                self.assertIsNotNone(table._snapshot)
                self.assertEqual(table.lookup_each(asked), wanted)

    def test_when_the_arrays_are_made(self):
        rows = {f"10.{i}.0.0/16": i for i in range(20)}
        table = Table(rows)
        self.assertEqual(table.lookup("10.1.0.0/17")[1], 1)
        self.assertIsNone(table._snapshot)  # which has networks that are no addresses by its array
        self.assertEqual(table.lookup("10.1.2.3")[1], 1)
        self.assertIsNotNone(table._snapshot)
        table["10.1.0.0/16"] = "other"
        for _ in range(18):  # with the change as many as rows but one
            self.assertEqual(table.lookup("10.1.2.3")[1], "other")
        self.assertIsNone(table._snapshot)
        self.assertEqual(table.lookup("10.1.2.3")[1], "other")
        self.assertIsNotNone(table._snapshot)
        filled = Table()
        for network, value in rows.items():
            filled[network] = value
        self.assertEqual(filled.lookup("10.2.3.4")[1], 2)
        self.assertIsNotNone(filled._snapshot)
        self.assertIsNone(Table().lookup("10.2.3.4"))

    def test_lookups_of_networks_of_both_families(self):
        names = ["any", "0.0.0.0/0", "10.0.0.0/8", "10.1.2.3", "::/0", "2001:db8::/32", "2001:db8::1"]
        rows = {name: i for i, name in enumerate(names)}
        asked = names + ["10.1.0.0/16", "11.0.0.0/8", "2001:db8::/31", "2001:db8::/33", "2001:db8::2", "fe80::1"]
        values = [0, 1, 2, 3, 4, 5, 6, 2, 1, 4, 5, 5, 4]
        wanted = [(Network(names[value]), value) for value in values]
        for table in (Table(rows), Table([(Network(name), value) for name, value in rows.items()])):
            self.assertEqual([table.lookup(name) for name in asked], wanted)
            self.assertEqual(table.lookup_each(asked), wanted)
        del table["any"]
        self.assertIsNone(table.lookup("any"))

    def test_the_rows_of_a_dict(self):
        table = Table({"10.0.0.0/8": 1})
        table["10.1.0.0/16"] = 2
        self.assertEqual(table.lookup("10.1.2.3"), (Network("10.1.0.0/16"), 2))
        table["10.1.0.0/16"] = 3
        self.assertEqual(table["10.1.0.0/16"], 3)
        del table["10.1.0.0/16"]
        self.assertEqual(table.lookup("10.1.2.3"), (Network("10.0.0.0/8"), 1))
        self.assertIsNone(table.lookup("11.0.0.1"))
        self.assertEqual(len(table), 1)


class Batches(unittest.TestCase):
    def test_the_first_bad_string_is_named(self):
        with self.assertRaisesRegex(ValueError, "host part of address was not zero: '10.0.0.1/8'"):
            pcidr.parse_networks(["10.0.0.0/8", "10.0.0.1/8", "x"])
        for texts in (["10.0.0.0/8\n11.0.0.0/8"], ["::", "10.0.0.0/8\n", "x"], ["10.0.0.0/8\n11.0.0.0/8", "x"]):
            with self.assertRaises(ValueError) as raised:
                pcidr.parse_networks(texts)
            self.assertIn(repr(next(text for text in texts if "\n" in text)), str(raised.exception))

    def test_values_and_strings_may_be_mixed(self):
        held = NetworkSet(["10.0.0.0/8", Network("2001:db8::/32"), Address("192.0.2.1")])
        asked = [Address("10.1.2.3"), Network("2001:db8::/33"), Address("::")]
        self.assertEqual(held.contains_each(asked), [True, True, False])
        self.assertEqual(held.contains_each([*asked, "192.0.2.1"]), [True, True, False, True])
        self.assertEqual((held.contains_each([]), Table().lookup_each([])), ([], []))
        with self.assertRaises(TypeError):
            held.contains_each([Host("10.1.2.3")])

    def test_what_is_read_is_printed(self):
        theirs = [random_network() for _ in range(500)]
        read = pcidr.parse_networks(map(str, theirs))
        self.assertEqual(pcidr.print_networks(read), [long_text(network) for network in theirs])
        self.assertEqual(pcidr.parse_networks(theirs), read)
        self.assertEqual(pcidr.parse_networks([]), [])
        self.assertEqual(pcidr.print_networks([]), [])

    def test_a_plan_has_rows_and_lines_in_error(self):
        rows, wrong = pcidr.read_plan("10.0.0.0/8 core # x\n\n10.1.0.6 - 10.1.0.9 größe, 2\nx y\n::1,z\n10.0.0.1/8\n10.0.0.0 255.0.0.0 m")
        said = [("10.0.0.0/8", "core", 1), ("10.1.0.6/31", "größe, 2", 3), ("10.1.0.8/31", "größe, 2", 3), ("::1", "z", 5)]
        self.assertEqual(rows, [(Network(network), name, line) for network, name, line in said])
        self.assertEqual([line for line, _ in wrong], [4, 6, 7])
        self.assertIn("the network is 10.0.0.0/8", wrong[1][1])
        self.assertEqual(pcidr.read_plan(b"10.0.0.1/8 \xff", strict=False), ([(Network("10.0.0.0/8"), "\ufffd", 1)], []))
        self.assertEqual(pcidr.read_plan("10.0.0.0/255.0.0.0 a", masks=True), ([(Network("10.0.0.0/8"), "a", 1)], []))
        self.assertEqual(pcidr.read_plan(""), ([], []))
        rows, wrong = pcidr.read_plan("10.0.0.1-10.255.255.254 a\n" * 3)  # more rows than lines
        self.assertEqual((len(rows), wrong, {line for _, _, line in rows}), (3 * 46, [], {1, 2, 3}))


if __name__ == "__main__":
    unittest.main()
