"""The calls that have the names of `ipaddress`, beside it on random values, and those named as in other modules."""
import contextlib
import ctypes
import gc
import ipaddress
import itertools
import mmap
import os
import random
import resource
import tempfile
import threading
import tracemalloc
import unittest
import weakref
from array import array
from importlib.util import find_spec

import pcidr
from pcidr import Address, Host, MutableNetworkSet, Network, NetworkSet, Purpose, Table, _kinds

RANDOM = random.Random(7)


def any_network(most=128):
    """A network of `ipaddress` of either family, with at most so many bits after its prefix."""
    width = RANDOM.choice((32, 128))
    length = RANDOM.randint(max(0, width - most), width)
    number = RANDOM.getrandbits(width) >> width - length << width - length
    return (ipaddress.IPv4Network if width == 32 else ipaddress.IPv6Network)((number, length))


def any_address():
    network = any_network()
    return network[RANDOM.choice((0, -1, RANDOM.randrange(network.num_addresses)))]


def any_host():
    network = any_network()
    return ipaddress.ip_interface(f"{network[RANDOM.randrange(network.num_addresses)]}/{network.prefixlen}")


BLOCKS = ["10.0.0.0/8", "172.16.0.0/12", "192.168.0.0/16", "127.0.0.0/8", "169.254.0.0/16", "224.0.0.0/4", "0.0.0.0/32"]
BLOCKS += ["192.0.2.0/24", "198.51.100.0/24", "203.0.113.0/24", "8.8.8.0/24", "2001:db8::/32", "3fff::/20", "2600::/12"]
BLOCKS += ["fc00::/7", "fe80::/10", "ff00::/8", "::1/128", "::/128"]


def special_network():
    """A network in one of the blocks, or one that such a block is in, or a network beside it."""
    block = ipaddress.ip_network(RANDOM.choice(BLOCKS))
    length = max(0, min(block.max_prefixlen, block.prefixlen + RANDOM.randrange(-2, 9)))
    number = int(block[0]) + RANDOM.choice((0, block.num_addresses - 1, RANDOM.randrange(block.num_addresses)))
    number = max(0, min(number + RANDOM.choice((0, 0, 0, 1, -1)), 2**block.max_prefixlen - 1))
    kind = ipaddress.IPv4Network if block.version == 4 else ipaddress.IPv6Network
    return kind((number, length), strict=False)


def near_text():
    """A network of either family among few, so that they nest and touch, and at times the widest ones."""
    if RANDOM.random() < 0.05:
        return RANDOM.choice(("any", "0.0.0.0/0", "::/0"))
    width, base = RANDOM.choice(((32, 0x0A000000), (128, 0x20010DB8 << 96)))
    length = RANDOM.randint(width - 9, width)
    number = (base | RANDOM.getrandbits(9)) >> width - length << width - length
    return str((ipaddress.IPv4Network if width == 32 else ipaddress.IPv6Network)((number, length)))


def theirs_of(value):
    """A result of this module as `ipaddress` has it."""
    if isinstance(value, (Address, Host, Network)):
        return value.to_ipaddress()
    return list(map(theirs_of, value)) if isinstance(value, (list, itertools.chain)) else value


def answer(call, *arguments):
    """What a call returns, or that it raises an error of values."""
    try:
        found = call(*arguments)
        found = list(itertools.islice(found, 100)) if hasattr(found, "__next__") else found
        return theirs_of(found)
    except ValueError:
        return ValueError


class OfIpaddress(unittest.TestCase):
    ADDRESSES = ("version", "max_prefixlen", "packed", "exploded", "compressed")
    NETWORKS = (
        *("version", "max_prefixlen", "prefixlen", "network_address", "broadcast_address", "netmask", "hostmask"),
        *("num_addresses", "with_prefixlen", "with_netmask", "with_hostmask", "exploded", "compressed"),
    )
    HOSTS = (
        *("version", "max_prefixlen", "packed", "ip", "network", "netmask", "hostmask", "with_prefixlen"),
        *("with_netmask", "with_hostmask", "exploded", "compressed"),
    )

    def test_attributes(self):
        kinds = (
            (Address, any_address, self.ADDRESSES),
            (Network, any_network, self.NETWORKS),
            (Host, any_host, self.HOSTS),
        )
        for kind, made, names in kinds:
            for _ in range(500):
                theirs = made()
                ours = kind(theirs)
                for name in names:
                    found, wanted = theirs_of(getattr(ours, name)), getattr(theirs, name)
                    if name in ("with_netmask", "with_hostmask"):  # Python 3.13 writes ::ffff:0:0/96 with dots
                        found, wanted = (list(map(ipaddress.ip_address, text.split("/"))) for text in (found, wanted))
                    self.assertEqual(found, wanted, (theirs, name))
                if kind is not Network:
                    self.assertEqual(int(ours), int(theirs))

    def test_strings_with_all_digits(self):
        wanted = {
            Address("::ffff:192.0.2.1"): ("::ffff:192.0.2.1", "0000:0000:0000:0000:0000:ffff:c000:0201"),
            Host("::ffff:192.0.2.1/100"): ("::ffff:192.0.2.1/100", "0000:0000:0000:0000:0000:ffff:c000:0201/100"),
            Network("2001:db8::/32"): ("2001:db8::/32", "2001:0db8:0000:0000:0000:0000:0000:0000/32"),
            Network("10.0.0.0"): ("10.0.0.0/32", "10.0.0.0/32"),
        }
        for value, both in wanted.items():
            self.assertEqual((value.compressed, value.exploded), both)
        for name in ("compressed", "exploded"):
            with self.assertRaises(ValueError):
                getattr(Network("any"), name)

    def test_special_purposes(self):
        names = ("is_multicast", "is_loopback", "is_link_local", "is_unspecified")
        private = list(map(ipaddress.ip_network, (*BLOCKS[:3], "fc00::/7")))
        documentation = list(map(ipaddress.ip_network, (*BLOCKS[7:10], "2001:db8::/32", "3fff::/20")))
        for _ in range(2000):
            theirs = special_network()
            address = theirs[RANDOM.choice((0, -1, RANDOM.randrange(theirs.num_addresses)))]
            for ours, value in ((Network(theirs), theirs), (Address(address), address)):
                for name in names:
                    self.assertEqual(getattr(ours, name), getattr(value, name), (value, name))
            host = Host((address, theirs.prefixlen))
            for name in (*names, "is_private", "is_documentation"):
                self.assertEqual(getattr(host, name), getattr(Address(address), name))
            for name, blocks in (("is_private", private), ("is_documentation", documentation)):
                same = [block for block in blocks if block.version == theirs.version]
                self.assertEqual(getattr(Network(theirs), name), any(theirs.subnet_of(block) for block in same), theirs)
                self.assertEqual(getattr(Address(address), name), any(address in block for block in same), address)
            if Address(address).is_private:
                self.assertTrue(address.is_private)
        names += ("is_private", "is_documentation")
        self.assertEqual({getattr(Network(text), name) for text in ("any", "0.0.0.0/0", "::/0") for name in names}, {False})
        shown = [Address(text).is_global for text in ("8.8.8.8", "10.1.2.3", "100.64.0.1", "2600::1", "fe80::1")]
        self.assertEqual(shown, [True, False, False, True, False])

    def test_entries_of_the_registries(self):
        yes, no = True, False
        entries = {
            "10.1.2.3": ("10.0.0.0/8", Purpose.PRIVATE_USE, 1918, yes, yes, yes, no, no),
            "192.0.0.9": ("192.0.0.9", Purpose.PORT_CONTROL_ANYCAST, 7723, yes, yes, yes, yes, no),
            "::1": ("::1", Purpose.LOOPBACK, 4291, no, no, no, no, yes),
            "2002::1": ("2002::/16", Purpose.SIX_TO_FOUR, 3056, yes, yes, yes, None, no),
        }
        for text, (block, *others) in entries.items():
            self.assertEqual(Address(text).special_entry, (Network(block), *others))
        self.assertEqual((Address("8.8.8.8").special_entry, Address("2600::").special_entry), (None, None))
        for _ in range(500):
            theirs = special_network()[0]
            ours = Address(theirs)
            entry = ours.special_entry
            self.assertEqual(ours.is_global, entry is None or entry.globally_reachable is True)
            self.assertTrue(entry is None or ours in entry.network)

    def test_names_in_reverse_dns(self):
        for _ in range(500):
            address, network = any_address(), any_network()
            name = Address(address).reverse_pointer
            self.assertEqual(name, address.reverse_pointer)
            self.assertEqual(Host((address, 3)).reverse_pointer, name)
            self.assertEqual(Network.from_reverse_pointer(name.upper() + "."), Network(address))
            label = 8 if network.version == 4 else 4
            if network.prefixlen % label:
                with self.assertRaises(ValueError):
                    Network(network).reverse_pointer
            else:
                labels = network[0].reverse_pointer.split(".")
                wanted = ".".join(labels[(network.max_prefixlen - network.prefixlen) // label :])
                self.assertEqual(Network(network).reverse_pointer, wanted)
                self.assertEqual(Network.from_reverse_pointer(wanted), Network(network))
        for wrong in ("", "x", "1.2.3.in-addr.arp", "256.in-addr.arpa", "01.in-addr.arpa"):
            with self.assertRaises(ValueError):
                Network.from_reverse_pointer(wrong)

    def test_masks(self):
        for _ in range(1000):
            theirs = any_host()
            for text in (theirs.with_netmask, theirs.with_hostmask):
                if theirs.version == 4:
                    self.assertEqual(Host(text).to_ipaddress(), ipaddress.ip_interface(text))
                    self.assertEqual(answer(Network, text), answer(ipaddress.ip_network, text))
                    wanted = ipaddress.ip_network(text, strict=False)
                    self.assertEqual(Network(text, strict=False).to_ipaddress(), wanted)
                elif theirs.network.prefixlen not in (0, 128):
                    self.assertEqual(Host(text).to_ipaddress(), theirs)
                    self.assertEqual(Network(text, strict=False).to_ipaddress(), theirs.network)
            network = theirs.network
            self.assertEqual(answer(Network, (network[0], str(network.netmask))), network)
        wrong = ("10.0.0.0/255.0.255.0", "10.0.0.0/0.0.0.256", "10.0.0.0/ffff::", "::/255.0.0.0", "10.0.0.0/")
        for text in (*wrong, "/255.0.0.0", "10.0.0.5/255.0.0.0/8", "10.0.0.0/255.255.255.0/24"):
            for call in (Host, Network, lambda text: Network(text, strict=False)):
                with self.assertRaises(ValueError):
                    call(text)

    def test_hosts(self):
        for _ in range(500):
            theirs = any_network(9)
            wanted = list(theirs.hosts()) if theirs.version == 4 else list(theirs)
            self.assertEqual(list(map(theirs_of, Network(theirs).hosts())), wanted, theirs)
        hosts = Network("::/0").hosts()
        self.assertEqual([str(next(hosts)) for _ in range(2)], ["::", "::1"])
        with self.assertRaises(ValueError):
            Network("any").hosts()

    def test_indexes(self):
        for _ in range(500):
            theirs = any_network()
            place = RANDOM.randrange(theirs.num_addresses)
            self.assertEqual(Network(theirs).index(theirs[place]), place)
            self.assertEqual(Network(theirs)[place], Address(theirs[place]))
        for network, address in (("10.0.0.0/8", "11.0.0.0"), ("10.0.0.0/8", "::"), ("any", "::"), ("::/0", "::/0")):
            with self.assertRaises(ValueError):
                Network(network).index(address)

    def test_addresses_of_numbers_and_bytes(self):
        for _ in range(500):
            theirs = any_address()
            ours = Address(theirs)
            self.assertEqual((Address(theirs.packed), Address(bytearray(theirs.packed))), (ours, ours))
            self.assertEqual((Address.from_int(int(theirs), theirs.version), int(ours)), (ours, int(theirs)))
            self.assertEqual((Network(theirs.packed), Host(theirs.packed)), (Network(theirs), Host(theirs)))
        for number, version in ((-1, 4), (2**32, 4), (-1, 6), (2**128, 6), (0, 5), (0, 0)):
            with self.assertRaises(ValueError):
                Address.from_int(number, version)
        for count in {*range(20)} - {4, 16}:
            with self.assertRaises(ValueError):
                Address(bytes(count))

    def test_arithmetic(self):
        for _ in range(2000):
            theirs = any_address()
            width = theirs.max_prefixlen
            near = RANDOM.getrandbits(RANDOM.randrange(1, 140)), int(theirs), 2**width - 1 - int(theirs)
            count = RANDOM.choice((0, 1, *near)) + RANDOM.choice((-1, 0, 1))
            ours = Address(theirs)
            for call in (lambda a, n: a + n, lambda a, n: a - n, lambda a, n: a + -n):
                self.assertEqual(answer(call, ours, count), answer(call, theirs, count), (theirs, count))
        with self.assertRaises(TypeError):
            Address("::") + "1"
        with self.assertRaises(TypeError):
            Address("::") - Address("::")

    def test_networks_that_are_not_strict(self):
        for _ in range(1000):
            theirs = any_host()
            text = str(theirs)
            wanted = ipaddress.ip_network(text, strict=False)
            self.assertEqual(Network(text, strict=False).to_ipaddress(), wanted)
            self.assertEqual(Network((theirs.ip, theirs.network.prefixlen), strict=False).to_ipaddress(), wanted)
            self.assertEqual(answer(Network, text), answer(ipaddress.ip_network, text))
            pair = theirs.ip.packed, theirs.network.prefixlen
            self.assertEqual(answer(Network, pair), answer(ipaddress.ip_network, pair))
            self.assertEqual(Host((str(theirs.ip), theirs.network.prefixlen)).to_ipaddress(), theirs)
        self.assertEqual(Network("any", strict=False), Network("any"))
        for wrong in ("10.0.0.5/33", "10.0.0/8", "", ("10.0.0.5", -1), ("10.0.0.5", 33), ("10.0.0.5/8", 8), b"five!"):
            with self.assertRaises(ValueError):
                Network(wrong, strict=False)

    def test_supernets_and_subnets(self):
        for _ in range(500):
            theirs = any_network(RANDOM.choice((3, 128)))
            ours = Network(theirs)
            for name in ("supernet", "subnets"):
                length = theirs.prefixlen + RANDOM.randrange(-7, 8)
                for arguments in ((), (RANDOM.randrange(-2, 8),), (1, length), (2, 20)):
                    call = answer(getattr(ours, name), *arguments), answer(getattr(theirs, name), *arguments)
                    if arguments == (0,) or arguments == (1, theirs.prefixlen):
                        self.assertEqual(call[0], theirs if name == "supernet" else [theirs])
                    else:
                        self.assertEqual(call[0], call[1], (theirs, name, arguments))
        for name in ("supernet", "subnets"):
            with self.assertRaises(ValueError):
                getattr(Network("any"), name)()

    def test_networks_beside(self):
        for _ in range(1000):
            theirs = any_network()
            ours, width, length = Network(theirs), theirs.max_prefixlen, theirs.prefixlen
            number, size = int(theirs[0]), theirs.num_addresses
            for call, begin in ((ours.next, number + size), (ours.previous, number - size), (ours.sibling, number ^ size)):
                if 0 <= begin < 1 << width and (length or call != ours.sibling):
                    self.assertEqual(call().to_ipaddress(), type(theirs)((begin, length)))
                else:
                    with self.assertRaises(ValueError):
                        call()
        for name in ("next", "previous", "sibling"):
            with self.assertRaises(ValueError):
                getattr(Network("any"), name)()

    def test_spans(self):
        for _ in range(500):
            texts = [near_text() for _ in range(RANDOM.randrange(1, 5))]
            networks = [Network(text) for text in texts]
            span = pcidr.spanning_cidr(RANDOM.choice((texts, networks)))
            self.assertTrue(all(network in span for network in networks), (texts, span))
            if span.prefixlen is not None and span.prefixlen < span.max_prefixlen:
                for half in span.subnets():
                    self.assertFalse(all(network in half for network in networks), (texts, span))
            else:
                versions = {network.version for network in networks}
                self.assertTrue(len(versions) > 1 or None in versions or span in networks)
        with self.assertRaises(ValueError):
            pcidr.spanning_cidr([])

    def test_ipv4_inside_ipv6(self):
        for _ in range(1000):
            front = RANDOM.choice((0xFFFF << 32, 0x2002 << 112, 0x64FF9B << 96, 0, 0xFFFE << 32, 0x2001 << 112))
            theirs = ipaddress.IPv6Address(front | RANDOM.getrandbits(RANDOM.choice((32, 33, 96))))
            ours = Address(theirs)
            self.assertEqual(theirs_of(ours.ipv4_mapped), theirs.ipv4_mapped)
            self.assertEqual(theirs_of(ours.sixtofour), theirs.sixtofour)
            translated = ipaddress.IPv4Address(int(theirs) & 2**32 - 1) if int(theirs) >> 32 == 0x64FF9B << 64 else None
            self.assertEqual((theirs_of(ours.nat64), ours.ipv6_mapped), (translated, None))
            network = any_network()
            mapped = Network(network).ipv6_mapped
            if network.version == 6:
                self.assertIsNone(mapped)
            else:
                wanted = ipaddress.IPv6Network((0xFFFF << 32 | int(network[0]), network.prefixlen + 96))
                self.assertEqual((theirs_of(mapped), theirs_of(mapped.ipv4_mapped)), (wanted, network))
                address = Address(network[-1])
                self.assertEqual(address.ipv6_mapped.ipv4_mapped, address)
                self.assertEqual((address.ipv4_mapped, address.sixtofour, address.nat64), (None, None, None))
        for text in ("::fffe:0:0/95", "::/0", "::ffff:0:0:0/96"):
            self.assertIsNone(Network(text).ipv4_mapped)
        with self.assertRaises(ValueError):
            Network("any").ipv6_mapped

    def test_zones(self):
        for _ in range(500):
            theirs = any_network()
            label = 8 if theirs.version == 4 else 4
            length = -(-theirs.prefixlen // label) * label
            labels = (theirs.max_prefixlen - length) // label
            wanted = [".".join(zone[0].reverse_pointer.split(".")[labels:]) for zone in theirs.subnets(new_prefix=length)]
            self.assertEqual(list(Network(theirs).reverse_zones()), wanted)
        with self.assertRaises(ValueError):
            Network("any").reverse_zones()

    def test_what_is_wrong_with_a_string(self):
        faults = {
            "192.0.02.1": "a leading zero in an octet",
            "::ffff:192.0.2.256": "a number above 255",
            "10/8": "not four octets",
            "2001:db8::12345": "a group of more than four digits",
            "192.0.2.0/255.255.255.0": "a mask in place of a length",
            "192.0.2.7/24": "host bits set; the network is 192.0.2.0/24",
        }
        for text, wanted in faults.items():
            self.assertEqual(pcidr.text_fault(text), wanted)
        for text in ("", "192.0.2.0/24", "::", "x", "\ud800", "10.0.0.0-10.0.0.255", "\0"):
            self.assertIsNone(pcidr.text_fault(text))

    def test_lists(self):
        text = "10.0.0.0/9 # ours\r\n\r\n; theirs\n10.128.0.0-10.255.255.255\n\t2001:db8::/32 ;documentation\n::1"
        wanted = ["10.0.0.0/8", "::1", "2001:db8::/32"]
        for given in (text, text.encode(), bytearray(text, "utf-8"), memoryview(text.encode())):
            for kind in (NetworkSet, MutableNetworkSet):
                held = kind.from_text(given)
                self.assertEqual((type(held), held.to_strings()), (kind, wanted))
        self.assertEqual(list(NetworkSet.from_text("")), [])
        self.assertEqual(NetworkSet.from_text("0.0.0.0/0\n::/0").to_strings(), ["0.0.0.0/0", "::/0"])
        self.assertEqual(NetworkSet.from_text("192.0.2.7/24", strict=False), NetworkSet(["192.0.2.0/24"]))
        for masked in ("192.0.2.0/255.255.255.0", "192.0.2.0 255.255.255.0", "192.0.2.0\t0.0.0.255 # ours", "192.0.2.0/24"):
            self.assertEqual(NetworkSet.from_text(masked, masks=True), NetworkSet(["192.0.2.0/24"]))
            self.assertEqual(NetworkSet.from_text(masked.replace(".0/", ".9/"), strict=False, masks=True), NetworkSet(["192.0.2.0/24"]))
            if masked != "192.0.2.0/24":
                for strict in (True, False):
                    with self.assertRaises(ValueError):
                        NetworkSet.from_text(masked, strict=strict)
        faults = {
            "::1\n192.0.2.7/24": "line 2: 192.0.2.7/24: host bits set; the network is 192.0.2.0/24",
            "::1\n\n10.0.0.9-10.0.0.1\nx": "line 3: 10.0.0.9-10.0.0.1: the first address of the range is above the last one",
            "10.0.0.1-::1": "line 1: 10.0.0.1-::1: the ends of the range are of two families",
            "\ud800": r"line 1: \xed\xa0\x80: not UTF-8",
            "h\u00e9\0": "line 1: h\u00e9\\x00: couldn't parse address in network: invalid IP address syntax",
        }
        for given, message in faults.items():
            with self.assertRaises(ValueError) as raised:
                NetworkSet.from_text(given)
            self.assertEqual(str(raised.exception), message)
        masked = {
            "192.0.2.7 255.255.255.0": "line 1: 192.0.2.7 255.255.255.0: host bits set; the network is 192.0.2.0/24",
            "::1\n192.0.2.0/255.0.255.0": "line 2: 192.0.2.0/255.0.255.0: no contiguous mask of its family",
        }
        for given, message in masked.items():
            with self.assertRaises(ValueError) as raised:
                NetworkSet.from_text(given, masks=True)
            self.assertEqual(str(raised.exception), message)
        with self.assertRaises(ValueError):
            NetworkSet.from_text("10.0.0.1 0.0.0.0", strict=False, masks=True)
        for given in (None, 5, ["10.0.0.0/8"]):
            with self.assertRaises(TypeError):
                NetworkSet.from_text(given)

    def test_lists_of_random_ranges(self):
        for _ in range(200):
            lines, networks = [], []
            for _ in range(RANDOM.randrange(20)):
                first, last = sorted((any_address(), any_address()), key=int)
                if first.version == last.version and RANDOM.random() < 0.5:
                    networks += ipaddress.summarize_address_range(first, last)
                    lines.append(RANDOM.choice(("{}-{}", "{} - {}", "{}-\t{}")).format(first, last))
                else:
                    networks.append(any_network())
                    lines.append(str(networks[-1]))
                lines[-1] = RANDOM.choice(("", " ", "\t")) + lines[-1] + RANDOM.choice(("", " ", "#x", "\r", " ; 10.0.0.0/8\r"))
            self.assertEqual(NetworkSet.from_text("\n".join(lines)), NetworkSet(networks))

    def test_lists_of_random_masks(self):
        for _ in range(200):
            hosts = [any_host() for _ in range(RANDOM.randrange(20))]
            # a mask of no bits clears no bit that is set: it may be the wildcard of a host
            hosts = [host for host in hosts if host.network.prefixlen > 0 or int(host.ip) == 0]
            lines = []
            for host in hosts:
                masks = [host.netmask, host.hostmask]
                # the mask of no bits and that of all are those of both kinds, and then network masks
                mask = RANDOM.choice(masks[: 1 + (0 < host.network.prefixlen < host.max_prefixlen)])
                lines.append(f"{host.ip}{RANDOM.choice('/ ')}{mask}")
            networks = [host.network for host in hosts]
            self.assertEqual(NetworkSet.from_text("\n".join(lines), strict=False, masks=True), NetworkSet(networks))
            lines = [line.replace(str(host.ip), str(host.network[0]), 1) for line, host in zip(lines, hosts)]
            self.assertEqual(NetworkSet.from_text("\n".join(lines), masks=True), NetworkSet(networks))

    def test_exclusion(self):
        for _ in range(1000):
            outer = any_network(20)
            length = RANDOM.randint(outer.prefixlen, outer.max_prefixlen)
            inner = ipaddress.ip_network((int(outer[RANDOM.randrange(outer.num_addresses)]), length), strict=False)
            if outer.version == 6:
                inner = ipaddress.IPv6Network((int(outer[RANDOM.randrange(outer.num_addresses)]), length), strict=False)
            self.assertEqual(answer(Network(outer).address_exclude, inner), sorted(outer.address_exclude(inner)))
            if inner != outer:
                self.assertEqual(answer(Network(inner).address_exclude, outer), ValueError)
        self.assertEqual(list(map(str, Network("any").address_exclude("::/0"))), ["0.0.0.0/0"])

    def test_relations(self):
        for _ in range(2000):
            one, other = (ipaddress.ip_network(near_text().replace("any", "::/0")) for _ in range(2))
            ours = Network(one)
            self.assertEqual(ours.overlaps(other), one.version == other.version and one.overlaps(other))
            self.assertEqual(ours.subnet_of(other), one.version == other.version and one.subnet_of(other))
            self.assertEqual(ours.supernet_of(other), one.version == other.version and one.supernet_of(other))
            self.assertEqual(ours == Network(other), one == other)

    def test_collapsing(self):
        for _ in range(200):
            texts = [near_text().replace("any", "::/0") for _ in range(RANDOM.randrange(12))]
            for version in (4, 6):
                theirs = [network for network in map(ipaddress.ip_network, texts) if network.version == version]
                wanted = list(ipaddress.collapse_addresses(theirs))
                self.assertEqual(theirs_of(pcidr.collapse_addresses(theirs)), wanted)

    def test_ranges_of_addresses(self):
        for _ in range(500):
            one, other = sorted((any_address() for _ in range(2)), key=lambda each: (each.version, int(each)))
            if one.version == other.version:
                wanted = list(ipaddress.summarize_address_range(one, other))
                self.assertEqual(theirs_of(pcidr.summarize_address_range(one, other)), wanted)
            if one != other:
                with self.assertRaises(ValueError):
                    pcidr.summarize_address_range(other, one)
        for ends in (("::", "0.0.0.1"), ("0.0.0.1", "::"), ("10.0.0.0/8", "11.0.0.0"), ("10.0.0.1", "10.0.0.0")):
            with self.assertRaises(ValueError):
                pcidr.summarize_address_range(*ends)

    def test_old_names_warn(self):
        network, host = Network("10.1.0.0/16"), Host("10.1.2.3/16")
        old = {
            (network, "family"): 4,
            (network, "length"): 16,
            (network, "mask"): Address("255.255.0.0"),
            (network, "with_length"): "10.1.0.0/16",
            (network, "count"): 65536,
            (host, "address"): Address("10.1.2.3"),
            (NetworkSet(["10.0.0.0/31"]), "count"): 2,
        }
        for (value, name), wanted in old.items():
            with self.assertWarnsRegex(DeprecationWarning, f"{type(value).__name__}.{name} is ") as warned:
                self.assertEqual(getattr(value, name), wanted)
            self.assertEqual(warned.filename, __file__)
        with self.assertWarns(DeprecationWarning):
            self.assertEqual(Table({"::/0": 1}).matches("::1"), [(Network("::/0"), 1)])


class OfIPSet(unittest.TestCase):
    """Sets of addresses beside sets of Python."""

    NAMES = [f"10.0.0.{place}" for place in range(16)] + ["2001:db8::"]
    NAMES += [f"2001:db8::{place:x}" for place in range(1, 16)]
    NETWORKS = [*NAMES, "10.0.0.0/28", "10.0.0.8/29", "10.0.0.4/30", "2001:db8::/124", "2001:db8::8/125"]

    def addresses(self, networks):
        return {str(address) for network in networks for address in Network(network)}

    def some(self):
        return [RANDOM.choice(self.NETWORKS) for _ in range(RANDOM.randrange(6))]

    def test_algebra(self):
        names = ("union", "intersection", "difference", "symmetric_difference")
        for _ in range(400):
            lists = [self.some() for _ in range(3)]
            ours, theirs = [NetworkSet(each) for each in lists], [self.addresses(each) for each in lists]
            for kind in (NetworkSet, MutableNetworkSet):
                for name in names:
                    count = 1 if name == "symmetric_difference" else RANDOM.randrange(3)
                    others = [RANDOM.choice((ours[place], lists[place])) for place in range(1, count + 1)]
                    made = getattr(kind(lists[0]), name)(*others)
                    wanted = getattr(theirs[0], name)(*theirs[1 : count + 1])
                    self.assertEqual((type(made), self.addresses(made)), (kind, wanted))
                for name in ("issubset", "issuperset", "isdisjoint"):
                    wanted = getattr(theirs[0], name)(theirs[1])
                    for each in (ours, lists):
                        self.assertEqual(getattr(kind(lists[0]), name)(each[1]), wanted)
                self.assertEqual(kind(lists[0]).size, len(theirs[0]))
                held = kind(lists[0])
                for version in (4, 6):
                    family = sorted(Address(name) for name in theirs[0] if Address(name).version == version)
                    self.assertEqual([held.nth(place, version) for place in range(len(family))], family)
                    self.assertEqual([held.nth(place - len(family), version) for place in range(len(family))], family)
                    for place in (len(family), -1 - len(family), 2**64, 2**128, -(2**200)):
                        with self.assertRaises(IndexError):
                            held.nth(place, version)
                self.assertEqual(kind(lists[0]).complement(), ~ours[0])
                self.assertEqual(kind(lists[0]).copy(), ours[0])

    def test_changes(self):
        for _ in range(200):
            ours, theirs = MutableNetworkSet(), set()
            for _ in range(12):
                one, many = RANDOM.choice(self.NETWORKS), self.some()
                name = RANDOM.choice(("add", "remove", "update", "|=", "&=", "-=", "^=", "pop", "clear"))
                before = NetworkSet(ours)
                if name == "add":
                    ours.add(one)
                    theirs |= self.addresses([one])
                elif name == "remove":
                    ours.remove(RANDOM.choice((one, Network(one), ipaddress.ip_network(one))))
                    theirs -= self.addresses([one])
                elif name == "update":
                    ours.update(many, NetworkSet([one]))
                    theirs |= self.addresses([*many, one])
                elif name == "clear" and RANDOM.random() < 0.2:
                    ours.clear()
                    theirs.clear()
                elif name == "pop" and theirs:
                    first = ours.pop()
                    self.assertEqual(first, next(iter(before)))
                    theirs -= self.addresses([first])
                elif name in ("|=", "&=", "-=", "^="):
                    held, other = ours, self.addresses(many)
                    if name == "|=":
                        ours |= NetworkSet(many)
                        theirs |= other
                    elif name == "&=":
                        ours &= NetworkSet(many)
                        theirs &= other
                    elif name == "-=":
                        ours -= NetworkSet(many)
                        theirs -= other
                    else:
                        ours ^= NetworkSet(many)
                        theirs ^= other
                    self.assertIs(ours, held)
                self.assertEqual(self.addresses(ours), theirs)
                self.assertEqual([name in ours for name in self.NAMES], [name in theirs for name in self.NAMES])
                self.assertEqual(ours.contains_each(self.NAMES), [name in theirs for name in self.NAMES])
        with self.assertRaises(KeyError):
            MutableNetworkSet().pop()
        with self.assertRaises(TypeError):
            hash(MutableNetworkSet())
        with self.assertRaises(TypeError):
            ours |= ["10.0.0.0/8"]
        for wrong in ("junk", "10.0.0.1/8"):
            with self.assertRaises(ValueError):
                ours.add(wrong)
        self.assertEqual(self.addresses(ours), theirs)

    def test_ranges_complements_and_pools(self):
        for _ in range(300):
            networks = self.some()
            for kind in (NetworkSet, MutableNetworkSet):
                held, within = kind(networks), RANDOM.choice(("any", *self.NETWORKS))
                ranges = held.ranges()
                made = [network for ends in ranges for network in pcidr.summarize_address_range(*ends)]
                self.assertEqual(NetworkSet(made), held)
                for (_, last), (first, _) in zip(ranges, ranges[1:]):
                    self.assertTrue(last < first and (last.version != first.version or int(last) + 1 < int(first)))
                self.assertEqual(held.complement(within), NetworkSet([within]) - held)
                for prefixlen in (0, 8, 28, 29, 30, 31, 32, 124, 126, 128):
                    fitting = [network for network in held for width in [32 if network.version == 4 else 128]
                               if network.prefixlen <= prefixlen <= width]
                    for find in (held.first_free, held.best_free):
                        found = find(prefixlen)
                        self.assertEqual(found is None, not fitting)
                        if found:
                            self.assertTrue(found in held and found.prefixlen == prefixlen)
                    if fitting:
                        smallest = min(fitting, key=lambda network: ipaddress.ip_network(str(network)).num_addresses)
                        self.assertEqual(held.best_free(prefixlen).first, smallest.first)
        self.assertEqual((NetworkSet(["any"]).size, NetworkSet(["::/0"]).size), (2**32 + 2**128, 2**128))
        self.assertEqual(NetworkSet(["any"]).nth(-1, 6), Address("ffff:ffff:ffff:ffff:ffff:ffff:ffff:ffff"))
        with self.assertRaises(ValueError):
            NetworkSet().nth(0, 5)
        whole = [(Address("0.0.0.0"), Address("255.255.255.255")), (Address("::"), Address("::") + (2**128 - 1))]
        self.assertEqual((NetworkSet().ranges(), NetworkSet(["any"]).ranges()), ([], whole))
        with self.assertRaises(ValueError):
            NetworkSet(["::/0"]).first_free(129)
        self.assertEqual(NetworkSet(["10.0.0.0/24", "2001:db8::/32"]).best_free(32), Network("10.0.0.0"))

    def test_access_lists(self):
        for _ in range(300):
            rules = [(RANDOM.choice(self.NETWORKS), RANDOM.random() < 0.6) for _ in range(RANDOM.randrange(8))]
            wanted, seen, hidden = set(), set(), []
            for place, (network, is_permitted) in enumerate(rules):
                own = self.addresses([network])
                if own <= seen:
                    hidden.append(place)
                wanted |= own - seen if is_permitted else set()
                seen |= own
            self.assertEqual(self.addresses(pcidr.permitted(rules)), wanted)
            for name in self.NAMES[::5]:
                self.assertEqual(pcidr.permits(rules, name), name in wanted)
            self.assertEqual(pcidr.shadowed(rules), hidden)
            asked = RANDOM.choice(self.NETWORKS)
            left, first = self.addresses([asked]), []
            for place, (network, _) in enumerate(rules):
                own = self.addresses([network])
                first += [place] if left & own else []
                left -= own
            self.assertEqual(pcidr.deciding(rules, asked), first)
        for wrong in ([("10.0.0.1/8", True)], [("x", False)]):
            for call in (pcidr.permitted, pcidr.shadowed, lambda rules: pcidr.deciding(rules, "10.0.0.1")):
                with self.assertRaises(ValueError):
                    call(wrong)
        for action in ("deny", None, [1], 0.5):
            for call in (pcidr.permitted, pcidr.shadowed, lambda rules: pcidr.permits(rules, "10.0.0.1")):
                with self.assertRaises(TypeError):
                    call([("10.0.0.0/8", action)])

    def test_changes_by_threads(self):
        """Each adds and removes networks of its own, while others look up; none of the changes gets lost."""
        held, wrong = MutableNetworkSet(["192.0.2.0/24"]), []

        def change(part):
            for place in range(200):
                held.add(f"10.{part}.{place}.0/24")
                if f"10.{part}.{place}.7" not in held:
                    wrong.append((part, place))
                if place % 2:
                    held.remove(f"10.{part}.{place}.0/24")

        def look_up():
            while any(thread.is_alive() for thread in threads):
                if "192.0.2.1" not in held or "192.0.3.1" in held or held.contains_each(["192.0.2.0/25"]) != [True]:
                    wrong.append("look-up")

        threads = [threading.Thread(target=change, args=(part,)) for part in range(4)]
        readers = [threading.Thread(target=look_up) for _ in range(2)]
        for thread in (*threads, *readers):
            thread.start()
        for thread in (*threads, *readers):
            thread.join()
        rows = [f"10.{part}.{place}.0/24" for part in range(4) for place in range(0, 200, 2)]
        self.assertEqual((held, wrong), (NetworkSet([*rows, "192.0.2.0/24"]), []))


    def test_order_beside_a_change(self):
        """A set that is beside another, and then the same, is never within it, nor the other way round."""

        class Watched(NetworkSet):
            def __eq__(self, other):
                answer = super().__eq__(other)
                held.add("10.0.0.0/8")
                held.remove("11.0.0.0/8")
                return answer

        for is_below in (lambda: held > watched, lambda: watched < held, lambda: held < watched):
            held, watched = MutableNetworkSet(["11.0.0.0/8"]), Watched(["10.0.0.0/8"])
            self.assertFalse(is_below())


class OfTries(unittest.TestCase):
    """Rows around a network, beside a look at each row."""

    def test_smallest_tables(self):
        for _ in range(200):
            table = Table((near_text(), RANDOM.choice("abc")) for _ in range(RANDOM.randrange(14)))
            smallest, other = table.smallest(), Table({**table, near_text(): "d"})
            self.assertLessEqual(len(smallest), len(table))
            self.assertEqual((smallest.smallest(), table.forwards_same(smallest)), (smallest, True))
            asked = [Network(text).first for text in ("0.0.0.0/0", "::/0")]
            for network in (*table, *other, *smallest):
                asked += [network.first, network.last] if network.version else []
            asked += [address + 1 for address in asked if 0 < ~int(address) & (2**address.max_prefixlen - 1)]
            same = [found and found[1] for found in table.lookup_each(asked)]
            self.assertEqual([found and found[1] for found in smallest.lookup_each(asked)], same)
            others = [found and found[1] for found in other.lookup_each(asked)]
            self.assertEqual(table.forwards_same(other), others == same)
        self.assertEqual(Table({"10.0.0.0/9": 1, "10.128.0.0/9": 1}).smallest(), Table({"10.0.0.0/8": 1}))
        self.assertEqual((Table().smallest(), Table().forwards_same(Table())), (Table(), True))
        with self.assertRaises(TypeError):
            Table({"10.0.0.0/8": []}).smallest()

    def test_indexes_of_a_list(self):
        """The calls of C on a list, which a table has no use for."""
        calls, room, count = pcidr._library.calls, (ctypes.c_size_t * 20)(), ctypes.c_size_t()
        for _ in range(400):
            networks = list(map(Network, sorted({near_text() for _ in range(RANDOM.randrange(14))})))
            if RANDOM.random() < 0.5:
                networks.sort()
            values, asked = pcidr._library.array(network._value for network in networks), Network(near_text())
            for call, holds in ((calls.covering, lambda one: asked in one), (calls.covered, lambda one: one in asked)):
                self.assertEqual(call(values, len(values), asked._value, room, 20, count), 0)
                wanted = [place for place, network in enumerate(networks) if holds(network)]
                self.assertEqual(room[: count.value], wanted)

    def test_covering_and_covered(self):
        for _ in range(400):
            table = Table((near_text(), place) for place in range(RANDOM.randrange(14)))
            rows = list(table.items())
            for asked in [near_text() for _ in range(6)] + ["any", "::/0", *map(str, table)]:
                own = Network(asked)
                outer = [row for row in rows if own in row[0]]
                outer.sort(key=lambda row: -1 if row[0].prefixlen is None else row[0].prefixlen, reverse=True)
                inner = [row for row in rows if row[0] in own]
                below = [row for row in inner if row[0] != own]
                direct = [row for row in below if not any(row[0] in other[0] for other in below if other != row)]
                self.assertEqual(table.covering(asked), outer)
                self.assertEqual(table.covered(asked), inner)
                self.assertEqual(table.parent(asked), next((row for row in outer if row[0] != own), None))
                self.assertEqual(table.children(asked), direct)
                for network, _ in table.children(asked):
                    if asked in table:
                        self.assertEqual(table.parent(network), (own, table[asked]))


class Others(unittest.TestCase):
    """Beside other modules, where they are there."""

    @unittest.skipUnless(find_spec("netaddr"), "there is no netaddr")
    def test_netaddr(self):
        import netaddr

        calls = ("union", "intersection", "difference", "symmetric_difference")
        for _ in range(300):
            texts = [[text for text in (near_text() for _ in range(6)) if text != "any"] for _ in range(2)]
            ours, theirs = [NetworkSet(each) for each in texts], [netaddr.IPSet(each) for each in texts]
            for name in calls:
                made = getattr(ours[0], name)(ours[1]), getattr(theirs[0], name)(theirs[1])
                networks = map(Network, made[0].to_strings())  # without `any`
                self.assertEqual([network.with_prefixlen for network in networks], list(map(str, made[1].iter_cidrs())))
                self.assertEqual(made[0].size, made[1].size)
            for name in ("isdisjoint", "issubset", "issuperset"):
                self.assertEqual(getattr(ours[0], name)(ours[1]), getattr(theirs[0], name)(theirs[1]))

    @unittest.skipUnless(find_spec("netaddr"), "there is no netaddr")
    def test_networks_of_netaddr(self):
        import netaddr

        for _ in range(300):
            networks = [any_network(RANDOM.choice((9, 128))) for _ in range(4)]
            one = networks[0]
            ours, theirs = Network(one), netaddr.IPNetwork(str(one))
            for name in ("next", "previous"):
                try:
                    wanted = str(getattr(theirs, name)())
                except (IndexError, ValueError, netaddr.AddrFormatError):
                    wanted = None
                try:
                    found = getattr(ours, name)().with_prefixlen
                except ValueError:
                    found = None
                self.assertEqual(found, wanted, (one, name))
            # of networks in one another that of netaddr can be too small, and of one address it is none
            ends = [str(end) for network in networks if network.version == one.version for end in (network[0], network[-1])]
            if len(set(ends)) > 1:
                self.assertEqual(pcidr.spanning_cidr(ends).with_prefixlen, str(netaddr.spanning_cidr(ends)))
            self.assertEqual([each.with_prefixlen for each in pcidr.collapse_addresses(networks)],
                             [str(each) for each in sorted(netaddr.cidr_merge([str(each) for each in networks]))])
            held = netaddr.IPSet(map(str, networks))
            ranges = [(str(netaddr.IPAddress(each.first, each.version)), str(netaddr.IPAddress(each.last, each.version)))
                      for each in held.iter_ipranges()]
            self.assertEqual([(str(first), str(last)) for first, last in NetworkSet(networks).ranges()],
                             [(str(Address(first)), str(Address(last))) for first, last in ranges])

    @unittest.skipUnless(find_spec("netaddr"), "there is no netaddr")
    def test_changes_of_sets_of_netaddr(self):
        import netaddr

        for _ in range(100):
            ours, theirs = MutableNetworkSet(), netaddr.IPSet()
            for _ in range(10):
                name = RANDOM.choice(("add", "remove", "update", "pop", "copy", "clear"))
                texts = [text for text in (near_text() for _ in range(3)) if text != "any"]
                if name == "pop":  # theirs is any one
                    for text in NetworkSet([ours.pop()]).to_strings() if ours else []:
                        theirs.remove(text)
                elif name == "copy":
                    ours, theirs = ours.copy(), theirs.copy()
                elif name == "clear":
                    if RANDOM.random() < 0.2:
                        ours.clear()
                        theirs.clear()
                else:
                    for given in [texts] if name == "update" else texts:
                        getattr(ours, name)(given)
                        getattr(theirs, name)(given)
                networks = map(Network, ours.to_strings())
                self.assertEqual([network.with_prefixlen for network in networks], list(map(str, theirs.iter_cidrs())))

    @unittest.skipUnless(find_spec("netaddr"), "there is no netaddr")
    def test_calls_of_netaddr(self):
        import netaddr

        def shown(networks):
            return [network.with_prefixlen for network in networks]

        for _ in range(300):
            outer, address = any_network(8), any_address()
            length = RANDOM.randint(outer.prefixlen, outer.max_prefixlen)
            inner = Network((outer[RANDOM.randrange(outer.num_addresses)], length), strict=False)
            ours, theirs = Network(outer), netaddr.IPNetwork(str(outer))
            left = netaddr.cidr_exclude(theirs, str(inner))
            self.assertEqual(shown(ours.address_exclude(inner)), list(map(str, left)))
            self.assertEqual(shown(ours.subnets(new_prefix=length)), list(map(str, theirs.subnet(length))))
            for wider in theirs.supernet(RANDOM.randint(0, outer.prefixlen)):
                self.assertEqual(ours.supernet(new_prefix=wider.prefixlen).with_prefixlen, str(wider))
            self.assertEqual(ours.num_addresses, theirs.size)
            if outer.version == 4:
                self.assertEqual(list(map(str, ours.hosts())), list(map(str, theirs.iter_hosts())))
                mapped = theirs.ipv6()
                self.assertEqual(ours.ipv6_mapped, Network(str(mapped)))
                self.assertEqual(Network(str(mapped)).ipv4_mapped, Network(str(mapped.ipv4())))
            self.assertEqual(Address(address).reverse_pointer + ".", netaddr.IPAddress(str(address)).reverse_dns)
            other = any_address()
            if address.version == other.version and address != other:
                ends = sorted((address, other))
                ranges = netaddr.iprange_to_cidrs(*map(str, ends))
                self.assertEqual(shown(pcidr.summarize_address_range(*ends)), list(map(str, ranges)))

    @unittest.skipUnless(find_spec("netaddr"), "there is no netaddr")
    def test_look_ups_of_netaddr(self):
        import netaddr

        for _ in range(300):
            names = [name for name in {near_text() for _ in range(12)} if name != "any"]
            table = Table((name, name) for name in names)
            for asked in {str(Network(near_text().replace("any", "::")).last) for _ in range(6)}:
                found = [network.with_prefixlen for network, _ in table.covering(asked)]
                self.assertEqual(found[::-1], list(map(str, netaddr.all_matching_cidrs(asked, names))))
                row, best = table.lookup(asked), netaddr.smallest_matching_cidr(asked, names)
                self.assertEqual(row and row[0].with_prefixlen, None if best is None else str(best))

    @unittest.skipUnless(find_spec("radix"), "there is no radix")
    def test_radix(self):
        import radix

        for _ in range(300):
            names = [name for name in (near_text() for _ in range(12)) if name != "any"]
            ours, theirs = Table((name, name) for name in names), radix.Radix()
            for name in names:
                theirs.add(name)
            self.assertEqual({network.with_prefixlen for network in ours}, set(theirs.prefixes()))
            for asked in [near_text() for _ in range(6)] + names:
                best, found = (theirs.search_best(asked), ours.lookup(asked)) if asked != "any" else (None, None)
                self.assertEqual(found and found[0].with_prefixlen, best and best.prefix)
                if asked != "any":
                    self.assertEqual(ours.get(asked) is None, theirs.search_exact(asked) is None)
                    for name, rows in (("search_covering", ours.covering(asked)), ("search_covered", ours.covered(asked))):
                        found = sorted(network.with_prefixlen for network, _ in rows)
                        self.assertEqual(found, sorted(node.prefix for node in getattr(theirs, name)(asked)))
            for name in set(names):
                theirs.delete(name)
                del ours[name]
                self.assertEqual({network.with_prefixlen for network in ours}, {node.prefix for node in theirs.nodes()})


class Packed(unittest.TestCase):
    """Packed addresses beside the same ones as strings."""

    def same(self, given, version, texts):
        names = [name for name in (near_text() for _ in range(12)) if name != "any"]
        table, held = Table((name, name.encode()) for name in names), NetworkSet(names)
        with tempfile.TemporaryDirectory() as folder:
            path = os.path.join(folder, "rows")
            table.save(path)
            for rows in (table, Table({**table, "any": 1}), Table.open(path), Table.open(path, check=False)):
                found, wanted = rows.lookup_packed(given, version), rows.lookup_each(texts)
                self.assertEqual((list(found), len(found), found), (wanted, len(texts), wanted))
                self.assertEqual((list(found[1:7:2]), found[-1:]), (wanted[1:7:2], wanted[-1:]))
                self.assertEqual(found.places.nbytes, 4 * len(texts))
        self.assertEqual(held.contains_packed(given, version), held.contains_each(texts))

    def test_memory_of_each_kind(self):
        for count in (0, 1, 5, 300):
            near = (0x0A000000 | RANDOM.getrandbits(RANDOM.choice((9, 32))) for _ in range(count))
            ipv4 = list(map(ipaddress.IPv4Address, near))
            texts, packed = list(map(str, ipv4)), b"".join(address.packed for address in ipv4)
            for given in (packed, bytearray(packed), memoryview(packed), array("B", packed), mmap_of(packed)):
                self.same(given, 4, texts)
            numbers = array("I", map(int, ipv4))
            for given in (numbers, memoryview(numbers), (ctypes.c_uint32 * count)(*numbers)):
                self.same(given, 4, texts)
            self.same((ctypes.c_uint32.__ctype_be__ * count)(*numbers), 4, texts)
            base = 0x20010DB8 << 96
            ipv6 = [ipaddress.IPv6Address(base | RANDOM.getrandbits(RANDOM.choice((9, 100)))) for _ in range(count)]
            texts, packed = list(map(str, ipv6)), b"".join(address.packed for address in ipv6)
            for given in (packed, bytearray(packed), memoryview(packed).cast("B", [count, 16]) if count else b""):
                self.same(given, 6, texts)

    @unittest.skipUnless(find_spec("numpy"), "there is no numpy")
    def test_arrays_of_numpy(self):
        import numpy

        for count in (0, 1, 5, 300):
            numbers = numpy.array([0x0A000000 | RANDOM.getrandbits(9) for _ in range(count)], dtype=numpy.uint32)
            texts, packed = [str(ipaddress.IPv4Address(int(number))) for number in numbers], numbers.astype(">u4")
            octets = packed.view(numpy.uint8)
            for given in (numbers, packed, packed.view("S4"), octets, octets.reshape(count, 4)):
                self.same(given, 4, texts)
            ipv6 = [ipaddress.IPv6Address(0x20010DB8 << 96 | RANDOM.getrandbits(9)) for _ in range(count)]
            octets = numpy.frombuffer(b"".join(address.packed for address in ipv6), dtype=numpy.uint8)
            for given in (octets, octets.reshape(count, 16), octets.view("S16")):
                self.same(given, 6, list(map(str, ipv6)))
        table, numbers = Table({"10.0.0.0/8": 1}), numpy.array([0x0A000001, 0x0B000000], dtype=numpy.uint32)
        self.assertEqual(numpy.asarray(table.lookup_packed(numbers).places).tolist(), [0, -1])
        with self.assertRaises(TypeError):
            table.lookup_packed(numpy.zeros(4, dtype=numpy.uint32)[::2])

    def test_no_copy_is_made(self):
        """Beside the answers, of four bytes each, there is room for some values at a time."""
        table, given = Table({"10.0.0.0/8": 1}), bytes(4_000_000)
        table.lookup_packed(given[:4])
        tracemalloc.start()
        try:
            found = table.lookup_packed(given)
            most = tracemalloc.get_traced_memory()[1]
        finally:
            tracemalloc.stop()
        self.assertEqual(len(found), 1_000_000)
        self.assertLess(most, found.places.nbytes + 1_000_000)

    def test_no_rows_of_octets(self):
        """An array of no addresses, which has a second dimension."""
        none, table = ((ctypes.c_uint8 * 4) * 0)(), Table({"10.0.0.0/8": 1})
        self.assertEqual(list(table.lookup_packed(none)), [])
        self.assertEqual(NetworkSet(table).contains_packed(none), [])

    def test_more_than_are_looked_up_at_once(self):
        table = Table({"10.0.0.0/9": "low", "10.128.0.0/9": "high", "::/0": "six"})
        numbers = array("I", [0x0A000000 | RANDOM.getrandbits(24) for _ in range(30_000)])
        wanted = ["low" if number < 0x0A800000 else "high" for number in numbers]
        self.assertEqual([row[1] for row in table.lookup_packed(numbers)], wanted)
        self.assertEqual([row[1] for row in table.lookup_packed(numbers.tobytes(), 6)], ["six"] * 7_500)
        packed = array("I", numbers)
        packed.byteswap()
        self.assertEqual([row[1] for row in table.lookup_packed(memoryview(packed).cast("B"))], wanted)
        halves = Table({"::/1": "low", "8000::/1": "high"})
        octets = RANDOM.randbytes(16 * 30_000)
        wanted = ["low" if first < 0x80 else "high" for first in octets[::16]]
        self.assertEqual([row[1] for row in halves.lookup_packed(octets, 6)], wanted)
        places = table.lookup_packed(numbers).places
        self.assertEqual(list(places), [number >= 0x0A800000 for number in numbers])
        del table["::/0"]
        self.assertEqual(bytes(table.lookup_packed(bytes(32), 6).places), b"\xff" * 8)

    def test_what_is_none(self):
        table = Table({"10.0.0.0/8": 1})
        for wrong, version in ((b"12345", 4), (b"1234", 6), (b"", 5), (array("I", [1]), 6), (b"1234", 0)):
            with self.assertRaises((ValueError, TypeError)):
                table.lookup_packed(wrong, version)
        for wrong in (array("d", [1.0]), array("Q", [1]), array("i", [1]), "10.0.0.1", 5, memoryview(b"12345678")[::2]):
            with self.assertRaises(TypeError):
                table.lookup_packed(wrong)


class Memory(unittest.TestCase):
    def test_calls_keep_nothing(self):
        """Many turns of each call leave the process as large as it was; what goes round in a circle is collected."""
        table, held = Table({"10.0.0.0/8": [], "::/0": ()}), NetworkSet(["10.0.0.0/8", "::/64"])
        address, network, host = Address("10.1.2.3"), Network("10.0.0.0/8"), Host("10.0.0.5/8")
        table.lookup_each(["::"])
        calls = (
            lambda: (Address("2001:db8::1"), Address(b"four"), Network("10.0.0.0/8"), Host("::5/64"), str(host)),
            lambda: (network.first, network.last, network.netmask, network.version, host.ip, host.network),
            lambda: (address in network, network < network, address == address, hash(address), int(address)),
            lambda: (address.packed, address + 1, repr(network), network.prefixlen, host.packed, host.reverse_pointer),
            lambda: (address.exploded, network.exploded, host.exploded, host.compressed, host.with_netmask, host.with_hostmask),
            lambda: (address.special_entry, Address("8.8.8.8").special_entry, network.next(), network.sibling(), int(host)),
            lambda: (table.lookup("10.1.2.3"), table.lookup(address), table.lookup("::1"), table.lookup("10.0.0.0/9")),
            lambda: ("10.1.2.3" in held, address in held, network in held, "::/65" in held),
            lambda: (pcidr.parse_networks(["10.0.0.0/8"] * 5), pcidr.print_networks([network] * 5), list(held)),
            lambda: table.lookup_packed(b"tens" * 10)[3],
        )
        wrong = (lambda: Address("x"), lambda: Address("\ud800"), lambda: address - 2**40, lambda: Network("any").first,
                 lambda: Network("any").exploded, lambda: Network("::/0").next(), lambda: Network("any").sibling(),
                 lambda: "x" in network, lambda: table.lookup("x"), lambda: address + 2**200, lambda: 5 in network)

        def turn(count):
            for _ in range(count):
                for call in calls:
                    call()
                for call in wrong:
                    with contextlib.suppress(ValueError, TypeError):
                        call()

        turn(200)
        gc.collect()
        tracemalloc.start()
        try:
            before = tracemalloc.get_traced_memory()[0], resource.getrusage(resource.RUSAGE_SELF).ru_maxrss
            turn(2000)
            gc.collect()
            after = tracemalloc.get_traced_memory()[0], resource.getrusage(resource.RUSAGE_SELF).ru_maxrss
        finally:
            tracemalloc.stop()
        self.assertLess(after[0] - before[0], 50_000)
        self.assertLess(after[1] - before[1], 4_000)

    @unittest.skipIf(os.environ.get("PCIDR_SHORT"), "millions of calls, which another Python makes")
    def test_ten_million_calls(self):
        """They leave the process as large as it was after the first ones. By `ctypes` they are a million."""
        table, held = Table({"10.0.0.0/8": 1, "::/0": 2}), NetworkSet(["10.0.0.0/8", "::/64"])
        address, network, host = Address("2001:db8::1"), Network("10.0.0.0/8"), Host("10.0.0.5/8")
        table.lookup_each(["::"])

        def turn(count):
            for _ in range(count):  # of 31 calls
                Address("10.1.2.3"), Address("2001:db8::1"), Network("10.0.0.0/8"), Host("::5/64"), address.packed
                network.first, network.last, network.netmask, network.prefixlen, host.ip, host.network, str(address)
                "10.1.2.3" in network, address in network, address < address, network == network, hash(network)
                address + 1, int(address), address.is_private, "::1" in held, address in held
                address.exploded, host.with_netmask, network.is_private, network.next(), host.packed, address.special_entry
                table.lookup("10.1.2.3"), table.lookup(address)
                with contextlib.suppress(ValueError):
                    Address("x")

        turn(2_000)
        gc.collect()
        before = resident()
        turn(400_000 if _kinds.IS_FAST else 40_000)
        gc.collect()
        self.assertLess(resident() - before, 4_000)

    def test_a_table_in_itself_is_collected(self):
        class Value:
            pass

        table, value = Table(), Value()
        gone = weakref.ref(value)
        table["::/0"], table["10.0.0.0/8"] = table, value
        table.lookup_each(["::"])
        table.lookup("::")
        del table, value
        gc.collect()
        self.assertIsNone(gone())


def resident():
    """How many KiB of memory the process has."""
    with open("/proc/self/statm", encoding="ascii") as file:
        return int(file.read().split()[1]) * resource.getpagesize() // 1024


def mmap_of(content):
    made = mmap.mmap(-1, len(content) or 1)
    made[: len(content)] = content
    return made if content else b""


if __name__ == "__main__":
    unittest.main()
