"""measure.py: times calls of one value by the extension, by `ctypes` and of `ipaddress`, or where they are there of `radix`
and `netaddr`, by turns, and then merges, look-ups of many addresses and files by the module. Prints of each a line with its
name and the least time of some turns: nanoseconds of a call, or seconds of processor time. `measure.py calls` prints the
nanoseconds of the former here alone, one a line.

`measure.py attributes` times each public attribute and each method without arguments of `Address`, `Host` and `Network`. It
prints of each the nanoseconds of a call, and of the first call of an object, of IPv4 and then the same of IPv6."""
import ipaddress
import os
import random
import subprocess
import sys
import tempfile
import time
import timeit
import warnings
from array import array
from collections import deque
from itertools import zip_longest
from operator import attrgetter, methodcaller

from pcidr import Address, Host, Network, NetworkSet, Table, merge

try:
    import netaddr
    import radix
except ImportError:
    netaddr = radix = None

RANDOM = random.Random(1)
TURNS = 5
# Prefix lengths like those of routing tables.
LENGTHS = {32: [*range(16, 24), *[24] * 8], 128: [29, 32, 32, 32, 36, 40, 44, *[48] * 7]}


def network():
    """A random network, of either family: the bits of an address, its number, and the prefix length."""
    width = RANDOM.choice((32, 128))
    length, number = RANDOM.choice(LENGTHS[width]), RANDOM.getrandbits(width)
    if width == 128:
        number = number >> 3 | 1 << 125
    return width, number >> width - length << width - length, length


def address(width, number, length):
    """A random address of a network, as the network that has only this one."""
    return width, number | RANDOM.getrandbits(width - length), width


def text(width, number, length):
    """The string of a network; in IPv6 it has all groups."""
    if width == 32:
        shown = ".".join(map(str, number.to_bytes(4, "big")))
    else:
        shown = ":".join(f"{number >> shift & 0xFFFF:x}" for shift in range(112, -1, -16))
    return shown if length == width else f"{shown}/{length}"


def measure(name, call):
    """Prints how long a call takes."""
    least = float("inf")
    for _ in range(TURNS):
        start = time.process_time()
        call()
        least = min(least, time.process_time() - start)
    print(f"{name}\t{least:.3f}")


# Calls of one value, and what they are beside.
CALLS = {
    'Address("10.1.2.3")': 'ipaddress.IPv4Address("10.1.2.3")',
    'Address("2001:db8::1")': 'ipaddress.IPv6Address("2001:db8::1")',
    'Network("10.0.0.0/8")': 'ipaddress.IPv4Network("10.0.0.0/8")',
    "address in network": "their_address in their_network",
    "address < other": "their_address < their_other",
    "network.first": "their_network.network_address",
    "network.netmask": "their_network.netmask",
    "network.prefixlen": "their_network.prefixlen",
    "network.with_prefixlen": "their_network.with_prefixlen",
    "address.packed": "their_address.packed",
    "address.is_private": "their_address.is_private",
    "address.reverse_pointer": "their_address.reverse_pointer",
    "network.is_private": "their_network.is_private",
    "host.with_netmask": "their_host.with_netmask",
    "wide.exploded": "their_wide.exploded",
    "address + 1": "their_address + 1",
    "str(address)": "str(their_address)",
    'table.lookup("10.1.2.3")': radix and 'their_table.search_best("10.1.2.3")',
    '"10.1.2.3" in held': netaddr and '"10.1.2.3" in their_set',
    "address.special_entry": None,
}


def timed(calls):
    """How many nanoseconds each of some calls takes: the least of some turns."""
    names = {"Address": Address, "Network": Network, "ipaddress": ipaddress}
    own = {"address": Address("10.1.2.3"), "other": Address("10.1.2.4"), "network": Network("10.0.0.0/8")}
    own |= {"host": Host("10.1.2.3/8"), "wide": Network("2001:db8::/32")}
    names |= own | {f"their_{name}": value.to_ipaddress() for name, value in own.items()}
    names |= {"table": Table({"10.0.0.0/8": 1}), "held": NetworkSet(["10.0.0.0/8"])}
    names["table"].lookup_each(["10.1.2.3"])
    if radix:
        names |= {"their_table": radix.Radix(), "their_set": netaddr.IPSet(["10.0.0.0/8"])}
        names["their_table"].add("10.0.0.0/8")
    return [min(timeit.repeat(call, globals=names, number=20_000, repeat=5)) / 20_000 * 1e9 for call in calls]


def by_ctypes():
    """Those of the calls here without the extension, in another process."""
    words = [sys.executable, *["-P"] * getattr(sys.flags, "safe_path", False), __file__, "calls"]
    made = subprocess.run(words, env=os.environ | {"PCIDR_CTYPES": "1"}, stdout=subprocess.PIPE, check=True, text=True)
    return list(map(float, made.stdout.split()))


def measure_calls():
    """Prints how long calls of one value take: here, by `ctypes`, and those of the others."""
    theirs = [call for call in CALLS.values() if call]  # of the first ones
    turns = [(timed(CALLS), by_ctypes(), timed(theirs)) for _ in range(TURNS)]
    least = [map(min, zip(*column)) for column in zip(*turns)]
    for call, *taken in zip_longest(CALLS, *least):
        print("\t".join([call, *(f"{each:.0f}" for each in taken if each)]))


# A value of each kind and family, whose attributes are timed.
VALUES = {Address: ("10.1.2.3", "2001:db8::1"), Host: ("10.1.2.3/8", "2001:db8::1/32"), Network: ("10.0.0.0/8", "2001:db8::/32")}


def called(value, name):
    """How an attribute of a value is written, with parentheses where it is a method, or None where that takes arguments."""
    try:
        found = getattr(value, name)
        if not callable(found):
            return f"value.{name}"
        found()
    except TypeError:
        return None
    return f"value.{name}()"


def first_call(kind, text, name):
    """How many nanoseconds an attribute takes of objects that were asked nothing before: the least of some turns."""
    least = float("inf")
    call = methodcaller(name[6:-2]) if name.endswith("()") else attrgetter(name[6:])
    for _ in range(TURNS):
        values = [kind(text) for _ in range(2_000)]
        start = time.perf_counter()
        deque(map(call, values), maxlen=0)
        least = min(least, time.perf_counter() - start)
    return least / 2_000 * 1e9


def measure_attributes():
    """Prints how long each attribute takes, of those that are not named as before."""
    for kind, texts in VALUES.items():
        for name in sorted(name for name in dir(kind) if not name.startswith("_")):
            with warnings.catch_warnings(record=True) as warned:
                warnings.simplefilter("always")
                names = [called(kind(text), name) for text in texts]
            if warned or not all(names):
                continue
            taken = []
            for text, shown in zip(texts, names):
                again = min(timeit.repeat(shown, globals={"value": kind(text)}, number=20_000, repeat=TURNS)) / 20_000 * 1e9
                taken += [again, first_call(kind, text, shown)]
            print("\t".join([names[0].replace("value", kind.__name__), *(f"{each:.0f}" for each in taken)]))


def main():
    if sys.argv[1:] == ["calls"]:
        print("\n".join(map(str, timed(CALLS))))
        return
    if sys.argv[1:] == ["attributes"]:
        measure_attributes()
        return
    measure_calls()
    many = [text(*network()) for _ in range(900_000)]
    measure(f"merge of 900,000 strings, of which {len(merge(many)):,} networks are left", lambda: merge(many))
    networks = [network() for _ in range(100_000)]
    around = (RANDOM.choice(networks) if place % 2 else network() for place in range(1_000_000))
    asked = [text(*address(*chosen)) for chosen in around]
    texts = [text(*chosen) for chosen in networks]
    held, table = NetworkSet(texts), Table(zip(texts, range(len(texts))))
    measure("NetworkSet.contains_each of 1,000,000 strings, in a set of 100,000 networks", lambda: held.contains_each(asked))
    measure("Table.lookup_each of 1,000,000 strings, in a table of 100,000 networks", lambda: table.lookup_each(asked))
    ipv4 = [each for each in networks if each[0] == 32]
    while len(ipv4) < 100_000:
        ipv4 += [each for each in [network()] if each[0] == 32]
    rows_of_ipv4 = Table((text(*chosen), place) for place, chosen in enumerate(ipv4))
    numbers = array("I", (address(*RANDOM.choice(ipv4))[1] if i % 2 else RANDOM.getrandbits(32) for i in range(1_000_000)))
    rows_of_ipv4.lookup_each(asked[:1])
    measure("Table.lookup_packed of 1,000,000 numbers in an array, in a table of 100,000 IPv4 networks",
            lambda: rows_of_ipv4.lookup_packed(numbers))
    numbers.byteswap()
    packed = memoryview(numbers).cast("B")
    measure("the same of packed addresses in a memoryview", lambda: rows_of_ipv4.lookup_packed(packed))
    few = asked[:100_000]
    measure("100,000 strings one by one, whether they are in that set", lambda: [text in held for text in few])
    measure("Table.lookup of 100,000 strings one by one, in that table", lambda: list(map(table.lookup, few)))

    rows = {}
    while len(rows) < 1_000_000:
        rows[text(*network())] = b"value %d" % (len(rows) % 1000)
    with tempfile.TemporaryDirectory() as folder:
        path = os.path.join(folder, "rows")
        measure("Table.save of 1,000,000 rows, which are listed", saving(Table(rows), path))
        measure(f"Table.open of that file of {os.path.getsize(path):,} bytes, which is checked", lambda: Table.open(path))
        measure("the same of a map of it", lambda: Table.open(path, mapped=True))
        measure("the same of the map without a check", lambda: Table.open(path, check=False, mapped=True))
        Table((text, b"") for text in texts).save(path)
        stored, opened = Table.open(path), NetworkSet.open(path)
        measure("lookup_each of 1,000,000 strings, in a file of 100,000 networks", lambda: stored.lookup_each(asked))
        opening = iter([Table.open(path) for _ in range(TURNS)])
        measure("the same of one string each, which no look-up has found before", lambda: list(map(next(opening).lookup, few)))
        measure("lookup of 100,000 strings one by one, in that file", lambda: list(map(stored.lookup, few)))
        measure("100,000 strings one by one, whether they are in the set of that file", lambda: [text in opened for text in few])


def saving(table, path):
    """Saves a table whose rows have been listed."""
    next(iter(table))
    return lambda: table.save(path)


if __name__ == "__main__":
    main()
