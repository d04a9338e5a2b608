"""Calls with arguments that they do not take: each raises an error as Python's own modules do, and changes nothing."""
import contextlib
import io
import ipaddress
import itertools
import operator
import unittest
import warnings

import pcidr
from pcidr import Address, Host, Matches, MutableNetworkSet, Network, NetworkSet, Table

NAMED = ipaddress.ip_interface("10.0.0.1/8"), ipaddress.ip_address("fe80::1%eth0"), ipaddress.ip_network("::/64")
NUMBERS = None, 5, -1, 2**64, 2**200, 1.5, float("nan"), True, slice(1, 2), (1, 2)
TEXTS = "", "x", "\ud800", "10.0.0.0/33", "10.0.0.1/8", "10.0.0.0/8", b"", b"12345", bytearray(b"1234"), memoryview(b"12345678")
PAIRS = (), (1, 2, 3), ("10.0.0.1", []), ("10.0.0.1", 1.5), (None, 8), (5, 8)
LISTS = [], [None], [("x",)], ["10.0.0.0/8", "x"], [("10.0.0.0/8", 1)], [("10.0.0.0/8", [])], {}, {"x": 1}, {None: 1}, {1.5}
OTHERS = object(), ..., type, len, Address, Network, Table, Address.__new__(Address), Network.__new__(Network)
VALUES = Address("10.0.0.1"), Network("any"), Host("10.0.0.1/8"), Table(), NetworkSet(["10.0.0.0/8"])
ODD = *NAMED, *NUMBERS, *TEXTS, *PAIRS, *LISTS, *OTHERS, *VALUES
FEW = None, 5, 2**200, 1.5, "x", "10.0.0.0/8", b"1234", [], ["x"], [("10.0.0.0/8", 1)], object(), Address("::")
# What an argument may raise: others are faults of the module, as an AttributeError or one of the interpreter is.
RAISED = TypeError, ValueError, OverflowError, LookupError, StopIteration, FileNotFoundError
OPERATORS = (
    *(operator.add, operator.sub, operator.lt, operator.le, operator.eq, operator.contains, operator.getitem, operator.delitem),
    *(operator.or_, operator.and_, operator.xor, operator.ior, operator.iand, operator.isub, operator.ixor),
)
# which do more than a call says, or read files
LEFT_OUT = {"save", "open", "__init__", "__new__", "__class__", "__setstate__", "__init_subclass__", "__subclasshook__"}
LEFT_OUT |= {"__setattr__", "__delattr__", "__getattr__", "__getattribute__", "__reduce_ex__", "__class_getitem__"}


def table():
    return Table({"10.0.0.0/8": 1, "10.1.0.0/16": "x", "::/0": []})


MADE = {
    "an address": lambda: Address("10.0.0.1"),
    "a host": lambda: Host("::1/64"),
    "a network": lambda: Network("10.0.0.0/30"),
    "any": lambda: Network("any"),
    "a table": table,
    "a set": lambda: NetworkSet(["10.0.0.0/8"]),
    "a set that changes": lambda: MutableNetworkSet(["10.0.0.0/8", "::/0"]),
    "matches": lambda: table().lookup_packed(b"12345678"),
}


def state(value):
    return list(value) if isinstance(value, Matches) else repr(value)


class Odd(unittest.TestCase):
    def setUp(self):
        caught = warnings.catch_warnings()
        caught.__enter__()
        self.addCleanup(caught.__exit__, None, None, None)
        warnings.simplefilter("ignore", DeprecationWarning)
        self.tries = 0

    def of(self, made, call, *said):
        """A call of a new object, which stays as it is where the call raises."""
        value, self.tries = made(), self.tries + 1
        before = state(value)
        try:
            result = call(value)
            if hasattr(result, "__next__"):
                list(itertools.islice(result, 3))
        except RAISED:
            self.assertEqual(state(value), before, said)
        except Exception as error:
            self.fail(f"{said}: {error!r}")

    def test_methods(self):
        for about, made in MADE.items():
            kind = type(made())
            names = [name for name in dir(kind) if callable(getattr(kind, name)) and name not in LEFT_OUT]
            for name in names:
                if name.startswith("_") and not name.startswith("__"):
                    continue
                self.of(made, lambda value: getattr(value, name)(), about, name)
                for odd in ODD:
                    self.of(made, lambda value: getattr(value, name)(odd), about, name, odd)
                for both in itertools.product(FEW, FEW) if name in vars(kind) else ():
                    self.of(made, lambda value: getattr(value, name)(*both), about, name, both)
        self.assertGreater(self.tries, 10_000)

    def test_operators(self):
        for about, made in MADE.items():
            for call, odd in itertools.product(OPERATORS, ODD):
                self.of(made, lambda value: call(value, odd), about, call, odd)
                if not isinstance(odd, (dict, set, list)) and odd not in NAMED:  # whose own operators look into the others
                    self.of(made, lambda value: call(odd, value), call, odd, about)
        for odd, value in itertools.product(ODD, FEW):
            self.of(table, lambda changed: operator.setitem(changed, odd, value), "setitem", odd, value)

    def test_functions(self):
        for name in pcidr.__all__:
            call = getattr(pcidr, name)
            for given in (*((odd,) for odd in ODD), *itertools.product(FEW, FEW)):
                with contextlib.redirect_stderr(io.StringIO()):
                    self.of(lambda: Network("any"), lambda _: call(*given), name, given)
        for given in itertools.product(ODD, FEW):
            self.of(lambda: Network("any"), lambda _: Address.from_int(*given), given)
            self.of(lambda: Network("any"), lambda _: NetworkSet.from_text(given[0], strict=given[1]), given)
        for kind in (Address, Host, Network):
            with self.assertRaisesRegex(TypeError, "Address.from_int"):
                kind(5)

    def test_a_set_is_changed_by_all_or_nothing(self):
        held = MutableNetworkSet(["10.0.0.0/8"])
        for wrong in (["x"], 5, [None]):
            with self.assertRaises((TypeError, ValueError)):
                held.update(["192.0.2.0/24"], wrong)
            self.assertEqual(held.to_strings(), ["10.0.0.0/8"])
        held.update(["192.0.2.0/24"], NetworkSet(["::/0"]))
        held.update()
        self.assertEqual(held.to_strings(), ["10.0.0.0/8", "192.0.2.0/24", "::/0"])

    def test_what_ipaddress_takes(self):
        """The calls that the page names as errors here, which `ipaddress` takes."""
        interface, wide = ipaddress.ip_interface("10.0.0.1/8"), ipaddress.IPv4Network
        host, address, network = Host("10.0.0.1/8"), Address("10.0.0.1"), Network("10.0.0.0/8")
        pairs = [
            (lambda: ipaddress.ip_network(5), lambda: Network(5)),
            (lambda: ipaddress.ip_network((5, 32)), lambda: Network((5, 32))),
            (lambda: ipaddress.ip_network(("10.0.0.1",)), lambda: Network(("10.0.0.1",))),
            # `ipaddress` takes it, and then has that length of each network that is as long, since it keeps the first one
            (lambda: None, lambda: Network(("0.0.0.0", True))),
            (lambda: wide(address="10.0.0.0"), lambda: Network(address="10.0.0.0")),
            (lambda: ipaddress.ip_address("fe80::1%eth0"), lambda: Address("fe80::1%eth0")),
            (lambda: interface + 1, lambda: host + 1),
            (lambda: interface in wide("10.0.0.0/8"), lambda: host in network),
            (lambda: interface < interface.ip, lambda: host < address),
            (lambda: list(ipaddress.collapse_addresses([interface])), lambda: pcidr.collapse_addresses([interface])),
            (lambda: list(ipaddress.summarize_address_range(interface, interface)), lambda: pcidr.summarize_address_range(host, host)),
            (lambda: f"{interface:x}", lambda: f"{host:x}"),
        ]
        for place, (theirs, ours) in enumerate(pairs):
            theirs()
            with self.assertRaises((TypeError, ValueError), msg=place):
                ours()


if __name__ == "__main__":
    unittest.main()
