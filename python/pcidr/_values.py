"""Addresses, hosts and networks."""
from __future__ import annotations

import ctypes
import sys
from collections import namedtuple
from functools import cache, partial
from itertools import count, takewhile
from operator import index as integer

from pcidr._calls import FAULT_ROOM, NAME_ROOM, Code, Halves, Value
from pcidr._kinds import OfAddress, OfHost, OfNetwork, Shown, each_of, register
from pcidr._library import array, calls, check, combined, encoded, printed, read, tried

TYPE_CHECKING = False
if TYPE_CHECKING:
    import ipaddress
    from collections.abc import Iterator
    from typing import Any, NamedTuple, Union

    from pcidr._purposes import Purpose

    OfIpaddress = Union[ipaddress.IPv4Address, ipaddress.IPv6Address, ipaddress.IPv4Network, ipaddress.IPv6Network]
    Packed = Union[bytes, bytearray]
    AnyAddress = Union["Address", str, Packed, ipaddress.IPv4Address, ipaddress.IPv6Address]
    AnyNetwork = Union["Address", "Network", str, OfIpaddress]
    WithLength = tuple[AnyAddress, Union[int, str]]
    AnyHost = Union["Address", "Host", "Network", str, Packed, OfIpaddress, WithLength]

_OF_NUMBERS = {f"{sign}{groups}{base}" for sign in ("", "#") for groups in ("", "_") for base in "bnxX"}
_WIDTHS = {4: 32, 6: 128}
_ADDRESS_TAGS = {4: 32, 6: 192}
LOW = 2**64 - 1
_SUBNETS = 256  # so many at a time
_USABLE: dict[tuple[int | None, int | None], range] = {}


def text_fault(text: str) -> str | None:
    """What is wrong with a string that is no network, address or range, as ``a leading zero in an octet``: the first of
    some faults that are looked for, or None."""
    given, room = encoded(text), ctypes.create_string_buffer(FAULT_ROOM)
    count = calls.text_fault(given, len(given), room, FAULT_ROOM)
    return room.raw[:count].decode() or None


def _numbered(number: int, tag: int) -> Value:
    return Value(number >> 64, number & LOW, tag)


def _read_packed(given: Packed) -> Value:
    """The value of an address as bytes, the highest first."""
    packed = bytes(given)  # of a `bytearray` another thread may change the length
    tag = {4: 32, 16: 192}.get(len(packed))
    if tag is None:
        raise ValueError(f"a packed address has 4 or 16 bytes: {packed!r}")
    return _numbered(int.from_bytes(packed, "big"), tag)


def theirs(*names: str) -> tuple[type, ...]:
    """Some classes of the module `ipaddress`, of both families. Before somebody has loaded it, nothing is of them."""
    return _loaded(names) if "ipaddress" in sys.modules else ()


@cache
def _loaded(names: tuple[str, ...]) -> tuple[Any, ...]:
    import ipaddress

    return tuple(getattr(ipaddress, f"IPv{version}{name}") for name in names for version in (4, 6))


def _text(given: object) -> str:
    """The string of what a value is made of: a string, a value, one of `ipaddress`, or an address and a length."""
    if isinstance(given, str):
        return given
    if isinstance(given, (Shown, *theirs("Address", "Network"))):
        return str(given)
    if isinstance(given, (bytes, bytearray)):
        return str(Address(given))
    if isinstance(given, tuple) and len(given) == 2:
        address, length = given
        return f"{Address(address)}/{length}"
    if isinstance(given, int):
        raise TypeError(f"a number alone has no family, which Address.from_int takes with it: {given!r}")
    raise TypeError(f"no string, value or object of ipaddress: {given!r}")


def _masked(text: str) -> Value | None:
    """The value of a host with a mask in place of the prefix length, or None where what is behind the slash is none."""
    head, _, tail = text.rpartition("/")
    try:
        address, mask = Address(head), Address(tail)
    except ValueError:
        return None
    if address.version != mask.version:
        return None
    length = ctypes.c_uint8()
    if calls.mask_length(mask._value, length) and calls.host_mask_length(mask._value, length):
        check(Code.SCATTERED, text)
    return _numbered(int(address), (0 if address.version == 4 else 64) + length.value)


def network_value(given: object) -> Value:
    """The value of what stands for a network or an address."""
    if isinstance(given, str):
        return read(calls.read_network, given)
    if isinstance(given, (Address, Network)):
        return given._value
    if isinstance(given, theirs("Address", "Network")) and not isinstance(given, theirs("Interface")):
        return read(calls.read_network, str(given))
    raise TypeError(f"no network or address: {given!r}")


def renamed(old: str, new: str) -> Any:
    """An attribute by its old name, which warns."""

    def get(self: Any) -> Any:
        import warnings

        warnings.warn(f"{type(self).__name__}.{old} is {new} now", DeprecationWarning, stacklevel=2)
        return getattr(self, new)

    return property(get, doc=f"The old name of `{new}`.")


class _Common(Shown):
    """What all of them have alike."""

    __slots__ = ()

    @classmethod
    def _read_other(cls, given: Any) -> Value:
        if isinstance(given, (bytes, bytearray)):
            return _read_packed(given)
        return cls(_text(given))._value

    def __repr__(self) -> str:
        return f"{type(self).__name__}({str(self)!r})"

    def __format__(self, spec: str) -> str:
        return format(str(self), spec)

    def __reduce__(self) -> tuple[Any, ...]:
        return type(self), (str(self),)

    def to_ipaddress(self) -> Any:
        """The same of the module `ipaddress`."""
        raise NotImplementedError

    family = renamed("family", "version")
    length = renamed("length", "prefixlen")
    mask = renamed("mask", "netmask")


if TYPE_CHECKING:

    class SpecialEntry(NamedTuple):
        network: Network
        purpose: Purpose
        rfc: int
        source: bool | None
        destination: bool | None
        forwardable: bool | None
        globally_reachable: bool | None
        reserved_by_protocol: bool | None

else:
    _COLUMNS = "source destination forwardable globally_reachable reserved_by_protocol"
    SpecialEntry = namedtuple("SpecialEntry", f"network purpose rfc {_COLUMNS}")
SpecialEntry.__doc__ = """An entry of the IANA registries of addresses for special purposes, as of May 2025: its block, what
that is for, the number of the RFC, and the columns, of which None stands for "N/A"."""


def _entry(high: int, low: int, tag: int, purpose: int, rfc: int, *columns: int) -> SpecialEntry:
    """The entry that the library has in numbers."""
    from pcidr._purposes import Purpose

    shown = ((False, True, None)[column] for column in columns)
    return SpecialEntry(Network._of(Value(high, low, tag)), Purpose(purpose), rfc, *shown)


class Address(_Common, OfAddress):
    """An IPv4 or IPv6 address, as ``Address("10.0.0.1")``. IPv4 addresses come before IPv6 addresses. A string that is
    none raises `ValueError`; a prefix length is not taken. `bytes` are a packed address, 4 or 16 of them.

    ``address + 1`` and ``address - 1`` are the addresses beside it; beyond the last one of the family, and before the
    first one, they raise `ValueError`.
    """

    __slots__ = ()

    @classmethod
    def from_int(cls, number: int, version: int) -> Address:
        """The address of a family, 4 or 6, with this number; one that it doesn't have raises `ValueError`."""
        exact = integer(number)
        if version not in _WIDTHS or not 0 <= exact < 1 << _WIDTHS[version]:
            raise ValueError(f"no address of IPv{version}: {number}")
        return cls._of(_numbered(exact, _ADDRESS_TAGS[version]))

    def __bytes__(self) -> bytes:
        return self.packed

    def __format__(self, spec: str) -> str:
        """Of the string, or for b, x, X and n, with # and _ before them, of the number, as `ipaddress` formats it."""
        return format(self.to_ipaddress() if spec in _OF_NUMBERS else str(self), spec)

    def to_ipaddress(self) -> ipaddress.IPv4Address | ipaddress.IPv6Address:
        """The same address of the module `ipaddress`."""
        made: ipaddress.IPv4Address | ipaddress.IPv6Address = _loaded(("Address",))[self.version == 6](int(self))
        return made


class Host(_Common, OfHost):
    """An address in its network, as ``Host("10.0.0.5/8")``, in the order of the addresses and then of the lengths. A
    string that is none raises `ValueError`; an address alone has full prefix length. ``Host((address, 8))`` is another
    way to write it. `ipaddress` calls it an interface."""

    __slots__ = ()

    def __init__(self, given: AnyHost) -> None:
        try:
            super().__init__(given)
            return
        except ValueError as error:
            wrong = error
        masked = _masked(_text(given))
        if masked is None:
            raise wrong
        self._become(masked)

    def to_ipaddress(self) -> ipaddress.IPv4Interface | ipaddress.IPv6Interface:
        """The same host of the module `ipaddress`, which calls it an interface."""
        made: ipaddress.IPv4Interface | ipaddress.IPv6Interface = _loaded(("Interface",))[self.version == 6]((int(self), self.prefixlen))
        return made

    address = renamed("address", "ip")
    with_length = renamed("with_length", "with_prefixlen")


class Network(_Common, OfNetwork):
    """An IPv4 or IPv6 network, as ``Network("10.0.0.0/8")``, or ``Network("any")``, which has all addresses.

    A string that is none raises `ValueError`, also where a bit after the prefix is set; with ``strict=False`` such bits
    are cleared. ``Network((address, 8))`` is another way to write it. ``in`` takes an address, a network, or a string
    of one. Iteration gives the addresses from the first on, `reversed` from the last on, and ``network[i]`` the address
    at an index. `any` comes first in the order, then IPv4, then IPv6.
    """

    __slots__ = ()

    def __init__(self, given: AnyHost, strict: bool = True) -> None:
        try:
            super().__init__(given)
            return
        except ValueError as error:
            wrong = error
        text = _text(given)
        code, value = tried(calls.read_masked_network, text)
        if code and not strict:
            value = Host(text).network._value
        elif code in (Code.HOST_PART, Code.SCATTERED):
            check(code, text)
        elif code:
            raise wrong
        self._become(value)

    def subnet_of(self, other: AnyNetwork) -> bool:
        """Whether all of its addresses are in the other network, which may be of another family."""
        return self in (other if isinstance(other, Network) else Network._of(network_value(other)))

    def supernet_of(self, other: AnyNetwork) -> bool:
        """Whether it has all addresses of the other network."""
        return other in self

    def _length_of(self, difference: int, length: int | None, sign: int) -> int:
        """The prefix length that is asked for, by a difference to this one or by itself."""
        own = self._own_length()
        if length is not None and difference != 1:
            raise ValueError("prefixlen_diff and new_prefix are both given")
        wanted = own + sign * integer(difference) if length is None else integer(length)
        if (wanted - own) * sign < 0 or not 0 <= wanted <= _WIDTHS[4 if self._value.tag < 64 else 6]:
            raise ValueError(f"{self} has no {'subnets' if sign > 0 else 'supernet'} of prefix length {wanted}")
        return wanted

    def _own_length(self) -> int:
        own = self.prefixlen
        if own is None:
            raise ValueError("any has addresses of two families")
        return own

    def supernet(self, prefixlen_diff: int = 1, new_prefix: int | None = None) -> Network:
        """The network with so many fewer bits in its prefix, or of this prefix length, that it is in. One that has no
        such network raises `ValueError`, but that 0.0.0.0/0 and ::/0 are their own, as in `ipaddress`."""
        own = self._own_length()
        if own == 0:
            return self
        wanted, out = self._length_of(prefixlen_diff, new_prefix, -1), Value()
        check(calls.supernet(self._value, wanted, out))
        return Network._of(out)

    def subnets(self, prefixlen_diff: int = 1, new_prefix: int | None = None) -> Iterator[Network]:
        """The networks in it with so many more bits in their prefix, or of this prefix length, ascending. A network of
        one address is its own, as in `ipaddress`."""
        own = self._own_length()
        if own == self.max_prefixlen:
            return iter([self])
        return self._each_subnet(self._length_of(prefixlen_diff, new_prefix, 1))

    def _each_subnet(self, length: int) -> Iterator[Network]:
        """The networks in it of a prefix length, some at a time."""
        place, most = 0, 8  # soon the first ones
        while True:
            room, count = (Value * most)(), ctypes.c_size_t()
            check(calls.subnets(self._value, length, place >> 64, place & LOW, room, most, count))
            yield from each_of(Network, room, count.value)
            if count.value < most:
                return
            place, most = place + most, _SUBNETS

    def hosts(self) -> Iterator[Address]:
        """The addresses that hosts may have: in IPv4 all but the first and the last one, and of a network of one or two
        addresses these; in IPv6 all, of which `ipaddress` leaves the first one out."""
        places = _USABLE.get((self.version, self.prefixlen)) or self._usable()
        return map(self._at, places)

    def _usable(self) -> range:
        """The indexes of these addresses, which all networks of one length have alike."""
        length = self._own_length()
        places = range(self.index(self._first_usable), self.index(self._last_usable) + 1)
        _USABLE[self.version, length] = places
        return places

    @classmethod
    def from_reverse_pointer(cls, name: str) -> Network:
        """The network, or the address as a network, with this name in reverse DNS; another name raises `ValueError`."""
        return cls._of(read(calls.read_reverse_name, name))

    def reverse_zones(self) -> Iterator[str]:
        """The names in reverse DNS of the zones that it is delegated in, ascending: of the networks in it of the next prefix
        length that ends at a label, so that one with a `reverse_pointer` has that alone."""
        self._own_length()
        names = (printed(partial(calls.print_reverse_zone, self._value), place, NAME_ROOM) for place in count())
        return takewhile(bool, names)

    def address_exclude(self, other: AnyNetwork) -> Iterator[Network]:
        """The networks of its addresses that are not in the other one, ascending. One that isn't in it raises
        `ValueError`."""
        inner = network_value(other)
        if calls.contains(self._value, inner) != 1:
            raise ValueError(f"{other} is not in {self}")
        return iter(each_of(Network, combined(calls.difference, array([self._value]), array([inner]))))

    def to_ipaddress(self) -> ipaddress.IPv4Network | ipaddress.IPv6Network:
        """The same network of the module `ipaddress`, which has none that is like `any`."""
        made: ipaddress.IPv4Network | ipaddress.IPv6Network = _loaded(("Network",))[self.version == 6]((int(self.first), self.prefixlen))
        return made

    def index(self, address: AnyAddress) -> int:
        """The index of an address, the inverse of ``network[i]``; one that isn't in it raises `ValueError`."""
        asked, number = Address(address), Halves()
        check(calls.position(self._value, asked._value, number), self, asked)
        return number.high << 64 | number.low

    def __iter__(self) -> Iterator[Address]:
        self._own_length()
        return map(self._at, range(self.num_addresses))

    def __reversed__(self) -> Iterator[Address]:
        self._own_length()
        return map(self._at, range(self.num_addresses - 1, -1, -1))

    count = renamed("count", "num_addresses")
    with_length = renamed("with_length", "with_prefixlen")


# By the tags, how many addresses a network has.
_COUNTS = tuple(1 << (32 if tag < 33 else 192) - tag if tag < 33 or 64 <= tag < 193 else 0 for tag in range(255))
register(Address, Network, check, network_value, _entry, (*_COUNTS, 2**32 + 2**128))
for _kind in (Address, Host, Network, SpecialEntry):
    _kind.__module__ = "pcidr"
