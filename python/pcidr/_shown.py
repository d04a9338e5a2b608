"""What addresses, hosts and networks have of the library, by `ctypes`; `_fast.c` has the same in C."""
from __future__ import annotations

from functools import partial
from operator import ge, gt, index, le, lt

from pcidr._calls import MASK_ROOM, NAME_ROOM, Code, Special, Value
from pcidr._library import array, calls, check, key_of, printed, read, sought

TYPE_CHECKING = False
if TYPE_CHECKING:
    from collections.abc import Callable, Sequence
    from typing import Any, ClassVar, Generic, TypeVar

    from pcidr._library import Call, Values
    from pcidr._values import Address, AnyHost, AnyNetwork, Network, SpecialEntry

    S = TypeVar("S", bound="Shown")
    M = TypeVar("M", bound="_Mapped")
    A = TypeVar("A", bound="OfAddress")
    T = TypeVar("T")

    class _Has(Generic[T]):
        """An attribute of a type."""

        def __get__(self, shown: object, kind: object = None) -> T: ...


_new = object.__new__


def _attribute(how: str, call: str, about: str) -> Any:
    """An attribute: what a method makes of the value by a call of the library."""
    return property(lambda shown: getattr(shown, how)(getattr(calls, call)), doc=about)


_address_by: Callable[[str, str], _Has[Address]] = partial(_attribute, "_part")
_address_in: Callable[[str, str], _Has[Address | None]] = partial(_attribute, "_inner")
_string_by: Callable[[str, str], _Has[str]] = partial(_attribute, "_by")
_flag_by: Callable[[str, str], _Has[bool]] = partial(_attribute, "_is")


def _compared(holds: Callable[[int, int], bool]) -> Callable[[Any, Any], bool]:
    """A comparison, by the order that the library tells: below 1, 1 or above."""

    def compare(self: Any, other: Any) -> bool:
        if type(other) is not type(self):
            return NotImplemented
        return holds(type(self)._order(self._value, other._value), 1)

    return compare


class Shown:
    """A value of the library, which never changes."""

    __slots__ = ("_value", "__weakref__")
    _value: Value
    _read: ClassVar[Call]
    _print: ClassVar[Call]
    _order: ClassVar[Call]
    _whole: ClassVar[Call]
    _exploded: ClassVar[Call]

    def __init__(self, given: AnyHost) -> None:
        self._value = read(type(self)._read, given) if isinstance(given, str) else self._read_other(given)

    @classmethod
    def _read_other(cls, given: Any) -> Value:
        """The value of what is no string."""
        raise NotImplementedError

    if not TYPE_CHECKING:

        def __getattr__(self, name: str) -> Any:
            if name == "_value":
                raise ValueError("no __init__ has set the value")
            raise AttributeError(f"{type(self).__name__!r} object has no attribute {name!r}")

    @classmethod
    def _of(cls: type[S], value: Value) -> S:
        made = _new(cls)
        made._value = value
        return made

    def _become(self, value: Value) -> None:
        """Takes a value, before anybody has seen it."""
        self._value = value

    def __str__(self) -> str:
        return printed(type(self)._print, self._value)

    def __hash__(self) -> int:
        return hash(key_of(self._value))  # Python mixes a secret of the process into the hash of bytes

    def __eq__(self, other: object) -> bool:
        if isinstance(other, Shown) and type(other) is type(self):
            return key_of(self._value) == key_of(other._value)
        return NotImplemented

    __lt__, __le__, __gt__, __ge__ = map(_compared, (lt, le, gt, ge))

    def _part(self, call: Call) -> Address:
        """The address that a call makes of the value."""
        out = Value()
        check(call(self._value, out), self)
        return _address(out)

    def _by(self, call: Call) -> str:
        """The string that a call prints; `any` has some that are none."""
        shown = printed(call, self._value, MASK_ROOM)
        if not shown:
            raise ValueError("any has addresses of two families")
        return shown

    @property
    def compressed(self) -> str:
        """The string, with the prefix length of a network or a host also where that is full. `any` raises `ValueError`."""
        return self._by(type(self)._whole)

    @property
    def exploded(self) -> str:
        """The same with all digits of IPv6, eight groups of four."""
        return self._by(type(self)._exploded)

    @property
    def version(self) -> int | None:
        """4 or 6, or None for the network `any`."""
        tag = self._value.tag
        return None if tag == 255 else 4 if tag < 64 else 6

    @property
    def prefixlen(self) -> int | None:
        """The prefix length, or None for the network `any`."""
        tag = self._value.tag
        return None if tag == 255 else tag if tag < 64 else tag - 64

    @property
    def max_prefixlen(self) -> int | None:
        """The number of bits of an address: 32 or 128, or None for the network `any`."""
        tag = self._value.tag
        return None if tag == 255 else 32 if tag < 64 else 128

    def _is(self, call: Call) -> bool:
        """What a call says of an address or a network."""
        return call(self._value) == 1

    first = _address_by("first", """The first address of the network; `any`, which has addresses of two families, raises
        `ValueError`.""")
    last = _address_by("last", """The last address of the network, as `first` has the first one.""")
    netmask = _address_by("mask", """The mask of the network, as an address: 255.255.255.0 of a /24. `any` has none,
        and raises `ValueError`.""")
    hostmask = _address_by("host_mask", """The inverse of the mask, as an address: 0.0.0.255 of a /24. `any` has none,
        and raises `ValueError`.""")
    is_private = _flag_by("is_private", """Whether it is private: in 10.0.0.0/8, 172.16.0.0/12, 192.168.0.0/16 or fc00::/7.
        `ipaddress` calls private what is not globally reachable.""")
    is_loopback = _flag_by("is_loopback", """Whether it is in 127.0.0.0/8, or is ::1.""")
    is_link_local = _flag_by("is_link_local", """Whether it is in 169.254.0.0/16 or fe80::/10.""")
    is_multicast = _flag_by("is_multicast", """Whether it is in 224.0.0.0/4 or ff00::/8.""")
    is_unspecified = _flag_by("is_unspecified", """Whether it is 0.0.0.0 or ::.""")
    is_documentation = _flag_by("is_documentation", """Whether it is in a block for documentation, as 192.0.2.0/24 and
        2001:db8::/32 are.""")


class _Mapped(Shown):
    """What addresses and networks have alike."""

    __slots__ = ()

    @property
    def ipv6_mapped(self: M) -> M | None:
        """That of the IPv4-mapped addresses, as ``::ffff:192.0.2.1`` of ``192.0.2.1``; None of one of IPv6."""
        return sought(type(self)._of, calls.ipv6_mapped, self._value)

    @property
    def ipv4_mapped(self: M) -> M | None:
        """The inverse of `ipv6_mapped`; None of one that isn't in ::ffff:0:0/96."""
        return sought(type(self)._of, calls.ipv4_mapped, self._value)

    @property
    def reverse_pointer(self) -> str:
        """Its domain name in reverse DNS: ``1.2.0.192.in-addr.arpa``. A network whose prefix doesn't end at a label of
        such a name, 8 bits or 4 in IPv6, raises `ValueError`."""
        return _name(self, self._value)


class _Addressed(Shown):
    """What addresses and hosts have alike."""

    __slots__ = ()

    if TYPE_CHECKING:  # they have a family, and a prefix length

        @property
        def version(self) -> int: ...

        @property
        def prefixlen(self) -> int: ...

        @property
        def max_prefixlen(self) -> int: ...

    def __int__(self) -> int:
        return self._value.high << 64 | self._value.low

    @property
    def packed(self) -> bytes:
        """The bytes of the address, the highest first: 4 or 16."""
        return int(self).to_bytes(4 if self._value.tag < 64 else 16, "big")


class OfAddress(_Mapped, _Addressed):
    """What addresses have."""

    __slots__ = ()
    _read, _print, _order = calls.read_address, calls.print_address, calls.compare
    _whole, _exploded = calls.print_address, calls.print_exploded_address

    def __add__(self: A, count: int) -> A:
        return self._moved(index(count)) if isinstance(count, int) else NotImplemented

    def __sub__(self: A, count: int) -> A:
        return self._moved(-index(count)) if isinstance(count, int) else NotImplemented

    def _moved(self: A, count: int) -> A:
        """The address so many further in its family, by a step of the library in the network of all its addresses."""
        value, out = self._value, Value()
        step = calls.step_up if count >= 0 else calls.step_down
        high, low = divmod(abs(count), 1 << 64)
        code = step(Value(value.high, value.low, 0 if value.tag < 64 else 64), high % (1 << 64), low, out)
        check(Code.WRAPPED if high >> 64 else code, self, count)
        return type(self)._of(Value(out.high, out.low, value.tag))

    @property
    def special_entry(self) -> SpecialEntry | None:
        """The entry of the longest block for special purposes that it is in, or None."""
        out = Special()
        code = calls.special_entry(self._value, out)
        if code == Code.NONE:
            return None
        check(code, self)
        columns = out.source, out.destination, out.forwardable, out.globally_reachable, out.reserved_by_protocol
        tag = (0 if self._value.tag < 64 else 64) + out.len
        entry: SpecialEntry = _functions[2](out.high, out.low, tag, out.purpose, out.rfc, *columns)
        return entry

    def _inner(self, call: Call) -> Address | None:
        """The address that a call finds in it."""
        return sought(_address, call, self._value)

    is_global = _flag_by("is_global", """Whether it is globally reachable by the registries of IANA: where it is in none of
        their blocks, or in one that they say so of.""")
    sixtofour = _address_in("ipv4_6to4", """The IPv4 address of the site of a 6to4 address, of 2002::/16, or None.""")
    nat64 = _address_in("ipv4_nat64", """The IPv4 address in an address of translation (NAT64), of 64:ff9b::/96, or None.""")


class OfHost(_Addressed):
    """What hosts have."""

    __slots__ = ()
    _read, _print, _order = calls.read_host, calls.print_host, calls.compare_hosts
    _whole, _exploded = calls.print_host_with_length, calls.print_exploded_host

    ip = _address_by("address", """The address.""")

    @property
    def network(self) -> Network:
        """The network."""
        out = Value()
        check(calls.network(self._value, out))
        return _network(out)

    def _is(self, call: Call) -> bool:
        return call(self.ip._value) == 1

    @property
    def reverse_pointer(self) -> str:
        """The domain name of the address in reverse DNS: ``1.2.0.192.in-addr.arpa``."""
        return _name(self, self.ip._value)

    with_prefixlen = _string_by("print_host_with_length", """The string with its prefix length also where that is full:
        ``192.0.2.1/32``.""")
    with_netmask = _string_by("print_host_with_mask", """The string with the mask in place of the prefix length:
        ``192.0.2.1/255.255.255.0``.""")
    with_hostmask = _string_by("print_host_with_host_mask", """The string with the inverse of the mask in place of the prefix
        length: ``192.0.2.1/0.0.0.255``.""")


class OfNetwork(_Mapped):
    """What networks have."""

    __slots__ = ()
    _read, _print, _order = calls.read_network, calls.print_network, calls.compare
    _whole, _exploded = calls.print_host_with_length, calls.print_exploded_host

    def __contains__(self, inner: AnyNetwork) -> bool:
        return calls.contains(self._value, _functions[1](inner)) == 1

    def overlaps(self, other: AnyNetwork) -> bool:
        """Whether an address is in both."""
        return calls.overlaps(self._value, _functions[1](other)) == 1

    def _at(self, number: int) -> Address:
        """The address at an index, which counts from the end where it is below 0."""
        place, out = index(number), Value()
        place += self.num_addresses if place < 0 else 0
        if not 0 <= place < 1 << 128 or calls.nth(self._value, place >> 64, place % (1 << 64), out):
            raise IndexError(f"{self} has no address {number}")
        return _address(out)

    def __getitem__(self, number: int) -> Address:
        return self._at(number)

    @property
    def num_addresses(self) -> int:
        """The number of addresses."""
        return _counts[self._value.tag]

    network_address = _address_by("first", """The first address.""")
    broadcast_address = _address_by("last", """The last address, which is that of broadcasts in IPv4.""")
    _first_usable = _address_by("first_usable", """The first address that a host may have.""")
    _last_usable = _address_by("last_usable", """The last address that a host may have.""")

    def _beside(self, call: Call) -> Network:
        made = sought(_network, call, self._value)
        if made is None:
            raise ValueError(f"there is no such network beside {self}")
        return made

    def next(self) -> Network:
        """The network of the same length behind it; the last one raises `ValueError`."""
        return self._beside(calls.next_network)

    def previous(self) -> Network:
        """The network of the same length before it; the first one raises `ValueError`."""
        return self._beside(calls.previous_network)

    def sibling(self) -> Network:
        """The other half of the network that is twice as large; 0.0.0.0/0 and ::/0 raise `ValueError`."""
        return self._beside(calls.sibling)

    with_prefixlen = _string_by("print_network_with_length", """The string with its prefix length also where that is full:
        ``192.0.2.1/32``.""")
    with_netmask = _string_by("print_with_mask", """The string with the mask in place of the prefix length:
        ``192.0.2.0/255.255.255.0``.""")
    with_hostmask = _string_by("print_with_host_mask", """The string with the inverse of the mask in place of the prefix
        length: ``192.0.2.0/0.0.0.255``.""")


def _address(value: Value) -> Address:
    made: Address = _classes[0]._of(value)
    return made


def _network(value: Value) -> Network:
    made: Network = _classes[1]._of(value)
    return made


def _name(shown: Shown, value: Value) -> str:
    """The name in reverse DNS of a value, which is that of an object or a part of it."""
    name = printed(calls.print_reverse_name, value, NAME_ROOM)
    if not name:
        raise ValueError(f"{shown} has no name in reverse DNS")
    return name


# The classes of addresses and of networks; functions: `check`, the value of what stands for a network, and the entry of a
# registry; and by the tags the numbers of addresses.
_classes: list[Any] = []
_functions: list[Callable[..., Any]] = []
_counts: list[int] = []


def register(
    address: type[Shown],
    network: type[Shown],
    checked: Callable[..., Any],
    value_of: Callable[..., Any],
    entry_made: Callable[..., Any],
    counts: Sequence[int],
) -> None:
    """Takes the classes and functions of the module."""
    _classes[:], _functions[:], _counts[:] = (address, network), (checked, value_of, entry_made), counts


def values_of(shown: Sequence[Shown]) -> Values:
    """The values of many, in an array."""
    return array(each._value for each in shown)


def each_of(kind: type[S], values: Values, count: int | None = None) -> list[S]:
    """Many of a kind, by their values in an array, or by the first ones of it."""
    return [kind._of(Value(value.high, value.low, value.tag)) for value in values[:count]]
