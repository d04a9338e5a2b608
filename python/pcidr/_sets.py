"""Lists and sets of networks."""
from __future__ import annotations

import ctypes
from itertools import chain
from operator import index as integer

from pcidr._calls import LINE_ROOM, Code, Halves, PlanFault, PlanRow, Range, Rule, Value
from pcidr._files import Stored, opened, restored, set_of, write
from pcidr._kinds import each_of, values_of
from pcidr._library import (
    ADDRESS_TAGS,
    Unpacked,
    answers,
    array,
    bytes_in,
    calls,
    check,
    combined,
    cover,
    filled,
    print_all,
    read_all,
    read_list,
    sought,
    tags_of,
    way_of,
)
from pcidr._values import LOW, Address, Network, network_value, renamed, theirs

TYPE_CHECKING = False
if TYPE_CHECKING:
    from collections.abc import Callable, Iterable, Iterator
    from typing import TypeVar, Union

    from pcidr._files import Path
    from pcidr._library import Buffer, Call, Values
    from pcidr._values import AnyAddress, AnyNetwork

    V = TypeVar("V")
    S = TypeVar("S", bound="NetworkSet")
    M = TypeVar("M", bound="MutableNetworkSet")
    AnySet = Union["NetworkSet", Iterable[AnyNetwork]]


def listed(given: Iterable[V]) -> list[V]:
    """A list of an iterable, but not of the characters of a string or the addresses of a network, which stand where a
    list of them is meant."""
    if isinstance(given, (str, Network, *theirs("Address", "Network"))):
        raise TypeError(f"a list of networks is wanted, not one: {given!r}")
    return list(given)


def values_in(given: Iterable[AnyNetwork]) -> Values:
    """The networks of an iterable, by one call where all are strings."""
    networks = listed(given)
    try:
        return read_all(networks)  # type: ignore[arg-type]
    except TypeError:  # not all are strings
        if set(map(type, networks)) <= {Address, Network}:
            return values_of(networks)  # type: ignore[arg-type]
        return array(map(network_value, networks))


def parse_networks(texts: Iterable[AnyNetwork]) -> list[Network]:
    """The networks of strings, by one call of the library; the first that is none raises `ValueError`."""
    return each_of(Network, values_in(texts))


def read_plan(
    text: str | Buffer, *, strict: bool = True, masks: bool = False
) -> tuple[list[tuple[Network, str, int]], list[tuple[int, str]]]:
    """The rows of an address plan, a string or bytes: a line has a network, an address or a range, as of
    `NetworkSet.from_text`, and behind white space or a comma a name, which goes on to the comment. Of each row its network, its name
    and the number of its line; of a range each network of the shortest list has a row. And of each line in error its number and what
    is wrong with it. A name that is not UTF-8 has U+FFFD for what is not."""
    given, way, told = bytes_in(text), way_of(strict, masks), ctypes.create_string_buffer(LINE_ROOM)
    lines, wrong = given.count(b"\n") + 1, ctypes.c_size_t()
    faults = (PlanFault * lines)()

    def call(*rows: object) -> int:
        return calls.read_plan(given, len(given), way, *rows, faults, lines, wrong)

    rows = filled(PlanRow, lines, call)
    names = (given[row.name : row.name + row.name_len].decode(errors="replace") for row in rows)
    bad = []
    for fault in faults[: wrong.value]:
        calls.plan_message(given[fault.text : fault.text + fault.text_len], fault.text_len, way, told, LINE_ROOM)
        bad.append((fault.line, told.value.decode()))
    networks = each_of(Network, array(row.network for row in rows))
    return [*zip(networks, names, (row.line for row in rows))], bad


def print_networks(networks: Iterable[Network | Address]) -> list[str]:
    """The strings of networks, by one call of the library."""
    given = listed(networks)
    for network in given:
        if not isinstance(network, (Address, Network)):
            raise TypeError(f"no network or address: {network!r}")
    return print_all(values_of(given), len(given))


def collapse_addresses(networks: Iterable[AnyNetwork]) -> list[Network]:
    """The shortest list of networks with the same addresses, ascending. All addresses of both families are `any`."""
    return each_of(Network, _covered(values_in(networks)))


def summarize_address_range(first: AnyAddress, last: AnyAddress) -> list[Network]:
    """The shortest list of networks that has the addresses from the first to the last one, ascending. Addresses of two
    families, or a last one before the first one, raise `ValueError`."""
    begin, end = Address(first), Address(last)
    if begin.version != end.version or end < begin:
        raise ValueError(f"no range of addresses: {begin} to {end}")
    return each_of(Network, filled(Value, 128, calls.summarize, begin._value, end._value))


def spanning_cidr(networks: Iterable[AnyNetwork]) -> Network:
    """The longest network that has all of some networks; where they are of both families it is `any`. None at all raise
    `ValueError`."""
    values = values_in(networks)
    if not len(values):
        raise ValueError("there are no networks to span")
    span = values[0]
    for value in values:
        out = Value()
        check(calls.spanning(span, value, out))
        span = out
    return Network._of(span)


def permitted(rules: Iterable[tuple[AnyNetwork, bool]]) -> NetworkSet:
    """The set of the addresses that an access list permits: pairs of a network and whether it is permitted. For an
    address the first rule counts whose network it is in; one that is in none is denied. What is neither a `bool` nor an
    integer, as a string is, raises `TypeError`."""
    given = _rules(rules)
    return NetworkSet._of(filled(Value, 2 * len(given) + 8, calls.permitted, given, len(given)), None)


def permits(rules: Iterable[tuple[AnyNetwork, bool]], address: AnyAddress) -> bool:
    """Whether an access list permits an address. Of many addresses `permitted` says it at once."""
    given = _rules(rules)
    return calls.permits(given, len(given), Address(address)._value) == 1


def shadowed(rules: Iterable[tuple[AnyNetwork, bool]]) -> list[int]:
    """The indexes of the rules of an access list that no address reaches, since earlier ones have all of theirs."""
    return _places(calls.shadowed, rules)


def deciding(rules: Iterable[tuple[AnyNetwork, bool]], network: AnyNetwork) -> list[int]:
    """The indexes of the rules of an access list that decide the addresses of a network, each the first one for some of
    them. Of the network of a shadowed rule they are the earlier ones that have all of its addresses."""
    return _places(calls.deciding, rules, network_value(network))


def _places(call: Call, rules: Iterable[tuple[AnyNetwork, bool]], *asked: Value) -> list[int]:
    """The indexes of rules that a call finds."""
    given = _rules(rules)
    return list(map(int, filled(ctypes.c_size_t, len(given), call, given, len(given), *asked)))


def _rules(rules: Iterable[tuple[AnyNetwork, bool]]) -> ctypes.Array[Rule]:
    pairs = listed(rules)
    networks = values_in([network for network, _ in pairs])
    actions = (1 if integer(is_permitted) else 0 for _, is_permitted in pairs)  # "deny" is not true
    return (Rule * len(pairs))(*map(Rule, networks, actions))


def merge(networks: Iterable[AnyNetwork]) -> list[str]:
    """The shortest list of networks with the same addresses, ascending, as strings. All addresses are two networks."""
    values = values_in(networks)
    return _set_strings(values, cover(values))


def _set_strings(values: Values, count: int) -> list[str]:
    """The strings of a set: `any`, which others do not read, is written as the networks of all addresses of each family."""
    texts = print_all(values, count)
    return ["0.0.0.0/0", "::/0"] if texts == ["any"] else texts


def contains_each(networks: Iterable[AnyNetwork], asked: Iterable[AnyNetwork]) -> list[bool]:
    """For each asked address or network, whether the networks together have it. These are sorted at each call."""
    return _contained(values_in(networks), values_in(asked))


def _contained(networks: Values, asked: Values) -> list[bool]:
    room, out = answers("?", len(asked))
    check(calls.contains_each(networks, len(networks), asked, len(asked), room, len(asked)))
    return list(out)


def _covered(values: Values) -> Values:
    """The shortest list of networks with their addresses."""
    count = cover(values)
    return (Value * count).from_buffer_copy(values)


class NetworkSet:
    """A set of addresses, of both families, that never changes: `|`, `&`, `-` and `^`, and the methods with the names
    of those of `frozenset`, make others. `MutableNetworkSet` is one that can be changed.

    It is kept as the shortest list of networks with its addresses. `len` and iteration are of these, and `size` is the
    number of addresses. The first address that is looked up makes arrays for look-ups, as `Table` has them, in the time
    that the set took. `save` writes them into a file, which `open` opens.
    """

    __slots__ = ("_list", "_file", "__weakref__")
    _list: Values | None
    _file: Stored | None

    def __init__(self, networks: Iterable[AnyNetwork] = ()) -> None:
        self._fill(_covered(values_in(networks)), None)

    def _fill(self, values: Values | None, file: Stored | None) -> None:
        self._list, self._file = values, file

    @classmethod
    def _of(cls: type[S], values: Values | None, file: Stored | None) -> S:
        made = cls.__new__(cls)
        made._fill(values, file)
        return made

    def _with(self: S, call: Call, other: object) -> S:
        """The set that a call makes of this one and another."""
        if not isinstance(other, NetworkSet):
            return NotImplemented
        return self._of(combined(call, self._values, other._values), None)

    @classmethod
    def from_text(cls: type[S], text: str | Buffer, *, strict: bool = True, masks: bool = False) -> S:
        """The set of the addresses that a list says, a string or bytes, as `netset` reads it: a network, an address or a
        range such as ``192.0.2.0-192.0.2.9`` a line, with white space around it and a comment behind it from ``#`` or
        ``;`` on. A bit set after a prefix is an error, and with ``strict=False`` taken as unset. With ``masks=True`` a
        network may also have a network mask or a host mask, behind a slash or white space, as ``192.0.2.0 0.0.0.255``; what
        could be either, as 0.0.0.0, is a network mask. The first line in error raises `ValueError`, with its number and
        what is wrong."""
        return cls._of(_covered(read_list(text, strict, masks)), None)

    @classmethod
    def open(cls: type[S], path: Path, *, check: bool = True, mapped: bool = False) -> S:
        """The set of the addresses in the networks of a file, by `save`, `Table.save` or `netset compile`, which is
        opened as `Table.open` says."""
        return cls._of(None, opened(path, check, mapped))

    def save(self, path: Path) -> None:
        """Writes the set into a file, as `Table.save` does."""
        write(path, self._stored.content)

    def __getstate__(self) -> bytes:
        return bytes(self._stored.content)

    def __setstate__(self, content: bytes) -> None:
        self._fill(None, restored(content, True))

    @property
    def _values(self) -> Values:
        """The networks, which are read from the file when they are first asked for."""
        if self._list is None:
            assert self._file
            self._list = _covered(self._file.networks())
        return self._list

    @property
    def _still(self) -> NetworkSet:
        """The set as it is now, which doesn't change."""
        return self

    @property
    def _ready(self) -> Stored | None:
        """The tables of its file, where they are made."""
        return self._file

    @property
    def _stored(self) -> Stored:
        """The tables of its file, which are made when they are first asked for."""
        if self._file is None:
            values = self._values  # `any`, which is alone, is two networks in a file
            self._file = Stored(set_of(read_all(_set_strings(values, 1)) if len(values) == 1 else values))
        return self._file

    def __or__(self: S, other: NetworkSet) -> S:
        return self._with(calls.union, other)

    def __and__(self: S, other: NetworkSet) -> S:
        return self._with(calls.intersection, other)

    def __sub__(self: S, other: NetworkSet) -> S:
        return self._with(calls.difference, other)

    def __xor__(self: S, other: NetworkSet) -> S:
        return self._with(calls.symmetric_difference, other)

    def union(self: S, *others: AnySet) -> S:
        """The set of the addresses that this one or one of the others has: sets, or lists of networks."""
        return self._with_each(calls.union, others)

    def intersection(self: S, *others: AnySet) -> S:
        """The set of the addresses that this one and all others have."""
        return self._with_each(calls.intersection, others)

    def difference(self: S, *others: AnySet) -> S:
        """The set of the addresses that this one has and none of the others."""
        return self._with_each(calls.difference, others)

    def symmetric_difference(self: S, other: AnySet) -> S:
        """The set of the addresses that exactly one of both has."""
        return self._with_each(calls.symmetric_difference, (other,))

    def _with_each(self: S, call: Call, others: Iterable[AnySet]) -> S:
        made = self.copy()
        for other in others:
            made = made._with(call, _set_of(other))
        return made

    def copy(self: S) -> S:
        """Another set of the same addresses."""
        return self._of(self._values, None)

    def __contains__(self, asked: AnyNetwork) -> bool:
        """Whether the set has all addresses of a network: whether that is in one of its own."""
        ready = self._ready
        found = ready.find.has(asked) if ready and ready.find else NotImplemented
        if found is not NotImplemented:
            return bool(found)
        value = network_value(asked)
        if value.tag in ADDRESS_TAGS:
            return self._stored.has(value)
        held = self._values
        return calls.rows_longest(held, len(held), None, 0, value, ctypes.c_size_t()) == Code.OK

    def isdisjoint(self, other: AnySet) -> bool:
        """Whether no address is in both."""
        return _answered(calls.is_disjoint, self, _set_of(other))

    def issubset(self, other: AnySet) -> bool:
        """Whether the other has all of its addresses."""
        return _answered(calls.is_subset, self, _set_of(other))

    def issuperset(self, other: AnySet) -> bool:
        """Whether it has all addresses of the other."""
        return _set_of(other).issubset(self)

    def complement(self: S, within: AnyNetwork = "any") -> S:
        """The set of all other addresses, of both families, as by `~`, or of those in a network."""
        values, outer = self._values, network_value(within)
        return self._of(filled(Value, len(values) + 128, calls.complement, values, len(values), outer), None)

    def ranges(self) -> list[tuple[Address, Address]]:
        """The addresses as ranges, each from its first to its last one, ascending, with an address between two of them.
        A range is of one family."""
        values = self._values
        made = filled(Range, 2 * len(values), calls.ranges, values, len(values))
        ends = each_of(Address, (Value * (2 * len(made))).from_buffer(made)) if len(made) else []
        return list(chain.from_iterable(map(_of_one_family, ends[0::2], ends[1::2])))

    def nth(self, index: int, version: int = 4) -> Address:
        """The address at an index of those of a family, counted from 0, ascending; from the last one on for an index below
        0. One that isn't there raises `IndexError`."""
        place = integer(index)
        if place < 0:
            place += self._size_of(version)
        values, call = self._values, {4: calls.nth_ipv4, 6: calls.nth_ipv6}.get(version)
        if call is None:
            raise ValueError(f"no family of addresses: {version}")
        made = sought(Address._of, call, values, len(values), place >> 64, place & LOW) if 0 <= place < 1 << 128 else None
        if made is None:
            raise IndexError(f"the set has no IPv{version} address {index}")
        return made

    def _size_of(self, version: int) -> int:
        """The number of addresses of a family."""
        values, number = self._values, Halves()
        code = (calls.count_ipv4 if version == 4 else calls.count_ipv6)(values, len(values), number)
        if code == Code.NONE:
            return 1 << 128
        check(code)
        return number.high << 64 | number.low

    def first_free(self, prefixlen: int) -> Network | None:
        """The first network of a prefix length that the set has, as a pool of free addresses; IPv4 comes before IPv6."""
        return self._free(calls.first_free, prefixlen)

    def best_free(self, prefixlen: int) -> Network | None:
        """The same in the smallest of its networks that has room, so that larger ones stay whole: the one with the fewest
        addresses, IPv4 first among equals."""
        return self._free(calls.best_free, prefixlen)

    def _free(self, call: Call, prefixlen: int) -> Network | None:
        length = integer(prefixlen)
        if not 0 <= length <= 128:
            raise ValueError(f"no prefix length: {prefixlen}")
        values = self._values
        return sought(Network._of, call, values, len(values), length)

    def __invert__(self: S) -> S:
        return self.complement()

    def contains_each(self, asked: Iterable[AnyNetwork]) -> list[bool]:
        """For each asked address or network, whether the set has it, by one call of the library."""
        values = values_in(asked)
        if set(tags_of(values)) <= ADDRESS_TAGS:
            return self._stored.has_each(values, len(values))
        return _contained(self._values, values)

    def contains_packed(self, addresses: Buffer, version: int = 4) -> list[bool]:
        """The same of packed addresses of a family, 4 or 6, as `Table.lookup_packed` takes them."""
        stored = self._stored
        return list(chain.from_iterable(stored.has_each(*some) for some in Unpacked(addresses, version)))

    def __le__(self, other: NetworkSet) -> bool:
        return self.issubset(other) if isinstance(other, NetworkSet) else NotImplemented

    def __ge__(self, other: NetworkSet) -> bool:
        return other.__le__(self) if isinstance(other, NetworkSet) else NotImplemented

    def __lt__(self, other: NetworkSet) -> bool:
        if not isinstance(other, NetworkSet):
            return NotImplemented
        these, those = self._still, other._still  # for both of the comparisons
        return these != those and these <= those

    def __gt__(self, other: NetworkSet) -> bool:
        return other.__lt__(self) if isinstance(other, NetworkSet) else NotImplemented

    def __eq__(self, other: object) -> bool:
        if not isinstance(other, NetworkSet):
            return NotImplemented
        return list(self) == list(other)

    def __hash__(self) -> int:
        return hash(tuple(self))

    def __len__(self) -> int:
        return len(self._values)

    def __iter__(self) -> Iterator[Network]:
        return iter(each_of(Network, self._values))

    @property
    def size(self) -> int:
        """The number of addresses, of both families."""
        still = self._still
        return still._size_of(4) + still._size_of(6)

    count = renamed("count", "size")

    def to_strings(self) -> list[str]:
        """The networks as strings, by one call of the library; all addresses are ``0.0.0.0/0`` and ``::/0``."""
        values = self._values
        return _set_strings(values, len(values))

    def __repr__(self) -> str:
        return f"{type(self).__name__}({self.to_strings()!r})"


def _of_one_family(first: Address, last: Address) -> list[tuple[Address, Address]]:
    """A range, or its two parts where it goes from the last address of IPv4 on to the first of IPv6."""
    if first.version == last.version:
        return [(first, last)]
    return [(first, Address("255.255.255.255")), (Address("::"), last)]


def _answered(call: Call, these: NetworkSet, those: NetworkSet) -> bool:
    """What a call says of two sets."""
    one, other, answer = these._values, those._values, ctypes.c_uint32()
    check(call(one, len(one), other, len(other), answer))
    return answer.value == 1


def _set_of(other: AnySet) -> NetworkSet:
    return other if isinstance(other, NetworkSet) else NetworkSet(other)


class _State:
    """The addresses of a set that changes, at a time, and what they become: nothing yet, or the state in the `dict`."""

    __slots__ = ("held", "later")

    def __init__(self, held: NetworkSet) -> None:
        self.held, self.later = held, dict[None, "_State"]()


class MutableNetworkSet(NetworkSet):
    """A set of addresses that can be changed, by `add`, `remove`, `update` and the like, and by `|=`, `&=`, `-=`, `^=`.

    Each change makes the list of networks anew, in the time that it takes to sort it: pass many to one `update`. Any
    threads may look up in it and change it at once, and an interrupt leaves it as it was before the change or after
    it. It is no key of a `dict`; ``NetworkSet(changing)`` has the same addresses and stays.
    """

    __slots__ = ("_state",)
    _state: _State
    __hash__ = None  # type: ignore[assignment]

    def _fill(self, values: Values | None, file: Stored | None) -> None:
        self._state = _State(NetworkSet._of(values, file))

    def _last(self) -> _State:
        """The state that nothing has come after."""
        state = self._state
        while state.later:
            state = state.later[None]
        self._state = state  # perhaps an older one than another thread has put there, which leads to that
        return state

    @property
    def _values(self) -> Values:
        return self._last().held._values

    @property
    def _still(self) -> NetworkSet:
        return self._last().held

    @property
    def _ready(self) -> Stored | None:
        return self._last().held._file

    @property
    def _stored(self) -> Stored:
        return self._last().held._stored

    def _become(self, change: Callable[[NetworkSet], NetworkSet]) -> NetworkSet:
        """Puts another set into the place of this one, which it returns. Of the changes that begin with one state, by
        threads and signal handlers, the first is made by `setdefault`, and the others begin anew."""
        while True:
            state = self._last()
            made = _State(change(state.held))
            if state.later.setdefault(None, made) is made:
                return state.held

    def _change(self: M, call: Call, other: AnySet) -> M:
        those = _set_of(other)
        self._become(lambda held: held._with(call, those))
        return self

    def add(self, network: AnyNetwork) -> None:
        """Adds the addresses of a network."""
        self._change(calls.union, [network])

    def remove(self, network: AnyNetwork) -> None:
        """Removes the addresses of a network, also where not all of them are there."""
        self._change(calls.difference, [network])

    def update(self, *others: AnySet) -> None:
        """Adds the addresses of sets, or of lists of networks, by one change."""
        given = list(map(_set_of, others))
        self._become(lambda held: held.union(*given))

    def clear(self) -> None:
        """Removes all addresses."""
        self._change(calls.intersection, ())

    def pop(self) -> Network:
        """Removes its first network, and returns it; an empty set raises `KeyError`."""
        held = self._become(lambda held: held - NetworkSet(list(held)[:1]))
        if not held:
            raise KeyError("the set is empty")
        return next(iter(held))

    def __ior__(self: M, other: NetworkSet) -> M:
        return self._change(calls.union, other) if isinstance(other, NetworkSet) else NotImplemented

    def __iand__(self: M, other: NetworkSet) -> M:
        return self._change(calls.intersection, other) if isinstance(other, NetworkSet) else NotImplemented

    def __isub__(self: M, other: NetworkSet) -> M:
        return self._change(calls.difference, other) if isinstance(other, NetworkSet) else NotImplemented

    def __ixor__(self: M, other: NetworkSet) -> M:
        return self._change(calls.symmetric_difference, other) if isinstance(other, NetworkSet) else NotImplemented
