"""Tables of networks with a value each."""
from __future__ import annotations

import ctypes
import os
import threading
from collections.abc import ItemsView, Mapping, MutableMapping, Sequence, ValuesView
from itertools import chain, compress
from operator import attrgetter, index as integer, is_

from pcidr._calls import NO_ROW, Row, Value
from pcidr._files import file_of, opened, restored, write
from pcidr._kinds import OF_TABLE, each_of, finder
from pcidr._library import ADDRESS_TAGS, Arrays, answers, array, calls, check, filled, tags_of
from pcidr._rows import ChangingRows, Rows
from pcidr._sets import listed, values_in
from pcidr._values import Network, network_value, renamed

TYPE_CHECKING = False
if TYPE_CHECKING:
    from collections.abc import Callable, Iterable, Iterator
    from typing import Any, TypeVar, Union, overload

    from pcidr._files import Part, Path, Stored
    from pcidr._library import Buffer, Values
    from pcidr._values import AnyNetwork

    V = TypeVar("V")
    D = TypeVar("D")
    R = TypeVar("R")
    Given = Union[Mapping[Any, V], Iterable[tuple[AnyNetwork, V]]]


class _Part:
    """The rows of one family in order, behind them the row of `any` or None, and the arrays of their networks."""

    __slots__ = ("rows", "arrays")

    def __init__(self, rows: tuple[tuple[Network, Any] | None, ...], arrays: Arrays) -> None:
        self.rows, self.arrays = rows, arrays


class _Snapshot:
    """The rows of a table as they were at a version, in order, their networks, and by the tags of addresses the rows of
    each family: made once, and never changed."""

    __slots__ = ("version", "rows", "networks", "parts", "find")

    def __init__(self, version: object, networks: Values, rows: list[tuple[Network, Any]]) -> None:
        self.version, self.rows, self.networks = version, rows, networks
        none = rows[0] if rows and rows[0][0].version is None else None
        self.parts = {tag: _part(family, networks, rows, none) for tag, family in ((32, 4), (192, 6))}
        # what looks up one address in C, where there is the extension
        parts = list(self.parts.values())
        arrays, rows, places = zip(*((part.arrays, part.rows, ctypes.addressof(part.arrays.table)) for part in parts))
        self.find = finder and finder(OF_TABLE, arrays, *rows, *places, 0)

    def lookup_each(self, asked: Values) -> list[tuple[Network, Any] | None]:
        """The longest matches of many."""
        tags = tags_of(asked)
        families = set(tags)
        if families <= self.parts.keys():
            found = [(self.parts[tag].rows, self.parts[tag].arrays.rows(asked)) for tag in sorted(families)]
            if len(found) == 2:
                (ipv4, ours), (ipv6, others) = found
                return [ipv4[a] if tag == 32 else ipv6[b] for tag, a, b in zip(tags, ours, others)]
            return list(chain.from_iterable(map(rows.__getitem__, places) for rows, places in found))
        room, out = answers("q", len(asked))  # networks, too
        check(calls.longest_match_each(self.networks, len(self.networks), asked, len(asked), room, len(asked)))
        # The index that stands for none is -1 with a sign: that of the last one here.
        return list(map([*self.rows, None].__getitem__, out))


def _part(family: int, networks: Values, rows: list[tuple[Network, Any]], none: tuple[Network, Any] | None) -> _Part:
    """The rows of a family, which are in the network of all of its addresses, and behind them one or None."""
    begin, end = ctypes.c_size_t(), ctypes.c_size_t()
    check(calls.rows_covered(networks, len(rows), _ALL[family], begin, end))
    first, size = begin.value, end.value - begin.value
    return _Part((*rows[first : end.value], none), Arrays(family, networks, first, size))


# Held by each change of a table, for a few assignments. It is one for all tables, so that a table has nothing in it
# that can't be copied. No code of the caller runs under it but a signal handler, or a finalizer that the collector
# calls: these may change tables too, and so its holder may take it again. A fork waits for it, so that no child is left
# with half of a change.
_changing = threading.RLock()
os.register_at_fork(before=_changing.acquire, after_in_parent=_changing.release, after_in_child=_changing.release)


_ABSENT: Any = object()
# The networks of all addresses.
_ALL = {4: network_value("0.0.0.0/0"), 6: network_value("::/0")}


class _Items(ItemsView[Network, "V"]):
    """The rows of a table, whatever they are when they are asked for."""

    __slots__ = ()
    _mapping: _Rows[V]

    def __iter__(self) -> Iterator[tuple[Network, V]]:
        return self._mapping._listed()


class _ValuesOfRows(ValuesView["V"]):
    """The values of a table, whatever they are when they are asked for."""

    __slots__ = ()
    _mapping: _Rows[V]

    def __iter__(self) -> Iterator[V]:
        return (value for _, value in self._mapping._listed())

    def __contains__(self, value: object) -> bool:
        return any(held is value or held == value for held in self)


class _Rows(Mapping[Network, "V"]):
    """What the tables have alike: their rows in order."""

    __slots__ = ()

    def _listed(self) -> Iterator[tuple[Network, V]]:
        raise NotImplementedError

    @property
    def _in_order(self) -> Rows:
        """The rows as they are asked one by one."""
        raise NotImplementedError

    def __getitem__(self, network: AnyNetwork) -> V:
        """The value of exactly this network; `lookup` has the longest match."""
        value = network_value(network)
        row: tuple[Network, V] | None = self._in_order.find(value)
        if row is None:
            raise _missing(value)
        return row[1]

    if TYPE_CHECKING:

        @overload
        def get(self, network: AnyNetwork, /) -> V | None: ...

        @overload
        def get(self, network: AnyNetwork, /, default: V | D) -> V | D: ...

    def get(self, network: AnyNetwork, /, default: Any = None) -> Any:
        """The value of exactly this network, or the default, also for a string that is no network."""
        row = self._row(network)
        return default if row is None else row[1]

    def __contains__(self, network: object) -> bool:
        """Whether there is a row of exactly this network. There is none of a string that is no network."""
        return self._row(network) is not None

    def _row(self, network: object) -> tuple[Network, V] | None:
        value = _value_or_none(network)
        row: tuple[Network, V] | None = None if value is None else self._in_order.find(value)
        return row

    def __iter__(self) -> Iterator[Network]:
        return (network for network, _ in self._listed())

    def values(self) -> ValuesView[V]:
        """The values, in the order of the networks."""
        return _ValuesOfRows(self)

    def items(self) -> ItemsView[Network, V]:
        """The rows, in the order of the networks."""
        return _Items(self)

    def covering(self, asked: AnyNetwork) -> list[tuple[Network, V]]:
        """All rows whose network the address, or network, is in, the longest first. They begin with the row of exactly
        this network, where there is one."""
        return self._in_order.covering(network_value(asked))

    def covered(self, asked: AnyNetwork) -> list[tuple[Network, V]]:
        """All rows whose network is in this one, ascending. They begin with the row of exactly this network, where
        there is one."""
        return self._in_order.covered(network_value(asked))

    def parent(self, network: AnyNetwork) -> tuple[Network, V] | None:
        """The row of the longest other network that this one is in, or None. The network needs no row."""
        value = network_value(network)
        own = Network._of(value)
        return next((row for row in self._in_order.covering(value)[:2] if row[0] != own), None)

    def children(self, network: AnyNetwork) -> list[tuple[Network, V]]:
        """The rows whose network is in this one and in none of the others in it, ascending: those whose `parent` it is.
        The network needs no row."""
        value = network_value(network)
        found: list[tuple[Network, V]] = []
        own = Network._of(value)
        for row in self._in_order.covered(value):
            if row[0] != own and not (found and row[0] in found[-1][0]):
                found.append(row)
        return found

    matches = renamed("matches", "covering")


class Matches(Sequence["tuple[Network, V] | None"]):
    """What `lookup_packed` finds: for each address the row of the longest network that it is in, or None.

    `places` has the rows' numbers, four bytes each, for arrays of numpy and the like: they count from 0 in the order of
    the family's rows, and all bits are set where the address is in none of these. A row is made into objects when it is
    asked for.
    """

    __slots__ = ("places", "_row_at")
    places: memoryview

    def __init__(self, row_at: Callable[[int], tuple[Network, V] | None], places: memoryview) -> None:
        self._row_at, self.places = row_at, places

    def __len__(self) -> int:
        return len(self.places)

    if TYPE_CHECKING:

        @overload
        def __getitem__(self, index: int) -> tuple[Network, V] | None: ...

        @overload
        def __getitem__(self, index: slice) -> Matches[V]: ...

    def __getitem__(self, index: Any) -> Any:
        if isinstance(index, slice):
            return Matches(self._row_at, self.places[index])
        return self._row_at(self.places[integer(index)])

    def __iter__(self) -> Iterator[tuple[Network, V] | None]:
        return map(self._row_at, self.places)

    def __eq__(self, other: object) -> bool:
        if not isinstance(other, (Matches, list)):
            return NotImplemented
        return len(self) == len(other) and all(one == another for one, another in zip(self, other))

    def __repr__(self) -> str:
        return f"<{type(self).__name__} of {len(self)} addresses>"


class Table(_Rows["V"], MutableMapping[Network, "V"]):
    """A table of networks with a value each: ``Table({"10.0.0.0/8": 1})``, a mapping that can be changed as a `dict`.

    Its rows stand in an array of the library, in order. `lookup` gives the longest network that an address, or a network, is
    in, with its value. `lookup_each` looks up many by one call of the library for each family, in a form that it makes first,
    of all rows; a `lookup` of an address makes it once there have been as many changes and look-ups as rows since it was made,
    and before that searches the array, as it always does for a network that is no address. A change moves the rows behind it.

    Any threads may look up in a table and change it at once, and an interrupt leaves it as it was before the change or
    after it. Each call sees all of a change or nothing of it. Look-ups and walks take no lock, but for the copy of the
    rows that is made for that form; a walk goes on with the rows that it began with. `update` is one change.
    """

    def __init__(self, rows: Given[V] = ()) -> None:
        self._fill(*_given(rows))

    def _fill(self, networks: Values, values: list[V]) -> None:
        """Takes rows, of which the last one of a network counts."""
        self._held = _ordered(networks, values)
        # Another object before each change, so that an interrupt behind it is no harm, and after it.
        self._version = object()
        self._snapshot: _Snapshot | None = None
        # About how many changes and look-ups in the array there have been since the other form was made. To take the rows was a
        # change for each.
        self._since = len(self._held.rows)

    @property
    def _in_order(self) -> Rows:
        return self._held

    def _now(self) -> _Snapshot:
        """The rows as they are."""
        made = self._snapshot
        if made is None or made.version is not self._version:
            with _changing:
                version, copied = self._version, self._held.copy()
            made = _Snapshot(version, *copied)
            self._snapshot, self._since = made, 0
        return made

    def _changed(self, change: Callable[..., R], *arguments: object) -> R:
        """Changes the rows by a call, and returns its result. Its caller holds the lock, and keeps what goes until the lock is
        free: values may have finalizers, and these may wait for another thread."""
        self._version = object()
        result = change(*arguments)
        self._version, self._snapshot = object(), None
        self._since += 1
        return result

    def _put(self, network: Value, value: V) -> None:
        row = Network._of(network), value
        with _changing:
            _kept = self._snapshot
            _gone = self._changed(self._held.put, network, row)

    def __getstate__(self) -> dict[str, Any]:
        state = {**vars(self), "_rows": _packed(*self._held.copy())}
        for derived in ("_held", "_version", "_snapshot", "_since"):
            del state[derived]
        return state

    def __setstate__(self, state: dict[str, Any]) -> None:
        others = dict(state)
        rows = others.pop("_rows")  # once they were pairs of a string and a value
        self._fill(*(_unpacked(*rows) if isinstance(rows, tuple) else _given(rows)))
        vars(self).update(others)

    def __repr__(self) -> str:
        return f"{type(self).__name__}({({str(network): value for network, value in self.items()})!r})"

    def __eq__(self, other: object) -> bool:
        if not isinstance(other, Table):
            return super().__eq__(other)
        return self._held.rows.copy() == other._held.rows.copy()

    @staticmethod
    def open(path: Path, *, check: bool = True, mapped: bool = False) -> StoredTable:
        """The table in a file that `save` or `netset compile` wrote, whose bytes are copied into memory: what becomes of
        the file is no matter then.

        A file that is none, also one that was cut short, raises `ValueError` with what is wrong first; so does one whose
        rows are wrong. With ``check=False`` only its header is looked at: a look-up in wrong rows gives some row or none,
        or raises `ValueError`, and reads nothing outside of the file. What is no regular file raises `OSError`.

        With ``mapped=True`` the file is mapped, so that processes share its memory and nothing is copied. Then nobody may
        write into it while it is open, and whoever cuts it short ends the process by SIGBUS, as ``cp new file`` does;
        `save` puts another one into its place, which is no harm.
        """
        return StoredTable(path, check=check, mapped=mapped)

    def save(self, path: Path) -> None:
        """Writes the rows into a file, which `open` opens in any process. It takes the place of the file that is there,
        once it is whole: an error leaves the old one. It gets the owner, the group and the permissions of that one. Where
        this process may not give the owner or the group, set-id bits go, and with the group its permissions. Links are
        followed as the system does. A process that is killed may leave a file named `.pcidr-` and 16 digits beside it.

        Values are `bytes`, or strings, which are written in UTF-8 and come back as `bytes`; another one raises
        `TypeError`, and a string that is not Unicode, or a row of `any`, `ValueError`.
        """
        networks, rows = self._held.copy()
        if rows and rows[0][0].version is None:
            raise ValueError("a file has no row of 'any': 0.0.0.0/0 and ::/0 are all addresses, too")
        write(path, file_of(networks, [_stored_value(*row) for row in rows]))

    def __setitem__(self, network: AnyNetwork, value: V) -> None:
        self._put(network_value(network), value)

    def update(self, rows: Any = (), /, **named: V) -> None:
        """Sets rows, given as to `Table`, by one change: of one row as an index makes it, and of more in one pass through all rows."""
        for networks, values in [_given(rows), _given(named)]:
            if len(values) == 1:
                self._put(networks[0], values[0])
            elif values:
                self._merge(_ordered(networks, values))

    def _merge(self, others: ChangingRows) -> None:
        with _changing:
            _kept = self._snapshot, self._held
            is_done = False
            while not is_done:  # where a handler of a signal, or a finalizer, makes a change meanwhile, all is done anew
                self._version = version = object()
                is_done = self._swap(version, self._held.with_others(others))
            self._version, self._snapshot = object(), None
            self._since += len(others.rows)

    def _swap(self, version: object, held: ChangingRows) -> bool:
        """Puts other rows in the place of these, if there has been no change since a version: by one expression in C, as in
        `_rows`."""
        unchanged = compress((self,), map(is_, (version,), map(attrgetter("_version"), (self,))))
        return next(map(setattr, unchanged, ("_held",), (held,)), self) is None

    def setdefault(self, network: AnyNetwork, default: Any = None, /) -> V:
        """The value of exactly this network, which becomes the default where there is none."""
        value = network_value(network)
        row: tuple[Network, V] | None = self._held.find(value)
        if row is None:
            with _changing:
                _kept = self._snapshot
                row = self._changed(self._held.add, value, (Network._of(value), default))
        return row[1]

    if TYPE_CHECKING:

        @overload
        def pop(self, network: AnyNetwork, /) -> V: ...

        @overload
        def pop(self, network: AnyNetwork, /, default: V | D) -> V | D: ...

    def pop(self, network: AnyNetwork, /, default: Any = _ABSENT) -> Any:
        """Deletes the row of exactly this network, and returns its value; where there is none, the default."""
        value = network_value(network) if default is _ABSENT else _value_or_none(network)
        with _changing:
            _kept = self._snapshot
            row = self._changed(self._held.remove, value) if value and self._held.find(value) else None
        if row is not None:
            return row[1]
        if default is _ABSENT:
            raise _missing(network_value(network))
        return default

    def __delitem__(self, network: AnyNetwork) -> None:
        self.pop(network)

    def popitem(self) -> tuple[Network, V]:
        """Deletes the row that was added last, and returns it. It goes once through all rows."""
        row: tuple[Network, V] | None = None
        with _changing:
            _kept = self._snapshot
            while row is None:
                try:
                    last = self._held.last_added()
                except IndexError:
                    raise KeyError("there is no row") from None
                row = self._changed(self._held.remove, last[0]._value)
        return row

    def clear(self) -> None:
        """Deletes all rows, by one change."""
        with _changing:
            _kept = self._snapshot, self._held
            self._changed(setattr, self, "_held", ChangingRows([], [], 0))

    def __len__(self) -> int:
        return len(self._held.rows)

    def _listed(self) -> Iterator[tuple[Network, V]]:
        return iter(self._held.rows.copy())

    def lookup(self, asked: AnyNetwork) -> tuple[Network, V] | None:
        """The longest network that the address is in, with its value, or None."""
        made, held = self._snapshot, self._held
        found: Any = NotImplemented
        if made is None or made.version is not self._version:
            made = None
            self._since += 1
        elif made.find:
            found = made.find.row(asked)
        is_searched = made is not None or self._since < len(held.rows)
        if found is NotImplemented and is_searched and held.find_row:
            found = held.find_row.row(asked)
        if found is NotImplemented:
            value = network_value(asked)
            if value.tag not in ADDRESS_TAGS or made is None and is_searched:
                found = held.longest(value)
            else:
                part = self._now().parts[value.tag]
                row = part.arrays.row(value)
                found = part.rows[-1 if row == NO_ROW else row]
        row_found: tuple[Network, V] | None = found
        return row_found

    def lookup_each(self, asked: Iterable[AnyNetwork]) -> list[tuple[Network, V] | None]:
        """The same as `lookup` for each of many, by one call of the library for each family."""
        values = values_in(asked)
        return self._now().lookup_each(values)

    def smallest(self) -> Table[V]:
        """A table of the fewest rows that forwards the same: each address has the same value in both, or none. Values that
        are equal are the same; one that can't be a key of a `dict` raises `TypeError`."""
        numbers: dict[V, int] = {}
        rows = self._numbered(numbers)
        found, values = filled(Row, len(rows), calls.smallest, rows, len(rows)), list(numbers)
        networks = each_of(Network, array(row.network for row in found))
        return Table(zip(networks, (values[row.value] for row in found)))

    def forwards_same(self, other: Table[V]) -> bool:
        """Whether each address has the same value in both, or none in both."""
        if not isinstance(other, Table):
            raise TypeError(f"no table: {other!r}")
        numbers: dict[V, int] = {}
        answer = ctypes.c_uint32()
        these, those = self._numbered(numbers), other._numbered(numbers)
        check(calls.forwards_same(these, len(these), those, len(those), answer))
        return answer.value == 1

    def _numbered(self, numbers: dict[Any, int]) -> ctypes.Array[Row]:
        """The rows with a number for each value, which those have that are not yet among the numbers, too."""
        networks, rows = self._held.copy()
        found = (numbers.setdefault(value, len(numbers)) for _, value in rows)
        return (Row * len(rows))(*map(Row, networks, found))

    def lookup_packed(self, addresses: Buffer, version: int = 4) -> Matches[V]:
        """The same of packed addresses of a family, 4 or 6, which are not copied: `bytes`, or a `bytearray`,
        `memoryview`, `array` or array of numpy, with the bytes of each address, the highest first; or with IPv4
        addresses as numbers of 4 bytes. Others raise `TypeError`, and bytes that are no whole addresses `ValueError`."""
        part = self._now().parts[32 if version == 4 else 192]
        return Matches(part.rows.__getitem__, part.arrays.packed_rows(addresses, version))


StoredRow = tuple[Network, bytes]


class _KeptRows(dict[int, "StoredRow | None"]):
    """Rows of one family in a file, which are made when they are first asked for, and None for NO_ROW. So many are kept."""

    __slots__ = ("part", "_is_checked", "_grows")
    MOST = 1 << 17

    def __init__(self, part: Part, is_checked: bool) -> None:
        self.part, self._is_checked, self._grows = part, is_checked, False

    def made(self, row: int) -> StoredRow:
        """A row, which is not kept."""
        network = self.part.network(row)
        if not self._is_checked and not calls.check(network):
            raise ValueError(f"row {row} of IPv{self.part.FAMILY} in the file has no network")
        return Network._of(network), self.part.value(row)

    def __missing__(self, row: int) -> StoredRow | None:
        made = None if row == NO_ROW else self.made(row)
        if len(self) >= self.MOST and not self._grows:
            self.clear()
        self[row] = made
        return made

    def of(self, rows: Iterable[int]) -> list[StoredRow | None]:
        """Those of many, which all stay until the last one is found, since the list has them anyway: each is made once."""
        self._grows = True
        try:
            return list(map(self.__getitem__, rows))
        finally:
            self._grows = False
            if len(self) > self.MOST:
                for row in list(self)[: -self.MOST]:
                    self.pop(row, None)


class _StoredRows:
    """The rows of both families by the order of their networks."""

    __slots__ = ("_ipv4", "_ipv6")

    def __init__(self, ipv4: _KeptRows, ipv6: _KeptRows) -> None:
        self._ipv4, self._ipv6 = ipv4, ipv6

    def __getitem__(self, place: Any) -> Any:
        if isinstance(place, slice):
            return list(map(self._made, range(place.start, place.stop)))
        behind = place - self._ipv4.part.rows
        return self._ipv4[place] if behind < 0 else self._ipv6[behind]

    def _made(self, place: int) -> StoredRow:
        """A row, which is not kept."""
        behind = place - self._ipv4.part.rows
        return self._ipv4.made(place) if behind < 0 else self._ipv6.made(behind)


class StoredTable(_Rows[bytes]):
    """The table in a file, by `Table.open`: a mapping of networks to bytes, which never changes. ``Table(stored)`` has the
    same rows, and can be changed.

    Its rows stay in the bytes of the file, of which each look-up reads some; of those that were found last, at most 131,072
    of a family are kept as objects. For networks that are no addresses it makes an array of all networks, of 24 bytes each,
    once. Any threads may look up in it, and a child after `fork`, too. It is pickled by its bytes, which are checked again if
    they were before, and a map lasts until it is no longer used.
    """

    __slots__ = ("_file", "_is_checked", "_kept", "_find", "_made", "__weakref__")
    _file: Stored
    _is_checked: bool
    _kept: Mapping[int, _KeptRows]  # by the tags of addresses

    def __init__(self, path: Path, *, check: bool = True, mapped: bool = False) -> None:
        self._fill(opened(path, check, mapped), check)

    def _fill(self, file: Stored, is_checked: bool) -> None:
        self._file, self._is_checked = file, is_checked
        self._kept = {tag: _KeptRows(part, is_checked) for tag, part in file.parts.items()}
        self._find = file.finder(*self._kept.values())
        self._made: Rows | None = None

    @property
    def _in_order(self) -> Rows:
        made = self._made
        if made is None:
            networks = self._file.networks()
            made = self._made = Rows(networks, len(networks), _StoredRows(*self._kept.values()))
        return made

    def __getstate__(self) -> tuple[bytes, bool]:
        return bytes(self._file.content), self._is_checked

    def __setstate__(self, state: tuple[bytes, bool]) -> None:
        content, is_checked = state
        self._fill(restored(content, is_checked), is_checked)

    def __repr__(self) -> str:
        return f"<{type(self).__name__} of {len(self)} rows>"

    def save(self, path: Path) -> None:
        """Writes the same file once more, as `Table.save` does."""
        write(path, self._file.content)

    def _listed(self) -> Iterator[StoredRow]:
        return (kept.made(row) for kept in self._kept.values() for row in range(kept.part.rows))

    def __len__(self) -> int:
        return sum(part.rows for part in self._file.parts.values())

    def lookup(self, asked: AnyNetwork) -> StoredRow | None:
        """The longest network that the address is in, with its value, or None."""
        found = self._find.row(asked) if self._find else NotImplemented
        if found is not NotImplemented:
            row: StoredRow | None = found
            return row
        value = network_value(asked)
        kept = self._kept.get(value.tag)
        return self._in_order.longest(value) if kept is None else kept[self._file.row(value)]

    def lookup_each(self, asked: Iterable[AnyNetwork]) -> list[StoredRow | None]:
        """The same as `lookup` for each of many, by one call of the library where all are addresses."""
        values = values_in(asked)
        tags = tags_of(values)
        families = set(tags)
        if not families <= ADDRESS_TAGS:
            return [self.lookup(Network._of(value)) for value in values]
        rows = self._file.rows(values)
        if len(families) == 1:
            return self._kept[tags[0]].of(rows)
        found = {tag: iter(kept.of(compress(rows, map(tag.__eq__, tags)))) for tag, kept in self._kept.items()}
        return [next(found[tag]) for tag in tags]

    def lookup_packed(self, addresses: Buffer, version: int = 4) -> Matches[bytes]:
        """The same of packed addresses of a family, 4 or 6, as `Table.lookup_packed` takes them."""
        kept = self._kept[32 if version == 4 else 192]
        return Matches(kept.__getitem__, self._file.packed_rows(addresses, version))


def _packed(networks: Values, rows: list[tuple[Network, Any]]) -> tuple[bytes, list[Any] | None, tuple[Any, ...]]:
    """Rows as the bytes of a file, which have the values where all are `bytes`, else these beside it, and the value of
    `any`, of which a file has no row."""
    begin = 1 if rows and rows[0][0].version is None else 0
    values = [value for _, value in rows[begin:]]
    is_whole = set(map(type, values)) <= {bytes} and sum(map(len, values)) < 1 << 32
    content = file_of(array(networks[begin:]) if begin else networks, values if is_whole else [b""] * len(values))
    return content, None if is_whole else values, tuple(value for _, value in rows[:begin])


def _unpacked(content: bytes, values: list[Any] | None, of_any: tuple[Any, ...]) -> tuple[Values, list[Any]]:
    """The same rows."""
    stored = restored(content, True)
    if values is None:
        values = [part.value(row) for part in stored.parts.values() for row in range(part.rows)]
    octets = bytes(network_value("any")) * len(of_any) + bytes(stored.networks())
    all_values = [*of_any, *values]
    if len(octets) != len(all_values) * ctypes.sizeof(Value):
        raise ValueError("other counts of networks and values")
    return (Value * len(all_values)).from_buffer_copy(octets), all_values


def _stored_value(network: Network, value: object) -> bytes:
    """What a file has of a value."""
    if isinstance(value, bytes):
        return value
    if not isinstance(value, str):
        raise TypeError(f"the value of {network} is neither bytes nor a string: {value!r}")
    try:
        return value.encode()
    except UnicodeEncodeError as error:
        raise ValueError(f"the value of {network} is not Unicode: {value!r}") from error


def _ordered(networks: Values, values: list[Any]) -> ChangingRows:
    """Rows in order, of which the last one of a network counts."""
    return ChangingRows.ordered(networks, [*zip(each_of(Network, networks), values)])


def _given(rows: Given[V]) -> tuple[Values, list[V]]:
    """The networks of rows, by one call where all are strings, and their values."""
    given = listed(rows.items() if hasattr(rows, "items") else rows)
    return values_in(network for network, _ in given), [value for _, value in given]


def _value_or_none(network: object) -> Value | None:
    """The value of a network, and None for a string that is none."""
    try:
        return network_value(network)
    except ValueError:
        return None


def _missing(network: Value) -> KeyError:
    return KeyError(str(Network._of(network)))
