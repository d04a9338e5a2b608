"""Rows in order: networks in memory of the library, and beside them what belongs to each."""
from __future__ import annotations

import ctypes
from array import array as pack
from ctypes import byref
from functools import partial
from itertools import count, islice, starmap
from operator import mul

from pcidr._calls import Value
from pcidr._kinds import OF_ROWS, finder
from pcidr._library import array, calls, filled, tags_of

TYPE_CHECKING = False
if TYPE_CHECKING:
    from collections.abc import Callable
    from typing import Any, TypeVar

    from pcidr._library import Buffer, Call, Values

    R = TypeVar("R")

_find, _longest, _insert, _remove = map(calls.quick, ("rows_find", "rows_longest", "rows_insert", "rows_remove"))
_covering, _covered, _add_lengths = map(calls.quick, ("rows_covering", "rows_covered", "rows_lengths"))
_SIZE = ctypes.sizeof(Value)
_tuple: Any = tuple  # of any type, which `map` gives away
_list: Any = list


def _words(memory: Any) -> memoryview:
    """Memory as numbers of 64 bits. A value is three, of which the last one has its tag in the lowest byte."""
    return memoryview(memory).cast("B").cast("Q")


# Where the calls write. What they write is read by the expression that has the call in it, and so by nobody else. Their errors are
# above 1, so that there is no place of that number.
_ENDS = (ctypes.c_size_t * 2)()
_end, _FIRST, _SECOND = _words(_ENDS).__getitem__, byref(_ENDS), byref(_ENDS, ctypes.sizeof(ctypes.c_size_t))
# Which lengths networks may have, of all that there are.
_ALL_LENGTHS = ctypes.c_size_t(130)
_Lengths = ctypes.c_uint8 * _ALL_LENGTHS.value
# A network is in so many at the most: `any`, and of IPv6 one of each prefix length.
_ROOM = (ctypes.c_size_t * 130)()
_places, _MOST = _words(_ROOM).__getitem__, ctypes.c_size_t(len(_ROOM))


def _at(act: Callable[..., R], call: Call, *arguments: object, given: tuple[Any, ...] = ()) -> R:
    """What an act at the index that a call finds returns, or `IndexError` where the call returns an error.

    Both are parts of one call of `next`, and are in C: between them no other code runs, be it of another thread, of a handler of
    a signal or of a finalizer. So is each of the other long expressions here."""
    return next(map(act, map(_end, starmap(call, [(*arguments, _FIRST)])), *given))


class Rows:
    """Networks that ascend, in an array, and what has the rows by the same indexes. The library finds all; what it finds and the row
    at it are of one moment, also where the rows change."""

    __slots__ = ("rows", "_networks", "_count", "_lengths")

    def __init__(self, networks: Values, size: int, rows: Any) -> None:
        """Of so many of the networks."""
        self.rows, self._networks, self._count, self._lengths = rows, networks, ctypes.c_size_t(size), _Lengths()
        _add_lengths(networks, self._count, self._lengths, _ALL_LENGTHS)

    def find(self, network: Value) -> Any:
        """The row of exactly this network, or None."""
        return self._one(_find, self._networks, self._count, byref(network))

    def longest(self, network: Value) -> Any:
        """The row of the longest network that this one is in, or None."""
        return self._one(_longest, self._networks, self._count, self._lengths, _ALL_LENGTHS, byref(network))

    def _one(self, call: Call, *arguments: object) -> Any:
        try:
            return _at(self.rows.__getitem__, call, *arguments)
        except IndexError:
            return None

    def covering(self, network: Value) -> list[Any]:
        """The rows of all networks that this one is in, the longest first."""
        given = self._networks, self._count, byref(network), _ROOM, _MOST, _FIRST
        found = map(_tuple, map(_places, map(slice, map(_end, starmap(_covering, [given])))))
        rows: list[Any] = next(map(_list, map(partial(map, self.rows.__getitem__), found)))
        return rows[::-1]

    def covered(self, network: Value) -> list[Any]:
        """The rows of all networks in this one, ascending."""
        given = self._networks, self._count, byref(network), _FIRST, _SECOND
        found = map(slice, map(_end, starmap(_covered, [given])), map(_end, (1,)))
        rows: list[Any] = next(map(self.rows.__getitem__, found))
        return rows


def _order(networks: Values) -> list[int]:
    """The indexes of networks, ascending, each once; of one that repeats that of the last one."""
    return filled(ctypes.c_size_t, len(networks), calls.table_order, networks, len(networks))[:]


class ChangingRows(Rows):
    """The same of rows in a list, which change, with room for more networks. Behind its tag each network has the number of its row, by
    the order in which they were added."""

    __slots__ = ("find_row", "_room", "_counted", "_added")
    rows: list[Any]

    def __init__(self, parts: list[Buffer], rows: list[Any], added: int) -> None:
        """Of the networks that ascend, as parts of bytes, with their numbers, which are below another one."""
        octets = b"".join(parts)
        size = len(octets) // _SIZE
        room = (Value * max(8, size))()
        ctypes.memmove(room, octets, len(octets))
        super().__init__(room, size, rows)
        self._room, self._counted, self._added = ctypes.c_size_t(len(room)), byref(self._count), count(added)
        # what looks up one network in C, where there is the extension
        held = self._count, self._lengths
        self.find_row: Any = finder and finder(OF_ROWS, room, rows, held, *map(ctypes.addressof, held), _ALL_LENGTHS.value)

    @classmethod
    def ordered(cls, networks: Values, rows: list[Any]) -> ChangingRows:
        """Those of rows in any order, of which the last one of a network counts; its number is that of the first one."""
        order = first = _order(networks)
        if len(order) < len(rows):
            first = [len(rows) - 1 - place for place in _order(array(networks[::-1]))]
        words = pack("Q", bytes(_SIZE * len(order)))
        if order:
            given, tags = _words(networks), tags_of(networks)
            for half in range(2):
                words[half::3] = pack("Q", map(given[half::3].__getitem__, order))
            words[2::3] = pack("Q", [tags[place] | number << 8 for place, number in zip(order, first)])
        return cls([words.tobytes()], [*map(rows.__getitem__, order)], len(rows))

    def with_others(self, others: ChangingRows) -> ChangingRows:
        """All rows, with others that come behind them or take the places of those of the same networks, made anew in one pass. Where
        these rows change meanwhile, what is made is of no use."""
        size, index, rows = ctypes.c_size_t(self._count.value), ctypes.c_size_t(), self.rows
        if not size.value:
            return others
        octets, added = ctypes.string_at(self._networks, _SIZE * size.value), next(self._added)
        parts: list[Buffer] = []
        whole, made, begin, end = memoryview(octets), rows[:0], 0, 0
        for network, row in zip(others.copy()[0], others.rows):
            is_new = _find(octets, size, byref(network), byref(index))
            made += rows[begin : index.value]
            made.append(row)
            begin = index.value
            if is_new:
                _words(network)[2] += added << 8
                parts += whole[_SIZE * end : _SIZE * begin], bytes(network)
                end = begin
            else:
                begin += 1
        made += rows[begin:]
        return ChangingRows([*parts, whole[_SIZE * end :]], made, added + next(others._added))

    def add(self, network: Value, row: Any) -> Any:
        """Puts a row in, if there is none of its network, and returns the one that is there then."""
        _words(network)[2] = network.tag | next(self._added) << 8
        while True:
            found = self.find(network)
            if found is not None:
                return found
            try:
                _at(self.rows.insert, _insert, *self._all(network, self._lengths, _ALL_LENGTHS), given=((row,),))
                return row
            except IndexError:  # there is no room, or another one has come
                if self._count.value == self._room.value:
                    next(map(ctypes.resize, (self._networks,), map(mul, map(ctypes.sizeof, (self._networks,)), (2,))))
                    self._room.value = ctypes.sizeof(self._networks) // _SIZE

    def put(self, network: Value, row: Any) -> Any:
        """Puts a row in, in place of that of its network, which is returned."""
        while True:
            found = self.add(network, row)
            if found is row:
                return None
            try:
                _at(self.rows.__setitem__, _find, self._networks, self._count, byref(network), given=((row,),))
                return found
            except IndexError:  # it has gone
                pass

    def remove(self, network: Value) -> Any:
        """Takes the row of exactly this network out, and returns it, or None."""
        try:
            return _at(self.rows.pop, _remove, *self._all(network))
        except IndexError:
            return None

    def _all(self, network: Value, *lengths: object) -> tuple[Any, ...]:
        return self._networks, self._room, *lengths, self._counted, byref(network)

    def _moment(self) -> tuple[bytes, list[Any]]:
        """The bytes of the networks and the rows of one moment."""
        octets, rows = next(zip(map(bytes, (self._networks,)), map(_list, (self.rows,))))
        return octets[: _SIZE * len(rows)], rows

    def copy(self) -> tuple[Values, list[Any]]:
        """The networks and the rows of one moment."""
        octets, rows = self._moment()
        return (Value * len(rows)).from_buffer_copy(octets), rows

    def last_added(self) -> Any:
        """The row that was added last, or `IndexError`. It goes once through all."""
        networks, rows = self.copy()
        numbers = _words(networks)[2::3].tolist() if rows else [0]
        return rows[numbers.index(max(numbers))]
