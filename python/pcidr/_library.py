"""The shared library: where it is found, and its calls."""
from __future__ import annotations

import ctypes
import os
import struct
from array import array as pack
from ctypes import byref
from functools import cache, partial

from pcidr._calls import (
    HOST_BITS_CLEARED,
    HOST_BITS_CLEARED_WITH_MASKS,
    HOST_BITS_REFUSED,
    HOST_BITS_REFUSED_WITH_MASKS,
    LINE_ROOM,
    MESSAGE_ROOM,
    TEXT_ROOM,
    Code,
    PlanRow,
    Range,
    Row,
    Table,
    TableSizes,
    Value,
    signatures,
)

# The version of the library that the module wants.
VERSION = (0, 4)
# The tags of addresses.
ADDRESS_TAGS = {32, 192}
# So many packed addresses are looked up at a time, whose values stay in the nearer caches.
PACKED = 1 << 13

# The halves of a network's first address and its tag, as bytes. A `dict` mixes a secret of the process into the hash of bytes,
# and none into that of numbers.
Key = bytes
_key_at = struct.Struct(">QQB").pack

# Modules for types alone are loaded by those who check them: with them, to import this one takes twice as long.
TYPE_CHECKING = False
if TYPE_CHECKING:
    from collections.abc import Callable, Iterable, Iterator, Sequence
    from typing import Any, TypeVar

    K = TypeVar("K")
    T = TypeVar("T", ctypes.c_size_t, PlanRow, Range, Row, Value)
    Call = Callable[..., int]
    # What has packed addresses: whatever `memoryview` takes.
    Buffer = Any
    Values = ctypes.Array[Value]

# those that most strings have, as arguments
SIZES = [ctypes.c_size_t.from_param(size) for size in range(TEXT_ROOM)]


def _find() -> str:
    """The file of the library: PCIDR_LIBRARY, else the one beside this file, else what the system finds."""
    named = os.environ.get("PCIDR_LIBRARY")
    if named:
        return named
    beside = os.path.join(os.path.dirname(os.path.abspath(__file__)), "libpcidr.so")
    if os.path.exists(beside):
        return beside
    from ctypes.util import find_library  # which loads much

    found = find_library("pcidr")
    if found:
        return found
    raise ImportError("there is no libpcidr.so: build it by crates/cidr_c/build, and set PCIDR_LIBRARY to it")


def _check_version(version: int) -> None:
    major, minor = version >> 16, version >> 8 & 255
    if (major, minor) != VERSION:
        raise ImportError(f"libpcidr.so is of version {major}.{minor}, and this module wants {VERSION[0]}.{VERSION[1]}")


PATH = _find()
_known = cache(signatures)


class _Loaded:
    """The calls of the library, named as those of the header but without the `pcidr_`: each is made when it is first asked
    for."""

    _QUICK = {"read_address", "read_host", "read_network", "read_reverse_name"}

    def __init__(self) -> None:
        self._free, self._locked = ctypes.CDLL(PATH), ctypes.PyDLL(PATH)
        _check_version(self._free.pcidr_version())

    def __getattr__(self, name: str) -> Call:
        call: Any
        if name in self._QUICK:
            call = self.quick(name)
        else:
            by_value = f"{name}_by_value"
            call, call.argtypes = self._call(self._free, by_value if by_value in _known() else name)
        setattr(self, name, call)
        found: Call = call
        return found

    def _call(self, library: ctypes.CDLL, name: str) -> tuple[Any, list[Any]]:
        """A call, another object at each time, and its parameters."""
        result, *parameters = _known()[name]
        try:
            call = library[f"pcidr_{name}"]
        except AttributeError as error:
            raise ImportError(f"{PATH} lacks a call of this module: {error}") from None
        call.restype = result
        return call, parameters

    def quick(self, name: str, arguments: Sequence[Any] = ()) -> Call:
        """A call that ends so soon that Python's lock is kept, and whose first arguments are given once and for all: to give
        the lock away, or to turn an argument into C's, takes longer. The other arguments have to be C's already."""
        call, parameters = self._call(self._locked, name)
        given = [kind.from_param(argument) for kind, argument in zip(parameters, arguments)]
        made: Call = partial(call, *given) if given else call
        return made


calls = _Loaded()


def message(code: int) -> str:
    """The library's message of an error."""
    room = ctypes.create_string_buffer(MESSAGE_ROOM)
    count = calls.message(code, room, MESSAGE_ROOM)
    return room.raw[:count].decode()


def check(code: int, *given: object) -> None:
    """Raises the exception of an error, which names what was given."""
    if code == Code.NO_MEMORY:
        raise MemoryError(message(code))
    if code:
        raise ValueError(": ".join([message(code), *map(repr, given)]))


def encoded(text: str) -> bytes:
    """A string in UTF-8. Half of a pair, which UTF-8 does not have, is passed on for the library to refuse."""
    if not isinstance(text, str):
        raise TypeError(f"no string: {text!r}")
    return str.encode(text, "utf-8", "surrogatepass")


def read(call: Call, text: str) -> Value:
    """The value of a string."""
    given = encoded(text)
    size, value = len(given), Value()
    code = call(given, SIZES[size] if size < TEXT_ROOM else ctypes.c_size_t(size), byref(value))
    if code:
        check(code, text)
    return value


def sought(made: Callable[[Value], K], call: Call, *given: object) -> K | None:
    """What is made of the value that a call finds, or None where it says that there is none."""
    out = Value()
    code = call(*given, out)
    if code == Code.NONE:
        return None
    check(code)
    return made(out)


def tried(call: Call, text: str) -> tuple[int, Value]:
    """What a call says of a string, and its value."""
    given, value = encoded(text), Value()
    return call(given, len(given), value), value


def printed(call: Call, value: object, most: int = TEXT_ROOM) -> str:
    """The string of a value, which is empty where it has none, with room for so many bytes."""
    room = ctypes.create_string_buffer(most)
    count = call(value, room, most)
    return room.raw[:count].decode()


def array(values: Iterable[Value]) -> Values:
    """An array of values."""
    listed = list(values)
    return (Value * len(listed))(*listed)


def key_of(value: Value) -> Key:
    """The key of a value."""
    return _key_at(value.high, value.low, value.tag)


def answers(kind: str, count: int) -> tuple[ctypes.Array[ctypes.c_char], Iterable[Any]]:
    """A room for numbers, one of each asked value, and what is in it once a call has written them: their kind is that of
    the module `struct`."""
    room = (ctypes.c_char * (count * struct.calcsize(kind)))()
    return room, memoryview(room).cast("B").cast(kind) if count else ()


class Arrays:
    """The look-up table of networks of one family, in arrays that never change once they are made."""

    __slots__ = ("table", "_row", "_each", "_kept")

    def __init__(self, family: int, networks: Values, first: int, count: int) -> None:
        """The table of those from `first` on, so many, which ascend."""
        at = ctypes.addressof(networks) + first * ctypes.sizeof(Value)
        build = partial(getattr(calls, f"ipv{family}_table_build"), at, count)
        sizes = TableSizes()
        # without room the call tells how much is enough
        if (code := build(None, 0, None, 0, sizes)) != Code.NO_ROOM:
            check(code)
        entries, words = (ctypes.c_uint32 * sizes.first)(), (ctypes.c_uint32 * sizes.words)()
        arrays = [ctypes.addressof(entries), len(entries), ctypes.addressof(words), len(words)]
        check(build(*arrays, sizes))
        self.table = Table(*arrays, sizes.steps, count, family)
        self._row = calls.quick(f"ipv{family}_table_lookup", [*arrays, byref(self.table)])
        self._each = partial(getattr(calls, f"ipv{family}_table_lookup_each"), *arrays, byref(self.table))
        self._kept = entries, words  # which the calls have by their addresses

    def row(self, address: Value) -> int:
        """The row of the longest network that an address is in, or NO_ROW."""
        return self._row(byref(address))

    def rows(self, asked: Values) -> Iterable[int]:
        """The same of many, by one call, with -1 for none."""
        room, out = answers("i", len(asked))
        check(self._each(asked, len(asked), room, len(asked)))
        return out

    def packed_rows(self, addresses: Buffer, version: int) -> memoryview:
        """The same of packed addresses."""
        asked = Unpacked(addresses, version)
        room = (ctypes.c_int32 * len(asked))()
        place, end = ctypes.addressof(room), ctypes.addressof(room) + ctypes.sizeof(room)
        for values, count in asked:
            check(self._each(values, count, place, (end - place) // 4))
            place += 4 * count
        return memoryview(room).cast("B").cast("i") if len(asked) else memoryview(b"").cast("i")


class Unpacked:
    """Packed addresses of a family as values. They are bytes, the highest first, or in IPv4 also numbers as this
    processor has them, in any memory that lies in one piece: `bytes`, an `array`, a `memoryview` or an array of numpy.
    It is not copied as a whole."""

    __slots__ = ("_octets", "_width", "_is_number")

    def __init__(self, addresses: Buffer, version: int) -> None:
        width = {4: 4, 6: 16}.get(version)
        if width is None:
            raise ValueError(f"no family of addresses: {version}")
        given = memoryview(addresses)
        order, kind = given.format[:-1], given.format[-1:]
        is_number = kind in "IL" and given.itemsize == 4 == width
        if not is_number and not (kind in "Bbcs" and given.itemsize in (1, width)):
            raise TypeError(f"no packed addresses of IPv{version}: items of the format {given.format!r}")
        # a view without items in more than one dimension can't be cast
        self._octets, self._width = given.cast("B") if given.nbytes else memoryview(b""), width
        self._is_number = is_number and order not in (">", "!")
        size = len(self._octets)
        if size % width:
            raise ValueError(f"packed addresses of IPv{version} have {width} bytes each: {size} bytes in all")

    def __len__(self) -> int:
        return len(self._octets) // self._width

    def __iter__(self) -> Iterator[tuple[Values, int]]:
        """Some at a time: an array, which is always the same one, and how many of it."""
        width = self._width
        values = (Value * max(1, min(PACKED, len(self))))()
        out = memoryview(values).cast("B")
        out[16::24] = bytes([32 if width == 4 else 192]) * len(values)
        for begin in range(0, len(self._octets), width * PACKED):
            part = self._octets[begin : begin + width * PACKED]
            count = len(part) // width
            if width == 4:
                out.cast("I")[2 : 6 * count : 6] = self._numbers(part, "I")
            else:
                halves, words = self._numbers(part, "Q"), out.cast("Q")
                words[0 : 3 * count : 3], words[1 : 3 * count : 3] = halves[0::2], halves[1::2]
            yield values, count

    def _numbers(self, part: memoryview, kind: str) -> memoryview:
        """Some of the bytes as numbers that this processor has: each item is copied once, not byte by byte."""
        if self._is_number:
            return part.cast(kind)
        numbers = pack(kind)
        numbers.frombytes(part)
        numbers.byteswap()
        return memoryview(numbers)


def tags_of(values: Values) -> bytes:
    """The tags of values."""
    field: Any = Value.tag
    return bytes(values)[field.offset :: ctypes.sizeof(Value)]


def read_all(texts: Sequence[str]) -> Values:
    """The networks of a list of strings, by one call."""
    out = (Value * len(texts))()
    if not texts:
        return out
    given = encoded("\n".join(texts))
    code = calls.read_lines(given, len(given), out, len(texts), ctypes.c_size_t())
    if code:
        for text in texts:  # the first one that is no network, or has a line feed in it
            read(calls.read_network, text)
    check(code)
    return out


def print_all(values: Values, count: int) -> list[str]:
    """The strings of the first networks of an array, by one call."""
    if not count:
        return []
    room = ctypes.create_string_buffer(count * TEXT_ROOM)
    end = ctypes.c_size_t()
    check(calls.print_lines(values, count, room, len(room), end))
    return ctypes.string_at(room, end.value - 1).decode().split("\n")


def cover(values: Values) -> int:
    """Replaces networks by the shortest list of the same addresses, and returns how many these are."""
    count = ctypes.c_size_t()
    check(calls.cover(values, len(values), count))
    return count.value


def filled(kind: type[T], room: int, call: Call, *given: object) -> ctypes.Array[T]:
    """The array that a call writes, which says how many elements it has where there is too little room."""
    count = ctypes.c_size_t()
    while True:
        out = (kind * room)()
        code = call(*given, out, room, count)
        if code != Code.NO_ROOM:
            check(code)
            return (kind * count.value).from_buffer_copy(out)
        room = count.value


def bytes_in(text: str | Buffer) -> bytes:
    """The bytes of a text."""
    return encoded(text) if isinstance(text, str) else bytes(memoryview(text))


def way_of(strict: bool, masks: bool) -> int:
    """How networks of a list are read."""
    if masks:
        return HOST_BITS_REFUSED_WITH_MASKS if strict else HOST_BITS_CLEARED_WITH_MASKS
    return HOST_BITS_REFUSED if strict else HOST_BITS_CLEARED


def read_list(text: str | Buffer, strict: bool, masks: bool) -> Values:
    """The networks that a list says; the first line in error raises `ValueError`."""
    given, host_bits = bytes_in(text), way_of(strict, masks)
    line, told = ctypes.c_uint64(), ctypes.create_string_buffer(LINE_ROOM)

    def call(out: Any, room: int, count: Any) -> int:
        code = calls.read_list(given, len(given), host_bits, out, room, count, line, told, LINE_ROOM)
        if line.value:
            raise ValueError(f"line {line.value}: {told.value.decode()}")
        return code

    return filled(Value, given.count(b"\n") + 1, call)


def combined(call: Call, these: Values, those: Values) -> Values:
    """The set that a call makes of two sets."""
    return filled(Value, len(these) + len(those), call, these, len(these), those, len(those))
