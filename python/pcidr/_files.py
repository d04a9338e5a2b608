"""Files of look-up tables: how they are made, written and read."""
from __future__ import annotations

import ctypes
import errno
import mmap
import os
import stat
from array import array
from ctypes import byref
from itertools import accumulate

from pcidr._calls import Code, File, FileTable, Found, Value
from pcidr._kinds import OF_FILE, finder
from pcidr._library import PACKED, Unpacked, answers, calls, check, message

TYPE_CHECKING = False
if TYPE_CHECKING:
    from collections.abc import Callable, Iterable, Sequence
    from typing import Any, Union

    from pcidr._library import Buffer, Call, Values

    Path = Union[str, "os.PathLike[str]"]
NO_TAG = 63


class _Buffer(ctypes.Structure):
    """`Py_buffer` of Python."""

    _fields_ = [
        ("begin", ctypes.c_void_p),
        ("owner", ctypes.c_void_p),
        ("sizes", ctypes.c_ssize_t * 2),
        ("flags", ctypes.c_int * 2),
        ("others", ctypes.c_void_p * 5),
    ]


def begin_of(content: bytes | mmap.mmap) -> int:
    """Where bytes lie, for as long as they live, and a map is not closed. They are read-only, so that `ctypes` makes no
    array of them."""
    buffer = _Buffer()
    ctypes.pythonapi.PyObject_GetBuffer(ctypes.py_object(content), byref(buffer), 0)
    begin = buffer.begin or 0
    ctypes.pythonapi.PyBuffer_Release(byref(buffer))
    return begin


class Part:
    """The rows of IPv4 in a file."""

    __slots__ = ("rows", "_content", "_addresses", "_lengths", "_offsets", "_values")
    FAMILY, WIDTH, KIND = 4, 4, "I"
    # by the prefix lengths
    TAGS = bytes([*range(33), *[NO_TAG] * 223])

    def __init__(self, content: bytes | mmap.mmap, table: FileTable) -> None:
        def part(place: int, size: int) -> memoryview:
            return memoryview(content)[place : place + size]

        self.rows, self._content, self._values = table.rows, content, table.values
        self._addresses = part(table.addresses, self.WIDTH * self.rows).cast(self.KIND)
        self._lengths = part(table.lengths, self.rows)
        self._offsets = part(table.offsets, 4 * self.rows + 4).cast("I")

    def network(self, row: int) -> Value:
        """A row's network."""
        return Value(0, self._addresses[row], self.TAGS[self._lengths[row]])

    def value(self, row: int) -> bytes:
        """A row's value."""
        begin, offsets = self._values, self._offsets
        return self._content[begin + offsets[row] : begin + offsets[row + 1]]

    def put(self, words: memoryview, octets: memoryview) -> None:
        """Writes all networks, into the words and bytes of values."""
        words[1::3] = memoryview(array("Q", self._addresses))
        octets[16::24] = bytes(self._lengths).translate(self.TAGS)


class WidePart(Part):
    """Those of IPv6."""

    __slots__ = ()
    FAMILY, WIDTH, KIND = 6, 16, "Q"
    TAGS = bytes([*range(64, 193), *[NO_TAG] * 127])

    def network(self, row: int) -> Value:
        return Value(self._addresses[2 * row], self._addresses[2 * row + 1], self.TAGS[self._lengths[row]])

    def put(self, words: memoryview, octets: memoryview) -> None:
        words[0::3], words[1::3] = self._addresses[0::2], self._addresses[1::2]
        octets[16::24] = bytes(self._lengths).translate(self.TAGS)


class Stored:
    """The tables of a file, by its bytes, which never change; they may be a map, which nobody closes."""

    __slots__ = ("content", "parts", "find", "_lookup", "_has", "_opened", "_file")

    def __init__(self, content: bytes | mmap.mmap) -> None:
        self.content, self._file = content, File()
        begin, size = begin_of(content), len(content)
        check(calls.file_open(begin, size, byref(self._file)))
        self._opened: tuple[Any, int, Any] = (begin, size, self._file)
        self._lookup = calls.quick("file_lookup", self._opened)
        self._has = calls.quick("set_has", self._opened)
        self.find = self.finder((), ())
        # by the tags of addresses
        self.parts: dict[int, Part] = {32: Part(content, self._file.ipv4), 192: WidePart(content, self._file.ipv6)}

    def finder(self, ipv4: Any, ipv6: Any) -> Any:
        """What looks up one address in C, with what has the row of a number for each family; without it None."""
        place = ctypes.addressof(self._file)
        return finder and finder(OF_FILE, (self.content, self._file), ipv4, ipv6, self._opened[0], place, len(self.content))

    def check(self) -> None:
        """Raises the error of what is no table."""
        check(calls.file_check(*self._opened[:2]))

    def row(self, address: Value) -> int:
        """The row of the longest network that an address is in, in the part of its family, or NO_ROW."""
        found = Found()
        self._lookup(byref(address), byref(found))
        return found.row

    def rows(self, addresses: Values) -> Iterable[int]:
        """The same of many."""
        found = (Found * len(addresses))()
        check(calls.file_lookup_each(*self._opened, addresses, len(addresses), found, len(addresses)))
        return memoryview(found).cast("B").cast("I")[3::4] if len(addresses) else ()

    def packed_rows(self, addresses: Buffer, version: int) -> memoryview:
        """The same of packed addresses."""
        asked, begin = Unpacked(addresses, version), 0
        rows, found = memoryview(bytearray(4 * len(asked))).cast("I"), (Found * min(PACKED, len(asked)))()
        for values, count in asked:
            check(calls.file_lookup_each(*self._opened, values, count, found, count))
            rows[begin : begin + count] = memoryview(found).cast("B").cast("I")[3 : 4 * count : 4]
            begin += count
        return rows

    def has(self, address: Value) -> bool:
        """Whether an address is in one of the networks."""
        return self._has(byref(address)) == 1

    def has_each(self, addresses: Values, count: int) -> list[bool]:
        """The same of the first ones of many."""
        room, out = answers("?", count)
        check(calls.set_has_each(*self._opened, addresses, count, room, count))
        return list(out)

    def networks(self) -> Values:
        """All networks."""
        ipv4, ipv6 = self.parts.values()
        out = (Value * (ipv4.rows + ipv6.rows))()
        if len(out):
            octets, middle = memoryview(out).cast("B"), ipv4.rows * ctypes.sizeof(Value)
            for part, its in ((ipv4, octets[:middle]), (ipv6, octets[middle:])):
                part.put(its.cast("Q"), its)
        return out


def _made(call: Call, networks: Values, *others: object, more: int = 0) -> bytes:
    """The bytes that a call writes of networks, which ascend, and none is `any`."""
    room, count = 100 * len(networks) + more + 1024, ctypes.c_size_t()  # enough, as files are today
    while True:
        out = (ctypes.c_char * room)()
        code = call(networks, len(networks), *others, out, room, count)
        if code != Code.NO_ROOM:
            check(code)
            return ctypes.string_at(out, count.value)
        room = count.value


def file_of(networks: Values, values: Sequence[bytes]) -> bytes:
    """The bytes of a file of rows."""
    try:
        offsets = array("I", accumulate(map(len, values), initial=0))
    except OverflowError:
        raise ValueError(message(Code.VALUES)) from None
    held, places = b"".join(values), (ctypes.c_uint32 * len(offsets)).from_buffer(offsets)
    return _made(calls.file_write, networks, places, len(places), held, len(held), more=len(held))


def set_of(networks: Values) -> bytes:
    """The bytes of a file of a set."""
    return _made(calls.set_write, networks)


def restored(content: bytes, is_checked: bool) -> Stored:
    """The tables of bytes that may be any, as those of a pickle."""
    if type(content) is not bytes:
        raise TypeError(f"no bytes of a file: {type(content).__name__}")
    stored = Stored(content)
    if is_checked:
        stored.check()
    return stored


def content_of(path: Path, is_mapped: bool) -> tuple[str, bytes | mmap.mmap]:
    """The name of a file and its bytes, which are copied or mapped. What is no regular file may have no end, or nobody at its
    other one, and so it is not read."""
    name = os.fspath(path)  # a number would be a descriptor, which `open` closes
    with open(name, "rb", buffering=0, opener=lambda name, flags: os.open(name, flags | os.O_NONBLOCK)) as file:
        found = os.fstat(file.fileno())
        if not stat.S_ISREG(found.st_mode):
            raise OSError(errno.EINVAL, _NOT_REGULAR, name)
        if is_mapped and found.st_size:  # of no bytes there is no map
            return name, mmap.mmap(file.fileno(), 0, access=mmap.ACCESS_READ)
        return name, file.read()


def opened(path: Path, is_checked: bool, is_mapped: bool) -> Stored:
    """The tables of a file."""
    name, content = content_of(path, is_mapped)
    try:
        stored = Stored(content)
        if is_checked:
            stored.check()
    except ValueError as error:
        raise ValueError(f"{error}: {name!r}") from None
    return stored


_NOT_REGULAR = "not a regular file"


def _replaced(path: Path) -> tuple[str, os.stat_result | None]:
    """The name without links of the file that a path leads to, and what the system has of it, if it is there. The system
    follows the links, by its own rules for those in folders where anybody may make one. Where another file or link has
    come there meanwhile, the two differ, and it looks once more."""
    name = os.fsdecode(path)
    for _ in range(100):
        place = os.path.realpath(name)
        followed, old = _found(os.stat, name), _found(os.lstat, place)
        if followed and old and os.path.samestat(followed, old) or followed is old is None:
            return place, old
    raise OSError(errno.EBUSY, "other files are put there all the time", name)


def _found(look: Callable[[str], os.stat_result], name: str) -> os.stat_result | None:
    try:
        return look(name)
    except FileNotFoundError:
        return None


def _give_rights(descriptor: int, old: os.stat_result) -> None:
    """Gives a new file the owner, the group and the permissions of an old one. Where this process may not give the owner or
    the group, the set-id bits are for others than they were, and with the group so are its permissions: these go."""
    for owner in (old.st_uid, -1):
        try:
            os.fchown(descriptor, owner, old.st_gid)
            break
        except OSError:  # which of both it has is looked at below
            continue
    made, mode = os.fstat(descriptor), stat.S_IMODE(old.st_mode)
    if made.st_gid != old.st_gid:
        mode &= ~stat.S_IRWXG
    if (made.st_uid, made.st_gid) != (old.st_uid, old.st_gid):
        mode &= ~(stat.S_ISUID | stat.S_ISGID)
    os.fchmod(descriptor, mode)


def write(path: Path, content: bytes | mmap.mmap) -> None:
    """Writes a file beside its place, which nobody else can open or has made before, gives it the rights of the one that is
    there, and then renames it: whoever opens it meanwhile gets the old one, and so it stays after an error or an
    interrupt. Where there is none, it is as the system makes new files."""
    place, old = _replaced(path)
    if old and not stat.S_ISREG(old.st_mode):
        raise OSError(errno.EINVAL, _NOT_REGULAR, place)
    # a name of its own, since one that is longer than that of the file may be too long
    beside = os.path.join(os.path.dirname(place), f".pcidr-{os.urandom(8).hex()}")
    try:
        # "x" takes no name that is there, and follows no link
        with open(beside, "xb", opener=lambda name, flags: os.open(name, flags, 0o600 if old else 0o666)) as file:
            file.write(content)
            file.flush()
            if old:
                _give_rights(file.fileno(), old)  # once all is written, since to write takes set-id bits away
            os.fsync(file.fileno())
        os.replace(beside, place)
    except BaseException:
        try:
            os.unlink(beside)
        except OSError:
            pass
        raise
