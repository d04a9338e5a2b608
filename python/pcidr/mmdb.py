"""MaxMind DB files (.mmdb), by the names of the package `maxminddb`: the proved library reads them.

    from pcidr import mmdb

    with mmdb.open_database("GeoLite2-Country.mmdb") as reader:
        reader.get("192.0.2.1")

A value is what its JSON says: a map is a `dict`, an array a `list`, a number an `int` or a `float`. JSON has no bytes, and no number but a
decimal: bytes are a string of hexadecimal digits, and a double that is not 0 and below 2^-18 or from 2^64 on a string that
`float.fromhex` reads, or "Infinity", "-Infinity" or "NaN".
"""
from __future__ import annotations

import ctypes
import json
from ctypes import byref

from pcidr._calls import MMDB_BROKEN, MMDB_NOTHING, Code, Mmdb, MmdbRow, Value
from pcidr._files import begin_of, content_of
from pcidr._library import calls, check, message
from pcidr._values import Address, Network

TYPE_CHECKING = False
if TYPE_CHECKING:
    import mmap
    from collections.abc import Iterator
    from typing import Any

    from pcidr._files import Path
    from pcidr._library import Call
    from pcidr._values import AnyAddress, OfIpaddress

__all__ = ["InvalidDatabaseError", "Metadata", "Reader", "open_database"]

# So many bytes the text of a value has at the most, and so many are tried first.
LIMIT, ROOM = 1 << 24, 1 << 12


class InvalidDatabaseError(RuntimeError):
    """What is wrong with a file."""


class Metadata:
    """What a file says of itself, as `node_count`, `ip_version`, `database_type` and `build_epoch`: what its metadata have."""

    def __init__(self, **said: Any) -> None:
        self.__dict__.update(said)

    def __repr__(self) -> str:
        return f"Metadata({', '.join(f'{name}={value!r}' for name, value in self.__dict__.items())})"

    if TYPE_CHECKING:

        def __getattr__(self, name: str) -> Any: ...


class Reader:
    """A file that is open. Any number of threads may look up in it."""

    __slots__ = ("closed", "_width", "_opened")

    def __init__(self, database: Path | bytes, *, mapped: bool = False) -> None:
        """The file at a path, or `bytes` that are one. With ``mapped=True`` the file is mapped, as `Table.open` says."""
        content: bytes | mmap.mmap
        name, content = ("", database) if isinstance(database, bytes) else content_of(database, mapped)
        file, begin, size = Mmdb(), begin_of(content), len(content)
        code = calls.mmdb_open(begin, size, byref(file))
        if code:
            raise InvalidDatabaseError(f"{message(code)}: {name!r}" if name else message(code))
        self.closed, self._width = False, file.width
        # whoever calls holds it, with the bytes, so that another thread may close the file meanwhile
        self._opened: tuple[Any, ...] | None = (content, begin, size, byref(file))

    def get(self, ip_address: AnyAddress) -> Any:
        """The value that the file has for an address, or None."""
        return self.get_with_prefix_len(ip_address)[0]

    def get_with_prefix_len(self, ip_address: AnyAddress) -> tuple[Any, int]:
        """The same, and the prefix length of the network that the file has the address in."""
        asked, row = Address(ip_address)._value, MmdbRow()
        if asked.tag == 192 and self._width == 32:
            raise ValueError(f"an IPv6 address, and the file has IPv4 alone: {ip_address!r}")
        opened = self._open()
        check(calls.mmdb_lookup(*opened[1:], byref(asked), byref(row)))
        return _value(opened, row), row.network.tag & 63 if row.network.tag < 64 else row.network.tag - 64

    def __iter__(self) -> Iterator[tuple[OfIpaddress, Any]]:
        """Each network that the file has a value for, with the value, in order: IPv4 first."""
        row = MmdbRow(Value(0, 0, 255))
        while True:
            opened = self._open()
            if calls.mmdb_next(*opened[1:], byref(row)):
                return
            if row.found != MMDB_NOTHING:
                network = row.network
                yield Network._of(Value(network.high, network.low, network.tag)).to_ipaddress(), _value(opened, row)

    def metadata(self) -> Metadata:
        """What the file says of itself."""
        opened = self._open()
        return Metadata(**_text(calls.mmdb_metadata, *opened[1:]))

    def close(self) -> None:
        """Lets the bytes of the file go, once no thread reads them."""
        self.closed, self._opened = True, None

    def __enter__(self) -> Reader:
        self._open()
        return self

    def __exit__(self, *_: object) -> None:
        self.close()

    def _open(self) -> tuple[Any, ...]:
        """The bytes, where they begin, how many they are, and where their parts are."""
        opened = self._opened
        if opened is None:
            raise ValueError("the file is closed")
        return opened


def _value(opened: tuple[Any, ...], row: MmdbRow) -> Any:
    if row.found == MMDB_NOTHING:
        return None
    if row.found == MMDB_BROKEN:
        raise InvalidDatabaseError("the search tree is broken")
    return _text(calls.mmdb_json, *opened[1:], row.place)


def _text(call: Call, *given: object) -> Any:
    """What the text says that a call writes."""
    room, count = ROOM, ctypes.c_size_t()
    while True:
        out = (ctypes.c_char * room)()
        code = call(*given, LIMIT, out, room, byref(count))
        if code == Code.NO_MEMORY:
            check(code)
        if code == Code.OK:
            return json.loads(ctypes.string_at(out, count.value))
        if code != Code.NO_ROOM:
            raise InvalidDatabaseError(message(code))
        room = count.value


def open_database(database: Path | bytes, *, mapped: bool = False) -> Reader:
    """The file at a path, or `bytes` that are one."""
    return Reader(database, mapped=mapped)
