"""Origins of routes, and prefix lists."""
from __future__ import annotations

from enum import IntEnum
from operator import index as integer

from pcidr import _calls
from pcidr._calls import Payload, PrefixRow, Value
from pcidr._library import calls
from pcidr._sets import listed, values_in
from pcidr._values import network_value

TYPE_CHECKING = False
if TYPE_CHECKING:
    import ctypes
    from collections.abc import Iterable
    from typing import Union

    from pcidr._values import AnyNetwork

    Length = Union[int, None]
    AnyRow = Union[tuple[AnyNetwork, bool], tuple[AnyNetwork, bool, Length], tuple[AnyNetwork, bool, Length, Length]]

# Where a route has no AS of its own.
NO_ORIGIN = 1 << 32


class Validity(IntEnum):
    """What payloads say of a route (RFC 6811, 2), where `INVALID_LENGTH` and `INVALID_ORIGIN` are both "Invalid"."""

    __module__ = "pcidr"
    VALID = _calls.VALID
    INVALID_LENGTH = _calls.INVALID_LENGTH
    INVALID_ORIGIN = _calls.INVALID_ORIGIN
    NOT_FOUND = _calls.NOT_FOUND


def _number(given: int, end: int) -> int:
    """A number from 0 to before the end: a field of a struct would cut it off."""
    number = integer(given)
    if not 0 <= number < end:
        raise ValueError(f"{given!r} is not from 0 to {end - 1}")
    return number


class Payloads:
    """Validated ROA payloads: triples of a network, the greatest prefix length that may be announced, and the number of the AS.

    >>> payloads = Payloads([("192.0.2.0/24", 24, 64496)])
    >>> payloads.validity("192.0.2.0/24", 64496).name, payloads.validity("192.0.2.0/25", 64496).name
    ('VALID', 'INVALID_LENGTH')
    """

    __module__ = "pcidr"
    __slots__ = ("_payloads",)
    _payloads: ctypes.Array[Payload]

    def __init__(self, payloads: Iterable[tuple[AnyNetwork, int, int]]) -> None:
        given = listed(payloads)
        networks = values_in([network for network, _, _ in given])
        numbers = ((_number(origin, 1 << 32), _number(length, 129)) for _, length, origin in given)
        self._payloads = (Payload * len(given))(*(Payload(network, *pair) for network, pair in zip(networks, numbers)))

    def __len__(self) -> int:
        return len(self._payloads)

    def validity(self, route: AnyNetwork, origin: int | None) -> Validity:
        """What they say of a route and the AS that it comes from, `None` where that is not one AS. It goes through all payloads."""
        number = NO_ORIGIN if origin is None else _number(origin, 1 << 32)
        return Validity(calls.validity(self._payloads, len(self._payloads), network_value(route), number))


def _row(network: Value, row: AnyRow) -> PrefixRow:
    """A row, whose lengths are those that Cisco's words mean where they are left out."""
    _, is_permitted, *lengths = row
    low, high = (*lengths, None, None)[:2]
    if network.tag == 255:
        raise ValueError("a row of a prefix list is about networks of one family")
    length, full = (network.tag, 32) if network.tag < 64 else (network.tag - 64, 128)
    least = length if low is None else _number(low, full + 1)
    most = _number(high, full + 1) if high is not None else length if low is None else full
    return PrefixRow(network, 1 if integer(is_permitted) else 0, least, most)


class PrefixList:
    """Rows of a prefix list: a network, whether it permits, and perhaps the lengths behind `ge` and `le`, or `None`. The first row that is
    about a network decides.

    >>> ours = PrefixList([("10.1.0.0/16", False, None, 32), ("10.0.0.0/8", True, 16)])
    >>> ours.permits("10.2.0.0/16"), ours.permits("10.1.0.0/16"), ours.permits("10.0.0.0/8")
    (True, False, False)
    """

    __module__ = "pcidr"
    __slots__ = ("_rows",)
    _rows: ctypes.Array[PrefixRow]

    def __init__(self, rows: Iterable[AnyRow]) -> None:
        given = listed(rows)
        networks = values_in([row[0] for row in given])
        self._rows = (PrefixRow * len(given))(*map(_row, networks, given))

    def __len__(self) -> int:
        return len(self._rows)

    def permits(self, network: AnyNetwork) -> bool:
        """Whether the list permits a network."""
        return calls.list_permits(self._rows, len(self._rows), network_value(network)) == 1
