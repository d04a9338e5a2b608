"""IPv4 and IPv6 networks by the proved library `libpcidr`.

    >>> from pcidr import Address, Network, merge
    >>> Address("10.1.2.3") in Network("10.0.0.0/8")
    True
    >>> merge(["10.0.0.0/9", "10.128.0.0/9"])
    ['10.0.0.0/8']

What the library is given and returns is proved to be right; that this module passes it on is tested.
"""
from __future__ import annotations

from pcidr._values import Address, Host, Network, SpecialEntry, text_fault

TYPE_CHECKING = False
if TYPE_CHECKING:
    from pcidr._purposes import Purpose
    from pcidr._routes import Payloads, PrefixList, Validity
    from pcidr._sets import (
        MutableNetworkSet,
        NetworkSet,
        collapse_addresses,
        contains_each,
        deciding,
        merge,
        parse_networks,
        permits,
        permitted,
        print_networks,
        read_plan,
        shadowed,
        spanning_cidr,
        summarize_address_range,
    )
    from pcidr._tables import Matches, StoredTable, Table

__version__ = "0.4.0"

__all__ = [
    "Address",
    "Host",
    "Matches",
    "MutableNetworkSet",
    "Network",
    "NetworkSet",
    "Payloads",
    "PrefixList",
    "Purpose",
    "SpecialEntry",
    "StoredTable",
    "Table",
    "Validity",
    "collapse_addresses",
    "contains_each",
    "deciding",
    "merge",
    "parse_networks",
    "permits",
    "permitted",
    "print_networks",
    "read_plan",
    "shadowed",
    "spanning_cidr",
    "summarize_address_range",
    "text_fault",
]

# What else there is, by the module that has it, which is loaded when somebody asks for it.
_LATER = {
    **dict.fromkeys(("Matches", "StoredTable", "Table"), "_tables"),
    **dict.fromkeys(("Payloads", "PrefixList", "Validity"), "_routes"),
    "Purpose": "_purposes",
}


if not TYPE_CHECKING:

    def __getattr__(name):
        if name not in __all__:
            raise AttributeError(f"module {__name__!r} has no attribute {name!r}")
        module = __import__(f"pcidr.{_LATER.get(name, '_sets')}", fromlist=[name])
        found = globals()[name] = getattr(module, name)
        return found

    def __dir__():
        return sorted({*globals(), *__all__})
