"""What addresses, hosts and networks are made of: classes in C where they are there, else those of `_shown.py`."""
from __future__ import annotations

import os
import sys

TYPE_CHECKING = False
if TYPE_CHECKING:
    from typing import Any

__all__ = [
    "OF_FILE",
    "OF_ROWS",
    "OF_TABLE",
    "IS_FAST",
    "OfAddress",
    "OfHost",
    "OfNetwork",
    "Shown",
    "each_of",
    "finder",
    "register",
    "values_of",
]

# Of what a finder finds rows, as the extension numbers it.
OF_TABLE, OF_ROWS, OF_FILE = range(3)

# The extension is for Python 3.11 and later, and for one interpreter of a process. PCIDR_CTYPES leaves it aside.
IS_FAST = sys.version_info >= (3, 11) and not os.environ.get("PCIDR_CTYPES")
if not TYPE_CHECKING and IS_FAST:
    try:
        from pcidr import _fast
        from pcidr._library import PATH

        _fast.connect(PATH)
    except (ImportError, UnicodeError):  # Python 3.12 loads no extension out of a folder whose name is not UTF-8
        IS_FAST = False

if TYPE_CHECKING or not IS_FAST:
    from pcidr._shown import OfAddress, OfHost, OfNetwork, Shown, each_of, register, values_of

    # what looks up an address in C, which is left to the callers here
    finder: Any = None
else:
    from pcidr._calls import Value
    from pcidr._fast import OfAddress, OfHost, OfNetwork, Shown, finder

    def register(address, network, *others):
        """Takes the classes and functions of the module."""
        _fast.register(address, network, Value, *others)

    def values_of(shown):
        """The values of many, in an array."""
        out = (Value * len(shown))()
        _fast.put_values(shown, out)
        return out

    def each_of(kind, values, count=None):
        """Many of a kind, by their values in an array, or by the first ones of it."""
        return _fast.each_value(kind, values if count is None else memoryview(values).cast("B")[: 24 * count])
