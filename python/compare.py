#!/usr/bin/env python3
"""compare.py: compares the tables of calls in README.md with the modules that they are of, as far as this Python has
them, and with the module `pcidr`. Prints what differs, and which modules are not there."""
from __future__ import annotations

import importlib
import re
import sys
from collections.abc import Iterator
from pathlib import Path
from typing import Any, NamedTuple

import pcidr

PAGE = Path(__file__).resolve().parent / "README.md"
CODE = re.compile(r"`((?:[^`|]|\\\|)+)`")


class Row(NamedTuple):
    """A row: the calls of the other module, those of this one, and why there may be none."""

    there: list[str]
    here: list[str]
    why: str


def tables(page: str) -> Iterator[tuple[str, list[Row]]]:
    """The tables of the section on other modules, by the module or the class that each is of."""
    for section in page.split("\n### ")[1:]:
        rows = [re.split(r"(?<!\\)\|", line)[1:4] for line in section.split("\n") if line.startswith("| `")]
        found = [Row(CODE.findall(there), CODE.findall(here), why.strip()) for there, here, why in rows]
        yield section.split("\n", 1)[0], found


def of_ipaddress(module: Any) -> set[str]:
    """The public names of `ipaddress`, and those of its classes, of both families."""
    names = {name for name, value in vars(module).items() if getattr(value, "__module__", "") == module.__name__}
    found = {name for name in names if not name.startswith("_")}
    for kind in ("Address", "Network", "Interface"):
        values = [getattr(module, f"IPv{version}{kind}")(0) for version in (4, 6)]
        found |= {f"{kind}.{name}" for each in values for name in dir(each) if not name.startswith("_")}
    return found


def public_names(name: str, listed: list[str]) -> set[str] | None:
    """What a module or a class has, of a whole module of many kinds of things only what is listed, or None where it isn't
    there."""
    try:
        module = importlib.import_module(name.split(".")[0])
    except ImportError:
        return None
    if name == "ipaddress":
        return of_ipaddress(module)
    if "." not in name:
        return {each for each in listed if has(module, each)}
    made = getattr(module, name.split(".")[1])()  # of another class, in `radix`
    return {each for each in dir(made) if not each.startswith("_")}


def has(module: Any, name: str) -> bool:
    """Whether a module has a name, as `merge` or `Table.lookup`."""
    value = module
    for part in name.split("."):
        value = getattr(value, part, None)
    return value is not None


def differences(name: str, rows: list[Row]) -> Iterator[str]:
    """What is wrong with a table."""
    listed = [each for row in rows for each in row.there]
    for each in sorted(each for each in set(listed) if listed.count(each) > 1):
        yield f"{each} stands there twice"
    for row in rows:
        yield from (f"pcidr has no {each}" for each in row.here if not has(pcidr, each))
        if not row.here and not row.why:
            yield f"{', '.join(row.there)}: there is no reason"
    names = public_names(name, listed)
    if names is None:
        print(f"compare.py: there is no {name}: its table was not compared with it")
    else:
        yield from (f"{each} has no row" for each in sorted(names - set(listed)))
        # what only some versions of the module have
        newer = {"Address.ipv6_mapped", "Interface.ipv6_mapped", "Address.scope_id", "Interface.scope_id"}
        yield from (f"it has no {each}" for each in sorted(set(listed) - names - newer))


def main() -> None:
    found = tables(PAGE.read_text(encoding="utf-8"))
    wrong = [f"{name}: {why}" for name, rows in found for why in differences(name, rows)]
    for line in wrong:
        print(f"README.md: {line}")
    sys.exit(1 if wrong else 0)


if __name__ == "__main__":
    main()
