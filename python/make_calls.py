#!/usr/bin/env python3
"""make_calls.py [--check]: writes pcidr/_calls.py, the stubs of the calls, and pcidr/_purposes.py from the header of the
library for C. With --check it writes nothing, and prints each line that only those files have, each that they lack, and each
call that a file of the module names and the header has not."""
from __future__ import annotations

import re
import sys
from pathlib import Path
from string import ascii_letters
from textwrap import wrap

HERE = Path(__file__).resolve().parent
HEADER = HERE.parent / "crates" / "cidr_c" / "include" / "pcidr.h"
MADE = HERE / "pcidr"
SCALARS = {f"uint{bits}_t": f"c_uint{bits}" for bits in (8, 16, 32, 64)} | {"size_t": "c_size_t"}
KINDS = SCALARS | {"void": "c_void_p"}
HINTS = dict.fromkeys(SCALARS, "int") | {"void": "int | None"}
LIMITS = {"UINT32_MAX": "0xFFFFFFFF", "SIZE_MAX": "0xFFFFFFFFFFFFFFFF"}
HEAD = '''\
"""The numbers, structs and calls of `pcidr.h`, which `make_calls.py` writes from it."""
from __future__ import annotations

from ctypes import POINTER, Structure, c_char_p, c_size_t, c_uint8, c_uint16, c_uint32, c_uint64, c_void_p

TYPE_CHECKING = False
if TYPE_CHECKING:
    from typing import Any
'''


HEAD_OF_ENUMS = '''\
"""Enums of `pcidr.h`, which `make_calls.py` writes from it."""
from __future__ import annotations

from enum import IntEnum
'''


def without_comments(header: str) -> str:
    return re.sub(r"/\*.*?\*/", "", header, flags=re.S)


def class_name(struct: str) -> str:
    """`FileTable` of `pcidr_file_table`."""
    return "".join(word.capitalize() for word in struct.removeprefix("pcidr_").split("_"))


def kind_of(declared: str) -> str:
    """The type of `ctypes` for a type of C, which is `void` for a pointer to any memory."""
    return KINDS.get(declared) or class_name(declared)


def numbers(header: str) -> list[str]:
    """The constants that the header defines."""
    found = re.findall(r"^#define PCIDR_(\w+) (0x[0-9a-f]+u?|[0-9]+|UINT32_MAX|SIZE_MAX)$", header, re.M)
    return [f"{name} = {LIMITS.get(number, number.rstrip('u'))}" for name, number in found]


def enums(header: str) -> list[list[str]]:
    """The enums: the one of the errors, and those whose names begin with a word of their own."""
    made = []
    for body in re.findall(r"^enum \{(.*?)\};", header, re.M | re.S):
        found = re.findall(r"PCIDR_(\w+) = (\d+)", body)
        word = "" if found[0][0] == "OK" else found[0][0].split("_")[0]
        name = f"{word.capitalize()}(IntEnum)" if word else "Code"
        about = f"`PCIDR_{word}_..`." if word else "What calls return: `OK`, or the error."
        lines = [f"    {each.removeprefix(f'{word}_')} = {number}" for each, number in found]
        public = ['    __module__ = "pcidr"'] if word else []
        made.append([f"class {name}:", f'    """{about}"""', "", *public, *lines])
    return made


def structs(header: str) -> list[list[str]]:
    """The structs, in which a pointer is to any memory."""
    made = []
    for name, body in re.findall(r"^typedef struct (\w+) \{(.*?)\} \w+;", header, re.M | re.S):
        fields = [("void" if star else kind, field) for kind, star, field in re.findall(r"(\w+) (\*?)(\w+);", body)]
        lines = [f"class {class_name(name)}(Structure):", f'    """`{name}`."""', ""]
        lines += [f"    {field}: {HINTS.get(kind) or class_name(kind)}" for kind, field in fields]
        typed = [f'("{field}", {kind_of(kind)})' for kind, field in fields]
        lines += wrap(f"_fields_ = [{', '.join(typed)}]", 140, initial_indent=" " * 4, subsequent_indent=" " * 8)
        made.append(lines)
    return made


def parameter_of(declared: str, following: str) -> str:
    """The type of `ctypes` for a parameter: an array, which has its length behind it, is any memory."""
    kind, star, name = re.fullmatch(r"(?:const )?(\w+) (\*?)(\w+)", declared).groups()  # type: ignore[union-attr]
    if not star:
        return kind_of(kind)
    if kind == "char":
        return "c_char_p"
    return "c_void_p" if following.endswith(f" {name}_len") else f"POINTER({kind_of(kind)})"


def calls(header: str) -> dict[str, tuple[str, list[str]]]:
    """Of each call the result and the parameters."""
    made = {}
    for result, name, listed in re.findall(r"^(\w+) pcidr_(\w+)\(([^()]*)\);", header, re.M):
        parameters = [" ".join(each.split()) for each in listed.split(",") if each.strip() != "void"]
        following = [*parameters[1:], ""]
        made[name] = kind_of(result), [parameter_of(*both) for both in zip(parameters, following)]
    return made


def signatures(made: dict[str, tuple[str, list[str]]]) -> list[str]:
    """The table of results and parameters, of which each has a letter."""
    kinds = dict.fromkeys(kind for result, parameters in made.values() for kind in (result, *parameters))
    letters = dict(zip(kinds, ascii_letters, strict=False))
    words = [f"{name}:{''.join(letters[kind] for kind in (result, *parameters))}" for name, (result, parameters) in made.items()]
    lines = ['SIGNATURES = """', *wrap(" ".join(words), 140, break_long_words=False, break_on_hyphens=False), '"""', "", ""]
    lines += ["def signatures() -> dict[str, list[Any]]:", '    """Of each call the result and the parameters."""']
    lines += wrap(f"kinds = dict(zip(\"{''.join(letters.values())}\", ({', '.join(kinds)})))", 140, initial_indent=" " * 4, subsequent_indent=" " * 8)
    lines += ['    found = (each.split(":") for each in SIGNATURES.split())']
    return [*lines, "    return {name: [*map(kinds.__getitem__, letters)] for name, letters in found}"]


def stubs(header: str) -> dict[str, str]:
    """The files, by name."""
    bare = without_comments(header)
    codes, *others = enums(bare)
    parts = [[HEAD, *numbers(bare)], codes, *structs(bare), signatures(calls(bare))]
    return {"_calls.py": together(parts), "_purposes.py": together([[HEAD_OF_ENUMS.rstrip("\n")], *others])}


def together(parts: list[list[str]]) -> str:
    """Parts of a file, each of some lines."""
    return "\n\n\n".join("\n".join(part) for part in parts) + "\n"


def joined(stubs: str) -> list[str]:
    """The lines of the file, of which one has the whole list of a struct, whose order counts, and one each call of the table."""
    whole = re.sub(r"\[\n[^]]*\]", lambda found: " ".join(found[0].split()), stubs)
    return re.sub(r'"""\n[^"]*"""', lambda found: "\n".join(found[0].split()), whole).split("\n")


def main() -> None:
    made = stubs(HEADER.read_text(encoding="utf-8"))
    if sys.argv[1:] != ["--check"]:
        for name, text in made.items():
            (MADE / name).write_text(text, encoding="utf-8")
        return
    known = {name.removesuffix("_by_value") for name in calls(without_comments(HEADER.read_text(encoding="utf-8")))}
    wrong = [f"pcidr/{path.name}: pcidr.h has no such call: {''.join(name)}" for path in sorted(MADE.glob("*.py"))
             for name in re.findall(r"\bcalls\.(\w+)|_(?:by|in)\(\"(\w+)", path.read_text(encoding="utf-8"))
             if "".join(name) not in {*known, "quick"}]
    for name, text in made.items():
        theirs, ours = joined(text), joined((MADE / name).read_text(encoding="utf-8"))
        wrong += [f"pcidr/{name}: pcidr.h has no such line: {line.strip()}" for line in ours if line not in theirs]
        wrong += [f"pcidr/{name}: there is no such line: {line.strip()}" for line in theirs if line not in ours]
    for line in wrong:
        print(line)
    sys.exit(1 if wrong else 0)


if __name__ == "__main__":
    main()
