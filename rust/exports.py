"""The calls of the library for C: each function `extern "C"` becomes one of Rust, and `exports.rs` has a call for C of it.

A slice of Rattle comes from C as a pointer and a length, and a reference as a pointer.
"""
import re
from pathlib import Path

CALL = re.compile(
    r'#\[unsafe\(no_mangle\)\]\n(?P<inline>(?:#\[inline[^\n]*\n)*)pub extern "C" fn (?P<name>\w+)\((?P<of>[^)]*)\)(?P<gives> -> \w+)?', re.S)


def parameters(text):
    return [tuple(part.strip().split(": ")) for part in re.split(r",\s*(?![^<]*>)", text.strip().rstrip(",")) if part.strip()]


def with_calls(files):
    """The files with functions of Rust in place of those for C, and with `exports.rs`, which has these."""
    made, calls = {}, []
    for place, text in files.items():
        module = "::".join(place.with_suffix("").parts)
        calls += [(module, call["name"], parameters(call["of"]), call["gives"] or "") for call in CALL.finditer(text)]
        made[place] = CALL.sub(lambda call: f"pub fn {call['name']}({call['of']}){call['gives'] or ''}", text)
    homes = {name: "::".join(place.with_suffix("").parts) for place, text in files.items()
             for name in re.findall(r"^pub struct (\w+)", text, re.M)}
    print(f"cidr_c: {len(calls)} calls for C")
    return made | {Path("exports.rs"): written(calls, homes)}


def crossing(name, kind):
    """How a parameter is written in C's call, and how it is passed on."""
    if kind == "Global":
        return "", "Global"
    if found := re.fullmatch(r"&(mut )?\[(\w+)\]", kind):
        how = "mut" if found[1] else "const"
        return f"{name}: *{how} {found[2]}, {name}_len: usize", f"slice{'_mut' if found[1] else ''}({name}, {name}_len)"
    if found := re.fullmatch(r"&(mut )?(\w+)", kind):
        how = "mut" if found[1] else "const"
        return f"{name}: *{how} {found[2]}", f"&{'mut ' if found[1] else ''}*{name}"
    return f"{name}: {kind}", name


HEAD = """//! The calls for C. Each passes on what it is given, which is as the header says: see `pointers`.
#![allow(unsafe_code, clippy::missing_safety_doc)]

"""


def written(calls, homes):
    """The text of `exports.rs`."""
    uses = {f"use crate::{homes[name]}::{name};" for _, _, of, _ in calls for _, kind in of for name in re.findall(r"\bC\w+", kind)}
    uses |= {"use cidr_lookup::Ipv6Halves;", "use cidr_support::alloc::Global;", "use crate::pointers::{slice, slice_mut};"}
    text = []
    for module, name, of, gives in calls:
        crossed = [crossing(*each) for each in of]
        text.append(f"""
#[no_mangle]
pub unsafe extern "C" fn {name}({', '.join(each for each, _ in crossed if each)}){gives} {{
    crate::{module}::{name}({', '.join(each for _, each in crossed)})
}}
""")
    return HEAD + "\n".join(sorted(uses)) + "\n" + "".join(text)
