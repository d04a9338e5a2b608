#!/usr/bin/env python3
"""make_types.py: prints pcidr.d.ts, by the table in names.txt, and by the errors, the purposes and the calls of pcidr.h."""
import re
import sys
from pathlib import Path

HERE = Path(__file__).resolve().parent
HEADER = (HERE / "../crates/cidr_c/include/pcidr.h").read_text(encoding="utf-8")
CALLS = set(re.findall(r"^(?:uint32_t|size_t) (pcidr_\w+)\(", HEADER, re.M))
COMMENT = "/** The proved library `libpcidr` for JavaScript: IPv4 and IPv6 networks. make_types.py writes this file. */"
TYPES = """\
export type AnyAddress = Address | Network | string;
export type AnyNetwork = Address | Network | string;
export type AnyNetworks = NetworkList | Iterable<AnyNetwork>;
/** Rules in order, of which the first whose network contains an address decides: whether it is permitted. */
export type Rules = Iterable<readonly [AnyNetwork, boolean]>;
export type Row<V> = readonly [Network, V];
export interface ListOptions {
    /** Whether a bit that is set behind a prefix is an error, as it is without this; else it is taken as unset. */
    strict?: boolean;
    /** Whether a network may have a mask in place of its prefix length, as 192.0.2.0/255.255.255.0. */
    masks?: boolean;
}
export interface PlanOptions extends ListOptions {
    /** How many lines in error are told at most; without this, all. */
    most?: number;
}
/** The rows of an address plan. A name lies in the text from `begins` up to `ends`: in the string, or in the bytes. */
export interface Plan {
    /** The network of each row; of a range each network of the shortest list has one. */
    readonly networks: NetworkList;
    /** The number of its line, from 1 on. */
    readonly lines: Uint32Array;
    readonly begins: Uint32Array;
    readonly ends: Uint32Array;
    /** The lines in error, each with its number as `line`. */
    readonly faults: PcidrError[];
    /** How many lines are in error. */
    readonly wrong: number;
}
/** An entry of a registry of IANA. Null is a column that does not apply; `purpose` is one of `Purpose`. */
export interface SpecialEntry {
    readonly network: Network;
    readonly rfc: number;
    readonly purpose: Purpose;
    readonly source: boolean | null;
    readonly destination: boolean | null;
    readonly forwardable: boolean | null;
    readonly globallyReachable: boolean | null;
    readonly reservedByProtocol: boolean | null;
}
/** What the library refuses. */
export class PcidrError extends Error {
    /** The number of the error in pcidr.h. */
    readonly code: number;
    /** Of a list, the number of the line that is wrong, from 1 on. */
    readonly line?: number;
}
export type Source = BufferSource | WebAssembly.Module | Response | URL | string | Promise<Response | BufferSource | WebAssembly.Module>;
/** Loads pcidr.wasm beside pcidr.js, or what is given, anew at each call. */
export function load(source?: Source): Promise<Pcidr>;
/** The same at once, of bytes, for which browsers ask for a Worker, or of a compiled module. */
export function loadSync(source: BufferSource | WebAssembly.Module): Pcidr;"""


def stop(why):
    sys.exit(f"names.txt: {why}")


def read_table():
    """The classes in order, each with its comment and its members, and the calls that the table names."""
    classes, named = [], set()
    for number, line in enumerate((HERE / "names.txt").read_text(encoding="utf-8").splitlines(), 1):
        if not line or line.startswith("#"):
            continue
        parts = [part.strip() for part in line.split(";;")]
        if line.startswith(("class ", "function ")):
            classes.append((parts[0].removeprefix("class "), parts[1], []))
            continue
        calls = parts[0].removeprefix("- ") if line.startswith("- ") else parts[1]
        for call in filter(None, re.split(r",\s*", calls)):
            if call not in CALLS:
                stop(f"{number}: the header has no {call}")
            named.add(call)
        if not line.startswith("- "):
            classes[-1][2].append((parts[0], parts[1], parts[2]))
    if CALLS - named:
        stop(f"it lacks {', '.join(sorted(CALLS - named))}")
    return classes


def members(rows, indent="    "):
    for declared, calls, said in rows:
        if said:
            yield f"{indent}/** {said}{f' (`{calls}`)' if calls else ''} */"
        yield f"{indent}{declared};"


def main():
    print(COMMENT)
    print(TYPES)
    print("/** A class for each error. */\nexport const errors: {")
    for name, said in re.findall(r"^    PCIDR_(\w+) = (?!0)\d+,? +/\* (.*) \*/$", HEADER, re.M):
        words = "".join(word.capitalize() for word in name.split("_"))
        print(f"    /** {said[0].upper()}{said[1:]}. */\n    readonly {words}Error: typeof PcidrError;")
    print("};\n/** What the blocks of IANA's registries are for: the numbers of `PCIDR_PURPOSE_..`. */\nexport type Purpose =")
    purposes = re.findall(r"PCIDR_PURPOSE_(\w+) = (\d+)", HEADER)
    print("\n".join(f"    /** {name.replace('_', ' ').lower()} */ | {value}" for name, value in purposes) + ";")
    kinds = []
    for head, said, rows in read_table():
        name = re.match(r"\w+", head)[0]
        shared = [row for row in rows if not row[0].startswith(("new ", "static "))]
        made = [(row[0].removeprefix("static "), *row[1:]) for row in rows if row[0].startswith(("new ", "static "))]
        if name == "function":
            functions = shared
            continue
        print(f"/** {said} */\nexport interface {head} {{")
        print("\n".join(members(shared)))
        print("}")
        if made:
            kinds.append((name, made))
    print("/** What `load` returns. */\nexport interface Pcidr {")
    for name, made in kinds:
        print(f"    readonly {name}: {{")
        print("\n".join(members(made, " " * 8)))
        print(f"        readonly prototype: {name}{'<unknown>' if name == 'Table' else ''};\n    }};")
    print("\n".join(members(functions)))
    print("}")


main()
