"""Comments of Rattle as comments of Rust: what they say of the caller, and examples, which are tests of rustdoc.

In the sources a line `EXPR // VALUE` tells what `{}` or `{:?}` prints of an expression. Here it becomes an assertion. An example that
goes on with values of one before it is given them, if they are those of GIVEN, one that is the body of a function stands in
that of BODIES, and others are shown and not run.

A call without an example in the sources has that of the file `examples`, and a call of a trait that of a type, by the trait.
`sections.py` has what the page of a call says besides.
"""
import re
from pathlib import Path

import sections

LINE = re.compile(r"\s*//[/!] ?")
SHOWN = re.compile(r"(\s*)(\S.*?)\s+// (.*)$")

# What stands before each example of a crate, hidden: its names, and what it is given.
HEADS = {
    "cidr": ["use cidr::{canon::*, errors::*, parsers::*, *};"],
    "cidr_net": ["use cidr::{errors::*, more::{canon::*, *}, parsers::*, *};", "use std::net::*;"],
    "cidr_ext": ["use cidr::*;", "use cidr_ext::*;"],
    "cidr_table": ["use cidr::{errors::*, *};", "use cidr_table::{alloc::*, *};"],
    "cidr_sets": ["use cidr::*;", "use cidr_table::Probe;", "use cidr_sets::{access::*, alloc::*, *};"],
    "cidr_forwarding": ["use cidr::*;", "use cidr_table::*;", "use cidr_support::alloc::Global;", "use cidr_forwarding::*;"],
    "cidr_lookup": ["use cidr::Ipv4Cidr;", "use cidr_lookup::*;", "use cidr_support::alloc::Global;", "use cidr_table::LpmTable;",
                    "use core::net::Ipv4Addr;"],
    "cidr_routes": ["use cidr::Ipv4Cidr;", "use cidr_routes::{lists::*, *};", "use cidr_sets::access::Action;",
                    "use cidr_support::{alloc::Global, vec::Vec};"],
    "cidr_mmdb": ["use cidr::Ipv4Cidr;", "use cidr_mmdb::*;", "use cidr_support::alloc::Global;"],
    "cidr_rules": ["use cidr::*;", "use cidr_rules::*;", "use cidr_support::alloc::Global;"],
    "cidr_files": ["use cidr_files::*;", "use cidr_lookup::{Address, Key};", "use cidr_support::{alloc::Global, vec::Vec};",
                   "use core::net::{Ipv4Addr, Ipv6Addr};",
                   "fn name<'a>(table: &FileTables<'a>, address: Ipv4Addr) -> Option<&'a str> {",
                   "    core::str::from_utf8(lookup(&table.ipv4, address.to_bits().to_le_bytes())?.1).ok()", "}"],
}
# A file of two networks and their names.
FILE = """let keys = [Key { address: [0, 0, 0, 10], len: 8 }, Key { address: [0, 0, 1, 10], len: 16 }];
let ipv4 = FileRows { keys: &keys, offsets: &[0, 5, 10], values: b"outerinner" };
let file = written(Global, &ipv4, &FileRows { keys: &[], offsets: &[0], values: b"" })?;"""
TABLE_OF_A_FILE = f"{FILE}\nlet table = open(file.as_slice())?;"
# Routes, and the same made ready.
ROUTES = ('let rows = [("0.0.0.0/0".parse()?, 1), ("10.0.0.0/8".parse()?, 2), ("10.1.0.0/16".parse()?, 3)];\n'
          "let routes: LpmTable<Ipv4Cidr, u32> = rows.into_iter().collect();")
# Payloads, and rows of a prefix list.
PAYLOADS = ('let payloads = [("192.0.2.0/24", 24, 64496), ("192.0.0.0/16", 16, 64497)];\n'
            "let payloads = payloads.map(|(n, max_length, origin)| Payload { network: n.parse::<Ipv4Cidr>().unwrap(), max_length, origin });\n"
            "let payloads = Vec::from_slice(Global, &payloads)?;")
PREFIXES = ('let rows = [(Action::Deny, "10.2.0.0/16", 16, 32), (Action::Permit, "10.0.0.0/8", 16, 24), (Action::Deny, "10.3.0.0/16", 20, 24)];\n'
            "let rows = rows.map(|(action, n, low, high)| Row { action, network: n.parse::<Ipv4Cidr>().unwrap(), low, high });")
# An entry of an access list, a list whose third rule decides nothing, and a packet that its first rule permits.
ENTRY = ('let traffic = Traffic::Ports(Transport::Tcp, Range { first: 0, last: 65535 }, Range { first: 443, last: 443 });\n'
         'let any: Ipv4Cidr = "0.0.0.0/0".parse()?;\n'
         'let entry = Entry { action: Action::Permit, source: "10.0.0.0/8".parse()?, destination: any, traffic };')
RULES = (f"{ENTRY}\nlet other = Entry {{ action: Action::Deny, source: any, destination: any, traffic: Traffic::Any }};\n"
         "let rules = [entry.rule(), other.rule(), entry.rule()];")
PACKET = ('let packet = Packet { source: "10.0.0.1".parse::<Ipv4Addr>()?, destination: "192.0.2.1".parse()?, protocol: 6, source_port: 50000,\n'
          "    destination_port: 443 };")
# A MaxMind DB file of one node: the lower half of IPv4 has a country.
MMDB = r"""let mut bytes = b"\x00\x00\x11\x00\x00\x01".to_vec();
bytes.extend([0; 16]);
bytes.extend(b"\xe1\x47country\x42NL");
bytes.extend(b"\xab\xcd\xefMaxMind.com\xe3\x4anode_count\xc1\x01\x4brecord_size\xa1\x18\x4aip_version\xa1\x04");"""
# What an example goes on with, where it does not make it: the values of the programs of the repository.
GIVEN = {
    "cidr_table": {
        "routes": 'let rows = [("0.0.0.0/0".parse()?, 1), ("10.0.0.0/8".parse()?, 2), ("10.1.0.0/16".parse()?, 3)];\n'
                  "let mut routes: Routes = rows.into_iter().collect();",
    },
    "cidr_rules": {"entry": ENTRY, "rules": RULES, "packet": PACKET},
    "cidr_mmdb": {"bytes": MMDB, "database": f"{MMDB}\nlet database = open(&bytes).unwrap();"},
    "cidr_files": {"file": FILE, "table": TABLE_OF_A_FILE},
    "cidr_lookup": {
        "routes": ROUTES,
        "ready": f"{ROUTES}\nlet ready = ReadyTable::new(Global, routes).map_err(|refused| refused.1)?;",
        "blocked": 'let blocked: [Ipv4Cidr; 2] = ["10.0.0.0/8".parse()?, "192.0.2.0/24".parse()?];',
    },
    "cidr_routes": {
        "payloads": f"{PAYLOADS}\nlet payloads = Payloads::new(Global, payloads)?;",
        "rows": PREFIXES, "others": f"{PREFIXES}\nlet others = [rows[0]];",
    },
    "cidr_forwarding": {
        "routes": 'let rows = [("0.0.0.0/0".parse()?, 1), ("10.0.0.0/8".parse()?, 2), ("10.1.0.0/16".parse()?, 2),\n'
                  '            ("192.0.2.0/25".parse()?, 3), ("192.0.2.128/25".parse()?, 3)];\n'
                  "let mut routes: LpmTable<Ipv4Cidr, u32> = rows.into_iter().collect();",
        "smallest": "let smallest = routes.smallest(Global)?;",
    },
    "cidr_sets": {
        "set": 'let set: NetworkSet<Ipv4Cidr> = ["10.0.0.0/8".parse()?].into_iter().collect();',
        "half": 'let half: NetworkSet<Ipv4Cidr> = ["10.128.0.0/9".parse()?].into_iter().collect();',
        "other": 'let other: NetworkSet<Ipv4Cidr> = ["192.0.2.0/24".parse()?].into_iter().collect();',
        "pool": 'let mut pool: NetworkSet<Ipv4Cidr> = ["10.0.0.0/8".parse()?].into_iter().collect();',
        "blocks": 'let blocks: NetworkSet<Ipv4Cidr> = ["192.0.2.0/28".parse()?, "192.0.2.128/25".parse()?].into_iter().collect();',
        "free": 'let free = ["10.0.0.0/24".parse()?, "10.0.1.64/26".parse()?, "10.0.2.0/23".parse()?];\n'
                "let free: NetworkSet<Ipv4Cidr> = free.into_iter().collect();",
        "rules": 'let rules = [("10.0.0.0/9", Action::Deny), ("10.0.0.0/8", Action::Permit), ("10.64.0.0/10", Action::Permit)];\n'
                 "let rules = rules.map(|(network, action)| Rule { action, network: network.parse::<Ipv4Cidr>().unwrap() });",
        "networks": 'let set: NetworkSet<Ipv4Cidr> = ["10.0.0.0/8".parse()?].into_iter().collect();\nlet mut networks = set.probe();',
    },
}
# Examples that go on with other values, by how their first line begins: what they are given. Without a line they are shown.
ROUTES_OF_ONE = 'let mut routes: Routes = [("10.0.0.0/8".parse()?, 1)].into_iter().collect();'
OTHERS = {
    "let payloads = Payloads::new(": PAYLOADS,
    "let mut rows = routes.into_iter();":
        'let routes: Routes = [("0.0.0.0/0".parse()?, 1), ("10.0.0.0/8".parse()?, 2)].into_iter().collect();',
    "routes.for_each_mut(": 'let mut routes: Routes = [("10.0.0.0/8".parse()?, 9)].into_iter().collect();',
    "routes.retain(": ROUTES_OF_ONE,
    "set.ranges()":
        'let set = ["10.0.0.1".parse()?, "10.0.0.2/31".parse()?, "10.0.0.4/31".parse()?, "10.0.0.6".parse()?];\n'
        "let set: NetworkSet<Ipv4Cidr> = set.into_iter().collect();",
    "let smallest = routes.smallest_with_holes(":
        'let rows = [("10.0.0.0/9".parse()?, 1), ("10.128.0.0/10".parse()?, 1), ("10.192.0.0/11".parse()?, 1)];\n'
        "let routes: LpmTable<Ipv4Cidr, u32> = rows.into_iter().collect();",
    "let ipv4 = FileRows {":
        "let ipv4 = [Key { address: [0, 0, 0, 10], len: 8 }, Key { address: [0, 0, 1, 10], len: 16 }, Key { address: [0, 2, 0, 192], len: 24 }];",
    "let network = ": "",
    "let mut text = ArrayString::": "use cidr_support::arrayvec::ArrayString;",
    'routes.insert("10.0.0.0/8".parse()?, Ipv4Addr::':
        'let rows = [("0.0.0.0/0", Ipv4Addr::new(192, 0, 2, 1)), ("10.0.0.0/8", Ipv4Addr::new(192, 0, 2, 2))];\n'
        "let mut routes: Routes = rows.map(|(network, hop)| (network.parse().unwrap(), hop)).into_iter().collect();",
}
# Examples that are the body of a function, by how their first line begins: what stands before and behind them, hidden, which makes
# the function and shows that it returns what it is to.
KEYS = """let keys = [Key { address: 0x0a000000u32, len: 8 }, Key { address: 0x0a010000, len: 16 }];
let address = "10.1.2.3".parse()?;"""
IN_ARRAYS = f"""fn find(keys: &[Key<u32>], starts: &[u32], answers: &[u32], address: Ipv4Addr) -> Result<Option<usize>, WordsFault> {{
...
}}
{KEYS}
let (starts, answers) = ([0, 0x0a000000, 0x0a010000, 0x0a020000, 0x0b000000], [0, 1, 2, 1, 0]);
assert_eq!(find(&keys, &starts, &answers, address)?, Some(1));"""
WORDS_OF_KEYS = f"""{KEYS}
let table = build(Global, &keys)?;
let (first, words) = (table.first.as_slice(), table.words.as_slice());"""
BODIES = {
    "let count = build(keys,": f"""fn find(keys: &[Key<u32>], starts: &mut [u32], answers: &mut [u32], address: Ipv4Addr) -> Result<Option<usize>, BuildError> {{
...
}}
{KEYS}
assert_eq!(find(&keys, &mut [0; 5], &mut [0; 5], address)?, Some(1));""",
    "check(keys, starts,": IN_ARRAYS,
    "Ok(lookup(starts,": IN_ARRAYS,
    "let table = build(alloc, keys)": f"""fn find_in(alloc: Global, keys: &[Key<u32>], address: Ipv4Addr) -> Result<Option<usize>, TableError> {{
...
}}
{KEYS}
assert_eq!(find_in(Global, &keys, address)?, Some(1));""",
    "check(alloc, keys,": f"""fn find_in(
    alloc: Global, keys: &[Key<u32>], first: &[u32], words: &[u32], steps: u32, address: Ipv4Addr,
) -> Result<Option<usize>, WordsFault> {{
...
}}
{WORDS_OF_KEYS}
assert_eq!(find_in(Global, &keys, first, words, table.steps, address)?, Some(1));""",
    "Ok(find(&first,": f"""fn find_in(first: &[u32], words: &[u32], steps: u32, address: Ipv4Addr) -> Result<Option<usize>, WordsFault> {{
...
}}
{WORDS_OF_KEYS}
assert_eq!(find_in(first, words, table.steps, address)?, Some(1));""",
    "written(alloc, &ipv4,": """fn file_of_rows(alloc: Global, ipv4: FileRows<'_, Ipv4Bytes>, ipv6: FileRows<'_, Ipv6Bytes>) -> Result<Vec<u8>, WriteError> {
...
}
let keys = [Key { address: [0, 0, 0, 10], len: 8 }];
let rows = FileRows { keys: &keys, offsets: &[0, 5], values: b"outer" };
let file = file_of_rows(Global, rows, FileRows { keys: &[], offsets: &[0], values: b"" })?;
assert_eq!(name(&checked(Global, file.as_slice())?, Ipv4Addr::new(10, 1, 2, 3)), Some("outer"));""",
    "let (_row, name) = lookup(": f"""fn name_of<'a>(table: &FileTables<'a>, address: Ipv4Addr) -> Option<&'a [u8]> {{
...
Some(name)
}}
{TABLE_OF_A_FILE}
assert_eq!(name_of(&table, Ipv4Addr::new(10, 1, 2, 3)), Some(b"inner".as_slice()));""",
    "has(&table.ipv6,": f"""fn has_ipv6(table: &FileTables<'_>, address: Ipv6Addr) -> bool {{
...
}}
{TABLE_OF_A_FILE}
assert!(!has_ipv6(&table, Ipv6Addr::LOCALHOST));""",
}


def in_body(code):
    """The lines of an example within the function whose body they are, or None where they are no body."""
    for begun, around in BODIES.items():
        if code[0].startswith(begun):
            before, behind = (part.strip("\n").split("\n") for part in around.split("\n...\n"))
            return [*(f"# {line}" for line in before), *as_rust(code), *(f"# {line}" for line in behind)]
    return None


# For each trait whose calls are those of types, where each has an example: the file of a type, and its name.
CALLS_OF = {
    "cidr": {
        "Cidr": ("cidr/combined.rs", "IpCidr"),
        "Inet": ("inet/combined.rs", "IpInet"),
        "InetPair": ("inet_pair/combined.rs", "IpInetPair"),
    }
}
# What is said of proofs and of other crates, and what of it holds in Rust.
SAID = [
    (", and where all are of one family, a `ReadyTable` of `cidr_lookup`, which reads one row at most and takes less time", ""),
    ("has to prove", "has to ensure"),
    (", and `laws` has laws for the proofs of callers", ""),
    (": [`laws::networks`](crate::laws::networks) says both", ""),
    ("In the examples, which stand in programs of the repository, a value behind `//` is what its line prints.",
     "Conditions on the caller, as that of `+`, are asserted: a call that breaks one panics."),
    ("proof of the caller shows to stay", "caller knows to stay"),
    ("It takes no step, unlike `Iterator::count`.", "It takes no step.\n    ///\n"
     "    /// It hides `Iterator::count`, which takes a step for each and returns a `usize`: call that as `Iterator::count(walk)`."),
]
KEYWORDS = set("as break const continue else false fn for if in let loop match mut return self true type use while".split())


# A call with its comment: the comment, what stands between, the name, and how it takes its value.
COMMENTED = re.compile(r"^((?: *///[^\n]*\n)+)((?: *#\[[^\n]*\n)*)(?= *(?:pub )?fn (\w+)(?:<[^\n]*?>)?\(\s*(&mut self|&self)?)", re.M)


def listed_examples():
    """The lines of `examples`, by the file and the call."""
    made, key = {}, None
    for line in (Path(__file__).resolve().parent / "examples").read_text().split("\n"):
        if line.startswith("    "):
            made[key].append(line[4:])
        elif line and not line.startswith("#"):
            key = tuple(line.split())
            made[key] = []
    return made


def by_trait(line, trait, type_name, call, takes):
    """The line with the type's call as that of the trait."""
    line = line.replace(f"{type_name}::{call}(", f"<{type_name} as {trait}>::{call}(")
    value, found, arguments = line.partition(f".{call}(")
    taken = {"&self": "&", "&mut self": "&mut "}.get(takes, "")
    return f"{trait}::{call}({taken}{value}{'' if arguments.startswith(')') else ', '}{arguments}" if found else line


def with_examples(texts, crate, module="crate"):
    """The files of a library with an example of each call that has none in the sources, and with the sections of its calls.

    `module` has its generic types.
    """
    listed, calls_of, known = listed_examples(), CALLS_OF.get(crate, {}), sections.conditions()
    examples = {
        (type_name, call): [LINE.sub("", line, count=1) for line in found.split("\n")[:-1]]
        for place, type_name in calls_of.values()
        for comment, _, call, _ in COMMENTED.findall(texts[Path(place)])
        for found in re.findall(r"```\n(.*?)^ *///? ```", comment, re.S | re.M)[:1]
    }
    made = {}
    for place, text in texts.items():
        out, file = [], f"{crate}/{place.with_suffix('')}"
        for block in re.split(r"^(?=(?:pub )?(?:trait|impl)\b)", text, flags=re.M):
            trait = block.partition("pub trait ")[2].partition(":")[0] if block.startswith("pub trait ") else ""

            def with_one(found):
                comment, between, call, takes = found.groups()
                lines = listed.pop((file, call), None)
                if "```" not in comment and trait in calls_of:
                    type_name = calls_of[trait][1]
                    lines = [by_trait(line, trait, type_name, call, takes) for line in examples[type_name, call]]
                if not lines:
                    return found[0]
                lead = re.match(r" *///", comment)[0]
                return comment + "".join(f"{lead} {line}".rstrip() + "\n" for line in ["", "```", *lines, "```"]) + between

            out.append(COMMENTED.sub(with_one, block))
        shown = {name: listed.pop((file, name)) for of, name in [*listed] if of == file and name[0].isupper()}
        made[place] = sections.with_aliases(sections.with_calls("".join(out), file, known), shown, module)
    if left := [key for key in listed if key[0].startswith(f"{crate}/")]:
        raise ValueError(f"rust/examples: no call {left}")
    return made


def assertion(expression, value):
    """`expression // value` as an assertion: `{:?}` prints values of enums, lists and tuples, and `{}` others."""
    if value in ("true", "false"):
        whole = re.fullmatch(r"[\w.:&]+\(.*\)|[\w.]+", expression) and " == " not in expression
        return f"assert!({'!' if value == 'false' else ''}{expression if whole or value == 'true' else f'({expression})'});"
    if re.fullmatch(r"\d+|0x[0-9a-f]+", value):
        return f"assert_eq!({expression}, {value});"
    # a pair of hosts is printed by `{}` as two values are by `{:?}`
    printed = value.replace("\\", "\\\\").replace('"', '\\"')
    is_pair = re.fullmatch(r"\([0-9a-f:.]+(?:/\d+)?, [0-9a-f.]*[:.][0-9a-f:.]*(?:/\d+)?\)", value)
    form = "{:?}" if re.match(r'[\[("{]|[A-Z]\w*(?:[({]|$)', value) and not is_pair else "{}"
    return f'assert_eq!(format!("{form}", {expression}), "{printed}");'


def free_names(lines):
    """The names of values that the lines use and do not make."""
    code = re.sub(r'b?"(?:\\.|[^"\\])*"|//.*', '""', "\n".join(lines))
    bound = set()
    for made in re.findall(r"\blet\s+(.*?)\s*(?::[^=]*)?=|\|([^|\n]*)\||\bfor\s+(.*?)\s+in\b|^\s*(.*?)\s*=>|\bfn \w+\((.*?)\)", code, re.M):
        bound |= set(re.findall(r"\b[a-z_]\w*", " ".join(made)))
    used = re.findall(r"(?<![\w.:'])([a-z_]\w*)\b(?!\s*(?:\(|::|!))(?!\s*:[^:])", code)
    return set(used) - bound - KEYWORDS - {"str", "u8", "u16", "u32", "u64", "u128", "usize", "bool", "dyn", "mem"}


def as_rust(lines):
    """The lines of an example as Rust has them."""
    made = []
    for line in lines:
        line = re.sub(r"println!\(&?rt; (.*)\)\?", r"println!(\1)", line).replace("rt.alloc()", "Global")
        line = re.sub(r"\bvec!\[in Global; (.*)\]", r"Vec::from_array(Global, [\1])", line)
        shown = SHOWN.match(line)
        if shown and not shown[2].endswith((";", "{", ",")) and not shown[2].startswith((".", "}", ")")):
            line = shown[1] + assertion(shown[2], shown[3])
        made.append(line)
    return made


def stands_alone(lines):
    """Whether the lines are a test. Not so the error of `insert`, which is a row, and what only programs of Rattle have."""
    return not free_names(lines) and not re.search(r"\bFailure\b|\broutes\.insert\(.*\)\?;", "\n".join(lines))


def in_rust(code, crate):
    """The lines of an example as Rust has them, behind the values that it is given."""
    lines = as_rust(code)
    given = [OTHERS[begun] for begun in OTHERS if code[0].startswith(begun)] or [
        value for name, value in GIVEN.get(crate, {}).items() if name in free_names(lines)]
    return [line for value in given if value for line in value.split("\n")] + lines


def is_test(code, crate):
    """Whether the lines of an example become a test of the crate."""
    return stands_alone(in_rust(code, crate))


def as_said(text):
    """The text with its comments as in Rust. What is said may go over the end of a line, and then it does so still."""
    for before, after in SAID:
        gap = r"(\s+(?://[/!] )?)"
        words = gap.join(re.escape(word) for word in before.split(" "))
        kept = before.count(" ") if before.count(" ") == after.count(" ") else 0
        made = after if not kept else "".join(
            word + (rf"\{number}" if number <= kept else "") for number, word in enumerate(after.split(" "), 1))
        text = re.sub(words, made, text)
    return text


def with_tests(text, crate):
    """The text with its examples as tests, how many they are, and how many are shown alone.

    An example may call the functions that others in the same comment are.
    """
    routes = re.search(r"`Routes` is `([^`]*)`", text)
    head = HEADS.get(crate, []) + ([f"type Routes = {routes[1] if routes else 'LpmTable<Ipv4Cidr, u32>'};"] if crate == "cidr_table" else [])
    out, tests, shown = [], 0, 0
    for comment in re.findall(r"(?:\s*//[/!][^\n]*\n)+|[^\n]*\n", text):
        parts = re.split(r"^(\s*//[/!] ?)```(\w*)\n(.*?\n)(\s*//[/!] ?```)$", comment, flags=re.S | re.M)
        codes = [[LINE.sub("", line, count=1) for line in body.split("\n")[:-1]] for body in parts[3::5]]
        functions = [line for code in codes if code[0].startswith("fn ") for line in code]
        for number, (lead, word, code) in enumerate(zip(parts[1::5], parts[2::5], codes)):
            if word:
                parts[5 * number + 2] = f"```{word}\n"
                continue
            lines = in_rust(code, crate)
            body = in_body(code)
            runs, lines = body is not None or stands_alone(lines), body or lines
            if runs:
                uses = ["use std::str::FromStr;"] if "from_str" in "".join(code) else []
                hidden = head + uses + ([] if code[0].startswith("fn ") else functions)
                lines = [f"# {line}" for line in hidden] + lines + ["# Ok::<(), Box<dyn std::error::Error>>(())"]
            else:
                lines = as_rust(code)
            parts[5 * number + 2] = "```\n" if runs else "```text\n"
            parts[5 * number + 3] = "".join((lead + line).rstrip() + "\n" for line in lines)
            tests, shown = tests + runs, shown + (not runs)
        out += parts
    return "".join(out), tests, shown
