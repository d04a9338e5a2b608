#!/usr/bin/env python3
"""Makes the program's stored run, the files stdin and stdout beside this script, and of it that of crates/cidr_replay.

usage: sample.py [FOLDER PROGRAM | write]

FOLDER has the groups: files NAME.in with operations and NAME.out with the expected answers, line by
line. PROGRAM is cidr_replay: what it answers with `unsupported` is left out, and nothing else of its
output is used. README.md says how the lines are chosen. With the word `write` in place of both, the
lines of the groups stay as they are stored, and all others are written anew.

Without arguments it writes nothing, and compares the stored runs with all rows that are in no group:
those in rows/, those that are computed and those below. The exit status is 1 if any differs.
"""
import itertools
import subprocess
import sys
from collections import defaultdict
from pathlib import Path

from computed import computed_rows
from name_rows import name_rows_of_each
from network_rows import address_rows_of_each, network_rows_of_each
from set_rows import set_rows
from special_rows import special_rows_of_each

HERE = Path(__file__).resolve().parent
KIT = HERE.parent.parent / "crates/cidr_replay"

# How many lines of the groups there are at most.
SIZE = 3000

# Worked examples of the groups that stand in the sample besides, each once.
CHOSEN = [
    b"addr.cmp ip 127.0.0.11 cb50:ce05:bda8:ebac:4776:66e8:4286:4c5a",
    b"agree v4 10.0.0.0/8 10.0.0.0/9",
    b"agree.texts v4 =10.0.0.0/+08 =10.0.0.0/8",
    b"bits.append any any true",
    b"bits.append v4 10.0.0.0/8 true",
    b"bits.clip any 192.168.0.0/16 0",
    b"bits.clip any 192.168.0.0/16 2",
    b"bits.clip any 2001:db8:1234:5678::/64 4",
    b"bits.clip v4 192.168.0.0/16 2",
    b"bits.clip v6 2001:db8:1234:5678::/64 4",
    b"bits.flip any 192.168.0.0/16 0",
    b"bits.set any 192.168.0.0/16 0 true",
    b"bits.shared_prefix_len v4 192.0.2.0/24 192.0.2.128/25",
    b"cidr.cmp ip 0.0.0.0/1 0.0.0.0/10",
    b"cidr.cmp ip 192.0.0.0/3 0:0:0:7f::/64",
    b"cidr.cmp ip 8000::/1 ::/0",
    b"cidr.cmp ip ::/1 ::/1",
    b"cidr.new any 0.0.0.0 8",
    b"cidr.new any 62.192.18.92 2",
    b"cidr.new ip 0.0.0.0 4",
    b"cidr.show any 81.64.0.0/10",
    b"cidr.show ip 8.5.190.94/32",
    b"cidr.show ip ::/16",
    b"cidr.text any 0.0.0.17/32",
    b"cidr.text any 112.0.0.0/17",
    b"cidr.text ip 0:13:f1b1:3926::/64",
    b"compact.from any xff09",
    b"compact.from ip x3f",
    b"compact.from ip xc0",
    b"compact.from ip xc1",
    b"compact.from v4 x080a00000063",
    b"compact.from v4 x18c0000201",
    b"compact.from v4 x4001",
    b"compact.from v4 x6000000000000000000000000000000000",
    b"compact.to any any",
    b"compact.to v6 2001:db8:1234:5678::/64",
    b"hostbits.append v4 10.1.2.3/8 true",
    b"hostbits.clip v4 10.1.2.3/8 16",
    b"hostbits.clip v4 10.1.2.3/8 32",
    b"hostbits.set v4 10.1.2.3/8 0 true",
    b"hostcompact.from ip xff",
    b"hostcompact.from v6 x080a000001",
    b"hostcompact.to v4 192.0.2.1/24",
    b"inet.add ip 156.146.196.216/0 1668102951",
    b"inet.add ip 2001:db8:0:89ac::1/128 0",
    b"inet.add ip 255.255.255.240/31 1",
    b"inet.cmp ip 0.0.0.1/16 ::ffff:ffff:ffff:fffc/1",
    b"inet.cmp ip 0.0.3.241/31 127.0.0.160/0",
    b"inet.cmp ip 0.0.9.100/0 0.0.9.100/24",
    b"inet.contains ip 192.0.2.91/1 ffff:ffff:ffff:ffff:ffe1:8647:6fd3:1faa",
    b"inet.contains ip 2001:db8:0:520d::1/33 2001:db8:0:520d::3",
    b"inet.contains ip ::1:69b6:fc94:8fcb:cf29/96 127.152.0.255",
    b"inet.decrement ip 0.0.0.0/2",
    b"inet.decrement ip 192.168.0.61/1",
    b"inet.increment ip 10.0.0.1/32",
    b"inet.increment ip 15.255.255.255/2",
    b"inet.increment ip ::2fa:afb5/4",
    b"inet.increment ip ffff:ffff:ffff:ffff:ffff:ffff:ffff:ffff/0",
    b"inet.next ip 192.168.0.61/1",
    b"inet.next ip ::/0",
    b"inet.overflowing_add ip 0.126.0.0/16 340282366920938463463374607431768211455",
    b"inet.overflowing_add ip 127.0.0.17/16 4294967295",
    b"inet.overflowing_add ip 127.0.0.199/0 1",
    b"inet.overflowing_add ip ::fffe:0:0/8 4294967296",
    b"inet.overflowing_add v6 ::1/0 340282366920938463463374607431768211455",
    b"inet.overflowing_sub ip 255.206.154.184/0 4294967295",
    b"inet.overflowing_sub ip 4.9.134.35/6 4294967296",
    b"inet.overflowing_sub ip ::ffff:ffff:ffff:ffff/128 1",
    b"inet.overflowing_sub v4 10.0.0.1/32 340282366920938463463374607431768211455",
    b"inet.overflowing_sub v4 192.0.2.5/24 4294967296",
    b"inet.overflowing_sub v6 ::/0 340282366920938463463374607431768211455",
    b"inet.show ip 0.0.64.1/32",
    b"inet.show ip ::2fa:afb5/4",
    b"inet.sub ip 156.146.196.216/0 638152591",
    b"inet.text ip ::100/128",
    b"pair.text v4 10.0.0.1 10.0.0.3 8",
    b"walk v4 10.0.0.1 10.0.0.3 8 bfff",
    b"walk v6 :: 7fff:ffff:ffff:ffff:ffff:ffff:ffff:ffff 1 -",
    b"walk.net v4 1.2.3.4/32 ffbb",
    b"walk.net v6 ::/0 -",
    b"walk.net_hosts ip ::/66 ff",
]

# The format leaves open what these lines get; this program's answers to them are fixed here.
OTHER_LINES = [
    (b"", b"malformed"),
    (b"addr.parse", b"malformed"),
    (b"addr.parse v5 =1.2.3.4", b"malformed"),
    (b"addr.parse any =1.2.3.4", b"malformed"),
    (b"addr.parse v4 1.2.3.4", b"malformed"),
    (b"addr.parse v4 =1.2.3.4%2", b"malformed"),
    (b"addr.parse v4 =1.2.3.4%2f", b"malformed"),
    (b"addr.parse v4 =%FF", b"malformed"),
    (b"addr.parse v4 =\xff", b"malformed"),
    (b"addr.parse v4 =1.2.3.4\r", b"malformed"),
    (b"addr.parse v4 =1.2.3.4\t", b"malformed"),
    (b"addr.parse v4 =1.2.3.4\x00", b"malformed"),
    (b"addr.parse v4 =1.2.3.4\x7f", b"malformed"),
    (b"addr.parse v6 =::\xef\xbc\x91", b"malformed"),
    (b"addr.text\tv4 1.2.3.4", b"malformed"),
    (b"fault.eq v4 =1.2.3.4\r v4 =1.2.3.4", b"malformed"),
    (b"family.show Ipv4\r", b"malformed"),
    (b"tool =show =10.0.0.0/8\r", b"malformed"),
    (b"\r", b"malformed"),
    (b"addr.parse v4 =1.2.3.4 ", b"malformed"),
    (b"addr.parse v4  =1.2.3.4", b"malformed"),
    (b"addr.parse v4 =1.2.3.4 =1.2.3.4", b"malformed"),
    (b"addr.new v4 1 2 3 256", b"malformed"),
    (b"addr.new v4 1 2 3 +4", b"malformed"),
    (b"addr.new v4 1 2 3 04", b"malformed"),
    (b"addr.octets v4 1.2.3.256", b"malformed"),
    (b"addr.sum v4 1.2.3.4", b"malformed"),
    (b"convert octets addr.v4 x0a0000", b"malformed"),
    (b"convert octets addr.v4 x0a00000", b"malformed"),
    (b"convert octets addr.v4 x0A000001", b"malformed"),
    (b"convert u32 addr.v4 4294967296", b"malformed"),
    (b"cidr.show v4 10.0.0.1/8", b"malformed"),
    (b"cidr.is v4 10.0.0.0/8", b"malformed"),
    (b"cidr.contains_cidr ip 10.0.0.0/8 any", b"malformed"),
    (b"inet.new any 10.0.0.1 8", b"malformed"),
    (b"inet.new v4 10.0.0.1 256", b"malformed"),
    (b"inet.add v4 10.0.0.255/24 1", b"malformed"),
    (b"inet.sub_u32 v4 10.0.0.0/24 1", b"malformed"),
    (b"inet.overflowing_add v6 ::1/64 340282366920938463463374607431768211456", b"malformed"),
    (b"convert segments addr.v6 1 2 3 4 5 6 7", b"malformed"),
    (b"fault.eq v4 =10.0.0.0/8 v4 =10.0.0.0/8", b"malformed"),
    (b"fault.from_length v4 10.0.0.1 32", b"malformed"),
    (b"convert option cidr.any any", b"malformed"),
    (b"convert cidr.ip cidr.v4 10.0.0.0/8", b"malformed"),
    (b"pair.show any 10.0.0.1 10.0.0.3 8", b"malformed"),
    (b"pair.show v4 10.0.0.1 11.0.0.1 8", b"malformed"),
    (b"pair.text ip 10.0.0.1 10.0.0.3", b"malformed"),
    (b"pair.is v4 10.0.0.1 10.0.0.3 8", b"malformed"),
    (b"walk v4 10.0.0.1 10.0.0.3 8 fx", b"malformed"),
    (b"walk v4 10.0.0.1 10.0.0.3 8 -f", b"malformed"),
    (b"walk v4 10.0.0.1 10.0.0.3 8 ", b"malformed"),
    (b"walk.net v4 10.0.0.0/8 " + 257 * b"f", b"malformed"),
    (b"walk.net any any f", b"malformed"),
    (b"walk.tail v4 10.0.0.0/8 f", b"malformed"),
    (b"walk. v4 10.0.0.1 10.0.0.3 8 f", b"malformed"),
    (b"convert.u32 u32 addr.v4 1", b"malformed"),
    (b"family.cmp Ipv4 Ipv5", b"malformed"),
    (b"route.add v4 10.0.0.0/8", b"malformed"),
    (b"parse v4 strict =10.0.0.0/8", b"malformed"),
    (b"parse.parse_cidr v4 strict", b"malformed"),
    (b"parse.parse_cidr v4 =10.0.0.0/8", b"malformed"),
    (b"parse.parse_cidr v4 lax =10.0.0.0/8", b"malformed"),
    (b"parse.parse_cidr v4 hstrict =10.0.0.0/8", b"malformed"),
    (b"parse.parse_cidr v4 strict hstrict =10.0.0.0/8", b"malformed"),
    (b"parse.parse_cidr v6 loose =::", b"malformed"),
    (b"parse.parse_cidr any strict =10.0.0.0/8", b"malformed"),
    (b"parse.parse_any_cidr ip strict =any", b"malformed"),
    (b"parse.parse_cidr_full v4 strict =10.0.0.0", b"malformed"),
    (b"parse.parse_cidr_full v4 strict strict =10.0.0.0", b"malformed"),
    (b"parse.parse_cidr_full v6 strict hshort =10", b"malformed"),
    (b"parse.parse_inet_full v4 strict hshort =10", b"malformed"),
    (b"parse.parse_inet_ignore_hostbits v4 strict =10.0.0.0", b"malformed"),
    (b"parse.parse_loose_ip v4 =10", b"malformed"),
    (b"bits.len ip 10.0.0.0/8", b"malformed"),
    (b"bits.null any any", b"malformed"),
    (b"bits.get v4 0.0.0.0/0 0", b"malformed"),
    (b"bits.get v4 10.0.0.0/8 8", b"malformed"),
    (b"bits.get any any 0", b"malformed"),
    (b"bits.get any 10.0.0.0/8 9", b"malformed"),
    (b"bits.set v4 10.0.0.0/8 7 1", b"malformed"),
    (b"bits.set v6 ::/64 64 true", b"malformed"),
    (b"bits.flip v6 ::/64 18446744073709551616", b"malformed"),
    (b"bits.clip v4 10.0.0.0/8 -1", b"malformed"),
    (b"bits.append v4 10.0.0.1/32 true", b"malformed"),
    (b"bits.append any ::1/128 false", b"malformed"),
    (b"hostbits.len any 10.0.0.1/8", b"malformed"),
    (b"hostbits.flip v4 10.0.0.1/8 8", b"malformed"),
    (b"hostbits.append v6 ::1/128 true", b"malformed"),
    (b"hostbits.shared_prefix_len v4 10.0.0.1/8", b"malformed"),
    (b"compact v4 10.0.0.0/8", b"malformed"),
    (b"compact.to v4 10.0.0.1/8", b"malformed"),
    (b"compact.to ip any", b"malformed"),
    (b"compact.to v4 10.0.0.0/8 10.0.0.0/8", b"malformed"),
    (b"compact.from v4 080a000000", b"malformed"),
    (b"compact.from v4 x080a0000000", b"malformed"),
    (b"compact.from v4 x080A000000", b"malformed"),
    (b"compact.from v4", b"malformed"),
    (b"hostcompact.to any 10.0.0.1/8", b"malformed"),
    (b"hostcompact.from any xff", b"malformed"),
    (b"agree v4 10.0.0.0/8", b"malformed"),
    (b"agree ip 10.0.0.0/8 any", b"malformed"),
    (b"agree.texts v4 =10.0.0.0/8 10.0.0.0/8", b"malformed"),
    (b"agree.bytes v4 10.0.0.0/8 10.0.0.0/8", b"malformed"),
    (b"set.union ip - -", b"malformed"),
    (b"set.contains v4 10.0.0.0/8 10.0.0.0/9 10.0.0.0/9", b"malformed"),
    (b"set.permitted v4 10.0.0.0/8", b"malformed"),
    (b"tree.parent ip 10.0.0.0/8", b"malformed"),
    (b"special.is_global any 10.0.0.1", b"malformed"),
    (b"inside.to_ipv4_6to4 v6 2002::", b"malformed"),
    (b"tool =show =10.0.0.0/8", b"unsupported"),
]


def key(line):
    """What an operation is counted under: its name and its type, a conversion's two."""
    words = line.split(b" ")
    return tuple(words[: 3 if words[0] == b"convert" else 2])


def outcome(answer):
    """What kind of answer this is: its words, as `ok`, `true`, `none` or `err` and a refusal's kind."""
    return frozenset(word for word in answer.split(b" ") if word.isalpha())


def answered(program, operations):
    """Whether the program answers each of the operations."""
    run = subprocess.run([program], input=b"".join(o + b"\n" for o in operations), stdout=subprocess.PIPE, check=True)
    answers = run.stdout.split(b"\n")
    return [answer != b"unsupported" for answer in answers[: len(operations)]]


def read_lines(folder, program):
    """All lines that the program answers, with their expected answers, in the order of the groups."""
    lines = []
    for group in sorted(Path(folder).glob("*.in")):
        operations = group.read_bytes().splitlines()
        expected = group.with_suffix(".out").read_bytes().splitlines()
        kept = answered(program, operations)
        lines += [(o, e) for o, e, is_kept in zip(operations, expected, kept) if is_kept]
    return lines


def spread(places, count):
    """At most `count` of the places, evenly spread, the first among them."""
    if len(places) <= count:
        return places
    return [places[i * len(places) // count] for i in range(count)]


def choose(places_of_key, firsts, each):
    """The places of `each` lines for every operation and type, and of the first line of every outcome."""
    chosen = set(firsts)
    for places in places_of_key.values():
        chosen.update(spread(places, each))
    return sorted(chosen)


def most_that_fit(lines, size):
    """The places chosen with the greatest number for an operation and type that keeps to the size."""
    places_of_key, first_of_outcome = defaultdict(list), {}
    for place, (operation, expected) in enumerate(lines):
        places_of_key[key(operation)].append(place)
        first_of_outcome.setdefault((key(operation), outcome(expected)), place)
    firsts = first_of_outcome.values()
    best, each = choose(places_of_key, firsts, 1), 1
    while len(best) < len(lines):
        more = choose(places_of_key, firsts, each + 1)
        if len(more) > size:
            break
        best, each = more, each + 1
    return best, each


def rows_of_files():
    """The rows that stand in rows/: an operation, ` -> ` and its result; the facts that they are for stand above."""
    for file in sorted((HERE / "rows").glob("*.txt")):
        for line in file.read_bytes().splitlines():
            if line and not line.startswith(b"#"):
                yield tuple(line.split(b" -> "))


def together(*lists):
    """One list of all rows, each operation once."""
    sample = {}
    for operation, expected in itertools.chain(*lists):
        if sample.setdefault(operation, expected) != expected:
            sys.exit(f"two results are expected of {operation}")
    return sample


def rows_of_no_group():
    tables = computed_rows(), set_rows(), network_rows_of_each(), address_rows_of_each(), name_rows_of_each(), special_rows_of_each()
    computed = [(operation.encode(), answer.encode()) for table in tables for operation, answer in table]
    return itertools.chain(rows_of_files(), computed, OTHER_LINES)


def stored_run():
    """The operations that are stored, each with its result."""
    return dict(zip(*((HERE / name).read_bytes().split(b"\n")[:-1] for name in ["stdin", "stdout"])))


def stored_lines_of_groups():
    """The lines behind the last of those that are in no group."""
    last, _ = OTHER_LINES[-1]
    lines = list(stored_run().items())
    return lines[[operation for operation, _ in lines].index(last) + 1 :]


def run_of_kit(stored):
    """The run of crates/cidr_replay: of each operation, at the types that it has there, the first line of each outcome
    and family."""
    types_of_name = defaultdict(set)
    for operation, expected in stored.items():
        if expected != b"malformed":
            name, kind, *_ = operation.split(b" ") + [b""]
            types_of_name[name].add(kind)
    sample, seen = {}, set()
    for operation, expected in stored.items():
        words = operation.split(b" ")
        if expected == b"malformed" or b"%" in operation or not are_parsers_of_kit(words) or words[0] == b"load" and words[3:]:
            continue
        types = types_of_name[words[0]]
        # `inside`, `family`, `convert` and `tool` name no type in this place
        widest = [kind for kind in (b"any", b"ip", b"v6", b"v4") if kind in types] or [words[1]]
        wanted = widest[: 2 if words[0].startswith(b"cidr.") and widest[0] == b"any" else 1]
        of = key(operation)[: 1 if operation.startswith(b"inside.") else None], outcome(expected), b":" in operation
        if words[1] in wanted and of not in seen:
            seen.add(of)
            sample[operation] = expected
    return sample


def are_parsers_of_kit(words):
    """Whether the parsers that a line passes are those that crates/cidr_replay knows, or it passes none."""
    passed = words[2:-1] if words[0].startswith(b"parse.") else []
    return passed in ([], [b"strict"], [b"strict", b"hrefuse"])


def files_of_runs(stored):
    """The files of both runs, and what is in them."""
    for folder, run in [(HERE, stored), (KIT, run_of_kit(stored))]:
        for name, lines in [("stdin", run.keys()), ("stdout", run.values())]:
            yield folder / name, b"".join(line + b"\n" for line in lines)


def compare():
    """Ends with the rows that the stored run does not have."""
    stored = stored_run()
    for file, text in files_of_runs(stored):
        if not text or file.read_bytes() != text:
            sys.exit(f"{file} is not what sample.py writes")
    rows = together(rows_of_no_group())
    missing = [operation.decode() for operation, expected in rows.items() if stored.get(operation) != expected]
    if missing:
        sys.exit("\n".join(["not in the stored run, or with another result:", *missing]))
    print(f"{len(rows)} rows of no group, as stored")


def write(lines_of_groups):
    """Writes all rows of no group and then lines of the groups, and the run of crates/cidr_replay."""
    sample = together(rows_of_no_group(), lines_of_groups)
    for file, text in files_of_runs(sample):
        file.write_bytes(text)
    print(f"{len(sample)} lines")


def main():
    if len(sys.argv) == 1:
        return compare()
    if sys.argv[1:] == ["write"]:
        return write(stored_lines_of_groups())
    if len(sys.argv) != 3:
        sys.exit(__doc__)
    lines = read_lines(sys.argv[1], sys.argv[2])
    places, each = most_that_fit(lines, SIZE - len(OTHER_LINES))
    place_of = {operation: place for place, (operation, _) in enumerate(lines)}
    places = sorted({*places, *(place_of[operation] for operation in CHOSEN)})
    write(lines[place] for place in places)
    print(f"{each} of the groups for an operation and type")


if __name__ == "__main__":
    main()
