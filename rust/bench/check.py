#!/usr/bin/env python3
"""Judges smallest tables with the same forwarding that `tables` writes, which `cargo` builds first, and what tables made ready find.

    check.py            a part of the tables, within seconds
    check.py whole      all of them, also beside beside/smallest.rs

For each table it makes, without and with holes: the rows ascend, each network once; they forward each address as the
table does, which two sweeps over the boundaries of all rows tell; and they are as few as wanted. What is wanted comes
from none of our programs: for all forwardings of the eight networks of three bits over three values and none from
trials of each value and of no row at each network; for 900,000 networks of 900,000 values from their number. For some
of the random nested tables of both families it comes from such trials too, and for all, of the whole, from the
program beside. Prints the tables that differ, and how many were judged.
"""
import random
import socket
import subprocess
import sys
from pathlib import Path

BITS = 129  # of an address: that of the family, and 32 or 128
VALUES = (None, 1, 2, 3)


# ---- networks: the first address as a number of 129 bits, and how many bits they have
def network_of(text):
    if text == "any":
        return 0, 0
    address, _, length = text.partition("/")
    if ":" in address:
        number = 1 << 128 | int.from_bytes(socket.inet_pton(socket.AF_INET6, address), "big")
        return number, 1 + int(length or 128)
    return int.from_bytes(socket.inet_aton(address), "big") << 96, 1 + int(length or 32)


def text_of(network):
    start, bits = network
    if bits == 0:
        return "any"
    if start >> 128:
        return f"{socket.inet_ntop(socket.AF_INET6, (start - (1 << 128)).to_bytes(16, 'big'))}/{bits - 1}"
    return f"{socket.inet_ntoa((start >> 96).to_bytes(4, 'big'))}/{bits - 1}"


def forwarding(rows):
    """Where the value changes, in ascending order, by the longest match: no two tables that forward alike differ in it."""
    changes, open_rows = [], [(1 << BITS, None)]

    def put(at, value):
        while changes and changes[-1][0] == at:
            changes.pop()
        if (changes[-1][1] if changes else None) != value:
            changes.append((at, value))

    for (start, bits), value in sorted(rows, key=lambda row: row[0]):
        while open_rows[-1][0] <= start:
            end = open_rows.pop()[0]
            put(end, open_rows[-1][1])
        put(start, value)
        open_rows.append((start + (1 << BITS - bits), value))
    while len(open_rows) > 1:
        end = open_rows.pop()[0]
        put(end, open_rows[-1][1])
    return changes


# ---- the fewest rows, by trials
def fewest_below(low, high, values):
    """By the value that is inherited: the fewest rows for a network, from those for its halves."""
    row = 1 + min(low[value] + high[value] for value in values)
    return {inherited: min(row, low[inherited] + high[inherited]) for inherited in low}


def fewest_of(value, values, wanted):
    row = 1 if wanted in values else 1_000_000
    return {inherited: 0 if inherited == wanted else row for inherited in value}


def fewest_forwarding(wanted, values, known={}):
    """The fewest rows for the networks of some bits with these values."""
    key = (wanted, values)
    if key not in known:
        half = len(wanted) // 2
        known[key] = (
            fewest_below(fewest_forwarding(wanted[:half], values), fewest_forwarding(wanted[half:], values), values)
            if half
            else fewest_of(VALUES, values, wanted[0])
        )
    return known[key]


def fewest_table(rows, start, bits, inherited, values, all_values):
    own = [value for network, value in rows if network == (start, bits)]
    inherited = own[0] if own else inherited
    rest = [row for row in rows if row[0][1] > bits]
    if not rest:
        return fewest_of(all_values, values, inherited)
    middle = start + (1 << BITS - bits - 1)
    low = [row for row in rest if row[0][0] < middle]
    high = [row for row in rest if row[0][0] >= middle]
    return fewest_below(
        fewest_table(low, start, bits + 1, inherited, values, all_values),
        fewest_table(high, middle, bits + 1, inherited, values, all_values),
        values,
    )


# ---- tables
def forwardings_of_three_bits(step):
    for code in range(0, 4**8, step):
        wanted = tuple(VALUES[code >> 2 * at & 3] for at in range(8))
        rows = [((at << 125, 4), value) for at, value in enumerate(wanted) if value is not None]
        yield rows, [
            fewest_forwarding(wanted, VALUES[1:])[None],
            fewest_forwarding(wanted, VALUES)[None],
        ]


def random_tables(count, every):
    numbers = random.Random(20261126)
    for index in range(count):
        families = numbers.choice(((0,), (1,), (0, 1)))
        front = numbers.randrange(26)
        steps = numbers.choice((3, 6, 6, 40))
        shared = [numbers.getrandbits(128) for _ in families]
        rows = {}
        if numbers.randrange(8) == 0:
            rows[0, 0] = numbers.randrange(4)
        for _ in range(numbers.randrange(14)):
            family = numbers.choice(families)
            length = min(front + numbers.randrange(steps + 1), 100 if family else 32)
            kept = shared[families.index(family)] >> 128 - front << 128 - front if front else 0
            address = (kept | numbers.getrandbits(128 - front)) >> 128 - length << 128 - length
            rows[family << 128 | address, 1 + length] = numbers.randrange(4)
        rows = list(rows.items())
        wanted = [None, None]
        if index % every == 0:
            values = tuple(range(4))
            all_values = (None, *values)
            wanted = [fewest_table(rows, 0, 0, None, it, all_values)[None] for it in (values, all_values)]
        yield rows, wanted


def tables_of_many_rows(count):
    """Networks of few bits, many in others and at their ends, and such of all bits, which are spread evenly."""
    numbers = random.Random(20261127)
    for index in range(count):
        kind = ("ipv4", "ipv6", "any")[index % 3]
        few = 0xC0008003C0008003C0008003C0008003 if numbers.randrange(3) else (1 << 128) - 1
        rows = {}
        for _ in range(numbers.choice((3, 30, 100, 400))):
            family = numbers.randrange(2) if kind == "any" else kind == "ipv6"
            length = numbers.randrange(129 if family else 33)
            address = (numbers.getrandbits(128) & few) >> 128 - length << 128 - length
            rows[family << 128 | address, 1 + length] = numbers.getrandbits(32)
        if kind == "any" and numbers.randrange(2):
            rows[0, 0] = numbers.randrange(4)
        yield kind, rows


def table_of_routes(count, turns):
    """Networks of IPv4, so many that most blocks of addresses have nodes, and short ones among them. One in so many turns
    may have more than 24 bits, so that nodes are of up to three or four steps."""
    numbers = random.Random(20261128)
    rows = {}
    for index in range(count):
        length = index % 25 if index < 1000 else numbers.randrange(14, 25 if index % turns else 33)
        rows[numbers.getrandbits(128) >> 128 - length << 128 - length, 1 + length] = index
    yield "ipv4", dict(sorted(rows.items()))


def different_values(count):
    yield [((at << 104, 25), at) for at in range(count)], [count, None]


# ---- judged
def answers(lines):
    """The rows of each answer."""
    rows = []
    for line in lines:
        network, _, value = line.partition(" ")
        if value:
            rows.append((network_of(network), None if value == "none" else int(value)))
        else:
            yield rows, line
            rows = []


def asked_of(kind, rows):
    """For each network itself, the next shorter one, and the addresses at both ends and beyond them."""
    for start, bits in rows:
        yield start, bits
        if bits > (kind != "any"):
            yield start >> BITS - bits + 1 << BITS - bits + 1, bits - 1
        for at in (start - 1, start, start + (1 << BITS - bits) - 1, start + (1 << BITS - bits)):
            family = at >> 128
            if at in range(1 << BITS) and kind in ("any", ("ipv4", "ipv6")[family]):
                yield (at, BITS) if family else (at >> 96 << 96, 33)


def longest(rows, network):
    """The value of the longest network that contains it."""
    start, bits = network
    for length in range(bits, -1, -1):
        value = rows.get((start >> BITS - length << BITS - length, length))
        if value is not None:
            return str(value)
    return "none"


def judge_found(program, name, tables):
    given, wanted, count = {}, {}, 0
    for kind, rows in tables:
        asked = list(asked_of(kind, list(rows)[:5000]))
        lines = [f"{text_of(network)} {value}" for network, value in rows.items()]
        lines += [f"ask {text_of(network)}" for network in asked]
        given.setdefault(kind, []).extend([*lines, "find"])
        wanted.setdefault(kind, []).extend((len(rows), network, longest(rows, network)) for network in asked)
        count += 1
    differ, sum_asked = 0, 0
    for kind, lines in given.items():
        written = subprocess.run([program, kind], input="\n".join(lines) + "\n", capture_output=True, text=True, check=True)
        found = written.stdout.splitlines()
        differ += int(len(found) != len(wanted[kind]))
        sum_asked += len(found)
        for value, (size, network, right) in zip(found, wanted[kind]):
            if value != right:
                differ += 1
                print(f"{name}, {kind}, {size} rows: {text_of(network)} has {value}, not {right}", file=sys.stderr)
    print(f"{name}: {count} tables, asked {sum_asked} times; {differ} differ")
    return differ


def bits_of(network):
    start, bits = network
    return f"{start >> BITS - bits:0{bits}b}" if bits else "-"


def judge(program, name, tables, beside):
    tables = list(tables)
    given, also = [], []
    for rows, _ in tables:
        for what in ("smallest", "holes"):
            given += [f"{text_of(network)} {value}" for network, value in rows] + [what]
            if beside:
                also += [f"{bits_of(network)} {value}" for network, value in sorted(rows)] + [what]
    written = subprocess.run([program, "any"], input="\n".join(given) + "\n", capture_output=True, text=True, check=True)
    counts = []
    if beside:
        count = subprocess.run([beside, "count"], input="\n".join(also) + "\n", capture_output=True, text=True, check=True)
        counts = [int(line) for line in count.stdout.split()]
    found = list(answers(written.stdout.splitlines()))
    differ = int(len(found) != 2 * len(tables)) + int(bool(beside) and len(counts) != len(found))
    for index, (rows, last) in enumerate(found):
        table, wanted = tables[index // 2]
        wanted = wanted[index % 2]
        wrong = []
        if last != "true":
            wrong.append("`forwards_same` denies it")
        if any(one[0] >= other[0] for one, other in zip(rows, rows[1:])):
            wrong.append("the rows do not ascend")
        if index % 2 == 0 and any(value is None for _, value in rows):
            wrong.append("a hole")
        if forwarding(rows) != forwarding(table):
            wrong.append("another forwarding")
        if wanted is not None and len(rows) != wanted:
            wrong.append(f"{len(rows)} rows, not {wanted}")
        if counts and len(rows) > counts[index]:
            wrong.append(f"{len(rows)} rows, and {counts[index]} beside")
        if wrong:
            differ += 1
            print(f"{name}, table {index // 2}: {', '.join(wrong)}", file=sys.stderr)
    print(f"{name}: {len(tables)} tables, each without and with holes; {differ} differ")
    return differ


def main():
    here, whole = Path(__file__).resolve().parent, sys.argv[1:] == ["whole"]
    subprocess.run(["cargo", "build", "--quiet", "--offline"], cwd=here, check=True)
    program, beside = here / "target" / "debug" / "tables", None
    if whole:
        beside = here / "target" / "smallest"
        source = here / "beside" / "smallest.rs"
        subprocess.run(["rustc", "-O", "--edition", "2021", "-o", beside, source], check=True)
    differ = judge(program, "forwardings of three bits", forwardings_of_three_bits(1 if whole else 29), beside)
    differ += judge(program, "random nested tables", random_tables(*((100_000, 50) if whole else (1_000, 10))), beside)
    differ += judge_found(program, "look-ups", tables_of_many_rows(3_000 if whole else 90))
    differ += judge_found(program, "look-ups in many rows", table_of_routes(900_000 if whole else 50_000, 16))
    if whole:
        differ += judge(program, "different values", different_values(900_000), beside)
    sys.exit(differ > 0)


if __name__ == "__main__":
    main()
