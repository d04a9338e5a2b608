#!/usr/bin/env python3
"""calls.py HEADER LIBRARY TURNS: calls each function of the library for C with arguments made at random, from a fixed seed, and
prints a line of JSON for each call, which calls.mjs makes again by WebAssembly: its arguments, the memory that they lead to
before it, what it returned, and the memory after it.

Memory is passed with 16 bytes behind it, and all of it is compared, so that what a call must not write is seen too.
"""
import base64
import ctypes
import ipaddress
import json
import random
import re
import sys

WIDTHS = {"uint8_t": 1, "uint32_t": 4, "uint64_t": 8, "size_t": 8, "char": 1, "pcidr_value": 24, "pcidr_halves": 16, "pcidr_special": 32,
          "pcidr_range": 48, "pcidr_rule": 32, "pcidr_row": 32, "pcidr_plan_row": 48, "pcidr_plan_fault": 32, "pcidr_table": 48, "pcidr_table_sizes": 32, "pcidr_file": 144, "pcidr_found": 16,
          "pcidr_payload": 32, "pcidr_prefix_row": 32, "pcidr_mmdb": 24, "pcidr_mmdb_row": 40}
POINTERS = (0, 16)  # where a pcidr_table has addresses
r = random.Random(85)


def declared(header):
    """Each call of the library: its name, and of each parameter the type, whether it is const or a pointer, and the name."""
    with open(header, encoding="utf-8") as file:
        text = re.sub(r"/\*.*?\*/", "", file.read(), flags=re.S)
    for name, given in re.findall(r"^(?:uint32_t|size_t) (pcidr_\w+)\(([^)]*)\);", text, re.M):
        parts = re.findall(r"(const )?(\w+) (\*?)(\w+)", given)
        yield name, [(kind, bool(const), bool(star), word) for const, kind, star, word in parts]


# ---- values and texts

def number(bits):
    n = r.getrandbits(bits)
    if r.random() < 0.5:
        n &= r.getrandbits(bits) & r.getrandbits(bits)
    return n >> r.randrange(bits) << r.randrange(bits) & (1 << bits) - 1


def value(kind=None):
    """The bytes of a value: a network, an address, a host, `any`, or none; many of them near each other."""
    kind = kind or r.choice(("network", "network", "network", "address", "address", "host", "any", "none"))
    if kind == "any":
        high, low, tag = 0, 0, 255
    elif kind == "none":
        high, low, tag = r.getrandbits(64), r.getrandbits(64), r.randrange(256)
    else:
        is_six = r.random() < 0.4
        width = 128 if is_six else 32
        base = r.choice((0x0A << 24, 0x0A << 24, 0xC0000200, 0xE0000000, 0)) if not is_six else r.choice((0x20010DB8 << 96, 0x20010DB8 << 96, 0xFFFF << 32, 0x2002 << 112, 0x64FF9B << 96, 0xFC << 120))
        length = width if kind == "address" else r.choice((r.randint(0, width), r.randint(width // 4, width), width))
        n = (base | number(r.choice((4, 12, width - 8)))) & (1 << width) - 1
        if kind == "network":
            n = n >> (width - length) << (width - length)
        high, low, tag = n >> 64, n & (1 << 64) - 1, length + 64 if is_six else length
    return high.to_bytes(8, "little") + low.to_bytes(8, "little") + bytes((tag,)) + (r.randbytes(7) if r.random() < 0.2 else bytes(7))


def text_of(given):
    """What Python prints of a value."""
    high, low, tag = int.from_bytes(given[:8], "little"), int.from_bytes(given[8:16], "little"), given[16]
    if tag == 255:
        return "any"
    a = ipaddress.IPv4Address(low & 0xFFFFFFFF) if tag <= 32 else ipaddress.IPv6Address(high << 64 | low)
    shown = r.choice((a.compressed, a.compressed, a.exploded, a.reverse_pointer))
    return shown if r.random() < 0.3 else f"{shown}/{tag if tag <= 32 else max(tag - 64, 0)}"


def line():
    s = text_of(value(r.choice(("network", "network", "network", "address", "host", "any"))))
    if r.random() < 0.1:
        s = f"{s.partition('/')[0]}-{text_of(value('address')).partition('/')[0]}"
    if r.random() < 0.1:
        s = s.partition("/")[0] + r.choice(("/255.255.255.0", " 0.0.0.255", "/255.0.255.0", "/33", "/08", "/"))
    if r.random() < 0.15 and s:
        i = r.randrange(len(s))
        s = s[:i] + r.choice(("", ".", ":", "/", "0", "f", "-", " ", "::", "256", "%1", "\u0663", "0x", "+")) + s[i + r.randrange(2):]
    return s


def text(name):
    many, is_plan = name in ("pcidr_read_lines", "pcidr_read_list", "pcidr_read_plan"), "plan" in name
    one = lambda: (line() + r.choice(("", " core", ",a b", " - x", " 10.0.0.1 y")) * is_plan + r.choice(("", "", "  # why", "; x")) * (is_plan or "list" in name))
    s = r.choice(("\n", "\n", "\r\n")).join(one() for _ in range(r.randrange(8))) if many else one()
    made = s.encode()
    return made + b"\xff" if r.random() < 0.03 else made


def networks(least=0, most=24):
    return [value(r.choice(("network", "network", "network", "network", "address"))) for _ in range(r.randint(least, most))]


def key(given):
    tag = given[16]
    return (0 if tag == 255 else 1 if tag < 64 else 2), int.from_bytes(given[:8], "little"), int.from_bytes(given[8:16], "little"), tag


def ascending(family=None, most=24):
    """Networks that ascend, none twice and none `any`, mostly of one family."""
    found = {it[:17] + bytes(7) for it in networks(0, most) if it[16] != 255 and (family is None or (it[16] < 64) == (family == 4))}
    return sorted(found, key=key)


# ---- calls

class Call:
    """One call: its arguments, and the memory that some of them lead to, of which each has the places of addresses."""

    def __init__(self, name):
        self.name, self.words, self.memory, self.leading = name, [], [], []

    def add_number(self, n, width):
        self.words.append({"n": str(n % (1 << 8 * width)), "w": width})

    def lead_to(self, content, leading=()):
        self.memory.append(bytes(content) + b"\xa5" * 16)
        self.leading.append(list(leading))
        return len(self.memory) - 1

    def add_memory(self, content, leading=()):
        self.words.append({"m": self.lead_to(content, leading)})

    def add_value(self, content):
        self.words.append({"v": base64.b64encode(content).decode()})

    def run(self, library, is_printed=True):
        kept = [ctypes.create_string_buffer(it, len(it)) for it in self.memory]
        for buffer, leading in zip(kept, self.leading):
            for at, to in leading:
                buffer[at:at + 8] = (ctypes.addressof(kept[to]) if to is not None else 0).to_bytes(8, "little")
        words = []
        for word in self.words:
            if "m" in word:
                words.append(ctypes.cast(kept[word["m"]], ctypes.c_void_p))
            elif "v" in word:
                words.append(Value.from_buffer_copy(base64.b64decode(word["v"])))
            else:
                words.append({1: ctypes.c_uint8, 4: ctypes.c_uint32, 8: ctypes.c_uint64}[word["w"]](int(word["n"])))
        function = getattr(library, self.name)
        function.restype = ctypes.c_uint64 if self.name in LENGTHS else ctypes.c_uint32
        code = function(*words)
        after = []
        for buffer, leading in zip(kept, self.leading):
            made = bytearray(buffer.raw)
            for at, _ in leading:
                made[at:at + 8] = bytes(8)
            after.append(bytes(made))
        if is_printed:
            before = [base64.b64encode(it).decode() for it in self.memory]
            print(json.dumps({"call": self.name, "words": self.words, "memory": before, "leading": self.leading, "code": str(code),
                              "after": [base64.b64encode(it).decode() if it != self.memory[i] or self.leading[i] else None for i, it in enumerate(after)]},
                             separators=(",", ":")))
        return code, after


class Value(ctypes.Structure):
    _fields_ = [("high", ctypes.c_uint64), ("low", ctypes.c_uint64), ("tag", ctypes.c_uint8)]


LENGTHS = set()
INPUT_ARRAYS = ("networks", "these", "those", "others", "asked", "rules", "rows", "offsets", "values", "bytes", "text")


def out_of(width):
    return b"\xa5" * width


def file_of(library):
    """The bytes of a file of tables, of which some are changed, and the struct that says where its parts lie."""
    made = ascending()
    values = [r.randbytes(r.randrange(4)) for _ in made]
    offsets = [sum(map(len, values[:i])) for i in range(len(values) + 1)]
    call = Call("pcidr_file_write")
    call.add_memory(b"".join(made)), call.add_number(len(made), 8)
    call.add_memory(b"".join(n.to_bytes(4, "little") for n in offsets)), call.add_number(len(offsets), 8)
    call.add_memory(b"".join(values)), call.add_number(offsets[-1], 8)
    call.add_memory(bytes(65536)), call.add_number(65536, 8), call.add_memory(bytes(8))
    code, after = call.run(library, False)
    assert code == 0
    content = bytearray(after[3][:int.from_bytes(after[4][:8], "little")])
    open_it = Call("pcidr_file_open")
    open_it.add_memory(content), open_it.add_number(len(content), 8), open_it.add_memory(bytes(144))
    where = open_it.run(library, False)[1][1][:144]
    kind = r.random()
    if kind < 0.15 and content:
        for _ in range(r.randint(1, 3)):
            content[r.randrange(len(content))] ^= 1 << r.randrange(8)
    elif kind < 0.2:
        content = content[:r.randrange(len(content) + 1)]
    elif kind < 0.23:
        where = bytes(b ^ (r.randrange(256) if r.random() < 0.05 else 0) for b in where)
    return bytes(content), where


def table_of(library, family, made):
    """The arrays of a look-up table, and how many steps it has."""
    call = Call(f"pcidr_ipv{family}_table_build")
    call.add_memory(b"".join(made)), call.add_number(len(made), 8)
    for _ in range(2):
        call.add_memory(bytes(1 << 14)), call.add_number(1 << 12, 8)
    call.add_memory(bytes(32))
    code, after = call.run(library, False)
    assert code == 0, code
    first, words, _, steps = (int.from_bytes(after[3][at:at + 8], "little") for at in range(0, 32, 8))
    return after[1][:first * 4], after[2][:words * 4], steps


def address_in(made, family):
    """An address, mostly one of a network of these."""
    if not made or r.random() < 0.3:
        return value("address")
    return r.choice(made)[:16] + bytes((32 if family == 4 else 192,)) + bytes(7)


def table_call(library, name, parameters):
    family = 4 if "ipv4" in name else 6
    made = ascending(family)
    first, words, steps = table_of(library, family, made)
    if r.random() < 0.2:
        first, words = (bytes(b ^ (r.randrange(256) if r.random() < 0.1 else 0) for b in array) for array in (first, words))
    if r.random() < 0.1:
        steps = r.choice((0, steps + 1, 21, 22, number(32)))
    call = Call(name)
    asked = [address_in(made, family) for _ in range(r.randrange(6))]
    room = len(asked) + r.randrange(2)
    is_built = name.endswith("build")
    sizes = [max(len(array) // 4 + (r.choice((0, 0, -1, 1)) if is_built else 0), 0) for array in (first, words)]
    table = bytes(32) + steps.to_bytes(4, "little") + len(made).to_bytes(4, "little") + bytes(8)
    for kind, const, is_pointer, word in parameters:
        if word == "table":
            call.add_memory(table, [(at, None) for at in POINTERS])
        elif word == "address":
            call.add_memory(address_in(made, family))
        elif is_pointer:
            rooms = {"first": out_of(4 * sizes[0]), "words": out_of(4 * sizes[1])} if is_built else {"first": first, "words": words}
            call.add_memory({"networks": b"".join(made), **rooms, "sizes": out_of(32), "asked": b"".join(asked), "out": out_of(4 * room)}[word])
        else:
            call.add_number({"networks_len": len(made), "first_len": sizes[0], "words_len": sizes[1], "steps": steps,
                             "asked_len": len(asked), "out_len": room - r.randrange(2) if room else 0}[word], WIDTHS[kind])
    return call


def mmdb_of(library):
    """A MaxMind DB file of IPv4 with one node, by the public format, and what `pcidr_mmdb_open` says of it: 128.0.0.0/1 has the value `hi`."""
    def string(text):
        return bytes((0x40 | len(text),)) + text.encode()

    def short(number):
        return bytes((0xA1, number))

    fields = {"binary_format_major_version": short(2), "binary_format_minor_version": short(0), "build_epoch": bytes((1, 2, 5)),
              "database_type": string("t"), "description": bytes((0xE0,)), "ip_version": short(4), "node_count": bytes((0xC1, 1)),
              "record_size": short(24)}
    metadata = bytes((0xE0 | len(fields),)) + b"".join(string(name) + field for name, field in fields.items())
    content = (1).to_bytes(3, "big") + (17).to_bytes(3, "big") + bytes(16) + string("hi") + b"\xab\xcd\xefMaxMind.com" + metadata
    if r.random() < 0.2:
        content = bytes(b ^ (r.randrange(256) if r.random() < 0.05 else 0) for b in content)
    where = ctypes.create_string_buffer(24)
    library.pcidr_mmdb_open(content, len(content), where)
    return content, where.raw if r.random() < 0.9 else r.randbytes(24)


def made_call(library, name, parameters):
    if name.startswith(("pcidr_ipv4_table_", "pcidr_ipv6_table_")):
        return table_call(library, name, parameters)
    call, counts, ends = Call(name), {}, []
    content, where = file_of(library) if name.startswith(("pcidr_file_", "pcidr_set_has")) and not name.endswith("write") else (b"", b"")
    if name.startswith("pcidr_mmdb_"):
        content, where = mmdb_of(library)
    rows = ascending() if name.endswith("_write") and r.random() < 0.8 else networks()
    for kind, const, is_pointer, word in parameters:
        width = WIDTHS[kind]
        if not is_pointer and kind == "pcidr_value":
            call.add_value(value())
        elif not is_pointer and word.endswith("_len") and word != "len":
            call.add_number(counts[word.removesuffix("_len")], width)
        elif not is_pointer:
            call.add_number({"len": r.choice((r.randrange(34), r.randrange(256))), "high": r.choice((0, 0, number(64))), "low": r.choice((0, 1, 7, number(64))),
                             "host_bits": r.randrange(6), "code": r.randrange(40), "index": r.choice((0, 1, 9, 200)),
                             "origin": r.choice((0, 1, 2, 1 << 32)), "place": r.choice((0, 0, 1, number(64))), "limit": r.choice((0, 3, 300))}[word], width)
        elif word == "text" or kind == "char" and const:
            made = text(name)
            counts[word] = len(made)
            call.add_memory(made)
        elif word == "bytes" and const:
            made = content or r.choice((b"", bytes((value()[16],)) + r.randbytes(r.randrange(20)), bytes((255, 1))))
            counts[word] = len(made)
            call.add_memory(made)
        elif kind == "pcidr_mmdb_row":
            call.add_memory(r.choice((bytes(16) + b"\xff" + bytes(23), value() + bytes(16))))
        elif kind in ("pcidr_file", "pcidr_mmdb"):
            call.add_memory(where if const else out_of(width))
        elif word == "offsets":
            sizes = [r.randrange(4) for _ in rows]
            ends = [sum(sizes[:i]) for i in range(len(sizes) + 1)]
            if r.random() < 0.1:
                ends[r.randrange(len(ends))] = r.randrange(9)
            counts[word] = len(ends)
            call.add_memory(b"".join(n.to_bytes(4, "little") for n in ends))
        elif word == "values":
            counts[word] = ends[-1]
            call.add_memory(r.randbytes(ends[-1]))
        elif kind in ("pcidr_payload", "pcidr_prefix_row"):
            made = [it + r.randrange(3).to_bytes(4, "little") + bytes((r.randrange(34), 0, r.randrange(34) if kind == "pcidr_prefix_row" else 0, 0))
                    for it in networks()]
            counts[word] = len(made)
            call.add_memory(b"".join(made))
        elif kind in ("pcidr_rule", "pcidr_row"):
            if const:
                made = [it + r.randrange(3).to_bytes(8, "little") for it in networks()]
                counts[word] = len(made)
                call.add_memory(b"".join(made))
            else:
                counts[word] = r.choice((30, 30, 2))
                call.add_memory(out_of(width * counts[word]))
        elif kind == "pcidr_value" and any(other[3] == f"{word}_len" for other in parameters):
            if word == "out":
                counts[word] = r.choice((300, 40, 3, 0))
                call.add_memory(out_of(24 * counts[word]))
            else:
                made = rows if word == "networks" else networks(0, 8)
                if r.random() < 0.05:
                    made = [*made, value("none")]
                counts[word] = len(made)
                call.add_memory(b"".join(made))
        elif any(other[3] == f"{word}_len" for other in parameters):
            counts[word] = r.choice((8000, 160, 160, 20, 0)) if width == 1 else r.choice((300, 30, 3, 0))
            call.add_memory(out_of(width * counts[word]))
        elif kind == "pcidr_value" and const:
            call.add_memory(value(r.choice((None, "address", "network"))))
        elif word == "count" and "in_place" in name:
            call.add_memory(r.choice((0, 3, 30)).to_bytes(8, "little"))
        else:
            call.add_memory(out_of(width))
    return call


def main():
    header, library, turns = sys.argv[1], ctypes.CDLL(sys.argv[2]), int(sys.argv[3])
    calls = list(declared(header))
    with open(header, encoding="utf-8") as file:
        LENGTHS.update(re.findall(r"^size_t (pcidr_\w+)\(", file.read(), re.M))
    for name, parameters in calls:
        for _ in range(turns if parameters else 1):
            made_call(library, name, parameters).run(library)


main()
