#!/usr/bin/env python3
"""vectors.py: what Python's `ipaddress` says of 200,000 strings, which vectors.mjs compares with the package.

    vectors.py write       writes vectors.txt, a sum for each 1,000 strings: two minutes of processor time
    vectors.py show BLOCK  prints the strings of a block, each with its answers

The strings are made from a generator of numbers that vectors.mjs has too, so that they need not be kept. The library has no part
in this.
"""
import hashlib
import ipaddress
import sys
from pathlib import Path

BLOCKS, EACH = 200, 1000
FULL = 0xFFFFFFFF


class Numbers:
    """The generator `mulberry32`."""

    def __init__(self, seed):
        self.state = seed

    def next(self, below):
        self.state = (self.state + 0x6D2B79F5) & FULL
        t = self.state
        t = (t ^ t >> 15) * (t | 1) & FULL
        t ^= t + ((t ^ t >> 7) * (t | 61) & FULL) & FULL
        return ((t ^ t >> 14) & FULL) % below


def string(r):
    """A string that may be a network, or nearly one."""
    width = 32 if r.next(2) == 0 else 128
    n = 0
    for _ in range(width // 16):
        n = n << 16 | (0, r.next(65536), r.next(65536) & r.next(65536), r.next(16))[r.next(4)]
    length = r.next(width + 1)
    if r.next(100) < 85:
        n = n >> (width - length) << (width - length)
    if width == 32:
        s = ".".join(str(n >> shift & 255) for shift in (24, 16, 8, 0))
    else:
        kind = r.next(5)
        groups = [n >> shift & 0xFFFF for shift in range(112, -16, -16)]
        shown = [f"{group:04x}" if kind == 0 else f"{group:X}" if kind == 1 else f"{group:x}" for group in groups]
        if r.next(8) == 0:
            shown[6:] = [".".join(str(n >> shift & 255) for shift in (24, 16, 8, 0))]
        # a run of zeros may be left out, and not always the longest one
        begin = r.next(8)
        end = begin
        while end < 8 and groups[end] == 0 and end < len(shown):
            end += 1
        s = f"{':'.join(shown[:begin])}::{':'.join(shown[end:])}" if end > begin and kind and (len(shown) == 8 or end <= 6) else ":".join(shown)
    if r.next(100) < 85:
        s += f"/{'0' if r.next(50) == 0 and length < 100 else ''}{length}"
    if r.next(100) < 12:
        at, cut = r.next(len(s)), r.next(2)
        s = s[:at] + ("", ".", ":", "/", "0", "f", "g", "-", " ", "::", "256", "%1", "\u0663", "x")[r.next(14)] + s[at + cut:]
    return s


def network(s):
    """What Python reads a string as: it also takes a mask behind the slash and the zone of an address, which the library does not."""
    behind = s.partition("/")[2]
    try:
        made = ipaddress.ip_network(s)
    except ValueError:
        return None
    return None if "%" in s or "/" in s and not (behind.isascii() and behind.isdigit()) else made


def show(n):
    """A network or an address; one that is IPv4-mapped as RFC 5952 (5) recommends, which Python before 3.13 does not."""
    a = n.network_address if isinstance(n, (ipaddress.IPv4Network, ipaddress.IPv6Network)) else n
    length = n.prefixlen if a is not n else n.max_prefixlen
    mapped = a.ipv4_mapped if a.version == 6 else None
    return (f"::ffff:{mapped}" if mapped else str(a)) + ("" if length == a.max_prefixlen else f"/{length}")


def answers(s, before, r):
    """A line of what is said of a string, and the network that it is."""
    n = network(s)
    index = r.next(65536)
    if n is None:
        return f"{s} -", before
    same = n.version == before.version
    halves = [show(h) for h in n.subnets()] if n.prefixlen < n.max_prefixlen else []
    said = [s, show(n), show(n.network_address) + f"/{n.prefixlen}", show(n[0]), show(n[-1]), show(n.netmask), show(n.hostmask), n.num_addresses,
            int(n[0]), n.version, n.prefixlen, show(n.supernet()) if n.prefixlen else "-", ",".join(halves) or "-", n.exploded,
            show(n[index]) if index < n.num_addresses else "-",
            int(same and before.subnet_of(n)), int(same and n.overlaps(before)),
            (n.version, n) < (before.version, before) if same else n.version < before.version,
            show(n.supernet(new_prefix=n.prefixlen // 2))]
    return " ".join(str(int(it) if isinstance(it, bool) else it) for it in said), n


def block(number):
    r, before = Numbers(number), ipaddress.ip_network("10.0.0.0/8")
    for _ in range(EACH):
        line, before = answers(string(r), before, r)
        yield line + "\n"


def main():
    if sys.argv[1:] == ["write"]:
        sums = [hashlib.sha256("".join(block(number)).encode()).hexdigest()[:32] for number in range(BLOCKS)]
        (Path(__file__).parent / "vectors.txt").write_text("\n".join(sums) + "\n")
    elif len(sys.argv) == 3 and sys.argv[1] == "show":
        sys.stdout.writelines(block(int(sys.argv[2])))
    else:
        sys.exit(__doc__)


if __name__ == "__main__":
    main()
