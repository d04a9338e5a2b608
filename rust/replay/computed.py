"""Rows of the sample whose results Python's `ipaddress` and whole numbers of unlimited size give."""
import ipaddress
from itertools import product

# The address around which every length is tried, and the lengths at which it steps.
AROUND = [
    ("v4", "192.0.2.181", [0, 1, 8, 24, 31, 32]),
    ("v6", "2001:db8:1234:5678:9abc:def0:fedc:ba98", [0, 1, 63, 64, 65, 127, 128]),
]

# More addresses, whose networks of every length are compared.
NETWORKS = [
    ("v4", "0.0.0.0"),
    ("v4", "255.255.255.255"),
    ("v4", "10.171.205.239"),
    ("v6", "::"),
    ("v6", "ffff:ffff:ffff:ffff:ffff:ffff:ffff:ffff"),
    ("v6", "123:4567:89ab:cdef:fedc:ba98:7654:3210"),
]

# More addresses, whose hosts of every length step to their neighbours.
HOSTS = [
    ("v4", "0.0.0.0"),
    ("v4", "255.255.255.255"),
    ("v4", "192.0.2.255"),
    ("v4", "10.171.255.255"),
    ("v6", "::"),
    ("v6", "ffff:ffff:ffff:ffff:ffff:ffff:ffff:ffff"),
    ("v6", "::ffff:ffff:ffff:ffff"),
    ("v6", "2001:db8:0:1:7fff:ffff:ffff:ffff"),
]

# The addresses of which prefix bytes of every length are read and written.
PREFIXES = [("v4", "165.90.195.60"), ("v6", "a55a:c33c:9669:ff0:1e87:2db4:4bd2:78e1")]

# The calls that make a network or a host of a length, each with its type; the types of either family take both.
MADE = [
    ("cidr.new", "v4"),
    ("cidr.new", "v6"),
    ("cidr.new", "ip"),
    ("cidr.new", "any"),
    ("inet.new", "v4"),
    ("inet.new", "v6"),
    ("inet.new", "ip"),
]

# The address of zeros and that of ones, of each family.
LIMITS = [
    ("v4", "0.0.0.0", "255.255.255.255"),
    ("v6", "::", "ffff:ffff:ffff:ffff:ffff:ffff:ffff:ffff"),
]

# The types that compact bytes are read as, each with the operation.
READ = [
    ("compact.from", "v4"),
    ("compact.from", "v6"),
    ("compact.from", "ip"),
    ("compact.from", "any"),
    ("hostcompact.from", "v4"),
    ("hostcompact.from", "v6"),
    ("hostcompact.from", "ip"),
]

# What stands before the error of a length, but for a host's.
OF_NETWORK = "invalid%20length%20for%20network:%20"

HOST_PART = "err InvalidHostPart =host%20part%20of%20address%20was%20not%20zero"


def network(address, length):
    return ipaddress.ip_network((address, length), strict=False)


def printed(address):
    """The canonical form of an address (RFC 5952), with the last 32 bits of IPv4-mapped ones as IPv4."""
    mapped = getattr(address, "ipv4_mapped", None)
    return f"::ffff:{mapped}" if mapped else str(address)


def boolean(value):
    return "true" if value else "false"


def too_long(address, length, before):
    """The error of a length above the width."""
    limit = f"Ipv{address.version}%20(maximum:%20{address.max_prefixlen})"
    return f"err NetworkLengthTooLongError ={before}Network%20length%20{length}%20is%20too%20long%20for%20{limit}"


def made(operation, kind, address, length):
    """The network or host of an address and a length: the length is tested first, then a network's host bits."""
    line = f"{operation} {kind} {printed(address)} {length}"
    if length > address.max_prefixlen:
        return line, too_long(address, length, "" if operation == "inet.new" else OF_NETWORK)
    if operation == "cidr.new" and address != network(address, length)[0]:
        return line, HOST_PART
    return line, f"ok {printed(address)}/{length}"


def made_pair(kind, first, second, length):
    """The pair of two addresses and a length: the length is tested first, then whether they are of one network."""
    line = f"pair.from_addresses {kind} {printed(first)} {printed(second)} {length}"
    if length > first.max_prefixlen:
        return line, too_long(first, length, OF_NETWORK)
    if network(first, length) != network(second, length):
        return line, "err NotInSharedNetwork =addresses%20not%20in%20shared%20network"
    return line, f"ok {printed(first)}/{length} {printed(second)}/{length}"


def new():
    """Each length that a byte has, at the limits of both families."""
    for (operation, kind), (family, *limits), length in product(MADE, LIMITS, range(256)):
        if kind in ("ip", "any", family):
            yield from (made(operation, kind, ipaddress.ip_address(it), length) for it in limits)
    for (family, *limits), length in product(LIMITS, range(256)):
        for kind in (family, "ip"):
            yield made_pair(kind, *map(ipaddress.ip_address, limits), length)


def parts(kind, address, length):
    """A network's ends, mask and length; that it contains the address, and whether the address is its first."""
    net = network(address, length)
    text = f"{printed(net[0])}/{length}"
    is_full = boolean(length == address.max_prefixlen)
    ends = " ".join(map(printed, [net[0], net[-1], net.netmask]))
    yield f"cidr.show {kind} {text}", f"{ends} {length} Ipv{address.version} {is_full}"
    yield f"cidr.contains {kind} {text} {printed(address)}", "true"
    yield made("cidr.new", kind, address, length)


def wraps(kind, address, length):
    """The steps at the ends of a network."""
    net = network(address, length)
    first, last = f"{printed(net[0])}/{length}", f"{printed(net[-1])}/{length}"
    yield f"inet.increment {kind} {last}", f"true {first}"
    yield f"inet.decrement {kind} {first}", f"true {last}"
    yield f"inet.next {kind} {last}", "none"
    yield f"inet.previous {kind} {first}", "none"


def neighbours(kind, address, length):
    """The steps from a host to the next one of its network and back, which wrap at the ends."""
    net = network(address, length)
    after = net[(int(address) - int(net[0]) + 1) % net.num_addresses]
    low, high = f"{printed(address)}/{length}", f"{printed(after)}/{length}"
    is_last = boolean(address == net[-1])
    yield f"inet.increment {kind} {low}", f"{is_last} {high}"
    yield f"inet.decrement {kind} {high}", f"{is_last} {low}"
    yield f"inet.overflowing_add {kind} {low} 1", f"{high} {is_last}"
    yield f"inet.overflowing_sub {kind} {high} 1", f"{low} {is_last}"


def step_sizes(size):
    """Steps about the number of addresses and about the limits of 32, 64 and 128 bits."""
    sizes = {0, 1, size - 1, size, 2**32 - 1, 2**32, 2**64, 2**128 - 1}
    return sorted(n for n in sizes if n < 2**128)


def steps(kind, address, length):
    """Sums and differences as whole numbers of unlimited size give them."""
    net = network(address, length)
    size, part = net.num_addresses, int(address) - int(net[0])
    for step in step_sizes(size):
        for name, end in [("add", part + step), ("sub", part - step)]:
            is_inside = 0 <= end < size
            host = f"{net[end % size]}/{length}"
            for suffix in ["", "_u32"] if kind == "v4" and step < 2**32 else [""]:
                words = f"{kind} {address}/{length} {step}"
                yield f"inet.overflowing_{name}{suffix} {words}", f"{host} {boolean(not is_inside)}"
                yield f"inet.{name}{suffix} {words}", host if is_inside else "malformed"


def compact(operation, kind, data):
    """What compact bytes are read as: the tag, the number of octets, the family and the host bits, in this order."""
    if not data:
        return "err Truncated =compact%20bytes%20end%20too%20early"
    tag = data[0]
    if not (tag <= 32 or 64 <= tag <= 192 or tag == 255):
        return "err InvalidTag =invalid%20tag"
    if tag == 255:
        return "ok any 1" if kind == "any" else "err InvalidAny =invalid%20value:%20`any`"
    version, length, count = (4, tag, 4) if tag <= 32 else (6, tag - 64, 16)
    if len(data) <= count:
        return "err Truncated =compact%20bytes%20end%20too%20early"
    if kind in ("v4", "v6") and kind != f"v{version}":
        return f"err InvalidFamily =invalid%20type:%20`Ipv{version}Addr`"
    address = ipaddress.ip_address(data[1 : count + 1])
    if operation == "compact.from" and address != network(address, length)[0]:
        return HOST_PART
    return f"ok {printed(address)}/{length} {count + 1}"


def tags():
    """Each tag before sixteen octets of zeros and of ones; each beginning of three values."""
    for tag, octet in product(range(256), [0, 255]):
        yield bytes([tag] + [octet] * 16)
    for value in ["8020010db812345678" + 16 * "0", "18c0000201", "080a000000"]:
        data = bytes.fromhex(value)
        yield from (data[:count] for count in range(len(data) + 1))


def prefixes(kind, address, length):
    """The prefix bytes of a network, the bits after the prefix zero and set; beginnings that are too short."""
    net = network(address, length)
    used = 1 + (length + 7) // 8
    zeros = bytes([length]) + net[0].packed
    ones = bytes([length]) + net[-1].packed + 16 * b"\xff"
    text = f"{printed(net[0])}/{length}"
    yield f"prefix.to {kind} {text}", f"x{zeros[:used].hex()}"
    for data in [zeros[:used], zeros + bytes(16), ones]:
        yield f"prefix.from {kind} x{data.hex()}", f"ok {text} {used}"
    for count in sorted({0, min(1, used - 1), used - 1}):
        yield f"prefix.from {kind} x{ones[:count].hex()}", "err Truncated =prefix%20bytes%20end%20too%20early"


def too_long_prefixes(kind, address):
    """Each length above the width, by turns with octets and with none."""
    for length in range(address.max_prefixlen + 1, 256):
        data = bytes([length]) + address.packed * (length % 2)
        yield f"prefix.from {kind} x{data.hex()}", "err LengthTooLong =prefix%20length%20is%20too%20long"


def every_length(rows, kind, address):
    for length in range(address.max_prefixlen + 1):
        yield from rows(kind, address, length)


def computed_rows():
    """All of these, each an operation and its result."""
    for kind, text, lengths in AROUND:
        address = ipaddress.ip_address(text)
        yield from every_length(parts, kind, address)
        yield from every_length(wraps, kind, address)
        for length in lengths:
            yield from steps(kind, address, length)
    for rows, addresses in [(parts, NETWORKS), (neighbours, HOSTS), (prefixes, PREFIXES)]:
        for kind, text in addresses:
            yield from every_length(rows, kind, ipaddress.ip_address(text))
    for kind, text in PREFIXES:
        yield from too_long_prefixes(kind, ipaddress.ip_address(text))
    for (operation, kind), data in product(READ, tags()):
        yield f"{operation} {kind} x{data.hex()}", compact(operation, kind, data)
    yield from new()
