"""Rows of networks and addresses, whose results Python's `ipaddress` and whole numbers give."""
from ipaddress import IPv4Address, IPv6Address, ip_address, ip_network
from itertools import product
from random import Random

from shown import ANY, WHOLES, boolean, network, option, option_of, printed, shown, tagged, text

WIDTHS = [(4, 32), (6, 128)]
OTHER_FAMILY = {4: "2001:db8::/32", 6: "192.0.2.0/24"}


def parent_of(kind, net):
    """The network that is twice as large: of a whole family, in the type of both, that of all addresses."""
    if net == ANY or (net.prefixlen == 0 and kind != "any"):
        return None
    return ANY if net.prefixlen == 0 else net.supernet()


def halves_of(net):
    if net == ANY:
        return WHOLES
    return list(net.subnets()) if net.prefixlen < net.max_prefixlen else None


def sibling_of(kind, net):
    parent = parent_of(kind, net)
    return None if parent is None else next(half for half in halves_of(parent) if half != net)


def contains(outer, inner):
    if ANY in (outer, inner):
        return outer == ANY
    return outer.version == inner.version and inner.subnet_of(outer)


def spanning_of(kind, net, other):
    while not contains(net, other):
        net = parent_of(kind, net)
    return net


def tree_rows(kind, net, others):
    """The calls on a network as a node of the tree."""
    row = lambda name, *words: " ".join([f"tree.{name}", kind, text(net), *map(str, words)])
    bits = 0 if net == ANY else net.prefixlen + (kind == "any")
    yield row("parent"), option_of(kind, parent_of(kind, net))
    yield row("sibling"), option_of(kind, sibling_of(kind, net))
    halves = halves_of(net)
    yield row("halves"), option(halves and f"({', '.join(shown(kind, half) for half in halves)})")
    for length in sorted({0, bits // 2, bits, bits + 1}):
        wider = net if length <= bits else None
        for _ in range(bits - length):
            wider = parent_of(kind, wider)
        yield row("supernet", length), option_of(kind, wider)
    for other in others:
        is_sibling = sibling_of(kind, net) == other
        yield row("is_sibling_of", text(other)), boolean(is_sibling)
        yield row("overlaps", text(other)), boolean(contains(net, other) or contains(other, net))
        yield row("spanning", text(other)), shown(kind, spanning_of(kind, net, other))


def subnet_at(net, length, index):
    """The network at an index, whose first address is as many addresses further."""
    if not net.prefixlen <= length <= net.max_prefixlen or index >= 1 << (length - net.prefixlen):
        return None
    return network(net[0] + (index << (net.max_prefixlen - length)), length)


def counted(count):
    """The two bounds of a size hint that is exact, where the number is below 2^64."""
    return f"({count}, Some({count}))" if count < 2**64 else f"({2**64 - 1}, None)"


def subnets_answer(kind, net, length, n):
    """The ends of a range of indexes move."""
    if not net.prefixlen <= length <= net.max_prefixlen:
        return "None"
    low, high = 0, 1 << (length - net.prefixlen)
    taken, hint = [], counted(high)
    for step in ["front", "back", "skip", "front", "back"]:
        index = None
        if step == "skip":
            low = min(low + n, high)
        if low < high:
            index = high - 1 if step == "back" else low
            low, high = (low, high - 1) if step == "back" else (low + 1, high)
        taken.append(option_of(kind, None if index is None else subnet_at(net, length, index)))
    return f"({hint}, ({', '.join(taken[:3])}), {taken[3]}, {taken[4]})"


def usable_answer(kind, net):
    """The ends of the usable hosts and how many are left; of IPv4 the first and last address are not (RFC 3021)."""
    first, last = net[0], net[-1]
    if net.version == 4 and net.prefixlen < 31:
        first, last = first + 1, last - 1
    host = lambda address: option(tagged(kind, net.version, f"{printed(address)}/{net.prefixlen}"))
    left = max(int(last) - int(first) - 1, 0)
    back = "None" if first == last else host(last)
    return f"(({host(first)}, {back}), {option(left if left < 2**64 else None)})"


def quoted(name):
    return f'"{name}"'


def reverse_name_of(net):
    """The name of the first address without the labels of its host part."""
    width = 8 if net.version == 4 else 4
    if net.prefixlen % width:
        return None
    return quoted(net[0].reverse_pointer.split(".", (net.max_prefixlen - net.prefixlen) // width)[-1])


def numbered_rows(kind, net, rng):
    """The calls on subnets, neighbours, masks and addresses."""
    row = lambda name, *words: " ".join([f"network.{name}", kind, text(net), *map(str, words)])
    length, width, count = net.prefixlen, net.max_prefixlen, net.num_addresses
    for inner in sorted({length - 1, length, min(length + 9, width), width, width + 1} - {-1}):
        number = 1 << max(inner - length, 0)
        for index in sorted({number - 1, number, rng.randrange(number)}):
            if index < 2**128:
                yield row("subnet", inner, index), option_of(kind, subnet_at(net, inner, index))
        n = min(rng.randrange(number + 1), 2**128 - 1)
        yield row("subnets", inner, n), subnets_answer(kind, net, inner, n)
    yield row("address_count"), option(count if count < 2**128 else None)
    after, before = int(net[-1]) + 1, int(net[0]) - 1
    whole = type(net[0])
    next_net = network(whole(after), length) if after < 2**width else None
    yield row("next_network"), option_of(kind, next_net)
    yield row("previous_network"), option_of(kind, network(whole(before), length) if before >= 0 else None)
    yield row("host_mask"), printed(net.hostmask)
    for index in sorted({0, count - 1, count, rng.randrange(count)}):
        if index < 2**128:
            yield row("nth", index), option(printed(net[index]) if index < count else None)
            if index < count:
                yield row("position", printed(net[index])), option(index)
    for outside in sorted({after, before}):
        if 0 <= outside < 2**width:
            index = outside - int(net[0])
            yield row("position", printed(whole(outside))), option(index if 0 <= index < count else None)
    if kind == "ip":
        other = "::" if net.version == 4 else "0.0.0.0"
        yield row("position", other), "None"
    yield row("usable_hosts"), usable_answer(kind, net)
    yield row("reverse_name"), option(reverse_name_of(net))


def mask_rows(kind, address):
    """The lengths whose network mask or host mask an address is."""
    width, number = address.max_prefixlen, int(address)
    ones = 2**width - 1
    masks = {ones ^ (ones >> length): length for length in range(width + 1)}
    yield f"address.mask_length {kind} {printed(address)}", option(masks.get(number))
    yield f"address.host_mask_length {kind} {printed(address)}", option(masks.get(number ^ ones))


def address_rows(kind, address):
    yield f"address.to_number {kind} {printed(address)}", str(int(address))
    yield f"address.family {kind} {printed(address)}", f"Ipv{address.version}"
    yield f"address.reverse_name {kind} {printed(address)}", quoted(address.reverse_pointer)


def inside_rows(address):
    """IPv4 addresses and networks inside those of IPv6, and back (RFC 4291, RFC 3056, RFC 6052)."""
    mapped, nat64 = IPv6Address("::ffff:0:0"), ip_network("64:ff9b::/96")
    fronts = [mapped, IPv6Address("::"), nat64[0], IPv6Address("64:ff9b:1::"), IPv6Address("::fffe:0:0")]
    yield f"inside.address_to_ipv6_mapped {address}", printed(mapped + int(address))
    for length in range(33):
        net = network(address, length)
        outer = network(mapped + int(net[0]), 96 + length)
        yield f"inside.network_to_ipv6_mapped {net}", text(outer)
        yield f"inside.network_to_ipv4_mapped {text(outer)}", option(net)
    for front in fronts + [IPv6Address(n << 112) for n in (0x2001, 0x2002, 0x2003)]:
        by_site = IPv6Address(int(front) | int(address) << 80)
        for v6 in [front + int(address), by_site, by_site + (2**80 - 1 if int(by_site) % 2**80 == 0 else 0)]:
            yield f"inside.address_to_ipv4_mapped {printed(v6)}", option(v6.ipv4_mapped)
            yield f"inside.to_ipv4_6to4 {printed(v6)}", option(v6.sixtofour)
            inner = IPv4Address(int(v6) % 2**32) if v6 in nat64 else None
            yield f"inside.to_ipv4_nat64 {printed(v6)}", option(inner)
        for length in (0, 80, 95, 96, 97, 128):
            net = network(front + int(address), length)
            is_mapped = net.subnet_of(ip_network("::ffff:0:0/96"))
            inner = network(IPv4Address(int(net[0]) % 2**32), length - 96) if is_mapped else None
            yield f"inside.network_to_ipv4_mapped {text(net)}", option(inner)


def address_of(version, number):
    return (IPv4Address if version == 4 else IPv6Address)(number)


def others_of(kind, net, rng):
    """Networks that a network is compared with: one inside, its sibling, and one that differs in a single bit."""
    inside = network(net[rng.randrange(net.num_addresses)], min(net.prefixlen + 5, net.max_prefixlen))
    flipped = int(net[0]) ^ (1 << rng.randrange(net.max_prefixlen))
    others = [inside, sibling_of(kind, net) or net, network(type(net[0])(flipped), net.prefixlen)]
    return others + [ANY, ip_network(OTHER_FAMILY[net.version])] if kind == "any" else others


def network_rows_of_each():
    """Networks at every prefix length, and at some in the types of both families; those at the ends of a family."""
    rng = Random(0)
    for version, width in WIDTHS:
        for length in range(width + 1):
            net = network(address_of(version, rng.getrandbits(width)), length)
            if version == 4 or length % 2 == 0:
                yield from tree_rows(f"v{version}", net, others_of(f"v{version}", net, rng))
                yield from numbered_rows(f"v{version}", net, rng)
            if length % 8 in (0, 7):
                yield from tree_rows("any", net, others_of("any", net, rng))
                yield from numbered_rows("ip", net, rng)
        for end, length in product([0, 2**width - 1], [0, 1, width - 1, width]):
            yield from numbered_rows(f"v{version}", network(address_of(version, end), length), rng)
    for net in [ANY, *WHOLES]:
        yield from tree_rows("any", net, [ANY, *WHOLES, ip_network("10.0.0.0/8")])


def address_rows_of_each():
    """Each mask and host mask, and the same with one bit inverted; the least, the greatest and other addresses."""
    rng = Random(0)
    for version, width in WIDTHS:
        ones = 2**width - 1
        for length in range(width + 1):
            for mask in (ones >> length, ones ^ (ones >> length)):
                yield from mask_rows(f"v{version}", address_of(version, mask))
                yield from mask_rows(f"v{version}", address_of(version, mask ^ (1 << rng.randrange(width))))
        for kind, number in product([f"v{version}", "ip"], [0, 1, ones, *(rng.getrandbits(width) for _ in range(8))]):
            yield from mask_rows(kind, address_of(version, number))
            yield from address_rows(kind, address_of(version, number))
    for text in ["0.0.0.0", "255.255.255.255", "192.0.2.1", "10.171.205.239"]:
        yield from inside_rows(ip_address(text))
