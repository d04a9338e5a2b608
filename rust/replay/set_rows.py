"""Rows of sets, whose results Python's sets of numbers and `ipaddress.collapse_addresses` give."""
from ipaddress import collapse_addresses, ip_network, summarize_address_range
from itertools import chain, product
from random import Random

from shown import ANY, WHOLES, boolean, network, option, option_of, printed, shown_all, text

# Windows: a type, networks, and how many bits longer the units are. A set in a window is a set of units, and the
# windows with two networks have units of both families.
SAMPLED = [
    ("v4", ["0.0.0.0/0"], 8),
    ("v4", ["10.160.0.0/12"], 8),
    ("v4", ["192.0.2.0/24"], 8),
    ("v6", ["::/0"], 8),
    ("v6", ["2001:db8:0:fff0::/60"], 8),
    ("v6", ["2001:db8::ff00/120"], 8),
    ("any", ["0.0.0.0/0", "::/0"], 7),
    ("any", ["192.0.2.128/25", "2001:db8::/121"], 7),
]
NARROW = [("v4", ["255.255.255.248/29"], 3), ("v6", ["fff0::/12"], 3), ("any", ["0.0.0.0/0", "::/0"], 2)]
OF_HALVES = ("any", ["0.0.0.0/0", "::/0"], 1)


def chosen(rng, items):
    return items[rng.randrange(len(items))]


def listed(nets):
    return ",".join(map(text, nets)) or "-"


class Window:
    """The networks of a window, each with the indexes of its units."""

    def __init__(self, kind, outer, depth):
        self.kind, self.outer, self.depth = kind, [ip_network(text) for text in outer], depth
        self.units = [unit for net in self.outer for unit in net.subnets(depth)]
        place = {unit: i for i, unit in enumerate(self.units)}
        self.members = {}
        for net in self.outer:
            for length in range(depth + 1):
                for inner in net.subnets(length):
                    first, count = place[next(inner.subnets(depth - length))], 1 << (depth - length)
                    self.members[inner] = frozenset(range(first, first + count))
        if self.outer == WHOLES:
            self.members[ANY] = frozenset(range(len(self.units)))
        self.networks = list(self.members)

    def shortest(self, units):
        """The shortest list of networks of these units, ascending, as `collapse_addresses` gives it."""
        parts = [[self.units[i] for i in sorted(units) if self.units[i].version == version] for version in (4, 6)]
        nets = [net for part in parts for net in collapse_addresses(part)]
        return [ANY] if ANY in self.members and len(units) == len(self.units) else nets

    def bits(self, net):
        """How many bits a network has: in the type of both families the first one is that of the family."""
        return 0 if net == ANY else net.prefixlen + (self.kind == "any")

    def shown(self, units):
        return shown_all(self.kind, self.shortest(units))

    def row(self, name, *words):
        return " ".join([f"set.{name}", self.kind, *map(str, words)])

    def some_networks(self, rng, most):
        return [chosen(rng, self.networks) for _ in range(rng.randrange(most + 1))]

    def units_of(self, nets):
        return frozenset(chain.from_iterable(self.members[net] for net in nets))


def list_rows(window, nets):
    """A list in any order is a set."""
    yield window.row("from_networks", listed(nets)), window.shown(window.units_of(nets))


def pair_rows(window, these, those):
    """The calls on two sets."""
    a, b = window.units_of(these), window.units_of(those)
    words = listed(these), listed(those)
    for name, units in [
        ("union", a | b),
        ("intersection", a & b),
        ("difference", a - b),
        ("symmetric_difference", a ^ b),
    ]:
        yield window.row(name, *words), window.shown(units)
    for name, value in [
        ("is_subset", a <= b),
        ("contains_all", b <= a),
        ("is_disjoint", a.isdisjoint(b)),
        ("eq", a == b),
    ]:
        yield window.row(name, *words), boolean(value)


def network_rows(window, nets, net):
    """The calls on a set and a network."""
    units, part = window.units_of(nets), window.members[net]
    yield window.row("contains", listed(nets), text(net)), boolean(part <= units)
    yield window.row("overlaps", listed(nets), text(net)), boolean(not part.isdisjoint(units))
    yield window.row("complement_in", listed(nets), text(net)), window.shown(part - units)


# The addresses of both families by numbers: those of IPv6 behind those of IPv4.
def number_of(address):
    return int(address) + (address.version == 6 and 1 << 32)


def address_of(number):
    return WHOLES[0][number] if number < 1 << 32 else WHOLES[1][number - (1 << 32)]


def ranges_of(window, units):
    """The longest ranges of numbers of these units, ascending."""
    ranges = []
    for i in sorted(units):
        first, last = map(number_of, (window.units[i][0], window.units[i][-1]))
        if ranges and ranges[-1][1] + 1 == first:
            ranges[-1] = ranges[-1][0], last
        else:
            ranges.append((first, last))
    return ranges


def summarized(window, first, last):
    """The shortest list of networks of the addresses from one number to another."""
    nets = []
    for whole in WHOLES:
        low, high = max(first, number_of(whole[0])), min(last, number_of(whole[-1]))
        if low <= high:
            nets += summarize_address_range(address_of(low), address_of(high))
    return [ANY] if window.kind == "any" and nets == WHOLES else nets


def range_rows(window, rng, nets):
    """The ranges of a set, and the sets of ranges about their ends."""
    ranges = ranges_of(window, window.units_of(nets))
    pairs = [f"({printed(address_of(first))}, {printed(address_of(last))})" for first, last in ranges]
    yield window.row("ranges", listed(nets)), f"[{', '.join(pairs)}]"
    lowest, highest = number_of(window.units[0][0]), number_of(window.units[-1][-1])
    # the shortest list of nearly all addresses of IPv6 is long, so that only few of these are tried
    narrow = ranges[:1] if rng.randrange(8) == 0 or not window.outer[-1].prefixlen == 0 else []
    narrower = [(first + rng.randrange(4), last - rng.randrange(4)) for first, last in narrow]
    for first, last in [*ranges, *narrower, (lowest, highest), (highest, lowest)]:
        words = map(printed, map(address_of, (first, last)))
        yield window.row("from_range", *words), shown_all(window.kind, summarized(window, first, last))


def index_rows(window, rng, nets):
    """How many addresses a set has, and some of them by index. The window is of one family."""
    units = [window.units[i] for i in sorted(window.units_of(nets))]
    size = window.units[0].num_addresses
    count = size * len(units)
    at = lambda index: printed(units[index // size][index % size]) if 0 <= index < count else None
    yield window.row("address_count", listed(nets)), option(count if count < 1 << 128 else None)
    for index in {0, count - 1, count, *(rng.randrange(count + 1) for _ in range(3))}:
        if 0 <= index < 1 << 128:
            yield window.row("nth", listed(nets), index), option(at(index))
            if at(index):
                yield window.row("position", listed(nets), at(index)), option(index)
    for unit in [chosen(rng, window.units) for _ in range(3)]:
        place, inner = units.index(unit) * size if unit in units else None, rng.randrange(size)
        yield window.row("position", listed(nets), printed(unit[inner])), option(None if place is None else place + inner)
    ends = [option(at(0)), option(at(count - 1)), option(at(1)), option(at(count - 2))]
    if count >= 4:
        yield window.row("addresses", listed(nets)), "(({}, {}), {}, {})".format(*ends)


def candidates(window, outer, length):
    """The networks of so many bits inside one: the first of each family."""
    if outer == ANY:
        return [ANY] if length == 0 else [net for half in WHOLES for net in candidates(window, half, length)]
    prefix = length - (window.kind == "any")
    if not outer.prefixlen <= prefix <= outer.max_prefixlen:
        return []
    return [network(outer[0], prefix)]


def free_rows(window, nets):
    """The first free network of each length, and the one in the network of the fewest addresses in the set."""
    # all addresses of both families are one network, and then the only one
    size = lambda net: 0 if net == ANY else net.num_addresses
    units = window.units_of(nets)
    own = window.shortest(units)
    for length in range(131):
        inside = [(net, free) for net in own for free in candidates(window, net, length)[:1]]
        first = inside[0][1] if inside else None
        best = min(inside, key=lambda pair: size(pair[0]), default=(None, None))[1]
        if window.outer[0].prefixlen - 1 <= length <= window.bits(window.units[-1]) + 2 or length >= 127:
            yield window.row("first_free", listed(nets), length), option_of(window.kind, first)
            yield window.row("best_free", listed(nets), length), option_of(window.kind, best)


def some_rules(window, rng, count):
    return [(chosen(rng, "+-"), chosen(rng, window.networks)) for _ in range(count)]


def listed_rules(rules):
    return ",".join(sign + text(net) for sign, net in rules) or "-"


def rule_rows(window, rules):
    """The units that an access list permits, by the first rule of each, and the rules that are the first of none."""
    firsts = {}
    for i, (_, net) in enumerate(rules):
        for unit in window.members[net]:
            firsts.setdefault(unit, i)
    permitted = [unit for unit, i in firsts.items() if rules[i][0] == "+"]
    shadowed = sorted(set(range(len(rules))) - set(firsts.values()))
    yield window.row("permitted", listed_rules(rules)), window.shown(permitted)
    yield window.row("shadowed", listed_rules(rules)), str(shadowed)
    for net in [net for _, net in rules[:2]] + [window.networks[0], window.networks[-1]]:
        deciding = sorted({firsts[unit] for unit in window.members[net] if unit in firsts})
        yield window.row("deciding", listed_rules(rules), text(net)), str(deciding)


def run_rows(window, steps):
    """A set to which networks are added and from which they are removed: how many it is of after each step."""
    units, counts = set(), []
    for sign, net in steps:
        units = units | window.members[net] if sign == "+" else units - window.members[net]
        counts.append(len(window.shortest(units)))
    yield window.row("run", listed_rules(steps)), f"({counts}, {window.shown(units)})"


def set_rows():
    """All pairs of sets of a window of four units; random ones of the large windows; long runs."""
    window = Window(*OF_HALVES)
    units = [[unit for i, unit in enumerate(window.units) if mask >> i & 1] for mask in range(16)]
    for these, those in product(units, units):
        yield from pair_rows(window, these, those)
    for these, net in product(units, window.networks):
        yield from network_rows(window, these, net)
    for these in units:
        yield from range_rows(window, Random(0), these)
    for kind, outer in [("v4", ["0.0.0.0/0"]), ("v6", ["::/0"])]:
        window = Window(kind, outer, 2)
        for mask in range(16):
            these = [unit for i, unit in enumerate(window.units) if mask >> i & 1]
            yield from range_rows(window, Random(mask), these)
            yield from index_rows(window, Random(mask), these)
    for seed, (kind, outer, depth) in enumerate(SAMPLED):
        window, rng = Window(kind, outer, depth), Random(seed)
        for most in [0, 2, 4, 8, 12, 16] * 2:
            these, those = window.some_networks(rng, most), window.some_networks(rng, most)
            yield from list_rows(window, these + those)
            yield from pair_rows(window, these, those)
            for _ in range(2):
                yield from network_rows(window, these, chosen(rng, window.networks))
            yield from rule_rows(window, some_rules(window, rng, 2 * most))
        for most in [4, 8, 16]:
            yield from free_rows(window, window.some_networks(rng, most))
            nets, more = window.some_networks(Random(most), most), Random(seed)
            yield from range_rows(window, more, nets)
            if kind != "any":
                yield from index_rows(window, more, nets)
        yield from run_rows(window, some_rules(window, rng, 200))
    for seed, (kind, outer, depth) in enumerate(NARROW):
        window, rng = Window(kind, outer, depth), Random(seed)
        for _ in range(4):
            yield from run_rows(window, some_rules(window, rng, 300))
