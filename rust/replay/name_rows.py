"""Rows of names in reverse DNS and of masks in strings, by `ipaddress` and by splitting names at their dots."""
from ipaddress import AddressValueError, IPv4Address, IPv6Address
from random import Random

from network_rows import WIDTHS, address_of, quoted, reverse_name_of
from shown import network, option, option_of, printed, shown, text

DOMAINS = {4: ["in-addr", "arpa"], 6: ["ip6", "arpa"]}
LABELS = {4: {str(n): n for n in range(256)}, 6: {f"{n:x}": n for n in range(16)}}
VERSIONS = {"v4": [4], "v6": [6], "ip": [4, 6]}


def network_of_name(kind, name):
    """The network of a name: its labels, the last one first, are the octets or nibbles of the network."""
    labels = name.lower().split(".")
    if labels[-1] == "" and len(labels) > 1:
        labels.pop()
    for version, width in WIDTHS:
        numbers = [LABELS[version].get(label) for label in reversed(labels[:-2])]
        label_width = 8 if version == 4 else 4
        length = label_width * len(numbers)
        if version in VERSIONS[kind] and labels[-2:] == DOMAINS[version] and None not in numbers and length <= width:
            whole = sum(n << (width - label_width * (at + 1)) for at, n in enumerate(numbers))
            return network(address_of(version, whole), length)
    return None


def name_rows(kind, name):
    net = network_of_name(kind, name)
    is_whole = net is not None and net.prefixlen == net.max_prefixlen
    yield f"name.to_network {kind} {name}", option_of(kind, net)
    yield f"name.to_address {kind} {name}", option(printed(net[0]) if is_whole else None)


def changed_names(name, rng):
    """Names that are like one: in upper case, with the dot of the root, a label more or less, and one character off."""
    yield name
    yield name.upper()
    yield f"{name}."
    yield f"{name}.."
    yield f".{name}"
    yield f"0{name}"
    yield f"0.{name}"
    yield name.split(".", 1)[1]
    yield name.rsplit(".", 1)[0]
    at = rng.randrange(len(name))
    yield name[:at] + rng.choice("0123456789abcdefg.-AF") + name[at + 1:]
    yield name[:at] + name[at + 1:]


def zones_answer(net):
    width = 8 if net.version == 4 else 4
    zone = -(-net.prefixlen // width) * width
    return f"[{', '.join(map(reverse_name_of, net.subnets(new_prefix=zone)))}]"


def parsed(version, word):
    """The address of a string, without the zones that Python takes behind IPv6 addresses."""
    try:
        return (IPv4Address if version == 4 else IPv6Address)(word) if "%" not in word else None
    except AddressValueError:
        return None


def mask_answer(kind, word):
    """What a string with a mask represents, or the message of the first error."""
    if "/" not in word:
        return "Err(no slash before a mask)"
    front, back = word.rsplit("/", 1)
    address = next((it for it in (parsed(version, front) for version in VERSIONS[kind]) if it is not None), None)
    if address is None:
        return "Err(invalid address)"
    mask = parsed(address.version, back)
    if mask is None:
        return "Err(invalid mask)"
    width = address.max_prefixlen
    ones = 2**width - 1
    masks = [ones ^ (ones >> length) for length in range(width + 1)]
    number = int(mask)
    if number not in masks:
        number ^= ones
    if number not in masks:
        return "Err(mask is not contiguous)"
    if int(address) & ~number:
        return "Err(host part of address was not zero)"
    return f"Ok({shown(kind, network(address, masks.index(number)))})"


def mask_rows(kind, net, rng):
    number = int(net[0])
    first, mask = printed(net[0]), printed(net.netmask)
    by_mask, by_host_mask = f"{first}/{mask}", f"{first}/{printed(net.hostmask)}"
    yield f"mask.to_mask_text {kind} {text(net)}", quoted(by_mask)
    yield f"mask.to_host_mask_text {kind} {text(net)}", quoted(by_host_mask)
    flipped = address_of(net.version, int(net.netmask) ^ 1 << rng.randrange(net.max_prefixlen))
    moved = address_of(net.version, number ^ 1 << rng.randrange(net.max_prefixlen))
    words = [by_mask, by_host_mask, text(net), f"{first}/{printed(flipped)}", f"{printed(moved)}/{mask}", first]
    words += [f"{by_mask}/", f"/{by_mask}", by_mask[:-1], f"{by_mask}/{net.prefixlen}", f"{text(net)}/{mask}"]
    for word in words:
        yield f"mask.from_mask_text {kind} {word}", mask_answer(kind, word)


# Names that no network has, but for the first two domains, and strings with masks that are no masks or are both.
NAMES = """. .. arpa in-addr.arpa ip6.arpa. x.in-addr.arpa 256.in-addr.arpa 00.in-addr.arpa 1.0.0.0.0.in-addr.arpa
10.ip6.arpa g.ip6.arpa 1..ip6.arpa 1.in-addr.arpa.com 1-in-addr.arpa""".split()
MASKED = """/ // 0.0.0.0/0.0.0.0 ::/:: 0.0.0.0/255.255.255.255 ::/ffff:ffff:ffff:ffff:ffff:ffff:ffff:ffff 10.0.0.0/::
::/255.0.0.0 10.0.0.0/255.0.0 10.0.0.0/0377.0.0.0 10.0.0/255.0.0.0 ::ffff:0:0/ffff::""".split()


def name_rows_of_each():
    rng = Random(0)
    for version, width in WIDTHS:
        label_width = 8 if version == 4 else 4
        for length in range(width + 1):
            net = network(address_of(version, rng.getrandbits(width)), length)
            kinds = [f"v{version}", "ip"] if length % (2 * label_width) == 0 else [f"v{version}"]
            for kind in kinds:
                if length < 8 or -length % label_width <= 5:  # others have the many zones of a length below 8
                    yield f"name.zones {kind} {text(net)}", zones_answer(net)
                yield from mask_rows(kind, net, rng)
                if length % label_width == 0:
                    for name in filter(None, changed_names(reverse_name_of(net).strip('"'), rng)):
                        yield from name_rows(kind, name)
    for kind in VERSIONS:
        for name in NAMES:
            yield from name_rows(kind, name)
        for word in MASKED:
            yield f"mask.from_mask_text {kind} {word}", mask_answer(kind, word)
