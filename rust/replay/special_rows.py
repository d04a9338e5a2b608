"""Rows of what addresses are for, by the registries of IANA, which `registries.txt` has a second time."""
import re
from ipaddress import ip_address, ip_network
from pathlib import Path
from random import Random

from network_rows import address_of
from shown import boolean, option, printed

# The name of an entry in the registries, and its purpose.
NAMES = {
    '"This network"': "ThisNetwork",
    '"This host on this network"': "ThisHost",
    "Unspecified Address": "Unspecified",
    "Private-Use": "PrivateUse",
    "Unique-Local": "UniqueLocal",
    "Shared Address Space": "SharedAddressSpace",
    "Loopback": "Loopback",
    "Loopback Address": "Loopback",
    "Link Local": "LinkLocal",
    "Link-Local Unicast": "LinkLocal",
    "IETF Protocol Assignments": "ProtocolAssignments",
    "IPv4 Service Continuity Prefix": "ServiceContinuity",
    "IPv4 dummy address": "Dummy",
    "Dummy IPv6 Prefix": "Dummy",
    "Port Control Protocol Anycast": "PortControlAnycast",
    "Traversal Using Relays around NAT Anycast": "TurnAnycast",
    "DNS-SD Service Registration Protocol Anycast": "ServiceRegistrationAnycast",
    "NAT64/DNS64 Discovery": "Nat64Discovery",
    "Documentation": "Documentation",
    "Documentation (TEST-NET-1)": "Documentation",
    "Documentation (TEST-NET-2)": "Documentation",
    "Documentation (TEST-NET-3)": "Documentation",
    "AS112-v4": "As112",
    "AS112-v6": "As112",
    "Direct Delegation AS112 Service": "DirectAs112",
    "AMT": "MulticastTunneling",
    "Deprecated (6to4 Relay Anycast)": "SixToFourRelay",
    "6a44-relay anycast address": "SixA44Relay",
    "6to4": "SixToFour",
    "Benchmarking": "Benchmarking",
    "Reserved": "Reserved",
    "Limited Broadcast": "LimitedBroadcast",
    "IPv4-mapped Address": "Ipv4Mapped",
    "IPv4-IPv6 Translat.": "Translation",
    "Discard-Only Address Block": "DiscardOnly",
    "TEREDO": "Teredo",
    "Deprecated (previously ORCHID)": "DeprecatedOrchid",
    "ORCHIDv2": "OrchidV2",
    "Drone Remote ID Protocol Entity Tags (DETs) Prefix": "DroneRemoteId",
    "Segment Routing (SRv6) SIDs": "SegmentRouting",
}
LINE = re.compile(r"(\S+) +\d{4}-\d\d(?: \d{4}-\d\d)? +([TF-](?: [TF-]){4})  ([\d,]+) +(\S.*)")


def entries():
    """The entries, each with the first of its RFCs to be published, its purpose and its columns."""
    for line in (Path(__file__).parent / "registries.txt").read_text().splitlines():
        if line and not line.startswith("#"):
            net, columns, rfcs, name = LINE.fullmatch(line).groups()
            yield ip_network(net), min(map(int, rfcs.split(","))), NAMES[name], columns.replace(" ", "")


ENTRIES = list(entries())
COLUMNS = ["source", "destination", "forwardable", "globally_reachable", "reserved_by_protocol"]
SAID = {"T": "Some(true)", "F": "Some(false)", "-": "None"}
PURPOSES = {
    "is_private": {"PrivateUse", "UniqueLocal"},
    "is_loopback": {"Loopback"},
    "is_link_local": {"LinkLocal"},
    "is_documentation": {"Documentation"},
    "is_unspecified": {"ThisHost", "Unspecified"},
}


def entry_of(address):
    """The longest entry whose network has the address."""
    return max((entry for entry in ENTRIES if address in entry[0]), key=lambda entry: entry[0].prefixlen, default=None)


def shown_entry(net, rfc, purpose, columns):
    said = ", ".join(f"{name}: {SAID[column]}" for name, column in zip(COLUMNS, columns))
    return f"SpecialEntry {{ first: {int(net[0])}, len: {net.prefixlen}, purpose: {purpose}, rfc: {rfc}, {said} }}"


def special_rows(kind, address):
    row = lambda name: f"special.{name} {kind} {printed(address)}"
    entry = entry_of(address)
    yield row("special_entry"), option(entry and shown_entry(*entry))
    yield row("is_global"), boolean(entry is None or entry[3][3] == "T")
    yield row("is_multicast"), boolean(address.is_multicast)
    for name, purposes in PURPOSES.items():
        yield row(name), boolean(entry is not None and entry[2] in purposes)


def special_rows_of_each():
    """The ends of each entry and of multicast, what is beside them, an address inside, and random addresses."""
    rng = Random(0)
    numbers = {4: set(), 6: set()}
    for net in [entry[0] for entry in ENTRIES] + [ip_network("224.0.0.0/4"), ip_network("ff00::/8")]:
        first, last = int(net[0]), int(net[-1])
        numbers[net.version] |= {first - 1, first, last, last + 1, rng.randint(first, last)}
    for version, width in ((4, 32), (6, 128)):
        numbers[version] |= {rng.getrandbits(width) for _ in range(20)} | {int(ip_address("2000::")) >> 128 - width}
        for at, number in enumerate(sorted(numbers[version])):
            if 0 <= number < 2**width:
                for kind in [f"v{version}", "ip"] if at % 10 == 0 else [f"v{version}"]:
                    yield from special_rows(kind, address_of(version, number))
