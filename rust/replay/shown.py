"""What rows of sets and of networks share: networks and options as rows have them and as Rust's `Debug` prints them."""
from ipaddress import ip_network

from computed import boolean, network, printed  # noqa: F401

ANY = "any"  # the network of the addresses of both families
WHOLES = [ip_network("0.0.0.0/0"), ip_network("::/0")]  # its halves


def text(net):
    """A network as it stands in a row."""
    return net if net == ANY else f"{printed(net[0])}/{net.prefixlen}"


def tagged(kind, version, inner):
    """What `Debug` prints of a value of one of the families: in a type of both it stands in a variant."""
    return f"V{version}({inner})" if kind in ("ip", "any") else inner


def shown(kind, net):
    """What `Debug` prints of a network."""
    return "Any" if net == ANY else tagged(kind, net.version, text(net))


def shown_all(kind, nets):
    return f"[{', '.join(shown(kind, net) for net in nets)}]"


def option(inner):
    return "None" if inner is None else f"Some({inner})"


def option_of(kind, net):
    return option(None if net is None else shown(kind, net))
