"""Reads networks and addresses, and asks about them."""
from pcidr import Address, Network, NetworkSet, Table, merge

network = Network("192.0.2.48/28")
print(network.first, network.last, network.netmask)  # 192.0.2.48 192.0.2.63 255.255.255.240
print(Address("192.0.2.50") in network)  # True
print(merge(["10.0.0.0/9", "10.128.0.0/9"]))  # ['10.0.0.0/8']

free = NetworkSet(["10.0.0.0/8"]) - NetworkSet(["10.64.0.0/10"])
print(free.to_strings())  # ['10.0.0.0/10', '10.128.0.0/9']
routes = Table({"10.0.0.0/8": "core", "10.1.0.0/16": "edge"})
print(routes.lookup("10.1.2.3"))  # (Network('10.1.0.0/16'), 'edge')
