"""What a type checker knows of the module, which `check.sh` has mypy say of this file."""
from __future__ import annotations

import unittest

from pcidr import Address, Host, Network, Table


class Types(unittest.TestCase):
    def test_families_and_lengths(self) -> None:
        """Addresses and hosts have them as those of `ipaddress`; of networks, `any` has none."""
        address, host, network = Address("::1"), Host("10.0.0.1/8"), Network("any")
        versions: list[int] = [address.version, host.version, host.network.network_address.version]
        lengths: list[int] = [address.max_prefixlen, host.prefixlen, host.max_prefixlen]
        of_network: tuple[int | None, int | None] = (network.version, network.prefixlen)
        self.assertEqual((versions, lengths, of_network), ([6, 4, 4], [128, 8, 32], (None, None)))

    def test_rows(self) -> None:
        table: Table[str] = Table({"10.0.0.0/8": "ten"})
        value: str | None = table.get("junk")
        either: str | int = table.get("10.0.0.0/8", 5)
        found: tuple[Network, str] | None = table.lookup("10.1.2.3")
        self.assertEqual((value, either, found), (None, "ten", (Network("10.0.0.0/8"), "ten")))


if __name__ == "__main__":
    unittest.main()
