"""Origins of routes and prefix lists beside models that `ipaddress` answers, by the words of RFC 6811 and of Cisco's reference."""
import ipaddress
import random
import unittest

import pcidr
from pcidr import Payloads, PrefixList, Validity

RANDOM = random.Random(88)


def network(version):
    """A random network, often inside another one."""
    space = ipaddress.ip_network({4: "10.0.0.0/28", 6: "2001:db8::/124"}[version])
    longer = RANDOM.randint(0, 4)
    bits = RANDOM.randrange(1 << longer) << 4 - longer
    return type(space)((int(space.network_address) + bits, space.prefixlen + longer))


def covers(outer, inner):
    return outer.version == inner.version and inner.subnet_of(outer)


class Routes(unittest.TestCase):
    def test_validity(self):
        for _ in range(300):
            payloads = []
            for _ in range(RANDOM.randrange(6)):
                own = network(RANDOM.choice([4, 6]))
                payloads.append((own, RANDOM.randint(own.prefixlen, own.max_prefixlen), RANDOM.choice([0, 1, 2])))
            held = Payloads((str(own), length, origin) for own, length, origin in payloads)
            self.assertEqual(len(held), len(payloads))
            for _ in range(10):
                route, origin = network(RANDOM.choice([4, 6])), RANDOM.choice([None, 0, 1, 2])
                covering = [(length, number) for own, length, number in payloads if covers(own, route)]
                own = [length for length, number in covering if number == origin != 0]
                wanted = "VALID" if any(route.prefixlen <= length for length in own) else "INVALID_LENGTH" if own else \
                    "INVALID_ORIGIN" if covering else "NOT_FOUND"
                self.assertIs(held.validity(str(route), origin), Validity[wanted])
                self.assertIs(held.validity(route, origin), Validity[wanted])

    def test_prefix_lists(self):
        for _ in range(300):
            rows = []
            for _ in range(RANDOM.randrange(6)):
                own = network(RANDOM.choice([4, 6]))
                low = RANDOM.choice([None, RANDOM.randint(own.prefixlen, own.max_prefixlen)])
                high = RANDOM.choice([None, RANDOM.randint(low or own.prefixlen, own.max_prefixlen)])
                rows.append((own, RANDOM.random() < 0.6, low, high))
            held = PrefixList((str(own), *rest) for own, *rest in rows)
            self.assertEqual(len(held), len(rows))
            for _ in range(10):
                asked = network(RANDOM.choice([4, 6]))
                wanted = False
                for own, is_permitted, low, high in rows:
                    full = own.max_prefixlen if low is not None else own.prefixlen
                    least, most = own.prefixlen if low is None else low, full if high is None else high
                    if covers(own, asked) and least <= asked.prefixlen <= most:
                        wanted = is_permitted
                        break
                self.assertEqual(held.permits(str(asked)), wanted)

    def test_wrong(self):
        for wrong in ([("10.0.0.1/8", 8, 1)], [("10.0.0.0/8", 129, 1)], [("10.0.0.0/8", -1, 1)], [("10.0.0.0/8", 8, 1 << 32)], [("x", 8, 1)]):
            with self.assertRaises(ValueError):
                Payloads(wrong)
        with self.assertRaises(ValueError):
            Payloads([]).validity("10.0.0.0/8", 1 << 32)
        with self.assertRaises(ValueError):
            Payloads([]).validity("10.0.0.1/8", 1)
        for wrong in ([("any", True)], [("10.0.0.0/8", True, 33)], [("10.0.0.0/8", True, None, -1)], [("10.0.0.1/8", True)]):
            with self.assertRaises(ValueError):
                PrefixList(wrong)
        for wrong in ([("10.0.0.0/8", "deny")], [("10.0.0.0/8", None)], [("10.0.0.0/8", True, "16")]):
            with self.assertRaises(TypeError):
                PrefixList(wrong)
        self.assertIs(Payloads([]).validity("10.0.0.0/8", None), Validity.NOT_FOUND)
        self.assertFalse(PrefixList([]).permits("10.0.0.0/8"))
        self.assertIn("Payloads", dir(pcidr))


if __name__ == "__main__":
    unittest.main()
