"""The module in a process: in more than one interpreter, in folders with any name, and what it makes once."""
import os
import shutil
import subprocess
import sys
import tempfile
import unittest
from pathlib import Path

import pcidr

# The first interpreter goes on with its own classes while another one has the module, and after that has ended.
TWO_INTERPRETERS = """
try:
    import _interpreters as interpreters
    second = interpreters.create("legacy")
except ImportError:
    import _xxsubinterpreters as interpreters
    second = interpreters.create(isolated=False)
from pcidr import Address, Host, Network, Table, parse_networks
network, table = Network("10.0.0.0/8"), Table({"10.0.0.0/8": 1})
def check():
    assert type(network.first) is Address and repr(network.last) == "Address('10.255.255.255')"
    assert type(Host("10.0.0.1/8").network) is Network and Address("10.0.0.1") in network
    assert parse_networks(["10.0.0.0/8"]) == [network] and table.lookup("10.0.0.1") == (network, 1)
interpreters.run_string(second, '''
from pcidr import Address, Network, Table
assert type(Network("10.0.0.0/8").first) is Address and Address("10.0.0.1") in Network("10.0.0.0/8")
assert Table({"10.0.0.0/8": 1}).lookup("10.0.0.1") == (Network("10.0.0.0/8"), 1)
print("second")
''')
check()
interpreters.destroy(second)
check()
print("first")
"""

# Of each entry of the registries an address. The entries of a process that has asked for none are made once, whoever asks for
# them: threads at once, and somebody before each opcode of the call that makes one.
ENTRIES = """
import random, sys, threading
from pcidr import Address, _kinds, _values
texts = '''
0.255.255.255 0.0.0.0 10.0.0.0 100.64.0.0 127.0.0.0 169.254.0.0 172.16.0.0 192.0.0.255 192.0.0.0 192.0.0.8 192.0.0.9
192.0.0.10 192.0.0.170 192.0.0.171 192.0.2.0 192.31.196.0 192.52.193.0 192.88.99.0 192.88.99.2 192.168.0.0 192.175.48.0
198.18.0.0 198.51.100.0 203.0.113.0 240.0.0.0 255.255.255.255 ::1 :: ::ffff:0:0 64:ff9b:: 64:ff9b:1:: 100:: 100:0:0:1::
2001:1ff:ffff:ffff:ffff:ffff:ffff:ffff 2001:: 2001:1::1 2001:1::2 2001:1::3 2001:2:: 2001:3:: 2001:4:112:: 2001:10::
2001:20:: 2001:30:: 2001:db8:: 2002:: 2620:4f:8000:: 3fff:: 5f00:: fc00:: fe80::
'''.split()
seen = {}
def by_threads():
    sys.setswitchinterval(1e-6)
    start, found = threading.Barrier(8), [None] * 8
    def ask(place):
        order = random.Random(place).sample(texts, len(texts))
        start.wait()
        found[place] = {text: [Address(text).special_entry for _ in range(3)] for text in order}
    threads = [threading.Thread(target=ask, args=(place,)) for place in range(8)]
    for each in threads:
        each.start()
    for each in threads:
        each.join()
    assert all(each[text] == [found[0][text][0]] * 3 for each in found for text in texts)
    seen.update({text: found[0][text][0] for text in texts})
def by_opcodes():
    for place, text in enumerate(texts):
        left = [place]
        def hook(frame, event, argument):
            if frame.f_code is not _values._entry.__code__:
                return None
            frame.f_trace_opcodes = True
            if event == "opcode":
                left[0] -= 1
                if left[0] == -1:
                    sys.settrace(None)
                    inner.append((Address(text).special_entry, Address(texts[place - 1]).special_entry))
            return hook
        inner = []
        sys._getframe().f_trace_opcodes = True
        sys.settrace(hook)
        made = Address(text).special_entry
        sys.settrace(None)
        assert all(each == (made, Address(texts[place - 1]).special_entry) for each in inner)
        seen[text] = made
WAY()
for text, entry in seen.items():
    address = Address(text)
    assert address in entry.network and address.special_entry == entry
    assert not _kinds.IS_FAST or address.special_entry is address.special_entry
assert len(set(seen.values())) == 51
print("as wanted")
"""


# What the dicts of a process have of values.
HASHES = """
from pcidr import Address, Host, Network, NetworkSet
text = "2001:db8::"
values = Address(text), Host(text), Network(text), NetworkSet([text])
print(*map(hash, values))
"""


# What an import loads, in an interpreter that has loaded as little as may be before.
LOADED = """
import sys
sys.path.insert(0, FOLDER)
import pcidr
print(*sorted(sys.modules))
assert pcidr.Table({"10.0.0.0/8": 1}).lookup(pcidr.Address("10.1.2.3")) and pcidr.Purpose(9).name == "DUMMY"
from pcidr import *
assert all(pcidr.__all__[place] in dir(pcidr) for place in range(22)) and hasattr(pcidr, "x") is False
"""


def output(program: str, **environment: str) -> str:
    """What a program in another process prints."""
    words = [sys.executable, "-c", program]
    return subprocess.run(words, env=os.environ | environment, stdout=subprocess.PIPE, check=True, text=True).stdout


class Process(unittest.TestCase):
    @unittest.skipIf(sys.version_info < (3, 11), "there is no extension")
    def test_two_interpreters(self):
        self.assertEqual(sorted(output(TWO_INTERPRETERS).split()), ["first", "second"])

    @unittest.skipIf(sys.version_info < (3, 11), "there is no extension")
    def test_an_isolated_interpreter(self):
        """It has the module where it can have `ctypes`, which one of Python 3.12 can't."""
        isolated = TWO_INTERPRETERS.replace('create("legacy")', "create()").replace("create(isolated=False)", "create()")
        ran = subprocess.run([sys.executable, "-c", isolated], capture_output=True, text=True)
        if sys.version_info[:2] == (3, 12):
            self.assertIn("module _ctypes does not support loading in subinterpreters", ran.stderr)
        else:
            self.assertEqual(sorted(ran.stdout.split()), ["first", "second"])

    def test_hashes_have_a_secret_of_the_process(self):
        one, again, other = (output(HASHES, PYTHONHASHSEED=seed).split() for seed in "112")
        self.assertEqual((one, len(one)), (again, 4))
        self.assertFalse([each for each, another in zip(one, other) if each == another])

    def test_an_import_loads_little(self):
        program = LOADED.replace("FOLDER", repr(str(Path(pcidr.__file__).parent.parent)))
        words = [sys.executable, "-S", "-c", program]
        ran = subprocess.run(words, stdout=subprocess.PIPE, check=True, text=True)
        heavy = {"typing", "re", "enum", "ipaddress", "ctypes.util", "threading", "pcidr._tables", "pcidr._sets"}
        self.assertEqual(heavy & set(ran.stdout.split()), set())

    def test_entries_of_the_registries(self):
        for way in ("by_threads", "by_opcodes"):
            self.assertEqual(output(ENTRIES.replace("WAY", way)), "as wanted\n")

    def test_a_folder_whose_name_is_not_utf8(self):
        with tempfile.TemporaryDirectory() as room:
            beside = Path(room, os.fsdecode(b"n\xff"))
            shutil.copytree(Path(pcidr.__file__).parent, beside / "pcidr")
            program = "from pcidr import Network; print(Network('10.0.0.0/8').last)"
            self.assertEqual(output(program, PYTHONPATH=str(beside)), "10.255.255.255\n")


if __name__ == "__main__":
    unittest.main()
