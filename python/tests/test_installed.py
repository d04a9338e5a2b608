"""What a wheel has installed, where the module that is tested comes from one."""
import base64
import hashlib
import os
import sys
import unittest
from importlib import metadata
from pathlib import Path

import pcidr
from pcidr import _kinds

try:
    INSTALLED = metadata.distribution("pcidr")
except metadata.PackageNotFoundError:
    INSTALLED = None


@unittest.skipUnless(INSTALLED, "the module is not installed")
class Installed(unittest.TestCase):
    def test_the_module_is_the_installed_one(self):
        self.assertEqual(Path(pcidr.__file__), Path(INSTALLED.locate_file("pcidr/__init__.py")).resolve())
        self.assertEqual(INSTALLED.version, pcidr.__version__)
        self.assertEqual(INSTALLED.metadata["Requires-Python"], ">=3.10")
        self.assertIn("Root-Is-Purelib: false", INSTALLED.read_text("WHEEL"))

    def test_the_extension_is_used_where_it_is_there(self):
        is_there = any(file.name == "_fast.abi3.so" for file in INSTALLED.files)
        is_wanted = sys.version_info >= (3, 11) and not os.environ.get("PCIDR_CTYPES")
        self.assertEqual(_kinds.IS_FAST, is_there and is_wanted)

    def test_all_files_are_there(self):
        hashes = {str(file): file.hash for file in INSTALLED.files}
        described = f"pcidr-{pcidr.__version__}.dist-info"
        wanted = ["pcidr/__init__.py", "pcidr/_library.py", "pcidr/libpcidr.so", "pcidr/py.typed", f"{described}/LICENSE"]
        for name in wanted:
            digest = hashlib.sha256(Path(INSTALLED.locate_file(name)).read_bytes()).digest()
            self.assertEqual(hashes[name].value, base64.urlsafe_b64encode(digest).rstrip(b"=").decode())


if __name__ == "__main__":
    unittest.main()
