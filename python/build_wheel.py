#!/usr/bin/env python3
"""build_wheel.py OUT: puts a wheel of the module, with the library inside, into the folder OUT.

The library is the one that PCIDR_LIBRARY names, or else what crates/cidr_c/build makes. Nothing but Python is used, so
that no package has to be fetched; `pip` calls the same function, as PEP 517 says. Where there is a C compiler, `cc` or
the one that CC names, and this Python is 3.11 or later and has its header, the wheel has the extension in C, too.
"""
from __future__ import annotations

import base64
import hashlib
import os
import re
import subprocess
import sys
import sysconfig
import tempfile
import zipfile
from pathlib import Path
from typing import Any

HERE = Path(__file__).resolve().parent
METADATA = """\
Metadata-Version: 2.1
Name: pcidr
Version: {version}
Summary: IPv4 and IPv6 networks by a proved library
License: MIT
License-File: LICENSE
Requires-Python: >=3.10
Classifier: License :: OSI Approved :: MIT License
Classifier: Operating System :: POSIX :: Linux
Classifier: Programming Language :: Python :: 3 :: Only
Classifier: Programming Language :: Python :: 3.10
Classifier: Programming Language :: Python :: 3.11
Classifier: Programming Language :: Python :: 3.12
Classifier: Programming Language :: Python :: 3.13
Classifier: Typing :: Typed
"""
WHEEL = """\
Wheel-Version: 1.0
Generator: build_wheel.py
Root-Is-Purelib: false
Tag: {tag}
"""


def library() -> bytes:
    """The shared library."""
    named = os.environ.get("PCIDR_LIBRARY")
    if named:
        return Path(named).read_bytes()
    with tempfile.TemporaryDirectory() as room:
        subprocess.run([str(HERE.parent / "crates" / "cidr_c" / "build"), room], check=True, stdout=sys.stderr)
        return Path(room, "libpcidr.so").read_bytes()


def extension() -> bytes | None:
    """The extension, for Python 3.11 and later, or None where it can't be compiled."""
    python = Path(sysconfig.get_path("include"))
    if sys.version_info < (3, 11) or not (python / "Python.h").exists():
        return None
    with tempfile.TemporaryDirectory() as room:
        made = Path(room, "_fast.abi3.so")
        words = [*os.environ.get("CC", "cc").split(), "-O2", "-shared", "-fPIC", "-I", str(python)]
        words += ["-I", str(HERE.parent / "crates" / "cidr_c" / "include"), "-o", str(made)]
        words += [str(HERE / "pcidr" / "_fast.c"), "-ldl"]
        try:
            subprocess.run(words, check=True, stdout=sys.stderr)
        except (OSError, subprocess.CalledProcessError) as error:
            print(f"build_wheel.py: the wheel has no extension: {error}", file=sys.stderr)
            return None
        return made.read_bytes()


def module_version() -> str:
    """The version that the module has in its `__version__`."""
    found = re.search(r'^__version__ = "(.+)"$', (HERE / "pcidr" / "__init__.py").read_text(encoding="utf-8"), re.M)
    assert found, "the module has no version"
    return found[1]


def files(version: str, tag: str) -> dict[str, bytes]:
    """The files of the wheel but the list of them, by name."""
    module = [*sorted((HERE / "pcidr").glob("*.py")), HERE / "pcidr" / "py.typed"]
    made = {f"pcidr/{path.name}": path.read_bytes() for path in module}
    made["pcidr/libpcidr.so"] = library()
    fast = extension()
    if fast is not None:
        made["pcidr/_fast.abi3.so"] = fast
    described = f"pcidr-{version}.dist-info"
    made[f"{described}/LICENSE"] = (HERE.parent / "LICENSE").read_bytes()
    made[f"{described}/METADATA"] = METADATA.format(version=version).encode()
    made[f"{described}/WHEEL"] = WHEEL.format(tag=tag).encode()
    return made


def record(made: dict[str, bytes], name: str) -> bytes:
    """The list of files, with the hash and the size of each but this list itself."""
    rows = []
    for path, content in made.items():
        digest = base64.urlsafe_b64encode(hashlib.sha256(content).digest()).rstrip(b"=").decode()
        rows.append(f"{path},sha256={digest},{len(content)}\n")
    return "".join([*rows, f"{name},,\n"]).encode()


def build_wheel(wheel_directory: str, config_settings: Any = None, metadata_directory: Any = None) -> str:
    """Writes the wheel into a folder, and returns its name. The same files give the same bytes."""
    version, system = module_version(), re.sub(r"[-.]", "_", sysconfig.get_platform())
    tag = f"py3-none-{system}"  # the library is for one system, and for each Python 3
    made = files(version, tag)
    listed = f"pcidr-{version}.dist-info/RECORD"
    made[listed] = record(made, listed)
    name = f"pcidr-{version}-{tag}.whl"
    os.makedirs(wheel_directory, exist_ok=True)
    with zipfile.ZipFile(Path(wheel_directory, name), "w", zipfile.ZIP_DEFLATED) as wheel:
        for path, content in made.items():
            entry = zipfile.ZipInfo(path)
            entry.compress_type, entry.external_attr = zipfile.ZIP_DEFLATED, 0o100644 << 16
            wheel.writestr(entry, content)
    return name


def main() -> None:
    if len(sys.argv) != 2:
        sys.exit("usage: build_wheel.py OUT")
    try:
        build_wheel(sys.argv[1])
    except (OSError, subprocess.CalledProcessError) as error:
        sys.exit(f"build_wheel.py: {error}")


if __name__ == "__main__":
    main()
