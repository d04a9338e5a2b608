#!/usr/bin/env python3
"""make_page.py PACKAGE: prints the page as one file, with the package in it. Its policy lets it run this script alone, in a Worker
too, and ask the network for nothing."""
import base64
import hashlib
import re
import sys
from pathlib import Path

HERE = Path(__file__).resolve().parent
EXPORTS = re.compile(r"^export (?=(?:async )?function|class|const)", re.M)


def part(path, names):
    """A module as an expression: its names do not meet those of another one."""
    text = EXPORTS.sub("", path.read_text(encoding="utf-8"))
    return f"const {{ {names} }} = (() => {{\n{text}\nreturn {{ {names} }};\n}})();\n"


def digest(text):
    return f"'sha256-{base64.b64encode(hashlib.sha256(text.encode()).digest()).decode()}'"


def main():
    package = Path(sys.argv[1])
    module = base64.b64encode((package / "pcidr.wasm").read_bytes()).decode()
    script = (HERE / "plan.js").read_text(encoding="utf-8")
    imports = re.findall(r'^import \{ ([^}]*) \} from "([^"]*)";\n', script, re.M)
    parts = "".join(part(package / "pcidr.js" if source == "pcidr" else HERE / source, names) for names, source in imports)
    # (a Worker of a page that is a file may be no module; where the module of the library lies the page says itself)
    parts = parts.replace("import.meta.url", "location.href")
    script = f'\n"use strict";\n{parts}const MODULE = "{module}";\n{re.sub(r"^import .*$", "", script, flags=re.M)}\n'
    style = f"\n{(HERE / 'plan.css').read_text(encoding='utf-8')}\n"
    page = (HERE / "plan.html").read_text(encoding="utf-8")
    for text in (script, style):
        assert "</s" not in text, "it would end its element"
    policy = f"default-src 'none'; script-src 'wasm-unsafe-eval' {digest(script)}; worker-src blob:; style-src {digest(style)}; base-uri 'none'; form-action 'none'"
    for word, text in (("POLICY", policy), ("\nSTYLE\n", style), ("\nSCRIPT\n", script)):
        before, found, after = page.partition(word)
        assert found, word
        page = before + text + after
    print(page, end="")


main()
