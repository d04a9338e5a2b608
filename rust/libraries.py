"""The files of a library as Rust, before their comments are written and short functions are marked."""
import collections
import sys
from pathlib import Path

import rattle

HERE = Path(__file__).resolve().parent
REPOSITORY = HERE.parent


def conditions():
    """For each file, what its functions assert."""
    made = collections.defaultdict(dict)
    for line in (HERE / "conditions").read_text().split("\n"):
        if line and not line.startswith("#"):
            head, _, form = line.partition(": ")
            file, *names = head.split()
            made[file].update({name: form for name in names if not form.startswith("- ")})
    return made


def texts(name):
    """The text of each file of a library, but of its laws and tests. A form that no rule knows ends the program."""
    source, asserted, made = REPOSITORY / "crates" / name / "src", conditions(), {}
    for file in sorted(source.rglob("*.rt")):
        place = file.relative_to(source).with_suffix("")
        if place.parts[0] in ("laws", "tests"):
            continue
        try:
            made[place.with_suffix(".rs")] = rattle.rust_of(file.read_text(), asserted[f"{name}/{place}"])
        except rattle.Unknown as unknown:
            sys.exit(f"{file.relative_to(REPOSITORY)}:{unknown.line}: {unknown}")
    return made
