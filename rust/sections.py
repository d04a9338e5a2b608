"""What the page of each public call has besides: `# Errors` where it returns a `Result`, `# Panics` where a condition on the
caller is asserted; and of each name of a generic type, where the calls stand that it has.

What is said of an error is by its type, and of a condition what `conditions` has.
"""
import re
from pathlib import Path

HERE = Path(__file__).resolve().parent

# What a call says that returns this error.
ERRORS = {
    "AddrParseError": "`AddrParseError` for a string that is no address.",
    "NetworkParseError": "`NetworkParseError`, whose variant is the first of the errors in the order that the crate's page has.",
    "NetworkLengthTooLongError": "`NetworkLengthTooLongError` for a prefix length above the width, 32 or 128.",
    "InetTupleError": "`InetTupleError`, whose variant says whether the prefix length is above the width or the networks differ.",
    "CompactError": "`CompactError`, whose variant is the first error in the order of the bytes.",
    "PrefixBytesError": "`PrefixBytesError`, whose variant is the first error in the order of the bytes.",
    "MaskParseError": "`MaskParseError`, whose variant says which part of the string is wrong.",
    "CapacityError": "`CapacityError` where there is no room, and then nothing changes.",
    "AllocError": "`AllocError` where memory runs out.",
    "AllocFailed<T>": "`AllocFailed`, which holds the item, where memory runs out.",
    "fmt::Error": "`fmt::Error` where there is no room for the whole string, and then nothing is appended.",
    "(C, V)": "The key and the value, where memory runs out; the table stays as it was.",
    "LpmTable<C, V>": "The table as it was, where memory runs out.",
}
OTHER = "`{}`, which tells what is wrong."
# What has a condition that each `impl`, or what it calls, sees to, by what `conditions` says of it.
PANICS = {
    "asserts it": "Where the condition on the caller does not hold.",
    "panics": "Where an index is not below the length.",
}

HEAD = r"(?:pub )?(?:const )?fn (\w+)((?:\[[^\]]*\]|[^{;])*)"
CALL = re.compile(rf"^((?: *///[^\n]*\n)+)((?: *#\[[^\n]*\n)*)( *)({HEAD})", re.M)
OPERATOR = re.compile(r"^((?:///[^\n]*\n)+)(?=(?:#\[[^\n]*\n)*impl(?:<[^\n]*>)? (Add|Sub)<\w+> for )", re.M)
ALIAS = re.compile(r"^((?:///[^\n]*\n)+)(?=pub type (\w+) = (\w+)<)", re.M)


def behind(text, at):
    """The place behind the bracket that closes the one at `at`."""
    depth = 0
    for place in range(at, len(text)):
        depth += (text[place] in "(<[") - (text[place] in ")>]")
        if depth == 0:
            return place + 1
    raise ValueError(text)


def error_of(head):
    """The error that a function may return, by what stands behind its name; None where it returns no `Result`."""
    head = head.replace("->", "→")
    at = behind(head, 0) if head.startswith("<") else 0
    made = re.split(r"\bwhere\b", head[behind(head, head.index("(", at)) :])[0].strip()
    if not (found := re.fullmatch(r"→ (?:fmt::Result|Result<(.*)>)", made, re.S)):
        return None
    parts, depth = [""], 0
    for mark in found[1] or "":
        depth += (mark in "(<[") - (mark in ")>]")
        parts = [*parts, ""] if mark == "," and depth == 0 else [*parts[:-1], parts[-1] + mark]
    return re.sub(r"\s+", " ", ([part for part in parts if part.strip()] or ["fmt::Error"])[-1]).strip()


def conditions():
    """What each function of `conditions` asserts, or why it need not, by its file and its name."""
    made = {}
    for line in (HERE / "conditions").read_text().split("\n"):
        if line and not line.startswith("#"):
            head, _, form = line.partition(": ")
            file, *names = head.split()
            made |= {(file, name): form for name in names}
    return made


def panic_of(form):
    """What is said of a condition, or None where a call that breaks it does not panic."""
    if form is None or not form.startswith("- "):
        return form and f"Unless `{form.replace('crate::checks::', '')}`."
    return next((said for mark, said in PANICS.items() if form.endswith(mark)), None)


def section(lead, name, said):
    return f"{lead}\n{lead} # {name}\n{lead}\n{lead} {said}\n" if said else ""


def with_calls(text, place, known):
    """The text with the sections of its public calls. `place` is its crate and its file, and `known` what conditions there are."""
    out = []
    for block in re.split(r"^(?=(?:pub )?(?:trait|impl)\b)", text, flags=re.M):
        opens = block.startswith("pub trait ")

        def with_sections(found):
            comment, between, indent, head, name, behind_name = found.groups()
            if not (opens and indent or head.startswith("pub ")):
                return found[0]
            lead, error = f"{indent}///", error_of(behind_name)
            said = section(lead, "Errors", error and ERRORS.get(error, OTHER.format(error)))
            said += section(lead, "Panics", panic_of(known.get((place, name))))
            return comment + said + between + indent + head

        out.append(CALL.sub(with_sections, block))
    return OPERATOR.sub(lambda found: found[1] + section("///", "Panics", panic_of(known.get((place, found[2].lower())))), "".join(out))


def with_aliases(text, shown, module="crate"):
    """The text with what each name of a generic type says of its calls, and with the example that `shown` has for it."""

    def said(found):
        comment, name, of = found.groups()
        if f"pub struct {of}<" not in text:
            return comment
        lines = [f"Its calls stand on the page of [`{of}`]({module}::{of}), of which it is a type.", ""]
        lines += ["```", *shown.pop(name), "```"] if name in shown else []
        return comment + "".join(f"/// {line}".rstrip() + "\n" for line in ["", *lines]).removesuffix("///\n")

    return ALIAS.sub(said, text)
