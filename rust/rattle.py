"""Files of Rattle as files of Rust: the same text without what is there for proofs alone, and a few forms written anew.

Others need `rust_of` and then `with_hints`. Each rule says why it is there. No rule has to be trusted: `audit` compares what was
written with what it was written from, and knows nothing of this file.

The rules see code alone: comments, strings and characters stand as HELD in it. Text that is left out stands as GONE, and
its line feeds stay, so that a line of the code has the number that it has in the file until `laid_out`.
"""
import re

HELD = "\x00"
GONE = "\x01"

HELD_TEXT = re.compile(r"""//[^\n]*|b?"(?:\\.|[^"\\])*"|b?'(?:\\.|[^'\\\n])'""", re.S)


class Unknown(Exception):
    """A form that no rule knows, with the number of its line."""

    def __init__(self, line, what):
        super().__init__(what)
        self.line = line


def line_of(text, place):
    return text.count("\n", 0, place) + 1


def gone(text):
    return re.sub(r"[^\n]+", GONE, text)


# --- What is there for proofs alone

CLAUSE = re.compile(r"\b(?:requires|ensures)\*?(?:[ \t]+\w+)?\s*(?=\{)")
GHOST_USE = re.compile(r"\bghost\s+use\s[^;]*;")
GHOST_ITEM = re.compile(r"\b(?:pub(?:\([a-z ]+\))?\s+)?ghost\s+[A-Za-z_]\w*\s*[:=]\s*(?=\{)")
# What one of these, or a text that is held, begins with.
START = re.compile(r"""//|b?["']|\b(?:requires|ensures|ghost|pub)\b""")
DOC_OF_GHOST = re.compile(r"(?:///[^\n]*\n\s*)+(?=(?:pub(?:\([a-z ]+\))?\s+)?ghost\b)")


def end_of_term(text, start):
    """The place behind the brace that closes the one at `start`. A term has no comments, and strings without escapes."""
    depth = 0
    for piece in re.compile(r'"[^"]*"|[{}]').finditer(text, start):
        depth += {"{": 1, "}": -1}.get(piece.group(), 0)
        if depth == 0:
            return piece.end()
    raise Unknown(line_of(text, start), "a clause that does not end")


def without_proofs(text):
    """The text without clauses and ghost items, with the comments that document these."""
    out, i = [], 0
    while begun := START.search(text, i):
        out.append(text[i : begun.start()])
        start = i = begun.start()
        if found := DOC_OF_GHOST.match(text, i) or GHOST_USE.match(text, i):
            i = found.end()
        elif found := CLAUSE.match(text, i):
            i = end_of_term(text, found.end())
        elif found := GHOST_ITEM.match(text, i):
            i = end_of_term(text, found.end())
            if text[i : i + 1] not in (";", ","):
                raise Unknown(line_of(text, start), "a ghost item that does not end with its term")
            i += 1
        else:
            found = HELD_TEXT.match(text, i)
            i = found.end() if found else i + 1
            out.append(text[start:i])
            continue
        out.append(gone(text[start:i]))
    return "".join([*out, text[i:]])


USE = re.compile(r"^(?:pub(?:\(\w+\))? )?use ([^;]*);", re.M)


def without_laws(code):
    """A law is a function that changes nothing: calls of those that are imported from `laws` are left out."""
    code = re.sub(r"^(?:pub )?mod laws;", GONE, code, flags=re.M)
    for path in USE.findall(code):
        if re.match(r"\w+::laws::", path):
            for name in re.findall(r"\w+", path.rpartition("::")[2]):
                code = re.sub(rf"^ *{name}\([^();]*\);", GONE, code, flags=re.M)
    return code


# --- What Rust writes otherwise

def derived(match):
    """Every value of Rust may be dropped, and no type derives that."""
    names = [name for name in re.findall(r"\w+", match.group(1)) if name != "Drop"]
    return f"#[derive({', '.join(names)})]" if names else GONE


def plain_clone(match):
    """`clone` of Rattle returns a `Result`, and `Ok` where nothing is allocated: Rust's returns the value."""
    value, body = match.groups()
    body, made = re.fullmatch(r"(.*)\bOk\((.*?),?(?=\s*\)\s*$)(?:\s*)\)\s*", body, re.S).groups()
    return f"fn clone(&self) -> {value} {{{body}{made}\n    }}"


# Each rule: why, what it looks for in code, and what stands there in Rust.
RULES = [
    ("attributes for the prover and for the layout", r"#!?\[(?:tactic|cycle|rattlefmt)\b[^\n]*\]", GONE),
    ("the model of a type, of which no item is left", r"impl(?:<[^\n]*>)? Model for [^\n]*\{[\s\x01]*\}",
     lambda match: gone(match.group())),
    ("every value may be dropped", r"#\[derive\(([^)]*)\)\]", derived),
    ("every value may be dropped", r": Drop(?= \{|[,>])| \+ Drop\b|\bDrop \+ ", ""),
    ("a trait of Rattle is of types with a size", r"\btrait (\w+(?:<[^>{]*>)?) \{", r"trait \1: Sized {"),
    ("a trait of Rattle is of types with a size", r"\btrait (\w+(?:<[^>{]*>)?):(?! Sized \{)", r"trait \1: Sized +"),
    ("a clone that allocates is `try_clone`; what `Clone` is then stands in `added`",
     r"\bClone for (LpmTable<C, V>.*?)fn clone\(", r"\1pub fn try_clone("),
    ("a clone that can't fail is no `Result`",
     r"fn clone\(&self\) -> Result<([^\n]+), AllocError> \{(.*?)\n    \}", plain_clone),
    ("a clone is no `Result`", r"\.clone\(\)\?", ".clone()"),
    ("a formatter is of one type", r"<W: fmt::Write>|,\s*W: fmt::Write(?=[,>])", ""),
    ("a formatter is of one type", r"\bfmt::Formatter<W>", "fmt::Formatter<'_>"),
    ("what allocates returns an error, as in `cidr_support`", r"\bstd::(alloc|vec|string)\b", r"cidr_support::\1"),
    ("the system is that of `cidr_system`", r"\bstd::(io|fs|rt|env|process|os|random)\b", r"cidr_system::\1"),
    ("the system is that of `cidr_system`", r"\bstd::(?=\{fs, io, rt\})", "cidr_system::"),
    ("C calls `main`, and a macro of `cidr_system` makes it", r"\bfn main\(rt: HostRuntime\)",
     "cidr_system::main!(run);\n\nfn run(rt: HostRuntime)"),
    ("what is printed of the build", rf"(\bVERSION: &str = )({HELD});", r"\1cidr_system::version!(\2);"),
    ("tests in Rattle are proved", r"^#\[cfg\(test\)\]\nmod tests;\n", GONE),
    ("what is proved is asserted", r"\bprove!\(", "assert!("),
    ("a value is dropped where it is", r"\bfn drop\(self\)", "fn drop(&mut self)"),
    ("a clone that allocates is `try_clone`", r"(: Result<_, _> = \w+)\.clone\(\)", r"\1.try_clone()"),
    ("`collect` of an allocator", r"\.collect\(alloc\)", ".collect_in(alloc)"),
    ("strings and lists of a fixed room are of `cidr_support`", r"\barrayvec::", "cidr_support::arrayvec::"),
    ("the crates need no operating system", r"\bstd::", "core::"),
    ("a call of `str` that Rust has from 1.87 on", r"(?<!::)\bstr::from_utf8\(", "core::str::from_utf8("),
]


def without_unused_imports(code, source):
    """A name that the source has in contracts alone, or in forms that are gone, is imported no more."""
    used, was_used = USE.sub("", code), USE.sub("", source)

    def left(match):
        names = re.findall(r"\w+", match.group(1).rpartition("::")[2])
        kept = [name for name in names if re.search(rf"\b{name}\b", used) or not re.search(rf"\b{name}\b", was_used)]
        if kept == names or match.group().startswith("pub"):
            return match.group()
        path = match.group(1).rpartition("::")[0]
        if not kept:
            return gone(match.group())
        return f"use {path}::{kept[0] if len(kept) == 1 else '{' + ', '.join(kept) + '}'};"

    return USE.sub(left, code)


IN_SCOPE = {
    r"\bString\b": "cidr_support::string::String",
    r"\bVec\b": "cidr_support::vec::Vec",
    r"\bvec!": "cidr_support::vec",
    r"\.collect_in\(": "cidr_support::vec::CollectIn",
    r"\bHostRuntime\b": "cidr_system::rt::HostRuntime",
    r"\bformat!": "cidr_support::format",
    r"\.(?:carrying_add|borrowing_sub)\(": "cidr_support::carry::Carrying",
}


def with_imports(code, given):
    """What is in scope everywhere in Rattle, and is not in Rust, or not in that of before 1.91, is imported."""
    for form, path in (IN_SCOPE | {rf"\b{path.rpartition('::')[2]}\b": path for path in given}).items():
        if re.search(form, USE.sub("", code)) and not re.search(form, " ".join(USE.findall(code))):
            if USE.search(code):
                code = USE.sub(lambda first: f"use {path};\n{first.group()}", code, count=1)
            else:
                code = re.sub(r"\A(?:\x00\n|\x01|\s)*", lambda head: f"{head.group()}use {path};\n", code, count=1)
    return code


LEFT = re.compile(r"\b(?:ghost|requires|ensures|Model|tactic|prove)\b|[^\x00-\x7f]")


def in_code(text, change):
    """The text with its code changed, and its comments and strings as they are."""
    held = HELD_TEXT.findall(text)
    parts = change(HELD_TEXT.sub(HELD, text)).split(HELD)
    if len(parts) != len(held) + 1:
        raise Unknown(1, "a comment or a string in text that is left out")
    return "".join(part + kept for part, kept in zip(parts, held + [""]))


def as_rust(code, source, rules, known, given):
    code = without_laws(code)
    for _why, form, written in rules:
        code = re.sub(form, written, code, flags=re.S | re.M)
    code = without_unused_imports(code, source)
    for left in known.finditer(code):
        raise Unknown(line_of(code, left.start()), f"no rule knows `{left.group()}`")
    return with_imports(code, given)


def laid_out(text):
    """Lines that held nothing else than what is gone are gone, and a brace below clauses stands behind the head."""
    lines = [line.replace(GONE, "").rstrip() for line in text.split("\n") if line.strip(" \t" + GONE) or not line.strip()]
    text = "\n".join(lines)
    text = re.sub(r"(?<=[^,\n])\n *(\{\}?)(?=\n)", r" \1", text)
    text = re.sub(r"\n *;", ";", text)
    text = re.sub(r"\{\n\s*\n", "{\n", text)
    text = re.sub(r"\n\n( *\})", r"\n\1", text)
    text = re.sub(r"\{\n *\}", "{}", text)
    return re.sub(r"\n{3,}", "\n\n", text)


# --- Functions: what is inlined, and what is asserted

FUNCTION = re.compile(r"( *)(?:pub(?:\([a-z]+\))? )?(?:const )?fn (\w+)")


def functions(lines):
    """Each function with a body of its own: its name, its first line, that of the brace, and the last."""
    for first, line in enumerate(lines):
        if head := FUNCTION.match(line):
            opened = next(i for i in range(first, len(lines)) if re.search(r"[;{]$|\}$", lines[i]))
            if lines[opened].endswith("{"):
                last = next(i for i in range(opened, len(lines)) if lines[i] == head.group(1) + "}")
                yield head.group(2), head.group(1), first, opened, last


def with_lines(lines, added):
    """The lines with those of `added`, each below the line whose number it names."""
    out = []
    for i, line in enumerate(lines):
        out += [line] + added.get(i, [])
    return "\n".join(out)


def with_assertions(text, conditions):
    """The text with what `conditions` has for a function asserted in it, but in private ones of the same name."""
    lines, added = text.split("\n"), {}
    for name, indent, first, opened, _last in functions(lines):
        if name in conditions and (indent or lines[first].startswith("pub ")):
            added[opened] = [f"{indent}    assert!({conditions[name]});"]
    return with_lines(lines, added)


# Longer functions that are inlined: each is called for each octet of an address.
INLINED = ("octet_of", "take_octet", "read_octet")


def with_hints(text, longest=8):
    """Rattle inlines short functions across crates, and rustc those with this attribute."""
    lines, added = text.split("\n"), {}
    for name, indent, first, opened, last in functions(lines):
        if (last - opened <= longest or name in INLINED) and not lines[first - 1].lstrip().startswith("#[inline"):
            added[first - 1] = [f"{indent}#[inline]"]
    return with_lines(lines, added)


def rust_of(text, conditions=(), rules=RULES, known=LEFT, given=()):
    """The text of a file of Rattle as Rust."""
    source = HELD_TEXT.sub("", text)
    written = laid_out(in_code(without_proofs(text), lambda code: as_rust(code, source, rules, known, given)))
    return with_assertions(written, dict(conditions))
