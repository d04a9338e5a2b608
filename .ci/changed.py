"""What has changed of the repository's functions and definitions since the day before its newest commit."""
import io
import re
import subprocess
import tarfile
from pathlib import Path

TOP = Path(__file__).resolve().parent.parent
DAY = 24 * 60 * 60
FUNCTION = r"\s*(?:pub(?:\([^)]*\))? )?(?:const )?(?:unsafe )?(?:extern \"C\" )?fn (\w+)"
WORD = re.compile(r"[\w◌'-]+")


def crates_listed(top):
    """The libraries that each crate uses, and whether it is a static library, by crates.txt."""
    found = {}
    for line in (top / "crates.txt").read_text().splitlines():
        if line.strip() and not line.startswith("#"):
            head, _, names = line.partition(":")
            found[head.split()[0]] = (names.split(), "staticlib" in head.split())
    return found


def function_at(crate, file, row):
    """The module and name of the function in whose body this row stands, by the layout of `rt fmt`, or None."""
    rows = (crate / file).read_text().split("\n")
    if not file.startswith("src/"):
        return None
    module = re.sub(r"^src/|\.rt$", "", file).replace("/", "::").removesuffix("::mod")
    depth = len(rows[row]) - len(rows[row].lstrip())
    for at in range(row, -1, -1):
        indent = len(rows[at]) - len(rows[at].lstrip())
        found = re.match(FUNCTION, rows[at])
        if found and indent < depth:
            # A body begins at the first line that ends with its brace; above it stand the signature and clauses.
            begins = next((it for it in range(at, row) if re.match(rf" {{{indent}}}(\S.*)?{{$", rows[it])), None)
            return None if begins is None else ("" if module in ("lib", "main") else module, found[1])
        if found and at == row and "{" in rows[at]:
            return ("" if module in ("lib", "main") else module, found[1])
        if at != row and rows[at].startswith("}"):
            return None
    return None


def indent_of(row):
    return len(row) - len(row.lstrip())


def functions_of(text):
    """The functions of a source by the block that each stands in and its name: its head and clauses, and all of it,
    without comments. A source is as `rt fmt` lays it out."""
    rows = [it for it in text.split("\n") if it.strip() and not it.lstrip().startswith("//")]
    found, block = {}, ""
    for at, row in enumerate(rows):
        if re.match(r"(pub(\([^)]*\))? )?(impl|trait)\b", row):
            block = row
        name = re.match(FUNCTION, row)
        if not name:
            continue
        indent = indent_of(row)
        if indent == 0:
            block = ""
        end = at
        while end < len(rows) - 1 and not (end > at and indent_of(rows[end]) <= indent and rows[end].strip() in ("}", "{}")):
            if rows[end].rstrip().endswith(";") and not any(it.rstrip().endswith("{") for it in rows[at:end + 1]):
                break
            end += 1
        begins = next((it for it in range(at, end + 1) if re.match(rf" {{{indent}}}(\S.*)?{{$", rows[it])), end)
        found[block, name[1]] = "\n".join(rows[at : begins + 1]), "\n".join(rows[at : end + 1])
    return found


class Definitions:
    """A file of specs/: the definitions by name, as blocks between blank lines, and the names that it takes from others."""

    def __init__(self, text):
        self.blocks, self.imports = {}, imports_of(text)
        plain = "\n".join(it for it in text.split("\n") if not it.lstrip().startswith(("--", "use ", "pub use ", "mod ", "pub mod ")))
        for block in re.split(r"\n\s*\n", plain):
            for name in re.findall(r"(?m)^(?:(?:pub|abbrev|unfoldable|opaque|data|record) +)*([\w◌'-]+)", block):
                self.blocks.setdefault(name, set()).add(block)


def imports_of(text):
    """The names that a file takes from files of specs/, with the path of each."""
    found = {}
    for module, names in re.findall(r"(?m)^\s*(?:pub |ghost )?use Rattle\.(\w+\.specs\.[\w.]+)\.\{([^}]*)\}", text):
        crate, _, place = module.partition(".specs.")
        found |= {name.strip(): f"crates/{crate}/specs/{place.replace('.', '/')}.antt" for name in names.split(",")}
    return found


class Tree:
    """The sources and definitions of the crates as they stand, or as they stood at a commit."""

    def __init__(self, files):
        self.files, self.functions, self.definitions, self.imports = files, {}, {}, {}

    def function(self, path, key):
        if path not in self.functions:
            self.functions[path] = functions_of(self.files.get(path, ""))
        return self.functions[path].get(key)

    def definitions_in(self, path):
        if path not in self.definitions:
            self.definitions[path] = Definitions(self.files.get(path, ""))
        return self.definitions[path]

    def cited(self, path, contract):
        """All definitions that a contract of this source names, and those that these name."""
        if path not in self.imports:
            self.imports[path] = imports_of(self.files.get(path, ""))
        taken = self.imports[path]
        left = {(taken[it], it) for it in WORD.findall(contract) if it in taken}
        seen, found = set(), set()
        while left:
            place, name = it = left.pop()
            seen.add(it)
            file = self.definitions_in(place)
            for block in file.blocks.get(name, ()):
                found.add(block)
                for word in WORD.findall(block):
                    named = (file.imports[word], word) if word in file.imports else (place, word) if word in file.blocks else None
                    if named and named not in seen:
                        left.add(named)
        return found


def git(*words):
    return subprocess.run(["git", *words], cwd=TOP, stdout=subprocess.PIPE, stderr=subprocess.DEVNULL)


def is_read(path):
    return path.endswith((".rt", ".antt", ".edit"))


class Changes:
    """What differs from the newest commit that is more than a day older than the last one."""

    def __init__(self):
        last = git("log", "-1", "--format=%ct").stdout.decode().strip()
        self.base = git("rev-list", "-1", f"--before={int(last or 0) - DAY}", "HEAD").stdout.decode().strip() if last else ""
        self.count = int(git("rev-list", "--count", "HEAD").stdout.decode().strip() or 0)
        here = {str(it.relative_to(TOP)): it for it in (TOP / "crates").rglob("*") if is_read(it.name) and "out" not in it.parts}
        self.now = Tree({name: it.read_text() for name, it in here.items() if it.is_file()})
        self.then = Tree(self.at_base()) if self.base else None

    def at_base(self):
        packed = git("archive", self.base, "crates").stdout
        with tarfile.open(fileobj=io.BytesIO(packed)) as all_of_it:
            return {it.name: all_of_it.extractfile(it).read().decode() for it in all_of_it if it.isfile() and is_read(it.name)}

    def told(self):
        return f"changed since {self.base[:8]}" if self.base else "this clone has no commit that is a day older than the newest"

    def places(self, edit):
        """The path and the key of each function that an edit changes; a key is None outside of functions."""
        for (file, row) in edit.lines:
            path = f"crates/{edit.crate.name}/{file}"
            rows = self.now.files[path].split("\n")
            named = function_at(edit.crate, file, row)
            key = None
            if named:
                at = next(it for it in range(row, -1, -1) if (found := re.match(FUNCTION, rows[it])) and found[1] == named[1])
                block = next((it for it in reversed(rows[:at]) if re.match(r"(pub(\([^)]*\))? )?(impl|trait)\b", it)), "")
                key = (block if indent_of(rows[at]) else "", named[1])
            yield path, key

    def is_new(self, edit):
        """Whether the edit, or the contract of its function, is not as it was."""
        if not self.then:
            return False
        path = str(edit.path.relative_to(TOP))
        if self.then.files.get(path) != self.now.files.get(path):
            return True
        return any(self.heads(*it)[0] != self.heads(*it)[1] for it in self.places(edit) if it[1])

    def heads(self, path, key):
        """The head and clauses of a function, then and now."""
        return tuple((it.function(path, key) or ("", ""))[0] for it in (self.then, self.now))

    def touch(self, edit):
        """Whether the text of the edit's function, or a definition that its contract cites, is not as it was."""
        if not self.then:
            return False
        for path, key in self.places(edit):
            then, now = self.then.function(path, key), self.now.function(path, key)
            if not key and self.then.files.get(path) != self.now.files.get(path) or then != now:
                return True
            if now and self.then.cited(path, now[0]) != self.now.cited(path, now[0]):
                return True
        return False
