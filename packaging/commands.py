"""The commands of `netset`, as its table of commands has them: their forms, what the help says of each, and their options."""
import json
import os
import re

TOP = os.path.join(os.path.dirname(os.path.abspath(__file__)), "..")
TABLE = "crates/netset_commands/src/commands/table.rt"
ARGUMENTS = "crates/netset_commands/src/commands/arguments.rt"
FORMATS = "crates/cidr_lists/src/formats.rt"
LITERAL = r'"((?:[^"\\]|\\.)*)"'


def read(path):
    with open(os.path.join(TOP, path), encoding="utf-8") as file:
        return file.read()


def strings(text):
    """The values of the string literals of a text."""
    return [json.loads(f'"{it}"') for it in re.findall(LITERAL, text)]


def row(text, verb):
    """The row of a command in the table: its fields by their names, as they are written, constants of the table in their place."""
    fields = re.search(rf"^        {re.escape(verb)} => Row {{(.*?)}},$", text, re.S | re.M)
    if not fields:
        raise SystemExit(f"{TABLE}: no row for {verb}")
    lists = dict(re.findall(r"const (\w+): &\[&str\] = (&\[.*?\]);", text))
    found = re.findall(r"(\w+): (&\[.*?\]|[^,]+),", fields[1].strip().rstrip(",") + ",")
    return {field: lists.get(value, value) for field, value in found}


def names_in(path, function):
    """The names that a function compares with, or gives: the words of its body in quotes."""
    return strings(re.search(rf"\bfn {function}\b.*?\n}}\n", read(path), re.S)[0])


def values_of(valued):
    """The names that the options of a command take, of those with a value: formats and forms."""
    formats = names_in(FORMATS, "format_name") if "--prefix" in valued else names_in(ARGUMENTS, "line_format_in")
    of_table = "--table-separator" in valued
    forms = names_in(ARGUMENTS, "named_layout") if of_table else names_in(ARGUMENTS, "named_list_form")
    named = {"--format": formats, "--form": forms}
    return {option: [it for it in names if not it.startswith("-")] for option, names in named.items() if option in valued}


class Command:
    """A command of a program: its name, its forms, what the help says of each, and its options, some of which have a value."""

    def __init__(self, name, forms, says=(), options=(), valued=()):
        self.name, self.forms, self.says, self.options, self.valued = name, forms, list(says), list(options), list(valued)
        self.values = values_of(self.valued)

    def kind(self):
        """What may complete an operand: a command, a file or nothing."""
        operands = {it.strip("[].") for form in self.forms for it in re.split("[ |]", form)[2:]}
        if "COMMAND" in operands:
            return "command"
        return "file" if operands & {"A", "B", "FILE", "LIST", "RULES", "TABLE", "POOL", "USED"} else ""


def netset_commands():
    """The commands of `netset`, and what its help says of options that several of them have: how they are written, and words."""
    text = read(TABLE)
    constants = {name: json.loads(f'"{it}"') for name, it in re.findall(rf"const (\w+): &str =\s*{LITERAL};", text)}
    rows = re.search(r"COMMANDS: \[Verb; \d+\] = \[(.*?)\];", text, re.S)[1]
    commands = []
    for verb in re.findall(r"Verb::[\w:()]+", rows):
        fields = row(text, verb)
        told = {}
        for line in constants[fields["about"]].splitlines():
            # The command, or another name of it; the form, of options and operands; and behind white space words on it.
            begin = re.match(r"netset (\S+)", line)
            name = begin[1] if begin else name
            forms, says = told.setdefault(name, ([], []))
            form, words = re.match(rf"(netset {name}(?: (?:\[.*?\]|-[\w-]+|[A-Z|]+(?:\.\.)?)(?= |$))*)? *(.*)", line).groups()
            if form:
                forms.append(form)
                says.append("")
            says[-1] = f"{says[-1]} {words}".strip()
        for name, (forms, says) in told.items():
            commands.append(Command(name, forms, says, strings(fields["options"]), strings(fields["values"])))
    notes = [found for it in constants.values() for found in re.findall(r"^(-\S.*?)(?:  +|\n +)(.*\n(?: .*\n)*)", it, re.M)]
    return commands, {option: " ".join(words.split()) for option, words in notes}
