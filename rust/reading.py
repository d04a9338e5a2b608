"""How both audits read a file of Rust or of Rattle: its tokens. What rustc might read otherwise is refused."""
import re

# Comments are space; a lifetime such as 'a is no character.
TOKEN = re.compile(
    r"""(?P<space>[ \n]+|//[^\n]*)|b?"(?:\\.|[^"\\])*"|b?'(?:\\.[^']*|[^'\\])'|'[A-Za-z_]\w*|[A-Za-z_]\w*|\d\w*"""
    r"""|::|->|=>|&&|\|\||/\*|.""",
    re.S,
)


class Different(Exception):
    pass


def named(file, read):
    """What `read` returns; a difference is told with the name of the file that its line is of."""
    try:
        return read()
    except Different as difference:
        raise Different(f"{file}:{difference}") from None


def text_of(path):
    """The text of a file, to the byte. Of characters that are not printed it has line feeds alone: no CR, tab or mark of direction."""
    text = path.read_bytes().decode(errors="surrogateescape")
    for mark in re.finditer(r"[^\n -~]", text):
        if not mark[0].isprintable():
            raise Different(f"{1 + text.count(chr(10), 0, mark.start())}: the character U+{ord(mark[0]):04X}")
    return text


def tokens_in(text):
    """The tokens of a text, each with its line, and whether it stands right behind the one before."""
    made, line, joined = [], 1, False
    if text.startswith("#!") and not text.startswith("#!["):
        raise Different("1: a first line that is no Rust")
    for match in TOKEN.finditer(text):
        if not match.group("space"):
            token = match.group()
            # Comments in slashes and stars nest. A word or `#` in front makes another string of it: r"..", c"..", r#"..".
            if token == "/*" or joined and token[0] in "\"'" and re.match(r"\w|#", made[-1][0]):
                raise Different(f"{line}: `{token}` here")
            made.append((token, line, joined))
        joined = not match.group("space")
        line += match.group().count("\n")
    return made


def tokens_of(path):
    return tokens_in(text_of(path))
