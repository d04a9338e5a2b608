"""The pages that `cargo doc` makes of crates, and the public calls that they have."""
import html
import re

import sections

# A call, with how a type's page names it: a method of its own, and of a trait one that is to be written or is given.
CALL = re.compile(r'<section id="((?:ty)?method\.[\w-]+)" class="method">')
DECLARED = re.compile(r'<pre class="rust item-decl"><code>(.*?)</code></pre>', re.S)


def calls(page, text):
    """Each call of a page with what the page says of it."""
    if page.name.startswith("fn."):
        yield page.stem, text
    own = re.split(r'<h2 id="(?:deref-methods|synthetic-impl|blanket-impl|implementors)', text)[0]
    pieces = CALL.split(own)
    for name, said in zip(pieces[1::2], pieces[2::2]):
        yield f"{page.stem} {name}", re.split(r'<section id=|<h2 id=', said)[0]


def has_example(said):
    """Whether what a page says of a call has an example that is a test: one that is shown and not run is none."""
    return "rust-example-rendered" in said


def plain(fragment):
    """A piece of a page as text."""
    return html.unescape(re.sub(r"<[^>]*>", "", fragment))


def head_of(said):
    """The head of a call, from its name on."""
    head = re.search(r'<h4 class="code-header">(.*?)</h4>', said, re.S) or DECLARED.search(said)
    return plain(head[1]).partition("fn ")[2]


def returns_result(said):
    """Whether a call returns a `Result`. A page has `fmt::Result` without its module."""
    head = re.sub(r"^\w+", "", head_of(said))
    return sections.error_of(re.sub(r"-> Result(?=\s*(?:where\b|$))", "-> fmt::Result", head)) is not None


def place_of(said):
    """The file and the name of a call."""
    file = re.search(r'href="[./]*/src/([^"#]*)\.rs\.html#', said)
    return file and (file[1], re.match(r"\w+", head_of(said))[0])


def written_pages(folder, crates, form="*.html"):
    for page in sorted(page for crate in crates for page in folder.glob(f"{crate}/**/{form}")):
        text = page.read_text()
        if "<title>Redirection</title>" not in text:
            yield page, text


def aliases(folder, crates):
    """Each page of a name that stands for a type."""
    yield from written_pages(folder, crates, "type.*.html")


def types_of(text):
    """Where the pages are of the types of its crate that the name of a page stands for."""
    of = DECLARED.search(text)[1].partition(" = ")[2]
    return [target for target in re.findall(r'<a class="(?:struct|enum)" href="([^"]*)"', of) if "://" not in target]


def types_without_page(page, text):
    """The types that the name of a page stands for, and of which no page is: they are named and lead nowhere."""
    name, _, of = DECLARED.search(text)[1].partition(" = ")
    unlinked = re.findall(r"\b[A-Z]\w*", plain(re.sub(r"<a\b.*?</a>", "", of)))
    return [*(target for target in types_of(text) if not (page.parent / target).is_file()),
            *(word for word in unlinked if word not in re.findall(r"\w+", plain(name)))]


def public_calls(folder, crates):
    """Each public call of crates whose pages lie in a folder: its page, its name, and what the page says of it."""
    for page, text in written_pages(folder, crates):
        for name, said in calls(page, text):
            yield page, name, said
