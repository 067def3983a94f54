"""crates.txt alone says what a crate is about, and each page names the crates that there are."""

import re

from public import ALSO_NAMED, ROOT, crates
from sources import Finding, line_of

LIST = ROOT / "crates.txt"
PAGE = ROOT / "docs" / "ARCHITECTURE.md"
README = ROOT / "README.md"
# The paragraph of ARCHITECTURE that names the crates for users.
FOR_USERS = "Some users name further crates"
PROGRAMS = {"lrpar_program"}
CRATE = re.compile(r"\b(?:(?:lrpar|program|example|test)(?:_[a-z]+)+|lrpar|nimbleparse)\b|\bexamples(?=  |`)")


def subjects():
    """What crates.txt says of each crate, with the line: its comment right above."""
    above = ""
    for number, line in enumerate(LIST.read_text().splitlines(), 1):
        if line.startswith("#"):
            above = line.removeprefix("#").strip()
        elif line:
            yield line.split(":")[0], number, above
            above = ""
        else:
            above = ""


def first_sentence(crate):
    """The first sentence of what a crate's root file says, without its full stop, or nothing if there is none."""
    for name in ("lib.rt", "main.rt"):
        path = ROOT / "crates" / crate / "src" / name
        if path.exists():
            lines = []
            for line in path.read_text().splitlines():
                if not line.startswith("//!") or line == "//!":
                    break
                lines.append(line.removeprefix("//!").strip())
            return re.split(r"\.(?:\s|$)", " ".join(lines))[0]
    return ""


def against_sources():
    """Crates whose subject is missing, or isn't what their root file begins with. One of the two may say more than the other."""
    for crate, line, subject in subjects():
        sentence = first_sentence(crate)
        short, long = sorted((subject[:1].lower() + subject[1:], sentence[:1].lower() + sentence[1:]), key=len)
        if not subject:
            yield Finding("crates.txt", line, f"no comment says what `{crate}` is about")
        elif not long.startswith(short):
            yield Finding("crates.txt", line, f"`{crate}` is '{subject}' here, and '{sentence}' in its root file")


def in_picture(text):
    """The crates in the picture of ARCHITECTURE, its first block, each with its line and its column."""
    block = re.search(r"^```\n(.*?)^```", text, re.M | re.S)
    places = {}
    for match in CRATE.finditer(text, block.start(), block.end()) if block else ():
        start = text.rindex("\n", 0, match.start())
        places.setdefault(match.group(), (line_of(text, match.start()), match.start() - start))
    return places


def uses():
    """What each crate uses, by crates.txt."""
    for line in LIST.read_text().splitlines():
        if line and not line.startswith("#"):
            crate, _, used = line.partition(":")
            yield crate, used.split()


def out_of_order(picture):
    """Crates in the picture that use one which isn't further down or to the left."""
    for crate, used in uses():
        for below in used:
            if crate in picture and below in picture:
                (line, column), (below_line, below_column) = picture[crate], picture[below]
                if below_line < line or (below_line == line and below_column > column):
                    yield Finding("docs/ARCHITECTURE.md", line, f"the picture has `{below}`, which `{crate}` uses, above it or to its right")


def rows(text):
    """The rows of ARCHITECTURE's tables of crates: the crates of each, its line, and what it says of their modules."""
    part = text.partition("\n## The crates\n")[2].partition("\n## ")[0]
    for match in re.finditer(r"^\| (`[^|]*) \| ([^|]*) \|", part, re.M):
        named = re.findall(r"`(\w+)`", match.group(1).partition(", which")[0])
        yield named, line_of(text, text.index(part) + match.start()), match.group(2)


def in_tables(text):
    """The crates of ARCHITECTURE's tables, each with its line."""
    for named, line, _ in rows(text):
        yield from ((crate, line) for crate in named)


def has_module(crate, name):
    """Whether a crate has a module of this name, or passes one on."""
    source = ROOT / "crates" / crate / "src"
    root = source / "lib.rt"
    return any(source.rglob(f"{name}.rt")) or (root.exists() and re.search(rf"\b{name}\b", root.read_text()))


def missing_modules(text):
    """Modules that ARCHITECTURE's tables name, in lists before a colon, and that their crates don't have."""
    for named, line, modules in rows(text):
        for sentence in re.split(r"[.;] ", modules):
            for name in re.findall(r"`([a-z_0-9]+)`", sentence.partition(":")[0]):
                if not any(has_module(crate, name) for crate in named):
                    yield Finding("docs/ARCHITECTURE.md", line, f"`{named[0]}` has no module `{name}`")


def in_architecture():
    """Crates that ARCHITECTURE leaves out, or names though there are none, and subjects that it tells again."""
    text, there, page = PAGE.read_text(), set(crates()), "docs/ARCHITECTURE.md"
    for number, line in enumerate(text.splitlines(), 1):
        if line.startswith("|") and re.search(r"\| *subject *\|", line):
            yield Finding(page, number, "a table has subjects, which crates.txt tells")
    picture, tables = in_picture(text), dict(in_tables(text))
    for crate in sorted(there - picture.keys()):
        yield Finding(page, 1, f"the picture lacks `{crate}`")
    for crate in sorted(there - tables.keys()):
        yield Finding(page, 1, f"no table has `{crate}`")
    for crate in sorted((picture.keys() | tables.keys()) - there):
        yield Finding(page, tables.get(crate, 1), f"there is no crate `{crate}`")


def for_users():
    """Crates that users name by README or ARCHITECTURE, but not by tools/public.py, or the other way round."""
    architecture = next((part for part in PAGE.read_text().split("\n") if part.startswith(FOR_USERS)), "")
    for page, text in (("README.md", README.read_text()), ("docs/ARCHITECTURE.md", architecture)):
        named = {name for name in re.findall(r"`(lrpar_\w+)`", text) if name in set(crates())} - PROGRAMS
        for crate in sorted(ALSO_NAMED - named):
            yield Finding(page, 1, f"`{crate}` isn't among the crates that users name, as tools/public.py has it")
        for crate in sorted(named - ALSO_NAMED):
            yield Finding(page, 1, f"`{crate}` is no crate that users name, by tools/public.py")


def findings():
    yield from against_sources()
    yield from in_architecture()
    yield from out_of_order(in_picture(PAGE.read_text()))
    yield from missing_modules(PAGE.read_text())
    yield from for_users()
