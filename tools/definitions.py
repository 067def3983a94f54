#!/usr/bin/env python3
"""Writes docs/DEFINITIONS.md from the comments in crates/*/specs, for who audits what the theorems say: definitions.py

The page is no part of the repository. Each crate is a part, each file of its specs a part below it, in the order in which `Lib.antt` names
them, and each definition that users reach (tools/public.py) a row: its name, and the comment above it. Definitions that follow one another
under one comment share a row."""

import re

from public import ROOT, crates, reached

PAGE = ROOT / "docs" / "DEFINITIONS.md"
HEAD = """# Definitions

The definitions in `specs/` on which the contracts of public calls and the laws rest, in the order in which a reader needs them. Those that
only private functions use are left out: `specs/` has them with the same comments. `tools/definitions.py` makes this page. Numbers are ℕ,
texts are lists of bytes, and `S` is a storage type; its function `index` takes a value of it to its ℕ. A name that begins with a capital is
a kind of value or a fact; any other is a value. The [glossary](ARCHITECTURE.md#glossary) has the field's terms with their names here.

Grammars, trees and derivations are as in Aho and Ullman, *The Theory of Parsing, Translation, and Compiling*. The safety conditions are
those of Jourdan, Pottier and Leroy, *Validating LR(1) Parsers*.
"""
# A line that begins a block whose lines may be definitions, and one of a definition.
BLOCK = re.compile(r"(?:abbrev |unfoldable )?(?:mutual$|module )")
DEFINITION = re.compile(r"(?:(?:abbrev |unfoldable )?pub (?:record |data )?)(?!use |mod )([^\s:]+)")


def files(crate):
    """The files of a crate's specs, in the order in which its `Lib.antt` names them."""
    lib = ROOT / "crates" / crate / "specs" / "Lib.antt"
    if lib.exists():
        for name in re.findall(r"^pub mod (\S+)", lib.read_text(), re.M):
            yield lib.parent / f"{name}.antt"


def comment_of(lines):
    """The text of lines that are comments."""
    return " ".join(line.strip().removeprefix("--").strip() for line in lines)


def split_head(lines):
    """The comment at the top of a file, and the lines after it."""
    end = next((at for at, line in enumerate(lines) if not line.startswith("--")), len(lines))
    return lines[:end], lines[end:]


def rows(lines):
    """The names of public definitions, with the comment above them."""
    found, above, blocks = [], [], []
    for line in lines:
        code, indent = line.strip(), len(line) - len(line.lstrip())
        if not code:
            continue
        while blocks and blocks[-1] >= indent:
            blocks.pop()
        # A line of a block is indented by two more than the block's own.
        is_outer = indent == (blocks[-1] + 2 if blocks else 0)
        if is_outer and code.startswith("--"):
            above.append(code)
        elif is_outer and BLOCK.match(code):
            blocks.append(indent)
            # A comment above `module` says what all in it is about: it leads to that of the first definition.
            if above and not code.endswith("mutual") and not above[-1].endswith((".", ":")):
                above[-1] += ":"
        elif is_outer and (match := DEFINITION.match(code)):
            if above or not found:
                found.append(([], comment_of(above)))
            found[-1][0].append(match.group(1))
            above = []
        elif is_outer:
            above = []
    return found


def section(crate, path, shown_names):
    """The part of a file: what its first comment says, and those of its definitions that are shown."""
    head, lines = split_head(path.read_text().split("\n"))
    shown = [f"### `{path.relative_to(path.parent.parent)}`", "", comment_of(head), ""]
    found = rows(lines)
    table = [row for row in found if not crate.startswith("lrpar") or any((crate, path.stem, name) in shown_names for name in row[0])]
    if found and not table:
        return []
    if table:
        shown += ["| name | meaning |", "|---|---|"]
        for names, meaning in table:
            named = ", ".join(f"`{name}`" for name in names)
            shown.append(f"| {named} | {meaning.replace('|', chr(92) + '|')} |")
        shown.append("")
    return shown


def page():
    """The whole page."""
    lines = HEAD.split("\n")
    shown_names = reached()
    for crate in crates():
        parts = [line for path in files(crate) for line in section(crate, path, shown_names)]
        if parts:
            lines += [f"## `{crate}`", "", *parts]
    return "\n".join(lines).rstrip() + "\n"


def main():
    PAGE.write_text(page())
    print(PAGE.relative_to(ROOT))


main()
