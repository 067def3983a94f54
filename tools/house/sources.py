"""What the checks of the house share: findings, the files of the repository, and the functions and names in them."""

import functools
import pathlib
import re
import subprocess
from typing import NamedTuple

from public import ROOT, crates

DATA = ROOT / "tools" / "house"
QUOTED = re.compile(r"""//[^\n]*|\br(#*)"(?s:.*?)"\1|"(?:[^"\\]|\\(?s:.))*"|'(?:[^'\\\n]|\\[^\n])[^'\n]{0,8}?'(?!\w)""")
FUNCTION = re.compile(r"^[ ]*(?:pub(?:\([a-z]+\))? )?(?:const )?(?:unsafe )?fn (\w+)", re.M)
TYPE = re.compile(r"^[ ]*(?:pub(?:\([a-z]+\))? )?(?:struct|enum|trait|type) (\w+)", re.M)
DEFINITION = re.compile(r"^[ ]*(?:abbrev |unfoldable )?pub (?:record |data )?(?!use |mod )([^\s:({]+)", re.M)
CONTRACT = re.compile(r"\n\s*(?:requires|ensures|where)\b")


class Finding(NamedTuple):
    """What is wrong, and where: a path from the top of the repository, and a line."""

    file: str
    line: int
    what: str


class Function(NamedTuple):
    """A function of the code: its place, its name, its parameters and its result as texts, and the line above it."""

    file: str
    line: int
    name: str
    parameters: str
    result: str
    above: str


def data_lines(path):
    """The lines of a file of data, each with its number, but for the empty ones and those that begin with `#`."""
    for number, line in enumerate(path.read_text().splitlines(), 1):
        if line.strip() and not line.startswith("#"):
            yield number, line.strip()


def named(path):
    """The path as findings name it."""
    return str(path.relative_to(ROOT))


@functools.lru_cache(maxsize=None)
def tracked(pattern="*"):
    """The files of the repository, with new ones, and without those that git ignores."""
    command = ["git", "ls-files", "-z", "--cached", "--others", "--exclude-standard", pattern]
    listed = subprocess.run(command, cwd=ROOT, capture_output=True, check=True).stdout.decode()
    return [ROOT / name for name in listed.split("\0") if name and (ROOT / name).exists()]


def files(folder, suffix):
    """The files of this folder of each crate, each with the name of its crate."""
    for crate in crates():
        for path in sorted((ROOT / "crates" / crate / folder).rglob(f"*{suffix}")):
            yield crate, path


def line_of(text, place):
    """The number of the line of this place."""
    return text.count("\n", 0, place) + 1


def end_of_head(text, place):
    """The place where the head of a function ends: before its contract, its body or its semicolon."""
    depth = 0
    for at in range(place, len(text)):
        depth += {"(": 1, "[": 1, ")": -1, "]": -1}.get(text[at], 0)
        if depth == 0 and (text[at] in "{;" or CONTRACT.match(text, at)):
            return at
    return len(text)


def split_head(head):
    """The parameters and the result of a function with this head."""
    depth, start = 0, head.index("(")
    for at in range(start, len(head)):
        depth += {"(": 1, ")": -1}.get(head[at], 0)
        if depth == 0:
            return head[start + 1 : at], head[at + 1 :].strip().removeprefix("->").strip()
    return head[start + 1 :], ""


@functools.lru_cache(maxsize=None)
def code(path):
    """The text of a file of `src`, with blanks in place of comments and of texts in quotes."""
    return QUOTED.sub(lambda part: re.sub(r"[^\n]", " ", part.group()), path.read_text())


@functools.lru_cache(maxsize=None)
def functions(path):
    """The functions of a file."""
    text = code(path)
    found = []
    for match in FUNCTION.finditer(text):
        end = end_of_head(text, match.end())
        parameters, result = split_head(" ".join(text[match.end() : end].split()))
        above = text[: match.start()].rstrip().rpartition("\n")[2].strip()
        found.append(Function(named(path), line_of(text, match.start(1)), match.group(1), parameters, result, above))
    return found


def names():
    """Each name in `src` and `specs`, with its crate, its file and its line: of files, functions, types and definitions."""
    for crate, path in files("src", ".rt"):
        yield crate, named(path), 1, path.stem
        text = code(path)
        for match in (*FUNCTION.finditer(text), *TYPE.finditer(text)):
            yield crate, named(path), line_of(text, match.start(1)), match.group(1)
    for crate, path in files("specs", ".antt"):
        yield crate, named(path), 1, path.stem
        text = path.read_text()
        for match in DEFINITION.finditer(text):
            yield crate, named(path), line_of(text, match.start(1)), match.group(1)


def words_of(name):
    """The words of a name, in small letters: those of `snake_case` and of `CamelCase`."""
    return [word.lower() for part in name.split("_") for word in re.findall(r"[A-Z]?[a-z0-9]+|[A-Z]+(?![a-z])", part)]
