#!/usr/bin/env python3
"""What users of the library reach, for the other tools: its public calls, its laws, and the definitions that their contracts rest on."""

import functools
import pathlib
import re

ROOT = pathlib.Path(__file__).resolve().parent.parent
FUNCTION = re.compile(r"^\s*(pub(?:\([a-z]+\))? )?(?:const )?(?:unsafe )?fn (\w+)")
CLAUSE = re.compile(r"^\s*(?:requires|ensures)\b\*?")
BLOCK = re.compile(r"^(?:pub )?(impl|trait|struct|enum|fn)\b")
USE = re.compile(r"^ *pub use (.*?);", re.M | re.S)
TYPE = re.compile(r"^pub (?:struct|enum|trait) (\w+)", re.M)
GHOST = re.compile(r"^[ ]*ghost (?!use)", re.M)
GHOST_USE = re.compile(r"^\s*(?:pub |ghost )?use Rattle\.(\w+)\.specs\.([\w.]+?)\.\{(.*?)\}", re.M | re.S)
WHOLE_USE = re.compile(r"^\s*(?:ghost )?use Rattle\.(\w+)\.specs\.([\w.]+) as (\w+)", re.M)
MEANT = re.compile(r" {0,2}(?:abbrev |unfoldable )?(?:pub )?(?:record |data )?(?!use |mod )([^\s:({=]+)")
WORD = re.compile(r"[^\s(){}\[\],.;:λ→×|]+")
# The crates that users name beside `lrpar`: all their public functions are for users.
ALSO_NAMED = {
    "lrpar_conflict_examples",
    "lrpar_grammar_bison_parts",
    "lrpar_grammar_unmatched",
    "lrpar_language",
    "lrpar_lexer",
    "lrpar_lexer_lrlex",
    "lrpar_messages",
    "lrpar_names",
    "lrpar_parse_precedences",
    "lrpar_parse_prefixes",
    "lrpar_parse_trees",
    "lrpar_report",
    "lrpar_report_bison",
    "lrpar_report_fixes",
    "lrpar_table_sentences",
    "lrpar_table_stops",
    "lrpar_typed",
}


def crates():
    """The crates in the order of crates.txt."""
    for line in (ROOT / "crates.txt").read_text().splitlines():
        if line and not line.startswith("#"):
            yield line.split(":")[0]


def end_of(text, start):
    """The place after the bracket that closes the first `{` from a place on."""
    depth = 0
    for place in range(text.index("{", start), len(text)):
        depth += {"{": 1, "}": -1}.get(text[place], 0)
        if depth == 0:
            return place + 1
    return len(text)


def owner_of(head):
    """What the block with this head belongs to: the type of an `impl`, a trait, or nothing. Only a trait's members are public without a
    word."""
    before = ""
    while before != head:
        before, head = head, re.sub(r"<[^<>]*>", "", head)
    if match := re.match(r"(?:pub )?trait (\w+)", head):
        return match.group(1), True
    if match := re.match(r"impl\s*(\w+)", head):
        return match.group(1), False
    return None, False


@functools.lru_cache(maxsize=None)
def clauses_of(path):
    """The clauses of a file: the function of each, its line and its text, whose method or member it is, and whether it is public."""
    text = path.read_text()
    function, place, owner, is_public, found = "", 0, (None, False), False, []
    for number, line in enumerate(text.splitlines(keepends=True), 1):
        if BLOCK.match(line):
            owner = owner_of(text[place:].partition("{")[0])
        if match := FUNCTION.match(line):
            function = f"{path.stem}::{match.group(2)}:{number}"
            is_public = match.group(1) == "pub " or owner[1]
        elif CLAUSE.match(line):
            found.append((function, number, " ".join(text[place : end_of(text, place)].split()), owner[0], is_public))
        place += len(line)
    return found


def files_of(crate):
    """The source files of a crate."""
    return sorted((ROOT / "crates" / crate / "src").rglob("*.rt"))


def passed_on(crate, text):
    """Each name that a text of a crate passes on, with the crate that it is from."""
    for use in USE.findall(text):
        words = re.findall(r"\w+", use)
        origin = words[0] if words[0] in set(crates()) else crate
        yield from ((origin, word) for word in words if word != origin)
        if " as " in use:
            yield from ((origin, path.stem) for path in files_of(origin))


def public_names(has_laws):
    """What the crate `lrpar` names, its laws too or not, and what the modules that it names declare or pass on, each with its crate."""
    text = (ROOT / "crates" / "lrpar" / "src" / "lib.rt").read_text()
    text = text if has_laws else text.partition("pub mod laws")[0]
    names, before = set(passed_on("lrpar", text)), set()
    while names != before:
        before = set(names)
        for crate in {crate for crate, _ in before if crate.startswith("lrpar_")}:
            for path in files_of(crate):
                text = path.read_text()
                if (crate, path.stem) in before:
                    names |= set(passed_on(crate, text)) | {(crate, name) for name in TYPE.findall(text)}
                elif path.stem == "lib":
                    names |= {(origin, name) for origin, name in passed_on(crate, text) if (crate, name) in before}
    return names


def public_calls(has_laws=False):
    """The clauses of the public calls of the library, and of its laws if they are asked for."""
    names = public_names(has_laws)
    for crate in sorted({crate for crate, _ in names if crate.startswith("lrpar_")}):
        for path in files_of(crate):
            for function, line, text, owner, is_public in clauses_of(path):
                own = owner or (path.stem if (crate, path.stem) in names else function.split("::")[1].split(":")[0])
                if is_public and (crate, own) in names:
                    yield path, function, line, text


def stated_by_users():
    """Each file with public calls or laws, and the text of their contracts and of what types and traits are to a contract."""
    texts = {}
    for path, _, _, text in public_calls(has_laws=True):
        texts.setdefault(path, []).append(text)
    for crate in crates():
        for path in files_of(crate):
            if crate in ALSO_NAMED or path.stem == "laws":
                texts.setdefault(path, []).extend(clause[2] for clause in clauses_of(path) if clause[4])
    for path, found in texts.items():
        text = path.read_text()
        ghosts = [text[match.start() : end_of(text, match.start())] for match in GHOST.finditer(text)]
        yield path, " ".join(found + ghosts)


def named_in(text):
    """The definitions of other files that a text names by its `use` lines: for each name its crate, its file of specs and its own name."""
    named = {}
    for crate, file, names in GHOST_USE.findall(text):
        for name in names.split(","):
            own, _, other = name.strip().partition(" as ")
            named[other or own] = (crate, file, own)
    for crate, file, alias in WHOLE_USE.findall(text):
        for name in re.findall(rf"(?<![\w.]){alias}\.([^\s(){{}}\[\],.;:]+)", text):
            named[name] = named.get(name, (crate, file, name))
    return named


@functools.lru_cache(maxsize=None)
def meant_in(crate, file):
    """What a file of specs names of others, and for each of its own definitions the words of its text."""
    path = ROOT / "crates" / crate / "specs" / (file.replace(".", "/") + ".antt")
    if not path.exists():
        return {}, {}
    text, own = path.read_text(), {}
    for part in re.split(r"\n\s*\n", text):
        lines = [line for line in part.split("\n") if not line.strip().startswith("--") and " use " not in f" {line}"]
        words = set(WORD.findall(" ".join(lines)))
        for line in lines:
            if (match := MEANT.match(line)) and not line.startswith("   "):
                own.setdefault(match.group(1), set()).update(words)
    return named_in(text), own


def reached():
    """The definitions that the contracts of public calls and laws rest on, each as its crate, its file of specs and its name."""
    found, left = set(), set()
    for path, text in stated_by_users():
        named = named_in(path.read_text())
        left |= {named[word] for word in WORD.findall(text) if word in named}
    while left:
        crate, file, name = left.pop()
        named, own = meant_in(crate, file)
        if name in own:
            found.add((crate, file, name))
            words = {(crate, file, word) if word in own else named.get(word) for word in own[name]}
            left |= words - found - {None}
        elif name in named:
            left.add(named[name])
    return found
