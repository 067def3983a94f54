"""The pages are short, their links lead somewhere, and what they count is right."""

import functools
import re

from public import ROOT, crates
from sources import Finding, line_of, named, tracked

MOST_WORDS = 45_000
LINK = re.compile(r"\[[^\]\[]*\]\(([^)\s]+)\)")
FENCE = re.compile(r"^```.*?^```", re.M | re.S)
# What no page speaks of: the papers and their numbers, and places on one machine.
UNSAID = re.compile(r"\b[Tt]he papers?\b|(?<![\w`])[DTWR]\d{1,2}\b|(?<![\w.])/(?:work|opt|root)/")
# A file of a crate, by its path from `crates/` or from the top; and a file of specs, as the glossary names it.
SOURCE = re.compile(r"`(?:crates/)?((?:lrpar|nimbleparse|program|example|test)\w*/(?:src|specs|proofs)/[\w/]+\.(?:rt|antt))`")
FILE = re.compile(r"`(\w+\.(?:rt|antt))`")
SPEC = re.compile(r"`(lrpar\w*)/([A-Z]\w*)`")
# Names that stand for any file.
EXAMPLES = {"NAME.rt", "NameLemmas.antt"}
COSTS = ROOT / "tools" / "costs.txt"
COST = re.compile(r"^(\w+) +([\d,]+) +([\d,]+)(?: +(?:\d+: )?([\d,]+))?$", re.M)
SUM = "all"


def without_blocks(text):
    """The text with blanks in place of its blocks of code, so that lines keep their numbers."""
    return FENCE.sub(lambda block: re.sub(r"[^\n]", " ", block.group()), text)


def anchors(text):
    """The anchors of a page: its headings in small letters, with hyphens for blanks, and without signs."""
    for heading in re.findall(r"^#+ (.*)$", without_blocks(text), re.M):
        plain = re.sub(r"\[([^\]]*)\]\([^)]*\)", r"\1", heading)
        yield re.sub(r"[^\w\- ]", "", plain.lower()).replace(" ", "-")


def broken_links(path, text):
    """Links of a page to files or parts of pages that there aren't."""
    for match in LINK.finditer(without_blocks(text)):
        target, _, anchor = match.group(1).partition("#")
        if re.match(r"\w+:", target):
            continue
        to = (path.parent / target).resolve() if target else path
        line = line_of(text, match.start())
        if not to.is_dir() and to not in tracked():
            yield Finding(named(path), line, f"the link to {target} leads nowhere")
        elif anchor and to.suffix == ".md" and anchor not in set(anchors(to.read_text())):
            yield Finding(named(path), line, f"the link to {target}#{anchor} leads to no heading")


@functools.lru_cache(maxsize=None)
def source_names():
    """The names of the files of all crates."""
    return {path.name for path in tracked() if path.suffix in (".rt", ".antt")}


def missing_files(path, text):
    """Files of crates that a page names though there are none."""
    for match in (*SOURCE.finditer(text), *SPEC.finditer(text)):
        source = match.group(1) if match.re is SOURCE else f"{match.group(1)}/specs/{match.group(2)}.antt"
        if not (ROOT / "crates" / source).exists():
            yield Finding(named(path), line_of(text, match.start()), f"there is no file crates/{source}")
    for match in FILE.finditer(text):
        if match.group(1) not in source_names() | EXAMPLES:
            yield Finding(named(path), line_of(text, match.start()), f"no crate has a file {match.group(1)}")


def number(text):
    """The number that a column has, or 0 without one."""
    return int(text.replace(",", "")) if text else 0


def costs():
    """Crates that the table of costs lacks, or has though there are none, and a row of sums that aren't the sums."""
    text = COSTS.read_text() if COSTS.exists() else ""
    rows = {match.group(1): (line_of(text, match.start()), [number(cell) for cell in match.groups()[1:]]) for match in COST.finditer(text)}
    line, printed = rows.pop(SUM, (1, []))
    for crate in sorted(set(crates()) - rows.keys()):
        yield Finding(named(COSTS), line, f"the table of costs lacks `{crate}`")
    for crate in sorted(rows.keys() - set(crates())):
        yield Finding(named(COSTS), rows[crate][0], f"the table of costs has `{crate}`, which is no crate")
    sums = [sum(cells) for cells in zip(*(cells for _, cells in rows.values()))]
    if printed != sums:
        yield Finding(named(COSTS), line, f"the row of sums of the table of costs should have {sums}")


def findings():
    pages = tracked("*.md")
    words = sum(len(path.read_text().split()) for path in pages)
    if words > MOST_WORDS:
        yield Finding("README.md", 1, f"the pages have {words:,} words together, more than {MOST_WORDS:,}")
    for path in pages:
        text = path.read_text()
        yield from broken_links(path, text)
        yield from missing_files(path, text)
        for match in UNSAID.finditer(text):
            yield Finding(named(path), line_of(text, match.start()), f"'{match.group()}' is nothing that a page speaks of")
    yield from costs()
