"""No comment of `src` or `specs` says 'the same by ..' in place of what is meant, and none of `specs` needs the definition above it.

Comments of `proofs` may do both: who reads them has the lemma above in sight."""

import re

from sources import Finding, files, named

COMMENT = re.compile(r"^\s*(?://[/!]?|--) ?(.*)$")
# 'The same' without what is the same: a sentence that begins with it says nothing by itself.
ALONE = re.compile(
    r"(?:^|[.!?] )(?:The|the) same(?:$|[,.:;]| (?:by|with|without|for|of|as|if|over|at|after|before|in|on|but|when|where|to|from|and)\b)"
)
# An auditor reads a definition as a row of a table, without the rows above: its comment doesn't need them.
POINTS_BACK = re.compile(r"(?:the same|its?|they|those|and|or|nor|such|so|if (?:it|they) d(?:o|id))\b", re.I)


def comments(path):
    """The comments of a file, each with the number of its first line: lines of comment that follow one another are one."""
    begun, text = 0, ""
    for number, line in enumerate([*path.read_text().splitlines(), ""], 1):
        match = COMMENT.match(line)
        if match:
            begun, text = begun or number, f"{text} {match.group(1)}".strip()
        elif begun:
            yield begun, text
            begun, text = 0, ""


def findings():
    for folder, suffix in (("src", ".rt"), ("specs", ".antt")):
        for _, path in files(folder, suffix):
            for line, text in comments(path):
                if match := ALONE.search(text):
                    shown = text[match.start() :].lstrip(".!? ")[:60]
                    yield Finding(named(path), line, f"a comment says '{shown}', and not what is meant")
                elif folder == "specs" and POINTS_BACK.match(text):
                    yield Finding(named(path), line, f"the comment of a definition needs the one above: '{text[:60]}'")
