#!/usr/bin/env python3
"""Looks whether docs/COMMANDS.md has the usage lines and the table of options that the help of `nimbleparse` has: commands.py [--write]

The help is that of the case which CASE names. The gate compares it with what the program prints, and the program makes it of the options
that it reads. Prints what differs, and the status is then 1. With --write it writes the page."""

import difflib
import pathlib
import re
import sys

ROOT = pathlib.Path(__file__).resolve().parent.parent
CASES = ROOT / "crates" / "test_cases" / "data" / "nimble.cases"
CASE = "nimble what the program says of itself at length"
PAGE = ROOT / "docs" / "COMMANDS.md"
HEAD = "| option | meaning |\n|---|---|\n"
OPTION = re.compile(r"^ {2,6}(-\S.*)$", re.M)
VALUE = re.compile(r"^- (\S+): +(.*)$")
DEFAULT = re.compile(r"^\[default: (.*)\]$")


def help_text():
    """The help that the case expects."""
    _, _, case = CASES.read_text().partition(f"\n{CASE}\n")
    return "\n".join(line[3:] for line in case.partition("\n\n")[0].splitlines() if line.startswith("  |"))


def usage_lines(text):
    """The usage lines of a help text, each of which a paragraph of the page begins with."""
    return text.partition("Usage: ")[2].partition("\n\n")[0].split("\n       ")


def rows_of(option, lines):
    """The rows of an option: what is said of it, and then of each word that it takes."""
    values = [match.groups() for match in map(VALUE.match, lines) if match]
    default = next((match.group(1) for match in map(DEFAULT.match, lines) if match), None)
    text = " ".join(line for line in lines if line and not re.match(r"Possible values:|- |\[", line))
    yield option, text if values or default is None else f"{text}. Without the option {default}"
    name = option.split()[0]
    for value, says in values:
        yield f"{name} {value}", f"{says}. This is the default" if value == default else says


def table(text):
    """The table of the options of a help text."""
    options = OPTION.split(text.partition("\nOptions:\n")[2].partition("\n\nAll ")[0])[1:]
    for option, body in zip(options[::2], options[1::2]):
        for words, says in rows_of(option, [line.strip() for line in body.splitlines()]):
            yield "| " + ", ".join(f"`{word}`" for word in words.split(", ")) + f" | {says} |\n"


def main():
    text = help_text()
    page = PAGE.read_text()
    usages = iter(usage_lines(text))
    written = re.sub(r"^`\./nimbleparse [^`]*`", lambda match: f"`./{next(usages, '')}`", page, flags=re.M)
    written = re.sub(re.escape(HEAD) + r"(?:\|.*\n)*", lambda _: HEAD + "".join(table(text)), written)
    if "--write" in sys.argv[1:]:
        PAGE.write_text(written)
        return
    for line in difflib.unified_diff(page.splitlines(), written.splitlines(), "docs/COMMANDS.md", "the help", n=0, lineterm=""):
        print(line)
    sys.exit(1 if written != page else 0)


main()
