#!/usr/bin/env python3
"""Looks whether the repository keeps the rules of the house: house.py [CHECK ..]

    comments    no comment of src or specs says 'the same by ..' in place of what is meant, and none of specs needs the one above
    verbs       what changes something, or has no result, is named by a verb
    words       a word of house/words.txt is used where it has its one meaning
    subjects    crates.txt alone says what a crate is about, and each page names the crates that there are
    documents   the pages are short, their links lead somewhere, and what they count is right
    gate        CONTRIBUTING alone describes the gate

Without a name all checks are made. Prints one line for each finding, FILE:LINE: WHAT, and the status is then 1. The findings that stay
are in house/exceptions.txt, each with a reason; an exception that no finding needs is a finding, too."""

import pathlib
import sys

sys.path.insert(0, str(pathlib.Path(__file__).resolve().parent / "house"))

import comments
import documents
import gate
import subjects
import verbs
import words
from sources import DATA, Finding, data_lines

CHECKS = {module.__name__: module for module in (comments, verbs, words, subjects, documents, gate)}
EXCEPTIONS = DATA / "exceptions.txt"


def exceptions(names):
    """The exceptions of these checks: for each its line, and the file and the text of its finding. A line is CHECK FILE: WHAT -- REASON."""
    for number, line in data_lines(EXCEPTIONS):
        check, _, rest = line.partition(" ")
        finding, _, reason = rest.partition(" -- ")
        file, _, what = finding.partition(": ")
        if check not in CHECKS or not reason:
            sys.exit(f"{EXCEPTIONS.name}:{number}: this line isn't CHECK FILE: WHAT -- REASON")
        if check in names:
            yield number, (check, file, what)


def findings(names):
    """What these checks find, without what is excepted, and with the exceptions that nothing needs."""
    excepted = {key: number for number, key in exceptions(names)}
    needed = set()
    for name in names:
        for found in CHECKS[name].findings():
            key = (name, found.file, found.what)
            if key in excepted:
                needed.add(key)
            else:
                yield found
    for key, number in excepted.items():
        if key not in needed:
            yield Finding("tools/house/exceptions.txt", number, "no finding needs this exception")


def main():
    names = sys.argv[1:] or list(CHECKS)
    if unknown := [name for name in names if name not in CHECKS]:
        sys.exit(f"unknown check {unknown[0]}: the checks are {', '.join(CHECKS)}")
    found = sorted(findings(names))
    for file, line, what in found:
        print(f"{file}:{line}: {what}")
    sys.exit(1 if found else 0)


if __name__ == "__main__":
    main()
