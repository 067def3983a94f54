#!/usr/bin/env python3
"""Looks whether each Rust block of README.md and docs/GUIDE.md is part of a source: blocks.py

A block is looked for in the sources of a crate of tests and of crates of examples, which the gate proves and runs, but for
their `pub(crate)`. Each block that is part of none is printed, and the status is then 1."""

import pathlib
import re
import sys

ROOT = pathlib.Path(__file__).resolve().parent.parent
PAGES = ["README.md", "docs/GUIDE.md"]
CRATES = ["test_guide", "example_project", "examples"]


def main():
    sources = [path.read_text().replace("pub(crate) ", "") for crate in CRATES for path in sorted((ROOT / "crates" / crate / "src").rglob("*.rt"))]
    missing = 0
    for page in PAGES:
        text = (ROOT / page).read_text()
        for match in re.finditer(r"^```rust\n(.*?)^```", text, re.M | re.S):
            if not any(match.group(1) in source for source in sources):
                missing += 1
                line = text[: match.start()].count("\n") + 1
                print(f"{page}:{line}: this block is in no source")
    sys.exit(1 if missing else 0)


main()
