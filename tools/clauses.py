#!/usr/bin/env python3
"""Counts how long contracts are: clauses.py [--longest N] [CRATE ..]

For each crate, or for the crates that are named: how many clauses its functions have, and of their lengths the median, the one that nine
of ten don't exceed, and the greatest; then how many clauses the function with the most has, and its name. A clause is a `requires` or an
`ensures` with its name and its body, each run of blanks counted as one character. The row `lrpar` is of the public calls of the library:
the functions, methods and members of traits that the crate `lrpar` names, by itself or by a module, but no laws. A last row is of all
crates together. Then come the longest clauses, ten without --longest, each with its length, its file and its line."""

import argparse

from public import ROOT, clauses_of, crates, files_of, public_calls


def rank(lengths, share):
    """The least length that this share of all lengths doesn't exceed."""
    return sorted(lengths)[max(0, -(-len(lengths) * share // 100) - 1)]


def row(name, found):
    """A line of the table: the crate's numbers."""
    if not found:
        return
    lengths = [len(text) for _, _, _, text in found]
    counts = {}
    for path, function, _, _ in found:
        counts[path, function] = counts.get((path, function), 0) + 1
    most = max(counts, key=counts.get)
    print(f"{name:28}{len(found):8}{rank(lengths, 50):8}{rank(lengths, 90):8}{max(lengths):8}{counts[most]:6}  {most[1].rsplit(':', 1)[0]}")


def main():
    words = argparse.ArgumentParser(description="Counts how long contracts are.")
    words.add_argument("--longest", type=int, default=10)
    words.add_argument("crates", nargs="*")
    words = words.parse_args()
    print(f"{'crate':28}{'clauses':>8}{'median':>8}{'9 of 10':>8}{'longest':>8}{'most':>6}  function")
    every = []
    for crate in words.crates or crates():
        found = [(path, *clause[:3]) for path in files_of(crate) for clause in clauses_of(path)]
        row(crate, list(public_calls()) if crate == "lrpar" else found)
        every += found
    row("all", every)
    for path, _, line, text in sorted(every, key=lambda clause: -len(clause[3]))[: words.longest]:
        print(f"{len(text):6} {path.relative_to(ROOT)}:{line}: {text[:100]}")


if __name__ == "__main__":
    main()
