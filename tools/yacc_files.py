#!/usr/bin/env python3
"""Compares how bison and nimbleparse read the .y, .yy and .ypp files below a folder: see yacc-files.sh.

    yacc_files.py [--program PATH] [--jobs N] FOLDER

A file is the same if both programs refuse it, or if both have as many states and conflicts of each kind. The numbers of bison are those of
the file without its `%expect`, since bison doesn't print numbers that are expected. Its states are counted without the one after the end,
which nimbleparse doesn't have, and with those that no resolved conflict leads to, which nimbleparse keeps, too.

Numbers differ without a mistake of either where the grammar isn't LALR(1): bison merges all states with the same core, and nimbleparse only
those whose merging brings no conflict. What bison has with `lr.type=ielr` is then closer, and stands beside its own number of states."""

import argparse
import concurrent.futures
import os
import pathlib
import re
import shutil
import subprocess
import sys
import tempfile
from typing import NamedTuple, Optional

ROOT = pathlib.Path(__file__).resolve().parent.parent
SUFFIXES = (".y", ".yy", ".ypp")
# How long a run may last, in seconds.
PATIENCE = 300
EXPECT = re.compile(rb"%expect(?:[-_]rr)?\s+\d+")
STATE = re.compile(rb"<state number=")
SHIFTS = re.compile(r"(\d+) shift/reduce conflict")
REDUCTIONS = re.compile(r"(\d+) reduce/reduce conflict")
SIZES = re.compile(r"\bstates (\d+),.*\nshift/reduce conflicts (\d+), reduce/reduce conflicts (\d+)")
ERROR = re.compile(r"error: .*")
# What there is no row of.
AGREED = ("the same", "refused by both")
# The options by which bison keeps states that no resolved conflict leads to.
KEPT = ("-Wconflicts-sr", "-Wconflicts-rr", "-Flr.keep-unreachable-state")


class Sizes(NamedTuple):
    """How many states a table has, and conflicts of each kind."""

    states: int
    shifts: int
    reductions: int

    def __str__(self):
        return f"{self.states} states, {self.shifts} + {self.reductions} conflicts"


class Answer(NamedTuple):
    """What a program says of a file: the sizes of its table, or why there is none."""

    sizes: Optional[Sizes]
    why: str = ""

    def __str__(self):
        return str(self.sizes) if self.sizes else f"refuses: {self.why}"


def run(words, folder):
    """What comes of a command in the folder: nothing if it lasts too long."""
    try:
        return subprocess.run(words, cwd=folder, stdin=subprocess.DEVNULL, capture_output=True, timeout=PATIENCE)
    except subprocess.TimeoutExpired:
        return None


def text_of(stream):
    """What was written to the stream, as a text."""
    return stream.decode(errors="replace")


def why_of(ran):
    """Why a run gives no table: its first error, or its status."""
    if ran is None:
        return f"more than {PATIENCE} seconds"
    found = ERROR.search(text_of(ran.stderr))
    return found.group().removeprefix("error: ") if found else f"status {ran.returncode}"


def bison(folder, file, *options):
    """A run of bison over the file. All that it writes is in the folder, its report in `report.xml`."""
    return run(["bison", "-Wno-all", "--xml=report.xml", "--output=parser.c", *options, str(file)], folder)


def states_in(folder):
    """The number of states in the report that is in the folder, without the one after the end."""
    return len(STATE.findall((folder / "report.xml").read_bytes())) - 1


def number_in(pattern, text):
    """The number that the pattern finds in the text, or 0."""
    found = pattern.search(text)
    return int(found.group(1)) if found else 0


def answer_of_bison(folder, file):
    """What bison says of the file, and how many states it has by `lr.type=ielr`."""
    ran = bison(folder, file)
    if ran is None or ran.returncode != 0:
        return Answer(None, why_of(ran)), 0
    copy = folder / f"copy{file.suffix}"
    copy.write_bytes(EXPECT.sub(b"", file.read_bytes()))
    ran = bison(folder, copy, *KEPT)
    if ran is None or ran.returncode != 0:
        return Answer(None, f"without its %expect: {why_of(ran)}"), 0
    said = text_of(ran.stderr)
    sizes = Sizes(states_in(folder), number_in(SHIFTS, said), number_in(REDUCTIONS, said))
    ran = bison(folder, copy, "-Flr.type=ielr", *KEPT)
    return Answer(sizes), states_in(folder) if ran is not None and ran.returncode == 0 else 0


def answer_of_nimbleparse(folder, program, file):
    """What nimbleparse says of the file."""
    ran = run([program, str(file)], folder)
    found = SIZES.search(text_of(ran.stdout)) if ran is not None else None
    return Answer(Sizes(*map(int, found.groups()))) if found else Answer(None, why_of(ran))


def compare(program, file):
    """The answers of bison and of nimbleparse, and the number of states that is closer, if there is one."""
    with tempfile.TemporaryDirectory() as name:
        folder = pathlib.Path(name)
        answer, closer = answer_of_bison(folder, file)
        return answer, closer, answer_of_nimbleparse(folder, program, file)


def kind_of(first, second):
    """What the two answers are to one another: the word of the closing line."""
    if first.sizes is None and second.sizes is None:
        return "refused by both"
    if first.sizes is None:
        return "refused by bison alone"
    if second.sizes is None:
        return "refused by nimbleparse alone"
    return "the same" if first.sizes == second.sizes else "other numbers"


def row(name, first, closer, second):
    """A row of the table: the file, and both answers."""
    beside = f" ({closer} by ielr)" if first.sizes and second.sizes and closer != first.sizes.states else ""
    return f"{name}\n    bison        {first}{beside}\n    nimbleparse  {second}"


def files_below(folder):
    """The files below the folder, in the order of their names."""
    return sorted(path.resolve() for path in folder.rglob("*") if path.suffix in SUFFIXES and path.is_file())


def words_of(arguments):
    """The words of the command."""
    words = argparse.ArgumentParser()
    words.add_argument("--program", default=os.environ.get("NIMBLEPARSE_PROGRAM", str(ROOT / "nimbleparse")))
    words.add_argument("--jobs", type=int, default=os.cpu_count())
    words.add_argument("folder", type=pathlib.Path)
    found = words.parse_args(arguments)
    if not found.folder.is_dir():
        words.error(f"no folder {found.folder}")
    return found


def main():
    words = words_of(sys.argv[1:])
    program = shutil.which(words.program)
    # The launcher builds the program before the first file.
    if shutil.which("bison") is None or program is None or subprocess.run([program, "-h"], stdout=subprocess.DEVNULL).returncode != 0:
        print("yacc_files.py: bison or nimbleparse is missing", file=sys.stderr)
        sys.exit(2)
    folder = words.folder.resolve()
    files = files_below(folder)
    counts = dict.fromkeys((*AGREED, "other numbers", "refused by nimbleparse alone", "refused by bison alone"), 0)
    with concurrent.futures.ThreadPoolExecutor(words.jobs) as jobs:
        for file, answers in zip(files, jobs.map(lambda file: compare(os.path.abspath(program), file), files)):
            first, closer, second = answers
            kind = kind_of(first, second)
            counts[kind] += 1
            if kind not in AGREED:
                print(row(file.relative_to(folder), first, closer, second), flush=True)
    print(f"{len(files)} files, " + ", ".join(f"{count} {kind}" for kind, count in counts.items()))
    sys.exit(0 if len(files) == sum(counts[kind] for kind in AGREED) else 1)


main()
