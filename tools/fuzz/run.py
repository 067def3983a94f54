#!/usr/bin/env python3
"""Random use of the programs `lrpar`, `nimbleparse` and `test_cases`: see README.md.

    run.py [--cases N] [--seed S] [--first NUMBER] [--only PROPERTY] [--program PATH] [--nimbleparse PATH] [--test-cases PATH] [--jobs J] [--keep FOLDER]
"""
import argparse
import multiprocessing
import os
import random
import shlex
import shutil
import sys
import tempfile
import time
import traceback

# No folder of compiled modules in the repository.
sys.dont_write_bytecode = True

from case import Case, Wrong
from program import Program
from properties import PLAN, PROPERTIES

HERE = os.path.dirname(os.path.abspath(__file__))
CRATES = os.path.join(HERE, "..", "..", "crates")
PROGRAM = os.path.join(CRATES, "lrpar_program", "out", "lrpar_program")
NIMBLEPARSE = os.path.join(CRATES, "nimbleparse", "out", "nimbleparse")
TEST_CASES = os.path.join(CRATES, "test_cases", "out", "test_cases")
# How often the number of cases so far is printed, in seconds.
PRINTED = 60


def words_of(arguments):
    words = argparse.ArgumentParser()
    words.add_argument("--cases", type=int, default=1000)
    words.add_argument("--seed", type=int, default=1)
    words.add_argument("--first", type=int, default=0)
    words.add_argument("--only", choices=sorted(PROPERTIES))
    words.add_argument("--program", default=PROGRAM)
    words.add_argument("--nimbleparse", default=NIMBLEPARSE)
    words.add_argument("--test-cases", default=TEST_CASES)
    words.add_argument("--jobs", type=int, default=1)
    words.add_argument("--keep", default=os.path.join(HERE, "out"))
    return words.parse_args(arguments)


def numbers(first, cases, only):
    """the numbers of the cases, which have the one property if one is named"""
    while cases:
        if only in (None, PLAN[first % len(PLAN)]):
            yield first
            cases -= 1
        first += 1


class Worker:
    """What one process has: the programs, and a folder for the files of its case."""

    def __init__(self, paths, seed, keep, folder):
        self.programs, self.seed, self.keep = [Program(path) for path in paths], seed, keep
        self.folder = os.path.join(folder, str(os.getpid()))

    def failed(self, number):
        """makes the case, and gives what is wrong with it, if anything is; then its files are kept"""
        shutil.rmtree(self.folder, ignore_errors=True)
        os.mkdir(self.folder)
        case = Case(random.Random(f"{self.seed}:{number}"), self.programs, self.folder, False)
        name = PLAN[number % len(PLAN)]
        try:
            PROPERTIES[name](case)
            return None
        except Wrong as wrong:
            report = f"expected: {wrong.expected}\ncame: {wrong.came}\n"
        except Exception:
            report = f"the script failed:\n{traceback.format_exc()}"
        keep_case(os.path.join(self.keep, f"{self.seed}-{number}"), case, f"property {name}, seed {self.seed}, case {number}\n{report}")
        return f"failed: case {number}, {name}: {report}"


def keep_case(folder, case, report):
    """writes what was expected and what came, and each run with its files, its answer, and a script that makes it again"""
    shutil.rmtree(folder, ignore_errors=True)
    os.makedirs(folder)
    write(folder, "report", report.encode(errors="backslashreplace"))
    for number, (words, given, files, answer) in enumerate(case.runs, 1):
        place = os.path.join(folder, f"run-{number}")
        os.mkdir(place)
        for name, content in files.items():
            write(place, name.decode(), content)
        write(place, "standard-input", given)
        write(place, "standard-output", answer.out)
        write(place, "standard-error", answer.err)
        write(place, "status", f"{answer.status}\n".encode())
        quoted = b" ".join(shlex.quote(os.fsdecode(word)).encode(errors="surrogateescape") for word in words)
        write(place, "again.sh", b'#!/bin/sh\ncd "$(dirname "$0")" && "$LRPAR_PROGRAM" ' + quoted + b" <standard-input\n")


def write(folder, name, content):
    with open(os.path.join(folder, name), "wb") as out:
        out.write(content)


def begin(*words):
    """what each process begins with; trees are gone through by recursion"""
    global worker
    sys.setrecursionlimit(20_000)
    worker = Worker(*words)


def failed(number):
    """what is wrong with a case, in one of these processes"""
    return worker.failed(number)


def run_cases(words, shared):
    """runs the cases, reports each that fails, and gives their number"""
    failures, begun, printed = 0, time.monotonic(), time.monotonic()
    with multiprocessing.Pool(words.jobs, begin, shared) as pool:
        for done, wrong in enumerate(pool.imap(failed, numbers(words.first, words.cases, words.only), 20), 1):
            if wrong:
                failures += 1
                print(wrong, flush=True)
            if time.monotonic() - printed > PRINTED:
                printed = time.monotonic()
                print(f"{done} cases so far, {done / (printed - begun):.0f} a second", flush=True)
    return failures


def main(arguments):
    words = words_of(arguments)
    paths = [os.path.abspath(path) for path in (words.program, words.nimbleparse, words.test_cases)]
    for path in paths:
        if not os.access(path, os.X_OK):
            sys.exit(f"no program at {path}")
    with tempfile.TemporaryDirectory(prefix="fuzz.") as folder:
        failures = run_cases(words, (paths, words.seed, words.keep, folder))
    print(f"{words.cases} cases, {failures} failed")
    return 1 if failures else 0


if __name__ == "__main__":
    sys.exit(main(sys.argv[1:]))
