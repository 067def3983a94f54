#!/usr/bin/env python3
"""Runs each command of the real programs with each of its reads and each of its writes failing, or being short, in turn.

    fail-io.py

What a run has to give, beside one in which nothing fails:

- a file that can't be opened or read: status 2, and the line `lrpar: cannot read PATH`, or `lrpar: cannot read standard input`; of
  `nimbleparse` the line `PATH: error: cannot read this file: REASON`, with `-` for standard input;
- a write to standard output that fails: status 2, and the line `lrpar: cannot write standard output`, or with that of the other
  program's name;
- a read or a write that is short or interrupted: the same answer;
- a write to standard error that fails: the same status and the same standard output;
- a read or a write that is out of memory: status 2, and the line `lrpar: out of memory`, or with that name;
- a pipe that nobody reads, or a full device, as standard output: as a write that fails, whether or not the program is started
  with the signal SIGPIPE ignored; as standard error: as a write that fails there;
- always: standard output has a beginning of the right output, and standard error has a beginning of the right text and
  perhaps the line of the fault.

Prints how many calls of each kind each command makes, each run that is otherwise, and one closing line. The gate doesn't run
it. It needs Python 3.9, cc and glibc. LRPAR_PROGRAM and NIMBLEPARSE_PROGRAM are the paths of the programs, if these aren't
the ones that `./lrpar` and `./nimbleparse` build.
"""
import errno
import os
import subprocess
import sys
import tempfile
from typing import NamedTuple

HERE = os.path.dirname(os.path.abspath(__file__))
CRATES = os.path.join(HERE, "..", "crates")

# How long a run may last, in seconds.
PATIENCE = 60
# No command here makes more calls of a kind.
MOST_CALLS = 1_000

# What may become of a call of each kind: the number of an error, `zero` or `short`.
FAILURES = {
    "open": [errno.EACCES, errno.EMFILE, errno.EIO, errno.ENOMEM, errno.EINTR],
    "read": [errno.EIO, errno.EISDIR, errno.EAGAIN, errno.ENOMEM, errno.EINTR, "short"],
    "out": [errno.EIO, errno.ENOSPC, errno.EPIPE, errno.EAGAIN, errno.ENOMEM, errno.EINTR, "zero", "short"],
    "err": [errno.EIO, errno.ENOSPC, errno.EPIPE, errno.EAGAIN, errno.ENOMEM, errno.EINTR, "zero", "short"],
}
# Those that change nothing.
HARMLESS = (errno.EINTR, "short")

# The grammars *sum*, *conflicts*, *brackets* and *list*, lexers, repairs and texts. The long ones take several reads.
FILES = {
    "sum.y": "%% E: T '+' E | T; T: 'ID';",
    "conflicts.y": "%start A %% A: 'a' 'b' | B 'b'; B: 'a' | C; C: 'a';",
    "wrong.y": "%% E: 'a' F;",
    "brackets.y": "%% E : 'N' | E '+' 'N' | '(' E ')';",
    "brackets.lex": "n 'N'\n\\+ '+'\n\\( '('\n\\) ')'\n",
    "brackets.repairs": "insert ')'\ninsert ')' delete\ninsert '+' shift insert ')'\n",
    "wrong.lex": "n 'N'\n\\+ +\n",
    "wrong.repairs": "insert ')'\ninsert\n",
    "list.y": "%% L: L 'N' | ; // " + "a comment\n// " * 2_000,
    "list.lex": "n 'N'\n[ ]+ ;\n" + "  \n" * 10_000,
    "delete.repairs": "\n" * 10_000 + "delete\n",
    "calc.repairs": "delete\ninsert 'INT'\n",
    "broken": "(nn",
    "whole": "((n+n))",
    "unknown": "(n-n)",
    "long": "n" + " " * 100_000 + "n",
    "empty": "",
}

SUMS = "2 + + 3\n\n(2 + 3) * 4\n"
MANY_SUMS = "1 + 2\n" * 5_000 + "99999999999999999999\n(\n" * 10

# The words and the standard input of each command of `lrpar`.
LRPAR_COMMANDS = [
    (["demo", "a+b"], ""),
    (["demo", "a++"], ""),
    (["demo", "a-b"], ""),
    (["demo", "+".join(["a"] * 200)], ""),
    (["tree", "brackets.y", "brackets.lex", "whole"], ""),
    (["tree", "brackets.y", "brackets.lex", "broken"], ""),
    (["tree", "brackets.y", "brackets.lex", "unknown"], ""),
    (["tree", "brackets.y", "brackets.lex", "broken", "brackets.repairs"], ""),
    (["tree", "--shifts", "1", "brackets.y", "brackets.lex", "broken", "brackets.repairs"], ""),
    (["tree", "list.y", "list.lex", "long"], ""),
    (["tree", "--shifts", "2", "list.y", "list.lex", "empty", "delete.repairs"], ""),
    (["tree", "wrong.y", "brackets.lex", "whole"], ""),
    (["tree", "brackets.y", "wrong.lex", "whole"], ""),
    (["tree", "brackets.y", "brackets.lex", "whole", "wrong.repairs"], ""),
    (["tree", "--shifts", "0", "brackets.y", "brackets.lex", "whole"], ""),
    (["tree", "brackets.y", "brackets.lex", "missing"], ""),
    (["check", "sum.y", "2"], ""),
    (["check", "sum.y", "1"], ""),
    (["check", "conflicts.y", "2"], ""),
    (["check", "wrong.y", "2"], ""),
    (["conflicts", "sum.y"], ""),
    (["conflicts", "conflicts.y"], ""),
    (["conflicts", "wrong.y"], ""),
    (["calc"], SUMS),
    (["calc"], MANY_SUMS),
    (["calc", "calc.repairs"], SUMS),
    (["calc", "--shifts", "1", "calc.repairs"], MANY_SUMS),
    (["calc", "--shifts", "2"], ""),
    (["calc", "missing"], SUMS),
    (["nothing"], ""),
]

# The same of `nimbleparse`.
NIMBLEPARSE_COMMANDS = [
    (["brackets.lex", "brackets.y", "whole", "broken", "unknown"], ""),
    (["-q", "-r", "none", "brackets.lex", "brackets.y", "broken"], ""),
    (["--format", "tree", "list.lex", "list.y", "long"], ""),
    (["--format", "json", "brackets.lex", "brackets.y"], "(n+n)"),
    (["--format", "dot", "brackets.lex", "brackets.y", "-", "whole"], "((n)"),
    (["brackets.lex", "wrong.y", "whole"], ""),
    (["wrong.lex", "brackets.y", "whole"], ""),
    (["brackets.lex", "brackets.y", "missing"], ""),
    (["-d", "-v", "conflicts.y"], ""),
    (["wrong.y"], ""),
    (["-h"], ""),
    (["nothing"], ""),
]


class Program(NamedTuple):
    """A program, its commands, and its line of a file that can't be read, for a reason that has a number."""

    name: str
    path: str
    commands: list
    unreadable: str

    def unreadable_line(self, path, how):
        """the line of a file that can't be read"""
        if self.name == "nimbleparse":
            path = "-" if path == "standard input" else path
        return self.unreadable.format(path=path, reason=os.strerror(how), number=how)


class Answer(NamedTuple):
    status: int
    out: bytes
    err: bytes


PROGRAMS = [
    Program(
        "lrpar",
        os.path.abspath(os.environ.get("LRPAR_PROGRAM", os.path.join(CRATES, "lrpar_program", "out", "lrpar_program"))),
        LRPAR_COMMANDS,
        "lrpar: cannot read {path}\n",
    ),
    Program(
        "nimbleparse",
        os.path.abspath(os.environ.get("NIMBLEPARSE_PROGRAM", os.path.join(CRATES, "nimbleparse", "out", "nimbleparse"))),
        NIMBLEPARSE_COMMANDS,
        "{path}: error: cannot read this file: {reason} (os error {number})\n",
    ),
]


class Failing(NamedTuple):
    """A call that fails, and how; the shim leaves the path of its file."""

    kind: str
    at: int
    how: object


class Runs:
    """Runs of a program in a folder, each of which has to end in one way; and how many did."""

    def __init__(self, program, folder, shim):
        self.program, self.folder, self.shim, self.mark = program, folder, shim, os.path.join(folder, "mark")
        self.passed = self.failed = 0

    def answer(self, words, given, failing=None):
        """the answer to the words"""
        settings = dict(os.environ)
        if failing:
            settings.update(LD_PRELOAD=self.shim, FAIL_IO_MARK=self.mark)
            settings.update(FAIL_IO_KIND=failing.kind, FAIL_IO_AT=str(failing.at), FAIL_IO_HOW=str(failing.how))
        with open(os.path.join(self.folder, "standard-input"), "wb+") as content:
            content.write(given.encode())
            content.seek(0)
            ran = subprocess.run(
                [self.program.path, *words], cwd=self.folder, env=settings, stdin=content, capture_output=True, timeout=PATIENCE
            )
        return Answer(ran.returncode, ran.stdout, ran.stderr)

    def failed_path(self):
        """the path of the file whose call failed, if there was that call"""
        try:
            with open(self.mark, encoding="utf-8") as mark:
                path = mark.read()
        except FileNotFoundError:
            return None
        os.remove(self.mark)
        return path

    def count(self, is_right, name, came):
        if is_right:
            self.passed += 1
            return
        self.failed += 1
        print(f"failed: {name}: status {came.status}, standard output and standard error:")
        print(came.out[-1_000:].decode(errors="replace"), came.err[-1_000:].decode(errors="replace"), flush=True)

    def try_command(self, words, given):
        """lets each call of a command fail in each way"""
        name = " ".join(words)[:70]
        right = self.answer(words, given)
        self.count(right.status in (0, 1, 2), f"{name}: nothing fails", right)
        calls = [f"{kind} {self.try_kind(name, words, given, right, kind)}" for kind in FAILURES]
        print(f"{name}: {', '.join(calls)}", flush=True)

    def try_kind(self, name, words, given, right, kind):
        """lets each call of one kind fail in each way, and gives how many there are"""
        for at in range(1, MOST_CALLS):
            for how in FAILURES[kind]:
                came = self.answer(words, given, Failing(kind, at, how))
                path = self.failed_path()
                if path is None:
                    self.count(came == right, f"{name}: no {kind} {at}", came)
                    return at - 1
                failure = errno.errorcode.get(how, how)
                self.count(is_right(self.program, right, came, Failing(kind, at, how), path, self.folder), f"{name}: {kind} {at}: {failure}", came)
        self.count(False, f"{name}: fewer than {MOST_CALLS} calls of {kind}", right)
        return MOST_CALLS


def is_right(program, right, came, failing, path, folder):
    """whether the answer is the right one if a call for the file at the path fails"""
    if failing.how in HARMLESS:
        return came == right
    if failing.kind == "err":
        return came.status == right.status and came.out == right.out and is_part_of(right.err, came.err)
    line = fault_line(program, failing, os.path.relpath(path, folder) if os.path.isabs(path) else path)
    return came.status == 2 and right.out.startswith(came.out) and ends_in(right.err, came.err, line.encode())


def fault_line(program, failing, path):
    """the line of the fault"""
    if failing.how == errno.ENOMEM:
        return f"{program.name}: out of memory\n"
    return no_output(program) if failing.kind == "out" else program.unreadable_line(path, failing.how)


def no_output(program):
    """the line of standard output that takes no more"""
    return f"{program.name}: cannot write standard output\n"


def is_part_of(text, part):
    """whether the part is the text but for what one write lost"""
    begin = os.path.commonprefix([text, part])
    return text.endswith(part[len(begin):])


def ends_in(text, came, line):
    """whether a beginning of the text came, and then the line"""
    return came.endswith(line) and text.startswith(came[: len(came) - len(line)])


def try_output(runs, words, given, name, stream, taker, is_signalled):
    """writes one of the two streams to what takes nothing; the program may start with SIGPIPE ignored, or not"""
    right = runs.answer(words, given)
    streams = {"stdout": subprocess.PIPE, "stderr": subprocess.PIPE, stream: taker}
    ran = subprocess.run([runs.program.path, *words], cwd=runs.folder, input=given.encode(), restore_signals=is_signalled, **streams)
    came = Answer(ran.returncode, ran.stdout or b"", ran.stderr or b"")
    if stream == "stderr":
        is_well = (came.status, came.out) == (right.status, right.out)
    elif not right.out:
        is_well = came == right
    else:
        is_well = came.status == 2 and ends_in(right.err, came.err, no_output(runs.program).encode())
    runs.count(is_well, f"{' '.join(words)[:70]}: {stream} to {name}", came)


def try_outputs(runs, words, given):
    """writes each stream to a pipe that nobody reads any more, and to a device that is full"""
    for stream in ("stdout", "stderr"):
        for is_signalled in (False, True):
            reader, writer = os.pipe()
            os.close(reader)
            try_output(runs, words, given, "a closed pipe", stream, writer, is_signalled)
            os.close(writer)
        with open("/dev/full", "wb") as full:
            try_output(runs, words, given, "a full device", stream, full, False)


def try_program(program, folder, shim):
    """tries each command of a program, and gives how many runs passed, and how many failed"""
    runs = Runs(program, folder, shim)
    for words, given in program.commands:
        runs.try_command(words, given)
        try_outputs(runs, words, given)
    return runs.passed, runs.failed


def main():
    for program in PROGRAMS:
        if not os.access(program.path, os.X_OK):
            sys.exit(f"no program at {program.path}")
    with tempfile.TemporaryDirectory(prefix="fail-io.") as folder:
        folder = os.path.realpath(folder)
        shim = os.path.join(folder, "fail_io.so")
        source = os.path.join(HERE, "fail_io.c")
        if subprocess.run(["cc", "-O1", "-Wall", "-shared", "-fPIC", "-o", shim, source]).returncode != 0:
            sys.exit("cannot build tools/fail_io.c")
        for name, text in FILES.items():
            with open(os.path.join(folder, name), "w", encoding="utf-8") as out:
                out.write(text)
        counts = [try_program(program, folder, shim) for program in PROGRAMS]
    passed, failed = map(sum, zip(*counts))
    print(f"{passed} passed, {failed} failed")
    return 1 if failed else 0


if __name__ == "__main__":
    sys.exit(main())
