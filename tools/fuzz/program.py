"""Runs of the program within limits, and the forms that its answers may have."""
import os
import re
import resource
import select
import signal
import subprocess
import tempfile
from typing import NamedTuple

# What one run may take.
SECONDS = 5
MEMORY = 500_000_000
# What it may write to one stream.
WRITTEN = 200_000_000
# How long it may last by the clock, on a busy machine.
PATIENCE = 60

USAGE = (
    "usage: lrpar demo TEXT | tree [--shifts K] GRAMMAR LEXER INPUT [REPAIRS] | check GRAMMAR CAP"
    " | conflicts GRAMMAR | calc [--shifts K] [REPAIRS]\n"
)
SIZES = r"rules \d+, productions \d+, tokens \d+, states \d+\n"
PLACED = r"syntax|unknown rule|unknown token|token is a rule|repeated %start|repeated %epp"
GRAMMAR_FAULT = re.compile(rf"lrpar: grammar: (?:no rules|storage type too small|(?:{PLACED}) at byte (\d+))\n")
BUILD_FAULT = re.compile(r"lrpar: table: (?:too many states|accept and reduce in state \d+|storage type too small)\n")
CHAIN_FAULT = re.compile(r"lrpar: table: chain too long at state \d+, token \d+\n")
LINE_FAULT = re.compile(r"lrpar: (lexer|repairs): line (\d+)\n")
REFUSED = re.compile(rf"{SIZES}refused: chain too long at state \d+, token [^\n]+\n")
NO_NUMBERS = re.compile(r"(?:Unable to evaluate expression\.\n)*")


class Answer(NamedTuple):
    status: int
    out: bytes
    err: bytes
    seconds: float
    memory: int


class Program:
    """The program at a path, whose runs write to two files that serve again and again."""

    def __init__(self, path):
        self.path = path
        self.out, self.err, self.given = (tempfile.TemporaryFile(buffering=0) for _ in range(3))

    def run(self, words, given, folder):
        """the answer to the words, which are bytes, in the folder, with these bytes as standard input"""
        for stream, content in (self.out, b""), (self.err, b""), (self.given, given):
            stream.seek(0)
            stream.truncate()
            stream.write(content)
        self.given.seek(0)
        started = subprocess.Popen(
            [self.path, *words], cwd=folder, stdin=self.given, stdout=self.out, stderr=self.err
        )
        status, used = ended(started)
        return Answer(
            status, written(self.out), written(self.err), used.ru_utime + used.ru_stime, used.ru_maxrss * 1024
        )


def ended(started):
    """the status of the process, and what it used; it is limited as soon as it has started"""
    with_limits(started.pid)
    handle = os.pidfd_open(started.pid)
    if not select.select([handle], [], [], PATIENCE)[0]:
        signal.pidfd_send_signal(handle, signal.SIGKILL)
    _, status, used = os.wait4(started.pid, 0)
    os.close(handle)
    started.returncode = os.waitstatus_to_exitcode(status)
    return started.returncode, used


def with_limits(process):
    limits = (resource.RLIMIT_CPU, SECONDS), (resource.RLIMIT_AS, MEMORY), (resource.RLIMIT_FSIZE, WRITTEN)
    for kind, most in limits:
        try:
            resource.prlimit(process, kind, (most, most))
        except ProcessLookupError:
            return


def written(stream):
    stream.seek(0)
    return stream.read()


def excess(answer):
    """what is wrong with the status of an answer, or with what its run took"""
    if answer.seconds > SECONDS or answer.memory > MEMORY or answer.status not in (0, 1, 2):
        return f"status {answer.status} after {answer.seconds:.1f} seconds with {answer.memory} bytes"
    return None


def complaint(words, files, answer):
    """what is wrong with an answer, whatever the words and the files (paths and their bytes, or nothing if they can't be read)"""
    if wrong := excess(answer):
        return wrong
    try:
        out, err = answer.out.decode(), answer.err.decode()
    except UnicodeDecodeError:
        return "what it writes isn't UTF-8"
    command = words[0] if words else b""
    if answer.status == 2:
        return refusal_complaint(command, words[1:], files, out, err)
    if command == b"check" and answer.status == 1:
        return "check has no status 1"
    if not NO_NUMBERS.fullmatch(err) or (err and command != b"calc"):
        return "standard error, with a status other than 2"
    return None


def refusal_complaint(command, words, files, out, err):
    if command == b"check" and REFUSED.fullmatch(out) and not err:
        return None
    if out:
        return "standard output, with status 2"
    if err == USAGE:
        return None
    has_option = command in (b"tree", b"calc") and words[:1] == [b"--shifts"]
    if has_option and err == "lrpar: shifts must be at least 1\n":
        return None
    paths = words[2:] if has_option else words
    if unread(command, paths, files, err):
        return None
    if command in (b"tree", b"check", b"conflicts") and is_grammar_fault(err, content_at(files, paths, 0)):
        return None
    if command == b"tree" and CHAIN_FAULT.fullmatch(err):
        return None
    if line_fault(command, paths, files, err):
        return None
    return "standard error has no line of the known forms"


def unread(command, paths, files, err):
    """whether the line names a path of the words that has no text, or standard input"""
    if command == b"calc" and err == "lrpar: cannot read standard input\n":
        return True
    named = paths[:1] if command == b"check" else paths
    for at, path in enumerate(named):
        if not is_text(content_at(files, named, at)) and err.encode() == b"lrpar: cannot read " + path + b"\n":
            return True
    return False


def content_at(files, paths, at):
    """the bytes of the file at one of the paths, if there is one"""
    return files.get(os.path.normpath(paths[at])) if at < len(paths) and paths[at] else None


def is_text(content):
    try:
        return content is not None and content.decode() is not None
    except UnicodeDecodeError:
        return False


def is_grammar_fault(err, content):
    """whether the line is a fault of a grammar, at a place of its text between two characters, or of its table"""
    fault = GRAMMAR_FAULT.fullmatch(err)
    if not fault:
        return bool(BUILD_FAULT.fullmatch(err))
    return content is not None and (fault[1] is None or is_boundary(content, int(fault[1])))


def is_boundary(content, byte):
    return byte == len(content) or (byte < len(content) and content[byte] & 0xC0 != 0x80)


def line_fault(command, paths, files, err):
    """whether the line names a line of the rules or of the repairs"""
    fault = LINE_FAULT.fullmatch(err)
    if not fault or command not in (b"tree", b"calc"):
        return False
    at = (1 if fault[1] == "lexer" else 3) if command == b"tree" else 0
    content = content_at(files, paths, at)
    is_named = command == b"tree" or fault[1] == "repairs"
    return is_named and content is not None and 1 <= int(fault[2]) <= content.count(b"\n") + 1
