"""Runs the program `lrpar` on large inputs, and prints what each takes.

    large.py [--program PATH] [--only NAME] [--small]

The program is the one that `./lrpar` builds, if no path is given. Each input is made in two sizes, the second one ten times
the first. Prints for each run its processor seconds, the most memory that it had, its status, and how often the time of the
smaller size it took. `--small` leaves the large sizes out. What is printed goes to nowhere, but for `closed`, whose output is a
pipe that nobody reads: the text of a tree with many levels has a line with as many spaces for each level.
"""
import argparse
import os
import subprocess
import sys
import tempfile
from typing import Callable, NamedTuple

HERE = os.path.dirname(os.path.abspath(__file__))
ROOT = os.path.join(HERE, "..", "..")
BUILT = os.path.join(ROOT, "crates", "lrpar_program", "out", "lrpar_program")
JSON = os.path.join(ROOT, "crates", "test_cases", "data", "json")

MARKED = "%token MARK %% L: L 'N' | ; M: 'MARK';"
MARKED_RULES = "n+ 'N'\n! 'MARK'\n\\n ;\n"
BRACKETS = "%% E: '(' E ')' | 'N';"
BRACKETS_RULES = "n 'N'\n\\( '('\n\\) ')'\n"


class Made(NamedTuple):
    """The words of a run, and its standard input."""

    words: list
    given: str = ""


class Input(NamedTuple):
    """A kind of input: its name, its larger size, what the size counts, and what makes it in a folder."""

    name: str
    size: int
    unit: str
    made: Callable
    is_closed: bool = False


def file(name, text):
    with open(name, "w", encoding="utf-8") as out:
        out.write(text)
    return name


def json_text(size):
    """a JSON text of this number of bytes"""
    with open("json", "w", encoding="utf-8") as out:
        subprocess.run([sys.executable, os.path.join(HERE, "gen_json.py"), str(size)], stdout=out, check=True)
    return Made(["tree", os.path.join(JSON, "grammar.y"), os.path.join(JSON, "lexer.lex"), "json"])


def productions(size):
    """a grammar of this number of productions, in as many rules as each has alternatives: a state for each token has the ends of all that
    end in it, each under another lookahead"""
    many = round(size**0.5)
    alternatives = " | ".join(f"'t{token}'" for token in range(many))
    start = " | ".join(f"R{number} 'b{number}'" for number in range(many))
    rules = "\n".join(f"R{number}: {alternatives};" for number in range(many))
    return file("productions.y", f"%% S: {start};\n{rules}\n")


def states(size):
    """a grammar whose table has some more states than this number: a list of as many tokens"""
    return file("states.y", "%% S: " + " ".join(f"'t{token}'" for token in range(size - 5)) + ";")


def alternatives(size):
    """a grammar of one rule with this number of alternatives, of one token each"""
    tokens = " | ".join(f"'t{token}'" for token in range(size))
    return file("alternatives.y", f"%% S: {tokens};")


def chain(size):
    """a grammar of this number of rules, each of which is the next one"""
    rules = "".join(f"R{number}: R{number + 1};\n" for number in range(size))
    return file("chain.y", f"%% {rules}R{size}: 'N';\n")


def marked(text):
    """a text of a list in which marks, which have no place there, are left out"""
    return Made(["tree", file("list.y", MARKED), file("list.lex", MARKED_RULES), file("text", text), file("repairs", "delete\n")])


def nested(text):
    return Made(["tree", file("brackets.y", BRACKETS), file("brackets.lex", BRACKETS_RULES), file("text", text)])


def lexer(size):
    """a lexer of this number of rules, for 100 tokens, on a text of 1,000 lexemes of all of the rules"""
    words = [f"word{number}" for number in range(size)]
    grammar = "%% L: L W | ; W: " + " | ".join(f"'T{token}'" for token in range(100)) + ";"
    text = " ".join(words[number * 7_919 % size] for number in range(1_000))
    rules = "".join(f"{word} 'T{number % 100}'\n" for number, word in enumerate(words)) + "[ ]+ ;\n"
    return Made(["tree", file("words.y", grammar), file("words.lex", rules), file("text", text)])


INPUTS = [
    Input("text", 100_000_000, "bytes of JSON", json_text),
    Input("check-productions", 65_000, "productions", lambda size: Made(["check", productions(size), "65535"])),
    Input("conflicts-productions", 65_000, "productions", lambda size: Made(["conflicts", productions(size)])),
    Input("check-states", 10_000, "states", lambda size: Made(["check", states(size), "65535"])),
    Input("conflicts-states", 10_000, "states", lambda size: Made(["conflicts", states(size)])),
    Input("check-alternatives", 4_000, "alternatives", lambda size: Made(["check", alternatives(size), "65535"])),
    Input("conflicts-alternatives", 4_000, "alternatives", lambda size: Made(["conflicts", alternatives(size)])),
    Input("check-chain", 5_000, "rules in a chain", lambda size: Made(["check", chain(size), "65535"])),
    Input("line", 10_000, "errors, each 1,000 bytes after the last one in one line", lambda size: marked(("n" * 999 + "!") * size)),
    Input("lines", 10_000, "errors, one in each line of 1,000 bytes", lambda size: marked(("n" * 998 + "!\n") * size)),
    Input("errors", 100_000, "errors, one in each line of 10 bytes", lambda size: marked(("n" * 8 + "!\n") * size)),
    Input("rules", 10_000, "rules of a lexer, and 1,000 lexemes", lexer),
    Input("nested-error", 1_000_000, "brackets of which the last one isn't closed", lambda size: nested("(" * size + "n" + ")" * (size - 1))),
    Input("nested-closed", 1_000_000, "brackets, whose tree isn't read", lambda size: nested("(" * size + "n" + ")" * size), True),
    Input("calc-nested", 1_000_000, "brackets in a line of calc", lambda size: Made(["calc"], "(" * size + "1" + ")" * size + "\n")),
    Input("calc-lines", 1_000_000, "lines of calc", lambda size: Made(["calc"], "1 + 2 * 3\n" * size)),
    Input("demo-error", 60_000, "terms of demo, and no last one", lambda size: Made(["demo", "a+" * size])),
    Input("demo-closed", 60_000, "terms of demo, whose tree isn't read", lambda size: Made(["demo", "+".join("a" * size)]), True),
]


def run(program, made, is_closed):
    """the seconds, the most bytes, and the status"""
    with open("given", "w+", encoding="utf-8") as given:
        given.write(made.given)
        given.seek(0)
        out = closed_pipe() if is_closed else os.open(os.devnull, os.O_WRONLY)
        started = subprocess.Popen([program, *made.words], stdin=given, stdout=out, stderr=subprocess.DEVNULL)
        os.close(out)
        _, status, used = os.wait4(started.pid, 0)
    started.returncode = os.waitstatus_to_exitcode(status)
    return used.ru_utime + used.ru_stime, used.ru_maxrss * 1024, started.returncode


def closed_pipe():
    """a pipe that nobody reads"""
    reader, writer = os.pipe()
    os.close(reader)
    return writer


def measure(program, one, is_small):
    """prints what the runs of an input take"""
    before = None
    for size in (one.size // 10,) if is_small else (one.size // 10, one.size):
        with tempfile.TemporaryDirectory(prefix="large.") as folder:
            os.chdir(folder)
            seconds, peak, status = run(program, one.made(size), one.is_closed)
            os.chdir(HERE)
        growth = f"{seconds / before:.1f}" if before else ""
        print(f"{one.name:<24}{size:>12,}{seconds:>10.2f}{peak / 1e6:>10.0f}{status:>8}{growth:>8}  {one.unit}", flush=True)
        before = seconds


def main():
    words = argparse.ArgumentParser()
    words.add_argument("--program", default=BUILT)
    words.add_argument("--only", choices=[one.name for one in INPUTS])
    words.add_argument("--small", action="store_true")
    words = words.parse_args()
    program = os.path.abspath(words.program)
    print(f"{'':<24}{'size':>12}{'seconds':>10}{'MB':>10}{'status':>8}{'growth':>8}")
    for one in INPUTS:
        if words.only in (None, one.name):
            measure(program, one, words.small)


if __name__ == "__main__":
    main()
