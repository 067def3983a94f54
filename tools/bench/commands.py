"""Counts the instructions of commands of `lrpar`, of the lexer alone and of the builders, and how much memory commands take.

    commands.py [--before PROGRAM] [--before-parts BENCH] [--lexemes N] PROGRAM PARTS TOOLS

PROGRAM is the built lrpar_program and PARTS the built bench_program; --before and --before-parts are the same programs as
another commit builds them. TOOLS is the folder that run.sh takes: its tools/gen_inputs.py writes the inputs, and its
../grammars has the grammars and the lexers. The instructions are those of the whole process as valgrind counts them, in
millions; of the lexer, those of a text without the start. The memory is the most that a process had, in MB.
"""
import argparse
import os
import subprocess
import sys
import tempfile

from measure import instructions_of, row

MILLION = 1e6
# What `check` is run on: a grammar, and a cap that no chain of it exceeds, or that C99 can't have.
CHECKED = (("json", 100), ("ansic", 100), ("lua", 100), ("c99", 1000))
# What tables are built of.
BUILT = ("json", "ansic", "lua", "c99")
# Calls of the builders and of the check, each with canonical states and with merged ones.
BUILDERS = (("build", "merge"), ("check_built", "check_merged"))
# What `tree` and the lexer are run on: a kind of input, and its grammar.
PARSED = (("json", "json"), ("c", "ansic"))
SEED = 1


def inputs(tools, folder, lexemes):
    """the path of an input of each kind"""
    paths = {}
    for kind, _ in PARSED:
        paths[kind] = os.path.join(folder, kind)
        words = [os.path.join(tools, "tools", "gen_inputs.py"), kind, str(lexemes), str(SEED), paths[kind]]
        subprocess.run([sys.executable, *words], check=True)
    return paths


def whole(words):
    """the instructions of a process, whatever its status"""
    with tempfile.NamedTemporaryFile("r") as log:
        valgrind = ["valgrind", "--tool=callgrind", "--callgrind-out-file=/dev/null", f"--log-file={log.name}"]
        subprocess.run([*valgrind, *words], stdout=subprocess.DEVNULL, stderr=subprocess.DEVNULL)
        found = [line for line in log if "Collected" in line]
    return int(found[0].split(":")[1]) if found else None


def most(words):
    """the most bytes that a process had, whatever its status"""
    started = subprocess.Popen(words, stdout=subprocess.DEVNULL, stderr=subprocess.DEVNULL)
    _, _, used = os.wait4(started.pid, 0)
    return used.ru_maxrss * 1024


def part(number, unit=MILLION):
    return None if number is None else number / unit


def main():
    words = argparse.ArgumentParser()
    words.add_argument("--before")
    words.add_argument("--before-parts")
    words.add_argument("--lexemes", type=int, default=200_000)
    words.add_argument("program")
    words.add_argument("parts")
    words.add_argument("tools")
    words = words.parse_args()
    grammars = os.path.join(words.tools, "..", "grammars")
    at = lambda name, ending: os.path.join(grammars, f"{name}.{ending}")
    print("\nCommands: million instructions, and the most memory in MB, each now and before")
    row("command", "input", "now", "before", "MB", "MB before")
    with tempfile.TemporaryDirectory() as folder:
        paths = inputs(words.tools, folder, words.lexemes)
        commands = [("tree", kind, [at(name, "y"), at(name, "lex"), paths[kind]]) for kind, name in PARSED]
        commands += [("check", name, [at(name, "y"), str(cap)]) for name, cap in CHECKED]
        for command, name, files in commands:
            runs = [it and [it, command, *files] for it in (words.program, words.before)]
            row(command, name, *(it and part(whole(it)) for it in runs), *(it and part(most(it)) for it in runs))
        for kind, name in PARSED:
            files = at(name, "y"), at(name, "lex"), paths[kind]
            row("lex", kind, *(it and part(instructions_of([it, "lex"], files)) for it in (words.parts, words.before_parts)))
    print("\nBuilders: million instructions, and states and entries of the tables, each canonical and merged")
    row("call", "grammar", "canonical", "merged", "states", "merged", "entries", "merged")
    for name in BUILT:
        sizes = subprocess.run([words.parts, "sizes", "1", at(name, "y")], capture_output=True, text=True).stdout.split()
        for calls in BUILDERS:
            counts = (part(instructions_of([words.parts, call], [at(name, "y")])) for call in calls)
            row(calls[0], name, *counts, *(sizes[place] for place in (0, 2, 1, 3)))


if __name__ == "__main__":
    main()
