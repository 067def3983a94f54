"""Says what looking for repairs comes to, and what it takes: on random changes of random sentences, on errors as people make them, and
on long texts.

    errors.py [--counts] [--texts N] [--only NAME] --bench BENCH_PROGRAM --nimbleparse NIMBLEPARSE TOOLS

TOOLS is as for run.sh: with `tools/data.py`, whose sentences are changed, and `../grammars`. The programs are the built ones. README.md
says what the figures are. The same words give the same texts. With --counts, errors by name and prose are counted in instructions, too,
which needs valgrind.
"""
import argparse
import os
import random
import re
import resource
import statistics
import subprocess
import tempfile

import wrong_texts
from sentences import Language

HERE = os.path.dirname(os.path.abspath(__file__))
CASES = os.path.join(HERE, "..", "..", "crates", "test_cases", "data")
FUNCTION = """int f%d(int a, int b)
{
    int c = a + b * 2;

    if (c > 10 && a != b)
        return (c - 1);
    g(a, b, -c);
    return b;
}
"""
MOST_CHANGES = 3
# From so many milliseconds on a parse is long.
LONG = 5


def changed(words, seed):
    """the words with one to three of them removed, doubled or exchanged, or others added"""
    chance, words = random.Random(seed), list(words)
    known = sorted(set(words))
    for _ in range(chance.randint(1, MOST_CHANGES)):
        at = chance.randrange(max(len(words) - 1, 1))
        change = chance.choice(("remove", "add", "double", "exchange"))
        if change == "remove":
            del words[at]
        elif change == "add":
            words.insert(at, chance.choice(known))
        elif change == "double":
            words.insert(at, words[at])
        else:
            words[at], words[at + 1] = words[at + 1], words[at]
    return words


class Programs:
    def __init__(self, bench, nimbleparse, folder, counts):
        self.bench, self.nimbleparse, self.counts = bench, nimbleparse, counts
        self.input = os.path.join(folder, "input")

    def given(self, text):
        with open(self.input, "w", encoding="utf-8") as out:
            out.write(text)
        return self.input

    def errors(self, language, text):
        """how many errors there are, and how many without a repair"""
        words = [self.bench, "errors", "1", language.grammar, language.lexer, self.given(text)]
        return tuple(map(int, subprocess.run(words, capture_output=True, text=True, check=True).stdout.split()))

    def milliseconds(self, language, text, mode="cheapest"):
        """the least that a parse takes, without the first repetition; a long one in processor time, which other work doesn't change much"""
        given = [language.grammar, language.lexer, self.given(text)]
        least = min(map(int, self.ran([self.bench, mode, "4", *given])[0].split()[1:])) / 1e6
        if least < LONG:
            return least
        taken = [self.ran([self.bench, mode, times, *given])[1] for times in ("1", "4") for _ in range(2)]
        return max(min(taken[2:]) - min(taken[:2]), 0) * 1e3 / 3

    def ran(self, words):
        """what a run wrote, and its processor seconds"""
        before = resource.getrusage(resource.RUSAGE_CHILDREN)
        wrote = subprocess.run(words, capture_output=True, text=True, check=True).stdout
        after = resource.getrusage(resource.RUSAGE_CHILDREN)
        return wrote, after.ru_utime + after.ru_stime - before.ru_utime - before.ru_stime

    def cost(self, language, text, mode="cheapest"):
        """milliseconds, and millions of instructions if they are counted"""
        shown = f"{self.milliseconds(language, text, mode):.2f} ms"
        return f"{shown}, {self.instructions(language, text, mode) / 1e6:.1f} M instructions" if self.counts else shown

    def instructions(self, language, text, mode):
        """the instructions of a parse"""
        found = []
        for times in ("1", "3"):
            words = ["valgrind", "--tool=callgrind", "--callgrind-out-file=/dev/null", self.bench, mode, times]
            ran = subprocess.run([*words, language.grammar, language.lexer, self.given(text)], capture_output=True, text=True, check=True)
            found.append(int(re.search(r"Collected : (\d+)", ran.stderr)[1]))
        return (found[1] - found[0]) / 2

    def peak(self, language, text, mode="cheapest"):
        """the most bytes that a process had"""
        words = [self.bench, mode, "1", language.grammar, language.lexer, self.given(text)]
        started = subprocess.Popen(words, stdout=subprocess.DEVNULL, stderr=subprocess.DEVNULL)
        _, _, used = os.wait4(started.pid, 0)
        started.returncode = 0
        return used.ru_maxrss * 1024

    def seconds(self, language, text, recoverer="cpctplus", rounds=5):
        """the least processor seconds of nimbleparse as a whole, which prints no tree"""
        words = [self.nimbleparse, "-q", "-r", recoverer, language.lexer, language.grammar, self.given(text)]
        found = []
        for _ in range(rounds):
            before = resource.getrusage(resource.RUSAGE_CHILDREN)
            subprocess.run(words, stdout=subprocess.DEVNULL, stderr=subprocess.DEVNULL, check=False)
            after = resource.getrusage(resource.RUSAGE_CHILDREN)
            found.append(after.ru_utime + after.ru_stime - before.ru_utime - before.ru_stime)
        return min(found)


def share(part, whole):
    return f"{part} of {whole} ({100 * part / whole:.1f} %)" if whole else "none"


def spread(times):
    times = sorted(times)
    return f"half under {statistics.median(times):.2f} ms, 99 of 100 under {times[int(len(times) * 0.99)]:.2f}, the most {times[-1]:.2f}"


def random_errors(programs, languages, count):
    print("\nRandom changes: one to three in a sentence of 50 to 300 lexemes. Errors with a repair, and milliseconds of a parse")
    all_errors = all_repaired = 0
    for language in languages:
        errors = repaired = 0
        times = []
        for seed, words in enumerate(language.sentences(count)):
            text = " ".join(changed(words, seed)) + "\n"
            found, bare = programs.errors(language, text)
            if found:
                errors, repaired = errors + found, repaired + found - bare
                times.append(programs.milliseconds(language, text))
        print(f"{language.name}: {share(repaired, errors)}; {spread(times)}", flush=True)
        all_errors, all_repaired = all_errors + errors, all_repaired + repaired
    print(f"all: {share(all_repaired, all_errors)}")


def hand_errors(programs, languages):
    print("\nErrors by hand: texts in which each error has a repair, and milliseconds of a parse")
    texts = {"ansic": wrong_texts.C, "json": wrong_texts.JSON, "lua": wrong_texts.LUA}
    all_texts = all_repaired = 0
    for language in languages:
        times, repaired = [], 0
        for text in texts.get(language.name, ()):
            _, bare = programs.errors(language, text)
            repaired += bare == 0
            times.append(programs.milliseconds(language, text))
            if bare:
                print(f"{language.name}: no repair: {text!r}")
        if times:
            print(f"{language.name}: {share(repaired, len(times))}; {spread(times)}", flush=True)
        all_texts, all_repaired = all_texts + len(times), all_repaired + repaired
    print(f"all: {share(all_repaired, all_texts)}")


def named_errors(programs, languages):
    c, json = languages["ansic"], languages["json"]
    body = "int f(int a) {\n" + "if (a) {\n" * 6 + "a = 1;\n"
    whole = "int f(int a) {\n    a = g((a + 1) * 2);\n    return a;\n}\n"
    nested = '{"a": ' * 10 + "1" + "}" * 10
    named = [
        ("C, three } are missing at the end", c, body + "}\n" * 4),
        ("C, five } are missing at the end", c, body + "}\n" * 2),
        ("C, five ) too many", c, whole.replace("2);", "2))))));")),
        ("C, for (a, b, c)", c, "int f(int a) {\n    for (a, b, c)\n        g(a);\n    return a;\n}\n"),
        ("C, an expression of prose", c, "int f(int a) {\n    this is some text in the middle;\n    return a;\n}\n"),
        ("JSON, eight closers are missing", json, nested[:-8] + "\n"),
        ("JSON, eight closers too many", json, nested + "}" * 8 + "\n"),
        ("JSON, eight colons are missing", json, nested.replace(":", "", 8) + "\n"),
        ("JSON, eight colons too many", json, nested.replace(":", ":::::::::", 1) + "\n"),
        ("JSON, closed halfway with 400 objects after it", json,
         '[{"a": 1}], ' + ", ".join('{"name": "x", "size": 1, "tags": [1, 2, 3], "left": null, "right": true, "note": {"a": 1}}' for _ in range(400)) + "\n"),
    ]
    print("\nErrors by name: errors, those without a repair, and what a parse costs")
    for name, language, text in named:
        errors, bare = programs.errors(language, text)
        print(f"{name}: {errors}, {bare}, {programs.cost(language, text)}", flush=True)


def objects(count, wrong=()):
    """a list of objects of nine lexemes and a comma; the wrong ones lack a colon"""
    made = ['{"a": 1, "b": 2}' if at not in wrong else '{"a" 1, "b": 2}' for at in range(count)]
    return "[" + ",\n".join(made) + "]\n"


def functions(count, wrong=(), change=("", "")):
    """functions of 50 lexemes; in the wrong ones a part is changed"""
    made = [FUNCTION % at for at in range(count)]
    for at in wrong:
        made[at] = made[at].replace(*change)
    return "".join(made)


def whole_program(programs, json, c):
    print("\nnimbleparse as a whole, 100,000 lexemes: seconds, and times those of the text without errors")
    listed, made = range(50, 10_000, 100), range(10, 2_000, 20)
    rows = [
        ("JSON, 100 errors", json, objects(10_000), objects(10_000, set(listed))),
        ("JSON, a wrong lexeme every ten", json, objects(10_000), objects(10_000).replace('"b"', ': "b"')),
        ("C, 100 errors, a semicolon is missing", c, functions(2_000), functions(2_000, made, ("b * 2;", "b * 2"))),
        ("C, 100 errors, a name and a bracket are missing", c, functions(2_000), functions(2_000, made, ("(c - 1)", "(c -"))),
    ]
    for name, language, right, wrong in rows:
        plain, taken = programs.seconds(language, right), programs.seconds(language, wrong)
        print(f"{name}: {taken:.3f}, {taken / plain:.2f}", flush=True)


def completions(programs, c, folder):
    grammar = open(c.grammar, encoding="utf-8").read()
    without = re.sub(r"\|\s*IF LPAREN expression RPAREN statement ELSE statement", "", grammar)
    path = os.path.join(folder, "c_without_else.y")
    with open(path, "w", encoding="utf-8") as out:
        out.write(without)
    language = Language(c.tools, "c_without_else", folder, path, c.lexer)
    short = "the quick brown fox jumps over the lazy dog\n"
    line = "it was a dark and stormy night; the rain fell in torrents, except at occasional intervals, when it was checked by a violent gust\n"
    print("\nProse in C without else: what a parse costs with the cheapest repairs, then a completion")
    texts = {"a line with one error": short, "a line with four": line, "a line in a function": "int f(int a) {\n" + line + "return a;\n}\n"}
    for name, text in texts.items():
        print(f"{name}: {programs.cost(language, text, 'completed')}", flush=True)


def memory(programs, c):
    print("\nMemory: bytes for each of 20,000 configurations, by what a search that gives up takes more than one for a missing semicolon")
    given_up = "int f(int a) {\n    " + "a b c d e f g h i j k l m n o p q r s t u v w x y z;\n    return a;\n}\n"
    short = given_up.replace("a b c d e f g h i j k l m n o p q r s t u v w x y z;", "a = 1")
    most, least = programs.peak(c, given_up), programs.peak(c, short)
    print(f"{(most - least) / 20_000:.0f}, errors without a repair: {programs.errors(c, given_up)[1]}")


def main():
    parser = argparse.ArgumentParser(description=__doc__.split("\n", 1)[0])
    parser.add_argument("--counts", action="store_true")
    parser.add_argument("--texts", type=int, default=100)
    parser.add_argument("--only")
    parser.add_argument("--bench", required=True)
    parser.add_argument("--nimbleparse", required=True)
    parser.add_argument("tools")
    given = parser.parse_args()
    shared = os.path.join(given.tools, "..", "grammars")
    languages = [Language(given.tools, it, shared, f"{it}.y", f"{it}.lex") for it in ("json", "ansic", "lua", "c99")]
    languages.append(Language(given.tools, "c", os.path.join(CASES, "c"), "grammar.y", "lexer.lex"))
    by_name = {it.name: it for it in languages}
    with tempfile.TemporaryDirectory() as folder:
        programs = Programs(given.bench, given.nimbleparse, folder, given.counts)
        parts = {
            "random": lambda: random_errors(programs, languages, given.texts),
            "hand": lambda: hand_errors(programs, languages),
            "named": lambda: named_errors(programs, by_name),
            "whole": lambda: whole_program(programs, by_name["json"], by_name["c"]),
            "completions": lambda: completions(programs, by_name["ansic"], folder),
            "memory": lambda: memory(programs, by_name["ansic"]),
        }
        for name, part in parts.items():
            if given.only in (None, name):
                part()


main()
