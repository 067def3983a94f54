"""Looks whether each text gets a tree, however wrong it is, and says what that takes: texts of 1 to 300 random lexemes, and, of languages
with sentences, sentences of which 1 to 20 lexemes are changed.

    garbage.py [--texts N] [--minimise HOW] --nimbleparse NIMBLEPARSE TOOLS [NAME=LEXER,GRAMMAR[,SENTENCES] ..]

TOOLS is as for run.sh. C, C99 and Lua of its grammars are tried, and the named languages: SENTENCES is a folder of sentences, one a file, of
lexemes with blanks between. The same words give the same texts. Each text is parsed by a process of its own; its seconds are those of its
processor less those of an empty text. The status is 1 if a text has no tree.
"""
import argparse
import os
import random
import resource
import subprocess
import sys
import tempfile

from sentences import Language, texts_of

MOST_LEXEMES = 300
MOST_CHANGES = 20


def random_text(chance, known):
    return [chance.choice(known) for _ in range(chance.randint(1, MOST_LEXEMES))]


def changed(chance, words, known):
    """the words with one to twenty of them removed, doubled or exchanged, or others added"""
    words = list(words)
    for _ in range(chance.randint(1, MOST_CHANGES)):
        at = chance.randrange(len(words) + 1)
        change = chance.choice(("remove", "add", "double", "exchange"))
        if change == "add" or at >= len(words):
            words.insert(at, chance.choice(known))
        elif change == "remove":
            del words[at]
        elif change == "double":
            words.insert(at, words[at])
        elif at + 1 < len(words):
            words[at], words[at + 1] = words[at + 1], words[at]
    return words


class Named:
    """a language of the command line, and its sentences"""

    def __init__(self, given):
        self.name, _, files = given.partition("=")
        self.lexer, self.grammar, *folder = files.split(",")
        self.folder = folder[0] if folder else None

    def sentences(self, count):
        for name in sorted(os.listdir(self.folder))[:count] if self.folder else ():
            with open(os.path.join(self.folder, name), encoding="utf-8") as text:
                yield text.read().split()


def texts(language, count):
    """random texts, and as many changed sentences, if the language has them"""
    known = sorted(texts_of(language.lexer).values())
    for seed in range(count):
        yield random_text(random.Random(seed), known)
    for seed, words in enumerate(language.sentences(count)):
        yield changed(random.Random(seed), words, known)


class Parses:
    def __init__(self, program, options, folder):
        self.words, self.input = [program, *options], os.path.join(folder, "input")

    def parse(self, language, words):
        """whether there is a tree, and the processor seconds"""
        with open(self.input, "w", encoding="utf-8") as out:
            out.write(" ".join(words) + "\n")
        before = resource.getrusage(resource.RUSAGE_CHILDREN).ru_utime
        ran = subprocess.run([*self.words, language.lexer, language.grammar, self.input], capture_output=True, check=False)
        return bool(ran.stdout.strip()), resource.getrusage(resource.RUSAGE_CHILDREN).ru_utime - before


def main():
    parser = argparse.ArgumentParser(description=__doc__.split("\n", 1)[0])
    parser.add_argument("--texts", type=int, default=250)
    parser.add_argument("--minimise", default="pager")
    parser.add_argument("--nimbleparse", required=True)
    parser.add_argument("tools")
    parser.add_argument("languages", nargs="*", type=Named)
    given = parser.parse_args()
    shared = os.path.join(given.tools, "..", "grammars")
    languages = [Language(given.tools, it, shared, f"{it}.y", f"{it}.lex") for it in ("ansic", "c99", "lua")] + given.languages
    bare = 0
    with tempfile.TemporaryDirectory() as folder:
        parses = Parses(given.nimbleparse, ["--minimise", given.minimise, "--max-states", "20000"], folder)
        for language in languages:
            empty = min(parses.parse(language, [])[1] for _ in range(3))
            found = [parses.parse(language, words) for words in texts(language, given.texts)]
            without, times = sum(not tree for tree, _ in found), sorted(taken - empty for _, taken in found)
            print(f"{language.name}: {len(found)} texts, {without} without a tree; half under {times[len(times) // 2]:.3f} s, the most {times[-1]:.2f}", flush=True)
            bare += without
    sys.exit(bare > 0)


main()
