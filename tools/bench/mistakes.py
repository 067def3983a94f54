"""Compares the first fix that `nimbleparse` offers for each mistake of mistakes.json with the one that a person wanted before looking.

    mistakes.py --nimbleparse NIMBLEPARSE [-v] GRAMMARS [LANGUAGE ..]

GRAMMARS is a folder with json, ansic and lua as NAME.lex and NAME.y. Prints for each language how many mistakes it has; for how many the first
message is at the token where a parser that reads from left to right can notice it, at the place that was wanted, at that of another tool, or in
the gap before one of these; and for how many the first fix, and one of the first three, is wanted. Blanks don't count. Mistakes with two fixes
are left out of the last two numbers. With -v it prints the others, too.
"""
import argparse
import json
import os
import re
import subprocess
import sys
import tempfile

HERE = os.path.dirname(os.path.realpath(__file__))
SETTINGS = (
    "%% File: | File Setting; Setting: 'NAME' '=' Number ';'; Number: 'DIGITS' | Number '+' 'DIGITS';",
    "[a-z_]+ 'NAME'\n[0-9]+ 'DIGITS'\n= '='\n\\+ '+'\n; ';'\n[ \\t\\r\\n]+ ;\n",
)
NAMES = {"json": "json", "c": "ansic", "lua": "lua", "settings": "settings"}
META = re.compile(r"(?<!\\)[\[\](){}*+?.|^$]")


class Lexer:
    """the rules of a lexer, as Python's regular expressions"""

    def __init__(self, path):
        self.rules = []
        for line in open(path, encoding="utf-8").read().splitlines():
            if line.strip():
                pattern, name = line.rsplit(" ", 1)
                self.rules.append((re.compile(pattern), None if name == ";" else name[1:-1], pattern))
        self.texts = {name: re.sub(r"\\(.)", r"\1", it) for _, name, it in self.rules if name and not META.search(it)}

    def match(self, text, at):
        """the end and the name of the longest match, of equally long ones the first"""
        found = [(it.end(), -place) for place, (rule, _, _) in enumerate(self.rules) if (it := rule.match(text, at)) and it.end() > at]
        return (max(found)[0], self.rules[-max(found)[1]][1]) if found else None

    def lexemes(self, text):
        """where each lexeme starts and ends, and its token; none for a run that no rule matches"""
        at, found = 0, []
        while at < len(text):
            if it := self.match(text, at):
                end, name = it
                if name is not None:
                    found.append((at, end, name))
            else:
                end = next((to for to in range(at + 1, len(text)) if self.match(text, to)), len(text))
                found.append((at, end, None))
            at = end
        return found


def byte_of(text, line, column):
    return sum(len(it) + 1 for it in text.split("\n")[: line - 1]) + column - 1


def mended(lexer, mistake, error, fix):
    """the text after the edits of a fix; one without edits that only inserts puts in what stands for its token"""
    text = mistake["text"]
    edits = [(it["start"], it["end"], it["text"]) for it in fix["edits"]]
    if not edits:
        at = error["labels"][0]["start"]
        edits = [(at, at, f" {mistake.get('placeholder', '')} ")]
    for start, end, new in reversed(edits):
        text = text[:start] + new + text[end:]
    return text


def kinds(lexer, text):
    """the tokens of the text, and what no rule matches"""
    return [name or text[start:end] for start, end, name in lexer.lexemes(text)]


def is_wanted(lexer, mistake, text):
    wanted = [mistake["wanted_fixed"], *(it["fixed"] for it in mistake.get("also_fixed", ()))]
    if any("".join(text.split()) == "".join(it.split()) for it in wanted):
        return True
    return "placeholder" in mistake and any(kinds(lexer, text) == kinds(lexer, it) for it in wanted)


def first_error(words, text, folder):
    """the first error that nimbleparse reports"""
    path = os.path.join(folder, "text")
    with open(path, "w", encoding="utf-8") as out:
        out.write(text)
    said = subprocess.run([*words, path], capture_output=True, text=True, check=False).stderr
    return next((it for it in map(json.loads, said.splitlines()) if it["severity"] == "error"), None)


def is_placed(lexer, mistake, error):
    """whether the error is at a token, or in the gap before one, that was written down"""
    text, label = mistake["text"], error["labels"][0]
    places = [*mistake.get("wanted_tokens", [mistake["wanted_token"]]), mistake["wanted_place"], mistake["tool_place"], mistake.get("tool2_place")]
    starts = [byte_of(text, *map(int, it.split(":"))) for it in places if it]
    lexemes = lexer.lexemes(text)
    here = next((it[0] for it in lexemes if it[0] >= label["start"]), len(text))
    return any(here == next((it[0] for it in lexemes if it[0] >= start), len(text)) for start in starts)


def count(mistakes, lexer, words, folder, is_verbose):
    """how many mistakes there are, are found where they can be, have the wanted fix first, and have it among those that are shown"""
    counts = [0, 0, 0, 0]
    for mistake in mistakes:
        counts[0] += 1
        error = first_error(words, mistake["text"], folder)
        if error is None:
            continue
        placed = is_placed(lexer, mistake, error)
        counts[1] += placed
        if "wanted_fixes" in mistake:
            continue
        wanted = [is_wanted(lexer, mistake, mended(lexer, mistake, error, it)) for it in error["fixes"]]
        counts[2] += wanted[:1] == [True]
        counts[3] += any(wanted)
        if is_verbose and not (placed and wanted[:1] == [True]):
            said = [it["message"] for it in error["fixes"]]
            print(f"{mistake['name']}: {'' if placed else 'elsewhere; '}{error['message']}; {said}, wanted {mistake['wanted_fix']}")
    return counts


def main():
    parser = argparse.ArgumentParser(description=__doc__.split("\n", 1)[0])
    parser.add_argument("--nimbleparse", required=True)
    parser.add_argument("-v", action="store_true")
    parser.add_argument("grammars")
    parser.add_argument("languages", nargs="*", default=list(NAMES))
    given = parser.parse_args()
    mistakes = json.load(open(os.path.join(HERE, "mistakes.json"), encoding="utf-8"))
    with tempfile.TemporaryDirectory() as folder:
        for suffix, text in zip((".y", ".lex"), SETTINGS):
            with open(os.path.join(folder, "settings" + suffix), "w", encoding="utf-8") as out:
                out.write(text)
        for language in given.languages:
            base = os.path.join(folder if language == "settings" else given.grammars, NAMES[language])
            words = [given.nimbleparse, "-q", "--messages-format", "json", base + ".lex", base + ".y"]
            of_language = [it for it in mistakes if it["language"] == language]
            counts = count(of_language, Lexer(base + ".lex"), words, folder, given.v)
            print(f"{language}: {counts[0]} mistakes, {counts[1]} at a known place; the wanted fix first {counts[2]}, shown {counts[3]}", flush=True)


if __name__ == "__main__":
    sys.exit(main())
