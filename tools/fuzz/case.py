"""A case: its files and its runs, and what is asked of each run."""
import os

import answers
from grammars import text_of
from program import complaint, excess


class Wrong(Exception):
    """What was expected, and what came."""

    def __init__(self, expected, came):
        super().__init__(expected, came)
        self.expected, self.came = expected, came


def expect(is_met, expected, came):
    if not is_met:
        raise Wrong(expected, came)


class Case:
    """One case: its chance, its folder with files, and its runs."""

    def __init__(self, chance, programs, folder, is_repeated):
        self.chance, self.folder, self.is_repeated = chance, folder, is_repeated
        self.program, self.nimbleparse, self.test_cases = programs
        self.files, self.runs = {}, []

    def file(self, name, content):
        """writes a file, and gives its path"""
        content = content if isinstance(content, bytes) else content.encode()
        with open(os.path.join(self.folder, name), "wb") as out:
            out.write(content)
        self.files[name.encode()] = content
        return name

    def run(self, *words, given=b""):
        """the answer, which has to be of a known form, and the same again if the case is repeated"""
        words = [word if isinstance(word, bytes) else word.encode() for word in words]
        answer = self.run_once(words, given)
        if self.is_repeated:
            again = self.run_once(words, given)
            expect(again[:3] == answer[:3], answer[:3], again[:3])
        return answer

    def run_once(self, words, given):
        answer = self.program.run(words, given, self.folder)
        self.runs.append((words, given, dict(self.files), answer))
        wrong = complaint(words, self.files, answer)
        expect(wrong is None, "an answer of a known form, within the limits", wrong)
        return answer

    def nimble(self, *words):
        """the answer of `nimbleparse`, within the limits"""
        return self.run_other(self.nimbleparse, words)

    def rows(self, *words):
        """the answer of `test_cases`, within the limits"""
        return self.run_other(self.test_cases, words)

    def run_other(self, program, words):
        words = [word.encode() for word in words]
        answer = program.run(words, b"", self.folder)
        self.runs.append((words, b"", dict(self.files), answer))
        wrong = excess(answer)
        expect(wrong is None, "an answer within the limits", wrong)
        return answer

    def tree(self, text, repairs=None, shifts=None):
        """the answer of `tree` to a text, by the grammar and the rules of the case"""
        words = ["tree"] + (["--shifts", str(shifts)] if shifts else []) + ["g.y", "g.lex", self.file("text", text)]
        return self.run(*words, *([self.file("repairs", repairs)] if repairs is not None else []))

    def language(self, language):
        self.file("g.y", text_of(self.chance, language.grammar))
        self.file("g.lex", language.lexer)


def parsed(case, *words, **options):
    """errors and tree of a run of `tree`, whose status has to suit; none if the table is refused"""
    answer = case.tree(*words, **options)
    if answer.status == 2:
        expect(answer.err.startswith(b"lrpar: table: "), "a tree, an error, or a table that is refused", answer.err)
        return None
    errors, tree = read(answer.out)
    clean = tree is not None and not errors
    expect(answer.status == (0 if clean else 1), "status 0 for a tree without errors, else 1", answer.status)
    expect(tree is not None or errors, "a tree or an error", answer.out)
    return errors, tree


def read(out):
    try:
        return answers.errors_and_tree(out)
    except answers.Unread as unread:
        raise Wrong("errors and a tree", str(unread)) from unread
