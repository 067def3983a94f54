"""Completed: over a grammar whose table is complete and whose rules derive texts, `nimbleparse -r complete` has a tree for each list of
lexemes, and each error lists a repair."""
import re

import answers
from case import expect
from grammars import any_grammar, heights, ladder_grammar, leading_grammar, layered_grammar, random_grammar
from texts import any_tokens, language_of, text_by

KINDS = (leading_grammar, leading_grammar, ladder_grammar, layered_grammar, random_grammar)
LIMITS = ("0", "1", "10", "100", None)
SHIFTS = ("1", "2", "9", "1000", None, None, None)
# What stands before the first fix of an error, and in place of fixes.
FIXED = re.compile(r"^help: (?!or )", re.M)
UNREPAIRED = "note: no repair"
# What says why there is no completion.
REFUSED = "note: an error may have no repair: "


def completed(case):
    chance = case.chance
    language = language_of(chance, any_grammar(chance, KINDS))
    case.language(language)
    grammar = language.grammar
    text = text_by(chance, language, any_input(chance, grammar))
    words = ["-r", "complete", "--format", "tree"]
    for name, value in ("--limit", chance.choice(LIMITS)), ("--shifts", chance.choice(SHIFTS)):
        words += [name, value] if value else []
    answer = case.nimble(*words, "g.lex", "g.y", case.file("text", text.text))
    out, err = answer.out.decode(), answer.err.decode()
    if answer.status == 2 or REFUSED in err:
        see_refused(case, grammar, answer.status, err)
        return
    see_repaired(grammar, text, out, err)


def any_input(chance, grammar):
    """tokens of a sentence that was changed, or any tokens, which are no sentence"""
    names = grammar.tokens()
    if names and chance.random() < 0.6:
        return [chance.choice(names) for _ in range(chance.choice((0, 1, 2, 5, 20, 60)))]
    return any_tokens(chance, grammar)


def see_refused(case, grammar, status, err):
    """sees that a table is refused, or has no completion, for a reason: it isn't complete, or a rule derives no text"""
    case.file("g.lex", "")
    found = case.run("check", "g.y", "1000")
    lines = found.out.decode().splitlines()
    if status == 2:
        expect(found.status == 2 or lines[-1] != "complete", "a table that `check` refuses, or that isn't complete", (err, found.out))
        return
    least = heights(grammar)
    is_productive = all(name in least for name in grammar.rule_names())
    expect(lines[-1] != "complete" or not is_productive, "a table that isn't complete, or a rule without a text", (lines, err))


def see_repaired(grammar, text, out, err):
    """sees that there is a tree of the grammar, whose lexemes that weren't inserted are of the text, in order; and that each error
    lists a repair"""
    try:
        errors, tree = answers.errors_and_tree(out.encode())
    except answers.Unread as unread:
        expect(False, "a tree", str(unread))
    expect(tree is not None and not errors, "a tree", out)
    expect(answers.misfit(grammar, tree) is None, "nodes of the grammar", out)
    kept = [slice for _, slice in answers.leaves(tree) if slice]
    rest = iter(text.slice(at) for at in range(len(text.tokens)))
    expect(all(slice in rest for slice in kept), "lexemes of the text, in order", (kept, text.text))
    found = err.count("error: ")
    expect(len(FIXED.findall(err)) == found and UNREPAIRED not in err, f"a fix of each of {found} errors", err)
