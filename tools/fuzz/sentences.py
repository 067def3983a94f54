"""Sentences: of a complete grammar each parses to its only tree."""
from case import parsed, expect
from checks import checked
from grammars import any_grammar, ladder_grammar, layered_grammar, leading_grammar, random_grammar, text_of
from known import list_with_marks, sum_by_demo, value_by_calc
from leaves import see_tree
from texts import UNKNOWN, any_tokens, changed, derivation, language_of, leaves_of, printed_tree, text_by


def sentences(case):
    chance = case.chance
    if chance.random() < 0.1:
        return chance.choice((list_with_marks, sum_by_demo, value_by_calc))(case)
    kinds = (random_grammar, leading_grammar, ladder_grammar, layered_grammar, layered_grammar)
    for _ in range(4):
        grammar = any_grammar(chance, kinds)
        found = checked(case, case.file("g.y", text_of(chance, grammar)), 1000)
        if found and found[1] == "complete":
            language = language_of(chance, grammar)
            case.file("g.lex", language.lexer)
            return sentences_of(case, language)
    return None


def sentences_of(case, language):
    """some sentences and their trees, and for each a text with one token changed"""
    chance = case.chance
    for _ in range(chance.randint(1, 3)):
        tree = derivation(chance, language.grammar, chance.choice((5, 20, 60)))
        if tree is None:
            see_no_sentence(case, language)
            return
        text = text_by(chance, language, leaves_of(tree))
        answer = case.tree(text.text)
        expected = printed_tree(tree, language.characters)
        expect(answer.status == 0 and answer.out.decode() == expected, expected, answer.out.decode())
        if language.characters:
            see_changed(case, language, text)


def see_no_sentence(case, language):
    """sees that a grammar without sentences takes no text"""
    text = text_by(case.chance, language, any_tokens(case.chance, language.grammar))
    errors, tree = parsed(case, text.text)
    expect(errors and tree is None, "an error of each text of a grammar without sentences", tree)


def see_changed(case, language, text):
    """sees that an error of a changed sentence lies at a lexeme or the end, and not before the change; or an unknown character there"""
    chance = case.chance
    if chance.random() < 0.1:
        see_unknown(case, text)
        return
    tokens, at = changed(chance, text.tokens, list(language.characters))
    other = text_by(chance, language, tokens)
    errors, tree = parsed(case, other.text)
    expect(len(errors) <= 1 and (tree is None) == bool(errors), "one error or a tree", errors)
    for error in errors:
        found = other.places().get(error.place, -1)
        expect(error.kind == "Parsing" and found >= at and not error.lines, f"an error at lexeme {at} or later", error)
    if tree is not None:
        see_tree(language.grammar, other, errors, tree, [])


def see_unknown(case, text):
    """sees that a character that no rule takes is a lexing error at its place, alone"""
    at = case.chance.randrange(len(text.tokens) + 1)
    byte = text.starts[at] if at < len(text.starts) else len(text.text.encode())
    raw = text.text.encode()
    before = raw[:byte].decode()
    spoilt = before + UNKNOWN + raw[byte:].decode()
    line, column = before.count("\n") + 1, len(before) - (before.rfind("\n") + 1) + 1
    answer = case.tree(spoilt)
    expected = f"Lexing error at line {line} column {column}.\n"
    expect((answer.status, answer.out.decode()) == (1, expected), expected, answer.out.decode())
