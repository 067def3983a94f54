"""Leaves: a tree's leaves are the lexemes as first repaired, and its nodes are productions. Repairs: just those are listed that
work."""
from typing import NamedTuple

import answers
from case import parsed, expect
from texts import any_language, any_sequences, any_tokens, repairs_of, text_by

# How many lexemes have to follow a repair if the words don't say it.
SHIFTS = 3


class Seen(NamedTuple):
    """A text with the sequences that were supplied, and for each error its lexeme and the sequences that it lists."""

    language: object
    text: object
    sequences: list
    steps: list
    shifts: int


def leaves(case):
    chance = case.chance
    language = any_language(chance)
    case.language(language)
    text = text_by(chance, language, any_tokens(chance, language.grammar))
    sequences = any_sequences(chance, language.grammar)
    shifts = chance.choice((None, None, None, 1, 1, 2, 4, 100))
    found = parsed(case, text.text, repairs=repairs_of(chance, sequences), shifts=shifts)
    if found is None:
        return None
    errors, tree = found
    steps = see_errors(language.grammar, text, errors, sequences, shifts or SHIFTS)
    see_tree(language.grammar, text, errors, tree, steps)
    see_unrepaired(case, text, errors)
    see_more_shifts(case, text, sequences, errors, shifts or SHIFTS)
    return Seen(language, text, sequences, steps, shifts or SHIFTS)


def see_errors(grammar, text, errors, sequences, shifts):
    """sees that the errors lie in order, and list sequences that were supplied; gives for each its place and these"""
    places, past, steps = text.places(), 0, []
    for number, error in enumerate(errors):
        expect(error.kind == "Parsing" and error.place in places, "a parse error at a lexeme or the end", error)
        at = places[error.place]
        expect(at >= past, f"error {number} at lexeme {past} or later", error)
        listed = listed_of(grammar, text, at, error, sequences)
        expect(listed or number + 1 == len(errors), "repairs of each error but the last", errors)
        steps.append((at, listed))
        past = after(at, listed[0]) + shifts if listed else past
    return steps


def listed_of(grammar, text, at, error, sequences):
    """the sequences that the lines of an error print, each after the one before it among those that were supplied"""
    left, listed = list(sequences), []
    for line in error.lines:
        while left and printed_sequence(grammar, text, at, left[0]) != line:
            del left[0]
        expect(left, "sequences that were supplied, in their order", error)
        listed.append(left.pop(0))
    return listed


def printed_sequence(grammar, text, at, steps):
    """the line of a sequence at a lexeme, without its number; none if it can't be taken"""
    parts, joins = [], False
    for kind, *name in steps:
        if kind == "insert":
            parts.append(f"Insert {grammar.printed_name(name[0])}")
            joins = False
            continue
        if at == len(text.tokens):
            return None
        if kind == "delete" and joins and text.starts[at] == text.end(at - 1):
            parts[-1] += text.slice(at)
        else:
            parts.append(f"{kind.capitalize()} {text.slice(at)}")
        joins = kind == "delete"
        at += 1
    return ", ".join(parts)


def after(at, steps):
    """the lexeme after a sequence"""
    return at + sum(kind != "insert" for kind, *_ in steps)


def repaired(text, at, steps):
    """the tokens, with their texts, that a sequence gives"""
    given = []
    for kind, *name in steps:
        if kind == "insert":
            given.append((name[0], ""))
            continue
        if kind == "shift":
            given.append((text.tokens[at], text.slice(at)))
        at += 1
    return given


def kept(text, begin, end):
    return [(text.tokens[at], text.slice(at)) for at in range(begin, end)]


def first_repaired(text, steps):
    """the lexemes by the first sequence of each of these errors, up to the last of them, and the lexeme after it"""
    given, past = [], 0
    for at, listed in steps:
        given += kept(text, past, at) + repaired(text, at, listed[0])
        past = after(at, listed[0])
    return given, past


def see_tree(grammar, text, errors, tree, steps):
    """sees that there is a tree exactly if each error lists a sequence, and that it is one over the lexemes as first repaired"""
    is_mended = all(listed for _, listed in steps)
    expect((tree is not None) == is_mended, "a tree exactly if each error lists a sequence", (errors, tree))
    if tree is None:
        return
    given, past = first_repaired(text, steps)
    given += kept(text, past, len(text.tokens))
    expect(answers.leaves(tree) == given, given, answers.leaves(tree))
    expect(tree.name == grammar.start_rule() and tree.text is None, "the start rule at the root", tree)
    expect(answers.misfit(grammar, tree) is None, "children that an alternative has", answers.misfit(grammar, tree))


def see_unrepaired(case, text, errors):
    """sees that without repairs there is the first error alone"""
    found, tree = parsed(case, text.text)
    expect([error.place for error in found] == [error.place for error in errors[:1]], errors[:1], found)
    expect(not any(error.lines for error in found), "no sequences without repairs", found)


def see_more_shifts(case, text, sequences, errors, shifts):
    """sees that if more lexemes have to follow, the first error lists some of the same sequences, in order"""
    if not errors or case.chance.random() < 0.7:
        return
    found, _ = parsed(case, text.text, repairs=repairs_of(case.chance, sequences), shifts=shifts + case.chance.randint(1, 3))
    expect(found and found[0].place == errors[0].place, errors[0], found)
    left = iter(errors[0].lines)
    expect(all(line in left for line in found[0].lines), errors[0].lines, found[0].lines)


def repairs(case):
    chance = case.chance
    seen = leaves(case)
    if seen is None:
        return
    listed = [(number, sequence) for number, (_, sequences) in enumerate(seen.steps) for sequence in sequences]
    for number, sequence in chance.sample(listed, min(3, len(listed))):
        see_repair(case, seen, number, sequence, True)
    others = [(number, sequence) for number in range(len(seen.steps)) for sequence in unlisted(seen, number)]
    for number, sequence in chance.sample(others, min(2, len(others))):
        see_repair(case, seen, number, sequence, False)


def unlisted(seen, number):
    """the sequences that an error doesn't list, but those with more steps than there are lexemes to take"""
    at, listed = seen.steps[number]
    grammar = seen.language.grammar
    fitting = [sequence for sequence in seen.sequences if printed_sequence(grammar, seen.text, at, sequence) is not None]
    return [sequence for sequence in fitting if sequence not in listed]


def see_repair(case, seen, number, sequence, works):
    """sees that the text with a sequence in place has no error before the lexemes that have to follow, or has one, if it doesn't work"""
    text, at = seen.text, seen.steps[number][0]
    given, past = first_repaired(text, seen.steps[:number])
    given += kept(text, past, at) + repaired(text, at, sequence)
    rest = kept(text, after(at, sequence), len(text.tokens))
    mended = text_by(case.chance, seen.language, [name for name, _ in given + rest])
    found, _ = parsed(case, mended.text)
    end = len(given) + seen.shifts
    is_early = any(mended.places().get(error.place, -1) < end for error in found)
    expected = f"{'no' if works else 'an'} error before lexeme {end} of the text with {sequence} in place at error {number}"
    expect(is_early != works, expected, found)
