"""Merged: the table with merged states beside the canonical one of the same grammar, by `nimbleparse --minimise pager` and
`--minimise canonical`."""
import re
from typing import NamedTuple

from case import expect
from completed import REFUSED
from grammars import any_grammar, finished, ladder_grammar, layered_grammar, leading_grammar, random_grammar, rule, token
from texts import any_tokens, language_of, text_by

# How many texts a run has.
TEXTS = 5
SIZES = re.compile(r"(?m)^g\.y: note: rules \d+, productions \d+, tokens \d+, states (\d+), least cap \d+$")
CONFLICT = re.compile(r"(?m)^g\.y:(\d+:\d+): warning: conflict at (.+) in states? \d+[^:]*: (.+)$")
UNSHOWN = re.compile(r"(?m)^g\.y: (?:note: (?:conflicts|examples) that aren't shown|warning: conflicts without examples)")
MERGED_ALONE = re.compile(r"(?m)^g\.y: note: merging alone makes the conflict at (.+) in state \d+, with --minimise canonical there is none$")
ERROR = re.compile(r"(?m)^(text\d+:\d+:\d+): error: (.+)$")


class Seen(NamedTuple):
    """What a run says: the number of states, whether there are conflicts, those between a shift and a reduction as pairs of a place and
    a token, the tokens of those between reductions, the tokens of conflicts that merging alone makes, whether these are all, the errors
    with their places and messages, and the trees."""

    states: int
    has_conflicts: bool
    shifts: set
    reductions: set
    alone: set
    is_whole: bool
    errors: list
    trees: bytes


def merged(case):
    """the same language, and no more states"""
    chance = case.chance
    language = language_of(chance, a_grammar(chance))
    case.language(language)
    texts = [text_by(chance, language, any_tokens(chance, language.grammar)) for _ in range(TEXTS)]
    paths = [case.file(f"text{number}", text.text) for number, text in enumerate(texts)]
    canonical, pager = (seen(case, minimiser, paths) for minimiser in ("canonical", "pager"))
    if canonical is None:
        return
    if not canonical.has_conflicts:
        expect(pager is not None, "a table with merged states", pager)
        see_same(canonical, pager)
        see_completed(case, paths)
    elif pager is not None:
        see_conflicts(canonical, pager)
    if pager is not None:
        expect(pager.states <= canonical.states, f"{canonical.states} states or fewer", pager.states)


def a_grammar(chance):
    """any grammar, or one with many states that have the same cores"""
    return twin_grammar(chance) if chance.random() < 0.4 else any_grammar(chance, KINDS)


KINDS = random_grammar, random_grammar, leading_grammar, ladder_grammar, layered_grammar


def twin_grammar(chance):
    """rules with the same texts, each between some tokens: mostly LR(1), and often not LALR(1)"""
    firsts, lasts = "abcd"[: chance.randint(2, 4)], "uvwxyz"[: chance.randint(2, 6)]
    middles = "ABC"[: chance.choice((1, 2, 2, 2, 3))]
    two, alternatives = chance.choice((0, 0, 0.1, 0.3)), []
    for first in firsts:
        for last in lasts:
            for middle in chance.sample(middles, 2 if len(middles) > 1 and chance.random() < two else chance.choice((0, 1, 1))):
                alternatives.append([token(first), rule(middle), token(last)])
    chance.shuffle(alternatives)
    alternatives += chance.choice(([], [], [[token("a"), rule("S"), token(lasts[0])]], [[token("s"), rule("S")]], [[rule("A")]]))
    bodies = chance.choice(([["m"]], [["m"]], [["m", "m"]], [["m"], ["m", "n"]], [["m"], ["n", "R"]], [["R", "n"], ["m"]], [[], ["m"]]))
    rules = [("S", alternatives or [[token("a")]])]
    for middle in middles:
        own = [body for body in bodies if chance.random() < 0.9] or bodies[:1]
        rules.append((middle, [[rule(middle) if c == "R" else token(c) for c in body] for body in own]))
    if chance.random() < 0.3:
        name, symbols = rules[-1][0], [token("m"), token(chance.choice("kn"))]
        rules.append((name, [symbols]))
    return finished(chance, rules, [], "S")


def seen(case, minimiser, paths):
    """what a run says without repairs, or none if the table is refused"""
    answer = case.nimble("-r", "none", "--minimise", minimiser, "g.lex", "g.y", *paths)
    if answer.status == 2:
        expect(answer.out == b"" and b"g.y" in answer.err, "a table that is refused", answer.err)
        return None
    err = answer.err.decode()
    sizes = SIZES.search(err)
    expect(sizes, "a note of sizes", err)
    found = CONFLICT.findall(err)
    return Seen(
        states=int(sizes[1]),
        has_conflicts=bool(found) or UNSHOWN.search(err) is not None,
        shifts={(place, name) for place, name, text in found if text.startswith("the token is shifted")},
        reductions={name for _, name, text in found if text.endswith("can be reduced")},
        alone=set(MERGED_ALONE.findall(err)),
        is_whole=UNSHOWN.search(err) is None,
        errors=[(place, text) for place, text in ERROR.findall(err)],
        trees=answer.out,
    )


def see_same(canonical, pager):
    """sees that merging makes no conflict where there was none, and that the language is the same: the same trees, and the same messages
    of errors at the same places"""
    expect(not pager.has_conflicts, "no conflict by merging", pager)
    expect(pager.trees == canonical.trees, canonical.trees, pager.trees)
    expect(pager.errors == canonical.errors, canonical.errors, pager.errors)


def see_conflicts(canonical, pager):
    """sees what is known of the conflicts of any grammar: merging makes none between a shift and a reduction, and takes none away. The
    least of several reductions at a token is listed, so some productions of them may be named by the canonical table alone."""
    expect(pager.has_conflicts, "conflicts, as in the canonical table", pager)
    if not (canonical.is_whole and pager.is_whole):
        return
    expect(pager.shifts <= canonical.shifts, canonical.shifts, pager.shifts)
    tokens, merged_tokens = ({name for _, name in found.shifts} for found in (canonical, pager))
    expect(merged_tokens == tokens, tokens, merged_tokens)
    expect(canonical.reductions <= pager.reductions, canonical.reductions, pager.reductions)
    expect(pager.alone <= pager.reductions and not canonical.alone, "conflicts of two reductions by merging alone", pager.alone)


def see_completed(case, paths):
    """sees that each text has a tree by both tables if it is completed, unless a rule derives no text"""
    answers = [case.nimble("-r", "complete", "--limit", "100", "--minimise", kind, "g.lex", "g.y", *paths) for kind in ("canonical", "pager")]
    canonical, pager = ([REFUSED in answer.err.decode(), answer.status] for answer in answers)
    expect(pager == canonical, canonical, pager)
    if not pager[0]:
        heads = [[line for line in answer.out.decode().split("\n") if re.fullmatch(r"text\d+:", line)] for answer in answers]
        expected = [f"{path}:" for path in paths]
        expect(heads == [expected, expected], "a tree of each text", heads)
