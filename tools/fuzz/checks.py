"""Check: caps, completeness, sizes and conflicts."""
import re

from case import expect
from grammars import Grammar, any_grammar, rule, text_of


def check(case):
    chance = case.chance
    grammar = any_grammar(chance)
    text = text_of(chance, grammar)
    path = case.file("g.y", text)
    caps = sorted({0, 1, 2, 3, 1000, 65535, chance.randrange(4, 20), chance.randrange(65536)})
    found = [checked(case, path, cap) for cap in caps]
    if None in found:
        expect(found == [None] * len(found), "a grammar without a table by any cap", found)
        return
    states = see_sizes(grammar, {sizes for sizes, _, _ in found})
    results = [result for _, result, _ in found if result is not None]
    passed = [result is not None for _, result, _ in found]
    expect(passed == sorted(passed), "a cap that passes, and each larger one", list(zip(caps, passed)))
    expect(len(set(results)) <= 1, "one answer of completeness by all caps that pass", results)
    see_numbers(grammar, states, found)
    expect(not grammar.deterministic or set(results) == {"complete"}, "a complete table", found)
    see_another_text(case, grammar, caps[-1], found[-1])
    see_useless_rule(case, grammar, caps[-1], found[-1])
    see_conflicts(case, text, found[-1])
    see_tree_agrees(case, grammar, found[caps.index(1000)])


def checked(case, path, cap):
    """sizes, completeness (none if it is refused) and refusal (none if it passes); none if no table is built"""
    answer = case.run("check", path, str(cap))
    if answer.err:
        expect(answer.err.startswith(b"lrpar: table: "), "a table, or one that can't be built", answer.err)
        return None
    sizes, result, *more = answer.out.decode().splitlines()
    if answer.status == 2:
        return sizes, None, result
    expect(result == "checked" and len(more) == 1 and answer.out.endswith(b"\n"), "three lines", answer.out)
    return sizes, more[0], None


def see_sizes(grammar, lines):
    """sees that the sizes are the same each time, and the grammar's; gives the number of states"""
    expect(len(lines) == 1, "the same sizes by each cap", lines)
    line = lines.pop()
    rules, tokens = len(grammar.rule_names()) + 1, len(grammar.tokens()) + 1
    expected = f"rules {rules}, productions {grammar.productions_len() + 1}, tokens {tokens}, states "
    expect(line.startswith(expected), expected, line)
    return int(line.removeprefix(expected))


def see_numbers(grammar, states, found):
    """sees that what is named is a state, a token and a condition"""
    ends = [f", token {name}" for name in [*grammar.tokens(), "$"]]
    for _, result, refused in found:
        if refused is not None:
            head, state = "refused: chain too long at state ", refused.removesuffix(next(filter(refused.endswith, ends), "?"))
            expect(state.startswith(head) and int(state.removeprefix(head)) < states, "a state and a token", refused)
        elif result != "complete":
            words = result.split()
            expect(words[:3] == ["not", "complete:", "condition"] and words[3] in ("C1", "C2", "C3", "C4", "C5"), "a condition", result)
            expect(words[4:6] == ["at", "state"] and int(words[6]) < states, "a state", result)


def see_another_text(case, grammar, cap, expected):
    """sees that another text of the same grammar, with other blanks and quotes, gives the same answer"""
    came = checked(case, case.file("other.y", text_of(case.chance, grammar)), cap)
    expect(came == expected, expected, came)


def see_useless_rule(case, grammar, cap, expected):
    """sees that a rule which nothing uses changes the sizes alone, and not the number of states"""
    name = "useless"
    more = Grammar([*grammar.rules, (name, [[rule(name), rule(name)], []])], grammar.start, grammar.declared, grammar.printed)
    came = checked(case, case.file("more.y", text_of(case.chance, more)), cap)
    states = see_sizes(more, {came[0]})
    expect((states, came[1:]) == (see_sizes(grammar, {expected[0]}), expected[1:]), expected, came)


def see_conflicts(case, text, found):
    """sees that `conflicts` prints nothing exactly if the table is complete, and else texts of this form"""
    answer = case.run("conflicts", "g.y")
    _, result, _ = found
    expect(answer.status == 0, "status 0 for a table", answer)
    expect(result is None or (answer.out == b"") == (result == "complete"), "conflicts if the table isn't complete", answer.out)
    blocks = answer.out.decode().split("\n\n")
    expect(blocks.pop() == "", "an empty line after each conflict", answer.out)
    for block in blocks:
        see_conflict(text, block)


CONFLICT = re.compile(
    r"(?:Reduce/Reduce conflict, can reduce '(.+)' or '.+' with lookahead '.+'"
    r"|Shift/Reduce conflict, can shift '.+' or reduce '(.+)') at g\.y:(\d+):(\d+)"
)
UNDERLINE = re.compile(r" +(?:\^+ (?:First reduce|Second reduce|Lookahead|Shift|Reduced rule)|-[- ]* (?:Reduced productions)?)")


def see_conflict(text, block):
    """sees that a conflict is reported at the definition of its rule, and shows lines of the text, each with a line below it"""
    head, *rest = block.split("\n")
    found = CONFLICT.fullmatch(head)
    expect(found, "the first line of a conflict", head)
    lines = text.replace("\r\n", "\n").split("\n")
    first, second, line, column = found.groups()
    expect(lines[int(line) - 1][int(column) - 1 :].startswith(first or second), "the place of the rule", head)
    expect(len(rest) >= 4 and len(rest) % 2 == 0, "lines with underlines", rest)
    for shown, below in zip(rest[::2], rest[1::2]):
        number, _, content = shown.partition("| ")
        expect(number.isdigit() and lines[int(number) - 1] == content, "a line of the text", shown)
        expect(UNDERLINE.fullmatch(below), "an underline", below)


def see_tree_agrees(case, grammar, found):
    """sees that `tree` takes the table exactly if it passes with the cap of `tree`"""
    case.file("g.lex", "")
    answer = case.tree("")
    expect((answer.status == 2) == (found[1] is None), found, answer.err)
