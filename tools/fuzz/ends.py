"""Ends: whatever the bytes and words, the program ends with a status and a line of a known form."""
from case import expect
from grammars import Grammar, text_of, token
from texts import any_language, any_sequences, any_tokens, noise, repairs_of, spoiled, text_by


def ends(case):
    chance = case.chance
    language = any_language(chance)
    contents = {
        "g.y": text_of(chance, language.grammar),
        "g.lex": language.lexer,
        "text": text_by(chance, language, any_tokens(chance, language.grammar)).text,
        "repairs": repairs_of(chance, any_sequences(chance, language.grammar)),
    }
    spoil = chance.sample(sorted(contents), chance.choice((0, 1, 1, 1, 2, 4)))
    for name, content in contents.items():
        content = content.encode()
        if name in spoil:
            content = spoiled(chance, content) if chance.random() < 0.8 else noise(chance)
        case.file(name, content)
    chance.choice(
        (ends_tree, ends_tree, ends_tree, ends_check, ends_conflicts, ends_calc, ends_demo, ends_words, ends_lexer)
    )(case)


def ends_tree(case):
    case.run("tree", *case.chance.choice(([], ["--shifts", str(case.chance.choice((0, 1, 2, 9, 999999999)))])), *FILES)
    case.run("tree", *FILES[:3])


FILES = ("g.y", "g.lex", "text", "repairs")


def ends_check(case):
    case.run("check", "g.y", str(case.chance.choice((0, 1, 2, 5, 1000, 65535))))


def ends_conflicts(case):
    """the conflicts of any grammar text: `conflicts` takes each one that `check` builds a table of"""
    listed, checked = case.run("conflicts", "g.y"), case.run("check", "g.y", "65535")
    if checked.err:
        expect(listed[:3] == checked[:3], "the fault that `check` reports", listed)
        return
    expect(listed.status == 0, "status 0 for a table", listed)
    result = checked.out.decode().splitlines()[-1]
    if not result.startswith("refused: "):
        expect((listed.out == b"") == (result == "complete"), "conflicts if the table isn't complete", listed.out)


def ends_calc(case):
    chance = case.chance
    sequences = any_sequences(chance, CALC)
    text = repairs_of(chance, sequences).encode()
    case.file("repairs", spoiled(chance, text) if chance.random() < 0.2 else text)
    lines = chance.choice((noise(chance), calc_text(chance).encode(), spoiled(chance, calc_text(chance).encode())))
    case.run("calc", *chance.choice(([], ["repairs"], ["--shifts", "1", "repairs"], ["--shifts", "4", "repairs"])), given=lines)


# The tokens of `calc`, for its repairs.
CALC = Grammar([("Expr", [[token(name) for name in "+*()"]])], None, ["INT"])


def calc_text(chance):
    words = ("0", "1", "23", "18446744073709551615", "99999999999999999999", "+", "*", "(", ")", " ", "\t", "\n", "\r\n", "é", "\xa0")
    return "".join(chance.choice(words) for _ in range(chance.randrange(30)))


def ends_demo(case):
    chance = case.chance
    text = chance.choice((noise(chance), "".join(chance.choice("ab_+ é\n1🦀") for _ in range(chance.randrange(10))).encode()))
    case.run("demo", text.replace(b"\0", b""))


WORDS = (
    "demo", "tree", "check", "conflicts", "calc", "--shifts", "0", "1", "00003", "000003", "65535", "65536", "-1", "+1", "", " 1",
    "1000000000", "999999999", "g.y", "g.lex", "text", "repairs", "missing", ".", "/", "--help", "é", b"\xff", b"g.y\xff", "./g.y",
)


def ends_words(case):
    """words that are mostly wrong"""
    chance = case.chance
    words = list(chance.choice((["tree", *FILES], ["check", "g.y", "3"], ["calc", "repairs"], ["demo", "a+b"], ["conflicts", "g.y"])))
    for _ in range(chance.choice((1, 1, 2, 4))):
        at = chance.randrange(len(words) + 1)
        words[at : at + chance.randrange(2)] = [chance.choice(WORDS)] * chance.randrange(2)
    case.run(*words, given=noise(chance))


PATTERNS = (
    "a", "b", "[ab]", "[a-c]+", "a+", "(ab)+", "a*", "ab|a", "a|ab", ".", ".+", "[^a]", "a{2,3}", "(?i)A", "\\w", "\\pL+", "b?", "^a", "a$",
    "\\bab", "é", "[é漢]+", "(a|b)*c", "a(?:bc)?", "", "a??", "b+?", "\\Ba", "(?s).", "c.", "x|", "()", "\\x{61}", "(?x) a b",
)


def ends_lexer(case):
    """rules of any patterns: if nothing is skipped, the slices of a tree's leaves are the text"""
    chance = case.chance
    case.file("g.y", "%token A B C %% S: | S T; T: A | B | C;")
    skips = chance.random() < 0.2
    names = ["'A'", "'B'", "'C'"] + [";"] * skips
    lines = [f"{chance.choice(PATTERNS)} {chance.choice(names)}" for _ in range(chance.randint(1, 6))]
    case.file("g.lex", "\n".join(lines))
    text = "".join(chance.choice("aaabbbccA xé漢") for _ in range(chance.randrange(20)))
    answer = case.tree(text)
    if answer.status == 0 and not skips:
        came = "".join(line.lstrip(" ")[2:] for line in answer.out.decode().splitlines() if line.lstrip(" ")[1:2] == " ")
        expect(came == text, text, came)
