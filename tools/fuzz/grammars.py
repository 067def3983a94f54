"""Random grammars, and their texts as lists of pieces."""
import string
from dataclasses import dataclass, field
from typing import NamedTuple


class Symbol(NamedTuple):
    is_token: bool
    name: str


class Piece(NamedTuple):
    """A word (sign, name or quoted), or blanks (blank, line comment or block comment)."""

    kind: str
    text: str


@dataclass
class Grammar:
    """Rules with alternatives, in order; a name may come more than once. It is `deterministic` if it is known to be LR(1)."""

    rules: list
    start: str = None
    declared: list = field(default_factory=list)
    printed: dict = field(default_factory=dict)
    deterministic: bool = False

    def start_rule(self):
        return self.start or self.rules[0][0]

    def rule_names(self):
        return list(dict.fromkeys(name for name, _ in self.rules))

    def alternatives(self, rule):
        return [symbols for name, alternatives in self.rules if name == rule for symbols in alternatives]

    def symbols(self):
        return [symbol for _, alternatives in self.rules for symbols in alternatives for symbol in symbols]

    def tokens(self):
        """the names of the tokens, in the order of their numbers"""
        return list(dict.fromkeys(self.declared + [symbol.name for symbol in self.symbols() if symbol.is_token]))

    def productions_len(self):
        return sum(len(alternatives) for _, alternatives in self.rules)

    def printed_name(self, token):
        return self.printed.get(token, token)


def token(name):
    return Symbol(True, name)


def rule(name):
    return Symbol(False, name)


def heights(grammar):
    """by rule that derives a list of tokens, the least height of a tree of it"""
    found = {}
    for height in range(len(grammar.rules) + 1):
        for name, alternatives in grammar.rules:
            if name not in found and any(has_height(found, symbols, height) for symbols in alternatives):
                found[name] = height
    return found


def has_height(found, symbols, height):
    return all(symbol.is_token or found.get(symbol.name, height) < height for symbol in symbols)


# Names.

RULE_NAMES = "S A B C D E F Expr Term List Item x.y _ _1 a.b.c Very_long_name_of_a_rule Z9 R. ..".split()
DECLARED_NAMES = "ID INT NUM tok.en _t T1 WORD SEMI .. ...".split()
QUOTED_NAMES = "+ - * / ( ) [ ] { } , ; : | = == := %% %start // /* if then else é 漢字 🦀 a b c x y \\ \\n # $ 0 12 S A".split()


def rule_names(chance, count):
    names = chance.sample(RULE_NAMES, min(count, len(RULE_NAMES)))
    return names + [f"rule_{number}" for number in range(count - len(names))]


def token_names(chance, count, rules):
    """names of tokens, and those of them that are to be declared"""
    named = [name for name in DECLARED_NAMES if name not in rules]
    fresh = [f"t{number}" for number in range(count)]
    declared = chance.sample(named, chance.randrange(min(count, len(named)) + 1))
    names = (declared + chance.sample(QUOTED_NAMES, min(len(QUOTED_NAMES), count)) + fresh)[:count]
    chance.shuffle(names)
    return names, declared


# Kinds of grammars.


def random_grammar(chance, rules_len, tokens_len):
    """any grammar: cycles, useless rules, conflicts, empty alternatives, rules that derive nothing"""
    names = rule_names(chance, rules_len)
    tokens, declared = token_names(chance, tokens_len, names)
    token_chance = chance.choice((0.4, 0.6, 0.8))

    def symbol():
        return token(chance.choice(tokens)) if tokens and chance.random() < token_chance else rule(chance.choice(names))

    def alternative():
        return [symbol() for _ in range(chance.choice((0, 1, 1, 2, 2, 3, 4)))]

    rules = [(name, [alternative() for _ in range(chance.choice((1, 1, 2, 2, 3, 4)))]) for name in names]
    if chance.random() < 0.2:
        rules.append((chance.choice(names), [alternative()]))
    return finished(chance, rules, declared)


def leading_grammar(chance, rules_len, tokens_len):
    """each alternative begins with a token of its own, so that the table is complete"""
    names = rule_names(chance, rules_len)
    tokens, declared = token_names(chance, max(tokens_len, 2), names)

    def alternative(first):
        rest = [
            token(chance.choice(tokens)) if chance.random() < 0.4 else rule(chance.choice(names))
            for _ in range(chance.choice((0, 1, 1, 2, 2, 3, 4)))
        ]
        return [token(first), *rest]

    rules = []
    for name in names:
        firsts = chance.sample(tokens, min(len(tokens), chance.choice((1, 2, 2, 3, 3, 4))))
        rules.append((name, [[token(firsts[0])]] + [alternative(first) for first in firsts[1:]]))
    return finished(chance, rules, declared, deterministic=True)


def ladder_grammar(chance, rules_len, tokens_len):
    """an expression: levels of operators to the left or to the right, brackets at the end"""
    levels = max(1, min(rules_len, tokens_len - 1, 6))
    names = rule_names(chance, levels + 1)
    tokens, declared = token_names(chance, levels + 3, names)
    rules = []
    for here, above, operator in zip(names, names[1:], tokens):
        two = [rule(here), token(operator), rule(above)]
        kinds = [two, two[::-1], [token(operator), rule(here)], [rule(here), token(operator)]]
        rules.append((here, [chance.choice(kinds), [rule(above)]]))
    opening, closing, atom = tokens[levels : levels + 3]
    atoms = [[token(atom)], [token(opening), rule(names[0]), token(closing)]]
    chance.shuffle(atoms)
    rules.append((names[-1], atoms))
    return finished(chance, rules, declared, names[0], deterministic=True)


def layered_grammar(chance, rules_len, tokens_len):
    """lists, options, brackets and choices, each over those after it, with signs of their own"""
    names = rule_names(chance, max(2, rules_len))
    tokens, declared = token_names(chance, 3 * len(names), names)
    signs = iter(tokens)
    rules = []
    for at, name in enumerate(names):
        below = names[at + 1 :]
        rules.append((name, layer(chance, name, below, lambda: token(next(signs)))))
    return finished(chance, rules, declared, names[0])


def layer(chance, name, below, sign):
    if not below:
        return [[sign()], [sign()]]
    item, other = rule(below[0]), rule(chance.choice(below))
    return chance.choice(
        (
            lambda: [[item], [rule(name), sign(), item]],
            lambda: [[item], [item, sign(), rule(name)]],
            lambda: [[], [rule(name), sign(), item]],
            lambda: [[], [sign(), item, rule(name)]],
            lambda: [[sign(), item, sign()], [sign(), other]],
            lambda: [[sign()], [item]],
            lambda: [[item, sign()], [sign(), other, item]],
            lambda: [[item, sign(), other]],
            lambda: [[sign(), rule(name)], [item]],
        )
    )()


def finished(chance, rules, declared, start=None, deterministic=False):
    """the grammar of these rules, with a start, printed texts and declared tokens"""
    if start is None and chance.random() < 0.3:
        start = chance.choice(rules)[0]
    head = rules[0][0]
    if start is not None and chance.random() < 0.3:
        chance.shuffle(rules)
    elif start == head and chance.random() < 0.5:
        start = None
    grammar = Grammar(rules, start, declared, deterministic=deterministic)
    texts = iter(chance.sample(PRINTED, len(PRINTED)))
    tokens = grammar.tokens()
    for name, text in zip(tokens, texts):
        if chance.random() < 0.2 and text not in tokens:
            grammar.printed[name] = text
    return grammar


# Printed texts. Those of a grammar differ, so that a printed sequence can be read back in one way.
PRINTED = ["plus", "a word", "the 'end'", "→", "🦀🦀", "%%", "//", " ", "x"]

KINDS = random_grammar, leading_grammar, ladder_grammar, layered_grammar


def any_grammar(chance, kinds=KINDS):
    """a grammar of one of the kinds, mostly small"""
    rules_len = chance.choice((1, 1, 2, 2, 3, 3, 4, 5, 6, 8))
    tokens_len = chance.choice((1, 2, 2, 3, 3, 4, 5))
    if chance.random() < 0.03:
        rules_len, tokens_len = chance.choice((12, 16, 24, 36)), chance.choice((5, 8, 12))
    return chance.choice(kinds)(chance, rules_len, tokens_len)


# Texts.

COMMENTED = string.ascii_letters + string.digits + "  '\"#@%;:|é漢🦀\t"


def words_of(chance, grammar):
    """the words of a text of the grammar: pieces of the kinds sign, name and quoted"""
    words = declarations(chance, grammar)
    words.append(Piece("sign", "%%"))
    for name, alternatives in grammar.rules:
        words += [Piece("name", name), Piece("sign", ":")]
        for number, symbols in enumerate(alternatives):
            words += [Piece("sign", "|")] if number else []
            words += [symbol_word(chance, grammar, symbol) for symbol in symbols]
        words.append(Piece("sign", ";"))
    return words + ([Piece("sign", "%%")] if chance.random() < 0.2 else [])


def declarations(chance, grammar):
    groups = []
    if grammar.start is not None:
        groups.append([Piece("sign", "%start"), Piece("name", grammar.start)])
    at = 0
    while at < len(grammar.declared):
        count = chance.randint(1, 3)
        names = grammar.declared[at : at + count]
        groups.append([Piece("sign", "%token")] + [token_word(chance, name, True) for name in names])
        at += count
    order = {id(group): number for number, group in enumerate(groups)}
    for name, text in grammar.printed.items():
        word = token_word(chance, name, name in grammar.declared)
        groups.append([Piece("sign", "%epp"), word, quoted(chance, text)])
    groups.sort(key=lambda group: order.get(id(group), chance.randrange(len(groups) + 1)))
    return [word for group in groups for word in group]


def symbol_word(chance, grammar, symbol):
    if symbol.is_token:
        return token_word(chance, symbol.name, symbol.name in grammar.declared)
    return Piece("name", symbol.name)


def token_word(chance, name, is_declared):
    if is_declared and is_name(name) and chance.random() < 0.8:
        return Piece("name", name)
    return quoted(chance, name)


def is_name(text):
    return all(c.isascii() and (c.isalnum() or c in "_.") for c in text) and not text[:1].isdigit()


def quoted(chance, text):
    quotes = [quote for quote in "'\"" if quote not in text]
    quote = chance.choice(quotes)
    return Piece("quoted", quote + text + quote)


def spaced(chance, words):
    """the words with blanks before, between and after them"""
    style = chance.choice(("tight", "plain", "odd"))
    newline = chance.choice(("\n", "\n", "\r\n"))
    pieces = [] if style != "odd" else blanks(chance, newline)
    for number, word in enumerate(words):
        after = words[number + 1] if number + 1 < len(words) else None
        pieces.append(word)
        needed = after is not None and word.kind == after.kind == "name"
        if style == "odd":
            pieces += blanks(chance, newline)
        elif style == "plain" and after is not None:
            pieces.append(Piece("blank", newline if word.text in (";", "%%") else " "))
        if needed and pieces[-1] is word:
            pieces.append(Piece("blank", " "))
    return pieces


def blanks(chance, newline):
    return [blank(chance, newline) for _ in range(chance.choice((0, 1, 1, 2, 3)))]


def blank(chance, newline):
    kind = chance.randrange(8)
    text = "".join(chance.choice(COMMENTED) for _ in range(chance.randrange(8)))
    if kind == 0:
        return Piece("line", f"//{text}{newline}")
    if kind == 1:
        return Piece("block", f"/*{text}{chance.choice(('', '*', newline))}*/")
    return Piece("blank", chance.choice((" ", "  ", "\t", newline, "\r", newline + newline)))


def text_of(chance, grammar):
    """a text of the grammar"""
    return joined(spaced(chance, words_of(chance, grammar)))


def joined(pieces):
    return "".join(piece.text for piece in pieces)
