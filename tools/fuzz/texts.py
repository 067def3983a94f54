"""Random lexers of one character a token, their texts, repairs, and bytes that spoil a file."""
from dataclasses import dataclass

from grammars import any_grammar, heights

CHARACTERS = "abcdefghijkmnopqrstuvwxyzABCXYZ0123456789+-*/()[]{}<>=,.!?&|^~@:$%_\"'é漢🦀λ∀ﬁαβγδζηθκμνξπρστφχψω"
MARKS = "\\.+*?()|[]{}^$#&-~"
SKIPPED = ([], [], [], [" "], ["\n"], [" ", "\n"], ["\t", "\r\n"])
SKIP_PATTERNS = {" ": ("[ ]", "\\x20"), "\n": ("\\n", "[\\n]"), "\t": ("\\t",), "\r\n": ("\\r\\n", "\\r?\\n")}
# A character that no lexer here knows.
UNKNOWN = "§"


@dataclass
class Language:
    """A grammar, with a character for each token, and the texts that are skipped."""

    grammar: object
    characters: dict
    skipped: list
    lexer: str


@dataclass
class Text:
    """A text of tokens, with the byte at which each starts."""

    tokens: list
    characters: dict
    text: str
    starts: list

    def slice(self, at):
        return self.characters[self.tokens[at]]

    def end(self, at):
        return self.starts[at] + len(self.slice(at).encode())

    def place(self, at):
        """line and column of the token, or of the end"""
        byte = self.starts[at] if at < len(self.starts) else self.end(at - 1) if at else 0
        before = self.text.encode()[:byte].decode()
        return before.count("\n") + 1, len(before) - (before.rfind("\n") + 1) + 1

    def places(self):
        return {self.place(at): at for at in range(len(self.tokens) + 1)}


def language_of(chance, grammar):
    tokens = grammar.tokens()
    characters = dict(zip(tokens, chance.sample(CHARACTERS, len(CHARACTERS))))
    skipped = chance.choice(SKIPPED)
    return Language(grammar, characters, skipped, lexer_of(chance, characters, skipped))


def any_language(chance, *kinds):
    return language_of(chance, any_grammar(chance, *kinds))


def lexer_of(chance, characters, skipped):
    lines = [f"{pattern_of(chance, c)}{chance.choice((' ', '  ', chr(9)))}'{name}'" for name, c in characters.items()]
    lines += [f"{chance.choice(SKIP_PATTERNS[text])} ;" for text in skipped]
    chance.shuffle(lines)
    if characters and chance.random() < 0.2:
        # The first line of equal ones wins, so this one never does.
        name, c = chance.choice(list(characters.items()))
        lines.append(f"{pattern_of(chance, c)} '{chance.choice(list(characters))}'")
    newline = chance.choice(("\n", "\n", "\r\n", "\n\n", " \t\n  "))
    return newline.join(lines) + chance.choice(("", newline))


def pattern_of(chance, c):
    escaped = "\\" + c if c in MARKS else c
    forms = [escaped, escaped, f"(?:{escaped})", f"{escaped}{{1}}", f"\\x{{{ord(c):x}}}", f"({escaped}|{escaped})"]
    if c.isalnum():
        forms += [f"[{c}]", f"[{c}-{c}]"]
    return chance.choice(forms)


def text_by(chance, language, tokens):
    """a text of these tokens, with skipped texts between some"""
    text, starts = "", []
    gaps = chance.random() < 0.7

    def gap():
        return chance.choice(language.skipped) if gaps and language.skipped and chance.random() < 0.4 else ""

    for name in tokens:
        text += gap()
        starts.append(len(text.encode()))
        text += language.characters[name]
    return Text(list(tokens), language.characters, text + gap(), starts)


# Sentences.


def derivation(chance, grammar, most=40):
    """a random tree of the start rule, (rule, children) and tokens; none if it derives no list of tokens"""
    least = heights(grammar)
    start = grammar.start_rule()
    if start not in least:
        return None
    left = [chance.randrange(most)]
    return tree_of(chance, grammar, least, start, left)


def tree_of(chance, grammar, least, name, left):
    left[0] -= 1
    chosen = [symbols for symbols in grammar.alternatives(name) if all(s.is_token or s.name in least for s in symbols)]
    if left[0] <= 0:
        chosen = [symbols for symbols in chosen if is_low(least, symbols, least[name])]
    symbols = chance.choice(chosen)
    children = [s.name if s.is_token else tree_of(chance, grammar, least, s.name, left) for s in symbols]
    return name, children


def is_low(least, symbols, height):
    return all(s.is_token or least[s.name] < height for s in symbols)


def leaves_of(tree):
    if isinstance(tree, str):
        return [tree]
    return [leaf for child in tree[1] for leaf in leaves_of(child)]


def printed_tree(tree, characters, depth=0):
    """the text of a tree, as the program prints it"""
    if isinstance(tree, str):
        return f"{' ' * depth}{tree} {characters[tree]}\n"
    below = "".join(printed_tree(child, characters, depth + 1) for child in tree[1])
    return f"{' ' * depth}{tree[0]}\n{below}"


def sentence(chance, grammar, most=40):
    tree = derivation(chance, grammar, most)
    return [] if tree is None else leaves_of(tree)


def changed(chance, tokens, names):
    """the tokens with one left out, put in, replaced or moved, and the place from which they differ"""
    tokens = list(tokens)
    at = chance.randrange(len(tokens) + 1)
    kind = chance.randrange(4)
    if kind == 0 or not tokens or at == len(tokens):
        tokens.insert(at, chance.choice(names))
    elif kind == 1:
        del tokens[at]
    elif kind == 2:
        tokens[at] = chance.choice(names)
    else:
        to = chance.randrange(len(tokens))
        tokens.insert(to, tokens.pop(at))
        at = min(at, to)
    return tokens, at


def any_tokens(chance, grammar):
    """a sentence, one that was changed here and there, or any tokens"""
    names = grammar.tokens()
    if not names:
        return []
    if chance.random() < 0.15:
        return [chance.choice(names) for _ in range(chance.randrange(12))]
    tokens = sentence(chance, grammar, chance.choice((10, 40, 40, 200)))
    for _ in range(chance.choice((0, 1, 1, 1, 2, 3, 5))):
        tokens, _ = changed(chance, tokens, names)
    return tokens


# Repairs: lists of steps, which are (insert, NAME), (delete,) and (shift,).


def any_sequences(chance, grammar):
    """some sequences, and in half of all cases each of one step"""
    names = grammar.tokens()
    count = chance.choice((0, 1, 1, 2, 3, 5, 9, 10, 11, 20, 40))
    if chance.random() < 0.02:
        count = chance.choice((99, 100, 101, 300))
    sequences = [any_sequence(chance, names) for _ in range(count)]
    if chance.random() < 0.5:
        sequences += [[("delete",)], [("shift",)]] + [[("insert", name)] for name in names]
        chance.shuffle(sequences)
    return sequences


def any_sequence(chance, names):
    length = chance.choice((1, 1, 1, 2, 2, 3, 4))
    if chance.random() < 0.01:
        length = chance.choice((10, 100, 300))
    kinds = ("insert", "insert", "delete", "delete", "shift") if names else ("delete", "shift")
    steps = [chance.choice(kinds) for _ in range(length)]
    return [(kind, chance.choice(names)) if kind == "insert" else (kind,) for kind in steps]


def repairs_of(chance, sequences):
    newline = chance.choice(("\n", "\n", "\r\n", "\n\n"))
    lines = [chance.choice((" ", " ", "\t", "  ")).join(step_word(chance, step) for step in steps) for steps in sequences]
    return "".join(chance.choice(("", "", " ", "\t")) + line + newline for line in lines)


def step_word(chance, step):
    if len(step) == 1:
        return step[0]
    quote = chance.choice([quote for quote in "'\"" if quote not in step[1]])
    return f"insert{chance.choice((' ', ' ', '  '))}{quote}{step[1]}{quote}"


# Noise.

BITS = [
    "%start", "%token", "%epp", "%%", ":", "|", ";", "'", '"', "//", "/*", "*/", "S", "'a'", "\n", "\r\n", " ", "\t", "\0",
    "insert", "delete", "shift", "insert 'a'", " 'a'", " ;", "[a-z]+", "\\", "(", ")", "[", "]", "{3}", "*", "+", "?", "^", "$",
    "\\p{L}", "\\b", "(?i)", "(?s).", "(?-u:\\xff)", "[^a]", "a{100}{100}", "🦀", "é", "\u0301", "\ufeff", "#", "12", "0",
    "18446744073709551615", "18446744073709551616", "--shifts",
]


def noise(chance):
    """bytes of any kind"""
    kind = chance.randrange(4)
    length = chance.choice((0, 1, 3, 10, 40, 200))
    if kind == 0:
        return chance.randbytes(length)
    if kind == 1:
        return "".join(chance.choice(BITS) for _ in range(length)).encode()
    if kind == 2:
        return "".join(chr(chance.choice((chance.randrange(128), chance.randrange(0x3000)))) for _ in range(length)).encode()
    return chance.choice(BITS).encode() * chance.choice((1, 2, 1000))


def spoiled(chance, content):
    """the bytes with a few changes, mostly of one byte"""
    for _ in range(chance.choice((1, 1, 1, 2, 5))):
        content = spoiled_once(chance, content)
    return content


def spoiled_once(chance, content):
    at = chance.randrange(len(content) + 1)
    to = min(len(content), at + chance.choice((1, 1, 2, 5, 30)))
    return chance.choice(
        (
            lambda: content[:at] + bytes([chance.randrange(256)]) + content[at + 1 :],
            lambda: content[:at] + bytes([chance.randrange(32, 127)]) + content[at + 1 :],
            lambda: content[:at] + bytes([chance.randrange(128)]) + content[at:],
            lambda: content[:at] + chance.choice(BITS).encode() + content[at:],
            lambda: content[:at] + content[to:],
            lambda: content[:to] + content[at:],
            lambda: content[:at],
        )
    )()
