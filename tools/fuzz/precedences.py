"""Precedences: `.y` files with actions and all else that a grammar text doesn't have, the tables by their precedences, and trees. What
has to come is known by definitions (`erased.py`, `canonical.py`), or by a parser of expressions. The program `test_cases` compares."""
import re

from canonical import Canonical, Table, decided
from case import expect
from erased import File
from grammars import any_grammar, is_name, quoted, rule, token
from pager import Merged
from texts import changed, sentence

# How many files there are in a case, and the most item sets of a table.
FILES = 20
MOST = 400
# A row about a table that is refused, which not every grammar has: chains of reductions may have no end.
REFUSED = "the grammar has no checked table"


class Rows:
    """Rows of cases, each named by the number of its file, and what has to come of them."""

    def __init__(self):
        self.lines, self.count = [], 0

    def add(self, kind, number, *lines):
        self.lines += [f"{kind} {number}", *(f"  {line}" for line in lines if line is not None)]
        self.count += 1

    def text(self):
        return "".join(f"{line}\n" for line in self.lines)


def precedences(case):
    """files that are read, tables by their precedences, and parses by these tables"""
    made = [any_file(case.chance) for _ in range(FILES)]
    files = [File(text, is_original) for text, is_original, _ in made]
    faults = text_faults(case, files)
    rows = Rows()
    for number, ((text, is_original, grammar), file) in enumerate(zip(made, files)):
        add_reading(rows, number, text, is_original, file, faults.get(number))
        if grammar and number not in faults and not file.fault() and not file.unknown(file.tokens):
            add_table(case.chance, rows, number, text, is_original, file, grammar)
    for number in range(FILES, FILES + 5):
        add_expression(case.chance, rows, number)
    wrong = [line for line in reported(case, rows) if not line.endswith(REFUSED)]
    expect(not wrong, "each row as expected", wrong)


def reported(case, rows):
    """what is wrong with these rows, a line each"""
    name = case.file("rows", rows.text())
    answer = case.rows(name)
    expect(answer.out == f"{name}: {rows.count} cases\n".encode(), f"{rows.count} cases", answer.out)
    return answer.err.decode().splitlines()


def text_faults(case, files):
    """by number the faults of erased files, which are those of grammar texts"""
    rows = Rows()
    for number, file in enumerate(files):
        rows.add("text", number, f"text {escaped(file.erased())}", "show counts")
    faults = {}
    for line in reported(case, rows):
        found = re.fullmatch(r"rows:\d+: text (\d+): wanted nothing more, came: (?:counts .*|fault (.*?)(?:\.\.\d+)?)", line)
        expect(found, "a fault of a grammar text, or its counts", line)
        faults[int(found[1])] = found[2]
    return {number: fault for number, fault in faults.items() if fault}


def escaped(text):
    """a value with escapes for all that a line can't have, or that is cut off at its ends"""
    inside = "".join(map(escaped_character, text))
    if inside[:1] == " ":
        inside = "\\s" + inside[1:]
    return inside[:-1] + "\\s" if inside[-1:] == " " else inside


def escaped_character(c):
    if c in "\n\r\t\\":
        return {"\n": "\\n", "\r": "\\r", "\t": "\\t", "\\": "\\\\"}[c]
    return c if c.isprintable() else "".join(f"\\x{byte:02x}" for byte in c.encode())


# What has to come of a file.


def add_reading(rows, number, text, is_original, file, text_fault):
    """what has to come of the file: the first fault, or the erased lines and what is declared"""
    fault = file.fault() or text_fault or file.unknown(file.tokens)
    came = [f"fault {fault}"] if fault else [*erased_lines(file.erased()), *declared_lines(file)]
    # A row has no blanks at the ends of a value.
    values = [line.partition(" ")[2] for line in came]
    if values == [value.strip() for value in values]:
        rows.add("yacc", number, f"text {escaped(text)}", "kind original" if is_original else None, *came)


def erased_lines(text):
    return [f"erased {line.replace(' ', '_').replace(chr(13), '~')}" for line in text.split("\n") if line]


def declared_lines(file):
    def places(names):
        return "".join(f" {name.name} {file.byte(name.start)}..{file.byte(name.end)}" for name in names)

    lines = [f"{kind}{places(names)}" for kind, names in file.levels]
    lines += [f"prec {prod}{places([name])}" for prod, name in file.precs]
    lines += [f"{key}{places(names)}" for key, names in (("avoided", file.avoided), ("unused", file.unused)) if names]
    for kind in ("expect", "expect-rr"):
        for found, digits, start, end in file.numbers:
            lines += [f"{kind} {int(digits)} {file.byte(start)}..{file.byte(end)}"] if found == kind else []
    return lines


def precedences_of(file, prods):
    """the precedence of a token, and that of a production, by what the file declares"""
    levels = {}
    for level, (kind, names) in enumerate(file.levels):
        for name in names:
            levels.setdefault(name.name, (level, kind))
    named = {}
    for prod, name in file.precs:
        named.setdefault(prod, levels.get(name.name))

    def of_prod(prod):
        if prod in named or prod >= len(prods):
            return named.get(prod)
        tokens = [symbol for symbol in prods[prod][1] if symbol.is_token]
        return levels.get(tokens[-1].name) if tokens else None

    return (lambda symbol: levels.get(symbol.name)), of_prod


def add_table(chance, rows, number, text, is_original, file, grammar):
    """what has to come of the table of the file's grammar by its precedences, and of a parse"""
    prods = [(name, symbols) for name, alternatives in grammar.rules for symbols in alternatives]
    tokens = grammar.tokens()
    minimiser, sets = item_sets(chance, prods, grammar.start_rule(), grammar.rule_names(), tokens)
    if not sets.is_whole:
        return
    table = Table(sets, *precedences_of(file, prods))
    if not table.is_accept_alone:
        return
    tried = [chance.choice(tokens) for _ in range(chance.randrange(6))] if tokens else []
    if tokens and chance.random() < 0.7:
        tried = sentence(chance, grammar)
        if chance.random() < 0.3:
            tried, _ = changed(chance, tried, tokens)
    parsed = table.parse([token(name) for name in tried])
    given = table_lines(text, is_original, minimiser, tokens, tried, parsed)
    rows.add("precedence", number, *given, *table_came(table, tokens, tried, parsed))


def item_sets(chance, prods, start, rules, tokens):
    """canonical or merged item sets, after the line that asks for them"""
    if chance.random() < 0.5:
        return "minimiser canonical", Canonical(prods, start, MOST)
    return "minimiser pager", Merged(prods, start, MOST, [*map(rule, rules), *map(token, tokens)])


def table_lines(text, is_original, minimiser, tokens, tried, parsed):
    """what is done with a table; without a parse, if that takes too long here"""
    lexemes = "lexemes " + " ".join(f"#{tokens.index(name)}" for name in tried)
    lines = [f"text {escaped(text)}", "kind original" if is_original else None, minimiser, "cap 65535", "show pairs", "hide states"]
    return lines if parsed is None else [*lines, lexemes]


def table_came(table, tokens, tried, parsed):
    """what has to come of it"""
    came = [f"states {len(table.canonical.sets)}", *counts(table), *pairs(table, tokens)]
    return came if parsed is None else [*came, parsed_line(parsed, tried)]


def counts(table):
    def resolved(how):
        return sum(count for (_, _, found), count in table.resolved.items() if found == how)

    listed = sum(table.listed.values())
    return [
        f"resolved shifts {resolved('shifts')}, reduces {resolved('reduces')}, fails {resolved('fails')}",
        f"listed shift/reduce {listed}, reduce/reduce {table.reduce_reduce}",
    ]


def pairs(table, tokens):
    """a line for each token and production with conflicts"""
    found = {(ahead, prod) for ahead, prod, _ in table.resolved} | set(table.listed)
    lines = []
    for ahead, prod in sorted(found, key=lambda pair: (tokens.index(pair[0].name), pair[1])):
        each = ", ".join(f"{how} {table.resolved[ahead, prod, how]}" for how in ("shifts", "reduces", "fails"))
        lines.append(f"pair {ahead.name} {prod}: {each}, listed {table.listed[ahead, prod]}")
    return lines


def parsed_line(parsed, tokens):
    """the tree, or the error at a token, as a case has it"""
    if isinstance(parsed, int):
        return f"error {leaf_text(tokens[parsed], parsed)}" if parsed < len(tokens) else f"error $@{parsed}+0!"
    return "tree " + tree_text(parsed).replace("\\", "\\\\")


def tree_text(tree):
    name, below = tree
    if isinstance(below, int):
        return leaf_text(name.name, below)
    return f"{name}({' '.join(map(tree_text, below))})"


def leaf_text(name, at):
    return f"{name}@{at}" if re.fullmatch("[A-Za-z0-9_]+", name) else f"'{name}'@{at}"


# Expressions, beside a parser by precedence climbing.


def add_expression(chance, rows, number):
    """a grammar of one rule with operators, and a parse"""
    signs = chance.sample("+ - * / < > = ^ % & ! ~".split(), chance.randint(1, 6))
    levels = [(chance.choice(("left", "left", "right", "nonassoc")), []) for _ in range(chance.randint(1, 4))]
    for sign in [*(sign for sign in [*signs, *map(partner_of, signs)] if chance.random() < 0.9), "LEVEL"]:
        chance.choice(levels)[1].append(sign)
    forms = {form: chance.choice((None, None, None, "LEVEL", *signs)) for form in any_forms(chance, signs)}
    text = expression_text(chance, levels, forms)
    level_of = {name: (level, kind) for level, (kind, names) in enumerate(levels) for name in names}
    precedence = {(form, sign): level_of.get(named or last_of(form, sign)) for (form, sign), named in forms.items()}
    tokens = any_expression(chance, sorted(forms), chance.choice((1, 2, 4, 8)))
    names = [symbol.name for form, sign in forms for symbol in symbols_of(form, sign) if symbol.is_token]
    names = list(dict.fromkeys([*names, "(", ")", "n"]))
    if chance.random() < 0.2:
        tokens, _ = changed(chance, tokens, names)
    parsed = Climbing(tokens, precedence, level_of).parsed()
    prods = [("E", symbols_of(form, sign)) for form, sign in forms] + [("E", [token("("), rule("E"), token(")")]), ("E", [token("n")])]
    precedences_of_prods = [*precedence.values(), level_of.get(")"), level_of.get("n"), None]
    minimiser, sets = item_sets(chance, prods, "E", ["E"], names)
    table = Table(sets, lambda symbol: level_of.get(symbol.name), lambda prod: precedences_of_prods[prod])
    expect(table.parse(list(map(token, tokens))) == parsed, parsed, text)
    rows.add("precedence", number, *table_lines(text, True, minimiser, names, tokens, parsed), *table_came(table, names, tokens, parsed))


def any_forms(chance, signs):
    """forms of operators, each with its sign; no sign has two forms after an operand"""
    found = []
    for sign in signs:
        one = chance.choice(("infix", "infix", "infix", "mixed", "prefix", "postfix"))
        found += [(one, sign)] + ([("prefix", sign)] if one != "prefix" and chance.random() < 0.15 else [])
    return found


def partner_of(sign):
    """the second sign of an operator between three operands"""
    return f"{sign}2"


def last_of(form, sign):
    """the last token of an operator"""
    return partner_of(sign) if form == "mixed" else sign


def symbols_of(form, sign):
    operand, sign, partner = rule("E"), token(sign), token(partner_of(sign))
    return {
        "infix": [operand, sign, operand], "prefix": [sign, operand], "postfix": [operand, sign],
        "mixed": [operand, sign, operand, partner, operand],
    }[form]  # fmt: skip


def expression_text(chance, levels, forms):
    """the text of the grammar with these levels and forms, each with a name for its `%prec`, or None"""
    shapes = {"infix": "E '{0}' E", "prefix": "'{0}' E", "postfix": "E '{0}'", "mixed": f"E '{{0}}' E '{partner_of('{0}')}' E"}
    texts = []
    for (form, sign), named in forms.items():
        prec = f" %prec '{named}'" if named else ""
        texts.append(f"{shapes[form].format(sign)}{prec} {action(chance, 2)}")
    declared = "".join(f"%{kind} {' '.join(map(quote, names))}\n" for kind, names in levels)
    return declared + "%%\nE: " + "\n | ".join([*texts, "'(' E ')'", "'n'"]) + ";"


def quote(name):
    return f"'{name}'"


def any_expression(chance, forms, size):
    """the tokens of an expression with this number of operators or fewer"""
    kind = chance.random()
    if size == 0 or not forms or kind < 0.1:
        return ["n"]
    if kind < 0.2:
        return ["(", *any_expression(chance, forms, size - 1), ")"]
    form, sign = chance.choice(forms)
    if form == "infix":
        left = chance.randrange(size)
        return [*any_expression(chance, forms, left), sign, *any_expression(chance, forms, size - 1 - left)]
    if form == "mixed":
        sizes = [chance.randrange(size) // 2 for _ in range(3)]
        first, second, third = (any_expression(chance, forms, size) for size in sizes)
        return [*first, sign, *second, partner_of(sign), *third]
    below = any_expression(chance, forms, size - 1)
    return [sign, *below] if form == "prefix" else [*below, sign]


class Stuck(Exception):
    pass


class Climbing:
    """A parser of expressions by precedence climbing: an operand is read on as long as what is pending lets a sign go first."""

    def __init__(self, tokens, forms, levels):
        self.tokens, self.forms, self.levels, self.at = tokens, forms, levels, 0

    def parsed(self):
        """the tree; or the number of the token at which there is an error"""
        try:
            tree = self.expression(None)
            return tree if self.at == len(self.tokens) else self.at
        except Stuck:
            return self.at

    def next(self):
        return self.tokens[self.at] if self.at < len(self.tokens) else None

    def take(self):
        self.at += 1
        return token(self.tokens[self.at - 1]), self.at - 1

    def taken(self, name):
        """the next token, if it has this name"""
        if self.next() != name:
            raise Stuck
        return self.take()

    def expression(self, pending):
        """an expression, where a production with this precedence is pending, or nothing is if it is None"""
        left = self.operand()
        while True:
            sign = self.next()
            form = next((form for form in ("infix", "mixed", "postfix") if (form, sign) in self.forms), None)
            if form is None:
                return left
            how = decided(pending[0], self.levels.get(sign)) if pending else "shifts"
            if how == "fails":
                raise Stuck
            if how == "reduces":
                return left
            below = [left, self.take()]
            if form == "mixed":
                below += [self.expression(None), self.taken(partner_of(sign))]
            if form != "postfix":
                below.append(self.expression((self.forms[form, sign],)))
            left = ("E", below)

    def operand(self):
        sign = self.next()
        if sign == "n":
            return "E", [self.take()]
        if sign == "(":
            return "E", [self.take(), self.expression(None), self.taken(")")]
        if ("prefix", sign) in self.forms:
            return "E", [self.take(), self.expression((self.forms["prefix", sign],))]
        raise Stuck


# Files by chance.

BLANKS = [" ", "  ", "\n", "\r\n", " // {\n", "// '\r\n", "/* } */", "/* %prec x */", "/**/ "]
NAMES = "THEN UNARY x_y lowest a.b".split()
TYPES = [
    "u64", "Result<u64, ()>", "a::B<'a, c::D>", "(u8, [u8; 4])", "fn(a: u8) -> B<C>", "&'a dyn Fn(&str) -> u8", "[A; { 1 }]",
    "Map<&'static str, (A, B)>", 'C<":">', "D<{ ':' }>", "dyn for<'x> E<'x>", "F /* : */ ", "()", "é::漢<🦀>",
]
CODE = [
    "$1", "$lexer", "'a", "'static", "'_", "'{'", "'}'", "'\"'", "'\\''", "'\\\\'", "'\\u{7d}'", "b'}'", "b'\\''", "'é'", "'🦀'",
    '"}"', '"{"', '"\\"}"', '"\\\\"', '"\'"', '"// }"', '"/* {"', '""', 'b"}"', 'c"}"', 'r"}\\"', 'r#"}"#', 'r##""#}"##', 'br#"\\}"#',
    'cr"}"', "r#match", "r", "br", "x1", "1.5", "0..9", "a::b", "->", "=>", "|x|", "<", ">", ":", ";", "/", "//}\n", "// '\n",
    "/* } */", "/**/", "/* /* } */ } */", "/*/ } */", "é", "🦀", "\n", "\r\n", "\t", "#", "\\", "!", "vec![]", "%%", "%prec", "'\n'",
]  # fmt: skip


def action(chance, depth):
    """an action"""
    pieces = []
    for _ in range(chance.choice((0, 1, 2, 3, 6))):
        pieces.append(action(chance, depth - 1) if depth and chance.random() < 0.2 else chance.choice(CODE))
    return "{" + " ".join(["", *pieces, ""]) + "}"


def any_file(chance):
    """the text of a file, whether it is of yacc's kind, and its grammar; no grammar, if the text was spoiled or may have a fault"""
    grammar = any_grammar(chance)
    is_original = chance.random() < 0.5
    is_faulty = chance.random() < 0.15
    text = joined(chance, words_of(chance, grammar, is_original, is_faulty))
    if chance.random() < 0.3:
        return spoiled(chance, text), is_original, None
    return text, is_original, grammar


def words_of(chance, grammar, is_original, is_faulty):
    names = [*grammar.tokens(), *NAMES]
    levels, groups = some_levels(chance, names, is_faulty)
    groups += [["%token", *map(lambda name: name_word(chance, name), grammar.declared)]] if grammar.declared else []
    groups += [["%start", grammar.start]] if grammar.start else []
    groups += [["%expect", str(chance.choice((0, 1, 12, 2**64 - 1)))]] if chance.random() < 0.2 else []
    groups += [["%expect-rr", chance.choice(("0", "007", "x" if is_faulty else "1"))]] if chance.random() < 0.2 else []
    groups += [["%expect-unused", *some_names(chance, names)]] if chance.random() < 0.2 else []
    known = names if is_faulty else grammar.tokens()
    groups += [["%avoid_insert", *some_names(chance, known)]] if chance.random() < 0.3 else []
    groups += [[f"%parse-param p: {chance.choice(TYPES)}\n"]] if chance.random() < 0.2 else []
    groups += [[f"%actiontype {chance.choice(TYPES)}\n"]] if is_original and chance.random() < 0.4 else []
    groups += [["%grmtools", action(chance, 1)]] if chance.random() < 0.2 else []
    chance.shuffle(groups)
    return [*(word for group in groups for word in group), "%%", *rules_of(chance, grammar, is_original, is_faulty, levels), *programs(chance)]


def some_levels(chance, names, is_faulty):
    """the names in the levels, and the words of the levels"""
    left = chance.sample(names, chance.randrange(len(names) + 1))
    levels, groups = list(left), []
    if is_faulty and left:
        left.append(chance.choice(left))
    while left or chance.random() < 0.1:
        count = chance.randint(0, 3)
        groups.append([f"%{chance.choice(('left', 'right', 'nonassoc'))}", *(name_word(chance, name) for name in left[:count])])
        left = left[count:]
    return levels, groups


def some_names(chance, names):
    return [name_word(chance, name) for name in chance.sample(names, chance.randrange(min(len(names), 3) + 1))]


def name_word(chance, name):
    return name if is_name(name) and chance.random() < 0.7 else quoted(chance, name).text


def rules_of(chance, grammar, is_original, is_faulty, levels):
    known = [*grammar.tokens(), *levels, *(NAMES if is_faulty else [])]
    words = []
    for name, alternatives in grammar.rules:
        words += [name] + ([f"->{chance.choice(('', ' '))}{chance.choice(TYPES)}"] if not is_original and chance.random() < 0.5 else []) + [":"]
        for number, symbols in enumerate(alternatives):
            words += (["|"] if number else []) + alternative(chance, grammar, symbols, known, is_faulty)
        words.append(";")
    return words


def alternative(chance, grammar, symbols, known, is_faulty):
    words = [symbol_word(chance, grammar, symbol) for symbol in symbols]
    if known and chance.random() < 0.3:
        for _ in range(2 if is_faulty and chance.random() < 0.2 else 1):
            between = chance.choice(BLANKS)
            words.insert(chance.randrange(len(words) + 1), f"%prec{between}{name_word(chance, chance.choice(known))}")
    if chance.random() < (0.1 if words else 0.5):
        words.insert(0, "%empty")
    words += [action(chance, 2)] if chance.random() < 0.5 else []
    return words + (["%empty"] if is_faulty and chance.random() < 0.1 else [])


def symbol_word(chance, grammar, symbol):
    if symbol.is_token:
        return name_word(chance, symbol.name) if symbol.name in grammar.declared else quoted(chance, symbol.name).text
    return symbol.name


def programs(chance):
    return chance.choice(([], [], ["%%"], ["%%", *(chance.choice(CODE) for _ in range(chance.randrange(9)))]))


def joined(chance, words):
    """the words with blanks between"""
    pieces = []
    for word in words:
        pieces += [word, chance.choice(BLANKS) if chance.random() < 0.3 else " "]
    return "".join(pieces)


def spoiled(chance, text):
    """the text cut, or with a few characters changed"""
    for _ in range(chance.choice((1, 1, 2))):
        at = chance.randrange(len(text) + 1)
        to = min(len(text), at + chance.choice((1, 1, 2, 5)))
        text = chance.choice((text[:at], text[:at] + text[to:], text[:at] + chance.choice(CODE) + text[at:], text[:to] + text[at:]))
    return text
