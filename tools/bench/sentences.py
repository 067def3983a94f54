"""Random sentences of the grammars that the benchmark measures by, and texts of their tokens."""
import os
import random
import re
import sys

# A rule of each grammar that is a list, by which sentences are made long; and the texts of tokens that their patterns don't spell.
LISTS = {
    "json": "JSONElementList",
    "ansic": "translation_unit",
    "lua": "chunk_1",
    "c99": "translation_unit",
    "c": "Unit",
}
SAMPLES = {
    **dict.fromkeys(("ID", "NAME", "Name"), "x"),
    **dict.fromkeys(("ICONST", "INTEGER", "INT_CONST_DEC", "NUMBER", "Number"), "1"),
    **dict.fromkeys(("FCONST", "FLOATING", "FLOAT_CONST"), "1.5"),
    **dict.fromkeys(("SCONST", "STRING", "STRING_LITERAL", "String"), '"s"'),
    **dict.fromkeys(("CCONST", "CHARACTER", "CHAR_CONST"), "'c'"),
    "TYPEID": "x_t", "INT_CONST_OCT": "07", "INT_CONST_HEX": "0xf", "INT_CONST_BIN": "0b1", "HEX_FLOAT_CONST": "0x1p1",
    "INT_CONST_CHAR": "'cc'", "WCHAR_CONST": "L'c'", "U8CHAR_CONST": "u8'c'", "U16CHAR_CONST": "u'c'", "U32CHAR_CONST": "U'c'",
    "WSTRING_LITERAL": 'L"s"', "U8STRING_LITERAL": 'u8"s"', "U16STRING_LITERAL": 'u"s"', "U32STRING_LITERAL": 'U"s"',
    "PPPRAGMASTR": "@@x",
}
SHORTEST, LONGEST = 50, 300


def texts_of(lexer):
    """a text of each token, by name, that the lexer reads as that token"""
    found = {}
    for line in open(lexer, encoding="utf-8"):
        rule = re.fullmatch(r"(\S+)[ \t]+'(.*)'\s*", line)
        if rule and rule[2] in SAMPLES:
            found[rule[2]] = SAMPLES[rule[2]]
        elif rule and rule[2] not in found and re.fullmatch(r"(\\.|[^\\.+*?()|\[\]{}^$])+", rule[1]):
            found[rule[2]] = re.sub(r"\\(.)", r"\1", rule[1])
    return found


class Language:
    """a grammar with its lexer, and random sentences of it"""

    def __init__(self, tools, name, folder, grammar, lexer):
        self.tools, self.name = tools, name
        self.grammar, self.lexer = os.path.join(folder, grammar), os.path.join(folder, lexer)

    def sentences(self, count):
        """random sentences, as lists of texts of tokens"""
        sys.path.insert(0, os.path.join(self.tools, "tools"))
        import data
        import gram
        import lr1

        grammar = gram.load(self.grammar)
        table, texts = lr1.Lr1(grammar), texts_of(self.lexer)
        table.tables()
        listed = grammar.rules.index(LISTS[self.name])
        for seed in range(count):
            made = data.Sentences(table, seed)
            lexemes = made.sentence(listed, random.Random(seed).randint(SHORTEST, LONGEST))
            yield [texts[grammar.tokens[it]] for it in lexemes]
