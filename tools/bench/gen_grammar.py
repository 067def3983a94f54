"""A large grammar text, for the reader.

    gen_grammar.py RULES > GRAMMAR.y

writes a grammar of this number of rules, some 1,000 bytes each: three long alternatives of rules, of tokens that %token
declares, and of quoted tokens; an empty alternative in some; comments of both kinds. It is the same text each time.
"""
import random
import sys

NAMED = 500
QUOTED = 500
ALTERNATIVES = 3
SYMBOLS = 25


def head():
    """the declarations: the start rule, the named tokens, ten a line, and the texts that messages print for some"""
    yield "%start rule_0"
    for first in range(0, NAMED, 10):
        yield "%token " + " ".join(f"NAMED_{number}" for number in range(first, first + 10))
    for number in range(0, NAMED, 20):
        yield f"%epp NAMED_{number} 'the text of {number}'"
    yield "%%"


def symbol(chance, rules):
    kind = chance.randrange(4)
    if kind == 0:
        return f"NAMED_{chance.randrange(NAMED)}"
    if kind == 1:
        quote = chance.choice("'\"")
        return f"{quote}quoted {chance.randrange(QUOTED)}{quote}"
    return f"rule_{chance.randrange(rules)}"


def rule(chance, number, rules):
    """a rule, with a comment before it and one after each alternative"""
    yield f"// The rule of number {number}, which stands for nothing."
    yield f"rule_{number}"
    for place in range(ALTERNATIVES):
        symbols = " ".join(symbol(chance, rules) for _ in range(chance.randrange(SYMBOLS - 5, SYMBOLS + 6)))
        yield f"    {'|' if place else ':'} {symbols} /* alternative {place}\n       of {number} */"
    if number % 10 == 0:
        yield "    |"
    yield "    ;"


def main(rules):
    chance = random.Random(1)
    for line in head():
        print(line)
    for number in range(rules):
        for line in rule(chance, number, rules):
            print(line)


if __name__ == "__main__":
    main(int(sys.argv[1]))
