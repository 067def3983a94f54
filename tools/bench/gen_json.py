"""A large JSON text whose tree isn't deep, for the command `tree`.

    gen_json.py BYTES > TEXT.json

writes lists of ten in lists of ten, down to strings, numbers and words of eight characters on average. The text has
about this number of bytes, and is the same each time.
"""
import random
import sys

LISTED = 10
# An element, the comma after it, and its part of the brackets of all lists.
BYTES_AN_ELEMENT = 8 + 1 + 2 / 9
LETTERS = "abcdefghijklmnopqrstuvwxyz"
DIGITS = "0123456789"


def element(chance):
    """four of ten are strings, four are integers, one has a fraction and an exponent, and one is a word"""
    kind = chance.randrange(10)
    if kind < 4:
        return '"' + "".join(chance.choices(LETTERS, k=chance.randrange(5, 10))) + '"'
    if kind < 8:
        return str(chance.randrange(1, 10)) + "".join(chance.choices(DIGITS, k=chance.randrange(4, 11)))
    if kind == 8:
        return f"-{chance.randrange(10)}.{chance.randrange(100, 1000)}e{chance.randrange(1, 10)}"
    return chance.choice(("true", "false", "null"))


def write(out, chance, count, most):
    """this number of elements in lists, each of which is full but the last of its level; `most` would fill this one"""
    out.write("[")
    below = most // LISTED
    for first in range(0, count, below):
        if first:
            out.write(",")
        if below == 1:
            out.write(element(chance))
        else:
            write(out, chance, min(below, count - first), below)
    out.write("]")


def main(size):
    count = max(1, round(size / BYTES_AN_ELEMENT))
    most = LISTED
    while most < count:
        most *= LISTED
    write(sys.stdout, random.Random(1), count, most)


if __name__ == "__main__":
    main(int(sys.argv[1]))
