"""Lexemes of the list of `deep.y`, whose tree has a level for each.

    gen_deep.py COUNT > FILE.lx

writes this number of lexemes of token 0, of one byte each.
"""
import struct
import sys


def main(count):
    out = sys.stdout.buffer
    out.write(b"LRX1" + struct.pack("<I", count))
    for start in range(count):
        out.write(struct.pack("<III", 0, start, 1))


if __name__ == "__main__":
    main(int(sys.argv[1]))
