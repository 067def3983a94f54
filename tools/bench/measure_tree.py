"""Times the command `tree` on large JSON texts, and its parts, and prints figures.

    measure_tree.py [--rounds N] [--tree PROGRAM] [--parts PROGRAM] [BYTES ..]

`--tree` names the built lrpar_program, which is timed as a whole, and `--parts` the built bench_program, which times the
lexer alone, the lexer with the parse, and the text of the tree. The texts are those of gen_json.py, of 1 and of 10 MB
if no sizes are given; the grammar and the lexer's rules are those of crates/test_cases/data/json. The runs of the sizes take
turns. Prints for each size the median of the seconds, nanoseconds a byte, and the most memory that a process had, in
bytes a byte; and in a line `growth` how many times as long a byte takes in the last size as in the first, as the median
of the rounds' ratios.
"""
import argparse
import os
import statistics
import subprocess
import sys
import tempfile
import time

HERE = os.path.dirname(os.path.abspath(__file__))
JSON = os.path.join(HERE, "..", "..", "crates", "test_cases", "data", "json")
READ_BY = [os.path.join(JSON, "grammar.y"), os.path.join(JSON, "lexer.lex")]
PARTS = ("lex", "lex_tree", "print")
# How often a process repeats a part. The first time is left out.
REPETITIONS = 3


def text_of(folder, size):
    """the path of a text of about this number of bytes"""
    path = os.path.join(folder, f"{size}.json")
    with open(path, "w") as out:
        subprocess.run([sys.executable, os.path.join(HERE, "gen_json.py"), str(size)], stdout=out, check=True)
    return path


def run(words, out):
    """the seconds that a process takes, and the most bytes that it had"""
    begun = time.perf_counter()
    started = subprocess.Popen(words, stdout=out)
    _, status, used = os.wait4(started.pid, 0)
    taken = time.perf_counter() - begun
    started.returncode = os.waitstatus_to_exitcode(status)
    if started.returncode:
        raise SystemExit(f"{' '.join(words)}: status {started.returncode}")
    return taken, used.ru_maxrss * 1024


def whole(program, path):
    return run([program, "tree", *READ_BY, path], subprocess.DEVNULL)


def part(program, mode, path):
    """the median of the seconds that a part takes in one process, and the most bytes that another one had, which did it once"""
    with tempfile.TemporaryFile("w+") as out:
        run([program, mode, str(REPETITIONS + 1), *READ_BY, path], out)
        out.seek(0)
        nanoseconds = statistics.median(map(int, out.read().split()[1:]))
    _, peak = run([program, mode, "1", *READ_BY, path], subprocess.DEVNULL)
    return nanoseconds / 1e9, peak


def measure(name, paths, rounds, once):
    """prints the figures of what `once` does with each text"""
    sizes = [os.path.getsize(path) for path in paths]
    done = [[once(path) for path in paths] for _ in range(rounds)]
    for size, runs in zip(sizes, zip(*done)):
        seconds = statistics.median(taken for taken, _ in runs)
        peak = max(most for _, most in runs)
        print(f"{name:<10}{size:>12,}{seconds:>10.3f}{seconds * 1e9 / size:>20.1f}{peak / size:>14.1f}", flush=True)
    each = [[taken / size for (taken, _), size in zip(runs, sizes)] for runs in done]
    print(f"{name:<10}{'growth':>12}{'':>10}{statistics.median(one[-1] / one[0] for one in each):>20.2f}", flush=True)


def main():
    words = argparse.ArgumentParser()
    words.add_argument("--rounds", type=int, default=5)
    words.add_argument("--tree")
    words.add_argument("--parts")
    words.add_argument("sizes", type=int, nargs="*")
    words = words.parse_args()
    with tempfile.TemporaryDirectory() as folder:
        paths = [text_of(folder, size) for size in words.sizes or (1_000_000, 10_000_000)]
        print(f"{'':<10}{'bytes':>12}{'seconds':>10}{'nanoseconds a byte':>20}{'bytes a byte':>14}")
        if words.tree:
            measure("tree", paths, words.rounds, lambda path: whole(words.tree, path))
        for mode in PARTS if words.parts else ():
            measure(mode, paths, words.rounds, lambda path: part(words.parts, mode, path))


if __name__ == "__main__":
    main()
