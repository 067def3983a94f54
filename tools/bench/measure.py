"""Runs the program and the peer by turns, and prints their figures and ratios.

    measure.py [--counts] [--before PROGRAM] [--rounds N] PROGRAM PEER DATA

PROGRAM is the built bench_program, PEER the built peer_lrpar. DATA is a folder of NAME.lrb, NAME.tab and
NAME.COUNT.lx for each grammar, and of texts NAME.RULES.y for the reader. --before names the same program as another
commit builds it, which is then run beside. --counts adds instructions and allocations, which valgrind counts, and
peaks of memory. README.md says what each figure is.
"""
import argparse
import glob
import json
import os
import re
import resource
import statistics
import subprocess

# Each mode of ours that parses, and what the peer does that is most like it.
PARSES = {"noaction": "noaction", "map_unit": "noaction", "tree": "generictree", "map_tree": "generictree"}
# For each number of lexemes, how often a process parses them. The first time is left out.
REPETITIONS = {10_000: 30, 100_000: 10, 1_000_000: 3}
FEWEST, MOST = min(REPETITIONS), max(REPETITIONS)
TABLES = ("graph", "rows", "sparse", "check", "complete")
LOOKS = ("actions", "gotos", "actions_apart", "gotos_apart")
LOOKED_UP = 1_000_000
# How many levels a deep tree has, and how much stack the process.
LEVELS = 1_000_000
# Lists with marks, which each tenth lexeme is: in how many brackets they are, and how many lexemes they have.
DEPTHS = (10, 10_000)
LISTED = (10_000, 100_000)
GAP = 10
STACK = 8 << 20


def run(words, stack=None):
    """what a program writes to standard output, or None if it doesn't know the mode"""
    limit = stack and (lambda: resource.setrlimit(resource.RLIMIT_STACK, (stack, stack)))
    ran = subprocess.run(words, capture_output=True, text=True, preexec_fn=limit)
    if ran.returncode == 2 and "usage" in ran.stderr:
        return None
    if ran.returncode:
        raise SystemExit(f"{' '.join(words)}: status {ran.returncode}: {ran.stderr.strip()}")
    return ran.stdout


def nanoseconds(program, mode, repetitions, *files):
    """the median of a process's repetitions, without the first"""
    wrote = run([program, mode, str(repetitions + 1), *files])
    return wrote and statistics.median(map(int, wrote.split()[1:]))


def peer_nanoseconds(peer, mode, repetitions, table, lexemes):
    wrote = run([peer, table, lexemes, "--reps", str(repetitions), "--modes", mode, "--json"])
    return json.loads(wrote)[mode]["median_s"] * 1e9


def by_turns(rounds, *calls):
    """for each call what it gives in each round; if the first gives None, the others aren't made"""
    given = [[] for _ in calls]
    for _ in range(rounds):
        for call, figures in zip(calls, given):
            figures.append(call())
            if given[0][0] is None:
                return [[None] for _ in calls]
    return given


def ratio(ours, theirs):
    """the median of the rounds' ratios"""
    if None in ours or None in theirs:
        return None
    return statistics.median(one / other for one, other in zip(ours, theirs))


def middle(figures, unit=1):
    return None if None in figures else statistics.median(figures) / unit


def row(*cells):
    shown = ["-" if it is None else it if isinstance(it, str) else f"{it:,}" if isinstance(it, int) else f"{it:,.2f}" for it in cells]
    print("  ".join(f"{it:<14}" if at < 2 else f"{it:>12}" for at, it in enumerate(shown)), flush=True)


class Bench:
    def __init__(self, words):
        self.words = words
        self.grammars = sorted(name[:-4] for name in os.listdir(words.data) if name.endswith(".lrb"))

    def file(self, name):
        return os.path.join(self.words.data, name)

    def files(self, grammar, count):
        """table and lexemes, as the program takes them"""
        return self.file(f"{grammar}.lrb"), self.file(f"{grammar}.{count}.lx")

    def peer_files(self, grammar, count):
        return self.file(f"{grammar}.tab"), self.file(f"{grammar}.{count}.lx")

    def ours_and_before(self, mode, repetitions, *files):
        """the figures of a mode: ours, and those of the program before, if there is one"""
        programs = [it for it in (self.words.program, self.words.before) if it]
        calls = [lambda program=it: nanoseconds(program, mode, repetitions, *files) for it in programs]
        given = by_turns(self.words.rounds, *calls)
        return given if len(given) == 2 else [*given, [None]]

    def parses(self):
        print("\nParses: nanoseconds a lexeme, and the ratio to the peer and to the program before")
        row("grammar", "mode", "lexemes", "ours", "peer", "to peer", "to before")
        for grammar in self.grammars:
            for mode in PARSES:
                self.parse(grammar, mode)

    def parse(self, grammar, mode):
        """a mode at each number of lexemes, and how much longer a lexeme takes where there are the most"""
        each, peers = {}, {}
        for count, repetitions in REPETITIONS.items():
            files, peer_files = self.files(grammar, count), self.peer_files(grammar, count)
            before = self.words.before or self.words.program
            ours, peer, old = by_turns(
                self.words.rounds,
                lambda: nanoseconds(self.words.program, mode, repetitions, *files),
                lambda: peer_nanoseconds(self.words.peer, PARSES[mode], repetitions, *peer_files),
                lambda: self.words.before and nanoseconds(before, mode, repetitions, *files),
            )
            each[count], peers[count] = middle(ours, count), middle(peer, count)
            row(grammar, mode, count, each[count], peers[count], ratio(ours, peer), ratio(ours, old))
        if each[FEWEST]:
            row(grammar, mode, "growth", each[MOST] / each[FEWEST], peers[MOST] / peers[FEWEST])

    def trees(self):
        print("\nA tree by a caller's functions: the ratio of map_tree to tree")
        for grammar in self.grammars:
            files = self.files(grammar, 100_000)
            calls = [lambda it=it: nanoseconds(self.words.program, it, REPETITIONS[100_000], *files) for it in ("map_tree", "tree")]
            row(grammar, "", ratio(*by_turns(self.words.rounds, *calls)))

    def deep(self):
        print("\nA tree of many levels, parsed, cloned, compared and dropped within 8 MiB of stack: nanoseconds a level")
        files = self.file("deep/deep.lrb"), self.file(f"deep/deep.{LEVELS}.lx")
        wrote = run([self.words.program, "deep", "3", *files], STACK)
        row("", "deep", LEVELS, wrote and statistics.median(map(int, wrote.split()[1:])) / LEVELS)

    def mends(self):
        print("\nRepairs: nanoseconds an error, by what a list with errors takes more than one without")
        row("mode", "brackets", *(f"{count:,}" for count in LISTED), "growth")
        for mode in ("mend", "mend_tree"):
            for depth in DEPTHS:
                rounds = [[self.mend(mode, depth, count) for count in LISTED] for _ in range(self.words.rounds)]
                few, many = zip(*rounds)
                row(mode, depth, middle(few), middle(many), ratio(many, few))

    def mend(self, mode, depth, count):
        """the nanoseconds that each error takes"""
        marked, plain = (nanoseconds(self.words.program, it, 10, str(depth), str(count)) for it in (mode, f"{mode}_plain"))
        return (marked - plain) * GAP / count

    def tables(self):
        print("\nTables: microseconds, and the ratio to the program before")
        for grammar in self.grammars:
            for mode in TABLES:
                ours, old = self.ours_and_before(mode, 5, self.file(f"{grammar}.lrb"))
                row(grammar, mode, middle(ours, 1e3), ratio(ours, old))
            calls = [lambda it=it: nanoseconds(self.words.program, it, 5, self.file(f"{grammar}.lrb")) for it in ("complete", "check")]
            row(grammar, "complete/check", ratio(*by_turns(self.words.rounds, *calls)))

    def looks(self):
        print("\nLook-ups in rows of 64 entries: nanoseconds, those in dense rows, their ratio, and that to the program before")
        for mode in LOOKS:
            calls = [lambda it=it: nanoseconds(self.words.program, it, 10) for it in (mode, f"dense_{mode}")]
            ours, dense = by_turns(self.words.rounds, *calls)
            again, old = self.ours_and_before(mode, 10)
            row("", mode, middle(ours, LOOKED_UP), middle(dense, LOOKED_UP), ratio(ours, dense), ratio(again, old))

    def reader(self):
        print("\nThe reader: bytes, megabytes a second, and the ratio to the program before")
        for text in sorted(glob.glob(self.file("*.y")), key=os.path.getsize):
            ours, old = self.ours_and_before("reader", 5, text)
            size, taken = os.path.getsize(text), middle(ours)
            row("", "reader", size, taken and size * 1e3 / taken, ratio(ours, old))

    def counts(self):
        print("\nInstructions and allocations a lexeme, ours and the peer's")
        row("grammar", "mode", "lexemes", "instructions", "peer", "before", "allocations", "peer")
        for grammar in self.grammars:
            for mode in PARSES:
                for count in (FEWEST, 10 * FEWEST):
                    self.count(grammar, mode, count)

    def count(self, grammar, mode, lexemes):
        files, peer_files = self.files(grammar, lexemes), self.peer_files(grammar, lexemes)
        ours = [self.words.program, mode], files
        peer = [self.words.peer, *peer_files, "--modes", PARSES[mode], "--reps"], ()
        before = [self.words.before, mode], files
        instructions = [instructions_of(*it) for it in (ours, peer, before) if it[0][0]]
        allocations = [allocations_of(*it) for it in (ours, peer)]
        instructions += [None] * (3 - len(instructions))
        row(grammar, mode, lexemes, *(it and it / lexemes for it in instructions + allocations))

    def peaks(self):
        print("\nPeaks of memory: bytes a lexeme, ours and the peer's, by what 1,000,000 lexemes take more than 10,000")
        for grammar in self.grammars:
            for mode in PARSES:
                ours, peer = [], []
                for count in (FEWEST, MOST):
                    ours.append(peak([self.words.program, mode, "1", *self.files(grammar, count)]))
                    peer.append(peak([self.words.peer, *self.peer_files(grammar, count), "--reps", "0", "--modes", "none"]))
                row(grammar, mode, *(None if None in it else (it[1] - it[0]) / (MOST - FEWEST) for it in (ours, peer)))


def instructions_of(words, files):
    return counted("callgrind", r"Collected : (\d+)", ["--callgrind-out-file=/dev/null"], words, files)


def allocations_of(words, files):
    return counted("memcheck", r"total heap usage: ([\d,]+) allocs", ["--leak-check=no", "--undef-value-errors=no"], words, files)


def counted(tool, found, options, words, files):
    """what valgrind counts in one repetition: the number of three less that of one, halved"""
    numbers = []
    for repetitions in ("1", "3"):
        whole = ["valgrind", f"--tool={tool}", *options, *words, repetitions, *files]
        ran = subprocess.run(whole, capture_output=True, text=True)
        if ran.returncode:
            return None
        numbers.append(int(re.search(found, ran.stderr)[1].replace(",", "")))
    return (numbers[1] - numbers[0]) / 2


def peak(words):
    """the most bytes that the process had, or None if it fails"""
    started = subprocess.Popen(words, stdout=subprocess.DEVNULL, stderr=subprocess.DEVNULL)
    _, status, used = os.wait4(started.pid, 0)
    started.returncode = os.waitstatus_to_exitcode(status)
    return None if started.returncode else used.ru_maxrss * 1024


def main():
    words = argparse.ArgumentParser()
    words.add_argument("--counts", action="store_true")
    words.add_argument("--before")
    words.add_argument("--rounds", type=int, default=5)
    words.add_argument("program")
    words.add_argument("peer")
    words.add_argument("data")
    bench = Bench(words.parse_args())
    # The drop of a deep tree by the peer, and by a caller's own type, takes stack for each level.
    most = resource.getrlimit(resource.RLIMIT_STACK)[1]
    resource.setrlimit(resource.RLIMIT_STACK, (most, most))
    bench.parses()
    bench.trees()
    bench.deep()
    bench.mends()
    bench.tables()
    bench.looks()
    bench.reader()
    if bench.words.counts:
        bench.counts()
        bench.peaks()


if __name__ == "__main__":
    main()
