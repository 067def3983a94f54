"""A word of words.txt is used where it has its one meaning. Names of tests and examples are free."""

import fnmatch

from sources import DATA, Finding, data_lines, names, words_of

FREE = ("test_", "example_")


def rules():
    """For each rule its words, its meaning, and where names may have them. A line is WORDS | MEANING | PATTERNS: words of names, or whole
    names that begin with `=`; and patterns of CRATE/NAME."""
    for _, line in data_lines(DATA / "words.txt"):
        words, meaning, patterns = (part.strip() for part in line.split("|"))
        yield set(words.split()), meaning, patterns.split()


def findings():
    every_rule = list(rules())
    for crate, file, line, name in names():
        if crate.startswith(FREE):
            continue
        has = set(words_of(name)) | {f"={name}"}
        for words, meaning, patterns in every_rule:
            if has & words and not any(fnmatch.fnmatchcase(f"{crate}/{name}", pattern) for pattern in patterns):
                word = sorted(has & words)[0].lstrip("=")
                yield Finding(file, line, f"`{name}`: '{word}' is for {meaning}" if meaning else f"`{name}` says too little alone")
