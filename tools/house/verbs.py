"""What changes something, or has no result, is named by a verb."""

import re

from sources import DATA, ROOT, Finding, data_lines, files, functions

MUTABLE = re.compile(r"&(?:'\w+ )?mut\b")
NO_RESULT = re.compile(r"(?:\(\))?$|(?:io::)?Result<\(\)(?:,|>)")
# A test may use a buffer of its caller's, and is named as tests are.
IS_TEST = re.compile(r"(?:Result<)?bool\b")
# The files of laws: functions that do nothing, whose contract is a theorem, and whose name a sentence.
LAWS = re.compile(r"/(?:laws|every_text)\.rt$")


def list_of(name):
    """The words of a file of data."""
    return {word for _, line in data_lines(DATA / name) for word in line.split()}


def is_sentence(function):
    """Whether the function is a law or a test, whose name is a sentence."""
    return LAWS.search(function.file) or function.above.startswith("#[test")


def is_of_tests(path):
    """Whether the file is of a crate of tests, whose helpers may be named by what they print."""
    return path.relative_to(ROOT / "crates").parts[0].startswith("test_")


def findings():
    verbs, participles, fixed = list_of("verbs.txt"), list_of("participles.txt"), list_of("fixed.txt")
    for _, path in files("src", ".rt"):
        for function in functions(path):
            first = function.name.split("_")[0]
            if function.name in fixed or is_sentence(function):
                continue
            changes = MUTABLE.search(function.parameters) and not IS_TEST.match(function.result)
            if changes and first not in verbs and (first in participles or not is_of_tests(path)):
                yield Finding(function.file, function.line, f"`{function.name}` takes `&mut`, and '{first}' is no verb of the list")
            elif NO_RESULT.match(function.result) and first in participles:
                yield Finding(function.file, function.line, f"`{function.name}` has no result, and '{first}' is a participle")
