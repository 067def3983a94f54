"""What the program printed, read back."""
import re
from typing import NamedTuple

ERROR = re.compile(r"(Parsing|Lexing) error at line (\d+) column (\d+)\.( No repair sequences found\.| Repair sequences found:|)")


class Error(NamedTuple):
    """An error with its place, and the lines of its sequences as they were printed."""

    kind: str
    place: tuple
    lines: list


class Node(NamedTuple):
    """A rule with children, or a token, whose text is then not none."""

    name: str
    text: str
    children: list


class Unread(Exception):
    """What was printed has no known form."""


def errors_and_tree(out):
    """the errors and the tree, or none, that `tree` or `demo` printed"""
    lines = out.decode().split("\n")
    if lines.pop():
        raise Unread("the last line has no line feed")
    errors = []
    while lines and (found := ERROR.fullmatch(lines[0])):
        del lines[0]
        kind, line, column, tail = found.groups()
        if (kind == "Lexing") != (tail == ""):
            raise Unread(f"an error of the form {found[0]!r}")
        listed = sequences(lines) if tail.endswith(":") else []
        if tail.endswith(":") and not listed:
            raise Unread("no sequence after the colon")
        errors.append(Error(kind, (int(line), int(column)), listed))
    return errors, tree(lines) if lines else None


def sequences(lines):
    """takes the numbered lines, and gives them without their numbers"""
    taken = []
    while lines and re.match(rf" +{len(taken) + 1}: ", lines[0]):
        taken.append(lines.pop(0))
    for number, line in enumerate(taken, 1):
        head = " " * (3 + len(str(len(taken))) - len(str(number))) + f"{number}: "
        if not line.startswith(head):
            raise Unread(f"a number that isn't padded: {line!r}")
        taken[number - 1] = line[len(head) :]
    return taken


def tree(lines):
    """the tree of these lines; no token's name begins with a space, and no text has one"""
    root = Node("", None, [])
    path = [root]
    for line in lines:
        depth = len(line) - len(line.lstrip(" "))
        if depth + 1 > len(path) or path[depth].text is not None:
            raise Unread(f"a line too deep: {line!r}")
        name, *text = line[depth:].rsplit(" ", 1)
        node = Node(name, text[0] if text else None, [])
        path[depth].children.append(node)
        path[depth + 1 :] = [node]
    if len(root.children) != 1:
        raise Unread("several roots")
    return root.children[0]


def leaves(node):
    """the tokens of a tree and their texts, in order"""
    if node.text is not None:
        return [(node.name, node.text)]
    return [leaf for child in node.children for leaf in leaves(child)]


def misfit(grammar, node):
    """the first node that no alternative of its rule has, if there is one"""
    if node.text is not None:
        return None
    symbols = [(child.text is not None, child.name) for child in node.children]
    if symbols not in [[tuple(symbol) for symbol in alternative] for alternative in grammar.alternatives(node.name)]:
        return node
    return next((found for child in node.children if (found := misfit(grammar, child))), None)
