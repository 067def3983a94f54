"""Sums by `demo`, values by `calc` and lists with marks, whose answers are known as they are made."""
from case import expect



def sum_by_demo(case):
    """the tree of a sum by `demo`"""
    names = [case.chance.choice("abcxyzABCXYZ_") for _ in range(case.chance.randint(1, 12))]
    answer = case.run("demo", "+".join(names))
    lines = []
    for depth, name in enumerate(names):
        lines += [" " * depth + "E", " " * depth + " T", " " * depth + "  ID " + name, " " * depth + " + +"]
    expected = "\n".join(lines[:-1]) + "\n"
    expect((answer.status, answer.out.decode()) == (0, expected), expected, answer.out.decode())


# Values are below this.
MOST = 2**64


def value_by_calc(case):
    """the values of lines by `calc`"""
    chance = case.chance
    lines = [valued(chance, chance.randrange(6)) for _ in range(chance.randint(1, 5))]
    newline = chance.choice(("\n", "\r\n", "\n\n", " \n\t\n"))
    answer = case.run("calc", given=newline.join(text for text, _ in lines).encode())
    values = [value for _, value in lines]
    expected = "".join(f"Result: {value}\n" for value in values if value is not None)
    complaints = "Unable to evaluate expression.\n" * values.count(None)
    expect((answer.status, answer.out.decode(), answer.err.decode()) == (int(None in values), expected, complaints), expected, answer)


def valued(chance, depth):
    """the text of an expression, and its value, which is none if some part of it doesn't fit 64 bits"""
    text, value = valued_term(chance, depth)
    for _ in range(chance.choice((0, 0, 1, 2))):
        more, other = valued_term(chance, depth - 1)
        text, value = f"{text}{gap(chance)}+{gap(chance)}{more}", fitting(value, other, lambda a, b: a + b)
    return text, value


def valued_term(chance, depth):
    text, value = valued_factor(chance, depth)
    for _ in range(chance.choice((0, 0, 1, 2))):
        more, other = valued_factor(chance, depth - 1)
        text, value = f"{text}{gap(chance)}*{gap(chance)}{more}", fitting(value, other, lambda a, b: a * b)
    return text, value


def valued_factor(chance, depth):
    if depth > 0 and chance.random() < 0.4:
        text, value = valued(chance, depth - 1)
        return f"({text}{gap(chance)})", value
    number = chance.choice([chance.randrange(10), chance.randrange(100), chance.randrange(1000)] * 5 + [2**32, MOST - 1, MOST])
    return chance.choice(("", "", "00")) + str(number), number if number < MOST else None


def fitting(left, right, joined_by):
    if left is None or right is None or joined_by(left, right) >= MOST:
        return None
    return joined_by(left, right)


def gap(chance):
    return chance.choice(("", " ", " ", "\t"))


def list_with_marks(case):
    """a list of `a` in which each `b` is an error that a deletion mends, with lexemes enough after it"""
    chance = case.chance
    recursion = chance.choice(("| S 'a'", "'a' | S 'a'", "| 'a' S", "'a' | 'a' S"))
    case.file("g.y", f"%token b %% S: {recursion}; Useless: b;")
    case.file("g.lex", "a 'a'\nb 'b'")
    shifts = chance.choice((1, 2, 3, 9))
    runs = [chance.randint(shifts, shifts + 5) for _ in range(chance.choice((1, 2, 5, 30, 100)))]
    repairs = chance.sample(["shift", "insert 'b'", "delete shift insert 'b'", "delete delete insert 'b' delete"], chance.randrange(5))
    answer = case.tree("b" + "b".join("a" * run for run in runs), repairs="\n".join([*repairs, "delete"]), shifts=shifts)
    places = [1 + sum(runs[:number]) + number for number in range(len(runs))]
    errors = "".join(f"Parsing error at line 1 column {place}. Repair sequences found:\n   1: Delete b\n" for place in places)
    expected = errors + list_tree(sum(runs), "| S" in recursion, not recursion.startswith("'"))
    expect((answer.status, answer.out.decode()) == (1, expected), expected, answer.out.decode())


def list_tree(count, is_left, has_empty):
    """the text of the tree of this number of `a`"""
    levels = count + has_empty
    lines = [" " * depth + "S" for depth in range(levels)]
    leaves = [" " * depth + "a a" for depth in range(1, count + 1)]
    if is_left:
        return "\n".join(lines + leaves[::-1]) + "\n"
    return "\n".join(line for level in zip(lines, leaves + [None]) for line in level if line) + "\n"
