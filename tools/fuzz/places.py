"""Places: a fault of a grammar's text is reported where it is."""
from case import expect
from grammars import Piece, any_grammar, joined, quoted, spaced, text_of, token_word, words_of
from texts import spoiled


def places(case):
    chance = case.chance
    spoil = chance.choice((strange_byte, strange_byte, cut_text, planted_fault, planted_fault, any_change))
    spoil(case, any_grammar(chance))


STRANGE = "#@!$+-*=<>,()[]{}^~&?`\0\x01\x07\x1b\x7fé🦀\u3000\ufeff\xa0\x0b\x0c"


def strange_byte(case, grammar):
    """a character that no word has, outside of comments and quotes"""
    chance = case.chance
    pieces = spaced(chance, words_of(chance, grammar))
    number = chance.randrange(len(pieces))
    piece = pieces[number]
    inside = chance.randrange(len(piece.text)) if piece.kind in ("sign", "name", "blank") else 0
    begin = len(joined(pieces[:number]).encode())
    at = begin if piece.kind == "sign" else begin + inside
    text = joined(pieces[:number]) + piece.text[:inside] + chance.choice(STRANGE) + piece.text[inside:] + joined(pieces[number + 1 :])
    see_fault(case, text, f"syntax at byte {at}")


def cut_text(case, grammar):
    """a text that ends too early"""
    chance = case.chance
    pieces = spaced(chance, words_of(chance, grammar))
    number = chance.randrange(len(pieces))
    piece = pieces[number]
    inside = chance.randrange(len(piece.text))
    text = joined(pieces[:number]) + piece.text[:inside]
    if inside and (piece.kind in ("sign", "quoted", "block") or piece.text[:inside] == "/"):
        see_fault(case, text, f"syntax at byte {len(joined(pieces[:number]).encode())}")
    elif inside and piece.kind == "name" or not is_whole(pieces[:number]):
        see_fault(case, text, f"syntax at byte {len(text.encode())}")
    else:
        case.run("check", case.file("g.y", text), "3")


def is_whole(pieces):
    """whether the words end where a text may end"""
    words = [piece.text for piece in pieces if piece.kind in ("sign", "name", "quoted")]
    return "%%" in words and words[-1] in (";", "%%")


def planted_fault(case, grammar):
    """one fault of meaning in a grammar that has none"""
    chance = case.chance
    words = words_of(chance, grammar)
    plant = chance.choice((unknown_rule, unknown_start, repeated_start, unknown_token, repeated_printed, token_is_rule, no_rules))
    words, at, fault = plant(chance, grammar, words)
    pieces = spaced(chance, words)
    if at is None:
        see_fault(case, joined(pieces), fault)
        return
    before = next(number for number, piece in enumerate(pieces) if piece is words[at])
    place = len(joined(pieces[:before]).encode()) + (words[at].kind == "quoted")
    see_fault(case, joined(pieces), f"{fault} at byte {place}")


def middle(words):
    return next(number for number, word in enumerate(words) if word.text == "%%" and word.kind == "sign")


def unknown_rule(chance, grammar, words):
    places = [at for at in range(middle(words), len(words)) if words[at].text in ":|;" and words[at].kind == "sign"]
    ends = [at for at in places if words[at].text != ":"]
    at = chance.choice(ends)
    return words[:at] + [Piece("name", "unknown.1")] + words[at:], at, "unknown rule"


def unknown_start(chance, grammar, words):
    if grammar.start is not None:
        at = next(number for number, word in enumerate(words) if word.text == "%start" and word.kind == "sign")
        return words[: at + 1] + [Piece("name", "unknown_1")] + words[at + 2 :], at + 1, "unknown rule"
    return [Piece("sign", "%start"), Piece("name", "unknown_1")] + words, 1, "unknown rule"


def repeated_start(chance, grammar, words):
    start = [Piece("sign", "%start"), Piece("name", grammar.start_rule())]
    second = [Piece("sign", "%start"), Piece("name", grammar.start_rule())]
    if grammar.start is None:
        return start + second + words, 3, "repeated %start"
    at = middle(words)
    return words[:at] + second + words[at:], at + 1, "repeated %start"


def unknown_token(chance, grammar, words):
    at = middle(words)
    word = Piece("quoted", chance.choice(("'unknown'", '"unknown"')))
    return words[:at] + [Piece("sign", "%epp"), word, Piece("quoted", "'text'")] + words[at:], at + 1, "unknown token"


def repeated_printed(chance, grammar, words):
    name = chance.choice(list(grammar.printed) or ["never"])
    once = [Piece("sign", "%epp"), token_word(chance, name, True), quoted(chance, "text")]
    twice = [Piece("sign", "%epp"), token_word(chance, name, True), quoted(chance, "text")]
    at = middle(words)
    put = twice if name in grammar.printed else once + twice
    return words[:at] + put + words[at:], at + len(put) - 2, "repeated %epp"


def token_is_rule(chance, grammar, words):
    at = middle(words)
    name = chance.choice(grammar.rule_names())
    declared = chance.choice((Piece("name", name), Piece("quoted", f"'{name}'")))
    words = words[:at] + [Piece("sign", "%token"), declared] + words[at:]
    defined = next(number for number in range(at, len(words)) if words[number].text == name and words[number + 1].text == ":")
    return words, defined, "token is a rule"


def no_rules(chance, grammar, words):
    at = middle(words)
    return words[: at + 1] + chance.choice(([], words[at : at + 1])), None, "no rules"


def any_change(case, grammar):
    """bytes that were changed: the place is in the file, which the form of each answer asks"""
    text = text_of(case.chance, grammar)
    case.run("check", case.file("g.y", spoiled(case.chance, text.encode())), "3")


def see_fault(case, text, fault):
    answer = case.run("check", case.file("g.y", text), "3")
    expect((answer.status, answer.err.decode()) == (2, f"lrpar: grammar: {fault}\n"), fault, answer.err)
