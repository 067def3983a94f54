"""What a `.y` file is erased to, and what it declares, by their definition in words: blanks in place of all that a grammar text doesn't
have. Nothing here is taken from the library."""
import re
from typing import NamedTuple

BLANK = re.compile(r"[ \t\r\n]|//[^\n]*|/\*.*?\*/", re.S)
WORD = re.compile(r"(?P<name>[A-Za-z_.][A-Za-z0-9_.]*)|'(?P<one>[^'\n]+)'|\"(?P<two>[^\"\n]+)\"|%%|%start|%token|%epp|[:|;]")
LEVEL = re.compile(r"%(left|right|nonassoc)")
NAMES = re.compile(r"%(avoid_insert|expect-unused)")
NUMBER = re.compile(r"%(expect-rr|expect)")
LINE = re.compile(r"%(parse-param|actiontype)")

# A piece of Rust code: a literal, a comment, a word, or a sign. A raw string begins with a word.
CODE = re.compile(
    r"""(?:r|br|cr)(?P<raw>\#*)"
    |(?P<text>")
    |'(?:(?P<escaped>\\)|[^'\\]')
    |(?P<comment>/\*)
    |//[^\n]*
    |::|->
    |[A-Za-z0-9_\x80-\U0010ffff]+
    |.""",
    re.S | re.X,
)


class Part(NamedTuple):
    """What is erased: from `start` to `end`, what it is, and the place of its names or number. `prod` is the production that it is in."""

    kind: str
    start: int
    body: int
    end: int
    prod: int


class Named(NamedTuple):
    name: str
    start: int
    end: int


class Unclosed(Exception):
    pass


def piece_end(text, at):
    """the end of the piece of code at this place"""
    found = CODE.match(text, at)
    if found["raw"] is not None:
        return after(text, '"' + found["raw"], found.end())
    if found["text"]:
        return after_unescaped(text, '"', found.end())
    if found["escaped"]:
        return after_unescaped(text, "'", at + 1)
    if found["comment"]:
        return after_comment(text, found.end())
    return found.end()


def after(text, mark, at):
    end = text.find(mark, at)
    if end < 0:
        raise Unclosed
    return end + len(mark)


def after_unescaped(text, quote, at):
    while at < len(text):
        if text[at] == "\\":
            at += 2
        elif text[at] == quote:
            return at + 1
        else:
            at += 1
    raise Unclosed


def after_comment(text, at):
    depth = 1
    while at < len(text):
        pair = text[at : at + 2]
        depth += (pair == "/*") - (pair == "*/")
        at += 2 if pair in ("/*", "*/") else 1
        if not depth:
            return at
    raise Unclosed


def code_end(text, at, opening, closing, last):
    """where code ends that begins at this place: at the first `last` outside of brackets"""
    depth = 0
    while at < len(text):
        end = piece_end(text, at)
        piece = text[at:end]
        if piece == last and not depth:
            return at
        if piece in opening:
            depth += 1
        elif piece in closing:
            depth = max(depth - 1, 0)
        at = end
    raise Unclosed


def blanks_end(text, at):
    while found := BLANK.match(text, at):
        at = found.end()
    return at


def name_at(text, at):
    """the name or the quoted word at this place, if there is one, and where it ends"""
    found = WORD.match(text, at)
    group = found and next((group for group in ("name", "one", "two") if found[group]), None)
    return (Named(found[group], found.start(group), found.end(group)), found.end()) if group else None


def names_from(text, at):
    """names with blanks before each, and the end of the last one"""
    names, end = [], at
    while found := name_at(text, blanks_end(text, end)):
        names.append(found[0])
        end = found[1]
    return names, end


class File:
    """A text as far as it is a `.y` file: its parts, what they declare, and the action that isn't the last of its alternative."""

    def __init__(self, text, is_original):
        self.text, self.is_original = text, is_original
        self.parts, self.middle, self.prod, self.stuck, self.place = [], None, 0, None, "declaration"
        self.levels, self.precs, self.avoided, self.unused, self.numbers, self.tokens = [], [], [], [], [], set()
        self.read()

    def read(self):
        """goes over blanks, words and parts, as far as they are allowed; `place` is what may come next"""
        at, action = 0, None
        while at < len(self.text):
            if found := BLANK.match(self.text, at):
                at = found.end()
                continue
            word = WORD.match(self.text, at)
            place = word and self.after_word(word, self.place)
            if place:
                self.see_middle(action, word[0])
                at, self.place, action = word.end(), place, None
                continue
            part = self.part_at(at, self.place)
            if part is None:
                self.stuck = at
                return
            self.see_middle(action, "")
            self.parts.append(part)
            action = part if part.kind == "action" else None
            at = part.end

    def see_middle(self, action, word):
        if action and word not in ("|", ";") and self.middle is None:
            self.middle = action

    def after_word(self, word, place):
        """what may come after the word, if it may be here"""
        text, is_name, is_quoted = word[0], bool(word["name"]), bool(word["one"] or word["two"])
        if place == "token" or (place == "more tokens" and (is_name or is_quoted)):
            self.tokens.add(word["name"] or word["one"] or word["two"])
            return "more tokens" if is_name or is_quoted else None
        if place in ("declaration", "more tokens"):
            return {"%start": "start", "%token": "token", "%epp": "epp", "%%": "rule"}.get(text)
        if place == "start":
            return "declaration" if is_name else None
        if place == "epp":
            return "epp text" if is_name or is_quoted else None
        if place == "epp text":
            return "declaration" if is_quoted else None
        if place == "rule":
            return "end" if text == "%%" else "colon" if is_name else None
        if place == "colon":
            return "symbol" if text == ":" else None
        if place == "symbol":
            self.prod += text in ("|", ";")
            if is_quoted:
                self.tokens.add(word["one"] or word["two"])
            return "symbol" if text == "|" or is_name or is_quoted else "rule" if text == ";" else None
        return None

    def part_at(self, at, place):
        try:
            if place in ("declaration", "more tokens"):
                return self.declaration_at(at)
            if place == "colon" and self.text.startswith("->", at) and not self.is_original:
                return self.part("type", at, at + 2, code_end(self.text, at + 2, "([{<", ")]}>", ":"))
            if place == "symbol":
                return self.symbol_at(at)
        except Unclosed:
            return None
        return self.part("programs", at, at, len(self.text)) if place == "end" else None

    def part(self, kind, start, body, end):
        return Part(kind, start, body, end, self.prod)

    def declaration_at(self, at):
        text = self.text
        if found := LEVEL.match(text, at):
            names, end = names_from(text, found.end())
            self.levels.append((found[1], names))
            return self.part("level", at, found.end(), end)
        if found := NAMES.match(text, at):
            names, end = names_from(text, found.end())
            (self.avoided if found[1] == "avoid_insert" else self.unused).extend(names)
            return self.part("names", at, found.end(), end)
        if found := NUMBER.match(text, at):
            digits = re.compile("[0-9]*").match(text, blanks_end(text, found.end()))
            self.numbers.append((found[1], digits[0], digits.start(), digits.end()))
            return self.part("number", at, digits.start(), digits.end())
        if (found := LINE.match(text, at)) and (found[1] == "parse-param" or self.is_original):
            end = text.find("\n", at)
            return self.part("line", at, found.end(), len(text) if end < 0 else end)
        if text.startswith("%grmtools", at):
            body = blanks_end(text, at + 9)
            return self.braces("header", at, body)
        return None

    def braces(self, kind, at, body):
        if not self.text.startswith("{", body):
            return None
        return self.part(kind, at, body, code_end(self.text, body + 1, "{", "}", "}") + 1)

    def symbol_at(self, at):
        if self.text.startswith("{", at):
            return self.braces("action", at, at)
        if self.text.startswith("%prec", at):
            found = name_at(self.text, blanks_end(self.text, at + 5))
            if found:
                self.precs.append((self.prod, found[0]))
            return found and self.part("prec", at, found[0].start, found[1])
        return self.part("empty", at, at, at + 6) if self.text.startswith("%empty", at) else None

    def byte(self, place):
        return len(self.text[:place].encode())

    def erased(self):
        """the text with a space for each byte of a part that isn't a line feed"""
        pieces, place = [], 0
        for part in self.parts:
            pieces += [self.text[place : part.start], *map(spaces, self.text[part.start : part.end])]
            place = part.end
        return "".join(pieces) + self.text[place:]

    def faults(self):
        """what can be wrong with the parts and their declarations, each with its place"""
        found = [("bad number", start, end) for _, digits, start, end in self.numbers if not digits or int(digits) >= 2**64]
        seen, of_prod = set(), None
        for name in (name for _, names in self.levels for name in names):
            if name.name in seen:
                found.append(("repeated precedence", name.start, name.end))
            seen.add(name.name)
        for prod, name in self.precs:
            if prod == of_prod:
                found.append(("repeated %prec", name.start, name.end))
            of_prod = prod
        if self.middle:
            found.append(("action in a rule", self.middle.start, self.middle.end))
        return found

    def fault(self):
        """the first of these faults, as it is shown"""
        faults = sorted(self.faults(), key=lambda fault: fault[1])
        return self.shown_fault(*faults[0]) if faults else None

    def shown_fault(self, kind, start, end):
        return f"{kind} at byte {self.byte(start)}..{self.byte(end)}"

    def unknown(self, tokens):
        """the fault of the first name that isn't known, if there is one, as it is shown; these are the grammar's tokens"""
        levelled = {name.name for _, names in self.levels for name in names}
        names = [name for _, name in self.precs if name.name not in tokens and name.name not in levelled]
        names += [name for name in self.avoided if name.name not in tokens]
        first = min(names, key=lambda name: name.start, default=None)
        return first and self.shown_fault("unknown token", first.start, first.end)


def spaces(character):
    return "\n" if character == "\n" else " " * len(character.encode())
