"""Tries wrong bodies that the prover has to refuse, outside the gate: planted.sh [--built REPOSITORY] [--workers N] [CRATE | CRATE/EDIT]..

An edit is a file tools/planted/CRATE/EDIT.edit in the format of must-fail: a line 'file: src/..' and pairs of lines 'old: TEXT'
and 'new: TEXT', each old TEXT found once in that file. A line 'only: MODULE::FUNCTION', which must-fail passes over, names
what to check; there may be several. Without one it is each function that the edit changes.

An edit is tried by 'rattle check --only' of that, over the libraries in crates/*/out/rlib, which 'rt ci' leaves there, and so does
'./lrpar' of those that it needs. So nothing that is proved is proved again. They are those of this repository, or of a copy of it that
--built names, and have to be made of the sources that are here.

Edits that change the inside of one function each, all of different functions, share a check: none of them changes a contract, so each
function is refused for its own edit. Such an edit counts as refused if its function isn't proved by a reason that names the code; each
other one of that check is tried again alone. What passes alone is tried on the whole crate before it counts as not refused. At most N
checks go on side by side (four, if N isn't given), each over a copy of the crate's sources.

An edit that is refused only because a proof file names what it took away, or by no reason that is given, shows nothing of a
contract: it counts as failed, and the closing line names it.
"""
import argparse
import filecmp
import json
import os
import re
import shutil
import signal
import subprocess
import sys
import tempfile
from concurrent.futures import ThreadPoolExecutor, as_completed
from dataclasses import dataclass, field

ROOT = os.path.dirname(os.path.dirname(os.path.realpath(__file__)))
PLANTED = f"{ROOT}/tools/planted"
# The seconds that the check of one edit may take.
LIMIT = 1800
# The most edits that share a check.
SHARED = 8

FUNCTION = re.compile(r"( *)(?:pub(?:\(\w+\))? )?(?:const )?(?:unsafe )?fn (\w+)")
OWNER = re.compile(r"(?:unsafe )?impl\b|(?:pub(?:\(\w+\))? )?trait\b")
# What rattle prints of a place in a file.
PLACE = re.compile(r"(note: )?\S+:\d+:\d+:")
# What rattle prints of a function with a goal that it doesn't prove and nobody answers.
OPEN = re.compile(r"fn \S+: no proof: .*did not prove `")
# An error in a proof file that names what the edit took away, or in what cites that proof.
TAKEN_AWAY = re.compile(r"(note: )?(\./)?proofs/.*(has no field|is not in scope|has no `|was not admitted|, which was rejected,|rattle does not read)")
# What the try of an edit comes to: it is refused; it is, by a reason that shows nothing of a contract; or it isn't, or can't be tried.
REFUSED, UNSHOWN, FAILED = "refused", "unshown", "failed"
UNREAD = re.compile(r"is not in scope|has no field|is no name|operand is missing|expected the end|cannot continue")


class BadEdit(Exception):
    """Why an edit can't be tried."""


@dataclass
class Edit:
    crate: str
    name: str
    # What to check, if the edit says so.
    only: list
    # The texts of the files that it changes, by their path in the crate.
    texts: dict
    # Where it changes them: a path, the lines of that file and the line's number, a pair each.
    places: list
    # What it puts where: a path, the old text and the new one, a pair each.
    pairs: list
    # What --only is to name.
    names: list


# ---- Reading edits


def edits_named(words):
    """Returns the files of the edits that the words name, by crate, and the words that name none."""
    found, lost = {}, []
    for word in words or sorted(os.listdir(PLANTED)):
        crate, _, name = word.partition("/")
        name = name.removesuffix(".edit")
        folders = [f"{PLANTED}/{crate}", f"{ROOT}/crates/{crate}/must-fail"]
        if name:
            files = [it for it in (f"{folder}/{name}.edit" for folder in folders) if os.path.isfile(it)][:1]
        else:
            files = edit_files(folders[0])
        if not files:
            lost.append(word)
        found.setdefault(crate, []).extend(it for it in files if it not in found.get(crate, []))
    return found, lost


def edit_files(folder):
    """Returns the edits of a folder in the order of their names, none if there is no such folder."""
    names = sorted(os.listdir(folder)) if os.path.isdir(folder) else []
    return [f"{folder}/{it}" for it in names if it.endswith(".edit")]


def read_edit(file, crate):
    """Returns the edit of a file, as it applies to the crate."""
    edit = Edit(crate, os.path.basename(file).removesuffix(".edit"), [], {}, [], [], [])
    path, old = "", None
    for line in text_of(file).split("\n"):
        word, _, rest = line.partition(":")
        rest = rest.removeprefix(" ")
        if word == "file":
            path = rest.strip()
        elif word == "only":
            edit.only.append(rest.strip())
        elif word == "old":
            old = rest
        elif word == "new":
            apply(edit, path, old, rest)
            old = None
    if not edit.texts:
        raise BadEdit("it has no 'old:' and 'new:' pair")
    return edit


def apply(edit, path, old, new):
    """Puts the new text in place of the old one, which has to be found once in the file."""
    if not path.startswith(("src/", "specs/", "proofs/")):
        raise BadEdit("no 'file:' line names a file of src/, specs/ or proofs/")
    if not old:
        raise BadEdit("a 'new:' line has no 'old:' line")
    if path not in edit.texts:
        edit.texts[path] = text_of(f"{ROOT}/crates/{edit.crate}/{path}")
    text = edit.texts[path]
    if text.count(old) != 1:
        raise BadEdit(f"an 'old:' text is in {path} {text.count(old)} times, and not once")
    edit.places.append((path, text.split("\n"), text[: text.index(old)].count("\n")))
    edit.pairs.append((path, old, new))
    edit.texts[path] = text.replace(old, new)


def text_of(file):
    try:
        with open(file, encoding="utf-8") as it:
            return it.read()
    except (OSError, UnicodeDecodeError) as error:
        raise BadEdit(f"{os.path.relpath(file, ROOT)} can't be read") from error


# ---- What an edit changes


def names_to_check(edit, known):
    """Returns what --only is to name: what the edit says, or else the functions that it changes, of those that are known."""
    if edit.only:
        return edit.only
    found = [name for place in edit.places for name in names_at(edit.crate, place, known)]
    if not found:
        raise BadEdit("it changes no function: name what to check by a line 'only: MODULE::FUNCTION'")
    return list(dict.fromkeys(found))


def names_at(crate, place, known):
    """Returns the names under which a check knows the innermost function around the place, none outside of functions."""
    path, lines, at = place
    head = next((it for it in range(at, -1, -1) if is_within(lines, it, at)), None)
    if head is None or not path.startswith("src/"):
        return []
    indent, function = FUNCTION.match(lines[head]).groups()
    module = re.sub(r"^src/|\.rt$", "", path).replace("/", "::")
    module = crate if module in ("lib", "main") else f"{crate}::{module}"
    owner = owner_of(lines, head) if indent else ""
    # A check names a method by the module of its type, with the arguments of an impl for some types alone, and one of an impl for
    # a type without a name in a way of its own.
    patterns = [f"{module}::{owner}{function}", rf"{crate}::(?:\w+::)*{owner}{function}", rf"{module}::[+\w]+::{function}"]
    found = [[it for it in known if re.fullmatch(pattern, it)] for pattern in patterns]
    return next((it for it in found if it), [])


def is_within(lines, head, at):
    """Returns whether a function begins at the line of this number and hasn't ended before the other one, or in it."""
    function = FUNCTION.match(lines[head])
    if not function or f"{function[1]}}}" in lines[head:at]:
        return False
    return all(it.startswith(function[1]) for it in lines[head : at + 1] if it)


def owner_of(lines, at):
    """Returns a pattern of what comes before the name of a method: the type, and the trait with the type that it is for."""
    start = next((it for it in range(at, -1, -1) if OWNER.match(lines[it])), at)
    end = next((it for it in range(start, at) if lines[it].endswith("{")), at)
    head = " ".join(lines[start : end + 1]).replace("->", " ")
    argument = re.search(r"<(?:[^<>]*\W)?(\w+)(?:<[^<>]*>)?> for ", head)
    while "<" in head:
        head, was = re.sub(r"<[^<>]*>", "", head), head
        if head == was:
            break
    words = re.sub(r"^.*?\b(?:impl|trait)\b|\bwhere\b.*|(?<!:):(?!:).*|\{.*", "", head).split(" for ")
    kind, trait = ["".join(re.findall(r"\w+", it)[-1:]) for it in (words[-1], words[0])]
    kind = kind[:1].upper() + kind[1:]
    if len(words) == 1:
        return f"{kind}(?:\\+[+\\w]+)?::"
    return f"{kind}{trait}(?:{argument[1]})?::" if argument else f"{kind}{trait}\\w*::"


# ---- Which edits share a check


def stays_inside(edit):
    """Returns whether the edit changes the inside of one function, and nothing of what others know of it."""
    if edit.only or len(edit.names) != 1 or any(re.search(r"\bfn |/\*|\*/|\bghost\b", new) for _, _, new in edit.pairs):
        return False
    return all(path.startswith("src/") and is_inside(lines, at) for path, lines, at in edit.places)


def is_inside(lines, at):
    """Returns whether the line of this number is one of the body of a function."""
    head = next((it for it in range(at, -1, -1) if is_within(lines, it, at)), None)
    if head is None:
        return False
    opened = f"{FUNCTION.match(lines[head])[1]}{{"
    start = next((it for it in range(head, at) if lines[it] == opened or (it == head and lines[it].endswith(" {"))), None)
    return start is not None


def grouped(edits):
    """Returns the edits in groups, each for one check, in the order of their first ones."""
    groups = []
    for edit in edits:
        group = next((it for it in groups if stays_inside(edit) and can_join(it, edit)), None)
        if group is None:
            groups.append([edit])
        else:
            group.append(edit)
    return groups


def can_join(group, edit):
    """Returns whether the edit can be tried with those of a group."""
    if len(group) >= SHARED or not all(stays_inside(it) for it in group):
        return False
    if any(it.names == edit.names for it in group):
        return False
    return joined_texts([*group, edit]) is not None


def joined_texts(edits):
    """Returns the texts of the files that the edits change, by their path, and none if an old text is no longer found there once."""
    texts = {}
    for edit in edits:
        for path, old, new in edit.pairs:
            text = texts.get(path) or text_of(f"{ROOT}/crates/{edit.crate}/{path}")
            if text.count(old) != 1:
                return None
            texts[path] = text.replace(old, new)
    return texts


# ---- Checks


@dataclass
class Built:
    """The libraries of a repository, as they were built."""

    # The repository in whose crates they are.
    repository: str
    # By crate, what its line of crates.txt names: crates of the repository, and libraries of the kit.
    uses: dict = field(default_factory=dict)
    # The folder of the kit.
    kit: str = ""

    def read(self):
        """Reads crates.txt, and where the kit is."""
        for line in text_of(f"{ROOT}/crates.txt").split("\n"):
            name, _, uses = line.partition("#")[0].partition(":")
            if name.strip():
                self.uses[name.split()[0]] = uses.split()
        self.kit = os.path.dirname(subprocess.run(["rt", "doc"], capture_output=True, text=True, check=True).stdout.strip())

    def rlib(self, crate):
        return f"{self.repository}/crates/{crate}/out/rlib/{crate}.rlib"

    def below(self, crate):
        """Returns the crates of the repository that this one needs."""
        found = dict.fromkeys(it for it in self.uses.get(crate, []) if it in self.uses)
        for name in list(found):
            found |= dict.fromkeys(self.below(name))
        return list(found)

    def missing(self, crate):
        """Returns why nothing can be tried on the crate, and nothing if all that it needs is built."""
        if not os.path.isdir(f"{ROOT}/crates/{crate}/src"):
            return "there is no such crate"
        for name in [crate, *self.below(crate)]:
            if not os.path.isfile(f"{self.rlib(name)}/toolchain/mir.json"):
                return f"{name} isn't built in {self.repository}: run rt ci there, or rt lib in crates/{name}"
            if not all(self.is_of_here(name, part) for part in ("specs", "proofs")):
                return f"{name} was built of other files than those here: run rt ci, or rt lib in crates/{name}"
        return ""

    def is_of_here(self, crate, part):
        """Returns whether the library has the files that are here in this folder (the text of src/ isn't kept in it)."""
        built = f"{self.rlib(crate)}/lang/antt/{part}"
        here = f"{ROOT}/crates/{crate}/{part}"
        return files_below(built) == files_below(here) and all(
            filecmp.cmp(f"{built}/{it}", f"{here}/{it}", shallow=False) for it in files_below(here)
        )

    def functions(self, crate):
        """Returns the names of the crate's functions, as a check prints them."""
        text = text_of(f"{self.rlib(crate)}/toolchain/mir.json")
        return [it[0] for it in json.JSONDecoder().raw_decode(text)[0]]

    def words(self, crate, only):
        """Returns the command that checks these functions of the crate in the current folder, or all if there are none."""
        kit = self.kit
        words = [f"{kit}/bin/rattle", "check", "--crate-name", crate, "src/lib.rt"]
        for name in ["std", *self.uses[crate]]:
            words += ["--extern", f"{name}={self.rlib(name) if name in self.uses else f'{kit}/rlibs/{name}.rlib'}"]
        for folder in [f"{kit}/rlibs", *(os.path.dirname(self.rlib(it)) for it in self.below(crate))]:
            words += ["-L", f"dependency={folder}"]
        words += ["--antt-project", f"{kit}/rattle/logic/antt-project.json", "--logic-built", f"{kit}/logic_built"]
        words += ["--jobs", "1", "--links", f"{crate}="]
        return words + [word for it in only for word in ("--only", it)]


def files_below(folder):
    """Returns the files of a folder, but for the lists of modules, which a library hasn't."""
    found = [os.path.relpath(f"{at}/{name}", folder) for at, _, names in os.walk(folder) for name in names]
    return sorted(it for it in found if it != "Lib.antt")


def check(built, crate, texts, only=()):
    """Returns the status of a check of these functions of the crate with these texts in place of its own, none after too long a time, and
    the messages that it printed."""
    with tempfile.TemporaryDirectory(prefix="planted-") as room:
        for part in ("src", "specs", "proofs"):
            if os.path.isdir(f"{ROOT}/crates/{crate}/{part}"):
                shutil.copytree(f"{ROOT}/crates/{crate}/{part}", f"{room}/{part}")
        for path, text in texts.items():
            with open(f"{room}/{path}", "w", encoding="utf-8") as it:
                it.write(text)
        how = {"cwd": room, "stdin": subprocess.DEVNULL, "stdout": subprocess.PIPE, "stderr": subprocess.STDOUT}
        with subprocess.Popen(built.words(crate, only), **how, text=True, errors="replace") as ran:
            try:
                said, _ = ran.communicate(timeout=LIMIT)
            except subprocess.TimeoutExpired:
                ran.terminate()
                return None, messages_of(ran.communicate()[0])
            return ran.returncode, messages_of(said)


def messages_of(said):
    """Returns the messages of what a check printed, each on one line: the further lines of one are indented."""
    messages = []
    for line in said.rstrip("\n").split("\n"):
        if messages and line.startswith("  "):
            messages[-1] += f" {line.strip()}"
        else:
            messages.append(line)
    return messages


def try_edit(edit, built):
    """Returns what the try of the crate with this edit comes to, and what to say."""
    verdict, text = judged(edit, *check(built, edit.crate, edit.texts, edit.names))
    if verdict is None:
        verdict, text = judged(edit, *check(built, edit.crate, edit.texts))
        text = f"refused, but not by {', '.join(edit.names)}{text.removeprefix('refused')}" if verdict == REFUSED else text
    return verdict or FAILED, text


def try_group(group, built):
    """Returns by the edits' names what to say of those that the prover refuses by one check of them all."""
    texts = joined_texts(group)
    status, lines = check(built, group[0].crate, texts, [it.names[0] for it in group])
    if status != 1 or any(is_unread(it, texts) for it in lines):
        return {}
    return {edit.name: said for edit in group for said in [reason_of(edit.names[0], lines)] if said}


def reason_of(name, lines):
    """Returns by which reason the function of this name isn't proved, by a place in the code or in the function's own proof files. It is
    nothing if there is none, or if only names are missing there that the edit took away."""
    end = next((at for at, it in enumerate(lines) if it.startswith(f"fn {name}: not proved") or it.startswith(f"fn {name}: no proof")), None)
    if end is None:
        return ""
    start = next((at for at in range(end - 1, -1, -1) if re.match(r"fn \S+: ", lines[at])), -1)
    own = f"proofs/{'/'.join(name.split('::')[1:])}/"
    reasons = [it for it in lines[start + 1 : end] if re.match(r"(?:note: )?src/\S+:\d+:\d+:", it)]
    reasons += [it for it in lines if it.removeprefix("./").startswith(own) and ": error" in it]
    return refusal_by(reasons + [it for it in lines[end : end + 1] if OPEN.match(it)])


def refusal_by(reasons):
    """Returns what to say of an edit that is refused for these reasons, and nothing if each only names what it took away."""
    shown = [it for it in reasons if not TAKEN_AWAY.match(it)]
    beside = "" if len(shown) == len(reasons) else ", beside names that it takes away"
    return f"refused{beside}: {shown[0][:160]}" if shown else ""


def judged(edit, status, lines):
    """Returns what a check with the edit comes to, none if it passed, and what to say."""
    ends = [it for it in lines if re.match(r"only=|logic=|rattle: no verdict", it)]
    bad = next((it for it in lines if is_unread(it, edit.texts)), "")
    if bad:
        return FAILED, f"BAD EDIT: the prover can't read the edited text, so no contract was tried: {bad[:160]}"
    if status == 0:
        return None, "NOT REFUSED"
    if status != 1 or not ends or not ends[-1].startswith(("only=", "logic=not-proved")):
        why = "it took too long" if status is None else f"status {status}"
        said = next((it for it in lines if "error" in it), lines[-1])
        return FAILED, f"BAD EDIT: the check came to no verdict ({why}): {said[:160]}"
    reasons = [it for it in lines if PLACE.match(it) and (": error" in it or it.startswith("note: "))]
    reasons += [it for it in lines if OPEN.match(it)]
    if refusal_by(reasons):
        return REFUSED, refusal_by(reasons)
    if reasons:
        return UNSHOWN, f"REFUSED BY A NAME ALONE: a proof file names what the edit took away: change a value and keep the names: {reasons[0][:300]}"
    return UNSHOWN, "REFUSED BY NO REASON that is given"


def is_unread(line, changed):
    """Returns whether the line says that a text of src/, of specs/ or of an edited file can't be read."""
    at = re.match(r"(?:\./)?(\S+?):\d+:\d+: error: (?:(`[^`]*`): )?(.*)", line)
    if not at or at[1] not in changed and not at[1].startswith(("src/", "specs/")):
        return False
    return not at[2] or bool(UNREAD.search(re.sub(r"`[^`]*`", "", at[3])))


# ---- The whole


def read_edits(crate, files, known):
    """Returns the edits of the files, and says of each other one why it can't be tried."""
    edits = []
    for file in files:
        try:
            edit = read_edit(file, crate)
            edit.names = names_to_check(edit, known)
            edits.append(edit)
        except BadEdit as why:
            say(f"{crate}/{os.path.basename(file).removesuffix('.edit')}: BAD EDIT: {why}")
    return edits


def try_edits(group, built):
    """Tries the edits of a group, says of each what came of it, and returns the verdicts by what names the edits."""
    verdicts = {}
    shared = try_group(group, built) if len(group) > 1 else {}
    for edit in group:
        label = f"{edit.crate}/{edit.name}"
        verdicts[label], text = (REFUSED, shared[edit.name]) if edit.name in shared else try_edit(edit, built)
        say(f"{label}: {text}")
    return verdicts


def say(text):
    print(text, flush=True)


def main():
    words = argparse.ArgumentParser(prog="planted.sh", description="Tries wrong bodies that the prover has to refuse.")
    words.add_argument("--workers", type=int, default=4, metavar="N", help="how many checks go on side by side (4)")
    words.add_argument("edits", nargs="*", metavar="CRATE | CRATE/EDIT", help="whose edits, or which one; each crate's, if there is none")
    words.add_argument("--built", default=ROOT, metavar="REPOSITORY", help="in which copy of the repository the libraries are built (this one)")
    given = words.parse_args()
    # (so that the copies are removed)
    signal.signal(signal.SIGTERM, lambda *_: sys.exit(1))
    found, lost = edits_named(given.edits)
    for word in lost:
        say(f"{word}: NOT TRIED: there is no such edit")
    built = Built(os.path.abspath(given.built))
    built.read()
    groups = []
    for crate, files in found.items():
        why = built.missing(crate) if files else ""
        if why:
            say(f"{crate}: NOT TRIED: {why}")
        elif files:
            groups += grouped(read_edits(crate, files, built.functions(crate)))
    verdicts = {}
    pool = ThreadPoolExecutor(max(given.workers, 1))
    try:
        for it in as_completed([pool.submit(try_edits, it, built) for it in groups]):
            verdicts |= it.result()
    finally:
        # (after a signal those that are being tried still end)
        pool.shutdown(cancel_futures=True)
    passed = list(verdicts.values()).count(REFUSED)
    failed = sum(len(it) for it in found.values()) + len(lost) - passed
    unshown = sorted(label for label, verdict in verdicts.items() if verdict == UNSHOWN)
    shown = f", of which these show nothing of a contract: {' '.join(unshown)}" if unshown else ""
    say(f"{passed} passed, {failed} failed{shown}")
    return 1 if failed else 0


if __name__ == "__main__":
    sys.exit(main())
