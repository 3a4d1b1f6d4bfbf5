"""The edits of must-fail/, which change one body each, and where the prover refuses them.

An edit begins with two lines, which rt passes over: what it changes, in plain words, and the function and the goal at which the
prover refuses it.

    # The next birth is the number of entries.
    # refused at Store::add, returns-clause-state

Then come lines 'file: src/..', 'old: ..' and 'new: ..', as rt has them.
"""
import functools
import pathlib
import re
from typing import NamedTuple

from crates import crates_of

ROOT = pathlib.Path(__file__).resolve().parent.parent
WORDS = re.compile(r"# (\S.*)")
PLACE = re.compile(r"# refused at (\S+), (\S+)")
IN_SOURCE = re.compile(r"(?:note: )?(?:\./)?(src/\S+?):(\d+):\d+: (.*)")
IN_PROOF = re.compile(r"(?:note: )?(?:\./)?(proofs/\S+?\.antt):\d+:\d+: (.*)")
GOAL = re.compile(r"(?:\(|error: )`([\w-]+)(`|$)")
FUNCTION = re.compile(r"( *)(?:pub(?:\(\w+\))? )?(?:const )?(?:final )?fn (\w+)")
BLOCK = re.compile(r"(?:impl|pub trait|trait)\b.*")
ITEM = re.compile(r"(?:pub(?:\(\w+\))? )?(?:struct|enum|fn) (\w+)")
TYPE = re.compile(r"(?:pub(?:\(\w+\))? )?(?:struct|enum|trait|type) (\w+)")


class Edit(NamedTuple):
    """An edit, what it changes, and where it tells that it is refused."""

    path: pathlib.Path
    words: str
    function: str
    goal: str

    @property
    def crate(self):
        return self.path.parts[-3]

    @property
    def name(self):
        return self.path.stem


def read_edit(path):
    """The edit of a file, with empty fields for what it doesn't tell."""
    lines = path.read_text().split("\n")
    place = next((it for it in map(PLACE.fullmatch, lines) if it), None)
    words = next((it for it in map(WORDS.fullmatch, lines) if it and not PLACE.fullmatch(it[0])), None)
    return Edit(path, words[1] if words else "", *(place.groups() if place else ("", "")))


def crates():
    """The crates, in the order of crates.txt."""
    return list(crates_of((ROOT / "crates.txt").read_text().split("\n")))


def edits_of(names):
    """The edits of these crates."""
    for crate in names:
        for path in sorted((ROOT / "crates" / crate / "must-fail").glob("*.edit")):
            yield read_edit(path)


def head_at(lines, at):
    """What stands before the brace of the block that begins at a line."""
    return " ".join(it.strip() for it in lines[at:]).partition("{")[0]


def type_of(head):
    """The type of an impl block or a trait, by its head."""
    head = re.sub(r"^(?:pub )?(?:impl|trait)", "", head).lstrip()
    if head.startswith("<"):
        head = after_brackets(head)
    if " for " in head:
        head = head.partition(" for ")[2]
    head = re.sub(r"^(?:&|\s|'\w+ |mut |dyn )*", "", head)
    unnamed = {"(": "tuple", "[": "array"}
    return unnamed.get(head[:1]) or re.match(r"\w+", head)[0]


def after_brackets(text):
    """What stands behind the angle brackets with which a text begins."""
    depth = 0
    for at, sign in enumerate(text):
        depth += (sign == "<") - (sign == ">")
        if depth == 0:
            return text[at + 1 :]
    return ""


def function_at(lines, number):
    """The function in which a line stands, or which an attribute is for, or else the type whose block it is in, or the item that
    follows it."""
    at = min(number, len(lines)) - 1
    while lines[at].lstrip().startswith("#["):
        at += 1
    while at >= 0:
        found = FUNCTION.match(lines[at])
        if found and not found[1]:
            return found[2]
        if found:
            block = next((it for it in reversed(range(at)) if BLOCK.match(lines[it])), None)
            return found[2] if block is None else f"{type_of(head_at(lines, block))}::{found[2]}"
        if BLOCK.match(lines[at]):
            return type_of(head_at(lines, at))
        if lines[at].startswith("}") and at < number - 1:
            break
        at -= 1
    below = next((it for it in map(ITEM.match, lines[at + 1 :]) if it), None)
    return below[1] if below else ""


@functools.cache
def types_of(crate):
    """The names of a crate's types, and of those that it implements traits for."""
    files = [path.read_text().split("\n") for path in (ROOT / "crates" / crate / "src").rglob("*.rt")]
    blocks = {type_of(head_at(lines, at)) for lines in files for at, line in enumerate(lines) if BLOCK.match(line)}
    return blocks | {found[1] for lines in files for found in map(TYPE.match, lines) if found}


def type_of_folder(crate, folder):
    """The type whose name a proof's folder has: the longest, as arguments or the words of a trait follow: Row+T, RowFind."""
    name = folder.partition("+")[0]
    begun = [it for it in types_of(crate) if re.match(rf"{it}(?![a-z])", name)]
    return max(begun, key=len, default=name)


def function_of_name(crate, words):
    """The function that the prover names by these words, as gc, family, PairFamily and len name Pair::len."""
    *before, last = words
    types = [type_of_folder(crate, it) for it in before if it[0].isupper()]
    return "::".join([*types, last.partition("+")[0]])


def function_of_proof(crate, path):
    """The function of whose proof this is a file, or else the file, where it is one of lemmas."""
    _, *folders, _ = path.split("/")
    return function_of_name(crate, folders) if folders else path


def place_of(crate, said):
    """The function that refused an edit, and the goal, by what rt says of it. It cuts that off at 160 characters."""
    found = GOAL.search(said)
    goal = (found[1] if found[2] else f"{found[1]}..") if found else ""
    source, proof = IN_SOURCE.match(said), IN_PROOF.match(said)
    if source:
        lines = (ROOT / "crates" / crate / source[1]).read_text().split("\n")
        return function_at(lines, int(source[2])), goal
    return (function_of_proof(crate, proof[1]), goal) if proof else ("", goal)
