"""Reads wrong bodies, and puts them into rounds: in one as many as leave each other alone.

An edit is a file crates/NAME/edits/WHAT.edit with the lines 'file:', a path in the crate, and behind it pairs of lines
'old:' and 'new:'. The text behind 'old:' stands in its file just once, after the pairs before it. A line 'each run:'
says that a kept result doesn't count, and why. No other line is read.
"""
from __future__ import annotations

import dataclasses
import glob
import os
import re

from lib.values import present

FUNCTION = re.compile(r"( *)(?:pub(?:\([^)]*\))? )?(const )?(?:unsafe )?fn (\w+)")
BLOCK = re.compile(r"impl(?:<(?:[^<>]|<(?:[^<>]|<[^<>]*>)*>)*>)? (?:(.+) for )?(.+?)(?: where.*)?(?: \{)?$")
LINE = re.compile(r"(?m)^(?:file: (.*)|old: (.*)\nnew: ?(.*))$")


def read(path: str) -> str:
    """Returns the text of a file, or none where there is no such file."""
    if not os.path.isfile(path):
        return ""
    with open(path, encoding="utf-8") as file:
        return file.read()


@dataclasses.dataclass(frozen=True)
class Function:
    """A function that an edit changes: its path in the crate, and the folder of its proof, which a cycle shares."""

    path: str
    proof: str


def names_in(text: str | None) -> str:
    """Returns the last names of the paths in a type or trait, one behind the other, as the prover writes an impl."""
    return "".join(word.split("::")[-1] for word in re.findall(r"(?<!')\b[\w:]+", text or ""))


def module_of(path: str) -> str:
    """Returns the module of a file below src/, as it stands before a name: nothing for the crate's root."""
    inside = path.removeprefix("src/").removesuffix(".rt")
    return "" if inside in ("lib", "main") else inside.replace("/", "::") + "::"


def module_with(folder: str, name: str) -> str | None:
    """Returns the module of a crate that defines a type, or None where no file does, or several do."""
    paths = glob.glob(f"{folder}/src/**/*.rt", recursive=True)
    found = [path for path in paths if re.search(rf"(?m)^(?:pub(?:\([^)]*\))? )?(?:struct|enum) {name}\b", read(path))]
    return module_of(os.path.relpath(found[0], folder)) if len(found) == 1 else None


def function_at(folder: str, path: str, text: str, first: int, last: int) -> Function | None:
    """Returns the function whose body has these places of a file, or None where more than one body may depend on them."""
    rows = text.split("\n")
    first, last = text.count("\n", 0, first), text.count("\n", 0, last)
    at = next((row for row in range(first, -1, -1) if FUNCTION.match(rows[row])), None)
    if at is None or not path.startswith("src/"):
        return None
    indent, is_const, name = present(FUNCTION.match(rows[at])).groups()
    block = block_above(folder, path, rows[:at]) if indent else module_of(path)
    if is_const or block is None or indent not in ("", "    "):
        return None
    body = body_of(rows, at, indent)
    is_inside = body.start < first <= last < body.stop
    if not is_inside or "-> impl" in " ".join(rows[at : body.start + 1]) or any(map(FUNCTION.match, rows[body.start + 1 : body.stop])):
        return None
    cycle = re.search(r"#\[cycle\((\w+)\)\]", " ".join(rows[max(at - 2, 0) : at]))
    return Function(block + name, block + (f"+{cycle[1]}" if cycle else name))


def block_above(folder: str, path: str, rows: list[str]) -> str | None:
    """Returns what the prover puts before the functions of the impl that is open behind these rows.

    That of a trait is named after the module that it stands in, and one without a trait after the type's.
    """
    opening = next((row for row in reversed(rows) if re.match(r"\S", row) and row[0] not in "})]#/"), "")
    found = BLOCK.match(opening)
    if not found:
        return None
    name = names_in(found[2].partition("<")[0])
    module = module_of(path) if found[1] else module_with(folder, name)
    return None if module is None else f"{module}{name}{names_in(found[1])}::"


def body_of(rows: list[str], at: int, indent: str) -> range:
    """Returns the rows of a function's body, from that which opens it to that which closes it, as `rt fmt` lays it out."""

    def is_end(row: int) -> bool:
        return rows[row] == indent + "}" or row == at and rows[row].endswith((";", "}"))

    def is_start(row: int) -> bool:
        return rows[row] == indent + "{" or rows[row].endswith("{") and (row == at or rows[row].startswith(indent + ")"))

    end = next((row for row in range(at, len(rows)) if is_end(row)), at)
    return range(next((row for row in range(at, end) if is_start(row)), end), end)


class Edit:
    """A wrong body: its pairs of texts, the functions that they change, and why it can't be written, where it can't."""

    def __init__(self, path: str) -> None:
        self.folder = os.path.dirname(os.path.dirname(path))
        self.name = f"{os.path.basename(self.folder)}/{os.path.basename(path).removesuffix('.edit')}"
        self.text = read(path)
        self.pairs: list[tuple[str, str, str]] = []
        self.functions: set[Function] = set()
        self.changes_more = False
        self.is_of_each_run = bool(re.search(r"(?m)^each run: \S", self.text))
        file = ""
        for named, old, new in LINE.findall(self.text):
            file = named.strip() or file
            if old:
                self.pairs.append((file, old, new))
        self.fault = self.apply({}) if any(old != new for _, old, new in self.pairs) else "no pair of texts changes something"

    def apply(self, texts: dict[str, str]) -> str | None:
        """Writes the edit into the texts of a crate's files, those that aren't read yet too; returns why it can't."""
        for file, old, new in self.pairs:
            text = texts[file] if file in texts else read(f"{self.folder}/{file}")
            if text.count(old) != 1:
                return f"this stands in {file} {text.count(old)} times: {old.strip()[:60]}"
            self.note_function(file, text, old, new)
            texts[file] = text.replace(old, new)
        return None

    def note_function(self, file: str, text: str, old: str, new: str) -> None:
        """Notes which function a pair changes, by the places at which the texts differ."""
        front = len(os.path.commonprefix([old, new]))
        back = len(os.path.commonprefix([old[front:][::-1], new[front:][::-1]]))
        at = text.index(old)
        function = function_at(self.folder, file, text, at + front, at + len(old) - back)
        if function:
            self.functions.add(function)
        else:
            self.changes_more = True

    @property
    def proofs(self) -> set[str]:
        """Returns the proofs that the edit breaks, which no other edit of its round may break too."""
        return {function.proof for function in self.functions}


def edits_of(top: str, crate: str) -> list[Edit]:
    """Returns the edits of a crate, by name."""
    return [Edit(path) for path in sorted(glob.glob(f"{top}/crates/{crate}/edits/*.edit"))]


def can_join(edit: Edit, others: list[Edit]) -> bool:
    """Tests whether an edit can be tried in one check with others: each changes bodies of its own, and their texts don't meet."""
    if edit.changes_more or any(it.changes_more or it.proofs & edit.proofs for it in others):
        return False
    texts: dict[str, str] = {}
    return not any([it.apply(texts) for it in [*others, edit]])


def rounds_of(edits: list[Edit]) -> list[list[Edit]]:
    """Puts edits into rounds, each into the first that it can join."""
    rounds: list[list[Edit]] = []
    for edit in edits:
        joined = next((others for others in rounds if can_join(edit, others)), None)
        if joined is None:
            rounds.append([edit])
        else:
            joined.append(edit)
    return rounds
