"""Reads the definitions of all crates' specs, and the clauses of their functions, and finds what a clause reaches."""
from __future__ import annotations

import dataclasses
import glob
import os
import re
from collections.abc import Iterable, Iterator
from typing import Optional

from lib.values import present

WORD = re.compile(r"[A-Za-z_][\w'-]*(?:\.[A-Za-z_][\w'-]*)*")
USE = re.compile(r"(?:pub )?(?:ghost )?use (Rattle[\w.+]*?)(?:\.\{(.*?)\})?(?: as (\w+))?;?$")
# Where each name comes from: a module, and its name there, or None where it is the module.
Names = dict[str, tuple[str, Optional[str]]]
HEAD = re.compile(r"((?:(?:abbrev|pub|unfoldable|opaque|data|record|codata|mutual)\s+)*)([^\s(){}:;]+)")


@dataclasses.dataclass
class Definition:
    """A definition of a file of specs/: its lines without comments, its comment, and the names that it may use."""

    crate: str
    file: str
    name: str
    kind: str
    comment: str
    lines: list[str]
    names: Names

    def place(self) -> tuple[str, str]:
        return self.file, self.name


@dataclasses.dataclass(frozen=True)
class Outside:
    """A name that no file of specs/ defines: a type of the code, or a definition of the toolchain's."""

    module: str
    name: str


def uses_in(lines: list[str]) -> Names:
    """Returns where each name comes from that the `use` items of these lines bring: a module, and its name there or None."""
    names: Names = {}
    for line in lines:
        found = USE.match(line.strip())
        if not found:
            continue
        module, listed, alias = found.groups()
        for part in (listed or "").split(","):
            name, _, other = part.strip().partition(" as ")
            if name:
                names[other or name] = (module, name)
        if not listed:
            names[alias or module.split(".")[-1]] = (module, None)
    return names


class Book:
    """All definitions of a repository."""

    def __init__(self, top: str) -> None:
        self.top = top
        self.modules: dict[str, dict[str, Definition]] = {}
        self.heads: dict[str, str] = {}
        for path in sorted(glob.glob(f"{top}/crates/*/specs/**/*.antt", recursive=True)):
            crate, _, rest = os.path.relpath(path, f"{top}/crates").partition("/specs/")
            module = f"Rattle.{crate}.specs.{rest.removesuffix('.antt').replace('/', '.')}"
            with open(path, encoding="utf-8") as file:
                self.read(module, crate, os.path.relpath(path, top), file.read().split("\n"))

    def read(self, module: str, crate: str, path: str, lines: list[str]) -> None:
        """Takes in a file: the comment at its head, and its definitions by their names; constructors lead to their type.

        The name of a record's member leads nowhere: whoever takes a member of a value names the value's type, or a
        definition whose type names it, and often a variable has the member's name.
        """
        named, is_inner = self.modules.setdefault(module, {}), False
        names, is_head = uses_in(lines), True
        comment: list[str] = []
        current: Definition | None = None
        self.heads[path] = lines[0].removeprefix("-- ")
        for line in lines:
            # What stands in a module with parameters, or is defined together, is two blanks further in.
            text = line.removeprefix("  ") if is_inner else line
            if not text.strip():
                comment = []
            elif text.startswith("module "):
                is_inner, comment = True, []
            elif re.fullmatch(r"(?:abbrev )?mutual", text):
                is_inner = True
            elif text.lstrip().startswith("--"):
                comment = [] if is_head else comment + [text.lstrip().removeprefix("--").strip()]
            elif USE.match(text.strip()) or text.startswith("pub mod "):
                is_head = False
            elif text[0] == " " or not HEAD.match(text):
                current = present(current)
                current.lines.append(text)
                member = re.match(r"\s+(?:pub )?([\w'-]+)\s*:", text)
                if member and current.kind == "data":
                    named.setdefault(member[1], current)
            else:
                is_head = False
                is_inner = is_inner and line.startswith("  ")
                words, name = present(HEAD.match(text)).groups()
                if current is None or name != current.name:
                    kind = next((word for word in ("data", "record") if word in words.split()), "")
                    current = named.get(name) or Definition(crate, path, name, kind, " ".join(comment), [], names)
                    named[name] = current
                current.lines.append(text)
                comment = []

    def find(self, module: str, name: str, seen: tuple[str, ...] = ()) -> Definition | Outside:
        """Returns what a name of a module is, behind what the module itself takes from others."""
        known = self.modules.get(module)
        if known is None:
            return Outside(module, name)
        if name in known:
            return known[name]
        passed_on = next((one.names[name] for one in known.values() if name in one.names), None)
        if passed_on and module not in seen:
            return self.find(passed_on[0], passed_on[1] or name, (*seen, module))
        return Outside(module, name)

    def named(self, text: str, names: Names, module: str | None = None) -> Iterator[Definition | Outside]:
        """Yields what the words of a text name, by these names and those of a module."""
        for word in set(WORD.findall(text)):
            first, _, rest = word.partition(".")
            if module and first in self.modules[module]:
                yield self.modules[module][first]
            elif first in names:
                source, name = names[first]
                if name or rest:
                    yield self.find(source, name or rest.split(".")[0])

    def reach(self, text: str, names: Names) -> tuple[dict[tuple[str, str], Definition], set[Outside]]:
        """Returns all definitions that a text reaches, and the names outside of specs/."""
        reached: dict[tuple[str, str], Definition] = {}
        outside: set[Outside] = set()
        todo = list(self.named(text, names))
        while todo:
            one = todo.pop()
            if isinstance(one, Outside):
                outside.add(one)
            elif one.place() not in reached:
                reached[one.place()] = one
                module = f"Rattle.{one.crate}.specs.{one.file.partition('/specs/')[2].removesuffix('.antt').replace('/', '.')}"
                todo += self.named("\n".join(one.lines), one.names, module)
        return reached, outside


@dataclasses.dataclass
class Clauses:
    """The clauses of a function that were asked for, as they stand, and the names that they may use."""

    file: str
    texts: list[str]
    names: Names


def blocks_at(lines: list[str], start: int) -> dict[str, list[str]]:
    """Returns the clauses behind the head of a function, up to its body, each with its comment aside, by their names."""
    found: dict[str, list[str]] = {}
    current: str | None = None
    for line in lines[start + 1 :]:
        text = line.strip()
        if text in ("{", "{}") or text.startswith("fn "):
            break
        begun = re.match(r"(?:ensures|requires)\*?(?: ([\w]+))? \{", text)
        if begun:
            current = begun[1] or ""
            found[current] = [text]
        elif current is not None and text and not text.startswith("//"):
            found[current].append("    " + text)
    return found


def clauses_of(top: str, crate: str, path: str, wanted: Iterable[str]) -> Clauses:
    """Returns the clauses of these names of a crate's public function; the path may be `Type::name` or `module::name`."""
    owner, _, name = path.rpartition("::")
    for file in sorted(glob.glob(f"{top}/crates/{crate}/src/**/*.rt", recursive=True)):
        with open(file, encoding="utf-8") as code:
            lines = code.read().split("\n")
        inside: str | None = None
        for number, line in enumerate(lines):
            if re.match(r"(?:impl|pub trait|trait)\b", line):
                inside = re.sub(r"<.*?>", "", line).split(" for ")[-1].split()[-2 if line.endswith("{") else -1].rstrip(":")
            elif line.startswith("}"):
                inside = None
            if re.match(rf"\s*(?:pub )?fn {name}\b", line) and owner in ("", inside, os.path.basename(file).removesuffix(".rt")):
                blocks = blocks_at(lines, number)
                if all(one in blocks for one in wanted):
                    return Clauses(os.path.relpath(file, top), ["\n".join(blocks[one]) for one in wanted], uses_in(lines))
    raise SystemExit(f"no function {path} of {crate} has the clauses {' '.join(wanted)}")
