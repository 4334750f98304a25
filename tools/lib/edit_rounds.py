"""Checks a crate with wrong bodies in it, and judges what the prover says of each."""
from __future__ import annotations

import dataclasses
import enum
import glob
import hashlib
import os
import re
import shutil
import subprocess
import tempfile

from lib.edits import Edit, Function, read

PARTS = ("src", "specs", "proofs")
TOLD = re.compile(r"(?:\./)?((?:src|specs|proofs)/\S+?):\d+:\d+: (error.*)")
# What is said of a name that the edit took away, and of a proof that rests on one.
GONE = re.compile(r"has no field|is not in scope|has no `|was not admitted")
FAILS = re.compile(rf"fn .*: expected answers in \./(\S+)/\w+\.antt|(?:\./)?(proofs\S*)/\w+\.antt:\d+:\d+: error(?!.*(?:{GONE.pattern}))")


class Kind(enum.Enum):
    """What trying an edit comes to. LEANS is no end: a function isn't proved, and no goal of its own is open."""

    REFUSED = "REFUSED"
    PROVED = "PROVED"
    BAD = "BAD"
    NOT_TRIED = "NOT TRIED"
    LEANS = "LEANS"


@dataclasses.dataclass(frozen=True)
class Verdict:
    kind: Kind
    why: str


@dataclasses.dataclass(frozen=True)
class Said:
    """What a check said: its status, and its lines."""

    status: int
    lines: list[str]


def answer_of(word: str) -> str:
    return subprocess.run(["rt", word], capture_output=True, text=True, check=True).stdout.strip()


class Crates:
    """The crates of a tree, with the libraries that a gate left in their folders out/."""

    def __init__(self, top: str) -> None:
        self.top, self.kit, self.toolchain = top, os.path.dirname(answer_of("doc")), answer_of("version")
        lines = re.findall(r"(?m)^(\w+)[^:#\n]*:(.*)$", read(f"{top}/crates.txt"))
        self.uses = {name: uses.split() for name, uses in lines}

    def library(self, name: str) -> str:
        return f"{self.top}/crates/{name}/out/rlib/{name}.rlib" if name in self.uses else f"{self.kit}/rlibs/{name}.rlib"

    def below(self, name: str) -> list[str]:
        """Returns the crates of the tree that a crate stands on, each before those that use it."""
        return list(dict.fromkeys(it for dep in self.uses[name] if dep in self.uses for it in [*self.below(dep), dep]))

    def files(self, name: str) -> list[str]:
        """Returns the files and folders that a crate is proved from."""
        paths = (it for part in PARTS for it in glob.glob(f"{self.top}/crates/{name}/{part}/**", recursive=True))
        # A folder that isn't there is given as a path, too.
        return sorted(filter(os.path.exists, paths))

    def size(self, name: str) -> int:
        """Returns how many bytes a crate and those below it have: about what a check of it costs."""
        return sum(os.path.getsize(path) for it in [*self.below(name), name] for path in self.files(it) if os.path.isfile(path))

    def fault_of(self, name: str) -> str | None:
        """Returns why nothing can be said of a crate's edits: it, or one below, isn't known to be proved as it stands."""
        for it in [*self.below(name), name]:
            made = os.path.getmtime(self.library(it)) if os.path.isfile(f"{self.library(it)}/format") else 0
            if made < max(os.path.getmtime(path) for dep in [*self.below(it), it] for path in self.files(dep)):
                return f"crates/{it}/out/rlib has no library newer than its files and those below: remove it, and run `rt ci`"
        return None

    def digest(self, name: str, edit: Edit) -> str:
        """Returns a digest of all that a verdict depends on."""
        paths = [*filter(os.path.isfile, self.files(name)), *(f"{self.library(it)}/format" for it in self.below(name))]
        read_from = [self.toolchain, self.uses[name], edit.text, *((os.path.relpath(it, self.top), read(it)) for it in paths)]
        return hashlib.sha256(repr(read_from).encode()).hexdigest()[:32]

    def check(self, name: str, edits: list[Edit], flags: list[str]) -> Said:
        """Checks a copy of a crate with some edits."""
        with tempfile.TemporaryDirectory(prefix="rt-edit-") as room:
            self.write(name, edits, room)
            ran = subprocess.run(
                [*self.command(name), *flags],
                cwd=room,
                stdin=subprocess.DEVNULL,
                stdout=subprocess.PIPE,
                stderr=subprocess.STDOUT,
                errors="replace",
            )
        return Said(ran.returncode, ran.stdout.rstrip("\n").split("\n"))

    def write(self, name: str, edits: list[Edit], room: str) -> None:
        """Copies a crate, and writes edits into the copy."""
        texts: dict[str, str] = {}
        for part in PARTS:
            if os.path.isdir(f"{self.top}/crates/{name}/{part}"):
                shutil.copytree(f"{self.top}/crates/{name}/{part}", f"{room}/{part}")
        for edit in edits:
            edit.apply(texts)
        for path, text in texts.items():
            with open(f"{room}/{path}", "w", encoding="utf-8") as file:
                file.write(text)

    def command(self, name: str) -> list[str]:
        """Returns the prover's command for a crate, as `rt check` gives it, with one job and nothing kept."""
        root = next(it for it in ("src/main.rt", "src/lib.rt") if os.path.isfile(f"{self.top}/crates/{name}/{it}"))
        words = [f"{self.kit}/bin/rattle", "check", "--crate-name", name, root]
        words += [f"--extern={it}={self.library(it)}" for it in ["std", *self.uses[name]]]
        words += [f"-Ldependency={os.path.dirname(self.library(it))}" for it in ["std", *self.below(name)]]
        words += ["--antt-project", f"{self.kit}/rattle/logic/antt-project.json", "--logic-built", f"{self.kit}/logic_built"]
        return [*words, "--jobs", "1", "--links", f"{name}="]


# ---- what a check says


def goals_of(lines: list[str], at: int) -> list[str]:
    """Returns the goals that the line of a function, or the notes before it, call open."""
    told = lines[at].partition(": ")[2]
    named = re.findall(r"`search` did not prove ((?:`[^`]+`(?:, )?)+)", told)
    if named:
        return re.findall(r"`([^`]+)`", named[0])
    notes = "\n".join(lines[:at]).rpartition("\nfn ")[2]
    return re.findall(r"(?m)^note: src/\S+ it is not proved .*?\(`([^`]+)`\)", notes)


def judge_function(crate: str, function: Function, lines: list[str]) -> Verdict:
    """Returns what a check says of one function that an edit changes."""
    at = next((at for at, line in enumerate(lines) if line.startswith(f"fn {crate}::{function.path}: ")), -1)
    told = lines[at].partition(": ")[2] if at >= 0 else ""
    if told.startswith("proved"):
        return Verdict(Kind.PROVED, f"the contract of {function.path} lets it through")
    goals = goals_of(lines, at) if at >= 0 else []
    if goals:
        notes = "\n".join(lines[:at]).rpartition("\nfn ")[2]
        limit = " (`search` gave up at a limit)" if all(f"(`{goal}`); `search` gave up" in notes for goal in goals) else ""
        return Verdict(Kind.REFUSED, f"`{'`, `'.join(goals)}` of {function.path}{limit}")
    folder = f"proofs/{function.proof.replace('::', '/')}"
    errors = [it[2] for it in map(TOLD.match, lines) if it and os.path.dirname(it[1]) == folder]
    own = [error for error in errors if not GONE.search(error)]
    if own and told:
        return Verdict(Kind.REFUSED, f"{function.path}: {own[0]}")
    if errors and not any("was not admitted" in error for error in errors) or re.match("no proof: expected an? ", told):
        why = (errors or [told])[0]
        return Verdict(Kind.BAD, f"only since the proof of {function.path} names what is gone, or lacks what is new: {why}")
    return Verdict(Kind.LEANS, told or f"the check doesn't name {function.path}")


def judge_together(crate: str, edit: Edit, lines: list[str]) -> Verdict:
    """Returns what a check of the edited functions says of one edit: the strongest verdict of its functions."""
    found = [judge_function(crate, function, lines) for function in sorted(edit.functions, key=lambda it: it.path)]
    order = (Kind.REFUSED, Kind.LEANS, Kind.BAD, Kind.PROVED)
    return min(found or [Verdict(Kind.LEANS, "")], key=lambda it: order.index(it.kind))


def judge_alone(crate: str, edit: Edit, said: Said) -> Verdict:
    """Returns what a check with one edit alone comes to."""
    verdict = judge_together(crate, edit, said.lines)
    if verdict.kind == Kind.REFUSED or verdict.kind == Kind.BAD and not edit.changes_more:
        return verdict
    if said.status == 0:
        return verdict if verdict.kind == Kind.PROVED else Verdict(Kind.PROVED, "the crate is proved with it")
    told = [it for it in map(TOLD.match, said.lines) if it]
    open_goals = [it[0] for it in told if it[1].startswith("proofs/") and not GONE.search(it[2])]
    open_goals += [line for line in said.lines if re.match(r"note: \S+:\d+:\d+: it is not proved", line)]
    unreadable = next((line for line in said.lines if re.search(r"\berror\[[\w-]+\]", line)), None)
    if said.status != 1 or not (open_goals or told or unreadable):
        return Verdict(Kind.NOT_TRIED, f"status {said.status}: {said.lines[-1]}")
    if open_goals:
        return Verdict(Kind.REFUSED, open_goals[0])
    if unreadable:
        return Verdict(Kind.BAD, f"it doesn't compile: {unreadable}")
    return Verdict(Kind.BAD, f"only since what names it is gone, or can't be read: {told[0][0]}")


# ---- a round


def try_round(crates: Crates, crate: str, edits: list[Edit]) -> dict[str, Verdict]:
    """Tries some edits in one check, and those alone of which it doesn't tell; returns what each comes to."""
    if len(edits) == 1:
        return {edits[0].name: try_alone(crates, crate, edits[0])}
    said = crates.check(crate, edits, only(edits))
    if not said.lines[-1].startswith("only="):
        return try_parts(crates, crate, edits, said)
    found = {edit.name: judge_together(crate, edit, said.lines) for edit in edits}
    spreads = is_spread(edits, said.lines)
    for edit in edits:
        if found[edit.name].kind == Kind.LEANS or spreads and is_unproved(crate, edit, said.lines):
            found[edit.name] = try_alone(crates, crate, edit)
    return found


def try_alone(crates: Crates, crate: str, edit: Edit) -> Verdict:
    """Tries one edit: by its functions where the prover knows them by these names, else by the whole crate.

    One that changes more than bodies is refused, too, where a goal of a function that it changes is open.
    """
    if edit.functions:
        said = crates.check(crate, [edit], only([edit]))
        if not edit.changes_more and said.status != 2:
            return judge_alone(crate, edit, said)
        verdict = judge_together(crate, edit, said.lines)
        if verdict.kind == Kind.REFUSED:
            return verdict
        edit.changes_more = True
    return judge_alone(crate, edit, crates.check(crate, [edit], []))


def try_parts(crates: Crates, crate: str, edits: list[Edit], said: Said) -> dict[str, Verdict]:
    """Tries edits of which a check could not read some: those that compile together, the others alone."""
    compiling = [edit for edit in edits if said.status == 1 and crates.check(crate, [edit], ["--only="]).status == 0]
    if 0 < len(compiling) < len(edits):
        parts = [compiling, *([edit] for edit in edits if edit not in compiling)]
    else:
        parts = [[edit] for edit in edits]
    return {name: verdict for part in parts for name, verdict in try_round(crates, crate, part).items()}


def only(edits: list[Edit]) -> list[str]:
    return [f"--only={function.path}" for edit in edits for function in edit.functions]


def is_spread(edits: list[Edit], lines: list[str]) -> bool:
    """Tests whether something fails that no edit changes, so that a failure may be another edit's."""
    own = {f"proofs/{proof.replace('::', '/')}" for edit in edits for proof in edit.proofs}
    return any((it[1] or it[2]) not in own for it in map(FAILS.match, lines) if it)


def is_unproved(crate: str, edit: Edit, lines: list[str]) -> bool:
    """Tests whether a function of an edit isn't proved as it rests on another one."""
    starts = [rf"fn {crate}::{re.escape(function.path)}: .*not proved" for function in edit.functions]
    return any(re.match(start, line) for start in starts for line in lines)
