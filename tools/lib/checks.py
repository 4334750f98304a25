"""Counts comparisons, finds programs, and reads the fenced blocks of documents, for the checks of this folder."""
from __future__ import annotations

import os
import re
import shutil
import sys
import threading

passed, failed = 0, 0
missing: set[str] = set()
counting = threading.Lock()


def compare(what: str, wanted: object, got: object) -> None:
    """Counts one comparison, and tells where it differs."""
    global passed, failed
    with counting:
        if wanted == got:
            passed += 1
            return
        failed += 1
    print(f"{os.path.basename(sys.argv[0])}: {what}\n  wanted {wanted!r}\n  got    {got!r}", flush=True)


def find(program: str) -> str | None:
    """Returns the path of a program; where it isn't installed prints a line that `./test` collects, and returns None."""
    found = shutil.which(program) or shutil.which(f"/usr/sbin/{program}")
    if found is None and program not in missing:
        missing.add(program)
        print(f"skipped: {program}", flush=True)
    return found


def finish() -> int:
    """Prints the last line, and returns the status of the check."""
    print(f"{passed} passed, {failed} failed")
    return 1 if failed else 0


def blocks_of(text: str) -> list[tuple[int, str, str]]:
    """Returns the headings, the scripts' names and the fenced blocks of a document, in order, as (line, kind, text)."""
    found: list[tuple[int, str, str]] = []
    kind: str | None = None
    lines: list[str] = []
    start = 0
    for number, line in enumerate(text.split("\n"), 1):
        fence = re.fullmatch(r"```(\w*)", line)
        if kind is None and fence:
            kind, lines, start = fence[1], [], number
        elif kind is not None and line == "```":
            found.append((start, kind, "\n".join(lines) + "\n"))
            kind = None
        elif kind is not None:
            lines.append(line)
        elif line.startswith("#"):
            found.append((number, "heading", line))
        else:
            for name in re.findall(r"`(examples/\w+\.lab)`", line):
                found.append((number, "script", name))
    return found


def replies_of(text: str) -> list[str]:
    """Returns the replies that stand behind the commands of a block, as 'STATUS BODY'."""
    return re.findall(r"(?m)^# ([0-9]{3} .*)$", text)
