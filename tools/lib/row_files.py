"""Reads files of rows, as crates/rows/data has them, and plays rows by the models."""
from __future__ import annotations

import re
from typing import NamedTuple

from model import Database, Node, User
from model_lab import Script, bytes_of


class Row(NamedTuple):
    """A row: its line, and the lines of its question and of its answer."""

    number: int
    question: list[str]
    answer: list[str]


class Table(NamedTuple):
    """A table of a file of rows: its title, whether its rows are wrong on purpose, and its rows."""

    title: str
    is_wrong: bool
    rows: list[Row]


# ---- files of rows


def read(path: str) -> tuple[list[str], list[Table]]:
    """Returns the lines of the head of a file, and its tables."""
    with open(path, encoding="utf-8") as file:
        lines = file.read().split("\n")
    starts = [place for place, line in enumerate(lines) if line.startswith(("== ", "=! "))]
    tables = [Table(lines[start][3:], lines[start].startswith("=!"), rows_in(lines, start + 1, end)) for start, end in zip(starts, [*starts[1:], len(lines)])]
    return lines[: starts[0]], tables


def rows_in(lines: list[str], start: int, end: int) -> list[Row]:
    """Returns the rows of a table, with the texts that its names stand for."""
    # In front is a row that is answered, so that the first line begins another one.
    rows = [Row(0, [], ["-"])]
    texts: dict[str, str] = {}
    for number, line in enumerate(lines[start:end], start + 1):
        if line.startswith("let "):
            _, name, text = line.split(" ", 2)
            texts[name] = put_in(texts, text)
        elif line.startswith("times "):
            _, name, count, text = line.split(" ", 3)
            texts[name] = put_in(texts, text) * int(count)
        elif line and not line.startswith("#"):
            add_line(rows, number, put_in(texts, line))
    return rows[1:]


def lines_of(text: str) -> list[str]:
    """Returns the lines of a text with escapes; bytes that are no UTF-8 stand as surrogates."""
    # A script has no escape for a tab.
    known = re.sub(r"\\(\\|t)", lambda found: r"\x09" if found[1] == "t" else found[0], text)
    return bytes_of(known).decode(errors="surrogateescape").split("\n")


def put_in(texts: dict[str, str], line: str) -> str:
    """Puts texts in the places of their names."""
    for name, text in texts.items():
        line = line.replace(f"<{name}>", text)
    return line


def add_line(rows: list[Row], number: int, line: str) -> None:
    """Adds a line to the last row, or a row of its own."""
    if line.startswith("\\ "):
        asked, is_whole, told = line[2:].rpartition(" => ")
        rows.append(Row(number, lines_of(asked), lines_of(told)) if is_whole else Row(number, lines_of(told), []))
    elif line.startswith("< "):
        rows[-1].answer.append(line[2:].strip())
    elif not line.startswith("> "):
        asked, _, told = line.rpartition(" => ")
        rows.append(Row(number, [asked], [told]) if asked else Row(number, [line], []))
    elif rows[-1].answer:
        rows.append(Row(number, [line[2:]], []))
    else:
        rows[-1].question.append(line[2:])


# ---- what the models say


def printed(row: Row) -> list[str]:
    """Returns what a script prints, and its status."""
    return [*Script().play("\n".join(row.question)), "status 0"]


def play_requests(head: list[str], table: Table) -> list[str]:
    """Returns how a node answers the requests of a table, one after the other."""
    node = Node()
    users: dict[str, User | None] = {"anybody": None}
    for line in head:
        word, _, rest = line.partition(" ")
        if word in ("public", "closed"):
            node.databases[rest] = Database(rest)
        if word == "public":
            node.databases[rest].security = {}
        elif word == "user":
            name, user, *others = rest.split(" | ")
            users[name] = made = User(user)
            # Behind the token stand the roles.
            made.roles = others[1].split(",") if len(others) > 1 else ()
    return [answer_to(node, users, row) for row in table.rows]


def answer_to(node: Node, users: dict[str, User | None], row: Row) -> str:
    """Returns how a node answers the request of a row."""
    who, method, target, *body = row.question[0].split(" ", 3)
    text = "".join([*body, *row.question[1:]])
    status, reply = node.answer(users[who], method, target, text.encode() if text else None)
    return f"{status} {reply.decode()}"
