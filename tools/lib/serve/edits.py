"""Files that somebody has edited."""
from __future__ import annotations

import argparse
import concurrent.futures
import contextlib
import os
import shutil
import sqlite3
from collections.abc import Callable, Iterable, Sequence
from typing import Any, NamedTuple, Union

from lib.checks import compare
from lib.serve.command_lines import compare_refusal, words_of
from lib.serve.tables import change, rows_in
from lib.server import ADMIN, Server, connected, first_revision, reply_of, request, text_of
from lib.shown_rows import shown_of
from lib.store_rows import Rows, rows_of
from lib.values import Asked, Reply

from model import Node

FAILED = 500, text_of({"error": "internal_server_error", "reason": "store"})
BROUGHT = [{"_id": "b", "_rev": "1-x", "v": 7}, {"_id": "b", "_rev": "2-y", "_revisions": {"ids": ["y", "w"], "start": 2}, "v": 5}]
FILLING: list[Asked] = [
    ("PUT", "/db", None),
    ("PUT", "/db/_design/d", {"indexes": {"v": {"fields": ["v"]}}, "validate_doc_update": {"newDoc.bad": {"$exists": False}}}),
    ("PUT", "/db/a", {"v": 1}),
    ("POST", "/db/_bulk_docs", {"docs": BROUGHT, "new_edits": False}),
    ("PUT", "/db/c", {"v": 3}),
    ("DELETE", f"/db/c?rev={first_revision({'v': 3})}", None),
    ("PUT", "/db/_local/l", {"at": 1}),
    ("PUT", "/e", None),
]
PAGES = ["", "/_security", "/_all_docs", "/_changes?style=all_docs", "/_local/l", "/_design/d/_view/v"]
PAGES += [f"/{name}?open_revs=all&revs=true" for name in ("_design/d", "a", "b", "c")]
# What is asked of an edited file: all that it shows, writes, and all again.
READING: list[Asked] = [("GET", "/_all_dbs", None), *(("GET", f"/{name}{page}", None) for name in ("db", "e") for page in PAGES)]
WRITING: list[Asked] = [
    ("POST", "/db/_bulk_docs", {"docs": [{"_id": "n", "v": 4}, {"_id": "m", "bad": 1}, {"_id": "a", "v": 9}]}),
    ("PUT", f"/db/a?rev={first_revision({'v': 1})}", {"v": 2}),
    ("PUT", "/db/_local/l", {"_rev": "0-1", "at": 2}),
    ("PUT", "/db/_security", {"members": {"names": ["bob"]}}),
    ("PUT", "/f", None),
    ("DELETE", "/e", None),
]
# The value of a cell; an edit of one, as table, column, rowid and new value; and how edits.rows names an edit.
Cell = Union[int, str, bytes]
Edit = tuple[str, str, int, Cell]
Said = tuple[str, str, str]
# What a cell is edited to, where it is something else.
CELLS: dict[str, list[Cell]] = {"INTEGER": [0, 1, 2, -1, 2**62, 2**63 - 1], "TEXT": ["", "-", "null", "{}", '{"v":2}', "1-x"], "BLOB": [b"", b"\0", b"\xff", b"a"]}
# The same, as lib/serve/edits.rows names them, and pages by the names that it has for them.
SPELLED: dict[Cell, str] = {0: "0", 1: "1", 2: "2", -1: "-1", 2**62: "2^62", 2**63 - 1: "2^63-1", "": "''", b"": "''", b"\0": "\\0", b"\xff": "\\xff", b"a": "a"}
PAGE_NAMES = ["info", "security", "all_docs", "changes", "local", "view", "d", "a", "b", "c"]
NAMES = ["all_dbs", *(f"{prefix}{name}" for prefix in ("", "e/") for name in PAGE_NAMES)]
ALL = {"db/*": set(PAGE_NAMES), "e/*": {f"e/{name}" for name in PAGE_NAMES}}
# What a write replies beside a 500: without its database, without the document that it follows, and without the rule.
MADE = {one: {"id": one, "ok": True, "rev": first_revision(body)} for one, body in (("n", {"v": 4}), ("m", {"bad": 1}), ("a", {"v": 9}))}
OTHERWISE = {
    "500": FAILED,
    "none": (404, text_of({"error": "not_found", "reason": "Database does not exist."})),
    "conflict": (409, text_of({"error": "conflict", "reason": "Document update conflict."})),
    "bare": (201, text_of([MADE["n"], MADE["m"], MADE["a"]])),
    "unruled": (201, text_of([MADE["n"], MADE["m"], {"error": "conflict", "id": "a", "reason": "Document update conflict."}])),
}
ROWS_FILE = os.path.join(os.path.dirname(__file__), "edits.rows")


class Damage(NamedTuple):
    """What is a 500 where a cell was edited: the pages that are read before the writes and after them; and the replies to the writes."""

    before: set[str]
    after: set[str]
    writes: list[str]


UNDAMAGED = Damage(set(), set(), ["."] * len(WRITING))


def pages_in(text: str) -> set[str]:
    """Returns the pages that a row names."""
    return set().union(*(ALL.get(one, {one}) for one in text.split() if one != "-"))


def damages() -> dict[Said, Damage]:
    """Returns what edits.rows says, by the column, the name of the row and the value."""
    found: dict[Said, Damage] = {}
    with open(ROWS_FILE, encoding="utf-8") as file:
        lines = [line for line in file.read().splitlines() if not line.startswith("#")]
    for line in lines:
        column, rows, values, pages, writes = line.split(" | ")
        before, _, after = pages.partition(", then ")
        damage = Damage(pages_in(before), pages_in(after or before), UNDAMAGED.writes if writes == "-" else writes.split())
        found |= {(column, row, value): damage for row in rows.split() for value in values.split()}
    return found


def name_of(table: str, cells: Sequence[Any]) -> str:
    """Returns the name of a row, by its cells without its number."""
    if table == "revs":
        _, id, number, name, *_ = cells
        return f"{name_of('docs', [0, id])}/{number}-{name[0]}"
    named: dict[str, Callable[[], bytes]] = {
        "dbs": lambda: bytes(cells[0]),
        "docs": lambda: bytes(cells[1]),
        "locals": lambda: b"l",
        "decls": lambda: b"v",
        "entries": lambda: bytes(cells[2]),
    }
    return named[table]().decode().removeprefix("_design/")


def replies_to(server: Server, asked: Iterable[Asked]) -> list[Reply]:
    """Sends requests on one connection, and returns the status and the text of each reply."""
    replies = []
    with connected(server.port) as made:
        for method, path, value in asked:
            made.sendall(request(method, path, value))
            head, text = reply_of(made)
            replies.append((int(head[9:12] or b"0"), text))
    return replies


def columns_in(file: str) -> list[tuple[str, str, str]]:
    """Returns the columns of all tables, each as table, name and kind."""
    tables = [name for (name,) in rows_in(file, "SELECT name FROM sqlite_schema WHERE type = 'table'")]
    return [(table, name, kind) for table in tables for _, name, kind, *_ in rows_in(file, f"PRAGMA table_info({table})")]


def edits_of(file: str) -> list[Edit]:
    """Returns the edits of single cells: table, column, rowid and new value."""
    edits: list[Edit] = []
    for table, column, kind in columns_in(file):
        for row, old in rows_in(file, f"SELECT rowid, {column} FROM {table}"):
            edits += [(table, column, row, new) for new in CELLS[kind] if new != old]
    return edits


def edit_cell(file: str, table: str, column: str, row: int, new: Cell) -> bool:
    """Edits a cell, and tells whether the table took it."""
    try:
        with contextlib.closing(sqlite3.connect(file)) as conn:
            conn.execute(f"UPDATE {table} SET {column} = ? WHERE rowid = ?", (new, row))
            conn.commit()
            return True
    except sqlite3.IntegrityError:
        return False


def wanted_of(asked: list[Asked], wanted: list[Reply], rows: tuple[Rows, Rows], damage: Damage) -> list[Reply]:
    """Returns the one reply to each request: a 500 where what it needs is gone; else what the rows show before the writes, and after them."""
    before, after = rows
    shown = [[FAILED if name in gone else shown_of(there, path) for name, (_, path, _) in zip(NAMES, READING)] for there, gone in ((before, damage.before), (after, damage.after))]
    first = len(READING)
    written = [as_before if word == "." else OTHERWISE[word] for word, as_before in zip(damage.writes, wanted[first : first + len(WRITING)])]
    return shown[0] + written + shown[1]


def kind_of(want: Reply, without: Reply) -> str:
    """Returns the kind of a reply."""
    return "500" if want == FAILED else "as before" if want == without else "shown"


def through_proxy(replies: list[Reply]) -> list[Reply]:
    """Returns the replies as a proxy would hand them out that makes a 404 of each 500."""
    return [(404, text_of({"error": "not_found", "reason": "missing"})) if reply == FAILED else reply for reply in replies]


def compare_replies(edit: Edit, asked: list[Asked], replies: list[Reply], wanted: list[Reply]) -> None:
    """Compares each reply with the one that has to come, and tells that a proxy in between would be found."""
    for number, (sent, want, got) in enumerate(zip(asked, wanted, replies)):
        compare(f"{edit}: {number}, {sent}", want, got)
    compare(f"{edit}: a proxy that makes a 404 of each 500 is found", FAILED in wanted, through_proxy(replies) != wanted)


def try_edit(
    options: argparse.Namespace,
    folder: str,
    asked: list[Asked],
    wanted: list[Reply],
    numbered: tuple[int, tuple[Edit, Damage]],
) -> set[str]:
    """Edits one cell of a copy of the file, and compares what comes of it. Returns the kinds of the replies."""
    number, (edit, damage) = numbered
    table, _, _, new = edit
    copied = f"{folder}/edited{number}.db"
    shutil.copyfile(f"{folder}/whole.db", copied)
    try:
        if not edit_cell(copied, *edit):
            return {"refused by the table"}
        if table == "meta" and new != 1:
            compare_refusal(str(edit), options, words_of(file=copied), 1, "file")
            return {"refused at the start"}
        before = rows_of(copied)
        server = Server(options, copied, 1)
        replies = replies_to(server, asked)
        server.ended(str(edit), is_checked=False)
        all_wanted = wanted_of(asked, wanted, (before, rows_of(copied)), damage)
        compare_replies(edit, asked, replies, all_wanted)
        return set(map(kind_of, all_wanted, wanted))
    finally:
        for name in os.listdir(folder):
            if name.startswith(f"edited{number}.db"):
                os.remove(f"{folder}/{name}")


def damaged_edits(file: str) -> tuple[list[tuple[Edit, Damage]], set[Said]]:
    """Returns the edits of single cells, each with what it damages, and the lines of edits.rows that speak of none."""
    said, rows = damages(), rows_of(file)
    cells = {(table, row[0]): row[1:] for table in rows for row in rows[table]}
    found, unused = [], set(said)
    for edit in edits_of(file):
        table, column, row, new = edit
        name = "1" if table == "meta" else name_of(table, cells[table, row])
        keys = {(f"{table}.{column}", name, spelled) for spelled in (SPELLED.get(new, str(new)), "*")}
        unused -= keys
        found.append((edit, next((said[key] for key in keys if key in said), UNDAMAGED)))
    return found, unused


def check_edited(options: argparse.Namespace, folder: str) -> None:
    """Edits each cell: a reply is a 500 where edits.rows says that it needs what is gone, and else shows the rows."""
    file, node = f"{folder}/whole.db", Node()
    server = Server(options, file, 1)
    wanted = [node.answer(ADMIN, method, path, None if value is None else text_of(value)) for method, path, value in FILLING]
    compare("what is edited later", wanted, replies_to(server, FILLING))
    server.ended("a file to be edited")
    asked = READING + WRITING + READING
    wanted = [node.answer(ADMIN, method, path, None if value is None else text_of(value)) for method, path, value in asked]
    all_edits, unused = damaged_edits(file)
    compare("rows of edits.rows that are of no edit", set(), unused)
    edits = list(enumerate(all_edits))[:: options.every]
    with concurrent.futures.ThreadPoolExecutor(os.cpu_count()) as pool:
        found = list(pool.map(lambda one: try_edit(options, folder, asked, wanted, one), edits))
    for kind in sorted({kind for kinds in found for kind in kinds}):
        print(f"serve_check: edits of a cell with replies {kind!r}: {sum(kind in kinds for kinds in found)}")
    seen: dict[str, set[str]] = {}
    for (_, ((table, column, _, _), _)), kinds in zip(edits, found):
        seen.setdefault(f"{table}.{column}", set()).update(kinds)
    if options.edited:
        for column in sorted(seen):
            print(f"serve_check: {column}: {', '.join(sorted(seen[column]))}")
    for table in sorted({table for table, _, _ in columns_in(file)}):
        copied = f"{folder}/dropped.db"
        shutil.copyfile(file, copied)
        change(copied, f"DROP TABLE {table}")
        compare_refusal(f"without the table {table}", options, words_of(file=copied), 1, "file")
        os.remove(copied)


def check(options: argparse.Namespace, folder: str) -> None:
    """Edits each cell of a file, and drops each table."""
    check_edited(options, folder)
