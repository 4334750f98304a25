"""Says which rows of a file no store has, and what node the others hold, in plain python, for tools/file_check.

It was written from crates/tables/README.md, 'Tables', and from docs/PROFILE.md, and has nothing of the program. Rows are read
by SQLite's own library.
"""
from __future__ import annotations

import collections
import contextlib
import functools
import json
import re
import sqlite3
from collections.abc import Callable, Iterator
from typing import Any, NamedTuple

from lib.keys import key_bytes
from lib.server import text_of
from model import Database, Document, Node, are_indexes

TABLES = {
    "meta": "SELECT rowid, version FROM meta",
    "dbs": "SELECT num, name, sec, seq FROM dbs",
    "docs": "SELECT rowid, db, id, seq, winner, del FROM docs",
    "revs": "SELECT rowid, db, id, n, hash, parent, held, del, body FROM revs",
    "locals": "SELECT rowid, db, id, n, body FROM locals",
    "decls": "SELECT num, db, ddoc, name, fields FROM decls",
    "entries": "SELECT rowid, decl, k, id FROM entries",
}
DEEPEST = 100
# The greatest number of a revision, that of a local document too.
GREATEST = 2**31 - 1

Row = tuple[Any, ...]
Rows = dict[str, list[Row]]


class Wrong(NamedTuple):
    """A row that no store has: its table, its number there, and the words of OPERATE-BACKUP that say what is wrong with it."""

    table: str
    key: int
    words: set[str]


def rows_of(file: str) -> Rows:
    """Returns the rows of each table, by their numbers; bytes of a text that are no UTF-8 stand as surrogates."""
    with contextlib.closing(sqlite3.connect(f"file:{file}?mode=ro", uri=True)) as conn:
        conn.text_factory = lambda text: text.decode(errors="surrogateescape")
        return {table: conn.execute(f"{text} ORDER BY rowid").fetchall() for table, text in TABLES.items()}


# ---- cells


def value_in(text: str) -> Any:
    """Returns the value of a canonical text, or None where it is another text."""
    try:
        value = json.loads(text, parse_float=refuse)
        return value if text_of(value).decode() == text else None
    except (ValueError, TypeError, RecursionError):
        return None


def refuse(numeral: str) -> None:
    """Refuses a numeral that is no whole number."""
    raise ValueError(numeral)


def depth_of(value: Any) -> int:
    """Returns how deep a value is nested."""
    parts = value.values() if isinstance(value, dict) else value if isinstance(value, list) else None
    return 0 if parts is None else 1 + max(map(depth_of, parts), default=0)


def is_body(text: str) -> bool:
    """Tells whether a text is the canonical one of the body of a document, which has no special members."""
    value = value_in(text)
    return isinstance(value, dict) and depth_of(value) <= DEEPEST and not any(name.startswith("_") for name in value)


def is_identifier(blob: bytes) -> bool:
    """Tells whether bytes have the form of the id of a document."""
    return 1 <= len(blob) <= 256 and (not blob.startswith(b"_") or bool(re.match(rb"_(design|local)/.", blob, re.DOTALL)))


def is_local(blob: bytes) -> bool:
    """Tells whether bytes have the form of the id of a local document."""
    return is_identifier(blob) and blob.startswith(b"_local/")


def is_text(blob: bytes) -> bool:
    """Tells whether bytes are UTF-8."""
    try:
        blob.decode()
    except UnicodeDecodeError:
        return False
    return True


def is_group(value: Any) -> bool:
    """Tells whether a value may name admins or members."""
    lists = [value.get("names", []), value.get("roles", [])] if isinstance(value, dict) else [None]
    return all(isinstance(one, list) and all(isinstance(item, str) for item in one) for one in lists)


def is_security(text: str) -> bool:
    """Tells whether a text is the canonical one of a security object."""
    value = value_in(text)
    return isinstance(value, dict) and all(is_group(value.get(part, {})) for part in ("admins", "members"))


def is_hash(number: int, name: str) -> bool:
    """Tells whether a number and a hash make a revision."""
    return 1 <= number <= GREATEST and bool(re.fullmatch(r"[A-Za-z0-9]{1,64}", name))


# ---- rows beside those that they name


class Tables:
    """The rows of a file, with what other rows look up in them."""

    def __init__(self, rows: Rows) -> None:
        self.rows = rows
        self.sequences = {number: sequence for number, _, _, sequence in rows["dbs"]}
        self.documents = {(db, id) for _, db, id, *_ in rows["docs"]}
        self.lasts = {(db, sequence) for _, db, _, sequence, *_ in rows["docs"]}
        self.known = {(db, id, n, name) for _, db, id, n, name, *_ in rows["revs"]}


def words_where(*wrongs: tuple[str, bool]) -> set[str]:
    """Returns the words of what is wrong."""
    return {word for word, is_wrong in wrongs if is_wrong}


def database_words(tables: Tables, row: Row) -> set[str]:
    """Returns what is wrong with the row of a database; its sequence is that of its last document, or 0."""
    number, name, security, sequence = row
    return words_where(
        ("name", not re.fullmatch(rb"[a-z][a-z0-9_$()+-]{0,63}", name)),
        ("text", not is_security(security)),
        ("sequence", sequence != 0 and (number, sequence) not in tables.lasts),
    )


def revision_words(tables: Tables, row: Row) -> set[str]:
    """Returns what is wrong with the row of a revision."""
    _, db, id, n, name, parent, held, deleted, body = row
    is_followed = n == 1 if parent is None else n != 1 and (db, id, n - 1, parent) in tables.known
    is_nothing = (held, deleted, body) == (0, 0, None)
    return words_where(
        ("owner", (db, id) not in tables.documents),
        ("cell", n < 0 or not is_nothing and (held != 1 or deleted not in (0, 1) or body is None)),
        ("name", not is_hash(n, name)),
        ("parent", not is_followed),
        ("text", body is not None and not is_body(body)),
    )


def document_words(tables: Tables, histories: dict[tuple[int, bytes], Document], row: Row) -> set[str]:
    """Returns what is wrong with the row of a document, where the rows of all revisions are right."""
    _, db, id, sequence, winner, deleted = row
    document = histories.get((db, id), Document())
    leaves = set(document.parents) - set(document.parents.values())
    is_held = bool(leaves) and leaves <= set(document.held)
    return words_where(
        ("cell", deleted not in (0, 1)),
        ("name", not is_identifier(id) or is_local(id) or not is_text(id)),
        ("owner", db not in tables.sequences),
        ("sequence", not 1 <= sequence <= tables.sequences.get(db, sequence)),
        ("winner", not is_held or document.winner() != winner or deleted != document.is_deleted()),
        ("missing", not is_held),
    )


def local_words(tables: Tables, row: Row) -> set[str]:
    """Returns what is wrong with the row of a local document. One whose id is no text is never asked for, and a store's all the same."""
    _, db, id, n, body = row
    return words_where(
        ("owner", db not in tables.sequences),
        ("cell", not 1 <= n <= GREATEST),
        ("name", not is_local(id)),
        ("text", not is_body(body)),
    )


def histories_in(rows: Rows) -> dict[tuple[int, bytes], Document]:
    """Returns the documents of the rows of revisions, by the number of their database and their id."""
    found: dict[tuple[int, bytes], Document] = collections.defaultdict(Document)
    for _, db, id, n, name, parent, held, deleted, body in rows["revs"]:
        document, revision = found[db, id], f"{n}-{name}"
        document.parents[revision] = None if parent is None else f"{n - 1}-{parent}"
        if held:
            document.held[revision] = bool(deleted), json.loads(body)
    return found


# ---- rows of indexes


class Indexes:
    """What the rows of indexes have to be, by the documents of databases."""

    def __init__(self, rows: Rows, databases: dict[int, Database]) -> None:
        # The fields of each declared index, and its number, by its database, its design document and its name.
        self.fields = {(db, *place): fields for db, database in databases.items() for place, fields in declared_in(database)}
        self.numbers = {(db, design, name): number for number, db, design, name, _ in rows["decls"]}
        self.entries = {(number, key, id) for _, number, key, id in rows["entries"]}
        self.due = {entry for place in self.fields.keys() & self.numbers.keys() for entry in self.due_in(place, databases[place[0]])}

    def due_in(self, place: tuple[int, bytes, bytes], database: Database) -> list[tuple[int, bytes, bytes]]:
        """Returns the entries that an index has to have."""
        return [(self.numbers[place], key_bytes(key), id.encode()) for key, id in database.places(self.fields[place])]

    def declaration_words(self, row: Row) -> set[str]:
        """Returns what is wrong with the row of an index."""
        _, db, design, name, fields = row
        wanted = self.fields.get((db, design, name))
        return words_where(("index", wanted is None or value_in(fields) != wanted))

    def document_words(self, row: Row) -> set[str]:
        """Returns what is wrong with a document, where each row of an index is right: a row or an entry of it is missing."""
        _, db, id, *_ = row
        lacks_row = any(place[:2] == (db, id) for place in self.fields.keys() - self.numbers.keys())
        own = {number for place, number in self.numbers.items() if place[0] == db}
        lacks_entry = any(number in own and other == id for number, _, other in self.due - self.entries)
        return words_where(("missing", lacks_row or lacks_entry))

    def entry_words(self, row: Row) -> set[str]:
        """Returns what is wrong with an entry."""
        _, *entry = row
        return words_where(("index", tuple(entry) not in self.due))


def declared_in(database: Database) -> Iterator[tuple[tuple[bytes, bytes], Any]]:
    """Yields the indexes that design documents declare, where the declaration has its form, with their fields."""
    for design in filter(lambda id: id.startswith("_design/"), database.documents):
        found = database.declared(design)
        for index, declared in (found if are_indexes(found) else {}).items():
            yield (design.encode(), index.encode()), declared["fields"]


# ---- all of a file


def databases_in(rows: Rows) -> dict[int, tuple[str, Database]]:
    """Returns the databases of rows of which none is wrong but those of indexes, by their numbers, with their names."""
    found = {}
    for number, name, security, sequence in rows["dbs"]:
        database = Database(name.decode())
        database.security, database.sequence = json.loads(security), sequence
        found[number] = name.decode(), database
    histories = histories_in(rows)
    for _, db, id, sequence, *_ in rows["docs"]:
        database = found[db][1]
        database.documents[id.decode()], database.sequences[id.decode()] = histories[db, id], sequence
    for _, db, id, n, body in rows["locals"]:
        found[db][1].locals[id.decode(errors="replace").removeprefix("_local/")] = n, json.loads(body)
    return found


def node_of(rows: Rows) -> Node:
    """Returns the node that rows hold of which none is wrong."""
    node = Node()
    node.databases = dict(databases_in(rows).values())
    return node


def first_wrong(rows: Rows) -> Wrong | None:
    """Returns the first row that no store has, table by table in the order of a check, if there is one."""
    return next(wrongs_in(rows), None)


def wrongs_in(rows: Rows) -> Iterator[Wrong]:
    """Yields the rows that no store has: those of a table only where those of the tables before it are right."""
    version = rows["meta"]
    if version != [(1, 2)]:
        yield Wrong("meta", 0, {"first" if [cells[1:] for cells in version] == [(1,)] else "layout"})
    tables = Tables(rows)
    yield from wrongs_of("dbs", rows, functools.partial(database_words, tables))
    yield from wrongs_of("revs", rows, functools.partial(revision_words, tables))
    yield from wrongs_of("docs", rows, functools.partial(document_words, tables, histories_in(rows)))
    yield from wrongs_of("locals", rows, functools.partial(local_words, tables))
    indexes = Indexes(rows, {number: database for number, (_, database) in databases_in(rows).items()})
    yield from wrongs_of("decls", rows, indexes.declaration_words)
    yield from wrongs_of("docs", rows, indexes.document_words)
    yield from wrongs_of("entries", rows, indexes.entry_words)


def wrongs_of(table: str, rows: Rows, words_of: Callable[[Row], set[str]]) -> Iterator[Wrong]:
    """Yields the rows of a table that are wrong."""
    for row in rows[table]:
        words = words_of(row)
        if words:
            yield Wrong(table, row[0], words)
