"""Files of version 1, made by statements alone: what couchd 0.1.0 laid out.

Their tables are those of crates/tables/README.md. In the keys of their indexes a number takes eight bytes, in place of
nine. A server that opens such a file carries it over to version 2.
"""
from __future__ import annotations

import contextlib
import sqlite3

from lib.server import first_revision, text_of

TABLES = [
    "CREATE TABLE meta (version INTEGER NOT NULL) STRICT",
    "CREATE TABLE dbs (num INTEGER PRIMARY KEY, name BLOB NOT NULL UNIQUE, sec TEXT NOT NULL, seq INTEGER NOT NULL) STRICT",
    "CREATE TABLE docs (db INTEGER NOT NULL, id BLOB NOT NULL, seq INTEGER NOT NULL, winner TEXT NOT NULL, del INTEGER NOT NULL, PRIMARY KEY (db, id), UNIQUE (db, seq)) STRICT",
    "CREATE TABLE revs (db INTEGER NOT NULL, id BLOB NOT NULL, n INTEGER NOT NULL, hash TEXT NOT NULL, parent TEXT, held INTEGER NOT NULL, del INTEGER NOT NULL, body TEXT, PRIMARY KEY (db, id, n, hash)) STRICT",
    "CREATE TABLE locals (db INTEGER NOT NULL, id BLOB NOT NULL, n INTEGER NOT NULL, body TEXT NOT NULL, PRIMARY KEY (db, id)) STRICT",
    "CREATE TABLE decls (num INTEGER PRIMARY KEY, db INTEGER NOT NULL, ddoc BLOB NOT NULL, name BLOB NOT NULL, fields TEXT NOT NULL, UNIQUE (db, ddoc, name)) STRICT",
    "CREATE TABLE entries (decl INTEGER NOT NULL, k BLOB NOT NULL, id BLOB NOT NULL, PRIMARY KEY (decl, k, id)) STRICT",
]
PUBLIC = text_of({}).decode()
DESIGN = {"indexes": {"v": {"fields": ["a"]}}}
DOCUMENT = {"a": 5}
# The key of [5], in the layout of version 1 and in that of version 2.
FIRST_KEY = bytes.fromhex("0604800000000000000500")
SECOND_KEY = bytes.fromhex("060400800000000000000500")


def write_first(file: str) -> None:
    """Writes a file of version 1: a database with an index over `a`, and a document with 5 there, whose entry has the first key."""
    documents = [(b"_design/d", 1, DESIGN), (b"x", 2, DOCUMENT)]
    with contextlib.closing(sqlite3.connect(file)) as conn:
        for statement in TABLES:
            conn.execute(statement)
        conn.execute("INSERT INTO meta (version) VALUES (1)")
        conn.execute("INSERT INTO dbs (num, name, sec, seq) VALUES (1, ?, ?, 2)", (b"db", PUBLIC))
        for id, sequence, body in documents:
            revision = first_revision(body)
            conn.execute("INSERT INTO docs (db, id, seq, winner, del) VALUES (1, ?, ?, ?, 0)", (id, sequence, revision))
            conn.execute("INSERT INTO revs (db, id, n, hash, parent, held, del, body) VALUES (1, ?, 1, ?, NULL, 1, 0, ?)", (id, revision[2:], text_of(body).decode()))
        conn.execute("INSERT INTO decls (num, db, ddoc, name, fields) VALUES (1, 1, ?, ?, ?)", (b"_design/d", b"v", text_of(["a"]).decode()))
        conn.execute("INSERT INTO entries (decl, k, id) VALUES (1, ?, ?)", (FIRST_KEY, b"x"))
        conn.commit()


def shape_of(file: str) -> list[list[tuple[object, ...]]]:
    """Returns the version of a file, its declarations and its entries."""
    with contextlib.closing(sqlite3.connect(file)) as conn:
        texts = ["SELECT version FROM meta", "SELECT db, ddoc, name, fields FROM decls", "SELECT k, id FROM entries"]
        return [conn.execute(text).fetchall() for text in texts]


FIRST_SHAPE = [[(1,)], [(1, b"_design/d", b"v", '["a"]')], [(FIRST_KEY, b"x")]]
SECOND_SHAPE = [[(2,)], [(1, b"_design/d", b"v", '["a"]')], [(SECOND_KEY, b"x")]]
# What the view of the index shows, whichever version the file has had.
VIEW = {"offset": 0, "rows": [{"id": "x", "key": [5], "value": None}], "total_rows": 1}
