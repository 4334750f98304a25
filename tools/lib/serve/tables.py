"""What SQLite's own library makes of the file."""
from __future__ import annotations

import argparse
import contextlib
import sqlite3
from typing import Any

from lib.checks import compare
from lib.serve.command_lines import compare_refusal, words_of
from lib.server import Server, asks, connected, first_revision, reply, request, rest_of, text_of

CLOSED = text_of({"admins": {"roles": ["_admin"]}, "members": {"roles": ["_admin"]}}).decode()


def rows_in(file: str, sql: str) -> list[tuple[Any, ...]]:
    """Returns rows of the file."""
    with contextlib.closing(sqlite3.connect(file)) as conn:
        return conn.execute(sql).fetchall()


def change(file: str, sql: str) -> None:
    """Changes the file behind the server's back."""
    with contextlib.closing(sqlite3.connect(file)) as conn:
        conn.execute(sql)
        conn.commit()


def check_tables(options: argparse.Namespace, file: str) -> None:
    """SQLite's library reads the file, and its rows are those that crates/tables/README.md tells."""
    server = Server(options, file, 1)
    with connected(server.port) as made:
        made.sendall(request("PUT", "/db") + request("PUT", "/db/a", {"v": 1}) + request("PUT", "/db/_local/l", {"w": 2}, more=["Connection: close"]))
        compare("three writes", 3, rest_of(made).count(b"HTTP/1.1 201 Created"))
    server.ended("a file for SQLite")
    revision = first_revision({"v": 1})
    compare("is it sound", [("ok",)], rows_in(file, "PRAGMA integrity_check"))
    compare("meta", [(2,)], rows_in(file, "SELECT version FROM meta"))
    compare("dbs", [(1, b"db", CLOSED, 1)], rows_in(file, "SELECT num, name, sec, seq FROM dbs"))
    compare("docs", [(1, b"a", 1, revision, 0)], rows_in(file, "SELECT db, id, seq, winner, del FROM docs"))
    compare("revs", [(1, b"a", 1, revision[2:], None, 1, 0, '{"v":1}')], rows_in(file, "SELECT db, id, n, hash, parent, held, del, body FROM revs"))
    compare("locals", [(1, b"_local/l", 1, '{"w":2}')], rows_in(file, "SELECT db, id, n, body FROM locals"))
    compare("decls", [], rows_in(file, "SELECT num, db, ddoc, name, fields FROM decls"))
    compare("entries", [], rows_in(file, "SELECT decl, k, id FROM entries"))
    change(file, "UPDATE revs SET body = '-'")
    server = Server(options, file, 1)
    with connected(server.port) as made:
        asks("a row that isn't laid out", made, request("GET", "/db/a"), reply(500, {"error": "internal_server_error", "reason": "store"}))
        asks("another request", made, request("GET", "/_all_dbs"), reply(200, ["db"]))
    server.ended("a damaged row", is_checked=False)
    change(file, "UPDATE meta SET version = 7")
    compare_refusal("another version", options, words_of(file=file), 1, "file")


def check(options: argparse.Namespace, folder: str) -> None:
    """Reads a file of the server by SQLite's library."""
    check_tables(options, f"{folder}/tables.db")
