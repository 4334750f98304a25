"""A server on a file, and SQLite's C library over the same tables, for the measurements of this folder."""
from __future__ import annotations

import argparse
import atexit
import hashlib
import json
import os
import re
import signal
import socket
import sqlite3
from typing import Any

from lib.server import ADMIN, TOP, Server, message, proxy_lines
from lib.values import Object, Reply, present

with open(f"{TOP}/crates/tables/src/create.rt", encoding="utf-8") as code:
    # A text may go on in the next line, behind a backslash.
    TABLES = [re.sub(r"\\\n\s*", "", text) for text in re.findall(r'"(CREATE TABLE (?:dbs|docs|revs) [^"]*)"', code.read())]

# The program runs with the variable that its systemd unit sets.
with open(f"{TOP}/package/couchd@.service", encoding="utf-8") as unit:
    VARIABLES = dict(line.removeprefix("Environment=").strip().split("=", 1) for line in unit if line.startswith("Environment="))
ENVIRONMENT = {**os.environ, **VARIABLES}
# The seconds within which a server has to listen: among a million documents a start takes a minute.
LONGEST_START = 3600


class Served(Server):
    """A server on a file, and one connection to it."""

    def __init__(self, program: str, file: str, at_once: int | None = None, cache: int | None = None) -> None:
        options = argparse.Namespace(program=program, port=0, wait=LONGEST_START)
        super().__init__(options, file, 1_000_000, at_once=at_once, cache=cache, environment=ENVIRONMENT, shown=True)
        # A bench that fails leaves no server behind, which would hold its output open.
        atexit.register(self.process.kill)
        self.connect()

    def connect(self) -> None:
        """Opens the connection, for what follows."""
        self.socket = socket.create_connection(("127.0.0.1", self.port))
        self.socket.setsockopt(socket.IPPROTO_TCP, socket.TCP_NODELAY, 1)
        self.rest = b""

    def ask(self, method: str, path: str, body: bytes = b"", user: str | None = None) -> Reply:
        """Sends a request and returns its status and its body."""
        self.socket.sendall(message(method, path, proxy_lines(user) if user else [], body))
        return self.reply()

    def reply(self) -> Reply:
        """Takes in a reply, and returns its status and its body."""
        while b"\r\n\r\n" not in self.rest:
            self.take()
        head, self.rest = self.rest.split(b"\r\n\r\n", 1)
        length = int(present(re.search(rb"Content-Length: (\d+)", head))[1])
        while len(self.rest) < length:
            self.take()
        body, self.rest = self.rest[:length], self.rest[length:]
        return int(head[9:12]), body

    def put_all(self, names: list[str]) -> None:
        """Writes new documents, each by a request of its own, and sends all of these ahead."""
        self.socket.sendall(b"".join(message("PUT", f"/db/{name}", [], b'{"v":1}') for name in names))
        for _ in names:
            status, body = self.reply()
            expect((status, body), 201)

    def take(self) -> None:
        """Takes in what has come of replies."""
        piece = self.socket.recv(1 << 16)
        if not piece:
            raise SystemExit("the server closed the connection")
        self.rest += piece

    def memory(self) -> int:
        """Returns the kilobytes of memory that the program has."""
        with open(f"/proc/{self.process.pid}/status") as status:
            return int(present(re.search(r"VmRSS:\s+(\d+)", status.read()))[1])

    def open_database(self) -> None:
        """Makes the database `db`, which is open to all."""
        expect(self.ask("PUT", "/db", user=ADMIN), 201)
        expect(self.ask("PUT", "/db/_security", b"{}", user=ADMIN), 200)

    def fill(self, names: list[str]) -> None:
        """Writes new documents, in one bulk."""
        body = json.dumps({"docs": [{"_id": name, "v": 1} for name in names]}).encode()
        expect(self.ask("POST", "/db/_bulk_docs", body), 201)

    def stop(self, by: int = signal.SIGKILL) -> None:
        """Closes the connection, and kills the server."""
        self.socket.close()
        super().stop(by)


class Tables:
    """The same documents by SQLite's C library."""

    def __init__(self, file: str) -> None:
        self.connect(file)
        for text in TABLES:
            self.conn.execute(text)
        self.conn.execute("INSERT INTO dbs (name, sec, seq) VALUES (?, '{}', 0)", (b"db",))
        self.sequence = 0

    def connect(self, file: str) -> None:
        """Opens the file as the server does."""
        self.conn = sqlite3.connect(file, isolation_level=None)
        self.conn.execute("PRAGMA journal_mode=WAL")
        self.conn.execute("PRAGMA synchronous=FULL")

    def write(self, name: bytes, body: str) -> None:
        """Runs the statements by which a server writes a new document, in a transaction, but for the one
        that moves the database's sequence."""
        run = self.conn.execute
        self.sequence += 1
        digest = hashlib.md5(body.encode()).hexdigest()
        self.look_up(name)
        run("INSERT INTO revs (db, id, n, hash, parent, held, del, body) VALUES (1, ?, 1, ?, NULL, 1, 0, ?)", (name, digest, body))
        run("INSERT INTO docs (db, id, seq, winner, del) VALUES (1, ?, ?, ?, 0)", (name, self.sequence, f"1-{digest}"))

    def commit(self, names: list[bytes], body: str) -> None:
        """Writes new documents in one transaction, and asks for nothing else."""
        self.conn.execute("BEGIN IMMEDIATE")
        self.conn.execute("UPDATE dbs SET seq = ? WHERE num = 1", (self.sequence + len(names),))
        for name in names:
            self.write(name, body)
        self.conn.execute("COMMIT")

    def put(self, names: list[bytes], body: str) -> None:
        """Runs all statements of a request that writes new documents into a database that was asked
        before: what the documents were, and the writes. Its rules are known then."""
        for name in names:
            self.look_up(name)
        self.commit(names, body)

    def look_up(self, name: bytes) -> list[tuple[Any, ...]]:
        """Runs the statement by which a server reads the row of a document, and returns it."""
        return self.conn.execute("SELECT id, seq, winner, del FROM docs WHERE db = 1 AND id = ?", (name,)).fetchall()

    def get(self, name: bytes) -> None:
        """Runs all statements of a request that reads a document of a database that was asked before."""
        number, digest = self.look_up(name)[0][2].split("-")
        self.conn.execute("SELECT n, hash, parent, held, del, body FROM revs WHERE db = 1 AND id = ? AND n = ? AND hash = ?", (name, int(number), digest)).fetchall()

    def changes(self, since: int, limit: int) -> None:
        self.conn.execute("SELECT id, seq, winner, del FROM docs WHERE db = 1 AND seq > ? ORDER BY seq LIMIT ?", (since, limit)).fetchall()

    def count(self) -> None:
        """Counts the documents that are there, and those that are deleted."""
        for deleted in (0, 1):
            self.conn.execute("SELECT count(*) FROM docs WHERE db = 1 AND del = ?", (deleted,)).fetchall()

    def page(self, limit: int) -> None:
        self.conn.execute("SELECT count(*) FROM docs WHERE db = 1 AND del = 0").fetchall()
        self.conn.execute("SELECT id, seq, winner, del FROM docs WHERE db = 1 AND del = 0 ORDER BY id LIMIT ?", (limit,)).fetchall()


def expect(answer: Reply, status: int) -> None:
    """Ends the bench where a reply has another status."""
    if answer[0] != status:
        raise SystemExit(f"status {answer[0]} in place of {status}: {answer[1][:200]!r}")


def next_revision(before: str | None, body: Object) -> str:
    """Returns the revision that an edit makes behind this one, which may be None."""
    number, digest = before.split("-") if before else ("0", "")
    text = json.dumps([False, int(number), digest, body], separators=(",", ":"), sort_keys=True)
    return f"{int(number) + 1}-{hashlib.md5(text.encode()).hexdigest()}"
