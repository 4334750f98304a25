"""Servers, passes between them and what both sides hold then, for tools/sync_check and tools/soak."""
from __future__ import annotations

import argparse
import contextlib
import json
import os
import shlex
import shutil
import socket
import subprocess
import tempfile
import threading
from collections.abc import Callable, Iterator, Iterable
from typing import Protocol, Union

from lib.checks import compare, find
from lib.server import ADMIN, SECRET, Server, connected, finds_sound, free_port, received, reply_of, request, start_nginx
from lib.values import Json, Object, present


# ---- a client


def asked(made: socket.socket, method: str, path: str, body: Json = None) -> tuple[int, Json]:
    """Sends a request as the admin, and returns the status and the value of the reply."""
    made.sendall(request(method, path, body))
    head, text = reply_of(made)
    return int(head[9:12]), json.loads(text)


def serving(
    options: argparse.Namespace, file: str, conns: int = 1000000, port: int = 0, at_once: int | None = None
) -> Server:
    """Starts a server on a file."""
    return Server(options, file, conns, port=port, at_once=at_once)


def held(
    options: argparse.Namespace, file: str, database: str = "db"
) -> tuple[dict[str, list[str]], list[tuple[str, str]]]:
    """Returns what a database in a file holds: the leaves of each document with their bodies, and the winners."""
    server = serving(options, file)
    with connected(server.port) as made:
        _, changes = asked(made, "GET", f"/{database}/_changes?style=all_docs")
        _, winners = asked(made, "GET", f"/{database}/_all_docs")
        leaves = {}
        for one in changes["results"]:
            _, shown = asked(made, "GET", f"/{database}/{one['id']}?open_revs=all&revs=true")
            leaves[one["id"]] = sorted(json.dumps(leaf["ok"], sort_keys=True) for leaf in shown)
    server.stop()
    finds_sound(options, os.path.basename(file), file)
    return leaves, [(row["id"], row["value"]["rev"]) for row in winners["rows"]]


def revisions(name: str) -> list[Object]:
    """Returns a document as a replicator brings it: two conflicting leaves, a tombstone, or one revision."""
    number = int(name[1:])
    one = {"_id": name, "_rev": "1-a", "v": number}
    if number % 5 == 0:
        return [one, {"_id": name, "_rev": "1-b", "v": -number}]
    if number % 7 == 0:
        return [{"_id": name, "_rev": "2-d", "_revisions": {"start": 2, "ids": ["d", "a"]}, "_deleted": True}]
    if number % 11 == 0:
        return [{"_id": name, "_rev": "3-c", "_revisions": {"start": 3, "ids": ["c", "b", "a"]}, "text": "ä" * 50}]
    return [one]


# A side of a pass: the port of a server, or the path of a file.
Side = Union[int, str]
# What a pass ended with: its status, its line, and what it said on standard error.
Ran = tuple[int, str, list[str]]
# What answers a connection that came to a listener.
Answers = Callable[[socket.socket, socket.socket], None]


def fill(options: argparse.Namespace, file: str, count: int) -> int:
    """Makes a database of so many documents, and two design documents, in a file. Returns its sequence."""
    server = serving(options, file)
    with connected(server.port) as made:
        asked(made, "PUT", "/db")
        asked(made, "PUT", "/db/_design/rules", {"validate_doc_update": {"newDoc.bad": {"$exists": False}}})
        asked(made, "PUT", "/db/_design/views", {"indexes": {"v": {"fields": ["v"]}}})
        for start in range(0, count, 500):
            documents = [one for number in range(start, min(start + 500, count)) for one in revisions(f"d{number}")]
            status, told = asked(made, "POST", "/db/_bulk_docs", {"docs": documents, "new_edits": False})
            compare(f"{start}: filled", (201, []), (status, told))
        _, about = asked(made, "GET", "/db")
    server.stop()
    return int(about["update_seq"])


def empty(options: argparse.Namespace, file: str) -> None:
    """Makes an empty database in a file."""
    server = serving(options, file)
    with connected(server.port) as made:
        compare("an empty database", 201, asked(made, "PUT", "/db")[0])
    server.stop()


# ---- passes


def place_of(side: Side, file: str, address: str) -> list[str]:
    """Returns the words for a side: a port is a server's, and a text the path of a file."""
    return [address, f"127.0.0.1:{side}"] if isinstance(side, int) else [file, side]


def words_of(
    options: argparse.Namespace,
    session: str,
    source: Side,
    target: Side,
    user: str | None = ADMIN,
    more: Iterable[str] = (),
    databases: tuple[str, str] = ("db", "db"),
) -> list[str]:
    """Returns the command line of a pass."""
    words = ["sync", "--secret", SECRET, "--session", session, *place_of(source, "--from", "--from-address"), "--db", databases[0]]
    words += [*place_of(target, "--to", "--address"), "--target-db", databases[1], *more]
    return shlex.split(options.program) + words + (["--user", user] if user else []) + [ADMIN]


def synced(
    options: argparse.Namespace,
    session: str,
    source: Side,
    target: Side,
    user: str | None = ADMIN,
    more: Iterable[str] = (),
    databases: tuple[str, str] = ("db", "db"),
    seconds: float = 600,
) -> Ran:
    """Runs a pass, and returns its status, its line, and what it said on standard error."""
    words = words_of(options, session, source, target, user, more, databases)
    ran = subprocess.run(words, stdin=subprocess.DEVNULL, capture_output=True, timeout=seconds)
    said = [line for line in ran.stderr.decode().splitlines() if "unproved" not in line]
    return ran.returncode, ran.stdout.decode(), said


def on_terminal(
    options: argparse.Namespace,
    session: str,
    source: Side,
    target: Side,
    more: Iterable[str] = (),
    databases: tuple[str, str] = ("db", "db"),
) -> Ran:
    """Runs a pass whose standard error is a terminal. Returns its status, its line, and the lines that were shown."""
    terminal, its = os.openpty()
    words = words_of(options, session, source, target, more=more, databases=databases)
    running = subprocess.Popen(words, stdin=subprocess.DEVNULL, stdout=subprocess.PIPE, stderr=its)
    os.close(its)
    text = b""
    # A terminal that nobody holds open any more can't be read.
    with contextlib.suppress(OSError):
        while part := os.read(terminal, 65536):
            text += part
    os.close(terminal)
    line = present(running.stdout).read().decode()
    return running.wait(120), line, [one for one in text.decode().split("\r\n") if "unproved" not in one]


def outcome(ran: Ran) -> tuple[int, Json, list[str]]:
    """Returns the status of a pass, what was refused, and what it said; of one that stopped, its line."""
    status, line, said = ran
    return status, json.loads(line)["refused"] if line.startswith("{") else line, said


DONE: tuple[int, list[Object], list[str]] = (0, [], [])


def report(last_seq: int, sent: int, start_seq: int, refused: str = "[]") -> str:
    """Returns the line of a pass that is done."""
    return f'{{"last_seq":{last_seq},"refused":{refused},"sent":{sent},"start_seq":{start_seq}}}\n'


# ---- connections that are kept


class Relay:
    """Stands in front of a server: passes each request on, counts its connections, and treats them in its way. One
    that hides doesn't answer how far the database goes. One that kills does so to the server once it has answered
    some request, before that reply is passed on; then it keeps connections."""

    def __init__(
        self, port: int, way: str, server: Server | None = None, is_last: Callable[[bytes], bool] | None = None
    ) -> None:
        self.behind, self.way, self.count, self.requests = port, way, 0, 0
        self.server, self.is_last = server, is_last
        self.listener = socket.create_server(("127.0.0.1", 0))
        self.port = self.listener.getsockname()[1]
        threading.Thread(target=self.serve, daemon=True).start()

    def serve(self) -> None:
        while True:
            try:
                made, _ = self.listener.accept()
            except OSError:
                return
            self.count += 1
            threading.Thread(target=self.pass_on, args=(made,), daemon=True).start()

    def pass_on(self, made: socket.socket) -> None:
        """Passes on the requests of a connection, in its way."""
        with made, contextlib.suppress(OSError):
            for number in range(1000000):
                sent = request_of(made)
                if not sent or self.way == "drops" and number % 3 == 2:
                    return
                if self.way == "hides" and sent.startswith(b"GET /db HTTP"):
                    return
                self.requests += 1
                with connected(self.behind) as behind:
                    behind.sendall(sent)
                    head, body = reply_of(behind)
                if self.way == "kills" and present(self.is_last)(sent):
                    present(self.server).kill()
                    self.way = "keeps"
                if self.way == "tells":
                    head = head.replace(b"\r\n\r\n", b"\r\nConnection: close\r\n\r\n")
                if self.way == "1.0":
                    head = head.replace(b"HTTP/1.1", b"HTTP/1.0")
                made.sendall(head + body + (b"more" if self.way == "more" else b""))
                if self.way == "closes" or self.way == "tells" and number > 0:
                    return


def request_of(made: socket.socket) -> bytes:
    """Takes one request, and returns its bytes; none where the connection ended."""
    head = b""
    while not head.endswith(b"\r\n\r\n"):
        part = made.recv(1)
        if not part:
            return b""
        head += part
    return head + received(made, int(head.split(b"Content-Length: ", 1)[1].split(b"\r\n", 1)[0]))


# ---- peers that are no couchd


@contextlib.contextmanager
def peer(answer: Answers) -> Iterator[int]:
    """Serves as a peer that has a function answer each connection, which it may close."""
    listener = socket.create_server(("127.0.0.1", 0))

    def serve() -> None:
        while True:
            try:
                made, _ = listener.accept()
            except OSError:
                return
            answer(listener, made)

    threading.Thread(target=serve, daemon=True).start()
    yield listener.getsockname()[1]
    with contextlib.suppress(OSError):
        listener.close()


def talks(text: bytes) -> Answers:
    """Returns what answers each connection with this text, whatever comes."""

    def answer(listener: socket.socket, made: socket.socket) -> None:
        with made, contextlib.suppress(OSError):
            made.recv(65536)
            made.sendall(text)

    return answer


# ---- nginx, and copies of files


class Through(Protocol):
    """What starts nginx in front of a port, with a limit for bodies, and returns nginx's own port."""

    def __call__(self, port: int, most: str = "8m") -> int:
        ...


def nginx_before(room: str) -> Through | None:
    """Returns what starts nginx in front of a port, and gives its own; or nothing, where it isn't installed."""
    if find("nginx") is None:
        return None

    def start(port: int, most: str = "8m") -> int:
        own = free_port()
        folder = tempfile.mkdtemp(dir=room)
        # Both sides of nginx keep their connections.
        behind = f"upstream couchd {{ server 127.0.0.1:{port}; keepalive 8; }}\n"
        inner = 'location / { proxy_pass http://couchd; proxy_http_version 1.1; proxy_set_header Connection ""; }'
        running.append(start_nginx(folder, own, f"{behind}server {{ listen 127.0.0.1:{own}; client_max_body_size {most};\n{inner} }}\n"))
        return own

    return start


running: list[subprocess.Popen[bytes]] = []


def copied(file: str, to: str) -> None:
    """Copies a file that no server has open, and its log."""
    shutil.copy(file, to)
    if os.path.exists(f"{file}-wal"):
        shutil.copy(f"{file}-wal", f"{to}-wal")
