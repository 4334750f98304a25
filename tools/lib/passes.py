"""Makes replication passes, and finds out whether both sides hold the same behind them, for the package's copy and sync."""
from __future__ import annotations

import contextlib
import http.client
import json
import subprocess
import sys
import time
import urllib.parse
from collections.abc import Callable, Iterator
from typing import Any

from lib.settings import token_of

# How many seconds a request is made again where the other side is away.
PATIENCE = 120
# How many changes are compared at a time.
PAGE = 500
# The status where documents were refused, or both sides differ; and where a pass stopped, or nothing can be compared.
REFUSED, STOPPED = 3, 4


class Unanswered(Exception):
    """A request that had no reply in time, or another one than was expected."""


class Server:
    """A server at an address, which is asked as one user."""

    def __init__(self, address: str, secret: str, user: str, name: str = "") -> None:
        self.address, self.name = address, name or address
        self.headers = {"X-Auth-CouchDB-UserName": user, "X-Auth-CouchDB-Token": token_of(secret, user)}
        self.made: http.client.HTTPConnection | None = None

    def close(self) -> None:
        if self.made:
            self.made.close()
        self.made = None

    def exchange(self, method: str, path: str, text: str | None) -> tuple[int, Any]:
        """Makes one exchange on the connection, which is kept."""
        if self.made is None:
            host, _, port = self.address.rpartition(":")
            self.made = http.client.HTTPConnection(host, int(port), timeout=PATIENCE)
        self.made.request(method, path, text, self.headers)
        reply = self.made.getresponse()
        return reply.status, json.loads(reply.read())

    def ask(self, method: str, path: str, body: Any = None) -> tuple[int, Any]:
        """Returns the status and the value of the reply. A lost one is asked for again, after longer and longer pauses."""
        end, pause = time.monotonic() + PATIENCE, 0.1
        text = None if body is None else json.dumps(body)
        while True:
            try:
                return self.exchange(method, path, text)
            except (OSError, http.client.HTTPException, ValueError) as error:
                self.close()
                if time.monotonic() + pause > end:
                    raise Unanswered(f"{self.name}: {method} {path}: {error or type(error).__name__}") from error
                time.sleep(pause)
                pause = min(2 * pause, 10)

    def told(self, method: str, path: str, body: Any = None, expected: tuple[int, ...] = (200,)) -> Any:
        """Returns the value of a reply of an expected status."""
        status, value = self.ask(method, path, body)
        if status not in expected:
            raise Unanswered(f"{self.name}: {method} {path}: {status} {json.dumps(value)}")
        return value

    def names(self) -> list[str]:
        names: list[str] = self.told("GET", "/_all_dbs")
        return names

    def about(self, database: str) -> dict[str, Any]:
        about: dict[str, Any] = self.told("GET", f"/{segment(database)}")
        return about

    def security(self, database: str) -> Any:
        return self.told("GET", f"/{segment(database)}/_security")

    def secure(self, database: str, security: Any) -> None:
        self.told("PUT", f"/{segment(database)}/_security", security)

    def create(self, database: str) -> None:
        """Creates a database, which may be there already."""
        self.told("PUT", f"/{segment(database)}", expected=(201, 412))


def segment(name: str) -> str:
    """Returns a name as it stands in a path."""
    return urllib.parse.quote(name, safe="-._~")


@contextlib.contextmanager
def serving(file: str, secret: str, user: str) -> Iterator[Server]:
    """Serves a file at a port of this machine that nobody else uses, and ends that."""
    words = ["couchd", "serve", "--secret", secret, "--file", file, "--port", "0", "--conns", "1000000", user]
    process = subprocess.Popen(words, stdin=subprocess.DEVNULL, stdout=subprocess.PIPE, stderr=subprocess.PIPE, text=True)
    try:
        line = process.stdout.readline() if process.stdout else ""
        if not line.startswith("listening "):
            raise Unanswered(f"{file}: {process.communicate()[1].strip()}")
        server = Server(line.split()[1], secret, user, file)
        yield server
        server.close()
    finally:
        process.terminate()
        process.communicate()


# ---- passes


def status_of(work: Callable[[], int]) -> int:
    """Returns the status of some work, and that of a pass that stopped where a request had no reply: its line says so."""
    try:
        return work()
    except Unanswered as error:
        print(f"couchd: {error}", file=sys.stderr, flush=True)
        return STOPPED


def chosen(setting: str, *servers: Server) -> list[str]:
    """Returns the databases that a setting names: those of all these servers where it is a star alone."""
    if setting.split() != ["*"]:
        return setting.split()
    return sorted(set().union(*(server.names() for server in servers)))


def make_pass(source: Server, target: str, database: str, words: list[str]) -> tuple[int, int]:
    """Makes a pass from a server, and prints its lines behind what it copies. Returns its status, and the sequence up to which it came, or 0 where it stopped."""
    words = ["couchd", "sync", "--log", "--session", str(time.time_ns()), "--from-address", source.address, "--db", database, "--target-db", database, *words]
    name = f"{database}: {source.name} -> {target}"
    ran = subprocess.run(words, stdin=subprocess.DEVNULL, capture_output=True, text=True, check=False)
    for text, stream in ((ran.stdout, sys.stdout), (ran.stderr, sys.stderr)):
        for line in text.splitlines():
            print(f"{name}: {line}", file=stream, flush=True)
    return ran.returncode, json.loads(ran.stdout)["last_seq"] if ran.returncode in (0, REFUSED) else 0


# ---- what both sides hold


def leaves_of(server: Server, database: str, end: int) -> Iterator[list[tuple[str, int, list[str]]]]:
    """Gives the documents up to a sequence by pages: the id, the sequence, and all leaves of each."""
    since = 0
    while since < end:
        listed = server.told("GET", f"/{segment(database)}/_changes?since={since}&style=all_docs&limit={PAGE}")
        if not listed["results"]:
            return
        yield [(row["id"], row["seq"], [leaf["rev"] for leaf in row["changes"]]) for row in listed["results"]]
        since = listed["last_seq"]


def missing_at(target: Server, source: Server, database: str, end: int) -> list[tuple[str, int]]:
    """Returns the documents of a source, and their sequences, of which the target lacks a leaf."""
    missing: list[tuple[str, int]] = []
    for page in leaves_of(source, database, end):
        lacks = target.told("POST", f"/{segment(database)}/_revs_diff", {id: leaves for id, _, leaves in page})
        missing += [(id, sequence) for id, sequence, _ in page if id in lacks]
    return missing


def differences_of(first: Server, second: Server, database: str, listed: tuple[int | None, int | None] = (None, None)) -> list[str]:
    """Returns a line for each direction in which one of two sides lacks a leaf of the other.

    What is missing counts up to the sequence that a pass of this direction listed: without one, all of it. So what is
    written meanwhile doesn't count. Where nothing is missing or written, both sides have to count as many documents.
    """
    before = first.about(database), second.about(database)
    lines, quiet = [], True
    for (source, target), end, about in zip(((first, second), (second, first)), listed, before):
        missing = missing_at(target, source, database, about["update_seq"])
        owed = [id for id, sequence in missing if end is None or sequence <= end]
        if owed:
            lines.append(line_of(database, source, target, f"{len(owed)} documents lack a leaf there, the first {json.dumps(owed[0])}; {counts_of(source, target, database)}"))
        quiet = quiet and not missing
    if quiet and (first.about(database), second.about(database)) == before and counted(before[0]) != counted(before[1]):
        lines.append(line_of(database, first, second, f"all leaves are there, but {counts_of(first, second, database)}"))
    return lines


def counted(about: dict[str, Any]) -> tuple[int, int]:
    return about["doc_count"], about["doc_del_count"]


def counts_of(source: Server, target: Server, database: str) -> str:
    """Returns how many documents both sides have, in words."""
    counts = [counted(server.about(database)) for server in (source, target)]
    return "; ".join(f"{live} documents and {deleted} deleted at the {side}" for side, (live, deleted) in zip(("source", "target"), counts))


def line_of(database: str, source: Server, target: Server, text: str) -> str:
    """Returns a line about a database and a direction."""
    return f"{database}: {source.name} -> {target.name}: {text}"


def tell(lines: list[str]) -> int:
    """Prints lines on standard error, and returns the status: 3 where there are some."""
    for line in lines:
        print(line, file=sys.stderr, flush=True)
    return REFUSED if lines else 0
