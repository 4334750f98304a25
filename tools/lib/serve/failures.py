"""Lines on standard error by which a server with --log tells of each 500, and of its end."""
from __future__ import annotations

import argparse
import email.utils
import re
import shlex
import socket
import subprocess
import time

from lib.checks import compare
from lib.serve.command_lines import words_of
from lib.serve.tables import change
from lib.server import Server, asks, connected, first_revision, message, proxy_lines, reply, request, status_of

LINE = re.compile(r"couchd: (\w{3}, \d\d \w{3} \d{4} \d\d:\d\d:\d\d GMT): (.*)")
FAULT = reply(500, {"error": "internal_server_error", "reason": "store"})
END = "ended: all connections are served"
# What stands in requests beside their methods and paths, and in no line.
SECRETS = ["swordfish", "Basic", "Token", "mallory", "revs=true"]


def lines_of(what: str, server: Server, since: float) -> list[str]:
    """Returns what a server that has ended says of each line behind its time, which lies between the start and now."""
    said = []
    for line in server.said():
        found = LINE.fullmatch(line)
        compare(f"{what}: the form of the line {line!r}", True, found is not None)
        if found:
            at = email.utils.parsedate_to_datetime(found[1]).timestamp()
            compare(f"{what}: the time of the line {line!r}", True, int(since) <= at <= time.time())
            said.append(found[2])
    return said


def compare_lines(what: str, server: Server, since: float, wanted: list[str]) -> None:
    """Waits for the end of a server, and compares what it said of failures and of its end."""
    compare(f"{what}: the status", 0, server.process.wait(60))
    said = lines_of(what, server, since)
    compare(f"{what}: the lines", wanted, said)
    compare(f"{what}: what no line may hold", [], [secret for secret in SECRETS if any(secret in line for line in said)])


def secretive(method: str, path: str, body: bytes | None = None, last: bool = False) -> bytes:
    """Returns a request with a body, a query and headers that are nobody else's."""
    lines = [*proxy_lines("root"), "Authorization: Basic swordfish", "X-Mallory: mallory", *(["Connection: close"] if last else [])]
    return message(method, f"{path}?revs=true" if method == "GET" else path, lines, body)


def fill(options: argparse.Namespace, file: str) -> None:
    """Makes a file with a document and a design document whose bodies are then no JSON, and one that is whole."""
    server = Server(options, file, 1)
    with connected(server.port) as made:
        for name in ("db", "rules"):
            asks("a database", made, request("PUT", f"/{name}"), reply(201, {"ok": True}))
        for path, name in (("/db/a", "a"), ("/db/b", "b"), ("/rules/_design/d", "_design/d")):
            asks("a document", made, request("PUT", path, {"v": 1}), reply(201, {"id": name, "ok": True, "rev": first_revision({"v": 1})}))
    server.ended("a file to be damaged")
    change(file, "UPDATE revs SET body = '-' WHERE id <> CAST('b' AS BLOB)")


def check_damaged(options: argparse.Namespace, file: str, at_once: int | None) -> None:
    """Asks for damaged rows: each request has its line, in order; those with other replies have none."""
    what, since = f"damaged rows, {at_once or 1} at once", time.time()
    server = Server(options, file, 2, at_once=at_once, more=["--log"])
    with connected(server.port) as made, connected(server.port) as other:
        # Without --at-once the other one waits until this one has ended.
        asks(what, made, request("GET", "/db/a") + request("GET", "/db/b") + request("GET", "/none/x"), FAULT)
        statuses = [status_of(made), status_of(made)]
        compare(f"{what}: the replies between", [200, 404], statuses)
        asks(what, made, secretive("GET", "/db/a"), reply(500, {"error": "internal_server_error", "reason": "store"}))
        made.sendall(secretive("PUT", "/rules/x", b'{"swordfish":1}'))
        compare(f"{what}: a write that asks the rules", 500, status_of(made))
        made.sendall(request("GET", "/db/%61?revs=true"))
        compare(f"{what}: the document by another path", 500, status_of(made))
        made.sendall(b"GET /db/a\r\n\r\n")
        compare(f"{what}: no request", 400, status_of(made))
        made.close()
        asks(what, other, request("GET", "/_all_dbs"), reply(200, ["db", "rules"]))
        asks(what, other, request("GET", "/db/a", user=None), reply(401, {"error": "unauthorized", "reason": "You are not allowed to access this db.", "rule": "db_member"}))
        other.sendall(message("GET", "/db/a", [*proxy_lines("root"), "Connection: close"]))
        compare(f"{what}: the last one", 500, status_of(other))
    lines = ["500 GET /db/a", "500 GET /db/a", "500 PUT /rules/x", "500 GET /db/%61", "500 GET /db/a"]
    compare_lines(what, server, since, [f"{line}: a damaged store" for line in lines] + [END])


def check_full(options: argparse.Namespace, file: str, at_once: int | None) -> None:
    """Writes where the file can't grow: each write that fails has its line."""
    what, since = f"a full disk, {at_once or 1} at once", time.time()
    server = Server(options, file, 1, limit=300_000, at_once=at_once, more=["--log"])
    failed = []
    with connected(server.port) as made:
        asks(what, made, request("PUT", "/db"), reply(201, {"ok": True}))
        for number in range(60):
            path = f"/db/f{number}"
            made.sendall(request("PUT", path, {"n": number, "swordfish": "x" * 5000}))
            if status_of(made) == 500:
                failed.append(f"500 PUT {path}: the store failed")
                made.sendall(request("GET", path))
                if status_of(made) == 500:
                    failed.append(f"500 GET {path}: the store failed")
            if len(failed) > 4:
                break
    compare(f"{what}: writes failed", True, len(failed) > 4)
    compare_lines(what, server, since, [*failed, END])


def check_memory(options: argparse.Namespace, file: str, at_once: int | None) -> None:
    """Asks for too much memory: a reply of 503 has no line, since nothing failed."""
    what, since = f"no memory, {at_once or 1} at once", time.time()
    server = Server(options, file, 1, memory=40 << 20, at_once=at_once, more=["--log"])
    with connected(server.port) as made:
        asks(what, made, request("PUT", "/db"), reply(201, {"ok": True}))
        made.sendall(request("PUT", "/db/array", {"a": [{"b": 1}] * 300_000}))
        compare(f"{what}: the reply", 503, status_of(made))
    compare_lines(what, server, since, [END])


def check_silent(options: argparse.Namespace, file: str) -> None:
    """Asks without --log: nothing is said of a 500, nor of the end."""
    for at_once in (None, 9):
        server = Server(options, file, 1, at_once=at_once)
        with connected(server.port) as made:
            asks("a damaged row without --log", made, request("GET", "/db/a"), FAULT)
        server.ended("a damaged row without --log", is_checked=False)


def check_ends(options: argparse.Namespace, folder: str) -> None:
    """Starts where the port is in use, whose end is told; a file that isn't opened has no server that could end."""
    with socket.create_server(("127.0.0.1", 0)) as taken:
        choices: list[list[str]] = [[], ["--at-once", "9"]]
        for more in choices:
            words = [*words_of(file=f"{folder}/end.db", port=str(taken.getsockname()[1])), *more, "--log"]
            ran = subprocess.run(shlex.split(options.program) + words, stdin=subprocess.DEVNULL, capture_output=True, timeout=options.wait + 60)
            said = [line for line in ran.stderr.decode().splitlines() if "unproved" not in line]
            ends = [found[2] if (found := LINE.fullmatch(line)) else line for line in said]
            compare("a port in use, with --log", (1, b"", ["ended: socket", "couchd: socket"]), (ran.returncode, ran.stdout, ends))


def check_unread(options: argparse.Namespace, file: str) -> None:
    """Serves where nobody reads the lines, or standard error is closed: a line that can't be printed is lost."""
    for what, behind in (("closed", "exec 2>&-; "), ("a full device", "exec 2>/dev/full; ")):
        program = shlex.join(["sh", "-c", f'{behind}exec "$@"', "sh", *shlex.split(options.program)])
        server = Server(argparse.Namespace(**{**vars(options), "program": program}), file, 2, more=["--log"])
        for _ in range(2):
            with connected(server.port) as made:
                asks(f"standard error is {what}", made, request("GET", "/db/a"), FAULT)
        compare(f"standard error is {what}: the end", 0, server.process.wait(60))


def check_killed(options: argparse.Namespace, file: str) -> None:
    """Kills a server: a line is there once its reply is, so it has told of all that it answered."""
    since = time.time()
    server = Server(options, file, 9, at_once=9, more=["--log"])
    with connected(server.port) as made:
        for _ in range(20):
            asks("before a kill", made, request("GET", "/db/a"), FAULT)
        server.kill()
    compare("lines before a kill", ["500 GET /db/a: a damaged store"] * 20, lines_of("before a kill", server, since))


def check(options: argparse.Namespace, folder: str) -> None:
    """Damages a file, fills a disk, and compares the lines."""
    file = f"{folder}/failing.db"
    fill(options, file)
    for at_once in (None, 9):
        check_damaged(options, file, at_once)
        check_full(options, f"{folder}/filled{at_once}.db", at_once)
        check_memory(options, f"{folder}/memory{at_once}.db", at_once)
    check_silent(options, file)
    check_ends(options, folder)
    check_unread(options, file)
    check_killed(options, file)
