"""Many requests in one piece, and the memory that their replies take."""
from __future__ import annotations

import argparse
import re
import shlex

from lib.checks import compare
from lib.server import ADMIN, WELCOME, Server, asks, connected, first_revision, message, proxy_lines, received, reply, request, status_of
from lib.values import present

MOST_ABOVE_IDLE = 30


def program_of(server: Server) -> int:
    """Returns the number of the program's process, which may be the child of a script."""
    number = server.process.pid
    while True:
        with open(f"/proc/{number}/task/{number}/children", encoding="ascii") as children:
            first = children.read().split()[:1]
        if not first:
            return number
        number = int(first[0])


def memory_of(number: int, name: str) -> float:
    """Returns a size of a process's memory, in MB."""
    with open(f"/proc/{number}/status", encoding="ascii") as status:
        return int(present(re.search(name + r":\s*(\d+) kB", status.read()))[1]) / 1000


def check_many_requests_in_one_piece(options: argparse.Namespace, file: str, at_once: int | None) -> None:
    """Asks for 290 lists in one piece: all replies are right, and no more than a few are held at a time."""
    # A program that wasn't proved takes other memory, and more time.
    is_proved = "try" not in shlex.split(options.program)
    count = 20_000 if is_proved else 200
    what = f"290 lists in one piece, {at_once or 1} at once"
    server = Server(options, file, 1)
    with connected(server.port) as made:
        asks(f"{what}: a database", made, request("PUT", "/db"), reply(201, {"ok": True}))
        asks(f"{what}: it is open to all", made, request("PUT", "/db/_security", {}), reply(200, {"ok": True}))
        made.sendall(request("POST", "/db/_bulk_docs", {"docs": [{"_id": f"s{number:06}"} for number in range(count)]}))
        compare(f"{what}: the documents", 201, status_of(made))
    server.ended(what)
    rows = [{"id": f"s{number:06}", "key": f"s{number:06}", "value": {"rev": first_revision({})}} for number in range(count)]
    wanted = reply(200, {"offset": 0, "rows": rows, "total_rows": count})
    server = Server(options, file, 2, at_once=at_once)
    with connected(server.port) as made:
        asks(f"{what}: idle", made, request("GET", "/", user=None), WELCOME)
        process = program_of(server)
        idle = memory_of(process, "VmRSS")
        made.sendall(b"GET /db/_all_docs HTTP/1.1\n\n" * 290)
        right = sum([received(made, len(wanted)) == wanted])
        # One more, while the server holds the rest of the piece.
        made.sendall(request("GET", "/", user=None))
        right += sum(received(made, len(wanted)) == wanted for _ in range(289))
        compare(f"{what}: how many replies are right", 290, right)
        compare(f"{what}: one that came behind the piece", WELCOME, received(made, len(WELCOME)))
        above = memory_of(process, "VmHWM") - idle
        print(f"serve_check: {what}: {above:.0f} MB above idle")
        if is_proved:
            compare(f"{what}: at most {MOST_ABOVE_IDLE} MB above idle", True, above <= MOST_ABOVE_IDLE)
    with connected(server.port) as made:
        # A body with a request behind it, cut behind the first empty line of the body.
        body = b'{"v":\n\n\n"' + b"x" * 20 + b'"\n\n}'
        first = message("PUT", "/db/t", proxy_lines(ADMIN), body)
        revision = first_revision({"v": "x" * 20})
        replies = reply(201, {"id": "t", "ok": True, "rev": revision}), reply(200, {"_id": "t", "_rev": revision, "v": "x" * 20})
        asks(f"{what}: empty lines in a body", made, first + request("GET", "/db/t"), *replies)
    server.ended(what)


def check(options: argparse.Namespace, folder: str) -> None:
    """Sends many requests in one piece, to a server with one connection at once and to one with two."""
    check_many_requests_in_one_piece(options, f"{folder}/piece.db", None)
    check_many_requests_in_one_piece(options, f"{folder}/piece_at_once.db", 2)
