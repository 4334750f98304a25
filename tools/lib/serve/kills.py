"""A server that is killed while it writes."""
from __future__ import annotations

import argparse
import contextlib
import functools
import json
import threading
import time

from lib.checks import compare
from lib.serve.connections import AT_ONCE, start_all
from lib.server import Server, asks, connected, finds_sound, reply, request, rest_of, status_of


def check_killed(options: argparse.Namespace, folder: str) -> None:
    """Kills a server while it writes: each write that was answered is there, and none in part."""
    for moment in range(20):
        file = f"{folder}/killed{moment}.db"
        server = Server(options, file, 10)
        answered = 0
        with connected(server.port) as made:
            asks("a database", made, request("PUT", "/db"), reply(201, {"ok": True}))
            threading.Timer(0.01 + moment * 0.01, server.process.kill).start()
            try:
                while True:
                    documents = [{"_id": f"k{answered}-{part}", "v": answered} for part in range(3)]
                    made.sendall(request("POST", "/db/_bulk_docs", {"docs": documents}))
                    if status_of(made) != 201:
                        break
                    answered += 1
            except OSError:
                pass
        server.process.wait(60)
        finds_sound(options, f"killed at moment {moment}", file)
        server = Server(options, file, 1)
        with connected(server.port) as made:
            made.sendall(request("GET", "/db/_all_docs", more=["Connection: close"]))
            listed = json.loads(rest_of(made).split(b"\r\n\r\n", 1)[1])["rows"]
        server.ended("after a kill")
        there = {row["id"] for row in listed}
        wanted = {f"k{number}-{part}" for number in range(answered) for part in range(3)}
        more = {f"k{answered}-{part}" for part in range(3)}
        compare(f"killed at moment {moment}: all that was answered, and no bulk in part", True, there in (wanted, wanted | more))


def write_on(port: int, client: int, answered: list[str]) -> None:
    """Writes new documents on a connection of its own, until the server is gone; each that was answered goes into the list."""
    with contextlib.suppress(OSError), connected(port) as made:
        number = 0
        while True:
            name = f"w{client}-{number}"
            made.sendall(request("PUT", f"/db/{name}", {"n": number}))
            if status_of(made) != 201:
                return
            answered.append(name)
            number += 1


def check_killed_among_writers(options: argparse.Namespace, folder: str) -> None:
    """Kills a server while fifty clients write: each answered write is there, and at most one more of each."""
    for moment in range(3):
        file = f"{folder}/writers{moment}.db"
        server = Server(options, file, 100, at_once=AT_ONCE)
        with connected(server.port) as made:
            asks("a database", made, request("PUT", "/db"), reply(201, {"ok": True}))
        answered: list[str] = []
        threads = start_all([functools.partial(write_on, server.port, client, answered) for client in range(50)])
        time.sleep(0.5 + moment * 0.3)
        server.kill()
        for thread in threads:
            thread.join(60)
        finds_sound(options, f"killed among writers, {moment}", file)
        server = Server(options, file, 1)
        with connected(server.port) as made:
            made.sendall(request("GET", "/db/_all_docs", more=["Connection: close"]))
            listed = json.loads(rest_of(made).split(b"\r\n\r\n", 1)[1])["rows"]
        server.ended("after a kill among writers")
        there = {row["id"] for row in listed}
        compare(f"killed among writers, {moment}: was something written", True, len(answered) > 0)
        compare(f"killed among writers, {moment}: what was answered and is lost", set(), set(answered) - there)
        compare(f"killed among writers, {moment}: at most one more of each", True, len(there) - len(answered) <= 50)


def check(options: argparse.Namespace, folder: str) -> None:
    """Kills servers of one client, and of fifty."""
    check_killed(options, folder)
    check_killed_among_writers(options, folder)
