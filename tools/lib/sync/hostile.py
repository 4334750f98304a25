"""Servers that list or tell more than was asked for, and what memory a pass takes then."""
from __future__ import annotations

import argparse
import contextlib
import json
import socket
import subprocess
import threading
import time
from collections.abc import Callable, Iterable

from lib.checks import compare
from lib.server import reply, reply_with
from lib.sync.place import Check, Place
from lib.syncing import Side, empty, fill, peer, request_of, words_of
from lib.values import Object, present


class Hostile:
    """A server that answers as couchd does where nothing is stored, but for some requests by the beginnings of their lines."""

    def __init__(self, **replies: bytes | Callable[[], bytes]) -> None:
        self.replies = replies

    def __call__(self, listener: socket.socket, made: socket.socket) -> None:
        threading.Thread(target=self.converse, args=(made,), daemon=True).start()

    def converse(self, made: socket.socket) -> None:
        with made, contextlib.suppress(OSError):
            while sent := request_of(made):
                made.sendall(self.answer(sent.split(b"\r\n", 1)[0].decode()))

    def answer(self, line: str) -> bytes:
        for name, bytes_of in self.replies.items():
            if name in line:
                return bytes_of() if callable(bytes_of) else bytes_of
        if "_local" in line:
            if line.startswith("PUT"):
                return reply(201, {"id": "_local/x", "ok": True, "rev": "0-1"})
            return reply(404, {"error": "not_found", "reason": "missing"})
        return reply(200, {})


def measured(
    options: argparse.Namespace, session: str, source: Side, target: Side, more: Iterable[str] = ()
) -> tuple[int, str, int]:
    """Runs a pass, and returns its status, its line and how many MB of memory it took at most."""
    words = words_of(options, session, source, target, more=more)
    running = subprocess.Popen(words, stdin=subprocess.DEVNULL, stdout=subprocess.PIPE, stderr=subprocess.DEVNULL)
    most = 0
    while running.poll() is None:
        with contextlib.suppress(OSError), open(f"/proc/{running.pid}/status", encoding="ascii") as file:
            most = max([most, *(int(line.split()[1]) >> 10 for line in file if line.startswith("VmHWM"))])
        time.sleep(0.01)
    return running.returncode, present(running.stdout).read().decode(), most


def listed(rows: list[Object], last_seq: int) -> bytes:
    return reply(200, {"last_seq": last_seq, "results": rows})


def check_hostile(place: Place) -> None:
    """Asks servers that list more than was asked for, or the same for ever, or tell of more than was sent."""
    options, room = place.options, place.room
    target, source = f"{room}/hostile.db", f"{room}/hostile-source.db"
    # What the program takes without any of that.
    empty(options, source)
    floor = measured(options, "H0", source, target, more=["--create"])[2]
    row = {"changes": [{"rev": "1-a"}], "id": "x", "seq": 1}
    text = b'{"last_seq":1,"results":[' + b",".join([b'{"seq":1}'] * 5400000) + b"]}"
    peers = [
        ("54 MB of rows", Hostile(_changes=reply_with(200, text)), "reply", 8 * len(text) >> 20),
        ("more rows than were asked for", Hostile(_changes=listed([dict(row, id=f"x{number}") for number in range(501)], 501)), "reply", 50),
        ("a list that doesn't move", Hostile(_changes=listed([dict(row, id=f"x{number}") for number in range(500)], 0)), "reply", 50),
    ]
    for what, answers, why, most in peers:
        with peer(answers) as port:
            status, line, took = measured(options, "H1", port, target)
        compare(f"{what}: {line[:200]}", (4, True), (status, line.startswith(f"stopped {why} ")))
        compare(f"{what}: {took} MB of memory, {floor} MB without", True, took - floor <= most)
    opened = reply(200, [{"missing": "1-a"}] * 500000)
    with peer(Hostile(_changes=listed([row], 1), x=opened)) as port:
        status, line, took = measured(options, "H2", port, target)
    compare(f"more elements than revisions: {line[:100]}", (4, True), (status, line.startswith("stopped reply ")))
    failures = [{"error": "forbidden", "id": f"f{number}", "reason": "no", "rev": "1-a"} for number in range(600)]
    fill(options, source, 20)
    missing = reply(200, {f"d{number}": {"missing": ["1-a"]} for number in range(20)})
    with peer(Hostile(_revs_diff=missing, _bulk_docs=reply(201, failures))) as port:
        status, line, took = measured(options, "H3", source, port)
    told = json.loads(line.split(" ", 2)[2])["refused"] if line.startswith("stopped ") else []
    compare(f"more failures than documents: {line[:100]}", (4, True, []), (status, line.startswith("stopped reply "), [one for one in told if one["error"] == "forbidden"]))


CHECKS: dict[str, Check] = {"hostile": check_hostile}
