"""Requests that a pass sends ahead of their turn."""
from __future__ import annotations

import contextlib
import queue
import socket
import threading
import time

from lib.checks import compare
from lib.server import connected, reply_of
from lib.sync.place import Check, Place
from lib.syncing import DONE, fill, held, outcome, request_of, serving, synced

# How many requests are under way at most: the one that is asked, and fifteen ahead.
MOST = 16

DELAY = 0.05


class Far:
    """Stands in front of a server that is far away: each reply comes `DELAY` later. Counts the requests that are under
    way at a time. After `breaks` replies it closes the connection once, or sends bytes of its own there."""

    def __init__(self, port: int, breaks: int = 0, junk: bytes = b"") -> None:
        self.behind, self.breaks, self.junk = port, breaks, junk
        self.under_way, self.most, self.replies, self.connections = 0, 0, 0, 0
        self.listener = socket.create_server(("127.0.0.1", 0))
        self.port = self.listener.getsockname()[1]
        threading.Thread(target=self.serve, daemon=True).start()

    def serve(self) -> None:
        with contextlib.suppress(OSError):
            while True:
                made, _ = self.listener.accept()
                self.connections += 1
                threading.Thread(target=self.converse, args=(made,), daemon=True).start()

    def converse(self, made: socket.socket) -> None:
        due: queue.Queue[tuple[float, bytes] | None] = queue.Queue()
        threading.Thread(target=self.send, args=(made, due), daemon=True).start()
        with contextlib.suppress(OSError), connected(self.behind) as behind:
            while sent := request_of(made):
                self.under_way += 1
                self.most = max(self.most, self.under_way)
                behind.sendall(sent)
                due.put((time.monotonic() + DELAY, b"".join(reply_of(behind))))
        due.put(None)

    def send(self, made: socket.socket, due: queue.Queue[tuple[float, bytes] | None]) -> None:
        with made, contextlib.suppress(OSError):
            while (one := due.get()) is not None:
                time.sleep(max(0.0, one[0] - time.monotonic()))
                self.replies += 1
                if self.replies == self.breaks and not self.junk:
                    self.under_way = 0
                    made.shutdown(socket.SHUT_RDWR)
                    return
                made.sendall(one[1] + (self.junk if self.replies == self.breaks else b""))
                self.under_way -= 1


def check_ahead(place: Place) -> None:
    """A pull from far away: requests are sent ahead, in less time than one by one, and where a connection ends with
    some of them, or bytes come that nobody asked for, all documents come over still."""
    options, room = place.options, place.room
    source = f"{room}/far.db"
    fill(options, source, 60)
    wanted = held(options, source)
    server = serving(options, source, at_once=8)
    for what, far in (
        ("far away", Far(server.port)),
        ("far away, ends behind 12 replies", Far(server.port, 12)),
        ("far away, ends behind 25 replies", Far(server.port, 25)),
        ("far away, more behind a reply", Far(server.port, 12, b"more")),
    ):
        target = f"{room}/{what.replace(' ', '-').replace(',', '')}.db"
        begun = time.monotonic()
        compare(f"{what}: a pull", DONE, outcome(synced(options, "A1", far.port, target, more=["--create"])))
        took = time.monotonic() - begun
        far.listener.close()
        compare(f"{what}: requests under way", MOST, far.most)
        compare(f"{what}: what both hold", wanted, held(options, target))
        if far.breaks:
            compare(f"{what}: connections", True, far.connections > 1)
        else:
            compare(f"{what}: {took:.1f} s for {far.replies} replies", True, took < far.replies * DELAY / 2)
            compare(f"{what}: connections", 1, far.connections)
    server.stop()


CHECKS: dict[str, Check] = {"ahead": check_ahead}
