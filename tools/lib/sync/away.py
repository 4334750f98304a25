"""Servers that are away for a while, and one that is slow."""
from __future__ import annotations

import contextlib
import socket
import subprocess
import threading
import time

from lib.checks import compare
from lib.server import finds_sound
from lib.sync.place import Check, Place
from lib.syncing import copied, empty, held, peer, report, serving, synced, words_of
from lib.values import present


def check_away(place: Place) -> None:
    """Kills a server in the middle of a pass, and starts it after some seconds: it costs nothing, nor behind nginx."""
    options, room, source, through = place.options, place.room, place.source, place.through
    ways = [(side, before) for before in ([None, through] if through else [None]) for side in ("source", "target")]
    for side, before in ways:
        served, other = f"{room}/away-{side}{bool(before)}.db", f"{room}/near-{side}{bool(before)}.db"
        copied(source, served if side == "source" else other)
        empty(options, other if side == "source" else served)
        server = serving(options, served, at_once=8)
        port = before(server.port) if before else server.port
        sides = (port, other) if side == "source" else (other, port)
        running = subprocess.Popen(words_of(options, "A1", *sides, more=["--batch", "5"]), stdout=subprocess.PIPE, stderr=subprocess.DEVNULL)
        time.sleep(0.2)
        kills = 0
        while running.poll() is None and kills < 3:
            server.kill()
            kills += 1
            time.sleep(3)
            server = serving(options, served, port=server.port, at_once=8)
            time.sleep(1)
        line = present(running.stdout).read().decode()
        compare(f"a {side} that is away: {line}", (0, True), (running.wait(300), kills > 0))
        server.stop()
        finds_sound(options, f"a {side} that is away", served)
        compare(f"a {side} that is away: what both hold", held(options, source), held(options, other if side == "source" else served))


def check_slow(place: Place) -> None:
    """Sends a byte each second: the pass takes as long as the patience, and not longer."""
    options, source = place.options, place.source
    ends = threading.Event()

    def answer(listener: socket.socket, made: socket.socket) -> None:
        def drip() -> None:
            with made, contextlib.suppress(OSError):
                made.recv(65536)
                made.sendall(b"HTTP/1.1 200 OK\r\nContent-Length: 500\r\n\r\n")
                while not ends.wait(1):
                    made.sendall(b" ")

        threading.Thread(target=drip, daemon=True).start()

    begun = time.monotonic()
    with peer(answer) as port:
        compare("a byte a second", (4, "stopped lost " + report(0, 0, 0), []), synced(options, "D1", source, port, more=["--patience", "3"]))
    waited = time.monotonic() - begun
    ends.set()
    compare("how long it was waited for the bytes", True, 2.5 <= waited <= 12)


CHECKS: dict[str, Check] = {"away": check_away, "slow": check_slow}
