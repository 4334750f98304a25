"""Reads and writes of the server that are interrupted from outside."""
from __future__ import annotations

import argparse
import signal
import subprocess
import time

from lib.checks import compare, find
from lib.server import WELCOME, Server, asks, connected, first_revision, received, reply, request


def pause(server: Server) -> None:
    """Stops the server's process, and lets it go on."""
    server.pause()
    time.sleep(0.2)
    server.go_on()
    time.sleep(0.2)


def trace(server: Server) -> None:
    """Attaches strace to the server's process, and detaches it."""
    tracer = subprocess.Popen(["strace", "-f", "-o", "/dev/null", "-p", str(server.process.pid)], stderr=subprocess.DEVNULL)
    time.sleep(0.5)
    tracer.send_signal(signal.SIGINT)
    tracer.wait(60)
    time.sleep(0.2)


def check_interrupted(options: argparse.Namespace, file: str, at_once: int | None) -> None:
    """Reads and writes that wait go on where the server's process is stopped and goes on, or strace is attached and detached."""
    server = Server(options, file, 1, at_once=at_once)
    body = {"v": "x" * 3_000_000}
    wanted = reply(200, {"_id": "big", "_rev": first_revision(body), **body})
    ways = [pause] + [trace] * bool(find("strace"))
    with connected(server.port) as made:
        asks("a database", made, request("PUT", "/db"), reply(201, {"ok": True}))
        asks("a document", made, request("PUT", "/db/big", body), reply(201, {"id": "big", "ok": True, "rev": first_revision(body)}))
        for way in ways:
            what = f"{way.__name__}, at once {at_once}"
            way(server)
            asks(f"{what}: before a request", made, request("GET", "/", user=None), WELCOME)
            sent = request("PUT", f"/db/{way.__name__}", {"n": 1})
            made.sendall(sent[:30])
            time.sleep(0.2)
            way(server)
            made.sendall(sent[30:-3])
            way(server)
            asks(f"{what}: in the middle of a request", made, sent[-3:], reply(201, {"id": way.__name__, "ok": True, "rev": first_revision({"n": 1})}))
            # More than the system keeps for a client that takes nothing yet.
            made.sendall(request("GET", "/db/big") * 5)
            time.sleep(0.5)
            way(server)
            compare(f"{what}: in the middle of a reply", True, received(made, 5 * len(wanted)) == wanted * 5)
    server.ended(f"interrupted, at once {at_once}")


def check(options: argparse.Namespace, folder: str) -> None:
    """Interrupts a server with one connection at once, and one with two."""
    check_interrupted(options, f"{folder}/interrupted.db", None)
    check_interrupted(options, f"{folder}/interrupted_at_once.db", 2)
