"""Silent and slow clients, and how long the server waits for them."""
from __future__ import annotations

import argparse
import concurrent.futures
import contextlib
import signal
import socket
import time
from collections.abc import Iterator

from lib.checks import compare
from lib.serve.connections import drip, start_all
from lib.server import WELCOME, Server, asks, connected, first_revision, received, reply, request, rest_of


def check_silent(options: argparse.Namespace, file: str) -> None:
    """Sends nothing: the client is left after 30 seconds, without a reply, and the next one is served."""
    server = Server(options, file, 2)
    with connected(server.port) as silent, connected(server.port) as waiting:
        begun = time.monotonic()
        asks("behind a silent client", waiting, request("GET", "/", user=None), WELCOME)
        compare("whether it waited for 29 to 60 seconds", True, 29 <= time.monotonic() - begun <= 60)
        compare("what the silent client was told", b"", rest_of(silent))
    server.ended("a silent client")


def check_idle(options: argparse.Namespace, file: str) -> None:
    """Leaves a connection silent, which is closed after 60 seconds; one whose request isn't whole is after 30."""
    server = Server(options, file, 2, at_once=2)
    with connected(server.port) as silent, connected(server.port) as slow:
        silent.settimeout(90)
        begun = time.monotonic()
        start_all([lambda: drip(slow, request("GET", "/db/a"))])
        told = b""
        # The end of a connection to which bytes still come may be a reset.
        with contextlib.suppress(ConnectionResetError):
            told = rest_of(slow)
        compare("what the slow client was told", b"", told)
        compare("whether it had 29 to 45 seconds", True, 29 <= time.monotonic() - begun <= 45)
        compare("what the silent client was told", b"", rest_of(silent))
        compare("whether it had 59 to 75 seconds", True, 59 <= time.monotonic() - begun <= 75)
    server.ended("silent and slow clients")


def check_takes_nothing(options: argparse.Namespace, file: str) -> None:
    """Takes no replies: the client is left, and the next one is served; forty replies of 1 MB are more than sockets keep.

    Each write waits for 30 seconds. The system's buffers grow while they fill, so the first two may end by taking some bytes.
    """
    server = Server(options, file, 3)
    with connected(server.port) as made:
        asks("a database", made, request("PUT", "/db"), reply(201, {"ok": True}))
        body = {"v": "x" * 1_000_000}
        asks("a large document", made, request("PUT", "/db/a", body), reply(201, {"id": "a", "ok": True, "rev": first_revision(body)}))
    with connected(server.port) as taker, connected(server.port) as waiting:
        waiting.settimeout(150)
        taker.sendall(request("GET", "/db/a") * 40)
        begun = time.monotonic()
        asks("behind a client that takes nothing", waiting, request("GET", "/", user=None), WELCOME)
        compare("behind a client that takes nothing: whether it waited for 29 to 120 seconds", True, 29 <= time.monotonic() - begun <= 120)
    server.ended("a client that takes nothing")


def send_all(made: socket.socket, sent: bytes) -> None:
    """Sends bytes, until the server ends the connection; nothing is told."""
    with contextlib.suppress(OSError):
        made.sendall(sent)


def check_stall(options: argparse.Namespace, file: str) -> None:
    """A server that stalls for 32 seconds doesn't charge its clients: one within a large document, and one within a head, go on."""
    server = Server(options, file, 2, at_once=2)
    with connected(server.port) as large, connected(server.port) as small:
        asks("a database", large, request("PUT", "/db"), reply(201, {"ok": True}))
        body = {"v": "x" * 4_000_000}
        sent = request("PUT", "/db/large", body)
        head = request("GET", "/", user=None)
        large.sendall(sent[:100_000])
        small.sendall(head[:10])
        time.sleep(1)
        server.process.send_signal(signal.SIGSTOP)
        start_all([lambda: send_all(large, sent[100_000:])])
        time.sleep(32)
        server.process.send_signal(signal.SIGCONT)
        time.sleep(2)
        send_all(small, head[10:])
        wanted = reply(201, {"id": "large", "ok": True, "rev": first_revision(body)})
        for what, made, told in [("a large document that was being sent in a stall", large, wanted), ("a head that ends behind a stall", small, WELCOME)]:
            got = b""
            with contextlib.suppress(OSError):
                got = received(made, len(told))
            compare(what, told, got)
    server.ended("a stall")


# They mostly wait, each with a file of its own.
CHECKS = [(check_silent, "silent.db"), (check_idle, "idle.db"), (check_takes_nothing, "nothing.db"), (check_stall, "stall.db")]


def check(options: argparse.Namespace, folder: str) -> None:
    """Waits as the server does."""
    for one, name in CHECKS:
        one(options, f"{folder}/{name}")


@contextlib.contextmanager
def run_aside(options: argparse.Namespace, folder: str) -> Iterator[None]:
    """Runs the checks beside others; behind them, where all use one port."""
    if options.port:
        yield
        check(options, folder)
        return
    with concurrent.futures.ThreadPoolExecutor() as aside:
        running = [aside.submit(one, options, f"{folder}/{name}") for one, name in CHECKS]
        yield
        for one in running:
            one.result()
