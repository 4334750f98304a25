"""Servers that are no couchd, that say nothing, or that aren't there; and addresses that are none."""
from __future__ import annotations

import os
import socket
import subprocess
import time

from lib.checks import compare
from lib.sync.place import Check, Place
from lib.syncing import Ran, peer, report, synced, talks, words_of


def check_peers(place: Place) -> None:
    """Asks servers that are no couchd, and none at all, as targets and as sources."""
    options, room, source = place.options, place.room, place.source
    lost: Ran = (4, "stopped lost " + report(0, 0, 0), [])
    unreadable: Ran = (4, "stopped reply " + report(0, 0, 0), [])
    strangers = [
        ("a web server", b"HTTP/1.1 200 OK\r\nContent-Length: 5\r\n\r\nhello", unreadable),
        ("one that knows no such page", b"HTTP/1.1 404 Not Found\r\nContent-Length: 2\r\n\r\n{}", (4, "stopped status 404 " + report(0, 0, 0), [])),
        ("a mail server", b"220 mail ready\r\n", unreadable),
        ("a reply in chunks", b"HTTP/1.1 200 OK\r\nTransfer-Encoding: chunked\r\n\r\n2\r\n{}\r\n0\r\n\r\n", unreadable),
        ("a reply of no length", b"HTTP/1.1 200 OK\r\n\r\n{}", unreadable),
        ("a reply that is too long", b"HTTP/1.1 200 OK\r\nContent-Length: 67108865\r\n\r\n", unreadable),
        ("a reply without content", b"HTTP/1.1 204 No Content\r\n\r\n", unreadable),
        ("a reply before the reply", b"HTTP/1.1 100 Continue\r\n\r\n", unreadable),
        ("one that says nothing and closes", b"", lost),
        ("one that closes in the middle", b"HTTP/1.1 200 OK\r\nContent-Length: 5\r\n\r\nhe", lost),
    ]
    for what, text, wanted in strangers:
        with peer(talks(text)) as port:
            compare(what, wanted, synced(options, "S1", source, port, more=["--patience", "1"]))
            compare(f"{what}, as a source", wanted, synced(options, "S1", port, f"{room}/of-none.db", more=["--create", "--patience", "1"]))
    with socket.create_server(("127.0.0.1", 0)) as listener:
        port = listener.getsockname()[1]
    compare("nobody listens", lost, synced(options, "S1", source, port, more=["--patience", "1"]))
    compare("nobody listens, as a source", lost, synced(options, "S1", port, f"{room}/of-none.db", more=["--create", "--patience", "1"]))


def check_silent(place: Place) -> None:
    """Says nothing as a server: the first exchange waits for half a minute, and is lost."""
    options, source = place.options, place.source
    kept = []

    def answer(listener: socket.socket, made: socket.socket) -> None:
        kept.append(made)
        # Nobody listens any more, so what follows is lost at once.
        listener.close()

    begun = time.monotonic()
    with peer(answer) as port:
        compare("a silent server", (4, "stopped lost " + report(0, 0, 0), []), synced(options, "S1", source, port, more=["--patience", "40"]))
    waited = time.monotonic() - begun
    compare("how long it was waited for", True, 29 <= waited <= 75)


def check_names(place: Place) -> None:
    """Names a source that isn't there, which makes nothing; and what is no address, which is a wrong command line."""
    options, room, source = place.options, place.room, place.source
    gone, target = f"{room}/gone.db", f"{room}/none-made.db"
    compare("a source file that isn't there", (1, "", ["couchd: file"]), synced(options, "F1", gone, target, more=["--create"]))
    compare("a source file that isn't there: what is made", [], [path for path in (gone, f"{gone}-wal", target, f"{target}-wal") if os.path.exists(path)])
    for address in ("office", "office:", ":80", "127.0.0.1:0", "127.0.0.1:65536", "127.0.0.1:http", "http://127.0.0.1:80"):
        words = words_of(options, "F2", source, 1)
        words[words.index("127.0.0.1:1")] = address
        ran = subprocess.run(words, stdin=subprocess.DEVNULL, capture_output=True, timeout=60)
        said = [line for line in ran.stderr.decode().splitlines() if "unproved" not in line]
        compare(f"the address {address}", (2, b"", ["couchd: usage"]), (ran.returncode, ran.stdout, said))


CHECKS: dict[str, Check] = {"peers": check_peers, "names": check_names}
