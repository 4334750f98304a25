"""Requests on connections that come one after another."""
from __future__ import annotations

import argparse
import hashlib
import socket
import time

from lib.checks import compare
from lib.server import WELCOME, Server, asks, connected, first_revision, reply, request, resets, rest_of, text_of


def check_requests(options: argparse.Namespace, file: str) -> None:
    """Requests on four connections of one server, one behind another, and the end."""
    server = Server(options, file, 4)
    body = {"v": 1}
    revision = first_revision(body)
    with connected(server.port) as made:
        asks("welcome", made, request("GET", "/", user=None), WELCOME)
        asks("a new database", made, request("PUT", "/db"), reply(201, {"ok": True}))
        asks("a new document", made, request("PUT", "/db/a", body), reply(201, {"id": "a", "ok": True, "rev": revision}))
        asks("the document", made, request("GET", "/db/a"), reply(200, {"_id": "a", "_rev": revision, "v": 1}))
        asks("nobody reads it", made, request("GET", "/db/a", user=None), reply(401, {"error": "unauthorized", "reason": "You are not allowed to access this db.", "rule": "db_member"}))
        two = request("GET", "/db/a") + request("GET", "/db/b")
        asks("two requests at once", made, two, reply(200, {"_id": "a", "_rev": revision, "v": 1}), reply(404, {"error": "not_found", "reason": "missing"}))
        cut = request("PUT", "/db/c", {"long": "x" * 20000})
        made.sendall(cut[:100])
        time.sleep(0.2)
        asks("a request in pieces", made, cut[100:], reply(201, {"id": "c", "ok": True, "rev": first_revision({"long": "x" * 20000})}))
    with connected(server.port) as made:
        made.sendall(request("GET", "/_all_dbs") + request("GET", "/db/a", more=["Connection: close"]) + request("GET", "/db/a"))
        wanted = reply(200, ["db"]) + reply(200, {"_id": "a", "_rev": revision, "v": 1}, last=True)
        compare("a second connection, and its last request", wanted, rest_of(made))
    with connected(server.port) as made:
        made.sendall(b"GET / HTTP/1.1\r\nHost:\r\n a\r\n\x00\r\n\r\n")
        compare("a fault of syntax", reply(400, {"error": "bad_request", "reason": "syntax"}, last=True), rest_of(made))
    with connected(server.port) as made:
        large = b"PUT /db/large HTTP/1.1\r\nContent-Length: 6000000\r\n\r\n" + b" " * 6000000
        try:
            made.sendall(large)
        except OSError:
            pass
        compare("a body that is too large", reply(413, {"error": "too_large", "reason": "request"}, last=True), rest_of(made))
    server.ended("four connections")


def check_shut(options: argparse.Namespace, file: str) -> None:
    """Shuts a client's side, which has sent all, before its connection is accepted: it has every reply."""
    server = Server(options, file, 2)
    body = {"v": 1}
    revision = first_revision(body)
    with connected(server.port) as first, connected(server.port) as waiting:
        # The server serves the first connection, and hasn't seen the second.
        asks("a database", first, request("PUT", "/db"), reply(201, {"ok": True}))
        waiting.sendall(request("PUT", "/db/a", body) + request("GET", "/db/a") + b"GET /db")
        waiting.shutdown(socket.SHUT_WR)
        first.close()
        wanted = reply(201, {"id": "a", "ok": True, "rev": revision}) + reply(200, {"_id": "a", "_rev": revision, **body})
        compare("a client that shut its side before it was accepted", wanted, rest_of(waiting))
    server.ended("a client that shut its side")


def check_broken(options: argparse.Namespace, file: str) -> None:
    """Connections that break off don't end the server; each counts."""
    server = Server(options, file, 5)
    connected(server.port).close()
    with connected(server.port) as made:
        made.sendall(request("GET", "/db/c")[:40])
    made = connected(server.port)
    made.sendall(request("GET", "/_all_dbs") * 3)
    resets(made)
    made = connected(server.port)
    made.sendall(request("GET", "/_all_dbs") * 2000)
    made.recv(10)
    resets(made)
    with connected(server.port) as made:
        asks("after connections that broke off", made, request("GET", "/", user=None), WELCOME)
    server.ended("connections that break off")


def check_kept(options: argparse.Namespace, file: str) -> None:
    """Reads in the file what the server before has written."""
    server = Server(options, file, 1)
    with connected(server.port) as made:
        asks("a document of before", made, request("GET", "/db/a"), reply(200, {"_id": "a", "_rev": first_revision({"v": 1}), "v": 1}))
    server.ended("a second start")


def check_many(options: argparse.Namespace, file: str) -> None:
    """Writes two hundred new documents, reads them back and deletes them."""
    server = Server(options, file, 1)
    with connected(server.port) as made:
        for number in range(200):
            body = {"n": number}
            path, revision = f"/db/m{number}", first_revision(body)
            gone = hashlib.md5(text_of([True, 1, revision[2:], {}])).hexdigest()
            asks("a new document", made, request("PUT", path, body), reply(201, {"id": path[4:], "ok": True, "rev": revision}))
            asks("read back", made, request("GET", path), reply(200, {"_id": path[4:], "_rev": revision, **body}))
            asks("deleted", made, request("DELETE", f"{path}?rev={revision}"), reply(200, {"id": path[4:], "ok": True, "rev": f"2-{gone}"}))
    server.ended("two hundred documents")


def check(options: argparse.Namespace, folder: str) -> None:
    """Plays requests on one file, and with a store over it reads there what the server before has written."""
    file = f"{folder}/a.db"
    check_requests(options, file)
    check_broken(options, file)
    check_shut(options, f"{folder}/shut.db")
    if not options.in_memory:
        check_kept(options, file)
        check_many(options, file)
