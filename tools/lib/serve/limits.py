"""Limits of a file's size and of the program's memory, and of how much of a file is kept."""
from __future__ import annotations

import argparse

from lib.checks import compare
from lib.server import Server, answer_of, asks, connected, first_revision, reply, request, status_of, text_of

NO_ROOM = 503, text_of({"error": "service_unavailable", "reason": "memory"})
LIMITS = [16, 18, 20, 24, 28, 32, 40, 48, 64, 80, 96, 128, 160, 192, 256, 320]


def check_full(options: argparse.Namespace, file: str) -> None:
    """Fills a disk, by a limit of the file's size: a write is answered by 500, and what was written stays."""
    server = Server(options, file, 1, limit=300_000)
    written, told = [], None
    with connected(server.port) as made:
        asks("a database", made, request("PUT", "/db"), reply(201, {"ok": True}))
        for number in range(200):
            body = {"n": number, "x": "x" * 5000}
            made.sendall(request("PUT", f"/db/f{number}", body))
            told = status_of(made)
            if told != 201:
                break
            written.append(number)
    compare("the disk was full", 500, told)
    server.ended("a full disk")
    server = Server(options, file, 1)
    with connected(server.port) as made:
        for number in written:
            body = {"n": number, "x": "x" * 5000}
            asks("written before the disk was full", made, request("GET", f"/db/f{number}"), reply(200, {"_id": f"f{number}", "_rev": first_revision(body), **body}))
    server.ended("after a full disk")


def large_requests() -> list[tuple[int, bytes]]:
    """Returns requests that take much memory: how many documents each adds, and its bytes."""
    documents = [{"_id": f"m{number:06}"} for number in range(60_000)]
    revisions = [{"_id": "r", "_rev": f"1-{number:05x}"} for number in range(40_000)]
    return [
        (1, request("PUT", "/db/one", {"v": 1})),
        (20_000, request("POST", "/db/_bulk_docs", {"docs": [{"_id": f"s{number:06}", "v": [number]} for number in range(20_000)]})),
        (60_000, request("POST", "/db/_bulk_docs", {"docs": documents})),
        (1, request("POST", "/db/_bulk_docs", {"docs": revisions, "new_edits": False})),
        (1, request("PUT", "/db/array", {"a": [{"b": 1}] * 300_000})),
        (1, request("PUT", "/db/text", {"a": "x" * 3_900_000})),
        (0, request("GET", "/db/_all_docs")),
        (1, request("PUT", "/db/two", {"v": 2})),
    ]


def check_memory(options: argparse.Namespace, folder: str) -> None:
    """Limits the memory: each reply is the wanted one or 503, what was answered is there, and the server goes on."""
    requests = large_requests()
    for limit in LIMITS:
        file, what = f"{folder}/memory{limit}.db", f"with {limit} MB"
        server = Server(options, file, len(requests) + 2, memory=limit << 20)
        compare(f"{what}: a database", 201, server.answer("PUT", "/db")[0])
        count, refusals = 0, 0
        for number, (documents, sent) in enumerate(requests):
            status, body = answer_of(server.port, sent)
            if status == 503:
                compare(f"{what}: refusal of request {number}", NO_ROOM, (status, body))
                refusals += 1
            else:
                compare(f"{what}: status of request {number}", 201 if documents else 200, status)
                count += documents
        compare(f"{what}: how many there are", count, server.answer("GET", "/db")[1]["doc_count"])
        server.ended(what, is_checked=False)
        server = Server(options, file, 1)
        compare(f"{what}: what the file holds", count, server.answer("GET", "/db")[1]["doc_count"])
        server.ended(f"{what}, opened again")
        print(f"serve_check: {what}: {refusals} of {len(requests)} refused")


def check_cache(options: argparse.Namespace, file: str) -> None:
    """Reads a file that is longer than 8 MB: it holds the same, however much of it is kept in memory."""
    server = Server(options, file, 5)
    compare("a database", 201, server.answer("PUT", "/db")[0])
    for part in range(4):
        documents = [{"_id": f"c{number:05}", "x": "x" * 200} for number in range(part * 10_000, (part + 1) * 10_000)]
        compare("documents of a long file", 201, server.answer("POST", "/db/_bulk_docs", {"docs": documents})[0])
    server.ended("a long file")
    for cache, memory in ((None, None), (1, None), (4096, None), (64, 48)):
        what = f"with a cache of {cache} MB, {memory} MB in all"
        server = Server(options, file, 2, cache=cache, memory=memory and memory << 20)
        status, listed = server.answer("GET", "/db/_all_docs?limit=2&skip=39999")
        compare(f"{what}: the last row", (200, ["c39999"]), (status, [row["id"] for row in listed["rows"]]))
        compare(f"{what}: a document", 200, server.answer("GET", "/db/c20000")[0])
        server.ended(what, is_checked=False)


def check(options: argparse.Namespace, folder: str) -> None:
    """Plays requests under limits."""
    check_full(options, f"{folder}/full.db")
    check_memory(options, folder)
    check_cache(options, f"{folder}/cache.db")
