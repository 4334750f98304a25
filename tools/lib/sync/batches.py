"""Batches that are too long for one request, and documents of many leaves."""
from __future__ import annotations

import argparse
import json
import os

from lib.checks import compare
from lib.server import connected, first_revision, text_of
from lib.sync.place import Check, Place
from lib.syncing import DONE, asked, empty, held, outcome, report, serving, synced


def long_documents(options: argparse.Namespace, room: str) -> str:
    """Makes a database of 500 documents of 10 kB and three of 1.5 MB, and returns its file."""
    file = f"{room}/long.db"
    server = serving(options, file)
    with connected(server.port) as made:
        asked(made, "PUT", "/db")
        for start in range(0, 500, 100):
            documents = [{"_id": f"s{number:03}", "text": "x" * 10000} for number in range(start, start + 100)]
            compare("short documents", 201, asked(made, "POST", "/db/_bulk_docs", {"docs": documents})[0])
        for number in range(3):
            compare("a long document", 201, asked(made, "PUT", f"/db/m{number}", {"text": "y" * 1500000})[0])
    server.stop()
    return file


def check_long(place: Place) -> None:
    """Batches of more than 4 MiB go over in smaller ones; a document that a proxy refuses is named."""
    options, room, through = place.options, place.room, place.through
    source, target = long_documents(options, room), f"{room}/long-copy.db"
    wanted = held(options, source)
    for what, before in (("server to server", lambda port: port), ("through nginx", through)):
        if before is None:
            continue
        empty(options, target)
        first, second = serving(options, source, at_once=8), serving(options, target, at_once=8)
        ports = before(first.port), before(second.port)
        status, line, said = synced(options, "L1", *ports, more=["--log"])
        told = json.loads(line) if line.startswith("{") else line
        compare(f"long batches, {what}", (0, {"last_seq": 503, "refused": [], "sent": 503, "start_seq": 0}, []), (status, told, said))
        compare(f"long batches, {what}: once more", (0, report(503, 0, 503), []), synced(options, "L2", *ports))
        first.stop()
        second.stop()
        compare(f"long batches, {what}: what both hold", wanted, held(options, target))
        for file in (target, f"{target}-wal"):
            os.remove(file)
    if through:
        empty(options, target)
        server = serving(options, target, at_once=8)
        narrow = through(server.port, "1m")
        status, line, said = synced(options, "L3", source, narrow, more=["--log"])
        compare("a document that alone is too long", (4, True), (status, line.startswith("stopped status 413 ")))
        rev = first_revision({"text": "y" * 1500000})
        shown = {"_id": "m0", "_rev": rev, "_revisions": {"ids": [rev[2:]], "start": 1}, "text": "y" * 1500000}
        length = len(text_of({"docs": [shown], "new_edits": False}))
        compare("its id and its length", [f"couchd: too long for the target: m0, {length} bytes with all its leaves"], said)
        compare("without --log nothing is said", [], synced(options, "L4", source, narrow)[2])
        with connected(server.port) as made:
            compare("what came before it", 500, asked(made, "GET", "/db")[1]["doc_count"])
        compare("it comes where it may", DONE, outcome(synced(options, "L5", source, server.port)))
        server.stop()
        compare("a document that alone was too long: what both hold", wanted, held(options, target))


def check_leaves(place: Place) -> None:
    """Copies a document of 380 leaves, through nginx too: its leaves are asked for in several requests."""
    options, room, through = place.options, place.room, place.through
    source = f"{room}/leaves.db"
    server = serving(options, source, at_once=8)
    with connected(server.port) as made:
        asked(made, "PUT", "/db")
        revisions = [{"_id": "many", "_rev": f"1-{number:032x}", "v": number} for number in range(380)]
        compare("380 leaves", (201, []), asked(made, "POST", "/db/_bulk_docs", {"docs": revisions, "new_edits": False}))
    for what, port in (("directly", server.port), ("through nginx", through and through(server.port))):
        if port:
            target = f"{room}/leaves-{what.split()[0]}.db"
            compare(f"380 leaves {what}", DONE, outcome(synced(options, "V1", port, target, more=["--create"])))
            compare(f"380 leaves {what}: how many came", 380, len(held(options, target)[0]["many"]))
    server.stop()


CHECKS: dict[str, Check] = {"long": check_long, "leaves": check_leaves}
