"""Passes beside others who write at the same servers."""
from __future__ import annotations

import threading
import time

from lib.checks import compare
from lib.server import connected
from lib.sync.place import Check, Place
from lib.syncing import DONE, asked, empty, held, outcome, serving, synced


class Writer(threading.Thread):
    """Writes a hundred documents a second at a server, until it is stopped; keeps what was answered. A pass that is
    slower than the writes at its source doesn't end before these do."""

    def __init__(self, port: int, name: str) -> None:
        super().__init__(daemon=True)
        self.port, self.name, self.ends = port, name, threading.Event()
        self.answered: list[tuple[str, str]] = []

    def run(self) -> None:
        with connected(self.port) as made:
            for number in range(1000000):
                if self.ends.wait(0.01):
                    return
                status, told = asked(made, "PUT", f"/db/{self.name}{number}", {"by": self.name, "number": number})
                if status == 201:
                    self.answered.append((told["id"], told["rev"]))

    def stop(self) -> None:
        self.ends.set()
        self.join(60)


def check_both_ways(place: Place) -> None:
    """Copies both ways while somebody writes at the office; a device and the office have changed one document."""
    options, room = place.options, place.room
    device, office = f"{room}/device.db", f"{room}/office.db"
    for file, text in ((device, "device"), (office, "office")):
        server = serving(options, file)
        with connected(server.port) as made:
            asked(made, "PUT", "/db")
            asked(made, "PUT", "/db/both", {"from": text})
            documents = [{"_id": f"{text}{number}", "v": number} for number in range(min(600, options.documents))]
            compare(f"{text}: filled", 201, asked(made, "POST", "/db/_bulk_docs", {"docs": documents})[0])
        server.stop()
    server = serving(options, office, at_once=8)
    writer = Writer(server.port, "late")
    writer.start()
    for turn in range(3):
        compare(f"push {turn} beside writes", DONE, outcome(synced(options, f"P{turn}", device, server.port)))
        compare(f"pull {turn} beside writes", DONE, outcome(synced(options, f"Q{turn}", server.port, device)))
    writer.stop()
    compare("the writes of others were answered", True, len(writer.answered) > 0)
    compare("the last push", DONE, outcome(synced(options, "P", device, server.port)))
    compare("the last pull", DONE, outcome(synced(options, "Q", server.port, device)))
    server.stop()
    leaves, winners = held(options, office)
    compare("both ways: what both hold", (leaves, winners), held(options, device))
    compare("both ways: two leaves of the document that both changed", 2, len(leaves["both"]))
    compare("both ways: what was answered is there", [], [one for one in writer.answered if one not in winners])


def check_backup(place: Place) -> None:
    """Backs up a server that others write to: the copy has each document that was answered before the pass began."""
    options, room = place.options, place.room
    served, copy = f"{room}/busy.db", f"{room}/backup.db"
    empty(options, served)
    server = serving(options, served, at_once=8)
    writers = [Writer(server.port, name) for name in ("x", "y", "z")]
    for writer in writers:
        writer.start()
    for turn in range(2):
        time.sleep(1)
        wanted = [one for writer in writers for one in list(writer.answered)]
        compare(f"backup {turn}", DONE, outcome(synced(options, f"B{turn}", server.port, copy, more=["--create"])))
        has = set(held(options, copy)[1])
        compare(f"backup {turn}: what was answered before is there", [], [one for one in wanted if one not in has])
        compare(f"backup {turn}: there was something", True, len(wanted) > 0)
    for writer in writers:
        writer.stop()
    server.stop()


CHECKS: dict[str, Check] = {"both ways": check_both_ways, "backup": check_backup}
