"""What a terminal shows of a pass."""
from __future__ import annotations

import argparse
import json
import re
from collections.abc import Iterable
from typing import Optional

from lib.checks import compare
from lib.server import connected
from lib.sync.place import Check, Place
from lib.syncing import DONE, Relay, Side, asked, copied, on_terminal, outcome, serving, synced
from lib.values import Json

SHOWN = re.compile("\r(\\d+) documents sent, sequence (\\d+)(, about (\\d+) changes( and (\\d+ s|\\d+ min|\\d+ h \\d+ min))? left)?\x1b\\[K")


# A row: the documents sent, the sequence, the changes that are left, or None, and whether a time is told.
Row = tuple[int, int, Optional[int], bool]


def shown(
    options: argparse.Namespace,
    session: str,
    source: Side,
    target: Side,
    more: Iterable[str] = (),
    databases: tuple[str, str] = ("db", "db"),
) -> tuple[int, Json, list[Row]]:
    """Runs a pass whose standard error is a terminal. Returns its status, its report, and the rows that were shown.

    Where anything else was shown, that is told, and there are none.
    """
    status, line, lines = on_terminal(options, session, source, target, more, databases)
    rows = [(int(row[1]), int(row[2]), int(row[4]) if row[4] else None, bool(row[5])) for row in SHOWN.finditer(lines[0])]
    if SHOWN.sub("", lines[0]) != "" or lines[1:] not in ([], [""]):
        compare(f"{session}: what a terminal shows", "rows alone", lines)
        rows = []
    return status, json.loads(line), rows


def check_shown(place: Place) -> None:
    """Copies on a terminal, which shows what is sent after each batch, and what is left of the source as it was before.

    A time is told too, but for the first batch. Else the source isn't asked for more than the pass asks.
    """
    options, room, source, last = place.options, place.room, place.source, place.last
    copied(source, f"{room}/shown.db")
    copied(source, f"{room}/shown-served.db")
    served, into = (serving(options, f"{room}/shown-{name}.db", at_once=8) for name in ("served", "into"))
    with connected(into.port) as made:
        for name in ("one", "two"):
            asked(made, "PUT", f"/{name}")
    batches = -(-(options.documents + 2) // 500)
    passes: list[tuple[str, tuple[Side, Side], str, list[str]]] = [
        ("file to file", (f"{room}/shown.db", f"{room}/shown-1.db"), "db", ["--create"]),
        ("file to server", (f"{room}/shown.db", into.port), "one", []),
        ("server to file", (served.port, f"{room}/shown-2.db"), "db", ["--create"]),
        ("server to server", (served.port, into.port), "two", []),
    ]
    for what, sides, name, more in passes:
        status, told, rows = shown(options, "S1", *sides, more=more, databases=("db", name))
        compare(f"{what} on a terminal", (0, last, []), (status, told["last_seq"], told["refused"]))
        wanted = [(sent, sequence, last - sequence, number > 0) for number, (sent, sequence, *_) in enumerate(rows[:-1])]
        compare(f"{what}: what is shown", [*wanted, (told["sent"], last, None, False)], rows)
        compare(f"{what}: once a batch", (batches, sorted(rows)), (len(rows), rows))
        compare(f"{what}: nothing is shown of nothing", (0, []), shown(options, "S2", *sides, more=more, databases=("db", name))[::2])
    relay = Relay(served.port, "keeps")
    compare("no terminal", DONE, outcome(synced(options, "S3", relay.port, f"{room}/shown-3.db", more=["--create"])))
    asks = relay.requests
    compare("a terminal", 0, shown(options, "S3", relay.port, f"{room}/shown-4.db", more=["--create"])[0])
    compare("a terminal: one request more", asks + 1, relay.requests - asks)
    relay.listener.close()
    relay = Relay(served.port, "hides")
    status, told, rows = shown(options, "S4", relay.port, f"{room}/shown-5.db", more=["--create"])
    compare("a source that hides how far it goes", (0, last, []), (status, told["last_seq"], told["refused"]))
    compare("a source that hides how far it goes: what is shown", [(sent, sequence, None, False) for sent, sequence, *_ in rows], rows)
    relay.listener.close()
    served.stop()
    into.stop()


CHECKS: dict[str, Check] = {"shown": check_shown}
