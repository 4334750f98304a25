"""Servers that are killed in the middle of a pass, and started again."""
from __future__ import annotations

import itertools
import signal

from lib.checks import compare
from lib.server import Server, finds_sound
from lib.sync.place import Check, Place
from lib.syncing import DONE, Ran, Relay, copied, empty, held, outcome, serving, synced


def check_killed(place: Place) -> None:
    """Kills a server in the middle of a pass, and starts it again: the next pass brings the rest."""
    options, room, source = place.options, place.room, place.source
    target = f"{room}/killed.db"
    empty(options, target)
    server = serving(options, target)
    # It is killed once it has answered the first batch, of several.
    relay = Relay(server.port, "kills", server, lambda sent: sent.startswith(b"POST /db/_bulk_docs"))
    compare_killed("a server", synced(options, "S1", source, relay.port, more=["--patience", "2"]), server)
    finds_sound(options, "a server that is killed", target)
    compare("a server that is killed: some documents are there, and not all", True, 0 < len(held(options, target)[0]) < len(held(options, source)[0]))
    server = serving(options, target, port=server.port)
    compare("the rest comes by the next pass", DONE, outcome(synced(options, "S2", source, relay.port)))
    relay.listener.close()
    server.stop()
    compare("after a kill: what both hold", held(options, source), held(options, target))


def compare_killed(what: str, ran: Ran, server: Server) -> None:
    """Compares how a pass ended one of whose servers was killed before its end."""
    status, line, _ = ran
    compare(f"{what} that is killed: it was, and the pass stopped", (-signal.SIGKILL, 4, "stopped lost"), (server.process.poll(), status, line[:12]))


def check_killed_source(place: Place) -> None:
    """Kills a server in the middle of a pull, and starts it again: the next pass brings the rest."""
    options, room, source = place.options, place.room, place.source
    served, target = f"{room}/served-then-killed.db", f"{room}/pulled-in-two.db"
    copied(source, served)
    server = serving(options, served)
    # It is killed at the second list of changes: the first has been copied.
    lists = itertools.count(1)
    relay = Relay(server.port, "kills", server, lambda sent: sent.startswith(b"GET /db/_changes") and next(lists) == 2)
    compare_killed("a source", synced(options, "S1", relay.port, target, more=["--create", "--patience", "2"]), server)
    for what, file in [("a source that is killed", served), ("its target", target)]:
        finds_sound(options, what, file)
    compare("a source that is killed: some documents are there, and not all", True, 0 < len(held(options, target)[0]) < len(held(options, served)[0]))
    server = serving(options, served, port=server.port)
    compare("the rest comes by the next pull", DONE, outcome(synced(options, "S2", relay.port, target)))
    relay.listener.close()
    server.stop()
    compare("after a kill of the source: what both hold", held(options, served), held(options, target))


CHECKS: dict[str, Check] = {"killed": check_killed, "killed source": check_killed_source}
