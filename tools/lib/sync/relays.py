"""Connections that are kept open, or closed by whoever stands in between."""
from __future__ import annotations

from lib.checks import compare
from lib.sync.place import Check, Place
from lib.syncing import DONE, Relay, empty, fill, held, outcome, serving, synced


def check_relays(place: Place) -> None:
    """Copies through relays, by a pull and a push: which connections are used again, and that all comes over."""
    options, room = place.options, place.room
    source = f"{room}/relayed.db"
    fill(options, source, min(60, options.documents))
    wanted = held(options, source)
    server = serving(options, source, at_once=8)
    for way in ("keeps", "closes", "tells", "1.0", "more", "drops"):
        relay = Relay(server.port, way)
        target = f"{room}/relayed-{way}.db"
        compare(f"a relay that {way}: a pull", DONE, outcome(synced(options, way, relay.port, target, more=["--create"])))
        if way == "keeps":
            compare("a relay that keeps: one connection", 1, relay.count)
        if way in ("tells", "1.0", "more"):
            compare(f"a relay, {way}: a connection for each request", relay.requests, relay.count)
        if way == "drops":
            compare("a relay that drops: more than one connection", True, relay.count > 1)
        relay.listener.close()
        compare(f"a relay that {way}: what both hold", wanted, held(options, target))
    server.stop()
    for way in ("keeps", "drops"):
        target = f"{room}/pushed-{way}.db"
        empty(options, target)
        server = serving(options, target, at_once=8)
        relay = Relay(server.port, way)
        compare(f"a relay that {way}: a push", DONE, outcome(synced(options, way, source, relay.port)))
        relay.listener.close()
        server.stop()
        compare(f"a relay that {way}: what both hold after a push", wanted, held(options, target))


CHECKS: dict[str, Check] = {"relays": check_relays}
