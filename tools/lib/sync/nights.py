"""Passes of several nights, in which a rule refuses some documents until it is mended."""
from __future__ import annotations

import json
import socket

from lib.checks import compare
from lib.server import ADMIN, connected, reply_of, request
from lib.sync.place import Check, Place
from lib.syncing import DONE, asked, held, on_terminal, outcome, serving, synced
from lib.values import Json

OWNED = {"newDoc.owner": {"$sameAs": "userCtx.name"}}
MENDED = {"$or": [{"userCtx.roles": {"$all": ["_admin"]}}, OWNED]}


def written(made: socket.socket, user: str, path: str, body: Json) -> int:
    """Writes a document as a user, and returns the status."""
    made.sendall(request("PUT", path, body, user=user))
    return int(reply_of(made)[0][9:12])


def check_nights(place: Place) -> None:
    """Refuses at the target what others wrote, by a rule of the source; mended, a pass from the start brings it."""
    options, room = place.options, place.room
    source, target = f"{room}/owned.db", f"{room}/owned-copy.db"
    server = serving(options, source, at_once=8)
    with connected(server.port) as made:
        asked(made, "PUT", "/db")
        asked(made, "PUT", "/db/_security", {})
        rule = asked(made, "PUT", "/db/_design/owner", {"validate_doc_update": OWNED})[1]
        asked(made, "PUT", "/db/a", {"owner": ADMIN})
        compare("night 1", DONE, outcome(synced(options, "N1", server.port, target, more=["--create"])))
        for user in ("ann", "bob", "eve"):
            compare(f"{user} writes", 201, written(made, user, f"/db/{user}", {"owner": user}))
        status, refused, said = outcome(synced(options, "N2", server.port, target, more=["--log"]))
        line = "couchd: 3 refused, the first ann by _design/owner: run it with --from-start once the target admits them"
        compare("night 2", (3, ["ann", "bob", "eve"], [line]), (status, [one["id"] for one in refused], said))
        status, text, said = synced(options, "N3", server.port, target, more=["--log"])
        compare("night 3", (0, 0, []), (status, json.loads(text)["sent"], said))
        status, text, said = synced(options, "N4", server.port, target, more=["--from-start"])
        compare("from the start, with the rule", (3, 0, []), (status, json.loads(text)["start_seq"], said))
        status, _, shown = on_terminal(options, "N4", server.port, target, more=["--from-start"])
        compare("what is shown of it on a terminal", (3, True), (status, line in shown))
        asked(made, "PUT", f"/db/_design/owner?rev={rule['rev']}", {"validate_doc_update": MENDED})
        compare("the mended rule", DONE, outcome(synced(options, "N5", server.port, target)))
        status, line, said = synced(options, "N6", server.port, target, more=["--from-start"])
        told = json.loads(line)
        compare("from the start, with the mended rule", (0, 3, 0, []), (status, told["sent"], told["start_seq"], told["refused"]))
        status, line, said = synced(options, "N7", server.port, target)
        compare("the checkpoint of a pass from the start", (0, told["last_seq"], 0), (status, json.loads(line)["start_seq"], json.loads(line)["sent"]))
    server.stop()
    compare("all four documents", ["_design/owner", "a", "ann", "bob", "eve"], [id for id, _ in held(options, target)[1]])
    compare("from the start: what both hold", held(options, source), held(options, target))


CHECKS: dict[str, Check] = {"nights": check_nights}
