"""Passes between files and servers, both ways, through nginx too, and the databases that they make."""
from __future__ import annotations

import json
import time

from lib.checks import compare
from lib.server import connected
from lib.sync.place import Check, Place, through_nginx
from lib.syncing import DONE, Through, asked, empty, held, outcome, report, serving, synced


def check_address(place: Place, through: Through | None = None) -> None:
    """Copies from a file to a server, perhaps through nginx."""
    options, room, source, last = place.options, place.room, place.source, place.last
    what = "through nginx" if through else "file to server"
    target = f"{room}/{'behind' if through else 'served'}.db"
    empty(options, target)
    server = serving(options, target, at_once=8 if through else None)
    port = through(server.port) if through else server.port
    status, line, said = synced(options, "S1", source, port)
    compare(what, (0, last, []), (status, json.loads(line.removeprefix("stopped "))["last_seq"] if status == 0 else line, said))
    compare(f"{what} once more", (0, report(last, 0, last), []), synced(options, "S2", source, port))
    server.stop()
    compare(f"{what}: what both hold", held(options, source), held(options, target))


def check_pull(place: Place, through: Through | None = None) -> None:
    """Copies from a server to a file, perhaps through nginx: a word alone makes the database, closed as a new one."""
    options, room, source, last = place.options, place.room, place.source, place.last
    what = "a pull through nginx" if through else "a pull"
    target = f"{room}/{'pulled-behind' if through else 'pulled'}.db"
    server = serving(options, source, at_once=8 if through else None)
    port = through(server.port) if through else server.port
    compare(f"{what}: no database", (4, "stopped status 404 " + report(0, 0, 0), []), synced(options, "S1", port, target))
    status, line, said = synced(options, "S2", port, target, more=["--create"])
    compare(what, (0, last, []), (status, json.loads(line)["last_seq"] if status == 0 else line, said))
    compare(f"{what} once more", (0, report(last, 0, last), []), synced(options, "S3", port, target, more=["--create"]))
    compare(f"{what}: nobody's", (4, "stopped status 401 " + report(0, 0, 0), []), synced(options, "S4", port, target, user=None))
    server.stop()
    compare(f"{what}: what both hold", held(options, source), held(options, target))
    server = serving(options, target)
    with connected(server.port) as made:
        asked(made, "PUT", "/new")
        compare(f"{what}: who may read it", asked(made, "GET", "/new/_security"), asked(made, "GET", "/db/_security"))
    server.stop()


def check_created(place: Place) -> None:
    """Copies into a database that is there: it isn't made again, and keeps what it holds and who may read it."""
    options, room, source = place.options, place.room, place.source
    target = f"{room}/created.db"
    server = serving(options, target)
    security = {"admins": {"names": [], "roles": []}, "members": {"names": ["alice"], "roles": []}}
    with connected(server.port) as made:
        asked(made, "PUT", "/db")
        asked(made, "PUT", "/db/_security", security)
        asked(made, "PUT", "/db/own", {"v": 1})
        _, wanted = asked(made, "GET", "/db/_security")
    server.stop()
    compare("a database that is there", DONE, outcome(synced(options, "S1", source, target, more=["--create"])))
    server = serving(options, target)
    with connected(server.port) as made:
        compare("a database that is there: who may read it", (200, wanted), asked(made, "GET", "/db/_security"))
        compare("a database that is there: what it held", 200, asked(made, "GET", "/db/own")[0])
    server.stop()
    compare("a name of no database", (4, "stopped status 400 " + report(0, 0, 0), []), synced(options, "S2", source, target, more=["--create"], databases=("db", "No")))


def check_servers(place: Place) -> None:
    """Copies between servers, and between two databases of one, which serves one connection after another."""
    options, room, source, last = place.options, place.room, place.source, place.last
    target = f"{room}/second.db"
    empty(options, target)
    first, second = serving(options, source), serving(options, target)
    status, line, said = synced(options, "S1", first.port, second.port)
    compare("server to server", (0, last, []), (status, json.loads(line)["last_seq"] if status == 0 else line, said))
    compare("server to server once more", (0, report(last, 0, last), []), synced(options, "S2", first.port, second.port))
    with connected(second.port) as made:
        asked(made, "PUT", "/copy")
    begun = time.monotonic()
    compare("two databases of a server", DONE, outcome(synced(options, "S3", second.port, second.port, databases=("db", "copy"))))
    # Two connections that wait for each other would take half a minute for each request.
    compare("two databases of a server: in time", True, time.monotonic() - begun < 10 + options.documents / 20)
    first.stop()
    second.stop()
    wanted = held(options, source)
    compare("server to server: what both hold", wanted, held(options, target))
    compare("two databases of a server: what both hold", wanted, held(options, target, "copy"))


CHECKS: dict[str, Check] = {"address": check_address, "address through nginx": through_nginx(check_address), "pull": check_pull, "pull through nginx": through_nginx(check_pull), "created": check_created, "servers": check_servers}
