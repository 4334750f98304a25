"""Passes from file to file, and the modes of the files that they make."""
from __future__ import annotations

import json
import os

from lib.checks import compare
from lib.server import all_of, connected, modes_of
from lib.sync.place import Check, Place
from lib.syncing import asked, empty, held, report, serving, synced


def check_files(place: Place) -> None:
    """Copies from file to file, and once more; then a document that the target refuses."""
    options, room, source, last = place.options, place.room, place.source, place.last
    target = f"{room}/target.db"
    empty(options, target)
    status, line, said = synced(options, "S1", source, target)
    compare("file to file", (0, last, []), (status, json.loads(line)["last_seq"], said))
    compare("file to file: what both hold", held(options, source), held(options, target))
    compare("file to file once more", (0, report(last, 0, last), []), synced(options, "S2", source, target))
    other = f"{room}/other.db"
    server = serving(options, other)
    with connected(server.port) as made:
        asked(made, "PUT", "/db")
        asked(made, "PUT", "/db/bad", {"bad": 1})
    server.stop()
    status, line, _ = synced(options, "S3", other, target)
    told = json.loads(line)
    compare("a document that is refused", (3, 1, ["bad"]), (status, told["sent"], [one["id"] for one in told["refused"]]))
    absent = ["stopped status 404 " + report(0, 0, 0), 4]
    server = serving(options, other)
    with connected(server.port) as made:
        asked(made, "DELETE", "/db")
    server.stop()
    status, line, _ = synced(options, "S4", other, target)
    compare("a source that is gone", absent, [line, status])
    compare("a file that is none", (1, "", ["couchd: file"]), synced(options, "S5", room, target))


def check_modes(place: Place) -> None:
    """Makes a target under umask 022: it is its owner's alone, and so is its log; one that is there keeps its mode."""
    options, room, source = place.options, place.room, place.source
    before = os.umask(0o022)
    for what, file, mode in (("a new target", f"{room}/new.db", None), ("a target that is there", f"{room}/there.db", 0o640)):
        if mode:
            open(file, "w").close()
            os.chmod(file, mode)
        status, _, said = synced(options, "S6", source, file)
        modes = modes_of(file)
        compare(f"{what}: no database", (4, []), (status, said))
        compare(f"{what}: the modes of the file and its log", all_of(mode or 0o600, *modes.keys() - {""}), modes)
    os.umask(before)


CHECKS: dict[str, Check] = {"files": check_files, "modes": check_modes}
