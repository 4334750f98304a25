"""A server with nginx and the desk in front of it, and the documents that the checks look at."""
import argparse
import contextlib
import http.client
import json
import os
import shutil
import tempfile
import time
from collections.abc import Iterator
from urllib.parse import quote

from lib.checks import compare
from lib.nginx import deployed
from lib.server import ADMIN, SECRET, TOP, Server, free_port, proxy_lines, start_nginx, text_of
from lib.settings import token_of
from lib.values import Json, Object

GREATEST, LEAST = 2**64 - 1, -(2**63)
USERS = [ADMIN, "alice", "bob", "zo\u00eb"]


class Place:
    """A server on a new file, and nginx with the desk in front of it."""

    def __init__(self, options: argparse.Namespace) -> None:
        self.room = tempfile.mkdtemp(prefix="desk-place-")
        self.server, self.port = Server(options, f"{self.room}/desk.db", 1_000_000, at_once=200), free_port()
        with open(f"{self.room}/passwords", "w", encoding="utf-8") as file:
            file.writelines(f"{user}:{{PLAIN}}pw\n" for user in USERS)
        self.nginx = start_nginx(self.room, self.port, self.configuration())

    def configuration(self) -> str:
        """Returns the configuration of examples/deploy with this place's ports, folders and users, and without TLS."""
        tokens = "".join(f'{user} "{token_of(SECRET, user)}"; ' for user in USERS)
        return deployed(
            "nginx.conf",
            ('alice   "put the 64 digits here";', tokens),
            ("listen 443 ssl;", f"listen 127.0.0.1:{self.port}; access_log {self.room}/access.log;"),
            ("ssl_certificate /etc/ssl/certs/couch.example.org.pem;", ""),
            ("ssl_certificate_key /etc/ssl/private/couch.example.org.key;", ""),
            ("/etc/nginx/couchd.passwords", f"{self.room}/passwords"),
            ("/usr/share/couchd/desk/;", f"{TOP}/desk/;"),
            ("server 127.0.0.1:5984;", f"server 127.0.0.1:{self.server.port};"),
        )

    def __enter__(self) -> "Place":
        return self

    def __exit__(self, *_: object) -> None:
        self.nginx.terminate()
        self.nginx.wait(60)
        self.server.stopped("the server of the desk")
        shutil.rmtree(self.room, ignore_errors=True)

    def ask(self, method: str, path: str, body: Json = None, user: str = ADMIN) -> tuple[int, Json]:
        """Asks the server itself, and returns the status and the value of the reply."""
        with contextlib.closing(http.client.HTTPConnection("127.0.0.1", self.server.port, timeout=60)) as made:
            made.request(method, path, None if body is None else text_of(body), dict(line.split(": ") for line in proxy_lines(user)))
            reply = made.getresponse()
            return reply.status, json.loads(reply.read())

    def made(self, method: str, path: str, body: Json = None) -> Json:
        """Asks the server, and counts a refusal as a failure."""
        status, value = self.ask(method, path, body)
        compare(f"{method} {path[:80]}", True, status < 300)
        return value

    def push(self, db: str, *documents: Object) -> None:
        """Brings revisions as a replicator does."""
        compare("a push", [], self.made("POST", f"/{db}/_bulk_docs", {"new_edits": False, "docs": documents}))

    def living(self, db: str, identifier: str) -> dict[str, Object]:
        """Returns the leaves that are not deleted, by revision, without ids and revisions."""
        leaves = [one["ok"] for one in self.ask("GET", f"/{db}/{identifier}?open_revs=all")[1]]
        return {leaf["_rev"]: {name: leaf[name] for name in leaf if not name.startswith("_")} for leaf in leaves if not leaf.get("_deleted")}

    def address(self, user: str) -> str:
        return f"http://{quote(user)}:pw@127.0.0.1:{self.port}/_desk/"

    def requests(self) -> list[str]:
        """Returns the requests that were answered or broken off, as nginx logged them."""
        with open(f"{self.room}/access.log", encoding="utf-8") as file:
            return [line.split('"')[1] for line in file]

    def writes(self) -> list[str]:
        """Returns the requests that write."""
        return [line for line in self.requests() if line.startswith(("PUT", "POST", "DELETE"))]

    def paths_since(self, before: int, start: str, count: int) -> list[str]:
        """Returns the paths, sorted, of the requests since then that begin so, once there are as many as these, or soon."""
        for _ in range(100):
            asked = [line.split()[1].partition("?")[0] for line in self.requests()[before:] if line.startswith(start)]
            if len(asked) >= count:
                break
            time.sleep(0.05)
        return sorted(asked)

    @contextlib.contextmanager
    def stopped(self) -> Iterator[None]:
        """Has the server's process hang, and go on at the end."""
        self.server.pause()
        try:
            yield
        finally:
            self.server.go_on()

    def settle_down(self) -> None:
        """Waits until the server has done what it was sent before, and what a reply could have a page send."""
        for _ in range(3):
            self.ask("GET", "/")
            time.sleep(0.3)

    def processor_time(self) -> float:
        """Returns how many seconds of a processor the server has taken."""
        with open(f"/proc/{self.server.process.pid}/stat", encoding="ascii") as file:
            fields = file.read().rpartition(")")[2].split()
        return (int(fields[11]) + int(fields[12])) / os.sysconf("SC_CLK_TCK")


def revision(name: str, *back: str, **body: Json) -> Object:
    """Returns a document of a revision with its path, as a replicator brings it."""
    number = len(back) + 1
    return {"_rev": f"{number}-{name}", "_revisions": {"start": number, "ids": [name, *back]}, **body}


def seed(place: Place) -> None:
    """Fills a database with what the checks look at."""
    for name in ["notes", "many", "long", "odd", "rules", "left", "list", "members", "large"]:
        place.made("PUT", f"/{name}")
        place.made("PUT", f"/{name}/_security", {"members": {"names": ["alice"]}, "admins": {"names": []}})
    place.made("POST", "/notes/_bulk_docs", {"docs": [{"_id": f"n{number:03}", "v": number} for number in range(60)]})
    base = {"title": "Plan", "day": "Monday", "room": 12, "guests": ["Ann", "Bo"], "note": "<img src=x onerror=document.title='broken'>"}
    place.push(
        "notes",
        {"_id": "plan", **revision("a3", "a2", "a1", **base)},
        {"_id": "plan", **revision("b4", "a3", "a2", "a1", **{**base, "day": "Tuesday", "big": GREATEST})},
        {"_id": "plan", **revision("c4", "a3", "a2", "a1", **{**base, "room": 7, "guests": ["Ann", "Bo", "Cy"], "small": LEAST})},
        {"_id": "plan", **revision("d9", "d8", "d7", "d6", "d5", "d4", "a3", "a2", "a1", _deleted=True)},
        {"_id": "plan", **revision("e3", "e2", "a1", _deleted=True, why="moved")},
    )


BOTH = {"2-a2": {"owner": "ann", "day": "Friday", "room": 12}, "2-b2": {"owner": "ann", "day": "Monday", "room": 7, "big": GREATEST}}
MERGED = {"owner": "ann", "day": "Friday", "room": 7, "big": GREATEST}


def conflicting(place: Place, name: str, db: str = "notes") -> str:
    """Makes a document of two versions, and returns its id."""
    base = {"owner": "ann", "day": "Monday", "room": 12}
    revisions = [revision("r1", **base), revision("a2", "r1", **BOTH["2-a2"]), revision("b2", "r1", **BOTH["2-b2"])]
    place.push(db, *[{"_id": name, **one} for one in revisions])
    return name
