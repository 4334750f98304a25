"""nginx in front of couchds, by the configurations of examples/deploy, for the checks of this folder."""
from __future__ import annotations

import base64
import contextlib
import http.client
import signal
import subprocess
import time
from collections.abc import Callable, Iterable, Mapping

from lib.checks import compare
from lib.server import ADMIN, SECRET, TOP, free_port, start_nginx, text_of
from lib.settings import token_of
from lib.values import Json


class Front:
    """nginx in a room of its own, with users whose passwords are 'pw'. `configuration` says how."""

    def __init__(self, room: str, users: Iterable[str]) -> None:
        self.room, self.users, self.port = room, users, free_port()
        with open(f"{room}/couchd.passwords", "w", encoding="utf-8") as file:
            file.writelines(f"{user}:{{PLAIN}}pw\n" for user in users)
        self.nginx = start_nginx(room, self.port, self.configuration())

    def configuration(self) -> str:
        """Returns the servers of nginx, which each kind of front says."""
        raise NotImplementedError

    def first_configuration(self, port: int) -> str:
        """Returns nginx.conf for a couchd at a port, with this room's port, folder and users, and without TLS."""
        tokens = "".join(f'{user} "{token_of(SECRET, user)}"; ' for user in self.users)
        text = deployed(
            "nginx.conf",
            ('alice   "put the 64 digits here";', tokens),
            ("listen 443 ssl;", f"listen 127.0.0.1:{self.port};"),
            ("ssl_certificate /etc/ssl/certs/couch.example.org.pem;", ""),
            ("ssl_certificate_key /etc/ssl/private/couch.example.org.key;", ""),
            ("server 127.0.0.1:5984;", f"server 127.0.0.1:{port};"),
        )
        compare("nginx.conf: where it passes requests on", 3, text.count("http://$couchd_at;"))
        return text

    def change(self, old: str, new: str, name: str = "nginx.conf") -> None:
        """Replaces a piece of a file of the configuration, and has nginx take it."""
        path = f"{self.room}/{name}"
        with open(path, encoding="utf-8") as file:
            text = file.read()
        compare(f"the configuration: {old}", 1, text.count(old))
        with open(path, "w", encoding="utf-8") as file:
            file.write(text.replace(old, new))
        before = workers_of(self.nginx)
        self.nginx.send_signal(signal.SIGHUP)
        wait_until(lambda: workers_of(self.nginx) and not workers_of(self.nginx) & before)

    def ask(self, method: str, path: str, user: str | None = ADMIN, body: Json = None) -> tuple[int, str]:
        """Asks nginx with a user's password, and returns the status and the body."""
        vouched = {"Authorization": "Basic " + base64.b64encode(f"{user}:pw".encode()).decode()} if user else {}
        return asked(self.port, method, path, vouched, body)


def deployed(name: str, *changes: tuple[str, str]) -> str:
    """Returns a file of examples/deploy with each piece, which stands in it once, replaced."""
    with open(f"{TOP}/examples/deploy/{name}", encoding="utf-8") as file:
        text = file.read()
    for old, new in changes:
        compare(f"examples/deploy/{name}: {old}", 1, text.count(old))
        text = text.replace(old, new)
    return text


def put_map(room: str, name: str, *changes: tuple[str, str]) -> None:
    """Puts a map of examples/deploy to where nginx.conf includes it."""
    with open(f"{room}/couchd-{name}.map", "w", encoding="utf-8") as file:
        file.write(deployed(f"{name}.map", *changes))


def workers_of(process: subprocess.Popen[bytes]) -> set[str]:
    """Returns the ids of a process's children."""
    with open(f"/proc/{process.pid}/task/{process.pid}/children", encoding="ascii") as file:
        return set(file.read().split())


def wait_until(holds: Callable[[], object]) -> None:
    """Waits until something holds, for ten seconds at most."""
    for _ in range(200):
        if holds():
            return
        time.sleep(0.05)
    compare("it holds within ten seconds", True, False)


def asked(port: int, method: str, path: str, headers: Mapping[str, str], body: Json = None) -> tuple[int, str]:
    """Sends a request with the path as it is written here, and returns the status and the text of the reply."""
    with contextlib.closing(http.client.HTTPConnection("127.0.0.1", port, timeout=60)) as made:
        made.request(method, path, None if body is None else text_of(body), headers)
        reply = made.getresponse()
        return reply.status, reply.read().decode()
