"""Plays a script of the lab in plain python, by model.py and replication.py, as docs/PROFILE.md says.

It cuts requests from their bytes by rules of its own: a head, and a body of the length that it says. A script
has lawful lines. With files as arguments it prints what each of them prints.
"""
from __future__ import annotations

import re
import sys

from lib.server import SECRET, text_of
from lib.settings import token_of
from lib.values import Reply
from model import Database, Node, Refusal, User
from replication import Pass

SYNTAX = 400, text_of({"error": "bad_request", "reason": "syntax"})
ESCAPES = {"r": b"\r", "n": b"\n", "\\": b"\\"}
CALLER = ("x-auth-couchdb-username", "x-auth-couchdb-roles", "x-auth-couchdb-token")


def bytes_of(text: str) -> bytes:
    """Returns the bytes of a text with the escapes of a script."""
    parts = re.split(r"\\(x[0-9a-fA-F]{2}|.)", text)
    plain = [part.encode() if place % 2 == 0 else ESCAPES.get(part) or bytes.fromhex(part[1:]) for place, part in enumerate(parts)]
    return b"".join(plain)


class Connection:
    """A connection of a node: the bytes that it holds of a request, and whether it has ended."""

    def __init__(self, node: Node) -> None:
        self.node, self.rest, self.is_ended = node, b"", False

    def feed(self, piece: bytes) -> list[Reply]:
        """Takes a piece, and returns the replies to the requests that it completes."""
        self.rest += piece
        replies = []
        while not self.is_ended and (reply := self.next_reply()):
            replies.append(reply)
        return replies

    def next_reply(self) -> Reply | None:
        """Answers the request in front, if it is whole, or says that it is none."""
        head, end, behind = self.rest.partition(b"\r\n\r\n")
        if not end:
            return None
        first, *lines = head.decode().split("\r\n")
        asked = re.fullmatch(r"([A-Z]+) (\S+) HTTP/1\.([01])", first)
        headers = [re.fullmatch(r"([\w-]+):[ \t]*(.*?)[ \t]*", line) for line in lines]
        whole = [header for header in headers if header]
        if not asked or whole != headers:
            self.is_ended = True
            return SYNTAX
        named = {header[1].lower(): header[2] for header in whole}
        length = int(named.get("content-length", 0))
        if len(behind) < length:
            return None
        self.rest = behind[length:]
        self.is_ended = asked[3] == "0" or "close" in named.get("connection", "").lower().split(",")
        return self.answer(asked[1], asked[2], named, behind[:length])

    def answer(self, method: str, target: str, named: dict[str, str], body: bytes) -> Reply:
        """Answers a request of the caller that its headers name."""
        name, roles, token = (named.get(header) for header in CALLER)
        if name is not None and token != token_of(SECRET, name):
            refusal = Refusal(401, "unauthorized", "Bad proxy token.", rule="proxy_token")
            return refusal.status, text_of(refusal.value)
        user = None if name is None else User(name)
        if user is not None and roles:
            user.roles = [role.strip(" \t") for role in roles.split(",") if role.strip(" \t")]
        return self.node.answer(user, method, target, body)


class Script:
    """The nodes, the connections and the passes of a script, and what it has printed."""

    def __init__(self) -> None:
        self.nodes: dict[str, Node] = {}
        self.connections: dict[str, Connection] = {}
        self.passes: dict[str, Pass] = {}
        self.printed: list[str] = []

    def play(self, text: str) -> list[str]:
        """Plays all lines, and returns what they print."""
        for line in text.split("\n"):
            word, _, rest = line.partition(" ")
            if word:
                getattr(self, f"play_{word}")(*([*rest.split(" ", 1)] if word == "send" else rest.split(" ")))
        return self.printed

    def play_node(self, name: str) -> None:
        self.nodes[name] = Node()

    def play_public(self, name: str, database: str) -> None:
        made = self.nodes[name].databases[database] = Database(database)
        made.security = {}

    def play_conn(self, name: str, connection: str) -> None:
        self.connections[connection] = Connection(self.nodes[name])

    def play_close(self, connection: str) -> None:
        self.connections[connection].is_ended = True

    def play_send(self, connection: str, text: str) -> None:
        found = self.connections[connection]
        if found.is_ended:
            self.printed.append(f"{connection} closed")
            return
        self.printed += [f"{connection} {status} {body.decode()}" for status, body in found.feed(bytes_of(text))]

    def play_repl(self, name: str, source: str, target: str, session: str, user: str | None = None) -> None:
        self.passes[name] = Pass(name, source, target, session, user)

    def play_batch(self, size: str, name: str, source: str, target: str, session: str, user: str | None = None) -> None:
        self.passes[name] = Pass(name, source, target, session, user, int(size))

    def exchange(self, one: Pass, is_handled: bool, is_lost: bool) -> str:
        """Makes one exchange of a pass, and returns its line."""
        side, method, path, value = one.due
        body = None if value is None else text_of(value)
        reply = self.nodes[one.nodes[side]].answer(one.user, method, path, body) if is_handled else None
        return one.lose() if is_lost or reply is None else one.take(*reply)

    def play_step(self, name: str, is_handled: bool = True, is_lost: bool = False) -> None:
        one = self.passes[name]
        self.printed.append(one.end or self.exchange(one, is_handled, is_lost))

    def play_lose(self, name: str) -> None:
        self.play_step(name, is_lost=True)

    def play_unsent(self, name: str) -> None:
        self.play_step(name, is_handled=False, is_lost=True)

    def play_run(self, name: str) -> None:
        one = self.passes[name]
        while not one.end:
            self.printed.append(self.exchange(one, True, False))
        self.printed.append(one.end)


def printed_by(file: str) -> str:
    """Returns what the script in a file prints."""
    with open(file, encoding="utf-8") as script:
        return "".join(f"{line}\n" for line in Script().play(script.read()))


if __name__ == "__main__":
    for path in sys.argv[1:]:
        sys.stdout.write(printed_by(path))
