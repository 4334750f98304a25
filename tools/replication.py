"""Plays a replication pass as a client of two servers, from docs/PROFILE.md, 'Replication'."""
from __future__ import annotations

import hashlib
import json
from collections.abc import Generator
from typing import Optional
from urllib.parse import quote

from lib.server import text_of
from lib.values import Json, Object


GREATEST = 2**63 - 1
SESSIONS = 50
LOSSES = 100


class Stopped(Exception):
    """A reply that the pass doesn't expect, or one loss too many."""


def path_of(identifier: str) -> str:
    """Returns an id as it stands in a path."""
    design = "_design/"
    if identifier.startswith(design):
        return design + quote(identifier.removeprefix(design), safe="")
    return quote(identifier, safe="")


# What is asked: a side, a method, a path, and a body or None; and what has come of it: a status and a value, or None
# where it was lost.
Exchange = tuple[str, str, str, Json]
Came = Optional[tuple[int, Json]]


# ---- checkpoints


def is_count(value: Json) -> bool:
    """Tells whether a value is a sequence."""
    return isinstance(value, int) and not isinstance(value, bool) and 0 <= value <= GREATEST


def is_session(value: Json) -> bool:
    """Tells whether a value is an entry of a checkpoint's history."""
    return isinstance(value, dict) and isinstance(value.get("session_id"), str) and is_count(value.get("recorded_seq"))


def checkpoint_in(stored: Object | None) -> Object | None:
    """Returns the checkpoint that a document says, or None where it has another shape."""
    if not stored or not isinstance(stored.get("session_id"), str) or not is_count(stored.get("source_last_seq")):
        return None
    history = stored.get("history")
    return stored if isinstance(history, list) and all(is_session(one) for one in history) else None


def start_of(source: Object | None, target: Object | None) -> int:
    """Returns the sequence behind which a pass begins, by the checkpoints of both sides."""
    if not source or not target:
        return 0
    if source["session_id"] == target["session_id"]:
        return int(min(source["source_last_seq"], target["source_last_seq"]))
    there = {one["session_id"]: one["recorded_seq"] for one in reversed(target["history"])}
    for one in source["history"]:
        if one["session_id"] in there:
            return int(min(one["recorded_seq"], there[one["session_id"]]))
    return 0


def next_checkpoint(older: Object | None, session: str, sequence: int) -> Object:
    """Returns the checkpoint of a session that came up to a sequence, before the older sessions of the source."""
    history = [{"recorded_seq": sequence, "session_id": session}]
    for one in older["history"] if older else []:
        if one["session_id"] != session:
            history.append({"recorded_seq": one["recorded_seq"], "session_id": one["session_id"]})
    return {"history": history[:SESSIONS], "session_id": session, "source_last_seq": sequence}


# ---- passes


class Pass:
    """A pass that goes on exchange by exchange, and the lines that the lab prints of it.

    The sides are named as a script names them, `NODE/DATABASE`. What is asked next is `due`, as (side, method, path,
    body), until the line `end` is there.
    """

    def __init__(
        self, name: str, source: str, target: str, session: str, user: str | None = None, batch: int | None = None
    ) -> None:
        self.name, self.user, self.session, self.batch = name, user, session, batch
        self.nodes = {"source": source.split("/")[0], "target": target.split("/")[0]}
        self.database = {side: quote(text.split("/")[1], safe="") for side, text in (("source", source), ("target", target))}
        self.local = "/_local/" + hashlib.md5(text_of([source, target, user])).hexdigest()
        self.report: Object = {"last_seq": 0, "refused": [], "sent": 0, "start_seq": 0}
        self.losses = 0
        self.stored: dict[str, Object | None] = {}
        self.exchanges = self.rounds()
        self.due = next(self.exchanges)
        self.end: str | None = None

    # ---- what is asked, and what each reply makes of it; None stands for a loss

    def ask(
        self, side: str, method: str, path: str, wanted: tuple[int, ...], body: Json = None
    ) -> Generator[Exchange, Came, Json]:
        """Asks a side until a reply comes, and returns its value, or None where there is no checkpoint."""
        while (reply := (yield side, method, f"/{self.database[side]}{path}", body)) is None:
            pass
        status, value = reply
        if status not in wanted or status == 404 and value.get("reason") != "missing":
            raise Stopped(f"status {status}")
        return None if status == 404 else value

    def read(self, side: str) -> Generator[Exchange, Came, None]:
        """Asks for the checkpoint of a side."""
        self.stored[side] = yield from self.ask(side, "GET", self.local, (200, 404))

    def is_written(self, side: str) -> bool:
        """Tells whether the checkpoint that a side has is that of this pass."""
        found = checkpoint_in(self.stored[side])
        return found is not None and (found["session_id"], found["source_last_seq"]) == (self.session, self.report["last_seq"])

    def write(self, side: str, checkpoint: Object) -> Generator[Exchange, Came, None]:
        """Writes the checkpoint of a side. Where that was lost, the checkpoint is read, and written again if it isn't there."""
        while True:
            stored = self.stored[side]
            revision = {"_rev": stored["_rev"]} if stored else {}
            reply = yield side, "PUT", f"/{self.database[side]}{self.local}", {**checkpoint, **revision}
            if reply is not None:
                break
            yield from self.read(side)
            if self.is_written(side):
                return
        if reply[0] != 201:
            raise Stopped(f"status {reply[0]}")
        self.stored[side] = {"_rev": reply[1]["rev"]}

    def open(self, leaves: Object, lacking: Object) -> Generator[Exchange, Came, list[Object]]:
        """Asks the source for the revisions that are missing, document by document, and returns those that came."""
        documents = []
        for identifier in leaves:
            if identifier not in lacking:
                continue
            names = quote(text_of(lacking[identifier]["missing"]), safe="")
            for shown in (yield from self.ask("source", "GET", f"/{path_of(identifier)}?open_revs={names}&revs=true", (200,))):
                if "ok" in shown:
                    documents.append(shown["ok"])
                else:
                    self.report["refused"].append({"error": "missing", "id": identifier, "reason": "missing", "rev": shown["missing"]})
        return documents

    def copy(self, results: list[Object]) -> Generator[Exchange, Came, None]:
        """Brings what the target lacks of the changes listed."""
        leaves = {one["id"]: [leaf["rev"] for leaf in one["changes"]] for one in results}
        lacking = yield from self.ask("target", "POST", "/_revs_diff", (200,), leaves)
        documents = yield from self.open(leaves, lacking)
        if documents:
            refused = yield from self.ask("target", "POST", "/_bulk_docs", (201,), {"docs": documents, "new_edits": False})
            self.report["sent"] += len(documents)
            self.report["refused"] += refused

    def rounds(self) -> Generator[Exchange, Came, None]:
        """Plays the pass: the checkpoints, and rounds up to the one whose listing isn't full."""
        yield from self.read("source")
        yield from self.read("target")
        older = checkpoint_in(self.stored["source"])
        start = since = start_of(older, checkpoint_in(self.stored["target"]))
        limit = f"&limit={self.batch}" if self.batch else ""
        while True:
            changes = yield from self.ask("source", "GET", f"/_changes?since={since}&style=all_docs{limit}", (200,))
            since = changes["last_seq"]
            self.report.update(start_seq=start, last_seq=since)
            if not changes["results"]:
                return
            yield from self.copy(changes["results"])
            checkpoint = next_checkpoint(older, self.session, since)
            for side in ("source", "target"):
                yield from self.write(side, checkpoint)
            if len(changes["results"]) != self.batch:
                return

    # ---- exchanges

    def line(self, status: int | str) -> str:
        """Returns the line of the exchange that is due."""
        side, method, path, _ = self.due
        return f"{self.name} {side} {method} {path} {status}"

    def go_on(self, reply: Came) -> None:
        """Goes on with a reply, or with None where it was lost."""
        try:
            self.due = self.exchanges.send(reply)
        except StopIteration:
            self.finish("done")
        except Stopped as why:
            self.finish(f"stopped {why}")

    def finish(self, how: str) -> None:
        """Ends the pass, and keeps its last line."""
        self.end = f"{self.name} {how} {text_of(self.report).decode()}"

    def take(self, status: int, body: bytes) -> str:
        """Takes a reply in, and returns the line of this exchange."""
        line = self.line(status)
        self.go_on((status, json.loads(body)))
        return line

    def lose(self) -> str:
        """Takes in that the request or the reply was lost, and returns the line of this exchange."""
        line = self.line("lost")
        self.losses += 1
        if self.losses > LOSSES:
            self.finish("stopped lost")
        else:
            self.go_on(None)
        return line
