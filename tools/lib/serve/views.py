"""Pages by key of an index of some thousand entries, between random writes."""
from __future__ import annotations

import argparse
import json
import random
from urllib.parse import quote

from lib.checks import compare
from lib.server import ADMIN, Server, connected, message, proxy_lines, reply_of, text_of
from lib.values import Object

from model import Node

DOCUMENTS, STEPS, KEYS = 2_000, 300, 900
DESIGN = {"_id": "_design/v", "_rev": "1-v", "indexes": {"by_n": {"fields": ["n"]}, "by_both": {"fields": ["m", "n"]}}}


def random_page(chance: random.Random) -> str:
    """Returns the target of a page of few rows, from a random place, behind a random number, in a random direction."""
    name = chance.choice(["by_n", "by_n", "by_both"])
    asked = [f"limit={chance.randrange(3)}"]
    for word, share in (("startkey", 0.8), ("endkey", 0.3)):
        if chance.random() < share:
            key = [chance.randrange(KEYS)] if name == "by_n" else [chance.randrange(4), chance.randrange(KEYS)]
            asked.append(f"{word}={quote(json.dumps(key))}")
    if chance.random() < 0.3:
        asked.append(f"skip={chance.randrange(chance.choice([10, 300]))}")
    if chance.random() < 0.4:
        asked.append("descending=true")
    return f"/db/_design/v/_view/{name}?{'&'.join(asked)}"


def random_document(chance: random.Random, names: list[str]) -> Object:
    """Returns a random replicated revision: of a new document, of one more leaf, or a deletion; some lack a field."""
    one = {"_id": chance.choice(names), "_rev": f"1-{chance.choice('abc')}", "n": chance.randrange(KEYS)}
    if chance.random() < 0.7:
        one["m"] = chance.randrange(4)
    return one | {"_deleted": True} if chance.random() < 0.3 else one


def random_write(chance: random.Random, names: list[str]) -> tuple[str, bytes]:
    """Returns a random bulk, which is small, or too large for a store to follow its keys one by one."""
    return "/db/_bulk_docs", text_of({"docs": [random_document(chance, names) for _ in range(chance.choice([1, 1, 3, 40, 400]))], "new_edits": False})


def check_views(options: argparse.Namespace, file: str, seed: int) -> None:
    """Compares each page with the model's, beside writes, and a design document that declares others and then these."""
    chance, node = random.Random(seed), Node()
    names = [f"k{number:05}" for number in range(DOCUMENTS)]
    others = DESIGN | {"_rev": "2-w", "_revisions": {"ids": ["w", "v"], "start": 2}, "indexes": {"by_n": {"fields": ["m"]}, "by_both": {"fields": ["n", "m"]}}}
    back = DESIGN | {"_rev": "3-x", "_revisions": {"ids": ["x", "w", "v"], "start": 3}}
    steps: list[tuple[str, str, bytes | None]] = [("PUT", "/db", None)]
    steps += [("POST", "/db/_bulk_docs", text_of({"docs": [DESIGN] + [random_document(chance, names) for _ in names], "new_edits": False}))]
    for number in range(STEPS):
        steps.append(("POST", *random_write(chance, names)) if chance.random() < 0.3 else ("GET", random_page(chance), None))
        if number in (STEPS // 3, STEPS // 2):
            steps.append(("POST", "/db/_bulk_docs", text_of({"docs": [others if number < STEPS // 2 else back], "new_edits": False})))
    server = Server(options, file, 1)
    with connected(server.port) as made:
        for number, (method, target, body) in enumerate(steps):
            made.sendall(message(method, target, proxy_lines(ADMIN), body))
            head, text = reply_of(made)
            compare(f"views, seed {seed}, step {number}: {method} {target}", node.answer(ADMIN, method, target, body), (int(head[9:12]), text))
    server.ended("views")


def check(options: argparse.Namespace, folder: str) -> None:
    """Plays random pages and writes, of two seeds."""
    for seed in (1, 2):
        check_views(options, f"{folder}/views{seed}.db", seed)
