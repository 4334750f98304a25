"""Pages by id of a database of some thousand documents, between random writes."""
from __future__ import annotations

import argparse
import json
import random
from urllib.parse import quote

from lib.checks import compare
from lib.server import ADMIN, Server, connected, message, proxy_lines, reply_of, text_of
from model import Node

DOCUMENTS, STEPS = 2_000, 400


def random_page(chance: random.Random, names: list[str]) -> str:
    """Returns the target of a page of few rows, from a random place, behind a random number, in a random direction."""
    asked = [f"limit={chance.randrange(4)}"]
    for word in ("startkey", "endkey"):
        if chance.random() < 0.5:
            asked.append(f"{word}={quote(json.dumps(chance.choice(names)))}")
    if chance.random() < 0.6:
        asked.append(f"skip={chance.randrange(chance.choice([10, 300, DOCUMENTS]))}")
    if chance.random() < 0.5:
        asked.append("descending=true")
    return f"/{chance.choice(['db', 'other'])}/_all_docs?{'&'.join(asked)}"


def random_write(chance: random.Random, names: list[str]) -> tuple[str, bytes]:
    """Returns a random bulk of replicated revisions: new documents, others' leaves and deletions among them."""
    documents = []
    for _ in range(chance.choice([1, 1, 3, 40])):
        one = {"_id": chance.choice(names), "_rev": f"1-{chance.choice('abc')}"}
        documents.append(one | {"_deleted": True} if chance.random() < 0.4 else one)
    return f"/{chance.choice(['db', 'other'])}/_bulk_docs", text_of({"docs": documents, "new_edits": False})


def check_pages(options: argparse.Namespace, file: str, seed: int) -> None:
    """Compares each page with the model's, beside writes, conflicts, and a database that is removed and made again."""
    chance, node = random.Random(seed), Node()
    names = [f"k{number:05}{'x' * chance.randrange(3)}" for number in range(DOCUMENTS)]
    steps: list[tuple[str, str, bytes | None]] = [("PUT", "/db", None), ("PUT", "/other", None)]
    steps += [("POST", f"/{name}/_bulk_docs", text_of({"docs": [{"_id": one, "_rev": "1-b"} for one in names[part::3]], "new_edits": False})) for name, part in [("db", 0), ("db", 1), ("other", 2)]]
    for number in range(STEPS):
        steps.append(("POST", *random_write(chance, names)) if chance.random() < 0.3 else ("GET", random_page(chance, names), None))
        if number == STEPS // 2:
            steps += [("DELETE", "/other", None), ("GET", "/other/_all_docs", None), ("PUT", "/other", None)]
    server = Server(options, file, 1)
    with connected(server.port) as made:
        for number, (method, target, body) in enumerate(steps):
            made.sendall(message(method, target, proxy_lines(ADMIN), body))
            head, text = reply_of(made)
            compare(f"pages, seed {seed}, step {number}: {method} {target}", node.answer(ADMIN, method, target, body), (int(head[9:12]), text))
    server.ended("pages")


def check(options: argparse.Namespace, folder: str) -> None:
    """Plays random pages and writes, of two seeds."""
    for seed in (1, 2):
        check_pages(options, f"{folder}/pages{seed}.db", seed)
