"""Long bodies that ask for several documents."""
from __future__ import annotations

import argparse
import json

from lib.checks import compare
from lib.server import ADMIN, Server, answer_of, message, proxy_lines, request, text_of
from model import Node


def long_bulks() -> list[tuple[str, bytes]]:
    """Returns bodies of more than 64 KiB that ask for several documents, and what is odd of each."""
    plain = [{"_id": f"l{number:05}", "v": [number, {"t": "\u00e4\n"}]} for number in range(2_500)]
    others = [{"_id": f"o{number:05}", "v": number} for number in range(3_500)]
    mixed = others[:1_700] + [{"v": 1}, {"_id": "l00000", "v": 3}, {"_id": "x", "_none": 4}, others[0]] + others[1_700:]
    digests = [f"{number:032x}" for number in range(1_000)]
    replicas = [{"_id": f"h{one}", "_rev": f"2-{one}", "_revisions": {"start": 2, "ids": [one, f"f{one[1:]}"]}} for one in digests]
    repeated = b",".join(b'{"_id":"none","a":1.5,"_id":"r%04d","a":%d}' % (number, number) for number in range(2_000))
    spaced = json.dumps({"docs": [{"_id": f"s{one['_id']}", "v": 1} for one in others]}, indent=2).encode()
    return [
        ("new documents", text_of({"docs": plain})),
        ("known documents", text_of({"docs": plain})),
        ("bad ones among them", text_of({"docs": mixed})),
        ("spaces and escapes", spaced.replace(b'"docs"', b'"\\u0064ocs"')),
        ("names twice in documents", b'{"docs":[' + repeated + b"]}"),
        ("documents twice", b'{"docs":' + text_of([{"_id": f"twice{one['_id']}"} for one in others]) + b',"new_edits":true,"docs":' + text_of([{"_id": "last"}]) + b"}"),
        ("with their revisions", text_of({"docs": replicas, "new_edits": False})),
        ("known revisions, said twice", b'{"new_edits":true,"docs":' + text_of(replicas) + b',"new_edits":false}'),
    ]


def long_bodies_refused() -> list[tuple[str, bytes, str]]:
    """Returns bodies of more than 64 KiB that ask for nothing, what is odd of each, and the reason that is told."""
    many = b",".join(b'{"_id":"n%05d"}' % number for number in range(6_000))
    return [
        ("a fraction", b'{"docs":[' + many + b',{"_id":"a","v":1.5}]}', "JSON"),
        ("a number out of range", b'{"docs":[' + many + b',{"_id":"a","v":1e999}]}', "JSON"),
        ("cut off", b'{"docs":[' + many + b"]", "JSON"),
        ("more behind it", b'{"docs":[' + many + b"]}1", "JSON"),
        ("too deep", b'{"docs":[' + many + b"," + b"[" * 109 + b"]" * 109 + b"]}", "JSON"),
        ("no UTF-8", b'{"docs":[' + many + b',{"_id":"\xff"}]}', "JSON"),
        ("another member", b'{"docs":[' + many + b'],"new":true}', "body"),
        ("no list", b'{"docs":{"a":[' + many + b"]}}", "body"),
        ("no truth", b'{"docs":[' + many + b'],"new_edits":1}', "body"),
        ("no documents", b'{"new_edits":true' + b" " * 70_000 + b"}", "body"),
        ("a list alone", b"[" + many + b"]", "body"),
    ]


def check_long_bulks(options: argparse.Namespace, file: str) -> None:
    """Bodies of several documents that are read one document after another: each reply is the model's, or the refusal, and so are the documents that are there then."""
    asked, refusals, node = long_bulks(), long_bodies_refused(), Node()
    server = Server(options, file, len(asked) + len(refusals) + 2)
    compare("long bulks: a database", node.answer(ADMIN, "PUT", "/db"), answer_of(server.port, request("PUT", "/db")))
    for what, body in asked:
        wanted = node.answer(ADMIN, "POST", "/db/_bulk_docs", body)
        compare(f"a long bulk: {what}", wanted, answer_of(server.port, message("POST", "/db/_bulk_docs", proxy_lines(ADMIN), body)))
    for what, body, reason in refusals:
        wanted = 400, text_of({"error": "bad_request", "reason": reason})
        compare(f"a long bulk that is refused: {what}", wanted, answer_of(server.port, message("POST", "/db/_bulk_docs", proxy_lines(ADMIN), body)))
    compare("long bulks: what is there", node.answer(ADMIN, "GET", "/db/_all_docs"), answer_of(server.port, request("GET", "/db/_all_docs")))
    server.ended("long bulks")


def check(options: argparse.Namespace, folder: str) -> None:
    """Sends long bodies."""
    check_long_bulks(options, f"{folder}/bulks.db")
