"""Says what a server shows of the rows of a file that somebody may have edited, in plain python.

Each page shows the rows that crates/tables/README.md, 'Tables' has for it, and nothing else: lists those of `docs`, a
document those of `revs`, a view those of `decls` and `entries`. Whether rows agree with one another isn't looked at
here. It was written from that page and from docs/PROFILE.md, and has nothing of the program.
"""
from __future__ import annotations

import json

from lib.server import text_of
from lib.store_rows import Row, Rows
from lib.values import Json, Object
from model import Document

# Pages by id and by key end before these bytes: no id is a text from there on, and no key begins so.
ID_END, KEY_END = b"\xf8", b"\x08"
NO_DATABASE = {"error": "not_found", "reason": "Database does not exist."}
MISSING = {"error": "not_found", "reason": "missing"}

Reply = tuple[int, bytes]


def found(value: Json) -> Reply:
    """Returns the reply that shows a value."""
    return 200, text_of(value)


def shown_of(rows: Rows, path: str) -> Reply:
    """Returns what a page shows: `/_all_dbs`, or one of a database."""
    if path == "/_all_dbs":
        return found(sorted(name.decode(errors="replace") for _, name, *_ in rows["dbs"]))
    name, _, page = path[1:].partition("/")
    database = next((row for row in rows["dbs"] if row[1] == name.encode()), None)
    if database is None:
        return 404, text_of(NO_DATABASE)
    return page_of(rows, database, page)


def page_of(rows: Rows, database: Row, page: str) -> Reply:
    """Returns what a page of a database shows."""
    number, name, security, sequence = database
    documents = [row for row in rows["docs"] if row[1] == number]
    if page == "":
        return information(name, documents, sequence)
    if page == "_security":
        return found(json.loads(security))
    if page == "_all_docs":
        return found(list_of([by_id(row) for row in sorted(documents, key=lambda row: bytes(row[2])) if is_live(row)]))
    if page.startswith("_changes"):
        return found(changes(rows, documents, sequence))
    if page.startswith("_local/"):
        return local(rows, number, page)
    design, _, view = page.partition("/_view/")
    return entries(rows, number, design, view) if view else found(leaves(rows, number, page.partition("?")[0]))


def is_live(row: Row) -> bool:
    """Tells whether a document is one of those that lists by id show."""
    _, _, id, _, _, deleted = row
    return bool(deleted == 0 and id < ID_END)


def information(name: bytes, documents: list[Row], sequence: int) -> Reply:
    """Returns what is said of a database: how many documents there are by the marks of their rows."""
    marks = [row[5] for row in documents if row[2] < ID_END]
    return found({"db_name": name.decode(), "doc_count": marks.count(0), "doc_del_count": marks.count(1), "update_seq": sequence})


def by_id(row: Row) -> Object:
    """Returns the row of a document in a list by id."""
    id = row[2].decode(errors="replace")
    return {"id": id, "key": id, "value": {"rev": row[4]}}


def list_of(rows: list[Object]) -> Object:
    """Returns a whole list."""
    return {"offset": 0, "rows": rows, "total_rows": len(rows)}


def history_of(rows: Rows, number: int, id: bytes) -> Document:
    """Returns the document that the rows of revisions make; a mark or a body that is no value is none."""
    document = Document()
    for _, db, other, n, name, parent, held, deleted, body in rows["revs"]:
        if (db, other) == (number, id):
            document.parents[f"{n}-{name}"] = None if parent is None else f"{n - 1}-{parent}"
            if held:
                document.held[f"{n}-{name}"] = bool(deleted), members_of(body)
    return document


def members_of(body: str | None) -> Object:
    """Returns the members of a body, and none of what is no object."""
    try:
        value = json.loads(body or "")
    except ValueError:
        return {}
    return value if isinstance(value, dict) else {}


def parts_of(revision: str) -> tuple[int, bytes]:
    """Returns the number and the hash of a revision, whatever they are."""
    number, _, name = revision.rpartition("-") if revision.startswith("-") else revision.partition("-")
    return int(number), name.encode()


def leaves_of(document: Document) -> list[str]:
    """Returns the leaves, best first: those that live before the others."""
    found_leaves = set(document.parents) - set(document.parents.values())
    return sorted(found_leaves, key=lambda one: (not document.held.get(one, (False,))[0], parts_of(one)), reverse=True)


def leaves(rows: Rows, number: int, id: str) -> list[Object]:
    """Returns each leaf of a document with its path, as far as that is known."""
    document = history_of(rows, number, id.encode())
    return [{"ok": shown(document, id, one)} if one in document.held else {"missing": one} for one in leaves_of(document)]


def shown(document: Document, id: str, revision: str) -> Object:
    """Returns a revision with its path."""
    deleted, body = document.held[revision]
    path: list[str] = []
    one: str | None = revision
    while one is not None and one in document.parents:
        path.append(one.partition("-")[2])
        one = document.parents[one]
    mark = {"_deleted": True} if deleted else {}
    return {**body, **mark, "_id": id, "_rev": revision, "_revisions": {"ids": path, "start": parts_of(revision)[0]}}


def changes(rows: Rows, documents: list[Row], sequence: int) -> Object:
    """Returns the documents by their sequences, with their leaves."""
    results = []
    for _, number, id, at, _, deleted in sorted(documents, key=lambda row: int(row[3])):
        mark = {"deleted": True} if deleted else {}
        if at > 0:
            listed = [{"rev": one} for one in listed_leaves(history_of(rows, number, id))]
            results.append({"changes": listed, "id": id.decode(errors="replace"), "seq": at, **mark})
    return {"last_seq": results[-1]["seq"] if results else 0, "results": results}


def listed_leaves(document: Document) -> list[str]:
    """Returns the leaves that a list shows: where there are as many rows as the greatest revision's number says, they are one path, and that is its leaf."""
    greatest = max(document.parents, key=parts_of, default=None)
    return [greatest] if greatest and parts_of(greatest)[0] == len(document.parents) else leaves_of(document)


def local(rows: Rows, number: int, id: str) -> Reply:
    """Returns a local document."""
    for _, db, other, n, body in rows["locals"]:
        if (db, other) == (number, id.encode()):
            return found({**members_of(body), "_id": id, "_rev": f"0-{n}"})
    return 404, text_of(MISSING)


def entries(rows: Rows, number: int, design: str, name: str) -> Reply:
    """Returns the entries of an index, with the values in their keys."""
    for declared, *place, _ in rows["decls"]:
        if place == [number, design.encode(), name.encode()]:
            within = sorted((key, id) for _, decl, key, id in rows["entries"] if decl == declared and key < KEY_END)
            return found(list_of([{"id": id.decode(errors="replace"), "key": numbers_in(key), "value": None} for key, id in within]))
    return 404, text_of(MISSING)


def numbers_in(key: bytes) -> list[int]:
    """Returns the numbers in the key of a list of them; each has a byte for its kind, and nine of its own."""
    return [int.from_bytes(key[at + 1 : at + 10], "big") - 2**63 for at in range(1, len(key) - 1, 10)]
