"""Answers requests as docs/PROFILE.md says, in plain python: what fuzz_passes, disk_check, index_check and documents compare with.

It was written from the page, and has nothing of the program. What it doesn't know it isn't asked: requests
have lawful ids, and bodies of the shape that is asked for. Queries, selectors and finds may have any shape. A user
is the text of a name, which may have roles (`User`), or None. A body and a reply are bytes, so no value is held by two.
"""
from __future__ import annotations

import hashlib
import json
import re
from collections.abc import Callable, Iterable
from typing import NoReturn, Optional
from urllib.parse import parse_qs, unquote

from lib.keys import Order, is_path, order_of, values_at
from lib.server import ADMIN, text_of
from lib.values import Json, Object, Reply, present


MISSING = (404, "not_found", "missing")
CONFLICT = (409, "conflict", "Document update conflict.")
BAD_DOCUMENT = (400, "doc_validation", "Bad document.")
BAD_HISTORY = (400, "bad_history", "Bad revision history.")
BAD_BODY = (400, "bad_request", "body")

# What a rule says of the new document, of the old one or None, and of the caller's name.
Rule = Callable[[Object, Optional[Object], Optional[str]], bool]
Rules = dict[str, Rule]
# What a document that is sent says: the revision that it names or None, its mark, and its body.
Sent = tuple[Optional[str], bool, Object]
# The parameters of a request, and the status and the value of a reply.
Query = dict[str, str]
Answer = tuple[int, Json]

# Update rules, as selectors, and what they say of the new document, the old one or None, and the caller's name, said
# apart from what selectors mean. Any other rule is tried as a selector.
RULES: list[tuple[Object, Rule]] = [
    ({"newDoc.bad": {"$exists": False}}, lambda new, old, name: "bad" not in new),
    ({"newDoc._deleted": {"$exists": False}}, lambda new, old, name: "_deleted" not in new),
    ({"userCtx.name": {"$in": ["ann", ADMIN]}}, lambda new, old, name: name in ("ann", ADMIN)),
    (
        {"$or": [{"$not": {"oldDoc.owner": "ann"}}, {"userCtx.name": "ann"}]},
        lambda new, old, name: (old or {}).get("owner") != "ann" or name == "ann",
    ),
    (
        {"$or": [{"oldDoc": None}, {"newDoc.owner": {"$sameAs": "oldDoc.owner"}}]},
        lambda new, old, name: old is None or "owner" in new and "owner" in old and new["owner"] == old["owner"],
    ),
    ({"newDoc.owner": {"$sameAs": "userCtx.name"}}, lambda new, old, name: "owner" in new and new["owner"] == name),
]
HOLDS = {text_of(selector): holds for selector, holds in RULES}


class User(str):
    """The name of a user with roles."""

    roles: Iterable[str] = ()


def roles_of(user: str | None) -> list[str]:
    """Returns the roles of a user; the admin has one more."""
    roles = list(getattr(user, "roles", ()))
    return roles + ["_admin"] * (user == ADMIN and "_admin" not in roles)


class Refusal(Exception):
    """A request, or one document of several, that is refused."""

    def __init__(self, status: int, error: str, reason: str, **more: str) -> None:
        super().__init__(reason)
        self.status, self.value = status, {"error": error, "reason": reason, **more}


def denial(user: str | None, reason: str, rule: str) -> Refusal:
    """Returns the refusal of a caller by a rule."""
    return Refusal(403, "forbidden", reason, rule=rule) if user else Refusal(401, "unauthorized", reason, rule=rule)


# ---- revisions


def parts_of(revision: str) -> tuple[int, bytes]:
    """Returns number and hash of a revision, in the order of revisions."""
    number, name = revision.split("-")
    return int(number), name.encode()


def is_revision(value: Json) -> bool:
    """Tells whether a value is the text of a revision, whose number is 2,147,483,647 at most."""
    found = re.fullmatch(r"([1-9][0-9]{0,9})-[A-Za-z0-9]{1,64}", value) if isinstance(value, str) else None
    return found is not None and int(found[1]) < 2**31


def next_revision(parent: str | None, deleted: bool, body: Object) -> str:
    """Returns the revision that an edit makes."""
    number, name = parts_of(parent) if parent else (0, b"")
    return f"{number + 1}-{hashlib.md5(text_of([deleted, number, name.decode(), body])).hexdigest()}"


class Document:
    """A document: what each known revision follows, and the mark and the body of those whose body is held."""

    def __init__(self) -> None:
        self.parents: dict[str, str | None] = {}
        self.held: dict[str, tuple[bool, Object]] = {}

    def leaves(self) -> list[str]:
        """Returns the leaves, best first."""
        found = set(self.parents) - set(self.parents.values())
        return sorted(found, key=lambda one: (not self.held[one][0], parts_of(one)), reverse=True)

    def winner(self) -> str:
        return self.leaves()[0]

    def is_deleted(self) -> bool:
        return self.held[self.winner()][0]

    def path(self, revision: str | None) -> list[str]:
        """Returns a revision and those that it goes back to, newest first."""
        found = []
        while revision:
            found.append(revision)
            revision = self.parents[revision]
        return found

    def add(self, path: list[str], deleted: bool, body: Object) -> None:
        """Takes a write in, whose newest revision is new."""
        for one, parent in zip(path, path[1:] + [None]):
            self.parents.setdefault(one, parent)
        self.held[path[0]] = deleted, body

    def shown(self, identifier: str, revision: str, with_path: bool = False) -> Object:
        """Returns a revision whose body is held, as it is shown."""
        deleted, body = self.held[revision]
        value: Object = {**body, "_id": identifier, "_rev": revision}
        if deleted:
            value["_deleted"] = True
        if with_path:
            path = self.path(revision)
            value["_revisions"] = {"ids": [one.split("-")[1] for one in path], "start": len(path)}
        return value


# ---- indexes that are declared


def has_form(name: Json, index: Json, is_field: Callable[[Json], bool]) -> bool:
    """Tells whether a name and a value declare an index, whose fields are as is told of each."""
    is_named = isinstance(name, str) and 1 <= len(name.encode()) <= 64
    fields = index["fields"] if isinstance(index, dict) and set(index) == {"fields"} else None
    return is_named and isinstance(fields, list) and 1 <= len(fields) <= 8 and all(map(is_field, fields))


def are_indexes(value: Json) -> bool:
    """Tells whether a value declares indexes, each of its form."""
    return isinstance(value, dict) and all(has_form(name, index, is_path) for name, index in value.items())


def path_in(field: Json) -> Json:
    """Returns the path text of a field of `_index`."""
    return next(iter(field)) if isinstance(field, dict) and list(field.values()) == ["asc"] else field


def index_asked(value: Json) -> tuple[str, str, list[str]]:
    """Returns what a body of `_index` asks for: the design document, the name, and the fields."""
    is_whole = isinstance(value, dict) and set(value) - {"type"} == {"ddoc", "index", "name"} and value.get("type", "json") == "json"
    design = value["ddoc"] if is_whole else None
    is_lawful = isinstance(design, str) and 1 <= len(design.encode()) <= 248
    if not is_lawful or not has_form(value["name"], value["index"], lambda field: is_path(path_in(field))):
        raise Refusal(*BAD_BODY)
    return f"_design/{design}", value["name"], [path_in(field) for field in value["index"]["fields"]]


# ---- documents that are sent


def sent_by(identifier: str, document: Object) -> Sent:
    """Returns the revision that a document names, its mark and its body."""
    body = {name: value for name, value in document.items() if not name.startswith("_")}
    revision, deleted = document.get("_rev"), document.get("_deleted", False)
    is_bad = document.get("_id", identifier) != identifier or "_rev" in document and not is_revision(revision)
    is_bad = is_bad or not isinstance(deleted, bool) or set(document) - set(body) - {"_id", "_rev", "_deleted", "_revisions"}
    is_design = identifier.startswith("_design/")
    is_bad = is_bad or is_design and fault_of(body.get("validate_doc_update", {}), is_rule=True) is not None
    is_bad = is_bad or is_design and not are_indexes(body.get("indexes", {}))
    if is_bad:
        raise Refusal(*BAD_DOCUMENT)
    return revision, deleted, body


def path_sent(document: Object) -> tuple[list[str], int]:
    """Returns the path that a replicated document comes with, and how long it says that this is."""
    revision, said = document.get("_rev"), document.get("_revisions")
    if said is None:
        if revision is None:
            raise Refusal(*BAD_DOCUMENT)
        return [revision], 1
    names, start = said["ids"], said["start"]
    if not names or revision not in (None, f"{start}-{names[0]}"):
        raise Refusal(*BAD_DOCUMENT)
    return [f"{len(names) - place}-{name}" for place, name in enumerate(names)], start


# ---- selectors

COMPARED: dict[str, Callable[[Order, Order], bool]] = {
    "$eq": lambda value, other: value == other,
    "$ne": lambda value, other: value != other,
    "$lt": lambda value, other: value < other,
    "$lte": lambda value, other: value <= other,
    "$gt": lambda value, other: value > other,
    "$gte": lambda value, other: value >= other,
    "$in": lambda value, others: value in others[1],
    "$nin": lambda value, others: value not in others[1],
}


TYPES = {type(None): "null", bool: "boolean", int: "number", str: "string", list: "array", dict: "object"}
LISTS: dict[str, Callable[[Iterable[bool]], bool]] = {"$and": all, "$or": any, "$nor": lambda truths: not any(truths)}
DEEPEST = 32


def is_whole(value: Json) -> bool:
    """Tells whether a value is a number; a truth is none."""
    return isinstance(value, int) and not isinstance(value, bool)


def has_all(value: Json, wanted: list[Json]) -> bool:
    """Tells whether a value is a list with each of these, of which there are some."""
    found = [order_of(one) for one in value] if isinstance(value, list) else []
    return bool(wanted) and all(order_of(one) in found for one in wanted)


def has_remainder(value: Json, argument: list[int]) -> bool:
    """Tells whether a value is a number with a remainder, where the quotient is rounded toward zero."""
    divisor, remainder = argument
    return is_whole(value) and (abs(value) % abs(divisor)) * (1 if value >= 0 else -1) == remainder


# Of a value that is there.
TESTED: dict[str, Callable[[Json, Json], bool]] = {
    "$type": lambda value, argument: bool(TYPES[type(value)] == argument),
    "$all": has_all,
    "$size": lambda value, argument: isinstance(value, list) and len(value) == argument,
    "$mod": has_remainder,
}
# Which arguments an operator takes that is no selector; `$sameAs` is a rule's alone.
TAKEN: dict[str, Callable[[Json], bool]] = {
    **dict.fromkeys(["$eq", "$ne", "$lt", "$lte", "$gt", "$gte"], lambda value: True),
    **dict.fromkeys(["$in", "$nin", "$all"], lambda value: isinstance(value, list)),
    "$exists": lambda value: isinstance(value, bool),
    "$type": lambda value: isinstance(value, str) and value in TYPES.values(),
    "$size": is_whole,
    "$mod": lambda value: isinstance(value, list) and len(value) == 2 and all(map(is_whole, value)) and value[0] != 0,
}


def fault_of(selector: Json, is_rule: bool = False, depth: int = 1) -> str | None:
    """Returns the first fault of a selector in the order of its canonical text, or None: 'Argument', 'Operator' or 'Depth'."""
    if not isinstance(selector, dict):
        return "Argument"
    if depth > DEEPEST:
        return "Depth"
    members = sorted(selector.items(), key=lambda member: str.encode(member[0]))
    return next(filter(None, (member_fault(name, argument, is_rule, depth) for name, argument in members)), None)


def member_fault(name: str, argument: Json, is_rule: bool, depth: int) -> str | None:
    """Returns the first fault of a member of a selector, or None."""
    if name in LISTS:
        if not isinstance(argument, list) or not argument:
            return "Argument"
        return next(filter(None, (fault_of(one, is_rule, depth + 1) for one in argument)), None)
    if name in ("$not", "$elemMatch", "$allMatch"):
        return fault_of(argument, is_rule, depth + 1)
    if name == "$sameAs" and is_rule:
        return None if is_path(argument) else "Argument"
    if name.startswith("$"):
        return "Operator" if name not in TAKEN else None if TAKEN[name](argument) else "Argument"
    if not is_path(name):
        return "Argument"
    return fault_of(argument, is_rule, depth + 1) if isinstance(argument, dict) else None


def is_true(selector: Json, current: list[Json], whole: Json = None) -> bool:
    """Tells whether a selector is true of a value: a list of it alone, or an empty one where it is missing.

    Of a rule `whole` is what it is asked of as a whole, where `$sameAs` looks.
    """
    if not isinstance(selector, dict):
        selector = {"$eq": selector}
    return all(is_met(name, argument, current, whole) for name, argument in selector.items())


def is_met(name: str, argument: Json, current: list[Json], whole: Json) -> bool:
    """Tells whether one member of a selector is true."""
    if name in LISTS:
        return LISTS[name](is_true(one, current, whole) for one in argument)
    if name == "$not":
        return not is_true(argument, current, whole)
    if name == "$exists":
        return bool(bool(current) == argument)
    if name in TESTED:
        return bool(current) and TESTED[name](current[0], argument)
    if name in ("$elemMatch", "$allMatch"):
        elements = current[0] if current and isinstance(current[0], list) else []
        truths = [is_true(argument, [one], whole) for one in elements]
        return any(truths) if name == "$elemMatch" else bool(truths) and all(truths)
    if name == "$sameAs":
        return bool(current) and [order_of(one) for one in values_at([argument], whole) or []] == [order_of(current[0])]
    if name in COMPARED:
        return bool(current) and COMPARED[name](order_of(current[0]), order_of(argument))
    return is_true(argument, values_at([name], current[0]) or [] if current else [], whole)


# ---- databases


def sorted_by(field: Json) -> tuple[str, str] | None:
    """Returns the path and the direction of a field of a sort, or None where it has another form."""
    field = {field: "asc"} if isinstance(field, str) else field
    if not isinstance(field, dict) or len(field) != 1:
        return None
    ((path, direction),) = field.items()
    return (path, direction) if is_path(path) and direction in ("asc", "desc") else None


def is_sort(value: Json) -> bool:
    """Tells whether a value orders a find: up to 8 fields, all in one direction."""
    fields = [sorted_by(field) for field in value] if isinstance(value, list) else [None]
    named = [field for field in fields if field is not None]
    return len(fields) <= 8 and named == fields and len({direction for _, direction in named}) <= 1


def is_find(value: Json) -> bool:
    """Tells whether a value is the body of a find."""
    if not isinstance(value, dict) or not {"selector"} <= set(value) <= {"selector", "sort", "limit", "skip"}:
        return False
    numbers = [value.get(name, 0) for name in ("limit", "skip")]
    return fault_of(value["selector"]) is None and is_sort(value.get("sort", [])) and all(is_whole(one) and 0 <= one < 2**63 for one in numbers)


def part_of(rows: list[Object], query: Query) -> Answer:
    """Returns the reply with the rows of a list that a query asks for; the list goes up."""
    is_down = query.get("descending") == "true"
    rows = rows[::-1] if is_down else rows

    def distance(row: Object, bound: str) -> int:
        """Tells whether a row stands before a bound, at it or behind it, in the direction asked for: -1, 0 or 1."""
        key, other = order_of(row["key"]), order_of(json.loads(query[bound]))
        return ((key > other) - (key < other)) * (-1 if is_down else 1)

    started = [row for row in rows if "startkey" not in query or distance(row, "startkey") >= 0]
    last = -1 if query.get("inclusive_end") == "false" else 0
    within = [row for row in started if "endkey" not in query or distance(row, "endkey") <= last]
    skip = min(int(query.get("skip", 0)), len(within))
    shown = within[skip:][: int(query.get("limit", len(rows)))]
    return 200, {"offset": len(rows) - len(started) + skip, "rows": shown, "total_rows": len(rows)}


class Database:
    """A database, which is closed when it is new."""

    def __init__(self, name: str) -> None:
        self.name = name
        self.security: Object = {"admins": {"roles": ["_admin"]}, "members": {"roles": ["_admin"]}}
        self.documents: dict[str, Document] = {}
        self.sequence = 0
        self.sequences: dict[str, int] = {}
        self.locals: dict[str, tuple[int, Object]] = {}

    # ---- who may do what

    def names(self, user: str | None, part: str) -> bool:
        """Tells whether a part of the security object names a user, or one of the user's roles."""
        named = self.security.get(part, {})
        return user is not None and (user in named.get("names", []) or any(role in named.get("roles", []) for role in roles_of(user)))

    def is_admin(self, user: str | None) -> bool:
        return "_admin" in roles_of(user) or self.names(user, "admins")

    def is_member(self, user: str | None) -> bool:
        members = self.security.get("members", {})
        return not members.get("names") and not members.get("roles") or self.names(user, "members") or self.is_admin(user)

    def rules(self) -> Rules:
        """Returns the update rules, by the ids of their design documents."""
        found: Rules = {}
        for identifier, document in self.documents.items():
            if identifier.startswith("_design/") and not document.is_deleted():
                rule = document.held[document.winner()][1].get("validate_doc_update")
                if rule is not None:
                    found[identifier] = HOLDS.get(text_of(rule)) or self.rule_of(rule)
        return found

    def rule_of(self, selector: Object) -> Rule:
        """Returns what a rule says of the new document, the old one and the user."""

        def holds(new: Object, old: Object | None, user: str | None) -> bool:
            caller = {"db": self.name, "name": user, "roles": roles_of(user)}
            whole = {"newDoc": new, "oldDoc": old, "secObj": self.security, "userCtx": caller}
            return is_true(selector, [whole], whole)

        return holds

    # ---- writes

    def add(self, identifier: str, path: list[str], deleted: bool, body: Object) -> None:
        """Takes a write in, at the next sequence."""
        self.documents.setdefault(identifier, Document()).add(path, deleted, body)
        self.sequence += 1
        self.sequences[identifier] = self.sequence

    def deny_design(self, user: str | None, identifier: str) -> None:
        """Refuses a design document of who is no admin of the database."""
        if identifier.startswith("_design/") and not self.is_admin(user):
            raise denial(user, "You are not a db or server admin.", "design_document")

    def deny_by_rules(
        self, rules: Rules, user: str | None, identifier: str, behind: list[str], deleted: bool, body: Object
    ) -> None:
        """Refuses a write that an update rule doesn't let pass; it follows the newest revision behind it whose body is held."""
        if identifier.startswith("_design/"):
            return
        document = self.documents.get(identifier, Document())
        old = next((document.shown(identifier, one) for one in behind if one in document.held), None)
        new: Object = {**body, "_id": identifier, **({"_deleted": True} if deleted else {})}
        for name in sorted(rules, key=str.encode):
            if not rules[name](new, old, user):
                raise denial(user, "Refused by an update rule.", name)

    def followed(self, identifier: str, revision: str | None) -> str | None:
        """Returns the revision that an edit follows, or None where it is the first."""
        document = self.documents.get(identifier)
        leaves = document.leaves() if document else []
        if revision is None and document and document.is_deleted():
            return leaves[0]
        if revision not in leaves and (document or revision):
            raise Refusal(*CONFLICT)
        return revision

    def edit(self, rules: Rules, user: str | None, identifier: str, sent: Sent) -> str:
        """Takes an edit in, and returns the revision that it makes."""
        revision, deleted, body = sent
        self.deny_design(user, identifier)
        parent = self.followed(identifier, revision)
        made = next_revision(parent, deleted, body)
        document = self.documents.get(identifier, Document())
        if made in document.parents:
            raise Refusal(*CONFLICT)
        behind = document.path(parent) if parent else []
        self.deny_by_rules(rules, user, identifier, behind, deleted, body)
        self.add(identifier, [made, *behind], deleted, body)
        return made

    def replicate(
        self, rules: Rules, user: str | None, identifier: str, sent: Sent, path: list[str], start: int
    ) -> None:
        """Takes a replicated write in, where its revision is new."""
        self.deny_design(user, identifier)
        document = self.documents.get(identifier, Document())
        numbers = [parts_of(one)[0] for one in path]
        is_whole = start == len(path) and numbers == list(range(len(path), 0, -1))
        if not is_whole or any(document.parents.get(one, parent) != parent for one, parent in zip(path, path[1:] + [None])):
            raise Refusal(*BAD_HISTORY)
        if path[0] not in document.parents:
            _, deleted, body = sent
            self.deny_by_rules(rules, user, identifier, path[1:], deleted, body)
            self.add(identifier, path, deleted, body)

    def element(self, rules: Rules, user: str | None, document: Object, new_edits: bool) -> Object | None:
        """Takes one document of several in, and returns what is told of it, or None."""
        identifier = document.get("_id")
        named = {"id": identifier} if new_edits else {"id": identifier, "rev": document.get("_rev")}
        try:
            if identifier is None:
                raise Refusal(*BAD_DOCUMENT)
            sent = sent_by(identifier, document)
            if new_edits:
                return {"id": identifier, "ok": True, "rev": self.edit(rules, user, identifier, sent)}
            self.replicate(rules, user, identifier, sent, *path_sent(document))
            return None
        except Refusal as refusal:
            return {**refusal.value, **named}

    def bulk(self, user: str | None, value: Object) -> Answer:
        """Takes several documents in, by the rules that are there before them."""
        rules = self.rules()
        told = [self.element(rules, user, one, value.get("new_edits", True)) for one in value["docs"]]
        return 201, [one for one in told if one is not None]

    # ---- lists

    def information(self, name: str) -> Answer:
        """Returns the counts of a database, and its sequence."""
        deleted = sum(document.is_deleted() for document in self.documents.values())
        return 200, {"db_name": name, "doc_count": len(self.documents) - deleted, "doc_del_count": deleted, "update_seq": self.sequence}

    def all_docs(self, query: Query) -> Answer:
        """Lists the documents by their ids."""
        there = sorted((one for one, document in self.documents.items() if not document.is_deleted()), key=str.encode)
        return part_of([{"id": one, "key": one, "value": {"rev": self.documents[one].winner()}} for one in there], query)

    def changes(self, query: Query) -> Answer:
        """Lists the documents by their latest sequences."""
        since = int(query.get("since", 0))
        results: list[Object] = []
        for identifier in sorted(self.sequences, key=self.sequences.__getitem__):
            document, sequence = self.documents[identifier], self.sequences[identifier]
            leaves = document.leaves() if query.get("style") == "all_docs" else [document.winner()]
            one: Object = {"changes": [{"rev": leaf} for leaf in leaves], "id": identifier, "seq": sequence}
            if document.is_deleted():
                one["deleted"] = True
            if sequence > since:
                results.append(one)
        results = results[: int(query.get("limit", len(results)))]
        return 200, {"last_seq": results[-1]["seq"] if results else min(since, self.sequence), "results": results}

    def declared(self, identifier: str) -> Object:
        """Returns the indexes that a design document declares."""
        design = self.documents.get(identifier)
        indexes: Object = {} if design is None or design.is_deleted() else design.held[design.winner()][1].get("indexes", {})
        return indexes

    def places(self, fields: list[str]) -> list[tuple[list[Json], str]]:
        """Returns the keys and the ids of an index over these fields, in order, made from the documents."""
        found = []
        for identifier, document in self.documents.items():
            if not document.is_deleted() and not identifier.startswith("_design/"):
                values = values_at(fields, document.shown(identifier, document.winner()))
                found += [] if values is None else [(values, identifier)]
        return sorted(found, key=lambda place: (order_of(place[0]), place[1].encode()))

    def view(self, identifier: str, name: str, query: Query) -> Answer:
        """Returns the rows of an index."""
        if name not in self.declared(identifier):
            raise Refusal(*MISSING)
        places = self.places(self.declared(identifier)[name]["fields"])
        return part_of([{"id": one, "key": key, "value": None} for key, one in places], query)

    def find(self, asked: Json) -> Answer:
        """Returns the documents that match a selector, in an order, in part: each document is looked at."""
        if not is_find(asked):
            raise Refusal(*BAD_BODY)
        sort = [present(sorted_by(field)) for field in asked.get("sort", [])]
        places = self.places([field for field, _ in sort])
        is_down = bool(sort) and sort[0][1] == "desc"
        ids = [identifier for _, identifier in (reversed(places) if is_down else places)]
        documents = [self.documents[identifier].shown(identifier, self.documents[identifier].winner()) for identifier in ids]
        found = [document for document in documents if is_true(asked["selector"], [document])]
        return 200, {"bookmark": "nil", "docs": found[asked.get("skip", 0) :][: asked.get("limit", 25)]}

    def put_index(self, user: str | None, value: Json) -> Answer:
        """Declares an index, by an edit of the winner of its design document."""
        identifier, name, fields = index_asked(value)
        self.deny_design(user, identifier)
        told = {"id": identifier, "name": name, "result": "exists"}
        if self.declared(identifier).get(name) != {"fields": fields}:
            design = self.documents.get(identifier)
            winner = design.winner() if design else None
            held = {} if design is None or design.is_deleted() else design.held[design.winner()][1]
            body = {**held, "indexes": {**self.declared(identifier), name: {"fields": fields}}}
            self.edit(self.rules(), user, identifier, (winner, False, body))
            told["result"] = "created"
        return 200, told

    def differences(self, value: Object) -> Answer:
        """Returns which of these revisions aren't known."""
        lacking = {}
        for identifier, revisions in value.items():
            known = self.documents.get(identifier, Document()).parents
            missing = [one for one in revisions if one not in known]
            if missing:
                lacking[identifier] = {"missing": missing}
        return 200, lacking

    # ---- single documents

    def read(self, identifier: str, query: Query) -> Answer:
        """Returns a document, or with `open_revs` its revisions."""
        document = self.documents.get(identifier, Document())
        if "open_revs" in query:
            asked = document.leaves() if query["open_revs"] == "all" else json.loads(query["open_revs"])
            paths = query.get("revs") == "true"
            return 200, [{"ok": document.shown(identifier, one, paths)} if one in document.held else {"missing": one} for one in asked]
        revision, paths = query.get("rev"), query.get("revs") == "true"
        if not document.parents or revision and revision not in document.held:
            raise Refusal(*MISSING)
        if not revision and document.is_deleted():
            raise Refusal(404, "not_found", "deleted")
        return 200, document.shown(identifier, revision or document.winner(), paths)

    def write(self, user: str | None, identifier: str, query: Query, value: Object) -> Answer:
        """Takes an edit in that a PUT asks for."""
        revision, deleted, body = sent_by(identifier, value)
        asked = query.get("rev")
        if asked and revision and asked != revision:
            raise Refusal(*BAD_DOCUMENT)
        made = self.edit(self.rules(), user, identifier, (asked or revision, deleted, body))
        return 201, {"id": identifier, "ok": True, "rev": made}

    def delete(self, user: str | None, identifier: str, query: Query) -> Answer:
        """Takes a deletion in, which names the revision that it follows."""
        self.deny_design(user, identifier)
        if "rev" not in query:
            raise Refusal(*CONFLICT)
        made = self.edit(self.rules(), user, identifier, (query["rev"], True, {}))
        return 200, {"id": identifier, "ok": True, "rev": made}

    # ---- local documents

    def read_local(self, name: str) -> Answer:
        """Returns a local document."""
        if name not in self.locals:
            raise Refusal(*MISSING)
        number, body = self.locals[name]
        return 200, {**body, "_id": f"_local/{name}", "_rev": f"0-{number}"}

    def write_local(self, name: str, value: Object) -> Answer:
        """Takes a local document in, whose revisions are numbers."""
        number, _ = self.locals.get(name, (0, None))
        if value.get("_rev") != (f"0-{number}" if number else None):
            raise Refusal(*CONFLICT)
        self.locals[name] = number + 1, {one: value[one] for one in value if one not in ("_id", "_rev")}
        return 201, {"id": f"_local/{name}", "ok": True, "rev": f"0-{number + 1}"}


# ---- nodes

class OtherNumber:
    """A number that no value has: one with a fraction or an exponent, -0, or one beyond 64 bits."""


def json_in(text: bytes | str) -> Json:
    """Returns the value of a JSON text; `ValueError` where it is none, or where a number is left that no value has."""
    value = json.loads(text, parse_int=whole_in, parse_float=number_in, parse_constant=refuse_number)
    if has_other_number(value):
        raise ValueError(text)
    return value


def whole_in(numeral: str) -> int | OtherNumber:
    """Returns a whole number, or what stands for another one."""
    number = int(numeral)
    return OtherNumber() if numeral == "-0" or not -(2**63) <= number < 2**64 else number


def number_in(numeral: str) -> OtherNumber:
    """Returns what stands for a number with a fraction or an exponent; one beyond all of them is refused."""
    if abs(float(numeral)) == float("inf"):
        refuse_number(numeral)
    return OtherNumber()


def refuse_number(numeral: str) -> NoReturn:
    """Refuses a text that no value is read of, wherever it stands."""
    raise ValueError(numeral)


def has_other_number(value: Json) -> bool:
    """Tells whether a value has a number in it that no value has."""
    parts = value.values() if isinstance(value, dict) else value if isinstance(value, list) else ()
    return isinstance(value, OtherNumber) or any(map(has_other_number, parts))


def is_json(text: str, has_form: Callable[[Json], bool] = lambda value: True) -> bool:
    """Tells whether a text is JSON, of a value of some form."""
    try:
        return has_form(json_in(text))
    except ValueError:
        return False


# The forms of parameters.
TRUTH = {"true", "false"}.__contains__
STYLE = {"main_only", "all_docs"}.__contains__


def is_count(text: str) -> bool:
    """Tells whether a text is the number of a parameter."""
    return bool(re.fullmatch(r"[0-9]{1,19}", text)) and int(text) < 2**63


def is_key(text: str) -> bool:
    """Tells whether a text is JSON of a text, as the bounds of a list by id are."""
    return is_json(text, lambda value: isinstance(value, str))


def are_revisions(text: str) -> bool:
    """Tells whether a text names revisions."""
    return text == "all" or is_json(text, lambda value: isinstance(value, list) and all(map(is_revision, value)))


RANGE: dict[str, Callable[[str], bool]] = {"descending": TRUTH, "inclusive_end": TRUTH, "limit": is_count, "skip": is_count}
# For each page the methods that it has, with the parameters that each takes, and their forms.
PAGES: dict[str, dict[str, dict[str, Callable[[str], bool]]]] = {
    "_all_dbs": {"GET": {}},
    "database": {"GET": {}, "PUT": {}, "DELETE": {}},
    "_security": {"GET": {}, "PUT": {}},
    "_all_docs": {"GET": {**RANGE, "startkey": is_key, "endkey": is_key}},
    "_changes": {"GET": {"limit": is_count, "since": is_count, "style": STYLE}},
    "_bulk_docs": {"POST": {}},
    "_revs_diff": {"POST": {}},
    "_find": {"POST": {}},
    "_index": {"POST": {}},
    "_view": {"GET": {**RANGE, "startkey": is_json, "endkey": is_json}},
    "_local": {"GET": {}, "PUT": {}},
    "document": {"GET": {"open_revs": are_revisions, "rev": is_revision, "revs": TRUTH}, "PUT": {"rev": is_revision}, "DELETE": {"rev": is_revision}},
}


def page_of(parts: list[str]) -> str:
    """Returns the name of the page of a path."""
    if len(parts) == 1:
        return parts[0] if parts[0] == "_all_dbs" else "database"
    if parts[3:4] == ["_view"]:
        return "_view"
    return parts[1] if parts[1] in PAGES else "document"


def refuse_early(method: str, parts: list[str]) -> None:
    """Refuses another method than a page has, and another name of a database."""
    if method not in PAGES[page_of(parts)]:
        raise Refusal(405, "method_not_allowed", "method")
    if parts[0] != "_all_dbs" and not re.fullmatch(r"[a-z][a-z0-9_$()+-]{0,63}", parts[0]):
        raise Refusal(400, "illegal_database_name", "name")


def query_of(method: str, parts: list[str], text: str) -> Query:
    """Returns the parameters of a request; refuses another one than its page has, one that occurs twice, and a value of another form."""
    taken, found = PAGES[page_of(parts)][method], parse_qs(text, keep_blank_values=True)
    is_lawful = all(name in taken and len(values) == 1 and taken[name](values[0]) for name, values in found.items())
    if not is_lawful or {"rev", "open_revs"} <= set(found):
        raise Refusal(400, "bad_request", "query")
    return {name: values[0] for name, values in found.items()}


def value_of(body: bytes | None) -> Json:
    """Returns the value of a body."""
    try:
        return json_in(body or b"")
    except ValueError:
        raise Refusal(400, "bad_request", "JSON") from None


class Node:
    """A node: its databases by name."""

    def __init__(self) -> None:
        self.databases: dict[str, Database] = {}

    def answer(self, user: str | None, method: str, target: str, body: bytes | None = None) -> Reply:
        """Answers a request, and returns the status and the text of the reply."""
        path, _, query = target.partition("?")
        parts = [unquote(part) for part in path.split("/")[1:]]
        try:
            refuse_early(method, parts)
            status, value = self.work(user, method, parts, query, body)
        except Refusal as refusal:
            status, value = refusal.status, refusal.value
        return status, text_of(value)

    def work(self, user: str | None, method: str, parts: list[str], text: str, body: bytes | None) -> Answer:
        """Does what a request asks for, and returns its status and value; a `Refusal` is raised where that isn't done."""
        name = parts[0]
        if name == "_all_dbs":
            return self.list_databases(user, parts, text)
        if len(parts) == 1 and method != "GET":
            return self.work_on_database(user, method, parts, text)
        database = self.databases.get(name)
        if database is None:
            raise Refusal(404, "not_found", "Database does not exist.")
        if not database.is_member(user):
            raise denial(user, "You are not allowed to access this db.", "db_member")
        query = query_of(method, parts, text)
        value = value_of(body) if method in ("POST", "PUT") else None
        if len(parts) == 1:
            return database.information(name)
        if parts[1] == "_security":
            return self.work_on_security(database, user, method, value)
        if parts[1] == "_local":
            return database.read_local(parts[2]) if method == "GET" else database.write_local(parts[2], value)
        if parts[1] == "_bulk_docs":
            return database.bulk(user, value)
        if parts[1] == "_all_docs":
            return database.all_docs(query)
        if parts[1] == "_changes":
            return database.changes(query)
        if parts[1] == "_index":
            return database.put_index(user, value)
        if parts[1] == "_find":
            return database.find(value)
        if parts[1] == "_revs_diff":
            return database.differences(value)
        if parts[3:4] == ["_view"]:
            return database.view("/".join(parts[1:3]), parts[4], query)
        identifier = "/".join(parts[1:])
        if method == "GET":
            return database.read(identifier, query)
        return database.write(user, identifier, query, value) if method == "PUT" else database.delete(user, identifier, query)

    def list_databases(self, user: str | None, parts: list[str], text: str) -> Answer:
        """Lists the databases, for server admins."""
        if user != ADMIN:
            raise denial(user, "You are not a server admin.", "server_admin")
        query_of("GET", parts, text)
        return 200, sorted(self.databases)

    def work_on_database(self, user: str | None, method: str, parts: list[str], text: str) -> Answer:
        """Creates or removes a database."""
        name = parts[0]
        if user != ADMIN:
            raise denial(user, "You are not a server admin.", "server_admin")
        if method == "PUT":
            if name in self.databases:
                raise Refusal(412, "file_exists", "The database could not be created, the file already exists.")
            query_of(method, parts, text)
            self.databases[name] = Database(name)
            return 201, {"ok": True}
        if name not in self.databases:
            raise Refusal(404, "not_found", "Database does not exist.")
        query_of(method, parts, text)
        del self.databases[name]
        return 200, {"ok": True}

    def work_on_security(self, database: Database, user: str | None, method: str, value: Json) -> Answer:
        """Returns the security object, or writes it for an admin of the database."""
        if method == "PUT":
            if not database.is_admin(user):
                raise denial(user, "You are not a db or server admin.", "db_admin")
            database.security = value
            return 200, {"ok": True}
        return 200, database.security
