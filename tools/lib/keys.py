"""Says how values are ordered, which value a path reaches, and which bytes are the key of a value, in plain python.

Order and paths are those of docs/PROFILE.md; the bytes are those of the layout in crates/rows/data/layout.keys.
"""
from __future__ import annotations

import re
from collections.abc import Iterable
from typing import Any, TypeGuard

from lib.values import Json, Object


# What python orders as values are ordered.
Order = tuple[Any, ...]


def names_of(path: str) -> list[str]:
    """Returns the names in the text of a path; a dot behind a backslash stands in a name."""
    return [name.replace("\\.", ".") for name in re.split(r"(?<!\\)\.", path)]


def is_path(value: Json) -> TypeGuard[str]:
    """Tells whether a value is the text of a path."""
    return isinstance(value, str) and 1 <= len(value.encode()) <= 256 and all(names_of(value))


def values_at(paths: Iterable[str], document: Json) -> list[Json] | None:
    """Returns the values of a document at these paths, or None where it lacks one of them."""
    found = []
    for path in paths:
        value = document
        for name in names_of(path):
            if not isinstance(value, dict) or name not in value:
                return None
            value = value[name]
        found.append(value)
    return found


def members_of(value: Object) -> list[tuple[bytes, Json]]:
    """Returns the members of an object by the bytes of their names."""
    return sorted(((name.encode(), member) for name, member in value.items()), key=lambda pair: pair[0])


def order_of(value: Json) -> Order:
    """Returns what python orders as values are ordered: null, false, true, numbers, texts, arrays, objects."""
    if value is None:
        return (0,)
    if isinstance(value, bool):
        return (2 if value else 1,)
    if isinstance(value, int):
        return (3, value)
    if isinstance(value, str):
        return (4, value.encode())
    if isinstance(value, list):
        return (5, [order_of(item) for item in value])
    return (6, [(name, order_of(member)) for name, member in members_of(value)])


def text_bytes(text: bytes) -> bytes:
    """Returns the key of a text, of which no other key is a prefix."""
    return b"\x05" + text.replace(b"\x00", b"\x00\xff") + b"\x00\x00"


def key_bytes(value: Json) -> bytes:
    """Returns the key of a value, as it is stored."""
    if value is None:
        return b"\x01"
    if isinstance(value, bool):
        return b"\x03" if value else b"\x02"
    if isinstance(value, int):
        return b"\x04" + (value + 2**63).to_bytes(9, "big")
    if isinstance(value, str):
        return text_bytes(value.encode())
    if isinstance(value, list):
        return b"\x06" + b"".join(map(key_bytes, value)) + b"\x00"
    return b"\x07" + b"".join(text_bytes(name) + key_bytes(member) for name, member in members_of(value)) + b"\x00"
