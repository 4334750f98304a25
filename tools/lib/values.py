"""The types of what comes from outside: values of JSON, and requests and replies that carry them."""
from __future__ import annotations

from typing import Any, TypeVar

# A value of JSON, as python's module reads it: whoever takes one looks at what it is.
Json = Any
# An object of JSON.
Object = dict[str, Json]
# What is asked: a method, a path with its query, and the value of the body, or None.
Asked = tuple[str, str, Json]
# A reply: its status and the text of its body.
Reply = tuple[int, bytes]
T = TypeVar("T")


def present(value: T | None) -> T:
    """Returns a value that has to be there, as a pipe that was asked for or the match of a text of a known form."""
    if value is None:
        raise ValueError("what has to be there is missing")
    return value
