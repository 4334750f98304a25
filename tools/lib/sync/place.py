"""What each check of `couchd sync` starts from: a source with documents, and nginx, where it is installed."""
from __future__ import annotations

import argparse
import dataclasses
from collections.abc import Callable

from lib.syncing import Through


@dataclasses.dataclass(frozen=True)
class Place:
    """A folder, a file in it with the documents of --documents, the sequence of that file, and what starts nginx."""

    options: argparse.Namespace
    room: str
    source: str
    last: int
    through: Through | None


Check = Callable[[Place], None]


def through_nginx(check: Callable[[Place, Through], None]) -> Check:
    """Returns a check through nginx, which is left out where nginx isn't installed."""

    def checked(place: Place) -> None:
        if place.through:
            check(place, place.through)

    return checked
