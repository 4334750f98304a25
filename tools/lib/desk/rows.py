"""Makes rows for the desk's modules, and works out in plain python what has to come of them."""
import random

from lib.values import Json, Object

NAMES = ["a", "b", "c", "__proto__", "1", "2", "<b>", "\u202e"]
SCALARS = [None, True, False, 0, 1, -7, 2**64 - 1, 2**64 - 2, -(2**63), "", "x", "<img src=x onerror=alert(1)>", "\u2028\u202e", "\U0001f600"]


def some_value(chance: random.Random, depth: int, near: Json = None, object_only: bool = False) -> Json:
    """Returns a value, perhaps one that differs from another one in some members."""
    if isinstance(near, dict) and (object_only or chance.random() < 0.6):
        changed = {name: value if chance.random() < 0.6 else some_value(chance, depth - 1, value) for name, value in near.items() if chance.random() < 0.85}
        return {**changed, **({chance.choice(NAMES): some_value(chance, 0)} if chance.random() < 0.3 else {})}
    kind = "object" if object_only else chance.choice(["scalar", "scalar", "list", "object"] if depth > 0 else ["scalar"])
    if kind == "object":
        return {name: some_value(chance, depth - 1) for name in chance.sample(NAMES, chance.randint(0, 4))}
    if kind == "list":
        return [some_value(chance, depth - 1) for _ in range(chance.randint(0, 3))]
    return chance.choice(SCALARS)


def some_text(chance: random.Random) -> str:
    """Returns a text of characters that paths mistake; it is no `.` and no `..`."""
    return "i" + "".join(chance.choice("a/?#%& +.:@!'()*~\"<>\\\u202e\u00e9\U0001f600") for _ in range(chance.randint(0, 8)))


def is_same(one: Json, other: Json) -> bool:
    """Tells whether two values are equal; python's own equality takes 1 for true."""
    if isinstance(one, dict) and isinstance(other, dict):
        return set(one) == set(other) and all(is_same(one[name], other[name]) for name in one)
    if isinstance(one, list) and isinstance(other, list):
        return len(one) == len(other) and all(map(is_same, one, other))
    return type(one) is type(other) and one == other


# ---- merges


class Absent:
    """Stands for a member that isn't there."""


class Unknown:
    """Stands for an ancestor that isn't known."""


def member(value: Json, name: str) -> Json:
    if value is Unknown:
        return Unknown
    return value.get(name, Absent) if isinstance(value, dict) else Absent


def merge_of(base: Json, sides: list[Json], path: list[str]) -> tuple[Json, list[list[str]]]:
    """Returns what becomes of one value, and the paths below it that were changed in different ways."""
    candidates = sides if base is Unknown else [side for side in sides if not is_same(side, base)]
    changed: list[Json] = []
    for one in candidates:
        changed += [] if any(is_same(one, other) for other in changed) else [one]
    if len(changed) < 2:
        return changed[0] if changed else base, []
    if not all(isinstance(value, dict) or value is Unknown for value in [*changed, base]):
        return sides[0], [path]
    names = {name for value in [*sides, base] if isinstance(value, dict) for name in value}
    merges = {name: merge_of(member(base, name), [member(side, name) for side in sides], [*path, name]) for name in names}
    return {name: value for name, (value, _) in merges.items() if value is not Absent}, [one for _, paths in merges.values() for one in paths]


def merged(base: Json, sides: list[Json]) -> tuple[Json, list[list[str]]]:
    """Returns the merge of bodies behind an ancestor, or None where that isn't known, and the paths that touch."""
    return merge_of(Unknown if base is None else base, sides, [])


def differing(one: Object, other: Object) -> list[str]:
    """Returns the names of the members in which two objects differ, in the order of their UTF-16 units."""
    names = {name for name in {**one, **other} if name not in one or name not in other or not is_same(one[name], other[name])}
    return sorted(names, key=lambda name: name.encode("utf-16-be"))


def with_value(body: Object, path: list[str], value: Json) -> Object:
    """Returns a body with another value at a path, or without one where that is Absent."""
    name, inner = path[0], body.get(path[0])
    if len(path) > 1:
        value = with_value(inner if isinstance(inner, dict) else {}, path[1:], value)
    others = {other: kept for other, kept in body.items() if other != name}
    return others if value is Absent else {**others, name: value}


# ---- lines


def some_lines(chance: random.Random) -> str:
    return "\n".join(chance.choice("abc") for _ in range(chance.randint(1, 12)))


def common_length(one: list[str], other: list[str]) -> int:
    """Returns the length of a longest common part of two lists."""
    lengths = [0] * (len(other) + 1)
    for item in one:
        row = [0]
        for place, against in enumerate(other):
            row.append(lengths[place] + 1 if item == against else max(row[-1], lengths[place + 1]))
        lengths = row
    return lengths[-1]


# ---- trees


def some_leaves(chance: random.Random) -> list[Object]:
    """Returns the leaves of a random tree, best first, as `open_revs` shows them."""
    paths = [[f"1-{chance.randrange(100):02x}r{root}"] for root in range(chance.randint(1, 2))]
    for number in range(chance.randint(0, 8)):
        stem = chance.choice(paths)
        path = stem[: chance.randint(1, len(stem))]
        for _ in range(chance.randint(1, 9)):
            path = [*path, f"{len(path) + 1}-{chance.randrange(16):x}n{number}"]
        paths = [one for one in paths if one != path[: len(one)]] + [path]
    leaves: list[Object] = []
    for path in paths:
        hashes = [one.split("-")[1] for one in reversed(path)]
        mark = {"_deleted": True} if chance.random() < 0.3 else {}
        leaves.append({"_id": "d", "_rev": path[-1], "_revisions": {"start": len(path), "ids": hashes}, **mark})
    return sorted(leaves, key=lambda leaf: ("_deleted" not in leaf, leaf["_revisions"]["start"], leaf["_rev"].split("-")[1]), reverse=True)


def path_of(leaf: Object) -> list[str]:
    """Returns the revisions that a leaf goes back to, itself first."""
    start = leaf["_revisions"]["start"]
    return [f"{start - back}-{name}" for back, name in enumerate(leaf["_revisions"]["ids"])]


def revisions_of(leaves: list[Object]) -> dict[str, str | None]:
    """Returns the parent of each revision, None of a root."""
    return {one: parent for path in map(path_of, leaves) for one, parent in zip(path, path[1:] + [None])}


def number_of(revision: str) -> int:
    return int(revision.partition("-")[0])


def ancestor_of(leaves: list[Object]) -> str | None:
    """Returns the newest revision that all leaves go back to, or None."""
    common = set.intersection(*(set(path_of(leaf)) for leaf in leaves))
    return max(common, key=number_of) if common else None
