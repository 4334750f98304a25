"""Makes random selectors and finds, good and bad, for the random checks."""
from __future__ import annotations

import random
from collections.abc import Callable

from lib.values import Json, Object

COMPARING = ["$eq", "$ne", "$lt", "$lte", "$gt", "$gte"]
OF_SELECTORS = ["$and", "$or", "$nor"]
OF_SELECTOR = ["$not", "$elemMatch", "$allMatch"]
TYPES = ["null", "boolean", "number", "string", "array", "object"]
NUMBERS = [-(2**63), -3, -2, -1, 1, 2, 3, 2**63, 2**64 - 1]
# Members of a selector that are bad: an operator that doesn't exist, a path that is none, and an argument of another form.
BAD_MEMBERS: list[tuple[str, Json]] = [("$foo", 1), ("$", 1), ("$regex", "a"), ("$sameAs", "a"), ("", 1), ("a.", 1), (".a", {}), ("a..b", 1), ("a" * 257, 1)]
NO_LISTS: list[Json] = [None, "a", {}]
NO_SELECTORS: list[Json] = [[], {}, [1], [{}, 1], "a"]
NO_SELECTOR: list[Json] = [None, 1, [], [{}]]
BAD_MEMBERS += [(name, bad) for name in ("$in", "$nin", "$all") for bad in NO_LISTS]
BAD_MEMBERS += [(name, bad) for name in OF_SELECTORS for bad in NO_SELECTORS]
BAD_MEMBERS += [(name, bad) for name in OF_SELECTOR for bad in NO_SELECTOR]
BAD_MEMBERS += [("$exists", 1), ("$exists", None), ("$type", "text"), ("$type", None), ("$size", "1"), ("$size", True), ("$size", [1])]
BAD_MEMBERS += [("$mod", bad) for bad in (2, [], [1], [0, 1], [1, 2, 3], ["1", 2], [1, None], [True, 1], {})]


class Selectors:
    """Random selectors over some paths, whose values are made by a function."""

    def __init__(self, choices: random.Random, paths: list[str], value: Callable[[], Json]) -> None:
        self.choices, self.paths, self.value = choices, paths, value

    def maybe(self, chance: float) -> bool:
        """Decides by chance."""
        return self.choices.random() < chance

    def several(self, least: int) -> list[Json]:
        """Makes some values."""
        return [self.value() for _ in range(self.choices.randint(least, 3))]

    def operator(self, depth: int) -> tuple[str, Json]:
        """Makes an operator with its argument."""
        made = [(self.choices.choice(COMPARING), self.value()), (self.choices.choice(["$in", "$nin", "$all"]), self.several(0)), ("$exists", self.maybe(0.5))]
        made += [("$type", self.choices.choice(TYPES)), ("$size", self.choices.choice([-1, 0, 1, 1, 2, 3])), ("$mod", [self.choices.choice(NUMBERS), self.choices.choice([0, 0, 1, 1, -1, 2])])]
        if depth > 0:
            made.append((self.choices.choice(OF_SELECTORS), [self.selector(depth - 1) for _ in range(self.choices.randint(1, 3))]))
            made.append((self.choices.choice(OF_SELECTOR), self.selector(depth - 1)))
        return self.choices.choice(made)

    def selector(self, depth: int = 3) -> Object:
        """Makes a selector; one of a single operator is frequent, since it is often true."""
        if self.maybe(0.5):
            only = dict([self.operator(min(depth, 1))])
            return only if depth < 3 or self.maybe(0.1) else {self.choices.choice(self.paths): only}
        members = dict([self.operator(depth)] if self.maybe(0.4) else [])
        for _ in range(self.choices.choice([0, 1, 1, 1, 2])):
            members[self.choices.choice(self.paths)] = self.selector(depth - 1) if depth > 0 and self.maybe(0.7) else self.value()
        return members

    def spoiled(self, selector: Json) -> Json:
        """Returns a selector with a fault: a bad member, mostly deeper in it, or more levels than it may have."""
        if self.maybe(0.1):
            for _ in range(self.choices.randint(29, 33)):
                selector = {self.choices.choice(["$not", "a", "$elemMatch"]): selector}
            return selector
        name, bad = self.choices.choice(BAD_MEMBERS)
        inner = [one for one in selector if isinstance(selector[one], dict)]
        if inner and self.maybe(0.7):
            deeper = self.choices.choice(inner)
            return {**selector, deeper: self.spoiled(selector[deeper])}
        return {**selector, name: bad}

    def find(self) -> Json:
        """Makes the body of a find; some are bad in another way than by their selector."""
        made: Object = {"selector": self.selector()}
        if self.maybe(0.25):
            made["selector"] = self.spoiled(made["selector"])
        if self.maybe(0.5):
            direction = self.choices.choice(["asc", "desc"])
            made["sort"] = [{path: direction} if direction == "desc" or self.maybe(0.5) else path for path in self.choices.sample(self.paths, self.choices.choice([0, 1, 1, 2]))]
        for name in ("limit", "skip"):
            if self.maybe(0.4):
                made[name] = self.choices.choice([0, 1, 2, 5, 25, 2**63 - 1])
        if self.maybe(0.1):
            made |= self.choice_of_bad()
        return self.choices.choice([[], None, "a"]) if self.maybe(0.01) else made

    def choice_of_bad(self) -> Object:
        """Makes a member that no find has, or has in another form."""
        bad: list[Object] = [{"selector": None}, {"limit": -1}, {"skip": "1"}, {"limit": True}, {"skip": 2**63}, {"more": 1}]
        sorts: list[Json] = [None, "a", [1], [""], [{}], [{"a": "up"}], [{"a": "asc"}, {"b": "desc"}], ["a"] * 9, [{"a": "asc", "b": "asc"}]]
        bad += [{"sort": sort} for sort in sorts]
        return self.choices.choice(bad)
