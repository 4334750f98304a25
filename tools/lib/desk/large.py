"""Documents of 1 MB: each view of one within five seconds, or a sign of what it waits for."""
import json

from lib.checks import compare
from lib.desk.long_lists import TRIES, shown_within
from lib.desk.page import Desk
from lib.desk.place import Place, revision
from lib.desk.scripts import SETTLED_VIEW
from lib.values import Object

# In milliseconds: how long a view may take.
BOUND = 5000
# What OPERATE-DESK says of how many lines are shown first, and the brackets around them.
MOST_LINES = 2002
# A line of a difference is cut behind 10,000 characters.
LONGEST_LINE = 10_100


def bodies(tag: str) -> dict[str, Object]:
    """Returns bodies of nearly 1 MB of several forms, whose values differ by a tag."""
    deep: Object = {"leaf": tag * 400_000}
    for number in range(90):
        deep = {"d": deep, "p": "x" * 5_000}
    return {
        "string": {"text": f"{tag} word " * 140_000},
        "members": {f"m{number:05}": f"{tag}{number}" for number in range(48_000)},
        "numbers": {"list": [number if number % 7 else tag for number in range(150_000)]},
        "objects": {"rows": [{"a": number, "b": f"{tag}{number}", "c": None} for number in range(27_000)]},
        "deep": deep,
    }


def check_large(place: Place, desk: Desk) -> None:
    """Opens and edits a document of 1 MB within five seconds: parts are shown first, and others after a press."""
    for name, body in bodies("a").items():
        size = len(json.dumps(body, separators=(",", ":")))
        compare(f"large: {name} has nearly 1 MB", True, 800_000 < size < 1_000_000)
        place.push("large", {"_id": name, **revision("a1", **body)})
        path = [f"/large/{name}?open_revs=all"]
        shown_within(BOUND, desk, f"{name} of 1 MB", ["large", "document", name], "#view h3", "winner", path)
        shown_within(BOUND, desk, f"{name} of 1 MB to be edited", ["large", "edit", name], "#view h2", "Edit", path)
        length, lines = desk.run("const text = document.querySelector('textarea').value; return [text.length, text.split('\\n').length]")
        compare(f"large: {name} is whole in the editor, in few lines", (True, True), (length >= size * 0.99, lines <= MOST_LINES))
    desk.go("large", "document", "objects")
    lines = "return document.querySelector('pre.body').textContent.split('\\n').length"
    first = desk.run(lines)
    desk.press_button("More of 135,004 lines")
    compare("large: more of it after a press", (True, True), (first <= MOST_LINES, first < desk.run(lines) <= 2 * MOST_LINES))


def check_large_settled(place: Place, desk: Desk) -> None:
    """Settles two versions of 1 MB each within ten seconds, which are asked for before they are fetched."""
    versions = {tag: bodies(tag) for tag in "rab"}
    for name in versions["r"]:
        leaves = [revision(f"{tag}2", "r1", **versions[tag][name]) for tag in "ab"]
        place.push("large", {"_id": f"two-{name}", **revision("r1", **versions["r"][name])})
        place.push("large", *[{"_id": f"two-{name}", **leaf} for leaf in leaves])
        took = settled_within(desk, name)
        longest = desk.run("return Math.max(...[...document.querySelectorAll('pre span')].map(one => one.textContent.length))")
        compare(f"large: no line of a difference of {name} is long", True, longest < LONGEST_LINE)
        compare(f"large: two versions of {name}", True, took < 2 * BOUND or desk.times[-1])
    desk.press_button("Settle")
    desk.find("h2", "Settled")
    compare("large: what lives", 1, len(place.living("large", "two-deep")))


def settled_within(desk: Desk, name: str) -> float:
    """Has two versions fetched and compared, and returns how many milliseconds that took."""
    for _ in range(TRIES):
        desk.go()
        desk.go("large", "settle", f"two-{name}", css="#told", text="was not fetched")
        before = desk.processor_time()
        took: float = desk.run(SETTLED_VIEW)
        desk.times.append(f"two versions of {name}: {took:.0f} ms, {(desk.processor_time() - before) * 1000:.0f} of the processor")
        if took < 2 * BOUND:
            break
    return took


CHECKS = [check_large, check_large_settled]
