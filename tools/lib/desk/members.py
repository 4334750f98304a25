"""Merges by members: each member from either side with one press, nested ones too, and two of thirty versions at a time."""
import json

from lib.checks import compare
from lib.desk.page import ENTER, Desk
from lib.desk.place import GREATEST, Place, revision
from lib.desk.scripts import MEMBERS
from lib.values import Json, Object

BASE: Object = {"address": {"city": "Bonn", "street": {"name": "x", "no": 1}}, "day": "Monday", "gone": 1, "same": [1], "map": {"__proto__": {"a": 1}}}
LEFT = {**BASE, "address": {"city": "Ulm", "street": {"name": "z", "no": 2}}}
RIGHT: Object = {"address": {"city": "Kiel", "street": {"name": "x", "no": 1}}, "day": "Friday", "new": GREATEST, "same": [1], "map": {"__proto__": {"a": 2}}}
# What the table says: the member, the value of each side with what it did to the ancestor, and which of them is taken.
ADDRESS = ["address", '{"city":"Ulm","street":{"name":"z","no":2}} changed', '{"city":"Kiel","street":{"name":"x","no":1}} changed', "left"]
INNER = [["address.city", '"Ulm" changed', '"Kiel" changed', "left"], ["address.street", '{"name":"z","no":2} changed', '{"name":"x","no":1}', "left"]]
INNERMOST = [["address.street.name", '"z" changed', '"x"', "left"], ["address.street.no", "2 changed", "1", "left"]]
OTHERS = [
    ["day", '"Monday"', '"Friday" changed', "right"],
    ["gone", "1", "no such member removed", "right"],
    ["map", '{"__proto__":{"a":1}}', '{"__proto__":{"a":2}} changed', "right"],
    ["new", "no such member", f"{GREATEST} added", "right"],
]
# Presses one after the other, and what each of them changes of the merged body; None takes a member away.
PRESSES: list[tuple[str, Object]] = [
    ('address.city: take "Kiel" of 2-a2 conflict', {"address": {"city": "Kiel", "street": {"name": "z", "no": 2}}}),
    ("address.street.no: take 1 of 2-a2", {"address": {"city": "Kiel", "street": {"name": "z", "no": 1}}}),
    ("gone: take 1 of 2-b2 winner", {"gone": 1}),
    ("new: take no such member of 2-b2", {"new": None}),
    ('map.__proto__: take {"a":1} of 2-b2', {"map": {"__proto__": {"a": 1}}}),
    (f"new: take {GREATEST} of 2-a2", {"new": GREATEST}),
]
TAKEN = {"address": "", "address.city": "right", "address.street": "", "address.street.name": "left", "address.street.no": "right"}
TAKEN |= {"day": "right", "gone": "left", "map": "left", "map.__proto__": "left", "new": "right"}


def merged_body(desk: Desk) -> Json:
    return json.loads(desk.find("textarea").value())


def press_member(desk: Desk, label: str) -> None:
    """Presses the button of a value, by the start of its name."""
    desk.run("[...document.querySelectorAll('table.members button.take')].find(one => one.getAttribute('aria-label').startsWith(args[0])).click()", label)


def check_members(place: Place, desk: Desk) -> None:
    """Takes each differing member from either side; it is listed with what each side did to it."""
    place.push("members", *[{"_id": "tree", **one} for one in [revision("r1", **BASE), revision("b2", "r1", **LEFT), revision("a2", "r1", **RIGHT)]])
    desk.go("members", "settle", "tree")
    proposed = {**RIGHT, "address": LEFT["address"]}
    compare("members: what is proposed", proposed, merged_body(desk))
    compare("members: what differs", [ADDRESS, *OTHERS], desk.run(MEMBERS))
    desk.find("button.open", "address").click()
    desk.find("button.open", "address.street").click()
    compare("members: nested ones, opened", [ADDRESS, *INNER, *INNERMOST, *OTHERS], desk.run(MEMBERS))
    desk.find("button.open", "map").click()
    for label, change in PRESSES:
        press_member(desk, label)
        proposed = {name: value for name, value in {**proposed, **change}.items() if value is not None}
        compare(f"members: {label}", proposed, merged_body(desk))
    compare("members: which are taken", TAKEN, {row[0]: row[3] for row in desk.run(MEMBERS)})
    for name in ["address", "map"]:
        desk.find("button.open", name).click()
    compare("members: closed again", [row[0] for row in [ADDRESS, *OTHERS]], [row[0] for row in desk.run(MEMBERS)])


def check_members_typed(place: Place, desk: Desk) -> None:
    """Members are taken into what is typed, unless that is no JSON; what is settled is what is there then."""
    place.push("members", *[{"_id": "typed", **one} for one in [revision("r1", **BASE), revision("b2", "r1", **LEFT), revision("a2", "r1", **RIGHT)]])
    desk.go("members", "settle", "typed")
    desk.retype("textarea", '{"day": "Monday"')
    press_member(desk, "gone: take 1")
    desk.find("#told", "JSON")
    compare("members: what is typed and no JSON stays", '{"day": "Monday"', desk.find("textarea").value())
    desk.find("textarea").type("}")
    compare("members: what is typed is what is marked", "left", {row[0]: row[3] for row in desk.run(MEMBERS)}["day"])
    press_member(desk, f"new: take {GREATEST}")
    desk.press_button("Settle")
    desk.find("main p", "is deleted")
    compare("members: what lives", [{"day": "Monday", "new": GREATEST}], list(place.living("members", "typed").values()))


def check_without_ancestor(place: Place, desk: Desk) -> None:
    """Merges without a common ancestor: the marks are against the winner."""
    place.push("members", {"_id": "rootless", **revision("a1", day="Friday", x=1)}, {"_id": "rootless", **revision("b1", day="Sunday", y=2)})
    desk.go("members", "settle", "rootless")
    desk.find("p.proposal", "Marked are changes to the winner 1-b1")
    wanted = [["day", '"Sunday"', '"Friday" changed', "left"], ["x", "no such member", "1 added", ""], ["y", "2", "no such member removed", ""]]
    compare("rootless: what differs from the winner", wanted, [[*row[:3], row[3] if row[0] == "day" else ""] for row in desk.run(MEMBERS)])
    winner, other = [side.text() for side in desk.all("section.side")]
    compare("rootless: the winner has no marks", [True, False], ['"day": "Sunday"' in winner, '- ' in winner or '+ ' in winner])
    compare("rootless: the other one is marked", [True] * 4, [line in other for line in ['-   "day": "Sunday"', '+   "day": "Friday"', '+   "x": 1', '-   "y": 2']])


def check_thirty(place: Place, desk: Desk) -> None:
    """Chooses from lists which two of thirty versions are compared; all others go."""
    place.push("members", *[{"_id": "thirty", **revision(f"v{number:02}", n=number, same=1)} for number in range(30)])
    desk.go("members", "settle", "thirty")
    sides = "return [...document.querySelectorAll('section.side h3')].map(one => one.textContent)"
    compare("thirty: the two at first", ["1-v29 winner", "1-v28 conflict"], desk.run(sides))
    compare("thirty: all are in each list", [30, 30], desk.run("return [...document.querySelectorAll('select')].map(one => one.options.length)"))
    for which, version, wanted in [(1, "1-v03 conflict", ["1-v29 winner", "1-v03 conflict"]), (0, "1-v11 conflict", ["1-v11 conflict", "1-v03 conflict"]), (0, "1-v03 conflict", ["1-v03 conflict", "1-v11 conflict"])]:
        desk.all("select")[which].type(version + ENTER)
        compare(f"thirty: {version} was chosen", wanted, desk.run(sides))
        compare("thirty: what the lists say", wanted, desk.run("return [...document.querySelectorAll('select')].map(one => one.selectedOptions[0].textContent)"))
    compare("thirty: what differs", [["n", "3 changed", "11 changed", ""]], desk.run(MEMBERS))
    press_member(desk, "n: take 11 of 1-v11")
    compare("thirty: what was taken", {"n": 11, "same": 1}, merged_body(desk))
    desk.press_button("Settle")
    desk.find("h2", "Settled", seconds=60)
    compare("thirty: what lives", [{"n": 11, "same": 1}], list(place.living("members", "thirty").values()))


CHECKS = [check_members, check_members_typed, check_without_ancestor, check_thirty]
