"""Keys, labels, colours and widths, and the pictures of the pages."""
import argparse
import hashlib

from lib.checks import compare
from lib.desk.page import ENTER, Desk
from lib.desk.place import GREATEST, MERGED, Place, conflicting, revision
from lib.desk.scripts import CONTRAST, OVERLAPS, UNLABELLED
from lib.values import Object


def check_keys(place: Place, desk: Desk) -> None:
    """Settles a conflict by keys alone."""
    conflicting(place, "keys")
    desk.go()
    for text in ["notes", "keys"]:
        desk.tab_to(text)
        desk.press(ENTER)
        desk.find("h2", "conflicts" if text == "notes" else "keys")
        desk.find("table.conflicts a", "keys") if text == "notes" else None
    for text in ["Settle them", "Settle"]:
        desk.tab_to(text)
        desk.press(ENTER)
        desk.find("h2", text.split()[0])
    desk.find("main p", "is deleted")
    compare("keys: what lives", [MERGED], list(place.living("notes", "keys").values()))


PLACES = ["", "notes", "notes/documents", "notes/document/plan", "notes/settle/plan", "notes/edit/plan/4-c4", "notes/new", "notes/changes"]
PLACES += ["notes/find", "notes/views", "notes/access", "notes/local/phone"]


def check_looks(place: Place, desk: Desk) -> None:
    """Looks at each view: labels, both colour schemes, and nothing over another at 1200 and at 400 pixels."""
    for name in PLACES:
        words = name.split("/") if name else []
        desk.go(*words)
        if words[1:2] == ["document"]:
            desk.find("svg.tree text", "winner")
        compare(f"{name}: without a label", [], desk.run(UNLABELLED))
        for width in [1200, 400]:
            desk.resize(width, 900)
            compare(f"{name}: over one another at {width}", [], desk.run(OVERLAPS))
        backs = []
        for scheme in ["dark", "light"]:
            desk.emulate("Emulation.setEmulatedMedia", features=[{"name": "prefers-color-scheme", "value": scheme}])
            back, found = desk.run(CONTRAST)
            backs.append(back)
            compare(f"{name}: too faint where it is {scheme}", [], found)
        compare(f"{name}: two schemes", 2, len(set(backs)))
        compare(f"{name}: the heading has the focus", "H2", desk.run("return document.activeElement.tagName") if words[1:] else "H2")
    desk.resize(1200, 900)


def seed_pictures(place: Place) -> None:
    """Makes documents for the pictures, with names of revisions as a server gives them."""
    names = [hashlib.md5(f"week {number}".encode()).hexdigest() for number in range(60)]
    base: Object = {"day": "Monday", "guests": ["Ann", "Bo"], "place": {"house": "North", "room": 12}, "title": "Week 48"}
    tuesday: Object = {**base, "day": "Tuesday", "budget": GREATEST, "place": {"house": "South", "room": 12}}
    friday: Object = {**base, "day": "Friday", "guests": ["Ann", "Bo", "Cy"], "place": {"house": "North", "room": 7}}
    place.made("PUT", "/plans")
    place.push(
        "plans",
        {"_id": "week", **revision(*names[2::-1], **base)},
        {"_id": "week", **revision(names[3], *names[2::-1], **tuesday)},
        {"_id": "week", **revision(*names[11:4:-1], *names[2::-1], **friday)},
        {"_id": "week", **revision(*names[31:28:-1], names[0], _deleted=True)},
    )
    for number, name in enumerate(["menu", "shifts", "garden", "fleet", "keys"], 40):
        place.push("plans", *[{"_id": name, **revision(one, names[number], day=one)} for one in names[number + 1 : number + 3]])


def take_pictures(options: argparse.Namespace, place: Place, desk: Desk) -> None:
    """Writes pictures of the list, of a tree, of a merge by members, and of what is shown once it is settled, into a folder."""
    seed_pictures(place)

    def take(name: str) -> None:
        desk.run("document.activeElement.blur(); scrollTo(0, 0)")
        desk.picture(f"{options.pictures}/desk-{name}.png")
        desk.resize(options.width, 400)

    desk.resize(options.width, 400)
    desk.go("plans")
    desk.find("button", "Look again")
    take("list")
    desk.go("plans", "document", "week")
    desk.find("svg.tree text", "winner")
    take("tree")
    desk.go("plans", "settle", "week")
    desk.find("button.open", "place").click()
    take("merge")
    desk.press_button("Settle")
    desk.find("button.next", "Next: ")
    take("settled")


CHECKS = [check_keys, check_looks]
