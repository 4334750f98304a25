"""Keyboard and screen reader: what Chromium's own tree of accessibility says of each view, and where its keys lead."""
from lib.checks import compare
from lib.desk.looks import PLACES
from lib.desk.page import ENTER, TAB, Desk
from lib.desk.place import Place, conflicting, revision
from lib.desk.scripts import FOCUSED, REACHABLE, SIGNS
from lib.values import Object

CONTROLS = ["button", "link", "textbox", "combobox", "checkbox", "progressbar", "DisclosureTriangle"]
GROUPS = ["navigation", "region", "dialog"]
SEVERAL = ["readers", "readers/settle/nested", "readers/settle/thirty"]


def nodes_of(desk: Desk) -> list[Object]:
    """Returns the nodes of the page that screen readers meet: role, name, and the properties that they tell."""
    desk.emulate("Accessibility.enable")
    nodes = [node for node in desk.emulate("Accessibility.getFullAXTree")["nodes"] if not node.get("ignored")]
    told = [{one["name"]: one["value"].get("value") for one in node.get("properties", [])} for node in nodes]
    return [{**more, "role": node["role"]["value"], "name": node.get("name", {}).get("value", "").strip()} for node, more in zip(nodes, told)]


def check_names(what: str, desk: Desk) -> None:
    """Compares names: each control and part has one, controls of one name do the same, and the heading is there."""
    nodes = nodes_of(desk)
    compare(f"{what}: nodes without a name", [], [node["role"] for node in nodes if node["role"] in CONTROLS + GROUPS and not node["name"]])
    compare(f"{what}: there is something to press", True, any(node["role"] == "link" for node in nodes))
    compare(f"{what}: its headings begin with the desk's and the view's", [1, 2], [node["level"] for node in nodes if node["role"] == "heading"][:2])
    buttons = [node["name"] for node in nodes if node["role"] == "button"]
    compare(f"{what}: buttons of one name", [], sorted({name for name in buttons if buttons.count(name) > 1}))
    links = {(node["name"], node.get("url")) for node in nodes if node["role"] == "link"}
    names = [name for name, _ in links]
    compare(f"{what}: links of one name that lead apart", [], sorted({name for name in names if names.count(name) > 1}))


def check_order(what: str, desk: Desk) -> None:
    """Presses the key that goes on: it leads to each control, downwards and to the right, and shows where it is."""
    wanted = desk.run(REACHABLE)
    desk.run("document.activeElement.blur(); document.querySelector('h1 a').focus()")
    seen = [desk.run(FOCUSED)]
    for _ in range(len(wanted) + 3):
        desk.press(TAB)
        seen.append(desk.run(FOCUSED))
        if seen[-1] is None or seen[-1]["place"] == seen[0]["place"]:
            break
    met = [one for one in seen[:-1] if one]
    compare(f"{what}: what the keys lead to", wanted, [one["place"] for one in met])
    back = [(one["name"], other["name"]) for one, other in zip(met, met[1:]) if other["bottom"] <= one["top"] and other["left"] < one["right"]]
    compare(f"{what}: where the keys lead back", [], back)
    compare(f"{what}: where the focus isn't seen", [], [one["name"] for one in met[1:] if not one["isSeen"]])


def check_views(place: Place, desk: Desk) -> None:
    """Looks at each view: names, the order of focus, and signs beside colours."""
    place.made("PUT", "/readers")
    inner = {name: {"city": name, "street": {"no": name}} for name in ["r1", "a2", "b2"]}
    place.push("readers", {"_id": "nested", **revision("r1", address=inner["r1"])}, *[{"_id": "nested", **revision(name, "r1", address=inner[name], v=name)} for name in ["a2", "b2"]])
    place.push("readers", *[{"_id": "thirty", **revision(f"v{number:02}", n=number)} for number in range(30)])
    conflicting(place, "other", "readers")
    for name in [*PLACES, *SEVERAL]:
        words = name.split("/") if name else []
        desk.go(*words)
        if words[1:2] == ["document"]:
            desk.find("svg.tree text", "winner")
        if len(words) == 1:
            desk.find("button", "Look again")
        for one in desk.all("button.open"):
            one.click()
        check_names(name or "databases", desk)
        check_order(name or "databases", desk)
        compare(f"{name}: marked by colours alone", [], desk.run(SIGNS))


def check_moments(place: Place, desk: Desk) -> None:
    """Looks at what is there for a moment: the next one, the question before a view is left, the sign of waiting."""
    for name in ["ask", "asked"]:
        conflicting(place, name, "left")
    desk.go("left")
    desk.find("button", "Look again")
    desk.go("left", "settle", "ask")
    taken = [node for node in nodes_of(desk) if node["role"] == "button" and ": take " in node["name"]]
    compare("settle: screen readers are told what is taken", {"true", "false"}, {str(node.get("pressed")) for node in taken})
    desk.press_button("Settle")
    desk.find("button.next", "Next: ")
    check_names("settled", desk)
    check_order("settled", desk)
    desk.go("left", "settle", "asked")
    desk.press_button("Take 2-a2")
    desk.find("#tabs a", "documents").click()
    desk.find("dialog[open]", "isn't saved")
    dialog = [node for node in nodes_of(desk) if node["role"] == "dialog"]
    compare("asking: the dialog and its name", ["What you typed here isn't saved"], [node["name"] for node in dialog])
    compare("asking: nothing else is met", {"Stay here", "Leave and lose it"}, {node["name"] for node in nodes_of(desk) if node["role"] in CONTROLS})
    compare("asking: the focus is where nothing is lost", "Stay here", desk.run("return document.activeElement.textContent"))
    desk.press(ENTER)
    compare("asking: back where it was", "documents", desk.run("return document.activeElement.textContent"))
    desk.find("#tabs a", "documents").click()
    desk.press_button("Leave and lose it")
    desk.find("table.documents")
    with place.stopped():
        desk.move("left", "changes")
        desk.find("#waiting", "loading", seconds=5)
        nodes = nodes_of(desk)
    compare("waiting: it is announced", ["polite"], [node.get("live") for node in nodes if node["role"] == "status"])
    compare("waiting: the way to stop it", ["Stop (Escape)"], [node["name"] for node in nodes if node["role"] == "button"])
    desk.find("table.changes")
    desk.go("left", "new")
    desk.retype("textarea", "[1]")
    desk.press_button("Save")
    desk.find("#told", "A body is an object")
    compare("refused: it is announced", ["assertive"], [node.get("live") for node in nodes_of(desk) if node["role"] == "alert"])


CHECKS = [check_views, check_moments]
