"""The tree of a document, and the body of each revision."""
import json

from lib.checks import compare
from lib.desk.page import ENTER, Desk
from lib.desk.place import Place
from lib.desk.scripts import LOOKS, NODES

KINDS = {
    "winner": "4-c4 winner",
    "conflict": "4-b4 conflict",
    "deleted": "9-d9 deleted",
    "inner": "3-a3 held",
    "gone": "1-a1 not held",
    "run": "5 more",
}


def check_tree(place: Place, desk: Desk) -> None:
    """Opens a tree: each kind of revision has a class, a shape and a word; each held body can be read."""
    desk.go("notes", "document", "plan")
    desk.find("svg.tree")
    nodes = [tuple(node) for node in desk.run(NODES)]
    wanted = [("gone", "1-a1 not held"), ("gone", "2-e2 not held"), ("deleted", "3-e3 deleted"), ("gone", "2-a2 not held"), ("inner", "3-a3 held")]
    wanted += [("conflict", "4-b4 conflict"), ("run", "5 more"), ("deleted", "9-d9 deleted"), ("winner", "4-c4 winner")]
    compare("tree: the rows", wanted, nodes)
    compare("tree: each kind has its word", sorted(KINDS.items()), sorted({kind: word for kind, word in nodes if KINDS[kind] == word}.items()))
    shapes = desk.run(LOOKS)
    compare("tree: each kind has a look of its own", len(KINDS), len(set(shapes.values())))
    leaves = [one["ok"] for one in place.ask("GET", "/notes/plan?open_revs=all")[1]]
    compare("tree: the winner is first in the API", "4-c4", leaves[0]["_rev"])
    for leaf in [*leaves, place.ask("GET", "/notes/plan?rev=3-a3")[1]]:
        desk.go("notes", "document", "plan", leaf["_rev"])
        desk.find("h3", leaf["_rev"])
        shown = json.loads(desk.find("pre.body").text())
        compare(f"tree: the body of {leaf['_rev']}", {name: leaf[name] for name in leaf if not name.startswith("_")}, shown)
    desk.go("notes", "document", "plan", "2-a2")
    desk.find("p", "No body of this revision is held here.")
    desk.run("document.querySelector('svg.tree a[aria-label^=\"5 more\"]').focus()")
    desk.press(ENTER)
    desk.find("svg.tree text", "6-d6 not held")
    desk.run("document.querySelector('svg.tree a[aria-label^=\"3-e3\"]').focus()")
    desk.press(ENTER)
    desk.find("h3", "3-e3 deleted")
    compare("tree: text stays text", [0, "desk / notes / document / plan"], desk.run("return [document.querySelectorAll('main img').length, document.title]"))


CHECKS = [check_tree]
