"""Finds, indexes and views, the security object, and local documents."""
import time

from lib.checks import compare
from lib.desk.page import ENTER, Desk
from lib.desk.place import GREATEST, Place


def check_queries(place: Place, desk: Desk) -> None:
    """Finds, an index that is declared for one, its view by pages; local documents; the security object."""
    desk.go("notes", "find")
    desk.retype("textarea", '{"selector": {"v": {"$gt": 9}}, "limit": 20}')
    desk.press_button("Find")
    desk.find("[role=status]", "20 found")
    compare("find: a page", [f"n{number:03}" for number in range(10, 30)], desk.links("div.found summary a"))
    desk.press_button("More")
    desk.find("[role=status]", "20 found after the first 20")
    compare("find: the next page", [f"n{number:03}" for number in range(30, 50)], desk.links("div.found summary a"))
    desk.press_button("Declare")
    desk.find("#told", "created: _design/desk by_v")
    compare("find: the index", {"by_v": {"fields": ["v"]}}, place.ask("GET", "/notes/_design/desk")[1]["indexes"])
    desk.go("notes", "views")
    desk.find("table.indexes a", "by_v").click()
    desk.find("h2", "60 rows of by_v")
    rows = place.ask("GET", "/notes/_design/desk/_view/by_v")[1]["rows"]
    compare("view: the first page", [row["id"] for row in rows[:25]], desk.links("table.rows a"))
    desk.find("nav.pages a", "next page").click()
    desk.find("table.rows a", "n025")
    desk.find("input").type("[40]" + ENTER)
    desk.find("table.rows a", "n040")
    compare("view: from a key on", [row["id"] for row in rows[40:]], desk.links("table.rows a"))
    desk.find("input[type=checkbox]").click()
    desk.press_button("Go")
    desk.find("table.rows a", "n039")
    compare("view: downwards", [row["id"] for row in rows[40:15:-1]], desk.links("table.rows a"))
    desk.go("notes", "local")
    desk.find("input").type("phone" + ENTER)
    desk.find("main p", "never written")
    for number in [1, 2]:
        desk.retype("textarea", f'{{"at": {GREATEST - number}}}')
        desk.press_button("Save")
        desk.find("main p", f"0-{number}")
        compare("local: what is stored", {"_id": "_local/phone", "_rev": f"0-{number}", "at": GREATEST - number}, place.ask("GET", "/notes/_local/phone")[1])
    desk.go("long", "access")
    desk.retype("textarea", '{"members": {"names": ["alice", "bob"]}, "kept": 18446744073709551615}')
    desk.press_button("Save the security object")
    desk.find("textarea")
    time.sleep(0.2)
    compare("access: the security object", {"members": {"names": ["alice", "bob"]}, "kept": GREATEST}, place.ask("GET", "/long/_security")[1])


CHECKS = [check_queries]
