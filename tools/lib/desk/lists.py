"""Lists of databases, documents, conflicts and changes, and who sees them."""
from lib.checks import compare
from lib.desk.page import ENTER, Desk
from lib.desk.place import Place
from lib.desk.scripts import CELLS
from lib.server import ADMIN


def check_databases(place: Place, desk: Desk) -> None:
    """Opens the lists: server admins see databases, others name theirs; each sees who he is, and what is refused."""
    desk.go()
    desk.find("#user", f"you are {ADMIN}")
    compare("databases: the list", place.ask("GET", "/_all_dbs")[1], desk.links("table.databases a"))
    with Desk(place, "alice") as other:
        other.find("h2", "Only server admins can list databases")
        other.find("#user", "you are alice")
        other.find("input").type("notes" + ENTER)
        other.find("table.conflicts a", "plan")
        other.go("notes", "access")
        replies = [cells[1] for cells in other.run(CELLS, "table.may")]
        denied = ["server_admin", None, "db_admin", "design_document"]
        compare("access: what the server says to a member", [True] * 4, [reply.endswith(rule) if rule else reply == "yes" for rule, reply in zip(denied, replies)])
    with Desk(place, "zo\u00eb") as other:
        other.find("#user", "you are zo\u00eb")
    with Desk(place, "bob") as other:
        other.find("input").type("notes" + ENTER)
        other.find("#told", "db_member")
        compare("databases: a denial", True, "You are not allowed to access this db." in other.told() and "403" in other.told())


def check_lists(place: Place, desk: Desk) -> None:
    """Documents by pages both ways, from an id on; conflicts, changes."""
    ids = [row["id"] for row in place.ask("GET", "/notes/_all_docs")[1]["rows"]]
    desk.go("notes", "documents", text=f"{len(ids)} documents")
    compare("documents: the first page", ids[:25], desk.links("table.documents td a"))
    for text, start in [("next page", 25), ("next page", 50), ("previous page", 25), ("previous page", 0)]:
        desk.find("nav.pages a", text).click()
        desk.find("table.documents td a", ids[start])
        compare(f"documents: {text} at {start}", ids[start : start + 25], desk.links("table.documents td a"))
    compare("documents: no page before the first", ["next page"], desk.links("nav.pages a"))
    desk.find("input").type("n05" + ENTER)
    desk.find("table.documents td a", "n050")
    compare("documents: from an id on", [one for one in ids if one >= "n05"], desk.links("table.documents td a"))
    desk.go("notes")
    desk.find("[role=status]", f"1 found among {len(place.ask('GET', '/notes/_changes')[1]['results'])} documents")
    compare("conflicts: who is in the list", [["plan", "2", "4-c4 4-b4", "settle"]], desk.run(CELLS, "table.conflicts"))
    results = place.ask("GET", "/notes/_changes")[1]["results"]
    desk.go("notes", "changes")
    last = [one["id"] for one in results if one["seq"] > results[-1]["seq"] - 25]
    compare("changes: the newest first", last[::-1], desk.links("table.changes a"))
    desk.find("nav.pages a", "older").click()
    desk.find("nav.pages a", "newest")
    compare("changes: older ones", [one["id"] for one in results if results[-1]["seq"] - 50 < one["seq"] <= results[-1]["seq"] - 25][::-1], desk.links("table.changes a"))


CHECKS = [check_databases, check_lists]
