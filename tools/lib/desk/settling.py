"""Conflicts that are settled, calmly, beside other writers, and against rules."""
import json

from lib.checks import compare
from lib.desk.page import ENTER, Desk
from lib.desk.place import BOTH, GREATEST, MERGED, Place, conflicting, revision
from lib.desk.scripts import CELLS


def check_settled(place: Place, desk: Desk) -> None:
    """Settles by a merge of what doesn't touch, and by a version that is kept unchanged."""
    before = len(place.writes())
    desk.go("notes", "settle", conflicting(place, "merge"))
    desk.find("p.proposal", "The changes don't overlap")
    compare("merge: what is proposed", MERGED, json.loads(desk.find("textarea").value()))
    sides = [side.text() for side in desk.all("section.side")]
    wanted = [['-   "room": 12', '+   "room": 7', "2-b2 winner"], ['-   "day": "Monday"', '+   "day": "Friday"', "2-a2 conflict"]]
    compare("merge: each side against the ancestor", [True, True], [all(line in side for line in lines) for side, lines in zip(sides, wanted)])
    desk.press_button("Settle")
    desk.find("main p", "is deleted")
    compare("merge: what lives", [MERGED], list(place.living("notes", "merge").values()))
    compare("merge: the loser keeps its body", BOTH["2-a2"]["day"], [one["ok"]["day"] for one in place.ask("GET", "/notes/merge?open_revs=all")[1] if one["ok"].get("_deleted")][0])
    compare("merge: each write is a request of its own", ["PUT /notes/merge HTTP/1.1"] * 2, place.writes()[before:])
    desk.go("notes", "settle", conflicting(place, "keep"))
    desk.press_button("Take 2-a2")
    compare("keep: what was taken", BOTH["2-a2"], json.loads(desk.find("textarea").value()))
    desk.press_button("Settle")
    desk.find("main p", "2-a2 is kept as it was")
    compare("keep: what lives", {"2-a2": BOTH["2-a2"]}, place.living("notes", "keep"))
    desk.go("notes", "settle", conflicting(place, "both"))
    desk.retype("textarea", '{"owner": "ann", "day": "Sunday", "big": 18446744073709551614}')
    desk.press_button("Settle")
    desk.find("main p", "is deleted")
    compare("edited: what lives", [{"owner": "ann", "day": "Sunday", "big": GREATEST - 1}], list(place.living("notes", "both").values()))
    desk.find("h2 a", "both").click()
    desk.find("svg.tree text", "winner")
    compare("edited: what is shown", {"owner": "ann", "day": "Sunday", "big": GREATEST - 1}, desk.body())
    place.push("notes", {"_id": "touch", **revision("r1", day="Monday")}, {"_id": "touch", **revision("a2", "r1", day="Friday")}, {"_id": "touch", **revision("b2", "r1", day="Sunday")})
    desk.go("notes", "settle", "touch")
    desk.find("ul.touching li", "day")
    compare("touching: the winner's stands", {"day": "Sunday"}, json.loads(desk.find("textarea").value()))
    place.push("notes", {"_id": "rootless", **revision("a1", day="Friday", x=1)}, {"_id": "rootless", **revision("b1", day="Sunday", x=1)})
    desk.go("notes", "settle", "rootless")
    desk.find("p.proposal", "No body of a common ancestor")


def check_overtaken(place: Place, desk: Desk) -> None:
    """Versions that are written while one settles: nothing that lives may vanish."""
    desk.go("notes", "settle", conflicting(place, "winner"))
    newer = place.made("PUT", "/notes/winner?rev=2-b2", {"theirs": 1})["rev"]
    desk.retype("textarea", '{"typed": 18446744073709551615}')
    desk.press_button("Settle")
    desk.find("#told", "409")
    compare("winner overtaken: all live", {newer: {"theirs": 1}, "2-a2": BOTH["2-a2"]}, place.living("notes", "winner"))
    compare("winner overtaken: what was typed stays", '{"typed": 18446744073709551615}', desk.find("textarea").value())
    compare("winner overtaken: the newer one is shown", True, '"theirs": 1' in desk.find("div.sides").text())
    desk.press_button("Settle")
    desk.find("main p", "2-a2 is deleted")
    compare("winner overtaken: then it goes over the newer one", [{"typed": GREATEST}], list(place.living("notes", "winner").values()))
    desk.go("notes", "settle", conflicting(place, "kept"))
    newer = place.made("PUT", "/notes/kept?rev=2-b2", {"theirs": 1})["rev"]
    desk.press_button("Take 2-b2")
    desk.press_button("Settle")
    desk.find("main p", "was changed meanwhile")
    compare("kept one overtaken: all live", {newer: {"theirs": 1}, "2-a2": BOTH["2-a2"]}, place.living("notes", "kept"))
    desk.go("notes", "settle", conflicting(place, "gone"))
    place.made("DELETE", "/notes/gone?rev=2-b2")
    desk.press_button("Take 2-b2")
    desk.press_button("Settle")
    desk.find("main p", "was changed meanwhile")
    compare("kept one deleted: the other lives", {"2-a2": BOTH["2-a2"]}, place.living("notes", "gone"))
    desk.go("notes", "settle", conflicting(place, "none"))
    for name in ["2-a2", "2-b2"]:
        place.made("DELETE", f"/notes/none?rev={name}")
    desk.retype("textarea", '{"typed": 1}')
    desk.press_button("Settle")
    desk.find("#told", "409")
    compare("all deleted: what was typed stays", '{"typed": 1}', desk.find("textarea").value())
    desk.press_button("Settle")
    desk.find("main p", "is written")
    compare("all deleted: what was typed is saved", [{"typed": 1}], list(place.living("notes", "none").values()))
    desk.go("notes", "settle", conflicting(place, "loser"))
    newer = place.made("PUT", "/notes/loser?rev=2-a2", {"theirs": 2})["rev"]
    desk.press_button("Settle")
    desk.find("main p", "2-a2 was not deleted")
    living = place.living("notes", "loser")
    compare("loser overtaken: it lives beside the merged one", [{"theirs": 2}, MERGED], [living.pop(newer), *living.values()])


def check_rules(place: Place, desk: Desk) -> None:
    """Merges and deletions that a rule refuses: each version lives, and the rule is told."""
    place.made("PUT", "/rules/_design/bad", {"validate_doc_update": {"newDoc.bad": {"$exists": False}}})
    desk.go("rules", "settle", conflicting(place, "refused", "rules"))
    desk.retype("textarea", '{"bad": 1}')
    desk.press_button("Settle")
    desk.find("#told", "_design/bad")
    compare("refused merge: what is told", True, all(text in desk.told() for text in ["403", "forbidden", "Refused by an update rule."]))
    compare("refused merge: all live", BOTH, place.living("rules", "refused"))
    compare("refused merge: what was typed stays", '{"bad": 1}', desk.find("textarea").value())
    place.made("PUT", "/rules/_design/owner", {"validate_doc_update": {"$or": [{"oldDoc": None}, {"newDoc.owner": {"$sameAs": "oldDoc.owner"}}]}})
    desk.go("rules", "settle", "refused")
    desk.press_button("Settle")
    desk.find("main p", "is deleted")
    compare("a rule on owners: deletions pass", [MERGED], list(place.living("rules", "refused").values()))
    conflicting(place, "stays", "rules")
    place.made("PUT", "/rules/_design/stays", {"validate_doc_update": {"newDoc._deleted": {"$exists": False}}})
    desk.go("rules", "settle", "stays")
    desk.press_button("Settle")
    desk.find("main dd", "_design/stays")
    compare("refused deletion: it lives beside the merged one", [MERGED, BOTH["2-a2"]], sorted(place.living("rules", "stays").values(), key=len, reverse=True))
    desk.go("rules", "access")
    compare("access: the rules", ["_design/bad", "_design/owner", "_design/stays"], desk.links("p a"))
    compare("access: a server admin may all", ["yes"] * 4, [cells[1] for cells in desk.run(CELLS, "table.may")])
    place.made("PUT", "/rules/fine", {"owner": "ann"})
    desk.find("form.may input").type("fine" + ENTER)
    desk.find("div.answer", "yes")
    compare("access: asked by writing", [{"owner": "ann"}], list(place.living("rules", "fine").values()))
    with Desk(place, "alice") as other:
        other.go("rules", "access")
        other.find("form.may input").type("_design/bad" + ENTER)
        other.find("div.answer dd", "design_document")


CHECKS = [check_settled, check_overtaken, check_rules]
