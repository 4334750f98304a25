"""Documents that are written, edited and deleted."""
import json

from lib.checks import compare
from lib.desk.page import Desk
from lib.desk.place import GREATEST, LEAST, Place
from lib.values import Object


def check_writing(place: Place, desk: Desk) -> None:
    """Writes new and edited documents, with numbers at both ends; deletes one, and writes it again."""
    desk.go("notes", "new")
    desk.find("input").type("fresh")
    desk.retype("textarea", f'{{"big": {GREATEST}, "small": {LEAST}, "deep": {{"__proto__": {{"x": 1}}, "exact": 9007199254740993}}}}')
    desk.press_button("Save")
    desk.find("h3", "winner")
    wanted: Object = {"big": GREATEST, "small": LEAST, "deep": {"__proto__": {"x": 1}, "exact": 9007199254740993}}
    compare("new: what is stored", [wanted], list(place.living("notes", "fresh").values()))
    desk.find("main a", "Edit").click()
    text = desk.find("textarea").value()
    compare("edit: what is there to be edited", wanted, json.loads(text))
    desk.retype("textarea", text.rstrip().removesuffix("}") + ', "more": "v"}')
    desk.press_button("Save")
    desk.find("pre.body", "more")
    compare("edit: what is stored", [{**wanted, "more": "v"}], list(place.living("notes", "fresh").values()))
    desk.find("summary", "Delete").click()
    desk.press_button("Delete")
    desk.find("h3", "deleted")
    compare("delete: no version lives", {}, place.living("notes", "fresh"))
    compare("delete: its body is kept", {**wanted, "more": "v"}, {name: value for name, value in place.ask("GET", "/notes/fresh?open_revs=all")[1][0]["ok"].items() if name[0] != "_"})
    desk.find("main a", "Write it again").click()
    desk.find("h2", "Edit")
    desk.press_button("Save")
    desk.find("h3", "winner")
    compare("written again", [{**wanted, "more": "v"}], list(place.living("notes", "fresh").values()))


def check_typed(place: Place, desk: Desk) -> None:
    """Saves where somebody else saved first, and where the server refuses it: what was typed is kept."""
    place.made("PUT", "/notes/typed", {"v": 1})
    desk.go("notes", "document", "typed")
    desk.find("main a", "Edit").click()
    desk.find("h2", "Edit")
    theirs = place.made("PUT", f"/notes/typed?rev={next(iter(place.living('notes', 'typed')))}", {"theirs": GREATEST})["rev"]
    desk.retype("textarea", '{"mine": 18446744073709551614}')
    desk.press_button("Save")
    desk.find("div.beside h3", f"{theirs} was written meanwhile")
    compare("edit: the newer one stays", [{"theirs": GREATEST}], list(place.living("notes", "typed").values()))
    compare("edit: what was typed stays", '{"mine": 18446744073709551614}', desk.find("textarea").value())
    compare("edit: both are side by side", True, all(text in desk.find("div.beside").text() for text in ['"theirs": 18446744073709551615', '"mine": 18446744073709551614']))
    compare("edit: the status is told", True, "409" in desk.told())
    desk.press_button("Save over")
    desk.find("h3", "winner")
    compare("edit: saved over the newer one", [{"mine": GREATEST - 1}], list(place.living("notes", "typed").values()))
    desk.go("notes", "new")
    desk.find("input").type("typed")
    for text, why in [("[1]", "A body is an object"), ('{"_rev": "1-a"}', "no member _rev"), ('{"a": ', "JSON"), ('{"a": 1.5}', "400"), ('{"typed": 1}', "409")]:
        desk.retype("textarea", text)
        desk.press_button("Save")
        desk.find("#told", why)
        compare(f"new: {text} stays typed", text, desk.find("textarea").value())
    compare("new: what was there stays", [{"mine": GREATEST - 1}], list(place.living("notes", "typed").values()))
    desk.retype("input", "fresher")
    desk.press_button("Save over")
    desk.find("#told", "409")
    desk.press_button("Save")
    desk.find("h3", "winner")
    compare("new: under another id after a conflict", ([{"typed": 1}], [{"mine": GREATEST - 1}]), tuple(list(place.living("notes", name).values()) for name in ["fresher", "typed"]))


CHECKS = [check_writing, check_typed]
