"""Views that are left, while the server hangs: what is on the screen is what acts, and what was typed is not lost."""
import time

from lib.checks import compare
from lib.desk.page import ENTER, ESCAPE, Desk
from lib.desk.place import BOTH, Place, conflicting, revision
from lib.desk.scripts import LIVE, PRESSED

# Views with something to press, and what they show.
VIEWS = ["documents", "document/each", "settle/each", "edit/each", "new", "changes", "find", "access", "local/phone"]
THREE = {f"2-{name}": {"v": name} for name in ["a2", "b2", "c2"]}


def conflicting_thrice(place: Place, name: str) -> None:
    """Makes a document of three versions."""
    place.push("left", {"_id": name, **revision("r1", v="r1")}, *[{"_id": name, **revision(one, "r1", v=one)} for one in ["a2", "b2", "c2"]])


def check_left_for_another(place: Place, desk: Desk) -> None:
    """Leaves a view whose follower waits for a hanging server: nothing of it can be pressed, and no version goes."""
    conflicting_thrice(place, "three")
    conflicting(place, "week", "left")
    desk.go("left", "settle", "three")
    desk.find("button", "Settle")
    before = len(place.writes())
    with place.stopped():
        desk.move("left", "settle", "week")
        compare("left: what of the view before is live", [], desk.run(LIVE))
        desk.run(PRESSED, "Settle")
        desk.press(ENTER)
        time.sleep(0.5)
        compare("left: what of the view before is live, a moment later", [], desk.run(LIVE))
    desk.find("h2", "Settle week")
    place.settle_down()
    compare("left: no write was sent", [], place.writes()[before:])
    compare("left: all versions of the one before live", THREE, place.living("left", "three"))
    compare("left: all versions of the one behind live", BOTH, place.living("left", "week"))
    desk.press_button("Settle")
    desk.find("main p", "is deleted")
    compare("left: what is on the screen is settled", [THREE, 1], [place.living("left", "three"), len(place.living("left", "week"))])


def check_each_view(place: Place, desk: Desk) -> None:
    """Leaves each view while the server hangs: nothing of it can be pressed or typed in."""
    conflicting(place, "each", "left")
    for name in VIEWS:
        desk.go("left", *name.split("/"))
        compare(f"left: there is something in {name}", True, desk.run(LIVE) != [])
        with place.stopped():
            desk.move("left", "document", "elsewhere")
            compare(f"left: what of {name} is live", [], desk.run(LIVE))


def check_stopped_while_settling(place: Place, desk: Desk) -> None:
    """Stops a settle before the server replies: what was typed stays, no version goes, and it can be made again."""
    conflicting(place, "halted", "left")
    desk.go("left", "settle", "halted")
    desk.retype("textarea", '{"typed": 1}')
    with place.stopped():
        desk.press_button("Settle")
        desk.find("#waiting", "waiting for the server", seconds=5)
        desk.press(ESCAPE)
        desk.find("#told", "whether it made the change isn't known")
    place.settle_down()
    living = place.living("left", "halted")
    compare("stopped: the loser lives, and what was typed stays", [BOTH["2-a2"], '{"typed": 1}'], [living.get("2-a2"), desk.find("textarea").value()])
    desk.press_button("Settle")
    desk.find("#told", "409")
    desk.press_button("Settle")
    desk.find("h2", "Settled")
    compare("stopped: what lives once it was made again", [{"typed": 1}], list(place.living("left", "halted").values()))


def check_left_while_settling(place: Place, desk: Desk) -> None:
    """Leaves a settle before the server replies: nothing is deleted, and the reader is told."""
    conflicting_thrice(place, "leaving")
    desk.go("left", "settle", "leaving")
    desk.find("button", "Settle")
    with place.stopped():
        desk.press_button("Settle")
        time.sleep(0.2)
        desk.move("left", "documents")
        compare("left while settling: what of it is live", [], desk.run(LIVE))
        compare("left while settling: what is told", True, "left while a change was under way" in desk.told())
    desk.find("h2", "documents")
    place.settle_down()
    compare("left while settling: the losers live", ["a2", "b2"], sorted(body["v"] for body in place.living("left", "leaving").values() if body["v"] != "c2"))
    compare("left while settling: the view stays", True, desk.heading().endswith("documents"))


def check_late_replies(place: Place, desk: Desk) -> None:
    """Replies that come after their view was left: they draw nothing, move nobody and tell nothing."""
    place.made("PUT", "/left/late", {"v": 1})
    desk.go("left", "edit", "late")
    desk.retype("textarea", '{"v": 2}')
    with place.stopped():
        desk.move("left", "changes")
        desk.press_button("Leave")
        desk.move("left", "documents")
        desk.move("left", "local")
        desk.find("h2", "Local documents")
    place.settle_down()
    compare("late: the view that was opened last", ["Local documents", ""], [desk.heading(), desk.told()])
    desk.go("left", "edit", "late")
    desk.retype("textarea", '{"v": 3}')
    with place.stopped():
        desk.press_button("Save")
        desk.move("left", "local")
        desk.press_button("Leave")
        desk.find("h2", "Local documents")
    place.settle_down()
    compare("late: a save that was left moves nobody", ["Local documents", "#/left/local"], [desk.heading(), desk.run("return location.hash")])
    compare("late: what it was is told", True, "whether the server made it isn't known" in desk.told())


def check_waiting(place: Place, desk: Desk) -> None:
    """Waits for a long reply, which has a sign and two ways to stop it; a quick one has no sign."""
    place.made("PUT", "/left/waiting", {"v": 1})
    for view, way in [("documents", "button"), ("changes", "key")]:
        with place.stopped():
            desk.move("left", view)
            desk.find("#waiting", "loading", seconds=5)
            desk.press_button("Stop") if way == "button" else desk.press(ESCAPE)
            desk.find("h2", "Stopped")
            compare(f"waiting: no sign once it was stopped by {way}", "", desk.find("#waiting").shown())
        desk.press_button("Load again")
        desk.find(f"table.{view} a", "waiting")
    desk.forget("left")
    with place.stopped():
        desk.move("left")
        desk.find("p.progress button", "Stop")
        desk.find("[role=status]", "so far")
        desk.press(ESCAPE)
        desk.find("[role=status]", "stopped at")
    desk.go("left", "edit", "waiting")
    desk.retype("textarea", '{"v": 2}')
    with place.stopped():
        desk.press_button("Save")
        desk.find("#waiting", "waiting for the server", seconds=5)
        compare("waiting: what is being saved can't be edited", True, desk.run("return document.querySelector('textarea').readOnly"))
        desk.press(ESCAPE)
        desk.find("#told", "whether it made the change isn't known")
        compare("waiting: what was typed stays, and can be edited", ['{"v": 2}', False], desk.run("const one = document.querySelector('textarea'); return [one.value, one.readOnly]"))
    compare("waiting: a quick reply has no sign", False, quick_has_sign(desk))


def quick_has_sign(desk: Desk) -> bool:
    """Tells whether a view that took less than 200 milliseconds had a sign; the best of ten."""
    script = """
    const begun = performance.now(), seen = [], observer = new MutationObserver(() => seen.push(1));
    observer.observe(document.querySelector('#waiting'), {childList: true});
    location.hash = args[0];
    while (!document.querySelector('#view h2')?.textContent.includes(args[1])) await new Promise(done => setTimeout(done, 5));
    observer.disconnect();
    return [performance.now() - begun, seen.length > 0];
    """
    for number in range(10):
        desk.go("left", "find", text="Find")
        took, has_sign = desk.run(script, "#/left/local", "Local documents") if number % 2 else desk.run(script, "#/left/changes", "Changes")
        if took < 200:
            return bool(has_sign)
    return False


def check_typed_text(place: Place, desk: Desk) -> None:
    """Leaves typed text, or what members were taken: it is asked for, by a link, back, and where the page closes."""
    place.made("PUT", "/left/kept", {"v": 1})
    conflicting(place, "taken", "left")
    is_asked = "const asked = new Event('beforeunload', {cancelable: true}); dispatchEvent(asked); return asked.defaultPrevented;"
    desk.go("left", "document", "kept")
    desk.find("main a", "Edit").click()
    desk.find("h2", "Edit")
    compare("typed: nobody is asked where nothing is typed", False, desk.run(is_asked))
    address = desk.run("return location.hash")
    desk.retype("textarea", '{"v": 2}')
    compare("typed: the browser asks before the page goes", True, desk.run(is_asked))
    for way in ["link", "back"]:
        desk.find("#tabs a", "documents").click() if way == "link" else desk.run("history.back()")
        desk.find("dialog[open]", "isn't saved")
        compare(f"typed: by {way}: the view, its address and its text stay", [address, "Edit kept", '{"v": 2}'], desk.run("return [location.hash, document.querySelector('h2').textContent, document.querySelector('textarea').value]"))
        desk.press(ESCAPE) if way == "link" else desk.press_button("Stay here")
        compare(f"typed: by {way}: it stays", ['{"v": 2}', 0], [desk.find("textarea").value(), len(desk.all("dialog[open]"))])
    desk.press_button("Save")
    desk.find("h3", "winner")
    compare("typed: it was saved, and nobody was asked", [{"v": 2}], list(place.living("left", "kept").values()))
    desk.go("left", "settle", "taken")
    desk.press_button("Take 2-a2")
    desk.find("#tabs a", "documents").click()
    desk.press_button("Leave and lose it")
    desk.find("h2", "documents")
    compare("typed: it was left, and nothing was written", BOTH, place.living("left", "taken"))
    desk.go("left", "new")
    desk.find("input").type("half")
    desk.find("#tabs a", "documents").click()
    desk.find("dialog[open]", "isn't saved")
    desk.press_button("Leave and lose it")
    desk.find("h2", "documents")


def check_query_kept(place: Place, desk: Desk) -> None:
    """Goes back to a query that ran."""
    place.made("PUT", "/left/found", {"w": 2})
    desk.go("left", "find")
    desk.retype("textarea", '{"selector": {"w": 2}, "limit": 3}')
    desk.press_button("Find")
    desk.find("div.found summary a", "found").click()
    desk.find("h3", "winner")
    desk.run("history.back()")
    desk.find("div.found summary a", "found")
    compare("query: it is there again", '{"selector": {"w": 2}, "limit": 3}', desk.find("textarea").value())


CHECKS = [check_left_for_another, check_each_view, check_left_while_settling, check_stopped_while_settling]
CHECKS += [check_late_replies, check_waiting, check_typed_text, check_query_kept]
