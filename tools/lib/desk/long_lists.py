"""Long lists, trees and replies: how long they take, and what is asked first."""
from lib.checks import compare
from lib.desk.page import Desk
from lib.desk.place import Place, revision
from lib.desk.scripts import CELLS, FETCHED, SHOWN


# So often a view is opened at most, since others may keep the processors busy. The bound is the same each time.
TRIES = 5


def shown_within(bound: int, desk: Desk, what: str, words: list[str], css: str, text: str, paths: list[str]) -> None:
    """
    Compares how long a view takes with a bound in milliseconds. Its processor time, and what the browser takes for the
    longest requests alone, are reported beside it.
    """
    for _ in range(TRIES):
        desk.forget(words[0])
        desk.go()
        before = desk.processor_time()
        took = desk.run(SHOWN, words, css, text)
        spent = (desk.processor_time() - before) * 1000
        alone = desk.run(FETCHED, paths)
        if took < bound:
            break
    desk.times.append(f"{what}: {took:.0f} ms, {spent:.0f} of the processor, {alone:.0f} for the requests alone")
    compare(f"long: {what} within {bound / 1000:g} s", True, took < bound or desk.times[-1])


def check_long(place: Place, desk: Desk) -> None:
    """Opens 300 conflicts, a path of 20,000 revisions and replies of more than 1 MB, and stops a list."""
    documents = [{"_id": f"c{number:03}", **revision(name, "r1", v=name)} for number in range(300) for name in ["a2", "b2"]]
    place.push("many", *documents)
    paths = [f"/many/c{number:03}?open_revs=all" for number in range(300)]
    shown_within(1000, desk, "300 conflicts", ["many"], "[role=status]", "300 found among 300 documents", paths)
    compare("long: each of them", 300, len(desk.run(CELLS, "table.conflicts")))
    place.push("many", *[{"_id": "wide", **revision(f"w{number:03}", "r1", v=number)} for number in range(300)])
    tree = "svg.tree text", "w299 winner", ["/many/wide?open_revs=all&revs=true"]
    shown_within(1000, desk, "300 leaves", ["many", "document", "wide"], *tree)
    compare("long: each leaf of them", 300, desk.run("return document.querySelectorAll('svg.tree .winner, svg.tree .conflict').length"))
    path = [f"{number:032x}" for number in range(20000, 0, -1)]
    place.push("long", {"_id": "path", **revision(*path, v=1)})
    tree = "svg.tree text", "19,998 more", ["/long/path?open_revs=all&revs=true"]
    shown_within(1000, desk, "a path of 20,000", ["long", "document", "path"], *tree)
    place.push("long", {"_id": "path", **revision("f" * 32, *path[1:], v=2)})
    desk.go("long", "document", "path")
    desk.find("main p", "The paths of the tree are 1.")
    compare("long: no tree was fetched", 0, len(desk.all("svg")))
    desk.press_button("Fetch and draw it")
    desk.find("svg.tree text", "19,997 more")
    place.made("PUT", "/long/large", {"text": "x" * 1_200_000})
    desk.go("long", "document", "large", css="#told", text="The reply is 1.2 MB long, and was not fetched.")
    compare("long: nothing of it is there", 0, len(desk.all("pre.body")))
    desk.press_button("Fetch 1.2 MB")
    desk.find("pre.body", "xxx")
    desk.slow(100)
    desk.forget("many")
    desk.go("many")
    desk.press_button("Stop")
    desk.find("[role=status]", "stopped at")
    desk.slow(0)


CHECKS = [check_long]
