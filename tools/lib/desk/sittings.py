"""Conflicts that are settled one after the other: the next one, the numbers, and the list that keeps its place."""
from lib.checks import compare
from lib.desk.page import ALT, ENTER, Desk
from lib.desk.place import Place, conflicting
from lib.desk.scripts import CELLS

COUNT = 60
IDS = [f"s{number:02}" for number in range(COUNT)]


def fill(place: Place) -> None:
    """Makes the database of this module, with its conflicts in the order of their ids."""
    place.made("PUT", "/sitting")
    for name in IDS:
        conflicting(place, name, "sitting")


def is_focused(desk: Desk, text: str) -> bool:
    """Tells whether the element that has the focus has this text."""
    return bool(desk.run("return document.activeElement.textContent") == text)


def check_one_after_the_other(place: Place, desk: Desk) -> None:
    """Settles one after the other: the next one is offered, with its number, by a press and by keys."""
    fill(place)
    desk.go("sitting")
    desk.find("[role=status]", f"{COUNT} found among {COUNT} documents")
    desk.find("table.conflicts a", "s11").click()
    desk.find("main a", "Settle them").click()
    desk.find("nav.pages", f"12 of {COUNT}")
    desk.press_button("Settle")
    desk.find("button.next", f"Next: s12, 13 of {COUNT}")
    compare("sitting: the next one has the focus", True, is_focused(desk, f"Next: s12, 13 of {COUNT}"))
    desk.press(ENTER)
    desk.find("h2", "Settle s12")
    desk.find("nav.pages", f"13 of {COUNT}")
    desk.chord(ALT, "s")
    desk.find("h2", "Settled: s12")
    desk.run("document.activeElement.blur()")
    desk.chord(ALT, "n")
    desk.find("h2", "Settle s13")
    desk.find("nav.pages a", "next conflict").click()
    desk.find("h2", "Settle s14")
    desk.find("nav.pages a", "previous conflict").click()
    desk.find("h2", "Settle s13")
    desk.find("nav.pages a", "previous conflict").click()
    desk.find("h2", "Settle s10")
    desk.find("nav.pages", f"11 of {COUNT}")
    compare("sitting: what is settled", [1, 1, 2], [len(place.living("sitting", name)) for name in ["s11", "s12", "s13"]])


def check_list_keeps_its_place(place: Place, desk: Desk) -> None:
    """Goes back to the list: it is where it was, by a look-up of what changed alone, and others' changes are in it."""
    if place.ask("GET", "/sitting")[0] == 404:
        fill(place)
    desk.resize(1200, 600)
    desk.forget("sitting")
    desk.go("sitting")
    left = [name for name in IDS if len(place.living("sitting", name)) == 2]
    desk.find("[role=status]", f"{len(left)} found among {COUNT} documents")
    compare("list: what is in it", left, [cells[0] for cells in desk.run(CELLS, "table.conflicts")])
    desk.run("scrollTo(0, 700)")
    desk.run("[...document.querySelectorAll('table.conflicts a')].find(a => a.hash.endsWith('/settle/s30')).click()")
    desk.find("h2", "Settle s30")
    place.made("DELETE", "/sitting/s40?rev=2-a2")
    conflicting(place, "new", "sitting")
    desk.press_button("Settle")
    desk.find("h2", "Settled: s30")
    before = len(place.requests())
    desk.find("main a", "the list").click()
    desk.find("table.conflicts a", "new")
    now = [name for name in left if name not in ("s30", "s40")] + ["new"]
    desk.find("[role=status]", f"{len(now)} found among {COUNT + 1} documents")
    compare("list: what has left it, and what came", now, [cells[0] for cells in desk.run(CELLS, "table.conflicts")])
    cost = ["/sitting", "/sitting/_changes", "/sitting/new", "/sitting/s30", "/sitting/s40"]
    compare("list: what it cost to look again", cost, place.paths_since(before, "GET /sitting", len(cost)))
    compare("list: it is where it was", [700, "s31"], desk.run("return [scrollY, document.activeElement.textContent]"))
    desk.press_button("Look again")
    desk.find("[role=status]", f"{len(now)} found among {COUNT + 1} documents")
    place.made("DELETE", "/sitting")
    place.made("PUT", "/sitting")
    conflicting(place, "again", "sitting")
    desk.go("sitting", text="conflicts")
    desk.find("[role=status]", "1 found among 1 documents")
    compare("list: of a database that was made anew", ["again"], [cells[0] for cells in desk.run(CELLS, "table.conflicts")])
    desk.resize(1200, 900)


CHECKS = [check_one_after_the_other, check_list_keeps_its_place]
