"""Ids and names that paths, pages and objects could mistake."""
import base64
import contextlib
import http.client

from lib.checks import compare
from lib.desk.page import Desk
from lib.desk.place import Place


def check_odd(place: Place, desk: Desk) -> None:
    """Ids and names that paths, pages and objects could mistake."""
    ids = ["a/b?c#d% e", "50%25", "<img src=x onerror=alert(1)>", "\u202eevil", "_design/d/e", "q&r=s", "%2F", "constructor", "back\\slash", "\"quoted\"", "..a", "..\u2028/_desk/desk.css"]
    for number, one in enumerate(ids):
        body = {"indexes": {}} if one.startswith("_design/") else {"n": number, "in": {"__proto__": {"deep": number}, "<b>": "<i>"}, "\u202e": "\u202e"}
        place.made("POST", "/odd/_bulk_docs", {"docs": [{"_id": one, **body}]})
    for number, one in enumerate(ids):
        desk.go("odd", "document", one)
        desk.find("pre.body")
        desk.find("main a", "Edit").click()
        desk.find("h2", "Edit")
        desk.press_button("Save")
        desk.find("h3", "2-")
        row = next(row for row in place.ask("GET", "/odd/_all_docs")[1]["rows"] if row["id"] == one)
        compare(f"odd: {one!r} was written again", "2-", row["value"]["rev"][:2])
    found = {doc["_id"]: doc for doc in place.made("POST", "/odd/_find", {"selector": {}, "limit": 100})["docs"]}
    for number, one in enumerate(ids):
        if not one.startswith("_design/"):
            compare(f"odd: {one!r} keeps its members", ({"__proto__": {"deep": number}, "<b>": "<i>"}, "\u202e"), (found[one]["in"], found[one]["\u202e"]))
    desk.go("odd", "documents", text=f"{len(ids)} documents")
    compare("odd: ids as they are shown", sorted(one.replace("\u202e", "\\u202e").replace("\u2028", "\\u2028") for one in ids), sorted(desk.links("table.documents td a")))
    for one in ids:
        desk.find("table.documents td a", one.replace("\u202e", "\\u202e").replace("\u2028", "\\u2028"))
    desk.run("[...document.querySelectorAll('table.documents td a')].find(a => a.textContent.startsWith('a/b')).click()")
    desk.find("h3", "winner")
    compare("odd: a link leads to its document", ids[0], desk.find("h2").text())
    desk.go("odd", "document", "..", css="#told", text="A browser can't ask")
    place.made("PUT", "/a$b+c(d)")
    place.made("PUT", "/a$b+c(d)/x", {"v": 1})
    desk.go()
    desk.find("table.databases a", "a$b+c(d)").click()
    desk.find("#tabs a", "documents").click()
    desk.find("table.documents td a", "x").click()
    desk.find("h3", "winner")
    compare("odd: a database's name", {"v": 1}, desk.body())
    compare("odd: nothing became an element", 0, desk.run("return document.querySelectorAll('main img, main i').length"))
    with contextlib.closing(http.client.HTTPConnection("127.0.0.1", place.port, timeout=60)) as made:
        made.request("GET", "/odd/..%2F_desk%2Fdesk.css", headers={"Authorization": "Basic " + base64.b64encode(b"root:pw").decode()})
        reply = made.getresponse()
        compare("odd: a path into the desk names a document", (404, "application/json"), (reply.status, reply.headers["Content-Type"]))


CHECKS = [check_odd]
