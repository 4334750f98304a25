"""A browser that has the desk open."""
import json

from lib.desk.place import Place
from lib.server import ADMIN
from lib.values import Json
from lib.webdriver import Browser, Element, Failed

TAB, ENTER, ESCAPE, ALT = "\ue004", "\ue007", "\ue00c", "\ue00a"


class Desk(Browser):
    """A browser that has the desk open."""

    def __init__(self, place: Place, user: str = ADMIN) -> None:
        super().__init__()
        self.place, self.times = place, list[str]()
        try:
            self.open(place.address(user))
            self.find("h2")
        except BaseException:
            self.end()
            raise

    def go(self, *words: str, text: str = "", css: str = "h2") -> Element:
        """Opens a view, and returns its heading, or another element that has to come."""
        go = "document.querySelector('#view').replaceChildren(); const next = '#/' + args.map(encodeURIComponent).join('/');"
        self.run(go + " if (next === location.hash) dispatchEvent(new HashChangeEvent('hashchange')); else location.hash = next;", *words)
        return self.find(css, text)

    def move(self, *words: str) -> None:
        """Changes the address to that of a view, as a link does, and returns once the desk has noticed."""
        moved = "const noticed = new Promise(done => addEventListener('hashchange', () => setTimeout(done), {once: true}));"
        self.run(f"{moved} location.hash = '#/' + args.map(encodeURIComponent).join('/'); await noticed;", *words)

    def forget(self, db: str) -> None:
        """Has the desk forget which conflicts it found in a database."""
        self.run("(await import(location.origin + '/_desk/conflicts.js')).forget(args[0])", db)

    def heading(self) -> str:
        """Returns the heading of the view on the screen, or "" while there is none."""
        heading: str = self.run("return document.querySelector('#view h2')?.textContent ?? ''")
        return heading

    def press_button(self, text: str) -> None:
        self.find("button", text).click()

    def told(self) -> str:
        return self.find("#told").text()

    def retype(self, css: str, text: str) -> None:
        """Replaces what is typed in a field."""
        field = self.find(css)
        field.clear()
        field.type(text)

    def body(self) -> Json:
        return json.loads(self.find("pre.body").text())

    def links(self, css: str) -> list[str]:
        return [link.text() for link in self.all(css)]

    def processor_time(self) -> float:
        """Returns how many seconds of a processor the page has taken."""
        self.emulate("Performance.enable")
        metrics = self.emulate("Performance.getMetrics")["metrics"]
        return float(next(one["value"] for one in metrics if one["name"] == "ProcessTime"))

    def tab_to(self, text: str) -> None:
        """Presses the key that goes on, until the element with this text has the focus."""
        for _ in range(80):
            self.press(TAB)
            if self.run("return document.activeElement.textContent.trim() === args[0] || document.activeElement.getAttribute('aria-label') === args[0]", text):
                return
        raise Failed(f"no key leads to {text}")


def breaches(desk: Desk) -> list[str]:
    """Returns what the console says that is no reply of the server's."""
    return [line for line in desk.log() if "Failed to load resource" not in line]
