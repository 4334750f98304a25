"""Forged requests, and what the page may not do."""
import http.server
import threading

from lib.checks import compare
from lib.desk.page import Desk
from lib.desk.place import Place
from lib.server import ADMIN

FORM = """<!doctype html>
<form method=post enctype=text/plain action="http://127.0.0.1:%s/notes/_bulk_docs"><input name='{"docs":[{"_id":"%s","x":"' value='"}]}'></form>
<script>document.forms[0].submit()</script>
"""


class Elsewhere(http.server.BaseHTTPRequestHandler):
    """Another site, whose page sends a form to the port and with the id that its path says."""

    def do_GET(self) -> None:
        _, port, identifier = self.path.split("/")
        body = (FORM % (port, identifier)).encode() if port.isdigit() else b""
        self.send_response(200)
        self.send_header("Content-Type", "text/html")
        self.send_header("Content-Length", str(len(body)))
        self.end_headers()
        self.wfile.write(body)

    def log_message(self, *_: object) -> None:
        """Says nothing."""


def check_forged(place: Place, desk: Desk) -> None:
    """Sends a form of another site, which is refused and writes nothing; a page there doesn't frame the desk."""
    with http.server.ThreadingHTTPServer(("127.0.0.1", 0), Elsewhere) as other:
        threading.Thread(target=other.serve_forever, daemon=True).start()
        for host in ["localhost", "127.0.0.1"]:
            desk.open(f"http://{host}:{other.server_port}/{place.port}/forged-{host}")
            desk.find("body", "Cross-site request.")
            compare(f"forged: a form from {host} wrote nothing", 404, place.ask("GET", f"/notes/forged-{host}")[0])
        other.shutdown()
    desk.open(place.address(ADMIN))
    desk.find("h2", "databases")


def check_policy(place: Place, desk: Desk) -> None:
    """Tries what the page may not do: text as markup, scripts of others, requests elsewhere."""
    refused = desk.run("try { document.querySelector('main').innerHTML = '<b>x</b>'; return 'done'; } catch (error) { return error.name; }")
    compare("policy: markup", "TypeError", refused)
    head = desk.run("const reply = await fetch(location.origin + '/_desk/desk.js'); return [...reply.headers].map(pair => pair.join(': '))")
    for line in ["x-content-type-options: nosniff", "referrer-policy: no-referrer", "cache-control: no-cache", f"x-desk-user: {ADMIN}", "content-type: text/javascript"]:
        compare(f"policy: {line}", True, line in head)
    moved = desk.run("const reply = await fetch(location.origin + '/_desk'); return [reply.status, new URL(reply.url).pathname]")
    compare("policy: without the last slash", [200, "/_desk/"], moved)
    desk.log()


CHECKS = [check_forged, check_policy]
