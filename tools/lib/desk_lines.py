"""Follows the lines of docs/OPERATE-DESK.md on a machine of their own, up to its last section, for tools/documents.

It is run as `python3 -m lib.desk_lines`, in a namespace of mounts and networks of its own: what is written is held in
memory, on an overlay of the root, and the ports are free. Lines of apt-get aren't run, and in place of systemd nginx
is started. Then it asks for the desk as a browser does, over six connections at once, and prints as JSON what the shell
said, and the status and the seconds of each reply.
"""
import base64
import concurrent.futures
import http.client
import json
import os
import ssl
import subprocess
import sys
import time

from lib.checks import blocks_of
from lib.place import mount, raise_loopback
from lib.server import TOP
from lib.values import present

USER, PASSWORD = "alice", "try"
# The status where no overlay can be had.
NO_MACHINE = 75
REQUESTS = ["/_desk/", *(f"/_desk/{name}" for name in sorted(os.listdir(f"{TOP}/desk"))), "/_all_dbs", "/plans", "/plans/_all_docs?limit=50"]
REQUESTS += ["/plans/_changes?style=all_docs", "/plans/week?revs=true&open_revs=all", "/plans/week", "/plans/_security", "/notes/_all_docs"]


def lines_of(page: str) -> list[str]:
    """Returns the lines that a reader runs: blocks of commands, and the lines for root. The last section ends the server."""
    found: list[str] = []
    for _, kind, text in blocks_of(page):
        if kind == "heading" and text.lstrip("# ") == "See that it worked":
            break
        if kind == "sh" or text.startswith("apt-get "):
            found += text.strip().split("\n")
    return ["nginx" if line == "systemctl restart nginx" else line for line in found if not line.startswith("apt-get ")]


def asked(path: str) -> tuple[int, float]:
    """Returns the status of a request, and its seconds."""
    start = time.monotonic()
    made = http.client.HTTPSConnection("127.0.0.1", 443, context=ssl._create_unverified_context(), timeout=60)
    made.request("GET", path, headers={"Host": "localhost", "Authorization": "Basic " + base64.b64encode(f"{USER}:{PASSWORD}".encode()).decode()})
    status = made.getresponse().status
    made.close()
    return status, time.monotonic() - start


def asked_all() -> list[tuple[str, int, float]]:
    """Asks for all that the desk asks for, twice, over six connections at once."""
    with concurrent.futures.ThreadPoolExecutor(6) as pool:
        paths = REQUESTS * 2
        return [(path, *reply) for path, reply in zip(paths, pool.map(asked, paths))]


def machine_in(room: str) -> str:
    """Makes an overlay of the root in a folder, whose mounts end with the namespace, and returns its path."""
    mount("-t", "tmpfs", "tmpfs", room)
    for name in ("root", "upper", "work"):
        os.mkdir(f"{room}/{name}")
    mount("-t", "overlay", "overlay", "-o", f"lowerdir=/,upperdir={room}/upper,workdir={room}/work", f"{room}/root")
    for name in ("/dev", "/proc", TOP):
        mount("--rbind", name, f"{room}/root{name}")
    return f"{room}/root"


def main() -> None:
    # The folder is its caller's, who removes it outside of the namespace: there nothing is mounted on it.
    try:
        root = machine_in(sys.argv[1])
        raise_loopback()
    except (subprocess.CalledProcessError, OSError):
        sys.exit(NO_MACHINE)
    with open(f"{TOP}/docs/OPERATE-DESK.md", encoding="utf-8") as file:
        lines = lines_of(file.read())
    ending = "echo followed; read -r _; kill $(jobs -p); kill $(cat /run/nginx.pid); wait"
    script = "\n".join(["set -e", f"cd {TOP}", *lines, ending])
    shell = subprocess.Popen(["chroot", root, "bash", "-c", script], stdin=subprocess.PIPE, stdout=subprocess.PIPE, stderr=subprocess.PIPE, text=True)
    printed = []
    for line in present(shell.stdout):
        printed.append(line)
        if line == "followed\n":
            break
    replies = asked_all() if printed[-1:] == ["followed\n"] else []
    _, said = shell.communicate("\n", timeout=60)
    print(json.dumps({"status": shell.returncode, "printed": "".join(printed)[-500:], "said": said[-800:], "replies": replies}))


if __name__ == "__main__":
    main()
