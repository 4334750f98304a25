"""A machine with the package, its units, and what their command lines do there, for tools/package_check."""
from __future__ import annotations

import contextlib
import fcntl
import http.client
import json
import os
import re
import resource
import shlex
import shutil
import socket
import struct
import subprocess
import sys
import tempfile
from collections.abc import Iterator
from typing import Union

from lib.checks import compare, finish
from lib.server import ADMIN, text_of
from lib.settings import token_of
from lib.values import Json, present


DATA, SETTINGS, UNITS = "/var/lib/couchd", "/etc/default/couchd", "/lib/systemd/system"


# ---- where the package is installed


class Overlay:
    """This machine, but for what is written. The process is in a mount namespace of its own, which ends with it."""

    has_users = True
    # Words before each command of a unit.
    traced: list[str] = []

    def __init__(self, room: str) -> None:
        self.root = f"{room}/root"
        mount("-t", "tmpfs", "tmpfs", room)
        for name in ("root", "upper", "work"):
            os.mkdir(f"{room}/{name}")
        mount("-t", "overlay", "overlay", "-o", f"lowerdir=/,upperdir={room}/upper,workdir={room}/work", self.root)
        for name in ("dev", "proc"):
            mount("--rbind", f"/{name}", f"{self.root}/{name}")
        # What others leave in this folder meanwhile isn't there.
        mount("-t", "tmpfs", "-o", "mode=1777", "tmpfs", f"{self.root}/tmp")
        if self.dpkg("--status", "adduser", "openssl", "python3").returncode != 0:
            raise OSError("no adduser, openssl or python3")
        # A couchd that this machine has is no first install.
        shutil.rmtree(f"{self.root}{DATA}", ignore_errors=True)
        self.dpkg("--purge", "couchd")

    def dpkg(self, *words: str) -> subprocess.CompletedProcess[bytes]:
        """Runs dpkg there."""
        return subprocess.run(["chroot", self.root, "dpkg", *words], capture_output=True, env={**os.environ, "DEBIAN_FRONTEND": "noninteractive"})

    def install(self, package: str) -> subprocess.CompletedProcess[bytes]:
        """Installs a package, which is a file of this machine."""
        shutil.copy(package, self.root)
        return self.dpkg("--install", "/" + os.path.basename(package))

    def command(self, words: list[str]) -> list[str]:
        """Returns the words that run a command there, as the user `couchd`."""
        return ["chroot", "--userspec=couchd:couchd", self.root, *words]

    def environment(self, settings: dict[str, str]) -> dict[str, str]:
        """Returns the variables of such a command."""
        return {"PATH": "/usr/sbin:/usr/bin:/sbin:/bin", **settings}

    def shell(self, lines: str) -> subprocess.CompletedProcess[bytes]:
        """Runs lines there as root, one after the other in one shell and in a folder of their own, which end at the first that fails."""
        script = f"set -e; cd \"$(mktemp -d)\"; trap 'kill $(jobs -p) 2>/dev/null || true; wait' EXIT\n{lines}"
        return subprocess.run(["chroot", self.root, "bash", "-c", script], capture_output=True, stdin=subprocess.DEVNULL, env=self.environment({"LANG": "C.UTF-8"}), timeout=300)


class Folder:
    """A folder with a list of packages of its own."""

    has_users = False
    traced: list[str] = []

    def __init__(self, room: str) -> None:
        self.root = f"{room}/root"
        for name in ("info", "updates", "triggers"):
            os.makedirs(f"{self.root}/var/lib/dpkg/{name}")
        for name in ("status", "available"):
            open(f"{self.root}/var/lib/dpkg/{name}", "w").close()

    def dpkg(self, *words: str) -> subprocess.CompletedProcess[bytes]:
        """Runs dpkg for the folder, in which nothing is that the package depends on."""
        forced = ["--force-script-chrootless", "--force-not-root", "--force-depends"]
        return subprocess.run(["dpkg", f"--root={self.root}", f"--log={self.root}/log", *forced, *words], capture_output=True)

    def install(self, package: str) -> subprocess.CompletedProcess[bytes]:
        """Installs a package."""
        return self.dpkg("--install", package)

    def command(self, words: list[str]) -> list[str]:
        """Returns the words that run a command there."""
        return [self.root + word if word.startswith("/") else word for word in words]

    def environment(self, settings: dict[str, str]) -> dict[str, str]:
        """Returns the variables of such a command."""
        return {"PATH": f"{self.root}/usr/bin:{os.environ['PATH']}", **settings}

    def shell(self, lines: str) -> subprocess.CompletedProcess[bytes]:
        """Refuses lines: the folder has no programs but the package's."""
        raise NotImplementedError("a folder isn't a machine")


Place = Union[Overlay, Folder]


def mount(*words: str) -> None:
    """Mounts by these words, or fails."""
    subprocess.run(["mount", *words], check=True, capture_output=True)


def raise_loopback() -> None:
    """Brings up 127.0.0.1 in a namespace of networks of its own."""
    with socket.socket(socket.AF_INET, socket.SOCK_DGRAM) as made:
        up_and_running = struct.pack("16sH14x", b"lo", 0x41)
        fcntl.ioctl(made, 0x8914, up_and_running)


def place_for(room: str, is_folder: bool) -> Place:
    """Returns the overlay, or the folder where it can't be had."""
    if not is_folder:
        try:
            raise_loopback()
            return Overlay(room)
        except (subprocess.CalledProcessError, OSError) as error:
            print(f"package_check: no overlay ({error}), so a folder", flush=True)
    return Folder(tempfile.mkdtemp(dir=room))


# ---- what the units run


def settings_of(place: Place) -> dict[str, str]:
    """Returns the variables of the settings."""
    with open(place.root + SETTINGS, encoding="utf-8") as file:
        lines = [line.strip() for line in file if line.strip() and not line.startswith("#")]
    return {name: " ".join(shlex.split(value)) for name, value in (line.split("=", 1) for line in lines)}


def unit_of(place: Place, name: str) -> dict[str, str]:
    """Returns the lines of a unit by their names."""
    with open(f"{place.root}{UNITS}/{name}", encoding="utf-8") as file:
        return dict(re.findall(r"(?m)^(\w+)=(.*)$", file.read()))


def has_unit(place: Place, name: str) -> bool:
    """Tells whether a unit is installed."""
    return os.path.exists(f"{place.root}{UNITS}/{name}")


def words_of(line: str, instance: str, settings: dict[str, str]) -> list[str]:
    """Returns the words of a command line, as systemd makes them: a word that is a variable alone is split."""
    found = []
    for word in line.replace("%i", instance).split(" "):
        if re.fullmatch(r"\$\w+", word):
            found += settings.get(word[1:], "").split()
        else:
            found.append(re.sub(r"\$\{(\w+)\}", lambda one: settings[one[1]], word))
    return found


def started(
    place: Place, name: str, instance: str, settings: dict[str, str], line: str = "ExecStart"
) -> subprocess.Popen[bytes]:
    """Runs a command line of a unit, within its limits, and returns the process."""
    unit = unit_of(place, name)
    compare(f"{name}: its user and its settings", ("couchd", SETTINGS), (unit["User"], unit["EnvironmentFile"]))
    memory = int(unit["LimitAS"].removesuffix("M")) << 20

    def limited() -> None:
        os.umask(int(unit["UMask"], 8))
        resource.setrlimit(resource.RLIMIT_AS, (memory, memory))

    words = place.command([*place.traced, *words_of(unit[line], instance, settings)])
    variable, _, value = unit.get("Environment", "").partition("=")
    environment = {**place.environment(settings), **({variable: value} if variable else {})}
    return subprocess.Popen(words, stdout=subprocess.PIPE, stderr=subprocess.PIPE, env=environment, preexec_fn=limited)


@contextlib.contextmanager
def serving(place: Place, port: int, settings: dict[str, str]) -> Iterator[None]:
    """Has the installed server serve the file of a port."""
    process = started(place, "couchd@.service", str(port), settings)
    if "ExecStartPost" in unit_of(place, "couchd@.service") and place.has_users:
        waiting = started(place, "couchd@.service", str(port), {**settings, "MAINPID": str(process.pid)}, "ExecStartPost")
        compare("couchd@: what waits for it", (0, b""), (waiting.wait(60), present(waiting.stderr).read()))
        with contextlib.closing(socket.create_connection(("127.0.0.1", port), 1)):
            pass
    line = present(process.stdout).readline().decode()
    compare("couchd@: it listens", (f"listening 127.0.0.1:{port}\n", ""), (line, "" if line else present(process.stderr).read().decode()))
    if not line:
        sys.exit(finish())
    yield
    process.terminate()
    process.wait(60)


def asked(port: int, secret: str, method: str, path: str, body: Json = None, user: str = ADMIN) -> tuple[int, Json]:
    """Asks a server as a user, and returns the status and the value of the reply."""
    with contextlib.closing(http.client.HTTPConnection("127.0.0.1", port, timeout=60)) as made:
        headers = {"X-Auth-CouchDB-UserName": user, "X-Auth-CouchDB-Token": token_of(secret, user)}
        made.request(method, path, None if body is None else text_of(body), headers)
        reply = made.getresponse()
        return reply.status, json.loads(reply.read())


