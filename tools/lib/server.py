"""Starts the server, and makes and takes its bytes, for the checks and the measurements of this repository."""
from __future__ import annotations

import argparse
import contextlib
import hashlib
import json
import os
import queue
import resource
import shlex
import signal
import socket
import struct
import subprocess
import threading
import time
from collections.abc import Callable, Iterable, Mapping

from lib.checks import compare, find
from lib.settings import token_of
from lib.values import Json, Reply, present


SECRET = "Jefe"
ADMIN = "root"
TOP = os.path.dirname(os.path.dirname(os.path.dirname(os.path.abspath(__file__))))


def words_for(description: str) -> argparse.ArgumentParser:
    """Returns the words of a command line that say which program is started, and how."""
    words = argparse.ArgumentParser(description=description)
    words.add_argument("--program", default=os.path.join(TOP, "couchd"))
    words.add_argument("--port", type=int, default=0)
    words.add_argument("--wait", type=float, default=60)
    return words


# ---- the modes of files


def modes_of(file: str) -> dict[str, str]:
    """Returns the modes of a database file and of each log of it that is there, by what stands behind the file's name."""
    behind = ["", "-wal", "-journal"]
    return {one: oct(os.stat(file + one).st_mode & 0o777) for one in behind if os.path.exists(file + one)}


def all_of(mode: int, *behind: str) -> dict[str, str]:
    """Returns what `modes_of` says where a file and these of its logs have one mode."""
    return {one: oct(mode) for one in ["", *behind]}


# ---- what is sent, and what has to come


def text_of(value: Json) -> bytes:
    """Returns the canonical text of a value with ASCII names."""
    return json.dumps(value, separators=(",", ":"), sort_keys=True, ensure_ascii=False).encode()


def first_revision(body: Json) -> str:
    """Returns the revision that a first write of a body makes."""
    return "1-" + hashlib.md5(text_of([False, 0, "", body])).hexdigest()


def proxy_lines(user: str) -> list[str]:
    """Returns the header lines that vouch for a user."""
    return [f"X-Auth-CouchDB-UserName: {user}", f"X-Auth-CouchDB-Token: {token_of(SECRET, user)}"]


def message(method: str, path: str, lines: Iterable[str] = (), body: bytes | None = None) -> bytes:
    """Returns the bytes of a request with these header lines."""
    length = [] if body is None else [f"Content-Length: {len(body)}"]
    head = [f"{method} {path} HTTP/1.1", "Host: a", *lines, *length]
    return "".join(f"{line}\r\n" for line in head).encode() + b"\r\n" + (body or b"")


def request(method: str, path: str, body: Json = None, user: str | None = ADMIN, more: Iterable[str] = ()) -> bytes:
    """Returns the bytes of a user's request, whose body is a value."""
    return message(method, path, [*(proxy_lines(user) if user else []), *more], None if body is None else text_of(body))


PHRASES = {200: "OK", 201: "Created", 400: "Bad Request", 401: "Unauthorized", 403: "Forbidden", 404: "Not Found", 405: "Method Not Allowed"}
PHRASES |= {409: "Conflict", 412: "Precondition Failed", 413: "Payload Too Large", 500: "Internal Server Error"}


def reply_with(status: int, text: bytes, last: bool = False) -> bytes:
    """Returns the bytes of a reply, whose body is this text."""
    closing = "Connection: close\r\n" if last else ""
    return f"HTTP/1.1 {status} {PHRASES.get(status)}\r\nContent-Type: application/json\r\nContent-Length: {len(text)}\r\n{closing}\r\n".encode() + text


def reply(status: int, value: Json, last: bool = False) -> bytes:
    """Returns the bytes of a reply, whose body is a value."""
    return reply_with(status, text_of(value), last)


WELCOME = reply(200, {"couchdb": "Welcome", "version": "3-profile"})


# ---- connections


def connected(port: int) -> socket.socket:
    """Opens a connection to a server."""
    made = socket.create_connection(("127.0.0.1", port), 30)
    made.settimeout(60)
    return made


def received(made: socket.socket, count: int) -> bytes:
    """Returns so many bytes, or those that came before the end."""
    parts = b""
    while len(parts) < count:
        part = made.recv(count - len(parts))
        if not part:
            break
        parts += part
    return parts


def rest_of(made: socket.socket) -> bytes:
    """Returns the bytes that come until the connection ends."""
    parts = b""
    while part := made.recv(65536):
        parts += part
    return parts


def reply_of(made: socket.socket) -> tuple[bytes, bytes]:
    """Takes one reply, and returns its head and its body; both are empty where the connection ended."""
    head = b""
    while not head.endswith(b"\r\n\r\n"):
        part = made.recv(1)
        if not part:
            return b"", b""
        head += part
    length = int(head.split(b"Content-Length: ", 1)[1].split(b"\r\n", 1)[0])
    return head, received(made, length)


def status_of(made: socket.socket) -> int:
    """Takes one reply, and returns its status, or 0 where the connection ended."""
    head, _ = reply_of(made)
    return int(head[9:12]) if head else 0


def answer_of(port: int, sent: bytes) -> Reply:
    """Sends a request on a connection of its own, and returns the status and the text of its reply."""
    with connected(port) as made:
        try:
            made.sendall(sent)
        except OSError:
            # The reply has come, and the connection has ended, before all was sent.
            pass
        head, body = reply_of(made)
        return int(head[9:12] or b"0"), body


def asks(what: str, made: socket.socket, sent: bytes, *wanted: bytes) -> None:
    """Sends bytes, and compares the replies."""
    made.sendall(sent)
    all_wanted = b"".join(wanted)
    compare(what, all_wanted, received(made, len(all_wanted)))


def resets(made: socket.socket) -> None:
    """Ends a connection by a reset."""
    made.setsockopt(socket.SOL_SOCKET, socket.SO_LINGER, struct.pack("ii", 1, 0))
    made.close()


# ---- the program


def limiting(limit: int | None, memory: int | None) -> Callable[[], None] | None:
    """Returns what a new process does first: it bounds how long its files may grow, and how much memory it may take."""
    if limit is None and memory is None:
        return None

    def bound() -> None:
        if limit is not None:
            signal.signal(signal.SIGXFSZ, signal.SIG_IGN)
            resource.setrlimit(resource.RLIMIT_FSIZE, (limit, limit))
        if memory is not None:
            resource.setrlimit(resource.RLIMIT_AS, (memory, memory))

    return bound


class Server:
    """A server on a file: it is started, asked, stopped or killed, and its file is looked at.

    It listens when it has been made, at the port that it was given or a free one. `limit` bounds the bytes of its
    files, and `memory` those of its memory; `more` are further words of its command line. `environment` stands in place
    of this program's. What it prints on standard error is kept for `said`, unless it is `shown` as it comes.
    """

    def __init__(
        self,
        options: argparse.Namespace,
        file: str,
        conns: int,
        port: int = 0,
        limit: int | None = None,
        memory: int | None = None,
        at_once: int | None = None,
        cache: int | None = None,
        more: Iterable[str] = (),
        environment: Mapping[str, str] | None = None,
        shown: bool = False,
    ) -> None:
        self.options, self.file = options, file
        self.port = port or options.port
        words = ["serve", "--secret", SECRET, "--file", file, "--port", str(self.port), "--conns", str(conns), ADMIN]
        if at_once is not None:
            words += ["--at-once", str(at_once)]
        if cache is not None:
            words += ["--cache", str(cache)]
        words += more
        self.process = subprocess.Popen(
            shlex.split(options.program) + words,
            stdout=subprocess.PIPE,
            stderr=None if shown else subprocess.PIPE,
            env=environment,
            preexec_fn=limiting(limit, memory),
        )
        self.lines: queue.Queue[str] = queue.Queue()
        threading.Thread(target=self.read_lines, daemon=True).start()
        self.line: str | None = None
        if options.port:
            self.wait_for_port(options.wait)
        else:
            self.line = self.lines.get(timeout=options.wait)
            self.port = int(self.line.rsplit(":", 1)[1])

    def read_lines(self) -> None:
        """Keeps the lines that the server prints, and an empty one once it has ended."""
        for line in present(self.process.stdout):
            self.lines.put(line.decode())
        self.lines.put("")

    def wait_for_port(self, seconds: float) -> None:
        """Waits until somebody listens at the port, without a connection."""
        wanted = f"0100007F:{self.port:04X} 00000000:0000 0A"
        for _ in range(int(seconds * 10)):
            with open("/proc/net/tcp") as table:
                if any(wanted in line for line in table):
                    return
            time.sleep(0.1)
        raise SystemExit("the server doesn't listen")

    def answer(self, method: str, path: str, body: Json = None, user: str | None = ADMIN) -> tuple[int, Json]:
        """Asks the server on a connection of its own, and returns the status and the value of the reply."""
        status, text = answer_of(self.port, request(method, path, body, user))
        return status, json.loads(text)

    def stop(self, by: int = signal.SIGTERM) -> None:
        """Sends a signal that ends the server, and waits for its end."""
        self.process.send_signal(by)
        self.process.wait(60)

    def kill(self) -> None:
        self.stop(signal.SIGKILL)

    def pause(self) -> None:
        """Has the server hang until it is to go on."""
        self.process.send_signal(signal.SIGSTOP)

    def go_on(self) -> None:
        self.process.send_signal(signal.SIGCONT)

    def ended(self, what: str, is_checked: bool = True) -> None:
        """Compares how the server ended: with status 0, one line, nothing on standard error, and a file that is sound, if that is checked."""
        status = self.process.wait(60)
        if self.line is None:
            self.line = self.lines.get(timeout=60)
        compare(f"{what}: the line", f"listening 127.0.0.1:{self.port}\n", self.line)
        compare(f"{what}: nothing more", "", self.lines.get(timeout=60))
        compare(f"{what}: how it ended", (0, []), (status, self.said()))
        # A program that runs unproved would take minutes for it.
        if is_checked and not self.options.port:
            finds_sound(self.options, what, self.file)

    def said(self) -> list[str]:
        """Returns the lines that the server, which has ended, printed on standard error."""
        lines = present(self.process.stderr).read().decode().splitlines()
        return [line for line in lines if not line.startswith("couchd: unproved")]

    def stopped(self, what: str) -> None:
        """Stops the server, whatever it does, and compares what `couchd check` says of its file."""
        self.go_on()
        self.stop()
        finds_sound(self.options, what, self.file)


def finds_sound(options: argparse.Namespace, what: str, file: str) -> None:
    """Compares what `couchd check` says of a file that a server or a pass left, and that nobody has open."""
    ran = subprocess.run([*shlex.split(options.program), "check", "--file", file], stdin=subprocess.DEVNULL, capture_output=True, timeout=600)
    compare(f"{what}: the check of the file", (0, "sound"), (ran.returncode, ran.stdout.decode().partition(":")[0]))


# ---- nginx


def free_port() -> int:
    """Returns a port that nobody listens at."""
    with socket.create_server(("127.0.0.1", 0)) as listener:
        return int(listener.getsockname()[1])


def start_nginx(room: str, port: int, servers: str) -> subprocess.Popen[bytes]:
    """Starts nginx in a folder of this user's, with the text of its servers, and returns its process once it listens at the port.

    What the text has in nginx's own folders is in this one.
    """
    servers = servers.replace("/var/log/nginx/", f"{room}/").replace("/etc/nginx/", f"{room}/")
    conf = f"{room}/nginx.conf"
    paths = "".join(f"{kind}_temp_path {room}/{kind}; " for kind in ["client_body", "proxy", "fastcgi", "uwsgi", "scgi"])
    with open(conf, "w", encoding="utf-8") as file:
        # The folder is this user's alone, and nginx's workers would be another's where that is root.
        file.write("user root;\n" if os.geteuid() == 0 else "")
        file.write(f"daemon off; pid {room}/nginx.pid; error_log {room}/nginx.err;\nevents {{}}\nhttp {{ access_log off; {paths}\n{servers}}}\n")
    process = subprocess.Popen([present(find("nginx")), "-c", conf, "-p", room], stderr=subprocess.DEVNULL)
    for _ in range(100):
        with contextlib.suppress(OSError):
            socket.create_connection(("127.0.0.1", port)).close()
            break
        time.sleep(0.1)
    return process
