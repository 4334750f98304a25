"""What is loaded and by what: the programs of load.c and many.c, an nginx with a file, and a document that is read."""
from __future__ import annotations

import os
import socket
import subprocess
import time

from stores import Served, expect

HERE = os.path.dirname(os.path.abspath(__file__))
PATH = "/db/a"
ROUNDS = 8
# How many connections a server has at once for which many is measured.
AT_ONCE = 1000
# The seconds that requests took together, and those of each.
Spent = tuple[float, list[float]]
NGINX = """daemon off; worker_processes 1; pid {folder}/pid; error_log {folder}/errors;
events {{ worker_connections 1024; }}
http {{
    access_log off; default_type application/json; keepalive_requests 1000000000; sendfile on; tcp_nodelay on;
    client_body_temp_path {folder}/a; proxy_temp_path {folder}/b; fastcgi_temp_path {folder}/c; uwsgi_temp_path {folder}/d; scgi_temp_path {folder}/e;
    server {{ listen 127.0.0.1:{port}; root {folder}/root; }}
}}
"""


class Nginx:
    """An nginx with one worker, which serves a file."""

    def __init__(self, folder: str, path: str, text: bytes) -> None:
        with socket.create_server(("127.0.0.1", 0)) as free:
            self.port = free.getsockname()[1]
        os.chmod(folder, 0o755)
        os.makedirs(os.path.dirname(f"{folder}/root{path}"))
        with open(f"{folder}/root{path}", "wb") as file:
            file.write(text)
        with open(f"{folder}/nginx.conf", "w") as file:
            file.write(NGINX.format(folder=folder, port=self.port))
        self.process = subprocess.Popen(["nginx", "-c", f"{folder}/nginx.conf"], stderr=subprocess.DEVNULL)
        for _ in range(50):
            with socket.socket() as tried:
                if tried.connect_ex(("127.0.0.1", self.port)) == 0:
                    return
            time.sleep(0.1)
        raise SystemExit("load: nginx doesn't listen")

    def stop(self) -> None:
        self.process.terminate()
        self.process.wait()


class LoadGenerator:
    """The program of load.c."""

    def __init__(self, folder: str) -> None:
        self.program = f"{folder}/load"
        subprocess.run(["gcc", "-O2", "-D_GNU_SOURCE", "-o", self.program, f"{HERE}/load.c"], check=True)

    def load(
        self,
        port: int,
        count: int,
        way: str,
        size: int,
        wanted: int,
        head: str,
        body: str | None = None,
        first: int = 0,
    ) -> Spent:
        """Sends requests, and returns the seconds of all, and of each where they go one after the other."""
        words = [self.program, str(port), str(count), way, str(size), str(first), head] + ([body] if body else [])
        lines = subprocess.run(words, capture_output=True, check=True).stdout.decode().splitlines()
        if lines[0] != f"status {wanted} {count}":
            raise SystemExit(f"load: {lines[0]} in place of {count} replies of {wanted}")
        return float(lines[1].split()[1]), [float(line) / 1e6 for line in lines[2:]]


class ManyGenerator:
    """The program of many.c."""

    def __init__(self, folder: str) -> None:
        self.program = f"{folder}/many"
        subprocess.run(["gcc", "-O2", "-D_GNU_SOURCE", "-o", self.program, f"{HERE}/many.c"], check=True)

    def load(
        self, port: int, connections: int, count: int, wanted: int, head: str, body: str | None = None, first: int = 0
    ) -> Spent:
        """Sends requests, and returns the seconds of all, and those of each."""
        words = [self.program, str(port), str(connections), str(count), str(first), head] + ([body] if body else [])
        lines = subprocess.run(words, capture_output=True, check=True).stdout.decode().splitlines()
        if lines[0] != f"status {wanted} {count}":
            raise SystemExit(f"many: {lines[0]} in place of {count} replies of {wanted}")
        return float(lines[1].split()[1]), [float(line) / 1e6 for line in lines[2:]]


def reply_to(server: Served, path: str) -> bytes:
    """Returns the body of a document, on a connection of its own."""
    server.connect()
    status, text = server.ask("GET", path)
    expect((status, text), 200)
    server.socket.close()
    return text
