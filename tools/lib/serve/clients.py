"""Clients that keep a connection open: python's, curl and nginx."""
from __future__ import annotations

import argparse
import http.client
import subprocess
import tempfile

from lib.checks import compare, find
from lib.serve.connections import AT_ONCE
from lib.server import Server, free_port, start_nginx
from lib.values import Reply


KEEPALIVE = """
upstream couchd {{ server 127.0.0.1:{server}; keepalive 8; }}
server {{
    listen 127.0.0.1:{port};
    location / {{ proxy_pass http://couchd; proxy_http_version 1.1; proxy_set_header Connection ""; }}
}}
"""


def answer_on(made: http.client.HTTPConnection) -> Reply:
    """Asks on a connection of python's, and returns the status and the body."""
    made.request("GET", "/")
    reply = made.getresponse()
    return reply.status, reply.read()


def check_kept_open(options: argparse.Namespace, file: str) -> None:
    """Clients that keep a connection open, one each: python's, curl, and nginx, where these are installed."""
    curl, nginx = find("curl"), find("nginx")
    server = Server(options, file, 1 + bool(curl) + bool(nginx), at_once=AT_ONCE)
    wanted = 200, b'{"couchdb":"Welcome","version":"3-profile"}'
    made = http.client.HTTPConnection("127.0.0.1", server.port, timeout=60)
    compare("python, kept open", [wanted] * 20, [answer_on(made) for _ in range(20)])
    if curl:
        words = [curl, "-s", "-w", "%{stderr}%{http_code} %{num_connects}\n"] + [f"http://127.0.0.1:{server.port}/"] * 5
        ran = subprocess.run(words, capture_output=True, timeout=60)
        compare("curl, kept open", (wanted[1] * 5, b"200 1\n" + b"200 0\n" * 4), (ran.stdout, ran.stderr))
    if nginx:
        with tempfile.TemporaryDirectory() as room:
            port = free_port()
            process = start_nginx(room, port, KEEPALIVE.format(server=server.port, port=port))
            for _ in range(20):
                asked = http.client.HTTPConnection("127.0.0.1", port, timeout=60)
                compare("nginx, kept open", wanted, answer_on(asked))
                asked.close()
            process.terminate()
            process.wait()
    compare("python, still open", wanted, answer_on(made))
    made.close()
    server.ended("connections that are kept open")


def check(options: argparse.Namespace, folder: str) -> None:
    """Asks by each client that is installed."""
    check_kept_open(options, f"{folder}/kept.db")
