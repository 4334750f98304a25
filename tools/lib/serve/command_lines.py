"""Command lines that the program refuses, and how it ends then."""
from __future__ import annotations

import argparse
import shlex
import socket
import subprocess

from lib.checks import compare
from lib.server import ADMIN, SECRET


def words_of(**given: str | None) -> list[str]:
    """Returns a command line, with some options given otherwise, or left out where they are None."""
    options: dict[str, str | None] = {"secret": SECRET, "file": "none.db", "port": "0", "conns": "1", **given}
    words = ["serve"]
    for name, value in options.items():
        if value is not None:
            words += [f"--{name}", value]
    return words + [ADMIN]


def compare_refusal(what: str, options: argparse.Namespace, words: list[str], status: int, word: str) -> None:
    """Compares how the program refuses words, or ends at once."""
    ran = subprocess.run(shlex.split(options.program) + words, stdin=subprocess.DEVNULL, capture_output=True, timeout=options.wait + 60)
    said = [line for line in ran.stderr.decode().splitlines() if line.startswith("couchd: ") and "unproved" not in line]
    compare(what, (status, b"", [f"couchd: {word}"]), (ran.returncode, ran.stdout, said))


def check_usage(options: argparse.Namespace) -> None:
    """Tries command lines that are none."""
    for name in ["secret", "file", "port", "conns"]:
        compare_refusal(f"without --{name}", options, words_of(**{name: None}), 2, "usage")
    for conns in ["0", "1000001", "", "+1", "-1", "1 ", "1.0", "0x1", "99999999999999999999"]:
        compare_refusal(f"--conns {conns!r}", options, words_of(conns=conns), 2, "usage")
    for port in ["65536", "+80", "-1", "http", "4294967296"]:
        compare_refusal(f"--port {port!r}", options, words_of(port=port), 2, "usage")
    for at_once in ["0", "1001", "", "+2", "-2", "many", "4294967298"]:
        compare_refusal(f"--at-once {at_once!r}", options, [*words_of(), "--at-once", at_once], 2, "usage")
    for cache in ["0", "4097", "", "+8", "-8", "8M", "4294967304"]:
        compare_refusal(f"--cache {cache!r}", options, [*words_of(), "--cache", cache], 2, "usage")
    compare_refusal("an unknown option", options, words_of() + ["--bind", "::1"], 2, "usage")
    compare_refusal("an option twice", options, words_of() + ["--port", "0"], 2, "usage")


def check_socket(options: argparse.Namespace, file: str) -> None:
    """Tries a port that is in use."""
    with socket.create_server(("127.0.0.1", 0)) as taken:
        compare_refusal("a port in use", options, words_of(file=file, port=str(taken.getsockname()[1])), 1, "socket")


def check(options: argparse.Namespace, folder: str) -> None:
    """Tries command lines that are none, and a port that is in use."""
    check_socket(options, f"{folder}/b.db")
    check_usage(options)
