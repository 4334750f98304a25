"""Files of version 1, and of versions that don't exist."""
from __future__ import annotations

import argparse
import os

from lib.checks import compare
from lib.first_version import FIRST_SHAPE, SECOND_SHAPE, VIEW, shape_of, write_first
from lib.serve.command_lines import compare_refusal, words_of
from lib.serve.tables import change, rows_in
from lib.server import Server, asks, connected, reply, request


def bytes_of(file: str) -> list[bytes]:
    """Returns the bytes of a file and of its log."""
    found = []
    for name in [file, f"{file}-wal"]:
        if os.path.exists(name):
            with open(name, "rb") as opened:
                found.append(opened.read())
    return found


def view_of(options: argparse.Namespace, file: str, what: str) -> None:
    """Starts a server on a file, and compares the view of its index."""
    server = Server(options, file, 1)
    with connected(server.port) as made:
        asks(what, made, request("GET", "/db/_design/d/_view/v"), reply(200, VIEW))
    server.ended(what)


def check_first_version(options: argparse.Namespace, folder: str) -> None:
    """Opens a file of version 1: it is carried over once; one that isn't laid out is refused, and stays as it was."""
    file = f"{folder}/first.db"
    write_first(file)
    compare("a file of version 1", FIRST_SHAPE, shape_of(file))
    view_of(options, file, "a file of version 1 is opened")
    before = bytes_of(file)
    view_of(options, file, "it is opened again")
    compare("its bytes are as they were", True, before == bytes_of(file))
    compare("it has version 2", SECOND_SHAPE, shape_of(file))
    compare("is it sound", [("ok",)], rows_in(file, "PRAGMA integrity_check"))
    view_of(options, file, "and it is opened once more")
    for statement in ["UPDATE docs SET winner = '-' WHERE id = X'5F64657369676E2F64'", "UPDATE revs SET body = '-'"]:
        damaged = f"{folder}/damaged.db"
        write_first(damaged)
        change(damaged, statement)
        compare_refusal(f"version 1 after {statement}", options, words_of(file=damaged), 1, "file")
        compare(f"it stays as it was after {statement}", FIRST_SHAPE, shape_of(damaged))
        os.remove(damaged)
    for version in [0, 3, -1]:
        change(file, f"UPDATE meta SET version = {version}")
        compare_refusal(f"version {version}", options, words_of(file=file), 1, "file")


def check(options: argparse.Namespace, folder: str) -> None:
    """Opens files of other versions."""
    check_first_version(options, folder)
