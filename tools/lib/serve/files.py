"""Files that the program refuses, and the modes of those that it makes."""
from __future__ import annotations

import argparse
import os
import socket

from lib.checks import compare
from lib.serve.command_lines import compare_refusal, words_of
from lib.server import Server, all_of, asks, connected, modes_of, reply, request


def check_files(options: argparse.Namespace, folder: str) -> None:
    """Files that are no store, or can't be opened; they are looked at before the port."""
    with socket.create_server(("127.0.0.1", 0)) as taken:
        port = str(taken.getsockname()[1])
        compare_refusal("a file in a folder that isn't there", options, words_of(file=f"{folder}/none/a.db", port=port), 1, "file")
        compare_refusal("a folder", options, words_of(file=folder, port=port), 1, "file")
        compare_refusal("memory", options, words_of(file=":memory:", port=port), 1, "file")
        other = f"{folder}/other.db"
        with open(other, "w") as made:
            made.write("This is no database.\n" * 1000)
        compare_refusal("a file that is no database", options, words_of(file=other, port=port), 1, "file")
        with open(other) as made:
            compare("it stays as it was", "This is no database.\n" * 1000, made.read())
        if os.geteuid() != 0:
            sealed = f"{folder}/sealed.db"
            open(sealed, "w").close()
            os.chmod(sealed, 0o400)
            compare_refusal("a file that is read alone", options, words_of(file=sealed, port=port), 1, "file")


def check_modes(options: argparse.Namespace, folder: str) -> None:
    """Makes files under umask 022, which are their owner's alone, with their logs; one that is there keeps its mode."""
    before = os.umask(0o022)
    for what, file, mode in (("a new file", f"{folder}/new.db", None), ("a file that is there", f"{folder}/there.db", 0o640)):
        if mode:
            open(file, "w").close()
            os.chmod(file, mode)
        server = Server(options, file, 2)
        with connected(server.port) as made:
            asks(what, made, request("PUT", "/db"), reply(201, {"ok": True}))
            compare(f"{what}: the modes of the file and its log", all_of(mode or 0o600, "-wal"), modes_of(file))
        with connected(server.port) as made:
            asks(what, made, request("GET", "/_all_dbs"), reply(200, ["db"]))
        server.ended(what)
        compare(f"{what}: the mode of the file afterwards", oct(mode or 0o600), modes_of(file)[""])
    os.umask(before)


def check(options: argparse.Namespace, folder: str) -> None:
    """Starts servers on files that are no store, and on new ones."""
    check_files(options, folder)
    check_modes(options, folder)
