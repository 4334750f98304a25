"""Runs in the lab that have as many exchanges as one may, and scripts on streams that fail."""
from __future__ import annotations

import argparse
import json
import os
import shlex
import signal
import socket
import subprocess
import tempfile
import threading
from typing import IO, Union

from lib.checks import compare
from lib.server import ADMIN, SECRET, resets
from lib.values import present


def check_run(options: argparse.Namespace) -> None:
    """Runs passes in the lab whose end comes with the 10,000th exchange, and one exchange later, by another run."""
    for count, last in ((9_993, "done"), (9_994, "source")):
        documents = json.dumps([{"_id": f"d{number}"} for number in range(count)], separators=(",", ":"))
        body = f'{{"docs":{documents}}}'
        script = f"""node A
node B
public A db
public B db
conn A a
send a POST /db/_bulk_docs HTTP/1.1\\r\\nContent-Length: {len(body)}\\r\\n\\r\\n{body}
repl r A/db B/db S
run r
"""
        ran = subprocess.run([*shlex.split(options.program), "lab", "--secret", SECRET, ADMIN], input=script.encode(), capture_output=True, timeout=options.wait + 60)
        lines = [line for line in ran.stdout.decode().splitlines() if line.startswith("r ")]
        compare(f"a run of {count + 7} exchanges: the exchanges", 10_000, sum(line.split(" ")[1] in ("source", "target") for line in lines))
        compare(f"a run of {count + 7} exchanges: the last line", last, lines[-1].split(" ")[1])


FIRST = """node A
public A db
conn A c1
send c1 PUT /db/a HTTP/1.1\\r\\nContent-Length: 7\\r\\n\\r\\n{"v":1}
send c1 GET /db/a HTTP/1.1\\r\\n\\r\\n
"""
PRINTED = """c1 201 {"id":"a","ok":true,"rev":"1-16dd5aa7b10d32bc038d45f5c7f9f929"}
c1 200 {"_id":"a","_rev":"1-16dd5aa7b10d32bc038d45f5c7f9f929","v":1}
"""


# A stream of a process: a file, its number, or what subprocess makes.
Stream = Union[int, IO[bytes]]


def compare_failure(
    what: str, options: argparse.Namespace, printed: bytes, script: Stream | bytes, stdout: Stream = subprocess.PIPE
) -> None:
    """Plays a script on streams that fail, and compares what was printed before, and how the program ends."""
    words = [*shlex.split(options.program), "lab", "--secret", SECRET, ADMIN]
    if isinstance(script, bytes):
        ran = subprocess.run(words, input=script, stdout=stdout, stderr=subprocess.PIPE, timeout=options.wait + 60)
    else:
        ran = subprocess.run(words, stdin=script, stdout=stdout, stderr=subprocess.PIPE, timeout=options.wait + 60)
    said = [line for line in ran.stderr.decode().splitlines() if "unproved" not in line]
    compare(what, (1, printed, ["couchd: file"]), (ran.returncode, ran.stdout or b"", said))


def check_failing_reads(options: argparse.Namespace) -> None:
    """Breaks the reading of a script, at once or behind some lines: what these print is printed, and `file` is said."""
    folder = os.open("/", os.O_RDONLY)
    compare_failure("a script that is a folder", options, b"", folder)
    os.close(folder)
    with socket.create_server(("127.0.0.1", 0)) as listener, socket.create_connection(listener.getsockname()) as reading:
        made, _ = listener.accept()
        made.sendall(FIRST.encode())
        # A reset that comes before the script is read would take the script away with it.
        threading.Timer(options.wait / 30, resets, [made]).start()
        compare_failure("a script whose reading fails behind its lines", options, PRINTED.encode(), reading.fileno())


def check_endless(options: argparse.Namespace) -> None:
    """Plays a script without an end, which is given up: the program says `file`."""
    with subprocess.Popen(["sh", "-c", "printf 'node A\\nconn A c\\n'; exec yes 'send c '"], stdout=subprocess.PIPE, stderr=subprocess.DEVNULL) as endless:
        compare_failure("a script without an end", options, b"", present(endless.stdout))
        endless.kill()


def check_failing_writes(options: argparse.Namespace) -> None:
    """Breaks the printing, at once or behind some bytes: the program ends and says `file`."""
    with open("/dev/full", "wb") as full:
        compare_failure("a full device", options, b"", FIRST.encode(), full)
    reading, writing = os.pipe()
    os.close(reading)
    compare_failure("a closed pipe", options, b"", FIRST.encode(), writing)
    os.close(writing)
    with tempfile.TemporaryFile() as printed:
        words = ["sh", "-c", "ulimit -f 0; exec \"$@\"", "sh", *shlex.split(options.program), "lab", "--secret", SECRET, ADMIN]
        ran = subprocess.run(words, input=FIRST.encode(), stdout=printed, stderr=subprocess.PIPE, timeout=options.wait + 60, preexec_fn=lambda: signal.signal(signal.SIGXFSZ, signal.SIG_IGN))
        compare("a file that may not grow", (1, ["couchd: file"]), (ran.returncode, [line for line in ran.stderr.decode().splitlines() if "unproved" not in line]))


def check(options: argparse.Namespace, folder: str) -> None:
    """Plays two long runs, and scripts on streams that fail."""
    check_failing_reads(options)
    check_endless(options)
    check_failing_writes(options)
    check_run(options)
