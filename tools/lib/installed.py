"""What the commands, the manual pages and the pages of an installed package do, for tools/package_check."""
import glob
import gzip
import os
import re
import signal
import subprocess
from collections.abc import Callable

from lib.checks import blocks_of, compare, find
from lib.place import DATA, Place, serving, settings_of, started
from lib.values import present

# The port of the pages' examples, in a namespace of networks of its own.
PORT = 5984


def ran_well(place: Place, what: str, lines: str) -> str:
    """Runs lines there, which all have to succeed, and returns what they printed."""
    ran = place.shell(lines)
    compare(f"{what}: {ran.stderr.decode()[-400:]}", 0, ran.returncode)
    return ran.stdout.decode()


def said_by(place: Place, *words: str) -> tuple[int, str, str]:
    """Returns the status of a command there, what it printed, and its standard error."""
    ran = subprocess.run(["chroot", place.root, *words], capture_output=True, stdin=subprocess.DEVNULL, env=place.environment({"LANG": "C.UTF-8"}), timeout=60)
    return ran.returncode, ran.stdout.decode(), ran.stderr.decode()


# ---- help, and bash's completion


def check_helps(place: Place) -> None:
    """Asks for help in each way, and runs the examples; wrong words stay one line and status 2."""
    texts = {name: open(f"{place.root}/usr/lib/couchd/help/{name}", encoding="utf-8").read() for name in ("couchd", "serve", "sync", "check", "lab")}
    for words in (["--help"], ["-h"], ["help"]):
        compare(f"couchd {words}", (0, texts["couchd"], ""), said_by(place, "couchd", *words))
    for name in ("serve", "sync", "check", "lab"):
        for words in (["help", name], [name, "--help"], [name, "-h"]):
            compare(f"couchd {words}", (0, texts[name], ""), said_by(place, "couchd", *words))
    wrong: list[list[str]] = [[], ["help", "nothing"], ["serve"], ["check"], ["check", "--file"], ["--help", "serve"], ["--version", "now"], ["nothing"]]
    for words in wrong:
        compare(f"couchd {words}", (2, "", "couchd: usage\n"), said_by(place, "couchd", *words))
    status, printed, said = said_by(place, "couchd", "--version")
    compare("couchd --version", (0, True, ""), (status, bool(re.match(r"couchd \d+\.\d+\.\d+\n(sources [0-9a-f]{64}\n(toolchain \S.*\n)?)?\Z", printed)), said))
    # Each word of the manual's command lines is in the help.
    with gzip.open(f"{place.root}/usr/share/man/man1/couchd.1.gz", "rt", encoding="utf-8") as file:
        named = set(re.findall(r"Fl Fl ([a-z-]+)", file.read())) - {"help", "version"}
    compare("help: words that it lacks", set(), {word for word in named if not any(f"--{word}" in text for text in texts.values())})
    lines = "\n".join(example_of(texts[name]) for name in ("couchd", "lab"))
    ran_well(place, "help: the examples of couchd and lab", f"{lines}\nsleep 0.3; kill -0 %1; kill %1; wait %1 || true")
    # The script becomes the program: a signal to it is the program's.
    served = example_of(texts["serve"]).strip() + ' &\nsleep 0.3; [ "$(readlink /proc/$!/exe)" = /usr/lib/couchd/couchd ]'
    waits = "couchd-client --secret Jefe --port 5984 --user root PUT /notes"
    ran_well(place, "help: the examples of serve, sync and check", "\n".join([served, waits, example_of(texts["sync"]), example_of(texts["check"])]))


def example_of(text: str) -> str:
    """Returns the lines of the example in a text of help."""
    return "\n".join(line for line in re.split(r"(?m)^Example.*\n", text, maxsplit=1)[1].split("\n") if line.startswith("  "))


def check_completion(place: Place) -> None:
    """Has bash complete words."""
    wanted = {
        ("",): "--help --version check help lab serve sync",
        ("s",): "serve sync",
        ("serve", "--c"): "--cache --conns",
        ("check", "--"): "--cache --file --help",
        ("help", ""): "check lab serve sync",
        ("sync", "--from", "/usr/lib/couchd/wa"): "/usr/lib/couchd/wait",
        ("serve", "--secret", ""): "",
    }
    for words, completed in wanted.items():
        line = " ".join(f"'{word}'" for word in ("couchd", *words))
        script = f"source /usr/share/bash-completion/completions/couchd; COMP_WORDS=({line}); COMP_CWORD={len(words)}; _couchd; printf '%s\\n' \"${{COMPREPLY[@]}}\""
        printed = ran_well(place, f"completion of {words}", script)
        compare(f"completion of {words}", completed.split(), sorted(printed.split()))


# ---- manual pages, and pages


def check_manuals(place: Place) -> None:
    """Runs the examples of the manual pages, where a server runs; man lays them out without a warning."""
    with serving(place, PORT, settings_of(place)):
        for manual in sorted(glob.glob(f"{place.root}/usr/share/man/man1/couchd*.gz")):
            name = os.path.basename(manual)
            with gzip.open(manual, "rt", encoding="utf-8") as file:
                text = file.read()
            examples = re.findall(r"(?s)\.Bd -literal[^\n]*\n(.*?)\.Ed", text)
            compare(f"{name}: examples", True, bool(examples))
            ran_well(place, name, "\n".join(examples).replace("\\e", "\\").replace("\\&", ""))
            if find("man"):
                compare(f"{name}: man", (0, ""), said_by(place, "man", "--warnings", name.split(".")[0])[::2])


def check_pages(place: Place) -> None:
    """Runs the lines of the section 'Your first request' of OPERATE-INSTALL, which are six, and prints what stands there."""
    with open(f"{place.root}/usr/share/doc/couchd/OPERATE-INSTALL.md", encoding="utf-8") as file:
        blocks = blocks_of(file.read())
    start = next((index for index, (_, kind, text) in enumerate(blocks) if kind == "heading" and text.endswith(" Your first request")), None)
    compare("OPERATE-INSTALL: 'Your first request'", True, start is not None)
    if start is None:
        return
    (_, _, lines), (_, _, printed) = blocks[start + 1 : start + 3]
    compare("OPERATE-INSTALL: 'Your first request': six lines", 6, len(lines.strip().split("\n")))
    # dpkg has installed it, and what systemd starts is started by hand.
    played = [line for line in lines.strip().split("\n") if not line.startswith(("apt-get ", "systemctl "))]
    compare("OPERATE-INSTALL: 'Your first request': what isn't played", 2, 6 - len(played))
    os.rename(f"{place.root}{DATA}/{PORT}.db", f"{place.root}{DATA}/before.db")
    os.rename(f"{place.root}{DATA}/{PORT}.db-wal", f"{place.root}{DATA}/before.db-wal")
    with serving(place, PORT, settings_of(place)):
        compare("OPERATE-INSTALL: 'Your first request'", printed, ran_well(place, "OPERATE-INSTALL: 'Your first request'", "\n".join(played)))


# ---- check


CASES = """
cd "$(mktemp -d)"
couchd serve --secret Jefe --file whole.db --port 5986 --conns 1000 --at-once 8 root >listening & server=$!
export COUCHD_SECRET=Jefe
couchd-client --port 5986 --user root PUT /notes >reply; couchd-client --port 5986 --user root PUT /notes/a '{"v":1}' >reply
try() { status=0; "$@" >printed 2>said || status=$?; echo "$status $(head -c 300 printed | cut -d: -f1 | head -n 1) / $(sed "s,$PWD,.,g; s,couchd-check\\.[A-Za-z0-9]*,ROOM," said | paste -sd '|')"; }
try couchd check --file whole.db
kill -9 $server; wait $server 2>/dev/null || true
sums() { sha256sum whole.db* >"$1"; ls -l --time-style=full-iso . | grep whole >>"$1"; }
sums one; try couchd check --file whole.db; sums two; cmp one two
mkdir moved; cp whole.db whole.db-wal moved/; sqlite3 whole.db 'PRAGMA wal_checkpoint(TRUNCATE)' >reply
sums one; try couchd check --file whole.db; sums two; cmp one two
chmod 0444 whole.db; try couchd check --file whole.db; ln whole.db hard.db; try couchd check --file hard.db; try couchd serve --secret Jefe --file hard.db --port 5987 --conns 1 root; ln -s whole.db soft.db; try couchd check --file soft.db
: >empty.db; try couchd check --file empty.db; stat -c %s empty.db
mkdir disk; mount -t tmpfs tmpfs disk; cp --no-preserve=mode whole.db disk/; mount -o remount,ro disk; try couchd check --file disk/whole.db; umount disk
try couchd check --file nothing.db; try couchd check --file moved; try couchd check --file /dev/null; ln -s nothing.db loose.db; try couchd check --file loose.db
echo 'no database' >text.db; try couchd check --file text.db; cp --no-preserve=mode whole.db short.db; truncate -s 20000 short.db; try couchd check --file short.db
chmod 0711 .; chmod 0600 whole.db; chmod 0700 moved
as_user() { try chroot --userspec=couchd:couchd / couchd check --file "$1"; }
as_user "$PWD/whole.db"; as_user "$PWD/moved/whole.db"
mkdir full; mount -t tmpfs -o size=40k tmpfs full; TMPDIR=$PWD/full try couchd check --file whole.db; umount full
echo 'nothing is left:'; ls -d couchd-check.* /tmp/couchd-check.* 2>/dev/null | cat
"""

ANSWERS = """1  / couchd: file|couchd: check: whole.db: locked: a server or a pass has it open
0 sound / 
0 sound / couchd: check: a copy is checked: ./ROOM/whole.db
0 sound / couchd: check: a copy is checked: ./ROOM/whole.db
0 sound / couchd: check: a copy is checked: ./ROOM/hard.db
1  / couchd: file
0 sound / couchd: check: a copy is checked: ./ROOM/whole.db
5 unsound / couchd: check: a copy is checked: ./ROOM/empty.db
0
0 sound / couchd: check: a copy is checked: /tmp/ROOM/whole.db
1  / couchd: file|couchd: check: nothing.db: there is no such file
1  / couchd: file|couchd: check: moved: a folder
1  / couchd: file|couchd: check: /dev/null: no regular file
1  / couchd: file|couchd: check: loose.db: a symbolic link that leads nowhere
1  / couchd: file|couchd: check: text.db: no SQLite database
1  / couchd: check: a copy is checked: ./ROOM/short.db|couchd: file|couchd: check: short.db: damaged: SQLite can't read all of it
1  / couchd: file|couchd: check: ./whole.db: no permission to read it, as couchd
1  / couchd: file|couchd: check: ./moved/whole.db: no permission to look into the folder ./moved, as couchd
1  / couchd: file|couchd: check: whole.db: no copy can be made in ./full/ROOM: TMPDIR names a folder with more room
nothing is left:
"""


def check_copies_of_files(place: Place) -> None:
    """Has `couchd check` look at files that it can't write, and at what is no file: nothing is written, and each cause is told."""
    if find("sqlite3"):
        printed = ran_well(place, "couchd check", CASES)
        for wanted, got in zip(ANSWERS.split("\n"), printed.split("\n") + [""] * 20):
            compare("couchd check", wanted, got)


# ---- what the units let the programs do


def allowed_by(place: Place, unit: str) -> tuple[set[str], set[str]]:
    """Returns the calls of the system and the kinds of sockets that a unit allows, by what systemd says of its sets."""
    text = subprocess.run(["systemd-analyze", "syscall-filter", "--no-pager"], capture_output=True, text=True).stdout
    sets = {head: body.split() for head, body in re.findall(r"(?m)^(@[\w-]+)\n((?:^ .*\n)+)", re.sub(r"(?m)^ *#.*\n", "", text))}

    def members(name: str) -> set[str]:
        return set().union(*map(members, sets[name])) if name.startswith("@") else {name}

    with open(f"{place.root}/lib/systemd/system/{unit}", encoding="utf-8") as file:
        lines = file.read()
    calls: set[str] = set()
    for refused, names in re.findall(r"(?m)^SystemCallFilter=(~?)(.*)$", lines):
        named = set().union(*map(members, names.split()))
        calls = calls - named if refused else calls | named
    return calls, set(present(re.search(r"(?m)^RestrictAddressFamilies=(.*)$", lines))[1].split())


def check_syscalls(place: Place) -> None:
    """Runs the units under strace: they make no call, and open no socket, that their filters refuse."""
    if None in (find("strace"), find("systemd-analyze")):
        return
    settings, trace = settings_of(place), f"{DATA}/trace"
    place.traced = ["strace", "-f", "-qq", "-o", trace]

    def take(unit: str) -> None:
        with open(place.root + trace, encoding="utf-8", errors="replace") as file:
            text = file.read()
        os.remove(place.root + trace)
        calls, families = allowed_by(place, unit)
        made = set(re.findall(r"(?m)^\d+ +(?:<\.\.\. )?(\w+)[( ]", text)) - {"resumed", "unfinished"}
        compare(f"{unit}: calls that it makes and allows", (True, True), (len(made) > 20, len(calls) > 200))
        compare(f"{unit}: calls that it refuses", set(), made - calls)
        compare(f"{unit}: sockets that it refuses", set(), set(re.findall(r"socket\((\w+)", text)) - families)

    settings |= {"COUCHD_COPY_DBS": "notes", "COUCHD_SYNC_DBS": "notes", "COUCHD_SYNC_ADDRESS": f"127.0.0.1:{PORT}"}
    with serving_traced(place, settings, take):
        for name in ("couchd-copy@.service", "couchd-sync@.service", "couchd-status@.service"):
            started(place, name, str(PORT), settings).communicate(timeout=120)
            take(name)
    place.traced = []


class serving_traced:
    """Has the installed server run under strace."""

    def __init__(self, place: Place, settings: dict[str, str], take: Callable[[str], None]) -> None:
        self.place, self.settings, self.take = place, settings, take

    def __enter__(self) -> None:
        traced = self.place.traced
        self.place.traced = [word.replace("trace", "trace-server") if word.startswith("/") else word for word in traced]
        self.process = started(self.place, "couchd@.service", str(PORT), self.settings)
        compare("couchd@ under strace", f"listening 127.0.0.1:{PORT}\n", present(self.process.stdout).readline().decode())
        self.place.traced = traced

    def __exit__(self, *_: object) -> None:
        # strace ends with the program that it runs.
        with open(f"/proc/{self.process.pid}/task/{self.process.pid}/children", encoding="ascii") as file:
            os.kill(int(file.read().split()[0]), signal.SIGTERM)
        self.process.wait(60)
        os.rename(f"{self.place.root}{DATA}/trace-server", f"{self.place.root}{DATA}/trace")
        self.take("couchd@.service")
