"""What the units couchd-copy@ and couchd-sync@ do with rules that refuse, with all databases, and with what differs, for tools/package_check."""
import argparse
import re
import shlex

from lib.checks import compare
from lib.place import DATA, Place, asked, started
from lib.server import ADMIN, SECRET, Server
from lib.values import Json

OWNED = {"newDoc.owner": {"$sameAs": "userCtx.name"}}
# The same, but for those who copy.
MENDED = {"$or": [{"userCtx.roles": {"$all": ["_admin"]}}, OWNED]}
SECURITY = {"admins": {"names": ["ann"], "roles": []}, "members": {"names": ["ann", "bob"], "roles": ["clerks"]}}


def run_unit(place: Place, name: str, port: int, settings: dict[str, str]) -> tuple[int, str, str]:
    """Runs a unit to its end. Returns its status, what it printed, and its standard error."""
    process = started(place, f"{name}.service", str(port), settings)
    printed, said = process.communicate(timeout=120)
    return process.returncode, printed.decode(), said.decode()


def compare_unit(place: Place, name: str, port: int, settings: dict[str, str], what: str, wanted: int, line: str = "") -> None:
    """Runs a unit, and compares its status and the line that names what differs: a pattern, or none."""
    status, printed, said = run_unit(place, name, port, settings)
    compare(f"{name}: {what}", (wanted, True), (status, bool(re.fullmatch(f"{line}\n" if line else "", said))))
    if status != wanted or not re.fullmatch(f"{line}\n" if line else "", said):
        print(printed + said, flush=True)


def made(port: int, method: str, path: str, body: Json = None, user: str = ADMIN) -> Json:
    """Sends a request that has to succeed, and returns its value."""
    status, value = asked(port, SECRET, method, path, body, user)
    compare(f"{user} {method} {path}", True, status in (200, 201))
    return value


def differing(database: str, source: str, target: str, count: int, first: str, counts: tuple[int, int, int, int]) -> str:
    """Returns the pattern of the line about documents that are missing at a target."""
    text = f'{database}: {source} -> {target}: {count} documents lack a leaf there, the first "{first}"; '
    return re.escape(text + "{} documents and {} deleted at the source; {} documents and {} deleted at the target".format(*counts))


def check_nights(place: Place, port: int, settings: dict[str, str]) -> None:
    """Copies a database whose rule refuses what others wrote: each night fails, and names how many, for as long as they are missing."""
    settings = {**settings, "COUCHD_COPY_DBS": "owned"}
    rule = made(port, "PUT", "/owned") and made(port, "PUT", "/owned/_design/owner", {"validate_doc_update": OWNED})
    made(port, "PUT", "/owned/_security", {})
    made(port, "PUT", "/owned/a", {"owner": ADMIN})
    compare_unit(place, "couchd-copy@", port, settings, "the first night", 0)
    for user in ("ann", "bob", "eve"):
        made(port, "PUT", f"/owned/{user}", {"owner": user}, user)
    here, file = f"127.0.0.1:{port}", f"{DATA}/copies/{port}.db"
    line = differing("owned", here, file if place.has_users else place.root + file, 3, "ann", (5, 0, 2, 0))
    refused = re.escape(f"owned: {here} -> {file if place.has_users else place.root + file}: couchd: 3 refused, the first ann by _design/owner: run it with --from-start once the target admits them")
    compare_unit(place, "couchd-copy@", port, settings, "the second night", 3, f"{refused}\n{refused}\n{line}")
    compare_unit(place, "couchd-copy@", port, settings, "the third night", 3, f"{refused}\n{line}")
    made(port, "PUT", f"/owned/_design/owner?rev={rule['rev']}", {"validate_doc_update": MENDED})
    compare_unit(place, "couchd-copy@", port, settings, "the night after the rule was mended", 0)
    has = copied(place, port)["owned"][1]
    compare("couchd-copy@: all four documents", ["_design/owner", "a", "ann", "bob", "eve"], sorted(has))


def check_all(place: Place, port: int, settings: dict[str, str]) -> None:
    """Copies all databases, with their security objects, and one that is new the next night."""
    settings = {**settings, "COUCHD_COPY_DBS": "*"}
    made(port, "PUT", "/notes/_security", SECURITY)
    for database in ("a+b", "next"):
        made(port, "PUT", f"/{database.replace('+', '%2B')}")
        made(port, "PUT", f"/{database.replace('+', '%2B')}/one", {"v": 1})
        run_unit(place, "couchd-copy@", port, settings)
    # `plans` was named before it was there.
    has = {name: one for name, one in copied(place, port).items() if name != "plans"}
    compare("couchd-copy@: all databases", made(port, "GET", "/_all_dbs"), sorted(has))
    for database, (security, leaves) in has.items():
        path = f"/{database.replace('+', '%2B')}"
        compare(f"couchd-copy@: the security object of {database}", made(port, "GET", f"{path}/_security"), security)
        if database != "owned":
            compare(f"couchd-copy@: the leaves of {database}", leaves_at(port, path), leaves)
    made(port, "PUT", "/notes/_security", {})
    run_unit(place, "couchd-copy@", port, settings)
    compare("couchd-copy@: a security object that was changed", made(port, "GET", "/notes/_security"), copied(place, port)["notes"][0])


def leaves_at(port: int, path: str) -> dict[str, list[str]]:
    return {row["id"]: sorted(leaf["rev"] for leaf in row["changes"]) for row in made(port, "GET", f"{path}/_changes?style=all_docs")["results"]}


def copied(place: Place, port: int) -> dict[str, tuple[Json, dict[str, list[str]]]]:
    """Returns what the copy has: the security object and the leaves of each database."""
    *program, file = place.command(["/usr/lib/couchd/couchd", f"{DATA}/copies/{port}.db"])
    options = argparse.Namespace(program=shlex.join(program), port=0, wait=60)
    server = Server(options, file, 1000, environment=place.environment({}))
    found = {}
    for database in made(server.port, "GET", "/_all_dbs"):
        path = f"/{database.replace('+', '%2B')}"
        found[database] = made(server.port, "GET", f"{path}/_security"), leaves_at(server.port, path)
    server.stop()
    return found


def check_both(place: Place, port: int, settings: dict[str, str], office: Server) -> None:
    """Copies all databases between two servers: each makes what it lacks, with its security object; what differs fails."""
    settings = {**settings, "COUCHD_SYNC_DBS": "*"}
    made(office.port, "PUT", "/theirs")
    made(office.port, "PUT", "/theirs/_security", SECURITY)
    made(office.port, "PUT", "/theirs/x", {"v": 1})
    made(office.port, "PUT", "/notes/_security", made(port, "GET", "/notes/_security"))
    status, printed, said = run_unit(place, "couchd-sync@", port, settings)
    there = f"127.0.0.1:{office.port}"
    compare(f"couchd-sync@: all databases: {said}", 0, status)
    compare("couchd-sync@: the lines", True, f"theirs: {there} -> 127.0.0.1:{port}: {{" in printed and f"next: 127.0.0.1:{port} -> {there}: {{" in printed)
    compare("couchd-sync@: all databases of both", made(port, "GET", "/_all_dbs"), made(office.port, "GET", "/_all_dbs"))
    for path in ("/theirs", "/next", "/a%2Bb"):
        compare(f"couchd-sync@: the security object of {path}", *(made(one, "GET", f"{path}/_security") for one in (port, office.port)))
        compare(f"couchd-sync@: the leaves of {path}", *(leaves_at(one, path) for one in (port, office.port)))
    # What one of both has and no pass has copied is found, however the pass ends.
    made(office.port, "PUT", "/theirs/_security", {})
    line = re.escape(f"theirs: 127.0.0.1:{port} -> {there}: the security objects differ: a pass leaves them as they are")
    compare_unit(place, "couchd-sync@", port, settings, "another security object", 3, line)


def check_copies(place: Place, port: int, settings: dict[str, str], office: Server) -> None:
    """Copies databases between two servers, and into files, by the units."""
    check_nights(place, port, settings)
    check_all(place, port, settings)
    made(port, "DELETE", "/owned")
    check_both(place, port, settings, office)
