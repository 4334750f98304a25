"""The modules of the desk without the page, by rows, against python's own results."""
import json
import random
from typing import Any
from urllib.parse import quote

from lib.checks import compare
from lib.desk.page import Desk
from lib.desk.place import GREATEST, LEAST, Place
from lib.desk.rows import NAMES, Absent, ancestor_of, common_length, differing, merged, revisions_of, some_leaves, some_lines, some_text, some_value, with_value
from lib.desk.scripts import DIFFERING, MERGES, STREAMED, WITH_VALUE
from lib.server import text_of


def imported(desk: Desk, module: str, script: str, *args: object) -> Any:
    """Runs a script with a module of the desk, as `m`."""
    return desk.run(f"const m = await import(location.origin + '/_desk/{module}.js'); {script}", *args)


def check_json(desk: Desk, chance: random.Random) -> None:
    """Texts that are read and written again, and equality, against python's own."""
    texts = [str(number) for number in [0, -1, GREATEST, LEAST, 2**53 + 1, -(2**53) - 1, 10**18]]
    texts += [json.dumps(some_value(chance, 3), ensure_ascii=chance.random() < 0.5) for _ in range(300)]
    again = imported(desk, "json", "return args[0].map(text => m.write(m.read(text)))", texts)
    compare("json: values that are read and written", [text_of(json.loads(text)) for text in texts], [text_of(json.loads(text)) for text in again])
    shown = imported(desk, "json", "return args[0].map(text => m.shown(m.read(text)))", texts)
    compare("json: values that are shown", [text_of(json.loads(text)) for text in texts], [text_of(json.loads(text)) for text in shown])
    exact = ["1.50", "-0", "[1e5,-0]", '{"a":0.10}', '{"a":9007199254740993,"b":"x"}', '["3-1e5",{"n":1E400}]', "[1,[2,-0]]"]
    compare("json: numbers are as they were written", exact, imported(desk, "json", "return args[0].map(text => m.write(m.read(text)))", exact))
    pairs = [(one, other) for one in texts[:40] for other in texts[:40]]
    wanted = [text_of(json.loads(one)) == text_of(json.loads(other)) for one, other in pairs]
    compare("json: equality", wanted, imported(desk, "json", "return args[0].map(([one, other]) => m.same(m.read(one), m.read(other)))", pairs))


def check_requests(desk: Desk, chance: random.Random) -> None:
    """Paths, bodies that are typed, and the fields of an index for a query, against python's own."""
    parts = [[some_text(chance) for _ in range(chance.randint(1, 3))] for _ in range(200)]
    wanted = ["/" + "/".join(quote(part, safe="!'()*") for part in row) for row in parts]
    compare("client: paths", wanted, imported(desk, "client", "return args[0].map(row => m.pathTo(...row))", parts))
    typed = {'{"a": 1}': "fine", "[]": "an object", "1": "an object", '{"_id": "a"}': "_id", '{"_x": 1}': "_x", '{"__proto__": 1}': "__proto__", '{"a": {"_b": 1}}': "fine", "{": "JSON"}
    script = "return args[0].map(text => { try { m.bodyTyped(text); return 'fine'; } catch (error) { return error.message; } })"
    compare("client: bodies that are typed", [True] * len(typed), [why in said for why, said in zip(typed.values(), imported(desk, "client", script, list(typed)))])
    queries = [({"selector": {"a": 1, "$or": [], "b.c": {"$gt": 2}}, "sort": [{"d": "desc"}, "a"]}, ["a", "b.c", "d"]), ({"selector": {}}, []), ({"selector": {}, "sort": ["x"]}, ["x"])]
    compare("queries: fields of an index", [fields for _, fields in queries], imported(desk, "queries", "return args[0].map(one => m.fieldsOf(one))", [query for query, _ in queries]))


def check_streamed(desk: Desk) -> None:
    """Replies whose length is not known before: what is longer than the limit is not fetched."""
    for text, wanted in [('"' + "x" * 999_998 + '"', 999_998), ('"' + "x" * 999_999 + '"', "The reply is 1.0 MB long, and was not fetched."), ("<b>502</b>", "200 no reply of couchd: 502")]:
        compare(f"client: a reply of {len(text)} bytes", wanted, imported(desk, "client", STREAMED, text))


def check_rows_of_trees(desk: Desk, chance: random.Random) -> None:
    """Rows of drawings: each revision once, each leaf as what it is, and no line through another revision."""
    for _ in range(150):
        leaves = some_leaves(chance)
        rows, ancestor = imported(desk, "tree", "return [m.rowsOf(args[0]), m.commonAncestor(args[0])]", leaves)
        known = revisions_of(leaves)
        kinds = {leaf["_rev"]: "deleted" if leaf.get("_deleted") else "conflict" if place else "winner" for place, leaf in enumerate(leaves)}
        wanted = [len(known), kinds, ancestor_of(leaves), []]
        found = {row["rev"]: row["kind"] for row in rows if row["kind"] not in ("inner", "run")}
        wrong = [row for row in rows if row["parent"] != known[row["rev"]] or (row["above"] is None) != (row["parent"] is None)]
        lines = [(rows[row["above"]]["lane"], rows[row["above"] + 1 : place]) for place, row in enumerate(rows) if row["above"] is not None]
        crossed = [row for lane, between in lines for row in between if row["lane"] <= lane]
        if wanted != [sum(row.get("hidden", 1) for row in rows), found, ancestor, crossed + wrong]:
            compare(f"tree: {leaves}", wanted, [sum(row.get("hidden", 1) for row in rows), found, ancestor, crossed + wrong])
            return
    compare("tree: rows of drawings", True, True)


def check_differences(desk: Desk, chance: random.Random) -> None:
    """Differences of lines, which keep a longest common part, and merges by members."""
    pairs = [(some_lines(chance), some_lines(chance)) for _ in range(200)]
    for (one, other), lines in zip(pairs, imported(desk, "difference", "return args[0].map(pair => m.difference(...pair))", pairs)):
        parts = ["\n".join(line for sign, line in lines if sign in signs) for signs in (" -", " +")]
        compare("difference: both texts, and what is kept", [one, other, common_length(one.split("\n"), other.split("\n"))], [*parts, sum(sign == " " for sign, _ in lines)])
    rows = []
    for _ in range(300):
        base = some_value(chance, 2, object_only=True)
        rows.append([json.dumps(base if chance.random() < 0.9 else None)] + [json.dumps(some_value(chance, 2, near=base, object_only=True)) for _ in range(chance.randint(2, 4))])
    for row, (body, touching) in zip(rows, imported(desk, "difference", MERGES, rows)):
        base, *sides = map(json.loads, row)
        wanted, paths = merged(base, sides)
        compare(f"merge: {row}", (text_of(wanted), sorted(paths)), (text_of(json.loads(body)), sorted(touching)))


def check_values_at_paths(desk: Desk, chance: random.Random) -> None:
    """Compares the members in which two bodies differ, and bodies with another value at a path, with python's own."""
    pairs = [(some_value(chance, 2, object_only=True), some_value(chance, 2, object_only=True)) for _ in range(100)]
    pairs += [(one, some_value(chance, 2, near=one, object_only=True)) for one, _ in pairs]
    texts = [[json.dumps(one), json.dumps(other)] for one, other in pairs]
    compare("difference: members that differ", [differing(*pair) for pair in pairs], imported(desk, "difference", DIFFERING, texts))
    paths = [[chance.choice(NAMES) for _ in range(chance.randint(1, 3))] for _ in pairs]
    wanted = [[with_value(one, path, other), with_value(one, path, Absent)] for (one, other), path in zip(pairs, paths)]
    rows = [[*row, path] for row, path in zip(texts, paths)]
    found = [[json.loads(text) for text in row] for row in imported(desk, "difference", WITH_VALUE, rows)]
    compare("difference: bodies with another value", [[text_of(one) for one in row] for row in wanted], [[text_of(one) for one in row] for row in found])


def check_modules(_: Place, desk: Desk) -> None:
    """Compares the modules without the page, by rows, with python's own results."""
    chance = random.Random(77)
    check_json(desk, chance)
    check_requests(desk, chance)
    check_streamed(desk)
    check_rows_of_trees(desk, chance)
    check_differences(desk, chance)
    check_values_at_paths(desk, chance)


CHECKS = [check_modules]
