"""The list of conflicts as it comes: its first row, its last, and what it costs, beside the same requests by a plain client."""
from lib.checks import compare
from lib.desk.page import Desk
from lib.desk.place import Place, revision
from lib.desk.scripts import FLOWING, PLAIN, PROGRESS

COUNT, TRIES = 300, 8
IDS = [f"f{number:03}" for number in range(COUNT)]


def fill(place: Place) -> None:
    """Makes a database of three hundred conflicts, among as many documents without one."""
    place.made("PUT", "/flow")
    place.push("flow", *[{"_id": name, **revision(one, "r1", v=one)} for name in IDS for one in ["a2", "b2"]])
    place.push("flow", *[{"_id": f"g{number:03}", **revision("r1", v=1)} for number in range(COUNT)])


def try_once(place: Place, desk: Desk) -> dict[str, float]:
    """Returns when the first and the last row stood, when the same requests alone were answered, and what both cost the server."""
    desk.forget("flow")
    desk.go()
    begun = place.processor_time()
    shown = desk.run(FLOWING, ["flow"], COUNT)
    middle = place.processor_time()
    plain = desk.run(PLAIN, "flow", IDS)
    return {**shown, "plain": plain, "server": (middle - begun) * 1000, "plain_server": (place.processor_time() - middle) * 1000}


def is_flowing(tried: dict[str, float]) -> bool:
    """Tells whether a try shows a list that flows, by its times in milliseconds and by what it cost the server."""
    return tried["first"] < min(300, tried["last"] / 2) and tried["last"] < 1000 and tried["server"] < 2000


def check_flowing(place: Place, desk: Desk) -> None:
    """Opens a list of 300 rows: the first stands soon, the last nearly as soon as the requests alone allow."""
    fill(place)
    for _ in range(TRIES):
        tried = try_once(place, desk)
        words = ", ".join(f"{name} {value:.0f}" for name, value in tried.items())
        desk.times.append(f"300 rows, in ms: {words}")
        if is_flowing(tried):
            break
    compare("flow: the first row and the last one", True, is_flowing(tried) or desk.times)


def check_costs(place: Place, desk: Desk) -> None:
    """Counts requests: a document costs one at most, and one without a conflict none; the list says how far it is."""
    if place.ask("GET", "/flow")[0] == 404:
        fill(place)
    desk.forget("flow")
    desk.go()
    before = len(place.requests())
    desk.run(FLOWING, ["flow"], COUNT)
    desk.find("[role=status]", f"{COUNT} found among {2 * COUNT} documents")
    cost = ["/flow", "/flow/_changes", "/flow/_changes", *[f"/flow/{name}" for name in IDS]]
    compare("flow: what the list costs", cost, place.paths_since(before, "GET /flow", len(cost)))
    desk.forget("flow")
    desk.go()
    told = desk.run(PROGRESS, "flow")
    between = [(text, most, value) for text, most, value in told if 0 < value < most]
    compare("flow: it says how far it is", True, len(between) > 2 and all(f"among {value} of {2 * COUNT} documents so far" in text for text, _, value in between))
    compare("flow: what is told of all", {2 * COUNT}, {most for _, most, _ in between})


CHECKS = [check_flowing, check_costs]
