#!/usr/bin/env python3
"""Reads the pictures that the built program draws, and compares marks and lines with the files that they show.

Each picture is XML with only integers outside its fixed shapes. Each stop and the depot has one mark, each leg
one line, in the direction of travel, and each point is at the coordinates of the instance. Pairs are joined. No
number covers a mark or another number. A plan that breaks a rule is drawn too: the rule is printed in words
with its numbers, the broken route is marked, and the broken stop has a ring, as has each stop that no route
has. A plan that leaves requests out is labelled as partial.

    tests/picture.py
"""

import pathlib
import re
import sys
import tempfile
import xml.etree.ElementTree as ElementTree

# Python leaves no files beside the scripts.
sys.dont_write_bytecode = True
from planner import EXAMPLES, fail, require_program, run_program  # noqa: E402

SVG = "{http://www.w3.org/2000/svg}"

# A pair at (3, 4) and (6, 8): its services start at 5 and 12, and the vehicle is back at 24. Then two pairs and
# one vehicle. Then three customers with demands 6, 4 and 5.
ONE_PAIR = "2 10 1\n0 0 0 0 0 100 0 0 0\n1 3 4 4 0 50 2 0 2\n2 6 8 -4 0 60 2 1 0\n"
TWO_PAIRS = "1 10 1\n0 0 0 0 0 100 0 0 0\n1 1 1 1 0 50 0 0 2\n2 1 1 -1 0 50 0 1 0\n3 2 2 1 0 50 0 0 4\n4 2 2 -1 0 50 0 3 0\n"
THREE_PAIRS = TWO_PAIRS + "5 3 3 1 0 50 0 0 6\n6 3 3 -1 0 50 0 5 0\n"
THREE_CUSTOMERS = (
    "TYPE : CVRP\nDIMENSION : 4\nEDGE_WEIGHT_TYPE : EUC_2D\nCAPACITY : 10\nNODE_COORD_SECTION\n1 0 0\n2 3 4\n3 6 8\n4 0 5\n"
    "DEMAND_SECTION\n1 0\n2 6\n3 4\n4 5\nDEPOT_SECTION\n1\n-1\nEOF\n"
)

# The kind, the instance, the solution, the text above the map, the stop with a ring, and the marked route.
BROKEN = [
    ("lilim", ONE_PAIR, "Route #1: 1 2 9\nCost 20\n", "broken rule 1, unknown stop, route 1, place 3, stop 9", None, 1),
    ("lilim", ONE_PAIR, "Route #1: 1 2\nRoute #2: 1\nCost 20\n", "broken rule 2, visited twice, route 2, place 1, stop 1", 1, 2),
    ("lilim", ONE_PAIR, "Route #1: 1 2 1\nCost 20\n", "broken rule 2, visited twice, route 1, place 3, stop 1", 1, 1),
    ("lilim", ONE_PAIR, "Cost 0\n", "broken rule 3, missing stop, stop 1, the other of its pair is stop 2", 1, None),
    ("lilim", ONE_PAIR, "Route #1: 1\nRoute #2: 2\nCost 30\n",
        "broken rule 4, split pair, route 1, place 1, stop 1, the other of its pair is stop 2", 1, 1),
    ("lilim", ONE_PAIR, "Route #1: 2 1\nCost 20\n",
        "broken rule 5, early delivery, route 1, place 1, stop 2, the other of its pair is stop 1", 2, 1),
    ("lilim", ONE_PAIR.replace("2 10 1", "2 3 1"), "Route #1: 1 2\nCost 20\n",
        "broken rule 6, overload, route 1, place 1, stop 1, load 4, capacity 3", 1, 1),
    ("vrp", THREE_CUSTOMERS, "Route #1: 1 2 3\nCost 22\n", "broken rule 6, overload, route 1, place 3, stop 3, load 15, capacity 10", 3, 1),
    ("lilim", ONE_PAIR.replace("0 60 2 1 0", "0 11 2 1 0"), "Route #1: 1 2\nCost 20\n",
        "broken rule 7, late service, route 1, place 2, stop 2, starts at 12, latest 11", 2, 1),
    ("lilim", ONE_PAIR.replace("0 100 0 0 0", "0 23 0 0 0"), "Route #1: 1 2\nCost 20\n",
        "broken rule 8, late return, route 1, place 3, back at 24, latest 23", None, 1),
    ("lilim", TWO_PAIRS, "Route #1: 1 2\nRoute #2: 3 4\nCost 8\n", "broken rule 9, too many vehicles, route 2, used 2, fleet 1", None, 2),
    ("lilim", ONE_PAIR, "Route #1: 1 2\nCost 21\n", "broken rule 11, wrong cost, driven 20", None, None),
]

# The instance, route lines without a cost line, standard error, and the text above the map. The route drives 1
# to (1, 1) and 1 back.
PARTIAL = [
    (TWO_PAIRS, "Route #1: 1 2\n", "unplanned 1: 3\n", "partial, unplanned 1, vehicles 1, distance 2"),
    (TWO_PAIRS, "\nroute 7 : 1 2", "unplanned 1: 3\n", "partial, unplanned 1, vehicles 1, distance 2"),
    (THREE_PAIRS, "Route #1: 3 4\n", "unplanned 2: 1 5\n", "partial, unplanned 2, vehicles 1, distance 6"),
]

# Solutions that are not partial plans: half a request, a delivery first, a stop twice, a vehicle too many, no
# request left out, and an earlier fault.
NOT_PARTIAL = [
    (TWO_PAIRS, "Route #1: 1\n", "solution NoCost 2"),
    (TWO_PAIRS, "Route #1: 2 1\n", "solution NoCost 2"),
    (TWO_PAIRS, "Route #1: 1 2 1\n", "solution NoCost 2"),
    (THREE_PAIRS, "Route #1: 1 2\nRoute #2: 3 4\n", "solution NoCost 3"),
    (TWO_PAIRS, "Route #1: 1 2 3 4\n", "solution NoCost 2"),
    (TWO_PAIRS, "Route #1: 1 2\nRoad\n", "solution BadLine 2"),
    (TWO_PAIRS.replace("1 10 1", "1 10"), "Route #1: 1 2\n", "instance FieldCount 1"),
]


def lilim_stops(text):
    """Returns the places of the depot and the stops of a Li-Lim text, by number."""
    rows = [list(map(int, line.split())) for line in text.splitlines()[1:] if line.split()]
    return {row[0]: (row[1], row[2]) for row in rows}


def vrp_stops(text):
    """Returns the same for a .vrp text. In a solution each number is one less than there."""
    section = text.split("NODE_COORD_SECTION")[1].split("DEMAND_SECTION")[0]
    rows = [list(map(int, line.split())) for line in section.splitlines() if line.split()]
    return {row[0] - 1: (row[1], row[2]) for row in rows}


def routes(text):
    """Returns the stops of each route of a solution."""
    return [list(map(int, line.split(":")[1].split())) for line in text.splitlines() if line.startswith("Route")]


def drawn_of(route, stops):
    """Returns the stops of a route that the instance has, each at its first occurrence."""
    return [stop for stop in dict.fromkeys(route) if stop in stops]


def places(stops):
    """Returns the position of each stop, and the unit: twelve units of margin, and coordinates whose longer
    side is scaled to 4000 or more.
    """
    left = min(x for x, _ in stops.values())
    top = max(y for _, y in stops.values())
    across = max(x for x, _ in stops.values()) - left
    down = top - min(y for _, y in stops.values())
    size = max(across, down, 1)
    scale = -(-4000 // size)
    unit = scale * size // 400
    room = 12 * unit
    return unit, {number: (room + scale * (x - left), room + scale * (top - y)) for number, (x, y) in stops.items()}


def titled(svg):
    """Returns the number, the place and the shape of each mark, in order."""
    marks = [mark for mark in svg.iter(SVG + "use") if mark.find(SVG + "title") is not None]
    return [(int(mark.find(SVG + "title").text), (int(mark.get("x")), int(mark.get("y"))), mark.get("href"))
            for mark in marks]


def points(line):
    """Returns the places of a line."""
    return [tuple(map(int, point.split(","))) for point in line.get("points").split()]


def legs(svg):
    """Returns the ends of each leg, route by route."""
    groups = [group for group in svg.iter(SVG + "g") if group.get("class") == "legs"]
    return [[(points(leg)[0], points(leg)[-1]) for leg in route] for route in groups[0]]


def joined(svg):
    """Returns the ends of each line that joins a pair."""
    groups = [group for group in svg.iter(SVG + "g") if group.get("class") == "pairs"]
    return sorted(tuple(points(line)) for line in groups[0])


def lilim_pairs(text):
    """Returns the pickup and the delivery of each request."""
    rows = [list(map(int, line.split())) for line in text.splitlines()[1:] if line.split()]
    return [(row[7], row[0]) for row in rows if row[7]]


def numbers(svg):
    """Returns the number of each stop that has one, with the position of its digits."""
    texts = [text for text in svg.iter(SVG + "text") if text.get("class") == "number"]
    return {int(text.text): (int(text.get("x")), int(text.get("y"))) for text in texts}


def covered(svg, marks, unit):
    """Returns two numbers that cover each other, or a number that covers a mark."""
    shown = numbers(svg)
    boxes = {number: (x - 5 * unit * len(str(number)) // 4, x + 5 * unit * len(str(number)) // 4, y - 7 * unit // 2, y)
             for number, (x, y) in shown.items()}
    for number, box in boxes.items():
        for other, (x, y) in marks.items():
            if box[0] < x + unit and x - unit < box[1] and box[2] < y + unit and y - unit < box[3]:
                return number, other
        for other, that in boxes.items():
            if number < other and box[0] < that[1] and that[0] < box[1] and box[2] < that[3] and that[2] < box[3]:
                return number, other
    return None


def near(svg, marks, unit):
    """Returns whether each number is beside its own mark."""
    return all(abs(x - marks[number][0]) <= 16 * unit and abs(y - marks[number][1]) <= 8 * unit
               for number, (x, y) in numbers(svg).items())


def drawing(words, told=b""):
    """Returns the picture that the program draws, and checks standard error."""
    done = run_program("draw", *words)
    if (done.returncode, done.stderr) != (0, told):
        fail(f"{words}: status {done.returncode}, {done.stderr!r}")
    return done.stdout.decode("ascii")


def check(kind, name, solution, stops, pairs, ring=None):
    """Draws the solution, compares the picture with the two texts, and returns it."""
    text = drawing([kind, EXAMPLES / name, EXAMPLES / solution])
    if re.search(r"[0-9]\.[0-9]", text.split("</defs>")[1]):
        fail(f"{solution}: a number that is not whole")
    svg = ElementTree.fromstring(text)
    unit, wanted = places(stops)
    drawn = [drawn_of(route, stops) for route in routes((EXAMPLES / solution).read_text(encoding="ascii"))]
    marks = [(number, place) for number, place, shape in titled(svg) if shape not in ("#broken", "#unserved")]
    if len(marks) != len(stops) or dict(marks) != wanted:
        fail(f"{solution}: other marks")
    rings = [number for number, _, shape in titled(svg) if shape == "#broken"]
    if rings != ([] if ring is None else [ring]):
        fail(f"{solution}: rings {rings}")
    served = [0] + [number for route in drawn for number in route]
    left = [number for number, _, shape in titled(svg) if shape == "#unserved"]
    if sorted(left) != sorted(set(stops) - set(served)) or ("ringed: %d<" % len(left) in text) != bool(left):
        fail(f"{solution}: unserved {left}")
    driven = [[(wanted[a], wanted[b]) for a, b in zip([0] + route, route + [0])] for route in drawn]
    if legs(svg) != driven:
        fail(f"{solution}: other legs")
    if joined(svg) != sorted((wanted[a], wanted[b]) for a, b in pairs):
        fail(f"{solution}: other pairs")
    if covered(svg, wanted, unit) or not near(svg, wanted, unit):
        fail(f"{solution}: numbers cover something, or stand elsewhere")
    if (kind == "lilim") != ("driving" in text):
        fail(f"{solution}: a chart only where windows count")
    if kind == "vrp" and ("vehicles" in text or "pickup<" in text):
        fail(f"{solution}: words of vehicles or pickups")
    return text


def check_broken(folder):
    """Draws plans that each break a rule."""
    instance, solution = folder / "instance", folder / "solution"
    for kind, text, plan, told, ring, route in BROKEN:
        instance.write_text(text, encoding="ascii")
        solution.write_text(plan, encoding="ascii")
        stops, pairs = (lilim_stops(text), lilim_pairs(text)) if kind == "lilim" else (vrp_stops(text), [])
        svg = ElementTree.fromstring(check(kind, instance, solution, stops, pairs, ring))
        heads = [line.text for line in svg.iter(SVG + "text") if (line.text or "").startswith("broken rule")]
        if heads != [told]:
            fail(f"{plan!r}: told {heads}")
        legs_of_routes = next(group for group in svg.iter(SVG + "g") if group.get("class") == "legs")
        marked = [number for number, group in enumerate(legs_of_routes, 1) if group.get("class") == "broken"]
        if marked != ([] if route is None else [route]):
            fail(f"{plan!r}: routes {marked} are marked")


def check_partial(folder):
    """Draws a plan that leaves requests out, and its only route. Checks that other incomplete solutions are not
    drawn.
    """
    instance, solution = folder / "instance", folder / "solution"
    for text, plan, told, cost in PARTIAL:
        instance.write_text(text, encoding="ascii")
        solution.write_text(plan, encoding="ascii")
        words = ["lilim", instance, solution]
        for more, head in (([], cost), (["1"], "route 1 of 1; the whole plan: " + cost)):
            svg = drawing(words + more, told.encode())
            if f">{head}</text>\n" not in svg:
                fail(f"{plan!r}: no {head!r} over the map")
    for text, plan, told in NOT_PARTIAL:
        instance.write_text(text, encoding="ascii")
        solution.write_text(plan, encoding="ascii")
        done = run_program("draw", "lilim", instance, solution)
        if (done.returncode, done.stdout, done.stderr.decode("ascii")) != (2, b"", told + "\n"):
            fail(f"{plan!r}: status {done.returncode}, {done.stderr!r}")


def check_alone(number, solution, stops):
    """Draws a single route of the Li-Lim example, and compares its marks and legs with its stops."""
    svg = ElementTree.fromstring(drawing(["lilim", EXAMPLES / "lc101.txt", EXAMPLES / solution, str(number)]))
    route = routes((EXAMPLES / solution).read_text(encoding="ascii"))[number - 1]
    _, wanted = places({stop: stops[stop] for stop in [0] + route})
    if {stop: place for stop, place, _ in titled(svg)} != wanted:
        fail(f"{solution}: other marks of route {number} alone")
    if legs(svg) != [[(wanted[a], wanted[b]) for a, b in zip([0] + route, route + [0])]]:
        fail(f"{solution}: other legs of route {number} alone")


def main():
    require_program()
    read = lambda name: (EXAMPLES / name).read_text(encoding="ascii")
    text = read("lc101.txt")
    picture = check("lilim", "lc101.txt", "lc101.sol", lilim_stops(text), lilim_pairs(text))
    if picture != read("lc101.svg"):
        fail("examples/lc101.svg is another picture")
    for number in range(1, 11):
        check_alone(number, "lc101.sol", lilim_stops(text))
    check("vrp", "public/P-n16-k8.vrp", "public/P-n16-k8.sol", vrp_stops(read("public/P-n16-k8.vrp")), [])
    text = read("one-pair.txt")
    check("lilim", "one-pair.txt", "one-pair-reversed.sol", lilim_stops(text), lilim_pairs(text), ring=2)
    text = read("lc101.txt")
    first = read("lc101.sol").splitlines()[:8]
    served = {number for route in routes("\n".join(first)) for number in route}
    missing = min(pickup for pickup, _ in lilim_pairs(text) if pickup not in served)
    with tempfile.TemporaryDirectory() as folder:
        part = pathlib.Path(folder) / "eight.sol"
        part.write_text("\n".join(first + ["Cost 0", ""]), encoding="ascii")
        check("lilim", "lc101.txt", part, lilim_stops(text), lilim_pairs(text), ring=missing)
        check_broken(pathlib.Path(folder))
        check_partial(pathlib.Path(folder))
    print("picture: marks, legs, pairs and numbers are where the files say")


if __name__ == "__main__":
    main()
