#!/usr/bin/env python3
"""Audits random routes by a checker that was written only from docs/RULES.md, and compares the verdicts with
those of `audits KIND LIST routes`.

After the routes there is no cost line, one with an arbitrary word, or one with more lines after it. A solution
that passes must also pass `audits` with its distance as its cost.

    tests/routes.py [SEED [PLANS]]
"""

import math
import pathlib
import random
import sys
import tempfile

# Python leaves no files beside the scripts.
sys.dont_write_bytecode = True
from planner import fail, outcome, require_program  # noqa: E402

SEED, PLANS = 59, 500
ENDS = ["", "Cost 1\n", "Cost 8.5\n", "cost: any\nRoute #9: 1\n", "\n\n"]
LATEST = 10**8
# The kinds, and those with time windows.
KINDS = ("lilim", "solomon", "vrp")
TIMED = ("lilim", "solomon")


class Stop:
    def __init__(self, at, demand=0, earliest=0, latest=LATEST, service=0):
        self.at, self.demand, self.earliest, self.latest, self.service = at, demand, earliest, latest, service


class Instance:
    """An instance: `stops` by number, 0 the depot; `partner` of each stop of a pair; `requests` by name, the
    pickup first.
    """

    def __init__(self, kind, capacity, depot):
        self.kind, self.capacity, self.fleet = kind, capacity, 0
        self.stops, self.partner, self.requests = {0: depot}, {}, {}

    def text(self):
        return {"lilim": self.lilim, "solomon": self.solomon, "vrp": self.vrp}[self.kind]()

    def lilim(self):
        lines = [f"{self.fleet} {self.capacity} 1"]
        for number, it in sorted(self.stops.items()):
            other = self.partner.get(number, 0)
            pickup, delivery = (0, other) if number in self.requests else (other, 0)
            lines.append(f"{number} {it.at[0]} {it.at[1]} {it.demand} {it.earliest} {it.latest} {it.service} {pickup} {delivery}")
        return "\n".join(lines) + "\n"

    def solomon(self):
        lines = ["random", "VEHICLE", "NUMBER CAPACITY", f"{self.fleet} {self.capacity}", "CUSTOMER", "CUST NO. XCOORD."]
        for number, it in sorted(self.stops.items()):
            lines.append(f"{number} {it.at[0]} {it.at[1]} {it.demand} {it.earliest} {it.latest} {it.service}")
        return "\n".join(lines) + "\n"

    def vrp(self):
        nodes = sorted(self.stops.items())
        lines = [f"DIMENSION : {len(nodes)}", "EDGE_WEIGHT_TYPE : EUC_2D", f"CAPACITY : {self.capacity}", "NODE_COORD_SECTION"]
        lines += [f"{number + 1} {it.at[0]} {it.at[1]}" for number, it in nodes]
        lines += ["DEMAND_SECTION", *(f"{number + 1} {it.demand}" for number, it in nodes), "DEPOT_SECTION", "1 -1", "EOF"]
        return "\n".join(lines) + "\n"


def distance(one, other):
    square = (one.at[0] - other.at[0]) ** 2 + (one.at[1] - other.at[1]) ** 2
    root = math.isqrt(square)
    return root if square <= root * (root + 1) else root + 1


def starts(instance, route):
    """Returns the start of service at each place, and the time of the return."""
    times, last, time = [], instance.stops[0], instance.stops[0].earliest
    for number in [*route, 0]:
        it = instance.stops[number]
        time = max(it.earliest, time + last.service + distance(last, it))
        times.append(time)
        last = it
    return times


def broken(instance, routes):
    """Returns each place that breaks a rule, as (rule, route, place, stop), if no earlier rule is broken."""
    places = [(r, p, stop) for r, route in enumerate(routes, 1) for p, stop in enumerate(route, 1)]
    positions = {}
    for r, p, stop in places:
        positions.setdefault(stop, (r, p))
    yield [(1, r, p, stop) for r, p, stop in places if stop == 0 or stop not in instance.stops]
    yield [(2, r, p, stop) for r, p, stop in places if positions[stop] != (r, p)]
    partners = [(r, p, stop, instance.partner[stop]) for r, p, stop in places if stop in instance.partner]
    unserved = [(3, 0, 0, name) for name, stops in instance.requests.items() if not any(stop in positions for stop in stops)]
    yield unserved + [(3, r, p, other) for r, p, _, other in partners if other not in positions]
    yield [(4, r, p, stop) for r, p, stop, other in partners if positions[other][0] != r]
    yield [(5, r, p, stop) for r, p, stop, other in partners if stop not in instance.requests and positions[other][1] > p]
    loads = [(r, p, stop, sum(instance.stops[it].demand for it in routes[r - 1][:p])) for r, p, stop in places]
    yield [(6, r, p, stop) for r, p, stop, load in loads if load > instance.capacity]
    if instance.kind in TIMED:
        times = {r: starts(instance, route) for r, route in enumerate(routes, 1)}
        yield [(7, r, p, stop) for r, p, stop in places if times[r][p - 1] > instance.stops[stop].latest]
        yield [(8, r, len(route) + 1, 0) for r, route in enumerate(routes, 1) if route and times[r][-1] > instance.stops[0].latest]
    used = [r for r, route in enumerate(routes, 1) if route]
    yield [(9, r, 0, 0) for r in used[instance.fleet :]]


def driven(instance, routes):
    depot = instance.stops[0]
    legs = [(a, b) for route in routes if route for a, b in zip([0, *route], [*route, 0])]
    return sum(distance(instance.stops.get(a, depot), instance.stops.get(b, depot)) for a, b in legs)


def verdict(instance, routes):
    for found in broken(instance, routes):
        if found:
            rule, route, place, stop = min(found)
            return f"broken {rule} route {route} place {place} stop {stop}"
    vehicles = sum(1 for route in routes if route) if instance.kind in TIMED else 0
    return f"pass 0 {vehicles} {driven(instance, routes)}"


def some_instance(draw, kind):
    size = draw.choice([20, 60, 1000])
    capacity = draw.randint(8, 30)
    day = draw.choice([2, 8, 30]) * size if kind in TIMED else LATEST
    point = lambda: (draw.randint(-size, size), draw.randint(-size, size))
    instance = Instance(kind, capacity, Stop(point(), latest=day))
    if kind == "vrp":
        instance.fleet = draw.randint(1, 12)
        for number in range(1, instance.fleet + 1):
            instance.stops[number] = Stop(point(), draw.randint(0, capacity))
            instance.requests[number] = [number]
        return instance
    if kind == "solomon":
        customers = draw.randint(1, 12)
        instance.fleet = draw.randint(1, customers + 1)
        for number in draw.sample(range(1, 2 * customers + 1), customers):
            earliest = draw.choice([0, draw.randint(0, day // 2)])
            latest = draw.choice([day, draw.randint(earliest, day)])
            instance.stops[number] = Stop(point(), draw.randint(0, capacity), earliest, latest, draw.randint(0, size // 4))
            instance.requests[number] = [number]
        return instance
    pairs = draw.randint(1, 6)
    instance.fleet = draw.randint(1, pairs + 1)
    numbers = draw.sample(range(1, 2 * pairs + 1), 2 * pairs)
    for pickup, delivery in zip(numbers[::2], numbers[1::2]):
        demand = draw.randint(0, capacity)
        for number, other, load in ((pickup, delivery, demand), (delivery, pickup, -demand)):
            earliest = draw.choice([0, draw.randint(0, day // 2)])
            latest = draw.choice([day, draw.randint(earliest, day)])
            instance.stops[number] = Stop(point(), load, earliest, latest, draw.randint(0, size // 4))
            instance.partner[number] = other
        instance.requests[pickup] = [pickup, delivery]
    return instance


def some_routes(draw, instance):
    """Returns routes that serve all requests, with one or two slips, or none."""
    routes = [[]]
    for stops in draw.sample(list(instance.requests.values()), len(instance.requests)):
        route = draw.choice(routes)
        if route and draw.random() < 0.4:
            route = []
            routes.append(route)
        at = 0
        for stop in stops:
            at = draw.randint(at, len(route))
            route.insert(at, stop)
            at += 1
    for _ in range(draw.choice([0, 0, 1, 2])):
        route = draw.choice(routes)
        slip = draw.randrange(5)
        if slip == 0:
            route.insert(draw.randint(0, len(route)), draw.choice([*instance.stops, len(instance.stops) + draw.randrange(3)]))
        elif slip == 1 and route:
            route.pop(draw.randrange(len(route)))
        elif slip == 2 and route:
            draw.choice(routes).append(route.pop())
        elif slip == 3:
            draw.shuffle(route)
        else:
            routes.insert(draw.randint(0, len(routes)), [])
    return routes


def audited(folder, kind, pairs, *more):
    """Returns the verdict of `audits` for each pair of an instance's and a solution's text."""
    lines = []
    for number, texts in enumerate(pairs):
        paths = [folder / f"{number}.{part}" for part in ("instance", "solution")]
        for path, text in zip(paths, texts):
            path.write_text(text)
        lines.append("\t".join(map(str, paths)) + "\n")
    _, answers, _ = outcome("audits", kind, "-", *more, lines="".join(lines))
    return [line.split("\t")[2] for line in answers.splitlines()]


def compare(name, got, wanted):
    if len(got) != len(wanted):
        fail(f"{name}: {len(got)} answers, wanted {len(wanted)}")
    for number, (one, other) in enumerate(zip(got, wanted)):
        if one != other:
            fail(f"{name}, plan {number}: {one}; wanted {other}")


def main():
    seed, plans = (int(word) for word in [*sys.argv[1:], *map(str, (SEED, PLANS)[len(sys.argv) - 1 :])])
    require_program()
    draw = random.Random(seed)
    rules = set()
    for kind in KINDS:
        texts, wanted, passing = [], [], []
        for _ in range(plans):
            instance = some_instance(draw, kind)
            routes = some_routes(draw, instance)
            told = verdict(instance, routes)
            printed = "".join(f"Route #{number}: {' '.join(map(str, route))}\n" for number, route in enumerate(routes, 1))
            texts.append((instance.text(), printed + draw.choice(ENDS)))
            wanted.append(told)
            if told.startswith("broken"):
                rules.add(told.split()[1])
            else:
                passing.append((instance.text(), f"{printed}Cost {driven(instance, routes)}\n", told))
        with tempfile.TemporaryDirectory() as name:
            folder = pathlib.Path(name)
            compare(f"{kind} by seed {seed}", audited(folder, kind, texts, "routes"), wanted)
            true_costs = audited(folder, kind, [pair[:2] for pair in passing])
            compare(f"{kind} by seed {seed}, with its true cost", true_costs, [told for _, _, told in passing])
    print(f"routes: {len(KINDS) * plans} random plans are judged as RULES says; the broken rules were {' '.join(sorted(rules))}")


if __name__ == "__main__":
    main()
