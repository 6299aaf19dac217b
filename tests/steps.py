#!/usr/bin/env python3
"""Makes plans with a program that was written only from docs/SEARCH.md and docs/RULES.md, and compares them
with those of the built program.

Small random instances of both kinds, some with too few vehicles, each run through one store: `build`, a pin,
and then searches, annealings, `reduce` and `anneal FROM TO`. After each command the routes of all vehicles, the
requests left out and the costs of both plans are compared.

    tests/steps.py [SEED [INSTANCES]]
"""

import pathlib
import random
import sys
import tempfile

# Python leaves no files beside the scripts.
sys.dont_write_bytecode = True
from planner import fail, require_program, run_program  # noqa: E402
from routes import LATEST, Instance, Stop, distance  # noqa: E402

SEED, INSTANCES = 61, 3
WORD = 2**32
MOST_DEVIATION = 10**9
SHARES = [150, 122, 99, 81, 66, 54, 44, 35, 29, 24, 19, 16, 13, 10, 8, 7, 6, 5, 4, 3]


# Random words


def block(seed, step):
    """Returns the sixteen words of a step: RFC 8439, with rounds on columns and diagonals in turn."""
    key = seed.to_bytes(32, "little")
    begin = [int.from_bytes(part, "little") for part in (b"expa", b"nd 3", b"2-by", b"te k")]
    begin += [int.from_bytes(key[at : at + 4], "little") for at in range(0, 32, 4)] + [step % WORD, step // WORD, 0, 0]
    words = begin[:]

    def turned(a, b, c, by):
        words[a] = (words[a] + words[b]) % WORD
        word = words[c] ^ words[a]
        words[c] = (word << by | word >> (32 - by)) % WORD

    for _ in range(10):
        for shift in (0, 1):
            for at in range(4):
                a, b, c, d = at, 4 + (at + shift) % 4, 8 + (at + 2 * shift) % 4, 12 + (at + 3 * shift) % 4
                for ends in ((a, b, d, 16), (c, d, b, 12), (a, b, d, 8), (c, d, b, 7)):
                    turned(*ends)
    return [(one + other) % WORD for one, other in zip(begin, words)]


def pick(word, count):
    return word * count // WORD


def draw_from(word, count):
    """Returns the drawn number, and the rest of the word."""
    return divmod(word * count, WORD)


# Plans: a route for each vehicle


class Job:
    """An instance with some of its vehicles and their pins; `ways` caches the distances between stops."""

    def __init__(self, instance, pins, ways=None):
        self.instance, self.pins, self.ways = instance, pins, {} if ways is None else ways
        self.fleet, self.timed = len(pins), instance.kind == "lilim"
        self.name = {stop: name for name, stops in instance.requests.items() for stop in stops}

    def way(self, one, other):
        if (one, other) not in self.ways:
            self.ways[one, other] = distance(self.instance.stops[one], self.instance.stops[other])
        return self.ways[one, other]

    def length(self, route):
        return sum(self.way(one, other) for one, other in zip([0, *route], [*route, 0])) if route else 0

    def is_feasible(self, route):
        """Returns whether the route is feasible as the only one, by rules 3 to 8."""
        places = {stop: place for place, stop in enumerate(route)}
        load, time, last = 0, self.instance.stops[0].earliest, 0
        for stop in [*route, 0] if route else []:
            it = self.instance.stops[stop]
            load += it.demand
            time = max(it.earliest, time + self.instance.stops[last].service + self.way(last, stop))
            if load > self.instance.capacity or self.timed and time > it.latest:
                return False
            last = stop
        ends = [self.instance.requests[self.name[stop]] for stop in route]
        return all(stops[0] in places and stops[-1] in places and places[stops[0]] <= places[stops[-1]] for stops in ends)

    def passes(self, plan):
        return all(route[: len(pin)] == pin and self.is_feasible(route) for route, pin in zip(plan, self.pins))

    def names(self, plan, is_planned):
        here = {stop for route in plan for stop in route}
        return [name for name, stops in sorted(self.instance.requests.items()) if (stops[0] in here) == is_planned]

    def left_out(self, plan):
        return self.names(plan, False)

    def movable(self, plan):
        pinned = {stop for pin in self.pins for stop in pin}
        return [name for name in self.names(plan, True) if pinned.isdisjoint(self.instance.requests[name])]

    def cost(self, plan):
        vehicles = sum(1 for route in plan if route) if self.timed else 0
        return len(self.left_out(plan)), vehicles, sum(map(self.length, plan))

    def removed(self, plan, names):
        gone = {stop for name in names for stop in self.instance.requests[name]}
        left = [[stop for stop in route if stop not in gone] for route in plan]
        return left if self.passes(left) else None

    def insertions(self, plan, name):
        """Returns each route with the request inserted, with (opened, added, v, i, j). The smallest of these is
        the best.
        """
        stops = self.instance.requests[name]
        for vehicle, (route, pin) in enumerate(zip(plan, self.pins), 1):
            length = self.length(route)
            for i in range(len(pin) + 1, len(route) + 2):
                first = route[: i - 1] + [stops[0]] + route[i - 1 :]
                for j in range(i + 1, len(first) + 2) if len(stops) == 2 else [i]:
                    new = first[: j - 1] + [stops[1]] + first[j - 1 :] if len(stops) == 2 else first
                    yield (self.timed and not route, self.length(new) - length, vehicle, i, j), new

    def placed(self, plan, name):
        for (_, _, vehicle, _, _), new in sorted(self.insertions(plan, name)):
            if self.is_feasible(new):
                return plan[: vehicle - 1] + [new] + plan[vehicle:]
        return plan

    def all_placed(self, plan, names):
        for name in names:
            plan = self.placed(plan, name)
        return plan


# A search step


def relocated(job, plan, words):
    names = job.movable(plan)
    name = names[pick(words[1], len(names))]
    left = job.removed(plan, [name])
    return left and job.placed(left, name)


def exchanged(job, plan, words):
    names = job.movable(plan)
    one, other = (job.instance.requests[names[pick(word, len(names))]] for word in words[1:3])
    if one == other or len(one) != len(other):
        return None
    swap = dict(zip(one + other, other + one))
    new = [[swap.get(stop, stop) for stop in route] for route in plan]
    return new if job.passes(new) else None


def crossed(job, plan, words):
    used = [at for at, route in enumerate(plan) if route]
    a, b = (used[pick(word, len(used))] for word in words[1:3])
    if a == b:
        return None
    cut = {at: len(job.pins[at]) + pick(word, len(plan[at]) - len(job.pins[at]) + 1) for at, word in ((a, words[3]), (b, words[4]))}
    ends = {a: plan[a][: cut[a]] + plan[b][cut[b] :], b: plan[b][: cut[b]] + plan[a][cut[a] :]}
    new = [ends.get(at, route) for at, route in enumerate(plan)]
    return new if job.passes(new) else None


def recreated(job, plan, words):
    names, drawn = job.movable(plan), []
    for word in words[2 : 3 + pick(words[1], 8)]:
        if names:
            drawn.append(names.pop(pick(word, len(names))))
    left = job.removed(plan, drawn)
    return left and job.all_placed(left, drawn + job.left_out(plan))


def search_candidate(job, plan, words):
    operator = pick(words[0], 4)
    if not (any(plan) if operator == 2 else job.movable(plan)):
        return None
    return (relocated, exchanged, crossed, recreated)[operator](job, plan, words)


# An annealing step


def string_of(route, stop, longest, word):
    """Returns the string of stops that is removed from a route around one of its stops."""
    count = min(len(route), longest)
    number, rest = draw_from(word, count)
    taken, keeps = number + 1, 0
    if 2 <= taken < len(route):
        keeps, rest = draw_from(rest, 2)
    size, at = taken + keeps, route.index(stop)
    begins = [begin for begin in range(len(route) - size + 1) if begin <= at < begin + size]
    number, rest = draw_from(rest, len(begins))
    string = route[begins[number] : begins[number] + size]
    if keeps:
        string.pop(1 + pick(rest, taken - 1))
    return string


def torn_out(job, plan, words):
    """Returns the names of the requests that strings take out."""
    names = job.movable(plan)
    if not names:
        return []
    number, rest = draw_from(words[0], len(names))
    center = job.instance.requests[names[number]][0 if rest < 2**31 else -1]
    used = [route for route in plan if route]
    longest = min(10, sum(map(len, used)) // len(used))
    nearest = sorted((min((job.way(center, stop), stop) for stop in route), route) for route in used)
    cut = nearest[: min(12, 1 + pick(words[1], 39 - longest) // (1 + longest))]
    stops = [stop for t, ((_, near), route) in enumerate(cut) for stop in string_of(route, near, longest, words[4 + t])]
    return sorted({job.name[stop] for stop in stops} & set(names))


def in_order(job, names, word):
    order, rest = draw_from(word, 16)

    def key(name):
        stops = [job.instance.stops[stop] for stop in job.instance.requests[name]]
        far = sum(job.way(0, stop) for stop in job.instance.requests[name])
        wide = sum(stop.latest - stop.earliest for stop in stops)
        kinds = [0] * 4 + [-stops[0].demand] * 4 + [-far] * 2 + [far] + [wide] * 2 + [stops[0].earliest] * 2 + [-stops[-1].latest]
        return kinds[order], name * (rest | 1) % WORD, name

    return sorted(names, key=key)


def anneal_candidate(job, plan, words):
    names = torn_out(job, plan, words)
    left = job.removed(plan, names) if names else None
    return left and job.all_placed(left, in_order(job, job.left_out(left), words[2]))


# The plan that a candidate replaces


def is_near(deviation, cost, other):
    return cost[:2] < other[:2] or (cost[:2] == other[:2] and cost[2] <= other[2] + deviation)


def walked(job, plans, deviation, seed, steps, anneals):
    """Returns both plans after steps of a search, or of annealing."""
    best, work = plans
    for step in steps:
        new = (anneal_candidate if anneals else search_candidate)(job, work, block(seed, step))
        if new and is_near(deviation, job.cost(new), job.cost(work if anneals else best)):
            work = new
            if job.cost(new) <= job.cost(best):
                best = new
    return best, work


# The search for fewer vehicles


def share(job, plan, hundredths):
    return min(sum(map(job.length, plan)) * hundredths // (100 * (len(job.instance.stops) - 1)), MOST_DEVIATION)


def tried(job, plan, deviation, seed, steps):
    """Returns the best plan of an attempt, and the step after its last."""
    best = work = plan
    absences = dict.fromkeys(job.instance.requests, 0)
    weight = lambda out: sum(absences[name] for name in out)
    for step in steps:
        if not job.left_out(best):
            return best, step
        new = anneal_candidate(job, work, block(seed, step))
        if new:
            out, before = job.left_out(new), job.left_out(work)
            as_far = job.cost(new)[2] <= job.cost(work)[2] + deviation
            if len(out) < len(before) or weight(out) < weight(before) or (len(out), weight(out)) == (len(before), weight(before)) and as_far:
                work = new
                if job.cost(new) <= job.cost(best):
                    best = new
            for name in out:
                absences[name] += 1
    return best, steps.stop


def crew(job, plan, fewer):
    """Returns the vehicles of the next attempt, if there is one."""
    if job.left_out(plan):
        return list(range(job.fleet))
    used = [at for at, route in enumerate(plan) if route]
    pinned = [at for at in used if job.pins[at]]
    count = len(used) - fewer
    if count < 1 or len(pinned) > count:
        return None
    others = sorted((at for at in used if not job.pins[at]), key=lambda at: -len(plan[at]))
    return sorted(pinned + others[: count - len(pinned)])


def reduced(job, plan, deviation, seed, steps):
    step, fewer = steps.start, max(1, sum(1 for route in plan if route) // 16)
    while job.timed and step < steps.stop and fewer:
        these = crew(job, plan, fewer)
        if these is None:
            fewer //= 2
            continue
        whole = not job.left_out(plan)
        end = min(steps.stop, step + len(steps) // 8) if whole and fewer > 1 else steps.stop
        part = Job(job.instance, [job.pins[at] for at in these], job.ways)
        found, step = tried(part, [plan[at] for at in these], share(job, plan, 1000), seed, range(step, end))
        new = [found[these.index(at)] if at in these else [] for at in range(job.fleet)]
        if whole and job.left_out(new):
            fewer //= 2
        if job.cost(new) <= job.cost(plan):
            plan = new
    return walked(job, (plan, plan), deviation, seed, range(step, steps.stop), True)


def staged(job, plans, deviation, seed, steps):
    """Runs the command `anneal FROM TO`, and returns both plans and the deviation at its end."""
    first = steps.start
    if job.timed:
        middle = first + len(steps) // 2
        front = first + (middle - first) // 20
        if first < front:
            deviation = share(job, plans[0], 100)
            plans = walked(job, (plans[0], plans[0]), deviation, seed, range(first, front), True)
        if front < middle:
            plans = reduced(job, plans[0], deviation, seed, range(front, middle))
        first = middle
    for stage, hundredths in enumerate(SHARES):
        begin, end = (first + (steps.stop - first) * at // 20 for at in (stage, stage + 1))
        if begin < end:
            deviation = share(job, plans[0], hundredths)
            plans = walked(job, (plans[0], plans[0]), deviation, seed, range(begin, end), True)
    return plans, deviation


# The comparison with the built program


def some_instance(draw, kind):
    """Returns an instance with requests for about 3 to 5 vehicles, and sometimes for more than there are."""
    capacity, day = 40, 700 if kind == "lilim" else LATEST
    point = lambda: (draw.randint(0, 100), draw.randint(0, 100))
    instance = Instance(kind, capacity, Stop((50, 50), latest=day))
    count = draw.randint(14, 18) if kind == "lilim" else draw.randint(22, 30)
    instance.fleet = draw.choice([count, 2, 2]) if kind == "lilim" else count
    numbers = draw.sample(range(1, 2 * count + 1), 2 * count) if kind == "lilim" else range(1, count + 1)
    if kind == "vrp":
        for number in numbers:
            instance.stops[number] = Stop(point(), draw.randint(1, 12))
            instance.requests[number] = [number]
        return instance
    for pickup, delivery in zip(numbers[::2], numbers[1::2]):
        demand, earliest = draw.randint(1, 20), draw.randint(0, 250)
        instance.stops[pickup] = Stop(point(), demand, earliest, earliest + draw.randint(60, 200), 5)
        instance.stops[delivery] = Stop(point(), -demand, earliest, earliest + draw.randint(200, 400), 5)
        instance.partner[pickup], instance.partner[delivery] = delivery, pickup
        instance.requests[pickup] = [pickup, delivery]
    return instance


def shown(job, plans, deviation, steps):
    """Returns the lines of `show` about plans."""
    lines = [f"steps {steps} place {16 * steps}"]
    lines += [f"pin {at}: {' '.join(map(str, pin))}" for at, pin in enumerate(job.pins, 1) if pin]
    lines += [f"vehicle {at}: {' '.join(map(str, route))}" for at, route in enumerate(plans[0], 1) if route]
    lines += [f"unplanned {name}" for name in job.left_out(plans[0])]
    costs = [" ".join(map(str, job.cost(plan))) for plan in plans]
    lines.append(f"cost {costs[0]}")
    return lines + ([f"deviation {deviation}", f"work {costs[1]}"] if deviation else [])


def told(folder, lines):
    """Returns the answers of `run` to these commands on a new store."""
    store = folder / "store"
    store.unlink(missing_ok=True)
    run_program("format", store, check=True)
    return run_program("run", store, lines="".join(lines), check=True).stdout.decode().splitlines()


def some_pin(draw, job, plan):
    """Returns a vehicle, and how many of its first stops are feasible alone."""
    vehicle = draw.choice([at for at, route in enumerate(plan) if route])
    return vehicle, draw.choice([k for k in range(len(plan[vehicle]) + 1) if job.is_feasible(plan[vehicle][:k])])


def compare(draw, folder, kind):
    """Makes steps on an instance, and fails if the built program shows other plans."""
    instance, seed = some_instance(draw, kind), draw.randrange(2**64)
    job = Job(instance, [[] for _ in range(instance.fleet)])
    text = instance.text()
    lines, wanted = [f"load {kind} {seed} {len(text)}\n{text}", "build\n", "show\n"], []
    plan = job.all_placed(job.pins, sorted(instance.requests))
    plans, deviation, steps = (plan, plan), 0, 0
    wanted += shown(job, plans, deviation, steps)
    vehicle, stops = some_pin(draw, job, plan)
    job.pins = [plan[at][:stops] if at == vehicle else pin for at, pin in enumerate(job.pins)]
    lines.append(f"pin {vehicle + 1} {stops}\n")
    for word in draw.sample(["search", "anneal", "reduce", "stages"], 4):
        count = draw.randint(30, 60)
        if word in ("search", "anneal"):
            deviation = draw.choice([0, draw.randint(1, 40)])
            lines.append(f"deviation {deviation}\n{word} {count}\n")
            plans = walked(job, (plans[0], plans[0]), deviation, seed, range(steps, steps + count), word == "anneal")
        elif word == "reduce":
            lines.append(f"reduce {count}\n")
            plans = reduced(job, plans[0], deviation, seed, range(steps, steps + count))
        else:
            lines.append(f"anneal {steps} {steps + count}\n")
            plans, deviation = staged(job, plans, deviation, seed, range(steps, steps + count))
        steps += count
        lines.append("show\n")
        wanted += shown(job, plans, deviation, steps)
    heads = ("steps", "pin", "vehicle", "unplanned", "cost", "deviation", "work")
    got = [line for line in told(folder, lines) if line.split()[0] in heads]
    if got != wanted:
        at = next((at for at, (one, other) in enumerate(zip(got, wanted)) if one != other), min(len(got), len(wanted)))
        with tempfile.NamedTemporaryFile("w", prefix="steps-", delete=False) as file:
            file.writelines(lines)
        fail(f"{kind}, seed {seed}: {got[at : at + 1]}, wanted {wanted[at : at + 1]}; the commands are in {file.name}")
    return steps


def main():
    seed, instances = (int(word) for word in [*sys.argv[1:], *map(str, (SEED, INSTANCES)[len(sys.argv) - 1 :])])
    require_program()
    draw = random.Random(seed)
    with tempfile.TemporaryDirectory() as room:
        steps = [compare(draw, pathlib.Path(room), kind) for _ in range(instances) for kind in ("lilim", "vrp")]
    print(f"steps: {len(steps)} instances, {sum(steps)} steps, and all plans are those of docs/SEARCH.md")


if __name__ == "__main__":
    main()
