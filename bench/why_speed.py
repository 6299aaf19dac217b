#!/usr/bin/env python3
"""Measures how long the program takes to report why requests are in no route: `timetable` of a plan of pairs,
with a hundred more pairs that are unplanned.

The problem and its plan are made here. A vehicle drives from stop to stop of its route, two pickups and then
their deliveries, and each window lies around the time of arrival: a minute at `tight`, else the whole day. The
unplanned pairs are anywhere, with a window of a few minutes at `tight` and `loose`. At `open`, `full` and
`back` their windows too are the whole day, and no load is too much. At `open` the day ends long after the last
return, so that nearly everything fits; else it ends with the longest route's return, so that nothing fits into
that route. At `full` a few stops at its end may be late too. At `back` all windows end long after the day, so
that each trial is late only by the return, and by more than 1.

The time is processor time, for a table with these pairs minus one without, by the program that `./planner`
builds.

    bench/why_speed.py [STOPS ROUTES]..
"""

import math
import pathlib
import resource
import subprocess
import sys
import tempfile

TOP = pathlib.Path(__file__).resolve().parent.parent
PROGRAM = TOP / "crates" / "planner" / "out" / "planner"
SIZES = [(1_000, 50), (1_000, 10), (1_000, 1)]
PAIRS, SIDE, SERVICE = 100, 1_000, 10
RUNS, LONG = 3, 5
# For each kind: the capacity of a vehicle, the length of the day after the last return, and how long service
# may start after the day.
KINDS = {"tight": (40, 200, 0), "loose": (40, 200, 0), "open": (1_000, 100_000, 0), "full": (1_000, 0, 0), "back": (1_000, 0, 100_000)}


class Sequence:
    """A fixed sequence of random words."""

    def __init__(self):
        self.state = 1

    def below(self, bound):
        self.state = self.state % 2**31 * 1_103_515_245 + 12_345
        return (self.state >> 16) % bound


def distance(a, b):
    return int(math.dist(a, b) + 0.5)


def planned(words, stops, routes):
    """Returns for each stop, in the order of the routes, its place, its time of service, its partner and its
    demand, and then the last return and the cost.
    """
    depot, rows, end, cost = (SIDE // 2, SIDE // 2), [], 0, 0
    for first in range(1, stops, stops // routes):
        here, now = depot, 0
        for place in range(0, stops // routes, 4):
            goods = [words.below(15) + 5, words.below(15) + 5]
            for step in range(4):
                there = tuple(min(SIDE, max(0, at + words.below(201) - 100)) for at in here)
                now, cost = now + distance(here, there), cost + distance(here, there)
                partner = first + place + (step + 2) % 4
                rows.append((there, now, partner, goods[step % 2] if step < 2 else -goods[step % 2]))
                here, now = there, now + SERVICE
        end, cost = max(end, now + distance(here, depot)), cost + distance(here, depot)
    return depot, rows, end, cost


def problem(kind, stops, routes, pairs):
    """Returns the texts of an instance and of its plan."""
    words = Sequence()
    depot, rows, end, cost = planned(words, stops, routes)
    capacity, spare, later = KINDS[kind]
    day = end + spare
    last = day + later
    lines = [f"{routes + pairs} {capacity} 1", f"0 {depot[0]} {depot[1]} 0 0 {day} 0 0 0"]
    for number, (there, now, partner, goods) in enumerate(rows, 1):
        earliest, latest = (max(0, now - 30), min(day, now + 30)) if kind == "tight" else (0, last)
        ends = f"0 {partner}" if goods > 0 else f"{partner} 0"
        lines.append(f"{number} {there[0]} {there[1]} {goods} {earliest} {latest} {SERVICE} {ends}")
    for number in range(stops + 1, stops + 2 * pairs, 2):
        a, b = [(words.below(SIDE), words.below(SIDE)) for _ in range(2)]
        goods, begin = words.below(30) + 5, distance(depot, a)
        first, then = begin + 300, begin + 600 + SERVICE + distance(a, b)
        if kind in ("open", "full", "back"):
            begin, first, then = 0, last, last
        lines.append(f"{number} {a[0]} {a[1]} {goods} {begin} {first} {SERVICE} 0 {number + 1}")
        lines.append(f"{number + 1} {b[0]} {b[1]} {-goods} {begin} {then} {SERVICE} {number} 0")
    long = stops // routes
    plan = [f"Route #{k + 1}: " + " ".join(str(k * long + n) for n in range(1, long + 1)) for k in range(routes)]
    return "\n".join(lines) + "\n", "\n".join(plan) + f"\nCost {cost}\n"


def seconds(folder, texts):
    """Returns the processor time of the table, the lowest of three runs if they are short, and how many lines
    it has.
    """
    paths = [folder / "instance", folder / "plan"]
    for path, text in zip(paths, texts):
        path.write_text(text)
    least = None
    for _ in range(RUNS):
        before = resource.getrusage(resource.RUSAGE_CHILDREN)
        got = subprocess.run([PROGRAM, "timetable", "lilim", *paths], check=False, capture_output=True, text=True)
        after = resource.getrusage(resource.RUSAGE_CHILDREN)
        if got.returncode not in (0, 1):
            sys.exit(f"timetable: status {got.returncode}: {got.stderr}")
        took = after.ru_utime + after.ru_stime - before.ru_utime - before.ru_stime
        least = took if least is None else min(least, took)
        if took > LONG:
            break
    return least, got.stdout.count("\n")


def main(words):
    sizes = list(zip(map(int, words[::2]), map(int, words[1::2]))) or SIZES
    with tempfile.TemporaryDirectory() as name:
        folder = pathlib.Path(name)
        for kind in KINDS:
            for stops, routes in sizes:
                without, few = seconds(folder, problem(kind, stops, routes, 0))
                whole, many = seconds(folder, problem(kind, stops, routes, PAIRS))
                print(f"{kind}, {stops} stops in {routes}: {whole - without:.3f} s for {PAIRS} pairs, {many - few} lines", flush=True)
    return 0


if __name__ == "__main__":
    sys.exit(main(sys.argv[1:]))
