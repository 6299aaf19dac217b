#!/usr/bin/env python3
"""Measures how fast instances are read and audited, and how the time grows with their size.

Makes Li-Lim instances of 100 to 40,000 tasks and `.vrp` instances of 100 to 40,000 customers, each with a
solution that passes, and runs `planner audit` on them. An audit with an empty solution, which is refused, only
reads the instance. Its megabytes per second are printed beside those of `wc -l` on the same file. The start of
each process is measured by a run that has almost nothing to do, and is subtracted. The rates "by itself" come
from many audits in one process (`audits`), which keeps its memory from one audit to the next, so that the
system's pages don't count. They are the rate of reading the instance, and the additional time for the solution.

    bench/audit_speed.py [lilim|vrp] [SIZE..]
"""

import math
import os
import pathlib
import random
import subprocess
import sys
import tempfile
import time

TOP = pathlib.Path(__file__).resolve().parent.parent
PROGRAM = TOP / "crates" / "planner" / "out" / "planner"
# The C library's settings for keeping freed memory.
KEEPS_MEMORY = {"MALLOC_TRIM_THRESHOLD_": "1000000000", "MALLOC_MMAP_THRESHOLD_": "1000000000"}
RUNS = 40
SIZES = {"lilim": [100, 1000, 4000, 40000], "vrp": [100, 1000, 10000, 40000]}
STOPS_PER_ROUTE = 20


def distance(a, b):
    """Returns nint(sqrt(dx*dx + dy*dy)), in integer arithmetic."""
    square = (a[0] - b[0]) ** 2 + (a[1] - b[1]) ** 2
    root = math.isqrt(square)
    return root if square <= root * (root + 1) else root + 1


def spots_of(stops):
    """Returns the depot and this many stops, at random places."""
    rng = random.Random(stops)
    return [(rng.randint(-1000, 1000), rng.randint(-1000, 1000)) for _ in range(stops + 1)]


def routes_of(stops):
    """Returns the stops in numeric order, a fixed number per route."""
    return [list(range(first, min(first + STOPS_PER_ROUTE, stops + 1))) for first in range(1, stops + 1, STOPS_PER_ROUTE)]


def solution_of(routes, spots):
    """Returns the text of a solution, and its cost."""
    legs = [zip([0] + route, route + [0]) for route in routes]
    cost = sum(distance(spots[a], spots[b]) for route in legs for a, b in route)
    lines = [f"Route #{k}: {' '.join(map(str, route))}" for k, route in enumerate(routes, 1)]
    return "\n".join(lines + [f"Cost {cost}"]) + "\n", cost


def make_lilim(tasks):
    """Makes an instance whose stop 2k-1 is the pickup and stop 2k the delivery of a pair."""
    spots, routes = spots_of(tasks), routes_of(tasks)
    lines = [f"{len(routes)} 200 1", f"0 {spots[0][0]} {spots[0][1]} 0 0 10000000 0 0 0"]
    for number in range(1, tasks + 1):
        load = 1 + (number + 1) // 2 * 7919 % 200
        demand, pair = (load, f"0 {number + 1}") if number % 2 else (-load, f"{number - 1} 0")
        lines.append(f"{number} {spots[number][0]} {spots[number][1]} {demand} 0 10000000 90 {pair}")
    solution, cost = solution_of(routes, spots)
    return "\n".join(lines) + "\n", solution, f"pass 0 {len(routes)} {cost}\n"


def make_vrp(customers):
    """Makes an instance of this many customers, in the TSPLIB95 layout."""
    spots, routes = spots_of(customers), routes_of(customers)
    lines = ["NAME : bench", "TYPE : CVRP", f"DIMENSION : {customers + 1}", "EDGE_WEIGHT_TYPE : EUC_2D", "CAPACITY : 10000"]
    lines += ["NODE_COORD_SECTION"] + [f"{node} {x} {y}" for node, (x, y) in enumerate(spots, 1)]
    lines += ["DEMAND_SECTION", "1 0"] + [f"{node} {1 + node * 7919 % 200}" for node in range(2, customers + 2)]
    lines += ["DEPOT_SECTION", "1", "-1", "EOF"]
    solution, cost = solution_of(routes, spots)
    return "\n".join(lines) + "\n", solution, f"pass 0 0 {cost}\n"


def least_seconds(words, status, answer):
    """Returns the shortest time of some runs, each of which must give this answer."""
    least = math.inf
    for _ in range(RUNS):
        begin = time.perf_counter()
        done = subprocess.run(words, stdout=subprocess.PIPE, text=True, check=False)
        least = min(least, time.perf_counter() - begin)
        if done.returncode != status or (answer is not None and done.stdout != answer):
            sys.exit(f"{words}: status {done.returncode}, answer {done.stdout!r}, wanted {answer!r}")
    return least


def rate(size, seconds):
    """Returns megabytes per second, or a note that the time is too short."""
    return f"{size / seconds / 1e6:.0f} MB/s" if seconds > 5e-4 else "too short to say"


def seconds_by_itself(kind, instance, solution):
    """Returns the time of an audit in a process that has already made one."""
    line = f"{instance}\t{solution}\n"
    seconds = []
    for count in (1, RUNS + 1):
        begin = time.perf_counter()
        subprocess.run([PROGRAM, "audits", kind, "-"], input=count * line, text=True, stdout=subprocess.DEVNULL, check=False, env={**os.environ, **KEEPS_MEMORY})
        seconds.append(time.perf_counter() - begin)
    return max(seconds[1] - seconds[0], 1e-9) / RUNS


def measure(kind, make, sizes):
    """Prints a line for each size."""
    start = least_seconds([PROGRAM], 0, "pass 0 1 20\n")
    print(f"{kind}: start of the process {start:.6f} s")
    before = None
    with tempfile.TemporaryDirectory() as name:
        folder = pathlib.Path(name)
        (folder / "empty").write_text("", encoding="ascii")
        start_wc = least_seconds(["wc", "-l", folder / "empty"], 0, None)
        for size in sizes:
            text, solution, answer = make(size)
            (folder / "instance").write_text(text, encoding="ascii")
            (folder / "solution").write_text(solution, encoding="ascii")
            words = [PROGRAM, "audit", kind, folder / "instance"]
            audit = max(least_seconds(words + [folder / "solution"], 0, answer) - start, 1e-9)
            read = max(least_seconds(words + [folder / "empty"], 2, "solution NoCost 1\n") - start, 1e-9)
            wc = max(least_seconds(["wc", "-l", folder / "instance"], 0, None) - start_wc, 1e-9)
            line = f"{size:>6} stops, {len(text) / 1e6:.3f} MB: read in {read:.6f} s, {rate(len(text), read)}"
            read_by_itself = seconds_by_itself(kind, folder / "instance", folder / "empty")
            line += f", by itself {len(text) / read_by_itself / 1e6:.0f} MB/s"
            line += f" (wc -l {wc:.6f} s, {rate(len(text), wc)}), audited in {audit:.6f} s, {audit / size * 1e9:.0f} ns a stop"
            audit_by_itself = seconds_by_itself(kind, folder / "instance", folder / "solution") - read_by_itself
            line += f", the solution by itself {audit_by_itself / size * 1e9:.0f} ns a stop"
            if before is not None and before[1] > 1e-4:
                line += f", {audit / before[1]:.1f} times the time for {size / before[0]:.1f} times the stops"
            print(line)
            before = (size, audit)


def main():
    if not PROGRAM.exists():
        sys.exit(f"{PROGRAM} is not built: run ./planner once")
    makers = {"lilim": make_lilim, "vrp": make_vrp}
    kinds = [word for word in sys.argv[1:] if word in makers] or list(makers)
    sizes = [int(word) for word in sys.argv[1:] if word not in makers]
    for kind in kinds:
        measure(kind, makers[kind], sizes or SIZES[kind])


if __name__ == "__main__":
    main()
