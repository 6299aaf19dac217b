#!/usr/bin/env python3
"""Measures the speed of the search, and checks that another program with the same steps finds the same.

OTHER is a program with two commands. `gen KIND STOPS SEED` writes an instance of KIND, lilim or vrp, to
standard output. `search KIND INSTANCE STEPS SEED DEVIATION` builds a plan by best insertion, makes STEPS steps,
and ends with a line such as `steps 1000 seconds 0.01 rate 100000 cost 0 6 1217`. Its final cost must equal ours
exactly. Ours is what `solve` prints about a search, in the program that `./planner` builds: the time between
its line for no steps and its line for all steps. The two programs run in turn, RUNS times. Times are medians.
The ratio is the median over pairs of consecutive runs, since the clock of a machine may change from second to
second.

    bench/search_speed.py OTHER [STOPS..]
"""

import pathlib
import re
import statistics
import subprocess
import sys
import tempfile
import time

TOP = pathlib.Path(__file__).resolve().parent.parent
PROGRAM = TOP / "crates" / "planner" / "out" / "planner"
RUNS = 11
SIZES = [100, 400, 1000, 4000]
SEED = 5
DEVIATIONS = [0, 50]


def output(*words):
    """Returns the output of a program."""
    return subprocess.run([str(word) for word in words], check=True, capture_output=True, text=True).stdout


def ours(kind, path, steps, deviation, seed=SEED):
    """Returns nanoseconds per step, and the final cost."""
    words = [str(word) for word in (PROGRAM, "solve", kind, path, steps, seed, deviation)]
    told = []
    with subprocess.Popen(words, stdout=subprocess.DEVNULL, stderr=subprocess.PIPE, text=True) as process:
        for line in process.stderr:
            if line.startswith("at "):
                told.append((time.perf_counter_ns(), line.split(maxsplit=2)))
    (begin, (_, first, _)), (end, (_, last, cost)) = told[0], told[-1]
    if (int(first), int(last)) != (0, steps):
        sys.exit(f"{words}: told from step {first} to {last}")
    return (end - begin) // steps, cost.strip()


def theirs(other, kind, path, steps, deviation):
    """Returns the same for the other program."""
    line = output(other, "search", kind, path, steps, SEED, deviation).splitlines()[-1]
    rate, cost = re.search(r"rate (\d+) cost (.*)", line).groups()
    return 10**9 // max(1, int(rate)), cost


def compare(other, folder, kind, stops):
    """Runs both, prints a line for each deviation, and returns how many final costs differ."""
    path = pathlib.Path(folder) / f"{kind}-{stops}"
    path.write_text(output(other, "gen", kind, stops, SEED))
    # Enough steps that the beginning and end of the search take little of the time.
    steps = max(4_000, 2_000_000 // stops)
    differing = 0
    for deviation in DEVIATIONS:
        runs = [(ours(kind, path, steps, deviation), theirs(other, kind, path, steps, deviation)) for _ in range(RUNS)]
        mine = round(statistics.median(run[0][0] for run in runs))
        its = round(statistics.median(run[1][0] for run in runs))
        ratio = statistics.median(run[1][0] / run[0][0] for run in runs)
        costs = {cost for run in runs for _, cost in run}
        differing += len(costs) != 1
        verdict = "the same cost" if len(costs) == 1 else f"costs {sorted(costs)}"
        print(f"{kind} {stops} stops, deviation {deviation}: {mine} ns a step, the other {its} ns, ratio {ratio:.3f}, {verdict}")
    return differing


def main():
    """Compares at each size, and fails if a final cost differs."""
    if len(sys.argv) < 2:
        sys.exit(__doc__)
    other, sizes = pathlib.Path(sys.argv[1]).resolve(), [int(word) for word in sys.argv[2:]] or SIZES
    with tempfile.TemporaryDirectory() as folder:
        differing = sum(compare(other, folder, kind, stops) for kind in ("lilim", "vrp") for stops in sizes)
    sys.exit(1 if differing else 0)


if __name__ == "__main__":
    main()
