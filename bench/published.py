#!/usr/bin/env python3
"""Compares the plans of `planner solve` with published best-known costs, and with another program.

FOLDER holds instances as they are published: CVRPLIB's `NAME.vrp`, and `NAME.txt` of Solomon, of Gehring and
Homberger, or of Li and Lim. Its file `best.txt` has a line for each: the name, a tab, and the cost of the best
known plan, DISTANCE or VEHICLES DISTANCE. Instances without a line are left out, and lines without an instance
are reported.

    bench/published.py [--steps N,..] [--seeds N] [--jobs N] [--scale S] [--against PROGRAM] FOLDER

Each instance is solved with the seeds 1 to N, for each number of steps, and audited. Prints a row for each
instance: the number of customers or tasks, the best-known cost, the mean and the least gap of the distance over
the seeds in percent, the mean number of vehicles above the best-known one, and the mean processor seconds of a
run. Then the means over all instances, and how many runs end at the best-known cost or below.

If the best-known costs have decimals, `--scale` 10, 100 or 1000 solves the instances with their coordinates and
times multiplied by S, so that distances are rounded to that fraction of their unit.

With `--against` another program solves each `.vrp` instance with the same seeds. It is called as PROGRAM FILE
SECONDS SEED OUT, ends after these seconds, and writes its solution to OUT. Each of its runs gets the processor
seconds that ours took. If it measures them by the clock, it needs a core for each job.
"""

import argparse
import pathlib
import re
import sys
from concurrent.futures import ThreadPoolExecutor
from typing import NamedTuple

# Python leaves no files beside the scripts.
sys.dont_write_bytecode = True
from plan_quality import gap, solved, solved_by  # noqa: E402

COLUMNS = "{:<16} {:>9} {:>12} {:>9} {:>10} {:>9} {:>8}"
COST = re.compile(r"(?:(\d+)[ \t]+)?(\d+(?:\.\d+)?)")


class Instance(NamedTuple):
    name: str
    path: pathlib.Path
    kind: str
    size: int
    vehicles: int | None
    distance: float


class Run(NamedTuple):
    """The gap of the distance in percent, the vehicles above the best-known number, and the processor seconds."""

    gap: float
    vehicles: int
    seconds: float

    def is_best(self):
        return self.vehicles < 0 or (self.vehicles == 0 and self.gap <= 0)


def kind_and_size(path):
    """Returns the KIND of an instance, and the number of its customers or tasks."""
    text = path.read_text(encoding="latin-1")
    if path.suffix == ".vrp":
        return "vrp", int(re.search(r"^DIMENSION *: *(\d+)", text, re.MULTILINE)[1]) - 1
    rows = [line.split() for line in text.splitlines() if line.strip()]
    tasks = sum(len(row) in (7, 9) and row[0].isdigit() for row in rows) - 1
    is_solomon = any(row[0].upper() == "VEHICLE" for row in rows)
    return ("solomon" if is_solomon else "lilim"), tasks


def best_known(folder, scale):
    """Returns the instances of the folder that have a best-known cost, in the scaled unit."""
    found = []
    for line in (folder / "best.txt").read_text(encoding="utf-8").splitlines():
        name, _, text = line.partition("\t")
        path = next((it for it in (folder / f"{name}.vrp", folder / f"{name}.txt") if it.exists()), None)
        cost = COST.fullmatch(text.strip())
        if path is None or cost is None:
            print(f"left out: {line}", file=sys.stderr)
            continue
        kind, size = kind_and_size(path)
        kind = kind if scale == 1 else f"{kind}:{scale}"
        found.append(Instance(name, path, kind, size, cost[1] and int(cost[1]), scale * float(cost[2])))
    return found


def mean(values):
    return sum(values) / len(values) if values else float("nan")


def print_table(title, instances, found):
    """Prints a row for each instance. `found` has for each instance the run of each seed, None if it has no plan."""
    print(f"\n{title}")
    print(COLUMNS.format("instance", "size", "best", "mean gap", "least gap", "vehicles", "seconds"))
    everything, least = [], []
    for it, runs in zip(instances, found):
        whole = [run for run in runs if run]
        everything += whole
        gaps = [run.gap for run in whole]
        least += [min(gaps)] if gaps else []
        best = f"{it.vehicles} {it.distance:g}" if it.vehicles else f"{it.distance:g}"
        vehicles = f"{mean([run.vehicles for run in whole]):+.1f}" if it.vehicles else ""
        values = (f"{mean(gaps):.2f}", f"{min(gaps, default=float('nan')):.2f}", vehicles, f"{mean([run.seconds for run in whole]):.1f}")
        print(COLUMNS.format(it.name, it.size, best, *values), flush=True)
    values = (f"{mean([run.gap for run in everything]):.2f}", f"{mean(least):.2f}", "", f"{mean([run.seconds for run in everything]):.1f}")
    print(COLUMNS.format("mean", "", "", *values))
    count = sum(map(len, found))
    print(f"{sum(run.is_best() for run in everything)} of {count} runs end at the best-known cost or below")
    if len(everything) < count:
        print(f"{count - len(everything)} of {count} runs have no plan that passes; they count nowhere else")


def run_all(pool, seeds, instances, solve):
    """Returns for each instance the run of each seed. `solve` gets an instance and a seed."""
    tasks = [(it, seed) for it in instances for seed in range(1, seeds + 1)]
    runs = []
    for (it, _), (cost, seconds) in zip(tasks, pool.map(lambda task: solve(*task), tasks)):
        if cost is None:
            runs.append(None)
        else:
            runs.append(Run(gap(cost[1], it.distance), cost[0] - it.vehicles if it.vehicles else 0, seconds))
    return [runs[at : at + seeds] for at in range(0, len(runs), seeds)]


def main():
    parser = argparse.ArgumentParser(usage="bench/published.py [--steps N,..] [--seeds N] [--jobs N] [--scale S] [--against PROGRAM] FOLDER")
    parser.add_argument("--steps", default="1000000")
    parser.add_argument("--seeds", type=int, default=5)
    parser.add_argument("--jobs", type=int, default=1)
    parser.add_argument("--scale", type=int, default=1, choices=(1, 10, 100, 1000))
    parser.add_argument("--against")
    parser.add_argument("folder", type=pathlib.Path)
    words = parser.parse_args()
    instances = best_known(words.folder, words.scale)
    with ThreadPoolExecutor(words.jobs) as pool:
        for steps in map(int, words.steps.split(",")):
            ours = run_all(pool, words.seeds, instances, lambda it, seed: solved(it.kind, it.path, steps, seed))
            print_table(f"planner, {steps} steps, {words.seeds} seeds", instances, ours)
            if words.against:
                limits = {(it.name, at + 1): run.seconds for it, runs in zip(instances, ours) for at, run in enumerate(runs) if run}
                theirs = [it for it in instances if it.kind == "vrp"]
                other = run_all(
                    pool, words.seeds, theirs, lambda it, seed: solved_by(words.against, f"{limits.get((it.name, seed), 10):.2f}", "vrp", it.path, seed)
                )
                print_table(f"{pathlib.Path(words.against).name}, in the same seconds", theirs, other)


if __name__ == "__main__":
    main()
