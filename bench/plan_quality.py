#!/usr/bin/env python3
"""Compares the plans of `planner solve` with the best known ones.

FOLDER holds instances, `NAME.vrp` or `NAME.txt` (Li-Lim), and `references.txt` with a line NAME UNPLANNED
VEHICLES DISTANCE for each. Each instance is solved with each seed, audited and compared: the gap of the
distance in percent, and for Li-Lim also the number of vehicles above the reference's. A plan that leaves
requests out or breaks a rule is reported as such.

    bench/plan_quality.py [--jobs N] [--against PROGRAM SECONDS] FOLDER STEPS [SEED..]

N instances are solved in parallel, one without `--jobs`. The seconds are processor time.

With `--against` another program solves each `.vrp` instance with each seed, too. It is called as PROGRAM FILE
SECONDS SEED OUT, ends after these seconds, and writes its solution to OUT. A program that measures the seconds
by the clock needs a core for each job.
"""

import argparse
import os
import pathlib
import subprocess
import sys
import tempfile
from concurrent.futures import ThreadPoolExecutor

TOP = pathlib.Path(__file__).resolve().parent.parent
PROGRAM = TOP / "crates" / "planner" / "out" / "planner"
KINDS = {".vrp": "vrp", ".txt": "lilim"}


def references_of(folder):
    """Returns for each name the unplanned requests, the vehicles and the distance."""
    lines = (folder / "references.txt").read_text(encoding="utf-8").splitlines()
    rows = [line.split() for line in lines if line.strip() and not line.startswith("#")]
    return {name: tuple(map(int, figures)) for name, *figures in rows}


def audited(kind, path, plan):
    """Returns vehicles and distance from the audit of a solution, an open file; or None, after the audit's answer
    on standard error, if the solution does not pass.
    """
    plan.seek(0)
    audit = subprocess.run([PROGRAM, "audit", kind, path, "-"], stdin=plan, capture_output=True, text=True, check=False)
    if audit.returncode:
        print(f"{path}: {audit.stdout.strip()}", file=sys.stderr)
        return None
    _, _, vehicles, distance = audit.stdout.split()
    return int(vehicles), int(distance)


def run(words, output):
    """Runs a program and returns its status and its processor seconds."""
    process = subprocess.Popen(words, stdout=output, stderr=subprocess.DEVNULL)
    _, status, usage = os.wait4(process.pid, 0)
    process.returncode = os.waitstatus_to_exitcode(status)
    return process.returncode, usage.ru_utime + usage.ru_stime


def solved(kind, path, steps, seed):
    """Returns vehicles and distance of the printed solution, or None if it leaves requests out or does not pass, and
    the seconds.
    """
    with tempfile.TemporaryFile() as plan:
        status, seconds = run([PROGRAM, "solve", kind, path, str(steps), str(seed)], plan)
        if status == 1:
            return None, seconds
        if status:
            sys.exit(f"{path}: status {status}")
        return audited(kind, path, plan), seconds


def solved_by(other, limit, kind, path, seed):
    """The same for the solution of another program."""
    with tempfile.NamedTemporaryFile() as plan:
        status, seconds = run([other, path, limit, str(seed), plan.name], subprocess.DEVNULL)
        if status:
            sys.exit(f"{other}: {path}: status {status}")
        return audited(kind, path, plan), seconds


def gap(distance, best):
    """Returns the gap in percent."""
    return 100 * (distance - best) / best


def tasks_of(folder, seeds):
    """Returns for each instance and seed: name, path, kind, seed, and the reference's vehicles and distance."""
    for name, (_, vehicles, distance) in sorted(references_of(folder).items()):
        path = next(folder / (name + end) for end in KINDS if (folder / (name + end)).exists())
        for seed in seeds:
            yield name, path, KINDS[path.suffix], seed, vehicles, distance


def report(label, tasks, found):
    """Prints a line for each task, and the means."""
    gaps, above = [], []
    for (name, _, kind, seed, best_vehicles, best), (cost, seconds) in zip(tasks, found):
        if cost is None:
            print(f"{label}: {name} seed {seed}: no solution that passes, {seconds:.1f} s", flush=True)
            continue
        vehicles, distance = cost
        more = "" if kind == "vrp" else f", {vehicles - best_vehicles:+d} vehicles"
        if kind == "vrp":
            gaps.append(gap(distance, best))
        else:
            above.append(vehicles - best_vehicles)
        print(f"{label}: {name} seed {seed}: {distance}, gap {gap(distance, best):+.2f} %{more}, {seconds:.1f} s", flush=True)
    if gaps:
        least = sum(it <= 0 for it in gaps)
        print(f"{label}: vrp: mean gap {sum(gaps) / len(gaps):+.2f} % of {len(gaps)} runs, {least} of them at the reference or below")
    if above:
        print(f"{label}: lilim: mean {sum(above) / len(above):+.2f} vehicles of {len(above)} runs")


def main():
    parser = argparse.ArgumentParser(usage="bench/plan_quality.py [--jobs N] [--against PROGRAM SECONDS] FOLDER STEPS [SEED..]")
    parser.add_argument("--jobs", type=int, default=1)
    parser.add_argument("--against", nargs=2)
    parser.add_argument("folder", type=pathlib.Path)
    parser.add_argument("steps", type=int)
    parser.add_argument("seeds", type=int, nargs="*", default=[1])
    words = parser.parse_args()
    tasks = list(tasks_of(words.folder, words.seeds))
    with ThreadPoolExecutor(words.jobs) as pool:
        report(f"{words.steps} steps", tasks, pool.map(lambda task: solved(task[2], task[1], words.steps, task[3]), tasks))
        if words.against:
            other, limit = words.against
            tasks = [task for task in tasks if task[2] == "vrp"]
            found = pool.map(lambda task: solved_by(other, limit, task[2], task[1], task[3]), tasks)
            report(f"{pathlib.Path(other).name} {limit} s", tasks, found)


if __name__ == "__main__":
    main()
