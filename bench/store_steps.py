#!/usr/bin/env python3
"""Measures nanoseconds per step through a store in memory, compared with another program of the same steps,
which has no store.

Ours is `planner run` over a new store in /dev/shm: `build`, `deviation 30`, and `search N` or `anneal N`. The
time of a run with few steps is subtracted from that of a run with more, so loading, building and the beginning
of a search cancel out. OTHER is as in `bench/search_speed.py`, with the command `anneal` too, and its times are
measured in the same way. Both run in turn on one core. Times are medians, and the ratio is that of the medians.
A program other than the one that `./planner` builds can be named.

    bench/store_steps.py OTHER [--program PATH] [search|anneal] [STOPS..]
"""

import os
import pathlib
import re
import statistics
import subprocess
import sys
import tempfile
import time

sys.dont_write_bytecode = True
from search_speed import PROGRAM, SEED, output  # noqa: E402

SIZES = [100, 400, 1000, 4000]
DEVIATION = 30
RUNS = 7


def steps_of(word, stops):
    """Returns how many steps the shorter and the longer run make."""
    few, many = 1_000, max(6_000, 3_000_000 // stops)
    return (few, many) if word == "search" else (few // 4, many // 3)


def timed(words, text=b""):
    """Returns the nanoseconds of a program, and its output."""
    began = time.perf_counter_ns()
    got = subprocess.run([str(word) for word in words], input=text, check=True, capture_output=True)
    return time.perf_counter_ns() - began, got.stdout.decode()


def ours(program, folder, kind, instance, steps, word):
    """Returns the time of a session with this many steps on a new store, and the cost after them."""
    store = folder / "steps.store"
    store.unlink(missing_ok=True)
    subprocess.run([program, "load", store, kind, instance, str(SEED)], check=True, capture_output=True)
    took, printed = timed([program, "run", store], f"build\ndeviation {DEVIATION}\n{word} {steps}\nshow\n".encode())
    return took, re.search(r"^cost (.*)$", printed, re.MULTILINE)[1]


def theirs(other, kind, instance, steps, word):
    """Returns the same for the other program."""
    took, printed = timed([other, word, kind, instance, steps, SEED, DEVIATION])
    return took, re.findall(r"cost (\d+ \d+ \d+)", printed)[-1]


def compare(other, program, folder, kind, stops, word):
    """Times both, prints a line, and returns whether they end at the same cost."""
    instance = folder / f"{kind}-{stops}"
    instance.write_text(output(other, "gen", kind, stops, SEED))
    few, many = steps_of(word, stops)
    mine, its, costs = [], [], set()
    for _ in range(RUNS):
        short, long = (ours(program, folder, kind, instance, steps, word) for steps in (few, many))
        mine.append(long[0] - short[0])
        costs.add(long[1])
        short, long = (theirs(other, kind, instance, steps, word) for steps in (few, many))
        its.append(long[0] - short[0])
        costs.add(long[1])
    mine, its = (statistics.median(times) // (many - few) for times in (mine, its))
    verdict = "the same cost" if len(costs) == 1 else f"costs {costs}"
    print(f"{word} {kind} {stops}: {mine:.0f} ns a step through a store, OTHER {its:.0f}, ratio {its / mine:.2f}, {verdict}", flush=True)
    return len(costs) == 1


def main():
    """Times each kind at each size, and fails if a final cost differs."""
    words = sys.argv[1:]
    if not words:
        sys.exit(__doc__)
    other, words = pathlib.Path(words[0]).resolve(), words[1:]
    program = PROGRAM
    if words[:1] == ["--program"]:
        program, words = pathlib.Path(words[1]).resolve(), words[2:]
    steps = [word for word in words if not word.isdigit()] or ["search", "anneal"]
    sizes = [int(word) for word in words if word.isdigit()] or SIZES
    os.sched_setaffinity(0, {max(os.sched_getaffinity(0))})
    with tempfile.TemporaryDirectory(dir="/dev/shm") as name:
        folder = pathlib.Path(name)
        same = [
            compare(other, program, folder, kind, stops, word)
            for word in steps
            for kind in ("lilim", "vrp")
            for stops in sizes
        ]
    sys.exit(0 if all(same) else 1)


if __name__ == "__main__":
    main()
