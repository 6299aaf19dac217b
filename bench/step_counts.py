#!/usr/bin/env python3
"""Counts the instructions of a step, which a busy machine doesn't disturb, and checks that another program with
the same steps ends at the same cost.

Both programs are counted by callgrind, once with few steps and once with more; the difference belongs to the
steps. Ours is `planner run` over a store with an instance, with the commands `build`, `deviation` and `search`
or `anneal`, so the instructions of commands and store count too. OTHER is a program with the commands `gen KIND
STOPS SEED`, `search KIND INSTANCE STEPS SEED DEVIATION` and `anneal` with the same arguments, as in
`bench/search_speed.py`. Our program is built by `./planner`; another build can be named, to compare two builds.

    bench/step_counts.py OTHER [--program PATH] [search|anneal|memory] [STOPS..]

`memory` compares the steps of a store's search with those of `planner solve`, which has no store.
"""

import pathlib
import re
import subprocess
import sys
import tempfile

sys.dont_write_bytecode = True
from search_speed import PROGRAM, SEED, output  # noqa: E402

SIZES = [100, 400, 1000]
DEVIATION = 30
FEW, MANY = 2_000, 6_000


def instructions(folder, words, text=b""):
    """Returns how many instructions a program takes, and its output."""
    command = ["valgrind", "--tool=callgrind", f"--callgrind-out-file={folder}/callgrind.out", *map(str, words)]
    got = subprocess.run(command, input=text, check=True, capture_output=True)
    return int(re.search(rb"Collected : (\d+)", got.stderr)[1]), got.stdout.decode()


def ours(program, folder, kind, instance, steps, word):
    """Returns the instructions of a session with this many steps on a new store, and the cost after them."""
    store = folder / "count.store"
    store.unlink(missing_ok=True)
    subprocess.run([program, "load", store, kind, instance, str(SEED)], check=True, capture_output=True)
    lines = f"build\ndeviation {DEVIATION}\n{word} {steps}\nshow\n".encode()
    count, printed = instructions(folder, [program, "run", store], lines)
    return count, re.search(r"^cost (.*)$", printed, re.MULTILINE)[1]


def theirs(other, folder, kind, instance, steps, word):
    """Returns the same for the other program."""
    count, printed = instructions(folder, [other, word, kind, instance, steps, SEED, DEVIATION])
    return count, re.findall(r"cost (\d+ \d+ \d+)", printed)[-1]


def per_step(count):
    """Returns instructions per step, and the cost after the longer run. `count` counts a run with a given
    number of steps.
    """
    (few, _), (many, cost) = count(FEW), count(MANY)
    return (many - few) // (MANY - FEW), cost


def compare(other, program, folder, kind, stops, word):
    """Counts both, prints a line, and returns whether they end at the same cost."""
    instance = folder / f"{kind}-{stops}"
    instance.write_text(output(other, "gen", kind, stops, SEED))
    mine, cost = per_step(lambda steps: ours(program, folder, kind, instance, steps, word))
    its, other_cost = per_step(lambda steps: theirs(other, folder, kind, instance, steps, word))
    verdict = "the same cost" if cost == other_cost else f"costs {cost} and {other_cost}"
    print(f"{word} {kind} {stops}: {mine}, OTHER {its}, ratio {its / mine:.2f}, {verdict}", flush=True)
    return cost == other_cost


def solved(program, folder, kind, instance, steps):
    """Returns the same for our program without a store."""
    count, _ = instructions(folder, [program, "solve", kind, instance, steps, SEED, DEVIATION])
    return count, None


def beside_memory(other, program, folder, kind, stops):
    """Counts a search over a store and one in memory, and prints a line."""
    instance = folder / f"{kind}-{stops}"
    instance.write_text(output(other, "gen", kind, stops, SEED))
    stored, _ = per_step(lambda steps: ours(program, folder, kind, instance, steps, "search"))
    free, _ = per_step(lambda steps: solved(program, folder, kind, instance, steps))
    print(f"store {kind} {stops}: {stored}, in memory {free}, ratio {free / stored:.2f}", flush=True)
    return True


def main():
    """Counts each kind at each size, and fails if a final cost differs."""
    words = sys.argv[1:]
    if not words:
        sys.exit(__doc__)
    other, words = pathlib.Path(words[0]).resolve(), words[1:]
    program = PROGRAM
    if words[:1] == ["--program"]:
        program, words = pathlib.Path(words[1]).resolve(), words[2:]
    steps = [word for word in words if not word.isdigit()] or ["search", "anneal"]
    sizes = [int(word) for word in words if word.isdigit()] or SIZES
    with tempfile.TemporaryDirectory() as name:
        folder = pathlib.Path(name)
        same = [
            beside_memory(other, program, folder, kind, stops) if word == "memory" else compare(other, program, folder, kind, stops, word)
            for word in steps
            for kind in ("lilim", "vrp")
            for stops in sizes
        ]
    sys.exit(not all(same))


if __name__ == "__main__":
    main()
