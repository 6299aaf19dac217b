#!/usr/bin/env python3
"""Measures how many search steps per second the program makes through a store on this disk, and in memory.

OTHER is a program that writes an instance: `gen KIND STOPS SEED`. Through the store, every 256 steps are an
operation, which is synced before its line is printed. The time for opening, loading and building is subtracted;
it is measured by a session without the search. In memory the same steps are made by `solve`. The program is
built by `./planner`.

    bench/store_search.py OTHER [STEPS]
"""

import pathlib
import subprocess
import sys
import tempfile
import time

sys.dont_write_bytecode = True
from search_speed import PROGRAM, SEED, TOP, ours  # noqa: E402

SIZES = [400, 1000, 4000]
STEPS = 100_000


def session(folder, instance, lines):
    """Returns the seconds of a session on a new store, and its output."""
    store = folder / "bench.store"
    subprocess.run([PROGRAM, "format", store], check=True, capture_output=True)
    text = instance.read_bytes()
    head = f"load lilim {SEED} {len(text)}\n".encode()
    began = time.monotonic()
    got = subprocess.run([PROGRAM, "run", store], input=head + text + lines, check=True, capture_output=True)
    return time.monotonic() - began, got.stdout.decode()


def opened(folder):
    """Returns the seconds for opening the store again, and how many steps are repeated."""
    began = time.monotonic()
    got = subprocess.run([PROGRAM, "run", folder / "bench.store"], input=b"", check=True, capture_output=True)
    return time.monotonic() - began, int(got.stdout.split()[1])


def report(folder, name, instance, steps):
    without, _ = session(folder, instance, b"build\n")
    whole, text = session(folder, instance, b"build\nsearch %d\n" % steps)
    last = text.strip().split("\n")[-2]
    again, repeated = opened(folder)
    nanos, _ = ours("lilim", instance, steps, 0)
    stored = steps / max(whole - without, 1e-9)
    print(
        f"{name}: {stored:,.0f} steps a second through the store, {1e9 / nanos:,.0f} in memory; "
        f"{last}; opening repeats {repeated} steps in {again:.2f} s",
        flush=True,
    )


def main(words):
    if not words:
        print(__doc__, file=sys.stderr)
        return 64
    steps = int(words[1]) if len(words) > 1 else STEPS
    with tempfile.TemporaryDirectory(dir=TOP) as name:
        folder = pathlib.Path(name)
        report(folder, "lc101", TOP / "examples" / "lc101.txt", steps)
        for stops in SIZES:
            instance = folder / f"{stops}.txt"
            instance.write_bytes(subprocess.run([words[0], "gen", "lilim", str(stops), str(SEED)], check=True, capture_output=True).stdout)
            report(folder, f"{stops} stops", instance, max(steps // (stops // 100), 256))
    return 0


if __name__ == "__main__":
    sys.exit(main(sys.argv[1:]))
