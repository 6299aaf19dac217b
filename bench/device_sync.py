#!/usr/bin/env python3
"""Measures the sync of a device over a file: one sector is written and synced 2,000 times.

Compares fsync (`sync_all`) and fdatasync (`sync_data`) on a file of 8,450 sectors, alternating every 100 calls,
so that both meet the same load. Then the program that `./planner` builds answers 2,000 commands over a store.
Each is one record, written and synced, or two writes and two syncs if 256 records are there.

    bench/device_sync.py [FOLDER]
"""

import os
import pathlib
import statistics
import subprocess
import sys
import tempfile
import time

TOP = pathlib.Path(__file__).resolve().parent.parent
PROGRAM = TOP / "crates" / "planner" / "out" / "planner"
INSTANCE = TOP / "examples" / "one-pair.txt"
SECTOR = 512
SECTORS = 8450
SYNCS = 2000
TURN = 100


def turn(file, sync, begin):
    """Returns the seconds for a turn of writes and syncs."""
    start = time.perf_counter()
    for i in range(begin, begin + TURN):
        os.pwrite(file, bytes([i % 256]) * SECTOR, i % SECTORS * SECTOR)
        sync(file)
    return time.perf_counter() - start


def report(name, turns):
    per_second = TURN * len(turns) / sum(turns)
    median = TURN / statistics.median(turns)
    print(f"{name}: {per_second:.0f} syncs a second, {median:.0f} in the median turn of {TURN}")


def measure_calls(folder):
    with tempfile.NamedTemporaryFile(dir=folder, suffix=".disk") as temporary:
        file = temporary.fileno()
        os.pwrite(file, bytes(SECTOR * SECTORS), 0)
        os.fsync(file)
        times = {os.fsync: [], os.fdatasync: []}
        for begin in range(0, SYNCS, TURN):
            for sync, turns in times.items():
                turns.append(turn(file, sync, begin))
        for sync, turns in times.items():
            report(sync.__name__, turns)


def answered(store, lines):
    """Returns the seconds in which the program opens the store and answers `ok` to this many commands."""
    text = b"".join(b"deviation %d\n" % (i % 2) for i in range(lines))
    start = time.perf_counter()
    got = subprocess.run([PROGRAM, "run", store], input=text, check=True, capture_output=True)
    seconds = time.perf_counter() - start
    if got.stdout.count(b"ok\n") != lines:
        sys.exit(f"device_sync: {got.stdout[:200]!r}")
    return seconds


def measure_program(folder):
    if not PROGRAM.exists():
        print("the program: not measured, since it is not built")
        return
    with tempfile.TemporaryDirectory(dir=folder) as name:
        store = pathlib.Path(name) / "sync.store"
        subprocess.run([PROGRAM, "load", store, "lilim", INSTANCE], check=True, capture_output=True)
        opening = answered(store, 0)
        print(f"the program: {SYNCS / (answered(store, SYNCS) - opening):.0f} commands a second")


def main():
    folder = sys.argv[1] if len(sys.argv) > 1 else "."
    measure_calls(folder)
    measure_program(folder)


if __name__ == "__main__":
    main()
