#!/usr/bin/env python3
"""Compares one run of `audits` over a list of pairs with as many runs of `audit`, by the program that
`./planner` builds.

    bench/audits_speed.py [PAIRS]
"""

import pathlib
import subprocess
import sys
import time

TOP = pathlib.Path(__file__).resolve().parent.parent
PROGRAM = TOP / "crates" / "planner" / "out" / "planner"
INSTANCE = TOP / "examples" / "lc101.txt"
SOLUTION = TOP / "examples" / "lc101.sol"
RUNS = 5


def seconds(act):
    began = time.monotonic()
    act()
    return time.monotonic() - began


def main(words):
    pairs = int(words[0]) if words else 300
    lines = f"{INSTANCE}\t{SOLUTION}\n".encode() * pairs

    def listed():
        got = subprocess.run([PROGRAM, "audits", "lilim", "-"], input=lines, check=True, capture_output=True)
        assert got.stdout.count(b"\tpass 0 10 829\n") == pairs

    def each():
        for _ in range(pairs):
            subprocess.run([PROGRAM, "audit", "lilim", INSTANCE, SOLUTION], check=True, capture_output=True)

    together = min(seconds(listed) for _ in range(RUNS))
    apart = min(seconds(each) for _ in range(RUNS))
    print(f"{pairs} pairs: audits {together * 1000:.1f} ms, {together / pairs * 1e6:.0f} us a pair; {pairs} runs of audit {apart * 1000:.0f} ms")
    return 0


if __name__ == "__main__":
    sys.exit(main(sys.argv[1:]))
