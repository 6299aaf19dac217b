#!/usr/bin/env python3
"""Measures the program on long texts: `load` of up to 16 MB, `show` and `print` of plans of up to 40,000 stops,
and opening a store with a full journal of searches. All of it through a store on this disk, by the program that
`./planner` builds.

A time is the difference between two sessions on one store, one with the measured commands and one without,
divided by the number of these commands.

    bench/text_speed.py [REPEATS]
"""

import pathlib
import re
import subprocess
import sys
import tempfile
import time

TOP = pathlib.Path(__file__).resolve().parent.parent
PROGRAM = TOP / "crates" / "planner" / "out" / "planner"
MEGABYTE = 1 << 20
TASKS = 40_000
SIZES = [5_000, 10_000, 20_000, 40_000]
REPEATS = 10
STORE = "text.store"


def padded_tasks(length):
    """Returns a Li-Lim text of TASKS tasks, filled with blanks to this length."""
    lines = [f"{TASKS // 2} 100 1", "0 0 0 0 0 1000000 0 0 0"]
    for pickup in range(1, TASKS, 2):
        lines.append(f"{pickup} {pickup % 1000} {pickup // 1000} 1 0 1000000 0 0 {pickup + 1}")
        lines.append(f"{pickup + 1} {pickup % 997} {pickup // 997} -1 0 1000000 0 {pickup} 0")
    blanks = (length - len("\n".join(lines)) - 1) // len(lines)
    text = "".join(line + " " * blanks + "\n" for line in lines)
    return (text + " " * (length - len(text))).encode()


def customers(count):
    """Returns a .vrp text of this many customers on a line, without demand."""
    nodes = range(1, count + 2)
    return (
        f"DIMENSION : {count + 1}\nCAPACITY : 0\nEDGE_WEIGHT_TYPE : EUC_2D\nDEPOT_SECTION\n1 -1\nNODE_COORD_SECTION\n"
        + "".join(f"{node} {node} 0\n" for node in nodes)
        + "DEMAND_SECTION\n"
        + "".join(f"{node} 0\n" for node in nodes)
    ).encode()


def load(kind, text):
    return f"load {kind} 0 {len(text)}\n".encode() + text


def prepare(folder, lines):
    """Makes a new store with the effects of these commands, and no journal."""
    subprocess.run([PROGRAM, "format", folder / STORE], check=True, capture_output=True)
    session(folder, lines + b"checkpoint\n" if lines else b"")


def session(folder, lines):
    """Returns the seconds of a session on the store, and its output."""
    began = time.monotonic()
    got = subprocess.run([PROGRAM, "run", folder / STORE], input=lines, check=True, capture_output=True)
    took = time.monotonic() - began
    if re.search(rb"^(no|fault) ", got.stdout, re.MULTILINE):
        sys.exit(f"refused: {got.stdout[-200:]!r}")
    return took, got.stdout


def each(folder, before, line, repeats):
    """Returns the seconds of one such command, and the bytes of its answer. The commands that it needs run
    before, in a session that is not measured.
    """
    prepare(folder, before)
    without, short = session(folder, b"")
    whole, text = session(folder, line * repeats)
    return max(whole - without, 1e-9) / repeats, (len(text) - len(short)) // repeats


def main(words):
    repeats = int(words[0]) if words else REPEATS
    with tempfile.TemporaryDirectory(dir=TOP) as name:
        folder = pathlib.Path(name)
        for megabytes in (2, 4, 8, 16):
            text = padded_tasks(megabytes * MEGABYTE)
            seconds, _ = each(folder, b"", load("lilim", text), repeats)
            print(f"load of {megabytes} MB, {TASKS} tasks: {seconds * 1000:.1f} ms, {megabytes / seconds:.0f} MB/s", flush=True)
        for count in SIZES:
            before = load("vrp", customers(count)) + b"build\n"
            for line in (b"show\n", b"print\n"):
                seconds, length = each(folder, before, line, repeats)
                print(f"{line.decode().strip()} of {count} stops: {seconds * 1000:.2f} ms, {length} bytes, {length / seconds / 1e6:.0f} MB/s", flush=True)
        instance = (TOP / "examples" / "lc101.txt").read_bytes()
        prepare(folder, load("lilim", instance) + b"build\n")
        session(folder, b"search 65536\n")
        seconds, told = session(folder, b"")
        print(f"opening a store with a full journal: {seconds:.2f} s, {told.decode().strip()}")
    return 0


if __name__ == "__main__":
    sys.exit(main(sys.argv[1:]))
