#!/usr/bin/env python3
"""Measures the commands of a store, by the program that `./planner` builds: milliseconds from a command to its
answer.

The problems are made here: pairs on a square that grows with their number, with time windows, and room for the
stop that is added. The store is in memory (/dev/shm) unless FOLDER names another place, so that its syncs cost
almost nothing. For short commands, the fastest of some runs counts. Each stop that is added takes a new number,
of which there are 40,000.

    bench/commands_speed.py [--folder FOLDER] STOPS..
"""

import argparse
import math
import pathlib
import subprocess
import tempfile
import time

TOP = pathlib.Path(__file__).resolve().parent.parent
PROGRAM = TOP / "crates" / "planner" / "out" / "planner"
TRIES = 5


class Sequence:
    """A fixed sequence of random words."""

    def __init__(self):
        self.state = 1

    def below(self, bound):
        self.state = self.state % 2**31 * 1_103_515_245 + 12_345
        return (self.state >> 16) % bound


def instance(stops):
    """Returns the text of an instance of pairs with this many stops, less one or two: a hundred stops to 10,000
    square units, and a vehicle for every two pairs.
    """
    side, words = math.isqrt(stops) * 10 + 1, Sequence()
    lines = [f"{stops // 4 + 1} 200 1", f"0 {side // 2} {side // 2} 0 0 {side * 8} 0 0 0"]
    for pickup in range(1, stops - 1, 2):
        goods, earliest = words.below(30) + 10, side + words.below(side * 2)
        latest = earliest + side // 2 + 100
        lines.append(f"{pickup} {words.below(side)} {words.below(side)} {goods} {earliest} {latest} 10 0 {pickup + 1}")
        lines.append(f"{pickup + 1} {words.below(side)} {words.below(side)} {-goods} {earliest} {latest + side * 2} 10 {pickup} 0")
    return "\n".join(lines) + "\n"


class Session:
    """A run over a new store."""

    def __init__(self, folder):
        store = folder / "commands.store"
        subprocess.run([PROGRAM, "format", store], check=True, capture_output=True)
        self.process = subprocess.Popen([PROGRAM, "run", store], stdin=subprocess.PIPE, stdout=subprocess.PIPE)
        self.process.stdout.readline()

    def answer(self, line):
        """Returns the answer without its last line, and the seconds until that line came."""
        begin = time.perf_counter()
        self.process.stdin.write(line.encode())
        self.process.stdin.flush()
        told = []
        for text in self.process.stdout:
            if text == b"ok\n":
                break
            if text.startswith((b"no ", b"fault ")):
                raise SystemExit(f"{line.split()[0]} was answered {text.decode().strip()}")
            told.append(text.decode().strip())
        return told, time.perf_counter() - begin

    def seconds(self, line):
        return self.answer(line)[1]


def added_and_withdrawn(session):
    """Returns the seconds for adding a request, and for withdrawing it."""
    name = session.answer("next\n")[0][0].split()[1]
    return session.seconds("add1 1 0 0 0 1000000 10\n"), session.seconds(f"withdraw {name}\n")


def measure(folder, stops):
    text, session = instance(stops), Session(folder)
    load = min(session.seconds(f"load lilim 0 {len(text)}\n{text}") for _ in range(TRIES))
    build = session.seconds("build\n")
    planned = sum(line.startswith("vehicle") and len(line.split()) - 2 for line in session.answer("show\n")[0])
    changes = [added_and_withdrawn(session) for _ in range(TRIES)]
    search = session.seconds("search 256\n")
    session.process.communicate()
    add, withdraw = (min(column) for column in zip(*changes))
    figures = {"load": load, "build": build, "add1": add, "withdraw": withdraw, "search 256": search}
    print(f"{stops} stops, {planned} planned: " + ", ".join(f"{name} {seconds * 1e3:.3f} ms" for name, seconds in figures.items()), flush=True)


def main():
    parser = argparse.ArgumentParser(usage="bench/commands_speed.py [--folder FOLDER] STOPS..")
    parser.add_argument("--folder", default="/dev/shm")
    parser.add_argument("stops", type=int, nargs="+")
    words = parser.parse_args()
    with tempfile.TemporaryDirectory(dir=words.folder) as name:
        for stops in words.stops:
            measure(pathlib.Path(name), stops)


if __name__ == "__main__":
    main()
