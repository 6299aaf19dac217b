#!/usr/bin/env python3
"""Writes a list for `audits` piece by piece, and reads the answer to each line before it writes the next one:
through a FIFO, a pipe and a terminal.

A line is answered as soon as it is whole, and the rest of the list when it ends. The answers were worked out by
hand. A list that can't be read is reported, and not taken for an empty one. `planner` and `auditor` are both
tested.

Needs the programs that rt ci leaves.
"""
import os
import pty
import select
import subprocess
import sys
import tempfile

# Python leaves no files beside the scripts.
sys.dont_write_bytecode = True
from planner import AUDITOR, EXAMPLES, PROGRAM, expect, require_program, skip  # noqa: E402

# The maximum time in seconds for an answer, and the time to wait if none is expected.
MOST, LEAST = 60, 0.3

PAIR = "one-pair.txt\tone-pair.sol"
# The pieces to write, each with the answer expected before the next one is written.
STEPS = [
    (PAIR + "\n", PAIR + "\tpass 0 1 20\n"),
    ("\n", "bad line\n"),
    ("one-pair.txt\tone-pair-rev", ""),
    ("ersed.sol\n", "one-pair.txt\tone-pair-reversed.sol\tbroken 5 route 1 place 1 stop 2\n"),
    ("nowhere\tone-pair.sol\none pair\n", "nowhere\tone-pair.sol\tcannot read nowhere\nbad line\n"),
    (PAIR + "\t1 20", ""),
]
# The last line has no line feed, and is answered at the end.
LAST = PAIR + "\tpass 0 1 20 gap 0.00\n"


def answered(output, wanted):
    """Returns the answer: as many bytes as are wanted, or what arrives in a while."""
    got = b""
    while select.select([output], [], [], MOST if len(got) < len(wanted) else LEAST)[0]:
        more = os.read(output, 4096)
        if not more:
            break
        got += more
    return got.decode()


def check_steps(name, asked, write, end):
    """Writes step by step, and checks the answer to each step before the next one."""
    output = asked.stdout.fileno()
    for text, wanted in STEPS:
        write(text.encode())
        expect(f"{name}: the answer to {text!r}", answered(output, wanted), wanted)
    end()
    expect(f"{name}: the answer at the end", asked.stdout.read().decode(), LAST)
    expect(f"{name}: the status", asked.wait(), 3)


def ask(program, path, **streams):
    return subprocess.Popen([program, "audits", "lilim", path], cwd=EXAMPLES, stdout=subprocess.PIPE, stderr=subprocess.DEVNULL, bufsize=0, **streams)


def check_pipe(program):
    asked = ask(program, "-", stdin=subprocess.PIPE)
    check_steps(f"{program}, a pipe", asked, asked.stdin.write, asked.stdin.close)


def check_fifo(program, folder):
    path = os.path.join(folder, "list")
    os.mkfifo(path)
    asked = ask(program, path)
    with open(path, "wb", buffering=0) as fifo:
        check_steps(f"{program}, a FIFO", asked, fifo.write, fifo.close)
    os.remove(path)


def check_terminal(program):
    try:
        keys, terminal = pty.openpty()
    except OSError as error:
        skip("a terminal", f"none can be had: {error}")
        return
    asked = ask(program, "-", stdin=terminal)
    os.close(terminal)
    # Ctrl-D passes on the line so far. A second one says that nothing follows.
    check_steps(f"{program}, a terminal", asked, lambda text: os.write(keys, text), lambda: os.write(keys, b"\x04\x04"))
    os.close(keys)


def check_unread(program, folder):
    empty = os.path.join(folder, "empty")
    with open(empty, "wb"):
        pass
    for path, status, wanted in (empty, 0, ""), (folder, 3, f"cannot read {folder}\n"), ("nowhere", 3, "cannot read nowhere\n"):
        asked = ask(program, path)
        expect(f"{program}, the list {path}", (asked.stdout.read().decode(), asked.wait()), (wanted, status))


def main():
    for program in (PROGRAM, AUDITOR):
        require_program(program)
        with tempfile.TemporaryDirectory() as folder:
            check_pipe(program)
            check_fifo(program, folder)
            check_terminal(program)
            check_unread(program, folder)
    print("lists: each line of a pipe, a FIFO and a terminal is answered before the next one is written")


main()
