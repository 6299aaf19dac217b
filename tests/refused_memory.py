#!/usr/bin/env python3
"""Tests the answers of `planner audit` when the system refuses it memory.

Gives the program the memory that it starts with and then more and more, step by step, and audits large texts of
both formats: a solution that passes, an instance whose last line has a fault, and a solution whose last line
has one. Each answer must be the one with ample memory, or `out of memory` with status 4.

    tests/refused_memory.py [STOPS]
"""

import collections
import pathlib
import resource
import subprocess
import sys
import tempfile

# Python leaves no files beside the scripts.
sys.dont_write_bytecode = True
from planner import PROGRAM, TOP, fail, require_program  # noqa: E402

sys.path.append(str(TOP / "bench"))
from audit_speed import make_lilim, make_vrp  # noqa: E402

STEP = 64 * 1024
MOST = 4 * 1024**3
OUT_OF_MEMORY = (4, "out of memory\n")


def answer_within(limit, words):
    """Returns status and answer of the program within this many bytes of address space."""
    refuse = lambda: resource.setrlimit(resource.RLIMIT_AS, (limit, limit))
    done = subprocess.run(words, stdout=subprocess.PIPE, stderr=subprocess.DEVNULL, text=True, preexec_fn=refuse, check=False)
    return done.returncode, done.stdout


def least_start():
    """Returns the smallest limit, by steps, within which the program works without arguments."""
    limit = STEP
    while answer_within(limit, [PROGRAM]) != (0, "pass 0 1 20\n"):
        limit += STEP
        if limit > MOST:
            fail(f"the program does not start within {MOST} bytes")
    return limit


def audit_within_limits(kind, text, solution, wanted):
    """Counts the answers within each limit, until this status and answer have come ten times."""
    with tempfile.TemporaryDirectory() as name:
        instance, printed = pathlib.Path(name) / "instance", pathlib.Path(name) / "solution"
        instance.write_text(text, encoding="ascii")
        printed.write_text(solution, encoding="ascii")
        words = [PROGRAM, "audit", kind, instance, printed]
        limit, answers = least_start(), collections.Counter()
        while answers[wanted] < 10 and limit < MOST:
            answers[answer_within(limit, words)] += 1
            limit += STEP
    refused = answers.pop(OUT_OF_MEMORY, 0)
    if set(answers) != {wanted} or not refused:
        fail(f"{kind}: {dict(answers)}, wanted {wanted}")
    print(f"{kind}: {refused} times out of memory, then {wanted[1].strip()}")


def audit_all(kind, text, solution, answer):
    """Audits a solution that passes, and each text with a fault in its last line."""
    faulty, uncosted = text + "0\n", solution[:solution.rindex("Cost")]
    audit_within_limits(kind, text, solution, (0, answer))
    if kind == "lilim":
        audit_within_limits(kind, faulty, solution, (2, f"instance FieldCount {faulty.count(chr(10))}\n"))
    audit_within_limits(kind, text, uncosted, (2, f"solution NoCost {uncosted.count(chr(10)) + 1}\n"))


def main():
    require_program()
    stops = int(sys.argv[1]) if len(sys.argv) > 1 else 40000
    audit_all("lilim", *make_lilim(stops))
    audit_all("vrp", *make_vrp(stops))


if __name__ == "__main__":
    main()
