#!/usr/bin/env python3
"""Compares the axioms of the two programs with the list in tests/axioms.txt: tests/axioms.py GATE_OUTPUT.

An axiom is a C function whose contract a proof assumes. The gate prints for each program how many functions of
each crate its proof assumes, the first three of them, and how many there are in all. These must be those of the
list. The gate prints nothing of a program that an earlier run on the machine has proved. Its part is then skipped.

`rt check --list-axioms` in crates/planner and in crates/auditor prints all of them, after it has proved
everything below. The lines that end in `reached` make the list.
"""
import pathlib
import re
import sys

sys.dont_write_bytecode = True
from planner import TOP, expect, fail, skip  # noqa: E402

LIST = TOP / "tests" / "axioms.txt"
PROGRAMS = ("planner", "auditor")


def listed_axioms():
    """Returns the crate of each axiom of each program, by program and axiom."""
    found = {name: {} for name in PROGRAMS}
    for line in LIST.read_text().splitlines():
        if line and not line.startswith("#"):
            programs, crate, function = line.split()
            for name in programs.split(","):
                found[name][function] = crate
    return found


def printed_lines(output, program):
    """Returns the lines that the gate printed when it proved this program."""
    parts = re.split(r"^== (\w+)$", output, flags=re.M)
    return [line for name, text in zip(parts[1::2], parts[2::2]) if name == program for line in text.splitlines()]


def check_program(lines, axioms, program):
    """Compares the gate's lines on one program with the listed axioms."""
    total = 0
    for line in lines:
        if found := re.match(r"axioms (\w+): (.*) \((\d+) of the \d+ declared\)$", line):
            crate, shown, count = found[1], found[2].removesuffix(", ..."), int(found[3])
            of_crate = [it for it, owner in axioms.items() if owner == crate]
            expect(f"{program}: number of axioms of {crate}", count, len(of_crate))
            missing = sorted(set(shown.split(", ")) - set(of_crate))
            expect(f"{program}: axioms of {crate} that are not listed", missing, [])
            total += count
        elif found := re.match(r"logic=proved .*\baxioms=(\d+)\b", line):
            expect(f"{program}: number of axioms", int(found[1]), len(axioms))
            expect(f"{program}: number of axioms by crate", total, len(axioms))
            print(f"axioms: the proof of {program} assumes the contracts of the {total} listed C functions")
            return
    skip(program, "an earlier run proved it")


if len(sys.argv) != 2:
    fail("usage: tests/axioms.py GATE_OUTPUT")
gate_output = pathlib.Path(sys.argv[1]).read_text(errors="replace")
for name, its_axioms in listed_axioms().items():
    check_program(printed_lines(gate_output, name), its_axioms, name)
