#!/usr/bin/env python3
"""Measures the gates of two commits, both from nothing, at the same time and each with half of the processors.

Whatever slows the machine then slows both. When one ends first, the other continues with its half. Prints for
each gate its elapsed and processor seconds and its result, and the processor seconds of each crate's proof,
tests and edits, including the proof that these begin with, sampled every two seconds. The output of each gate
is kept in the folder that is printed first. Prints the seconds so far each minute.

    bench/gate_times.py OLD NEW [CRATE..]

With crates, which both commits must have, only the gate over these and the crates below them is measured.
"""

import collections
import os
import pathlib
import re
import shutil
import subprocess
import sys
import tempfile
import threading
import time

TOP = pathlib.Path(__file__).resolve().parent.parent
TICK = os.sysconf("SC_CLK_TCK")
EVERY = 2
KEPT_EVERY = 60


def cloned(commit, folder):
    """Makes a clone of the commit in this folder."""
    number = subprocess.run(["git", "rev-parse", "--verify", f"{commit}^{{commit}}"], cwd=TOP, check=True, capture_output=True, text=True)
    subprocess.run(["git", "clone", "-q", TOP, folder], check=True)
    subprocess.run(["git", "checkout", "-q", number.stdout.strip()], cwd=folder, check=True)
    return folder


class Gate:
    """A gate that runs in a clone of a commit."""

    def __init__(self, clone, crates):
        lanes = {"RT_JOBS": str(max(1, (os.cpu_count() or 2) // 2))}
        self.began, self.seconds, self.used, self.tasks = time.monotonic(), None, None, {}
        with open(clone.with_suffix(".log"), "w") as log:
            words = ["rt", "ci", "--anew", *crates]
            self.process = subprocess.Popen(words, cwd=clone, env=os.environ | lanes, stdout=log, stderr=log)
        self.waiting = threading.Thread(target=self.wait)
        self.waiting.start()

    def wait(self):
        _, status, used = os.wait4(self.process.pid, 0)
        self.seconds = time.monotonic() - self.began
        self.used, self.status = used.ru_utime + used.ru_stime, os.waitstatus_to_exitcode(status)

    def note(self, process):
        """Records the seconds of a check, by its crate and its task."""
        name = re.search(r"--crate-name ([a-z_]+)", process["words"])
        if name:
            is_edit, is_test = "/rt-edit" in process["folder"], " --test" in process["words"]
            self.tasks[process["key"]] = name[1], "edits" if is_edit else "tests" if is_test else "proof", process["seconds"]

    def by_task(self):
        sums = collections.Counter()
        for crate, kind, seconds in self.tasks.values():
            sums[crate, kind] += seconds
        return sums


def processes():
    """Returns the running checks by process id."""
    found = {}
    for folder in pathlib.Path("/proc").glob("[0-9]*"):
        try:
            fields = (folder / "stat").read_text().rpartition(")")[2].split()
            words = (folder / "cmdline").read_bytes().replace(b"\0", b" ").decode(errors="replace")
            # User and system seconds, of the process and of its children that have ended.
            seconds = sum(int(it) for it in fields[11:15]) / TICK
            found[int(folder.name)] = {
                "above": int(fields[1]), "key": (folder.name, fields[19]), "words": words, "seconds": seconds, "folder": os.readlink(folder / "cwd")
            }
        except (OSError, IndexError):
            # The process has ended meanwhile.
            continue
    return found


def is_check(process):
    return bool(process) and re.match(r"\S*/rattle (check|build) ", process["words"]) is not None


def note_all(gates):
    found = processes()
    for process in found.values():
        # The seconds of a forked copy belong to the check that made it.
        if not is_check(process) or is_check(found.get(process["above"])):
            continue
        above = process["above"]
        while above in found and all(above != gate.process.pid for gate in gates):
            above = found[above]["above"]
        for gate in gates:
            if above == gate.process.pid:
                gate.note(process)


def rows(gates):
    """Returns a line for each crate and task that one of the gates has begun, with the seconds of both."""
    old, new = (gate.by_task() for gate in gates)
    return "".join(f"{crate:16} {kind:6} {old[crate, kind]:7.0f} {new[crate, kind]:7.0f}\n" for crate, kind in sorted(old | new))


def main():
    if len(sys.argv) < 3:
        print(__doc__, file=sys.stderr)
        return 64
    folder = pathlib.Path(tempfile.mkdtemp(prefix="gates-"))
    print(folder, flush=True)
    # Both clones exist before a gate begins.
    clones = [cloned(commit, folder / name) for commit, name in zip(sys.argv[1:3], ("old", "new"))]
    gates = [Gate(clone, sys.argv[3:]) for clone in clones]
    kept = 0
    while any(gate.waiting.is_alive() for gate in gates):
        note_all(gates)
        if time.monotonic() > kept + KEPT_EVERY:
            kept = time.monotonic()
            (folder / "so_far.txt").write_text(rows(gates))
        time.sleep(EVERY)
    for commit, gate in zip(sys.argv[1:3], gates):
        print(f"{commit}: {gate.seconds:.0f} s, of the processor {gate.used:.0f} s, status {gate.status}")
    print(rows(gates), end="")
    for clone in clones:
        shutil.rmtree(clone)
    return 0


if __name__ == "__main__":
    sys.exit(main())
