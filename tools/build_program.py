#!/usr/bin/env python3
"""Proves and builds a program of the repository: tools/build_program.py NAME.

Its libraries are proved in parallel, each after those below it, the one with most crates above it first, as
many at a time as cores and memory allow. `rt` locks the crates below the one that it works on, so two runs in
one tree wait for each other. Therefore each lane has a tree of its own, which shares by hard links what is
already proved. An interrupted run is continued. A second run waits for the first. If the prover refuses a
crate, its output goes to standard output, and the status is 1.
"""
import contextlib
import fcntl
import os
import pathlib
import re
import shutil
import signal
import subprocess
import sys
import time

TOP = pathlib.Path(__file__).resolve().parent.parent
# Beside the sources, for hard links, and ignored by the gate.
LANES = TOP / ".git" / "lanes" if (TOP / ".git").is_dir() else TOP / "lanes"
SOURCES = ("src", "specs", "proofs")
MEMORY = 4_000_000_000
MOST_JOBS = 4
SIGNALS = (signal.SIGTERM, signal.SIGINT, signal.SIGHUP)


def listed_crates():
    """Returns the lines of crates.txt, by the names of their crates."""
    lines = [line.split("#")[0] for line in (TOP / "crates.txt").read_text().splitlines()]
    return {line.split(":")[0].split()[0]: line for line in lines if line.strip()}


def read_crates():
    """Returns the crates of the repository, each with those that it depends on."""
    listed = listed_crates()
    return {name: [it for it in line.split(":")[1].split() if it in listed] for name, line in listed.items()}


def below(crates, name):
    """Returns the crates that this one depends on, directly or not."""
    found = set(crates[name])
    for it in crates[name]:
        found |= below(crates, it)
    return found


def lane_count():
    """Returns how many provers may run at the same time."""
    free = int(re.search(r"MemAvailable:\s+(\d+)", pathlib.Path("/proc/meminfo").read_text())[1]) * 1024
    return max(1, min(len(os.sched_getaffinity(0)), free // MEMORY))


def begin(words, folder, log):
    """Starts a command in a session of its own, so that it can be ended with all its children."""
    return subprocess.Popen(
        words, cwd=folder, stdin=subprocess.DEVNULL, stdout=log, stderr=subprocess.STDOUT, start_new_session=True
    )


def stop(process):
    """Ends the command with all its children."""
    with contextlib.suppress(ProcessLookupError):
        os.killpg(process.pid, signal.SIGTERM)
    process.wait()


def link(source, target):
    """Replaces the files of the target by those of the source. The folders are separate, and the disk holds the
    files once.
    """
    shutil.rmtree(target, ignore_errors=True)
    if source.is_dir():
        shutil.copytree(source, target, copy_function=os.link)


class Lane:
    """A tree with the sources of these crates and the list of them that `rt` needs, in which one crate at a
    time is proved.
    """

    def __init__(self, folder, names):
        self.crates = folder / "crates"
        self.name = self.process = None
        self.log = folder / "log"
        for name in names:
            for part in SOURCES:
                if (TOP / "crates" / name / part).is_dir():
                    shutil.copytree(TOP / "crates" / name / part, self.crates / name / part)
        listed = listed_crates()
        (folder / "crates.txt").write_text("".join(f"{listed[it]}\n" for it in names))
        shutil.copy(TOP / "HANDLES", folder)

    def begin(self, name, libraries, jobs):
        """Starts to prove the crate over its libraries, which are proved."""
        self.name = name
        for it in libraries:
            link(TOP / "crates" / it / "out" / "rlib", self.crates / it / "out" / "rlib")
        link(TOP / "crates" / name / "out", self.crates / name / "out")
        with open(self.log, "w", encoding="utf-8") as log:
            self.process = begin(["rt", "lib", "--jobs", str(jobs)], self.crates / name, log)

    def end(self):
        """Saves what the prover kept of the crate. Returns its name, and whether it is proved."""
        link(self.crates / self.name / "out", TOP / "crates" / self.name / "out")
        name, is_proved = self.name, self.process.returncode == 0
        self.name = self.process = None
        return name, is_proved


def take_home():
    """Saves what lanes have kept, and removes the lanes in the background, since they hold tens of thousands of
    files.
    """
    for kept in LANES.glob("*/crates/*/out/incremental"):
        home = TOP / "crates" / kept.parent.parent.name / "out"
        if not (home / "rlib" / "stamp").exists():
            link(kept.parent, home)
    if LANES.exists():
        LANES.rename(LANES.with_name(f"{LANES.name}-{os.getpid()}-{time.monotonic_ns()}"))
    gone = list(LANES.parent.glob(f"{LANES.name}-*"))
    if gone:
        begin(["rm", "-rf", "--", *gone], TOP, subprocess.DEVNULL)


def tell(name, number, count):
    """Prints which crate is being proved."""
    print(f"planner: proving {name} ({number} of {count})", file=sys.stderr, flush=True)


def prove(crates, program, lanes):
    """Proves the libraries of the program in these lanes."""
    names = below(crates, program)
    libraries = {it: below(crates, it) for it in names}
    above = {it: sum(it in others for others in libraries.values()) for it in names}
    left, proved = sorted(names, key=lambda it: (-above[it], it)), set()
    while len(proved) < len(names):
        ready = [it for it in left if libraries[it] <= proved]
        idle = [it for it in lanes if not it.process]
        for number, (lane, name) in enumerate(zip(idle, ready)):
            # Cores that no other crate needs go to the first.
            jobs = min(MOST_JOBS, len(idle) - min(len(idle), len(ready)) + 1) if number == 0 else 1
            left.remove(name)
            tell(name, len(names) - len(left), len(names) + 1)
            lane.begin(name, libraries[name], jobs)
        time.sleep(0.2)
        for lane in lanes:
            if lane.process and lane.process.poll() is not None:
                name, is_proved = lane.end()
                if not is_proved:
                    sys.stdout.write(lane.log.read_text(errors="replace"))
                    return 1
                proved.add(name)
    return 0


def prove_libraries(crates, program):
    """Proves the libraries of the program in lanes, which are removed afterwards, whatever the result."""
    take_home()
    names = sorted(below(crates, program), key=list(crates).index)
    lanes = []
    try:
        lanes += [Lane(LANES / str(number), names) for number in range(lane_count())]
        return prove(crates, program, lanes)
    finally:
        for lane in lanes:
            if lane.process:
                stop(lane.process)
        take_home()


def build(crates, program):
    """Builds the program over its libraries, which are proved."""
    count = len(below(crates, program)) + 1
    tell(program, count, count)
    process = begin(["rt", "run"], TOP / "crates" / program, None)
    try:
        return process.wait()
    finally:
        stop(process)


def end(*_):
    """Ends the run, once. A save that has begun is completed."""
    for it in SIGNALS:
        signal.signal(it, signal.SIG_IGN)
    sys.exit(3)


def wait_for_others():
    """Waits for another run in this tree, and returns the lock that makes later runs wait while it is open."""
    held = open(TOP / "crates.txt", encoding="utf-8")
    try:
        fcntl.flock(held, fcntl.LOCK_EX | fcntl.LOCK_NB)
    except BlockingIOError:
        print("planner: another build runs here and is waited for", file=sys.stderr, flush=True)
        fcntl.flock(held, fcntl.LOCK_EX)
    return held


def main():
    crates = read_crates()
    if len(sys.argv) != 2 or sys.argv[1] not in crates:
        print(__doc__, file=sys.stderr)
        return 64
    for it in SIGNALS:
        # The caller may have it ignore a signal, as `nohup` does.
        if signal.getsignal(it) != signal.SIG_IGN:
            signal.signal(it, end)
    program = sys.argv[1]
    with wait_for_others():
        return prove_libraries(crates, program) or build(crates, program)


sys.exit(main())
