#!/usr/bin/env python3
"""Runs the built program over a real file, as a dispatcher would.

1. format, run, load, build, search, show; then run again: the same output of show.
2. load: makes the store, byte for byte as format and the command `load` do. A store that has an instance stays
   as it is, and a text that is refused leaves no file. strict: nothing is executed after a refusal, and the
   status reports it.
3. kill -9 at random moments of a long search, each fifth time SIGINT or SIGTERM: what was acknowledged is there
   in the next run, the printed plan passes the audit, and the search that is continued to n steps has the plan
   of n uninterrupted steps.
4. With strace: no `ok` or `at` line of `run`, format, load and adopt is written before the sync that it depends
   on has returned.
5. Two programs on one store at the same time: the second one is refused and changes nothing. After kill -9 the
   store opens again.
6. A full disk, on a small tmpfs: reported when the store is made. A disk that fills up later is reported after
   `fault device`.
7. With strace: `anneal 0 1000`, for either kind, is killed at each of its syncs in turn. What was printed is
   there, and repeating the command leads to the state of the uninterrupted one.
8. Search steps that are repeated: `run` and `load` first print their number on standard error, and nothing if
   there are none. Standard streams that are closed: the store is not taken for one of them.
9. Attempts to use fewer vehicles are reported on standard error. The documents' commands for `freeze`, exactly
   as written there.
10. A copy of a store that is open, made after a `checkpoint`, is complete. A store whose end is missing is
    refused, left alone, and opens when zeros replace the end; one with a line too many opens when it is cut. For a
    file that has no store, standard error says what it may be.
11. check: after a crash a store is `ok`, also a new one. A store with damaged headers or records is `suspect`,
    with the reason.

Argument: how often the program is killed (200 by default). Needs the program that rt ci leaves.
"""
import itertools
import math
import os
import random
import re
import shutil
import signal
import subprocess
import sys
import tempfile
import time

# Python leaves no files beside the scripts.
sys.dont_write_bytecode = True
from planner import EXAMPLES, PROGRAM, STORE_BYTES, can_trace, commands_shown, fail, read, require_program, run, run_program, skip  # noqa: E402

INSTANCE = str(EXAMPLES / "lc101.txt")
SMALL_INSTANCE = str(EXAMPLES / "public" / "P-n16-k8.vrp")
STEPS = 20_000
# Twenty stages of fifty steps. For a Li-Lim instance: annealing and a search for fewer vehicles, one operation
# each, and twenty stages of 25 steps.
STAGES = b"anneal 0 1000\n"
STAGED = [("vrp", SMALL_INSTANCE, 20), ("lilim", INSTANCE, 22)]


# The message of `run` on standard error after the system's, if the device failed.
CURE = b"planner: the store's device failed: continue with a copy on a sound disk, or begin the next run with `checkpoint`\n"


def load_lines(seed=7):
    with open(INSTANCE, "rb") as file:
        text = file.read()
    return b"load lilim %d %d\n" % (seed, len(text)) + text


def format_store(store):
    got = run_program("format", store)
    if (got.returncode, got.stdout) != (0, b"ok\n"):
        fail(f"format: status {got.returncode}, {got.stdout!r}")
    if os.path.getsize(store) != STORE_BYTES:
        fail(f"format: the file has {os.path.getsize(store)} bytes")


def audit(text, folder):
    """Returns the audit's line for a printed solution."""
    path = os.path.join(folder, "printed.sol")
    with open(path, "w") as file:
        file.write(text)
    got = run_program("audit", "lilim", INSTANCE, path)
    return got.returncode, got.stdout.decode().strip()


def check_session(folder):
    store = os.path.join(folder, "session.store")
    format_store(store)
    answers = run(store, load_lines() + b"build\nsearch 1000\nshow\n")
    head = answers.split("\n")[:6]
    if head[:2] != ["ok", "ok"] or [line.split()[0] for line in head[2:6]] != ["at"] * 4:
        fail(f"session: {head}")
    if head[5].split()[1] != "1000":
        fail(f"session: the last piece ends at {head[5]!r}")
    shown = answers.split("\nok\n", 2)[-1]
    again = run(store, b"show\n")
    if shown != again or not again.startswith("requests 53 next 107\nsteps 1000 place 16000\n"):
        fail(f"session: show after the next run differs: {again[:80]!r}")
    print("store: a session continues where it ended")


def check_repeating(folder):
    store = os.path.join(folder, "repeat.store")
    load(store, 0, b"ok")
    run(store, b"build\nsearch 300\nsearch 5\n")
    once = b"planner: repeating 305 search steps\n"
    for words in [["run", store], ["run", store, "strict"]]:
        # Both streams in one pipe, to see which line comes first.
        got = subprocess.run([PROGRAM, *words], input=b"next\n", stdout=subprocess.PIPE, stderr=subprocess.STDOUT)
        if (got.returncode, got.stdout) != (0, once + b"opened 305\nnext 107\nok\n"):
            fail(f"repeating: {words[2:]}: status {got.returncode}, {got.stdout!r}")
    load(store, 2, b"store Loaded", errors=once)
    check_closed_streams(store, once)
    run(store, b"checkpoint\n")
    got = run_program("run", store, lines=b"")
    if (got.returncode, got.stdout, got.stderr) != (0, b"opened 0\n", b""):
        fail(f"repeating none: status {got.returncode}, {got.stdout!r}, {got.stderr!r}")
    print("store: the number of search steps is printed before they are repeated")


def check_closed_streams(store, once):
    """Checks that a store which gets the number of a closed stream is not read or written in its place."""
    before = read(store)
    cases = [
        ("<&-", (3, b"opened 305\ncannot read input\n", once + b"planner: input: Is a directory (os error 21)\n")),
        (">&-", (3, b"", once + b"planner: output: Bad file descriptor (os error 9)\n")),
        ("2>&-", (0, b"opened 305\nnext 107\nok\n", b"")),
        ("<&- >&- 2>&-", (3, b"", b"")),
    ]
    for closed, wanted in cases:
        got = subprocess.run(["sh", "-c", f'exec "$0" run "$1" {closed}', PROGRAM, store], input=b"next\n", capture_output=True)
        if (got.returncode, got.stdout, got.stderr) != wanted:
            fail(f"{closed}: status {got.returncode}, {got.stdout!r}, {got.stderr!r}; wanted {wanted}")
        if read(store) != before:
            fail(f"{closed}: the store was changed")


def check_tries(folder):
    """Checks that each attempt to use fewer vehicles is reported when it ends, if standard error is open, and
    that the answers stay the same.
    """
    answers = b"opened 0\nok\nat 300 0 10 829\nok\n"
    # From another program: without the four requests of vehicle 6, nine vehicles serve no more in 300 steps.
    told = b"an attempt with 9 of 10 vehicles ended before step 300 with 4 requests left out\n"
    for words, errors in [("", told), ("strict", told), ("2>&-", b"")]:
        store = os.path.join(folder, "tries.store")
        load(store, 0, b"ok")
        got = subprocess.run(["sh", "-c", f'exec "$0" run "$1" {words}', PROGRAM, store], input=b"build\nreduce 300\n", capture_output=True)
        if (got.returncode, got.stdout, got.stderr) != (0, answers, errors):
            fail(f"tries {words}: status {got.returncode}, {got.stdout!r}, {got.stderr!r}")
        os.remove(store)
    print("store: attempts with fewer vehicles are reported as they end")


def check_documents(folder):
    """Checks the documents' commands for `freeze`, exactly as written there: the pins have everything that has begun,
    and an order is planned after them.
    """
    commands = commands_shown("now=600\n")
    os.symlink(PROGRAM, os.path.join(folder, "planner"))
    store = os.path.join(folder, "day.store")
    load(store, 0, b"ok")
    run(store, b"build\n")
    before = day_of(store)
    got = subprocess.run(["sh", "-e", "-c", commands], cwd=folder, capture_output=True)
    told = got.stdout.decode().splitlines()
    if got.returncode != 0 or told[0] != "opened 0" or told[-1] != "ok":
        fail(f"documents: status {got.returncode}, {told[:1]} to {told[-1:]}")
    pins = {vehicle: int(stops) for word, vehicle, stops in (line.split() for line in told if line.startswith("pin "))}
    after = day_of(store)
    for vehicle, visits in before.items():
        begun = len(list(itertools.takewhile(lambda visit: visit[1] <= 600, visits)))
        pinned = pins.get(vehicle, 0)
        if pinned < begun or after[vehicle][:pinned] != visits[:pinned]:
            fail(f"documents: vehicle {vehicle} has departed to {begun} stops, and {pinned} are pinned: {visits}, then {after[vehicle]}")
    if sum(visit[0] in ("107", "108") for visits in after.values() for visit in visits) != 2:
        fail("documents: the new order is in no route")
    print("store: the documents' commands for a new order keep what has begun")


def day_of(store):
    """Returns for each vehicle its stops in order, and when it departs to each, by the coordinates of the
    instance.
    """
    with open(INSTANCE) as file:
        places = {words[0]: (int(words[1]), int(words[2])) for words in map(str.split, file) if len(words) == 9}
    places.update({"107": (30, 45), "108": (33, 50)})
    got = run_program("timetable", store, "tabs")
    day, last = {}, "0"
    for line in got.stdout.decode().splitlines():
        fields = line.split("\t")
        if fields[0] == "vehicle":
            day[fields[1]], last = [], "0"
        elif fields[0] == "stop" and fields[3] != "0":
            way = math.floor(math.dist(places[last], places[fields[3]]) + 0.5)
            if int(fields[6]) != int(fields[8]) - way:
                fail(f"timetable: sets off to stop {fields[3]} at {fields[6]}, {way} before {fields[8]}")
            day[fields[1]].append((fields[3], int(fields[6])))
            last = fields[3]
    return day


def load(store, status, line, instance=INSTANCE, seed="7", errors=b""):
    got = run_program("load", store, "lilim", instance, seed)
    if (got.returncode, got.stdout, got.stderr) != (status, line + b"\n", errors):
        fail(f"load: status {got.returncode}, {got.stdout!r}, {got.stderr!r}; wanted {status}, {line!r}")


def check_load(folder):
    store, other = os.path.join(folder, "load.store"), os.path.join(folder, "line.store")
    bad = os.path.join(folder, "bad.txt")
    with open(bad, "wb") as file:
        file.write(read(INSTANCE)[:-20])
    got = run_program("load", store, "lilim", bad)
    if got.returncode != 2 or not got.stdout.startswith(b"instance "):
        fail(f"load of a bad instance: status {got.returncode}, {got.stdout!r}")
    if os.path.exists(store):
        fail("load of a bad instance left a file")
    format_store(other)
    empty = read(other)
    run(other, load_lines())
    load(store, 0, b"ok")
    made = read(store)
    if made != read(other):
        fail("load made another store than format and the line load")
    load(store, 2, b"store Loaded")
    load(store, 2, b"store Loaded", seed="8")
    if read(store) != made:
        fail("load changed a store that holds an instance")
    # The file that a load leaves on a full disk.
    open(store, "wb").close()
    load(store, 0, b"ok")
    if read(store) != made:
        fail("load in place of an empty file made another store")
    for begun in (empty[:512], empty[:-512], b"a"):
        with open(store, "wb") as file:
            file.write(begun)
        got = run_program("load", store, "lilim", INSTANCE)
        if got.returncode == 0 or read(store) != begun:
            fail(f"load over a file of {len(begun)} bytes: status {got.returncode}, {got.stdout!r}")
    # The file that an interrupted load leaves. The documents say to move it aside.
    for begun in (bytes(4096), bytes(len(empty))):
        with open(store, "wb") as file:
            file.write(begun)
        got = run_program("load", store, "lilim", INSTANCE)
        if (got.returncode, got.stdout) != (2, b"store NotFormatted\n") or read(store) != begun:
            fail(f"load over a file of {len(begun)} zeros: status {got.returncode}, {got.stdout!r}")
        os.remove(store)
        load(store, 0, b"ok")
        if read(store) != made:
            fail("load in place of a file that was removed made another store")
    with open(store, "wb") as file:
        file.write(empty)
    load(store, 0, b"ok", seed="8")
    if read(store) == made:
        fail("load makes nothing of its seed")
    run(other, load_lines(8))
    if run(store, b"build\nsearch 500\nshow\n") != run(other, b"build\nsearch 500\nshow\n"):
        fail("load over an empty store begins another search than the line load")
    print("store: load creates a store, and leaves one that has an instance")


def check_strict(folder):
    store = os.path.join(folder, "strict.store")
    load(store, 0, b"ok")
    lines = b"build\nsearch 10\nwithdraw 40000\nsearch 10\n"
    got = run_program("run", store, "strict", lines=lines)
    answers = got.stdout.split(b"\n")
    if got.returncode != 1 or len(answers) != 6 or answers[4:] != [b"no NoSuchRequest", b""]:
        fail(f"strict: status {got.returncode}, {got.stdout!r}")
    shown = run(store, b"show\n")
    if not shown.startswith("requests 53 next 107\nsteps 10 "):
        fail(f"strict: a command after a refusal was executed: {shown[:80]!r}")
    got = run_program("run", store, "strict", lines=b"search 10\nshow\n")
    if got.returncode != 0 or not got.stdout.endswith(b"\nok\n"):
        fail(f"strict: status {got.returncode}, {got.stdout!r}")
    print("store: a strict session ends at a refusal")


def plan_at_once(folder):
    """Returns the state after STEPS uninterrupted steps."""
    store = os.path.join(folder, "once.store")
    format_store(store)
    run(store, load_lines() + b"build\nsearch %d\n" % STEPS)
    return run(store, b"show\n")


def heed_interrupts():
    # If this script runs in the background, SIGINT may be ignored, and its children would ignore it too.
    signal.signal(signal.SIGINT, signal.SIG_DFL)


def stopped_run(store, moment, stop):
    """Runs a search towards STEPS, stops it after this many seconds, and returns the last acknowledged step."""
    with subprocess.Popen(
        [PROGRAM, "run", store],
        stdin=subprocess.PIPE,
        stdout=subprocess.PIPE,
        stderr=subprocess.DEVNULL,
        preexec_fn=heed_interrupts,
    ) as process:
        process.stdin.write(b"reach %d\n" % STEPS)
        process.stdin.flush()
        time.sleep(moment)
        process.send_signal(stop)
        text = process.stdout.read().decode()
    ats = [int(line.split()[1]) for line in text.split("\n")[:-1] if line.startswith("at ")]
    return ats[-1] if ats else 0


def check_stops(folder, stops):
    wanted = plan_at_once(folder)
    store = os.path.join(folder, "stopped.store")
    rng = random.Random(stops)
    made, begun, heard = 0, 0, 0
    known = 0
    while made < stops:
        if known >= STEPS or begun == 0:
            format_store(store)
            run(store, load_lines() + b"build\n")
            begun, known = begun + 1, 0
        stop = {4: signal.SIGINT, 9: signal.SIGTERM}.get(made % 10, signal.SIGKILL)
        acknowledged = stopped_run(store, rng.uniform(0.002, 0.12), stop)
        made += 1
        shown, printed, rest = run(store, b"show\nprint\n").split("\nok\n")
        if rest:
            fail(f"kill {made}: print ends with {rest!r}")
        steps = int(re.search(r"^steps (\d+) ", shown, re.M).group(1))
        if steps < max(acknowledged, known):
            fail(f"kill {made}: {max(acknowledged, known)} steps were acknowledged, {steps} are there")
        heard += acknowledged > known
        known = steps
        status, line = audit(printed + "\n", folder)
        if status != 0:
            fail(f"kill {made}: the plan does not pass: {line}")
    if heard < stops // 20:
        fail(f"only {heard} of {made} kills came after an answer")
    run(store, b"reach %d\n" % STEPS)
    if run(store, b"show\n") != wanted:
        fail("the search that was killed has another plan than the uninterrupted one")
    print(f"store: {made} kills, {begun} searches: nothing acknowledged was lost, and the plan is that of one uninterrupted run")


def told_after_syncs(calls, store):
    """Returns how many syncs of the store had returned when each line was written. Checks that `ok` and `at`
    come only after everything written to the store, and the folder of a new file, is synced.
    """
    names = {f'"{store}"': "file", f'"{os.path.dirname(store)}"': "folder"}
    kinds, unsynced, syncs, told = {}, set(), 0, []
    with open(calls) as file:
        for line in file:
            call, _, rest = line.partition("(")
            descriptor = re.match(r"\d*", rest)[0]
            if call == "openat":
                kind = next((kind for name, kind in names.items() if name in line), None)
                kinds[line.rsplit("= ", 1)[1].strip()] = kind
                if kind == "file" and "O_CREAT" in line:
                    unsynced |= {"file", "folder"}
            elif call in ("pwrite64", "ftruncate") and kinds.get(descriptor) == "file":
                unsynced.add("file")
            elif call in ("fdatasync", "fsync") and descriptor in kinds:
                if not line.rstrip().endswith("= 0"):
                    fail(f"calls: a sync failed: {line.strip()}")
                unsynced.discard(kinds[descriptor])
                syncs += kinds[descriptor] == "file"
            elif line.startswith("write(1, "):
                # A line is written in pieces. It counts as written with the last one.
                if re.match(r'write\(1, ".*\\n"', line):
                    told.append(syncs)
                if unsynced and re.match(r'write\(1, "(ok|at )', line):
                    fail(f"calls: told where {' and '.join(sorted(unsynced))} are not synced: {line.strip()}")
    return told


def check_told(folder):
    """Checks the `ok` of the subcommands that make a store or change its state."""
    store, calls, solution = (os.path.join(folder, name) for name in ("told.store", "calls", "told.sol"))
    with open(solution, "wb") as file:
        file.write(run_program("solve", "lilim", INSTANCE, "100", "7", check=True).stdout)
    # A new file and a store in it; an opening and a snapshot.
    for words, syncs in (["format", store], 4), (["load", store, "lilim", INSTANCE, "7"], 3), (["adopt", store, solution], 3):
        trace = ["strace", "-o", calls, "-e", "trace=openat,ftruncate,pwrite64,fdatasync,fsync,write"]
        got = run_program(*words, before=trace)
        if (got.returncode, got.stdout, told_after_syncs(calls, store)) != (0, b"ok\n", [syncs]):
            fail(f"calls: {words[0]}: status {got.returncode}, {got.stdout!r}")
    os.remove(store)
    print("store: no `ok` of format, load and adopt is written before its syncs have returned")


def check_calls(folder):
    if not can_trace():
        skip("the device's calls", "strace is not there or may not trace")
        return
    store, calls = os.path.join(folder, "calls.store"), os.path.join(folder, "calls")
    format_store(store)
    subprocess.run(
        ["strace", "-o", calls, "-e", "trace=openat,pwrite64,fdatasync,fsync,write", PROGRAM, "run", store],
        input=load_lines() + b"build\nsearch 600\npin 1 1\nunpin 1\ncheckpoint\nshow\n",
        capture_output=True,
        check=True,
    )
    told = told_after_syncs(calls, store)
    # The opening; a load, with two syncs; a build and three operations, with one each, and `ok`; a pin that is
    # refused; an unpin; a checkpoint; `show`.
    if told[:10] != [1, 3, 4, 5, 6, 7, 7, 7, 8, 10] or set(told[10:]) != {10}:
        fail(f"calls: so many syncs had returned as each answer was written: {told}")
    print("store: no answer is written before its sync has returned")
    check_told(folder)


def traced_stages(folder, begun, kill=None):
    """Runs the stages on a store that begins with these bytes. Returns the output until the program was killed,
    and the number of syncs.
    """
    store, calls = os.path.join(folder, "stages.store"), os.path.join(folder, "calls")
    with open(store, "wb") as file:
        file.write(begun)
    inject = ["-e", f"inject=fdatasync:signal=KILL:when={kill}"] if kill else []
    got = subprocess.run(
        ["strace", "-o", calls, "-e", "trace=fdatasync", *inject, PROGRAM, "run", store], input=STAGES, capture_output=True
    )
    with open(calls) as file:
        syncs = sum(line.startswith("fdatasync(") for line in file)
    return store, got.stdout.decode(), syncs


def check_stages(folder):
    if not can_trace():
        skip("stages that are interrupted", "strace is not there or may not trace")
        return
    for kind, instance, lines in STAGED:
        check_cuts(folder, kind, instance, lines)


def check_cuts(folder, kind, instance, lines):
    store = os.path.join(folder, f"{kind}.store")
    got = run_program("load", store, kind, instance, "7")
    if got.stdout != b"ok\n":
        fail(f"stages: load: {got}")
    run(store, b"build\n")
    begun = read(store)
    store, told, syncs = traced_stages(folder, begun)
    # Each of the twenty stages sets a deviation, a record with one sync, and anneals, a snapshot with two.
    if told.count("\nat ") != lines or not told.endswith("\nok\n") or syncs < 60:
        fail(f"stages: {syncs} syncs, {told!r}")
    shown = run(store, b"show\n")
    for kill in range(1, syncs + 1):
        store, cut, made = traced_stages(folder, begun, kill)
        if made != kill or not told.startswith(cut) or cut == told:
            fail(f"stages cut at sync {kill}: {made} syncs, {cut!r}")
        known = [int(line.split()[1]) for line in cut.split("\n") if line.startswith("at ")]
        steps = int(re.search(r"^steps (\d+) ", run(store, b"show\n"), re.M).group(1))
        if steps < max(known, default=0):
            fail(f"stages cut at sync {kill}: {known[-1]} steps were told, {steps} are there")
        if not run(store, STAGES).endswith("ok\n") or run(store, b"show\n") != shown:
            fail(f"stages cut at sync {kill} and said again lead to another state")
    print(f"store: stages of {kind}, killed at each of {syncs} syncs and repeated, lead to one state")


def check_copies(folder):
    store, copy = os.path.join(folder, "copied.store"), os.path.join(folder, "copy.store")
    load(store, 0, b"ok")
    with subprocess.Popen([PROGRAM, "run", store], stdin=subprocess.PIPE, stdout=subprocess.PIPE) as process:
        process.stdin.write(b"build\nsearch 10\ncheckpoint\n")
        process.stdin.flush()
        told = [process.stdout.readline() for _ in range(5)]
        if told[0] != b"opened 0\n" or told[4] != b"ok\n":
            fail(f"copies: {told}")
        shutil.copyfile(store, copy)
        process.communicate(b"search 10\n")
    whole, shown = read(copy), run(copy, b"show\n")
    if not shown.startswith("requests 53 next 107\nsteps 10 ") or not run(store, b"show\n").startswith("requests 53 next 107\nsteps 20 "):
        fail(f"copies: a copy after a checkpoint shows {shown[:80]!r}")
    os.truncate(copy, STORE_BYTES - 512)
    for words in [["run", copy], ["load", copy, "lilim", INSTANCE]]:
        got = run_program(*words, lines=b"build\n")
        cure = f"planner: {copy}: it begins like a store, but its end is missing: use a whole copy\n".encode()
        if (got.returncode, got.stdout, got.stderr) != (2, b"store NotFormatted\n", cure) or read(copy) != whole[:-512]:
            fail(f"copies: {words} without the end: status {got.returncode}, {got.stdout!r}, {got.stderr!r}")
    os.truncate(copy, STORE_BYTES)
    if run(copy, b"show\n") != shown:
        fail("copies: a store that is made long again has another state")
    with open(copy, "ab") as file:
        file.write(b"withdraw 3\n")
    got = run_program("check", copy)
    if (got.returncode, got.stdout) != (2, b"store BadLength\n"):
        fail(f"copies: a line too many: status {got.returncode}, {got.stdout!r}, {got.stderr!r}")
    os.truncate(copy, STORE_BYTES)
    if run(copy, b"show\n") != shown:
        fail("copies: a store whose line too many is cut off has another state")
    print("store: a copy after a checkpoint is complete; one without its end, or with a line too many, is left alone")


def check_documents_copies(folder):
    """Checks the documents' commands for a copy, exactly as written there: the copy is consistent, and putting it
    back restores the store.
    """
    commands = commands_shown("cp day.store day.new")
    place = os.path.join(folder, "copies")
    os.mkdir(place)
    os.symlink(PROGRAM, os.path.join(place, "planner"))
    store = os.path.join(place, "day.store")
    load(store, 0, b"ok")
    run(store, b"build\nsearch 3\n")
    before = read(store)
    got = subprocess.run(["sh", "-e", "-c", commands], cwd=place, capture_output=True)
    if (got.returncode, got.stdout, got.stderr) != (0, b"ok\nday.copy: OK\n", b"planner: repeating 3 search steps\n"):
        fail(f"documents: a copy: status {got.returncode}, {got.stdout!r}, {got.stderr!r}")
    if read(store) != before or sorted(os.listdir(place)) != ["day.copy", "day.copy.sha256", "day.store", "planner"]:
        fail(f"documents: a copy: {sorted(os.listdir(place))}")
    print("store: the documents' commands copy a store, check the copy and put it back")


def put(path, offset, new):
    with open(path, "r+b") as file:
        file.seek(offset)
        file.write(new)


def checked(store, status, text):
    """Checks that `check` gives this answer, and leaves the file as it is."""
    before = read(store)
    got = run_program("check", store)
    if (got.returncode, got.stdout) != (status, text) or read(store) != before:
        fail(f"check: status {got.returncode}, {got.stdout!r} instead of {text!r}")


def warned(store, text):
    """Checks that before `run` opens a store it prints the first reason that `check` prints, and that its other
    output stays the same. The same for a store that is refused because a record is not valid. For a store
    without a header it prints that.
    """
    got = run_program("run", store, lines=b"")
    line = text.partition(b"\n")[0]
    wanted = [b"planner: %s: %s" % (store.encode(), line)] if line.startswith(b"suspect ") else []
    if line == b"store Codec":
        wanted = [b"planner: %s: suspect RecordDamaged" % store.encode()]
    if line == b"store NotFormatted":
        wanted = [b"planner: %s: it does not begin like a store: it is another file, its creation was interrupted, or its headers are damaged" % store.encode()]
    told = [it for it in got.stderr.splitlines() if not it.startswith(b"planner: repeating ")]
    if told != wanted or got.stdout.startswith(b"opened ") == text.startswith(b"store "):
        fail(f"run of a store that is {line!r}: {got.stdout!r}, on standard error {got.stderr!r}")


def sequence(number):
    return number.to_bytes(8, "big")


def check_doubts(folder):
    """Checks the integrity warnings. Sequence 1 is the format, 2 the load, 3 a checkpoint. Sequence 2 has four
    records, sequence 3 two.
    """
    store, other = os.path.join(folder, "doubted.store"), os.path.join(folder, "damaged.store")
    format_store(store)
    checked(store, 0, b"ok\n")
    load(store, 0, b"ok")
    checked(store, 0, b"ok\n")
    run(store, b"build\nsearch 1\nsearch 1\nsearch 1\n")
    checked(store, 0, b"ok\n")
    run(store, b"checkpoint\nsearch 1\nsearch 1\n")
    checked(store, 0, b"ok\n")
    # The second half is that of sequence 3. The other half may have any contents. Records begin at 1,024.
    for text, damages in [
        (b"ok\n", [(132_096, b"torn")]),
        (b"suspect HeaderLost\n", [(0, b"X")]),
        (b"suspect HeaderLost\n", [(0, bytes(512))]),
        (b"suspect HeaderLost\n", [(28, b"X")]),
        (b"suspect HeadersApart\n", [(12, sequence(0x102))]),
        (b"suspect HeadersApart\n", [(524, sequence(5))]),
        (b"suspect RecordDamaged\n", [(1_024 + 2 * 512 + 511, b"X")]),
        (b"suspect RecordDamaged\n", [(1_024 + 9 * 512 + 20, b"X")]),
        (b"suspect RecordsMixed\n", [(1_024 + 2 * 512, bytes(512))]),
        (b"suspect RecordsMixed\n", [(1_024 + 512, sequence(1))]),
        (b"suspect HeadersApart\nsuspect RecordDamaged\n", [(524, sequence(7)), (1_024 + 3 * 512 + 12, b"\x00")]),
        (b"store Codec\n", [(1_024 + 12, b"\x00")]),
        (b"store Codec\n", [(1_024 + 512 + 12, b"\x00")]),
        (b"store NotFormatted\n", [(0, b"X"), (512, b"X")]),
    ]:
        shutil.copyfile(store, other)
        for offset, new in damages:
            put(other, offset, new)
        checked(other, 2 if text != b"ok\n" else 0, text)
        warned(other, text)
    got = run_program("check", os.path.join(folder, "no.store"))
    if got.returncode != 3 or not got.stdout.startswith(b"cannot read "):
        fail(f"check of no file: status {got.returncode}, {got.stdout!r}")
    print("store: check reports damaged headers and records, and no undamaged store as suspect")


def check_remains(folder):
    """Checks files without a store. A new store has its header in the second sector, and zeros in the first."""
    store, other = os.path.join(folder, "made.store"), os.path.join(folder, "remains.store")
    format_store(store)
    gone = "it begins like a store, but its end is missing: use a whole copy"
    damaged = "it begins like a store, but its headers are damaged: use a whole copy"
    nothing = "it does not begin like a store: it is another file, its creation was interrupted, or its headers are damaged"
    zeros = "it begins with zeros in place of headers. If a `load` was interrupted while it created the store, nothing is lost: move the file aside and load again. Otherwise use a whole copy"
    empty = "it is empty: `planner load STORE KIND INSTANCE` creates a store in it"
    text = "it is a text file, not a store: `planner load STORE KIND INSTANCE` creates a store from an instance, in a new file"
    within = (
        "it does not end with a whole sector of 512 bytes, so it is not a whole store. If it was a store, use a whole copy. "
        "`planner load STORE KIND INSTANCE` creates a store from an instance, in a new file"
    )
    # A valid header except for its length, which is above that of the largest state.
    too_long = b"PDRSTORE" + (2).to_bytes(4, "big") + sequence(1) + (2_097_153).to_bytes(8, "big")
    for length, damages, line, hint in [
        (STORE_BYTES, [(512, too_long)], "NotFormatted", damaged),
        (STORE_BYTES, [(0, too_long), (512, b"X")], "NotFormatted", damaged),
        (STORE_BYTES, [(512, b"X")], "NotFormatted", nothing),
        (STORE_BYTES - 512, [], "NotFormatted", gone),
        (STORE_BYTES - 512, [(512, b"X")], "NotFormatted", nothing),
        (1_024, [], "NotFormatted", gone),
        (512, [], "NotFormatted", nothing),
        (0, [], "NotFormatted", empty),
        # The file of a `load` that was killed once the file had its length.
        (STORE_BYTES, [(512, bytes(512))], "NotFormatted", zeros),
        (1_024, [(512, bytes(512))], "NotFormatted", zeros),
        (STORE_BYTES, [(511, b"1"), (512, bytes(512))], "NotFormatted", nothing),
        (STORE_BYTES, [(512, bytes(28))], "NotFormatted", zeros),
        # An instance, of which no byte is a control character, and one with such a byte at the end of its first
        # sector.
        (512, [(0, read(INSTANCE)[:512])], "NotFormatted", text),
        (1_024, [(0, read(INSTANCE)[:1_024])], "NotFormatted", text),
        (STORE_BYTES, [(0, ("NAME : L\u00fcbeck\t\r\n" + 512 * "1").encode()[:512] + bytes(512))], "NotFormatted", text),
        (512, [(0, read(INSTANCE)[:511] + b"\x1f")], "NotFormatted", nothing),
        (STORE_BYTES - 1, [], "BadLength", within),
        (511, [], "BadLength", within),
    ]:
        shutil.copyfile(store, other)
        for offset, new in damages:
            put(other, offset, new)
        os.truncate(other, length)
        for word in "run", "timetable", "check":
            got = run_program(word, other, lines=b"")
            if (got.returncode, got.stdout, got.stderr) != (2, f"store {line}\n".encode(), f"planner: {other}: {hint}\n".encode()):
                fail(f"{word} of {length} bytes, {damages}: status {got.returncode}, {got.stdout!r}, on standard error {got.stderr!r}")
    print("store: for a file without a store, what it may be is reported")


def refused(*words):
    """Checks that this subcommand answers that the store is in use."""
    got = subprocess.run([PROGRAM, *words], input=b"build\n", capture_output=True, timeout=60)
    if (got.returncode, got.stdout, got.stderr) != (3, b"store InUse\n", b""):
        fail(f"{words} beside a run: status {got.returncode}, {got.stdout!r}, {got.stderr!r}")


def check_two_at_once(folder):
    store = os.path.join(folder, "shared.store")
    link = os.path.join(folder, "link.store")
    format_store(store)
    os.symlink(store, link)
    with subprocess.Popen([PROGRAM, "run", store], stdin=subprocess.PIPE, stdout=subprocess.PIPE) as process:
        process.stdin.write(load_lines() + b"build\n")
        process.stdin.flush()
        told = [process.stdout.readline() for _ in range(3)]
        if told != [b"opened 0\n", b"ok\n", b"ok\n"]:
            fail(f"shared: {told}")
        with open(store, "rb") as file:
            before = file.read()
        for path in [store, link]:
            refused("run", path)
            refused("format", path)
            refused("load", path, "lilim", INSTANCE)
        with open(store, "rb") as file:
            if file.read() != before:
                fail("shared: a refused program changed the store")
        process.kill()
    if not run(store, b"show\n").startswith("requests 53 next 107\n"):
        fail("shared: the plan is lost after kill -9")
    format_store(store)
    print("store: a second program on a store is refused, and none after kill -9")


def check_full(folder):
    disk = os.path.join(folder, "disk")
    os.mkdir(disk)
    mounted = ["mount", "-t", "tmpfs", "-o", "size=5m", "tmpfs", disk]
    if shutil.which("mount") is None or subprocess.run(mounted, capture_output=True).returncode != 0:
        skip("a full disk", "no tmpfs may be mounted here")
        return
    try:
        check_full_disk(os.path.join(disk, "full.store"), os.path.join(disk, "other"))
    finally:
        subprocess.run(["umount", disk], check=True)
    print("store: a full disk is reported with the system's message")


def fill(path):
    """Fills the disk."""
    with open(path, "wb", buffering=0) as file:
        try:
            while True:
                file.write(bytes(4096))
        except OSError:
            pass


def check_full_disk(store, other):
    words = f"planner: {store}: No space left on device (os error 28)\n".encode()
    with open(other, "wb") as file:
        file.write(bytes(2_000_000))
    got = run_program("format", store)
    wanted = (3, f"cannot read {store}\n".encode(), words)
    if (got.returncode, got.stdout, got.stderr) != wanted:
        fail(f"full: format: status {got.returncode}, {got.stdout!r}, {got.stderr!r}")
    if os.path.getsize(store) != 0:
        fail("full: what was written of the store is still there")
    os.remove(store)
    got = run_program("load", store, "lilim", INSTANCE)
    if (got.returncode, got.stdout, got.stderr) != wanted:
        fail(f"full: load: status {got.returncode}, {got.stdout!r}, {got.stderr!r}")
    os.remove(other)
    format_store(store)
    # Once the store has taken its space, a disk that fills up afterwards does no harm.
    fill(other)
    run(store, load_lines() + b"build\ncheckpoint\n")
    with subprocess.Popen(
        [PROGRAM, "run", store], stdin=subprocess.PIPE, stdout=subprocess.PIPE, stderr=subprocess.PIPE
    ) as process:
        process.stdout.readline()
        # Somebody cuts the store, and its space is gone.
        os.truncate(store, 0)
        fill(other + "-more")
        told, errors = process.communicate(b"checkpoint\nshow\n")
    if (process.returncode, told, errors) != (0, b"fault device\nno Broken\n", words + CURE):
        fail(f"full: run: status {process.returncode}, {told!r}, {errors!r}")


def main():
    require_program()
    stops = int(sys.argv[1]) if len(sys.argv) > 1 else 200
    with tempfile.TemporaryDirectory() as folder:
        check_session(folder)
        check_load(folder)
        check_strict(folder)
        check_repeating(folder)
        check_tries(folder)
        check_documents(folder)
        check_calls(folder)
        check_stages(folder)
        check_copies(folder)
        check_documents_copies(folder)
        check_doubts(folder)
        check_remains(folder)
        check_two_at_once(folder)
        check_full(folder)
        check_stops(folder, stops)


main()
