#!/usr/bin/env python3
"""Faults of the system under a store in a file: each call on the file fails in turn, is interrupted, or moves
only some bytes.

A day's commands are run over a store while strace makes one call fail.
1. A write or a sync fails: the answers before it are those of a run without a fault, one command is answered
   `fault device` and those after it `no Broken`, the system's message is on standard error, and the store opens
   with the state after all acknowledged commands or with one more. A read that fails, or a file that ends too
   early, is reported when the store is opened.
2. A call that a signal interrupts is repeated: all answers are as without the signal.
3. A write or a read of some bytes is followed by one of the rest.
4. Each call by which a store is opened, made over an existing file, loaded or upgraded, also the calls on its
   folder: it is reported with the system's message, or as out of memory, and the file is as the calls before
   have left it. Of the writes of zeros, the first and the last.
5. Writes of the answers and reads of the input that are interrupted, short or fail.

Needs strace, and the program that rt ci leaves.
"""
import errno
import os
import re
import shutil
import subprocess
import sys
import tempfile

# Python leaves no files beside the scripts.
sys.dont_write_bytecode = True
from planner import PROGRAM, STORE_BYTES, can_trace, fail, read, require_program, run_program, skip, write  # noqa: E402
from upgrade import old_store  # noqa: E402

CALLS = "openat,flock,fstat,newfstatat,statx,ftruncate,pread64,pwrite64,fsync,fdatasync"
INSTANCE = b"""NAME : t3
TYPE : CVRP
DIMENSION : 4
EDGE_WEIGHT_TYPE : EUC_2D
CAPACITY : 10
NODE_COORD_SECTION
1 0 0
2 3 4
3 6 8
4 0 5
DEMAND_SECTION
1 0
2 6
3 4
4 5
DEPOT_SECTION
1
-1
EOF
"""
# Each command is one commit of the store: a search or an annealing has one operation.
COMMANDS = [
    b"load vrp 7 %d\n" % len(INSTANCE) + INSTANCE,
    b"build\n",
    b"search 100\n",
    b"anneal 100\n",
    b"add1 1 5 5 0 1000 0\n",
    b"checkpoint\n",
    b"deviation 3\n",
    b"search 50\n",
]


def told_of(path, error):
    """Returns what standard error says about a call on this path that failed with this error."""
    number = getattr(errno, error)
    return f"planner: {path}: {os.strerror(number)} (os error {number})\n"


def traced(folder, words, lines, inject=None, paths=None):
    """Returns status, output, standard error, and the calls on these paths, or on the last argument, with this
    fault.
    """
    trace = os.path.join(folder, "calls")
    fault = ["-e", "inject=" + inject] if inject else []
    traced_paths = [word for path in paths or [words[-1]] for word in ("-P", path)]
    command = ["strace", "-o", trace, *traced_paths, "-e", "trace=" + CALLS, *fault, PROGRAM, *words]
    got = subprocess.run(command, input=lines, capture_output=True, timeout=60)
    with open(trace, errors="replace") as file:
        calls = [line for line in file if re.match(r"\w+\(", line)]
    return got.returncode, got.stdout.decode(), got.stderr.decode(), calls


def count_of(calls, name):
    return sum(line.startswith(name + "(") for line in calls)


def numbered(calls):
    """Returns the name and the number of each call. If a name has more than forty calls, only the first and the
    last are included.
    """
    counts = {name: count_of(calls, name) for name in sorted({line.partition("(")[0] for line in calls})}
    for name, count in counts.items():
        yield from ((name, number) for number in range(1, count + 1) if count <= 40 or number < 3 or number > count - 5)


def opened_as(path):
    """Returns the output of opening the file, and the answer to `next`."""
    got = run_program("run", path, lines=b"next\n")
    return got.stdout.decode()


class Store:
    """A new store for each run, and the results of runs without a fault."""

    def __init__(self, folder):
        self.folder = folder
        self.path = os.path.join(folder, "day.store")
        self.empty = os.path.join(folder, "empty.store")
        got = run_program("format", self.empty)
        if got.returncode:
            fail(f"format: {got}")
        self.states = [self.shown_after(count) for count in range(len(COMMANDS) + 1)]
        status, self.output, _, self.calls = self.run()
        if status:
            fail(f"a run without a fault: status {status}")

    def renew(self):
        shutil.copyfile(self.empty, self.path)

    def shown(self):
        """Returns the state after opening, without the steps that were repeated."""
        got = run_program("run", self.path, lines=b"show\n")
        return got.stdout.decode().partition("\n")[2]

    def shown_after(self, count):
        self.renew()
        run_program("run", self.path, lines=b"".join(COMMANDS[:count]))
        return self.shown()

    def run(self, inject=None):
        self.renew()
        return traced(self.folder, ["run", self.path], b"".join(COMMANDS), inject)


def check_failed_call(store, name, number, error):
    """1. Checks one failed call of the run, the first of which has number 1."""
    what = f"{name} {number} with {error}"
    status, output, errors, _ = store.run(f"{name}:error={error}:when={number}")
    if told_of(store.path, error) not in errors:
        fail(f"{what}: {errors!r} on standard error")
    if output == "store DeviceFault\n":
        if (status, store.shown()) != (3, store.states[0]):
            fail(f"{what}, in opening: status {status}")
        return "opening"
    if "planner: the store's device failed: continue with a copy" not in errors:
        fail(f"{what}: no cure in {errors!r}")
    answers, found, rest = output.partition("fault device\n")
    acknowledged = answers.count("ok\n")
    if not found or not store.output.startswith(answers):
        fail(f"{what}: {output!r}")
    if rest != "no Broken\n" * (len(COMMANDS) - acknowledged - 1):
        fail(f"{what}: after the fault {rest!r}")
    shown = store.shown()
    if shown not in store.states[acknowledged : acknowledged + 2]:
        fail(f"{what}: {acknowledged} acknowledged, and then {shown!r}")
    return "command"


def check_failed_calls(store):
    met = {"opening": 0, "command": 0}
    for name in ("pwrite64", "fdatasync"):
        for number in range(1, count_of(store.calls, name) + 1):
            # EINVAL is the error of a file system that has no sync.
            for error in ("EIO", "ENOSPC", "EINVAL")[: 3 if name == "fdatasync" else 2]:
                met[check_failed_call(store, name, number, error)] += 1
    for number in range(1, count_of(store.calls, "pread64") + 1):
        met[check_failed_call(store, "pread64", number, "EIO")] += 1
    if 0 in met.values():
        fail(f"failed calls: {met}")
    print(f"device_faults: failed calls: {met}, each reported, and no acknowledged command lost")


def check_file_that_ends(store):
    """Checks a read that returns no byte, as if the file had been cut off while it is open."""
    status, output, _, _ = store.run("pread64:retval=0:when=1")
    if (status, output) != (3, "store DeviceFault\n"):
        fail(f"a file that ends: status {status}, {output!r}")


def check_interrupted_calls(store):
    for name in ("openat", "flock", "pread64", "pwrite64", "fdatasync"):
        for number in range(1, count_of(store.calls, name) + 1):
            status, output, errors, calls = store.run(f"{name}:error=EINTR:when={number}")
            if (status, output, errors) != (0, store.output, ""):
                fail(f"{name} {number} interrupted: status {status}, {output!r}, {errors!r}")
            if count_of(calls, name) != count_of(store.calls, name) + 1:
                fail(f"{name} {number} interrupted: not made again")
    print("device_faults: an interrupted call is repeated")


def check_short_calls(store):
    for name in ("pread64", "pwrite64"):
        for number in (1, count_of(store.calls, name)):
            calls = store.run(f"{name}:retval=100:when={number}")[3]
            calls = [re.search(r", (\d+), (\d+)\) += ", line) for line in calls if line.startswith(name + "(")]
            (count, offset), (rest, place) = [tuple(map(int, it.groups())) for it in calls[number - 1 : number + 1]]
            if (rest, place) != (count - 100, offset + 100):
                fail(f"{name} {number} of 100 bytes is followed by one of {rest} at {place}")
    print("device_faults: after a short call the rest is read or written")


def resized(before):
    """Returns these bytes cut off or filled with zeros to the length of a store."""
    return ((before or b"") + bytes(STORE_BYTES))[:STORE_BYTES]


# The parts that a format writes: the headers and records, and the snapshot of an odd sequence.
FRONT, HALF = 258 * 512, 4_354 * 512


class Making:
    """A store that is made over existing bytes, in a folder of its own."""

    def __init__(self, store):
        self.empty = read(store.empty)
        self.folder = os.path.join(store.folder, "making")
        self.path = os.path.join(self.folder, "new.store")
        os.mkdir(self.folder)

    def run(self, before, inject=None):
        """Makes the store over these bytes, or over no file."""
        if os.path.exists(self.path):
            os.remove(self.path)
        if before is not None:
            write(self.path, before)
        return traced(os.path.dirname(self.folder), ["format", self.path], b"", inject, [self.path, self.folder])

    def made(self, before):
        """Returns these bytes after a format. It writes only its own sectors."""
        old, new = resized(before), self.empty
        return new[:FRONT] + old[FRONT:HALF] + new[HALF : HALF + 512] + old[HALF + 512 :]

    def left(self):
        return read(self.path) if os.path.exists(self.path) else None


def is_of_device(calls, name, number):
    """Returns whether the call is one of the store's own, and not one of opening its file: its last three
    writes, and their syncs.
    """
    return name == "fdatasync" or name == "pwrite64" and number > count_of(calls, name) - 3


def check_made(making, what, before, calls, name, number):
    """Checks the file after a format with a failed call."""
    left = making.left()
    if not is_of_device(calls, name, number):
        # Only the length may have changed, by the calls that succeeded.
        is_resized = name == "fsync" and (count_of(calls, "ftruncate") or number == 2) or name == "openat" and number == 2
        wanted = resized(before) if is_resized else before or b""
        if (left or b"") != wanted:
            fail(f"{what}: {len(left or b'')} bytes are there")
    elif name == "pwrite64" and number == count_of(calls, name) - 2:
        if left != resized(before):
            fail(f"{what}: the file was changed before the first write")
    else:
        # After the last write everything is in the file, though it may not be durable.
        wanted = "opened 0\nno NoInstance\n" if (name, number) == ("fdatasync", 3) else "store NotFormatted\n"
        if opened_as(making.path) != wanted:
            fail(f"{what}: the file opens with {opened_as(making.path)!r}")


def check_format(making, before):
    status, output, errors, calls = making.run(before)
    if (status, output, errors, making.left()) != (0, "ok\n", "", making.made(before)):
        fail(f"format over {before and len(before)} bytes: status {status}, {output!r}, {errors!r}")
    for name, number in numbered(calls):
        for error in ("EIO", "ENOMEM"):
            what = f"format over {before and len(before)} bytes, {name} {number} with {error}"
            status, output, errors, _ = making.run(before, f"{name}:error={error}:when={number}")
            if is_of_device(calls, name, number):
                wanted = 3, "store DeviceFault\n"
            else:
                wanted = (4, "store OutOfMemory\n") if error == "ENOMEM" else (3, f"cannot read {making.path}\n")
            if (status, output, errors) != (*wanted, told_of(making.path, error)):
                fail(f"{what}: status {status}, {output!r}, {errors!r}")
            check_made(making, what, before, calls, name, number)
    return calls


def check_formats(store):
    """4. Checks a store that is made over no file, a shorter file, a longer one, and a store."""
    making = Making(store)
    store.renew()
    run_program("run", store.path, lines=b"".join(COMMANDS))
    day = read(store.path)
    for before in (None, b"a note", day + bytes(1024), day):
        calls = check_format(making, before)
        if bool(count_of(calls, "ftruncate")) != (len(before or b"") >= STORE_BYTES):
            fail(f"format over {before and len(before)} bytes cuts it {count_of(calls, 'ftruncate')} times")
    # A file that the system can't sync, while it is made and while it is written.
    for name, output in (("fsync", f"cannot read {making.path}\n"), ("fdatasync", "store DeviceFault\n")):
        got = making.run(None, f"{name}:error=EINVAL:when=1")[:3]
        if got != (3, output, told_of(making.path, "EINVAL")):
            fail(f"a file without {name}: {got}")
    # A folder that the system can't sync.
    status, output, errors, _ = making.run(None, "fsync:error=EINVAL:when=2")
    if (status, output, errors, making.left()) != (0, "ok\n", "", making.made(None)):
        fail(f"a folder without a sync: status {status}, {output!r}, {errors!r}")
    print("device_faults: each failed call of a format is reported, and leaves what it may")


def check_reading(store, word):
    """4. Checks a store that a subcommand only reads: each of its reads."""
    store.renew()
    reads = count_of(traced(store.folder, [word, store.path], b"")[3], "pread64")
    lines = "store DeviceFault\n", told_of(store.path, "EIO")
    for number in range(1, reads + 1):
        status, output, errors, _ = traced(store.folder, [word, store.path], b"", f"pread64:error=EIO:when={number}")
        if (status, output, errors) != (3, *(("", "".join(lines)) if word == "draw" else lines)):
            fail(f"{word} whose read {number} of {reads} fails: status {status}, {output!r}, {errors!r}")


def check_opening(store):
    """4. Checks a store that is opened."""
    cases = [(name, number, error) for name, number in numbered(store.calls) if name not in ("pread64", "pwrite64", "fdatasync")
             for error in ("EACCES", "EINVAL", "ENOLCK", "ENOMEM", "EOPNOTSUPP", "EROFS")]
    for name, number, error in cases:
        status, output, errors, _ = store.run(f"{name}:error={error}:when={number}")
        wanted = (4, "store OutOfMemory\n") if error == "ENOMEM" else (3, f"cannot read {store.path}\n")
        if (status, output, errors) != (*wanted, told_of(store.path, error)):
            fail(f"run, {name} {number} with {error}: status {status}, {output!r}, {errors!r}")
    for word in ("timetable", "draw", "instance", "check"):
        check_reading(store, word)
    status, output, _, _ = store.run("flock:error=EAGAIN:when=1")
    if (status, output) != (3, "store InUse\n"):
        fail(f"a lock that another has: status {status}, {output!r}")
    print(f"device_faults: {len(cases)} faults of a file that is opened are reported")


def check_load(store, before):
    """4. Checks a store that is loaded, over no file or over an empty store."""
    instance = os.path.join(store.folder, "instance.vrp")
    write(instance, INSTANCE)
    path = os.path.join(store.folder, "making", "load.store")
    words = ["load", path, "vrp", instance, "7"]

    def run(inject=None):
        if os.path.exists(path):
            os.remove(path)
        if before is not None:
            write(path, before)
        return traced(store.folder, words, b"", inject, [path, os.path.dirname(path)])

    status, output, _, calls = run()
    if (status, output) != (0, "ok\n"):
        fail(f"load: status {status}, {output!r}")
    loaded = read(path)
    told = {f"cannot read {path}\n": 0, "store DeviceFault\n": 0, "fault device\n": 0}
    for name, number in numbered(calls):
        what = f"load, {name} {number} of {count_of(calls, name)}"
        status, output, errors, _ = run(f"{name}:error=EIO:when={number}")
        if status != 3 or output not in told or errors != told_of(path, "EIO"):
            fail(f"{what}: status {status}, {output!r}, {errors!r}")
        told[output] += 1
        if before is not None and (output == "fault device\n") != (name == "pwrite64" or name == "fdatasync" and number > 1):
            fail(f"{what}: {output!r}")
        left = read(path) if os.path.exists(path) else b""
        if (left == loaded) != ((name, number) == ("fdatasync", count_of(calls, "fdatasync"))):
            fail(f"{what}: the instance is there, or it isn't")
        if before is not None and left != loaded and opened_as(path) != "opened 0\nno NoInstance\n":
            fail(f"{what}: the file opens with {opened_as(path)!r}")
    if 0 in told.values():
        fail(f"load: {told}")


def check_upgrade(store):
    """4. Checks an upgrade: the old store stays unchanged, and each fault is reported for the file whose call
    it was.
    """
    old, new = os.path.join(store.folder, "old.store"), os.path.join(store.folder, "making", "upgraded.store")
    write(old, old_store())

    def run(paths, inject=None):
        if os.path.exists(new):
            os.remove(new)
        return traced(store.folder, ["upgrade", old, new], b"", inject, paths)

    for side, paths, path in (("store", [old], old), ("new", [new, os.path.dirname(new)], new)):
        status, output, _, calls = run(paths)
        if (status, output) != (0, "ok\n"):
            fail(f"upgrade: status {status}, {output!r}")
        for name, number in numbered(calls):
            # If the system can't say whether both are one file, they count as two.
            if "stat" in name:
                continue
            for error in ("EIO", "ENOMEM"):
                status, output, errors, _ = run(paths, f"{name}:error={error}:when={number}")
                if name in ("pread64", "fdatasync") or name == "pwrite64" and is_of_device(calls, name, number):
                    wanted = 3, f"{side} DeviceFault\n"
                else:
                    wanted = (4, f"{side} OutOfMemory\n") if error == "ENOMEM" else (3, f"cannot read {path}\n")
                if (status, output, errors) != (*wanted, told_of(path, error)):
                    fail(f"upgrade, {name} {number} of {path} with {error}: status {status}, {output!r}, {errors!r}")
                if read(old) != old_store():
                    fail(f"upgrade, {name} {number} of {path} with {error}: the old store was changed")
    print("device_faults: each failed call of a load and of an upgrade is reported")


class Streams:
    """A run whose input and answers are files."""

    def __init__(self, store):
        self.store = store
        self.input = os.path.join(store.folder, "lines")
        self.output = os.path.join(store.folder, "answers")
        write(self.input, b"".join(COMMANDS))

    def run(self, path, call, inject=None):
        """Returns the status, the answers, and how many bytes each such call on the path moved."""
        self.store.renew()
        trace = os.path.join(self.store.folder, "calls")
        fault = ["-e", "inject=" + inject] if inject else []
        command = ["strace", "-o", trace, "-P", path, "-e", "trace=" + call, *fault, PROGRAM, "run", self.store.path]
        with open(self.input, "rb") as lines, open(self.output, "wb") as answers:
            status = subprocess.run(command, stdin=lines, stdout=answers, stderr=subprocess.DEVNULL, timeout=60).returncode
        with open(trace, errors="replace") as file:
            moved = [int(it) for it in re.findall(rf"^{call}\(.* = (-?\d+)", file.read(), re.MULTILINE)]
        return status, read(self.output).decode(), moved


def check_answers(store):
    """5. Checks the answers."""
    streams = Streams(store)
    status, answers, moved = streams.run(streams.output, "write")
    if (status, answers, sum(moved)) != (0, store.output, len(store.output)):
        fail(f"answers in a file: status {status}, {answers!r}")
    for number in range(1, len(moved) + 1):
        before, its = sum(moved[: number - 1]), moved[number - 1]
        status, answers, again = streams.run(streams.output, "write", f"write:error=EINTR:when={number}")
        if (status, answers, len(again)) != (0, store.output, len(moved) + 1):
            fail(f"write {number} interrupted: status {status}, {answers!r}")
        # The call reports one byte, but none was written.
        status, answers, short = streams.run(streams.output, "write", f"write:retval=1:when={number}")
        if (status, answers) != (0, store.output[:before] + store.output[before + 1 :]) or its > 1 and short[number] != its - 1:
            fail(f"write {number} of a byte: status {status}, {answers!r}")
        for fault in ("error=EIO", "retval=0")[: 2 if number in (1, len(moved)) else 1]:
            status, answers, _ = streams.run(streams.output, "write", f"write:{fault}:when={number}")
            if (status, answers) != (3, store.output[:before]):
                fail(f"write {number} with {fault}: status {status}, {answers!r}")
            acknowledged = answers.count("ok\n")
            if store.shown() not in store.states[acknowledged : acknowledged + 2]:
                fail(f"write {number} with {fault}: {acknowledged} acknowledged, and then {store.shown()!r}")
    print(f"device_faults: {len(moved)} writes of answers are repeated, continued, or reported by the status")


def check_input(store):
    """5. Checks the input."""
    streams = Streams(store)
    _, _, moved = streams.run(streams.input, "read")
    for number in range(1, len(moved) + 1):
        status, answers, again = streams.run(streams.input, "read", f"read:error=EINTR:when={number}")
        if (status, answers, len(again)) != (0, store.output, len(moved) + 1):
            fail(f"read {number} interrupted: status {status}, {answers!r}")
        status, answers, _ = streams.run(streams.input, "read", f"read:error=EIO:when={number}")
        told, found, rest = answers.partition("cannot read input\n")
        if (status, found, rest) != (3, "cannot read input\n", "") or not store.output.startswith(told):
            fail(f"read {number} fails: status {status}, {answers!r}")
    print("device_faults: an interrupted read of the input is repeated, and one that fails is reported")


def main():
    if not can_trace():
        skip("", "strace is not there or may not trace")
        return
    require_program()
    with tempfile.TemporaryDirectory() as folder:
        store = Store(folder)
        check_failed_calls(store)
        check_file_that_ends(store)
        check_interrupted_calls(store)
        check_short_calls(store)
        check_opening(store)
        check_formats(store)
        check_load(store, None)
        check_load(store, read(store.empty))
        check_upgrade(store)
        check_answers(store)
        check_input(store)


if __name__ == "__main__":
    main()
