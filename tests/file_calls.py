#!/usr/bin/env python3
"""Tests, with the built program, calls on files that are not stores and that no contract covers, and full
disks.

1. `-` is standard input, whatever is in the folder, and `./-` is a file. Texts that arrive in pieces are read
   whole. A read that is interrupted is repeated, and one that fails is reported.
2. A folder, a socket, a FIFO, a device, and links that lead nowhere, as a text, a list and a store: reported,
   and nothing is made or changed.
3. `solves`: if a solution can't be written, this is reported before its instance is read, and a file that
   appears there meanwhile stays. A solution is written, then it and its folder are synced, then it is reported.
   If a call on its file or folder fails, that is reported, and no file is left.
4. `upgrade`: files with the same inode number in two file systems are two files. OLD is locked until NEW is
   made.
5. The folder that replaces closed streams can't be opened: nothing is done.
6. A file-size limit and a full disk: reported while stores are made, loaded, upgraded and run, and while
   solutions are written. What was acknowledged is there. The signal of such a limit, if it is not ignored, is a
   crash like any other.
7. `timetable`, `draw` and `instance` read a store concurrently, also on a read-only file system, and refuse a
   store that `run` has open.

Needs the program that rt ci leaves; strace, and a user who may mount a small tmpfs, for a part of it.
"""
import contextlib
import fcntl
import os
import re
import resource
import shutil
import signal
import socket
import subprocess
import sys
import tempfile
import time

# Python leaves no files beside the scripts.
sys.dont_write_bytecode = True
from device_faults import COMMANDS, INSTANCE, opened_as, told_of  # noqa: E402
from planner import PROGRAM, STORE_BYTES, TOP, can_trace, expect, fail, read, require_program, run_program, skip, write  # noqa: E402
from upgrade import old_store  # noqa: E402

# One pickup and its delivery, and the only solution.
PAIR = b"2 10 1\n0 0 0 0 0 100 0 0 0\n1 3 4 4 0 50 2 0 2\n2 6 8 -4 0 60 2 1 0\n"
BOTH = b"Route #1: 1 2\nCost 20\n"
PASS = "pass 0 1 20\n"
NOT_PLAIN = "it is not a regular file"
# Nothing here takes longer.
SECONDS = 60


def told(path, reason):
    """Returns what standard error says about a path, for this error of the system or reason."""
    return f"planner: {path}: {NOT_PLAIN}\n" if reason is NOT_PLAIN else told_of(path, reason)


def without_tracer(errors):
    """Returns the errors without those that strace prints about a path."""
    return "".join(line for line in errors.decode().splitlines(True) if not line.startswith("strace: "))


class Folder:
    """The folder in which the program runs."""

    def __init__(self, path):
        self.path = path
        self.can_trace = can_trace()
        if not self.can_trace:
            skip("calls that fail", "strace is not there or may not trace")
        write(self.at("pair"), PAIR)
        write(self.at("pair.sol"), BOTH)

    def at(self, name):
        return os.path.join(self.path, name)

    def planner(self, *words, lines=b"", before=(), **more):
        """Runs the program and returns status, standard output and standard error."""
        got = run_program(*words, lines=lines, before=before, cwd=self.path, timeout=SECONDS, **more)
        return got.returncode, got.stdout.decode(), without_tracer(got.stderr)

    def status(self, words, output, **more):
        """Returns the status with this file as standard output."""
        how = {"cwd": self.path, "stdout": output, "stderr": subprocess.DEVNULL, "timeout": SECONDS, **more}
        return subprocess.run([PROGRAM, *words], input=b"show\n", **how).returncode

    def start(self, *words, before=(), **more):
        return subprocess.Popen([*before, PROGRAM, *words], cwd=self.path, stdout=subprocess.PIPE, stderr=subprocess.PIPE, **more)

    def faulty(self, paths, fault):
        """Returns the command prefix that makes a call on one of these paths fail like this, by the path as
        given or by its file.
        """
        traced = [word for path in paths for word in ("-P", path, "-P", self.at(path))]
        return ["strace", "-o", os.devnull, *traced, "-e", "trace=" + fault.split(":")[0], "-e", "inject=" + fault]

    def names(self):
        """Returns the names in the folder, with their kinds, or where their links lead."""
        return {it.name: os.readlink(it.path) if it.is_symlink() else os.lstat(it.path).st_mode for it in os.scandir(self.path)}


def ended(started, lines=None):
    """Returns the results of a started program, after these commands."""
    output, errors = started.communicate(lines, timeout=SECONDS)
    return started.returncode, output.decode(), without_tracer(errors)


def check_standard_input(folder):
    """1. Checks `-`, which is also the name of a file here."""
    write(folder.at("-"), b"no instance, and no list\n")
    pair = b"pair\tpair.sol\n"
    for words, lines, wanted in [
        (["audit", "lilim", "-", "pair.sol"], PAIR, PASS),
        (["audit", "lilim", "pair", "-"], BOTH, PASS),
        (["explain", "lilim", "pair", "-"], b"Cost x\n", "solution BadNumber 1\n"),
        (["timetable", "lilim", "-", "pair.sol"], PAIR, PASS),
        (["audits", "lilim", "-"], pair, "pair\tpair.sol\t" + PASS),
        (["audits", "lilim", "pairs"], PAIR, "-\tpair.sol\t" + PASS),
        (["solves", "lilim", "-", "0"], b"pair\tsolved\n", "pair\tsolved\t" + PASS),
        (["solve", "lilim", "-", "0"], PAIR, BOTH.decode()),
        (["load", "store", "lilim", "-"], PAIR, "ok\n"),
    ]:
        write(folder.at("pairs"), b"-\tpair.sol\n")
        got = folder.planner(*words, lines=lines)[1]
        expect(f"{words} over standard input", got[: len(wanted)], wanted)
    one, other = socket.socketpair()
    with one, other:
        one.sendall(b"show\n")
        one.shutdown(socket.SHUT_WR)
        expect("- over a socket", ended(folder.start("audit", "lilim", "-", "pair.sol", stdin=other)), (3, "cannot read -\n", told("-", "ENXIO")))
        status, output, _ = ended(folder.start("run", "store", stdin=other))
        expect("run over a socket", (status, output[-3:]), (0, "ok\n"))
    for name in "./-", "a-":
        write(folder.at(name), PAIR)
        expect(f"the file {name}", folder.planner("audit", "lilim", name, "pair.sol", lines=b"none\n"), (0, PASS, ""))
    write(folder.at("-"), pair)
    expect("the list ./-", folder.planner("audits", "lilim", "./-"), (0, "pair\tpair.sol\t" + PASS, ""))
    for name in "-", "a-", "store", "solved", "pairs":
        os.remove(folder.at(name))


def check_pieces(folder):
    """1. Checks texts that arrive in pieces."""
    os.mkfifo(folder.at("late"))
    for words in ["audit", "lilim", "late", "pair.sol"], ["audit", "lilim", "-", "pair.sol"]:
        started = folder.start(*words, stdin=subprocess.PIPE)
        # A program that does not read to the end ends before everything is written.
        with contextlib.suppress(BrokenPipeError), started.stdin if "-" in words else open(folder.at("late"), "wb", buffering=0) as pipe:
            for piece in PAIR[:30], PAIR[30:31], PAIR[31:]:
                pipe.write(piece)
                pipe.flush()
                time.sleep(0.1)
        started.stdin = None
        expect(f"a text in pieces, {words}", ended(started), (0, PASS, ""))
    os.remove(folder.at("late"))


def check_reads(folder):
    """1. Checks reads that are interrupted or fail."""
    # Longer than one read of a list.
    write(folder.at("list"), 6_000 * b"x\n")
    again = folder.faulty(["pair"], "read:error=EINTR:when=1")
    expect("an interrupted read", folder.planner("audit", "lilim", "pair", "pair.sol", before=again), (0, PASS, ""))
    for name, line in ("pair", "cannot read pair\n"), ("pair.sol", "cannot read pair.sol\n"):
        got = folder.planner("audit", "lilim", "pair", "pair.sol", before=folder.faulty([name], "read:error=EIO:when=1"))
        expect(f"a failing read of {name}", got, (3, line, told(name, "EIO")))
    got = folder.planner("solves", "lilim", "list", "0", before=folder.faulty(["list"], "read:error=EIO:when=2"))
    expect("a failing read of the list of solves", got, (3, "cannot read list\n", told("list", "EIO")))
    status, output, errors = folder.planner("audits", "lilim", "list", before=folder.faulty(["list"], "read:error=EIO:when=2"))
    answers = output.count("bad line\n")
    expect("a failing read of the list of audits", (status, output), (3, answers * "bad line\n" + "cannot read list\n"))
    expect("its message", (0 < answers < 6_000, errors.splitlines(True)[-1]), (True, told("list", "EIO")))
    os.remove(folder.at("list"))


def make_kinds(folder):
    """Makes things that are not plain files, and returns the system's error for each if it is opened for a
    read, and as a store.
    """
    os.mkdir(folder.at("folder"))
    os.symlink("nothing", folder.at("astray"))
    os.symlink("loop", folder.at("loop"))
    with socket.socket(socket.AF_UNIX) as it:
        # The path of a socket must be short.
        here = os.open(folder.path, os.O_RDONLY)
        it.bind(f"/proc/self/fd/{here}/socket")
        os.close(here)
    os.mkfifo(folder.at("fifo"))
    os.symlink("/dev/null", folder.at("device"))
    return [
        ("folder", "EISDIR", "EISDIR"),
        ("astray", "ENOENT", "ENOENT"),
        ("loop", "ELOOP", "ELOOP"),
        ("socket", "ENXIO", "ENXIO"),
        ("pair/under", "ENOTDIR", "ENOTDIR"),
        ("nowhere/under", "ENOENT", "ENOENT"),
        # These two can be read.
        ("fifo", None, NOT_PLAIN),
        ("device", None, NOT_PLAIN),
    ]


def check_kinds(folder):
    """2. Checks each kind."""
    kinds = make_kinds(folder)
    write(folder.at("old.store"), old_store())
    before = folder.names()
    for name, as_text, as_store in kinds:
        texts = [["audit", "lilim", name, "pair.sol"], ["audit", "lilim", "pair", name], ["audits", "lilim", name], ["solves", "lilim", name, "0"]]
        # A subcommand that makes a store follows a link.
        makers = [] if name == "astray" else [["format", name], ["load", name, "lilim", "pair"], ["upgrade", "old.store", name]]
        stores = [["run", name], ["upgrade", name, "new.store"], *makers]
        # A subcommand that only reads a store first checks that it is a plain file.
        looked = NOT_PLAIN if name in ("folder", "socket") else as_store
        readers = [["timetable", name], ["instance", name]]
        for words, reason in [(it, as_text) for it in texts if as_text] + [(it, as_store) for it in stores] + [(it, looked) for it in readers]:
            expect(f"{words}", folder.planner(*words), (3, f"cannot read {name}\n", told(name, reason)))
        expect(f"draw {name}", folder.planner("draw", name), (3, "", told(name, looked) + f"cannot read {name}\n"))
    expect("what stands there then", folder.names(), before)
    expect("the old store", read(folder.at("old.store")), old_store())
    expect("a store that is not there", folder.planner("run", "no.store"), (3, "cannot read no.store\n", told("no.store", "ENOENT")))
    expect("what stands there then", folder.names(), before)


def check_looks(folder):
    """3. Checks problems that are visible before the instance is read. The instance does not exist, which is
    reported only if a solution may be written.
    """
    os.symlink("folder", folder.at("way"))
    cannot, there, free = "cannot write {}\n", "there already\n", "cannot read nowhere\n"
    long_name = 300 * "x"
    looks = [
        ("nowhere/one.sol", cannot, "ENOENT"),
        ("folder/nowhere/one.sol", cannot, "ENOENT"),
        (folder.at("folder/nowhere/one.sol"), cannot, "ENOENT"),
        ("astray/one.sol", cannot, "ENOENT"),
        ("pair/one.sol", cannot, "ENOTDIR"),
        ("loop/one.sol", cannot, "ELOOP"),
        (long_name, cannot, "ENAMETOOLONG"),
        ("folder/nowhere/", cannot, "EISDIR"),
        ("pair.sol", there, None),
        ("astray", there, None),
        ("loop", there, None),
        ("fifo", there, None),
        ("socket", there, None),
        ("folder", there, None),
        (".", there, None),
        ("one.sol", free, "ENOENT"),
        ("./one.sol", free, "ENOENT"),
        ("folder/one.sol", free, "ENOENT"),
        ("way/one.sol", free, "ENOENT"),
        (folder.at("one.sol"), free, "ENOENT"),
    ]
    before = folder.names()
    for path, answer, reason in looks:
        got = folder.planner("solves", "lilim", "-", "0", lines=f"nowhere\t{path}\n".encode())
        errors = told("nowhere" if answer is free else path, reason) if reason else ""
        expect(f"a solution under {path}", got, (3, f"nowhere\t{path}\t" + answer.format(path), errors))
    expect("the files after reading", (folder.names(), os.listdir(folder.at("folder"))), (before, []))


def check_meanwhile(folder):
    """3. Checks a file that appears while the instance is read."""
    os.mkfifo(folder.at("late"))

    def appear(name, make):
        started = folder.start("solves", "lilim", "-", "0", stdin=subprocess.PIPE)
        started.stdin.write(f"late\t{name}\n".encode())
        started.stdin.close()
        started.stdin = None
        # This open waits until the program has opened it, after its look.
        with open(folder.at("late"), "wb") as late:
            make(folder.at(name))
            late.write(PAIR)
        expect(f"{name}, which appeared", ended(started), (3, f"late\t{name}\tthere already\n", ""))

    appear("mine", lambda path: write(path, 100 * b"mine\n"))
    expect("whether the file that appeared is there", os.path.exists(folder.at("mine")), True)
    expect("the file that appeared", read(folder.at("mine")), 100 * b"mine\n")
    appear("other", lambda path: os.symlink("nothing", path))
    expect("the link that appeared", (os.readlink(folder.at("other")), os.path.exists(folder.at("nothing"))), ("nothing", False))
    for name in "late", "mine", "other":
        os.remove(folder.at(name))


def calls_of_solution(trace, path, there):
    """Returns the calls on the solution at this path and on its folder, and when the solution is reported."""
    calls, descriptor, folder_descriptor = [], None, None
    for line in read(trace).decode().splitlines():
        name, _, rest = line.partition("(")
        if name == "openat" and f'"{path}"' in rest:
            if not {"O_WRONLY", "O_CREAT", "O_EXCL"} <= set(re.search(r"O_[A-Z_|]+", rest)[0].split("|")):
                fail(f"a solution is opened by {line}")
            descriptor = rest.rpartition("= ")[2]
        elif descriptor and name == "openat" and f'"{there}"' in rest:
            folder_descriptor = rest.rpartition("= ")[2]
        elif folder_descriptor and re.match(rf"{folder_descriptor}[,)]", rest):
            calls.append("folder's " + name)
        elif descriptor and re.match(rf"{descriptor}[,)]", rest):
            calls.append(name)
            descriptor = None if name == "close" else descriptor
        elif name == "write" and rest.startswith("1,") and "pass" in rest:
            calls.append("told")
    return calls


def check_order(folder):
    """3. Checks the order of the calls that write a solution, all before its line is printed: here, in a
    folder, and by an absolute path.
    """
    trace = folder.at("calls")
    before = ["strace", "-o", trace, "-e", "trace=openat,write,pwrite64,ftruncate,fsync,fdatasync,close"]
    # The first file is that of the look, which is removed again.
    wanted = ["close", "write", "fsync", "folder's fsync", "folder's close", "close", "told"]
    for path, there in ("new.sol", "."), ("folder/new.sol", "folder"), (folder.at("new.sol"), folder.path):
        got = folder.planner("solves", "lilim", "-", "0", lines=f"pair\t{path}\n".encode(), before=before)
        expect(f"a solution under {path}", got[:2], (0, f"pair\t{path}\t" + PASS))
        expect(f"the text under {path}", read(folder.at(path)), BOTH)
        expect(f"the calls of a new file {path}", calls_of_solution(trace, path, there), wanted)
        os.remove(folder.at(path))
    os.remove(trace)


def solved_with(folder, path, fault):
    """Returns the result for a solution `new.sol` if a call on this path fails like this, and whether it exists
    afterwards.
    """
    got = folder.planner("solves", "lilim", "-", "0", lines=b"pair\tnew.sol\n", before=folder.faulty([path], fault))
    return got, os.path.lexists(folder.at("new.sol"))


def check_unwritten(folder):
    """3. Checks a failed call on the file or the folder of a solution. The first file is that of the look."""
    cannot, passed = "pair\tnew.sol\tcannot write new.sol\n", "pair\tnew.sol\t" + PASS
    for call, path, when in [
        ("openat", "new.sol", 1),
        ("openat", "new.sol", 2),
        ("write", "new.sol", 1),
        ("fsync", "new.sol", 1),
        ("openat", ".", 1),
        ("fsync", ".", 1),
    ]:
        for error in "EIO", "EACCES", "EINVAL", "ENOSPC", "EROFS":
            if (call, path, error) == ("fsync", ".", "EINVAL"):
                continue
            what = f"{call} {when} of {path} for a solution with {error}"
            expect(what, solved_with(folder, path, f"{call}:error={error}:when={when}"), ((3, cannot, told("new.sol", error)), False))
        what = f"{call} {when} of {path} for a solution, interrupted"
        expect(what, solved_with(folder, path, f"{call}:error=EINTR:when={when}"), ((0, passed, ""), True))
        expect(f"{what}: its text", read(folder.at("new.sol")), BOTH)
        os.remove(folder.at("new.sol"))
    # This is the error of a file system that has no sync of a folder.
    expect("a folder that can't be synced", solved_with(folder, ".", "fsync:error=EINVAL:when=1"), ((0, passed, ""), True))
    os.remove(folder.at("new.sol"))
    # If the file of the look can't be removed again, the solution counts as one that can't be written.
    expect("a look that stays", solved_with(folder, "new.sol", "unlink,unlinkat:error=EIO:when=1"), ((3, cannot, told("new.sol", "EIO")), True))
    os.remove(folder.at("new.sol"))


def check_old_is_locked(folder):
    """4. Checks the lock, while the sync of the new store takes its time."""
    before = folder.faulty(["new.store"], "fsync:delay_enter=700000:when=1")
    started = folder.start("upgrade", "old.store", "new.store", before=before)
    begun = time.monotonic()
    while not os.path.exists(folder.at("new.store")) or os.path.getsize(folder.at("new.store")) == 0:
        if time.monotonic() - begun > SECONDS:
            fail("upgrade: no new store is made")
        time.sleep(0.01)
    with open(folder.at("old.store"), "rb") as old:
        try:
            fcntl.flock(old, fcntl.LOCK_EX | fcntl.LOCK_NB)
            fail("upgrade: the old store is free before the new one is made")
        except BlockingIOError:
            pass
    expect("upgrade", ended(started), (0, "ok\n", ""))
    os.remove(folder.at("new.store"))


# The commands that read a store, each with what it prints on standard error.
READING = {"timetable": "", "draw": "", "instance": "planner: the instance is printed as lilim\n"}


def check_reading(folder):
    """7. Checks reading beside other processes: `run` has an exclusive lock."""
    expect("load", folder.planner("load", "read.store", "lilim", "pair"), (0, "ok\n", ""))
    folder.planner("run", "read.store", lines=b"build\n")
    texts = {word: folder.planner(word, "read.store") for word in READING}
    for word, (status, output, errors) in texts.items():
        expect(f"{word} of a store", (status, bool(output), errors), (0, True, READING[word]))
    with open(folder.at("read.store"), "rb") as store:
        fcntl.flock(store, fcntl.LOCK_SH)
        for word in READING:
            expect(f"{word} beside a reader", folder.planner(word, "read.store"), texts[word])
        expect("run beside a reader", folder.planner("run", "read.store"), (3, "store InUse\n", ""))
        fcntl.flock(store, fcntl.LOCK_EX)
        for word in READING:
            status, output, errors = folder.planner(word, "read.store")
            expect(f"{word} of a store in use", (status, output + errors), (3, "store InUse\n"))
    os.remove(folder.at("read.store"))


def check_reading_alone(folder):
    """7. Checks a store on a read-only disk."""
    expect("load", folder.planner("load", "disk/day.store", "lilim", "pair"), (0, "ok\n", ""))
    folder.planner("run", "disk/day.store", lines=b"build\nsearch 300\n")
    texts = {word: folder.planner(word, "disk/day.store") for word in READING}
    wanted = ["planner: repeating 300 search steps\n" + it for it in READING.values()]
    expect("steps that are repeated", [text[2] for text in texts.values()], wanted)
    if subprocess.run(["mount", "-o", "remount,ro", folder.at("disk")], capture_output=True).returncode:
        skip("a disk that can't be written", "none may be mounted again")
    else:
        for word in READING:
            expect(f"{word} of a store that can't be written", folder.planner(word, "disk/day.store"), texts[word])
        status, output, _ = folder.planner("run", "disk/day.store")
        expect("run of it", (status, output), (3, "cannot read disk/day.store\n"))
        subprocess.run(["mount", "-o", "remount,rw", folder.at("disk")], check=True)
    os.remove(folder.at("disk/day.store"))


def check_stand_in(folder):
    """5. Checks a system that opens no folder."""
    for error, status in ("EMFILE", 3), ("EACCES", 3), ("ENOMEM", 4):
        got = folder.planner("audit", "lilim", "pair", "pair.sol", before=folder.faulty(["/"], f"openat:error={error}:when=1"))
        expect(f"no folder, by {error}", got, (status, "", ""))


def limited(size):
    """Returns the options that limit the size of files for a process. Its signal stays ignored, as in Python.
    """
    return {"preexec_fn": lambda: resource.setrlimit(resource.RLIMIT_FSIZE, (size, size)), "restore_signals": False}


def run_lines(commands):
    return b"".join(commands)


def shown(folder, store):
    """Returns the state after opening, without the steps that were repeated."""
    return folder.planner("run", store, lines=b"show\n")[1].partition("\n")[2]


def states_of(folder, store):
    """Returns what `show` prints for an empty store, and after each command of a day."""
    states = []
    for count in range(len(COMMANDS) + 1):
        expect("format", folder.planner("format", store)[:2], (0, "ok\n"))
        folder.planner("run", store, lines=run_lines(COMMANDS[:count]))
        states.append(shown(folder, store))
    return states


def expect_acknowledged(what, states, answers, state):
    """Checks that the state has the commands that were answered, and at most one more."""
    count = answers.count("ok\n")
    if state not in states[count : count + 2]:
        fail(f"{what}: {count} commands were acknowledged, and then {state!r}")


def check_size_limit(folder):
    """6. Checks a limit on the size of files, in bytes. It is a whole number of sectors, as with `ulimit -f`:
    another limit would cut a sector.
    """
    cannot = lambda path: (3, f"cannot read {path}\n", told(path, "EFBIG"))
    for size in 0, 99_840:
        for words in ["format", "a.store"], ["load", "a.store", "lilim", "pair"], ["upgrade", "old.store", "a.store"]:
            expect(f"{words} to {size} bytes", folder.planner(*words, **limited(size)), cannot("a.store"))
            expect(f"{words} to {size} bytes: how much is left", os.path.getsize(folder.at("a.store")), 0)
            write(folder.at("a.store"), b"a note")
            if words[0] != "load":
                expect(f"{words} over a note to {size} bytes", folder.planner(*words, **limited(size)), cannot("a.store"))
                expect(f"{words} over a note to {size} bytes: what is left", read(folder.at("a.store")), b"a note")
            os.remove(folder.at("a.store"))
    states = states_of(folder, "day.store")
    day = read(folder.at("day.store"))
    # A store that has its full length: the part beyond the limit is not written.
    expect("format of a day", folder.planner("format", "day.store", **limited(99_840)), (3, "store DeviceFault\n", told("day.store", "EFBIG")))
    expect("a format that was limited", opened_as(folder.at("day.store")), "store NotFormatted\n")
    folder.planner("format", "day.store")
    got = folder.planner("load", "day.store", "lilim", "pair", **limited(99_840))
    expect("load into an empty store", got, (3, "fault device\n", told("day.store", "EFBIG")))
    expect("a load that was limited", opened_as(folder.at("day.store")), "opened 0\nno NoInstance\n")
    for commands, size in ((), 99_840), (COMMANDS[:1], 1_024), (COMMANDS[:1], 99_840), (COMMANDS[:7], 512):
        expect("format", folder.planner("format", "day.store")[:2], (0, "ok\n"))
        folder.planner("run", "day.store", lines=run_lines(commands))
        status, output, errors = folder.planner("run", "day.store", lines=run_lines(COMMANDS[len(commands) :]), **limited(size))
        answers, found, rest = output.partition("fault device\n")
        what = f"a run after {len(commands)} commands to {size} bytes"
        expect(what, (status, found, rest.replace("no Broken\n", "")), (0, "fault device\n", ""))
        if not errors.startswith(told("day.store", "EFBIG")) or "planner: the store's device failed: " not in errors:
            fail(f"{what}: {errors!r}")
        expect_acknowledged(what, states, len(commands) * "ok\n" + answers, shown(folder, "day.store"))
    write(folder.at("day.store"), day)


def check_limited_output(folder):
    """6. Checks output to a file that may not get that long."""
    for words in ["solve", "lilim", "pair", "0"], ["audit", "lilim", "pair", "pair.sol"], ["run", "day.store"]:
        with open(folder.at("output"), "wb") as output:
            expect(f"{words} into three bytes", folder.status(words, output, **limited(3)), 3)
    os.remove(folder.at("output"))


def check_limit_signal(folder):
    """6. Checks the limit's signal: ignored, as by a shell, and not ignored, when it leaves what a crash
    leaves.
    """
    ignoring = ["sh", "-c", "trap '' XFSZ; ulimit -f 100; exec \"$@\"", "sh"]
    expect("format to 100 blocks", folder.planner("format", "a.store", before=ignoring), (3, "cannot read a.store\n", told("a.store", "EFBIG")))
    script = ["sh", "-c", "ulimit -f 100; exec \"$0\" \"$@\"", os.path.join(TOP, "planner"), "format", folder.at("a.store")]
    got = subprocess.run(script, capture_output=True, timeout=SECONDS)
    expect("./planner to 100 blocks", (got.returncode, got.stdout.decode()), (3, f"cannot read {folder.at('a.store')}\n"))
    limit = lambda size: {"preexec_fn": lambda: resource.setrlimit(resource.RLIMIT_FSIZE, (size, size))}
    got = folder.planner("format", "a.store", **limit(99_840))
    if got == (3, "cannot read a.store\n", told("a.store", "EFBIG")):
        return
    expect("format to 99,840 bytes, killed", (got[0], got[1]), (-signal.SIGXFSZ, ""))
    expect("what is left of it", read(folder.at("a.store")), bytes(99_840))
    expect("format after it", folder.planner("format", "a.store"), (0, "ok\n", ""))
    states = states_of(folder, "a.store")
    folder.planner("format", "a.store")
    folder.planner("run", "a.store", lines=run_lines(COMMANDS[:1]))
    status, output, _ = folder.planner("run", "a.store", lines=run_lines(COMMANDS[1:]), **limit(1_024))
    expect("a run to 1,024 bytes", (status, output.startswith("opened 0\n")), (-signal.SIGXFSZ, True))
    expect_acknowledged("a run that the limit's signal stopped", states, "ok\n" + output, shown(folder, "a.store"))
    os.remove(folder.at("a.store"))


def fill(path):
    """Fills the disk."""
    with open(path, "wb", buffering=0) as file:
        try:
            while True:
                file.write(bytes(4096))
        except OSError:
            pass


def check_full_disk(folder):
    """6. Checks a disk of five million bytes, mounted at `disk`, and 4. two file systems whose files have the
    same inode number.
    """
    cannot = lambda path: (3, f"cannot read {path}\n", told(path, "ENOSPC"))
    write(folder.at("disk/taken"), bytes(2_000_000))
    for words in ["format", "disk/new"], ["load", "disk/new", "lilim", "pair"], ["upgrade", "old.store", "disk/new"]:
        expect(f"{words}, no room", folder.planner(*words), cannot("disk/new"))
        expect(f"{words}, no room: what is left", read(folder.at("disk/new")), b"")
        os.remove(folder.at("disk/new"))
    write(folder.at("disk/new"), b"a note")
    expect("upgrade over a note, no room", folder.planner("upgrade", "old.store", "disk/new"), cannot("disk/new"))
    expect("the note", read(folder.at("disk/new")), b"a note")
    expect("the old store", read(folder.at("old.store")), old_store())
    os.remove(folder.at("disk/new"))
    fill(folder.at("disk/rest"))
    got = folder.planner("solves", "lilim", "-", "0", lines=b"pair\tdisk/new.sol\npair\tnew.sol\n")
    wanted = "pair\tdisk/new.sol\tcannot write disk/new.sol\npair\tnew.sol\t" + PASS
    expect("solves, no room", got, (3, wanted, told("disk/new.sol", "ENOSPC")))
    expect("solves, no room: what is left", os.path.lexists(folder.at("disk/new.sol")), False)
    os.remove(folder.at("new.sol"))
    for words in ["solve", "lilim", "pair", "0"], ["run", "day.store"]:
        with open(folder.at("disk/output"), "wb") as output:
            expect(f"{words} into a full disk", folder.status(words, output), 3)
    for name in "taken", "rest", "output":
        os.remove(folder.at(f"disk/{name}"))
    check_full_store(folder)


def check_full_store(folder):
    """6. Checks a store that has taken its space: a disk that fills up afterwards does no harm, unless the
    store is cut.
    """
    write(folder.at("instance"), INSTANCE)
    expect("load with room", folder.planner("load", "disk/day.store", "vrp", "instance", "7"), (0, "ok\n", ""))
    fill(folder.at("disk/rest"))
    status, output, _ = folder.planner("run", "disk/day.store", lines=run_lines(COMMANDS[1:]))
    expect("a run beside a full disk", (status, output.count("ok\n")), (0, len(COMMANDS) - 1))
    for name in "rest", "day.store":
        os.remove(folder.at(f"disk/{name}"))


def check_numbers(folder):
    """4. Checks two files with the same inode number."""
    one, other = folder.at("disk/one"), folder.at("other/other")
    write(one, old_store())
    write(other, b"")
    if os.stat(one).st_ino != os.stat(other).st_ino:
        skip("files of one number", "these file systems count otherwise")
        return
    expect("two files of one number", folder.planner("upgrade", "disk/one", "other/other"), (0, "ok\n", ""))
    expect("the old one", read(one), old_store())
    expect("bytes of the new one", os.path.getsize(other), STORE_BYTES)


def check_mounted(folder):
    """Runs the checks that need two file systems, in a namespace of their own."""
    for name in "disk", "other":
        os.mkdir(folder.at(name))
    mounts = 'mount -t tmpfs -o size=5m tmpfs "$0/disk" && mount -t tmpfs -o size=5m tmpfs "$0/other"'
    apart = ["unshare", "-rm", "sh", "-c", mounts, folder.path]
    if not shutil.which("unshare") or subprocess.run(apart, capture_output=True).returncode:
        skip("full disks and files of one number", "no tmpfs may be mounted here")
        return
    apart[4] += ' && exec "$@"'
    if subprocess.run([*apart, sys.executable, os.path.abspath(__file__), "mounted", folder.path], timeout=2 * SECONDS).returncode:
        sys.exit(1)


def main():
    require_program()
    if sys.argv[1:2] == ["mounted"]:
        folder = Folder(sys.argv[2])
        check_numbers(folder)
        os.remove(folder.at("disk/one"))
        check_reading_alone(folder)
        check_full_disk(folder)
        return
    with tempfile.TemporaryDirectory() as path:
        folder = Folder(path)
        check_standard_input(folder)
        check_pieces(folder)
        check_kinds(folder)
        check_looks(folder)
        check_meanwhile(folder)
        check_reading(folder)
        if folder.can_trace:
            check_reads(folder)
            check_order(folder)
            check_unwritten(folder)
            check_old_is_locked(folder)
            check_stand_in(folder)
        check_size_limit(folder)
        check_limited_output(folder)
        check_limit_signal(folder)
        check_mounted(folder)
    print("file_calls: files are read and made as requested, and each failure is reported")


if __name__ == "__main__":
    main()
