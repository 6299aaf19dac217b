#!/usr/bin/env python3
"""Tests a session, an upgrade and a format when one allocation fails.

Runs five commands over a store, an upgrade of a version 1 store, and a format over a store with an instance, by
the built program again and again: first the first allocation of the whole program fails, then the second one,
and so on. Each run must end as promised. A command that runs out of memory answers `no OutOfMemory` and changes
nothing, and is executed when it is repeated. A program that ends because it is out of memory has status 4 and
leaves what was acknowledged, or one command more. An upgrade is then repeated, and so is a format, which has
left the store as it was.

Needs a C compiler, for the few lines that make an allocation fail, and the program that rt ci leaves.
"""

import collections
import os
import pathlib
import shutil
import subprocess
import sys
import tempfile

# Python leaves no files beside the scripts.
sys.dont_write_bytecode = True
from device_faults import INSTANCE  # noqa: E402
from planner import PROGRAM, fail, require_program, run_program, skip  # noqa: E402
from upgrade import old_store  # noqa: E402

COMMANDS = [
    b"load vrp 7 %d\n" % len(INSTANCE) + INSTANCE,
    b"build\n",
    b"search 3\n",
    b"add1 1 5 5 0 1000 0\n",
    b"checkpoint\n",
]
# The result of a run in which the failed allocation did no harm.
UNHARMED = "as with ample memory"

# A shim over the C library's functions. Fails the allocation whose number is in REFUSED, and prints at the end
# how many there were.
SHIM = r"""
#define _GNU_SOURCE
#include <dlfcn.h>
#include <stdio.h>
#include <stdlib.h>
static long made = 0, refused = -1;
static int is_refused(void) {
    if (refused < 0) { const char *text = getenv("REFUSED"); refused = text ? atol(text) : 0; }
    return ++made == refused;
}
__attribute__((destructor)) static void tell(void) { fprintf(stderr, "%ld\n", made); }
#define REAL(name, type) static type *real; if (!real) real = (type *)dlsym(RTLD_NEXT, name)
typedef void *sized(size_t);
typedef void *pair(size_t, size_t);
typedef void *grown(void *, size_t);
typedef int placed(void **, size_t, size_t);
void *malloc(size_t n) { REAL("malloc", sized); return is_refused() ? NULL : real(n); }
void *calloc(size_t n, size_t m) { REAL("calloc", pair); return is_refused() ? NULL : real(n, m); }
void *aligned_alloc(size_t n, size_t m) { REAL("aligned_alloc", pair); return is_refused() ? NULL : real(n, m); }
void *realloc(void *p, size_t n) { REAL("realloc", grown); return is_refused() ? NULL : real(p, n); }
int posix_memalign(void **p, size_t n, size_t m) { REAL("posix_memalign", placed); return is_refused() ? 12 : real(p, n, m); }
"""


def refusing(shim, number):
    """Returns the environment in which the allocation with this number fails, 0 for none."""
    return {**os.environ, "LD_PRELOAD": str(shim), "REFUSED": str(number)}


class Session:
    """A run over a store, one command at a time."""

    def __init__(self, store, environment=None):
        self.process = subprocess.Popen([PROGRAM, "run", store], stdin=subprocess.PIPE, stdout=subprocess.PIPE, stderr=subprocess.PIPE, env=environment)
        self.opened = self.process.stdout.readline()

    def answer(self, line):
        """Returns the answer to a command, or the rest of the output if the program ends."""
        try:
            self.process.stdin.write(line)
            self.process.stdin.flush()
        except BrokenPipeError:
            return b""
        text = b""
        for told in self.process.stdout:
            text += told
            if told == b"ok\n" or told.startswith((b"no ", b"fault ")):
                break
        return text

    def close(self):
        """Ends the run, and returns its status and the last line of standard error."""
        errors = self.process.communicate()[1]
        return self.process.returncode, errors.splitlines()[-1]


def shown(store):
    """Returns the state after opening with ample memory."""
    session = Session(store)
    text = session.answer(b"show\n")
    session.process.communicate()
    return text


class Wanted:
    """The answers to the commands with ample memory, and what `show` prints before them and after each."""

    def __init__(self, store):
        session = Session(store)
        self.shown = [session.answer(b"show\n")]
        self.answers = []
        for command in COMMANDS:
            self.answers.append(session.answer(command))
            self.shown.append(session.answer(b"show\n"))
        session.process.communicate()


def end_of_session(store, wanted, environment):
    """Returns the result of the commands with a failed allocation, and how many allocations there were. A
    refused command is repeated.
    """
    session, done, end = Session(store, environment), 0, UNHARMED
    while done < len(COMMANDS):
        answer = session.answer(COMMANDS[done])
        if answer == b"no OutOfMemory\n" and end == UNHARMED:
            end = "no OutOfMemory"
            if session.answer(b"show\n") != wanted.shown[done]:
                fail(f"command {done} was refused memory and changed the state")
        elif answer == wanted.answers[done]:
            done += 1
        else:
            break
    status, made = session.close()
    if done < len(COMMANDS):
        if status != 4:
            fail(f"command {done}: {answer!r}, status {status}")
        end = "status 4"
    elif status not in (0, 4):
        fail(f"all commands were done, and then status {status}")
    if shown(store) not in wanted.shown[done : done + 1 + (done < len(COMMANDS))]:
        fail(f"{done} commands were acknowledged, then {shown(store)!r}")
    return end, int(made)


def end_of_upgrade(old, new, wanted, environment):
    """Returns the same for an upgrade."""
    got = run_program("upgrade", old, new, env=environment)
    end = {0: UNHARMED, 4: "status 4"}.get(got.returncode)
    if end is None:
        fail(f"upgrade: {got}")
    if end != UNHARMED:
        run_program("upgrade", old, new, check=True)
    if wanted is not None and shown(new) != wanted:
        fail(f"upgrade: {end}, and then {shown(new)!r}")
    return end, int(got.stderr.splitlines()[-1])


def end_of_format(store, wanted, environment):
    """Returns the same for a format, by what `show` prints before and after it."""
    got = run_program("format", store, env=environment)
    end = {(0, b"ok\n"): UNHARMED, (4, b"store OutOfMemory\n"): "OutOfMemory", (4, b""): "status 4"}.get((got.returncode, got.stdout))
    if end is None:
        fail(f"format: {got}")
    if end != UNHARMED:
        if shown(store) != wanted[0]:
            fail(f"format: {end}, and then {shown(store)!r}")
        run_program("format", store, check=True)
    if shown(store) != wanted[1]:
        fail(f"format: done, and then {shown(store)!r}")
    return end, int(got.stderr.splitlines()[-1])


def refuse_each(name, ended, met):
    """Fails each allocation in turn, beginning with none. Each of these results must occur."""
    end, allocations = ended(0)
    if end != UNHARMED or allocations == 0:
        fail(f"{name}: {end}, {allocations} allocations")
    ends = collections.Counter(ended(number)[0] for number in range(1, allocations + 1))
    if met - set(ends):
        fail(f"{name}: none is {met - set(ends)}")
    print(f"refused_allocations: {name}: {allocations} allocations refused in turn, each as promised: {dict(ends)}")


def refuse_in_sessions(folder, shim):
    empty, store = folder / "empty.store", folder / "day.store"
    run_program("format", empty, check=True)
    shutil.copyfile(empty, store)
    wanted = Wanted(store)

    def ended(number):
        shutil.copyfile(empty, store)
        return end_of_session(store, wanted, refusing(shim, number))

    refuse_each("a session", ended, {"no OutOfMemory", "status 4"})


def refuse_in_upgrades(folder, shim):
    old, new = folder / "old.store", folder / "new.store"
    old.write_bytes(old_store())
    end_of_upgrade(old, new, None, refusing(shim, 0))
    wanted = shown(new)

    def ended(number):
        new.unlink(missing_ok=True)
        return end_of_upgrade(old, new, wanted, refusing(shim, number))

    refuse_each("an upgrade", ended, {"status 4"})


def refuse_in_formats(folder, shim):
    loaded, store = folder / "loaded.store", folder / "formatted.store"
    run_program("format", loaded, check=True)
    empty = shown(loaded)
    session = Session(loaded)
    session.answer(COMMANDS[0])
    session.process.communicate()
    wanted = shown(loaded), empty

    def ended(number):
        shutil.copyfile(loaded, store)
        return end_of_format(store, wanted, refusing(shim, number))

    refuse_each("a format", ended, {"OutOfMemory", "status 4"})


def main():
    compiler = shutil.which("cc")
    if not compiler:
        skip("", "cc is not there")
        return
    require_program()
    with tempfile.TemporaryDirectory() as name:
        folder = pathlib.Path(name)
        source, shim = folder / "shim.c", folder / "shim.so"
        source.write_text(SHIM, encoding="ascii")
        subprocess.run([compiler, "-O1", "-shared", "-fPIC", "-o", shim, source], check=True)
        refuse_in_sessions(folder, shim)
        refuse_in_upgrades(folder, shim)
        refuse_in_formats(folder, shim)


if __name__ == "__main__":
    main()
