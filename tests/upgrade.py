#!/usr/bin/env python3
"""Upgrades stores of version 1 to new ones with the built program, on real files.

The old store is written here by the table of version 1 in docs/FORMATS.md: one customer, just loaded, and two
records, which build and search 256 steps. Needs the program that rt ci leaves.
"""
import os
import struct
import subprocess
import sys
import tempfile

# Python leaves no files beside the scripts.
sys.dont_write_bytecode = True
from planner import PROGRAM, fail, outcome, read, require_program, write  # noqa: E402

SECTOR, OLD_SECTORS, NEW_BYTES = 512, 802, 4_326_400
# The position of the snapshot of an odd sequence in version 1.
HALF = 530
LATEST = 100_000_000
NO_FILE = "No such file or directory (os error 2)"


def state():
    """Returns a state with one customer of demand 6 at (3, 4), capacity 10, in version 1's shorter fields."""
    head = struct.pack(">BBQQIHH", 1, 2, 0, 0, 10, 1, 2)
    depot = struct.pack(">iiII", 0, 0, 0, LATEST)
    stop = struct.pack(">HiiiIII", 1, 3, 4, 6, 0, LATEST, 0)
    return head + depot + struct.pack(">HB", 1, 1) + stop + struct.pack(">HH", 0, 0)


def old_store():
    image = bytearray(OLD_SECTORS * SECTOR)
    bytes_of_state = state()
    pieces = {
        1: b"PDRSTORE" + struct.pack(">IQQ", 1, 1, len(bytes_of_state)),
        2: struct.pack(">QIB", 1, 0, 6),
        3: struct.pack(">QIBH", 1, 1, 7, 256),
        HALF: bytes_of_state,
    }
    for sector, piece in pieces.items():
        image[sector * SECTOR : sector * SECTOR + len(piece)] = piece
    return bytes(image)


def expect(status, line, told, *words):
    """Checks that the program has this status, prints this line, and prints this on standard error."""
    got, wanted = outcome(*words, timeout=60), (status, line + "\n", f"planner: {told}\n" if told else "")
    if got != wanted:
        fail(f"{words}: {got}; wanted {wanted}")


def expect_line(status, line, *words):
    """Checks that the program has this status, and prints a line that begins like this."""
    got, output, _ = outcome(*words)
    if got != status or not output.startswith(line) or output.count("\n") != 1:
        fail(f"{words}: {got}, {output!r}; wanted {status}, {line!r}")


def holds(path, contents):
    if read(path) != contents:
        fail(f"{path} was changed")


def check_new(new):
    """Checks that the new store opens with the plan of the old one, and repeats nothing."""
    if os.path.getsize(new) != NEW_BYTES:
        fail(f"the new store has {os.path.getsize(new)} bytes")
    got = outcome("run", new, lines="print\nshow\n")[1]
    lines = got.split("\n")
    for line in ["opened 0", "Route #1: 1", "Cost 10", "requests 1 next 2", "steps 256 place 4096", "cost 0 0 10"]:
        if line not in lines:
            fail(f"the new store: {line!r} is not in {got!r}")


def check_files(folder):
    old, new = os.path.join(folder, "old.store"), os.path.join(folder, "new.store")
    write(old, old_store())
    expect(0, "ok", "", "upgrade", old, new)
    holds(old, old_store())
    check_new(new)
    expect(2, "store BadVersion", f"{old}: it has another version: `planner upgrade OLD NEW` converts a store of version 1 into a new store", "run", old)
    # an existing store is replaced, also by one that was upgraded before
    expect(0, "ok", "", "upgrade", old, new)
    check_new(new)
    newer = os.path.join(folder, "newer.store")
    needless = f"{new}: it does not have version 1. A store of version 2 needs no upgrade: `run` opens it as it is"
    expect(2, "store BadVersion", needless, "upgrade", new, newer)
    expect_none(newer)
    write(new, b"a note")
    expect(0, "ok", "", "upgrade", old, new)
    check_new(new)


def expect_none(path):
    if os.path.exists(path):
        fail(f"{path} was created, but must not be")


def check_refused_old(folder):
    """Checks that a refused old store leaves the new file as it is, or missing."""
    old, new = os.path.join(folder, "refused.store"), os.path.join(folder, "kept.store")
    spoiled = bytearray(old_store())
    spoiled[HALF * SECTOR] = 7
    cases = [
        (old_store()[: 801 * SECTOR], "store NotFormatted"),
        (old_store()[:-1], "store BadLength"),
        (bytes(OLD_SECTORS * SECTOR), "store NotFormatted"),
        (bytes(spoiled), "store Codec"),
    ]
    for contents, line in cases:
        write(old, contents)
        expect_line(2, line, "upgrade", old, new)
        expect_none(new)
        write(new, b"a note")
        expect_line(2, line, "upgrade", old, new)
        holds(new, b"a note")
        holds(old, contents)
        os.remove(new)


def check_one_file(folder):
    old, link, name = (os.path.join(folder, name) for name in ["one.store", "link.store", "name.store"])
    write(old, old_store())
    os.symlink("one.store", link)
    os.link(old, name)
    for new in [old, os.path.join(folder, ".", "one.store"), link, name]:
        expect(64, "same store", "", "upgrade", old, new)
    holds(old, old_store())
    missing = os.path.join(folder, "missing.store")
    expect(64, "same store", "", "upgrade", missing, missing)


def check_refusals(folder):
    old, new = os.path.join(folder, "short.store"), os.path.join(folder, "unmade.store")
    missing = os.path.join(folder, "missing.store")
    expect(3, f"cannot read {missing}", f"{missing}: {NO_FILE}", "upgrade", missing, new)
    if os.path.exists(new):
        fail("the new store was made where there is no old one")
    expect(3, "cannot read /dev/null", "/dev/null: it is not a regular file", "upgrade", "/dev/null", new)
    write(old, old_store()[: 801 * SECTOR])
    none = "it has no store of version 1: it is another file, its end is missing, or its headers are damaged. Use a whole copy"
    expect(2, "store NotFormatted", f"{old}: {none}", "upgrade", old, new)
    write(old, old_store()[:-1])
    within = (
        "it does not end with a whole sector of 512 bytes, so it is not a whole store. If it was a store, use a whole copy. "
        "`planner load STORE KIND INSTANCE` creates a store from an instance, in a new file"
    )
    expect(2, "store BadLength", f"{old}: {within}", "upgrade", old, new)
    write(old, old_store())
    nowhere = os.path.join(folder, "no", "new.store")
    expect(3, f"cannot read {nowhere}", f"{nowhere}: {NO_FILE}", "upgrade", old, nowhere)
    expect(3, f"cannot read {folder}", f"{folder}: Is a directory (os error 21)", "upgrade", old, folder)
    holds(old, old_store())


def check_in_use(folder):
    """Checks that neither store may be open in another process."""
    old, new = os.path.join(folder, "used-old.store"), os.path.join(folder, "used.store")
    write(old, old_store())
    expect(0, "ok", "", "format", new)
    with subprocess.Popen([PROGRAM, "run", new], stdin=subprocess.PIPE, stdout=subprocess.PIPE) as process:
        if process.stdout.readline() != b"opened 0\n":
            fail("run: the store was not opened")
        expect(3, "new InUse", "", "upgrade", old, new)
        expect(3, "store InUse", "", "upgrade", new, old)
        process.stdin.close()
        process.wait()
    holds(old, old_store())
    expect(0, "ok", "", "upgrade", old, new)


def main():
    require_program()
    with tempfile.TemporaryDirectory() as folder:
        check_files(folder)
        check_one_file(folder)
        check_refused_old(folder)
        check_refusals(folder)
        check_in_use(folder)
    print("upgrade: stores of version 1 are converted, and others are reported and left alone")


if __name__ == "__main__":
    main()
