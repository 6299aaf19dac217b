#!/usr/bin/env python3
"""Opens stores that are written here, byte by byte according to the tables of docs/FORMATS.md.

1. The state with one customer: whole, cut after each of its bytes, with an additional byte, and with other
   routes; other headers; a record where none is due; damage that leaves a store `ok`.
2. States of up to 40,000 stops, including the largest possible one: opened, and written again with the same
   bytes.
3. Plans made by hand, and the states after steps and a build; the last steps and the last sequence.
4. A full journal: how many steps opening repeats, and that none is repeated after a snapshot.

Needs the program that rt ci leaves.
"""
import os
import struct
import sys
import tempfile

# Python leaves no files beside the scripts.
sys.dont_write_bytecode = True
from device_faults import INSTANCE  # noqa: E402
from planner import fail, outcome, require_program, run_program  # noqa: E402

SECTOR, SECTORS = 512, 8450
# The positions of the snapshots of even and of odd sequences.
HALVES = [258 * SECTOR, 4354 * SECTOR]
LATEST = 100_000_000


def numbers(*all_of_them):
    """Returns the numbers as u32."""
    return struct.pack(f">{len(all_of_them)}I", *all_of_them)


def header(version, sequence, length):
    return b"PDRSTORE" + struct.pack(">IQQ", version, sequence, length)


def image(snapshot, sector=0, version=2, length=None, stray=0, sequence=2):
    """Returns a store of an even sequence with this snapshot. The record at index 5 begins with the sequence
    `stray`, and there is none before it.
    """
    store = bytearray(SECTOR * SECTORS)
    length = len(snapshot) if length is None else length
    pieces = {sector * SECTOR: header(version, sequence, length), 7 * SECTOR: struct.pack(">Q", stray), HALVES[0]: snapshot}
    for place, piece in pieces.items():
        store[place : place + len(piece)] = piece
    return store


class Opener:
    """Opens one store after another in a file."""

    def __init__(self, folder):
        self.path = os.path.join(folder, "by_hand.store")

    def run(self, lines):
        return outcome("run", self.path, lines=lines)[:2]

    def expect(self, name, store, wanted, lines=b""):
        """Checks that opening the store, with these commands, gives this status and output."""
        with open(self.path, "wb") as file:
            file.write(store)
        if self.run(lines) != wanted:
            fail(f"{name}: {self.run(lines)}, wanted {wanted}")

    def expect_ok(self, name):
        """Checks that `check` finds nothing in the file."""
        if outcome("check", self.path)[:2] != (0, "ok\n"):
            fail(f"{name}: check: {outcome('check', self.path)}")

    def expect_state(self, name, store, snapshot):
        """Checks that the store opens, and that a checkpoint writes the same state under the next sequence,
        with zeros to the end of its last sector.
        """
        self.expect(name, store, (0, "opened 0\nok\n"), b"checkpoint\n")
        with open(self.path, "rb") as file:
            file.seek(SECTOR)
            written = file.read(len(header(2, 3, 0)))
            file.seek(HALVES[1])
            same = file.read(len(snapshot) + -len(snapshot) % SECTOR) == snapshot + bytes(-len(snapshot) % SECTOR)
        if written != header(2, 3, len(snapshot)) or not same:
            fail(f"{name}: the written state differs from the one that was read")


def one_customer(demand=6, routes=(0, 0, 0), deviation=0):
    """Returns a state with customer 1 at (3, 4), capacity 10 and one vehicle. After the requests come the pin's
    length, the route and the working route.
    """
    head = struct.pack(">BBQQ", 1, 2, 0, 0) + numbers(10, 1, 2) + numbers(0, 0, 0, LATEST) + numbers(deviation, 1)
    return head + b"\x01" + numbers(1, 3, 4, demand, 0, LATEST, 0) + numbers(*routes)


def check_snapshots(opener):
    state, codec = one_customer(), (2, "store Codec\n")
    if len(state) != 95:
        fail(f"the state of one customer has {len(state)} bytes")
    opener.expect_state("whole", image(state), state)
    for length in range(1, 95):
        opener.expect(f"cut to {length} bytes", image(state[:length]), codec)
    opener.expect("cut to none", image(b""), (2, "store NotFormatted\n"))
    opener.expect("one byte more", image(state + b"\0"), codec)
    planned = one_customer(routes=(0, 1, 1, 1, 1))
    opener.expect_state("route [1]", image(planned), planned)
    opener.expect("demand above the capacity", image(one_customer(11, (0, 1, 1, 1, 1))), codec)
    opener.expect("route [1 1]", image(one_customer(routes=(0, 2, 1, 1, 2, 1, 1))), codec)
    opener.expect("route [7]", image(one_customer(routes=(0, 1, 7, 1, 7))), codec)
    opener.expect("working route [1 1]", image(one_customer(routes=(0, 0, 2, 1, 1))), codec)
    farthest = one_customer(deviation=1_000_000_000)
    opener.expect_state("the greatest deviation", image(farthest), farthest)
    opener.expect("a deviation above it", image(one_customer(deviation=1_000_000_001)), codec)
    opener.expect("a pin above the route", image(one_customer(routes=(1, 0, 0))), codec)
    opener.expect("no instance", image(b"\0"), (0, "opened 0\nno NoInstance\n"), b"show\n")
    for first in (1, 2):
        opener.expect(f"one byte {first}", image(bytes([first])), codec)


def check_headers(opener):
    state = one_customer()
    refusals = [
        ("sequence 2 in sector 1", {"sector": 1}, "NotFormatted"),
        ("version 9", {"version": 9}, "BadVersion"),
        ("version 1", {"version": 1}, "BadVersion"),
        ("length 2,097,153", {"length": 2_097_153}, "NotFormatted"),
        ("record 5 of sequence 2", {"stray": 2}, "Codec"),
        ("record 5 of sequence 3", {"stray": 3}, "Codec"),
    ]
    for name, changes, fault in refusals:
        opener.expect(name, image(state, **changes), (2, f"store {fault}\n"))
    opener.expect_state("record 5 of sequence 1", image(state, stray=1), state)
    opener.expect_state("bytes after the snapshot", image(state + b"\xff" * 900, length=95), state)
    # A second header: it does not count if it has another version. Of two valid headers, the one with the
    # greater sequence counts.
    beside = image(state)
    beside[SECTOR : SECTOR + 28] = header(9, 3, 1)
    opener.expect_state("version 9 beside", beside, state)
    beside[SECTOR : SECTOR + 28] = header(2, 3, 1)
    opener.expect("sequence 3 beside", beside, (0, "opened 0\nno NoInstance\n"), b"show\n")
    beside[SECTOR : SECTOR + 28] = header(2, 1, 1)
    opener.expect("sequence 1 beside", beside, (0, "opened 0\nrequests 1 next 2\nsteps 0 place 0\nunplanned 1\ncost 1 0 0\nok\n"), b"show\n")


def check_unseen_damage(opener):
    """Checks that some damage leaves a store `ok`, as docs/OPERATING.md says: another sequence in a header, and
    parts of two states.
    """
    older, newer = one_customer(), one_customer(routes=(0, 1, 1, 1, 1))
    store = image(newer, sequence=6)
    store[SECTOR : SECTOR + 28] = header(2, 5, len(older))
    store[HALVES[1] : HALVES[1] + len(older)] = older
    shown = "opened 0\nrequests 1 next 2\nsteps 0 place 0\n%s\nok\n"
    opener.expect("sequences 6 and 5", store, (0, shown % "vehicle 1: 1\ncost 0 0 10"), b"show\n")
    # One bit makes 4 of 6.
    store[19] ^= 2
    opener.expect("sequences 4 and 5", store, (0, shown % "unplanned 1\ncost 1 0 0"), b"show\n")
    opener.expect_ok("sequences 4 and 5")
    # The first 50 bytes end after the deviation.
    mixed = one_customer(5, deviation=7)[:50] + older[50:]
    opener.expect_state("parts of two states", image(mixed), mixed)
    opener.expect_ok("parts of two states")


def stop(number, demand):
    """Returns a stop at one of many places, with a wide window."""
    return struct.pack(">IiiiIII", number, number * 7919 % 1000, number * 104_729 % 1000, demand, 0, LATEST, 10)


def large_state(stops, route, pinned, form):
    """Returns a state with all stops planned, `route` of them per vehicle, the first ones pinned. A request has
    `form` stops.
    """
    fleet = stops // route
    parts = [struct.pack(">BBQQ", 1, 1, 0, 0) + numbers(1_000_000, fleet, stops + 1) + numbers(0, 0, 0, LATEST) + numbers(0, stops // form)]
    for number in range(1, stops + 1, form):
        parts.append(bytes([form]) + stop(number, 1) + (stop(number + 1, -1) if form == 2 else b""))
    routes = [numbers(route, *range(first, first + route)) for first in range(1, stops + 1, route)]
    parts += [numbers(pinned) + it for it in routes] + routes
    return b"".join(parts)


def check_large_states(opener):
    # With their lengths in bytes. The last one is the largest possible state, with a vehicle for each stop.
    shapes = [((100, 10, 4, 2), 3_824), ((4_000, 10, 4, 2), 150_854), ((40_000, 10, 4, 2), 1_508_054), ((40_000, 1, 1, 1), 1_960_054)]
    for shape, length in shapes:
        state = large_state(*shape)
        if len(state) != length:
            fail(f"the state of {shape[0]} stops has {len(state)} bytes")
        opener.expect_state(f"{shape[0]} stops, {shape[1]} a vehicle", image(state), state)


def served(customers, routes, work=None, steps=0, deviation=0, pinned=0, gone=0):
    """Returns a state in which vehicles of capacity 10 serve these customers, given by place and demand, with
    these routes. The working plan may be a different one.

    The first `pinned` stops of the first vehicle are pinned, and `gone` customers after the others are
    withdrawn.
    """
    state = struct.pack(">BBQQ", 1, 2, 0, steps) + numbers(10, len(routes), len(customers) + gone + 1)
    state += numbers(0, 0, 0, LATEST, deviation, len(customers))
    for number, (x, y, demand) in enumerate(customers, 1):
        state += struct.pack(">BIiiiIII", 1, number, x, y, demand, 0, LATEST, 0)
    routes, work = ([numbers(len(it), *it) for it in plan] for plan in (routes, work or routes))
    return state + numbers(pinned) + numbers(0).join(routes) + b"".join(work)


# Distances of 10, 10, 6 and 5 from the depot; 8 between 2 and 3, 5 between 2 and 4, 12 between 1 and 3.
FOUR = [(0, 10, 1), (6, 8, 1), (6, 0, 1), (3, 4, 1)]
# Distances of 10, 1 and 1 from the depot; 3 between 2 and 3.
THREE = [(0, 10, 1), (1, 1, 1), (-1, -1, 1)]
BY_TWO = [(3, 4, 6), (6, 8, 4), (0, 5, 5)]
LAST_STEP = 2**60
# Customers, routes, steps made, commands with their answers, and the state afterwards. The words of step 0 with
# seed 0 are those of RFC 8439, A.1, vector 1. They exchange the tails of the second and the third route, before
# the first stop of the one and after the first of the other.
PLANS = [
    ("the first step", FOUR, [[1], [2, 3], [4], []], 0, [
        ("search 1", "at 1 0 0 44\nok\n"),
        ("show", "requests 4 next 5\nsteps 1 place 16\nvehicle 1: 1\nvehicle 3: 4 2 3\ncost 0 0 44\nok\n"),
    ], served(FOUR, [[1], [], [4, 2, 3], []], steps=1)),
    # With two routes the words pick the second one twice.
    ("the first step from there", FOUR, [[1], [], [4, 2, 3], []], 0, [
        ("search 1", "at 1 0 0 44\nok\n"),
        ("show", "requests 4 next 5\nsteps 1 place 16\nvehicle 1: 1\nvehicle 3: 4 2 3\ncost 0 0 44\nok\n"),
    ], served(FOUR, [[1], [], [4, 2, 3], []], steps=1)),
    # Before stop 2 the distance grows by 4, before stop 1 it would grow by 8.
    ("a build", FOUR, [[1], [2], [4], []], 0, [
        ("show", "requests 4 next 5\nsteps 0 place 0\nvehicle 1: 1\nvehicle 2: 2\nvehicle 3: 4\nunplanned 3\ncost 1 0 50\nok\n"),
        ("build", "ok\n"),
        ("show", "requests 4 next 5\nsteps 0 place 0\nvehicle 1: 1\nvehicle 2: 3 2\nvehicle 3: 4\ncost 0 0 54\nok\n"),
    ], served(FOUR, [[1], [3, 2], [4], []])),
    # The step leads to the routes 1 and 3 2, which are longer by 1.
    ("a step without a deviation", THREE, [[1], [2], [3]], 0, [
        ("search 1", "at 1 0 0 24\nok\n"),
        ("show", "requests 3 next 4\nsteps 1 place 16\nvehicle 1: 1\nvehicle 2: 2\nvehicle 3: 3\ncost 0 0 24\nok\n"),
    ], served(THREE, [[1], [2], [3]], steps=1)),
    ("a step with a deviation", THREE, [[1], [2], [3]], 0, [
        ("deviation 1", "ok\n"),
        ("search 1", "at 1 0 0 24\nok\n"),
        ("show", "requests 3 next 4\nsteps 1 place 16\nvehicle 1: 1\nvehicle 2: 2\nvehicle 3: 3\ncost 0 0 24\ndeviation 1\nwork 0 0 25\nok\n"),
    ], served(THREE, [[1], [2], [3]], [[1], [], [3, 2]], steps=1, deviation=1)),
    # From another program, which follows each annealing step to the letter.
    ("an annealing step", BY_TWO, [[2, 1], [3], []], 0, [
        ("deviation 100", "ok\n"),
        ("anneal 1", "at 1 0 0 30\nok\n"),
    ], served(BY_TWO, [[2, 1], [3], []], [[3, 2], [1], []], steps=1, deviation=100)),
    ("two annealing steps", BY_TWO, [[2, 1], [3], []], 0, [
        ("deviation 100", "ok\n"),
        ("anneal 2", "at 2 0 0 30\nok\n"),
    ], served(BY_TWO, [[1, 2], [3], []], steps=2, deviation=100)),
    ("a thousand annealing steps", BY_TWO, [[2, 1], [3], []], 0, [
        ("deviation 100", "ok\n"),
        ("anneal 1000", "at 1000 0 0 30\nok\n"),
    ], served(BY_TWO, [[2, 1], [3], []], steps=1000, deviation=100)),
    ("the last steps", [(3, 4, 6)], [[1]], LAST_STEP - 1, [
        ("search 2", "no StepsSpent\n"),
        ("anneal 2", "no StepsSpent\n"),
        ("search 1", f"at {LAST_STEP} 0 0 10\nok\n"),
        ("search 1", "no StepsSpent\n"),
        ("search 0", "no Range\n"),
        (f"reach {LAST_STEP}", "ok\n"),
        ("show", f"requests 1 next 2\nsteps {LAST_STEP} place {16 * LAST_STEP}\nvehicle 1: 1\ncost 0 0 10\nok\n"),
    ], served([(3, 4, 6)], [[1]], steps=LAST_STEP)),
]
# Commands after that annealing step. Each of them makes the working plan the plan that it leaves.
AHEAD = [("deviation 100", "ok\n"), ("anneal 1", "at 1 0 0 30\nok\n")]
LEFT = [[2, 1], [3], []]
PLANS += [
    (f"{line.split()[0]} after an annealing step", BY_TWO, LEFT, 0, AHEAD + [(line, "ok\n")], state)
    for line, state in [
        ("build", served(BY_TWO, LEFT, steps=1, deviation=100)),
        ("deviation 7", served(BY_TWO, LEFT, steps=1, deviation=7)),
        ("pin 1 1", served(BY_TWO, LEFT, steps=1, deviation=100, pinned=1)),
        ("unpin 1", served(BY_TWO, LEFT, steps=1, deviation=100)),
        ("withdraw 3", served(BY_TWO[:2], [[2, 1], [], []], steps=1, deviation=100, gone=1)),
        (f"add1 5 0 5 0 {LATEST} 0", served(BY_TWO + [(0, 5, 5)], LEFT, steps=1, deviation=100)),
        (f"load vrp 0 {len(INSTANCE)}\n{INSTANCE.decode()}", served(BY_TWO, [[], [], []])),
    ]
]


def latest_snapshot(path):
    """Returns the snapshot of the header with the greater sequence."""
    with open(path, "rb") as file:
        store = file.read()
    sequence, length = max(struct.unpack_from(">QQ", store, place + 12) for place in (0, SECTOR))
    return store[HALVES[sequence % 2] :][:length]


def check_plans(opener):
    for name, customers, routes, steps, lines, state in PLANS:
        told = "opened 0\n" + "".join(answer for _, answer in lines)
        store = image(served(customers, routes, steps=steps))
        opener.expect(name, store, (0, told), "".join(line + "\n" for line, _ in lines).encode())
        opener.run(b"checkpoint\n")
        if latest_snapshot(opener.path) != state:
            fail(f"{name}: another state")


def check_last_sequence(opener):
    """Checks that no snapshot follows the last sequence: nothing is written for one, and records continue."""
    store = image(one_customer(), sequence=2**60)
    opener.expect("the last sequence", store, (0, "opened 0\nno Spent\nno Spent\n"), b"checkpoint\nanneal 1\n")
    with open(opener.path, "rb") as file:
        if file.read() != store:
            fail("a snapshot that is refused is written")
    opener.expect("a record of the last sequence", store, (0, "opened 0\nok\n"), b"build\n")
    if opener.run(b"print\n") != (0, "opened 0\nRoute #1: 1\nCost 10\nok\n"):
        fail("the record of the last sequence is lost")


def expect_sequences(opener, name, wanted):
    """Checks the sequences of the two headers and of the first record."""
    with open(opener.path, "rb") as file:
        store = file.read(3 * SECTOR)
    found = tuple(struct.unpack_from(">Q", store, place)[0] for place in (12, SECTOR + 12, 2 * SECTOR))
    if found != wanted:
        fail(f"{name}: the sequences are {found}, wanted {wanted}")


def check_full_journal(opener):
    run_program("format", opener.path, check=True)
    load = b"load vrp 0 %d\n" % len(INSTANCE) + INSTANCE
    opener.run(load + b"build\ncheckpoint\n")
    # 256 records of 256 steps.
    opener.run(b"search 65536\n")
    status, told = opener.run(b"search 1\n")
    if status != 0 or not told.startswith("opened 65536\n"):
        fail(f"a full journal: status {status}, {told!r}")
    if opener.run(b"") != (0, "opened 0\n"):
        fail("a step after a full journal makes no snapshot")
    expect_sequences(opener, "a step after a full journal", (4, 3, 3))
    # An operation that changes nothing, after 256 of them, and a checkpoint alone: each is a snapshot under the
    # next sequence.
    opener.run(256 * b"unpin 1\n")
    expect_sequences(opener, "a full journal once more", (4, 3, 4))
    shown = opener.run(b"show\n")
    for line, sequences in ((b"unpin 1\n", (4, 5, 4)), (b"checkpoint\n", (6, 5, 4))):
        if opener.run(line) != (0, "opened 0\nok\n"):
            fail(f"{line!r} after a full journal is refused")
        expect_sequences(opener, f"{line!r} after a full journal", sequences)
        if opener.run(b"show\n") != shown:
            fail(f"{line!r} after a full journal changes the state")


def main():
    require_program()
    with tempfile.TemporaryDirectory() as folder:
        opener = Opener(folder)
        check_snapshots(opener)
        check_headers(opener)
        check_unseen_damage(opener)
        check_large_states(opener)
        check_plans(opener)
        check_last_sequence(opener)
        check_full_journal(opener)
    print("openings: stores written by hand open with their state, or are reported as what they are")


if __name__ == "__main__":
    main()
