#!/usr/bin/env python3
"""Runs the built program at sizes at which an implementation might give up. Each answer must be complete, and
none may report out of memory.

1. A store with 20,000 requests of one stop, loaded with the greatest seed: built, searched by one command of
   70,000 steps, shown and printed (each text is above 64 KB), and opened again, with the same texts.
2. 5,000 commands in one run, each with a commit of its own. The same number of steps in one command leads to
   the same plan.
3. A line of 70,000 bytes is refused, and the next one answered.
4. One route with 2,000 stops: searched, and the plan passes the audit; in a store its first stops are pinned.
5. A fleet that is too small: several requests are left out, by a store and by `solve`, which names them; with a
   few hundred left out a store anneals. A vehicle for each stop: one annealing step takes stops out of many
   routes.
6. Texts of a `load` with lengths around each power of two, and the longest one. Searches and annealings with
   the same numbers of steps.
7. A store with 40,000 requests of one stop and one with 20,000 pairs: loaded, written by `checkpoint`, shown,
   and opened again.

Needs the program that rt ci leaves.
"""
import os
import sys
import tempfile

# Python leaves no files beside the scripts.
sys.dont_write_bytecode = True
from planner import fail, outcome, require_program  # noqa: E402

GREATEST_SEED = 2**64 - 1


def planner(*words, lines=b""):
    """Runs the program, and fails if it runs out of memory."""
    status, output, errors = outcome(*words, lines=lines)
    if "OutOfMemory" in output + errors or status == 4:
        fail(f"{' '.join(words)}: out of memory")
    return status, output, errors


def run(store, lines):
    """Returns the answers to these commands, after `opened ..`."""
    status, text, _ = planner("run", store, lines=lines)
    first, _, rest = text.partition("\n")
    if status != 0 or not first.startswith("opened "):
        fail(f"run: status {status}, {first!r}")
    return rest


def vrp(stops, capacity, width):
    """Returns an instance with this many stops on a grid with `width` columns, each with demand 1, around a
    depot.
    """
    lines = ["TYPE : CVRP", f"DIMENSION : {stops + 1}", "EDGE_WEIGHT_TYPE : EUC_2D", f"CAPACITY : {capacity}", "NODE_COORD_SECTION"]
    lines.append("1 5000 5000")
    # The numbering steps by a prime that does not divide the number of stops, so that neighbours have numbers
    # far apart.
    places = [(7919 * it) % stops for it in range(stops)]
    lines += [f"{at + 2} {37 * (it % width)} {41 * (it // width)}" for at, it in enumerate(places)]
    lines += ["DEMAND_SECTION", "1 0"] + [f"{at + 2} 1" for at in range(stops)]
    lines += ["DEPOT_SECTION", "1", "-1", "EOF", ""]
    return "\n".join(lines)


def write(folder, name, text):
    path = os.path.join(folder, name)
    with open(path, "w") as file:
        file.write(text)
    return path


def plan_of(answers):
    """Returns the last text of `print`."""
    text = answers[answers.index("Route #1:"):]
    return text[: text.rindex("ok\n")]


def expect_pass(folder, instance, solution, kind="vrp"):
    status, line, _ = planner("audit", kind, instance, write(folder, "printed.sol", solution))
    if status != 0 or not line.startswith("pass 0 "):
        fail(f"the plan that is printed does not pass: {line!r}")


def check_many_requests(folder):
    text = vrp(20_000, 100, 141)
    instance = write(folder, "many.vrp", text)
    store = os.path.join(folder, "many.store")
    planner("format", store)
    load = f"load vrp {GREATEST_SEED} {len(text)}\n{text}".encode()
    first = run(store, load + b"build\nsearch 70000\nshow\nprint\n")
    lines = first.split("\n")
    ats = [it for it in lines if it.startswith("at ")]
    if lines[:2] != ["ok", "ok"] or len(ats) != 274 or not ats[-1].startswith("at 70000 0 "):
        fail(f"20,000 requests: {lines[:3]}, {len(ats)} lines `at`, the last {ats[-1:]}")
    texts = first[first.index("requests 20000"):]
    shown, printed = texts[: texts.index("Route #1:")], plan_of(texts)
    if min(len(shown), len(printed)) < 65_536:
        fail(f"texts of {len(shown)} and {len(printed)} bytes are no long ones")
    if run(store, b"show\nprint\n") != texts:
        fail("20,000 requests are shown otherwise after opening again")
    expect_pass(folder, instance, printed)


def check_many_commits(folder):
    text = vrp(60, 7, 8)
    load = f"load vrp 3 {len(text)}\n{text}build\n".encode()
    stores = [os.path.join(folder, name) for name in ("one.store", "cut.store")]
    for store in stores:
        planner("format", store)
    at_once = run(stores[0], load + b"search 5000\nprint\n")
    cut = run(stores[1], load + 5_000 * b"search 1\n" + b"print\n")
    if cut.count("\nok\n") < 5_000 or "no " in cut:
        fail(f"5,000 lines: {cut.count('ok')} answers `ok`")
    if plan_of(at_once) != plan_of(cut):
        fail("5,000 steps, line by line, lead to another plan than at once")


def check_long_line(folder):
    store = os.path.join(folder, "line.store")
    planner("format", store)
    answers = run(store, b"add1 " + b"1 " * 35_000 + b"\nnext\n")
    if answers != "no BadLine\nno NoInstance\n":
        fail(f"a line of 70,000 bytes: {answers!r}")


def check_long_route(folder):
    text = vrp(2_000, 2_000, 44)
    instance = write(folder, "route.vrp", text)
    status, solution, errors = planner("solve", "vrp", instance, "300", "5", "0")
    if status != 0 or solution.count("Route") != 1:
        fail(f"one route: status {status}, {solution.count('Route')} routes, {errors[-80:]!r}")
    expect_pass(folder, instance, solution)
    store = os.path.join(folder, "route.store")
    planner("format", store)
    pins = (255, 256, 257, 1_000, 1_999)
    lines = "".join(f"pin 1 {pin}\nsearch 5\nanneal 5\n" for pin in pins)
    answers = run(store, f"load vrp 5 {len(text)}\n{text}build\n{lines}print\n".encode())
    steps = [line.split()[:3] for line in answers.split("\n") if line.startswith("at ")]
    if answers.count("ok\n") != 3 + 3 * len(pins) or steps != [["at", str(5 * it), "0"] for it in range(1, 2 * len(pins) + 1)]:
        fail(f"pins of a long route: {answers[:200]!r}")
    expect_pass(folder, instance, plan_of(answers))


def check_lengths(folder):
    """Checks texts of many lengths, filled up with blanks: each is read whole."""
    store = os.path.join(folder, "length.store")
    planner("format", store)
    text = vrp(3, 7, 2)
    lengths = [2**power + more for power in range(9, 18) for more in (-1, 0, 1)] + [10_000, 100_000, 2**24]
    lines = "".join(f"load vrp 3 {length}\n{text}{' ' * (length - len(text))}next\n" for length in lengths)
    answers = run(store, lines.encode())
    if answers != "ok\nnext 4\nok\n" * len(lengths):
        fail(f"texts of many lengths: {answers[:80]!r}")


def check_counts(folder):
    """Checks commands with many numbers of steps: each ends with its last step."""
    store = os.path.join(folder, "count.store")
    planner("format", store)
    text = vrp(3, 7, 2)
    counts = [2**power + more for power in (8, 10, 12, 14, 16) for more in (-1, 0, 1)] + [1_000, 1_001, 10_000, 100_000]
    for word in ("search", "anneal"):
        lines = "".join(f"{word} {count}\n" for count in counts)
        answers = run(store, f"load vrp 3 {len(text)}\n{text}build\n{lines}".encode())
        ends = [answer.rstrip("\n").split("\n")[-1].split()[1:3] for answer in answers.split("ok\n")[2:-1]]
        if ends != [[str(sum(counts[: at + 1])), "0"] for at in range(len(counts))]:
            fail(f"lines {word} of many counts end at {ends}")


def check_largest(folder):
    # Twenty thousand pairs at as many places.
    pairs = ["20000 100 1", "0 0 0 0 0 1000000 0 0 0"]
    for pickup in range(1, 40_000, 2):
        pairs.append(f"{pickup} {pickup % 1000} {pickup // 1000} 1 0 1000000 0 0 {pickup + 1}")
        pairs.append(f"{pickup + 1} {pickup % 997} {pickup // 997} -1 0 1000000 0 {pickup} 0")
    for kind, text, count in ("vrp", vrp(40_000, 100, 200), 40_000), ("lilim", "\n".join(pairs) + "\n", 20_000):
        store = os.path.join(folder, "largest.store")
        planner("format", store)
        answers = run(store, f"load {kind} 0 {len(text)}\n{text}checkpoint\nsearch 1\nanneal 1\nshow\n".encode())
        _, found, shown = answers.partition(f"ok\nok\nat 1 {count} 0 0\nok\nat 2 {count} 0 0\nok\n")
        if not found or shown.count("unplanned ") != count or not shown.endswith(f"\ncost {count} 0 0\nok\n"):
            fail(f"{count} requests of {kind}: {answers[:80]!r}, {answers[-80:]!r}")
        if run(store, b"show\n") != shown:
            fail(f"{count} requests of {kind} are shown otherwise after opening again")


def due_at_once(fleet, pairs):
    """Returns an instance with pairs whose pickups are all due at the same time, ten apart."""
    lines = [f"{fleet} 10 1", "0 0 0 0 0 1000 0 0 0"]
    for pair in range(pairs):
        lines.append(f"{2 * pair + 1} {10 * pair} 50 10 100 110 5 0 {2 * pair + 2}")
        lines.append(f"{2 * pair + 2} {10 * pair} 90 -10 150 160 5 {2 * pair + 1} 0")
    return "\n".join(lines) + "\n"


def check_small_fleet(folder):
    text = due_at_once(2, 6)
    instance = write(folder, "fleet.txt", text)
    status, solution, errors = planner("solve", "lilim", instance, "100")
    lines = errors.rstrip("\n").split("\n")
    told = next((line.split() for line in lines if line.startswith("unplanned ")), [])
    if status != 1 or told[:2] != ["unplanned", "4:"] or len(told) != 6 or "Cost" in solution or solution.count("Route") != 2:
        fail(f"a small fleet: status {status}, {told}, {solution!r}")
    # After everything else: a line for the request alone, one for each vehicle, and one for the fleet.
    for name in told[2:]:
        why = [line for line in lines if line.startswith(f"why {name}: ")]
        if len(why) != 4 or why[0] != f"why {name}: alone: a vehicle can serve it" or why[3] != f"why {name}: fleet: 2 of 2 vehicles are used":
            fail(f"a small fleet: {why}")
    store = os.path.join(folder, "fleet.store")
    planner("format", store)
    answers = run(store, f"load lilim 1 {len(text)}\n{text}build\nsearch 100\nprint\n".encode())
    if not answers.startswith("ok\nok\nat 100 4 2 "):
        fail(f"a small fleet in a store: {answers!r}")
    text = due_at_once(1, 400)
    answers = run(store, f"load lilim 1 {len(text)}\n{text}build\nanneal 100\nsearch 100\n".encode())
    if [line.split()[:4] for line in answers.split("\n") if line.startswith("at ")] != [["at", "100", "399", "1"], ["at", "200", "399", "1"]]:
        fail(f"400 requests for one vehicle: {answers!r}")


def check_many_routes(folder):
    """Checks routes of one stop: an annealing step takes out up to nineteen strings, each from another route.
    """
    store = os.path.join(folder, "routes.store")
    planner("format", store)
    text = vrp(400, 1, 20)
    answers = run(store, f"load vrp 5 {len(text)}\n{text}build\nanneal 1000\nsearch 100\n".encode())
    ats = [line.split()[1:3] for line in answers.split("\n") if line.startswith("at ")]
    if not answers.endswith("ok\n") or ats[-1:] != [["1100", "0"]]:
        fail(f"400 routes of one stop: {answers[:80]!r}, {ats[-1:]}")


def main():
    require_program()
    with tempfile.TemporaryDirectory() as folder:
        check_long_line(folder)
        check_lengths(folder)
        check_counts(folder)
        check_small_fleet(folder)
        check_many_routes(folder)
        check_largest(folder)
        check_many_commits(folder)
        check_long_route(folder)
        check_many_requests(folder)
    print("sizes: every answer is complete at every size")


main()
