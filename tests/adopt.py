#!/usr/bin/env python3
"""Tests plans from elsewhere, and the store's instance as a text: the commands `adopt` and `instance` of `run`,
and the subcommands with these names.

1. `adopt` on a small instance, with costs from an enumeration of its plans: cheaper, equal, dearer by 1, with
   pins, with a vehicle too many, with requests left out, with a broken plan, with a bad text, and with a wrong
   announcement.
2. The subcommand `adopt`: the same with a file, and its status.
3. `instance`: after requests came and went, the printed text reads back as the store's requests, and has each
   field as it was; requests that a format can't express are refused.
4. With strace: an `adopt` is killed at each of its syncs. The plan is the old one or the new one, and the new
   one if that was reported.
5. The documents' commands for a plan from elsewhere, exactly as written there, with fewer steps.

Needs the program that rt ci leaves.
"""
import itertools
import math
import os
import re
import shutil
import subprocess
import sys
import tempfile

# Python leaves no files beside the scripts.
sys.dont_write_bytecode = True
from planner import EXAMPLES, PROGRAM, can_trace, commands_shown, fail, require_program, run_program, skip  # noqa: E402

LC101 = EXAMPLES / "lc101.txt"
# A depot and four customers of demand 1, and the same with plans whose costs are closer together.
PLACES = [(0, 0), (0, 10), (6, 8), (6, 0), (3, 4)]
NEAR_PLACES = [(0, 0), (0, 7), (0, 4), (9, 9), (9, 6)]


def customers(places):
    head = "NAME : small\nTYPE : CVRP\nDIMENSION : 5\nEDGE_WEIGHT_TYPE : EUC_2D\nCAPACITY : 1000\nNODE_COORD_SECTION\n"
    nodes = "".join(f"{i + 1} {x} {y}\n" for i, (x, y) in enumerate(places))
    return head + nodes + "DEMAND_SECTION\n1 0\n2 1\n3 1\n4 1\n5 1\nDEPOT_SECTION\n1\n-1\nEOF\n"


SMALL = customers(PLACES)
# One vehicle, one pair.
TIGHT = "1 10 1\n0 0 0 0 0 100 0 0 0\n1 3 4 4 0 50 2 0 2\n2 6 8 -4 0 60 2 1 0\n"


def cost(routes, places=None):
    places = places or PLACES
    return sum(math.floor(math.dist(places[a], places[b]) + 0.5) for route in routes for a, b in zip([0, *route], [*route, 0]))


def solution(routes, printed=None):
    lines = [f"Route #{i + 1}: {' '.join(map(str, route))}" for i, route in enumerate(routes)]
    return "\n".join([*lines, f"Cost {cost(routes) if printed is None else printed}", ""])


def plans():
    """Returns all partitions of the four customers into routes, each once; the order within a route does not
    matter.
    """
    for order in itertools.permutations([1, 2, 3, 4]):
        for cuts in itertools.product([False, True], repeat=3):
            routes, route = [], [order[0]]
            for stop, cut in zip(order[1:], cuts):
                if cut:
                    routes.append(route)
                    route = []
                route.append(stop)
            yield [*routes, route]


def program(*words, data=b"", status=None):
    got = run_program(*words, lines=data)
    if status is not None and got.returncode != status:
        fail(f"{words}: status {got.returncode}, {got.stdout[-200:]!r}, {got.stderr[-200:]!r}")
    return got


def run(store, *lines):
    """Returns the answers to these commands, without `opened`."""
    data = b"".join(line if isinstance(line, bytes) else (line + "\n").encode() for line in lines)
    told = program("run", store, data=data, status=0).stdout.decode().splitlines()
    if not told or not told[0].startswith("opened "):
        fail(f"{lines}: {told}")
    return told[1:]


def adopt_line(text):
    return f"adopt {len(text.encode())}\n{text}".encode()


def want(what, got, wanted):
    if got != wanted:
        fail(f"{what}: {got}, and not {wanted}")


def routes_of(store):
    """Returns the routes that `show` prints, by vehicle, and the cost line."""
    told = run(store, "show")
    routes = {int(line.split(":")[0].split()[1]): [int(n) for n in line.split(":")[1].split()] for line in told if line.startswith("vehicle ")}
    return routes, [line for line in told if line.startswith("cost ")][0]


def load(folder, name, kind, text):
    store, instance = os.path.join(folder, name + ".store"), os.path.join(folder, name + ".txt")
    with open(instance, "w") as file:
        file.write(text)
    want(f"load {name}", program("load", store, kind, instance, "7", status=0).stdout, b"ok\n")
    return store


def check_lines(folder):
    empty = os.path.join(folder, "empty.store")
    program("format", empty, status=0)
    first = [[1], [2, 3], [4]]
    want("no instance", run(empty, adopt_line(solution(first)), "next"), ["no NoInstance", "no NoInstance"])

    store = load(folder, "small", "vrp", SMALL)
    want("the first", cost(first), 54)
    want("the first", run(store, "deviation 3", adopt_line(solution(first)), "show")[-4:], ["cost 0 0 54", "deviation 3", "work 0 0 54", "ok"])
    want("its vehicles", routes_of(store)[0], {1: [1], 2: [2, 3], 3: [4]})
    better, turned = [[1, 2, 3], [4]], [[3, 2, 1], [4]]
    want("40", (cost(better), cost(turned)), (40, 40))
    want("better", run(store, adopt_line(solution(better))), ["ok"])
    want("dearer", run(store, adopt_line(solution(first))), ["no Dearer"])
    want("as before", routes_of(store), ({1: [1, 2, 3], 2: [4]}, "cost 0 0 40"))
    want("as dear", run(store, adopt_line(solution(turned)), "next"), ["ok", "next 5", "ok"])
    want("the other", routes_of(store)[0], {1: [3, 2, 1], 2: [4]})

    # Dearer by 1, at every place where two plans are that close.
    by_cost = {cost(plan, NEAR_PLACES): plan for plan in plans()}
    near = [c for c in by_cost if c + 1 in by_cost]
    for c in near:
        other = load(folder, f"near{c}", "vrp", customers(NEAR_PLACES))
        texts = [adopt_line(solution(by_cost[it], it)) for it in (c + 1, c, c + 1)]
        want(f"{c} and {c + 1}", run(other, *texts), ["ok", "ok", "no Dearer"])
    if len(near) < 5:
        fail("few plans differ by 1")

    # Plans that break a rule, and texts that are not a solution.
    want("a wrong cost", run(store, adopt_line(solution(better, 41))), ["broken 11 route 0 place 0 stop 0", "no NotAPlan"])
    want("a stop twice", run(store, adopt_line("Route #1: 1 2 1\nCost 40\n")), ["broken 2 route 1 place 3 stop 1", "no NotAPlan"])
    want("a stop left out", run(store, adopt_line("Route #1: 1 2 3\nCost 30\n")), ["broken 3 route 0 place 0 stop 4", "no NotAPlan"])
    want("no cost", run(store, adopt_line("Route #1: 1 2 3 4\n"), "next"), ["no NoCost 2", "next 5", "ok"])
    want("a bad line", run(store, adopt_line("Route #1: 1 2 3 4\nKost 34\n")), ["no BadLine 2"])
    want("as it was", routes_of(store)[0], {1: [3, 2, 1], 2: [4]})
    # A wrong announcement ends the run.
    for line, told in [("adopt", "BadLine"), ("adopt x", "BadLine"), ("adopt 1 2", "BadLine"), ("adopt 16777217", "Range"), ("adopt -1", "Range")]:
        want(line, run(store, line, "next"), [f"no {told}"])
    want("truncated", run(store, b"adopt 100\n" + solution(better).encode()), ["no Truncated"])
    want("nothing", run(store, adopt_line("")), ["no NoCost 1"])

    # Pins: each vehicle with a pin gets the first remaining route that begins with it. The other vehicles get
    # the remaining routes, in order.
    want("pins", run(store, "pin 2 1", "pin 1 2"), ["ok", "ok"])
    want("turned away", run(store, adopt_line(solution(better))), ["no Pinned"])
    want("after the pins", run(store, adopt_line(solution([[4, 1], [3, 2]]))), ["no Dearer"])
    want("each route in the vehicle of its pin", run(store, adopt_line(solution([[4], [3, 2, 1]]))), ["ok"])
    want("routes with pins", routes_of(store)[0], {1: [3, 2, 1], 2: [4]})
    want("longer", run(store, adopt_line(solution([[3, 2, 1, 4]]))), ["no Pinned"])
    want("unpinned", run(store, "unpin 2", adopt_line(solution([[3, 2, 1, 4]]))), ["ok", "ok"])
    want("one vehicle", routes_of(store), ({1: [3, 2, 1, 4]}, f"cost 0 0 {cost([[3, 2, 1, 4]])}"))

    # A vehicle too many, and one of two requests that the incumbent leaves out.
    tight = load(folder, "tight", "lilim", TIGHT)
    want("two vehicles", run(tight, adopt_line("Route #1: 1\nRoute #2: 2\nCost 30\n"))[-1], "no NotAPlan")
    want("the pair", run(tight, adopt_line("Route #1: 1 2\nCost 20\n"), "show")[-2:], ["cost 0 1 20", "ok"])
    want("an order", run(tight, "add 1 0 0 0 9 0 0 0 0 9 0")[-1], "ok")
    want("it is left out", run(tight, adopt_line("Route #1: 1 2\nCost 20\n")), ["broken 3 route 0 place 0 stop 3", "no NotAPlan"])
    print(f"adopt: commands, and {len(near)} plans that cost 1 more")


def check_word(folder):
    store, path = load(folder, "word", "vrp", SMALL), os.path.join(folder, "word.sol")

    def adopted(text, status, told, words=None):
        with open(path, "w") as file:
            file.write(text)
        got = program("adopt", store, *(words or [path]), data=text.encode(), status=status)
        want(f"the word, {told}", got.stdout.decode(), told)

    adopted(solution([[1], [2, 3], [4]]), 0, "ok\n")
    adopted(solution([[1, 2, 3], [4]]), 0, "ok\n", ["-"])
    want("its plan", routes_of(store), ({1: [1, 2, 3], 2: [4]}, "cost 0 0 40"))
    adopted(solution([[1], [2, 3], [4]]), 1, "no Dearer\n")
    adopted(solution([[1, 2, 3], [4]], 39), 1, "broken 11 route 0 place 0 stop 0\nno NotAPlan\n")
    run(store, "pin 1 2")
    adopted(solution([[3, 2, 1], [4]]), 1, "no Pinned\n")
    adopted("Route 1 2\n", 2, "no BadLine 1\n")
    want("no file", program("adopt", store, path + ".none", status=3).stdout.decode(), f"cannot read {path}.none\n")
    want("no store", program("adopt", store + ".none", path, status=3).stdout.decode(), f"cannot read {store}.none\n")
    empty = os.path.join(folder, "empty.store")
    want("an empty store", program("adopt", empty, path, status=2).stdout, b"no NoInstance\n")
    print("adopt: the subcommand")


def numbers(text):
    return [line.split() for line in text.splitlines()]


def check_instance(folder):
    # Li-Lim: requests came and went. Each line has its fields as given.
    with open(LC101) as file:
        given = file.read()
    store = load(folder, "lc101", "lilim", given)
    want("changed", run(store, "withdraw 13", "add 10 30 45 0 1000 90 33 50 5 1200 80", "build"), ["ok", "ok", "ok"])
    text = program("instance", store, status=0).stdout.decode()
    lines = numbers(given)
    partner = [line[8] for line in lines if len(line) == 9 and line[0] == "13"][0]
    wanted = [line for line in lines[1:] if line and line[0] not in ("13", partner)]
    wanted += ["107 30 45 10 0 1000 90 0 108".split(), "108 33 50 -10 5 1200 80 107 0".split()]
    told = numbers(text)
    want("its head", told[0][:2], lines[0][:2])
    want("its stops", [list(map(int, line)) for line in told[1:]], [list(map(int, line)) for line in wanted])
    want("the line", run(store, "instance"), [*text.splitlines(), "ok"])
    again = load(folder, "again", "lilim", text)
    want("read back", program("instance", again, status=0).stdout.decode(), text)
    want("the next number", run(again, "next"), run(store, "next"))
    # The stored plan is a plan of the printed instance.
    plan = "\n".join(run(store, "print")[:-1]) + "\n"
    files = [os.path.join(folder, name) for name in ("now.txt", "now.sol")]
    for path, content in zip(files, (text, plan)):
        with open(path, "w") as file:
            file.write(content)
    want("audited", program("audit", "lilim", *files, status=0).stdout[:5], b"pass ")

    # .vrp: the keys, and a node for each customer.
    store = load(folder, "customers", "vrp", SMALL)
    run(store, "add1 3 9 -9 0 100000000 0")
    text = program("instance", store, status=0).stdout.decode()
    sections = re.fullmatch(r"(?s)(.*)NODE_COORD_SECTION\n(.*)DEMAND_SECTION\n(.*)DEPOT_SECTION\n *1\n *-1\nEOF\n", text)
    if not sections:
        fail(f"instance, vrp: {text}")
    keys = dict(re.split(" *: *", line) for line in sections[1].splitlines())
    want("its keys", [keys.get(key) for key in ("TYPE", "DIMENSION", "EDGE_WEIGHT_TYPE", "CAPACITY")], ["CVRP", "6", "EUC_2D", "1000"])
    want("its places", numbers(sections[2]), [[str(i + 1), str(x), str(y)] for i, (x, y) in enumerate([*PLACES, (9, -9)])])
    want("its demands", numbers(sections[3]), [["1", "0"], ["2", "1"], ["3", "1"], ["4", "1"], ["5", "1"], ["6", "3"]])
    again = load(folder, "customers2", "vrp", text)
    want("read back, vrp", program("instance", again, status=0).stdout.decode(), text)

    # Requests that a format can't express.
    for name, kind, given, line in [
        ("single", "lilim", TIGHT, "add1 1 0 0 0 9 0"),
        ("pair", "vrp", SMALL, "add 1 0 0 0 9 0 0 0 0 9 0"),
        ("window", "vrp", SMALL, "add1 1 0 0 1 100000000 0"),
        ("service", "vrp", SMALL, "add1 1 0 0 0 100000000 1"),
        ("gap", "vrp", SMALL, "withdraw 2"),
    ]:
        store = load(folder, name, kind, given)
        want(f"no format, {name}", run(store, line, "instance", "next")[:2], ["ok", "no NoFormat"])
        want(f"no format, {name}, the word", program("instance", store, status=2).stdout, b"no NoFormat\n")
    empty = os.path.join(folder, "empty.store")
    want("no instance", (program("instance", empty, status=2).stdout, run(empty, "instance")), (b"no NoInstance\n", ["no NoInstance"]))
    print("adopt: printed instances read back")


def check_kills(folder):
    if not can_trace():
        skip("kills within it", "strace is not there or may not trace")
        return
    store = load(folder, "killed", "vrp", SMALL)
    run(store, adopt_line(solution([[1], [2, 3], [4]])))
    with open(store, "rb") as file:
        begun = file.read()
    seen, kills = set(), 0
    for when in itertools.count(1):
        with open(store, "wb") as file:
            file.write(begun)
        calls = os.path.join(folder, "calls")
        kill = ["strace", "-o", calls, "-e", "trace=fdatasync", "-e", f"inject=fdatasync:signal=KILL:when={when}"]
        got = run_program("run", store, lines=adopt_line(solution([[1, 2, 3], [4]])), before=kill)
        left = routes_of(store)[1]
        if left not in ("cost 0 0 54", "cost 0 0 40") or b"ok\n" in got.stdout and left != "cost 0 0 40":
            fail(f"killed at sync {when}: {got.stdout!r}, then {left}")
        seen.add(left)
        if got.returncode == 0:
            break
        kills += 1
    want("both plans were seen", len(seen), 2)
    print(f"adopt: killed at each of {kills} syncs")


def check_documents(folder):
    blocks = [commands_shown(it) for it in ("./planner instance day.store > now.txt\n", "echo print | ./planner run day.store")]
    commands = "".join(blocks).replace("1000000", "200")
    place = os.path.join(folder, "documents")
    os.mkdir(place)
    os.symlink(PROGRAM, os.path.join(place, "planner"))
    shutil.copy(LC101, place)
    store = os.path.join(place, "day.store")
    want("documents: load", program("load", store, "lilim", LC101, "7", status=0).stdout, b"ok\n")
    run(store, "build", "withdraw 13", "add 10 30 45 0 1000 90 33 50 0 1200 90")
    before = routes_of(store)[1]
    got = subprocess.run(["sh", "-e", "-c", commands], cwd=place, capture_output=True)
    want("documents", (got.returncode, got.stdout.decode().splitlines()[-2:]), (0, ["ok", routes_of(store)[1].replace("cost", "pass")]))
    if [int(n) for n in routes_of(store)[1].split()[1:]] >= [int(n) for n in before.split()[1:]]:
        fail(f"documents: {before}, then {routes_of(store)[1]}")
    print("adopt: the commands of the documents take a better plan into the store")


def main():
    require_program()
    with tempfile.TemporaryDirectory() as folder:
        check_lines(folder)
        check_word(folder)
        check_instance(folder)
        check_kills(folder)
        check_documents(folder)


main()
