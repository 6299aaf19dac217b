#!/usr/bin/env python3
"""Compares the results of the built program after many steps with those of another program that follows the
same rules. The numbers must be equal.

1. The command `anneal 0 STEPS`: each twentieth of the steps, by a store for .vrp instances, and by `solve` for
   Li-Lim instances, which makes its operations. Five of these have vehicles to spare, and three have fleets that
   are too small for all requests. `solve` by a search with a deviation, on instances of both kinds.
2. More than 65,536 steps in one uninterrupted run: a stage of 70,000, and an annealing of as many in a store,
   with both plans.
3. The same number of steps through a store, by a command `anneal 0 STEPS` and by one of a search, gives the
   plans of `solve`.

The instances are E-n51-k5 and instances that are made here by a rule. Needs the program that rt ci leaves.
"""
import os
import sys
import tempfile

# Python leaves no files beside the scripts.
sys.dont_write_bytecode = True
from planner import EXAMPLES, expect, outcome, require_program, write  # noqa: E402

STEPS = 100_000


def vrp(capacity, places, demands):
    """Returns a .vrp text, the depot first."""
    lines = ["TYPE : CVRP", f"DIMENSION : {len(places)}", "EDGE_WEIGHT_TYPE : EUC_2D", f"CAPACITY : {capacity}", "NODE_COORD_SECTION"]
    lines += [f"{at} {x} {y}" for at, (x, y) in enumerate(places, 1)]
    lines += ["DEMAND_SECTION"] + [f"{at} {demand}" for at, demand in enumerate(demands, 1)]
    return "\n".join(lines + ["DEPOT_SECTION", "1", "-1", "EOF", ""])


def customers(count):
    """Returns customers around a depot."""
    places = [(500, 500)] + [(it * 379 % 1009, it * 617 % 1013) for it in range(1, count + 1)]
    return vrp(60, places, [0] + [1 + it * 31 % 17 for it in range(1, count + 1)])


def pairs(count, fleet=None):
    """Returns pairs around a depot, with as many vehicles as pairs or with this many."""
    lines = [f"{fleet or count} 14 1", "0 50 50 0 0 600 0 0 0"]
    for pair in range(count):
        number, earliest = 2 * pair + 1, pair * 29 % 281
        lines.append(f"{number} {pair * 23 % 101} {pair * 35 % 101} {1 + pair % 7} {earliest} {earliest + 90} 3 0 {number + 1}")
        lines.append(f"{number + 1} {pair * 57 % 101} {pair * 72 % 101} {-1 - pair % 7} {earliest} {earliest + 230} 3 {number} 0")
    return "\n".join(lines) + "\n"


def fifty():
    return (EXAMPLES / "public" / "E-n51-k5.vrp").read_text(encoding="ascii")


SIX = vrp(4, [(0, 0), (3, 4), (6, 8), (-3, 4), (-6, 8), (0, 5), (9, 1)], [0, 2, 2, 1, 1, 3, 2])

# From the other program: the distances before the first step and after each twentieth of the steps.
FIFTY_1 = [918, 550, 527, 527] + 17 * [521]
FIFTY_2 = [918, 553, 525] + 18 * [521]
CUSTOMERS_1 = [30749, 16929, 15645, 15471, 14872, 14859, 14774, 14656, 14656] + 12 * [14642]
CUSTOMERS_2 = [30749, 16539, 15581, 15416, 15140, 14948, 14684, 14669] + 13 * [14668]
# Requests left out, vehicles and distance before the first step, and from the middle on after each twentieth of
# the steps: the search for fewer vehicles is one operation.
FORTY_1 = "0 10 3466, 0 6 2468, 0 6 2256, 0 6 2256, 0 6 2256, 0 6 2256, 0 6 2256, 0 6 2256, 0 6 2256, 0 6 2256, 0 6 2256, 0 6 2256"
EIGHTY_1 = "0 16 6205, 0 10 4158, 0 10 4051, 0 10 4049, 0 10 4049, 0 10 4049, 0 10 4049, 0 10 4049, 0 10 4049, 0 10 4049, 0 10 4049, 0 10 4049"
EIGHTY_2 = "0 16 6205, 0 10 4384, 0 10 4239, 0 10 4207, 0 10 4194, 0 10 4176, 0 10 4176, 0 10 4176, 0 10 4101, 0 10 4101, 0 10 4092, 0 10 4092"
MORE_1 = "0 23 8973, 0 14 6032, 0 14 6029, 0 14 5985, 0 14 5982, 0 14 5982, 0 14 5982, 0 14 5982, 0 14 5982, 0 14 5982, 0 14 5982, 0 14 5982"
MANY_1 = "0 35 14017, 0 23 9579, 0 23 9240, 0 23 9083, 0 23 8988, 0 23 8919, 0 23 8915, 0 23 8914, 0 23 8912, 0 23 8870, 0 23 8870, 0 23 8870"
MOST_1 = "0 52 20811, 0 33 13645, 0 33 12489, 0 33 12073, 0 33 11804, 0 33 11662, 0 33 11631, 0 33 11600, 0 33 11593, 0 33 11579, 0 33 11579, 0 33 11579"
SHORT_1 = "32 9 3551, 3 9 3832, 3 9 3826, 3 9 3826, 3 9 3806, 3 9 3806, 3 9 3806, 3 9 3806, 3 9 3806, 3 9 3806, 3 9 3806, 3 9 3806"
SHORTER_1 = "42 7 2758, 16 7 2975, 15 7 2871, 15 7 2871, 15 7 2871, 15 7 2871, 15 7 2871, 15 7 2871, 15 7 2871, 15 7 2871, 15 7 2871, 15 7 2871"
SHORT_OF_MANY_2 = "69 21 8705, 5 21 8807, 4 21 8624, 4 21 8548, 4 21 8494, 4 21 8470, 4 21 8460, 4 21 8459, 4 21 8459, 4 21 8459, 4 21 8459, 4 21 8459"


def staged(distances, steps=STEPS):
    return "".join(f"at {steps * at // 20} 0 0 {distance}\n" for at, distance in enumerate(distances))


def tried(told):
    steps = [0] + [STEPS * at // 20 for at in range(10, 21)]
    return "".join(f"at {step} {line}\n" for step, line in zip(steps, told.split(", "), strict=True))


# The instance, the steps, the seed, and the expected lines of a store at the twentieths of the steps. `solve` has
# another search for these instances.
STAGED = [
    (fifty(), STEPS, 1, staged(FIFTY_1)),
    (fifty(), STEPS, 2, staged(FIFTY_2)),
    (customers(80), STEPS, 1, staged(CUSTOMERS_1)),
    (customers(80), STEPS, 2, staged(CUSTOMERS_2)),
    (SIX, 1_400_000, 1, staged([66] + 20 * [62], 1_400_000)),
]

# The kind, the instance, the steps, the seed, and the expected beginning of standard error.
SOLVED = [
    ("lilim", pairs(40), STEPS, 1, tried(FORTY_1)),
    ("lilim", pairs(80), STEPS, 1, tried(EIGHTY_1)),
    ("lilim", pairs(80), STEPS, 2, tried(EIGHTY_2)),
    ("lilim", pairs(120), STEPS, 1, tried(MORE_1)),
    # The first attempts look for two and three vehicles fewer.
    ("lilim", pairs(200), STEPS, 1, tried(MANY_1)),
    ("lilim", pairs(300), STEPS, 1, tried(MOST_1)),
    ("lilim", pairs(80, 9), STEPS, 1, tried(SHORT_1)),
    ("lilim", pairs(80, 7), STEPS, 1, tried(SHORTER_1)),
    ("lilim", pairs(200, 21), STEPS, 2, tried(SHORT_OF_MANY_2)),
]

# The kind, the instance, the seed and the deviation of a search with the same number of steps, and the vehicles
# and distance from the other program.
SEARCHED = [
    ("vrp", fifty(), 1, 5, 0, 540),
    ("vrp", fifty(), 2, 5, 0, 527),
    ("vrp", customers(80), 1, 30, 0, 15064),
    ("vrp", customers(80), 2, 30, 0, 14998),
    ("lilim", pairs(80), 1, 20, 13, 3946),
    ("lilim", pairs(80), 2, 20, 12, 3956),
]


# The routes of the other program's plan after 70,000 annealing steps with seed 0 and deviation 30, by vehicle.
ANNEALED = [
    "45 53 61 69 5 74 10 68",
    "30 35 40 32 27 22",
    "44 49 54 41 36 31 39",
    "47 42 29 37 50 55",
    "65 1 57 52",
    "70 6 14 78 9 73",
    "17 38 43 48 56 51 46 33 25",
    "20 28 23 79 15 71 7",
    "19 24 16 80 75",
    "76 2 66 58 63",
    "12 4",
    "60 26 18 13 77 21 34",
    "11 67 3 72 8 64 59 62",
]
ANNEALED_TOLD = "at 16384 0 0 14644\nat 32768 0 0 14644\nat 49152 0 0 14644\nat 65536 0 0 14621\nat 70000 0 0 14621\nok\n"


def written(folder, text):
    """Writes the instance, and returns its path."""
    path = os.path.join(folder, "instance")
    write(path, text)
    return path


def session(folder, kind, instance, seed, lines):
    """Returns the answers to these commands on a new store, after a load."""
    store = os.path.join(folder, "costs.store")
    outcome("format", store)
    status, text, _ = outcome("run", store, lines=f"load {kind} {seed} {len(instance)}\n{instance}{lines}")
    expect("the beginning of a session", (status, text[:12]), (0, "opened 0\nok\n"))
    return text[12:]


def routes_printed(plan):
    return [line.split(": ")[1] for line in plan.splitlines() if line.startswith("Route")]


def routes_shown(answers):
    return [line.split(": ")[1] for line in answers.splitlines() if line.startswith("vehicle")]


def check_solved(folder):
    for kind, instance, steps, seed, told in SOLVED:
        what = f"solve {kind} by {steps} steps of seed {seed}"
        status, plan, errors = outcome("solve", kind, written(folder, instance), steps, seed)
        left_out, _, distance = told.splitlines()[-1].split()[2:]
        expect(what, (status, errors[: len(told)]), (int(left_out != "0"), told))
        shown = session(folder, kind, instance, seed, f"build\nanneal 0 {steps}\nshow\n")
        expect(f"{what}, and through a store", routes_shown(shown), routes_printed(plan))
        if left_out == "0":
            expect(f"{what}, all that it tells", errors, told)
            expect(f"{what}, its last line", plan.splitlines()[-1], "Cost " + distance)


def check_staged(folder):
    for instance, steps, seed, told in STAGED:
        what = f"a store by {steps} steps of seed {seed}"
        _, plan, errors = outcome("solve", "vrp", written(folder, instance), 0, seed)
        built, _, answers = session(folder, "vrp", instance, seed, f"build\nprint\nanneal 0 {steps}\n").partition("at ")
        expect(f"{what}, the built plan", built, f"ok\n{plan}ok\n")
        answers = "at " + answers
        at_twentieths = [line for line in answers.splitlines(keepends=True) if line.startswith("at ") and int(line.split()[1]) % (steps // 20) == 0]
        expect(what, errors.splitlines(keepends=True)[0] + "".join(at_twentieths), told)


def check_searched(folder):
    for kind, instance, seed, deviation, vehicles, distance in SEARCHED:
        what = f"solve {kind} by a search of seed {seed}"
        status, plan, errors = outcome("solve", kind, written(folder, instance), STEPS, seed, deviation)
        told = [line for line in errors.splitlines() if line.startswith("at ")]
        expect(what, (status, told[-1]), (0, f"at {STEPS} 0 {vehicles} {distance}"))
        expect(f"{what}, its last line", plan.splitlines()[-1], f"Cost {distance}")
        answers = session(folder, kind, instance, seed, f"build\ndeviation {deviation}\nsearch {STEPS}\nprint\n")
        expect(f"{what}, its lines through a store", answers.count("at "), -(-STEPS // 256))
        expect(f"{what}, and through a store", answers[answers.index("Route"):], plan + "ok\n")


def check_annealed(folder):
    routes = "".join(f"vehicle {vehicle}: {route}\n" for vehicle, route in enumerate(ANNEALED, 1))
    shown = f"requests 80 next 81\nsteps 70000 place 1120000\n{routes}cost 0 0 14621\ndeviation 30\nwork 0 0 14636\nok\n"
    answers = session(folder, "vrp", customers(80), 0, "build\ndeviation 30\nanneal 70000\nshow\n")
    expect("70,000 annealing steps", answers, "ok\nok\n" + ANNEALED_TOLD + shown)


def main():
    require_program()
    with tempfile.TemporaryDirectory() as folder:
        check_staged(folder)
        check_solved(folder)
        check_searched(folder)
        check_annealed(folder)
    print(f"costs: {len(STAGED) + len(SOLVED) + len(SEARCHED) + 1} plans cost exactly what another program found")


main()
