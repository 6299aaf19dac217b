#!/usr/bin/env python3
"""Runs the built program on small inputs whose answers were worked out by hand or come from another program.

1. audit: rule by rule, texts that are refused, and one route of 40,000 customers.
2. Arguments: their meaning, which numbers are accepted, and how other arguments are refused, with the usage of
   their command.
3. Lines of run: which are read, over an empty store and over a loaded one; lines that are too long, and `load`
   in them.
4. Sessions: pins, routes and next numbers as `show` prints them; timetables, and why a request is where it is;
   refusals. adopt and instance: solutions become a store's plan, and the instance of a store reads back.
5. Steps: their operations, how far `reach` goes, and the stages of annealing, made by hand, and interrupted and
   repeated.
6. solve: plans, requests left out, and the search for fewer vehicles. solves: a solution that can't be written
   whole.

Needs the program that rt ci leaves.
"""
import os
import resource
import shutil
import subprocess
import sys
import tempfile

# Python leaves no files beside the scripts.
sys.dont_write_bytecode = True
from planner import EXAMPLES, PROGRAM, STORE_BYTES, expect, outcome, require_program, run  # noqa: E402

# One pickup and its delivery, at (3, 4) and (6, 8), from a depot at (0, 0): a distance of 5 + 5 + 10. In the
# variants the delivery's latest start, the depot's latest return, the capacity and the delivery's partner
# differ, one at a time.
ONE_PAIR = "2 10 1\n0 0 0 0 0 100 0 0 0\n1 3 4 4 0 50 2 0 2\n2 6 8 -4 0 60 2 1 0\n"
LATEST_11 = ONE_PAIR.replace("0 60 2 1 0", "0 11 2 1 0")
LATEST_12 = ONE_PAIR.replace("0 60 2 1 0", "0 12 2 1 0")
RETURN_23 = ONE_PAIR.replace("0 100 0 0 0", "0 23 0 0 0")
RETURN_24 = ONE_PAIR.replace("0 100 0 0 0", "0 24 0 0 0")
CAPACITY_3 = ONE_PAIR.replace("2 10 1", "2 3 1")
OTHER_PICKUP = ONE_PAIR.replace("0 60 2 1 0", "0 60 2 3 0")
FAR_DELIVERY = ONE_PAIR.replace("0 50 2 0 2", "0 50 2 0 40001")
DEPOT_ALONE = "2 10 1\n0 0 0 0 0 100 0 0 0\n"
BOTH = "Route #1: 1 2\nCost 20\n"

# Three customers in Solomon's format. A vehicle serves 1 at 5 and 2 at 12 and is back at 24; one that serves 3
# waits there until 20, and is back at 35.
SINGLES = "n\nVEHICLE\nNUMBER\n2 10\nCUSTOMER\nCUST\n0 0 0 0 0 100 0\n1 3 4 4 0 50 2\n2 6 8 4 0 60 2\n3 0 5 4 20 30 10\n"

# For one vehicle and for two, with a pair farther away: the first stop of each pair is too late after
# the other pair.
LATE_PAIR = "1 10 1\n0 0 0 0 0 100 0 0 0\n1 3 4 4 0 6 2 0 2\n2 6 8 -4 0 60 2 1 0\n3 -6 8 4 0 10 2 0 4\n4 -9 12 -4 0 20 2 3 0\n"
LATE_PAIR_FOR_TWO = LATE_PAIR.replace("1 10 1", "2 10 1", 1)

# Two pairs at two places. Stop 3 is at distance 3 from the depot and due at 2, so it can only be served after
# stop 1.
TWO_PAIRS = "1 10 1\n0 0 0 0 0 100 0 0 0\n1 1 1 1 0 50 0 0 2\n2 1 1 -1 0 50 0 1 0\n3 2 2 1 0 2 0 0 4\n4 2 2 -1 0 50 0 3 0\n"

# Two pairs in a row, whose first delivery waits for no other stop, and one pair on the other side that waits
# for none.
DAY = (
    "2 10 1\n0 0 0 0 0 1000 0 0 0\n1 10 0 1 20 100 5 0 2\n2 20 0 -1 0 40 5 1 0\n3 30 0 1 0 500 5 0 4\n4 40 0 -1 0 900 5 3 0\n"
    "5 -10 0 1 0 10 5 0 6\n6 -20 0 -1 0 900 5 5 0\n"
)

# The two pairs without a tight window: one vehicle can serve them, but not in two routes.
NO_HURRY = TWO_PAIRS.replace("0 2 0 0 4", "0 50 0 0 4")

# A pair at one place.
ONE_PLACE = "1 10 1\n0 0 0 0 0 100 0 0 0\n1 1 1 1 0 50 0 0 2\n2 1 1 -1 0 50 0 1 0\n"

# Two pairs that one vehicle can't both serve: stop 3 must be reached by 12, and it is 14 from stop 1. Then a
# vehicle with capacity 10, and a day that ends at 30, when both pairs take until 34.
APART = "1 20 1\n0 0 0 0 0 100 0 0 0\n1 10 0 5 0 10 0 0 2\n2 10 0 -5 0 50 0 1 0\n3 0 10 6 0 12 0 0 4\n4 0 10 -6 0 50 0 3 0\n"
SMALL_VEHICLE = APART.replace("1 20 1", "1 10 1", 1)
SHORT_DAY = "1 20 1\n0 0 0 0 0 30 0 0 0\n1 10 0 5 0 90 0 0 2\n2 10 0 -5 0 90 0 1 0\n3 0 10 6 0 90 0 0 4\n4 0 10 -6 0 90 0 3 0\n"

# Two pairs on a line through the depot, which fit into one route in only one order. A third pair is late by one
# at the first places where the distance is 36. At nine later places it is no shorter and late as well; at the
# tenth the vehicle is back just in time.
LAST_PLACE = (
    "1 20 1\n0 20 0 0 0 48 0 0 0\n1 20 0 3 0 3 0 0 2\n2 11 0 -3 7 15 0 1 0\n3 28 0 4 23 28 0 0 4\n4 22 0 -4 30 33 0 3 0\n"
)

# A pair that no vehicle can serve: too heavy, then too far, then too far from the depot.
TOO_HEAVY = "1 10 1\n0 0 0 0 0 100 0 0 0\n1 10 0 11 0 50 0 0 2\n2 10 0 -11 0 50 0 1 0\n"
TOO_FAR = "1 10 1\n0 0 0 0 0 100 0 0 0\n1 10 0 1 0 8 0 0 2\n2 10 0 -1 0 50 0 1 0\n"
TOO_LONG = "1 10 1\n0 0 0 0 0 15 0 0 0\n1 10 0 1 0 50 0 0 2\n2 10 0 -1 0 50 0 1 0\n"

# A pair with the two numbers before the last one.
LAST_NUMBERS = "1 10 1\n0 0 0 0 0 100 0 0 0\n39998 1 1 1 0 50 0 0 39999\n39999 1 1 -1 0 50 0 39998 0\n"

# Four pairs: the built plan has three vehicles, and two are enough.
FOUR_PAIRS = (
    "4 4 1\n0 0 0 0 0 60 0 0 0\n1 -2 -5 1 7 26 1 0 2\n2 5 0 -1 16 35 1 1 0\n3 -6 0 3 2 7 1 0 4\n4 2 -2 -3 16 21 1 3 0\n"
    "5 -1 -2 1 17 24 1 0 6\n6 6 -4 -1 25 32 1 5 0\n7 -6 4 1 30 42 1 0 8\n8 6 -2 -1 36 48 1 7 0\n"
)


def vrp(capacity, places, demands):
    """Returns a .vrp text, the depot first."""
    lines = ["NAME : some", "TYPE : CVRP", f"DIMENSION : {len(places)}", "EDGE_WEIGHT_TYPE : EUC_2D", f"CAPACITY : {capacity}", "NODE_COORD_SECTION"]
    lines += [f"{at} {x} {y}" for at, (x, y) in enumerate(places, 1)]
    lines += ["DEMAND_SECTION"] + [f"{at} {demand}" for at, demand in enumerate(demands, 1)]
    return "\n".join(lines + ["DEPOT_SECTION", "1", "-1", "EOF", ""])


def respelled(text):
    """Returns the same text spelled differently: tabs, letter case, decimal points, line ends, no EOF."""
    lines = text.replace("TYPE : CVRP", "type : cvrp", 1).replace("2 3 4", "2 3.0 4.").replace("EOF\n", "").splitlines()
    return "".join((line.replace(" : ", " :\t") if ":" in line else line.replace(" ", "\t")) + "\r\n" for line in lines)


# Three customers, two of whom fit into one vehicle. Variants: spelled differently; after lines that are not
# keys; cut off after the second of four nodes; with a list of depots that does not end; with one customer half
# a unit off; with a distance limit.
THREE_CUSTOMERS = vrp(10, [(0, 0), (3, 4), (6, 8), (0, 5)], [0, 6, 4, 5])
NO_KEYS = "DIMENSION 9\nEOF x\nTYPE TSP\n" + THREE_CUSTOMERS
NINE_LINES = "".join(THREE_CUSTOMERS.splitlines(keepends=True)[:9])
ENDLESS_DEPOTS = THREE_CUSTOMERS.replace("-1\nEOF", "EOF")
HALF_A_UNIT = THREE_CUSTOMERS.replace("2 3 4", "2 30.5 4")
A_LIMIT = "NAME : t3\nTYPE : CVRP\nDIMENSION : 4\nEDGE_WEIGHT_TYPE : EUC_2D\nCAPACITY : 10\nDISTANCE : 200\n"

# Six customers around a depot, for vehicles of capacity 4.
SIX = vrp(4, [(0, 0), (3, 4), (6, 8), (-3, 4), (-6, 8), (0, 5), (9, 1)], [0, 2, 2, 1, 1, 3, 2])

# Four customers: distances of 10, 10, 6 and 5 from the depot, 12 between 1 and 3, 8 between 2 and 3, 5 between
# 2 and 4.
FOUR = vrp(1_000, [(0, 0), (0, 10), (6, 8), (6, 0), (3, 4)], [0, 1, 1, 1, 1])

AUDITS = [
    ("solomon", SINGLES, "Route #1: 1 2\nRoute #2: 3\nCost 30\n", "pass 0 2 30", 0),
    ("solomon", SINGLES, "Route #1: 1 2\nCost 20\n", "broken 3 route 0 place 0 stop 3", 1),
    ("solomon", SINGLES, "Route #1: 1 2 3\nCost 0\n", "broken 6 route 1 place 3 stop 3", 1),
    ("solomon", SINGLES.replace("4 0 50", "4 0 4"), "Route #1: 1 2\nRoute #2: 3\nCost 30\n", "broken 7 route 1 place 1 stop 1", 1),
    ("solomon", SINGLES.replace("2 10", "1 10", 1), "Route #1: 1 2\nRoute #2: 3\nCost 30\n", "broken 9 route 2 place 0 stop 0", 1),
    ("solomon", ONE_PAIR, BOTH, "instance MissingKey 2", 2),
    ("solomon", "n\n", BOTH, "instance Truncated 2", 2),
    ("lilim", SINGLES, BOTH, "instance FieldCount 1", 2),
    ("lilim", ONE_PAIR, BOTH, "pass 0 1 20", 0),
    ("lilim", ONE_PAIR, "Route #1: 2 1\nCost 20\n", "broken 5 route 1 place 1 stop 2", 1),
    ("lilim", LATEST_11, BOTH, "broken 7 route 1 place 2 stop 2", 1),
    ("lilim", LATEST_12, BOTH, "pass 0 1 20", 0),
    ("lilim", RETURN_23, BOTH, "broken 8 route 1 place 3 stop 0", 1),
    ("lilim", RETURN_24, BOTH, "pass 0 1 20", 0),
    ("lilim", CAPACITY_3, BOTH, "broken 6 route 1 place 1 stop 1", 1),
    ("lilim", ONE_PAIR, "Route #1: 1\nCost 10\n", "broken 3 route 1 place 1 stop 2", 1),
    ("lilim", ONE_PAIR, "Cost 0\n", "broken 3 route 0 place 0 stop 1", 1),
    ("lilim", ONE_PAIR, "Route #1: 1\nRoute #2: 2\nCost 30\n", "broken 4 route 1 place 1 stop 1", 1),
    ("lilim", ONE_PAIR, "Route #1: 1 2 1\nCost 20\n", "broken 2 route 1 place 3 stop 1", 1),
    ("lilim", LATEST_11, "Route #1: 1 2\nRoute #2: 9\nCost 20\n", "broken 1 route 2 place 1 stop 9", 1),
    ("lilim", NO_HURRY, "Route #1: 1 2\nRoute #2: 3 4\nCost 8\n", "broken 9 route 2 place 0 stop 0", 1),
    ("lilim", ONE_PAIR, "Route #1: 1 2\nCost 21\n", "broken 11 route 0 place 0 stop 0", 1),
    ("lilim", FAR_DELIVERY, BOTH, "instance Range 3", 2),
    ("lilim", "", BOTH, "instance Truncated 1", 2),
    ("lilim", OTHER_PICKUP, BOTH, "instance PairMismatch 3", 2),
    ("lilim", ONE_PAIR, "Route #1: 1\nRoute #2: 2\n", "solution NoCost 3", 2),
    ("lilim", "", "", "instance Truncated 1", 2),
    ("vrp", THREE_CUSTOMERS, "Route 1 : 2 1\nroute #2:3\nRoute #3:\nCOST 30\n", "pass 0 0 30", 0),
    ("vrp", THREE_CUSTOMERS, "Route #1: 1 2 3\nCost 0\n", "broken 6 route 1 place 3 stop 3", 1),
    ("vrp", THREE_CUSTOMERS, "Route #1: 1 2 3\nRoute #2: 4\n", "solution NoCost 3", 2),
    ("vrp", respelled(THREE_CUSTOMERS), "Route #1: 2 1\nRoute #2: 3\nCost 30\n", "pass 0 0 30", 0),
    ("vrp", NO_KEYS, "Route #1: 2 1\nRoute #2: 3\nCost 30\n", "pass 0 0 30", 0),
    ("vrp", FOUR, "Route #1: 1\nRoute #2: 2 3\nRoute #3: 4\nCost 54\n", "pass 0 0 54", 0),
    ("vrp", FOUR, "Route #1: 1\nRoute #2: 3 2\nRoute #3: 4\nCost 54\n", "pass 0 0 54", 0),
    ("vrp", FOUR, "Route #1: 3 1\nRoute #2: 2\nRoute #3: 4\nCost 58\n", "pass 0 0 58", 0),
    ("vrp", FOUR, "Route #1: 1\nRoute #2: 4 2 3\nCost 44\n", "pass 0 0 44", 0),
    ("vrp", NINE_LINES, "", "instance Truncated 10", 2),
    ("vrp", ENDLESS_DEPOTS, "", "instance BadNumber 18", 2),
    ("vrp", HALF_A_UNIT, "", "instance BadNumber 8", 2),
    ("vrp", A_LIMIT, "", "instance Unsupported 6", 2),
    ("vrp", "DIMENSION : 40002\n", "", "instance TooManyStops 1", 2),
    ("vrp", "", "", "instance MissingKey 1", 2),
    ("lilim", "2 10\n", "", "instance FieldCount 1", 2),
    ("lilim", "2 10 1\n3 0 0 0 0 100 0 0 0\n", "", "instance TaskOrder 2", 2),
    ("lilim", "2 10 1\n0 0 0 0 9 8 0 0 0\n", "", "instance EmptyWindow 2", 2),
    ("vrp", "CAPACITY : 1\nCAPACITY : 2\n", "", "instance NodeRepeated 2", 2),
    ("vrp", "DEPOT_SECTION\n2\n", "", "instance DepotNotFirst 2", 2),
    ("lilim", ONE_PAIR, "Route #1: 1 x\nCost 20\n", "solution BadNumber 1", 2),
    ("lilim", ONE_PAIR, "Rout #1: 1\n", "solution BadLine 1", 2),
]

# Valid arguments, with files that exist: standard input, status, and the beginning of standard output (all of
# it if it is empty).
A_VRP = ("vrp", "a b.vrp", "c.sol")
TAKEN = [
    ([], "", 0, "pass 0 1 20\n"),
    (["audit", *A_VRP], "", 0, "pass 0 0 30\n"),
    (["audits", "vrp", "-"], "a b.vrp\tc.sol\n", 0, "a b.vrp\tc.sol\tpass 0 0 30\n"),
    (["format", "a b.store"], "", 0, "ok\n"),
    (["run", "a b.store"], "next\nnext\n", 0, "opened 0\nno NoInstance\nno NoInstance\n"),
    (["run", "a b.store"], "search 1\n", 0, "opened 0\nno NoInstance\n"),
    (["run", "a b.store", "strict"], "next\nnext\n", 1, "opened 0\nno NoInstance\n"),
    (["load", "lilim", "vrp", "a b.vrp", "7"], "", 0, "ok\n"),
    (["run", "lilim", "strict"], "next\n", 0, "opened 0\nnext 4\nok\n"),
    (["draw", *A_VRP, "4294967295"], "", 2, ""),
    (["timetable", "lilim"], "", 0, "partial 3 0 0\n"),
    (["timetable", *A_VRP, "tabs"], "", 0, "pass 0 0 30\nvehicle\t1\t2\t20\t10\n"),
    (["draw", "lilim"], "", 0, "<svg "),
    (["draw", "lilim", "1"], "", 2, ""),
    (["draw", "lilim", "4294967295"], "", 2, ""),
    (["adopt", "lilim", "c.sol"], "", 0, "ok\n"),
    (["adopt", "lilim", "-"], "Route #1: 1 2\nRoute #2: 3\nCost 30\n", 0, "ok\n"),
    (["draw", "lilim", "2"], "", 0, "<svg "),
    (["draw", "lilim", "3"], "", 2, ""),
    (["instance", "lilim"], "", 0, "NAME : "),
    (["solve", "lilim", "no.txt", "1000000000", "7"], "", 3, ""),
    (["solve", "vrp", "no.vrp", "5", "7", "1000000000"], "", 3, ""),
    (["solves", "lilim", "-", "1000000000"], "no.txt\tno.sol\n", 3, "no.txt\tno.sol\tcannot read no.txt\n"),
    (["solves", "vrp", "-", "0", "18446744073709551615"], "a b.vrp\td.sol\n", 0, "a b.vrp\td.sol\tpass 0 0 30\n"),
]

# Usage errors, and the beginning of the first line of standard error, after `error: `.
NOT_GIVEN = "the following required arguments were not provided:"
BAD_STEPS = "STEPS and DEVIATION are 0 to 1000000000 and SEED is 0 to 18446744073709551615, with digits only"
BAD_SEED = "SEED is 0 to 18446744073709551615, with digits only"
BAD_TASKS = "STEPS is 0 to 1000000000 and SEED is 0 to 18446744073709551615, with digits only"
BAD_AUDIT = "the arguments are KIND INSTANCE SOLUTION [routes], and KIND is lilim, solomon or vrp, perhaps with :10, :100 or :1000"
BAD_AUDITS = "the arguments are KIND LIST [routes], and KIND is lilim, solomon or vrp, perhaps with :10, :100 or :1000"
BAD_DRAWING = "the arguments are STORE [ROUTE] or KIND INSTANCE SOLUTION [ROUTE], KIND is lilim, solomon or vrp, perhaps with :10, :100 or :1000, and ROUTE is a number with digits only"
BAD_TIMETABLE = "the arguments are STORE [tabs] or KIND INSTANCE SOLUTION [tabs], and KIND is lilim, solomon or vrp, perhaps with :10, :100 or :1000"
REFUSED = [
    (["audit", "lilim", "a"], NOT_GIVEN),
    (["audit", "lilim", "a", "b", "c"], BAD_AUDIT),
    (["audit", "lilim", "a", "b", "routes", "c"], "unexpected argument 'c' found"),
    (["audits", "lilim", "a", "b"], BAD_AUDITS),
    (["explain", "vrp", "a", "b", "Routes"], BAD_AUDIT),
    (["audit", "cvrp", "a", "b"], "invalid value 'cvrp' for '<KIND>'"),
    (["audit", "Vrp", "a", "b"], "invalid value 'Vrp' for '<KIND>'"),
    (["solve", "lilim", "a"], NOT_GIVEN),
    (["solve", "lilim", "a", "1000000001"], BAD_STEPS),
    (["solve", "lilim", "a", "1", "18446744073709551616"], BAD_STEPS),
    (["solve", "vrp", "a", "1", "2", "1000000001"], BAD_STEPS),
    (["solve", "vrp", "a", "1", "2", "3", "4"], "unexpected argument '4' found"),
    (["solves", "lilim", "a.list"], NOT_GIVEN),
    (["solves", "lilim", "a.list", "1000000001"], BAD_TASKS),
    (["solves", "vrp", "a.list", "1", "2", "3"], "unexpected argument '3' found"),
    (["draw"], NOT_GIVEN),
    (["draw", "lilim", "a"], BAD_DRAWING),
    (["draw", "day.store", "4294967296"], BAD_DRAWING),
    (["draw", "day.store", "-1"], "unexpected argument '-1' found"),
    (["draw", "Vrp", "a", "b"], BAD_DRAWING),
    (["draw", "vrp", "a", "b", "4294967296"], BAD_DRAWING),
    (["draw", "vrp", "a", "b", "first"], BAD_DRAWING),
    (["draw", "vrp", "a", "b", "1", "2"], "unexpected argument '2' found"),
    (["judge"], "unrecognized subcommand 'judge'"),
    (["check"], NOT_GIVEN),
    (["--kind", "vrp"], "unexpected argument '--kind' found"),
    (["run", "a", "b"], "invalid value 'b' for '[strict]'"),
    (["run", "a", "strict", "b"], "unexpected argument 'b' found"),
    (["load", "a", "vrp"], NOT_GIVEN),
    (["load", "a", "vrp", "b", "18446744073709551616"], BAD_SEED),
    (["format"], NOT_GIVEN),
    (["upgrade", "a"], NOT_GIVEN),
    (["adopt", "a"], NOT_GIVEN),
    (["adopt", "a", "b", "c"], "unexpected argument 'c' found"),
    (["instance"], NOT_GIVEN),
    (["instance", "a", "b"], "unexpected argument 'b' found"),
    (["timetable", "a", "b"], BAD_TIMETABLE),
    (["timetable", "Vrp", "a", "b"], BAD_TIMETABLE),
    (["timetable", "vrp", "a", "b", "tabs", "c"], "unexpected argument 'c' found"),
]
# The usage of each command. If only a value is wrong, no usage is printed. For a name that is not a command, it
# is the program's.
USAGES = {
    "audit": "<KIND> <INSTANCE> <SOLUTION> [routes]",
    "audits": "<KIND> <LIST> [routes]",
    "explain": "<KIND> <INSTANCE> <SOLUTION> [routes]",
    "adopt": "<STORE> <SOLUTION>",
    "check": "<STORE>",
    "draw": "<STORE|KIND> [ROUTE|INSTANCE] [SOLUTION] [ROUTE]",
    "format": "<STORE>",
    "instance": "<STORE>",
    "load": "<STORE> <KIND> <INSTANCE> [SEED]",
    "run": "<STORE> [strict]",
    "solve": "<KIND> <INSTANCE> <STEPS> [SEED] [DEVIATION]",
    "solves": "<KIND> <LIST> <STEPS> [SEED]",
    "timetable": "<STORE|KIND> [tabs|INSTANCE] [SOLUTION] [tabs]",
    "upgrade": "<OLD> <NEW>",
}
NO_SOLUTION = f"error: {NOT_GIVEN}\n  <SOLUTION>\n\nUsage: planner audit <KIND> <INSTANCE> <SOLUTION> [routes]\n\nFor more information, try '--help'.\n"

# Lines over an empty store, and their answers.
NO_INSTANCE = "no NoInstance\n"
BAD_LINE = "no BadLine\n"
RANGE = "no Range\n"
NO_REQUEST = "no NoSuchRequest\n"
NO_PLACE = "no NoSuchPlace\n"
READ_LINES = [
    ("", ""),
    (" \t ", ""),
    ("\r", BAD_LINE),
    ("build", NO_INSTANCE),
    ("\tbuild\t ", NO_INSTANCE),
    ("build\r", BAD_LINE),
    ("Build", BAD_LINE),
    ("build 1", BAD_LINE),
    ("jump", BAD_LINE),
    ("checkpoint", NO_INSTANCE),
    ("print", NO_INSTANCE),
    ("show now", BAD_LINE),
    ("show", NO_INSTANCE),
    ("timetable", NO_INSTANCE),
    ("timetable 3", NO_INSTANCE),
    ("timetable -1", NO_INSTANCE),
    ("timetable 1 2", BAD_LINE),
    ("why 7", NO_INSTANCE),
    ("why", BAD_LINE),
    ("next", NO_INSTANCE),
    ("next 1", BAD_LINE),
    ("help me", BAD_LINE),
    ("search 1", NO_INSTANCE),
    ("search 1000000000", NO_INSTANCE),
    ("search 0", NO_INSTANCE),
    ("search +1", BAD_LINE),
    ("search 1.0", BAD_LINE),
    ("search", BAD_LINE),
    ("search 000000000000000000007", BAD_LINE),
    ("search 18446744073709551616", NO_INSTANCE),
    ("anneal 1", NO_INSTANCE),
    ("reduce 1", NO_INSTANCE),
    ("reduce", BAD_LINE),
    ("reduce 0 1", BAD_LINE),
    ("freeze 100000001", NO_INSTANCE),
    ("freeze", BAD_LINE),
    ("freeze 1 2", BAD_LINE),
    ("freeze 9.5", BAD_LINE),
    ("anneal 0", NO_INSTANCE),
    ("anneal", BAD_LINE),
    ("anneal 0 1 2", BAD_LINE),
    ("reach 1", NO_INSTANCE),
    ("deviation 4294967295", NO_INSTANCE),
    ("deviation 4294967296", NO_INSTANCE),
    ("withdraw 1", NO_INSTANCE),
    ("pin\t3  4", NO_INSTANCE),
    ("pin 1 0", NO_INSTANCE),
    ("unpin 1", NO_INSTANCE),
    ("add 1 0 0 0 9 0 1 1 0 9 0", NO_INSTANCE),
    ("add 1 0 0 0 9 0 1 1 0 9", BAD_LINE),
    ("add 1 0 0 0 9 0 1 1 0 9 0 0", BAD_LINE),
    ("add1 1 0 0 9 8 0", NO_INSTANCE),
    (" " * 1024, ""),
    (" " * 1025, BAD_LINE),
]

# Lines after which the next one is executed or not, and their answers.
LOADS = [
    ("load lilim 18446744073709551615 16777216", False, "no Truncated\n"),
    ("load vrp 0 16777217", False, RANGE),
    ("load lilim 18446744073709551616 66", False, RANGE),
    ("load lilim -1 66", False, RANGE),
    ("load lilim x 66", False, BAD_LINE),
    ("load lilim 0 0", True, "no Truncated 1\n"),
    ("load LILIM 0 66", False, BAD_LINE),
    (f"load lilim 0 {len(OTHER_PICKUP)}\n{OTHER_PICKUP}", True, "no PairMismatch 3\n"),
    (" " * 1025 + "load", False, BAD_LINE),
    (" " * 1025 + "load\r", False, BAD_LINE),
    (" " * 1025 + "load\r\r", True, BAD_LINE),
    (" " * 1025 + "load\r ", True, BAD_LINE),
    (" " * 1025 + "loads", True, BAD_LINE),
    (" " * 1025 + "load\tx", False, BAD_LINE),
]

FIRST_ROUTE = (
    "\nvehicle 1: stops 2, distance 20, load 10\n place  stop  kind      partner  arrival     load\n"
    "     1     2  single          -       10        4 pin\n     2     1  single          -       15       10 pin\n"
    "     3     0  return          -       20       10\n"
)
SECOND_ROUTE = (
    "\nvehicle 2: stops 1, distance 10, load 5\n place  stop  kind      partner  arrival     load\n"
    "     1     3  single          -        5        5 pin\n     2     0  return          -       10        5\n"
)
FULL_OR_AT = (
    "\nunplanned 4\nwhy 4: alone: a vehicle can serve it\nwhy 4: vehicle 1: behind stop 1 it would carry 5 too much\n"
    "why 4: vehicle 2: fits at place %d\nwhy 4: fleet: 2 of 3 vehicles are used\n"
)
PAIRS_ROUTE = "vehicle 1: 1 3 4 2\ncost 0 1 4\n"
BY_TWO = "vehicle 1: 2 1\nvehicle 2: 3\ncost 0 0 30\n"

# An instance, and commands with the text before `ok`, or the whole answer if it is a refusal.
SESSIONS = [
    ("pairs before a plan", "lilim", TWO_PAIRS, [
        ("show", "requests 2 next 5\nsteps 0 place 0\nunplanned 1\nunplanned 3\ncost 2 0 0\n"),
        ("timetable", "\nunplanned 1\nwhy 1: alone: a vehicle can serve it\nwhy 1: fleet: 0 of 1 vehicles are used\n"
            "unplanned 3\nwhy 3: alone: stop 3 would start at 3, latest 2\n"),
        ("timetable 1", ""),
        ("timetable 0", RANGE),
        ("timetable 2", RANGE),
        ("why 1", "alone: a vehicle can serve it\nfleet: 0 of 1 vehicles are used\n"),
        ("why 2", "alone: a vehicle can serve it\nfleet: 0 of 1 vehicles are used\n"),
        ("why 5", NO_REQUEST),
        ("why 3", "alone: stop 3 would start at 3, latest 2\n"),
        ("deviation 1000000001", RANGE),
        ("add1 1 0 0 9 8 0", RANGE),
    ]),
    ("pairs without the first", "lilim", TWO_PAIRS, [
        ("withdraw 1", ""),
        ("why 3", "alone: stop 3 would start at 3, latest 2\n"),
    ]),
    ("pairs, withdrawn by one", "lilim", TWO_PAIRS, [
        ("build", ""),
        ("show", "requests 2 next 5\nsteps 0 place 0\n" + PAIRS_ROUTE),
        ("timetable 1", "\nvehicle 1: stops 4, distance 4, load 2, set off 0, return 4, waiting 0\n"
            " place  stop  kind      partner  set off  arrival    start  waiting  service     from       to   latest     load\n"
            "     1     1  pickup          2        0        1        1        0        0        0       50        1        1\n"
            "     2     3  pickup          4        1        2        2        0        0        0        2        2        2\n"
            "     3     4  delivery        3        2        2        2        0        0        0       50       49        1\n"
            "     4     2  delivery        1        2        3        3        0        0        0       50       50        0 pin\n"
            "     5     0  return          -        3        4        4        0        0        0      100      100        0\n"),
        ("why 3", "vehicle 1: stop 3 at place 2 starts at 2\nvehicle 1: stop 4 at place 3 starts at 2\n"),
        ("why 1", "vehicle 1: stop 1 at place 1 starts at 1\nvehicle 1: stop 2 at place 4 starts at 3\n"),
        ("why 2", "vehicle 1: stop 1 at place 1 starts at 1\nvehicle 1: stop 2 at place 4 starts at 3\n"),
        ("pin 1 4", ""),
        ("show", "requests 2 next 5\nsteps 0 place 0\npin 1: 1 3 4 2\n" + PAIRS_ROUTE),
        ("withdraw 3", "no Pinned\n"),
        ("unpin 1", ""),
        ("show", "requests 2 next 5\nsteps 0 place 0\n" + PAIRS_ROUTE),
        ("pin 1 4", ""),
        ("pin 1 0", ""),
        ("show", "requests 2 next 5\nsteps 0 place 0\n" + PAIRS_ROUTE),
        # The direct leg to stop 3 takes 3, and its latest start is 2.
        ("withdraw 1", ""),
        ("show", "requests 1 next 5\nsteps 0 place 0\nunplanned 3\ncost 1 0 0\n"),
        ("timetable", "\nunplanned 3\nwhy 3: alone: stop 3 would start at 3, latest 2\n"),
        ("print", "no Unplanned\n"),
        # The numbers of withdrawn requests are not used again.
        ("withdraw 3", ""),
        ("add1 1 0 0 0 9 0", ""),
        ("build", ""),
        ("show", "requests 1 next 6\nsteps 0 place 0\nvehicle 1: 5\ncost 0 1 0\n"),
    ]),
    ("pairs, withdrawn by the second", "lilim", TWO_PAIRS, [
        ("build", ""),
        ("pin 1 1", "no NotARoute\n"),
        ("pin 1 3", "no NotARoute\n"),
        ("pin 1 5", NO_PLACE),
        ("pin 2 0", NO_PLACE),
        ("pin 0 0", NO_PLACE),
        ("unpin 0", NO_PLACE),
        ("unpin 2", NO_PLACE),
        ("withdraw 2", NO_REQUEST),
        ("withdraw 3", ""),
        ("show", "requests 1 next 5\nsteps 0 place 0\nvehicle 1: 1 2\ncost 0 1 2\n"),
    ]),
    # Vehicle 1 starts service at stop 1 at 20, its earliest time, after a leg of 10; at stop 2 at 35, at 3 at
    # 50, at 4 at 65, each after a leg of 10. Vehicle 2 starts at stop 5 at 10, after a leg of 10, and at stop 6
    # at 25. So they depart to 1, 2, 3, 4 at 10, 25, 40, 55, and to 5, 6 at 0, 15.
    ("what has begun", "lilim", DAY, [
        ("build", ""),
        ("freeze 0", "pin 2 2\n"),
        ("freeze 0", ""),
        ("freeze 9", ""),
        ("freeze 10", "pin 1 2\n"),
        ("freeze 39", ""),
        ("freeze 40", "pin 1 4\n"),
        ("freeze 0", ""),
        ("show", "requests 3 next 7\nsteps 0 place 0\npin 1: 1 2 3 4\npin 2: 5 6\nvehicle 1: 1 2 3 4\nvehicle 2: 5 6\ncost 0 2 120\n"),
        ("unpin 1", ""),
        ("unpin 2", ""),
        ("freeze 100000000", "pin 1 4\npin 2 2\n"),
        ("unpin 1", ""),
        ("freeze 24", "pin 1 2\n"),
        ("freeze 100000001", RANGE),
        ("freeze -1", RANGE),
    ]),
    ("an order that falls away within its pin", "lilim", DAY, [
        ("build", ""),
        ("freeze 40", "pin 1 4\npin 2 2\n"),
        ("withdraw 3", "no Pinned\n"),
        ("unpin 1", ""),
        ("withdraw 3", ""),
        ("freeze 40", "pin 1 2\n"),
        ("show", "requests 2 next 7\nsteps 0 place 0\npin 1: 1 2\npin 2: 5 6\nvehicle 1: 1 2\nvehicle 2: 5 6\ncost 0 2 80\n"),
    ]),
    ("nothing planned has begun", "lilim", DAY, [("freeze 100000000", "")]),
    ("no times", "vrp", THREE_CUSTOMERS, [("build", ""), ("freeze 5", "no NoTimes\n"), ("freeze 100000001", RANGE)]),
    ("next numbers", "lilim", TWO_PAIRS, [
        ("next", "next 5\n"),
        ("add 1 1 1 0 9 0 1 1 0 9 0", ""),
        ("next", "next 7\n"),
        ("add1 1 1 1 0 9 0", ""),
        ("next", "next 8\n"),
        ("withdraw 7", ""),
        ("next", "next 8\n"),
    ]),
    ("the last numbers", "lilim", LAST_NUMBERS, [
        ("add 1 0 0 0 9 0 0 0 0 9 0", "no NumbersSpent\n"),
        ("add1 1 0 0 0 9 0", ""),
        ("next", "next 40001\n"),
        ("add1 1 0 0 0 9 0", "no NumbersSpent\n"),
        ("add1 1 0 0 9 8 0", RANGE),
    ]),
    ("a pair that would be late", "lilim", APART, [
        ("build", ""),
        ("why 3", "alone: a vehicle can serve it\nvehicle 1: stop 3 would start 12 late\nfleet: 1 of 1 vehicles are used\n"),
        ("add 1 10 0 0 50 0 10 0 0 50 0", ""),
        ("why 5", "alone: a vehicle can serve it\nvehicle 1: fits at places 1 and 2\nfleet: 1 of 1 vehicles are used\n"),
        ("pin 1 2", ""),
        ("why 5", "alone: a vehicle can serve it\nvehicle 1: fits at places 3 and 4\nfleet: 1 of 1 vehicles are used\n"),
    ]),
    # Beside stop 1 it would be 1 too much. After stop 2, which comes before that, it is late.
    ("a pair that would be late, or too much", "lilim", SMALL_VEHICLE, [
        ("build", ""),
        ("why 3", "alone: a vehicle can serve it\nvehicle 1: stop 3 would start 12 late\nfleet: 1 of 1 vehicles are used\n"),
    ]),
    ("a pair by which the return would be late", "lilim", SHORT_DAY, [
        ("build", ""),
        ("why 3", "alone: a vehicle can serve it\nvehicle 1: would be back 4 late\nfleet: 1 of 1 vehicles are used\n"),
    ]),
    ("a pair that fits after places where it is late", "lilim", LAST_PLACE, [
        ("build", ""),
        ("add 2 21 0 0 48 0 13 0 0 48 0", ""),
        ("why 5", "alone: a vehicle can serve it\nvehicle 1: fits at places 3 and 6\nfleet: 1 of 1 vehicles are used\n"),
    ]),
    ("too heavy alone", "lilim", TOO_HEAVY, [("why 1", "alone: stop 1 needs 11, a vehicle takes 10\n")]),
    ("too far alone", "lilim", TOO_FAR, [("why 1", "alone: stop 1 would start at 10, latest 8\n")]),
    ("too long alone", "lilim", TOO_LONG, [("why 1", "alone: would be back at 20, latest 15\n")]),
    # Two routes have loads of 10 and 5, and the new customer beside stop 3 has 5. A pin leaves only the place
    # after it.
    ("singles", "vrp", THREE_CUSTOMERS, [
        ("why 1", "alone: a vehicle can serve it\nfleet: 0 of 3 vehicles are used\n"),
        ("build", ""),
        ("why 3", "vehicle 2: stop 3 at place 1\n"),
        ("timetable 2", SECOND_ROUTE),
        ("timetable 3", ""),
        ("timetable 4", RANGE),
        ("pin\t3  0", ""),
        ("pin\t3  1", NO_PLACE),
        ("pin 4 0", NO_PLACE),
        ("add1 5 0 5 0 9 0", ""),
        ("timetable", FIRST_ROUTE + SECOND_ROUTE + FULL_OR_AT % 1),
        ("why 4", "alone: a vehicle can serve it\nvehicle 1: behind stop 1 it would carry 5 too much\nvehicle 2: fits at place 1\n"
            "fleet: 2 of 3 vehicles are used\n"),
        ("pin 2 1", ""),
        ("timetable", FIRST_ROUTE + SECOND_ROUTE + FULL_OR_AT % 2),
        ("unpin 2", ""),
        ("build", ""),
        ("why 4", "vehicle 2: stop 4 at place 1\n"),
    ]),
    ("a search", "vrp", THREE_CUSTOMERS, [
        ("build", ""),
        ("show", "requests 3 next 4\nsteps 0 place 0\n" + BY_TWO),
        ("search 1", "at 1 0 0 30\n"),
        ("checkpoint", ""),
        ("show", "requests 3 next 4\nsteps 1 place 16\n" + BY_TWO),
        ("deviation 7", ""),
        ("show", "requests 3 next 4\nsteps 1 place 16\n" + BY_TWO + "deviation 7\nwork 0 0 30\n"),
        ("print", "Route #1: 2 1\nRoute #2: 3\nCost 30\n"),
    ]),
    # From another program, which follows each annealing step to the letter: the first one leads to the routes 3
    # 2 and 1, of 22 and 10.
    ("annealing", "vrp", THREE_CUSTOMERS, [
        ("build", ""),
        ("deviation 100", ""),
        ("anneal 1", "at 1 0 0 30\n"),
        ("show", "requests 3 next 4\nsteps 1 place 16\n" + BY_TWO + "deviation 100\nwork 0 0 32\n"),
        ("checkpoint", ""),
        ("anneal 1", "at 2 0 0 30\n"),
        ("show", "requests 3 next 4\nsteps 2 place 32\nvehicle 1: 1 2\nvehicle 2: 3\ncost 0 0 30\ndeviation 100\nwork 0 0 30\n"),
    ]),
    ("longer annealing", "vrp", THREE_CUSTOMERS, [
        ("build", ""),
        ("deviation 100", ""),
        ("anneal 1000", "at 1000 0 0 30\n"),
        ("show", "requests 3 next 4\nsteps 1000 place 16000\n" + BY_TWO + "deviation 100\nwork 0 0 30\n"),
    ]),
    ("an order after a plan", "vrp", THREE_CUSTOMERS, [
        ("build", ""),
        ("add 1 0 0 0 9 0 0 0 0 9 0", ""),
        ("deviation 5", ""),
        ("show", "requests 4 next 6\nsteps 0 place 0\nvehicle 1: 2 1\nvehicle 2: 3\nunplanned 4\ncost 1 0 30\ndeviation 5\nwork 1 0 30\n"),
        ("build", ""),
        ("show", "requests 4 next 6\nsteps 0 place 0\nvehicle 1: 4 5 2 1\nvehicle 2: 3\ncost 0 0 30\ndeviation 5\nwork 0 0 30\n"),
    ]),
    ("the depot alone", "lilim", DEPOT_ALONE, [
        ("show", "requests 0 next 1\nsteps 0 place 0\ncost 0 0 0\n"),
        ("build", ""),
        ("search 257", "at 256 0 0 0\nat 257 0 0 0\n"),
        ("deviation 5", ""),
        ("anneal 3", "at 260 0 0 0\n"),
        ("show", "requests 0 next 1\nsteps 260 place 4160\ncost 0 0 0\ndeviation 5\nwork 0 0 0\n"),
        ("timetable", ""),
        ("print", "Cost 0\n"),
        ("next", "next 1\n"),
    ]),
    # Ten steps that look for fewer vehicles, then stages of one step, whose deviation is 0.
    ("stages over the depot alone", "lilim", DEPOT_ALONE, [
        ("deviation 5", ""),
        ("show", "requests 0 next 1\nsteps 0 place 0\ncost 0 0 0\ndeviation 5\nwork 0 0 0\n"),
        ("anneal 0 20", "".join(f"at {step} 0 0 0\n" for step in range(10, 21))),
        ("show", "requests 0 next 1\nsteps 20 place 320\ncost 0 0 0\n"),
        ("anneal 0 20", ""),
    ]),
    ("an order that is too heavy", "lilim", ONE_PLACE, [
        ("add1 11 0 0 0 9 0", ""),
        ("build", ""),
        ("show", "requests 2 next 4\nsteps 0 place 0\nvehicle 1: 1 2\nunplanned 3\ncost 1 1 2\n"),
        ("why 3", "alone: stop 3 needs 11, a vehicle takes 10\n"),
    ]),
    ("numbers at their limits", "lilim", TWO_PAIRS, [
        ("timetable -1", RANGE),
        ("timetable 3", RANGE),
        ("why 7", NO_REQUEST),
        ("why 4294967296", NO_REQUEST),
        ("search 1000000001", RANGE),
        ("search 0", RANGE),
        ("search -0", RANGE),
        ("search -1", RANGE),
        ("search -00000000000000000007", RANGE),
        ("search 18446744073709551616", RANGE),
        ("search 00000000000000000007", "at 7 2 0 0\n"),
        ("anneal 1000000001", RANGE),
        ("anneal 0", RANGE),
        ("reduce 1000000001", RANGE),
        ("reduce 0", RANGE),
        ("anneal 1", "at 8 2 0 0\n"),
        ("anneal 7 7", ""),
        ("anneal 8 7", RANGE),
        ("anneal 0 1152921504606846976", RANGE),
        ("anneal 0 1152921504606846977", RANGE),
        ("reach -0", ""),
        ("reach 1152921504606846976", RANGE),
        ("reach 1152921504606846977", RANGE),
        ("reach 9", "at 9 2 0 0\n"),
        ("deviation 4294967296", RANGE),
        ("deviation 1000000001", RANGE),
        ("deviation 1000000000", ""),
        ("withdraw -1", NO_REQUEST),
        ("withdraw 4294967296", NO_REQUEST),
        ("pin 1 -1", NO_PLACE),
        ("pin\t3  4", NO_PLACE),
        ("pin 1 0", ""),
        ("unpin 99999999999999999999", NO_PLACE),
        ("unpin -0", NO_PLACE),
        ("add 1 2147483648 0 0 9 0 1 1 0 9 0", RANGE),
        ("add1 1 -2147483648 0 9 8 0", RANGE),
        ("add1 -1 0 0 9 8 0", RANGE),
        ("\tbuild\t ", ""),
    ]),
    # Steps come in operations of 256, of 16,384 for annealing, and of 524,288 for the search for fewer
    # vehicles.
    ("pieces", "vrp", THREE_CUSTOMERS, [
        ("search 200", "at 200 3 0 0\n"),
        ("reach 10", ""),
        ("reach 456", "at 456 3 0 0\n"),
        ("search 300", "at 712 3 0 0\nat 756 3 0 0\n"),
        ("search 44", "at 800 3 0 0\n"),
        ("anneal 16385", "at 17184 3 0 0\nat 17185 3 0 0\n"),
        ("anneal 1", "at 17186 3 0 0\n"),
        ("reduce 524289", "at 541474 3 0 0\nat 541475 3 0 0\n"),
        ("reach 1000541476", RANGE),
        ("anneal 541476 541480", RANGE),
        ("anneal 0 1000541476", RANGE),
        ("anneal 0 541475", ""),
    ]),
]

def fifty_pairs():
    """Returns fifty pairs placed by a rule, for as many vehicles."""
    lines = ["50 1 1", "0 20 20 0 0 400 0 0 0"]
    for pair in range(50):
        number, earliest = 2 * pair + 1, 20 + pair * 27 % 20
        lines.append(f"{number} {pair * 23 % 41} {pair * 35 % 41} 1 {earliest} {earliest + 10} 0 0 {number + 1}")
        lines.append(f"{number + 1} {pair * 16 % 41} {pair * 36 % 41} -1 {earliest} {earliest + 70} 0 {number} 0")
    return "\n".join(lines) + "\n"


# The deviation of each stage in hundredths of the mean leg, and the cost of the six customers' plan before the
# first of seven steps and after each. The costs are those of another program, which follows attempts and stages
# to the letter.
HUNDREDTHS = [150, 122, 99, 81, 66, 54, 44, 35, 29, 24, 19, 16, 13, 10, 8, 7, 6, 5, 4, 3]
STAGED_COSTS = [66, 65, 65, 65, 65, 65, 63, 63]

# An instance, steps, a deviation or none, the beginnings of standard error and standard output, and the last
# line, from the same program.
SOLUTIONS = [
    ("lilim", ONE_PAIR, 3, None, "at 0 0 1 20\nat 1 0 1 20\nat 2 0 1 20\nat 3 0 1 20\n", BOTH, "Cost 20"),
    ("lilim", DEPOT_ALONE, 20, None, "at 0 0 0 0\n" + "".join(f"at {step} 0 0 0\n" for step in range(10, 21)), "Cost 0\n", "Cost 0"),
    ("lilim", DEPOT_ALONE, 20, 5, "".join(f"at {step} 0 0 0\n" for step in range(21)), "Cost 0\n", "Cost 0"),
    ("lilim", LATE_PAIR, 1, None, "at 0 1 1 20\nat 1 1 1 20\nunplanned 1: 3\n", "Route #1: 1 2\n", "Route #1: 1 2"),
    # An iteration of the hybrid search counts as 64 steps. The shortest plan, by all partitions and orders, is 62.
    ("vrp", SIX, 63, None, "at 0 0 0 66\n", "Route", "Cost 66"),
    ("vrp", SIX, 6_463, None, "at 0 0 0 66\nat 320 0 0 6", "Route", "Cost 62"),
    ("vrp", SIX, 2, 3, "at 0 0 0 66\nat 1 0 0 ", "Route", None),
    ("lilim", FOUR_PAIRS, 40, None, "at 0 0 3 68\nat 20 0 2 70\nat 22 0 2 65\n", "Route", "Cost 65"),
    ("lilim", FOUR_PAIRS, 7, None, "at 0 0 3 68\nat 3 0 3 68\nat 4 0 3 68\nat 5 0 2 70\nat 6 0 2 70\nat 7 0 2 65\n", "Route", "Cost 65"),
    ("lilim", LATE_PAIR_FOR_TWO, 5, None, "at 0 0 2 50\nat 2 0 2 50\nat 3 0 2 50\nat 4 0 2 50\nat 5 0 2 50\n", "Route #1: ", "Cost 50"),
    # The first attempt looks for two vehicles fewer.
    ("lilim", fifty_pairs(), 200, None, "at 0 0 40 2340\nat 100 0 38 2276\nat 110 0 38 2276\n", "Route", "Cost 2257"),
]


class Folder:
    """The folder in which the program runs, with the files written there."""

    def __init__(self, path):
        self.path = path
        self.planner("format", "empty.store")

    def file(self, name):
        return os.path.join(self.path, name)

    def write(self, name, text):
        with open(self.file(name), "w", encoding="ascii") as file:
            file.write(text)
        return name

    def planner(self, *words, lines=""):
        """Runs the program and returns status, standard output and standard error."""
        return outcome(*words, lines=lines, cwd=self.path)

    def new_store(self):
        shutil.copyfile(self.file("empty.store"), self.file("day.store"))

    def run(self, lines):
        """Returns the answers to the commands, after `opened ..`."""
        return run("day.store", lines, cwd=self.path)


def check_audits(folder):
    for kind, instance, solution, line, status in AUDITS:
        words = ["audit", kind, folder.write("instance", instance), folder.write("solution", solution)]
        expect(f"the audit of {solution!r}", folder.planner(*words), (status, line + "\n", ""))


def check_largest_audit(folder):
    """Checks 40,000 customers at the depot, all in one route."""
    instance = folder.write("instance", vrp(0, 40_001 * [(0, 0)], 40_001 * [0]))
    solution = folder.write("solution", "Route #1: " + " ".join(map(str, range(1, 40_001))) + "\nCost 0\n")
    expect("the audit of 40,000 customers", folder.planner("audit", "vrp", instance, solution), (0, "pass 0 0 0\n", ""))


def check_words(folder):
    folder.write("a b.vrp", THREE_CUSTOMERS)
    folder.write("c.sol", "Route #1: 2 1\nRoute #2: 3\nCost 30\n")
    for words, lines, status, output in TAKEN:
        got = folder.planner(*words, lines=lines)
        expect(f"status of {words}", got[0], status)
        expect(f"output of {words}", got[1][: len(output)] if output else got[1], output)
    expect("bytes of a store", os.path.getsize(folder.file("a b.store")), STORE_BYTES)


def check_refused_words(folder):
    for words, reason in REFUSED:
        status, output, errors = folder.planner(*words)
        expect(f"{words}", (status, output, errors.split("\n")[0]), (64, "", "error: " + reason))
        usage = f"{words[0]} {USAGES[words[0]]}" if words[0] in USAGES else "[COMMAND]"
        told = [line for line in errors.split("\n") if line.startswith("Usage: ")]
        expect(f"the usage after {words}", told, [] if reason.startswith("invalid value") else [f"Usage: planner {usage}"])
    expect("the whole of what is told", folder.planner("audit", "lilim", "a"), (64, "", NO_SOLUTION))
    expect("--version", folder.planner("--version"), (0, "planner 0.1.0\n", ""))
    for words in ["help"], ["audit", "--help"]:
        status, output, errors = folder.planner(*words)
        expect(f"{words}", (status, "Usage: planner" in output, errors), (0, True, ""))


def check_same_search(folder):
    """Checks that `solve` and a store find the same with the same seed and deviation, and `solve` and `solves`
    with the same seed.
    """
    for seed in 7, 2**64 - 1:
        folder.new_store()
        text = folder.run(f"load vrp {seed} {len(SIX)}\n{SIX}deviation 1000000000\nbuild\nsearch 5\nprint\n")
        solved = folder.planner("solve", "vrp", folder.write("six.vrp", SIX), "5", str(seed), "1000000000")
        expect(f"solve by seed {seed}", solved[1] + "ok\n", text[text.index("Route #1"):])
    texts = {}
    fifty = EXAMPLES / "public" / "E-n51-k5.vrp"
    for words in [], ["0"], ["7"], [str(2**64 - 1)]:
        name = "_".join(["fifty", *words]) + ".sol"
        folder.planner("solves", "vrp", "-", "64", *words, lines=f"{fifty}\t{name}\n")
        with open(folder.file(name), encoding="ascii") as file:
            texts[name] = file.read()
        expect(f"solves by seed {words}", texts[name], folder.planner("solve", "vrp", fifty, "64", *words)[1])
    expect("solves without a seed", texts["fifty.sol"], texts["fifty_0.sol"])
    expect("whether seeds find other plans", len(set(texts.values())) > 1, True)


def check_lines(folder):
    for line, answer in READ_LINES:
        for end in ["\r\n"] + ["\n"] * (not line.endswith("\r")):
            folder.new_store()
            expect(f"the line {line[:80]!r}", folder.run(line + end + "next\n"), answer + NO_INSTANCE)
    folder.new_store()
    text = folder.run(" help\n")
    expect("help", (text.split("\n")[0], text[-4:]), ("Each line is one command:", "\nok\n"))


def check_loads(folder):
    for line, goes_on, answer in LOADS:
        folder.new_store()
        expect(f"the line {line[:80]!r}", folder.run(line + "\nnext\n"), answer + NO_INSTANCE * goes_on)


def load_line(kind, instance, seed=0):
    return f"load {kind} {seed} {len(instance)}\n{instance}"


def check_sessions(folder):
    for name, kind, instance, steps in SESSIONS:
        folder.new_store()
        text = folder.run(load_line(kind, instance) + "".join(line + "\n" for line, _ in steps))
        expect(f"{name}: load", text[:3], "ok\n")
        text = text[3:]
        for line, told in steps:
            wanted = told if told.startswith("no ") else told + "ok\n"
            expect(f"{name}: {line}", text[: len(wanted)], wanted)
            text = text[len(wanted) :]
        expect(f"{name}: after all commands", text, "")


def check_hints(folder):
    """Checks the hints on standard error beside an answer."""
    for lines, told in [
        ("build\n", "unplanned 1: 3\n"),
        ("withdraw 2\n", "withdraw 2: stop 2 is the delivery of request 1\n"),
        ("build\npin 1 2\nwithdraw 1\n", "unplanned 1: 3\nwithdraw 1: a stop of this request is pinned to vehicle 1\n"),
        ("withdraw 3\nbuild\nwithdraw 3\nwithdraw 5\n", ""),
    ]:
        folder.new_store()
        status, _, errors = folder.planner("run", "day.store", lines=load_line("lilim", APART) + lines)
        expect(f"hints of {lines!r}", (status, errors), (0, told))


# A store with the four customers: solutions one after another, each with its answer, status and hint, and the
# plan that `show` prints then.
TWO_ROUTES = "vehicle 1: 1\nvehicle 2: 4 2 3\n"
ADOPTED = [
    ("Route #1: 1\nRoute #2: 2 3\nRoute #3: 4\nCost 54\n", "ok\n", 0, "", "vehicle 1: 1\nvehicle 2: 2 3\nvehicle 3: 4\n"),
    ("Route #1: 1\nRoute #2: 4 2 3\nCost 44\n", "ok\n", 0, "", TWO_ROUTES),
    ("Route #1: 1\nRoute #2: 2 3\nRoute #3: 4\nCost 54\n", "no Dearer\n", 1, "", TWO_ROUTES),
    ("Route #1: 1\nRoute #2: 4 2\nCost 44\n", "broken 3 route 0 place 0 stop 3\nno NotAPlan\n", 1, "", TWO_ROUTES),
    ("Route #1: 1\nRoute #2: 4 2 3\nCost 43\n", "broken 11 route 0 place 0 stop 0\nno NotAPlan\n", 1, "", TWO_ROUTES),
    ("Route #1: 1\nRoute #2: 4 2 3\n", "no NoCost 3\n", 2, "", TWO_ROUTES),
    ("Rout #1: 1\n", "no BadLine 1\n", 2, "", TWO_ROUTES),
]
# Vehicle 2 has stop 4 in its pin. The first solution has routes that begin with other stops, the second one has
# the routes in another order.
ADOPTED_PINNED = [
    ("Route #1: 1\nRoute #2: 3 2 4\nCost 44\n", "no Pinned\n", 1, "adopt: no remaining route begins with the pin of vehicle 2\n", TWO_ROUTES),
    ("Route #1: 4 2 3\nRoute #2: 1\nCost 44\n", "ok\n", 0, "", TWO_ROUTES),
]


def check_adopted(folder):
    """Checks solutions that become a store's plan, and others that do not."""
    folder.new_store()
    expect("adopt over an empty store", folder.planner("adopt", "day.store", folder.write("sol", BOTH)), (2, "no NoInstance\n", ""))
    folder.run(load_line("vrp", FOUR))
    for pins, solutions in (("", ADOPTED), ("pin 2: 4\n", ADOPTED_PINNED)):
        if pins:
            folder.run("pin 2 1\n")
        for text, answer, status, hint, shown in solutions:
            got = folder.planner("adopt", "day.store", folder.write("sol", text))
            expect(f"adopt of {text!r}", got, (status, answer, hint))
            told = folder.run("show\n").split("place 0\n")[1]
            expect(f"the plan after {text!r}", told.split("cost")[0], pins + shown)
    expect("adopt of no file", folder.planner("adopt", "day.store", "nowhere")[:2], (3, "cannot read nowhere\n"))
    expect("adopt over no store", folder.planner("adopt", "nowhere", "sol")[:2], (3, "cannot read nowhere\n"))
    expect("adopt over no store's file", folder.planner("adopt", "sol", "sol")[:2], (2, "store BadLength\n"))


def check_instances(folder):
    """Checks that a store prints its instance, that this loads again, and that the store's solution passes the
    audit with it.
    """
    folder.new_store()
    expect("the instance of an empty store", folder.planner("instance", "day.store"), (2, "no NoInstance\n", ""))
    for kind, instance, lines in [
        ("lilim", DAY, "add 1 5 5 0 900 5 6 6 0 900 5\nwithdraw 3\nbuild\n"),
        ("lilim", DEPOT_ALONE, ""),
        ("solomon", SINGLES, "add1 1 5 5 0 900 5\nwithdraw 3\nbuild\n"),
        ("vrp", FOUR, "build\n"),
    ]:
        printed = f"planner: the instance is printed as {kind}\n"
        folder.new_store()
        folder.run(load_line(kind, instance) + lines)
        status, text, errors = folder.planner("instance", "day.store")
        expect(f"the instance after {lines!r}", (status, errors), (0, printed))
        solution = folder.write("sol", folder.run("print\n").removesuffix("ok\n"))
        told = folder.planner("audit", kind, folder.write("held", text), solution)
        expect(f"the audit with it after {lines!r}", (told[0], told[1][:7], told[2]), (0, "pass 0 ", ""))
        os.path.exists(folder.file("again.store")) and os.remove(folder.file("again.store"))
        expect("the instance loaded again", folder.planner("load", "again.store", kind, "held")[:2], (0, "ok\n"))
        expect("its instance", folder.planner("instance", "again.store"), (0, text, printed))
    folder.new_store()
    folder.run(load_line("lilim", DAY) + "add1 1 5 5 0 900 5\n")
    expect("an instance with a single stop", folder.planner("instance", "day.store"), (2, "no NoFormat\n", ""))
    expect("the instance of no store", folder.planner("instance", "nowhere")[:2], (3, "cannot read nowhere\n"))


def check_reopened(folder):
    """Checks that what a run has loaded is there in the next one."""
    folder.new_store()
    expect("a load", folder.run(load_line("lilim", ONE_PAIR)), "ok\n")
    expect("the next run", folder.run("show\n"), "requests 1 next 3\nsteps 0 place 0\nunplanned 1\ncost 1 0 0\nok\n")


def check_strict(folder):
    """Checks that a strict run ends after a refusal, and executes no later line."""
    folder.new_store()
    strict = ["run", "day.store", "strict"]
    lines = load_line("lilim", ONE_PLACE) + "build\nnext\nwithdraw 2\nwithdraw 1\n"
    told = "opened 0\nok\nok\nnext 3\nok\nno NoSuchRequest\n"
    expect("strict, a refusal", folder.planner(*strict, lines=lines), (1, told, "withdraw 2: stop 2 is the delivery of request 1\n"))
    told = "opened 0\nrequests 1 next 3\nsteps 0 place 0\nvehicle 1: 1 2\ncost 0 1 2\nok\nok\n"
    expect("strict, after it", folder.planner(*strict, lines="show\nwithdraw 1\n"), (0, told, ""))
    folder.new_store()
    status, text, _ = folder.planner(*strict, lines="help\nnext\nhelp\n")
    begin, end = "opened 0\nEach line is one command:\n", "\nok\nno NoInstance\n"
    expect("strict, without an instance", (status, text[: len(begin)], text[-len(end) :]), (1, begin, end))


def check_farthest(folder):
    """Checks that the maximum number of steps of a command is begun."""
    folder.new_store()
    folder.run(load_line("vrp", THREE_CUSTOMERS) + "search 200\n")
    for words, wanted in [
        (["run", "day.store"], b"opened 200\nat 456 3 0 0\n"),
        (["solve", "vrp", folder.write("three", THREE_CUSTOMERS), "1000000000"], b"at 0 0 0 30\n"),
    ]:
        with subprocess.Popen([PROGRAM, *words], cwd=folder.path, stdin=subprocess.PIPE, stdout=subprocess.PIPE, stderr=subprocess.PIPE) as process:
            process.stdin.write(b"reach 1000000200\n")
            process.stdin.flush()
            told = process.stdout if words[0] == "run" else process.stderr
            expect(f"the begin of {words}", b"".join(told.readline() for _ in wanted.splitlines()), wanted)
            process.kill()


def stages_by_hand(steps, costs):
    """Returns the operations of `anneal 0 STEPS` for the six customers, each step with the deviation of its
    stage, in hundredths of a mean leg.
    """
    lines = []
    for step in range(steps):
        stage = max(k for k in range(20) if steps * k // 20 <= step)
        lines += [f"deviation {costs[step] * HUNDREDTHS[stage] // (6 * 100)}\n", "anneal 1\n"]
    return lines


def check_stages(folder):
    """Checks that the command, cut off after any operation and repeated, leads to the same state. Each of its
    seven steps has a stage of its own.
    """
    begin = load_line("vrp", SIX, seed=1) + "build\n"
    lines = stages_by_hand(7, STAGED_COSTS)
    told = [f"at {step} 0 0 {cost}\n" for step, cost in enumerate(STAGED_COSTS)]
    shown = None
    for count in range(len(lines) + 1):
        folder.new_store()
        folder.run(begin + "".join(lines[:count]))
        text, _, rest = folder.run("anneal 0 7\nshow\n").partition("ok\n")
        # After each deviation a step is made.
        expect(f"stages after {count} commands", text, "".join(told[count // 2 + 1 :]))
        shown = shown or rest
        expect(f"shown after stages that were interrupted after {count} commands", rest, shown)


def check_solutions(folder):
    for kind, instance, steps, deviation, told, text, last in SOLUTIONS:
        words = ["solve", kind, folder.write("instance", instance), str(steps), "1"] + [str(deviation)] * (deviation is not None)
        status, output, errors = folder.planner(*words)
        expect(f"status of {words}", status, int("unplanned" in told))
        expect(f"what {words} tells", errors[: len(told)], told)
        expect(f"what {words} prints", output[: len(text)], text)
        if last is not None:
            expect(f"the last line of {words}", output.splitlines()[-1], last)


def check_unwritten(folder):
    """Checks that no part of a solution stays if it can't be written whole: here the system takes four bytes
    and no more.
    """
    folder.write("pair", ONE_PAIR)
    words = [PROGRAM, "solves", "lilim", folder.write("cut.list", "pair\tcut.sol\n"), "0"]
    few = lambda: resource.setrlimit(resource.RLIMIT_FSIZE, (4, 4))
    # The signal of a file that gets too long stays ignored, as in Python, and the write fails.
    got = subprocess.run(words, cwd=folder.path, capture_output=True, text=True, preexec_fn=few, restore_signals=False)
    expect("a solution that is cut", (got.returncode, got.stdout), (3, "pair\tcut.sol\tcannot write cut.sol\n"))
    expect("what is left of it", os.path.exists(folder.file("cut.sol")), False)
    expect("the solution then", folder.planner(*words[1:])[:2], (0, "pair\tcut.sol\tpass 0 1 20\n"))


def main():
    require_program()
    with tempfile.TemporaryDirectory() as path:
        folder = Folder(path)
        check_audits(folder)
        check_largest_audit(folder)
        check_words(folder)
        check_refused_words(folder)
        check_lines(folder)
        check_loads(folder)
        check_sessions(folder)
        check_hints(folder)
        check_adopted(folder)
        check_instances(folder)
        check_reopened(folder)
        check_strict(folder)
        check_same_search(folder)
        check_farthest(folder)
        check_stages(folder)
        check_solutions(folder)
        check_unwritten(folder)
    print("program: audits, arguments, commands, sessions, stages and solutions are answered as worked out by hand")


main()
