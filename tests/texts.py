#!/usr/bin/env python3
"""Compares the program's explanations of verdicts and of refused texts, and its timetables, with texts that
were worked out by hand. As tests in Rattle such long texts are slow: proving them takes minutes.

For the audit's line only the number of the rule is compared, and for a refused text only the line number:
crates/test_text tests the names of the faults. It also tests timetables that leave requests out.

    tests/texts.py
"""

import pathlib
import re
import sys
import tempfile

# Python leaves no files beside the scripts.
sys.dont_write_bytecode = True
from planner import fail, outcome, require_program  # noqa: E402

# One pickup and its delivery: the vehicle serves them at 5 and at 12, and is back at 24.
ONE_PAIR = (
    b"2 10 1\n"
    b"0 0 0 0 0 100 0 0 0\n"
    b"1 3 4 4 0 50 2 0 2\n"
    b"2 6 8 -4 0 60 2 1 0\n"
)

# Three customers, of which a vehicle can serve two.
THREE_CUSTOMERS = (
    b"NAME : t3\n"
    b"TYPE : CVRP\n"
    b"DIMENSION : 4\n"
    b"EDGE_WEIGHT_TYPE : EUC_2D\n"
    b"CAPACITY : 10\n"
    b"NODE_COORD_SECTION\n"
    b"1 0 0\n"
    b"2 3 4\n"
    b"3 6 8\n"
    b"4 0 5\n"
    b"DEMAND_SECTION\n"
    b"1 0\n"
    b"2 6\n"
    b"3 4\n"
    b"4 5\n"
    b"DEPOT_SECTION\n"
    b"1\n"
    b"-1\n"
    b"EOF\n"
)

# The delivery's latest start is 11.
LATEST_11 = (
    b"2 10 1\n"
    b"0 0 0 0 0 100 0 0 0\n"
    b"1 3 4 4 0 50 2 0 2\n"
    b"2 6 8 -4 0 11 2 1 0\n"
)

# The vehicle waits for the pickup from 5 to 8.
EARLIEST_8 = (
    b"2 10 1\n"
    b"0 0 0 0 0 100 0 0 0\n"
    b"1 3 4 4 8 50 2 0 2\n"
    b"2 6 8 -4 0 60 2 1 0\n"
)

# The vehicle must be back at 23.
RETURN_23 = (
    b"2 10 1\n"
    b"0 0 0 0 0 23 0 0 0\n"
    b"1 3 4 4 0 50 2 0 2\n"
    b"2 6 8 -4 0 60 2 1 0\n"
)

# The capacity is 3.
CAPACITY_3 = (
    b"2 3 1\n"
    b"0 0 0 0 0 100 0 0 0\n"
    b"1 3 4 4 0 50 2 0 2\n"
    b"2 6 8 -4 0 60 2 1 0\n"
)

# Two pairs and one vehicle.
TWO_PAIRS = (
    b"1 10 1\n"
    b"0 0 0 0 0 100 0 0 0\n"
    b"1 1 1 1 0 50 0 0 2\n"
    b"2 1 1 -1 0 50 0 1 0\n"
    b"3 2 2 1 0 50 0 0 4\n"
    b"4 2 2 -1 0 50 0 3 0\n"
)

# Each delivery can only be served until 11.
LATE_TWICE = (
    b"2 10 1\n"
    b"0 0 0 0 0 100 0 0 0\n"
    b"1 3 4 4 0 50 2 0 2\n"
    b"2 6 8 -4 0 11 2 1 0\n"
    b"3 3 4 4 0 50 2 0 4\n"
    b"4 6 8 -4 0 11 2 3 0\n"
)

# Route 1 serves both stops of a pair.
BOTH = (
    b"Route #1: 1 2\n"
    b"Cost 20\n"
)

# The vehicle waits for the pickup from 5 to 8. The delivery's latest start is 20, which is 7 after the pickup.
LATEST_20 = (
    b"2 10 1\n"
    b"0 0 0 0 0 100 0 0 0\n"
    b"1 3 4 4 8 50 2 0 2\n"
    b"2 6 8 -4 0 20 2 1 0\n"
)

# The vehicle must be back at 66: the delivery starts by 54 and the pickup by 47.
RETURN_66 = (
    b"2 10 1\n"
    b"0 0 0 0 0 66 0 0 0\n"
    b"1 3 4 4 0 50 2 0 2\n"
    b"2 6 8 -4 0 60 2 1 0\n"
)

# The kind, the instance and the solution, the number of the broken rule, 0 for none, and the text after the
# audit's line.
EXPLAINED = [
    (
        "lilim",
        ONE_PAIR,
        b"Route #1: 1 2 9\n"
        b"Cost 20\n",
        1,
        "unknown stop: no request has stop 9, the numbers of the instance are below 3\n"
        "place   stop\n"
        "    1      1\n"
        "    2      2\n"
        "    3      9\n"
        "places that break this rule: 1\n",
    ),
    (
        "lilim",
        ONE_PAIR,
        b"Route #1: 1 2\n"
        b"Route #2: 1\n"
        b"Cost 20\n",
        2,
        "visited twice: stop 1 is at place 1 of route 1 already\n"
        "place   stop\n"
        "    1      1\n"
        "places that break this rule: 1\n"
        "places that break rule 4: 1\n",
    ),
    (
        "lilim",
        ONE_PAIR,
        b"Cost 0\n",
        3,
        "missing stop: stop 1 is in no route; the other stop of its pair, stop 2, is in no route\n"
        "stops in no route: 2\n"
        "  stop 1\n"
        "  stop 2\n",
    ),
    (
        "lilim",
        ONE_PAIR,
        b"Route #1: 2\n"
        b"Cost 20\n",
        3,
        "missing stop: stop 1 is in no route; the other stop of its pair, stop 2, is at place 1 of route 1\n"
        "place   stop      leg    arrival      start         window          service      load\n"
        "    1      2       10         10         10          0..60                2        -4\n"
        "    2      0       10         22         22          0..100               0        -4\n"
        "stops in no route: 1\n"
        "  stop 1\n",
    ),
    (
        "lilim",
        ONE_PAIR,
        b"Route #1: 1\n"
        b"Route #2: 2\n"
        b"Cost 30\n",
        4,
        "split pair: stop 1 is at place 1 of route 1; the other stop of its pair, stop 2, is at place 1 of route 2\n"
        "place   stop      leg    arrival      start         window          service      load\n"
        "    1      1        5          5          5          0..50                2         4\n"
        "    2      0        5         12         12          0..100               0         4\n"
        "places that break this rule: 2\n"
        "  route 2 place 1 stop 2\n",
    ),
    (
        "lilim",
        ONE_PAIR,
        b"Route #1: 2 1\n"
        b"Cost 20\n",
        5,
        "early delivery: stop 2 is at place 1 of route 1; its pickup, stop 1, is at place 2 of route 1\n"
        "place   stop      leg    arrival      start         window          service      load\n"
        "    1      2       10         10         10          0..60                2        -4\n"
        "    2      1        5         17         17          0..50                2         0\n"
        "    3      0        5         24         24          0..100               0         0\n"
        "places that break this rule: 1\n",
    ),
    (
        "lilim",
        CAPACITY_3,
        BOTH,
        6,
        "overload: after stop 1, demand 4, the load is 4, the capacity 3\n"
        "place   stop      leg    arrival      start         window          service      load\n"
        "    1      1        5          5          5          0..50                2         4  overload\n"
        "    2      2        5         12         12          0..60                2         0\n"
        "    3      0       10         24         24          0..100               0         0\n"
        "places that break this rule: 1\n",
    ),
    (
        "lilim",
        LATEST_11,
        BOTH,
        7,
        "late service: stop 2 starts at 12, latest 11: late by 1\n"
        "place   stop      leg    arrival      start         window          service      load\n"
        "    1      1        5          5          5          0..50                2         4\n"
        "    2      2        5         12         12          0..11                2         0  late\n"
        "    3      0       10         24         24          0..100               0         0\n"
        "places that break this rule: 1\n",
    ),
    (
        "lilim",
        RETURN_23,
        BOTH,
        8,
        "late return: after stop 2 the vehicle is back at 24, latest 23: late by 1\n"
        "place   stop      leg    arrival      start         window          service      load\n"
        "    1      1        5          5          5          0..50                2         4\n"
        "    2      2        5         12         12          0..60                2         0\n"
        "    3      0       10         24         24          0..23                0         0  late\n"
        "places that break this rule: 1\n",
    ),
    (
        "lilim",
        TWO_PAIRS,
        b"Route #1: 1 2\n"
        b"Route #2: 3 4\n"
        b"Cost 8\n",
        9,
        "too many vehicles: 2 are used, the fleet has 1\n"
        "place   stop      leg    arrival      start         window          service      load\n"
        "    1      3        3          3          3          0..50                0         1\n"
        "    2      4        0          3          3          0..50                0         0\n"
        "    3      0        3          6          6          0..100               0         0\n",
    ),
    (
        "lilim",
        LATE_TWICE,
        b"Route #1: 1 2\n"
        b"Route #2: 3 4\n"
        b"Cost 40\n",
        7,
        "late service: stop 2 starts at 12, latest 11: late by 1\n"
        "place   stop      leg    arrival      start         window          service      load\n"
        "    1      1        5          5          5          0..50                2         4\n"
        "    2      2        5         12         12          0..11                2         0  late\n"
        "    3      0       10         24         24          0..100               0         0\n"
        "places that break this rule: 2\n"
        "  route 2 place 2 stop 4\n",
    ),
    (
        "lilim",
        EARLIEST_8,
        BOTH,
        0,
        "route  stops   distance      load    set off     return    waiting\n"
        "    1      2         20         4          3         27          3\n"
        "  sum      2         20                                          3\n",
    ),
    (
        "lilim",
        ONE_PAIR,
        b"Route #1: 1 2\n"
        b"Route #2:\n"
        b"Cost 21\n",
        11,
        "wrong cost: 21 is printed, the distance driven is 20\n"
        "route  stops   distance      load    set off     return    waiting\n"
        "    1      2         20         4          0         24          0\n"
        "    2      0          0         0          0          0          0\n"
        "  sum      2         20                                          0\n",
    ),
    (
        "vrp",
        THREE_CUSTOMERS,
        b"Route #1: 2 1\n"
        b"Route #2: 3\n"
        b"Cost 30\n",
        0,
        "route  stops   distance      load\n"
        "    1      2         20        10\n"
        "    2      1         10         5\n"
        "  sum      3         30\n",
    ),
    (
        "vrp",
        THREE_CUSTOMERS,
        b"Route #1: 1 2 3\n"
        b"Cost 0\n",
        6,
        "overload: after stop 3, demand 5, the load is 15, the capacity 10\n"
        "place   stop      leg      load\n"
        "    1      1        5         6\n"
        "    2      2        5        10\n"
        "    3      3        7        15  overload\n"
        "    4      0        5        15  overload\n"
        "places that break this rule: 1\n",
    ),
    # Several faults together: each rule after the first one is counted, too.
    (
        "lilim",
        b"2 3 1\n"
        b"0 0 0 0 0 23 0 0 0\n"
        b"1 3 4 4 0 50 2 0 2\n"
        b"2 6 8 -4 0 11 2 1 0\n",
        BOTH,
        6,
        "overload: after stop 1, demand 4, the load is 4, the capacity 3\n"
        "place   stop      leg    arrival      start         window          service      load\n"
        "    1      1        5          5          5          0..50                2         4  overload\n"
        "    2      2        5         12         12          0..11                2         0  late\n"
        "    3      0       10         24         24          0..23                0         0  late\n"
        "places that break this rule: 1\n"
        "places that break rule 7: 1\n"
        "places that break rule 8: 1\n",
    ),
    # The depot in a route, and a stop that is in two of too many routes.
    (
        "lilim",
        ONE_PAIR,
        b"Route #1: 0 1 2 0\n"
        b"Cost 20\n",
        1,
        "unknown stop: stop 0 is the depot, which no route line has\n"
        "place   stop\n"
        "    1      0\n"
        "    2      1\n"
        "    3      2\n"
        "    4      0\n"
        "places that break this rule: 2\n"
        "  route 1 place 4 stop 0\n"
        "places that break rule 2: 1\n",
    ),
    # Nodes of a .vrp text instead of its customers, and customers counted from 0.
    (
        "vrp",
        THREE_CUSTOMERS,
        b"Route #1: 3 2\n"
        b"Route #2: 4\n"
        b"Cost 30\n",
        1,
        "unknown stop: no request has stop 4, the numbers of the instance are below 4. Each stop less 1 is one of the instance: are the numbers one too high?\n"
        "place   stop\n"
        "    1      4\n"
        "places that break this rule: 1\n"
        "places that break rule 3: 1\n",
    ),
    (
        "vrp",
        THREE_CUSTOMERS,
        b"Route #1: 1 0\n"
        b"Route #2: 2\n"
        b"Cost 30\n",
        1,
        "unknown stop: stop 0 is the depot, which no route line has. Each stop and 1 more is one of the instance: are the numbers one too low?\n"
        "place   stop\n"
        "    1      1\n"
        "    2      0\n"
        "places that break this rule: 1\n"
        "places that break rule 3: 1\n",
    ),
]

# The kind and the text of an instance that is refused, and the explanation.
# The lines before the depot, in Solomon's format.
HEADING = b"n\nVEHICLE\nNUMBER\n2 10\nCUSTOMER\nCUST\n"

REFUSED_INSTANCES = [
    # Solomon's format: the heading, then customers.
    (
        "solomon",
        b"",
        "line 1: the text ends early: the line with the name is missing\n",
    ),
    (
        "solomon",
        b"n\n",
        "line 2: the text ends early: the line with VEHICLE is missing\n",
    ),
    (
        "solomon",
        b"n\nVEHICLES\n",
        "line 2: the line begins with the wrong word: it is VEHICLES, the word must be VEHICLE\n"
        "VEHICLES\n",
    ),
    (
        "solomon",
        b"n\nVEHICLE\nNUMBER\n",
        "line 4: the text ends early: the line with fleet and capacity is missing\n",
    ),
    (
        "solomon",
        b"n\nVEHICLE\nNUMBER\n2\n",
        "line 4: the number of words is wrong: 2 due, 1 found\n"
        "2\n",
    ),
    (
        "solomon",
        b"n\nVEHICLE\nNUMBER\n0 10\n",
        "line 4: a number is outside its limits: fleet is 0, its limits are 1..40000\n"
        "0 10\n",
    ),
    (
        "solomon",
        HEADING,
        "line 7: the text ends early: the line with customer 0, the depot, is missing\n",
    ),
    (
        "solomon",
        HEADING + b"0 1 1 0 0 9\n",
        "line 7: the number of words is wrong: 7 due, 6 found\n"
        "0 1 1 0 0 9\n",
    ),
    (
        "solomon",
        HEADING + b"0 1 1 0 0 9.5 0\n",
        "line 7: a word is not a whole number: due is 9.5, which has a fraction\n"
        "0 1 1 0 0 9.5 0\n",
    ),
    (
        "solomon",
        HEADING + b"0 1 1 0 -1 9 0\n",
        "line 7: a number is outside its limits: ready is -1, its limits are 0..100000000\n"
        "0 1 1 0 -1 9 0\n",
    ),
    (
        "solomon",
        HEADING + b"1 1 1 0 0 9 0\n",
        "line 7: customer numbers do not rise from 0: the first is customer 1\n"
        "1 1 1 0 0 9 0\n",
    ),
    (
        "solomon",
        HEADING + b"0 1 1 0 0 9 0\n40001 1 1 1 0 9 0\n",
        "line 8: a customer has a number above 40000: customer 40001\n"
        "40001 1 1 1 0 9 0\n",
    ),
    (
        "solomon",
        HEADING + b"0 1 1 0 0 9 0\n\n3 1 1 1 0 9 0\n2 1 1 1 0 9 0\n",
        "line 10: customer numbers do not rise from 0: customer 2 follows customer 3\n"
        "2 1 1 1 0 9 0\n",
    ),
    (
        "solomon",
        HEADING + b"0 1 1 0 0 9 0\n1 1 1 1 9 8 0\n",
        "line 8: a window ends before it begins: it begins at 9 and ends at 8\n"
        "1 1 1 1 9 8 0\n",
    ),
    (
        "solomon",
        ONE_PAIR,
        "line 2: the line begins with the wrong word: it is 0, the word must be VEHICLE\n"
        "0 0 0 0 0 100 0 0 0\n"
        "the text looks like a Li-Lim instance, and is read as solomon\n",
    ),
    (
        "solomon",
        b"NAME : t\nDIMENSION : 2\n",
        "line 2: the line begins with the wrong word: it is DIMENSION, the word must be VEHICLE\n"
        "DIMENSION : 2\n"
        "the text looks like a .vrp instance, and is read as solomon\n",
    ),
    (
        "lilim",
        b"2 10\n",
        "line 1: the number of words is wrong: 3 due, 2 found\n"
        "2 10\n",
    ),
    (
        "lilim",
        b"2 10 1\n"
        b"0 0 0 0 0 100 0 0\n",
        "line 2: the number of words is wrong: 9 due, 8 found\n"
        "0 0 0 0 0 100 0 0\n",
    ),
    (
        "lilim",
        b"2 10 1\n"
        b"0 0 37.5 0 0 100 0 0 0\n",
        "line 2: a word is not a whole number: y is 37.5, which has a fraction\n"
        "0 0 37.5 0 0 100 0 0 0\n",
    ),
    (
        "lilim",
        b"2 10 1\n"
        b"0 0 0 0 0 1OO 0 0 0\n",
        "line 2: a word is not a whole number: latest is 1OO\n"
        "0 0 0 0 0 1OO 0 0 0\n",
    ),
    (
        "lilim",
        b"2 1000001 1\n",
        "line 1: a number is outside its limits: capacity is 1000001, its limits are 0..1000000\n"
        "2 1000001 1\n",
    ),
    (
        "lilim",
        b"2 10 1\n"
        b"0 0 0 -1000001 0 100 0 0 0\n",
        "line 2: a number is outside its limits: demand is -1000001, its limits are -1000000..1000000\n"
        "0 0 0 -1000001 0 100 0 0 0\n",
    ),
    (
        "lilim",
        b"2 10 1\n"
        b"0 0 0 0 0 100 0 0 0\n"
        b"40001 3 4 4 0 50 2 0 2\n",
        "line 3: a task has a number above 40000: task 40001\n"
        "40001 3 4 4 0 50 2 0 2\n",
    ),
    (
        "lilim",
        b"2 10 1\n"
        b"0 0 0 0 9 8 0 0 0\n",
        "line 2: a window ends before it begins: it begins at 9 and ends at 8\n"
        "0 0 0 0 9 8 0 0 0\n",
    ),
    (
        "lilim",
        b"2 10 1\n"
        b"3 0 0 0 0 100 0 0 0\n",
        "line 2: task numbers do not rise from 0: the first is task 3\n"
        "3 0 0 0 0 100 0 0 0\n",
    ),
    (
        "lilim",
        b"2 10 1\n"
        b"0 0 0 0 0 100 0 0 0\n"
        b"2 6 8 -4 0 60 2 1 0\n"
        b"\n"
        b"1 3 4 4 0 50 2 0 2\n",
        "line 5: task numbers do not rise from 0: task 1 stands behind task 2\n"
        "1 3 4 4 0 50 2 0 2\n",
    ),
    (
        "lilim",
        b"",
        "line 1: the text ends early: the first line, of fleet, capacity and speed, is missing\n",
    ),
    (
        "lilim",
        b"\n"
        b"2 10 1\n",
        "line 3: the text ends early: task 0, the depot, is missing\n",
    ),
    (
        "lilim",
        b"2 10 1\n"
        b"0 0 0 0 0 100 0 0 0\n"
        b"1 3 4 4 0 50 2 0 0\n",
        "line 3: a task is no half of a pair: it names neither a pickup nor a delivery\n"
        "1 3 4 4 0 50 2 0 0\n",
    ),
    (
        "lilim",
        b"2 10 1\n"
        b"0 0 0 0 0 100 0 0 0\n"
        b"1 3 4 4 0 50 2 2 2\n",
        "line 3: a task is no half of a pair: it names both a pickup and a delivery\n"
        "1 3 4 4 0 50 2 2 2\n",
    ),
    (
        "lilim",
        b"2 10 1\n"
        b"0 0 0 0 0 100 0 0 0\n"
        b"1 3 4 4 0 50 2 0 7\n",
        "line 3: a task is no half of a pair: its delivery, task 7, is not there\n"
        "1 3 4 4 0 50 2 0 7\n",
    ),
    (
        "lilim",
        b"2 10 1\n"
        b"0 0 0 0 0 100 0 0 0\n"
        b"1 3 4 4 0 50 2 0 2\n"
        b"2 6 8 -4 0 60 2 3 0\n",
        "line 3: a task is no half of a pair: its delivery, task 2 on line 4, has 3 as its pickup\n"
        "1 3 4 4 0 50 2 0 2\n",
    ),
    (
        "lilim",
        b"2 10 1\n"
        b"0 0 0 0 0 100 0 0 0\n"
        b"1 6 8 -4 0 60 2 2 0\n"
        b"2 3 4 4 0 50 2 0 3\n"
        b"3 6 8 -4 0 60 2 2 0\n",
        "line 3: a task is no half of a pair: its pickup, task 2 on line 4, has 3 as its delivery\n"
        "1 6 8 -4 0 60 2 2 0\n",
    ),
    (
        "lilim",
        b"2 10 1\n"
        b"0 0 0 0 0 100 0 0 0\n"
        b"1 6 8 -4 0 60 2 7 0\n",
        "line 3: a task is no half of a pair: its pickup, task 7, is not there\n"
        "1 6 8 -4 0 60 2 7 0\n",
    ),
    (
        "lilim",
        b"2 10 1\n"
        b"0 0 0 0 0 100 0 0 0\n"
        b"1 3 4 4 0 50 2 0 2\n"
        b"2 6 8 -5 0 60 2 1 0\n",
        "line 3: a task is no half of a pair: its delivery, task 2 on line 4, has demand -5, this one 4: their sum is not 0\n"
        "1 3 4 4 0 50 2 0 2\n",
    ),
    (
        "lilim",
        b"2 10 1\n"
        b"0 0 0 0 0 100 0 0 0\n"
        b"1 3 4 -4 0 50 2 0 2\n"
        b"2 6 8 4 0 60 2 1 0\n",
        "line 3: a task is no half of a pair: its delivery, task 2 on line 4, has demand 4, this one -4: that of a pickup is not negative\n"
        "1 3 4 -4 0 50 2 0 2\n",
    ),
    (
        "lilim",
        b"2 10 1\n"
        b"0 0 0 0 0 100 0 0 0\n"
        b"1 6 8 -4 0 60 2 2 0\n"
        b"\n"
        b"2 3 4 5 0 50 2 0 1\n",
        "line 3: a task is no half of a pair: its pickup, task 2 on line 5, has demand 5, this one -4: their sum is not 0\n"
        "1 6 8 -4 0 60 2 2 0\n",
    ),
    (
        "lilim",
        b"\xef\xbb\xbf2 10 1\n"
        b"0 0 0 0 0 100 0 0 0\n",
        "line 1: a word is not a whole number: fleet is ???2\n"
        "???2 10 1\n"
        "the text begins with a byte order mark (EF BB BF): save it without, or by tail -c +4\n",
    ),
    (
        "lilim",
        THREE_CUSTOMERS,
        "line 1: a word is not a whole number: fleet is NAME\n"
        "NAME : t3\n"
        "the text looks like a .vrp instance, and is read as lilim\n",
    ),
    (
        "lilim",
        b"R101 is here\nVEHICLE\n",
        "line 1: a word is not a whole number: fleet is R101\n"
        "R101 is here\n"
        "the text looks like a Solomon instance, and is read as lilim\n",
    ),
    (
        "lilim",
        "\ufeff2 10 1\n".encode("utf-16-le"),
        "line 1: a word is not a whole number: fleet is ??2?\n"
        "??2? ?1?0? ?1?\n"
        "the text is UTF-16: save it as UTF-8, or by iconv -f UTF-16 -t UTF-8\n",
    ),
    (
        "lilim",
        b"2 10 1\r0 0 0 0 0 100 0 0 0\r",
        "line 1: the number of words is wrong: 3 due, 11 found\n"
        "2 10 1?0 0 0 0 0 100 0 0 0\n"
        "the lines end with CR only: save them with LF, or by tr '\\r' '\\n'\n",
    ),
    (
        "vrp",
        b"R101\nCUSTOMER\n0 1 1 0 0 9 0\n",
        "line 3: the number of words is wrong: these numbers stand in no section\n"
        "0 1 1 0 0 9 0\n"
        "the text looks like a Solomon instance, and is read as vrp\n",
    ),
    (
        "vrp",
        b"DIMENSION : 2 3\n",
        "line 1: the number of words is wrong: 1 due, 2 found\n"
        "DIMENSION : 2 3\n",
    ),
    (
        "vrp",
        b"DIMENSION : 2\n"
        b"NODE_COORD_SECTION\n"
        b"1 0 0\n"
        b"DEMAND_SECTION\n",
        "line 4: the number of words is wrong: 3 due, 1 found, NODE_COORD_SECTION lacks 1 of its lines\n"
        "DEMAND_SECTION\n",
    ),
    (
        "vrp",
        b"DIMENSION : 2\n"
        b"NODE_COORD_SECTION\n"
        b"1 0 0\n"
        b"2 3 4\n"
        b"3 6 8\n",
        "line 5: the number of words is wrong: these numbers stand in no section, each of which has as many lines as DIMENSION says, 2\n"
        "3 6 8\n",
    ),
    (
        "vrp",
        b"DEPOT_SECTION\n"
        b"1 -1 2\n",
        "line 2: the number of words is wrong: words stand behind -1, which ends the list of depots\n"
        "1 -1 2\n",
    ),
    (
        "vrp",
        b"DIMENSION : 2\n"
        b"DEMAND_SECTION\n"
        b"1 0\n"
        b"2 30.5\n",
        "line 4: a word is not a whole number: demand is 30.5, which has a fraction\n"
        "2 30.5\n",
    ),
    (
        "vrp",
        b"CAPACITY : ten\n",
        "line 1: a word is not a whole number: CAPACITY is ten\n"
        "CAPACITY : ten\n",
    ),
    (
        "vrp",
        b"DIMENSION : 2\n"
        b"NODE_COORD_SECTION\n"
        b"3 0 0\n",
        "line 3: a number is outside its limits: node is 3, its limits are 1..2\n"
        "3 0 0\n",
    ),
    (
        "vrp",
        b"dimension:1\n",
        "line 1: a number is outside its limits: DIMENSION is 1, its limits are 2..40001\n"
        "dimension:1\n",
    ),
    (
        "vrp",
        b"DIMENSION : 40002\n",
        "line 1: there are more nodes than 40001: DIMENSION is 40002\n"
        "DIMENSION : 40002\n",
    ),
    (
        "vrp",
        b"TYPE : TSP\n",
        "line 1: the key or its value is not supported: TYPE is TSP, supported is CVRP\n"
        "TYPE : TSP\n",
    ),
    (
        "vrp",
        b"EDGE_WEIGHT_TYPE: GEO\n",
        "line 1: the key or its value is not supported: EDGE_WEIGHT_TYPE is GEO, supported is EUC_2D\n"
        "EDGE_WEIGHT_TYPE: GEO\n",
    ),
    (
        "vrp",
        b"DISTANCE : 200\n",
        "line 1: the key or its value is not supported: DISTANCE\n"
        "DISTANCE : 200\n",
    ),
    (
        "vrp",
        b"NODE_COORD_SECTION\n",
        "line 1: a key or a section is missing: DIMENSION has to stand before this section\n"
        "NODE_COORD_SECTION\n",
    ),
    (
        "vrp",
        b"DIMENSION : 2\n"
        b"EOF\n"
        b"CAPACITY : 5\n",
        "line 2: a key or a section is missing: CAPACITY EDGE_WEIGHT_TYPE NODE_COORD_SECTION DEMAND_SECTION DEPOT_SECTION\n"
        "EOF\n",
    ),
    (
        "vrp",
        b"CAPACITY : 1\n"
        b"CAPACITY : 2\n",
        "line 2: a node, a key or a section stands twice: CAPACITY\n"
        "CAPACITY : 2\n",
    ),
    (
        "vrp",
        b"DIMENSION : 2\n"
        b"DEMAND_SECTION\n"
        b"1 0\n"
        b"1 4\n",
        "line 4: a node, a key or a section stands twice: node is 1\n"
        "1 4\n",
    ),
    (
        "vrp",
        b"DEPOT_SECTION\n"
        b"2\n",
        "line 2: the list of depots is not 1 and then -1\n"
        "2\n",
    ),
    (
        "vrp",
        b"DIMENSION : 2\n"
        b"NODE_COORD_SECTION\n"
        b"1 0 0\n",
        "line 4: the text ends early: NODE_COORD_SECTION lacks 1 of its lines\n",
    ),
    (
        "vrp",
        b"DEPOT_SECTION\n"
        b"1\n",
        "line 3: the text ends early: DEPOT_SECTION lacks its end, -1\n",
    ),
    (
        "vrp",
        ONE_PAIR,
        "line 1: the number of words is wrong: these numbers stand in no section\n"
        "2 10 1\n"
        "the text looks like a Li-Lim instance, and is read as vrp\n",
    ),
    (
        "lilim",
        b"2 10 1\r\n"
        b"0\t0 \x1bx \xff\r\n",
        "line 2: the number of words is wrong: 9 due, 4 found\n"
        "0\t0 ?x ?\n",
    ),
]

# A solution that is refused, and the explanation.
REFUSED_SOLUTIONS = [
    (
        b"Route #1: 1 x\n"
        b"Cost 20\n",
        "line 1: a word is not the number that has to stand there: a customer is x, allowed are digits alone, at most 4294967295\n"
        "Route #1: 1 x\n",
    ),
    (
        b"Route #1: 1\n"
        b"Cost 828.94\n",
        "line 2: a word is not the number that has to stand there: the cost is 828.94, which has a fraction, allowed are whole numbers in 0..18446744073709551615. Each way is rounded to a whole number here; behind the word routes no cost is asked\n"
        "Cost 828.94\n"
        "distance that the routes drive, each way rounded: 10\n",
    ),
    (
        b"cost: 8.3e2\n",
        "line 1: a word is not the number that has to stand there: the cost is 8.3e2, allowed are whole numbers in 0..18446744073709551615. Each way is rounded to a whole number here; behind the word routes no cost is asked\n"
        "cost: 8.3e2\n"
        "distance that the routes drive, each way rounded: 0\n",
    ),
    (
        b"Route #1: 1\n"
        b"Vehicle types: [1, 2]\n"
        b"Cost: 20\n",
        "line 2: this is no route line, and no cost line with one word: a solution has no other keys, as it has none behind: grep -iE '^(route|cost)'\n"
        "Vehicle types: [1, 2]\n",
    ),
    (
        b"\tRoute #1: 1\n"
        b"Cost 20\n",
        "line 1: this is no route line, and no cost line with one word: Route and Cost have to begin their lines, as they do behind: sed 's/^[[:blank:]]*//'\n"
        "\tRoute #1: 1\n",
    ),
    (
        b"Route #1: 1\n"
        b"  COST: 20\n",
        "line 2: this is no route line, and no cost line with one word: Route and Cost have to begin their lines, as they do behind: sed 's/^[[:blank:]]*//'\n"
        "  COST: 20\n",
    ),
    (
        b"cost: -5\n",
        "line 1: a word is not the number that has to stand there: the cost is -5, allowed are whole numbers in 0..18446744073709551615\n"
        "cost: -5\n"
        "distance that the routes drive, each way rounded: 0\n",
    ),
    (
        b"Cost : 12 13\n",
        "line 1: this is no route line, and no cost line with one word: 1 due behind Cost, 2 found\n"
        "Cost : 12 13\n",
    ),
    (
        b"Rout #1: 1\n",
        "line 1: this is no route line, and no cost line with one word\n"
        "Rout #1: 1\n",
    ),
    (
        b"\xef\xbb\xbfRoute #1: 1\n"
        b"Cost 20\n",
        "line 1: this is no route line, and no cost line with one word\n"
        "???Route #1: 1\n"
        "the text begins with a byte order mark (EF BB BF): save it without, or by tail -c +4\n",
    ),
    (
        b"Cost 1x\rRoute #1: 1\r",
        "line 1: this is no route line, and no cost line with one word: 1 due behind Cost, 3 found\n"
        "Cost 1x?Route #1: 1\n"
        "the lines end with CR only: save them with LF, or by tr '\\r' '\\n'\n",
    ),
    (
        b"Route #1: 1\n",
        "line 2: there is no cost line; behind the word routes no cost is asked\n"
        "distance that the routes drive, each way rounded: 10\n",
    ),
]

# The kind, the instance, the solution and the last arguments, and the timetable after the audit's line: none if
# stops are unknown or visited twice.
TIMETABLES = [
    (
        "lilim",
        ONE_PAIR,
        BOTH,
        [],
        "\n"
        "vehicle 1: stops 2, distance 20, load 4, set off 0, return 24, waiting 0\n"
        " place  stop  kind      partner  set off  arrival    start  waiting  service     from       to   latest     load\n"
        "     1     1  pickup          2        0        5        5        0        2        0       50       50        4\n"
        "     2     2  delivery        1        7       12       12        0        2        0       60       60        0 pin\n"
        "     3     0  return          -       14       24       24        0        0        0      100      100        0\n",
    ),
    (
        "vrp",
        THREE_CUSTOMERS,
        b"Route #1: 2 1\n"
        b"Route #2: 3\n"
        b"Cost 30\n",
        [],
        "\n"
        "vehicle 1: stops 2, distance 20, load 10\n"
        " place  stop  kind      partner  arrival     load\n"
        "     1     2  single          -       10        4 pin\n"
        "     2     1  single          -       15       10 pin\n"
        "     3     0  return          -       20       10\n"
        "\n"
        "vehicle 2: stops 1, distance 10, load 5\n"
        " place  stop  kind      partner  arrival     load\n"
        "     1     3  single          -        5        5 pin\n"
        "     2     0  return          -       10        5\n",
    ),
    (
        "lilim",
        LATEST_20,
        BOTH,
        ["tabs"],
        "vehicle\t1\t2\t20\t4\t3\t27\t3\n"
        "stop\t1\t1\t1\tpickup\t2\t3\t5\t8\t3\t2\t8\t50\t13\t4\t-\n"
        "stop\t1\t2\t2\tdelivery\t1\t10\t15\t15\t0\t2\t0\t20\t20\t0\tpin\n"
        "stop\t1\t3\t0\treturn\t-\t17\t27\t27\t0\t0\t0\t100\t100\t0\t-\n",
    ),
    (
        "lilim",
        RETURN_66,
        BOTH,
        ["tabs"],
        "vehicle\t1\t2\t20\t4\t0\t24\t0\n"
        "stop\t1\t1\t1\tpickup\t2\t0\t5\t5\t0\t2\t0\t50\t47\t4\t-\n"
        "stop\t1\t2\t2\tdelivery\t1\t7\t12\t12\t0\t2\t0\t60\t54\t0\tpin\n"
        "stop\t1\t3\t0\treturn\t-\t14\t24\t24\t0\t0\t0\t66\t66\t0\t-\n",
    ),
    (
        "lilim",
        LATEST_11,
        BOTH,
        ["tabs"],
        "vehicle\t1\t2\t20\t4\t0\t24\t0\n"
        "stop\t1\t1\t1\tpickup\t2\t0\t5\t5\t0\t2\t0\t50\t-\t4\t-\n"
        "stop\t1\t2\t2\tdelivery\t1\t7\t12\t12\t0\t2\t0\t11\t-\t0\t-\n"
        "stop\t1\t3\t0\treturn\t-\t14\t24\t24\t0\t0\t0\t100\t-\t0\t-\n",
    ),
    (
        "lilim",
        TWO_PAIRS,
        b"Route #1: 1 2 3 4\n"
        b"Cost 5\n",
        ["tabs"],
        "vehicle\t1\t4\t5\t1\t0\t5\t0\n"
        "stop\t1\t1\t1\tpickup\t2\t0\t1\t1\t0\t0\t0\t50\t49\t1\t-\n"
        "stop\t1\t2\t2\tdelivery\t1\t1\t1\t1\t0\t0\t0\t50\t49\t0\tpin\n"
        "stop\t1\t3\t3\tpickup\t4\t1\t2\t2\t0\t0\t0\t50\t50\t1\t-\n"
        "stop\t1\t4\t4\tdelivery\t3\t2\t2\t2\t0\t0\t0\t50\t50\t0\tpin\n"
        "stop\t1\t5\t0\treturn\t-\t2\t5\t5\t0\t0\t0\t100\t100\t0\t-\n",
    ),
    (
        "vrp",
        THREE_CUSTOMERS,
        b"Route #1: 1 2 3\n"
        b"Cost 22\n",
        ["tabs"],
        "vehicle\t1\t3\t22\t15\n"
        "stop\t1\t1\t1\tsingle\t-\t5\t6\tpin\n"
        "stop\t1\t2\t2\tsingle\t-\t10\t10\tpin\n"
        "stop\t1\t3\t3\tsingle\t-\t17\t15\t-\n"
        "stop\t1\t4\t0\treturn\t-\t22\t15\t-\n",
    ),
    (
        "lilim",
        ONE_PAIR,
        b"Route #1: 1 2 9\n"
        b"Cost 20\n",
        [],
        "",
    ),
    (
        "lilim",
        ONE_PAIR,
        b"Route #1: 1 2\n"
        b"Route #2: 1\n"
        b"Cost 20\n",
        [],
        "",
    ),
]


def answer(folder, word, kind, instance, solution, *more):
    """Returns the first line that the program prints for these texts, and the text after it."""
    paths = [folder / "instance", folder / "solution"]
    for path, text in zip(paths, (instance, solution)):
        path.write_bytes(text)
    first, _, rest = outcome(word, kind, *paths, *more)[1].partition("\n")
    return first, rest


def expect(name, got, wanted):
    if got != wanted:
        fail(f"{name}\ngot:\n{got}\nwanted:\n{wanted}")


def rule_of(first):
    """Returns the number of the rule that the audit's line names, 0 if the plan passes."""
    words = first.split()
    return 0 if words[0] == "pass" else int(words[1])


def line_of(told):
    return re.search(r"line (\d+):", told).group(1)


def check_explained(folder):
    for kind, instance, solution, rule, told in EXPLAINED:
        first, rest = answer(folder, "explain", kind, instance, solution)
        expect(solution, rule_of(first), rule)
        expect(solution, rest, told)


def check_refused(folder):
    for kind, text, told in REFUSED_INSTANCES:
        first, rest = answer(folder, "explain", kind, text, BOTH)
        expect(text, (first.split()[0], first.split()[2]), ("instance", line_of(told)))
        expect(text, rest, told)
    for text, told in REFUSED_SOLUTIONS:
        first, rest = answer(folder, "explain", "lilim", ONE_PAIR, text)
        expect(text, (first.split()[0], first.split()[2]), ("solution", line_of(told)))
        expect(text, rest, told)


def check_lengths(folder):
    # A sentence and a heading of 90 bytes, 23 rows of 13, a count of 32, 20 places: 8 of 25 bytes and 12 of 26,
    # and counts of 29 and 28.
    solution = b"Route #1:" + 23 * b" 9" + b"\nCost 0\n"
    _, rest = answer(folder, "explain", "lilim", ONE_PAIR, solution)
    last = ["  route 1 place 21 stop 9", "places that break rule 2: 22", "places that break rule 3: 2"]
    expect("20 further places", (len(rest), rest.splitlines()[-3:]), (990, last))
    # 4,000 customers in one route, alternating between two corners: each leg except the return is 2,828,427,
    # and the sum has 11 digits.
    count = 4000
    nodes = ["1 -1000000 -1000000\n"] + [f"{n} {1000000 * (-1) ** n} {1000000 * (-1) ** n}\n" for n in range(2, count + 2)]
    demands = [f"{n} 0\n" for n in range(1, count + 2)]
    head = f"DIMENSION : {count + 1}\nEDGE_WEIGHT_TYPE : EUC_2D\nCAPACITY : 0\nNODE_COORD_SECTION\n"
    instance = head + "".join(nodes) + "DEMAND_SECTION\n" + "".join(demands) + "DEPOT_SECTION\n1 -1\nEOF\n"
    solution = "Route #1: " + " ".join(str(n) for n in range(1, count + 1)) + "\n"
    _, rest = answer(folder, "explain", "vrp", instance.encode(), solution.encode(), "routes")
    driven = 2828427 * count
    expect("a long sum", rest.splitlines()[-1].split(), ["sum", str(count), str(driven)])
    # A sentence of 62 bytes with its end, 200 bytes of the line, and its end.
    _, rest = answer(folder, "explain", "lilim", ONE_PAIR, 300 * b"x")
    expect("a long line", len(rest), 263)


def check_timetables(folder):
    for kind, instance, solution, more, told in TIMETABLES:
        _, rest = answer(folder, "timetable", kind, instance, solution, *more)
        expect(solution, rest, told)


def main():
    require_program()
    with tempfile.TemporaryDirectory() as name:
        folder = pathlib.Path(name)
        check_explained(folder)
        check_refused(folder)
        check_lengths(folder)
        check_timetables(folder)
    count = len(EXPLAINED) + len(REFUSED_INSTANCES) + len(REFUSED_SOLUTIONS) + len(TIMETABLES)
    print(f"texts: {count} texts are as worked out by hand")


if __name__ == "__main__":
    main()
