#!/usr/bin/env python3
"""Tests the day's orders, from a spreadsheet to printed sheets: the commands of docs/DISPATCHING.md, and
`examples/day/day.sh` with other tables.

1. The guide's commands, exactly as written there, with fewer steps of annealing. They make sheets, of which the
   guide shows the first lines. Each order is on one sheet, its pickup first, each window and the capacity is
   respected, and everything printed about a stop agrees with the table. Each time is computed here from the
   table: to the minute with the projection and rounding that the script describes, and within its stated bounds
   with great circles and no rounding. The page has the rows of the sheets. Then the guide's day goes on: a phone
   order, cancelled orders, copies of the store, a van that drops out, and an order from the depot.
2. Other forms of the same table make the same instance, with each awk that is installed.
3. A table is refused by name and line, and then nothing is printed. So is a timetable that does not belong to
   these orders, and a picture of another plan, or with more than shapes and texts.
4. Orders in no van are on a last sheet, with a timetable that is written by hand.
5. The page escapes each text, loads nothing from elsewhere, and links phone numbers. `add` and `cancel` print
   the commands of a store, and so does `out`, with a row for the table.

The first part needs the program that rt ci leaves, and is skipped without it. tests/page.py renders the page.
"""
import csv
import math
import os
import re
import shutil
import subprocess
import sys
import tempfile
import xml.etree.ElementTree as ElementTree
from html.parser import HTMLParser

# Python leaves no files beside the scripts.
sys.dont_write_bytecode = True
from planner import EXAMPLES, PROGRAM, TOP, expect, fail, skip  # noqa: E402

README, GUIDE = TOP / "README.md", TOP / "docs" / "DISPATCHING.md"
SCRIPT, SETTINGS, ORDERS = (str(EXAMPLES / "day" / it) for it in ("day.sh", "settings.csv", "orders.csv"))
EARTH = 6371008.8
# The script's bounds: rounding changes a leg by less than this many seconds, and the projection by this
# fraction of it, within 10 km of the depot.
MOST_ROUNDED, MOST_PROJECTED, NEAR = 2, 0.003, 10_000
# An order that no van can serve: from the depot to a place 10 km away, in one minute.
IMPOSSIBLE = ["4803", "3", "Foss Islands Depot, 22 Foss Islands Road", "", "53.9608", "-1.0692", "9:00", "9:00", "1",
    "The Drovers, Strensall", "01632 960124", "54.0379", "-1.0348", "9:01", "9:02", "4"]
COLUMNS_OF_SHEET = ["arrive", "begin", "leave", "window", "order", "task", "phone", "place"]
# The blocks of commands in the guide: the name of each one here, and how it begins. tests/store.py runs the last
# one.
BLOCK_OF = {
    "copy": "cp examples/day/settings.csv examples/day/orders.csv",
    "sheets": "examples/day/day.sh instance settings.csv",
    "page": "./planner draw lilim",
    "store": "./planner load town.store",
    "more": "(echo build; echo",
    "again": "./planner timetable town.store",
    "add": "cp town.sheets old.sheets",
    "changes": "diff old.sheets town.sheets",
    "early": "examples/day/day.sh cancel settings.csv",
    "cancel": "./planner timetable town.store",
    "take": "sync try.store &&",
    "out": "./planner timetable town.store",
    "busy": "examples/day/day.sh add settings.csv",
    "resume": "(echo freeze $((9",
    "save": "cp orders.csv town.orders",
    "back": "cp town.orders orders.csv",
    "untabled": 'now=600 (echo "freeze',
}
HTML, SVG = "{http://www.w3.org/1999/xhtml}", "{http://www.w3.org/2000/svg}"
# The environment, with another awk first on the path at times.
ENVIRONMENT = dict(os.environ)
HEADING = re.compile(r"Van (\d+): leaves (\S+), back (\S+), (\d+) stops, (\d+) km, up to (\d+) of (\d+) boxes")


def read(path):
    with open(path, encoding="utf-8", newline="") as file:
        return file.read()


def read_bytes(path):
    with open(path, "rb") as file:
        return file.read()


def write(folder, name, text):
    path = os.path.join(folder, name)
    with open(path, "wb") as file:
        file.write(text if isinstance(text, bytes) else text.encode())
    return path


def ask(*words, **more):
    """Runs the script and returns its status, output and standard error."""
    told = subprocess.run([SCRIPT, *words], capture_output=True, check=False, env=ENVIRONMENT, **more)
    return told.returncode, told.stdout.decode(), told.stderr.decode()


# The table and its times, computed here.


def seconds(text, empty):
    return 60 * (60 * int(text.split(":")[0]) + int(text.split(":")[1])) if text else empty


def minute(time):
    """Returns a time of the day as it is printed, without the seconds."""
    return f"{int(time) // 3600}:{int(time) // 60 % 60:02}"


class Stop:
    """A stop of an order, or the depot, with its place for both computations."""

    def __init__(self, day, row, side):
        name = side or "depot"
        self.name, self.phone = row[name], row.get(f"{side} phone", "")
        self.latitude, self.longitude = (math.radians(float(row[f"{name} {it}"])) for it in ("lat", "lon"))
        self.earliest = seconds(row.get(f"{side} from", ""), day.opens)
        self.latest = seconds(row.get(f"{side} to", ""), day.closes)
        self.service = round(60 * float(row.get(f"{side} minutes", "0")))


class Day:
    """The tables, as Python's csv module reads them."""

    def __init__(self, orders):
        with open(SETTINGS, encoding="utf-8", newline="") as file:
            settings = {row["setting"]: row["value"] for row in csv.DictReader(file)}
        self.opens, self.closes = seconds(settings["opens"], 0), seconds(settings["closes"], 86400)
        self.vans, self.capacity = int(settings["vans"]), int(settings["boxes"])
        self.speed, self.detour = float(settings["km/h"]), float(settings["detour"])
        self.depot = Stop(self, settings, "")
        with open(orders, encoding="utf-8", newline="") as file:
            rows = list(csv.DictReader(file))
        self.boxes = {row["order"]: int(row["boxes"]) for row in rows}
        self.stops = {(row["order"], side): Stop(self, row, side) for row in rows for side in ("pickup", "delivery")}
        self.numbers = {it: number for number, it in enumerate(self.stops, 1)}

    def driven(self, metres):
        """Returns the driving time in seconds for this many metres in a straight line."""
        return metres * self.detour * 3.6 / self.speed

    def rounded_leg(self, one, other):
        """Returns the leg as the script computes it: coordinates from the depot, and the travel time between
        them, in whole seconds.
        """
        places = []
        for stop in (one, other):
            east = EARTH * (stop.longitude - self.depot.longitude) * math.cos(self.depot.latitude)
            north = EARTH * (stop.latitude - self.depot.latitude)
            places.append((round(self.driven(east)), round(self.driven(north))))
        return round(math.dist(*places))

    def circle_leg(self, one, other):
        """Returns the leg by the great circle (haversine)."""
        by = math.sin((one.latitude - other.latitude) / 2) ** 2
        by += math.cos(one.latitude) * math.cos(other.latitude) * math.sin((one.longitude - other.longitude) / 2) ** 2
        return self.driven(2 * EARTH * math.asin(math.sqrt(by)))

    def arrivals(self, stops, leg):
        """Returns the arrivals of a van that leaves just in time for its first stop, the return last, and the
        seconds of driving until then.
        """
        begins, last, driven, told = self.opens, self.depot, 0, []
        for stop in [*stops, self.depot]:
            driven += leg(last, stop)
            arrival = begins + last.service + leg(last, stop)
            if not told:
                arrival = max(arrival, stop.earliest)
            begins = max(arrival, stop.earliest)
            told.append((arrival, driven))
            if begins > stop.latest:
                fail(f"{stop.name} is served late")
            last = stop
        return told


# The commands of the guide.


def blocks_of_guide():
    """Returns the blocks of the guide without their indentation: those of commands, and the other ones."""
    found = re.findall(r"^( *)```(sh)?\n(.*?)^ *```$", read(GUIDE), flags=re.MULTILINE | re.DOTALL)
    texts = [(kind, re.sub(f"^{indent}", "", text, flags=re.MULTILINE)) for indent, kind, text in found]
    commands, others = [text for kind, text in texts if kind], [text for kind, text in texts if not kind]
    expect("the blocks of commands of the guide", [it.split()[:3] for it in commands], [it.split()[:3] for it in BLOCK_OF.values()])
    expect("the other blocks of the guide", len(others), 5)
    return dict(zip(BLOCK_OF, commands)), dict(zip(("table", "depot", "sheet", "phone", "out"), others))


def new_folder(above, name):
    """Makes a folder that has `planner` and `examples`."""
    folder = os.path.join(above, name)
    os.mkdir(folder)
    os.symlink(PROGRAM, os.path.join(folder, "planner"))
    os.symlink(EXAMPLES, os.path.join(folder, "examples"))
    return folder


def shell(folder, commands, statuses=(0,)):
    """Runs commands in a folder, and returns their output. Fewer steps of annealing are made."""
    commands = commands.replace("anneal 20000", "anneal 500")
    told = subprocess.run(["sh", "-c", commands], cwd=folder, capture_output=True, check=False, text=True)
    if told.returncode not in statuses:
        fail(f"{commands!r} ends with {told.returncode}: {told.stdout!r}, {told.stderr!r}")
    return told.stdout


def answered(folder, commands, answers):
    """Runs commands that end with a `run`, and checks how many of its commands were answered with `ok`."""
    told = shell(folder, commands).splitlines()
    if told[0][:7] != "opened " or told[-1] != "ok" or told.count("ok") != answers or any(it.startswith(("no ", "fault")) for it in told):
        fail(f"{commands!r}: {told}")


def add_row(folder, row):
    """Adds a row to the table, given as a line or as its fields."""
    with open(os.path.join(folder, "orders.csv"), "a", encoding="utf-8", newline="") as file:
        csv.writer(file).writerow(next(csv.reader([row])) if isinstance(row, str) else row)


def check_shown(sheets, shown):
    """Checks that the guide shows the beginning of the table, and that the guide and README show the beginning of
    the printed sheets, with .. for omitted lines.
    """
    for line, whole in zip(shown["table"].splitlines(), read(ORDERS).splitlines()):
        if not whole.startswith(line.removesuffix("..")):
            fail(f"the guide shows a line that the table has not: {line}")
    for sheet in [shown["sheet"], *re.findall(r"^```\n(Van 1: .*?)^```$", read(README), flags=re.MULTILINE | re.DOTALL)]:
        first, *parts = [it.strip("\n") for it in re.split(r"^\.\.$", sheet, flags=re.MULTILINE)]
        if not sheets.startswith(first + "\n"):
            fail("the guide or README shows other first lines of the sheets")
        for part in parts:
            if f"\n{part}\n" not in sheets:
                fail(f"the guide or README shows lines that no sheet has: {part}")


def rows_of(sheet):
    """Returns the heading of a sheet, and the fields of its rows without blanks around them."""
    lines = sheet.rstrip("\n").split("\n")
    heading = HEADING.fullmatch(lines[0])
    if not heading or lines[1] or lines[2].split() != COLUMNS_OF_SHEET:
        fail(f"no sheet: {sheet}")
    ends = [6, 13, 20, *(lines[2].index(it) - 2 for it in COLUMNS_OF_SHEET[4:]), None]
    begins = [0, 7, 14, 22, *(lines[2].index(it) for it in COLUMNS_OF_SHEET[4:])]
    return heading.groups(), [[line[begin:end].strip() for begin, end in zip(begins, ends)] for line in lines[3:]]


def vans_of(text):
    """Returns the rows of each van's stops, by its number, and the names of the orders on the last page."""
    sheets = text.split("\f")
    rest = sheets.pop() if sheets[-1].startswith("In no van") else ""
    vans = {heading[0]: rows[1:-1] for heading, rows in map(rows_of, sheets)}
    return vans, re.findall(r"^order (.*?), \d+ box", rest, flags=re.MULTILINE)


def check_sheet(day, sheet, seen):
    """Checks a sheet against the table."""
    heading, rows = rows_of(sheet)
    stops, load, most = [], 0, 0
    for row in rows[1:-1]:
        side, boxes = ("pickup", 1) if row[5].startswith("pick up") else ("delivery", -1)
        if side == "delivery" and (row[4], "pickup") not in seen[heading[0]]:
            fail(f"order {row[4]} is not picked up before by van {heading[0]}")
        seen[heading[0]].append((row[4], side))
        expect("boxes", int(row[5].split()[-1]), day.boxes[row[4]])
        load += boxes * day.boxes[row[4]]
        most = max(most, load)
        stop = day.stops[row[4], side]
        expect(f"order {row[4]}", [row[3], *row[6:]], [f"{minute(stop.earliest)}-{minute(stop.latest)}", stop.phone, stop.name])
        stops.append(stop)
    if most > day.capacity:
        fail(f"van {heading[0]} carries {most}")
    expect("the load at the end", load, 0)
    check_times(day, stops, heading, rows)
    expect("the heading", [int(it) for it in heading[3:]], [len(stops), kilometres(day, stops), most, day.capacity])


def kilometres(day, stops):
    return round(day.arrivals(stops, day.rounded_leg)[-1][1] * day.speed / 3600)


def check_times(day, stops, heading, rows):
    """Checks each time: to the minute with the script's rounding, and within its bounds with great circles."""
    told = day.arrivals(stops, day.rounded_leg)
    leaves = minute(max(told[0][0], stops[0].earliest) - day.rounded_leg(day.depot, stops[0]))
    expect("the depot", [heading[1], *rows[0]], [leaves, "", "", leaves, "", "", "", "", day.depot.name])
    for (arrival, _), stop, row in zip(told, stops, rows[1:]):
        begins = max(arrival, stop.earliest)
        expect(f"the times at {stop.name}", row[:3], [minute(it) for it in (arrival, begins, begins + stop.service)])
    back = minute(told[-1][0])
    expect("the return", [heading[2], *rows[-1]], [back, back, *[""] * 6, day.depot.name])
    for place, (arrival, driven) in enumerate(day.arrivals(stops, day.circle_leg)):
        printed = seconds(rows[place + 1][0], None)
        bound = (place + 1) * MOST_ROUNDED + MOST_PROJECTED * driven
        if not arrival - bound - 60 < printed < arrival + bound:
            fail(f"van {heading[0]}, stop {place + 1}: {rows[place + 1][0]}, by great circles {arrival}, within {bound}")


def check_commands(above):
    """Runs the first part, and returns the number of sheets."""
    commands, shown = blocks_of_guide()
    day = Day(ORDERS)
    expect("the orders", len(day.boxes), 40)
    for stop in day.stops.values():
        if day.circle_leg(day.depot, stop) > day.driven(NEAR):
            fail(f"{stop.name} is further away than the bound is told for")
    folder = new_folder(above, "guide")
    for name in "copy", "sheets", "page":
        shell(folder, commands[name])
    text = read(os.path.join(folder, "day.sheets"))
    check_shown(text, shown)
    sheets = text.split("\f")
    seen = {str(van): [] for van in range(1, day.vans + 1)}
    for sheet in sheets:
        check_sheet(day, sheet, seen)
    expect("the stops on all sheets", sorted(it for van in seen.values() for it in van), sorted(day.stops))
    check_page(read(os.path.join(folder, "day.html")), text, day)
    expect("a store", shell(folder, commands["store"]), "ok\nok\n")
    shell(folder, commands["again"])
    expect("the sheets of the store", read(os.path.join(folder, "town.sheets")), text)
    check_page(read(os.path.join(folder, "town.html")), text, day)
    check_frozen(folder)
    check_early_cancellation(folder, commands)
    check_phone_order(folder, commands, shown["phone"])
    check_cancellation(folder, commands)
    check_copies(folder, commands)
    check_twice(folder, commands)
    check_van_out(folder, commands, shown["out"])
    check_depot_order(new_folder(above, "depot"), commands, shown["depot"])
    check_left(new_folder(above, "left"), commands)
    return len(sheets)


def sheets_again(folder, commands, statuses=(0, 1)):
    """Makes the sheets and the page again, and returns the rows of each van and the orders in no van."""
    shell(folder, commands["again"], statuses)
    text = read(os.path.join(folder, "town.sheets"))
    check_page(read(os.path.join(folder, "town.html")), text, Day(os.path.join(folder, "orders.csv")))
    return vans_of(text)


def check_served(what, folder, vans, left, missing):
    """Checks that each order of the table is picked up and delivered, except the missing ones, which are left."""
    names = [it for it in Day(os.path.join(folder, "orders.csv")).boxes if it not in missing]
    told = [(row[4], row[5].split()[0]) for rows in vans.values() for row in rows]
    expect(f"{what}: the orders in vans", sorted(told), sorted((name, task) for name in names for task in ("deliver", "pick")))
    expect(f"{what}: the orders in no van", sorted(left), sorted(missing))


def check_frozen(folder):
    """Checks the guide's number of stops that are pinned at 9:30 in the day's plan."""
    frozen, told = shell(folder, "cp town.store frozen.store && (echo freeze 34200; echo show) | ./planner run frozen.store strict").split("ok\n")[:2]
    pinned = sum(int(line.split()[2]) for line in frozen.splitlines() if line.startswith("pin "))
    stops = sum(len(line.split(": ")[1].split()) for line in told.splitlines() if line.startswith("vehicle "))
    numbers = re.search(r"9:30 pins (\d+) of (\d+) stops", read(GUIDE))
    expect("the guide's number of pins at 9:30", (pinned, stops), tuple(int(it) for it in numbers.groups()))


def check_early_cancellation(folder, commands):
    """Checks the cancellation before the first van leaves, and puts the store back."""
    shell(folder, "cp town.store kept.store")
    answered(folder, commands["early"], 1)
    check_served("an early cancellation", folder, *sheets_again(folder, commands), ["4748"])
    shell(folder, "cp kept.store town.store")


def check_phone_order(folder, commands, row):
    """Checks that the phone order is on a sheet, with all earlier orders. A row that is refused changes nothing,
    neither one with a mistake nor one whose pickup is too early.
    """
    orders = os.path.join(folder, "orders.csv")
    table, before = read(orders), shell(folder, "./planner instance town.store")
    for change in ("15:00", "9:00"), ("10:15", "9:45"):
        write(folder, "orders.csv", table + row.replace(*change).rstrip("\n") + "\r\n")
        expect("a phone order that is refused", shell(folder, commands["add"], (2,)), "")
        expect("the store then", shell(folder, "./planner instance town.store"), before)
    write(folder, "orders.csv", table)
    add_row(folder, row)
    answered(folder, commands["add"], 4)
    shell(folder, "cp change.txt change.kept")
    vans, left = sheets_again(folder, commands, (0,))
    new = [line for line in shell(folder, commands["changes"], (1,)).splitlines() if line.startswith("> ")]
    expect("the lines of the phone order that differ", sum(" 4801 " in line for line in new), 2)
    check_served("a phone order", folder, vans, left, [])
    windows = [row[3] for rows in vans.values() for row in rows if row[4] == "4801"]
    expect("its windows", windows, ["10:15-12:00", "10:15-15:00"])


def check_cancellation(folder, commands):
    """Checks a cancellation during the day, on a copy of the store."""
    told = shell(folder, commands["cancel"], (1,)).splitlines()
    expect("the answers to a cancellation", [it for it in told if not it.startswith(("opened ", "pin "))], ["ok"] * 3)
    vans, left = vans_of(read(os.path.join(folder, "try.sheets")))
    check_served("a cancellation", folder, vans, left, ["4747"])
    shell(folder, commands["take"])
    expect("the store after it", sheets_again(folder, commands), (vans, left))


def check_copies(folder, commands):
    """Checks that a copy of the store and of its table can be put back, and the search that goes on after a crash."""
    before = [read_bytes(os.path.join(folder, it)) for it in ("town.store", "orders.csv")]
    expect("a copy", shell(folder, commands["save"]), "ok\n")
    answered(folder, commands["more"], 2)
    add_row(folder, IMPOSSIBLE)
    shell(folder, commands["back"])
    expect("a copy that was put back", [read_bytes(os.path.join(folder, it)) for it in ("town.store", "orders.csv")] == before, True)
    answered(folder, commands["resume"], 3)
    check_served("a search that goes on", folder, *sheets_again(folder, commands), ["4747"])


def check_twice(folder, commands):
    """Checks that sheets refuse a plan that has the last order twice, and the guide's way back."""
    shell(folder, "cp town.store kept.store")
    shell(folder, "(tail -n 1 change.kept; echo build) | ./planner run town.store strict")
    told = subprocess.run(["sh", "-c", commands["again"]], cwd=folder, capture_output=True, check=False, text=True)
    if told.returncode != 2 or "stop 83 is not in these 41 orders, or occurs twice" not in told.stderr:
        fail(f"an order that was added twice: status {told.returncode}, {told.stderr!r}")
    answered(folder, "echo withdraw 83 | ./planner run town.store", 1)
    check_served("an order that was added twice", folder, *sheets_again(folder, commands), ["4747"])
    shell(folder, "cp kept.store town.store")


def check_van_out(folder, commands, shown):
    """Follows the guide for a van that drops out at 11:00: the first van that has delivered an order by then, and
    has others left. The row that keeps it busy comes after all that it has served. When the van is repaired, the
    row is cancelled.
    """
    vans, _ = vans_of(read(os.path.join(folder, "town.sheets")))
    day, at = Day(os.path.join(folder, "orders.csv")), seconds("11:00", None)
    for van, rows in vans.items():
        stops = [day.stops[it[4], "pickup" if it[5].startswith("pick up") else "delivery"] for it in rows]
        begins = [max(arrival, stop.earliest) for (arrival, _), stop in zip(day.arrivals(stops, day.rounded_leg), stops)]
        begun = [(it[4], it[5].split()[0], stop, begin) for it, stop, begin in zip(rows, stops, begins) if begin <= at]
        done = [it for it in begun if it[1] == "deliver"]
        others = list(dict.fromkeys(it[4] for it in rows if it[4] not in [name for name, *_ in done]))
        if done and others:
            break
    else:
        fail("no van has orders before and after 11:00")
    kept = [it for it in rows if it[4] not in others]
    _, _, last, begin = done[-1]
    # When the van is free there, and the minutes from half an hour later until it must drive home.
    free = max(at, begin + last.service)
    minutes = int((day.closes - free - 1800 - day.rounded_leg(last, day.depot)) / 60)
    name = f"van {van} out"
    place = [last.name, last.phone, f"{math.degrees(last.latitude):.4f}", f"{math.degrees(last.longitude):.4f}"]
    fields = next(csv.reader(shown.splitlines()[-1:]))
    expect("the guide's row of a van that is out", [fields[1], *fields[6:8], *fields[-3:]], ["0", "11:00", "11:30", "", "", "0"])
    ran = subprocess.run(["sh", "-c", commands["out"].replace(" 3 ", f" {van} ")], cwd=folder, capture_output=True, check=True, text=True)
    row = [name, "0", *place, "11:00", minute(free + 1800), str(minutes), *place, "", "", "0"]
    begun = [name for name, *_ in begun]
    told = [f"day.sh: order {it}, {'on board' if it in begun else 'not picked up'}" for it in others]
    reported = [it for it in ran.stderr.splitlines() if not it.startswith(("unplanned", "why"))]
    expect("what a van leaves", reported[:-1], [*told, "day.sh: write as the last row of the table:"])
    words = [{re.sub(r"\d+", "", it) for it in lines[:-1]} for lines in (shown.splitlines(), reported)]
    expect("words for it that the guide lacks", words[1] - words[0], set())
    expect("the row of a van that is out", next(csv.reader(reported[-1:])), row)
    add_row(folder, reported[-1])
    answered(folder, commands["busy"], 2)
    after, _ = sheets_again(folder, commands)
    expect("what it has served, and then the row", [it[4] for it in after[van]], [it[4] for it in kept] + [name] * 2)
    for later, order in enumerate(others):
        table = {it["order"]: it for it in csv.DictReader(read(os.path.join(folder, "orders.csv")).splitlines())}[order]
        if seconds(table["pickup from"] or "0:00", None) < seconds("12:15", None):
            table["pickup from"] = "12:15"
        for column in "pickup to", "delivery to":
            table[column] = ""
        add_row(folder, [f"{order}b", *list(table.values())[1:]])
        answered(folder, commands["add"].replace("9:30", f"11:{later:02}"), 4)
    after, left = sheets_again(folder, commands)
    check_served("a van that drops out", folder, after, left, ["4747", *others])
    rows = [it[4] for it in kept] + [name] * 2
    expect("its first rows", [it[4] for it in after[van]][: len(rows)], rows)
    answered(folder, f"examples/day/day.sh cancel settings.csv orders.csv '{name}' town.tabs 12:00 | ./planner run town.store strict", 3)
    after, left = sheets_again(folder, commands)
    check_served("a van that is repaired", folder, after, left, ["4747", *others, name])


def check_depot_order(folder, commands, row):
    """Checks the guide's order from the depot."""
    shell(folder, commands["copy"])
    add_row(folder, row)
    status, instance, told = ask("instance", SETTINGS, os.path.join(folder, "orders.csv"))
    expect("an order from the depot", (status, told, instance.splitlines()[-2].split()[:4]), (0, "", ["81", "0", "0", "3"]))
    shell(folder, commands["sheets"].replace("100000", "2000"))
    vans, left = vans_of(read(os.path.join(folder, "day.sheets")))
    check_served("an order from the depot", folder, vans, left, [])
    places = [it[7] for rows in vans.values() for it in rows if it[4] == "4802"]
    expect("its places", places, ["Foss Islands Depot, 22 Foss Islands Road", "Harbour Shop"])


def check_left(folder, commands):
    """Checks a day with an order that no van can take: its plan can't be adopted, so the store makes one."""
    shell(folder, commands["copy"])
    add_row(folder, IMPOSSIBLE)
    shell(folder, commands["sheets"].replace("100000", "2000"), (1,))
    expect("the order on the last page", vans_of(read(os.path.join(folder, "day.sheets")))[1], ["4803"])
    expect("a plan that leaves an order out", re.sub(r"\d+", "", shell(folder, commands["store"], (2,))), "ok\nno NoCost \n")
    answered(folder, commands["more"], 2)
    check_served("a day with an order in no van", folder, *sheets_again(folder, commands), ["4803"])


# Other forms of the table.


def rewritten(orders, change=lambda row: row, **form):
    """Returns the table in another form, with each row changed."""
    with tempfile.TemporaryFile("w+", encoding="utf-8", newline="") as file:
        csv.writer(file, **form).writerows(change(row) for row in csv.reader(orders.splitlines()))
        file.seek(0)
        return file.read()


def check_forms(folder):
    """Checks that each form gives the same instance."""
    orders = read(ORDERS)
    status, instance, told = ask("instance", SETTINGS, ORDERS)
    expect("the instance", (status, told, instance.split("\n")[0]), (0, "", "5 16 1"))
    blank = "," * orders.split("\r\n", maxsplit=1)[0].count(",")
    forms = {
        "line feeds": orders.replace("\r\n", "\n"),
        "carriage returns": orders.replace("\r\n", "\r"),
        "carriage returns after a byte order mark": "\ufeff" + orders[:-2].replace("\r\n", "\r"),
        "carriage returns, and a name on two lines": orders.replace("\r\n", "\r").replace("Mill Lane Bakery, 4", "Mill Lane Bakery,\n4"),
        "no last line end": orders[:-2],
        "a byte order mark": "\ufeff" + orders,
        "quotes everywhere": rewritten(orders, quoting=csv.QUOTE_ALL),
        "semicolons": rewritten(orders, delimiter=";"),
        "decimal commas": rewritten(orders, lambda row: [re.sub(r"^(-?\d+)\.(\d+)$", r"\1,\2", it) for it in row], delimiter=";"),
        "columns the other way round": rewritten(orders, lambda row: row[::-1]),
        "a further column": rewritten(orders, lambda row: row + ["note, with a comma"]),
        "capitals in the header": orders.replace("pickup lat", "Pickup LAT"),
        "blank rows": orders.replace("\r\n", f"\r\n{blank}\r\n\r\n"),
        "a header on two lines": orders.replace("pickup phone", '"pickup\rphone"'),
        "a name on two lines": orders.replace("Mill Lane Bakery, 4", "Mill Lane Bakery,\r\n4"),
        "blanks around fields": rewritten(orders, lambda row: [f" {it}  " for it in row]),
        "hours of two digits": re.sub(r",(\d:\d\d)", r",0\1", orders),
        "seconds": re.sub(r",(\d+:\d\d)", r",\1:00", orders),
    }
    for name, text in forms.items():
        expect(name, ask("instance", SETTINGS, write(folder, "form.csv", text)), (0, instance, ""))
    with open(ORDERS, "rb") as file:
        expect("standard input", ask("instance", SETTINGS, "-", stdin=file), (0, instance, ""))
    check_instance(instance)


def check_instance(instance):
    """Checks each number of the instance against the table."""
    day = Day(ORDERS)
    lines = [[int(it) for it in line.split()] for line in instance.splitlines()]
    expect("the head", lines[:2], [[day.vans, day.capacity, 1], [0, 0, 0, 0, day.opens, day.closes, 0, 0, 0]])
    expect("how many tasks", len(lines), 2 + len(day.stops))
    for number, ((order, side), stop) in enumerate(day.stops.items(), 1):
        boxes, pair = (day.boxes[order], [0, number + 1]) if side == "pickup" else (-day.boxes[order], [number - 1, 0])
        expect(f"task {number}", lines[number + 1][3:], [boxes, stop.earliest, stop.latest, stop.service, *pair])
        expect(f"the number of task {number}", lines[number + 1][0], number)
        x, y = lines[number + 1][1:3]
        if abs(math.hypot(x, y) - day.circle_leg(day.depot, stop)) > MOST_ROUNDED + MOST_PROJECTED * math.hypot(x, y):
            fail(f"task {number} is at {x}, {y}")
        if (x > 0) != (stop.longitude > day.depot.longitude) or (y > 0) != (stop.latitude > day.depot.latitude):
            fail(f"task {number} is on the wrong side")


# Refused tables. Each row of a small table is changed in one place, and so are settings and timetable.

HEAD = "setting,value\n"
TOWN = "depot,Yard\ndepot lat,0\ndepot lon,0\nopens,8:00\ncloses,9:00\nvans,2\nboxes,5\nkm/h,36\ndetour,1\n"
COLUMNS = "order,boxes" + "".join(
    f",{side},{side} phone,{side} lat,{side} lon,{side} from,{side} to,{side} minutes" for side in ("pickup", "delivery")
)
# At 36 km/h a metre takes a tenth of a second. A thousandth of a degree is 111.19 m, which takes 11 seconds.
FIRST = "A,4,Mill,1,0.003,0,8:05,8:30,1,Shop,2,0.003,0.004,,,2"
SECOND = "B,5,Mill,1,0.003,0,,,1,Farm,3,0.090,0,,8:10,0.5"
SMALL = f"{COLUMNS}\n{FIRST}\n{SECOND}\n"
INSTANCE = """\
2 5 1
0 0 0 0 28800 32400 0 0 0
1 0 33 4 29100 30600 60 0 2
2 44 33 -4 28800 32400 120 1 0
3 0 33 5 28800 32400 60 0 4
4 0 1001 -5 28800 29400 30 3 0
"""
# Order A alone: at the mill at 8:00:33, served from 8:05 on, then 44 seconds to the shop, and 55 home.
ALONE = """\
partial 1 1 132
vehicle\t2\t2\t132\t4\t29067\t29379\t267
stop\t2\t1\t1\tpickup\t2\t29067\t28833\t29100\t267\t60\t29100\t30600\t30600\t4\t-
stop\t2\t2\t2\tdelivery\t1\t29160\t29204\t29204\t0\t120\t28800\t32400\t32225\t0\tpin
stop\t2\t3\t0\treturn\t-\t29324\t29379\t29379\t0\t0\t28800\t32400\t32400\t0\t-
unplanned\t3
why\t3\talone: stop 4 would start at 29861, latest 29400
why\t3\tvehicle 2: behind stop 1 it would carry 4 too much
why\t3\tvehicle 2: stop 4 would start 461 late
why\t3\tvehicle 2: would be back 1 late
"""
ALONE_SHEETS = """\
Van 2: leaves 8:04, back 8:09, 2 stops, 1 km, up to 4 of 5 boxes

arrive  begin  leave  window       order  task       phone  place
                8:04                                        Yard
  8:05   8:05   8:06  8:05-8:30    A      pick up 4  1      Mill
  8:06   8:06   8:08  8:00-9:00    A      deliver 4  2      Shop
  8:09                                                      Yard
\fIn no van, with the reasons below each order:

order B, 5 boxes, stops 3 and 4
  pick up 8:00-9:00  1  Mill
  deliver 8:00-8:10  3  Farm
    with a van of its own: stop 4 (order B, delivery) would start at 8:18, latest 8:10
    van 2: after stop 1 (order A, pickup) it would carry 4 boxes too many
    van 2: stop 4 (order B, delivery) would start 8 minutes late
    van 2: would be back 1 minute late
"""
# The same with a name that has a tab and a line break, and one with letters of more than one byte.
LONG_NAMES = SMALL.replace("Shop", '"The  Shop,\tMain\r\nStreet"').replace("A,", "Ä1,", 1)
LONG_SHEETS = ALONE_SHEETS.replace("Shop", "The Shop, Main Street").replace(" A   ", " Ä1  ").replace("order A", "order Ä1")
BAD_QUOTE = "a quote is not closed, or is not around the whole field"
# The change in the second row, and the fault reported for line 3.
BAD_ROWS = [
    (("B,5", ",5"), "Empty 3: order is empty"),
    (("B,5", "A,5"), "Repeated 3: order A is already on line 2"),
    (("B,5", "B,6"), "Range 3: boxes: 6 is not from 0 to 5"),
    (("B,5", "B,-1"), "Range 3: boxes: -1 is not from 0 to 5"),
    (("B,5", "B,2.5"), "BadNumber 3: boxes: 2.5 is not whole"),
    (("B,5", "B,five"), 'BadNumber 3: boxes: "five" is not a number'),
    (("Farm", ""), "Empty 3: delivery is empty"),
    (("0.090", "north"), 'BadNumber 3: delivery lat: "north" is not a number'),
    (("0.090", "1e-1"), 'BadNumber 3: delivery lat: "1e-1" is not a number'),
    (("0.090", "90.5"), "Range 3: delivery lat: 90.5 is not from -90 to 90"),
    (("0.090", "52.5"), "TooFar 3: delivery: 5837 km from the depot; are lat and lon exchanged?"),
    (("8:10", "8.10"), 'BadTime 3: delivery to: "8.10" is not a time, for example 9:30'),
    (("8:10", "8:60"), 'BadTime 3: delivery to: "8:60" is not a time, for example 9:30'),
    (("8:10", "8:10 PM"), 'BadTime 3: delivery to: "8:10 PM" is not a time, for example 9:30'),
    (("8:10", "24:01"), "BadTime 3: delivery to: 24:01 is after 24:00"),
    (("8:10", "7:59"), "EmptyWindow 3: delivery: from 8:00 to 7:59"),
    (("8:10,0.5", "8:10,"), 'BadNumber 3: delivery minutes: "" is not a number'),
    (("8:10,0.5", "8:10,1441"), "Range 3: delivery minutes: 1441 is not from 0 to 1440"),
    (("8:10,0.5", "8:10"), "FieldCount 3: 15 fields, where the header has 16"),
    (("8:10,0.5", "8:10,0.5,"), "FieldCount 3: 17 fields, where the header has 16"),
    (("Farm", '"Farm'), f"BadQuote 3: {BAD_QUOTE}"),
    (("Farm", 'the "Farm"'), f"BadQuote 3: {BAD_QUOTE}"),
    (("Farm", '"Farm"s'), f"BadQuote 3: {BAD_QUOTE}"),
]
BAD_ORDERS = [
    ("", "Missing 1: there is no header"),
    ("a,boxes\n", "\norders ".join(f'NoColumn 1: there is no column "{it}"' for it in COLUMNS.split(",") if it != "boxes")),
    (COLUMNS + "\n", "Missing 2: there is no order"),
    (SMALL.replace("delivery to", "until"), 'NoColumn 1: there is no column "delivery to"'),
    (SMALL.replace("delivery minutes", "delivery minutes,Boxes"), 'Repeated 1: two columns are "Boxes"'),
    (SMALL.replace("order,", '"order,', 1), f"BadQuote 1: {BAD_QUOTE}"),
    # A line counts even if it is empty, or if a name or the header continues on it.
    (SMALL.replace("A,", "\nA,", 1).replace("Mill", '"The\nMill"', 1).replace("B,5", "B,7"), "Range 5: boxes: 7 is not from 0 to 5"),
    (SMALL.replace("delivery phone", '"Delivery\n phone"').replace("A,4", "A,7"), "Range 3: boxes: 7 is not from 0 to 5"),
    (SMALL.replace("B,5", "B,7").replace("\n", "\r"), "Range 3: boxes: 7 is not from 0 to 5"),
]
# Other files that a spreadsheet saves, and the message for each. original-awk ends a text at a byte of 0.
UTF_16, NO_COMMA, OTHER_FILE = (
    "is in UTF-16",
    "has neither a comma nor a semicolon in its first line, the header",
    "is a file of a spreadsheet program",
)
NO_TABLES = [
    (("\ufeff" + SMALL).encode("utf-16-le"), (UTF_16,)),
    (("\ufeff" + SMALL).encode("utf-16-be"), (UTF_16,)),
    (SMALL.encode("utf-16-le"), (UTF_16, NO_COMMA)),
    (SMALL.encode("utf-16-be"), (UTF_16, NO_COMMA)),
    (SMALL.replace("\n", "\r\n").encode("utf-16-be"), (UTF_16, NO_COMMA)),
    (SMALL.replace("\n", "\r").encode("utf-16-le"), (UTF_16, NO_COMMA)),
    (("\ufeff" + SMALL.replace(",", "\t")).encode("utf-16-le"), (UTF_16,)),
    (SMALL.replace(",", "\t"), (NO_COMMA,)),
    ("\n" + SMALL, (NO_COMMA,)),
    (b"PK\x03\x04\x14\x00\x06\x00,\n", (OTHER_FILE,)),
    (b"\xd0\xcf\x11\xe0\xa1\xb1\x1a\xe1;\n", (OTHER_FILE,)),
    (SMALL.replace("order", "order,n\xba").encode("cp1252"), ("is not in UTF-8",)),
]
# Rows in a Windows encoding, and bytes that are not UTF-8. The first such line is reported, together with the
# other faults.
OTHER_LETTERS = [b"Caf\xe9", b"M\xfchle", b"\x80 5", b"\xa9", b"\xc3", b"\xc3\xc3", b"\xe2\x82", b"\xf0\x9f\x9a", b"\xc0\xaf", b"\xff"]
# Letters of two, three and four bytes.
ALL_LETTERS = "Caf\xe9 \u20ac \U0001f69a \u4e2d\uffff\u0800\x7f"
# All faults are reported together: first those of rows that are split wrong, then those of fields. A quote that
# is not closed swallows 20 lines.
MANY_FAULTS = SMALL.replace("A,4", "A,x").replace("8:10", "8-10") + "C,1\n" + 'D,"1\n' + 22 * "E,1\n"
MANY_TOLD = "\norders ".join(
    [
        "FieldCount 4: 2 fields, where the header has 16",
        f"BadQuote 5: {BAD_QUOTE}",
        "FieldCount 26: 2 fields, where the header has 16",
        "FieldCount 27: 2 fields, where the header has 16",
        'BadNumber 2: boxes: "x" is not a number',
        'BadTime 3: delivery to: "8-10" is not a time, for example 9:30',
    ]
)
BAD_SETTINGS = [
    ("vans,2\n", "", 'Missing 10: no row sets "vans"'),
    ("vans", "cars", 'Unknown 7: there is no setting "cars"'),
    ("boxes,5", "vans,5", "Repeated 8: vans is already on line 7"),
    ("km/h,36", "km/h,4", "Range 9: km/h: 4 is not from 5 to 200"),
    ("detour,1", "detour,0.9", "Range 10: detour: 0.9 is not from 1 to 5"),
    ("closes,9:00", "closes,7:00", "EmptyWindow 6: it closes before it opens"),
    ("opens,8:00", "opens,8", 'BadTime 5: opens: "8" is not a time, for example 9:30'),
    ("vans,2", "vans,0", "Range 7: vans: 0 is not from 1 to 40000"),
    ("Yard", "", "Empty 2: depot is empty"),
    ("lat,0", "lat,-89.1", "Range 3: depot lat: -89.1 is not from -89 to 89"),
]


def hours(*stops):
    """Returns a timetable of one van with these stops, each given by its number, arrival and start."""
    lines = ["pass 0 1 9", "vehicle\t1"]
    return "\n".join(lines + [f"stop\t1\t{place}\t{stop}\t\t\t\t{came}\t{start}" for place, (stop, came, start) in enumerate(stops, 1)]) + "\n"


DIFFERS = "differs from these orders and settings"
BAD_TIMETABLES = [
    ("partial 1 1 132", "broken 7 route 1 place 1 stop 1", "NoPlan 1: broken 7 route 1 place 1 stop 1"),
    ("partial 1 1 132", "solution NoCost 2", "NoPlan 1: solution NoCost 2"),
    ("partial 1 1 132", "store NotFormatted", "NoPlan 1: store NotFormatted"),
    (ALONE, "Route #1: 1 2\nCost 132\n", "BadLine 1: it is not from a timetable that was made with `tabs`"),
    (ALONE, "", "Truncated 1: its end is missing"),
    (ALONE.split("\n", maxsplit=1)[1], "", "Truncated 2: its end is missing"),
    (ALONE[ALONE.index("stop\t2\t3") :], "", "Truncated 5: its end is missing"),
    (ALONE[ALONE.index("unplanned") :], "", "Truncated 6: its end is missing"),
    ("28833\t29100", "28834\t29100", f"OtherOrders 3: stop 1 {DIFFERS}"),
    ("29204\t29204", "29204\t29205", f"OtherOrders 4: stop 2 {DIFFERS}"),
    ("29379\t29379", "29378\t29378", f"OtherOrders 5: stop 0 {DIFFERS}"),
    ("stop\t2\t2\t2", "stop\t2\t2\t5", "OtherOrders 4: stop 5 is not in these 2 orders, or occurs twice"),
    ("stop\t2\t2\t2", "stop\t2\t2\t1", "OtherOrders 4: stop 1 is not in these 2 orders, or occurs twice"),
    ("stop\t2\t1\t1", "stop\t2\t1\t2", f"OtherOrders 3: stop 2 {DIFFERS}"),
    # The delivery first; both orders in the van together; a return with a load on board; the farm too late.
    (ALONE, hours((2, 28855, 28855)), f"OtherOrders 3: stop 2 {DIFFERS}"),
    (ALONE, hours((1, 28833, 29100), (3, 29160, 29160)), f"OtherOrders 4: stop 3 {DIFFERS}"),
    (ALONE, hours((1, 28833, 29100), (0, 29193, 29193)), f"OtherOrders 4: stop 0 {DIFFERS}"),
    (ALONE, hours((3, 28833, 28833), (4, 29861, 29861)), f"OtherOrders 4: stop 4 {DIFFERS}"),
    ("vehicle\t2", "vehicle 2", "BadLine 2: it is not from a timetable that was made with `tabs`"),
    ("stop\t2\t1", "stop\t1\t1", "BadLine 3: a stop before the line of its van"),
    ("unplanned\t3", "unplanned\t5", "OtherOrders 6: stop 5 is not in these 2 orders, or occurs twice"),
    ("unplanned\t3", "unplanned\t1", "OtherOrders 6: stop 1 is not in these 2 orders, or occurs twice"),
    ("unplanned\t3", "unplanned\t4", "OtherOrders 6: stop 4 is not in these 2 orders, or occurs twice"),
]


def refused(name, table, words, told):
    expect(f"{name}, where {told}", ask(*words), (2, "", f"{table} {told}\n"))


def check_no_tables(folder, town, small):
    """Checks that each other file gets one fault, both as orders and as settings, which names the file and says
    how to save it.
    """
    for text, mistakes in NO_TABLES:
        path = write(folder, "saved.csv", text)
        for table, words in ("orders", [town, path]), ("settings", [path, small]):
            told = ask("instance", *words)
            if told not in [(2, "", f'{table} NoTable 1: "{path}" {it}; save it as CSV, in UTF-8\n') for it in mistakes]:
                fail(f"{text[:9]!r} as {table}: {told}")
    # A title line, and one table in place of the other.
    none = "has none of the columns in its first line, the header"
    titled = write(folder, "titled.csv", f"Orders of Monday,,\n{SMALL}")
    refused("a title", "orders", ["instance", town, titled], f'NoTable 1: "{titled}" {none}')
    refused("orders as settings", "settings", ["instance", small, town], f'NoTable 1: "{small}" {none}')
    for letters in OTHER_LETTERS:
        path = write(folder, "letters.csv", SMALL.encode().replace(b"Mill", letters).replace(b"8:10", b"8-10"))
        told = f'NoTable 2: "{path}" is not in UTF-8; save it as CSV, in UTF-8\norders BadTime 3: delivery to: "8-10" is not a time, for example 9:30'
        refused(f"{letters!r}", "orders", ["instance", town, path], told)
    letters = write(folder, "letters.csv", SMALL.replace("Mill", ALL_LETTERS))
    expect("letters of UTF-8", ask("instance", town, letters), (0, INSTANCE, ""))
    path = write(folder, "saved.csv", NO_TABLES[-2][0])
    with open(path, "rb") as file:
        told = f"orders NoTable 1: standard input {OTHER_FILE}; save it as CSV, in UTF-8\n"
        expect("standard input that is no table", ask("instance", town, "-", stdin=file), (2, "", told))


def check_refused(folder):
    """Runs the third and the fourth part, and returns how many tables were refused."""
    town, small = write(folder, "town.csv", HEAD + TOWN), write(folder, "small.csv", SMALL)
    expect("the small table", ask("instance", town, small), (0, INSTANCE, ""))
    returns = write(folder, "returns.csv", (HEAD + TOWN).replace("\n", "\r"))
    expect("settings with carriage returns", ask("instance", returns, small), (0, INSTANCE, ""))
    check_no_tables(folder, town, small)
    bad = [(SMALL.replace(SECOND, SECOND.replace(*change, 1)), told) for change, told in BAD_ROWS] + BAD_ORDERS
    for text, told in bad:
        refused("orders", "orders", ["instance", town, write(folder, "bad.csv", text)], told)
    for old, new, told in BAD_SETTINGS:
        refused("settings", "settings", ["instance", write(folder, "bad.csv", HEAD + TOWN.replace(old, new)), small], told)
    refused("orders", "orders", ["instance", town, write(folder, "bad.csv", MANY_FAULTS)], MANY_TOLD)
    for old, new, told in BAD_TIMETABLES:
        refused("a timetable", "timetable", ["sheets", town, small, write(folder, "bad.tabs", ALONE.replace(old, new))], told)
    # An order of no boxes must be delivered, too.
    empty, home = write(folder, "empty.csv", SMALL.replace("A,4", "A,0")), write(folder, "home.tabs", hours((1, 28833, 29100), (0, 29193, 29193)))
    refused("no boxes", "timetable", ["sheets", town, empty, home], f"OtherOrders 4: stop 0 {DIFFERS}")
    alone = write(folder, "alone.tabs", ALONE)
    expect("an order in no van", ask("sheets", town, small, alone), (1, ALONE_SHEETS, "day.sh: orders in no van: 1\n"))
    expect("other names", ask("sheets", town, write(folder, "names.csv", LONG_NAMES), alone)[:2], (1, LONG_SHEETS))
    idle = ask("sheets", town, small, write(folder, "idle.tabs", "partial 2 0 0\nunplanned\t1\nunplanned\t3\n"))
    expect("no van at all", (idle[0], idle[1][:10], idle[1].count("\norder ")), (1, "In no van,", 2))
    # An order with a reason comes before one that the plan lacks.
    lacking = "partial 1 0 0\nunplanned\t3\nwhy\t3\talone: a vehicle can serve it\nwhy\t3\tfleet: 0 of 2 vehicles are used\n"
    status, text, told = ask("sheets", town, small, write(folder, "lacking.tabs", lacking))
    expect("an order that the plan lacks", (status, told), (1, "day.sh: orders in no van: 2; not in this plan: 1\n"))
    reasons = ["a van of its own can serve it", "fleet: 0 of 2 vans are used", "not in this plan: withdrawn, or not added to it yet"]
    found = ["".join(it) for it in re.findall(r"^order (.)|^    (.*)", text, flags=re.MULTILINE)]
    expect("the last page then", found, ["B", *reasons[:2], "A", reasons[2]])
    with open(alone, "rb") as file:
        expect("a timetable on standard input", ask("sheets", town, small, "-", stdin=file)[1], ALONE_SHEETS)
    expect("a file that is not there", ask("instance", town, "nowhere.csv"), (3, "", "cannot read nowhere.csv\n"))
    expect("a folder", ask("instance", folder, small), (3, "", f"cannot read {folder}\n"))
    for words in [], ["instance"], ["instance", town, small, small], ["sheets", town, small], ["sheets", town, small, ""], ["draw", town, small], [
        "page", town, small, alone], ["cancel", town, small], ["cancel", town, small, "A", alone], ["add", town, small, "8:00", "9:00"], [
        "out", town, small, "2", alone]:
        expect(f"{words}", ask(*words)[:2], (64, ""))
    return len(bad) + 1 + len(BAD_SETTINGS) + len(BAD_TIMETABLES) + 1 + 2 * len(NO_TABLES) + 3 + len(OTHER_LETTERS)


# The page, and the commands for a store.

# A picture of the plan ALONE in the form of `draw`, with the key to bars and the table that the page leaves out.
MAP = """\
<svg xmlns='http://www.w3.org/2000/svg' font-family='sans-serif' font-size='14' viewBox='0 0 1200 1160'>
<style>.legs{fill:none;stroke-width:1em;marker-mid:url(#arrow)}.bad{fill:#d00}</style>
<defs>
<marker id='arrow' viewBox='0 0 4 4' orient='auto'><path d='M0 0 4 2 0 4z' fill='context-stroke'/></marker>
<rect id='depot' x='-3em' y='-3em' width='6em' height='6em'/>
<circle id='pickup' r='2.4em'/>
<rect id='delivery' x='-1.4em' y='-1.4em' width='2.8em' height='2.8em'/>
</defs>
<rect width='100%' height='100%' fill='white'/>
<text x='676' y='60'>depot</text><text x='752' y='60'>pickup</text>
<text x='320' y='1086'><tspan class='drive'>driving</tspan></text>
<text x='20' y='36' font-size='20' font-weight='bold'>partial, unplanned 1, vehicles 1, distance 132</text>
<text class='bad' x='20' y='60'>unserved stops, ringed: 2</text>
<svg x='20' y='70' width='1160' height='1000' viewBox='0 0 4240 4240' font-size='10'>
<g class='legs'>
<g stroke='hsl(274,75%,38%)'>
<polyline class='depot' points=' 120,4120 120,2000'/>
<polyline points=' 120,2000 4120,2000'/>
</g>
</g>
<use href='#depot' x='120' y='4120'><title>0</title></use>
<use href='#pickup' x='120' y='2000'><title>1</title></use>
<use href='#delivery' x='4120' y='2000'><title>2</title></use>
<use href='#pickup' x='120' y='2000'><title>3</title></use>
<use href='#delivery' x='120' y='120'><title>4</title></use>
<text class='number' x='20' y='36'>2</text>
</svg>
<g text-anchor='end'>
<text y='13'><tspan x='70'>2</tspan></text></g>
</svg>
"""
OTHER_PICTURE = "it is not from a picture that was made with `draw`"
COST = "partial, unplanned 1, vehicles 1, distance 132"
BAD_MAPS = [
    (MAP, "", "Truncated 1: its end is missing"),
    (MAP, INSTANCE, f"NoPicture 1: {OTHER_PICTURE}"),
    ("svg xmlns", "svg  xmlns", f"NoPicture 1: {OTHER_PICTURE}"),
    ("font-family='sans-serif'", "onload='x'", f"NoPicture 1: {OTHER_PICTURE}"),
    ("0 0 1200 1160'>", "0 0 1200 1160'><script>", f"NoPicture 1: {OTHER_PICTURE}"),
    ("url(#arrow)", "url(http://a/b)", f"NoPicture 2: {OTHER_PICTURE}"),
    (".bad", "@import 'a';.bad", f"NoPicture 2: {OTHER_PICTURE}"),
    ("<g class='legs'>", "<image href='#a'/>", f"NoPicture 15: {OTHER_PICTURE}"),
    ("<g class='legs'>", "<a href='#a'>", f"NoPicture 15: {OTHER_PICTURE}"),
    ("<g class='legs'>", "<script>x()</script>", f"NoPicture 15: {OTHER_PICTURE}"),
    ("<g class='legs'>", "<g class='legs' onclick='x()'>", f"NoPicture 15: {OTHER_PICTURE}"),
    ("<use href='#depot'", "<use href='a.svg#depot'", f"NoPicture 21: {OTHER_PICTURE}"),
    ("<use href='#depot'", "<use xlink:href='a.svg#depot'", f"NoPicture 21: {OTHER_PICTURE}"),
    (COST, "unplanned 0, vehicles 2, distance 130", f'OtherPlan 12: "unplanned 0, vehicles 2, distance 130", but the timetable has "{COST}"'),
    ("<text x='20' y='36' font-size='20' font-weight='bold'>", "<text class='bad' x='20' y='36'>broken rule 7: ",
        f'OtherPlan 12: "broken rule 7: {COST}", but the timetable has "{COST}"'),
    ("<title>4", "<title>5", "OtherOrders 25: stop 5 is not in these 2 orders"),
    (MAP[MAP.index("</svg>\n<g text-anchor") :], "", "Truncated 27: its end is missing"),
]
# Fields of phone numbers, and the numbers that they link, if any.
PHONES = [
    ("01632 960101", "01632960101"),
    ("(01632) 960-101", "01632960101"),
    ("01632.960101", "01632960101"),
    ("+44 1632 960101", "+441632960101"),
    ("+44 (0)1632 960101", "+441632960101"),
    ("999", "999"),
    ("12", None),
    ("ask Bob", None),
    ("01632 960101 ext. 5", None),
    ("01632 960101 / 960102", None),
    ("01632 960101 07700 900123", None),
    ("1+2345", None),
    ("", None),
]
# Texts that would be tags, entities or the end of something, if they were not escaped.
HOSTILE = {
    "Yard": "Yard ]]> &lt;Co&gt; </title><script>alert(1)</script>",
    "Mill": "<b onclick=alert(1)>Mill & \"Sons\"</b>",
    "Shop": "</td></table><img src=http://a/b onerror=alert(1)>",
    "Farm": "Farm's \\& <!-- ${x} `y` &amp; &#39; \\\\",
    "A": "A&B<C>",
    "1": "\"><a href=javascript:alert(1)>1</a>",
}
ALLOWED = set("html head meta title style body section h1 h2 h3 p ul li a div table thead tbody tr th td".split())
DRAWN = set("svg style defs marker path rect circle g use text tspan polyline title".split())
ATTRIBUTES = set("lang charset http-equiv content name id class style href".split())
LINK = re.compile(r"#[\w-]+|tel:\+?\d{3,15}|geo:-?\d+\.\d{6},-?\d+\.\d{6}")


class Tags(HTMLParser):
    """The names of the tags that a browser sees."""

    def __init__(self, text):
        super().__init__()
        self.names = []
        self.feed(text)
        self.close()

    def handle_starttag(self, tag, attrs):
        self.names.append(tag)


def check_loads_nothing(page, root):
    """Checks that the page has only elements, attributes and links that load and run nothing, and a policy that
    forbids it.
    """
    for it in root.iter():
        drawn = it.tag.startswith(SVG)
        name = it.tag.removeprefix(SVG if drawn else HTML)
        if name not in (DRAWN if drawn else ALLOWED):
            fail(f"the page has an element {it.tag}")
        for attribute, value in it.attrib.items():
            if attribute == "href" and not (re.fullmatch(r"#\w+", value) if drawn else LINK.fullmatch(value)):
                fail(f"the page has a link {value}")
            if attribute.startswith("on") or ":" in attribute or not drawn and attribute not in ATTRIBUTES:
                fail(f"the page has an attribute {attribute} of {it.tag}")
            if "url" in value or "javascript" in value:
                fail(f"the page has {attribute}={value!r}")
        if name == "style" and (set(re.findall(r"url\((.*?)\)", it.text)) - {"#arrow"} or "@import" in it.text):
            fail(f"a style loads something: {it.text}")
    expect("what the page loads", [page.count(it) for it in ("<script", "<link", "<img", "<iframe")], [0] * 4)
    metas = [dict(it.attrib) for it in root.iter(HTML + "meta")]
    policy = {"http-equiv": "Content-Security-Policy", "content": "default-src 'none'; style-src 'unsafe-inline'"}
    expect("the first lines of the page's head", metas[:2], [{"charset": "utf-8"}, policy])
    names = [it.tag.split("}")[1] for it in root.iter()]
    expect("what an HTML parser finds", Tags(page).names, names)


def text_in(element):
    return " ".join("".join(element.itertext()).split())


def check_page(page, sheets, day):
    """Checks that the page has the rows of the sheets and the last page, with links, and each stop on the map."""
    root = ElementTree.fromstring(page)
    check_loads_nothing(page, root)
    sections = {it.get("id", ""): it for it in root.iter(HTML + "section")}
    sheets = sheets.split("\f")
    rest = sheets.pop().rstrip("\n").split("\n") if sheets[-1].startswith("In no van") else []
    wanted = ["", *(f"van-{HEADING.match(sheet)[1]}" for sheet in sheets), *(["rest"] if rest else [])]
    expect("the sections of the page", list(sections), wanted)
    served = [place for sheet in sheets for place in check_section(sections, sheet, day)]
    titles = [it.text for it in root.iter(SVG + "title")]
    marks = {it: ", ".join((it[0], f"{'pick up' if it[1] == 'pickup' else 'deliver'} {day.boxes[it[0]]}", stop.name)) for it, stop in day.stops.items()}
    expect("the mark of the depot", titles[0], day.depot.name)
    if not set(marks[it] for it in served) <= set(titles[1:]) <= set(marks.values()):
        fail(f"the marks of the map: {titles}")
    if rest:
        told = [text_in(it) for it in sections["rest"].iter() if it.tag in (HTML + "h2", HTML + "h3", HTML + "li")]
        expect("the orders in no van", told, [" ".join(line.split()) for line in rest if line])


def check_section(sections, sheet, day):
    """Checks the section of a van against its sheet, and returns its stops."""
    heading, rows = rows_of(sheet)
    section = sections[f"van-{heading[0]}"]
    expect("the heading", text_in(section.find(HTML + "h2")), f"Van {heading[0]}")
    expect("what stands below it", text_in(section.find(HTML + "p")), sheet.split("\n")[0].split(": ", 1)[1])
    cells = [list(row) for row in section.iter(HTML + "tr")]
    expect("the names of columns", [text_in(it) for it in cells[0]], COLUMNS_OF_SHEET + ["map"])
    stops = [(row[4], "pickup" if row[5].startswith("pick up") else "delivery") for row in rows[1:-1]]
    numbers = ["", *(str(day.numbers[it]) for it in stops), ""]
    expect("the rows", [[text_in(it) for it in row] for row in cells[1:]], [[*row, number] for row, number in zip(rows, numbers)])
    for row, stop in zip(cells[1:], [day.depot, *(day.stops[it] for it in stops), day.depot]):
        degrees = [f"{math.degrees(it):.6f}" for it in (stop.latitude, stop.longitude)]
        phone = ["tel:" + re.sub(r"\D", "", stop.phone)] if stop.phone else []
        expect(f"the links of {stop.name}", [it.get("href") for cell in row for it in cell.iter(HTML + "a")], [*phone, "geo:" + ",".join(degrees)])
    return stops


def hostile_tables(folder):
    """Writes the small tables with hostile texts in place of their names, and returns their paths."""
    header, *rows = csv.reader(SMALL.splitlines())
    named = [number for number, name in enumerate(header) if name in ("order", "pickup", "pickup phone", "delivery")]
    paths = [write(folder, "town.hostile", (HEAD + TOWN).replace("Yard", HOSTILE["Yard"])), os.path.join(folder, "small.hostile")]
    with open(paths[1], "w", encoding="utf-8", newline="") as file:
        csv.writer(file).writerow(header)
        csv.writer(file).writerows([HOSTILE.get(it, it) if number in named else it for number, it in enumerate(row)] for row in rows)
    return paths


def check_small_page(folder):
    """Checks the page of the small table, with the same rows as its sheets, hostile texts and phone numbers.
    Returns how many pictures were refused.
    """
    town, small, alone = write(folder, "town.csv", HEAD + TOWN), write(folder, "small.csv", SMALL), write(folder, "alone.tabs", ALONE)
    drawn = write(folder, "alone.svg", MAP)
    status, page, told = ask("page", town, small, alone, drawn)
    expect("the small page", (status, told), (1, "day.sh: orders in no van: 1\n"))
    root = ElementTree.fromstring(page)
    check_loads_nothing(page, root)
    rows = [[text_in(cell) for cell in row] for row in root.iter(HTML + "tr")]
    expect("its rows", rows[2], ["8:05", "8:05", "8:06", "8:05-8:30", "A", "pick up 4", "1", "Mill", "1"])
    told = [text_in(it) for it in root.iter(HTML + "li")]
    expect("its reasons", told[2:], [" ".join(line.split()) for line in ALONE_SHEETS.split("stops 3 and 4\n")[1].splitlines()])
    marks = ["Yard", "A, pick up 4, Mill", "A, deliver 4, Shop", "B, pick up 5, Mill", "B, deliver 5, Farm"]
    expect("its marks", [it.text for it in root.iter(SVG + "title")], marks)
    for text in "driving", "distance 132", "text-anchor":
        expect(f"{text} in the page", text in page, False)
    _, page, _ = ask("page", *hostile_tables(folder), alone, drawn)
    root = ElementTree.fromstring(page)
    check_loads_nothing(page, root)
    texts = " ".join(root.itertext())
    for text in HOSTILE.values():
        expect(f"{text} in the page", text in texts, True)
    expect("its title", root.find(f"{HTML}head/{HTML}title").text, HOSTILE["Yard"])
    for text, number in PHONES:
        row = write(folder, "phone.csv", SMALL.replace("Mill,1", f"Mill,{text}"))
        _, page, _ = ask("page", town, row, alone, drawn)
        links = {it.get("href"): it.text for it in ElementTree.fromstring(page).iter(HTML + "a")}
        numbers = {link: text for link, text in links.items() if link.startswith("tel:")}
        expect(f"the phone number {text!r}", numbers, {f"tel:{number}": text} if number else {})
    for old, new, told in BAD_MAPS:
        refused("a map", "map", ["page", town, small, alone, write(folder, "bad.svg", MAP.replace(old, new, 1))], told)
    with open(drawn, "rb") as file:
        expect("a map on standard input", ask("page", town, small, alone, "-", stdin=file)[0], 1)
    return len(BAD_MAPS)


def check_store_commands(folder):
    """Checks what `add` and `cancel` print for the small table."""
    town, small, alone = write(folder, "town.csv", HEAD + TOWN), write(folder, "small.csv", SMALL), write(folder, "alone.tabs", ALONE)
    added, told = "add 5 0 33 28800 32400 60 0 1001 28800 29400 30\n", "day.sh: order B becomes request 3\n"
    expect("add", ask("add", town, small), (0, added, told))
    expect("add at 7:59", ask("add", town, small, "7:59"), (0, "freeze 28740\n" + added, told))
    refused("add at 8:00", "orders", ["add", town, small, "8:00"],
        "TooEarly 3: pickup from: 8:00 is too early; from 8:01 on each van can be there, if it is sent at 8:00")
    expect("cancel", ask("cancel", town, small, "B"), (0, "withdraw 3\n", ""))
    expect("cancel with blanks", ask("cancel", town, small, "  B "), (0, "withdraw 3\n", ""))
    for time, now, told in [
        ("8:00", 28800, ""),
        ("8:05", 29100, "day.sh: by this plan, van 2 has begun to pick up order A at 8:05: its boxes are on board\n"),
        ("08:07", 29220, "day.sh: by this plan, van 2 has begun to deliver order A at 8:06\n"),
    ]:
        expect(f"cancel at {time}", ask("cancel", town, small, "A", alone, time), (0, f"unpin 2\nwithdraw 1\nfreeze {now}\n", told))
    expect("cancel in no van", ask("cancel", town, small, "B", alone, "8:00"), (0, "withdraw 3\nfreeze 28800\n", ""))
    refused("cancel", "orders", ["cancel", town, small, "C"], 'NoSuchOrder 4: there is no order "C"')
    without = write(folder, "without.tabs", ALONE[: ALONE.index("unplanned")].replace("partial 1", "pass 0"))
    refused("cancel", "timetable", ["cancel", town, small, "B", without, "8:00"],
        "NoSuchOrder 6: order B is not in this plan: withdrawn, or not added to it yet")
    check_outage(folder, town, alone)
    for time in "9.30", "9:60", "24:01", "now":
        words = [["add", town, small, time], ["cancel", town, small, "A", alone, time], ["out", town, small, "2", alone, time]]
        for it in words:
            expect(f"{it}", ask(*it), (64, "", f'day.sh: "{time}" is not a time, for example 9:30\n'))


def check_outage(folder, town, alone):
    """Checks what `out` prints for the van of the small table, with other columns, quotes and separators."""
    small = os.path.join(folder, "small.csv")
    delivered_nothing, no_sheet = "has delivered nothing by 8:05; give its sheet to an idle van", "has no sheet in this plan"
    for van, time, words in ("2", "8:05", delivered_nothing), ("1", "8:30", no_sheet), ("x", "8:30", no_sheet):
        told = f"NothingDone 11: van {van} {words}"
        refused("out of a van without deliveries", "timetable", ["out", town, small, van, alone, time], told)
    told = "DayOver 11: the depot closes at 9:00, so no van is planned at 9:01"
    refused("out after the depot closes", "timetable", ["out", town, small, "2", alone, "9:01"], told)
    # The van is free at 8:08:44, and needs 55 seconds home. At 8:40 it can't be busy for half an hour more.
    for time, now, window, minutes in ("8:07", 29220, "8:07,8:38", 20), ("8:10", 29400, "8:10,8:40", 19), ("8:40", 31200, "8:40,9:00", 0):
        told = f"day.sh: write as the last row of the table:\nvan 2 out,0,Shop,2,0.003,0.004,{window},{minutes},Shop,2,0.003,0.004,,,0\n"
        expect(f"out at {time}", ask("out", town, small, "2", alone, time), (0, f"unpin 2\nfreeze {now}\n", told))
    # A van with both orders: the mill and the shop, then the mill again, and the farm at 8:20.
    both = write(folder, "both.csv", SMALL.replace("B,5", "B,1").replace("8:10", "9:00").replace("Shop", '"The ""Shop"", Main Street"'))
    route = write(folder, "both.tabs", hours((1, 28833, 29100), (3, 29160, 29160), (2, 29264, 29264), (4, 30353, 30353), (0, 31384, 31384)))
    row = 'van 1 out,0,"The ""Shop"", Main Street",2,0.003,0.004,8:10,8:40,19,"The ""Shop"", Main Street",2,0.003,0.004,,,0\n'
    told = "day.sh: order B, on board\nday.sh: write as the last row of the table:\n" + row
    expect("out with an order on board", ask("out", town, both, "1", route, "8:10"), (0, "unpin 1\nwithdraw 3\nfreeze 29400\n", told))
    other = write(folder, "other.csv", rewritten(read(both), lambda row: [re.sub(r"^0\.", "0,", it) for it in row[::-1]] + ["note"], delimiter=";"))
    status, commands, told = ask("out", town, other, "1", route, "8:10")
    expect("out with other columns", (status, commands), (0, "unpin 1\nwithdraw 3\nfreeze 29400\n"))
    fields = next(csv.reader(told.splitlines()[-1:], delimiter=";"))
    expect("its row", fields, [re.sub(r"^0\.", "0,", it) for it in next(csv.reader([row.rstrip()]))[::-1]] + [""])
    more = write(folder, "more.csv", read(both) + row)
    expect("the table with this row", ask("instance", town, more)[0], 0)


def check_most(folder):
    """Checks as many orders as an instance allows, and one more."""
    town = write(folder, "town.csv", HEAD + TOWN)
    rows = [FIRST.replace("A,", f"{number},", 1) + "\n" for number in range(1, 20_002)]
    status, instance, told = ask("instance", town, write(folder, "most.csv", COLUMNS + "\n" + "".join(rows[:-1])))
    expect("20,000 orders", (status, told, instance.splitlines()[-1]), (0, "", "40000 44 33 -4 28800 32400 120 39999 0"))
    more = write(folder, "more.csv", COLUMNS + "\n" + "".join(rows))
    refused("an order more", "orders", ["instance", town, more], "TooManyOrders 20002: an instance has 20000 at most")


def check_tables(folder):
    """Runs the second to the fifth part with each awk that is installed, and returns how many tables were
    refused, and the awks.
    """
    awks = [it for it in ("mawk", "gawk", "original-awk") if shutil.which(it)] or ["awk"]
    for name in awks:
        links = os.path.join(folder, name)
        os.mkdir(links)
        os.symlink(shutil.which(name), os.path.join(links, "awk"))
        ENVIRONMENT["PATH"] = f"{links}:{os.environ['PATH']}"
        check_forms(folder)
        check_store_commands(folder)
        refusals = check_refused(folder) + check_small_page(folder)
    ENVIRONMENT["PATH"] = os.environ["PATH"]
    check_most(folder)
    return refusals + 1, awks


def main():
    with tempfile.TemporaryDirectory() as folder:
        refusals, awks = check_tables(folder)
        if os.access(PROGRAM, os.X_OK):
            sheets = check_commands(folder)
            print(f"day: {sheets} sheets by the commands of the guide, each time computed from the table")
        else:
            skip("the commands of the guide", f"{PROGRAM} is not built (rt ci builds it)")
    print(f"day: {refusals} tables and pictures are refused by name and line, by {', '.join(awks)}")


if __name__ == "__main__":
    main()
