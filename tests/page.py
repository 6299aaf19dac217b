#!/usr/bin/env python3
"""Renders the page of a day (`day.sh page`) with headless Chromium, to a PDF and to a picture.

1. The page of a small table with texts that would be tags if they were not escaped: the PDF has each of them as
   it is in the table.
2. The page of the guide's day, docs/DISPATCHING.md: in the PDF each van begins a page of its own, and has there
   the rows of its sheet. A store with an order too many has a last page with that order. The picture shows the
   route of each van in its colour.

Needs Chromium and pdftotext (packages chromium and poppler-utils), and is skipped without them. The second part
needs the program that rt ci leaves.

    tests/page.py
"""
import colorsys
import os
import shutil
import subprocess
import sys
import tempfile
import zlib

# Python leaves no files beside the scripts.
sys.dont_write_bytecode = True
import day  # noqa: E402
from planner import expect, fail, skip  # noqa: E402

BROWSERS = ("chromium", "chromium-headless-shell", "chromium-browser", "google-chrome-stable", "google-chrome")
WIDTH, HEIGHT = 840, 900
# A route is seen if its colour is in this many columns of the picture: the mark beside a heading is narrower.
LEAST_COLUMNS = 40


def browser():
    return next((it for it in map(shutil.which, BROWSERS) if it), None)


def render(folder, page, option, name):
    """Renders a page with this option, and returns the path of the result."""
    path = os.path.join(folder, name)
    words = [browser(), "--headless", "--no-sandbox", "--disable-gpu", "--no-first-run", f"--user-data-dir={folder}/profile", "--no-pdf-header-footer",
        f"--window-size={WIDTH},{HEIGHT}", f"--{option}={path}", "file://" + page]
    told = subprocess.run(words, capture_output=True, check=False, timeout=300)
    if told.returncode or not os.path.exists(path):
        fail(f"{words[0]} ends with {told.returncode}: {told.stderr.decode(errors='replace')[-1000:]}")
    return path


def pages_of(folder, page, *options):
    """Returns the text of each printed page."""
    path = render(folder, page, "print-to-pdf", "page.pdf")
    told = subprocess.run(["pdftotext", "-enc", "UTF-8", *options, path, "-"], capture_output=True, check=True)
    return told.stdout.decode().split("\f")[:-1]


def lines_of(text):
    """Returns the lines that are not blank, with one blank between words."""
    return [" ".join(line.split()) for line in text.splitlines() if line.strip()]


def nearest(left, above, corner):
    """Returns the one of them that is nearest to their plane, the first one if two are (Paeth)."""
    guess = left + above - corner
    return min((left, above, corner), key=lambda it: abs(guess - it))


PREDICTIONS = (
    lambda left, above, corner: 0,
    lambda left, above, corner: left,
    lambda left, above, corner: above,
    lambda left, above, corner: (left + above) // 2,
    nearest,
)


def unfiltered(kind, row, above, size):
    """Returns a row of a PNG without its filter of this kind. A pixel has `size` bytes."""
    row, predict = bytearray(size) + row, PREDICTIONS[kind]
    above = bytes(size) + above
    for i in range(size, len(row)):
        row[i] = row[i] + predict(row[i - size], above[i], above[i - size]) & 255
    return bytes(row[size:])


def picture_of(path):
    """Returns the rows of a PNG, each as bytes, and the number of bytes of a pixel."""
    data = day.read_bytes(path)
    expect("a picture", data[:8], b"\x89PNG\r\n\x1a\n")
    at, chunks = 8, []
    while at < len(data):
        size = int.from_bytes(data[at : at + 4], "big")
        chunks.append((data[at + 4 : at + 8], data[at + 8 : at + 8 + size]))
        at += size + 12
    head = dict(chunks)[b"IHDR"]
    expect("the form of the picture", (head[8], head[9] in (2, 6), head[12]), (8, True, 0))
    size = 3 if head[9] == 2 else 4
    width = int.from_bytes(head[:4], "big") * size
    lines = zlib.decompress(b"".join(text for kind, text in chunks if kind == b"IDAT"))
    rows, above = [], bytes(width)
    for begin in range(0, len(lines), width + 1):
        above = unfiltered(lines[begin], lines[begin + 1 : begin + 1 + width], above, size)
        rows.append(above)
    return rows, size


def check_picture(folder, page, vans):
    """Checks that the picture has the colour of each van's route in many columns."""
    rows, size = picture_of(render(folder, page, "screenshot", "page.png"))
    seen = {}
    for row in rows:
        for column in range(0, len(row), size):
            seen.setdefault(row[column : column + 3], set()).add(column)
    for van in vans:
        colour = [round(255 * it) for it in colorsys.hls_to_rgb(137 * van % 360 / 360, (30 + van % 7 * 4) / 100, 0.75)]
        columns = set().union(*(places for it, places in seen.items() if all(abs(one - other) <= 8 for one, other in zip(it, colour))))
        if len(columns) < LEAST_COLUMNS:
            fail(f"the route of van {van} is not on the picture: its colour {colour} is in {len(columns)} columns")


def check_small(folder):
    town, small = day.hostile_tables(folder)
    status, page, told = day.ask("page", town, small, day.write(folder, "alone.tabs", day.ALONE), day.write(folder, "alone.svg", day.MAP))
    expect("the small page", (status, told), (1, "day.sh: orders in no van: 1\n"))
    pages = pages_of(folder, day.write(folder, "small.html", page), "-raw")
    expect("how the pages of the small table begin", [lines_of(it)[0].split(" ")[0] for it in pages], ["Yard", "Van", "In"])
    text = "".join("".join(pages).split())
    for it in day.HOSTILE.values():
        if "".join(it.split()) not in text:
            fail(f"the PDF lacks {it!r}: {pages}")
    check_picture(folder, os.path.join(folder, "small.html"), [2])


def check_pages(pages, sheets, day_of):
    """Checks that each van begins a page, with the rows of its sheet on its pages, and so do the orders in no van.
    """
    sheets = sheets.split("\f")
    rest = sheets.pop() if sheets[-1].startswith("In no van") else ""
    lines = [lines_of(it) for it in pages]
    expect("the first page", lines[0][0], day_of.depot.name)
    begins = [number for number, it in enumerate(lines) if it[0].startswith(("Van ", "In no van"))]
    expect("the first page of a van", begins[0], 1)
    expect("the pages that begin", len(begins), len(sheets) + bool(rest))
    for sheet, begin, end in zip(sheets, begins, [*begins[1:], len(pages)]):
        heading, rows = day.rows_of(sheet)
        text = [line for it in lines[begin:end] for line in it]
        expect("the beginning of a van's page", text[:2], [f"Van {heading[0]}", sheet.split("\n")[0].split(": ", 1)[1]])
        stops = [(row[4], "pickup" if row[5].startswith("pick up") else "delivery") for row in rows[1:-1]]
        numbers = ["", *(str(day_of.numbers[it]) for it in stops), ""]
        for row, number in zip(rows, numbers):
            wanted = " ".join(it for it in [*row, number] if it)
            if wanted not in text:
                fail(f"the pages of van {heading[0]} lack {wanted!r}: {text}")
    for line in lines_of(rest):
        expect(f"{line!r} on the last page", line in [it for page in lines[begins[-1] :] for it in page], True)


def check_day(above):
    """Renders the page of the guide's day, and that of a store with an order that no van can serve."""
    commands, _ = day.blocks_of_guide()
    folder = day.new_folder(above, "day")
    for name in "copy", "sheets", "page":
        day.shell(folder, commands[name])
    sheets, page = day.read(os.path.join(folder, "day.sheets")), os.path.join(folder, "day.html")
    pages = pages_of(folder, page, "-layout")
    check_pages(pages, sheets, day.Day(day.ORDERS))
    vans = [int(day.HEADING.match(sheet)[1]) for sheet in sheets.split("\f")]
    check_picture(folder, page, vans)
    day.add_row(folder, day.IMPOSSIBLE)
    day.shell(folder, commands["sheets"].split("\n")[0])
    day.shell(folder, "./planner load town.store lilim day.txt && echo build | ./planner run town.store strict")
    day.shell(folder, commands["again"], (0, 1))
    sheets = day.read(os.path.join(folder, "town.sheets"))
    expect("the order in no van", day.vans_of(sheets)[1], ["4803"])
    left = pages_of(folder, os.path.join(folder, "town.html"), "-layout")
    check_pages(left, sheets, day.Day(os.path.join(folder, "orders.csv")))
    return len(pages) + len(left)


def main():
    missing = [name for name, path in (("Chromium", browser()), ("pdftotext", shutil.which("pdftotext"))) if not path]
    if missing:
        skip("", f"there is no {' and no '.join(missing)} (packages chromium and poppler-utils)")
        return
    with tempfile.TemporaryDirectory() as folder:
        check_small(folder)
        print("page: hostile texts are on the printed pages as they are in the table")
        if os.access(day.PROGRAM, os.X_OK):
            print(f"page: {check_day(folder)} printed pages have each van and each order of the guide's day")
        else:
            skip("the guide's day", f"{day.PROGRAM} is not built (rt ci builds it)")


main()
