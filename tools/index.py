#!/usr/bin/env python3
"""Writes docs/INDEX.md, the look-up tables for contributors, from tools/index.txt and the tree.

tools/index.py          writes the page
tools/index.py --check  checks that the page is what this script would write, as `./test` and tests/docs.py do

tools/index.txt has the text of the page. A line with ` | ` is a row of a table; the first row after another line
is its header. In braces stand the names, whose files this script finds in the tree:
  {Rules.IsLate}                     a definition, in a specs/Rules.antt
  {plan_audit: first_late, IsLate}   declarations of a crate, each with its file: in src/, else in specs/, else in
                                     proofs/. If two files of src/ declare the name, the row has to name the file
  {plan_audit/src/scan.rt}           a file, by its path from the top or from crates/
  {tests/store.py: check_remains}    declarations of this file
  {=}                                the same as in the row above
  {^plan_audit}                      how many crates of the programs are proved again if this one changes
A line that begins with `;` is a comment. A name that is not declared where the row says is an error.
"""
import pathlib
import re
import sys

sys.dont_write_bytecode = True
TOP = pathlib.Path(__file__).resolve().parent.parent
sys.path.insert(0, str(TOP / "tests"))
import docs  # noqa: E402

SOURCE, PAGE = TOP / "tools" / "index.txt", TOP / "docs" / "INDEX.md"
# Braces, or several of them with commas.
RUN = re.compile(r"\{[^}=]+\}(?:, \{[^}=]+\})*")
problems = []


def complain(number, text):
    problems.append(f"{SOURCE.relative_to(TOP)}:{number}: {text}")


def short(file):
    """Returns the path as the page shows it: from crates/, else from the top."""
    path = file.relative_to(TOP)
    return str(path.relative_to("crates") if path.parts[0] == "crates" else path)


def declares(file, name):
    return name in docs.declared_at(file)


def file_of(crate, name, number):
    """Returns the file of the crate that declares the name, or None after a complaint."""
    folder = TOP / "crates" / crate
    if not folder.is_dir():
        return complain(number, f"there is no crate {crate}")
    for kinds in ("src/**/*.rt", "specs/**/*.antt", "proofs/**/*.antt"):
        files = [it for it in sorted(folder.glob(kinds)) if declares(it, name)]
        if len(files) == 1:
            return files[0]
        if files:
            return complain(number, f"{name} is declared in {', '.join(map(short, files))}: name the file")
    return complain(number, f"{crate} declares no {name}")


def show_definition(module, name, number):
    files = [it for it in TOP.glob(f"crates/*/specs/**/{module}.antt") if declares(it, name)]
    if not files:
        complain(number, f"no {module}.antt declares {name}")
    return f"`{module}.{name}`"


def places_of(span, number):
    """Returns what the braces name: each file with a name in it, or with None for the file itself. The text of a
    definition or of a number stands alone, without a file.
    """
    place, _, names = span.partition(":")
    names = names.replace(",", " ").split()
    if place.startswith("^"):
        above = [it for it in docs.PRODUCT if place[1:] in docs.BELOW[it]]
        return [(None, str(len(above) or complain(number, f"there is no crate {place[1:]}")))]
    if not names:
        definition = re.fullmatch(r"([A-Z]\w*)\.(\w+)", place)
        if definition and not place.endswith((".antt", ".md")):
            return [(None, show_definition(definition[1], definition[2], number))]
        if not any((folder / place).exists() for folder in (TOP, TOP / "crates")):
            complain(number, f"there is no {place}")
        return [(place, None)]
    if "/" not in place and "." not in place:
        return [(short(file), name) for name in names if (file := file_of(place, name, number))]
    file = docs.file_at(place)
    for name in names:
        if not file or not declares(file, name):
            complain(number, f"{place} declares no {name}" if file else f"there is no file {place}")
    return [(place, name) for name in names]


def show(spans, number):
    """Returns the text of the page for one or more braces: each file once, with its names after it."""
    pairs = [it for span in re.findall(r"\{([^}]+)\}", spans) for it in places_of(span, number)]
    plain = [text for file, text in pairs if file is None]
    shown = [", ".join(plain)] if plain else []
    for file in dict.fromkeys(file for file, _ in pairs if file):
        names = [f"`{name}`" for it, name in pairs if it == file and name]
        shown.append(f"`{file}` {', '.join(names)}".rstrip())
    has_names = any(file and name for file, name in pairs)
    return ("; " if has_names else ", ").join(shown)


def page():
    """Returns the page as text."""
    lines, inside, last = [], False, []
    for number, line in enumerate(SOURCE.read_text(encoding="utf-8").splitlines(), 1):
        if line.startswith(";"):
            continue
        cells = [it.strip() for it in line.split(" | ")] if " | " in line else []
        if not cells:
            shown = [RUN.sub(lambda run: show(run[0], number), line)]
        else:
            shown = [RUN.sub(lambda run: show(run[0], number), it) for it in cells]
            for column, cell in enumerate(shown):
                if "{=}" in cell:
                    shown[column] = cell.replace("{=}", last[column] if column < len(last) else "")
            if inside and len(shown) != len(last):
                complain(number, f"a row of {len(shown)} cells, after one of {len(last)}")
        if not cells:
            lines.append(shown[0])
        else:
            lines.append("| " + " | ".join(shown) + " |")
            if not inside:
                lines.append("|" + "---|" * len(shown))
        inside, last = bool(cells), shown
    return "\n".join(lines) + "\n"


def main():
    checks = sys.argv[1:] == ["--check"]
    if sys.argv[1:] and not checks:
        sys.exit("usage: tools/index.py [--check]")
    text = page()
    if checks and not problems and (not PAGE.exists() or PAGE.read_text(encoding="utf-8") != text):
        problems.append("docs/INDEX.md is not what tools/index.py writes: run tools/index.py")
    for it in problems:
        print(it)
    if not checks and not problems:
        PAGE.write_text(text, encoding="utf-8")
    print(f"index: {text.count(chr(10))} lines, {len(problems)} faults")
    return 1 if problems else 0


if __name__ == "__main__":
    sys.exit(main())
