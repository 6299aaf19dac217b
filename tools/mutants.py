#!/usr/bin/env python3
"""Runs the mutants that the gate leaves out: tools/mutants.py [CRATE..], those of all crates if none is
named.

The gate runs the mutants in must-fail/, the most important ones, since its time is limited. The others have the
same form in mutants/ of their crate. They run here over the proved libraries, in a tree of its own. The
status is 1 if the prover accepts one.

tools/mutants.py --look only checks that each mutant of both folders can still be applied, which takes a
second: `./test` does so.
"""
import os
import pathlib
import shutil
import subprocess
import sys
import tempfile

TOP = pathlib.Path(__file__).resolve().parent.parent
CRATES = TOP / "crates"
PARTS = ("src", "specs", "proofs")


def fault_of(edit):
    """Returns why the edit can't be applied, or None. Its lines `file:`, `old:` and `new:` are read as the kit
    reads those of must-fail/.
    """
    texts, path, old = {}, None, None
    for line in edit.read_text().split("\n"):
        word, _, rest = line.partition(": ")
        if word == "file":
            path = rest.strip()
            file = edit.parent.parent / path
            if not file.is_file():
                return f"there is no {path}"
            texts.setdefault(path, file.read_text())
        elif word == "old":
            old = rest
        elif line.startswith("new:"):
            if path is None or old is None or texts[path].count(old) != 1:
                return f"its old text is not once in {path}"
            texts[path], old = texts[path].replace(old, rest), None
    return None if texts else "it changes no file"


def look():
    """Prints each edit that can't be applied, and returns the status."""
    edits = [edit for folder in ("must-fail", "mutants") for edit in sorted(CRATES.glob(f"*/{folder}/*.edit"))]
    faults = [f"{edit.relative_to(TOP)}: {fault}" for edit in edits if (fault := fault_of(edit))]
    print("\n".join(faults) if faults else f"mutants: each of {len(edits)} can be applied")
    return 1 if faults or not edits else 0


def give_tree(folder, name):
    """Fills the folder with the sources of all crates, links to the proved libraries, and the crate's edits
    in the folder that the kit searches.
    """
    for file in ("crates.txt", "HANDLES"):
        shutil.copy(TOP / file, folder)
    for crate in CRATES.iterdir():
        for part in PARTS:
            if (crate / part).is_dir():
                shutil.copytree(crate / part, folder / "crates" / crate.name / part)
        library = crate / "out" / "rlib"
        if library.is_dir():
            shutil.copytree(library, folder / "crates" / crate.name / "out" / "rlib", copy_function=os.link)
    shutil.copytree(CRATES / name / "mutants", folder / "crates" / name / "must-fail")


def attempt(name):
    """Runs the crate's edits, and returns the status."""
    # Beside the sources, for links, and where the gate does not look.
    with tempfile.TemporaryDirectory(dir=TOP / ".git", prefix="mutants-") as folder:
        give_tree(pathlib.Path(folder), name)
        return subprocess.run(["rt", "must-fail", name], cwd=folder).returncode


def main():
    words = sys.argv[1:]
    if words == ["--look"]:
        return look()
    names = words or sorted(folder.parent.name for folder in CRATES.glob("*/mutants"))
    unknown = [it for it in names if not (CRATES / it / "mutants").is_dir()]
    if unknown:
        print(f"no crate with mutants/: {' '.join(unknown)}\n{__doc__}", file=sys.stderr)
        return 64
    # Every crate is run. A status is below 0 if a signal ended it.
    return int(any([attempt(it) for it in names]))


sys.exit(main())
