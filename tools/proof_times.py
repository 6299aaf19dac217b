#!/usr/bin/env python3
"""Measures how long each function of a crate takes to prove: tools/proof_times.py CRATE [--test]. With --test,
measures the functions of its tests.

Prints elapsed seconds, the longest first, their share, and the most expensive modules that the prover makes of
the function: `Lts` is the work of the borrow checker, which grows with exits times live values, `Proof` what
answers the goals. The libraries below must be proved, as `rt check CRATE` does.

The crate is proved from nothing in a copy, one module after another, over a folder where the prover saves each
module when it ends with it: a module's time is the time since the previous one was saved. Beside other work all
times are longer.
"""
import collections
import pathlib
import re
import shutil
import subprocess
import sys
import tempfile
import time

TOP = pathlib.Path(__file__).resolve().parent.parent
CRATES = TOP / "crates"
SHOWN = 30
# The prover's work before it ends with the first module: it reads the crate and the libraries.
BEFORE = ("(reading)", "")
# The modules that the prover makes of a function, below its own name.
OF_A_FUNCTION = {
    *("Answers", "Code", "Given", "Goals", "Invariants", "Key", "Kinds", "Layout", "Lts", "Met"),
    *("Named", "Own", "Proof", "Reads", "Statement", "Symbol", "TheLink", "Tie"),
}


def libraries_of(name):
    """Returns the libraries that crates.txt lists for a crate."""
    line = re.search(rf"^{name}:(.*)$", (TOP / "crates.txt").read_text(), re.MULTILINE)
    return ["std", *line[1].split()] if line else None


def command_of(kit, name, words):
    """Returns the command that checks the crate in the folder where it runs, over the proved libraries."""
    root = "src/main.rt" if (CRATES / name / "src" / "main.rt").is_file() else "src/lib.rt"
    command = [kit / "bin" / "rattle", "check", "--crate-name", name, root, "--jobs", "1", *words]
    for library in libraries_of(name):
        own = CRATES / library / "out" / "rlib" / f"{library}.rlib"
        command += ["--extern", f"{library}={own if own.is_dir() else kit / 'rlibs' / f'{library}.rlib'}"]
    for folder in [*CRATES.glob("*/out/rlib"), kit / "rlibs"]:
        command += ["-L", f"dependency={folder}"]
    return [*command, "--antt-project", kit / "rattle" / "logic" / "antt-project.json", "--logic-built", kit / "logic_built"]


def part_of(name, module):
    """Returns the function, type or file that a module belongs to, and which of its modules it is."""
    path = re.sub(rf"^Rattle-{name}(-proofs|-specs)?\.?(proofs\.|specs\.)?(contracts\.)?", "", module)
    parts = path.split(".")
    end = next((at for at, part in enumerate(parts) if part in OF_A_FUNCTION), None)
    return (path or name, "") if end is None else (".".join(parts[:end]), parts[end])


def seconds_by_part(name, began, kept):
    """Returns the seconds until each module was saved, summed by its owner and by the kind of module."""
    seconds = collections.defaultdict(collections.Counter)
    for at, module in sorted((it.stat().st_mtime, it.stem) for it in kept.glob("*/*.oantt")):
        part, kind = part_of(name, module) if seconds else BEFORE
        seconds[part][kind] += at - began
        began = at
    return seconds


def main():
    name, words = sys.argv[1] if len(sys.argv) > 1 else "", sys.argv[2:]
    if not (CRATES / name / "src").is_dir() or not libraries_of(name) or words not in ([], ["--test"]):
        print(__doc__, file=sys.stderr)
        return 64
    rt = shutil.which("rt")
    if not rt:
        print("rt is wanted", file=sys.stderr)
        return 69
    with tempfile.TemporaryDirectory() as folder:
        copy, kept = pathlib.Path(folder) / name, pathlib.Path(folder) / "kept"
        shutil.copytree(CRATES / name, copy, ignore=shutil.ignore_patterns("out"))
        command = [*command_of(pathlib.Path(rt).resolve().parent.parent, name, words), "--incremental", kept]
        began = time.time()
        done = subprocess.run(command, cwd=copy, stdout=subprocess.PIPE, stderr=subprocess.STDOUT, text=True)
        seconds = seconds_by_part(name, began, kept)
    print(done.stdout.strip().split("\n")[-1])
    total = sum(it.total() for it in seconds.values())
    for part, of_it in sorted(seconds.items(), key=lambda it: -it[1].total())[:SHOWN]:
        dearest = ", ".join(f"{kind} {of_kind:.1f}" for kind, of_kind in of_it.most_common(2) if kind)
        print(f"{of_it.total():7.1f} s {of_it.total() / total:6.1%}  {part}  {dearest}")
    return done.returncode


if __name__ == "__main__":
    sys.exit(main())
