#!/usr/bin/env python3
"""Counts the instructions per step of the sources without their contracts, so that an idea can be measured a
minute after it was written, before any proof.

Everything that only the prover reads is removed from the crates that a search needs. rustc compiles the rest
with the small stand-ins in bench/without_contracts/, and callgrind counts steps 1,000 to 3,000 from the built
plan, with deviation 30. OTHER is as in `bench/search_speed.py`: it makes the instances, and is counted for
comparison if its final cost is the same. Another checkout can be named, to compare two versions. --keep FOLDER
keeps the compiled program there, to see where its instructions go.

    bench/without_contracts.py OTHER [--checkout PATH] [--keep FOLDER] [search|anneal] [STOPS..]
"""

import pathlib
import re
import subprocess
import sys
import tempfile

sys.dont_write_bytecode = True
from search_speed import SEED, TOP, output  # noqa: E402

CRATES = """plan_types nint_dist text_lines instance_read route_sched sol_text plan_audit slack_tables move_ops seeded_search
    anneal_search annealing_schedule fleet_reduction""".split()
STAND_INS = TOP / "bench" / "without_contracts"
SIZES = [100, 400, 1000]
DEVIATION = 30
FEW, MANY = 1_000, 3_000
FLAGS = ["--edition", "2021", "-O", "-A", "warnings", "-C", "embed-bitcode=yes"]
# Text that is replaced or removed.
RENAMED = {
    "std::alloc::": "kit::",
    "use indexmap::": "use kit::",
    "use rand_chacha::": "use kit::",
    "use memchr::": "use kit::",
    "use itoa::": "use kit::",
    "use log::": "use kit::",
    "vec![in alloc;": "kit::vec_in![",
    ".collect(alloc)": ".collect_in(alloc)",
    "use std::marker::Model;": "",
    "use thiserror::Error;": "",
    "use rand_core::SeedableRng;": "",
    "use rand_core::utils::NextWord;": "",
}


def end_of_block(text, start):
    """Returns the position after the brace that closes the one at `start`."""
    depth = 0
    for place in range(start, len(text)):
        depth += {"{": 1, "}": -1}.get(text[place], 0)
        if depth == 0:
            return place + 1
    raise ValueError("a brace is not closed")


def without_blocks(text, pattern, after=""):
    """Returns the text without each piece that begins with the pattern and a brace, up to the closing brace and
    the characters of `after` after it.
    """
    while found := re.search(pattern, text):
        end = end_of_block(text, found.end() - 1)
        while text[end] in after:
            end += 1
        text = text[: found.start()] + text[end:]
    return text


def without_comments(text):
    """Returns the text without comments."""
    return re.sub(r"(\"(?:\\.|[^\"\\])*\"|'(?:\\.|[^'\\])')|//[^\n]*", lambda found: found[1] or "", text)


def stripped(text):
    """Returns a Rattle file as Rust."""
    text = without_comments(text)
    text = re.sub(r"ghost use [^;]*;", "", text)
    text = re.sub(r"#!?\[tactic\((?:[^()\[\]]|\([^()]*\))*\)\]", "", text)
    text = re.sub(r"#\[(?:error\(\"[^\"]*\"\)|from|source)\]", "", text)
    text = without_blocks(text, r"impl(?:<[^>]*>)? Model for [^{]*\{")
    text = without_blocks(text, r"impl<T(?:: Drop)?> From<AllocFailed<T>> for [^{]*\{")
    text = without_blocks(text, r"(?:pub )?ghost [\w\-]+\s*[:=]\s*\{", after=" ;,")
    text = without_blocks(text, r"(?<!\w)(?:requires|ensures)\*?(?:\s+\w+)?\s*\{")
    text = re.sub(r"#\[derive\(([^)]*)\)\]", lambda found: f"#[derive({derives(found[1])})]", text)
    text = re.sub(r"\b(\w+): Drop\b", r"\1", text)
    for old, new in RENAMED.items():
        text = text.replace(old, new)
    return text


def derives(names):
    """Returns the derives that Rust knows."""
    return ", ".join(name for name in re.split(r",\s*", names.strip()) if name not in ("Drop", "Error", ""))


def compile_into(folder, checkout):
    """Compiles the stripped sources of a checkout, and returns the program."""

    def rustc(name, root, *flags):
        uses = [word for it in known for word in ("--extern", f"{it}={folder}/lib{it}.rlib")]
        command = ["rustc", "--crate-name", name, root, *FLAGS, *flags, *uses, "-L", folder, "--out-dir", folder]
        subprocess.run(list(map(str, command)), check=True)
        known.append(name)

    known = []
    rustc("kit", STAND_INS / "kit.rs", "--crate-type", "rlib")
    for name in CRATES:
        source = checkout / "crates" / name / "src"
        for file in source.rglob("*.rt"):
            target = (folder / name / file.relative_to(source)).with_suffix(".rs")
            target.parent.mkdir(parents=True, exist_ok=True)
            target.write_text("use kit::prelude::*;\n" + stripped(file.read_text()))
        rustc(name, folder / name / "lib.rs", "--crate-type", "rlib")
    rustc("main", STAND_INS / "main.rs", "-C", "lto=fat", "-C", "codegen-units=1")
    return folder / "main"


def counted(program, words):
    """Returns how many instructions a program takes, and the last cost that it prints."""
    command = ["valgrind", "--tool=callgrind", "--callgrind-out-file=/dev/null", *map(str, [program, *words])]
    got = subprocess.run(command, check=True, capture_output=True, text=True)
    return int(re.search(r"Collected : (\d+)", got.stderr)[1]), re.findall(r"cost (\d+ \d+ \d+)", got.stdout)[-1]


def per_step(program, word, kind, instance):
    """Returns instructions per step, and the cost at the end."""
    few, _ = counted(program, [word, kind, instance, FEW, SEED, DEVIATION])
    many, cost = counted(program, [word, kind, instance, MANY, SEED, DEVIATION])
    return (many - few) // (MANY - FEW), cost


def main():
    """Counts each kind at each size, compared with OTHER, and fails if a final cost differs."""
    words = sys.argv[1:]
    if not words:
        sys.exit(__doc__)
    other, words = pathlib.Path(words[0]).resolve(), words[1:]
    options = {"--checkout": TOP, "--keep": None}
    while words and words[0] in options:
        options[words[0]], words = pathlib.Path(words[1]).resolve(), words[2:]
    names = [word for word in words if not word.isdigit()] or ["search", "anneal"]
    sizes = [int(word) for word in words if word.isdigit()] or SIZES
    same = True
    with tempfile.TemporaryDirectory() as room:
        folder = options["--keep"] or pathlib.Path(room)
        folder.mkdir(parents=True, exist_ok=True)
        program = compile_into(folder, options["--checkout"])
        for word, kind, stops in [(word, kind, stops) for word in names for kind in ("lilim", "vrp") for stops in sizes]:
            instance = folder / f"{kind}-{stops}"
            instance.write_text(output(other, "gen", kind, stops, SEED))
            mine, cost = per_step(program, word, kind, instance)
            its, other_cost = per_step(other, word, kind, instance)
            verdict = "the same cost" if cost == other_cost else f"costs {cost} and {other_cost}"
            print(f"{word} {kind} {stops}: {mine}, OTHER {its}, ratio {its / mine:.2f}, {verdict}", flush=True)
            same = same and cost == other_cost
    sys.exit(not same)


if __name__ == "__main__":
    main()
