#!/usr/bin/env python3
"""Runs the commands of README as they are shown, each block in a folder of its own. Their output must be what
README shows after them, with `..` for lines that it leaves out. A trial compiles for minutes, so these blocks
run beside the rest of this test. The search that is killed must end with the plan of an uninterrupted one.
README's sheet of a van must be the beginning of the first sheet of the example of a day.

Then runs the blocks of the guides that no other test runs, as they are shown or with fewer steps. Each block of
commands in any document must be run here or by the test that is named in ELSEWHERE. No test runs the seeds on
two machines.

Needs the program that rt ci leaves.
"""
import os
import re
import shutil
import signal
import subprocess
import sys
import tempfile

# Python leaves no files beside the scripts.
sys.dont_write_bytecode = True
from planner import EXAMPLES, PROGRAM, README, TOP, blocks_of, expect, fail, holds, require_program, sheet_shown, skip, write  # noqa: E402

GUIDES = sorted((TOP / "docs").glob("*.md"))
# The beginnings of the guides' blocks that are run as they are shown.
AS_SHOWN = (
    "./planner audit lilim",
    "./planner explain lilim",
    "./planner load day.store",
    "./planner load sound.store",
    "./planner load step.store vrp examples/public/E-n51-k5.vrp 9",
    "./planner solve vrp examples/public/E-n51-k5.vrp 1000 1",
)
# The beginnings of the guides' blocks that other tests run, with these tests. No test runs the first one.
ELSEWHERE = {
    "seq 16 | parallel --sshlogin": "two machines",
    "seq 16 | parallel 'planner solve": "many.sh",
    "while read -r it cost": "published.sh",
    "./planner solve lilim:1000 lc101.txt": "published.sh",
    "now=600": "store.py",
    "cp day.store day.new": "store.py",
    "./planner instance day.store": "adopt.py",
    "echo print | ./planner run day.store": "adopt.py",
}
# The guide whose blocks tests/day.py runs.
OF_THE_DAY = TOP / "docs" / "DISPATCHING.md"


def check_blocks():
    """Checks that each block of the guides is run by a test."""
    run_here = [commands for commands, _ in used_blocks]
    for path in GUIDES:
        for commands, _ in blocks_of(path):
            if path != OF_THE_DAY and commands not in run_here and not commands.startswith(tuple(ELSEWHERE)):
                fail(f"no test runs the commands {commands!r} of {path.name}")


# The blocks of the guides that were looked up.
used_blocks = []


def block(first, steps="2000"):
    """Returns the commands of the guides' block that begins like this, with fewer steps, and the lines that are
    shown after it.
    """
    found = [it for path in GUIDES if path != OF_THE_DAY for it in blocks_of(path) if it[0].startswith(first)]
    expect(f"blocks that begin with {first!r}", len(found), 1)
    used_blocks.append(found[0])
    commands, shown = found[0]
    return re.sub(r"\b10+0000\b", steps or r"\g<0>", commands), shown


def run(folder, commands, statuses=(0,)):
    """Returns the output of these commands in the folder."""
    got = subprocess.run(["sh", "-c", commands], cwd=folder, capture_output=True, text=True)
    if got.returncode not in statuses:
        fail(f"{commands!r} ends with {got.returncode}: {got.stderr!r}")
    return got.stdout


def new_folder(above, name):
    """Makes a folder like the top of the repository, as far as commands need it."""
    folder = os.path.join(above, name)
    os.mkdir(folder)
    os.symlink(PROGRAM, os.path.join(folder, "planner"))
    os.symlink(TOP / "trial", os.path.join(folder, "trial"))
    os.symlink(EXAMPLES, os.path.join(folder, "examples"))
    return folder


def begin_readme(above):
    """Starts README's blocks, and returns each with its process and its folder."""
    begun = []
    for number, (commands, shown) in enumerate(blocks_of(README)):
        if "./trial " in commands and not shutil.which("rt"):
            skip("trials", "rt is not on PATH")
            continue
        folder = new_folder(above, f"block{number}")
        # A session of its own, so that it can be ended with all its children.
        process = subprocess.Popen(
            ["sh", "-c", commands], cwd=folder, start_new_session=True, stdin=subprocess.DEVNULL, stdout=subprocess.PIPE, stderr=subprocess.PIPE, text=True
        )
        begun.append((commands, shown, process, folder))
    return begun


def end_readme(begun):
    """Waits for README's blocks, and checks what they print."""
    for commands, shown, process, folder in begun:
        printed, errors = process.communicate()
        # `explain` ends with status 1 if the plan breaks a rule.
        if process.returncode not in (0, 1):
            fail(f"{commands!r} ends with {process.returncode}: {errors!r}")
        holds(commands, printed, shown)
        expect(f"{commands!r}: whether it is marked as not proved", "not yet proved" in errors, "./trial " in commands)
        if "night.store" in commands:
            stored = run(folder, "echo print | ./planner run night.store | sed '1d;$d'")
            run(folder, "./planner load whole.store vrp examples/public/E-n51-k5.vrp 1 && printf 'build\nanneal 0 1000000\n' | ./planner run whole.store")
            expect("the plan of a search that was killed", stored, run(folder, "echo print | ./planner run whole.store | sed '1d;$d'"))
    print(f"readme: README's {len(begun)} blocks of commands print what it shows")


def stop_readme(begun):
    """Ends the blocks that still run."""
    for _, _, process, _ in begun:
        if process.poll() is None:
            os.killpg(process.pid, signal.SIGTERM)
            process.wait()


def check_sheet(folder):
    """Checks the sheet of a van that README shows."""
    sheets = run(
        folder,
        "day=examples/day; $day/day.sh instance $day/settings.csv $day/orders.csv > day.txt && ./planner solve lilim day.txt 100000 > day.sol &&"
        " ./planner timetable lilim day.txt day.sol tabs > day.tabs && $day/day.sh sheets $day/settings.csv $day/orders.csv day.tabs",
    )
    holds("the sheet of a van", sheets.split("\f")[0], sheet_shown())
    print("readme: README's sheet is that of its day")


def copies(folder, names, ends):
    """Makes a folder of instances, each a copy of lc101."""
    os.mkdir(os.path.join(folder, "pdp_100"))
    for name in names:
        for end in ends:
            shutil.copy(EXAMPLES / f"lc101{end}", os.path.join(folder, "pdp_100", name + end))


def check_as_shown(folder):
    """Runs blocks as they are shown, and compares what they print."""
    for number, first in enumerate(AS_SHOWN):
        commands, shown = block(first, None)
        # An audit and `explain` end with status 1 if a rule is broken.
        holds(first, run(new_folder(folder, str(number)), commands, (0, 1)), shown)
    print(f"readme: {len(AS_SHOWN)} blocks of the guides print what is shown")


def check_killed(folder):
    """Checks the loop that kills a search: what is recovered is what was acknowledged, or one operation more."""
    *rounds, verdict = run(folder, block("./planner load kill.store", None)[0]).splitlines()[3:]
    for line in rounds:
        found = re.fullmatch(r"acknowledged (\d+), recovered (\d+)", line)
        if not found or not 0 <= int(found[2]) - int(found[1]) <= 256:
            fail(f"a search that was killed: {line}")
    expect("rounds", len(rounds), 4)
    expect("the plan of a search that was killed", verdict, "pass 0 10 829")
    print(f"readme: a search that was killed {len(rounds)} times, {rounds[-1]}")


def check_lists(folder):
    pairs = [("lc101", "lc101", "pass 0 10 829"), ("one-pair", "one-pair", "pass 0 1 20"), ("one-pair", "one-pair-reversed", "broken 5 route 1 place 1 stop 2")]
    pairs = [(f"examples/{instance}.txt", f"examples/{solution}.sol", answer) for instance, solution, answer in pairs * 3]
    write(os.path.join(folder, "pairs.txt"), "".join(f"{instance}\t{solution}\n" for instance, solution, _ in pairs))
    expect("parts of a list", run(folder, block("split -n l/4")[0]).splitlines(), ["\t".join(pair) for pair in pairs])
    print("readme: lists of audits")


def check_best_known(folder):
    os.mkdir(os.path.join(folder, "vrp"))
    costs = {"P-n16-k8": "450", "longer": "440", "wrong": "450"}
    for name, cost in costs.items():
        shutil.copy(EXAMPLES / "public" / "P-n16-k8.vrp", os.path.join(folder, "vrp", name + ".vrp"))
        solution = (EXAMPLES / "public" / "P-n16-k8.sol").read_text(encoding="ascii")
        write(os.path.join(folder, "vrp", name + ".sol"), solution.replace("Cost 450", "Cost 451") if name == "wrong" else solution)
    write(os.path.join(folder, "best.txt"), "".join(f"{name}\t{cost}\n" for name, cost in costs.items()) + "missing\t1\nbad\t828.94\n")
    # `audits` ends with its own status, but the block with that of its last command.
    printed = run(folder, block("awk -F'\\t' '{ printf \"vrp")[0]).splitlines()
    # 10 of 440 are 2.27 percent.
    expect("the mean gap", printed[0], "2 1.135")
    expect("other lines", [line.split("\t")[-1] for line in printed[1:-1]], ["broken 11 route 0 place 0 stop 0", "cannot read vrp/missing.vrp", "bad line"])
    expect("the sums", printed[-1], "2 0 900")
    with open(os.path.join(folder, "audited.txt"), encoding="utf-8") as file:
        expect("gaps", [line.split()[-1] for line in file if " gap " in line], ["0.00", "2.27"])
    print("readme: best-known costs")


def check_seeds(folder):
    """Checks the table over instances and seeds against the distance that each seed finds alone."""
    os.mkdir(os.path.join(folder, "vrp"))
    best = {"E-n51-k5": 521, "P-n16-k8": 450}
    for name in best:
        shutil.copy(EXAMPLES / "public" / f"{name}.vrp", os.path.join(folder, "vrp"))
    write(os.path.join(folder, "best.txt"), "".join(f"{name}\t{cost}\n" for name, cost in best.items()))
    printed = run(folder, block("seq 4 | xargs", "200")[0]).splitlines()
    wanted = []
    for name, cost in best.items():
        found = [int(run(folder, f"./planner solve vrp vrp/{name}.vrp 200 {seed} | tail -n 1").split()[1]) for seed in range(1, 5)]
        gap = sum(round(100 * (distance - cost) / cost, 2) for distance in found) / 4
        wanted.append(f"vrp/{name}.vrp 4 {sum(found) / 4:.1f} {min(found)} {gap:.2f}")
    expect("the table over seeds", printed, wanted)
    print("readme: instances and seeds")


def check_published(folder):
    """Checks the shown table of a whole set, made with fewer steps, without its steps, gaps, seconds and count."""
    os.symlink(TOP / "bench", os.path.join(folder, "bench"))
    commands, shown = block("bench/published.py --steps")
    printed = re.sub(r"\b2000 steps", "100000 steps", run(folder, commands))
    printed, *shown = (re.sub(r" +", " ", re.sub(r"-?\d+\.\d+|^\d+(?= of )", "N", text, flags=re.MULTILINE)) for text in [printed, *shown])
    holds("a whole set", printed.lstrip("\n"), shown)
    print("readme: published costs of a whole set")


def check_solves(folder):
    copies(folder, ["lc101", "lc102"], [".txt"])
    answers = run(folder, block("for it in pdp_100")[0]).splitlines()
    expect("a folder of instances", [line.split()[:4] for line in answers], [[f"pdp_100/{it}.txt", f"pdp_100/{it}.sol", "pass", "0"] for it in ("lc101", "lc102")])
    print("readme: solves")


def main():
    require_program()
    with tempfile.TemporaryDirectory() as above:
        begun = begin_readme(above)
        try:
            for check in [check_sheet, check_as_shown, check_killed, check_lists, check_best_known, check_published, check_solves, check_seeds]:
                check(new_folder(above, check.__name__))
            check_blocks()
            end_readme(begun)
        finally:
            stop_readme(begun)


main()
