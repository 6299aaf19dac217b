"""What the tests of the built programs share: where the programs are, how they are run, and how a test fails or
is skipped.

A test imports what it needs. It first forbids compiled files, since Python would leave them beside the scripts:

    sys.dont_write_bytecode = True
    from planner import fail, require_program, run_program  # noqa: E402
"""
import os
import pathlib
import re
import shutil
import subprocess
import sys

TOP = pathlib.Path(__file__).resolve().parent.parent
PROGRAM = TOP / "crates" / "planner" / "out" / "planner"
AUDITOR = TOP / "crates" / "auditor" / "out" / "auditor"
EXAMPLES = TOP / "examples"
README = TOP / "README.md"
# The length of a store file.
STORE_BYTES = 4_326_400
# The name of the test that runs, with which each of its lines begins.
NAME = pathlib.Path(sys.argv[0]).stem
# A block of commands in a document, and the block after it if that shows the output.
BLOCK = re.compile(r"^```sh\n(.*?)^```\n(?:\n```\n(.*?)^```\n)?", re.MULTILINE | re.DOTALL)


def fail(text):
    """Prints why the test fails, and ends it with status 1."""
    sys.exit(f"{NAME}: {text}")


def expect(what, got, wanted):
    """Fails if a value is not the expected one."""
    if got != wanted:
        fail(f"{what}: {got!r}; wanted {wanted!r}")


def skip(part, reason):
    """Reports that the test, or this part of it, is skipped. `./test` lists these lines again at its end."""
    print(f"skipped: {NAME}{part and ', ' + part}, since {reason}")


def require_program(program=PROGRAM):
    """Fails if the program is not built."""
    if not os.access(program, os.X_OK):
        fail(f"{program} is not built: run rt ci, or ./planner once")


def can_trace():
    """Returns whether strace is there and may trace."""
    return bool(shutil.which("strace")) and not subprocess.run(["strace", "-o", os.devnull, "true"], capture_output=True).returncode


def run_program(*words, lines=b"", before=(), **more):
    """Runs the program with these arguments and this standard input, after the words of another command such as
    strace if there are any. Returns the completed process. Its output is bytes.
    """
    lines = lines.encode() if isinstance(lines, str) else lines
    return subprocess.run([*before, PROGRAM, *map(str, words)], input=lines, capture_output=True, **more)


def outcome(*words, **more):
    """Runs the program likewise, and returns its status, standard output and standard error, as texts."""
    got = run_program(*words, **more)
    return got.returncode, got.stdout.decode(), got.stderr.decode()


def run(store, lines, **more):
    """Returns the answers of `run` to these commands, after its first line `opened N`. Fails if the status is
    not 0.
    """
    status, text, errors = outcome("run", store, lines=lines, **more)
    first, _, rest = text.partition("\n")
    if status != 0 or not re.fullmatch(r"opened \d+", first):
        fail(f"run: status {status}, {first!r}, {errors[-200:]!r}")
    return rest


def commands_shown(beginning):
    """Returns the block of commands in README or in docs/ that begins like this. Fails unless there is exactly
    one.
    """
    texts = [path.read_text(encoding="utf-8") for path in [TOP / "README.md", *sorted((TOP / "docs").glob("*.md"))]]
    found = [block for text in texts for block in re.findall(r"(?ms)^```sh\n(.*?)^```$", text) if block.startswith(beginning)]
    if len(found) != 1:
        fail(f"{len(found)} blocks of commands in the documents begin with {beginning!r}")
    return found[0]


def blocks_of(path):
    """Returns the blocks of commands of a document, each with the lines that are shown after it, if there are
    any.
    """
    return [(commands, shown.splitlines()) for commands, shown in BLOCK.findall(path.read_text(encoding="utf-8"))]


def sheet_shown():
    """Returns the lines of the sheet of a van that README shows."""
    shown = re.findall(r"^```\n(Van 1: .*?)^```$", README.read_text(encoding="utf-8"), re.MULTILINE | re.DOTALL)
    expect("README's sheets", len(shown), 1)
    return shown[0].splitlines()


def holds(what, printed, shown):
    """Checks that the lines that a document shows were printed in this order, and no others between them except
    at `..`, which stands for any number of lines.
    """
    pattern = "".join("(?:.*\n)*?" if line == ".." else re.escape(line) + "\n" for line in shown)
    if not re.fullmatch(pattern, printed):
        fail(f"{what}: the document shows {shown}, and printed is {printed[:400]!r}")


def read(path):
    """Returns the bytes of a file."""
    with open(path, "rb") as file:
        return file.read()


def write(path, contents):
    """Writes a file with these bytes or this text."""
    with open(path, "wb") as file:
        file.write(contents.encode() if isinstance(contents, str) else contents)


# For tests in sh: prints the block of commands that begins like the argument.
if __name__ == "__main__":
    print(commands_shown(sys.argv[1]), end="")
