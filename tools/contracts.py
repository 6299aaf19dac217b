#!/usr/bin/env python3
"""Lists the contracts of public functions that have changed since a commit: tools/contracts.py COMMIT [CRATE..]

Prints the public functions that are gone or new, those with changed parameters or clauses, each with its lines
before (-) and now (+), and the changed definitions that a public contract reaches, with one function that
reaches each. White space and comments don't count. Nothing is judged: whether a promise got weaker is for the
reader to decide. The status is 0 if nothing changed, else 1.
"""
import difflib
import pathlib
import re
import subprocess
import sys

TOP = pathlib.Path(__file__).resolve().parent.parent
# A public function, or one of a public trait or its impl, up to the line on which its body begins or its
# declaration ends.
FUNCTION = re.compile(r"^( *)(?:pub )?(?:const )?fn (\w+)(.*?)^\1?(?:\{\}?|[^\n]*;)$", re.M | re.S)
BLOCK = re.compile(r"^( *)(pub (?:trait|mod) \w+|impl\b[^\n{]*)", re.M)
DEFINES = re.compile(r"^ *(?:(?:abbrev|unfoldable|data|record|pub|private|module) )*([^\s:(]+)(?= [:({]|\s)", re.M)
NAME = re.compile(r"[^\s(){}\[\].,;:≡→λ∷+|]+")


def git(*words):
    return subprocess.run(["git", *words], cwd=TOP, check=True, capture_output=True, text=True).stdout


def files_at(commit):
    """Returns the sources and definitions of each crate, at a commit or, without one, in the working tree: path
    and text.
    """
    names = git("ls-tree", "-r", "--name-only", commit, "crates") if commit else git("ls-files", "-co", "--exclude-standard", "crates")
    for name in names.split("\n"):
        if re.fullmatch(r"crates/\w+/(src/.*\.rt|specs/.*\.antt)", name) and "/tests/" not in name:
            if commit:
                yield name, git("show", f"{commit}:{name}")
            elif (TOP / name).is_file():
                yield name, (TOP / name).read_text()


def plain(text):
    """Returns the text without comments, its white space as single blanks."""
    lines = (line for line in text.split("\n") if not re.match(r" *(--|//)", line))
    return " ".join(" ".join(lines).split())


def owner_at(text, place, indent):
    """Returns the type or trait whose block contains a function, if the function is indented."""
    if not indent:
        return ""
    blocks = [it for it in BLOCK.finditer(text, 0, place) if len(it[1]) < len(indent)]
    return re.sub(r"<.*?>|\bpub\b|\bimpl\b|\btrait\b", "", blocks[-1][2]).strip() + "::" if blocks else ""


def functions_of(path, text):
    """Returns each public function's name, and its signature with the clauses, one line each."""
    for found in FUNCTION.finditer(text):
        owner = owner_at(text, found.start(), found[1])
        is_public = found[0].lstrip().startswith("pub fn") or found[0].lstrip().startswith("pub const fn")
        if is_public or " for " in owner or re.search(r"^pub trait ", text, re.M) and owner and not is_public and "impl" not in owner:
            head, brace, _ = found[0].partition(" {\n")
            contract = head if brace and not re.search(r"\b(?:requires|ensures|ghost)\b", head) else found[0]
            clauses = re.split(r"(?=\brequires\b|\bensures\b|\bghost\b)", plain(contract))
            yield f"{path.split('/')[1]}::{owner}{found[2]}", [it.strip(" {}") for it in clauses]


def definitions_of(path, text):
    """Returns each definition's name and text. Blank lines separate definitions."""
    for block in re.split(r"\n\s*\n", text):
        body = "\n".join(line for line in block.split("\n") if not re.match(r"\s*(--|use )", line))
        found = DEFINES.search(body)
        if found:
            yield found[1], plain(body)


def crates_at(commit):
    """Returns each crate with itself and the crates that it depends on, from crates.txt."""
    text = git("show", f"{commit}:crates.txt") if commit else (TOP / "crates.txt").read_text()
    rows = (line.split("#")[0].partition(":") for line in text.split("\n"))
    return {name.split()[0]: [name.split()[0], *below.split()] for name, _, below in rows if name.strip()}


class Tree:
    """The contracts and definitions of a commit, or of the working tree."""

    def __init__(self, commit):
        self.functions, self.definitions, self.stands_on = {}, {}, crates_at(commit)
        for path, text in files_at(commit):
            if path.endswith(".rt"):
                for name, lines in functions_of(path, text):
                    self.functions.setdefault(name, []).extend(lines)
            else:
                for name, body in definitions_of(path, text):
                    self.definitions.setdefault((path.split("/")[1], name), set()).add(body)

    def found(self, crate, text):
        """Returns the definitions that a text of a crate names, each in the first crate that has it."""
        for word in set(NAME.findall(text)) - {"_"}:
            yield from [(it, word) for it in self.stands_on.get(crate, []) if (it, word) in self.definitions][:1]

    def reached(self, names):
        """Returns each definition that these functions reach, with one function that does."""
        by = {}
        for function in names:
            left = list(self.found(function.split("::")[0], " ".join(self.functions.get(function, []))))
            while left:
                one = left.pop()
                if one not in by:
                    by[one] = function
                    left += [it for body in self.definitions[one] for it in self.found(one[0], body)]
        return by


def main():
    if len(sys.argv) < 2:
        sys.exit(__doc__)
    commit, crates = sys.argv[1], set(sys.argv[2:])
    old, new = Tree(commit), Tree(None)
    asked = [name for name in sorted(old.functions.keys() | new.functions.keys()) if not crates or name.split("::")[0] in crates]
    told = 0
    for name in asked:
        before, now = old.functions.get(name, []), new.functions.get(name, [])
        if before != now:
            told += 1
            print(name if before and now else f"{name}: {'gone' if before else 'new'}")
            if before and now:
                lines = difflib.unified_diff(before, now, lineterm="", n=0)
                print("\n".join(f"    {line}" for line in lines if not line.startswith(("---", "+++", "@@"))))
    reached = old.reached([name for name in asked if name in old.functions])
    for one, function in sorted(reached.items()):
        if old.definitions[one] != new.definitions.get(one):
            told += 1
            print(f"definition {' '.join(one)}, which {function} reaches: {'reads otherwise' if one in new.definitions else 'gone'}")
    print(f"contracts: {len(asked)} functions, {len(reached)} definitions that they reach; {told} changed")
    return 1 if told else 0


if __name__ == "__main__":
    sys.exit(main())
