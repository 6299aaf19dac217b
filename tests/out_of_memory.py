#!/usr/bin/env python3
"""Checks, by reading the code, what no contract can state: the program reports out of memory only if an
allocation failed, and a fault only if a device, a reader, a writer or a file failed.

Finds each place in the product crates that makes a value that means out of memory, and each place that makes a
value that means such a fault. tests/out_of_memory.txt lists these places, each with the reason why it may be
there. A place without a row is an error, and so is a row without a place. Code that only passes a value on, for
example by `?`, is not a place.

An allocation that requests more than any machine has fails too. So an allocation is a place unless its
arguments are only sums, products and parts of lengths and of small numbers. `usize::MAX` is a place too.

How the script reads: it leaves out comments, contracts, ghost items, attributes and declarations of types.
Patterns (left of `=>`, after `let` and `for`, in `|..|` and `matches!`), the heads of functions and impls,
imports, and operands of `==` make no value. Each other occurrence of a name below is a place. A place is
identified by its crate, file and function and by its context: the code from the function's first line to the
place, without the statements and blocks beside it. So the same code under another condition is another place.
"""
import collections
import pathlib
import re
import sys

TOP = pathlib.Path(__file__).resolve().parent.parent
TABLE = TOP / "tests" / "out_of_memory.txt"
PROGRAMS = ("planner", "auditor")
MEMORY, FAULT = "out of memory", "faults"

# Names of values, and of functions that always return one. The `ReadFault` of an instance is a type, not a
# variant, so it is not one of these.
VALUES = {
    MEMORY: re.compile(r"(.*::)?(AllocError|AllocFailed|OutOfMemory|OUT_OF_MEMORY|Dropped|dropped|print_out_of_memory)|[iu]size::MAX"),
    FAULT: re.compile(
        r"(.*::)?(DeviceFault|Failed|IoFault|InputFault|ReadFailure|WriteFault|NoFile|BadLength|InUse|FILE|ReadFailed|WriteFailed|SyncFailed|fault_of|not_read"
        r"|[A-Z]\w*::ReadFault|ErrorKind::\w+|Error(::[a-z]\w*)?)"
    ),
}
# Fields that mean it when they are set, and methods when they are called. Functions that return `None` for it.
MEMBERS = {"is_whole": MEMORY, "has_room": MEMORY, "has_failed": FAULT, "fail": FAULT, "fault": FAULT}
RETURN_NONE = {"read_once": FAULT, "write_once": FAULT, "retry": FAULT}
# Functions that allocate, and the arguments that they may have.
ALLOCATIONS = re.compile(r"(.*::)?(with_capacity|reserve|reserve_exact|resize)")
PLAIN = re.compile(r"(?!if$|match$|MAX$|MIN$|pow$|\d[\d_]{4})\w+|::|[.,()&+*/-]")

# A token, or text that is not one: a comment, or an import for clauses.
TOKEN = re.compile(
    r"""//[^\n]*|\bghost use [^;]*;|(b?"(?:\\.|[^"\\])*"|b?'(?:\\.|[^'\\])'|'?\w+|::|=>|->|==|!=|\|\||\.\.=?|\S)""", re.DOTALL
)
OPENERS, CLOSERS = set("([{"), set(")]}")
# The parts that are left out, by the opener of their block or by what ends them; and patterns, by what follows
# them.
LEFT_OUT_BLOCKS = {"requires": "{", "ensures": "{", "#": "["}
LEFT_OUT = {"ghost": {";", ","}, "type": {";"}, "enum": {";", "{"}, "struct": {";", "{"}}
PATTERNS = {"let": {"=", ";"}, "const": {"=", ";"}, "static": {"=", ";"}, "for": {"in"}}
# After a block, these continue the statement before it.
GOES_ON = {"=>", "else", "|", "@", ".", "?"}

Place = collections.namedtuple("Place", "kind function context")


def brackets(words):
    """Returns the closer of each opener, and for each token the opener that encloses it, or -1."""
    close, around, stack = {}, [], [-1]
    for number, word in enumerate(words):
        if word in CLOSERS:
            close[stack.pop()] = number
        around.append(stack[-1])
        if word in OPENERS:
            stack.append(number)
    return close, around


def end_of(words, close, number, ends):
    """Returns the first of these words from there on within the same brackets, or their closer."""
    while words[number] not in ends and words[number] not in CLOSERS:
        number = close.get(number, number) + 1
    return number


def code_of(words):
    """Returns the numbers of the tokens outside contracts, ghost items, attributes and declarations of types.
    """
    close, _ = brackets(words)
    number = 0
    while number < len(words):
        word = words[number]
        if word in LEFT_OUT_BLOCKS:
            number = close[words.index(LEFT_OUT_BLOCKS[word], number)] + 1
        elif word in LEFT_OUT:
            end = end_of(words, close, number, LEFT_OUT[word])
            number = close.get(end, end) + (words[end] not in CLOSERS)
        else:
            yield number
            number += 1


class Source:
    """The code of a file as tokens. Those that make no value are marked as quiet."""

    def __init__(self, text):
        found = [it for it in TOKEN.finditer(text) if it[1]]
        code = list(code_of([it[1] for it in found]))
        self.words = [found[number][1] for number in code]
        self.starts = [found[number].start() for number in code]
        self.spaced = [text[start - 1].isspace() for start in self.starts]
        self.close, self.around = brackets(self.words)
        self.open = {end: start for start, end in self.close.items()}
        self.quiet, self.names = set(), {}
        for number, word in enumerate(self.words):
            if number not in self.quiet:
                self.quiet.update(self.quiet_at(number, word))

    def quiet_at(self, number, word):
        """Returns the tokens that this one makes quiet. Records the name of a function or an impl by its body.
        """
        words, close = self.words, self.close
        if word == "=>":
            return range(self.start_of(self.open.get(number - 1, number - 1)), number)
        if word in ("fn", "impl", "trait"):
            body = end_of(words, close, number, {"{", ";"})
            head = re.sub(r"^(impl(<.*?>)?|trait) ", "", self.text(number, body))
            self.names[body] = words[number + 1] if word == "fn" else head
            return range(number, body)
        if word == "use":
            return [it for it in range(number, end_of(words, close, number, {";"})) if words[it + 1] != "as"]
        if word in PATTERNS:
            return range(number, end_of(words, close, number, PATTERNS[word]))
        if word == "matches" and words[number + 1] == "!":
            return range(number, close[number + 2])
        if word == "|" and words[number - 1] in OPENERS | {",", "=", "=>", "move", "return"}:
            return range(number, words.index("|", number + 1))
        return ()

    def start_of(self, number):
        """Returns the first token of the statement, arm or field that contains this one."""
        words, outer = self.words, self.around[number]
        while outer >= 0 and words[outer] != "{":
            number, outer = outer, self.around[outer]
        while number - 1 > outer:
            before = number - 1
            if words[before] in {";", ","} or words[before] == "}" and words[number] not in GOES_ON:
                break
            number = self.open.get(before, before)
        return number

    def text(self, number, end):
        """Returns these tokens on one line, with `{..}` for each block, so that the layout does not matter."""
        text = ""
        while number < end:
            word = self.words[number]
            if self.spaced[number] and text and text[-1] not in "([" and word not in {")", "]", ".", "?"}:
                text += " "
            if word == "{" and self.close[number] < end:
                word, number = "{..}", self.close[number]
            if word != "," or self.words[number + 1] not in CLOSERS:
                text += word
            number += 1
        return text

    def context_of(self, number, end):
        """Returns the names of the items that enclose a place, the outermost first, and its context in them."""
        names, context = [], []
        while number >= 0:
            start = self.start_of(number)
            if end in self.names:
                names.append(self.names[end])
            elif not names:
                context.append(self.text(start, end))
            number = end = self.around[start]
        return names[::-1], " { ".join(context[::-1])

    def kind_at(self, number, end):
        """Returns whether the name from `number` to `end` means out of memory or a fault, and where its row
        ends.
        """
        name, before, after = "".join(self.words[number:end]), self.words[number - 1], self.words[end]
        if {before, after} & {"==", "!="}:
            return None, end
        if ALLOCATIONS.fullmatch(name) and after == "(" and not all(PLAIN.fullmatch(it) for it in self.words[end : self.close[end]]):
            return MEMORY, self.close[end] + 1
        if name in MEMBERS and (after in {":", "="} or before + after == ".("):
            return MEMBERS[name], end_of(self.words, self.close, end, {",", ";"})
        if name == "None":
            return RETURN_NONE.get("".join(self.context_of(number, end)[0][-1:])), end
        return next((kind for kind, values in VALUES.items() if values.fullmatch(name)), None), end

    def places(self):
        """Returns each place: where its value begins, its kind, the names of the items that enclose it, and its
        context.
        """
        end = 0
        while end < len(self.words) - 1:
            number, end = end, end + 1
            while self.words[end] == "::" and re.match(r"\w", self.words[end + 1]):
                end += 2
            if end - 1 not in self.quiet and re.match(r"\w", self.words[number]):
                kind, last = self.kind_at(number, end)
                if kind:
                    yield self.starts[number], kind, *self.context_of(number, last)


def product_crates():
    """Returns the crates of the two programs, in the order of crates.txt."""
    lines = (TOP / "crates.txt").read_text(encoding="utf-8").splitlines()
    direct = {it.split(":")[0]: it.split(":")[1].split() for it in lines if ":" in it and not it.startswith("#")}
    reached, waiting = set(), list(PROGRAMS)
    while waiting:
        crate = waiting.pop()
        if crate in direct and crate not in reached:
            reached.add(crate)
            waiting += direct[crate]
    return [it for it in direct if it in reached]


def places_found():
    """Returns the position of each place in the product crates, in their order."""
    for crate in product_crates():
        top = TOP / "crates" / crate / "src"
        for path in sorted(top.rglob("*.rt")):
            text, module = path.read_text(encoding="utf-8"), path.relative_to(top).with_suffix("").parts
            for start, kind, names, context in Source(text).places():
                where = f"{path.relative_to(TOP)}:{text.count(chr(10), 0, start) + 1}"
                yield where, Place(kind, "::".join([crate, *module, *names]), context)


def places_known():
    """Returns the position of each row of the table. A list begins with its kind in brackets, the rows of a
    function with its name and the reason.
    """
    kind = function = None
    for number, line in enumerate(TABLE.read_text(encoding="utf-8").splitlines(), 1):
        if line.startswith("["):
            kind = line.strip("[]")
        elif line.startswith(" "):
            yield f"{TABLE.relative_to(TOP)}:{number}", Place(kind, function, line.strip())
        elif line and not line.startswith("#"):
            function = line.split(" | ")[0]


def main():
    found, known = list(places_found()), list(places_known())
    excess = collections.Counter(place for _, place in found)
    excess.subtract(place for _, place in known)
    unknown = [("not in the table", *row) for row in found if excess[row[1]] > 0]
    missing = [("no such place", *row) for row in known if excess[row[1]] < 0]
    for status, where, place in unknown + missing:
        print(f"{where}: {status}, {place.kind}: {place.function}: {place.context}")
    counts = collections.Counter(place.kind for _, place in found)
    result = f"{len(unknown)} without a row, {len(missing)} rows without a place" if unknown or missing else "each has its row"
    print(f"out_of_memory: {counts[MEMORY]} places that report out of memory, {counts[FAULT]} that report faults: {result}")
    return 1 if unknown or missing else 0


sys.exit(main())
