#!/usr/bin/env python3
"""Checks the names, links, tables and words of the documents against the tree.

1. Each name in code quotes is in the tree: a path exists, `Rules.IsLate` is declared in a Rules.antt, and a
   name with an underscore or a capital inside is declared in a source, except in PROVING.md, which names much
   of std's. Any other word occurs in a source.
2. Each crate of crates.txt is once in the table of layers of docs/ARCHITECTURE.md, in the order of crates.txt.
   Each crate of the two programs is in its picture.
3. Each .rt file begins with a line about its contents.
4. Each document is linked from README.md or from docs/ARCHITECTURE.md, and each link leads to an existing file
   and heading.
5. No paragraph has more than 90 words.
6. A name that is given with its place is declared there, not merely used, and not elsewhere. A place is a file
   or a crate:
   - after the name, in brackets: `Rules.IsLate` (plan_audit), `search_steps` and `continue_search`
     (`seeded_search/src/search.rt`)
   - before the name, in a table's cell: `plan_audit/src/scan.rt` `first_late`; a file name without a folder,
     for example `slow.rt`, means one beside it, or one in its specs/
   - in a column of the row with the header Crate, or in the heading above: for names in the columns Function,
     Definition or Begin with
   - in a column of the row with the header Code or Files: for definitions, and for names in the columns listed
     in PLACED
   - any file or crate of the row: for names in its other columns that can't be plain words, since they have an
     underscore or a capital inside
   A definition, and a name in another column, may be in a crate below. Declared means: a function, type,
   variant, field, constant or definition, and in the column of clauses a clause's label.
7. The manual page has the arguments of the program's help, in its synopsis and under a heading each, and the
   commands of a store.
8. No source, script or document has a word of REFUSED_WORDS, which have no right use here.
9. docs/INDEX.md is what tools/index.py writes: each of its names is declared where the page says.
"""
import functools
import pathlib
import re
import subprocess
import sys

THIS = pathlib.Path(__file__).resolve()
TOP = THIS.parent.parent
DOCUMENTS = sorted(TOP.glob("*.md")) + sorted((TOP / "docs").glob("*.md"))
MOST_WORDS = 90
SOURCES = {".rt", ".antt", ".edit", ".py", ".sh", ".txt", ".sol", ".vrp", ".1", ""}
# Spans that name nothing in the tree: commands of the kit, its name, and folders of an installation or an archive.
FOREIGN_SPANS = ("rt ", "rattle-kit", "PREFIX/", "bin/", "dist/")
# Words from outside the project: commands and terms of the system.
FOREIGN = {"PATH", "PREFIX", "xargs", "split", "parallel", "strace", "valgrind", "callgrind", "perf", "sha256sum", "rustc", "clang", "fdatasync", "fsync"}
# Names of crates that the project uses, and of what they and std declare.
OUTSIDE = {"AllocError", "WouldBlock", "next_word", "rand_chacha", "rand_core"}

# Words that have no right use here, with the plain word for each.
REFUSED_WORDS = {
    "behind": "after",
    r"wrong[ _-]bod(?:y|ies)": "mutant",
    r"wants?[ _-]of[ _-]memory": "out of memory",
    r"\banew\b": "again",
    r"\btold of\b": "reported",
    r"\blets? go of\b": "release",
    r"\bhanded on\b": "passed on",
    r"\bby rising\b": "in ascending order of",
    r"\blive requests?\b": "current request",
    r"\bgrowth (?:was|is) refused\b|\brefused growth\b": "an allocation failed",
}
REFUSED = re.compile("|".join(REFUSED_WORDS), flags=re.IGNORECASE)
# Allowed: answers and messages of the programs, since their bytes stay, in the code that prints them and wherever
# tests and documents show them; and an option of the kit.
KEPT_TEXTS = re.compile(
    r": behind stop\b|task @ stands behind task @|task 1 stands behind task 2|words stand behind -1"
    r"|behind the word routes no cost is asked|due behind Cost|as they do behind: sed|as it has none behind: grep"
    r"|--anew\b"
)
# Words are checked in these folders and in the files at the top, except in this file and in what is built.
PROSE_FOLDERS = ("bench", "crates", "docs", "examples", "man", "tests", "tools")
PROSE_KINDS = {".rt", ".antt", ".edit", ".md", ".py", ".sh", ".txt", ".1", ""}

FILE_NAME = r"[\w-]+\.(?:rt|antt|py|sh|md|edit|txt|sol|vrp|svg)"
# Table columns whose names are declared at the place of the row: in the files of a column with the header Code
# or Files, or in its crates.
PLACED = ("Of ", "Function", "`")
CLAUSES = "Clause, definition or law"
DEFINING = (CLAUSES, "Definition")
# Columns whose names have places of their own, or are crates.
OTHERS = ("Code", "File", "Test", "Crate", "Begin with")

problems = []


def complain(path, line, text):
    problems.append(f"{path.relative_to(TOP)}:{line}: {text}")


def sources():
    for path in TOP.rglob("*"):
        parts = path.relative_to(TOP).parts
        if not path.is_file() or path.suffix not in SOURCES or "out" in parts or parts[0] in (".git", "docs"):
            continue
        yield path


def words_of(text):
    return re.findall(r"[A-Za-z_][A-Za-z0-9_]*", text)


def read_tree():
    """Reads all words of the sources, the paths, and for each .antt file in specs/ the names that it declares.
    """
    words, paths, declared = set(FOREIGN), set(), {}
    for path in sources():
        inside = path.relative_to(TOP)
        paths.add(str(inside))
        words.update(inside.parts)
        words.update(words_of(str(inside)))
        text = path.read_text(encoding="utf-8", errors="replace")
        words.update(words_of(text))
        if path.suffix == ".antt" and "specs" in inside.parts:
            declared.setdefault(path.stem, set()).update(words_of(text))
    return words, paths, declared


def is_path(word, paths):
    if (TOP / word).exists() or (TOP / "crates" / word).exists():
        return True
    return any(it.endswith("/" + word) or f"/{word}/" in f"/{it}" for it in paths)


def check_name(path, line, span, words, paths, declared):
    if span.startswith(FOREIGN_SPANS):
        return
    if re.fullmatch(rf"[\w./*-]+/[\w.*-]*|{FILE_NAME}", span) and "*" not in span:
        if not is_path(span.rstrip("/"), paths):
            complain(path, line, f"no such file: {span}")
        return
    dotted = re.fullmatch(r"([A-Z]\w*)\.(\w+).*", span)
    if dotted and dotted[1] in declared and dotted[2] not in declared[dotted[1]]:
        complain(path, line, f"{dotted[1]}.antt has no {dotted[2]}")
        return
    for word in words_of(span):
        if len(word) > 2 and word not in words:
            complain(path, line, f"nothing has the name {word} (in `{span}`)")


def paragraphs(lines):
    """Returns paragraphs and list items, each as its lines with the number of the first one."""
    block, first = [], 0
    for number, line in enumerate(lines + [""], 1):
        stripped = line.strip()
        begins_item = re.match(r"([-*]|\d+\.)\s", stripped)
        ends = not stripped or stripped.startswith(("#", "|", "```", "<", "!["))
        if (ends or begins_item) and block:
            yield first, " ".join(block)
            block = []
        if not ends:
            if not block:
                first = number
            block.append(stripped.lstrip("> "))


def without_code(text):
    """Returns the lines, with those of fenced blocks blank."""
    lines, inside = [], False
    for line in text.split("\n"):
        fence = line.lstrip().startswith("```")
        lines.append("" if inside or fence else line)
        inside ^= fence
    return lines


def anchor(heading):
    plain = re.sub(r"[`*\[\]()]", "", heading.strip().lower())
    return re.sub(r"[^\w\- ]", "", plain).replace(" ", "-")


def anchors_of(path):
    lines = without_code(path.read_text(encoding="utf-8"))
    return {anchor(line.lstrip("#")) for line in lines if line.startswith("#")}


def check_links(path, number, line):
    for target in re.findall(r"\]\(([^)\s]+)\)", line):
        if re.match(r"[a-z]+:", target):
            continue
        name, _, at = target.partition("#")
        file = (path.parent / name).resolve() if name else path
        if not file.exists():
            complain(path, number, f"a link to nothing: {target}")
        elif at and file.suffix == ".md" and at not in anchors_of(file):
            complain(path, number, f"no such heading: {target}")


def check_document(path, words, paths, declared):
    lines = without_code(path.read_text(encoding="utf-8"))
    for first, block in paragraphs(lines):
        count = len(block.split())
        if count > MOST_WORDS:
            complain(path, first, f"a paragraph of {count} words")
    for number, line in enumerate(lines, 1):
        check_links(path, number, line)
        for span in re.findall(r"`([^`]+)`", line):
            check_name(path, number, span.strip(), words, paths, declared)
            if path.name != "PROVING.md" and is_code(span) and not re.fullmatch(FILE_NAME, span):
                for name in set(words_of(span)) - declared_anywhere():
                    complain(path, number, f"nothing declares {name} (in `{span}`)")


def crates():
    for line in (TOP / "crates.txt").read_text(encoding="utf-8").splitlines():
        if line.strip() and not line.startswith("#"):
            name, _, below = line.partition(":")
            yield name, below.split()


def crates_below():
    """Returns for each crate itself and all crates that it depends on."""
    below = {}
    for name, direct in crates():
        below[name] = {name}.union(*(below[it] for it in direct if it in below))
    return below


BELOW = crates_below()
PRODUCT = BELOW["planner"] | BELOW["auditor"]
# The names of the files with definitions.
MODULES = {it.stem for it in TOP.glob("crates/*/specs/*.antt")}


def bodies(text, kind):
    return "\n".join(re.findall(rf"^(?:pub(?:\(crate\))? )?{kind} \w+[^;{{]*\{{(.*?)^\}}", text, flags=re.MULTILINE | re.DOTALL))


def declared_in_rust(text):
    text = re.sub(r"//.*", "", text)
    names = set(re.findall(r"\b(?:fn|struct|enum|trait|const|static|type|ghost)\s+(\w+)", text))
    names.update(re.findall(r"^    ([A-Z]\w*)\b", bodies(text, "enum"), flags=re.MULTILINE))
    names.update(re.findall(r"^    (?:pub(?:\(crate\))? )?(\w+):", bodies(text, "struct"), flags=re.MULTILINE))
    return names


def declared_in_specs(text):
    return set(re.findall(r"^ *(?:(?:abbrev|unfoldable|pub|record|data|mod) )*(\w+)(?: *[:({]| where| =|$)", text, flags=re.MULTILINE))


def declared_in_python(text):
    return {one or other for one, other in re.findall(r"^\s*(?:def|class) (\w+)|^(\w+)(?: =|, )", text, flags=re.MULTILINE)}


@functools.lru_cache(maxsize=None)
def declared_at(file):
    text = file.read_text(encoding="utf-8")
    readers = {".rt": declared_in_rust, ".antt": declared_in_specs, ".py": declared_in_python}
    return readers.get(file.suffix, lambda text: set(words_of(text)))(text)


@functools.lru_cache(maxsize=None)
def labels_at(file):
    """Returns the labels of the clauses, for each function of a file and for each type with methods; functions
    with the same name together.
    """
    labels, owner = {}, None
    begins = r"\bfn (\w+)|^(?:impl\b[^{;]*?|pub trait )(\w+)(?:<[^{]*>)? *(?:: \w+ *)?\{|^\}"
    parts = re.split(begins, file.read_text(encoding="utf-8"), flags=re.MULTILINE)
    for name, kind, text in zip(parts[1::3], parts[2::3], parts[3::3]):
        owner = owner if name else kind
        for each in {name, owner} - {None}:
            found = re.findall(r"^\s*(?:ensures|requires) (\w+) \{", text, flags=re.MULTILINE)
            labels.setdefault(each, set()).update(found)
    return labels


@functools.lru_cache(maxsize=None)
def files_of(crate):
    folder = TOP / "crates" / crate
    return tuple(sorted(folder.glob("src/**/*.rt")) + sorted(folder.glob("specs/*.antt")))


def definitions_below(crate):
    return [it for each in BELOW[crate] for it in sorted((TOP / "crates" / each / "specs").glob("*.antt"))]


def crate_of(file):
    parts = file.relative_to(TOP).parts
    return parts[1] if parts[0] == "crates" else None


def file_at(span, beside=None):
    """Returns the file of a path. A name without a folder means the file beside another file, in the specs of
    its crate, or at the top.
    """
    folders = [TOP, TOP / "crates"]
    if beside and "/" not in span:
        folders = [beside.parent, TOP]
        if crate_of(beside):
            folders.insert(1, TOP / "crates" / crate_of(beside) / "specs")
    for folder in folders:
        if (folder / span).is_file():
            return folder / span
    return None


def has_file(crate, span):
    """Returns whether the crate has the file, in src/, in specs/ or by its path from the crate's folder."""
    return any((TOP / "crates" / crate / folder / span).is_file() for folder in ("src", "specs", ""))


def place_of(span):
    """Returns the files in which to look for a name with this place: those of a crate, or those at the end of a
    path.
    """
    if span in BELOW:
        return files_of(span)
    file = file_at(span)
    if file:
        return (file,)
    return tuple(it for crate in BELOW for it in files_of(crate) if str(it).endswith("/" + span)) or None


@functools.lru_cache(maxsize=None)
def declared_anywhere():
    """Returns all declarations of the sources, with the labels of clauses and the names of files, and the
    declarations outside.
    """
    names = FOREIGN | OUTSIDE | set(BELOW)
    for file in sources():
        if file.suffix in (".rt", ".antt", ".py", ".sh"):
            names |= declared_at(file) | {file.stem}
        if file.suffix == ".rt":
            names.update(*labels_at(file).values())
    return names


def names_in(span):
    """Returns the names of a span, for example `best` and `Tables` for `Tables::best`. A command with its
    arguments names nothing.
    """
    span = re.sub(r"\(.*\)$", "", span)
    return [] if re.search(r"[^\w.:]", span) else [it for it in words_of(span) if len(it) > 1]


def expect_declared(path, line, span, files, where):
    """Checks that each name of the span is declared in one of the files. `Rules.IsLate` must be declared in one
    that is called Rules.antt. A file must be one of them.
    """
    if re.fullmatch(FILE_NAME, span):
        if not any(it.name == span for it in files):
            complain(path, line, f"{where} has no {span}")
        return
    dotted = re.fullmatch(r"([A-Z]\w*)\.(\w+)", span)
    names = names_in(span)
    if dotted and dotted[1] in MODULES:
        files = [it for it in files if it.name == dotted[1] + ".antt"]
        names = [dotted[2]]
    for name in names:
        if not any(name in declared_at(it) for it in files):
            complain(path, line, f"{where} declares no {name} (of `{span}`)")


def check_bracketed(path):
    """Checks that each name before places in brackets is declared at one of them. Commas, connecting words and
    a line break may come between.
    """
    text = "\n".join(without_code(path.read_text(encoding="utf-8")))
    joined = r"`[^`]+`(?:;|,)?\s(?:(?:and|or|then)\s)?"
    for run in re.finditer(rf"((?:{joined})+)\((`?[\w./]+`?(?:, `?[\w./]+`?)*)\)", text):
        spans = [it.strip("`") for it in run[2].split(", ")]
        places = [place_of(it) for it in spans]
        if None in places:
            continue
        files = [it for place in places for it in place]
        line = text[: run.start()].count("\n") + 1
        for span in re.findall(r"`([^`]+)`", run[1]):
            expect_declared(path, line, span, files, run[2])


def tables(path):
    """Returns for each row its line, the heading above, and its cells by the header of their column."""
    heading, header = "", None
    lines = without_code(path.read_text(encoding="utf-8"))
    for number, line in enumerate(lines, 1):
        if line.startswith("#"):
            heading = line
        if not line.strip().startswith("|"):
            header = None
            continue
        cells = [it.strip() for it in re.split(r"(?<!\\)\|", line.strip().strip("|"))]
        if header is None:
            header = cells
        elif not set(line) <= set("|-: "):
            yield number, heading, dict(zip(header, cells))


def spans_of(cell):
    return re.findall(r"`([^`]+)`", cell)


def check_cell(path, line, cell):
    """Checks that a name directly after a file is declared there. Returns the files of the cell."""
    files, place, end = [], None, 0
    for span in re.finditer(r"`([^`]+)`", cell):
        between = cell[end: span.start()]
        if place and not re.fullmatch(r",? " if len(place) == 1 else r": |, ", between):
            place = None
        end = span.end()
        found = file_at(span[1], files[-1] if files else None) if re.search(r"[./]", span[1]) else None
        if found:
            place = [found]
            files.append(found)
        elif files and crate_of(files[-1]) and re.fullmatch(FILE_NAME, span[1]):
            complain(path, line, f"no {span[1]} beside {files[-1].relative_to(TOP)}")
        elif span[1] in BELOW and cell[end:].startswith(": "):
            place = files_of(span[1])
        elif place:
            expect_declared(path, line, span[1], place, str(place[0].relative_to(TOP)) if len(place) == 1 else crate_of(place[0]))
    return files


def labels_of(crates, functions):
    """Returns the labels of the clauses of the functions and types that a text names."""
    files = [it for each in crates for it in files_of(each) if it.suffix == ".rt"]
    names = {words_of(it)[-1] for it in spans_of(functions) if words_of(it)}
    return set().union(*(labels_at(it).get(name, set()) for it in files for name in names))


def is_code(span):
    """Returns whether a span is a name that can't be a plain word: it has an underscore, or a capital inside.
    """
    return bool(re.fullmatch(r"\w+(?:(?:\.|::)\w+)?", span)) and bool(re.search(r"\w_\w|[a-z][A-Z]|::", span)) and span not in BELOW


def crates_named(text):
    return [it for it in spans_of(text) if it in BELOW]


def sources_of(crates):
    """Returns the sources in which names of these crates, and of those below them, are declared."""
    return [it for each in sorted(set().union(*(BELOW[crate] for crate in crates))) for it in files_of(each)]


def check_row(path, line, heading, row):
    cells = {header: check_cell(path, line, cell) for header, cell in row.items()}
    files = [it for header, found in cells.items() if header.startswith(("Code", "File")) for it in found]
    crates = crates_named(row.get("Crate", "") + row.get("Crates", "")) or crates_named(heading)
    homes = sorted(set(crates or [crate_of(it) for it in files if crate_of(it)]))
    labels = labels_of(crates, row.get("Function", "") + row.get(CLAUSES, ""))
    for header, cell in row.items():
        for span in spans_of(cell):
            if header == "Begin with" and not any(has_file(each, span) for each in crates):
                complain(path, line, f"{crates[0]} has no {span}" if crates else f"there is no crate for {span}")
            elif (header.startswith(PLACED) or header == "Crates" and span not in BELOW) and (files or crates):
                places = files or [it for each in crates for it in files_of(each)]
                expect_declared(path, line, span, places, "the row's place")
            elif header in DEFINING and homes and not (header == CLAUSES and span in labels):
                places = [it for each in homes for it in (*files_of(each), *definitions_below(each))]
                expect_declared(path, line, span, places, f"{homes[0]}, or a crate below,")
            elif not header.startswith((*OTHERS, *DEFINING)) and homes and is_code(span):
                expect_declared(path, line, span, sources_of(homes + crates_named(cell)), f"{homes[0]}, or a crate below,")


def check_crates():
    path = TOP / "docs" / "ARCHITECTURE.md"
    text = path.read_text(encoding="utf-8")
    section = text.partition("## Layers")[2].partition("\n## ")[0]
    listed = re.findall(r"^\| `(\w+)` \|", section, flags=re.MULTILINE)
    if listed != list(BELOW):
        differing = sorted(set(listed) ^ set(BELOW)) or "the order differs"
        complain(path, 1, f"the crates of the layers are not those of crates.txt: {differing}")
    picture = words_of(text.partition("## Picture")[2].split("```")[1])
    for crate in sorted(PRODUCT - set(picture)):
        complain(path, 1, f"the picture lacks {crate}")


def check_heads():
    for path in sorted((TOP / "crates").glob("*/src/**/*.rt")):
        if not path.read_text(encoding="utf-8").startswith("//!"):
            complain(path, 1, "does not begin with what it holds")


def check_linked():
    readme = (TOP / "README.md").read_text(encoding="utf-8")
    map_page = (TOP / "docs" / "ARCHITECTURE.md").read_text(encoding="utf-8")
    for path in DOCUMENTS:
        name = str(path.relative_to(TOP))
        if name != "README.md" and f"]({name}" not in readme and f"]({path.name}" not in map_page:
            complain(path, 1, "neither README.md nor docs/ARCHITECTURE.md has a link to it")


def check_manual():
    path = TOP / "man" / "planner.1"
    synopsis, _, commands = path.read_text(encoding="utf-8").partition(".SH COMMANDS")
    printed = (TOP / "crates" / "cli_tests" / "stdout").read_text(encoding="utf-8")
    words = re.findall(r"^  (\w+) ", printed.partition("\nCommands:\n")[2].partition("\n\n")[0], flags=re.MULTILINE)
    shown = list(dict.fromkeys(re.findall(r"^\.B planner (\w+)", synopsis, flags=re.MULTILINE)))
    if sorted(shown) != sorted(words):
        complain(path, 1, f"the synopsis has other words than help: {sorted(set(shown) ^ set(words))}")
    first = "  load KIND "
    lines = first + printed.partition("\n" + first)[2].partition("\n\n")[0]
    commands_of_help = {name for line in lines.splitlines() for name in re.findall(r"(?:^  |, )([a-z]\w*)", line[:28])}
    if len(commands_of_help) < 20:
        complain(path, 1, f"help has only these commands of a store: {sorted(commands_of_help)}")
    for word in sorted({*words, *commands_of_help}):
        if not re.search(rf'^\.(?:B|BI|BR) "?(?:[^"\n]*, )?(?:" ", )?{word}\b', commands, flags=re.MULTILINE):
            complain(path, 1, f"it says nothing of {word}")


def check_words():
    folders = [TOP / it for it in PROSE_FOLDERS]
    files = [it for it in TOP.glob("*") if it.is_file()]
    files += [it for folder in folders for it in folder.rglob("*") if it.is_file()]
    for path in sorted(files):
        parts = path.relative_to(TOP).parts
        # bench/runs/ has outputs of programs as they were at the time.
        if path.suffix not in PROSE_KINDS or "out" in parts or parts[:2] == ("bench", "runs") or path == THIS:
            continue
        for number, line in enumerate(path.read_text(encoding="utf-8", errors="replace").split("\n"), 1):
            for found in sorted(set(REFUSED.findall(KEPT_TEXTS.sub("", line)))):
                plain = next(it for word, it in REFUSED_WORDS.items() if re.fullmatch(word, found, flags=re.IGNORECASE))
                complain(path, number, f"the word {found!r}: write {plain!r}")


def check_index():
    """Checks that docs/INDEX.md is the page that tools/index.py writes from the tree."""
    path = TOP / "docs" / "INDEX.md"
    done = subprocess.run([TOP / "tools" / "index.py", "--check"], capture_output=True, text=True)
    if done.returncode:
        for line in (done.stdout + done.stderr).splitlines()[:-1] or ["tools/index.py failed"]:
            complain(path, 1, line)


def main():
    words, paths, declared = read_tree()
    for path in DOCUMENTS:
        check_document(path, words, paths, declared)
        check_bracketed(path)
        for row in tables(path):
            check_row(path, *row)
    check_crates()
    check_heads()
    check_linked()
    check_manual()
    check_words()
    check_index()
    for it in problems:
        print(it)
    print(f"docs: {len(DOCUMENTS)} documents, {len(problems)} faults")
    return 1 if problems else 0


if __name__ == "__main__":
    sys.exit(main())
