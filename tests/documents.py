#!/usr/bin/env python3
"""Holds the documents to the tree.

    python3 tests/documents.py           says where they differ, and fails then; the gate runs it
    python3 tests/documents.py --write   writes the parts that are computed: the table of docs/TRUSTED.md, the
                                         column of edits of docs/PROMISES.md, the ranges of docs/SPEED.md and
                                         README.md
"""
import re
import sys
from functools import lru_cache
from itertools import zip_longest

sys.dont_write_bytecode = True

import trusted
from trusted import CRATES, EXPORTS, ROOT, clauses, crate_of, crates_listed, read

TRUSTED = ROOT / "docs/TRUSTED.md"
PROMISES = ROOT / "docs/PROMISES.md"
ARCHITECTURE = ROOT / "docs/ARCHITECTURE.md"
SPEED = ROOT / "docs/SPEED.md"
README = ROOT / "README.md"
DECISIONS = ROOT / "docs/DECISIONS.md"
# Pages that also name what was there before.
OF_BEFORE = {ROOT / "docs/PORT.md", ROOT / "docs/DESIGN-PASS.md"}
BEGIN, END = "<!-- computed by tests/documents.py --write -->\n", "\n<!-- computed up to here -->"
LONGEST = 160
NO_CRATE = {"std", "core", "u8", "u16", "u32", "u64", "usize", "i16", "i32", "crate"}


def named(path):
    return path.relative_to(ROOT).as_posix()


def with_computed(path, table):
    """The page with the table that is computed now."""
    before, rest = read(path).split(BEGIN)
    return before + BEGIN + table + END + rest.split(END)[1]


# ---- docs/TRUSTED.md


def trusted_page():
    return with_computed(TRUSTED, trusted.table())


# ---- docs/SPEED.md and README.md: the ranges are those of the table of docs/SPEED.md

CONTENTS = ("smooth", "mixed", "dense")


def ratios(form):
    """The ratios to the SSE2 path, lowest to highest, of the rows whose names begin so."""
    rows = [cells(line) for line in read(SPEED).split("\n") if line.startswith("| ")]
    found = sorted(row[3] for row in rows if re.match(form, row[0]))
    if not found:
        raise SystemExit(f"documents: docs/SPEED.md has no row that begins with {form}")
    return found[0] if found[0] == found[-1] else f"{found[0]} to {found[-1]}"


def blocks(done, depth, content):
    return ratios(rf"block (of a slice of three planes )?{done}, {depth}, {content}, ")


def speed_page():
    lines = ["| | " + " | ".join(CONTENTS) + " |", "|---|---|---|---|"]
    for name, done in ("Coding", "coded"), ("Reading", "read"):
        for depth in "8-bit", "10-bit":
            lines.append(f"| {name}, {depth} | " + " | ".join(blocks(done, depth, content) for content in CONTENTS) + " |")
    return with_computed(SPEED, "\n".join(lines))


def readme_page():
    smooth, mixed, dense = (blocks("read", ".*", content) for content in CONTENTS)
    said = (
        f"coding takes {blocks('coded', '.*', '.*')} of the time of the Rust's SSE2 path, reading {smooth} for smooth, "
        f"{mixed} for mixed and {dense} for dense planes, building a frame {ratios('that frame built')}"
    )
    page, times = re.subn(r"coding takes .*, building a frame [\d.]*\d", said, read(README))
    if times != 1:
        raise SystemExit(f"documents: README.md says {times} times what coding takes")
    return page


# ---- docs/PROMISES.md: the column of edits is made from the first lines of the edits


def cells(line):
    return [cell.strip() for cell in line.strip().strip("|").split("|")]


def promise_rows():
    """The rows of the tables whose last column is that of edits: the line's number, the names in the first cell, the last
    cell. A name without a path has the path of the name before it."""
    wanted = False
    for number, line in enumerate(read(PROMISES).split("\n")):
        if not line.startswith("|"):
            wanted = False
        elif cells(line)[-1] == "edits":
            wanted = True
        elif wanted and not line.startswith("|---"):
            names, path = [], ""
            for name in re.findall(r"`([^`\s]+)`", cells(line)[0]):
                path, _, last = name.rpartition("::") if "::" in name else (path, "", name)
                names.append(f"{path}::{last}" if path else last)
            yield number, names, cells(line)[-1]


def rows_of(name, crate, rows):
    """The rows that an edit's name means: a function of the edit's crate first, else one of another crate."""
    last = re.escape(name)
    for form in (f"{crate}::{last}", last, rf"{crate}::(\w+::)*{last}", rf"(\w+::)+{last}"):
        met = [number for number, names, _ in rows if any(re.fullmatch(form, other) for other in names)]
        if met:
            return met
    return []


def edits():
    return sorted(CRATES.glob("*/must-fail/*.edit"))


def functions_of(path):
    """The functions that an edit's first line names."""
    head = re.match(r"# (\S.*?): ", read(path))
    return head.group(1).split(", ") if head else []


def promises_page():
    """The page with its column of edits as the edits have it now, and what is wrong with it."""
    rows, problems = list(promise_rows()), []
    shown = {number: [] for number, _, _ in rows}
    for path in edits():
        for name in functions_of(path):
            met = rows_of(name, crate_of(path), rows)
            if len(met) != 1:
                problems.append(f"{named(path)}: {name} is in {len(met)} rows of docs/PROMISES.md")
            for number in met:
                shown[number].append(f"{crate_of(path)}/{path.stem}")
    lines = read(PROMISES).split("\n")
    for number, names, last in rows:
        if shown[number]:
            column = ", ".join(dict.fromkeys(shown[number]))
            lines[number] = "| " + " | ".join(cells(lines[number])[:-1] + [column]) + " |"
        elif not last.startswith("law") and not leads_to_edits(last, rows, shown):
            problems.append(f"docs/PROMISES.md:{number + 1}: no edit for {', '.join(names)}, and its cell is neither 'law' nor 'see `ROW`'")
    return "\n".join(lines), problems


def leads_to_edits(cell, rows, shown):
    """A cell 'see `ROW`' where that row has edits."""
    seen = re.match(r"see `([^`]+)`", cell)
    return bool(seen) and any(seen.group(1) in names and shown[number] for number, names, _ in rows)


# ---- the edits themselves


def edit_problems():
    for path in edits():
        lines = read(path).split("\n")
        if not re.match(r"# \S.*?: \S", lines[0]) or any(line.startswith("#") for line in lines[1:]):
            yield f"{named(path)}: it has to begin with one comment line, '# FUNCTION: the wrong answer'"
        wrong = text_not_met(path, lines)
        if wrong:
            yield f"{named(path)}: {wrong}"


def text_not_met(path, lines):
    """Each old text has to be in its file exactly once, after the earlier pairs of the edit."""
    texts, at, old = {}, None, ""
    for line in lines:
        if line.startswith("file: "):
            at = path.parent.parent / line[6:]
            if not at.is_file():
                return f"there is no file {line[6:]}"
            texts.setdefault(at, read(at))
        elif line.startswith("old: "):
            old = line[5:]
        elif line.startswith("new:"):
            times = texts[at].count(old) if at and old else 0
            if times != 1:
                return f"its old text is there {times} times: {old}"
            texts[at] = texts[at].replace(old, line[4:].removeprefix(" "))
            old = ""
    return None if texts else "it changes no file"


# ---- crates, and what the documents name


def crate_problems():
    listed = crates_listed()
    for folder in sorted(CRATES.iterdir()):
        if listed.count(folder.name) != 1:
            yield f"crates.txt lists crate {folder.name} {listed.count(folder.name)} times"
    for crate in listed:
        if not (CRATES / crate).is_dir():
            yield f"crates.txt lists {crate}, and there is no folder crates/{crate}"


def documents():
    return [path for path in sorted(ROOT.glob("**/*.md")) if not {"target", ".git"} & set(path.relative_to(ROOT).parts)]


def naming_problems():
    """Each crate, function and file that a document names is there."""
    for path in documents():
        if path in OF_BEFORE:
            continue
        for number, line in enumerate(read(path).split("\n"), 1):
            for wrong in [*missing_functions(line), *missing_files(line)]:
                yield f"{named(path)}:{number}: {wrong}"


def file_of(name):
    """The file in which a name of a crate has to be: that of its module, or of the module whose name is passed on there. A
    type's function is where the type is."""
    crate, *modules, last = name.split("::")
    if modules and modules[-1][0].isupper():
        modules.pop()
    file = CRATES / crate / "src" / ("/".join(modules or ["lib"]) + ".rt")
    handed = rf"^pub use crate::([\w:]+)::(?:{last}|\{{[^}}]*\b{last}\b[^}}]*\}});"
    passed_on = re.search(handed, read(file), re.M) if file.is_file() else None
    return file_of(f"{crate}::{passed_on.group(1)}::{last}") if passed_on else file


def missing_functions(line):
    for name in paths_in(line):
        file, last = file_of(name), name.split("::")[-1]
        if not file.is_file():
            yield f"`{name}`: there is no {named(file)}"
        elif not re.search(rf"\b(fn|struct|enum|trait|const|mod) {last}\b", read(file)):
            yield f"`{name}`: {named(file)} has no {last}"


def rows_not_met():
    """The functions of the tables of promises are there, also those that have their path from the name before."""
    for number, names, _ in promise_rows():
        for name in names:
            for wrong in missing_functions(f"`{name}`"):
                yield f"docs/PROMISES.md:{number + 1}: {wrong}"


def paths_in(text):
    """The names with a path that begins with a crate."""
    names = re.findall(r"(?<![\w:])([a-z_0-9]+(?:::\w+)+)", text)
    return [name for name in names if name.split("::")[0] not in NO_CRATE]


def trace_problems():
    """The traces of docs/ARCHITECTURE.md name the file of each function."""
    for number, line in enumerate(read(ARCHITECTURE).split("\n"), 1):
        columns = cells(line) if line.startswith("|") else []
        if len(columns) == 3 and columns[1].startswith("`"):
            files = {named(file_of(name)) for name in paths_in(columns[1])}
            said = set(columns[2].split(", "))
            if files and files != said:
                yield f"docs/ARCHITECTURE.md:{number}: the files of these functions are {', '.join(sorted(files))}"


def missing_files(line):
    for name in re.findall(r"(?<![\w./])(?:crates|docs|tests|oracle|tool|bindings)/[\w./*-]*[\w*]", line):
        if "target" not in name.split("/") and not any(ROOT.glob(name)):
            yield f"there is no {name}"


@lru_cache(None)
def words_of_crates():
    files = [*CRATES.glob("**/*.antt"), *CRATES.glob("**/*.rt")]
    return {word for file in files for word in re.findall(r"[\w'-]+", read(file))}


def unknown_names():
    """What a table of promises names is a word of the crates."""
    for number, line in enumerate(read(PROMISES).split("\n"), 1):
        for text in re.findall(r"`([^`]+)`", line) if line.startswith("|") else []:
            for word in set(re.findall(r"[^\W\d][\w'-]*", text)) - words_of_crates():
                yield f"docs/PROMISES.md:{number}: nothing is called {word}"


# ---- the exported functions


def exports_of(path):
    return re.findall(r"#\[unsafe\(no_mangle\)\]\s+pub extern \"C\" fn (\w+)", read(path))


def exported():
    return [name for path in sorted(EXPORTS.glob("**/*.rt")) for name in exports_of(path)]


def exports_without_edits():
    """Each exported function has a row in docs/PROMISES.md, and two edits or more name it."""
    known = {name for _, names, _ in promise_rows() for name in names}
    tried = [name for path in edits() for name in functions_of(path)]
    for name in exported():
        if name not in known:
            yield f"docs/PROMISES.md has no row for {name}"
        if tried.count(name) < 2:
            yield f"{name} is exported, and {tried.count(name)} edits name it: two are needed"


def stated(name, path):
    """A function from its name to its body, however it is laid out: parameters, result and clauses."""
    found = re.search(rf"\bfn ({name}\b.*?)\s\{{\n", read(path), re.S)
    return re.sub(r",(?=[)])", "", re.sub(r"\s+", "", found.group(1))) if found else None


SAMPLES = {"8": "u8", "10": "u16", "16": "u16"}


def stated_of_samples(name, path):
    """The same of an instance of a generic function: NAME8 is NAME of u8, NAME10 and NAME16 are NAME of u16."""
    bits = re.search(r"\d*$", name).group()
    whole = stated(name.removesuffix(bits), path) if bits in SAMPLES else None
    parameter = re.match(r"\w+<(?:('\w+),)?(\w+):\w+>", whole or "")
    if not parameter:
        return None
    life, kind = parameter.groups()
    rest = re.sub(rf"\b{kind}\b", SAMPLES[bits], whole[parameter.end():])
    return name + (f"<{life}>" if life else "") + rest


def exports_with_other_clauses():
    """An exported function of a crate NAME_c has the parameters and the clauses of the function of crate NAME that it calls,
    and its file takes the words of the clauses from the same places."""
    for crate in crates_listed():
        library = CRATES / crate.removesuffix("_c") / "src"
        for path in sorted((CRATES / crate / "src").glob("**/*.rt")):
            for name in exports_of(path):
                called = library / path.relative_to(CRATES / crate / "src")
                if not crate.endswith("_c") or not called.is_file() or stated(name, path) not in (stated(name, called), stated_of_samples(name, called)):
                    yield f"{named(path)}: {name} is not stated as in {named(called)}"
                elif not trusted.definitions(path).taken.items() <= trusted.definitions(called).taken.items():
                    yield f"{named(path)}: it takes a word from elsewhere than {named(called)} does"


# ---- contracts


def long_contract_lines():
    for path in sorted(CRATES.glob("*/src/**/*.rt")):
        for first, lines in clauses(read(path)):
            for number, line in enumerate(lines, first):
                if len(line) > LONGEST:
                    yield f"{named(path)}:{number}: a line of a contract has {len(line)} characters, more than {LONGEST}"


def differs(path, computed):
    """Where a page is not what is computed: its first line that differs."""
    pairs = zip_longest(read(path).split("\n"), computed.split("\n"), fillvalue="")
    for number, (line, wanted) in enumerate(pairs, 1):
        if line != wanted:
            yield f"{named(path)}:{number}: not as computed (python3 tests/documents.py --write): {wanted}"
            return


def too_long(path, words):
    count = len(read(path).split())
    if count > words:
        yield f"{named(path)} has {count} words, more than {words}"


def main(words):
    if words == ["--write"]:
        PROMISES.write_text(promises_page()[0], encoding="utf-8")
        TRUSTED.write_text(trusted_page(), encoding="utf-8")
        SPEED.write_text(speed_page(), encoding="utf-8")
        README.write_text(readme_page(), encoding="utf-8")
        read.cache_clear()
    page, problems = promises_page()
    problems += [*differs(PROMISES, page), *differs(TRUSTED, trusted_page()), *differs(SPEED, speed_page())]
    problems += differs(README, readme_page())
    problems += too_long(DECISIONS, 2500)
    problems += [*edit_problems(), *crate_problems(), *naming_problems(), *unknown_names(), *trace_problems()]
    problems += [*rows_not_met(), *exports_without_edits(), *exports_with_other_clauses(), *long_contract_lines()]
    problems = list(dict.fromkeys(problems))
    for problem in problems:
        print(f"documents: {problem}")
    print(f"documents: {len(problems)} problems" if problems else "documents: all as the tree has it")
    return 1 if problems else 0


if __name__ == "__main__":
    sys.exit(main(sys.argv[1:]))
