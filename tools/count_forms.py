#!/usr/bin/env python3
"""Lists the places of docs/DESIGN-PASS.md's points in the code of every crate, by text.

usage: count_forms.py [--places] [FOLDER]   prints a line for each kind of place, with its number; --places lists them too

FOLDER is the top of a tree (default: the one that this file lies in).
"""
import collections
import pathlib
import re
import sys

args = [a for a in sys.argv[1:] if a != "--places"]
show = "--places" in sys.argv
top = pathlib.Path(args[0]) if args else pathlib.Path(__file__).resolve().parent.parent
# The crates for C state the clauses of the calls that they export again, word for word.
EXPORTS = {"vmx_c", "probe_c", "probe_pairs_c"}

FN = re.compile(r"^( *)(?:pub(?:\([a-z]+\))? )?(?:const )?fn ([a-z_0-9]+)", re.M)


class Function:
    def __init__(self, crate, file, line, name, text):
        self.crate, self.file, self.line, self.name, self.text = crate, file, line, name, text
        head, _, body = text.partition("\n{\n") if "\n{\n" in text else text.partition("{")
        self.head, self.body = head, body

    @property
    def at(self):
        return f"{self.file}:{self.line} {self.name}"


def functions():
    for path in sorted(top.glob("crates/*/src/**/*.rt")):
        crate = path.relative_to(top / "crates").parts[0]
        if crate in EXPORTS:
            continue
        text = path.read_text()
        file = str(path.relative_to(top / "crates"))
        for m in FN.finditer(text):
            close = re.compile(r"^" + m.group(1) + r"(?:\}|    .*;)$", re.M).search(text, m.end())
            end = close.end() if close else len(text)
            yield Function(crate, file, text.count("\n", 0, m.start()) + 1, m.group(2), text[m.start():end])


def lines(pattern):
    rx = re.compile(pattern)
    for path in sorted(top.glob("crates/*/src/**/*.rt")):
        if path.relative_to(top / "crates").parts[0] in EXPORTS:
            continue
        for i, line in enumerate(path.read_text().splitlines(), 1):
            if rx.search(line) and not re.match(r"\s*(//|use |ghost use )", line):
                yield f"{path.relative_to(top / 'crates')}:{i} {line.strip()}"


def row(point, what, places):
    places = list(places)
    print(f"{point}  {what}: {len(places)}")
    if show:
        for p in places:
            print(f"       {p}")


fs = list(functions())

# 1
row("1a", "enums of the shape of Option or Result (by the names of their variants)", (
    f"{p.relative_to(top / 'crates')} {m.group(1)}"
    for p in sorted(top.glob("crates/*/src/**/*.rt"))
    for m in re.finditer(r"enum (\w+) \{\n(.*?)\n\}", p.read_text(), re.S)
    if re.search(r"^\s*(Refused|Bad|Padding|At|Default|None)\b", m.group(2), re.M)))
row("1b", "questions chained by the number of a no (or_else, both)", lines(r"\b(ask::)?(or_else|both)\("))
row("1c", "tests of a number that is 0 where there is none", lines(r"if (0 < (x|n|number)|number != 0|\w+\.num == 0) "))
row("1d", "a number beside a part or a value (number: &mut u32, num: u64, number: u32)", lines(r"^\s*(let mut )?(pub )?(number|num): (&mut )?(u32|u64)\b"))
row("1e", "constants of refusals' numbers", lines(r"const NO_[A-Z]+: u32"))

# 2: functions of one crate with one name, or names that differ in a number of bits, and the same code but for types and numbers.
def bare(f):
    s = f.body
    s = re.sub(r"\b(eight|ten|coded_ten)\b", "D", s)
    s = re.sub(r"\b([a-z_]+?)(8|10|16|32)\b", r"\1N", s)
    s = re.sub(r"\b[iu](8|16|32|64)\b", "T", s)
    s = re.sub(r"\b\d+\b", "#", s)
    s = re.sub(r"\b[a-z_0-9]+(::[a-z_0-9]+)+\b", lambda m: m.group(0).split("::")[-1], s)
    return re.sub(r"\s+", " ", s)


groups = collections.defaultdict(list)
for f in fs:
    stem = re.sub(r"_?(8|10|16|32)$", "", f.name)
    groups[(f.crate, stem)].append(f)
twins = []
for (crate, stem), group in sorted(groups.items()):
    for i, f in enumerate(group):
        for g in group[:i]:
            same_name = f.name == g.name and f.file != g.file
            numbered = f.name != g.name and re.sub(r"\d+", "", f.name) == re.sub(r"\d+", "", g.name)
            if (same_name or numbered) and (bare(f) == bare(g) or {"eight.rt", "ten.rt"} == {f.file.split("/")[-1], g.file.split("/")[-1]}):
                twins.append(f"{f.at} = {g.at}")
                break
row("2", "second halves of twins: one name (or one but for the bits) and one body but for types and numbers", twins)

# 3
row("3a", "while loops", lines(r"^\s*('[a-z]+: )?while "))
row("3b", "for loops over 0..n whose variable is an index", lines(r"^\s*('[a-z]+: )?for [a-z_]+ in 0(usize)?\.\."))

# 4
row("4", "functions that only cast", (f.at for f in fs if re.fullmatch(r"\s*\(?[a-z_.]+( as [a-z0-9]+)\)?\s*\}?\s*", f.body.strip().rstrip("}"))))

# 5: one fact in three or more contracts; parameters that stand together in three or more functions.
facts = collections.defaultdict(list)
for f in fs:
    for clause in re.findall(r"requires \{(.*?)\}\n", f.head + "\n", re.S):
        for part in re.split(r"×", clause):
            part = re.sub(r"^[\s(]+|[\s)]+$", "", part)
            part = re.sub(r"\s+", " ", part)
            if part:
                facts[part].append(f.at)
row("5a", "facts in the requires of three or more functions", (f"{k}: {len(v)}" for k, v in sorted(facts.items()) if len(set(v)) > 2))
together, alone = collections.defaultdict(list), collections.Counter()
for f in fs:
    if f.crate == "vmx":  # The calls for C.
        continue
    m = re.search(r"fn [a-z_0-9]+(?:<[^(]*>)?\((.*?)\)\s*(?:->|\n|\{|$)", f.head, re.S)
    if not m:
        continue
    params = [re.sub(r"\s+", " ", p).strip() for p in re.split(r",(?![^<\[(]*[>\])])", m.group(1)) if ":" in p]
    alone.update(params)
    for i, x in enumerate(params):
        for y in params[i + 1:]:
            together[(x, y)].append(f.at)
row("5b", "pairs of parameters that stand together in four or more functions, and mostly together", (
    f"{x}, {y}: {len(v)}" for (x, y), v in sorted(together.items()) if len(v) > 3 and 4 * len(v) >= 3 * max(alone[x], alone[y])))

# 6
row("6", "a place and a number of elements beside a buffer (at, n), or a length beside an array", (
    f.at for f in fs if re.search(r"\b(at|i|j|start): usize, (\w+: &(mut )?\[\w+\], )?(\w: usize, )?(n|len|end): usize", f.head)))

# 7
row("7", "matches that choose a step to run", (f"{f.at}" for f in fs if len(re.findall(r"^\s+Part::\w+ =>", f.body, re.M)) > 2))

# 8
answers = [(p, m.group(1)) for p in sorted(top.glob("crates/*/proofs/**/Answers.antt")) for m in re.finditer(r"^pub ([\w-]+) : goal\.", p.read_text(), re.M)]
print(f"8   answers: {len(answers)} in {len({p for p, _ in answers})} files; lines of proofs: {sum(len(p.read_text().splitlines()) for p in top.glob('crates/*/proofs/**/*.antt'))}")
