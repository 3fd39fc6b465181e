"""The definitions that must be believed: all that the contracts of the exported functions and demand 3 cite, name by name.

A definition reaches the names that are in its text and that its file defines or imports. A file counts where a name that
is reached is defined in it; of a file of code only the types count that definitions take apart.
"""
import re
from functools import lru_cache
from pathlib import Path

ROOT = Path(__file__).resolve().parent.parent
CRATES = ROOT / "crates"
EXPORTS = CRATES / "vmx_c/src"
STEPS = [CRATES / "vmx/proofs/Steps.antt", CRATES / "vmx/proofs/ReadSteps.antt"]
CLAIM = (CRATES / "slice/specs/Demand3.antt", "Demand3")

USE = re.compile(r"^(?:ghost |unfoldable )*(pub )?use (Rattle\.[^\s{]+?)(?:\.\{([^}]*)\}| as ([^\s;]+));?$", re.M)
HEAD = re.compile(r"(?:(?:abbrev|unfoldable|opaque|pub|data|record) )+([^\s:({]+)|([^\s:-]\S*) : ")
MEMBER = re.compile(r"  (?:pub )?([^:(){}=]+) : ")


@lru_cache(None)
def read(path):
    return path.read_text(encoding="utf-8")


def crate_of(path):
    return path.relative_to(CRATES).parts[0]


def crates_listed():
    """The crates of crates.txt, in its order: each after those that it lists."""
    return re.findall(r"^(\w+)(?: staticlib)?:", read(ROOT / "crates.txt"), re.M)


def clauses(text):
    """Each `requires` and `ensures` of Rattle code: the number of its first line, and its lines."""
    depth, first, taken = 0, 0, []
    for number, line in enumerate(text.split("\n"), 1):
        if not depth and not re.match(r"\s*(requires|ensures)\*?( \w+)? \{", line):
            continue
        if not depth:
            first, taken = number, []
        depth += line.count("{") - line.count("}")
        taken.append(line)
        if not depth:
            yield first, taken


def words_of(text):
    """The words of a text of definitions. One after a point is a field, or a name of the module before it: left out."""
    words = re.findall(r"\.?[^\s(){};,.λ]+", re.sub(r"--.*", "", text))
    return {word for word in words if not word.startswith(".")}


def spellings(name):
    """How a name is spelt in a text: an operator is imported as `◌▸◌` and used as `▸`."""
    return {name, name.strip("◌")} - {""}


class Definitions:
    """A file: the text of each definition, which definition a name belongs to, and what is taken from other files."""

    def __init__(self, path):
        self.text, self.owner, self.taken, self.handed_on = {}, {}, {}, set()
        for public, module, names, alias in USE.findall(read(path)):
            if not (CRATES / module.split(".")[1]).is_dir():
                continue # the library's
            for entry in filter(None, re.split(r",\s*", names.strip() or alias)):
                own, _, known = entry.partition(" as ")
                for name in spellings(known or own):
                    self.taken[name] = (module, own if names else None)
                    if public:
                        self.handed_on.add(name)
        current = None
        for line in USE.sub("", read(path)).split("\n"):
            head, member = HEAD.match(line), MEMBER.match(line)
            if head:
                current = head.group(1) or head.group(2)
                self.own(current, current)
            elif current and member:
                for name in member.group(1).split():
                    self.own(name, current)
            if current:
                self.text[current] = self.text.get(current, "") + line + "\n"

    def own(self, name, definition):
        for spelling in spellings(name):
            self.owner.setdefault(spelling, definition)


@lru_cache(None)
def definitions(path):
    return Definitions(path)


def defined_at(module, name):
    """Where a module's name (None: all of them) is defined: pairs of a file and a definition. What is handed on is followed.
    A contract of an exported function gives nothing here: it is looked at by itself."""
    _, crate, *words = module.split(".")
    if words[-1] == "Reads":
        return []
    if words[1] == "declared":
        *inside, kind = [word for word in words[2:] if word != "TheVariants"]
        return [(CRATES / crate / "src" / ("/".join(inside or ["lib"]) + ".rt"), kind)]
    path = CRATES / crate / ("/".join(words) + ".antt")
    known = definitions(path)
    if name is None:
        return [(path, definition) for definition in known.text]
    if name in known.owner:
        return [(path, known.owner[name])]
    if name in known.handed_on:
        return defined_at(*known.taken[name])
    raise SystemExit(f"documents: {path.relative_to(ROOT)} does not define {name}")


def cited_by_exports():
    """What the contracts of the exported functions cite."""
    for path in sorted(EXPORTS.glob("**/*.rt")):
        taken = definitions(path).taken
        for part in read(path).split("#[unsafe(no_mangle)]")[1:]:
            contract = "\n".join("\n".join(lines) for _, lines in clauses(part.split("\n{\n")[0]))
            for name in sorted(words_of(contract) & taken.keys()):
                yield from defined_at(*taken[name])


def cited_by(path, definition):
    if path.suffix == ".rt":
        return
    file = definitions(path)
    for word in words_of(file.text[definition]):
        if word in file.owner:
            yield path, file.owner[word]
        elif word in file.taken:
            yield from defined_at(*file.taken[word])


def believed():
    """All that is reached: of each file the definitions, and the files that they cite."""
    reached, cites = {}, {}
    waiting = [*cited_by_exports(), CLAIM]
    waiting += [(path, name) for path in STEPS for name in definitions(path).text]
    while waiting:
        path, name = waiting.pop()
        if name in reached.setdefault(path, set()):
            continue
        reached[path].add(name)
        cited = list(cited_by(path, name))
        cites.setdefault(path, set()).update(other for other, _ in cited)
        waiting += cited
    return reached, cites


def in_reading_order(cites):
    """Crate by crate as crates.txt has them, within a crate what is cited first."""
    crates, order = crates_listed(), []

    def put(path, above):
        if path in order or path in above:
            return
        for cited in sorted(cites[path]):
            if crate_of(cited) == crate_of(path):
                put(cited, above | {path})
        order.append(path)

    for path in sorted(cites, key=lambda path: (crates.index(crate_of(path)), path)):
        put(path, set())
    return order


def what_it_holds(path, names):
    """The first sentence of the comment that a file of definitions begins with; the types of a file of code."""
    if path.suffix == ".rt":
        return "of the code: " + ", ".join(f"`{name}`" for name in sorted(names))
    comment = re.match(r"(?:--.*\n)*", read(path)).group()
    return re.split(r"\.(?:\s|$)", re.sub(r"\s*-- ?", " ", comment).strip())[0]


def lines_of(path, names):
    if path.suffix == ".rt":
        types = re.findall(r"^pub (?:struct|enum) (\w+) \{\n(?:.*\n)*?\}\n", read(path), re.M)
        whole = re.findall(r"^pub (?:struct|enum) \w+ \{\n(?:.*\n)*?\}\n", read(path), re.M)
        return sum(text.count("\n") for name, text in zip(types, whole) if name in names)
    return read(path).count("\n")


def table():
    """The table of docs/TRUSTED.md."""
    reached, cites = believed()
    rows, before, total = ["| crate | file | lines | holds |", "|---|---|---|---|"], None, 0
    for path in in_reading_order(cites):
        crate, lines = crate_of(path), lines_of(path, reached[path])
        inside = path.relative_to(CRATES / crate).as_posix()
        rows.append(f"| {crate if crate != before else ''} | {inside} | {lines} | {what_it_holds(path, reached[path])} |")
        before, total = crate, total + lines
    crates = {crate_of(path) for path in cites}
    return "\n".join(rows + ["", f"Together {len(cites)} files in {len(crates)} crates, {total:,} lines."])
