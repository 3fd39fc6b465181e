#!/usr/bin/env python3
"""Lists places of docs/DESIGN-PASS.md's points in another way than count_forms.py: by the tokens of every function.

usage: count_tokens.py [FOLDER]   lists them all

Loops are all `for`, `while` and `loop`, with what their variable is used for; twins are functions anywhere whose tokens are the same but for
names of values, types and numbers; parameters are taken by their names; casts are all `as`.
"""
import collections
import pathlib
import re
import sys

top = pathlib.Path(sys.argv[1]) if len(sys.argv) > 1 else pathlib.Path(__file__).resolve().parent.parent
EXPORTS = {"vmx_c", "probe_c", "probe_pairs_c"}
TOKEN = re.compile(r"//[^\n]*|\"(?:\\.|[^\"\\])*\"|'[a-z_]+\b(?!')|'(?:\\.|[^'])'|[A-Za-z_][A-Za-z_0-9]*|\d[\d_]*(?:[iu]\d+|usize)?|0x[0-9a-f]+|::|->|=>|\.\.=?|<<=?|>>=?|[-+*/%&|^=!<>]=|&&|\|\||\S")
KEEP = {"fn", "let", "mut", "if", "else", "for", "in", "while", "loop", "match", "return", "break", "continue", "as", "impl", "where", "const", "struct", "enum", "pub", "self", "Self", "Some", "None", "Ok", "Err"}


def closing(parts, at):
    """Where the brace closes that opens at `at`, in a text or in a list of tokens."""
    depth = 0
    for j in range(at, len(parts)):
        depth += (parts[j] == "{") - (parts[j] == "}")
        if depth == 0:
            return j
    return len(parts)


def strip_clauses(text):
    """Takes requires and ensures clauses, and ghost lines, away."""
    out, i = [], 0
    for m in re.finditer(r"^\s*(?:requires|ensures)(?: \w+)? \{", text, re.M):
        if m.start() >= i:
            out.append(text[i:m.start()])
            i = closing(text, m.end() - 1) + 1
    out.append(text[i:])
    return re.sub(r"^\s*(pub )?ghost [^\n]*\n", "", "".join(out), flags=re.M)


def functions():
    for path in sorted(top.glob("crates/*/src/**/*.rt")):
        crate = path.relative_to(top / "crates").parts[0]
        if crate in EXPORTS:
            continue
        text = strip_clauses(path.read_text())
        toks = [t for t in TOKEN.findall(text) if not t.startswith("//")]
        for i, t in enumerate(toks[:-1]):
            if t == "fn" and re.match(r"[a-z_]", toks[i + 1]):
                j, open_ = i + 2, 0
                while j < len(toks) and (open_ or toks[j] not in "{;"):
                    open_ += (toks[j] in "([") - (toks[j] in ")]")
                    j += 1
                if j < len(toks) and toks[j] == "{":
                    j = closing(toks, j)
                yield crate, str(path.relative_to(top / "crates")), toks[i + 1], toks[i:j + 1]


fs = list(functions())
print(f"functions: {len(fs)}")


def params(toks):
    i = toks.index("(")
    depth, cur, out = 0, [], []
    for t in toks[i:]:
        if t in "([<{":
            depth += 1
        if t in ")]>}":
            depth -= 1
            if depth == 0:
                break
        if t == "," and depth == 1:
            out.append(cur)
            cur = []
        elif depth >= 1 and not (t == "(" and depth == 1):
            cur.append(t)
    if cur:
        out.append(cur)
    return [(p[p.index(":") - 1], " ".join(p[p.index(":") + 1:])) for p in out if ":" in p]


def body(toks):
    i = toks.index("{") if "{" in toks else len(toks)
    return toks[i:]


print("\n1. enums, by their variants; structs with a bool; tuples with a bool or a number first")
for path in sorted(top.glob("crates/*/src/**/*.rt")):
    if path.relative_to(top / "crates").parts[0] in EXPORTS:
        continue
    t = path.read_text()
    for m in re.finditer(r"enum (\w+)(?:<[^>]*>)? \{\n(.*?)\n\}", t, re.S):
        names = re.findall(r"^\s{4}(\w+)", m.group(2), re.M)
        print(f"   enum {path.relative_to(top / 'crates')} {m.group(1)}: {' '.join(names)}")
    for m in re.finditer(r"struct (\w+)(?:<[^>]*>)? \{\n(.*?)\n\}", t, re.S):
        if re.search(r": bool", m.group(2)):
            fields = " ".join(re.findall(r"(\w+):", m.group(2)))
            print(f"   struct with a bool: {path.relative_to(top / 'crates')} {m.group(1)}: {fields}")
    for m in re.finditer(r"-> (?:Option<|Result<)?\((bool|u32|usize|u64)[^\n]*", t):
        print(f"   tuple: {path.relative_to(top / 'crates')} {m.group(0)[:90]}")

print("\n2. functions with the same tokens but for names and numbers (at least 16 of them)")
same = collections.defaultdict(list)
for crate, file, name, toks in fs:
    b = body(toks)
    if len(b) < 16:
        continue
    shape = " ".join(t if t in KEEP or not re.match(r"[A-Za-z_0-9]", t) else ("#" if t[0].isdigit() else "x") for t in b)
    same[shape].append((file, name, len(b)))
for shape, group in sorted(same.items(), key=lambda g: -g[1][0][2]):
    if len(group) > 1:
        print(f"   {group[0][2]} tokens: " + ", ".join(f"{f} {n}" for f, n, _ in group))

print("\n3. loops")
for crate, file, name, toks in fs:
    for i, t in enumerate(toks):
        if t in ("while", "loop") or t == "for" and i + 2 < len(toks) and "in" in toks[i:i + 6] and toks[i + 1] != "<":
            j = i
            while j < len(toks) and toks[j] != "{":
                j += 1
            inner = " ".join(toks[j:closing(toks, j)])
            var = toks[i + 1] if t == "for" else ""
            indexed = bool(var and re.search(r"\[ [^\]]*\b" + re.escape(var) + r"\b", inner))
            print(f"   {file} {name}: {' '.join(toks[i:j])}{'  (an index)' if indexed else ''}")

print("\n4. casts")
for crate, file, name, toks in fs:
    casts = [" ".join(toks[max(0, i - 1):i + 2]) for i, t in enumerate(toks) if t == "as"]
    if casts:
        print(f"   {file} {name}: {'; '.join(casts)}")

print("\n5. names of parameters that stand together in three functions or more of one crate")
pairs = collections.defaultdict(list)
for crate, file, name, toks in fs:
    if crate == "vmx":
        continue
    names = params(toks)
    for i, (a, ta) in enumerate(names):
        for b, tb in names[i + 1:]:
            pairs[(crate, f"{a}: {ta}", f"{b}: {tb}")].append(name)
for (crate, a, b), group in sorted(pairs.items()):
    if len(group) > 2:
        print(f"   {crate} ({a}, {b}): {' '.join(group)}")

print("\n6. a slice with a number of its elements beside it")
for crate, file, name, toks in fs:
    names = params(toks)
    if any("[" in t for _, t in names) and any(n in ("n", "len", "length", "count", "size", "end") for n, _ in names):
        print(f"   {file} {name}: {', '.join(f'{n}: {t}' for n, t in names)}")

print("\n7. matches with three arms or more, each a call")
for crate, file, name, toks in fs:
    s = " ".join(body(toks))
    for m in re.finditer(r"match [^{]* \{(.*?)\}", s):
        arms = re.findall(r"=> [a-z_:: ]+ \(", m.group(1))
        if len(arms) > 2:
            print(f"   {file} {name}: {len(arms)} arms")
