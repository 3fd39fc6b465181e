#!/usr/bin/env python3
"""Spells the repository's own definitions and lemmas as the kit spells its words: snake case (types and modules in camel case).

usage: python3 tools/respell.py [FOLDER]      FOLDER is the repository's root, else the current folder

It is run once, after the kit's port.py. It reads each name that a file of specs/ or proofs/ declares, spells it with underscores,
and writes that wherever the name stands: in .antt files, in the clauses and ghost imports of .rt files, in must-fail edits, in the
documents and in the scripts of tests/. Names of Rust items, strings, inputs and outputs stay. Of two names that fall together, a definition
and its law, the law gets `_lem`. A file that imports a name from a library keeps that name.
"""
import collections
import glob
import os
import re
import sys

ROOT = sys.argv[1] if len(sys.argv) > 1 else "."
WORD = r"[^\s(){}\[\].;,@\"«»:`]+"
DECLARED = re.compile(rf"(?m)^ *(?:(?:abbrev|unfoldable|pub|data|record|module) )*({WORD})(?: \{{[^{{}}\n]*\}})* :(?!:)")
USED = re.compile(r"\buse ([^\s;{]+)\{([^}]*)\}")
TOKEN = re.compile(rf"(?<![^\s(){{}}\[\].;,@\"«»:`]){WORD}")
# Names that the kit makes for a function's proof.
MADE = re.compile(r"^(Need-|Need_)|-spec$")


def files(*patterns):
    for pattern in patterns:
        yield from sorted(p for p in glob.glob(os.path.join(ROOT, pattern), recursive=True) if os.path.isfile(p) and "/out/" not in p)


def read(path):
    with open(path, encoding="utf-8") as f:
        return f.read()


def snake(name):
    return re.sub(r"(?<=[a-z0-9])[A-Z]", lambda m: "_" + m[0].lower(), name).replace("-", "_")


def own(module, crates):
    steps = module.split(".")
    return steps[0] == "Rattle" and len(steps) > 1 and steps[1] in crates


def main():
    crates = set(os.listdir(os.path.join(ROOT, "crates")))
    antt = list(files("crates/*/specs/**/*.antt", "crates/*/proofs/**/*.antt"))
    texts = {p: read(p) for p in antt}
    names = collections.Counter(m[1] for t in texts.values() for m in DECLARED.finditer(t) if not MADE.search(m[1]))
    together = collections.defaultdict(list)
    for name in names:
        if not name[0].isupper():
            together[snake(name)].append(name)
    new = {}
    for spelled, group in together.items():
        for name in group:
            new[name] = spelled
        if len(group) > 1:
            # The definition is in camel case, or, where port.py spelled it already, in snake case beside a law with dashes.
            camel = [n for n in group if re.search(r"[a-z0-9][A-Z]", n)] or [n for n in group if "-" not in n]
            for name in group:
                if name not in camel[:1]:
                    new[name] = spelled + "_lem"
    new = {a: b for a, b in new.items() if a != b}

    spelled = set(new.values()) | {n for n in names if snake(n) == n}

    def turned(text, kept, code, laws=True, earlier=False):
        """The text with each name spelled anew. In prose, names with dashes count only between backquotes.
        With `earlier`, names that port.py spelled already are known by their older spelling too."""

        def word(m):
            w = m[0]
            b = new.get(w)
            if b is None and earlier and not w[0].isupper() and snake(w) != w and snake(w) in spelled:
                b = snake(w)
            if b is None or w in kept or (not laws and b.endswith("_lem")):
                return w
            before = text[max(0, m.start() - 4):m.start()]
            if before.endswith("tie."):
                return w
            if not code and "-" in w and not (before.endswith("`") and text[m.end():m.end() + 1] == "`"):
                return w
            return b

        return TOKEN.sub(word, text)

    def kept_in(text):
        kept = set()
        for m in USED.finditer(text):
            if not own(m[1], crates):
                kept |= {w.split(" as ")[0].strip() for w in m[2].split(",")}
        return kept

    count = 0

    def write(path, old, text):
        nonlocal count
        if text != old:
            count += 1
            with open(path, "w", encoding="utf-8") as f:
                f.write(text)

    for p, t in texts.items():
        kept = kept_in(t)
        lines = []
        for line in t.split("\n"):
            code, dash, prose = line.partition("--") if re.match(r"\s*--|.*\s--\s", line) else (line, "", "")
            lines.append(turned(code, kept, True) + dash + turned(prose, kept, False, earlier=True))
        write(p, t, "\n".join(lines))
    for p in files("crates/*/src/**/*.rt"):
        t = read(p)
        kept = kept_in(t)
        lines = []
        for line in t.split("\n"):
            code, dash, prose = line.partition("//")
            clause = re.match(r"\s*(ghost use|requires|ensures|ghost|[(λ×→])|.*[≡≤×∷λ⊎→]", code)
            lines.append((turned(code, kept, True, laws=False) if clause else code) + dash + turned(prose, kept, False, earlier=True))
        write(p, t, "\n".join(lines))
    for p in files("crates/*/must-fail/*.edit"):
        t = read(p)
        write(p, t, turned(t, set(), True, laws="proofs/" in t, earlier=True))
    for p in files("*.md", "docs/*.md", "oracle/*.md", "bindings/rust/*.md", "tool/*.md", "tests/*.py"):
        t = read(p)
        # Of a document only names that no Rust of the repository has: between backquotes, or in camel case.
        write(p, t, turned(t, set(), False, laws=False, earlier=True))
    print(f"respell: {len(new)} names, {count} files")
    # What to look at: a name whose new spelling stood in a file beside the old one.
    for p, t in texts.items():
        words = set(TOKEN.findall(re.sub(r"(?m)--.*$", "", t)))
        kept = kept_in(t)
        for a, b in new.items():
            if a in words and b in words and a not in kept:
                print(f"look: {os.path.relpath(p, ROOT)}: {a} beside {b}")


main()
