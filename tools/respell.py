#!/usr/bin/env python3
"""Brings the names of this repository's definitions and lemmas to the library's spelling: words in snake case, a dash only between two
names, types in upper camel case. Run once, after the kit's port.py, at the top of the repository.

usage: respell.py          rewrites crates/, and writes the table of names to tools/respelled.tsv
       respell.py --check  only says which names would fall together
"""

import os
import re
import sys

NAME = r'[^\s(){}.;,@«»"`]+'
TOKEN = re.compile(NAME)
DECLARED = re.compile(
    r'^([ \t]*)(?:(?:pub|abbrev|unfoldable|data|record) )*([^\s(){}:.;,@"«»`]+)(?: *(?:\{[^{}\n]*\}|\([^()\n]*\)))* :(?= |$)', re.M
)
BLOCK = re.compile(r"^([ \t]*)(?:pub )?(?:record|data) ")
BINDER = re.compile(r"[({]((?:[^\s(){}:.;,@«»\"]+ )+): ")
OURS = re.compile(r"use (?:Rattle\.(?:std|core)|mathlib|Prim|native|lib|borrow)[^\n{]*(\{[^}]*\})?( as \S+)?")
# Words of the library that a lemma's name may join by a dash.
WORDS = set("length get_or set take drop map append filter add sub mul div mod pow suc zero not and or".split())


def texts(top, *ends):
    for folder, dirs, files in os.walk(top):
        dirs[:] = sorted(d for d in dirs if d != "out")
        for f in sorted(files):
            if f.endswith(ends):
                yield os.path.join(folder, f)


def read(path):
    with open(path, encoding="utf-8") as f:
        return f.read()


def of_a_function(path):
    """Whether it is the proof of one function, where most names are those of its goals."""
    return re.search(r"/proofs/[^/]+/[^/]+\.antt$", path) is not None


def snake(word):
    if not word or word[0].isupper():
        return word
    return re.sub(r"(?<=[a-z0-9′'])([A-Z])", lambda m: "_" + m[1].lower(), word)


def gather():
    """The names that the texts declare, and which of them are definitions, fields or constructors."""
    names, words, fields = set(), set(), set()
    for path in texts("crates", ".antt"):
        if of_a_function(path):
            continue
        text = read(path)
        found = DECLARED.findall(text)
        names.update(n for _, n in found)
        for binders in BINDER.findall(text):
            names.update(binders.split())
        if "/specs/" in path:
            words.update(snake(n) for _, n in found if "-" not in n)
        inside = None
        for line in text.split("\n"):
            at = BLOCK.match(line)
            if at:
                inside = len(at[1])
                continue
            if inside is not None and line.strip():
                depth = len(line) - len(line.lstrip())
                if depth <= inside:
                    inside = None
                else:
                    it = DECLARED.match(line)
                    if it:
                        fields.add(it[2])
    return names, words | WORDS, fields


def respelled(name, words, fields):
    parts = [snake(p) for p in name.split("-")]
    if not all(parts):
        return name
    new = parts[0]
    group = parts[0]
    for p in parts[1:]:
        if name not in fields and group in words and p in words:
            new, group = new + "-" + p, p
        else:
            new, group = new + "_" + p, group + "_" + p
    return new.replace("′", "'")


def table():
    names, words, fields = gather()
    theirs = set()
    for path in texts("crates", ".antt", ".rt"):
        for m in OURS.finditer(read(path)):
            theirs.update(TOKEN.findall((m[1] or "").strip("{}")))
    out = {}
    taken = {snake(n) for n in names if "-" not in n}
    for n in sorted(names - theirs):
        if "_" in n and any(snake(o) == n for o in names if o != n and "-" not in o):
            out[n] = n + "_lem"
        elif re.fullmatch(r"[\w'′-]+", n) and ("-" in n or "′" in n or re.search(r"[a-z0-9][A-Z]", n)):
            new = respelled(n, words, fields)
            if new in theirs or "-" in n and new in taken:
                new += "_lem"
            if new != n:
                out[n] = new
    return out


ANTT = re.compile(r"(--[^\n]*)")
RUST = re.compile(r"(//[^\n]*)")
EDIT = re.compile(r"(?m)(^#[^\n]*)")
QUOTED = re.compile(r"`[^`\n]*`")


def turned(text, rows, comment):
    # What is in snake case already may be a function of the source too, which keeps its name.
    keeps = lambda m, t: "_" in m[0] and (comment is not ANTT or t[: m.start()].endswith("proofs."))
    swap = lambda t: TOKEN.sub(lambda m: m[0] if keeps(m, t) else rows.get(m[0], m[0]), t)
    out = []
    for i, piece in enumerate(comment.split(text)):
        out.append(QUOTED.sub(lambda m: swap(m[0]), piece) if i % 2 else swap(piece))
    return "".join(out)


CLAUSES = re.compile(r"(?m)(?:^\s*(?:requires|ensures)[^{\n]*\{(.*)\}$)|(?:ghost use ([^;]*);)")


def clashes(rows):
    """Names that would fall together in one file."""
    for path in texts("crates", ".antt", ".rt"):
        code = ANTT.sub(" ", read(path)) if path.endswith(".antt") else " ".join(a + b for a, b in CLAUSES.findall(RUST.sub(" ", read(path))))
        tokens = set(TOKEN.findall(code))
        used = {o for o in tokens if o in rows}
        for o in sorted(used):
            rivals = {t for t in tokens if t != o and rows.get(t, t) == rows[o]}
            if rivals:
                print(f"{path}: {o} and {', '.join(sorted(rivals))} would both be {rows[o]}")


def main():
    rows = table()
    if "--check" in sys.argv:
        clashes(rows)
        return
    for path in texts("crates", ".antt", ".rt", ".edit"):
        text = read(path)
        new = turned(text, rows, ANTT if path.endswith(".antt") else RUST if path.endswith(".rt") else EDIT)
        if new != text:
            with open(path, "w", encoding="utf-8") as f:
                f.write(new)
    with open("tools/respelled.tsv", "w", encoding="utf-8") as f:
        f.writelines(f"{o}\t{n}\n" for o, n in sorted(rows.items()))


if __name__ == "__main__":
    main()
