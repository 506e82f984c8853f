#!/usr/bin/env python3
"""Counts, in crates/*/src, the places that docs/DESIGN-PASS.md speaks of, one number for each of its points 1 to 8.

usage: places.py [--list]   at the top of the repository; --list names each place
"""

import collections
import difflib
import glob
import os
import re
import sys

FN = re.compile(r"^( *)(?:pub )?(?:extern \"C\" )?fn (\w+)", re.M)
ONE_MEANING = r"Refused|Absent|Outside|Ungrammatical|Accepted|Missing|Nothing"


def functions():
    """Each function of src/: crate, name, signature, clauses, body."""
    for path in sorted(glob.glob("crates/*/src/*.rt")):
        text = open(path, encoding="utf-8").read()
        starts = list(FN.finditer(text))
        for m, after in zip(starts, starts[1:] + [None]):
            part = text[m.start() : after.start() if after else len(text)]
            end = re.search(r"^" + m.group(1) + r"\}", part, re.M)
            part = part[: end.end()] if end else part
            head, _, body = part.partition("\n" + m.group(1) + "{\n")
            if not body:
                head, _, body = part.partition(" {\n")
            yield path.split("/")[1], m.group(2), head, body


def code():
    """Each line of src/ without its comment: where it stands, and its text."""
    for path in sorted(glob.glob("crates/*/src/*.rt")):
        for i, line in enumerate(open(path, encoding="utf-8"), 1):
            yield f"{path}:{i}", line.split("//")[0].rstrip()


def matching(pattern):
    return [f"{at}: {line.strip()}" for at, line in code() if re.search(pattern, line)]


def enums():
    found = []
    for path in sorted(glob.glob("crates/*/src/*.rt")):
        for m in re.finditer(r"enum (\w+)[^{]*\{(.*?)^\}", open(path, encoding="utf-8").read(), re.M | re.S):
            if re.search(r"^\s+(?:" + ONE_MEANING + r")\b", m.group(2), re.M):
                found.append(f"{path}: enum {m.group(1)}")
    return found


def flags():
    return matching(r"^    pub (?:found|few|whole|alone|added|conflict)\b[^(]*: bool,") + matching(r"-> \(bool,")


def number_codes():
    return (
        matching(r"_CODE: usize")
        + matching(r"\b32768\b")
        + [f"{c}::{f}" for c, f, head, body in functions() if re.search(r"_number$", f) and "match" in body]
    )


def shape(body):
    body = re.sub(r"//.*", "", body)
    return [re.sub(r"^\d+$", "0", re.sub(r"^[A-Za-z_]\w*$", "x", t)) if t not in KEEP else t for t in re.findall(r"\w+|[^\w\s]+", body)]


KEEP = {"while", "for", "if", "else", "return", "match", "let", "mut", "true", "false", "as", "in"}


def twins():
    known = [(c, f, shape(body), body) for c, f, head, body in functions() if body.count("\n") >= 5]
    found = []
    for i, a in enumerate(known):
        for b in known[i + 1 :]:
            if min(len(a[2]), len(b[2])) * 1.25 < max(len(a[2]), len(b[2])):
                continue
            if difflib.SequenceMatcher(None, a[2], b[2], False).ratio() >= 0.88:
                found.append(f"{a[0]}::{a[1]} ~ {b[0]}::{b[1]}")
    return found


def index_loops():
    return [f"{c}::{f}: while {w}" for c, f, head, body in functions() for w in re.findall(r"while ([^{]*) \{", body)]


BY_HAND = (
    "wide wide16 be16 be32 put_be32 put_head cause_number larger outside in_turn swap_ends rotate record_before record_less same_eight precedes "
    "put_record copy_marks clear_marks byte_at bits_of atom_holds digit_of place_bits".split()
)


def by_hand():
    return [f"{c}::{f}" for c, f, head, body in functions() if f in BY_HAND]


def parameters(head):
    inside = head[head.index("(") + 1 :]
    depth, n, out = 0, 0, [""]
    for ch in inside:
        if ch == ")" and depth == 0:
            break
        depth += ch in "([<"
        depth -= ch in ")]>"
        if ch == "," and depth == 0:
            out.append("")
        else:
            out[-1] += ch
    return [p for p in out if p.strip()]


def long_lists():
    return [f"{c}::{f}: {len(parameters(head))} parameters" for c, f, head, body in functions() if len(parameters(head)) >= 6]


def shared_facts():
    seen = collections.defaultdict(set)
    for c, f, head, body in functions():
        for clause in re.findall(r"requires[^{]*\{(.*)\}\s*$", head, re.M):
            for fact in clause.split(" × "):
                fact = re.sub(r"\.(now|old|new)\b", "", fact).strip(" ()")
                seen[fact].add(f"{c}::{f}")
    return [f"{len(where)} contracts: {fact}" for fact, where in sorted(seen.items()) if len(where) >= 3]


def offsets():
    return matching(r"\[[^\]]*(?:\d \* \w|[A-Z]{3,} (?:\*|\+) |at \+ \d)") + matching(r"^(?:pub )?const \w+: usize = .*[A-Z]{3,} [+*] ")


def switches():
    return matching(r"match (?:goal|question|self\.goal|v\.goal)\b") + matching(r"(?:Question|Answer|Goal)::\w+(?:\(\w+\))? =>")


def proofs():
    files = [p for p in glob.glob("crates/*/proofs/**/*.antt", recursive=True)]
    lines = sum(len(open(p, encoding="utf-8").read().splitlines()) for p in files)
    return [f"{len(files)} files, {lines} lines"] + [
        p for p in files if os.path.basename(p) in ("Answers.antt", "Invariants.antt", "Proof.antt")
    ]


POINTS = [
    ("1a", "enums with a variant that says only that nothing is there", enums),
    ("1b", "flags beside what they speak of", flags),
    ("1c", "numbers for kinds, by the line", number_codes),
    ("2", "pairs of functions of the same shape", twins),
    ("3", "`while` loops", index_loops),
    ("4", "functions that do what a derive, a conversion or a method of the library does", by_hand),
    ("5a", "functions of six or more parameters", long_lists),
    ("5b", "facts that stand in three or more contracts", shared_facts),
    ("6", "offsets into one flat array, by the line", offsets),
    ("7", "arms and heads of a switch on what is asked", switches),
    ("8", "proof files of functions", proofs),
]

if __name__ == "__main__":
    for name, what, count in POINTS:
        places = count()
        said = f" ({places.pop(0)} in all)" if name == "8" else ""
        print(f"{name}: {len(places)} {what}{said}")
        if "--list" in sys.argv:
            print("".join(f"    {p}\n" for p in places), end="")
