#!/usr/bin/env python3
"""Counts, in a tree of this repository, the places that docs/DESIGN-PASS.md speaks of.

usage: tools/design_places.py [--list] [TREE]

A row for each command below: how many places it finds in crates/*/src (point 8: in crates/*/proofs); --list names them.
"""
import re, sys
from collections import defaultdict
from pathlib import Path

args = [a for a in sys.argv[1:] if a != "--list"]
LIST = "--list" in sys.argv
TREE = Path(args[0] if args else ".")
SRC = {f: f.read_text() for f in sorted(TREE.glob("crates/*/src/**/*.rt"))}
CODE = {f: re.sub(r"//.*", "", s) for f, s in SRC.items()}
TYPE = re.compile(r"(?:pub(?:\(crate\))? )?(enum|struct) (\w+)[^{;\n]*\{(.*?)\n\}", re.S)
FN = re.compile(r"\bfn (\w+)(?:<[^>]*>)?\(([^)]*)\)[^\n]*\n((?: +(?:requires|ensures)[^\n]*\n)*)")

def show(f):
    return str(f.relative_to(TREE / "crates")).replace("/src/lib.rt", "").replace("/src/", "/")

def lines(pattern):
    return [f"{show(f)}:{i}" for f, s in CODE.items() for i, l in enumerate(s.split("\n"), 1) if re.search(pattern, l)]

def types(test):
    return [f"{show(f)} {m[2]}" for f, s in CODE.items() for m in TYPE.finditer(s) if test(m[1], m[2], m[3])]

def variants(body):
    return [v.strip() for v in re.sub(r"\{[^}]*\}", "()", body).split(",\n") if v.strip()]

# An enum with one variant that holds values beside at most three that are a refusal, a fault or nothing.
def like_option(kind, name, body):
    vs = [v.rstrip(",") for v in variants(body)]
    holds = [v for v in vs if "(" in v]
    bare = [v for v in vs if "(" not in v]
    no = r"^(Nothing|Stop|Malformed|Refused|Short|Signature|Version|Size)$|^(Bad|Refused|Refuse|Halt)\("
    return kind == "enum" and bool(holds) and len(vs) <= 4 and any(re.match(no, v) for v in vs)

def flagged(kind, name, body):
    return kind == "struct" and re.search(r"\b(number: u32|ok: bool|sound: bool)", body) and body.count(":") > 1

def bodies():
    for f, s in CODE.items():
        for m in FN.finditer(s):
            yield f, m[1], m[2], m[3]

# Groups of names that say one thing at several types, sizes or constants.
GROUPS = ("wide wide16", "u16_at u32_at", "le32 be32", "least", "copy copy_within", "fill fill_ff", "three four", "kind_number", "by_words by_blocks",
          "image work key_room value_room output_room", "main")

def twins():
    all = [(n, show(f)) for f, n, _, _ in bodies()]
    out = []
    for group in GROUPS:
        here = [f"{f} {n}" for n, f in all if n in group.split() and (n != "main" or f in ("banklist/main.rt", "bankcause/main.rt"))
                and (n not in ("image", "work") or f.startswith("replay"))]
        out += here if len(here) > 1 else []
    return out

def facts():
    found = defaultdict(set)
    for f, name, _, clauses in bodies():
        for clause in re.findall(r"requires[^{]*\{(.*)\}", clauses):
            for c in clause.split(" × "):
                c = re.sub(r"\b(nvr|one|other|part|work|w|s|t|out|output|p|q)\b", "_", c.strip().strip("()"))
                if " : " not in c:
                    found[c].add(f"{show(f)} {name}")
    return [f"{c} ({len(v)}: {', '.join(sorted(v))})" for c, v in sorted(found.items()) if len(v) >= 3]

def together():
    found = defaultdict(set)
    for f, name, params, _ in bodies():
        ps = re.findall(r"(?:^|[,(\n])\s*(\w+): ([^,]+)", params)
        for i, a in enumerate(ps):
            for b in ps[i + 1:]:
                found[(a, b)].add(f"{show(f)} {name}")
    return [f"{a[0]}: {a[1]}, {b[0]}: {b[1]} ({len(v)})" for (a, b), v in sorted(found.items()) if len(v) >= 5]

def answers(kind):
    return [f"{f.parent.name}" for f in TREE.glob(f"crates/*/proofs/**/{kind}.antt") for _ in re.findall(r"^(?:abbrev )?pub [\w\-']+ :", f.read_text(), re.M)]

def lemmas():
    return [f"{f.stem}.{n}" for f in TREE.glob("crates/*/proofs/**/*.antt") if f.stem not in ("Answers", "Invariants", "Lib")
            for n in re.findall(r"^ *pub (?!mod|use)([\w\-']+) :", f.read_text(), re.M)]

BY_HAND = (r"\bfn (same_type|same_header|is_empty|wide|wide16|u16_at|u32_at|u32_of|le32|be32|kind_of|kind_number|least|copy|copy_within|fill|fill_ff|"
           r"one_more|total|digit|number|put_number|put_hex|put_all|sign|order_number|or_else|block_ff|block_same|same|three|four)\b")
ROWS = [
    ("1a", "own enums of the shape of Option or Result", lambda: types(like_option)),
    ("1b", "structs with a flag or a refusal's number beside a value", lambda: types(flagged)),
    ("1c", "refusals given as numbers", lambda: lines(r"(refused\((state, |after, )?\d+|Refused\(\d+|Refuse\(\d+|Bad\(\d+|number: [1-9]|return (6|8|15);)")),
    ("2", "functions that differ in a type, a size or a constant", twins),
    ("3", "loops by hand", lambda: lines(r"\bwhile ")),
    ("4", "equality, order, copying, conversion, printing by hand", lambda: lines(BY_HAND)),
    ("5a", "facts that three or more functions require", facts),
    ("5b", "pairs of parameters of five or more functions", together),
    ("6", "buffers with a place or a length beside them, parallel arrays", lambda: lines(r"\bfn \w+(<[^>]*>)?\(.*\b(out|work|w|s|bytes): &(mut )?\[u8\], (at|from|to)\b|let mut (seconds|indices) = \[")),
    ("7", "switches on which step to run", lambda: lines(r"\b(manner: Manner|way: Way|operation: Operation|counting: bool)\b|if kind == b'")),
    ("8a", "invariants", lambda: answers("Invariants")),
    ("8b", "answers", lambda: answers("Answers")),
    ("8c", "lemmas of files of their own", lemmas),
]
for point, what, find in ROWS:
    places = find()
    print(f"{point:3} {len(places):5}  {what}")
    if LIST and not point.startswith("8"):
        for p in places:
            print("           ", p)
