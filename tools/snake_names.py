#!/usr/bin/env python3
"""Brings this repository's own definitions and lemmas to snake case; run once, at the top, right after the kit's port.py.

A name that would then stand for two things gets `_lem` where it is the lemma. Names of src/, and names that are std's too, stay.
"""
import collections
import os
import re
import sys

NAME = r"[^\s(){}\[\],.;:|=→×λ\"`]+"
DEFINED = re.compile(r"^(\s*)((?:abbrev |pub |unfoldable |data |record )*)(" + NAME + r")((?:\s+[^:=]*?)?)\s:\s")
KEPT = {"drop-drop", "get_or-take", "take-add"}
LEMMAS = {"by_bytes", "byte_step", "found_of", "record_of", "walk_turn"}
LEMMA_FILES = {"by_bytes": "crates/crc32/", "byte_step": "crates/crc32/", "found_of": "crates/variables/", "record_of": "crates/settings/", "walk_turn": "crates/bank/"}


def files():
    for folder, dirs, names in os.walk("crates"):
        dirs[:] = sorted(d for d in dirs if d != "out")
        for name in sorted(names):
            if name.endswith((".antt", ".rt", ".edit")):
                yield os.path.join(folder, name)


def snake(name):
    if name[0].islower():
        name = re.sub(r"([a-z0-9])([A-Z]+)", lambda m: m.group(1) + "_" + m.group(2).lower(), name)
    return name.replace("-", "_")


def defined():
    found = collections.defaultdict(set)
    for path in files():
        if not path.endswith(".antt"):
            continue
        with open(path) as f:
            for line in f:
                m = DEFINED.match(line)
                if m and m.group(3) != "let" and not line.lstrip().startswith("--"):
                    found[m.group(3)].add("/specs/" in path)
    return found


def renamings():
    found = defined()
    by_new = collections.defaultdict(list)
    for name in found:
        if "◌" not in name and name not in KEPT:
            by_new[snake(name)].append(name)
    turned = {}
    for new, olds in by_new.items():
        for old in olds:
            lemma = len(olds) > 1 and ("-" in old or old in LEMMAS)
            if len(olds) == 1 or lemma or old != new:
                turned[old] = new + "_lem" if lemma else new
    return {old: new for old, new in turned.items() if old != new}


def turn(text, path, turned):
    antt = path.endswith(".antt")

    def one(m):
        token = m.group(0)
        if token not in turned:
            return token
        if "-" in token:
            return turned[token] if antt or in_clause(text, m.start()) else token
        if token in LEMMAS and (not antt or text[m.start() - 1] == "." or not path.startswith(LEMMA_FILES[token])):
            return token
        return turned[token]

    return re.sub(r"(?<![\w'-])[A-Za-z_][\w'-]*", one, text)


def in_clause(text, at):
    line = text[text.rfind("\n", 0, at) + 1 : at]
    return "{" in line and re.search(r"\b(ensures|requires|ghost)\b", line) is not None


def main():
    turned = renamings()
    if sys.argv[1:] == ["--list"]:
        for old in sorted(turned):
            print(old, turned[old])
        return
    for path in files():
        with open(path) as f:
            text = f.read()
        new = turn(text, path, turned)
        if new != text:
            with open(path, "w") as f:
                f.write(new)
    print(f"snake_names: {len(turned)} names turned")


if __name__ == "__main__":
    main()
