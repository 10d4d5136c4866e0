#!/usr/bin/env python3
"""Respells the repository's own names of definitions and lemmas, once, after the kit's port.py.

usage: python3 tools/respell.py [--dry]      at the top of the repository

Functions, lemmas and fields of specs/ and proofs/ are written in snake case, facts and records in camel case: `floorDiv`
becomes `floor_div`, `zone-test` becomes `zone_test`, `Closed-months-stay` becomes `ClosedMonthsStay`. A lemma about a fact
keeps the fact's spelling and its dash, as `All-push`. Names of src/, of goals and of steps of the code stay. A new name that
stands anywhere already is told, and nothing is written.
"""
import collections
import os
import re
import sys

STAYS = {"All-push"}
# names that would fall together with another of the repository, or with the function of src/ that has them as its contract
OTHERS = {
    "In-range": "PositionInRange",
    "begun-months-fixed": "begun_months_fixed_lem",
    "closed-months-stay": "closed_months_stay_lem",
    "entries-replay": "entries_replay_lem",
    "figures-agree": "figures_agree_lem",
    "sheets-stand": "sheets_stand_lem",
}
# what a part of a name was called in an older library
WORDS = {"getD": "get_or", "minZ": "min_z", "sumZ": "sum_z", "June": "june"}
DECLARED = re.compile(r"^\s*(?:abbrev |unfoldable |pub |record |data |ruleset )*([^\s:(){}\[\]=]+)\s*(?:[({][^=]*)?:(?!:)")
TOKEN = re.compile(r"[^\s(){}\[\],;`]+")
MADE = ("Answers.antt", "Invariants.antt", "Choices.antt", "Proof.antt")


def files(root):
    for folder, dirs, names in os.walk(os.path.join(root, "crates")):
        dirs[:] = sorted(d for d in dirs if d != "out")
        for name in sorted(names):
            if name.endswith((".antt", ".rt")):
                yield os.path.join(folder, name)
    for name in ["README.md"] + sorted("docs/" + n for n in os.listdir(os.path.join(root, "docs"))):
        if name.endswith(".md") and not name.startswith("docs/PORT"):
            yield os.path.join(root, name)


def read(path):
    with open(path, encoding="utf-8") as f:
        return f.read()


def respelled(name):
    if name in OTHERS:
        return OTHERS[name]
    if name in STAYS or not re.fullmatch(r"[A-Za-z0-9_'-]+", name) or name[0] in "-_'":
        return name
    parts = name.split("-")
    if name[0].isupper():
        return "".join(p[0].upper() + p[1:] for p in parts) if len(parts) > 1 else name
    return "_".join(WORDS.get(p) or re.sub(r"(?<=[a-z0-9])[A-Z]", lambda m: "_" + m.group().lower(), p) for p in parts)


def declared(root):
    found, goals = set(), set()
    for path in files(root):
        if not path.endswith(".antt"):
            continue
        for line in read(path).split("\n"):
            m = DECLARED.match(line)
            if m and not line.lstrip().startswith("--"):
                (goals if "goal." in line else found).add(m.group(1))
    return {n: respelled(n) for n in found - goals if respelled(n) != n}


def is_made(path, first):
    """In the answers to goals, what begins so is a step of the code."""
    return os.path.basename(path) in MADE and first in ("c", "goal")


def turned(path, text, names):
    def token(m):
        parts = m.group().split(".")
        if path.endswith(".antt") and is_made(path, parts[0]):
            return m.group()
        return ".".join(names.get(p, p) for p in parts)

    if path.endswith(".md"):
        return re.sub(r"`[^`\n]+`", lambda m: TOKEN.sub(token, m.group()), text)
    return TOKEN.sub(token, text)


def main():
    root = "."
    names = declared(root)
    into = collections.defaultdict(list)
    for old, new in names.items():
        into[new].append(old)
    stands = collections.defaultdict(set)
    for path in files(root):
        if path.endswith(".antt"):
            for tok in TOKEN.findall(read(path)):
                if is_made(path, tok.split(".")[0]):
                    continue
                # a path names functions of src/ too
                for p in tok.split(".") if not tok.startswith("Rattle.") else []:
                    if p in into:
                        stands[p].add(path)
    for new, olds in sorted(into.items()):
        if len(olds) > 1 or new in stands:
            print("falls together:", new, *olds, *sorted(stands[new]))
    if "--dry" in sys.argv:
        for old, new in sorted(names.items()):
            print(old, "->", new)
        return
    if any(len(o) > 1 or n in stands for n, o in into.items()):
        raise SystemExit("nothing was written")
    for path in files(root):
        text = read(path)
        new = turned(path, text, names)
        if new != text:
            with open(path, "w", encoding="utf-8") as f:
                f.write(new)
    print(len(names), "names respelled")


main()
