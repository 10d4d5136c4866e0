#!/usr/bin/env python3
"""Counts the places in crates/*/src that an older form of the language may have left, and prints each with its file.

    tools/places.py            all points
    tools/places.py 3 5        these points
    tools/places.py --counts   the numbers alone

It goes by the text, so it finds too many places rather than too few: what stays for a reason is still found.
"""
import collections
import glob
import re
import sys

FN = re.compile(r"^[ \t]*(?:pub(?:\([a-z]+\))? )?fn (\w+)", re.M)


def body_of(text, at):
    """From the first brace after the contract that ends a line to the one that closes it."""
    start = re.compile(r"^[ \t]*\{$|\{$", re.M).search(text, at)
    if not start:
        return None
    depth, i = 0, text.index("{", start.start())
    for j in range(i, len(text)):
        depth += {"{": 1, "}": -1}.get(text[j], 0)
        if depth == 0:
            return i, j + 1
    return None


class Function:
    def __init__(self, path, name, head, body):
        self.path, self.name, self.head, self.body = path, name, head, body
        self.where = path.replace("crates/", "").replace("/src/", "/") + ": " + name
        self.clauses = [re.sub(r"\s+", " ", c).strip()
                        for c in re.findall(r"requires(?: \w+)? \{(.*?)\}$", head, re.M)]
        inside = re.search(r"\(((?:[^()]|\([^()]*\))*)\)", head[head.index("fn "):])
        names = re.findall(r"(\w+): ([^,]+(?:<[^>]*>)?)", inside.group(1)) if inside else []
        self.parameters = sorted({n for n, _ in names if n not in ("self", "rt")})


def functions():
    for path in sorted(glob.glob("crates/*/src/**/*.rt", recursive=True)):
        text = re.sub(r"//.*", "", open(path).read())
        for m in FN.finditer(text):
            span = body_of(text, m.end())
            # a method that a trait declares has no body
            if not span or re.search(r";$", text[m.end():span[0]], re.M):
                continue
            yield Function(path, m.group(1), text[m.start():span[0]], text[span[0]:span[1]])


def by(fs, pattern, what=None):
    return [f"{f.where}{': ' + what if what else ''}" for f in fs for _ in re.finditer(pattern, f.body)]


KEYWORDS = "match if else for in while let mut return as Some None Ok Err true false self".split()


def shape(body):
    tokens = re.findall(r"[A-Za-z_]\w*|\d+|b?'[^']*'|\S", body)
    return " ".join(t if t in KEYWORDS or not re.match(r"[A-Za-z_\d']|b'", t) else "x" for t in tokens)


def options_by_hand(fs):
    arms = (r"match [^{;]*\{\s*(?:Some\((\w+)\) => [^,]*,\s*None => [^,]*,\s*\}|"
            r"Ok\((\w+)\) => [^,]*,\s*Err\((\w+)\) => [^,]*,\s*\})")
    found = by(fs, arms, "a match on an Option or a Result")
    found += by(fs, r"match [^{;]*\{\s*(?:Ok|Err|Some|None)\b[^=]*=> \{", "a match on an Option or a Result")
    found += by(fs, r"let (?:Some|Ok)\(\w+\) = [^;]*else \{\s*return (?:None|Err\(e\w*\));", "a let .. else that `?` says")
    found += by(fs, r"return \(0, 1\)", "a pair that stands for no answer")
    return found


def tests_by_hand(fs):
    return by(fs, r"^\{\s*if [^{]*\{\s*return Err\([^;]*\);\s*\}\s*Ok\(\(\)\)\s*\}$", "a test and its refusal") \
        + by(fs, r"^\{\s*if [^{]*\{\s*Ok\(\(\)\)\s*\} else \{\s*Err\([^;]*\)\s*\}\s*\}$", "a test and its refusal")


def twins(fs):
    groups = collections.defaultdict(list)
    for f in fs:
        s = shape(f.body)
        if len(s.split()) >= 12 and "_tests/" not in f.path:
            groups[s].append(f.where)
    return [" = ".join(g) for g in groups.values() if len(g) > 1]


def tables(fs):
    """Functions that are one match on a plain enum, with a literal in each arm."""
    pattern = r"^\{\s*match [^{]*\{\s*(?:[\w:]+(?:::\w+)? => b?'?\w+'?,\s*){3,}"
    pattern2 = r"^\{\s*match [^{]*\{\s*(?:'.' => [^,]*,\s*){3,}"
    return by(fs, pattern, "a table of numbers or letters") + by(fs, pattern2, "a table of letters read")


def handmade(fs):
    found = [f.where + ": prints a number" for f in fs if re.search(r"b'0' \+", f.body)]
    found += [f.where + ": converts field by field" for f in fs if re.match(r"(?:as|to|from|into)_\w+$", f.name)
              and re.search(r"\w+::\w+ \{", f.body)]
    return found


def repeated_facts(fs):
    groups = collections.defaultdict(list)
    for f in fs:
        for c in f.clauses:
            for part in re.split(r" × ", c):
                groups[re.sub(r"[()]", "", part).strip()].append(f.where)
    return [f"{fact}: {len(g)} ({', '.join(g)})" for fact, g in sorted(groups.items()) if len(g) >= 3]


def travellers(fs):
    """Pairs and larger groups of parameters that three or more functions share, the largest of each set of functions."""
    sets = collections.defaultdict(set)
    shipped = [f for f in fs if "_tests/" not in f.path]
    for i, f in enumerate(shipped):
        for g in shipped[i + 1:]:
            common = tuple(n for n in f.parameters if n in g.parameters)
            if len(common) >= 2:
                sets[common] |= {f.where, g.where}
    for common in list(sets):
        sets[common] = {f.where for f in shipped if set(common) <= set(f.parameters)}
    return [f"{', '.join(c)}: {len(g)} ({', '.join(sorted(g))})" for c, g in sorted(sets.items()) if len(g) >= 3
            and not any(set(c) < set(d) and sets[d] == g for d in sets)]


POINTS = [
    ("1a", "matches and pairs that Option, Result and their methods say", options_by_hand),
    ("1b", "functions that are a test and its refusal", tests_by_hand),
    ("2", "groups of functions that are one but for names, types and constants", twins),
    ("3a", "loops that count by hand", lambda fs: by(fs, r"\bwhile (?!let)", "while")
        + by(fs, r"for \w+ in [^{]*\.\.[^{]*\{(?=[^}]*\[\w+(?: as usize)?\])", "an index from a range")),
    ("3b", "loops that add up or test", lambda fs: by(fs, r"for [^{]* in [^{]*\{\s*(?:\w+ [+-]= [^;]*;|if [^{]*\{[^}]*\})\s*\}",
                                                      "a for that adds up or tests")),
    ("4a", "tables of numbers or letters", tables),
    ("4b", "printing and conversion by hand", handmade),
    ("5a", "facts in the requires of three or more functions", repeated_facts),
    ("5b", "parameters that travel together through three or more functions", travellers),
    ("6", "buffers with a place beside them", lambda fs: [f.where for f in fs if {"out", "at"} <= set(f.parameters)]),
    ("7", "switches on which step to run", lambda fs: [f.where for f in fs if re.search(r"\bkind: Kind\b|section: Section\b", f.head)
        and re.search(r"match \(?(?:kind|section)", f.body)] + by(fs, r"(?:\w+::\w+\(source\) => source\.\w+\([^)]*\),\s*){2}", "a call passed on by kind")),
]


def main():
    wanted = [a for a in sys.argv[1:] if not a.startswith("-")]
    fs = list(functions())
    for name, what, find in POINTS:
        if wanted and name[0] not in [w[0] for w in wanted]:
            continue
        found = find(fs)
        print(f"{name}: {len(found)} {what}")
        if "--counts" not in sys.argv:
            for place in found:
                print("    " + place)
    if not wanted or "8" in wanted:
        files = [p for p in glob.glob("crates/*/proofs/**/*.antt", recursive=True)]
        lines = sum(len(open(p).read().splitlines()) for p in files)
        answers = sum(p.endswith(("Answers.antt", "Invariants.antt")) for p in files)
        print(f"8: {len(files)} files of proofs, {lines} lines, {answers} of them answers or invariants of a function")


if __name__ == "__main__":
    main()
