#!/usr/bin/env python3
"""Brings this repository's own definitions and lemmas to today's spelling: words in snake case, types and facts in camel case.

usage: python3 tools/respell.py [--check]      once, at the top, right after port.py

A name is turned if a file of specs/ or proofs/ declares it with a hyphen, parameters and what a let names included: torn-off becomes torn_off, Same-reports becomes SameReports.
Names that the prover makes (goals, loops, calls) are left: they are declared as 'goal.NAME', or not at all.
Strings, comments and the names of source functions stay. --check changes nothing and prints what falls together.
"""

import os
import re
import sys

CRATES = "crates"
# a name that would fall together with another, or whose old spelling holds a word that is gone
OTHERS = {
    "Not-made": "IsNotMade",
    "getD-row": "get_or_row",
    "getD-column": "get_or_column",
    "getD-joined": "get_or_joined",
    "of-leZ": "of_int_le",
}
WORD = re.compile(r'"(?:[^"\\]|\\.)*"|[^\s(){}\[\].,;«»⌜⌝"]+')
TOP = re.compile(r"^\s*(?:abbrev )?(?:unfoldable )?(?:pub )?(?:abbrev )?(?:record |data )?([^\s(){}\[\].,;:=]+)((?: [({][^=]*[)}])*) :(.*)$")
MEMBER = re.compile(r"^\s+(?:pub )?([^\s(){}\[\].,;:=]+) :(.*)$")
# parameters, and what a let names
BOUND = re.compile(r"[({]((?:[^\s(){}\[\].,;:=]+ )+): |\blet ([^\s(){}\[\].,;:=]+) [:=]")


def files(ends):
    for folder, dirs, names in os.walk(CRATES):
        dirs[:] = sorted(d for d in dirs if d != "out")
        for n in sorted(names):
            if n.endswith(ends):
                yield os.path.join(folder, n)


def read(path):
    with open(path, encoding="utf-8") as f:
        return f.read()


def declared():
    """Names with a hyphen that a file of specs/ or proofs/ declares and that are no goal's name."""
    found, goals = {}, set()
    for p in files(".antt"):
        answers = os.path.basename(p) in ("Answers.antt", "Invariants.antt")
        for line in read(p).splitlines():
            bound = [] if answers else BOUND.finditer(line[: comment(line, "--")])
            for name in (n for b in bound for n in (b.group(1) or b.group(2)).split()):
                if "-" in name and re.search("[A-Za-z]", name):
                    found.setdefault(name, p)
            m = TOP.match(line) or MEMBER.match(line)
            if not m or "-" not in m.group(1) or not re.search("[A-Za-z]", m.group(1)):
                continue
            kind = m.groups()[-1].strip()
            if kind.startswith("goal."):
                goals.add(m.group(1))
            else:
                found.setdefault(m.group(1), p)
    return {n: p for n, p in found.items() if n not in goals}


def respelled(name):
    if name in OTHERS:
        return OTHERS[name]
    if name[0].isupper():
        return "".join(part[:1].upper() + part[1:] for part in name.split("-"))
    return name.replace("-", "_")


def comment(line, mark):
    """Where a line's comment begins."""
    inside = False
    for i, ch in enumerate(line):
        if ch == '"':
            inside = not inside
        elif not inside and line.startswith(mark, i) and (mark == "//" or i == 0 or line[i - 1] == " "):
            return i
    return len(line)


def turn(text, mark, names):
    out = []
    for line in text.split("\n"):
        at = comment(line, mark)
        out.append(WORD.sub(lambda m: names.get(m.group(0), m.group(0)), line[:at]) + line[at:])
    return "\n".join(out)


def words(path, mark):
    for line in read(path).split("\n"):
        for m in WORD.finditer(line[: comment(line, mark)]):
            yield m.group(0)


def clashes(names):
    """New names that stand somewhere already, or two old ones that get the same."""
    olds = {}
    for old, new in names.items():
        olds.setdefault(new, []).append(old)
    for new, them in sorted(olds.items()):
        if len(them) > 1:
            print(f"falls together: {' '.join(them)} -> {new}")
    for p in list(files(".antt")) + list(files(".rt")):
        here = set(words(p, "--" if p.endswith(".antt") else "//"))
        for new in sorted(here & set(olds)):
            print(f"stands already: {new} ({olds[new][0]}) in {p}")


def main():
    names = {n: respelled(n) for n in declared()}
    clashes(names)
    if "--check" in sys.argv:
        for n in sorted(names):
            print(n, names[n])
        return
    changed = 0
    for p in list(files(".antt")) + list(files(".rt")) + list(files(".edit")):
        old = read(p)
        new = turn(old, "--" if p.endswith(".antt") else "//", names)
        if new != old:
            changed += 1
            with open(p, "w", encoding="utf-8") as f:
                f.write(new)
    print(f"respell: {len(names)} names, {changed} files")


main()
