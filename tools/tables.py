#!/usr/bin/env python3
"""What changed between two checkouts, as tables for docs/DESIGN-PASS.md: signatures, clauses, definitions, edits.

    python3 tools/tables.py OLD NEW

Leaves out the test programs and `testing`, whose functions have no contracts. Definitions that only say the library's Option in place of the
logic's own are listed by name.
"""
import json
import re
import subprocess
import sys
from collections import defaultdict

LISTER = "/opt/rattle/port/contracts.py"
PROGRAMS = {"brute_force", "edges", "set_pieces", "examples", "quiet", "testing"}
LETTERS = r"A-Za-z0-9_'₀-₉\-"


def cell(text):
    return "`" + re.sub(r"\s+", " ", text).replace("|", "\\|") + "`" if text else ""


def named(place):
    words = place.split()
    return f"{words[0]} `{words[-1]}`"


def clause(parts):
    return " · ".join((name + ": " if name else "") + text for name, text in parts)


def respelled(text, mapped):
    for old, new in [("none", "None"), ("some", "Some")] + ([("map", "option_map")] if mapped else []):
        text = re.sub(rf"(?<![{LETTERS}.·]){old}(?![{LETTERS}])", new, text)
    return text


def table(head, rows):
    return "\n".join(["| " + " | ".join(head) + " |", "|" + "---|" * len(head)] + ["| " + " | ".join(row) + " |" for row in rows])


def grouped(pairs):
    crates = defaultdict(list)
    for crate, name in pairs:
        crates[crate].append(name)
    return "; ".join(f"{c}: " + ", ".join(f"`{n}`" for n in sorted(names)) for c, names in sorted(crates.items()))


def main(old, new):
    run = subprocess.run([sys.executable, LISTER, old, new, "--json"], capture_output=True, text=True)
    found = json.loads(run.stdout)
    ours = lambda place: place.split()[0] not in PROGRAMS
    print("## Signatures\n")
    print(table(["function", "before", "today"], [[named(f), cell(o), cell(n)] for f, o, n in found["signatures changed"] if ours(f)]))
    rows = []
    for f, *clauses in found["contracts changed"]:
        for kind, o, n in (("requires", clauses[0], clauses[2]), ("ensures", clauses[1], clauses[3])):
            if ours(f) and o != n:
                rows.append([named(f), kind, cell(clause(o)), cell(clause(n))])
    print("\n## Clauses\n")
    print(table(["function", "clause", "before", "today"], rows))
    spelling, other = [], []
    for crate, name, o, n in found["definitions"]["changed"]:
        o, n = " ".join(o), " ".join(n)
        if n in (respelled(o, False), respelled(o, True)):
            spelling.append((crate, name))
        elif crate not in PROGRAMS:
            other.append([f"{crate} `{name}`", cell(o), cell(n)])
    print("\n## Definitions\n\nOnly spelled anew: " + grouped(spelling) + ".\n")
    print(table(["definition", "before", "today"], other))
    print("\nGone: " + grouped((g[0], g[1]) for g in found["definitions"]["gone"]) + ".")
    edits = ((e[0], re.sub(r"must-fail/|\.edit", "", e[1])) for e in found["edits and outputs"]["changed"])
    print("\n## Edits\n\n" + grouped(edits) + ".")


if __name__ == "__main__":
    main(*sys.argv[1:])
