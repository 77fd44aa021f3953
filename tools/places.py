#!/usr/bin/env python3
"""Counts, in crates/*/src, the places of the forms that docs/DESIGN-PASS.md speaks of.

    python3 tools/places.py [--list [POINT]] [ROOT]

Without --list: a line for each point. With --list: each place too, of one point or of all.
"""
import re
import sys
from collections import Counter, defaultdict
from pathlib import Path

WORD = r"[A-Za-z_]\w*"


def sources(root):
    for path in sorted(Path(root).glob("crates/*/src/*.rt")):
        yield path.relative_to(root), path.read_text()


def code(text):
    """The lines without comments and ghost imports, with their numbers."""
    for number, line in enumerate(text.split("\n"), 1):
        if line.startswith("ghost use"):
            continue
        yield number, line.split("//")[0]


def bare(text):
    return "\n".join(line if not line.startswith("ghost use") else "" for line in (l.split("//")[0] for l in text.split("\n")))


def grep(root, pattern, skip=None):
    out = []
    for path, text in sources(root):
        for number, line in code(text):
            if re.search(pattern, line) and not (skip and re.search(skip, line)):
                out.append(f"{path}:{number}: {line.strip()}")
    return out


def enums(root):
    """Own enums of the shape of Option (two cases, one without fields) or Result (two cases, both with fields, one a refusal)."""
    out = []
    for path, text in sources(root):
        for m in re.finditer(r"enum (%s)[^{;]*\{(.*?)\n\}" % WORD, bare(text), re.S):
            cases = re.findall(r"^\s{4}(%s)\s*(\(|\{)?" % WORD, m.group(2), re.M)
            shape = [bool(fields) for _, fields in cases]
            refused = any(name in ("Refused", "Blocked") for name, _ in cases)
            if (len(shape) == 2 and any(shape) and not all(shape)) or ("Refusal)" in m.group(2) and refused):
                line = text[: text.find(f"enum {m.group(1)}")].count("\n") + 1
                out.append(f"{path}:{line}: enum {m.group(1)}: {', '.join(name for name, _ in cases)}")
    return out


def refusal_numbers(root):
    """A refusal that is made or told by its number."""
    return grep(root, r"\b(refused|refuse|refuse_growth|refuse_product)\(\d+|^\s*\d+,$|number: u16|\bnumber == \d")


def functions(text):
    for m in re.finditer(r"fn (%s)(<[^(]*>)?\((.*?)\)(\s*->\s*[^{]*?)?\s*((?:\n\s+(?:requires|ensures)[^\n]*(?:\n\s{8}[^\n]*)*)*)\s*\n?\{" % WORD, text, re.S):
        yield m.group(1), m.group(3), m.group(5) or ""


def atoms(clauses):
    for line in re.findall(r"requires[^{]*\{(.*)\}", clauses):
        depth, start, parts = 0, 0, []
        for i, ch in enumerate(line):
            if ch in "({[":
                depth += 1
            elif ch in ")}]":
                depth -= 1
            elif ch == "×" and depth == 0:
                parts.append(line[start:i])
                start = i + 1
        parts.append(line[start:])
        for part in parts:
            part = part.strip()
            while part.startswith("(") and part.endswith(")"):
                part = part[1:-1].strip()
            yield re.sub(r"\.(now|old)\b", "", part)


def facts(root):
    """Facts that stand in the contracts of three functions or more."""
    where = defaultdict(list)
    for path, text in sources(root):
        for name, _, clauses in functions(bare(text)):
            for atom in set(atoms(clauses)):
                where[atom].append(f"{path.parts[1]}::{name}")
    return [f"{len(v)} x  {k}" for k, v in sorted(where.items(), key=lambda kv: -len(kv[1])) if len(v) >= 3]


def companions(root):
    """Pairs of parameters, by name and type, that travel together in five functions or more."""
    pairs = Counter()
    for path, text in sources(root):
        for _, parameters, _ in functions(bare(text)):
            names = [" ".join(p.split()) for p in parameters.split(",") if ":" in p]
            for i, a in enumerate(names):
                for b in names[i + 1:]:
                    pairs[(a, b)] += 1
    return [f"{n} x  {a}, {b}" for (a, b), n in pairs.most_common() if n >= 5]


def sized(root):
    """A buffer that is lent with a place or a count beside it, and a local array that is filled in part."""
    out = []
    for path, text in sources(root):
        plain = bare(text)
        for name, parameters, _ in functions(plain):
            names = dict(re.findall(r"(%s):\s*([^,]+)" % WORD, parameters))
            slices = [k for k, v in names.items() if re.match(r"&(mut )?\[", v.strip())]
            beside = [k for k, v in names.items() if v.strip() == "usize" and k in ("at", "from", "count", "i", "j", "w", "also", "mid")]
            if slices and beside:
                out.append(f"{path}: fn {name}: {', '.join(slices)} with {', '.join(beside)}")
    return out


HAND = (
    r"fn (copy_into|is_digit|value_of|value_bit|cell_of|with_digit|precedes|up_to|comes_before|lies_inside|bit_of|either|side|corner_for|"
    r"pack|packed\w*|transition_in|point_in|cube_in|prepended|steps_of|zero_of|is_dynamic|"
    r"put_\w+|print_\w+|refuse\w*|without_lowest|same_\w+|equal\w*|eq_\w+|is_same\w*|copy\w*|swap\w*|to_\w+|from_\w+)\b"
)

POINTS = {
    "1a": ("own enums of the shape of Option or Result", enums),
    "1b": ("refusals made or told by their number", refusal_numbers),
    "3": ("loops that count by hand", lambda root: grep(root, r"^\s*while ")),
    "4": ("functions that copy, compare, convert or print by hand", lambda root: grep(root, HAND)),
    "5a": ("facts that stand in the contracts of three functions or more", facts),
    "5b": ("pairs of parameters that travel together in five functions or more", companions),
    "6": ("buffers with a place or a count beside them", sized),
    "7": ("matches and tests on a kind that choose what runs", lambda root: grep(root, r"match (rel|k|kind|corner|v|t|op|self)\b|Relation::|Corner::")),
}


def main():
    args = [a for a in sys.argv[1:] if a != "--list"]
    listing = "--list" in sys.argv
    only = [a for a in args if a in POINTS]
    rest = [a for a in args if a not in POINTS]
    root = rest[0] if rest else "."
    for key, (what, find) in POINTS.items():
        if only and key not in only:
            continue
        places = find(root)
        print(f"{key:3} {len(places):4}  {what}")
        if listing:
            for place in places:
                print("        " + place)


if __name__ == "__main__":
    main()
