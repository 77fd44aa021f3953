#!/usr/bin/env python3
"""Turns must-fail edits by the scripts that turn the files which they edit.

usage: python3 tools/turn_edits.py lay ROOT           before port.py: beside each file an edited copy of it for each edit, Ed__NAME__FILE
       python3 tools/turn_edits.py take ROOT PLAIN OUT  after port.py and respell.py: the edits of ROOT, turned, into the folder OUT

ROOT has the copies, PLAIN is the same repository turned without them. An edit that still does the same stays as it is. Of any other each changed
line is a pair of lines; what can't be said so is printed, and is turned by hand.
"""
import difflib
import glob
import os
import sys


def read(path):
    with open(path, encoding="utf-8") as it:
        return it.read()


def write(path, text):
    os.makedirs(os.path.dirname(path), exist_ok=True)
    with open(path, "w", encoding="utf-8") as it:
        it.write(text)


def edits(root):
    for path in sorted(glob.glob(f"{root}/crates/*/must-fail/*.edit")):
        yield path.split("/")[-3], os.path.basename(path)[: -len(".edit")], read(path)


def edited(text, file):
    """The files that an edit makes, by their paths; None where an old text doesn't stand once. file(path) is a file's text."""
    made, path, old = {}, None, None
    for line in text.split("\n"):
        if line.startswith("file: "):
            path = line[len("file: ") :].strip()
            made.setdefault(path, file(path))
        elif line.startswith("old: "):
            old = line[len("old: ") :]
        elif line.startswith("new:"):
            if made[path].count(old) != 1:
                return None
            made[path] = made[path].replace(old, line[len("new: ") :])
    return made


def beside(path, name):
    folder, file = os.path.split(path)
    return f"{folder}/Ed__{name}__{file}"


def lay(root):
    for crate, name, text in edits(root):
        made = edited(text, lambda path: read(f"{root}/crates/{crate}/{path}"))
        for path, new in made.items():
            write(f"{root}/crates/{crate}/{beside(path, name)}", new)


def pairs(old, new, label):
    a, b = old.split("\n"), new.split("\n")
    for tag, i, j, k, l in difflib.SequenceMatcher(None, a, b, autojunk=False).get_opcodes():
        if tag == "equal":
            continue
        if tag != "replace" or j - i != l - k:
            print(f"{label}: by hand: {a[i:j]} to {b[k:l]}")
            continue
        for was, now in zip(a[i:j], b[k:l]):
            if was != now:
                if old.count(was) != 1:
                    print(f"{label}: by hand: not once: {was}")
                yield f"old: {was}\nnew: {now}\n"


def take(root, plain, out):
    for crate, name, text in edits(root):
        files = [line[len("file: ") :].strip() for line in text.split("\n") if line.startswith("file: ")]
        wanted = {path: read(f"{root}/crates/{crate}/{beside(path, name)}") for path in files}
        turned = text
        if edited(text, lambda path: read(f"{plain}/crates/{crate}/{path}")) != wanted:
            turned = "".join(line + "\n" for line in text.split("\n") if line.startswith("#"))
            for path, new in wanted.items():
                turned += f"file: {path}\n" + "".join(pairs(read(f"{plain}/crates/{crate}/{path}"), new, f"{crate}/{name}"))
        write(f"{out}/crates/{crate}/must-fail/{name}.edit", turned)


if sys.argv[1:2] == ["lay"] and len(sys.argv) == 3:
    lay(sys.argv[2])
elif sys.argv[1:2] == ["take"] and len(sys.argv) == 5:
    take(*sys.argv[2:])
else:
    sys.exit(__doc__)
