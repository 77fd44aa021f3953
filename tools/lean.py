#!/usr/bin/env python3
"""Drops, in the proofs of one crate, the answers that the check finds alone, and the helpers that then have no use.

    python3 tools/lean.py crates/NAME        over a crate that proves, in a clean checkout; then `rt tidy`, `rt must-fail NAME` and the diff

All answers are taken away, the check says which goals are open under half of its limits, and those answers come back, until the crate proves.
"""
import glob
import os
import re
import subprocess
import sys
import time

ANSWER = re.compile(r"^(?:--.*\n)*pub (\S+) : goal\.(\S+)")
SIGNED = re.compile(r"^(?:--.*\n)*(?:pub )?(\S+) :")


def blocks_of(text):
    return re.split(r"\n\n+", text.strip("\n"))


def answered(block):
    found = ANSWER.match(block)
    return found.group(1) if found and found.group(1) == found.group(2) else None


def unused(blocks):
    """The place of a helper that no other block names."""
    for i, block in enumerate(blocks):
        name = SIGNED.match(block)
        if answered(block) or block.startswith("use ") or not name:
            continue
        rest = "\n\n".join(blocks[:i] + blocks[i + 1 :])
        if not re.search(r"(?<![\w'\-])" + re.escape(name.group(1)) + r"(?![\w'\-])", rest):
            return i
    return None


def write(path, text, needed):
    blocks = [b for b in blocks_of(text) if answered(b) is None or answered(b) in needed]
    while (i := unused(blocks)) is not None:
        blocks.pop(i)
    if any(answered(b) for b in blocks):
        with open(path, "w") as file:
            file.write("\n\n".join(blocks) + "\n")
    elif os.path.exists(path):
        os.remove(path)


def check(*options):
    start = time.time()
    run = subprocess.run(["rt", "check", *options], capture_output=True, text=True)
    return run.returncode, run.stdout + run.stderr, time.time() - start


def open_goals(said):
    found, current = set(), None
    for line in said.split("\n"):
        place = re.search(r"\./(proofs/\S+/Answers\.antt) with", line)
        if place:
            current = place.group(1)
        goal = re.match(r"\s+pub (\S+) : goal\.\1", line)
        if goal and current:
            found.add((current, goal.group(1)))
    for place, goals in re.findall(r"expected answers in \./(proofs/\S+/Answers\.antt); `search` did not prove (.*)", said):
        found |= {(place, goal) for goal in re.findall(r"`([^`]+)`", goals)}
    for place, name in re.findall(r"\./(proofs/\S+/Answers\.antt):\d+:\d+: (?:error|note): `([^`]+)`", said):
        found.add((place, name))
    return found


def main():
    os.chdir(sys.argv[1])
    whole = {p: open(p).read() for p in sorted(glob.glob("proofs/**/Answers.antt", recursive=True))}
    needed = {p: set() for p in whole}
    has = {p: {answered(b) for b in blocks_of(t)} - {None} for p, t in whole.items()}
    while True:
        for path, text in whole.items():
            write(path, text, needed[path])
        _, said, seconds = check("--allow-holes", "--margin")
        more = {(p, g) for p, g in open_goals(said) if p in has and g in has[p] - needed[p]}
        print(f"{seconds:.0f} s, {len(more)} goals open", flush=True)
        if not more:
            break
        for path, goal in more:
            needed[path].add(goal)
    status, said, seconds = check()
    print(f"answers {sum(map(len, has.values()))} -> {sum(map(len, needed.values()))}, {'proved' if status == 0 else 'NOT PROVED'} in {seconds:.0f} s")
    return status


if __name__ == "__main__":
    sys.exit(main())
