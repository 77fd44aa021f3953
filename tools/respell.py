#!/usr/bin/env python3
"""Gives this repository's own definitions and lemmas the spelling of the library: words in snake case, a dash only between two names.

usage: python3 tools/respell.py [ROOT]

Run it once, right after the toolchain's port.py, on the same tree; a second run stops, since two rows give a name that a third has turned. tools/respell.tsv has a row for each name: old, a tab, new.
It turns whole words in crates/*/specs and crates/*/proofs, and the clauses and ghost imports of crates/*/src. Comments and strings stay, but for
what a comment has between backticks. Words of Rust code stay: none of the rows is spelled like one, but for the names in PLAIN, which turn in
proofs alone, and not behind a dot.
"""
import os
import re
import sys

HERE = os.path.dirname(os.path.realpath(__file__))
ROOT = sys.argv[1] if len(sys.argv) > 1 else os.path.dirname(HERE)
with open(os.path.join(HERE, "respell.tsv"), encoding="utf-8") as table:
    ROWS = dict(line.rstrip("\n").split("\t") for line in table)
PLAIN = {old for old in ROWS if re.fullmatch(r"[a-z0-9_]+", old)}
WORD = re.compile(r"[^\s(){}.;,@\"«»`]+")
QUIET = {".antt": re.compile(r'"(?:[^"\\\n]|\\.)*"|(?<![^\s(){}.;,@"«»])--[^\n]*'), ".rt": re.compile(r'"(?:[^"\\\n]|\\.)*"|//[^\n]*')}


def turned(text, kind, made):
    def word(m):
        old = m.group(0)
        behind_dot = m.start() > 0 and text[m.start() - 1] == "."
        if old in PLAIN and (kind != ".antt" or behind_dot):
            return old
        if made and behind_dot and "-" in old:
            return old
        return ROWS.get(old, old)

    return WORD.sub(word, text)


def file_turned(text, kind, made):
    parts, at = [], 0
    for quiet in QUIET[kind].finditer(text):
        parts.append(turned(text[at : quiet.start()], kind, made))
        said = quiet.group(0)
        parts.append(said if said.startswith('"') else re.sub(r"`[^`\n]+`", lambda m: turned(m.group(0), kind, made), said))
        at = quiet.end()
    return "".join(parts) + turned(text[at:], kind, made)


def already(texts):
    """No name is left that only an older spelling has, in lower camel case."""
    camel = {old for old in ROWS if re.fullmatch(r"[a-z]+(?:[A-Z][a-z0-9]*)+", old)}
    code = (QUIET[os.path.splitext(path)[1]].sub("", text) for path, text in texts.items())
    return not any(camel.intersection(WORD.findall(text)) for text in code)


def main():
    texts = {}
    for folder, folders, files in os.walk(os.path.join(ROOT, "crates")):
        folders[:] = [f for f in folders if f != "out"]
        for name in files:
            if os.path.splitext(name)[1] in QUIET:
                path = os.path.join(folder, name)
                with open(path, encoding="utf-8") as it:
                    texts[path] = it.read()
    if already(texts):
        sys.exit("respell: these names are turned already")
    for path, text in texts.items():
        made = bool(re.search(r"/proofs/.+/", path.split("/crates/")[1]))
        new = file_turned(text, os.path.splitext(path)[1], made)
        if new != text:
            with open(path, "w", encoding="utf-8") as it:
                it.write(new)


main()
