#!/usr/bin/env python3
"""Brings the repository's own definitions and lemmas to today's spelling: words in snake case, a constructor or a definition of several words joined by _.

usage: python3 tools/respell.py [FOLDER]      run once, after the toolchain's port.py, at the top of the repository

Types, modules, the functions of src/, exported names, text between quotes, inputs and outputs keep their names. A dash in a lemma's name joins two
names, and stays. Six names of records would fall together with a kind of row: they say that they are records.
"""
import os
import re
import sys

# What a word would fall together with, or does not follow by rule.
NAMED = {
    "andOpen": "and_open_records",
    "andClose": "and_close_records",
    "orClose": "or_close_records",
    "itOpen": "it_open_records",
    "loopExit": "loop_exit_records",
    "boxExit": "box_exit_records",
}
# Definitions and constructors of several words.
DASHED = """and-open and-close or-open or-close it-open it-close lp-open lp-close loop-exit box-open box-close box-exit wait-ticks wrote-before
transition-text transition-record run-claims run-below put-digits-below put-digits-at old-stored falls-claims construct-claims construct-below
construct-at branches-claims branches-below arc-record plain-plant later-from""".split()
TOKEN = re.compile(r"(?<![\w'·◌-])[A-Za-z_][\w'′₀-₉]*(?:-[\w'′₀-₉]+)*")
QUOTED = re.compile(r'"(?:[^"\\\n]|\\.)*"')


def snake(word):
    return "-".join(re.sub(r"(?<=[a-z0-9'])([A-Z]+)", lambda m: "_" + m[1].lower(), p) if p[0].islower() else p for p in word.split("-"))


def own(token):
    if token in NAMED:
        return NAMED[token]
    if token in DASHED:
        return token.replace("-", "_")
    return snake(token)


def respelled(text, keep_quoted):
    def turn(piece):
        return TOKEN.sub(lambda m: own(m[0]), piece)

    if not keep_quoted:
        return turn(text)
    parts, at = [], 0
    for m in QUOTED.finditer(text):
        parts += [turn(text[at : m.start()]), m[0]]
        at = m.end()
    return "".join(parts) + turn(text[at:])


def main(argv):
    top = argv[0] if argv else "."
    for folder, dirs, files in os.walk(os.path.join(top, "crates")):
        dirs[:] = [d for d in dirs if d != "out"]
        for f in files:
            if f.endswith((".rt", ".antt")):
                path = os.path.join(folder, f)
                with open(path, encoding="utf-8") as it:
                    text = it.read()
                new = "".join(l if l.lstrip().startswith("use ") and f.endswith(".rt") else respelled(l, True) for l in text.splitlines(keepends=True))
                if new != text:
                    with open(path, "w", encoding="utf-8") as it:
                        it.write(new)


if __name__ == "__main__":
    main(sys.argv[1:])
