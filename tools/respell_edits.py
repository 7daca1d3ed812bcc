#!/usr/bin/env python3
"""Brings the must-fail edits to today's spelling: what port.py and respell.py make of the wrong files, beside what they made of the right ones.

usage: python3 tools/respell_edits.py FOLDER      at the top of the repository; FOLDER is kept, and read again where its rounds are there

In FOLDER/round0.. stand clones at BEFORE, the last commit in the older spelling, each with as many of the edits made as stand at least APART lines from one
another in one file. Each is turned by port.py and tools/respell.py (some eight minutes each), as the right files were, from BEFORE to AFTER. A line that then
differs from AFTER's is a wrong line in today's spelling; the lines of a file keep their order, so the nth is the nth pair's. Of it an edit keeps as many words
before and after the difference as the older edit kept, and more where the text would stand twice; an older pair that still gives the wrong line stays as it is.
Comments and names stay. Standard error tells what could not be read off, and lines to look at since they are hardly like the older ones.
"""
import collections
import difflib
import os
import re
import subprocess
import sys

BEFORE = "3c070af7e6d8fe21bf75085c635d9b8af8f42b29"
AFTER = "e4d28e819de52dd062c5d74a2f559023497bf21b"
ROUNDS = 3
APART = 5
PORT = "/opt/rattle/port/port.py"
TOKEN = re.compile(r"\s+|◌[^\s◌,(){}]+◌|[\w'′]+|.")


def git(*words, folder="."):
    return subprocess.run(["git", "-C", folder, *words], check=True, capture_output=True, text=True).stdout


def lines_of(commit, path, kept={}):
    if (commit, path) not in kept:
        kept[commit, path] = git("show", f"{commit}:{path}").splitlines()
    return kept[commit, path]


def edits():
    """By the edit's path, as it stood at BEFORE: its pairs, each (file, number of its line, right line, column, old text, new text)."""
    found = {}
    for edit in git("ls-tree", "-r", "--name-only", BEFORE, "crates").splitlines():
        if not edit.endswith(".edit"):
            continue
        made, pairs, path, old = {}, [], None, None
        for l in lines_of(BEFORE, edit):
            if l.startswith("file: "):
                path = edit.split("/must-fail/")[0] + "/" + l[6:]
            elif l.startswith("old: "):
                old = l[5:]
            elif l.startswith("new: "):
                text = made.setdefault(path, list(lines_of(BEFORE, path)))
                at = [n for n, x in enumerate(text) if old in x]
                assert len(at) == 1 and text[at[0]].count(old) == 1, (edit, old)
                line = text[at[0]]
                pairs.append((path, at[0], line, line.index(old), old, l[5:]))
                text[at[0]] = line.replace(old, l[5:])
        found[edit] = pairs
    return found


def rounds(all_edits):
    took = [collections.defaultdict(list) for _ in range(ROUNDS)]
    mine = [[] for _ in range(ROUNDS)]
    for edit in sorted(all_edits, key=lambda e: (-len(all_edits[e]), e)):
        pairs = all_edits[edit]
        fit = [k for k in range(ROUNDS) if all(abs(p[1] - n) >= APART for p in pairs for n in took[k][p[0]])]
        k = min(fit, key=lambda k: (sum(len(took[k][f]) for f in {p[0] for p in pairs}), len(mine[k])))
        for p in pairs:
            took[k][p[0]].append(p[1])
        mine[k].append(edit)
    return mine


def turned(folder, pairs):
    """Makes the clone at folder, with these pairs made, and turns it."""
    done, folder = folder, folder + ".begun"
    git("clone", "-q", ".", folder)
    git("checkout", "-q", BEFORE, folder=folder)
    for path, _, _, _, old, new in pairs:
        with open(os.path.join(folder, path), encoding="utf-8") as it:
            text = it.read()
        assert text.count(old) == 1, (path, old)
        with open(os.path.join(folder, path), "w", encoding="utf-8") as it:
            it.write(text.replace(old, new))
    git("-c", "user.name=edits", "-c", "user.email=edits", "commit", "-qam", "Wrong files", folder=folder)
    subprocess.run([sys.executable, PORT], cwd=folder, check=True)
    subprocess.run([sys.executable, os.path.abspath("tools/respell.py")], cwd=folder, check=True)
    os.rename(folder, done)


def differences(right, wrong):
    """The lines that differ, as (lines of right, lines of wrong), line by line where there are as many."""
    found = []
    for tag, a, b, c, d in difflib.SequenceMatcher(None, right, wrong, autojunk=False).get_opcodes():
        if tag != "equal" and b - a == d - c:
            found += [(right[a + k], wrong[c + k]) for k in range(b - a)]
        elif tag != "equal":
            found.append(("\n".join(right[a:b]), "\n".join(wrong[c:d])))
    return found


def bare(text):
    """A text without its layout."""
    return re.sub(r",(?=[)\]}])", "", re.sub(r"\s", "", text))


def ends(a, b):
    """How many tokens a and b share at their head, and behind that at their end."""
    head = 0
    while head < min(len(a), len(b)) and a[head] == b[head]:
        head += 1
    tail = 0
    while tail < min(len(a), len(b)) - head and a[-1 - tail] == b[-1 - tail]:
        tail += 1
    return head, tail


def is_word(token):
    return re.match(r"\w", token)


def back(tokens, as_in):
    """How many tokens of the end of tokens hold as many words as as_in, with the signs that stand before them there."""
    words = sum(1 for t in as_in if is_word(t))
    signs = next((n for n, t in enumerate(as_in) if is_word(t)), len(as_in))
    n = 0
    while n < len(tokens) and words:
        n += 1
        words -= bool(is_word(tokens[-n]))
    while n < len(tokens) and signs and not is_word(tokens[-1 - n]):
        n += 1
        signs -= 1
    return n


def cut(pairs, right, wrong, text):
    """The piece of the right line, and of the wrong one, with as many words around the difference as the older pairs of that line kept."""
    _, _, line, _, old, new = pairs[0]
    if len(pairs) == 1 and right.count(old) == 1 and bare(right.replace(old, new)) == bare(wrong) and sum(l.count(old) for l in text) == 1:
        return old, new
    if "\n" in right + wrong:
        return right, right
    a, b = TOKEN.findall(right), TOKEN.findall(wrong)
    head, tail = ends(a, b)
    was, is_now = TOKEN.findall(old), TOKEN.findall(new)
    was_head, was_tail = ends(was, is_now) if len(pairs) == 1 else (0, 0)
    if line.strip() == old.strip():
        if re.match(r"\s*use ", line) and head + tail == len(a):
            # A name more in a list of imports: behind the list's first, so that the rest of the list doesn't matter.
            added = re.sub(r"^, |, $", "", "".join(b[head : len(b) - tail]))
            opened = right[: right.index(",") + 1]
            return opened, f"{opened} {added},"
        return (right, wrong) if old[0] == " " else (right.strip(), wrong.strip())
    first = head - back(a[:head], was[:was_head])
    last = tail - back(a[len(a) - tail :][::-1], was[len(was) - was_tail :][::-1])
    while True:
        piece = "".join(a[first : len(a) - last])
        if piece and piece == piece.strip() and sum(l.count(piece) for l in text) == 1 or not first and not last:
            return piece, "".join(b[first : len(b) - last])
        if first and (not last or head - first <= tail - last):
            first -= 1
        else:
            last -= 1


def near(a, b):
    return difflib.SequenceMatcher(None, re.sub(r"\W|_", "", a).lower(), re.sub(r"\W|_", "", b).lower()).ratio()


def main(argv):
    top = argv[0]
    every = edits()
    result = {}
    for k, mine in enumerate(rounds(every)):
        folder = os.path.join(top, f"round{k}")
        if not os.path.isdir(folder):
            turned(folder, [p for e in mine for p in every[e]])
        places = collections.defaultdict(list)
        for e in mine:
            for p in every[e]:
                if (p[0], p[1]) not in [(q[0][0], q[0][1]) for _, q in places[p[0]]]:
                    places[p[0]].append((e, [q for q in every[e] if q[:2] == p[:2]]))
        for path, at in places.items():
            at.sort(key=lambda x: x[1][0][1])
            with open(os.path.join(folder, path), encoding="utf-8") as it:
                wrong = it.read().splitlines()
            found = differences(lines_of(AFTER, path), wrong)
            if len(found) != len(at):
                print(f"{path}: {[(e, [q[4:] for q in p]) for e, p in at]} differ as {found}", file=sys.stderr)
                continue
            for (edit, pairs), (r, w) in zip(at, found):
                if not re.match(r"\s*use ", r) and near(pairs[0][2], r) < 0.8:
                    print(f"{edit}: a line of another place? {pairs[0][2]} | {r}", file=sys.stderr)
                result[edit, path, pairs[0][1]] = pairs, r, w
    for edit, pairs in every.items():
        made, said = {}, {}
        for path, n, *_ in pairs:
            if (path, n) in said or (edit, path, n) not in result:
                continue
            text = made.setdefault(path, list(lines_of(AFTER, path)))
            old, new = cut(*result[edit, path, n], text)
            said[path, n] = old, new
            at = [k for k, l in enumerate(text) if old in l]
            if len(at) != 1 or old == new:
                print(f"{edit}: stands {len(at)} times: {old} | {new}", file=sys.stderr)
            for k in at[:1]:
                text[k] = text[k].replace(old, new)
        if len(said) < len({p[:2] for p in pairs}):
            print(f"{edit}: not all of it was read off", file=sys.stderr)
            continue
        out, pairs_left, told = [], list(pairs), set()
        for l in lines_of(BEFORE, edit):
            if l.startswith("old: "):
                path, n, *_ = pairs_left.pop(0)
                if (path, n) not in told:
                    told.add((path, n))
                    out += ["old: " + said[path, n][0], "new: " + said[path, n][1]]
            elif not l.startswith("new: "):
                out.append(l)
        with open(edit, "w", encoding="utf-8") as it:
            it.write("\n".join(out) + "\n")


if __name__ == "__main__":
    main(sys.argv[1:])
