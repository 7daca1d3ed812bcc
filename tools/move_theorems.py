#!/usr/bin/env python3
"""Moves theorems out of specs/ into proofs/, where an edit of a definition beside them would read as one that can't be read: statements unchanged.

usage: python3 tools/move_theorems.py       run once, after respell.py; run again it only brings paths to the moved modules up to date

WHOLE are modules of lemmas that move as they stand. Of SPLIT modules the definitions named stay in specs/; the rest was moved by hand to a module of the
same name in proofs/, and imports follow here.
"""
import os
import re
import subprocess

WHOLE = {
    "agreement": """Matching Invariant TokenSteps FunctionSteps LoopSteps Waits Numbering StateCheck StateWords Moves NetSteps WellFormed Reached Demand
        Reach""".split(),
    "edition_laws": ["Calls"],
    "diagram_moves": ["RowStores", "TokenMoves", "FunctionMoves", "MovesAre", "FileMoves"],
}
SPLIT = {
    "agreement": {"Tokens": ["Real"], "Theorems": ["reached", "AgreeAt"]},
    "log_laws": {"SpanWalk": "reach Walk better turn walk no_walk Walked".split()},
    "edition_laws": {"Offers": "telegrams_of in_row Sent Unharmed".split(), "RoundTrips": "Numbered UpParts DownParts GivenBack".split()},
    "diagram_moves": {"BusyRows": "Idle four_sum".split()},
}


def parted(text):
    """Imports from a split module: what stays from specs/, the rest from proofs/."""
    for crate, modules in SPLIT.items():
        for m, stays in modules.items():

            def part(it):
                names = [n.strip() for n in it[2].split(",")]
                kept, gone = [n for n in names if n.split(" ")[0] in stays], [n for n in names if n.split(" ")[0] not in stays]
                lines = [f"{it[1]}Rattle.{crate}.{side}.{m}.{{{', '.join(some)}}}{it[3]}" for side, some in (("specs", kept), ("proofs", gone)) if some]
                return "\n".join(lines)

            text = re.sub(r"(?m)^((?:ghost )?use )Rattle\.%s\.(?:specs|proofs)\.%s\.\{([^}]*)\}(;?)" % (crate, m), part, text)
    return text


def paths():
    for folder, dirs, files in os.walk("crates"):
        dirs[:] = [d for d in dirs if d != "out"]
        for f in files:
            if f.endswith((".rt", ".antt", ".edit")):
                yield os.path.join(folder, f)


def main():
    moved = {}
    for crate, modules in WHOLE.items():
        for m in modules:
            old, new = f"crates/{crate}/specs/{m}.antt", f"crates/{crate}/proofs/{m}.antt"
            moved[f"Rattle.{crate}.specs.{m}"] = f"Rattle.{crate}.proofs.{m}"
            if os.path.exists(old):
                os.makedirs(os.path.dirname(new), exist_ok=True)
                subprocess.run(["git", "mv", old, new], check=True)
        specs, proofs = f"crates/{crate}/specs/Lib.antt", f"crates/{crate}/proofs/Lib.antt"
        with open(specs) as it:
            lines = it.read().split("\n")
        kept = [l for l in lines if l not in {f"pub mod {m}" for m in modules}]
        if kept != lines:
            with open(specs, "w") as it:
                it.write("\n".join(kept))
            had = open(proofs).read() if os.path.exists(proofs) else ""
            with open(proofs, "w") as it:
                it.write(had + "".join(f"pub mod {m}\n" for m in modules if f"pub mod {m}\n" not in had))
    names = re.compile("|".join(re.escape(o) + r"\b" for o in sorted(moved, key=len, reverse=True)))
    for p in paths():
        with open(p) as it:
            text = it.read()
        new = parted(names.sub(lambda m: moved[m[0]], text))
        if new != text:
            with open(p, "w") as it:
                it.write(new)


if __name__ == "__main__":
    main()
