#!/usr/bin/env bash
# sizes.sh: a table for a landing's note (docs/requests/TEMPLATE.md), a line a crate: functions, lines of code, of definitions (files of specs/
# whose header says "Assumes nothing"), of mathematics (the other files of specs/, and the lemmas of proofs/), of functions' proofs
# (Invariants.antt, Answers.antt and Proof.antt in the folders of proofs/), and must-fail edits.
set -euo pipefail
cd "$(dirname "$0")/.."

work=$(mktemp -d)
trap 'rm -rf "$work"' EXIT
files() { if [ -d "$1" ]; then find "$@"; fi; }
# The files of functions' proofs: proofs/FUNCTION/Invariants.antt and its like.
of_functions=(-mindepth 2 '(' -name Invariants.antt -o -name Answers.antt -o -name Proof.antt ')')
# Of files that are named on standard input, one to a line: how many lines they have; those that define, and those that don't.
lines() { xargs -r -d '\n' cat | wc -l; }
defining() { xargs -r -d '\n' grep -l 'Assumes nothing' || true; }
proving() { xargs -r -d '\n' grep -L 'Assumes nothing' || true; }

while IFS= read -r crate; do
    folder=crates/$crate
    functions=$(files "$folder/src" -name '*.rt' | xargs -r -d '\n' sed -n -E '/^ *(pub(\(crate\))? )?(extern "C" )?fn /p' | wc -l)
    code=$(files "$folder/src" -name '*.rt' | lines)
    definitions=$(files "$folder/specs" -name '*.antt' | defining | lines)
    mathematics=$({ files "$folder/specs" -name '*.antt' | proving; comm -23 <(files "$folder/proofs" -name '*.antt' | sort) <(files "$folder/proofs" "${of_functions[@]}" | sort); } | lines)
    proofs=$(files "$folder/proofs" "${of_functions[@]}" | lines)
    edits=$(files "$folder/must-fail" -name '*.edit' | wc -l)
    echo "$crate $functions $code $definitions $mathematics $proofs $edits"
done < <(sed -n -E 's/^([a-z0-9_]+)( staticlib)? *:.*/\1/p' crates.txt) > "$work/table"

awk '
    function row(    i) { printf "|"; for (i = 1; i <= 7; i++) printf " %s |", cell[i]; print "" }
    BEGIN {
        print "| crate | functions | code | definitions | mathematics | functions'"'"' proofs | edits |"
        print "|---|---|---|---|---|---|---|"
    }
    { for (i = 1; i <= 7; i++) { cell[i] = i == 1 ? "`" $1 "`" : $i; sum[i] += $i }; row() }
    END { cell[1] = "all"; for (i = 2; i <= 7; i++) cell[i] = sum[i]; row() }
' "$work/table"
