#!/usr/bin/env bash
# Old plants must not get slower: their calls' times with the library of an earlier landing beside those with this one, in one run.
#     bash tests/old-plants.sh OLD/libeffbd_c.a
# OLD is made by `rt lib` in crates/effbd_c of a clone of that landing; this one's by the same here. A process lays its stack where it likes,
# the linker lays functions one behind the other, and small plants feel both: both orders of the libraries are linked, and the least of several
# processes counts.
set -euo pipefail
cd "$(dirname "$0")/.."
made=$(mktemp -d)
trap 'rm -rf "$made"' EXIT
# All that the old library defines is renamed, so that both can be linked.
nm --defined-only --extern-only --format=posix "$1" 2>/dev/null | awk 'NF > 2 { print $1, "old_" $1 }' | sort -u > "$made/names"
objcopy --redefine-syms="$made/names" "$1" "$made/old.a"
linked() { gcc -O2 -Wall -Wextra -Werror -o "$made/$1" tests/old-plants.c "$2" "$3"; }
linked first crates/effbd_c/out/libeffbd_c.a "$made/old.a"
linked last "$made/old.a" crates/effbd_c/out/libeffbd_c.a
for _ in 1 2 3 4 5; do "$made/first"; "$made/last"; done | awk -F '\t' '
    !($1 in before) { order[++lines] = $1; before[$1] = $2; now[$1] = $3 }
    { if ($2 < before[$1]) before[$1] = $2; if ($3 < now[$1]) now[$1] = $3 }
    END {
        printf "%-24s %12s %12s %8s\n", "plant, call", "before", "now", "ratio"
        for (i = 1; i <= lines; i++) {
            name = order[i]
            printf "%-24s %9.1f ns %9.1f ns %8.2f\n", name, before[name], now[name], now[name] / before[name]
        }
    }'
