#!/bin/sh
# Runs the proved annex program (crates/annex/out/annex, or the first argument) and compares what it prints with the text
# that the plain Rust model expects: on every shipped example, on each followed by more bytes than any diagram file has,
# and on 3,000 generated files, some of them with nets that are longer than the program's area. Prints one line, and of each difference the
# file whole; exit status 1 on any.
set -eu
cd "$(dirname "$0")/.."
program=${1:-crates/annex/out/annex}
[ -x "$program" ] || { echo "annex.sh: no program at $program: run rt ci, or rt run in crates/annex, first"; exit 1; }

folder=$(mktemp -d)
trap 'rm -rf "$folder"' EXIT
cargo build --quiet --release --package model
target-rust/release/corpus 1 3000 "$folder"
for example in examples/*.dia; do
    name=$(basename "$example" .dia)
    cp "$example" "examples/$name.txt" "$folder"
    { cat "$example"; head -c 70000 /dev/zero; } > "$folder/$name-long.dia"
    target-rust/release/annex < "$folder/$name-long.dia" > "$folder/$name-long.txt"
done

compared=0
different=0
for file in "$folder"/*.dia; do
    compared=$((compared + 1))
    "$program" < "$file" > "$folder/printed"
    if ! cmp -s "$folder/printed" "${file%.dia}.txt"; then
        different=$((different + 1))
        { echo "annex.sh: another text for $(basename "$file") (seed 1), whose bytes are"
          od -A n -t x1 "$file"
          echo "< the model, > the program"
          diff "${file%.dia}.txt" "$folder/printed" || true; } >&2
    fi
done
longer=$(grep -l '^refused 10 ' "$folder"/*.txt | wc -l)
echo "annex.sh: $compared files compared, $longer of them with a net longer than the area, $different with another text"
[ "$different" -eq 0 ] && [ "$longer" -gt 0 ]
