#!/usr/bin/env bash
# The tool rink: its tests, with the library and the annex program that rt made; the shipped diagrams are what their texts make, the
# pictures in docs/ what is drawn of them now, the lesson prints what is stored of it, the runs of telegrams are what the other one
# gives; every drawing and page of them is well-formed for a reader of XML that is not ours.
set -euo pipefail
cd "$(dirname "$0")/.."
cargo test --offline --quiet --release --package rink
cargo build --offline --quiet --release --package rink
rink=target-rust/release/rink
folder=$(mktemp -d)
trap 'rm -rf "$folder"' EXIT

drawn=0
for text in examples/*.plant; do
    name=$(basename "$text" .plant)
    diagram=examples/$name.dia
    "$rink" make "$text" | cmp - "$diagram"
    "$rink" draw "$diagram" -o "$folder/$name.svg"
    "$rink" draw --net "$diagram" -o "$folder/$name-net.svg"
    "$rink" annex "$diagram" -o "$folder/$name.html"
    drawn=$((drawn + 1))
done
python3 -c 'import sys, xml.dom.minidom as xml; [xml.parse(name) for name in sys.argv[1:]]' "$folder"/*
for picture in docs/pictures/*.svg; do
    cmp "$picture" "$folder/$(basename "$picture")"
done
"$rink" play --script examples/pump-down.lesson examples/pump-down.dia | cmp - examples/pump-down.lesson.txt
"$rink" up --station 7 --first 1 examples/old-panel.run | cmp - examples/new-bus.run
"$rink" down examples/new-bus.run 2> "$folder/said" | cmp - examples/old-panel.run
grep -q 'rink up --station 7 --first 1' "$folder/said"
echo "rink.sh: $drawn plants made, drawn and printed"
