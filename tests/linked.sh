#!/usr/bin/env bash
# linked.sh SECONDS: the static library from C and from Rust, each example against its stored output, what the header says of lent memory,
# and every exported function against the model on random, damaged and odd input and on lists of calls, for so many seconds. The library is
# made first, unless LIBRARY=made says that it is.
set -euo pipefail
cd "$(dirname "$0")/.."
[ "${LIBRARY:-}" = made ] || (cd crates/effbd_c && rt lib > /dev/null)
program=$(mktemp)
trap 'rm -f "$program"' EXIT
linked() { gcc -O2 -Wall -Wextra -Werror -o "$program" "$1" crates/effbd_c/out/libeffbd_c.a; }
linked bindings/c/example.c
"$program" | diff bindings/c/example.txt -
linked tests/lent.c
"$program"
cargo run --offline --quiet --release --package effbd --example example_a | diff bindings/rust/examples/example_a.txt -
cargo test --offline --quiet --release --package effbd --package compare
cargo run --offline --quiet --release --package compare --bin compare -- "$(date +%s)" "$1"
