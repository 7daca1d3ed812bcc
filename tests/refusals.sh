#!/usr/bin/env bash
# The refusals' numbers, names and words are those of refusals.txt in every place that has them: Rattle, C, Rust and the model.
# A line of such a place that is not in its usual form is compared as it stands, so it differs. Exit status 1 on any difference.
set -euo pipefail
cd "$(dirname "$0")/.."
tab=$'\t'
status=0

# The list itself: number, name, words.
list() { sed '/^#/d' refusals.txt; }
# The same without the words, for places that have none.
numbers() { list | cut -f 1,2; }

# same PLACE EXPECTED FOUND
same() {
    if ! diff <(printf '%s\n' "$2") <(printf '%s\n' "$3"); then
        echo "refusals.sh: $1 differs from refusals.txt (< the list, > this place)" >&2
        status=1
    fi
}

# Every constant of a file: constants FILE TYPE
constants() { sed -n "/\bconst\b/{s/^pub const \([A-Z0-9_]*\): $2 = \([0-9]*\);\$/\2$tab\1/;p}" "$1"; }
# The lines between two that stand alone: block FILE FIRST LAST
block() { sed -n "/^$2\$/,/^$3\$/{/^$2\$/d;/^$3\$/d;p}" "$1"; }

well_formed=$(list | grep -cE "^[0-9]+$tab[A-Z][A-Z0-9_]*$tab[^\"]+\$")
same "the form of a line" "$(list | wc -l)" "$well_formed"
same "the order, or a number that stands twice," "$(list | cut -f 1 | sort -n -u)" "$(list | cut -f 1)"
same "a name that stands twice" "" "$(list | cut -f 2 | sort | uniq -d)"

# The cases of Reason in capitals, without the last, which is no refusal of the list.
rattle=crates/effbd/src/refusals.rt
cases=$(block $rattle 'pub enum Reason {' '}' | sed '/^    \/\//d;/^    TableOff = 65535,$/d;s/^    \([A-Za-z0-9]*\) = \([0-9]*\),$/\2\t\1/' |
    sed 's/\([a-z0-9]\)\([A-Z]\)/\1_\2/g' | tr '[:lower:]' '[:upper:]')
same $rattle "$(numbers)" "$cases"
same model/src/refusal.rs "$(numbers)" "$(constants model/src/refusal.rs u32)"

rust=bindings/rust/src/lib.rs
same $rust "$(list)" "$(block $rust 'refusals! {' '}' | sed "s/^    \([0-9]*\) \([A-Z0-9_]*\) \"\([^\"]*\)\"\$/\1$tab\2$tab\3/")"

header=bindings/c/effbd.h
same $header "$(numbers)" "$(block $header 'enum effbd_refusal {' '};' | sed "s/^    EFFBD_\([A-Z0-9_]*\) = \([0-9]*\),\$/\2$tab\1/")"
# The words' cases stand between the accepted one and the default.
same "$header, effbd_words," "$(list | cut -f 2,3)" "$(block $header '    case EFFBD_ACCEPTED: .*' '    default: .*' |
    sed "s/^    case EFFBD_\([A-Z0-9_]*\): return \"\([^\"]*\)\";\$/\1$tab\2/")"

[ $status -eq 0 ] && echo "refusals.sh: $(list | wc -l) refusals, the same in Rattle, C, Rust and the model"
exit $status
