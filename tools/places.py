#!/usr/bin/env python3
"""Counts the places in crates/*/src that could have another form, point by point of docs/DESIGN-PASS.md.

    python3 tools/places.py [-v] [COMMIT]      without a commit the files as they stand; -v prints each place
"""
import re
import subprocess
import sys

POINTS = [
    ("1a the old enum of answers: a case named", r"\bAnswer::(?:Accepted|Refused)\b"),
    ("1b own types of a number beside a value", r"\b(?:struct|enum) (?:Answer|Judgement|Reached|Run|Construct)\b|^pub\(crate\) struct Refusal\b|^    pub number: u16,$"),
    ("1c faults answered as a number, 0 for none", r"fn \w*fault\w*(?:<[^>]*>)?\([^)]*\) -> u16"),
    ("1d a fault compared with 0", r"\b(?:\w*fault|wrong|last|walk\.number|reached\.fault|\w+\.number)\b (?:!=|==) 0\b"),
    ("1e refusals as constants of numbers", r"^pub const \w+: u16 = \d+;$", "effbd/src/refusals.rt"),
    ("1f a refusal named by a number", r"\brefusals::[A-Z_]+\b"),
    ("1g kinds and codes as constants of numbers", r"^(?:pub )?const \w+: u16 = \d+;$", "kinds/src/lib.rt|effbd/src/moves.rt|calls/src/lib.rt|telegrams/src/lib.rt|net_uses/src/lib.rt"),
    ("1h functions that answer a number for none (0, or how many there are)", r"fn (?:\w*_size|size_by|lowest|next_busy|outlet_of|first_outlet|blocked_item|blocked_in|behind_close|call_length)\("),
    ("2  twins, by name", r"fn (?:move_small|move_large|try_plain|try_long|plain_start|plain_end|plain_function|trigger_start|trigger_end|trigger_function|count_loops|count_boxes|front|copy_front|first|row_before|before|less_one|known_word|field|check_up|check_down|write_up|write_down|put_whole|put_cut|fill_hour|step_plain|step_table|is_telegram|is_old_telegram|write_telegram|write_old_telegram|equal_arcs|equal_marks|early|late|old_fault|new_fault|net_lowered|lowered|raised|larger|changed|known|known_count)[<(]"),
    ("3a while loops", r"\bwhile\b(?= )"),
    ("3b loop without a head", r"\bloop \{"),
    ("3c an index counted by hand", r"^\s+\w+ \+= 1;$"),
    ("4  values copied field by field, conversions by a match", r"^\s+(?:most|at|latest|since|starts|time|from|to): (?:window|joined)\.\w+,$|=> (?:true|false),$"),
    ("5a table, rows, items or file passed side by side", r"fn \w+(?:<[^>]*>)?\((?=[^)]*\btable: &)(?=[^)]*\b(?:rows|file): )[^)]*\)"),
    ("5b area or text and position passed side by side", r"fn \w+(?:<[^>]*>)?\((?=[^)]*\b(?:area|text): &mut \[u8\])(?=[^)]*\bat: usize)[^)]*\)"),
    ("5c the net's transitions and their number side by side", r"fn \w+(?:<[^>]*>)?\((?=[^)]*\btransitions: &\[u8\])(?=[^)]*\bcount: u16)[^)]*\)"),
    ("5d both ends of the bus side by side", r"fn \w+(?:<[^>]*>)?\((?=[^)]*\bleader: &)(?=[^)]*\bfollower: &)[^)]*\)"),
    ("5e code and argument side by side", r"fn \w+(?:<[^>]*>)?\((?=[^)]*\bcode: u16)(?=[^)]*\bargument: u16)[^)]*\)"),
    ("6  a buffer with the length that it is used to beside it", r"&(?:mut )?\w+\[\.\.(?:\w+|\w+\.\w+)(?: as usize)?\]"),
    ("7  a switch on a kind that picks the step to run", r"^\s+(?:kinds::\w+|TAKE|CLEAR|1|2|Renewal::\w+\(\w+\)) => \w+(?:::\w+)*\("),
]


def files(commit):
    if commit:
        names = subprocess.run(["git", "ls-tree", "-r", "--name-only", commit, "crates"], capture_output=True, text=True, check=True).stdout
    else:
        names = subprocess.run(["git", "ls-files", "crates"], capture_output=True, text=True, check=True).stdout
    for name in names.split("\n"):
        if re.fullmatch(r"crates/\w+/src/(?:\w+/)*\w+\.rt", name):
            if commit:
                yield name, subprocess.run(["git", "show", f"{commit}:{name}"], capture_output=True, text=True, check=True).stdout
            else:
                with open(name) as file:
                    yield name, file.read()


def main():
    words = sys.argv[1:]
    loud = "-v" in words
    words = [word for word in words if word != "-v"]
    texts = list(files(words[0] if words else None))
    for label, pattern, *where in POINTS:
        found = []
        for name, text in texts:
            if where and not re.search(where[0], name):
                continue
            # Comments are prose.
            code = re.sub(r"//[^\n]*", lambda m: " " * len(m.group()), text)
            for match in re.finditer(pattern, code, re.M):
                found.append(f"{name}:{code.count(chr(10), 0, match.start()) + 1}")
        print(f"{label}: {len(found)}")
        if loud:
            for place in found:
                print(f"    {place}")


main()
