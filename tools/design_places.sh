#!/bin/sh
# Lists, for each point of docs/DESIGN-PASS.md, the lines of src/ at which a place of that point may stand: at the top of a checkout,
# `tools/design_places.sh` for all points or `tools/design_places.sh 3` for one; `.. | grep -c ^crates` counts. Which of these lines
# are places is said in the page.
cd "$(dirname "$0")/.." || exit 1

lines() { grep -rnE --include='*.rt' "$1" crates/*/src | grep -v 'ghost use'; }

# enums of the repository; results and options that a match only passes on; functions that answer a flag
point_1() {
    lines '^ *(pub(\(crate\))? )?enum '
    lines '(Err|None)(\([a-z_]+\))? => (return|Err|None|cores)|=> return Err|Ok\([a-z]+\) => [a-z]+,|Err\(_\) =>'
    lines '^ *(pub(\(crate\))? )?fn .*-> (Result<)?bool|^ *\) -> (Result<)?bool'
}

# pairs of places that share six lines or more, or their shape
point_2() {
    folder=$(mktemp -d)
    for file in crates/*/src/*.rt; do
        grep -v 'ghost use' "$file" >"$folder/$(echo "$file" | sed 's|/|-|g; s|rt$|rs|')"
    done
    duplicates --repo "$folder" --most 200 --min-lines 6 --seconds 120 | sed -n 's/^D[0-9]* //p'
    rm -r "$folder"
}

# loops over a range or with a condition
point_3() {
    lines 'for [a-z_]+ in .*\.\.|^ *while |^ *loop \{'
}

# functions that print by hand, refusals that are built by hand, kinds and numbers that are matched one for one
point_4() {
    lines 'fn [a-z_]*(text|line)[a-z_]*[<(]'
    lines 'Refusal \{$|Refusal \{ cause'
    lines '(Kind|Cause)::[A-Za-z]+ => |=> Kind::'
}

# facts of contracts, how often each is asked
point_5() {
    grep -rhoE --include='*.rt' 'requires [a-z_]* ?\{.*\}' crates/*/src | sed -E 's/requires [a-z_]* ?\{ //; s/ \}$//' \
        | sort | uniq -c | sort -rn | awk '$1 > 1' | sed 's/^/crates: /'
}

# arrays of a fixed length, outside tests
point_6() {
    lines '\[[^][]*; *([0-9A-Z_]+)\]' | grep -v '_cases/\|_tests/\|tests.rt\|marked/src/lib.rt'
}

# enums again, and matches that choose what to do
point_7() {
    lines '^ *(pub(\(crate\))? )?enum '
    lines '^ *(return )?match '
}

# answers in proof files
point_8() {
    grep -rnE --include=Answers.antt '^(pub )?[a-zA-Z0-9_-]+( [a-z_]+)* =' crates/*/proofs
}

for point in ${1:-1 2 3 4 5 6 7 8}; do
    [ -n "$1" ] || echo "== point $point"
    "point_$point"
done
