#!/usr/bin/env bash
# Shows what each crate has. A log of `rt ci` tells the proved functions of each crate that it proved; of one whose proof is kept from an earlier run it
# tells none, and `rt ci --anew` proves all. The lines of code, definitions and proofs and the must-fail edits are counted in the crate's folder.
# No log tells the seconds that a crate takes, so their column in docs/measures.csv stays empty, and so does that of the functions where a proof was kept.
#   docs/measure.sh LOG                   prints the figures as a Markdown table, and changes no file
#   docs/measure.sh --append LANDING LOG  prints the same table, and adds a row for each crate to docs/measures.csv under the label LANDING
set -euo pipefail

fail() { # STATUS MESSAGE
    echo "$2" >&2
    exit "$1"
}

# The lines of a crate's files.
lines() { # CRATE FOLDER/PATTERN
    find "crates/$1" -path "crates/$1/$2" -exec cat {} + | wc -l
}

if [[ $# -eq 1 && $1 != -* ]]; then
    landing='' log=$1
elif [[ $# -eq 3 && $1 == --append && -n $2 ]]; then
    landing=$2 log=$3
else
    fail 2 "usage: docs/measure.sh LOG, or docs/measure.sh --append LANDING LOG"
fi
[[ -f $log && -r $log ]] || fail 1 "$log is not a file that can be read"
log_path=$(realpath -- "$log")
cd "$(dirname "$0")/.."

if [ -n "$landing" ]; then
    [[ $landing != *[,\"$'\r\n']* ]] || fail 1 "a label must have no comma, quote or line end"
    measures=$(<docs/measures.csv)
    [[ $'\n'$measures != *$'\n'"$landing",* ]] || fail 1 "docs/measures.csv has rows of $landing already"
fi

rows=()
while read -r crate; do
    # What is printed of a crate's proof stands together, from its heading to the line that it is proved. Its tests have a heading of their own.
    functions=$(awk -v heading="== $crate" -v function_of="fn $crate::" -v proved="rt: $crate proved" -v kept="rt: $crate is kept: " '
        index($0, kept) == 1 { print "kept"; exit }
        index($0, "== ") == 1 { inside = $0 == heading }
        inside && index($0, function_of) == 1 { functions++ }
        inside && $0 == proved { print functions + 0; exit }' "$log_path")
    [ -n "$functions" ] || fail 1 "$log does not say that $crate is proved"
    edits=$(find "crates/$crate" -path "crates/$crate/must-fail/*.edit" | wc -l)
    rows+=("$crate,,${functions/kept/},$(lines "$crate" 'src/*.rt'),$(lines "$crate" 'specs/*.antt'),$(lines "$crate" 'proofs/*.antt'),$edits")
done < <(sed -nE 's/^([a-z0-9_]+)( [^:]*)?:.*/\1/p' crates.txt)

printf '%s\n' "${rows[@]}" | awk -F , '
    function row(name, cells) {
        printf "| %s |", name
        for (i = 3; i <= 7; i++) printf " %s |", cells[i]
        print ""
    }
    BEGIN {
        print "| Crate | Functions | Code, lines | Definitions, lines | Proofs, lines | Must-fail edits |"
        print "|---|---|---|---|---|---|"
    }
    {
        split($0, cells)
        for (i = 3; i <= 7; i++) sums[i] += cells[i]
        if (cells[3] == "") { cells[3] = "kept"; kept++ }
        row("`" $1 "`", cells)
    }
    END { if (kept) sums[3] = sums[3] " and those of " kept " kept"; row("in all", sums) }'

if [ -n "$landing" ]; then
    for row in "${rows[@]}"; do echo "$landing,$row"; done >>docs/measures.csv
fi
