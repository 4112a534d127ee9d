#!/usr/bin/env bash
# Builds each example in C and in Rust on the proved library, runs both, and compares what they print with the example's file .expected. Then runs
# the commands that README.md and docs/PROGRAMS.md show, and compares what they print with what stands there. Where Graphviz is installed, it makes the
# picture of the first query too, compares it with the one that README.md shows, and makes pictures of the trials' graphs.
# The library is in the folder that ORDER_TABLES_LIB names, or where `rt lib` writes it, run in crates/order_tables. `rt ci` leaves the programs that the
# commands run, each in its crate's out/, and ./order_tables makes the library and the tool.
set -euo pipefail
cd "$(dirname "$0")/.."
library=${ORDER_TABLES_LIB:-crates/order_tables/out}
program=$(mktemp)
trap 'rm -f "$program"' EXIT
for example in plan verify counterexample newest steps; do
    cc -std=c99 -Wall -Wextra -Wpedantic -Werror -O2 -I include "examples/$example.c" "$library/liborder_tables.a" -o "$program"
    "$program" | diff "examples/$example.expected" -
    cargo run --quiet --release --offline --locked -p order_tables --example "$example" | diff "examples/$example.expected" -
    echo "both examples print examples/$example.expected"
done

# Runs the commands that a document's blocks show behind a dollar sign, and compares what they print, errors too, with what the blocks show.
run_shown() { # DOCUMENT
    local shown commands
    shown=$(awk '
        /^```/ { block = !block; if (!block && text ~ /^\$ /) printf "%s", text; text = ""; next }
        block { text = text $0 "\n" }' "$1")
    commands=$(grep '^\$ ' <<< "$shown") || { echo "$1 shows no commands" >&2; exit 1; }
    while IFS= read -r command; do
        echo "$command"
        bash -c "${command#'$ '}" < /dev/null 2>&1
    done <<< "$commands" | diff <(echo "$shown") -
    echo "$(wc -l <<< "$commands") commands print what $1 shows"
}
run_shown README.md
run_shown docs/PROGRAMS.md

# The names of a picture's nodes and arrows, and the words in it. Where these stand differs with the fonts and the edition of Graphviz.
picture_words() { # FILE
    sed -n 's/&#45;/-/g; s/.*<title>\(.*\)<\/title>.*/\1/p; s/.*<text[^>]*>\(.*\)<\/text>.*/\1/p' "$1" | sort
}
if command -v dot > /dev/null; then
    ./order_tables draw examples/first.txt | dot -Tsvg > target/first.svg
    diff <(picture_words examples/first.svg) <(picture_words target/first.svg)
    echo "$(picture_words target/first.svg | wc -l) names and words of the picture are those of examples/first.svg"
    for graph in tool/tests/golden/*.dot; do
        dot -Tsvg "$graph" > /dev/null
    done
    echo "Graphviz reads $(find tool/tests/golden -name '*.dot' | wc -l) graphs of the trials"
else
    echo "Graphviz is not installed, and the first query's graph stays text"
fi
