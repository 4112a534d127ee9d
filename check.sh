#!/usr/bin/env bash
# ./check.sh
#     The whole check: `rt ci`, which takes every crate's layout, proofs, must-fail edits and programs; then the launcher, layout and lints of the Rust
#     packages, the second implementation's tests, its comparison with the proved library and the programs, the tool, the examples and the commands that
#     the documents show. After the proofs it prints what each crate has. It ends in the line `N passed, 0 failed` of the proofs.
# ./check.sh quick [CRATE ..]
#     Layout, lints, and the proofs and must-fail edits of the crates named, or of those that differ from the last commit. It lays their files out.
set -euo pipefail
cd "$(dirname "$0")"

# Says in a line where another version of Rattle's kit is installed than the one that the proofs were made with.
compare_kit() {
    local installed
    installed=$(rt version)
    [ "$installed" = "$(cat KIT)" ] || echo "the installed kit is $installed; the proofs were made with $(cat KIT)"
}

# `rt ci` passes where a must-fail edit cannot be applied, compiled or read. Here none may be such, and none may be missing from those that were refused.
check_edits() { # LOG
    local said edits
    said=$(grep '^rt: ok; ' "$1") || { echo "rt ci has no line that begins 'rt: ok'" >&2; exit 1; }
    edits=$(find crates -path 'crates/*/must-fail/*.edit' | wc -l)
    [[ $said =~ \;\ must-fail\ edits:\ ([0-9]+)\ refused(,\ [0-9]+\ of\ them\ only\ by\ a\ limit)?(,\ 0\ bad)?(\;|$) && ${BASH_REMATCH[1]} = "$edits" ]] || {
        printf 'not each of the %d must-fail edits was refused:\n%s\n' "$edits" "$said" >&2
        grep 'BAD EDIT' "$1" >&2 || true
        exit 1
    }
    echo "each of the $edits must-fail edits was refused"
}

# The wrapper's build asks for the library, of whatever version.
check_lints() {
    [ -e crates/order_tables/out/liborder_tables.a ] || (cd crates/order_tables && rt lib)
    cargo fmt --check
    cargo clippy --workspace --all-targets --offline --locked -- -D warnings
}

# The crates whose files differ from the last commit, of those that crates.txt lists, and in its sequence.
changed_crates() {
    sed -nE 's/^([a-z0-9_]+)( [^:]*)?:.*/\1/p' crates.txt |
        grep -Fxf <({ git diff --name-only --no-renames HEAD -- crates; git ls-files --others --exclude-standard -- crates; } | cut -d / -f 2 | sort -u) || true
}

# Lays the crates out, proves them and tries their must-fail edits.
check_crates() { # CRATE..
    local crate
    for crate; do
        echo "== $crate"
        (cd "crates/$crate" && rt fmt && rt check)
    done
    rt must-fail "$@"
}

quick() { # [CRATE..]
    compare_kit
    check_lints
    if [ $# -eq 0 ]; then
        local changed
        changed=$(changed_crates)
        [ -n "$changed" ] || { echo "no crate differs from the last commit"; return; }
        mapfile -t changed <<< "$changed"
        set -- "${changed[@]}"
    fi
    check_crates "$@"
}

whole() {
    compare_kit
    proofs=$(mktemp)
    trap 'rm -f "$proofs"' EXIT
    # `rt ci` sets aside what other commands made in the crates, the library among it, and leaves the programs there. So all else comes behind it.
    SECONDS=0
    rt ci | tee "$proofs"
    echo "rt ci took $SECONDS s"
    check_edits "$proofs"
    docs/measure.sh "$proofs"
    tool/tests/launcher.sh
    check_lints
    cargo test --release --offline --locked -p reference
    cargo test --release --offline --locked -p order_tables
    # These tests print what they compared.
    cargo test --release --offline --locked -p differential -- --nocapture
    cargo test --release --offline --locked -p benchmarks
    cargo test --release --offline --locked -p order_tables_tool
    examples/run.sh
    tail -n 1 "$proofs"
}

case ${1-} in
'') whole ;;
quick) quick "${@:2}" ;;
*) echo "usage: ./check.sh, or ./check.sh quick [CRATE ..]" >&2; exit 2 ;;
esac
