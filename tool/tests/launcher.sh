#!/usr/bin/env bash
# Tests the launcher order_tables at the root. First in a copy of the repository, where programs that only write files and say how they were called take
# the place of rt, cargo and the tool: so each case takes no time. Then as it is, over what the proofs have left: once with the library and the tool
# removed, and once with all there, from another folder.
set -euo pipefail
cd "$(dirname "$0")/../.."
root=$PWD
folder=$(mktemp -d)
trap 'rm -rf "$folder"' EXIT
copy=$folder/copy
calls=$folder/calls
elsewhere=$folder/elsewhere

# Compares what was seen in a case with what is to be seen.
same() { # CASE SEEN EXPECTED
    [ "$2" = "$3" ] || { printf 'the launcher, %s: seen is\n%s\nand expected\n%s\n' "$1" "$2" "$3" >&2; exit 1; }
}

mkdir "$copy" "$elsewhere" "$folder/commands" "$folder/rt" "$folder/cargo"
tar -c --exclude 'crates/*/out' order_tables crates.txt Cargo.toml Cargo.lock crates tool wrapper | tar -x -C "$copy"
for command in bash sh dirname realpath find sed tee tail touch mkdir chmod cat env; do
    ln -s "$(command -v "$command")" "$folder/commands/$command"
done
cat > "$folder/rt/rt" << 'STUB'
#!/usr/bin/env sh
echo "rt $* in ${PWD##*/}" >> "$CALLS"
echo "rt: chose --jobs 2 for theory"
[ -z "${RT_FAILS-}" ] || { echo "rt: the library theory did not build, so nothing above it was checked" >&2; exit 1; }
mkdir -p out && echo > out/liborder_tables.a
STUB
cat > "$folder/cargo/cargo" << 'STUB'
#!/usr/bin/env sh
echo "cargo $1" >> "$CALLS"
[ -z "${CARGO_FAILS-}" ] || exit 101
mkdir -p target/release
printf '#!/usr/bin/env sh\necho "$# arguments in $PWD: $*"\nexit 7\n' > target/release/order_tables
chmod +x target/release/order_tables
STUB
chmod +x "$folder/rt/rt" "$folder/cargo/cargo"

# Runs the copy's launcher from another folder with the commands in these folders: what it calls, prints and says, and its status.
launched() { # FOLDER.. (joined by colons)
    : > "$calls"
    local status=0
    (cd "$elsewhere" && env -i CALLS="$calls" RT_FAILS="${RT_FAILS-}" CARGO_FAILS="${CARGO_FAILS-}" PATH="$1:$folder/commands" \
        "$copy/order_tables" explain 'a b') > "$folder/printed" 2> "$folder/said" || status=$?
    cat "$calls" "$folder/printed" "$folder/said"
    echo "status $status"
}
# Lets all sources be older than all that was made, the library not newer than the tool, and these sources newer than both.
age() { # SOURCE..
    find "$copy" -exec touch -d '2 hours ago' {} +
    local made
    for made in "$copy/crates/order_tables/out" "$copy/target"; do
        [ ! -d "$made" ] || find "$made" -exec touch -d '1 hour ago' {} +
    done
    for source; do touch "$copy/$source"; done
}

both=$folder/rt:$folder/cargo
run="2 arguments in $elsewhere: explain a b"
made_library="order_tables: making the proved library, crates/order_tables/out/liborder_tables.a: proving takes some minutes, once
  theory"
made_tool="order_tables: making the tool, target/release/order_tables"
by_rt="rt lib in order_tables"
by_cargo="cargo build"
made_all="$by_rt
$by_cargo
$run
$made_library
$made_tool
status 7"

no_rt="order_tables: rt is not installed, and it makes the proved library (README.md names the version of Rattle's kit)"
same "without rt" "$(launched "$folder/cargo")" "$no_rt
status 2"
same "where rt fails" "$(RT_FAILS=1 launched "$both")" "$by_rt
$made_library
order_tables: rt made no library; target/library.log ends in: rt: the library theory did not build, so nothing above it was checked
status 2"
same "without cargo" "$(launched "$folder/rt")" "$by_rt
$made_library
order_tables: cargo is not installed, and it makes the tool
status 2"
same "where cargo fails" "$(CARGO_FAILS=1 launched "$both")" "$by_cargo
$made_tool
order_tables: cargo made no tool
status 2"
rm -r "$copy/target" "$copy/crates/order_tables/out"
same "with nothing made" "$(launched "$both")" "$made_all"
age
same "with all made, and neither rt nor cargo" "$(launched "$elsewhere")" "$run
status 7"
age crates/theory/specs/Orders.antt
same "with a newer definition" "$(launched "$both")" "$made_all"
age
rm "$copy/crates/theory/specs/Orders.antt"
same "with a file of a crate removed" "$(launched "$both" | head -n 1)" "$by_rt"
age tool/src/main.rs
same "with a newer file of the tool" "$(launched "$both")" "$by_cargo
$run
$made_tool
status 7"
age crates/order_listing/src/main.rt README.md
same "with newer files of which nothing is made" "$(launched "$both")" "$run
status 7"
echo "the launcher makes what is missing or older than its sources, and nothing else: 10 cases"

rm -rf crates/order_tables/out/liborder_tables.a target/release
./order_tables explain examples/first.txt > "$folder/first" 2> "$folder/said"
grep -q '^order_tables: making the proved library, .* proving takes some minutes, once$' "$folder/said"
grep -q '^order_tables: making the tool, ' "$folder/said"
target/release/order_tables explain examples/first.txt | diff - "$folder/first"
cp examples/first.txt examples/damaged.table "$elsewhere"
cd "$elsewhere"
same "from another folder" "$("$root/order_tables" explain first.txt 2>&1)" "$(cat "$folder/first")"
status=0
refused=$("$root/order_tables" verify first.txt damaged.table 2>&1) || status=$?
same "with a refused table" "$refused, status $status" "$("$root/target/release/order_tables" verify first.txt damaged.table 2>&1 || true), status 1"
echo "the launcher makes the library and the tool, and runs the tool from another folder"
