#!/bin/sh
# Tests the tests: the stand-in must pass as it is, and each of its deliberate mistakes must be caught.
# usage: tests/mutants.sh [COUNT]   (random jobs a mistake, default 600)
set -eu
here=$(cd "$(dirname "$0")" && pwd)
count=${1:-600}
library="$here/target/stand_in_lib"
"$here/stand_in/build.sh" "$library"
NEST_LIB_DIR="$library" cargo build -q -j1 --offline --release --bin compare --manifest-path "$here/Cargo.toml"
compare="$here/target/release/compare"
log="$here/target/mutant.log"

if ! NEST_MUTANT="" "$compare" "$count" >"$log"; then
    cat "$log"
    echo "the stand-in without a mistake does not pass" >&2
    exit 1
fi
echo "no mistake: passed"

all=0
missed=0
names=$(sed -n '/^pub const NAMES/,/^];/s/^ *"\(.*\)",/\1/p' "$here/opponent/src/mutant.rs")
for name in $names; do
    code=0
    all=$((all + 1))
    NEST_MUTANT="$name" "$compare" "$count" --first >"$log" 2>&1 || code=$?
    if [ "$code" -eq 1 ] && grep -q '^MISMATCH' "$log"; then
        origin=$(sed -n 's/^MISMATCH //p' "$log" | head -n 1)
        what=$(sed -n '/^MISMATCH/{n;s/^ *//;p;q;}' "$log" | cut -c 1-150)
        printf '%s\n' "$name: caught at $origin: $what"
    else
        echo "$name: NOT CAUGHT (exit $code)"
        missed=$((missed + 1))
    fi
done
echo "$((all - missed)) of $all mistakes caught"
[ "$missed" -eq 0 ]
