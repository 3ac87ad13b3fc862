#!/bin/sh
# Builds and runs the benchmark over a libnest.a. Not part of the gate.
# usage: tests/bench.sh FOLDER_OF_LIBNEST
set -eu
if [ $# -ne 1 ] || [ ! -f "$1/libnest.a" ]; then
    echo "usage: tests/bench.sh FOLDER_OF_LIBNEST" >&2
    exit 2
fi
here=$(cd "$(dirname "$0")" && pwd)
library=$(cd "$1" && pwd)
NEST_LIB_DIR="$library" cargo build -q -j1 --offline --release --bin bench --manifest-path "$here/Cargo.toml"
exec "$here/target/release/bench"
