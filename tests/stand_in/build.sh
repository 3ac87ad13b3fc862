#!/bin/sh
# Builds the stand-in and puts its libnest.a into the folder given. It carries the Rust standard library
# inside, which the tests have too; so all its symbols but the six services are made local.
set -eu
if [ $# -ne 1 ]; then
    echo "usage: stand_in/build.sh FOLDER" >&2
    exit 2
fi
here=$(cd "$(dirname "$0")/.." && pwd)
mkdir -p "$1"
out=$(cd "$1" && pwd)
cargo build -q -j1 --offline --profile stand-in -p stand_in --manifest-path "$here/Cargo.toml"
services="nest_read nest_save nest_row nest_check nest_run nest_cut"
wanted=""
kept=""
for service in $services; do
    wanted="$wanted -u $service"
    kept="$kept --keep-global-symbol=$service"
done
rm -f "$out/libnest.a" "$out/nest.o"
ld -r --force-group-allocation $wanted -o "$out/nest.o" "$here/target/stand-in/libnest.a"
objcopy $kept "$out/nest.o"
ar rcs "$out/libnest.a" "$out/nest.o"
rm "$out/nest.o"
