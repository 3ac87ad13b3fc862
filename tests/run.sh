#!/bin/sh
# Links everything on this side of the C interface with a libnest.a and runs it: the comparison tests, the stack that a
# run takes, then the C example on every job of jobs/, held to the expected outputs, with margins, saving each job, and
# begun from layouts, and on every outline of outlines/.
# Needs no network.
# usage: tests/run.sh FOLDER_OF_LIBNEST [COUNT]
# CC, CFLAGS and NEST_LDLIBS (libraries that libnest.a itself needs) may be given. NEST_PROGRAM is the command
# program, if it is to be run too: on every job of jobs/, and on inputs of several sizes.
set -eu
if [ $# -lt 1 ] || [ ! -f "$1/libnest.a" ]; then
    echo "usage: tests/run.sh FOLDER_OF_LIBNEST [COUNT]" >&2
    exit 2
fi
here=$(cd "$(dirname "$0")" && pwd)
root=$(cd "$here/.." && pwd)
library=$(cd "$1" && pwd)
shift
build="$here/target/run"
mkdir -p "$build"

NEST_LIB_DIR="$library" cargo build -q -j1 --offline --release --bin compare --manifest-path "$here/Cargo.toml"
"$here/target/release/compare" "$@"

# Compiles a C program with the header and the archive.
with_nest() { # SOURCE PROGRAM
    ${CC:-cc} -std=c99 -Wall -Wextra -Werror ${CFLAGS:--O1} -I "$root/include" "$1" "$library/libnest.a" ${NEST_LDLIBS:-} -o "$2"
}

with_nest "$root/examples/nest.c" "$build/nest"
NEST_LDLIBS="${NEST_LDLIBS:-} -lpthread" with_nest "$here/stack.c" "$build/stack"
"$build/stack" 100000 "$root"/jobs/*.job

# Runs a program on every job, as its standard input and as its argument, and holds what it prints to what is expected.
over_jobs() { # NAME PROGRAM
    jobs=0
    failed=0
    for job in "$root"/jobs/*.job; do
        jobs=$((jobs + 1))
        "$2" "$job" <"$job" >"$build/printed" || true
        if ! cmp -s "$build/printed" "${job%.job}.out"; then
            failed=$((failed + 1))
            echo "jobs/$(basename "$job"): the $1 printed:"
            cat "$build/printed"
            echo "expected:"
            cat "${job%.job}.out"
        fi
    done
    echo "$1: $((jobs - failed)) of $jobs jobs as expected"
    [ "$jobs" -gt 0 ] && [ "$failed" -eq 0 ]
}

# The command program on an input of so many zero bytes: it is refused by this number.
sized() { # PROGRAM BYTES NUMBER
    said=$(head -c "$2" /dev/zero | "$1")
    if [ "$said" != "refused $3" ]; then
        echo "$2 zero bytes: the command program printed '$said', expected 'refused $3'"
        return 1
    fi
}

# The C example on a job with this margin. A text that is no number of 64 bits gets the usage text and prints nothing.
under_margin() { # JOB MARGIN PRINTED
    said=$("$build/nest" "$root/jobs/$1.job" "$2" 2>"$build/usage" || true)
    if [ "$said" != "$3" ] || { [ -z "$3" ] && ! grep -q '^usage' "$build/usage"; }; then
        echo "$1, margin '$2': the C example printed '$said', expected '$3'"
        return 1
    fi
}

# The C example with these arguments prints this.
says() { # PRINTED ARGUMENT...
    expected=$1
    shift
    said=$("$build/nest" "$@") || said="$said, with status $?"
    if [ "$said" != "$expected" ]; then
        echo "nest $*: printed '$said', expected '$expected'"
        return 1
    fi
}

# A job that is refused: no file is created, and one that is there is not changed.
refused_when_saved() { # JOB PRINTED
    rm -f "$build/saved"
    says "$2" --save "$build/saved" "$1" && [ ! -e "$build/saved" ] || return 1
    echo kept >"$build/saved"
    says "$2" --save "$build/saved" "$1" && [ "$(cat "$build/saved")" = kept ]
}

# A job that is saved, as many bytes as are told: those expected, where they are known. The saved job runs as the job
# does, and is saved to its own bytes.
good_when_saved() { # JOB
    rm -f "$build/saved" "$build/again"
    "$build/nest" --save "$build/saved" "$1" >"$build/told" || return 1
    echo "saved $(($(wc -c <"$build/saved")))" | cmp - "$build/told" || return 1
    if [ -f "${1%.job}.saved" ]; then
        known=$((known + 1))
        cmp "$build/saved" "${1%.job}.saved" || return 1
    fi
    "$build/nest" "$build/saved" | cmp - "${1%.job}.out" || return 1
    says "$(cat "$build/told")" --save "$build/again" "$build/saved" && cmp "$build/again" "$build/saved"
}

# Every job of jobs/, by what is expected of its run.
over_saved_jobs() {
    known=0
    for job in "$root"/jobs/*.job; do
        outcome=$(head -n 1 "${job%.job}.out")
        case $outcome in
        refused*) refused_when_saved "$job" "$outcome" ;;
        *) good_when_saved "$job" ;;
        esac || { echo "jobs/$(basename "$job") is not saved as expected"; return 1; }
    done
    echo "C example: every job saved as expected, $known of them to known bytes"
    [ "$known" -gt 0 ] && [ "$known" -eq "$(find "$root/jobs" -name '*.saved' | wc -l)" ]
}

# The C example with arguments by which it fails: it prints this alone, says why and has the status 2.
fails_having_said() { # PRINTED WHY ARGUMENT...
    expected=$1
    why=$2
    shift 2
    status=0
    said=$("$build/nest" "$@" 2>"$build/why") || status=$?
    if [ "$said" != "$expected" ] || [ "$status" -ne 2 ] || ! grep -q "$why" "$build/why"; then
        echo "nest $*: printed '$said', status $status, and said '$(cat "$build/why")', expected '$expected' and '$why'"
        return 1
    fi
}

# Nothing is printed.
fails() { # WHY ARGUMENT...
    fails_having_said "" "$@"
}

# Every layout of jobs/: the job begun from it prints what is expected.
over_layouts() {
    begun=0
    for layout in "$root"/jobs/*.layout; do
        begun=$((begun + 1))
        says "$(cat "${layout%.layout}.begun")" --from "$layout" "${layout%.layout}.job" || return 1
    done
    echo "C example: $begun jobs begun from a layout as expected"
    [ "$begun" -gt 0 ] && [ "$begun" -eq "$(find "$root/jobs" -name '*.begun' | wc -l)" ]
}

# A job whose run holds no layout: no file is created, and one that is there is not changed.
nothing_kept() { # JOB PRINTED
    rm -f "$build/kept"
    says "$2" --keep "$build/kept" "$1" && [ ! -e "$build/kept" ] || return 1
    echo kept >"$build/kept"
    says "$2" --keep "$build/kept" "$1" && [ "$(cat "$build/kept")" = kept ]
}

# A job whose run holds a layout: its bytes are kept, eight for each entry. A run begun from them holds a layout too; after
# a run that ended it is the same, and steps alone may differ; after one that stopped it is no longer.
good_when_kept() { # JOB PRINTED
    rm -f "$build/kept" "$build/again"
    says "$2" --keep "$build/kept" "$1" || return 1
    [ "$(wc -c <"$build/kept")" -eq $((8 * ($(echo "$2" | wc -l) - 1))) ] || return 1
    "$build/nest" --from "$build/kept" --keep "$build/again" "$1" >"$build/begun" || return 1
    case $2 in
    shortest*) cmp "$build/again" "$build/kept" && [ "$(steps_left_out <"$build/begun")" = "$(echo "$2" | steps_left_out)" ] ;;
    *) [ "$(wc -c <"$build/again")" -eq "$(wc -c <"$build/kept")" ] && [ "$(length_told <"$build/begun")" -le "$(echo "$2" | length_told)" ] ;;
    esac
}

steps_left_out() {
    sed '1s/ [0-9]*$//'
}

length_told() {
    sed -n '1s/^[a-z]* \([0-9]*\) .*/\1/p'
}

# Every job of jobs/, by what is expected of its run.
over_kept_layouts() {
    for job in "$root"/jobs/*.job; do
        printed=$(cat "${job%.job}.out")
        case $printed in
        'stopped -'* | none* | refused*) nothing_kept "$job" "$printed" ;;
        *) good_when_kept "$job" "$printed" ;;
        esac || { echo "jobs/$(basename "$job"): its layout is not kept as expected"; return 1; }
    done
    echo "C example: layouts kept and begun from as expected"
}

# Files of other sizes than a layout's: no bytes give none, one byte behind the last number does not count, one number more
# does, also in a file that is longer than what is read of it.
over_layout_sizes() {
    full="$root/jobs/full-board"
    : >"$build/layout"
    says "$(cat "$full.out")" --from "$build/layout" "$full.job" || return 1
    printf x >"$build/layout"
    says "refused 11" --from "$build/layout" "$full.job" || return 1
    says "$(cat "$full.out")" --keep "$build/layout" "$full.job" || return 1
    printed=$("$build/nest" --from "$build/layout" "$full.job")
    # Kept in the file that it was begun from, with the options in the other order.
    says "$printed" --keep "$build/layout" --from "$build/layout" "$full.job" || return 1
    printf x >>"$build/layout"
    says "$printed" --from "$build/layout" "$full.job" || return 1
    printf x >>"$build/layout"
    says "refused 11" --from "$build/layout" "$full.job" || return 1
    head -c 1000 /dev/zero >>"$build/layout"
    says "refused 11" --from "$build/layout" "$full.job" || return 1
    echo "C example: layouts of other sizes as expected"
}

# Every outline of outlines/: what is printed for it is expected.
over_outlines() {
    cut=0
    for outline in "$root"/outlines/*.outline; do
        cut=$((cut + 1))
        says "$(cat "${outline%.outline}.cut")" --cut "$outline" || return 1
    done
    echo "C example: $cut outlines as expected"
    [ "$cut" -gt 0 ] && [ "$cut" -eq "$(find "$root/outlines" -name '*.cut' | wc -l)" ]
}

# Files of other sizes than an outline's: no bytes, and more than eight corners have, also more than are read of them.
over_outline_sizes() {
    slot="$root/outlines/slot"
    : >"$build/outline"
    says "refused 14" --cut "$build/outline" || return 1
    cat "$slot.outline" >"$build/outline"
    says "$(cat "$slot.cut")" --cut "$build/outline" || return 1
    for more in 1 1 1 1000; do
        head -c "$more" /dev/zero >>"$build/outline"
        says "refused 14" --cut "$build/outline" || return 1
    done
    echo "C example: outlines of other sizes as expected"
}

over_jobs "C example" "$build/nest"
under_margin clamped-squares 0 "$(cat "$root/jobs/clamped-squares.out")"
under_margin clamped-squares 1 "shortest 6 3
0 1 1 0
0 3 1 0"
under_margin clamped-squares 2 "none 0"
under_margin clamped-squares 63 "none 0"
under_margin clamped-squares 64 "refused 13"
under_margin refused-7-star 64 "refused 7"
# The largest number of 64 bits, and the next.
under_margin clamped-squares 18446744073709551615 "refused 13"
for bad in 18446744073709551616 -1 +1 1x ""; do
    under_margin clamped-squares "$bad" ""
done
echo "C example: margins as expected"
over_saved_jobs
fails '^usage' --save
fails '^usage' --save "$build/saved"
fails '^usage' --save "$build/saved" "$root/jobs/printed.job" 1
fails 'no-such.job' --save "$build/saved" "$root/jobs/no-such.job"
fails 'no-such-folder' --save "$build/no-such-folder/saved" "$root/jobs/printed.job"
# A file that takes no bytes, where the system has one: the failure may come no sooner than the file is closed.
[ ! -e /dev/full ] || fails '/dev/full' --save /dev/full "$root/jobs/printed.job"
echo "C example: what cannot be saved is told"
over_layouts
over_kept_layouts
over_layout_sizes
# A layout found under a margin of 1, under that margin, under none and under others; and one from the clamps.
says "$(cat "$root/jobs/clamped-squares.out")" --keep "$build/in_clamps" "$root/jobs/clamped-squares.job"
says "shortest 6 3
0 1 1 0
0 3 1 0" --keep "$build/kept" "$root/jobs/clamped-squares.job" 1
says "shortest 6 2
0 1 1 0
0 3 1 0" --from "$build/kept" "$root/jobs/clamped-squares.job" 1
says "$(cat "$root/jobs/clamped-squares.out")" --from "$build/kept" "$root/jobs/clamped-squares.job"
says "refused 11" --from "$build/kept" "$root/jobs/clamped-squares.job" 2
says "refused 13" --from "$build/kept" "$root/jobs/clamped-squares.job" 64
says "refused 11" --from "$build/in_clamps" "$root/jobs/clamped-squares.job" 1
says "refused 7" --from "$build/kept" "$root/jobs/refused-7-star.job"
echo "C example: layouts under margins as expected"
for option in --from --keep; do
    fails '^usage' "$option"
    fails '^usage' "$option" "$build/kept"
    fails '^usage' "$option" "$build/kept" "$root/jobs/printed.job" 1 1
done
fails '^usage' --from "$build/kept" --keep "$build/kept"
fails 'no-such.layout' --from "$root/jobs/no-such.layout" "$root/jobs/printed.job"
fails 'no-such.job' --from "$build/kept" "$root/jobs/no-such.job"
# The layout that cannot be kept has been printed.
fails_having_said "$(cat "$root/jobs/printed.out")" 'no-such-folder' --keep "$build/no-such-folder/kept" "$root/jobs/printed.job"
[ ! -e /dev/full ] || fails_having_said "$(cat "$root/jobs/printed.out")" '/dev/full' --keep /dev/full "$root/jobs/printed.job"
echo "C example: layouts that cannot be had or kept are told"
over_outlines
over_outline_sizes
fails '^usage' --cut
fails '^usage' --cut "$root/outlines/slot.outline" 1
fails 'no-such.outline' --cut "$root/outlines/no-such.outline"
echo "C example: outlines that cannot be had are told"
if [ -n "${NEST_PROGRAM:-}" ]; then
    over_jobs "command program" "$NEST_PROGRAM"
    # 1024 bytes are the most that a job may have; a file may be longer than what one read gives.
    sized "$NEST_PROGRAM" 0 1
    sized "$NEST_PROGRAM" 13 1
    sized "$NEST_PROGRAM" 14 2
    sized "$NEST_PROGRAM" 1024 2
    sized "$NEST_PROGRAM" 1025 1
    sized "$NEST_PROGRAM" 100000 1
    echo "command program: inputs of 0 to 100000 bytes as expected"
fi
