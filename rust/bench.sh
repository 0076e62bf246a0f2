#!/usr/bin/env bash
# Instructions of each workload, counted by callgrind: k and 2k times, the difference divided by k.
#
#   rust/bench.sh              plain Rust alone
#   rust/bench.sh library      the library beside it, with ratios (TTPA_LIB_DIR: the folder of libttpa.a)
#   rust/bench.sh [library] WORKLOAD..
#                              of these alone, be they in the table or not
#   rust/bench.sh [library] growth [PICTURE]
#                              how the calls grow over slaves, entries, frames and bytes; where a file is named for it,
#                              also as a picture (SVG), and as tables at the end
#
# The column nested is plain Rust with the form that document 01 names for multipartner rounds: loops over
# slots and entries with a labelled exit; it is told apart in those lines only. The column floor is a limit for
# programs that test one thing at a time, by the rule of bench/src/floor.rs; it is worked out and not measured. A line
# in which an engine is below it ends with a sign, and what that means stands below the table.
#
# A call's loop and dispatch, about 15 instructions, are counted on both sides, and not in the floor.
#
# The C library copies and clears many bytes by an instruction of the processor that callgrind counts once for each byte. It is
# told to use vectors for them too, as it does for fewer bytes, so that neither side has a reason to avoid it.
set -euo pipefail
# Where a call is refused or there is no such engine or count, the script ends.
shopt -s inherit_errexit
start=$PWD
cd "$(dirname "$0")"
for tool in cargo valgrind; do
    if ! command -v "$tool" >/dev/null; then
        echo "missing: $tool"
        exit 1
    fi
done
library=
features=()
if [ "${1:-}" = library ]; then
    library=yes
    features=(--features library)
    shift
fi
list=--list
picture=
if [ "${1:-}" = growth ]; then
    list=--growth
    picture=${2:-}
    case $picture in [!/]*) picture=$start/$picture ;; esac
    set --
fi
cargo build --quiet --offline --release -j1 -p bench "${features[@]}"
bench=${CARGO_TARGET_DIR:-target}/release/bench
# More than any file has.
bytes=1000000
vectors=glibc.cpu.x86_rep_movsb_threshold=$bytes:glibc.cpu.x86_rep_stosb_threshold=$bytes

# Instructions of a whole run of the program.
instructions() {
    GLIBC_TUNABLES=$vectors valgrind --tool=callgrind --callgrind-out-file=/dev/null "$bench" "$1" "$2" "$3" 2>&1 |
        sed -n 's/.*Collected : //p' | grep . || {
        echo "failed: $*" >&2
        return 1
    }
}

# Instructions of one workload.
cost() {
    local times=20 once twice
    case $2 in *naming-* | *trace-* | rounds-*) times=1 ;; esac
    once=$(instructions "$1" "$2" "$times")
    twice=$(instructions "$1" "$2" $((2 * times)))
    echo $(((twice - once) / times))
}

# A ratio of two numbers.
ratio() { awk -v a="$1" -v b="$2" 'BEGIN { printf " %13.2f", a / b }'; }

# The sign of a line of which one of the figures is below the floor, the first number.
mark() {
    local floor=$1 figure
    shift
    for figure; do
        if [ "$figure" -lt "$floor" ]; then
            printf ' *'
            return
        fi
    done
}

# The columns of one workload.
line() {
    local floor plain nested of_library=
    floor=$("$bench" --floor "$1")
    plain=$(cost plain "$1")
    nested=$plain
    case $1 in partner-* | wide-partner-* | multiplexed-*) nested=$(cost nested "$1") ;; esac
    printf '%-26s %10d %10d %10d' "$1" "$floor" "$plain" "$nested"
    if [ "$library" ]; then
        of_library=$(cost library "$1")
        printf ' %10d' "$of_library"
        ratio "$of_library" "$plain"
        ratio "$of_library" "$nested"
        ratio "$of_library" "$floor"
    fi
    ratio "$plain" "$floor"
    mark "$floor" "$plain" "$nested" "${of_library:-$plain}"
    echo
}

# The lines of these workloads, or of all of the list.
table() {
    local workload workloads=("$@")
    if [ $# -eq 0 ]; then mapfile -t workloads < <("$bench" "$list"); fi
    printf '%-26s %10s %10s %10s' workload floor plain nested
    if [ "$library" ]; then printf ' %10s %13s %13s %13s' library library/plain library/nested library/floor; fi
    printf ' %13s\n' plain/floor
    for workload in "${workloads[@]}"; do line "$workload"; done
}

measured=$(mktemp)
trap 'rm -f "$measured"' EXIT
table "$@" | tee "$measured"
if grep -q ' \*$' "$measured"; then
    echo
    "$bench" --note
fi
if [ "$picture" ]; then
    "$bench" --picture <"$measured" >"$picture"
    echo
    "$bench" --tables <"$measured"
fi
