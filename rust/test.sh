#!/usr/bin/env bash
# Builds and runs everything around the engine's archive: the C programs and the Rust example against their
# expected output, the tests of the Rust crates, and the comparison of the library with the model. Before
# that, the listing program on inputs of many lengths and on vectors. What was counted is left in target/counts
# for .ci/least, and by outcome in target/outcomes and target/vectors.
#
#   rust/test.sh [--long]      TTPA_LIB_DIR: the folder of libttpa.a, default target/staticlib
#                              TTPA_BIN_DIR: the folder of the program listing, default target/bin
#
# The last line is 'N passed, M failed'; the status is 1 if something failed.
set -u
cd "$(dirname "$0")/.." || exit 1
export TTPA_LIB_DIR=${TTPA_LIB_DIR:-$PWD/target/staticlib}
listing=${TTPA_BIN_DIR:-$PWD/target/bin}/listing
cc=${CC:-cc}
cxx=${CXX:-c++}
passed=0
failed=0
vectors=(rust/model/tests/data/*.txt)
counts=$PWD/target/counts
mkdir -p target && : >"$counts" || exit 1
work=$(mktemp -d) || exit 1
trap 'rm -rf "$work"' EXIT

pass() { passed=$((passed + $1)); }

fail() {
    echo "failed: $1"
    failed=$((failed + 1))
}

# A number for .ci/least: what was counted, its name, how many.
counted() { echo "$1 $2 $3" >>"$counts"; }

finish() {
    echo "$passed passed, $failed failed"
    [ "$failed" -eq 0 ]
    exit
}

# Each missing thing is named; without them nothing here can be said to pass.
require() {
    command -v cargo >/dev/null || fail "missing: cargo"
    command -v "$cc" >/dev/null || fail "missing: C compiler ($cc)"
    command -v "$cxx" >/dev/null || fail "missing: C++ compiler ($cxx)"
    command -v nm >/dev/null && command -v size >/dev/null || fail "missing: nm and size"
    command -v script >/dev/null || fail "missing: script (util-linux), which gives the program a terminal"
    [ -f "$TTPA_LIB_DIR/libttpa.a" ] || fail "missing: $TTPA_LIB_DIR/libttpa.a"
    [ -x "$listing" ] || fail "missing: $listing"
    [ "$failed" -eq 0 ] || finish
}

cargo_quiet() { (cd rust && cargo "$@" --quiet --offline --release -j1); }

# A program's output against the file that holds what is expected.
expect_output() {
    local name=$1 expected=$2
    shift 2
    if timeout 60 "$@" >"$work/output" && diff -u "$expected" "$work/output"; then
        pass 1
    else
        fail "$name"
    fi
}

# Bytes FROM up to END of case M10, the listing program's sample: two slaves in 96 bytes.
m10_part() { head -c "$2" crates/listing/stdin | tail -c "$(($2 - $1))"; }

# Bytes written as hexadecimal digits.
hex() {
    local at
    for ((at = 0; at < ${#1}; at += 2)); do printf '%b' "\\x${1:at:2}"; done
}

# M10 with 32 more files in slave 1, 0x10 to 0x2F, so that it has 32,768 bytes, edition 1's most. Its listing is that of M10.
longest_cluster() {
    local directory=080300C4 place=$((0xD4)) number last
    for number in {16..47}; do
        last=$((number < 47 ? 255 : 199))
        directory+=$(printf '%02X%02X%04X' "$number" "$last" "$place")
        place=$((place + 4 * (last + 1)))
    done
    directory+=$(printf '3D02%04X' "$place")
    hex 54410102001080000000000000000000
    hex 00180200003C2200
    m10_part 24 60
    hex "$directory"
    m10_part 68 84
    head -c $((place - 0xD4)) /dev/zero
    m10_part 84 96
}

# A slave of M10 in edition 2 with 32 more files, 0x10 to 0x2F. Told are where M10 has its 0x08, its 0x3D and the end of that, the place of
# its directory, and the last record of the last of these files; the others have 256 records.
wide_slave() {
    local configuration=$1 documentation=$2 end=$3 place=$(($4 + 34 * 8)) directory first number last
    directory=$(printf '08030000%08X' "$place")
    place=$((place + 16))
    first=$place
    for number in {16..47}; do
        last=$((number < 47 ? 255 : $5))
        directory+=$(printf '%02X%02X0000%08X' "$number" "$last" "$place")
        place=$((place + 4 * (last + 1)))
    done
    hex "$directory$(printf '3D020000%08X' "$place")"
    m10_part "$configuration" "$documentation"
    head -c $((place - first)) /dev/zero
    m10_part "$documentation" "$end"
}

# Both slaves of M10 so in 65,536 bytes. Their listing is that of M10.
longest_wide_cluster() {
    local first=$((24 + 2 * 8)) second=$((24 + 2 * 8 + 34 * 8 + 16 + 32 * 1024 + 12))
    hex 544102020000001800010000000000000000000000000000
    hex "$(printf '%08X22000000%08X22000000' "$first" "$second")"
    wide_slave 32 48 60 "$first" 255
    wide_slave 68 84 96 "$second" 95
}

# A file's bytes, seven at a time; the pause lets the reader take each piece by itself.
in_pieces() {
    local piece
    for ((piece = 0; 7 * piece < $(wc -c <"$1"); piece++)); do
        dd if="$1" bs=7 skip="$piece" count=1 status=none
        sleep 0.01
    done
}

# The listing program's main, which only reads and writes: input in pieces, and lengths around a file's limits.
# 32,769 and 200,000 bytes begin with the good file of 32,768, so a program that drops the rest would list it; so in edition 2 above 65,536.
listing_program() {
    local listed=crates/listing/stdout refused=$work/refused input=$work/input wide=$work/wide
    echo "refused 1" >"$refused"
    longest_cluster >"$input"
    head -c 200000 /dev/zero >>"$input"
    longest_wide_cluster >"$wide"
    head -c 200000 /dev/zero >>"$wide"
    expect_output "listing: input in pieces" "$listed" "$listing" < <(in_pieces crates/listing/stdin)
    expect_output "listing: 0 bytes" "$refused" "$listing" </dev/null
    expect_output "listing: 15 bytes" "$refused" "$listing" < <(head -c 15 "$input")
    expect_output "listing: 32,768 bytes" "$listed" "$listing" < <(head -c 32768 "$input")
    expect_output "listing: 32,769 bytes" "$refused" "$listing" < <(head -c 32769 "$input")
    expect_output "listing: 200,000 bytes" "$refused" "$listing" < <(head -c 200000 "$input")
    expect_output "listing: 23 bytes of edition 2" "$refused" "$listing" < <(head -c 23 "$wide")
    expect_output "listing: 65,536 bytes of edition 2" "$listed" "$listing" < <(head -c 65536 "$wide")
    expect_output "listing: 65,537 bytes of edition 2" "$refused" "$listing" < <(head -c 65537 "$wide")
    expect_output "listing: 200,000 bytes of edition 2" "$refused" "$listing" < <(head -c 200000 "$wide")
}

# The 'list' lines of the vectors through the listing program; ' / ' stands for the end of a line.
listing_vectors() {
    local file kind bytes expected made
    for file in "${vectors[@]}"; do
        made=0
        while read -r kind bytes _ expected; do
            if [ "$kind" != list ]; then continue; fi
            made=$((made + 1))
            printf '%s\n' "${expected// \/ /$'\n'}" >"$work/listed"
            expect_output "listing: $file, list $made" "$work/listed" "$listing" < <(hex "${bytes#-}")
        done <"$file"
        if [ "$made" -ne 0 ]; then counted calls "listing/${file##*/}/list" "$made"; fi
    done
}

strict=(-Wall -Wextra -Wpedantic -Werror -Iinclude)

# The C program in the least language that the header asks for, and in the next.
c_program() {
    local language
    for language in c99 c11; do
        if "$cc" -std=$language -O2 "${strict[@]}" c/demo.c "$TTPA_LIB_DIR/libttpa.a" -o "$work/demo"; then
            expect_output "C program as $language" c/expected.txt "$work/demo" c/demo.cluster
        else
            fail "C program as $language: does not build"
        fi
    done
}

# A program ends before it has written anything, and says that the library is of another version.
refuses_library() {
    local name=$1
    shift
    if ! timeout 60 "$@" >"$work/output" 2>"$work/message" && [ ! -s "$work/output" ] &&
        grep -qxE 'the linked library is version [0-9]+\.[0-9]+\.[0-9]+, and not [0-9]+\.[0-9]+\.[0-9]+' "$work/message"; then
        pass 1
    else
        fail "$name: a library of another version is not noticed"
    fi
}

# Both demos with a library of another version: the C program has another patch in its header, the Rust example is linked with another
# number for the library's. 99 is no patch that is given out.
other_version() {
    mkdir -p "$work/other"
    sed -E 's/^(#define TTPA_VERSION_PATCH) .*/\1 99/' include/ttpa.h >"$work/other/ttpa.h"
    if "$cc" -std=c99 -I"$work/other" c/demo.c "$TTPA_LIB_DIR/libttpa.a" -o "$work/demo"; then
        refuses_library "C program" "$work/demo" c/demo.cluster
    else
        fail "C program with another header: does not build"
    fi
    if "$cc" -c -x c - -o "$work/other.o" <<<'unsigned __wrap_ttpa_version(void) { return 99; }' &&
        (cd rust && cargo rustc --quiet --offline --release -j1 -p ttpa --example demo -- \
            -C link-arg=-Wl,--wrap=ttpa_version -C link-arg="$work/other.o"); then
        refuses_library "Rust example" "${CARGO_TARGET_DIR:-rust/target}/release/examples/demo" c/demo.cluster
    else
        fail "Rust example with another library: does not build"
    fi
}

# The bytes of those sections of an object or archive whose names begin with one of the words.
section_bytes() { size -A "$1" | awk -v words="^[.]($2)" '$1 ~ words { sum += $2 } END { print sum + 0 }'; }

# A source which only includes the header, in one language, given with its compiler: it builds, and has no code and no data of it.
header_alone() {
    local language=$1
    shift
    # a C library may define words of later standards as macros: without them the header has to do too
    if "$@" -O0 "${strict[@]}" -c - -o "$work/alone.o" \
        <<<$'#include <stddef.h>\n#include <stdint.h>\n#undef _Static_assert\n#undef static_assert\n#include "ttpa.h"' &&
        [ "$(section_bytes "$work/alone.o" 'text|rodata|data|bss')" -eq 0 ]; then
        pass 1
    else
        fail "header as $language: included alone, it does not build, or adds to the program"
    fi
}

# The header likewise: its constants, its prototypes and every call; and included alone.
header_program() {
    local language=$1
    shift
    if ! "$@" -O2 "${strict[@]}" c/header.c -x none "$TTPA_LIB_DIR/libttpa.a" -o "$work/header"; then
        fail "header as $language: does not build"
    elif timeout 60 "$work/header" >"$work/output" && [[ $(cat "$work/output") =~ ^([0-9]+)\ comparisons,\ 0\ failed$ ]]; then
        counted comparisons "header/$language" "${BASH_REMATCH[1]}"
        pass 1
    else
        cat "$work/output"
        fail "header as $language"
    fi
    header_alone "$language" "$@"
}

# c/header.c holds every constant and prototype of the header, except the sizes and the version, which are held here;
# and the header has every call of the archive.
header_whole() {
    local held=$work/held calls=$work/calls
    {
        sed -nE 's/^(VALUE|PROTOTYPE)\((\w+), .*/\2/p' c/header.c
        printf '%s\n' TTPA_H TTPA_{CODE,STACK}_BYTES TTPA_VERSION{,_MAJOR,_MINOR,_PATCH}
    } | sort >"$held"
    { nm -g --defined-only "$TTPA_LIB_DIR/libttpa.a" | awk '$2 == "T" { print $3 }' && echo ttpa_refusal_text; } | sort >"$calls"
    if diff "$held" <(grep -oE 'TTPA_[A-Z0-9_]+|ttpa_[a-z0-9_]+\(' include/ttpa.h | tr -d '(' | sort -u) &&
        diff "$calls" <(grep ttpa "$held"); then
        pass 1
    else
        fail "header: a name is not held by c/header.c, or a call is not in the header"
    fi
}

# The header's version is that of the Rust crates and of the definition that the library's call is proved to return.
header_version() {
    local version defined
    version=$(sed -n 's/^#define TTPA_VERSION_[A-Z]* //p' include/ttpa.h | paste -sd.)
    defined=$(sed -nE 's/^version_(major|minor|patch) = //p' crates/ttpa/specs/Rules/Calls.antt | paste -sd.)
    mkdir -p "$work/large"
    sed -E 's/^(#define TTPA_VERSION_MAJOR) .*/\1 12/; s/^(#define TTPA_VERSION_MINOR) .*/\1 34/; s/^(#define TTPA_VERSION_PATCH) .*/\1 56/' \
        include/ttpa.h >"$work/large/ttpa.h"
    # the one number is made of its three parts whatever they are, which c/header.c tests where it is compiled
    if "$cc" -std=c11 -fsyntax-only -I"$work/large" c/header.c &&
        grep -qxF "version = \"$version\"" rust/Cargo.toml && [ "$version" = "$defined" ]; then
        pass 1
    else
        fail "header: version $version is not that of rust/Cargo.toml, or not $defined of crates/ttpa/specs/Rules/Calls.antt"
    fi
}

# What the header says of the archive: no memory of its own, and no other function needed than these three.
archive_needs() {
    local needed
    needed=$(nm -u "$TTPA_LIB_DIR/libttpa.a" | awk '$1 == "U" && $2 !~ /^mem(cpy|move|set)$/')
    if [ -z "$needed" ] && [ "$(section_bytes "$TTPA_LIB_DIR/libttpa.a" 'data|bss|tdata|tbss')" -eq 0 ]; then
        pass 1
    else
        fail "archive: it has memory of its own, or needs:$needed"
    fi
}

# A number of bytes that the header states covers what was measured, which is at least three quarters of it.
stated() {
    local name=$1 measured=$2 stated
    stated=$(sed -nE "s/^#define $name ([0-9]+)\$/\1/p" include/ttpa.h)
    echo "$name: ${measured:-nothing} measured, ${stated:-nothing} stated"
    if [ -n "$measured" ] && [ -n "$stated" ] && [ "$measured" -le "$stated" ] && [ $((4 * measured)) -ge $((3 * stated)) ]; then
        pass 1
    else
        fail "header: $name"
    fi
}

sizes() {
    local deepest=
    if "$cc" -std=c11 -O2 "${strict[@]}" c/stack.c "$TTPA_LIB_DIR/libttpa.a" -o "$work/stack" &&
        timeout 60 "$work/stack" >"$work/depths"; then
        deepest=$(sed -n 's/^deepest //p' "$work/depths")
    fi
    stated TTPA_STACK_BYTES "$deepest"
    stated TTPA_CODE_BYTES "$(section_bytes "$TTPA_LIB_DIR/libttpa.a" 'text|rodata')"
}

rust_example() {
    if cargo_quiet build -p ttpa --example demo; then
        expect_output "Rust example" c/expected.txt "${CARGO_TARGET_DIR:-rust/target}/release/examples/demo" \
            c/demo.cluster
    else
        fail "Rust example: does not build"
    fi
}

# A document shows, as a block that is set in, what a program prints.
document_shows() {
    if [[ $'\n'$(sed -n 's/^    //p' "$1")$'\n' == *$'\n'"$(cat "$2")"$'\n'* ]]; then
        pass 1
    else
        fail "$1 does not show $2"
    fi
}

# The tests of all crates, the wrapper's and the program's among them; each test counts. Those of the program tell how many files and texts
# they went through.
cargo_tests() {
    local count kind name
    : >"$work/program"
    if ! (cd rust && TTPA_COUNTS=$work/program cargo test --offline --release -j1 --workspace --no-fail-fast) >"$work/tests" 2>&1; then
        cat "$work/tests"
        fail "cargo test"
    fi
    while read -r kind name count; do counted "$kind" "$name" "$count"; done <"$work/program"
    count=$(sed -n 's/^test result: .* \([0-9]*\) passed;.*/\1/p' "$work/tests" | awk '{ sum += $1 } END { print sum + 0 }')
    if [ "$count" -eq 0 ]; then
        fail "cargo test: no test ran"
    fi
    counted tests cargo "$count"
    pass "$count"
}

compare=${CARGO_TARGET_DIR:-rust/target}/release/compare

# A run of the comparison, which says itself what it ran against and how many calls of each kind it made.
compared() {
    local source=$1 engine kind made
    shift
    if ! timeout 1800 "$compare" "$@" >"$work/compared"; then
        cat "$work/compared"
        fail "comparison, $source"
        return
    fi
    cat "$work/compared"
    engine=$(sed -n 's/^engine //p' "$work/compared")
    while read -r kind made; do counted calls "$engine/$source/$kind" "$made"; done \
        < <(sed -n 's/^made //p' "$work/compared")
    sed -n "s/^outcome /$source /p" "$work/compared" >>"$work/came"
    if [ "$engine" = library ]; then pass 1; else fail "comparison, $source: ran against $engine, not the library"; fi
}

# The library against the model, and against the vectors. The program holds the names of the C calls that it was linked with.
comparison() {
    local file
    if ! cargo_quiet build -p compare --features library; then
        fail "comparison: does not build"
        return
    fi
    counted calls library/linked "$(grep -aow 'ttpa_[a-z0-9_]*' "$compare" | sort -u | wc -l)"
    compared random "$@"
    for file in "${vectors[@]}"; do compared "${file##*/}" --cases "$file"; done
}

# What came of the test programs' cases: the number behind their '=', or the end of a run; of listings the numbers of refused ones.
cases_came() {
    grep -hE '^(check|read|write|data|round|start|step) .* = ' crates/*_cases/stdout |
        awk '{ for (i = 1; $i != "="; i++); print "cases", $1, $(i + 1), 1 }'
    sed -nE 's/^run .* = ([012]),.*/\1/p' crates/naming_cases/stdout |
        awk '{ split("going-on all-named names-used-up", ends); print "cases", "run", "0/" ends[$1 + 1], 1 }'
    sed -nE 's/^named .*/0/p; s/^refused //p' crates/listing_cases/stdout | awk '{ print "cases", "list", $1, 1 }'
}

# What came of the listings among the vectors, by file, in the order of the numbers.
listings_came() {
    local file
    for file in "${vectors[@]}"; do
        sed -nE 's/^list .* = (refused ([0-9]+)|.*)$/0\2/p' "$file" | awk -v file="${file##*/}" '{ print file, "list", $1 + 0, 1 }'
    done | sort -s -k3,3n
}

# A table of calls by what came of them, from lines 'SOURCE CALL OUTCOME COUNT': a column of some width for each of the sources named, a row for
# each outcome that one of them has, in the order in which the lines have them. The test programs' cases do not tell what a call did that was
# carried out, a whole run aside.
outcome_table() {
    awk -v width="$1" -v sources="$2" '
        function add(column, what, count) {
            if (!(what in seen)) { seen[what] = 1; order[++rows] = what }
            sum[column, what] += count
        }
        function cell(text) { return sprintf("  %" width "s", text) }
        $3 ~ "/" { add($1, $2 " " substr($3, 1, index($3, "/") - 1), $4) }
        { add($1, $2 " " $3, $4) }
        END {
            columns = split(sources, source, " ")
            line = sprintf("%-13s  %-23s", "call", "outcome")
            for (column = 1; column <= columns; column++) line = line cell(source[column])
            print line
            for (i = 1; i <= rows; i++) {
                what = order[i]
                split(what, words, " ")
                line = sprintf("%-13s  %-23s", words[1], words[2])
                all = 0
                for (column = 1; column <= columns; column++) {
                    count = sum[source[column], what] + 0
                    all += count
                    line = line cell(source[column] == "cases" && what ~ "/" && words[1] != "run" ? "-" : count)
                }
                if (all > 0) print line
            }
        }'
}

# The short names of the files of vectors, in the order of the columns.
vector_columns() {
    echo base more
    printf '%s\n' "${vectors[@]}" | sed -nE 's/.*request-([0-9]+)\.txt$/\1/p' | sort
    echo own
}

# Two tables, which docs/TESTS.md shows as they are without --long: all calls by their source, and those of the vectors by their file.
outcomes() {
    { cat "$work/came" && cases_came && listings_came; } | sed -E 's/^[a-z0-9-]+\.txt /vectors /' |
        outcome_table 7 'random vectors cases' >target/outcomes
    # the random calls have every outcome, in order
    { cat "$work/came" && listings_came; } | sed -E 's/^base\.txt/base/; s/^base-more\.txt/more/; s/^cases\.txt/own/; s/^request-([0-9]+)\.txt/\1/' |
        outcome_table 4 "$(vector_columns | paste -sd' ')" >target/vectors
    cat target/outcomes target/vectors
    if [ $# -eq 0 ]; then
        document_shows docs/TESTS.md target/outcomes
        document_shows docs/TESTS.md target/vectors
    fi
}

require
listing_program
listing_vectors
c_program
other_version
header_alone C99 "$cc" -std=c99 -x c
header_program C11 "$cc" -std=c11 -x c
header_program C++11 "$cxx" -std=c++11 -x c++
header_program C++17 "$cxx" -std=c++17 -x c++
header_whole
header_version
archive_needs
sizes
rust_example
document_shows README.md c/expected.txt
document_shows README.md crates/listing/stdout
cargo_tests
comparison "$@"
outcomes "$@"
finish
