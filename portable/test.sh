#!/usr/bin/env bash
# The portable C file: made from the proved program in both forms, held to the kept file, compiled without a warning, and tested as the archive
# is: the demo, the header's program, all vectors and the comparison with the model; once more under sanitizers; and the vectors and the demo
# on other processors, where a cross compiler and an emulator are installed. What is not installed is named and left out. What was counted is
# added to target/counts for .ci/least.
#
#   portable/test.sh             TTPA_MIR: a folder of crates that are built, default crates, where `rt lib` builds what is not
#                                TTPA_CORE: the program of the kit's library core, default that of the kit whose `rt` is found
#   portable/test.sh --write     writes portable/ttpa.c anew and tests nothing
#   portable/test.sh --short     without the comparison
#   portable/test.sh --long      the comparison under the address sanitizer too, which takes some minutes for each form
#
# The last line is 'N passed, M failed'; the status is 1 if something failed.
set -uo pipefail
cd "$(dirname "$0")/.." || exit 1
work=$PWD/target/portable
counts=$PWD/target/counts
mkdir -p "$work" || exit 1
vectors=(rust/model/tests/data/*.txt)
strict=(-std=c99 -Wall -Wextra -pedantic -Wconversion -Werror -Iinclude)
export CARGO_TARGET_DIR=$work/cargo
cc=${CC:-cc}
passed=0
failed=0

pass() { passed=$((passed + 1)); }

fail() {
    echo "failed: $1"
    failed=$((failed + 1))
}

# A part that passes or fails by its status.
check() {
    local name=$1
    shift
    if "$@"; then pass; else fail "$name"; fi
}

# A number for .ci/least: what was counted and how many. This program's numbers of an earlier run are taken out.
counted() {
    touch "$counts"
    grep -v "^calls portable/$1 " "$counts" >"$work/counts"
    echo "calls portable/$1 $2" | cat "$work/counts" - >"$counts"
}

finish() {
    echo "$passed passed, $failed failed"
    [ "$failed" -eq 0 ]
    exit
}

have() { command -v "$1" >/dev/null; }

left_out() { echo "left out: $1 ($2 is not installed)"; }

# Whether all of some programs are there; names the first that is not.
installed() {
    local name=$1 program
    shift
    for program; do
        if ! have "$program"; then
            left_out "$name" "$program"
            return 1
        fi
    done
}

# Whether a compiler with these flags makes a program of the C library that it has; one without a library is as good as none.
has_library() {
    local name=$1
    shift
    if ! "$@" -x c - -o "$work/probe" <<<$'#include <stdint.h>\n#include <string.h>\nint main(void) { return 0; }' 2>/dev/null; then
        echo "left out: $name ($1 finds no C library)"
        return 1
    fi
}

in_rust() { (cd rust && cargo "$@" --quiet --offline --release -j1); }

# The kit's own library, whose functions the engine calls: `rt doc` prints a path in the kit.
core_mir() { echo "${TTPA_CORE:-$(dirname "$(rt doc)")/rlibs/core.rlib/toolchain/mir.json}"; }

# Both forms, twice each. The toolchain keeps the program with each library that it has proved.
make_forms() {
    local form
    if [ -z "${TTPA_MIR:-}" ] && ! (cd crates/ttpa && rt lib >"$work/built"); then
        cat "$work/built"
        return 1
    fi
    in_rust build -p portable || return 1
    for form in plain reading; do
        mkdir -p "$work/$form"
        made "$form" >"$work/$form/ttpa.c" && made "$form" | cmp - "$work/$form/ttpa.c" || return 1
    done
}

made() {
    local form=()
    if [ "$1" = plain ]; then form=(--plain); fi
    "$CARGO_TARGET_DIR/release/portable" crates "${TTPA_MIR:-crates}"/*/out/rlib/*.rlib/toolchain/mir.json "$(core_mir)" "${form[@]}"
}

# Every compiler that there is, without optimization and with it, and no warning.
compiled() {
    local form=$1 compiler level
    for compiler in "$cc" clang; do
        if ! installed "compiled with $compiler" "$compiler"; then continue; fi
        for level in -O0 -O2; do
            check "$form: $compiler $level" "$compiler" "${strict[@]}" "$level" -c "$work/$form/ttpa.c" -o "$work/$form/ttpa.o"
        done
    done
}

# An archive in a folder: FOLDER FORM FLAGS..
archive_in() {
    local folder=$work/$1 form=$2
    shift 2
    mkdir -p "$folder" && rm -f "$folder/libttpa.a" && "$cc" -std=c99 -Iinclude "$@" -c "$work/$form/ttpa.c" -o "$folder/ttpa.o" &&
        ar rcs "$folder/libttpa.a" "$folder/ttpa.o"
}

# The archive of a form: no memory of its own, and no other function needed.
archive() {
    archive_in "$1" "$1" "${strict[@]}" -O2 &&
        [ -z "$(nm -u "$work/$1/libttpa.a" | awk '$1 == "U" && $2 !~ /^mem(cpy|set)$/')" ] &&
        [ "$(size -A "$work/$1/ttpa.o" | awk '$1 ~ /^[.](data|bss|tdata|tbss)/ { sum += $2 } END { print sum + 0 }')" -eq 0 ]
}

# The C programs with one source or archive of the engine, by a compiler with its flags, under a program that runs them or none.
program() {
    local name=$1 of=$2 run=$3
    shift 3
    if ! "$@" c/demo.c "$of" -o "$work/demo" || ! "$@" c/replay.c "$of" -o "$work/replay"; then
        fail "$name: does not build"
        return
    fi
    check "$name: demo" demo_as_expected "$run"
    check "$name: vectors" replayed "$name" "$run"
}

# How many vectors the last replay held.
held() { sed -nE '$s/^([0-9]+) vectors hold, .*/\1/p' "$work/replayed"; }

# What a replay of files has to say: every line holds but those of the listing program, which are left out.
all_hold() {
    local listed
    listed=$(cat "$@" | grep -c '^list ')
    echo "$(($(cat "$@" | grep -c '') - listed)) vectors hold, 0 do not, $listed left out"
}

demo_as_expected() { timeout 120 $1 "$work/demo" c/demo.cluster | cmp - c/expected.txt; }

replayed() {
    timeout 600 $2 "$work/replay" "${vectors[@]}" >"$work/replayed"
    local status=$?
    echo "$1: $(tail -n 1 "$work/replayed")"
    if [ "$status" -ne 0 ]; then cat "$work/replayed"; fi
    [ "$status" -eq 0 ] && [ "$(tail -n 1 "$work/replayed")" = "$(all_hold "${vectors[@]}")" ]
}

# That c/replay.c finds every vector that is spoiled: all vectors, and behind them those of portable/spoil.awk.
replay_finds_what_is_wrong() {
    local status whole
    awk -f portable/spoil.awk "${vectors[@]}" >"$work/spoiled" || return 1
    whole=$(all_hold "${vectors[@]}")
    "$cc" "${strict[@]}" -O2 c/replay.c "$work/reading/ttpa.c" -o "$work/replay" || return 1
    timeout 600 "$work/replay" "${vectors[@]}" "$work/spoiled" >"$work/replayed"
    status=$?
    [ "$status" -eq 1 ] && [ "$(tail -n 1 "$work/replayed")" = "${whole/ 0 / $(wc -l <"$work/spoiled") }" ]
}

header_program() {
    "$cc" -std=c11 -Iinclude c/header.c "$@" -o "$work/header" && timeout 120 "$work/header" >"$work/compared" &&
        grep -qE '^[0-9]+ comparisons, 0 failed$' "$work/compared"
}

# The random comparison with the model, linked with the archive of a folder.
build_comparison() {
    if (export TTPA_LIB_DIR=$work/$1 && in_rust build -p compare --features library) &&
        mv "$CARGO_TARGET_DIR/release/compare" "$work/$1/compare"; then
        built+=("$1")
    else
        fail "$1: the comparison does not build"
    fi
}

# A form as it is, and so that undefined behaviour ends it: this needs nothing of the compiler's at run time.
build_comparisons() {
    local trapped=$1-trapped
    build_comparison "$1"
    if ! "$cc" -fsanitize=undefined -fsanitize-undefined-trap-on-error -x c - -o "$work/probe" <<<'int main(void) { return 0; }' 2>/dev/null; then
        left_out "comparison of the $1 form under a sanitizer" "one that traps"
    elif archive_in "$trapped" "$1" -O1 -fsanitize=undefined -fsanitize-undefined-trap-on-error; then
        build_comparison "$trapped"
    else
        fail "$trapped: does not build"
    fi
}

# The random calls, and the vectors through the wrapper.
compared() {
    local compare=$work/$1/compare file
    timeout 1800 "$compare" || return 1
    for file in "${vectors[@]}"; do timeout 600 "$compare" --cases "$file" >"$work/$1/cases" || return 1; done
}

# Those of the folders named, two at once. Each says what it ran against.
comparisons() {
    local folder log
    for folder; do
        while [ "$(jobs -pr | wc -l)" -ge 2 ]; do wait -n; done
        { compared "$folder" >"$work/$folder/compared" && echo held >>"$work/$folder/compared"; } &
    done
    wait
    for folder; do
        log=$work/$folder/compared
        if grep -qx 'engine library' "$log" && [ "$(tail -n 1 "$log")" = held ]; then pass; else fail "$folder: comparison"; fi
        echo "$folder: comparison: $(grep ' passed, ' "$log")"
        counted "$folder/random" "$(awk '$1 == "made" { sum += $3 } END { print sum + 0 }' "$log")"
    done
}

# The random calls under the address sanitizer, whose functions have to come before all others.
address_comparison() {
    local folder=$1-addresses
    if archive_in "$folder" "$1" -g -O1 -fno-sanitize-recover=all -fsanitize=address,undefined &&
        (export TTPA_LIB_DIR=$work/$folder RUSTFLAGS='-C link-args=-lasan -C link-args=-lubsan' CARGO_TARGET_DIR=$work/addresses-cargo &&
            in_rust build -p compare --features library) &&
        LD_PRELOAD=$("$cc" -print-file-name=libasan.so) ASAN_OPTIONS=detect_leaks=0 "$work/addresses-cargo/release/compare" >"$work/$folder/compared"; then
        pass
    else
        fail "$folder: comparison"
    fi
    echo "$folder: comparison: $(tail -n 1 "$work/$folder/compared")"
}

# The findings of the sanitizers end a program. The second set is clang's: no unsigned sum, difference or product wraps and no conversion
# loses anything; a left shift loses bits by its definition.
sanitizers() {
    local form=$1 flags=(-std=c99 -g -O1 -Iinclude -fno-sanitize-recover=all)
    if ! "$cc" -fsanitize=address,undefined -x c - -o "$work/probe" <<<'int main(void) { return 0; }' 2>/dev/null; then
        echo "left out: sanitizers ($cc has none)"
        return
    fi
    program "$form, address and undefined" "$work/$form/ttpa.c" '' "$cc" "${flags[@]}" -fsanitize=address,undefined
    check "$form, address and undefined: header" header_program -g -O1 -fno-sanitize-recover=all -fsanitize=address,undefined "$work/$form/ttpa.c"
    flags+=(-fsanitize=undefined,integer,implicit-conversion -fno-sanitize=unsigned-shift-base)
    if installed "sanitizers of clang" clang && has_library "sanitizers of clang" clang "${flags[@]}"; then
        if clang "${flags[@]}" -c "$work/$form/ttpa.c" -o "$work/checked.o"; then
            program "$form, no wrap and no loss" "$work/checked.o" '' clang -std=c99 -Iinclude -fsanitize=undefined,integer
        else
            fail "$form: clang's sanitizers: does not build"
        fi
    fi
}

# Other processors under Linux: NAME COMPILER EMULATOR.
linux_processor() {
    local form
    if ! installed "$1" "$2" "$3" || ! has_library "$1" "$2" -static; then return; fi
    for form in plain reading; do program "$1, $form" "$work/$form/ttpa.c" "$3" "$2" "${strict[@]}" -O2 -static; done
}

# A bare processor: NAME CPU BOARD. Its C library passes a short command line on, so the vectors go file by file.
bare_processor() {
    local name=$1 cpu=$2 board=$3 file held=0 run
    if ! installed "$name" arm-none-eabi-gcc qemu-system-arm ||
        ! has_library "$name" arm-none-eabi-gcc -mcpu="$cpu" -mthumb --specs=rdimon.specs; then
        return
    fi
    # Debian's compiler has stdint.h twice; inttypes.h needs its library's
    local compiler=(arm-none-eabi-gcc -mcpu="$cpu" -mthumb "${strict[@]}" -Os -isystem /usr/include/newlib --specs=rdimon.specs
        -T portable/cortex_m.ld portable/cortex_m.c "$work/reading/ttpa.c")
    if ! "${compiler[@]}" c/demo.c -o "$work/demo" || ! "${compiler[@]}" c/replay.c -o "$work/replay"; then
        fail "$name: does not build"
        return
    fi
    run="timeout 300 qemu-system-arm -M $board -nographic -monitor none -serial none"
    check "$name: demo" bare_demo "$run"
    for file in "${vectors[@]}"; do
        if $run -semihosting-config "enable=on,target=native,arg=replay,arg=$file" -kernel "$work/replay" >"$work/replayed" &&
            [ "$(tail -n 1 "$work/replayed")" = "$(all_hold "$file")" ]; then
            held=$((held + $(held)))
        else
            fail "$name: $file: $(tail -n 1 "$work/replayed")"
        fi
    done
    echo "$name: $held vectors hold"
    check "$name: vectors" [ "$held" -gt 0 ]
}

bare_demo() {
    $1 -semihosting-config enable=on,target=native,arg=demo,arg=c/demo.cluster -kernel "$work/demo" | cmp - c/expected.txt
}

# Code and constants of all calls and the most stack, at -Os: NAME COMPILER FLAGS.. The header states them as that version of gcc gives them.
version_of_sizes=12.2
sizes() {
    local name=$1 code stack stated
    shift
    if ! installed "sizes on $name" "$1" || ! has_library "sizes on $name" "$@" -c; then return; fi
    if ! "$@" "${strict[@]}" -Os -fstack-usage -fcallgraph-info=su -c "$work/reading/ttpa.c" -o "$work/sized.o"; then
        fail "$name: does not build"
        return
    fi
    code=$(size -A "$work/sized.o" | awk '$1 ~ /^[.](text|rodata)/ { sum += $2 } END { print sum + 0 }')
    if ! stack=$(awk -f portable/stack.awk "$work/sized.ci"); then fail "$name: the stack is not known"; fi
    echo "$name: $code bytes of code, $stack of stack"
    stated=$(sed -n "s/^ \*  *$name  *//p" include/ttpa.h | tr -d ,)
    case $("$1" -dumpversion) in
    "$version_of_sizes".*) check "$name: the header states '$stated'" [ "$stated" = "$code bytes of code ${stack% (*} of stack" ] ;;
    *) left_out "the header's sizes on $name" "gcc $version_of_sizes" ;;
    esac
}

for program in "$cc" cargo ar nm size; do
    if ! have "$program"; then
        fail "missing: $program"
        finish
    fi
done
if ! make_forms; then
    fail "the C file is not made"
    finish
fi
pass
if [ "${1:-}" = --write ]; then
    cp "$work/reading/ttpa.c" portable/ttpa.c
    finish
fi
check "portable/ttpa.c is not what the translator makes: portable/test.sh --write" cmp "$work/reading/ttpa.c" portable/ttpa.c
check "a wrong translator does not apply" portable/wrong.sh --applies
built=()
for form in plain reading; do
    compiled "$form"
    if ! archive "$form"; then
        fail "$form: no archive, or it has memory of its own, or needs more than memcpy and memset"
        continue
    fi
    pass
    program "$form" "$work/$form/libttpa.a" '' "$cc" "${strict[@]}" -O2
    counted "$form/vectors" "$(held)"
    check "$form: header" header_program -O2 "$work/$form/libttpa.a"
    program "$form, without builtins" "$work/$form/ttpa.c" '' "$cc" "${strict[@]}" -O2 -DTTPA_WITHOUT_BUILTINS
    sanitizers "$form"
    if [ "${1:-}" != --short ]; then build_comparisons "$form"; fi
    if [ "${1:-}" = --long ]; then address_comparison "$form"; fi
done
comparisons "${built[@]}"
check "c/replay.c: a spoiled vector holds" replay_finds_what_is_wrong
linux_processor "32-bit ARM" arm-linux-gnueabihf-gcc qemu-arm
linux_processor "PowerPC, big-endian" powerpc-linux-gnu-gcc qemu-ppc
linux_processor "s390x, big-endian" s390x-linux-gnu-gcc qemu-s390x
bare_processor "bare Cortex-M4" cortex-m4 mps2-an386
bare_processor "bare Cortex-M3" cortex-m3 mps2-an385
sizes "Cortex-M4" arm-none-eabi-gcc -mcpu=cortex-m4 -mthumb
sizes "Cortex-M0" arm-none-eabi-gcc -mcpu=cortex-m0 -mthumb
sizes "RV32IMAC" riscv64-unknown-elf-gcc -march=rv32imac -mabi=ilp32 --specs=picolibc.specs
finish
