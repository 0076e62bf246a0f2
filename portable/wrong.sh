#!/usr/bin/env bash
# Tries the wrong translators kept in rust/portable/wrong/*.edit: the test that an edit names has to find it. On demand, and all of
# them before a release.
#
#   portable/wrong.sh [NAME..]     the named edits, or all       TTPA_MIR, TTPA_CORE: as portable/test.sh takes them
#   portable/wrong.sh --applies    that each still applies and names its test, and nothing built: a part of portable/test.sh
#
# An edit begins with three comments, '# PLACE: what is wrong', '# INPUT: demanded / given' and '# found by TEST'; then a line 'file:' and pairs of
# lines 'old:' and 'new:', each old text once in its file. TEST is a test of rust/portable, or 'vectors': the C file of the edited translator
# is compiled, without the compiler's own functions, and replays them.
#
# The last line is 'N passed, M failed'; the status is 1 if something failed.
set -u
cd "$(dirname "$0")/.." || exit 1
copy=$PWD/target/portable/wrong
# its own: the program that is built here is a wrong one
export CARGO_TARGET_DIR=$PWD/target/portable/wrong-cargo
cc=${CC:-cc}
passed=0
failed=0

fail() {
    echo "failed: $1"
    failed=$((failed + 1))
}

# The workspace without what is built in it.
copy_workspace() {
    local part
    rm -rf "$copy"
    mkdir -p "$copy" || exit 1
    for part in rust/*; do
        if [ "$part" != rust/target ]; then cp -R "$part" "$copy/" || exit 1; fi
    done
}

restore() { rm -rf "$copy/portable/src" && cp -R rust/portable/src "$copy/portable/src"; }

# Puts the new text in the place of the old one, which has to stand in the file once.
replace() {
    [ -f "$1" ] && OLD=$2 NEW=$3 awk '
        { text = text $0 "\n" }
        END {
            old = ENVIRON["OLD"]
            at = index(text, old)
            if (old == "" || !at) exit 1
            rest = substr(text, at + length(old))
            if (index(rest, old)) exit 1
            printf "%s%s%s", substr(text, 1, at - 1), ENVIRON["NEW"], rest
        }' "$1" >"$copy/edited" && mv "$copy/edited" "$1"
}

apply() {
    local file='' old='' pairs=0 text
    while IFS= read -r text; do
        case $text in
        'file: '*) file=${text#file: } ;;
        'old: '*) old=${text#old: } ;;
        'new: '*)
            if ! replace "$copy/portable/$file" "$old" "${text#new: }"; then
                echo "$file: $old"
                return 1
            fi
            pairs=$((pairs + 1))
            ;;
        esac
    done <"$1"
    [ "$pairs" -gt 0 ]
}

# The test that an edit names, which has to be there.
test_of() {
    local lines name
    mapfile -t lines < <(grep '^#' "$1")
    [[ ${lines[0]-} =~ ^'# '.+': '. ]] && [[ ${lines[1]-} =~ ^'# '.+' / '. ]] || return 1
    name=$(sed -n '3s/^# found by //p' "$1")
    [ "$name" = vectors ] || grep -qx "fn $name() {" rust/portable/tests/*.rs || return 1
    echo "$name"
}

# Whether a test of the edited translator fails, and not its build.
found_by_test() {
    (cd "$copy" && cargo test --offline --release -j1 -p portable --tests "$1" -- --exact) >"$copy/log" 2>&1
    grep -qx "test $1 ... FAILED" "$copy/log"
}

found_by_vectors() {
    (cd "$copy" && cargo build --offline --quiet --release -j1 -p portable) >"$copy/log" 2>&1 || return 1
    "$CARGO_TARGET_DIR/release/portable" crates "${mir[@]}" >"$copy/ttpa.c" 2>>"$copy/log" || return 1
    "$cc" -std=c99 -O1 -DTTPA_WITHOUT_BUILTINS -Iinclude c/replay.c "$copy/ttpa.c" -o "$copy/replay" >>"$copy/log" 2>&1 || return 1
    timeout 120 "$copy/replay" rust/model/tests/data/*.txt >>"$copy/log" 2>&1
    [ $? -ne 0 ] && grep -q '^does not hold: ' "$copy/log"
}

try() {
    local edit=$1 label missing name
    label=$(basename "$edit" .edit)
    restore
    if ! name=$(test_of "$edit"); then
        fail "$label: no comments '# PLACE: wrong', '# INPUT: demanded / given', '# found by TEST' of a test that is there"
    elif ! missing=$(apply "$edit"); then
        fail "$label: no longer applies: $missing"
    elif [ "$applies" ]; then
        passed=$((passed + 1))
    elif { [ "$name" = vectors ] && found_by_vectors; } || { [ "$name" != vectors ] && found_by_test "$name"; }; then
        echo "$label: found by $name"
        passed=$((passed + 1))
    else
        fail "$label: not found by $name: $(grep -m 1 -E 'error|vectors hold|test result: ok' "$copy/log")"
    fi
}

applies=
if [ "${1:-}" = --applies ]; then
    applies=yes
    # its own: edits may be tried at the same time
    copy=$PWD/target/portable/applied
    shift
fi
copy_workspace
if [ -z "$applies" ] && [ -z "${TTPA_MIR:-}" ] && ! (cd crates/ttpa && rt lib >"$copy/built"); then
    fail "crates/ttpa is not built: rt lib"
else
    mir=("${TTPA_MIR:-crates}"/*/out/rlib/*.rlib/toolchain/mir.json
        "${TTPA_CORE:-$(dirname "$(rt doc)")/rlibs/core.rlib/toolchain/mir.json}")
    if [ $# -eq 0 ]; then set -- rust/portable/wrong/*.edit; else set -- "${@/#/rust/portable/wrong/}" && set -- "${@/%/.edit}"; fi
    for edit; do try "$edit"; done
fi
rm -rf "$copy/portable/src"
echo "$passed passed, $failed failed"
[ "$failed" -eq 0 ]
