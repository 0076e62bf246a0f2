#!/usr/bin/env bash
# The package: `make dist` in two folders, under another umask, time zone and locale, is the same bytes; unpacked and installed it has the files
# that it should have, with their modes, the program runs from there, and a C program is built with what pkg-config tells; README's commands
# do what is written; the C file makes an archive too, twice the same; the picture of the rooms and the list of changes are those of this state.
#
#   package/test.sh            TTPA_LIB_DIR: the folder of libttpa.a, default target/staticlib
#
# The last line is 'N passed, M failed'; the status is 1 if something failed.
set -uo pipefail
cd "$(dirname "$0")/.." || exit 1
TTPA_LIB_DIR=$(realpath "${TTPA_LIB_DIR:-target/staticlib}")
proved=$TTPA_LIB_DIR
export TTPA_LIB_DIR CARGO_BUILD_JOBS=${CARGO_BUILD_JOBS:-1}
cc=${CC:-cc}
passed=0
failed=0
work=$(mktemp -d) || exit 1
trap 'rm -rf "$work"' EXIT

# A part that passes or fails by its status.
check() {
    local name=$1
    shift
    if "$@"; then
        passed=$((passed + 1))
    else
        echo "failed: $name"
        failed=$((failed + 1))
    fi
}

finish() {
    echo "$passed passed, $failed failed"
    [ "$failed" -eq 0 ]
    exit
}

present() { command -v "$1" >/dev/null; }

require() {
    local program
    for program in make cargo "$cc" ar pkg-config tar gzip sha256sum; do check "missing: $program" present "$program"; done
    check "missing: $TTPA_LIB_DIR/libttpa.a" test -f "$TTPA_LIB_DIR/libttpa.a"
    passed=0
    [ "$failed" -eq 0 ] || finish
}

# What the repository has of the package's sources, in a folder of its own.
sources_in() {
    mkdir -p "$1" && tar -cf - --exclude=target Makefile include package portable rust/{Cargo.toml,Cargo.lock} rust/*/ c | tar -xf - -C "$1"
}

# The tar file of a folder: FOLDER ENGINE. The archive of the proved engine is taken as it is; that of the C file is made there.
dist_in() (
    if [ "$2" = c ]; then unset TTPA_LIB_DIR; fi
    sources_in "$1" && make --silent -C "$1" dist ENGINE="$2"
)

# The same as someone else would make it: another umask, time zone and language.
dist_elsewhere() (umask 077 && export LC_ALL=C.UTF-8 TZ=Asia/Kathmandu && dist_in "$@")

files_expected() {
    cat <<'END'
644 include/ttpa.h
644 lib/libttpa.a
644 lib/pkgconfig/ttpa.pc
644 share/bash-completion/completions/ttpa
644 share/man/man1/ttpa.1
755 bin/ttpa
END
}

# A folder has these files with their modes and no other.
has_files() { diff <(files_expected) <(find "$1" -type f -printf '%m %P\n' | LC_ALL=C sort); }

# A tar file's entries, as the folder of the name has them: sorted, of nobody in particular and of one time.
has_entries() {
    local name=$2 entries
    entries=$(TZ=UTC0 tar --numeric-owner -tvzf "$1" | awk '{ print $1, $2, $4, $5, $6 }')
    diff <(entries_expected "$name") <(echo "$entries")
}

entries_expected() {
    local entry mode
    for entry in '' bin/ bin/ttpa include/ include/ttpa.h lib/ lib/libttpa.a lib/pkgconfig/ lib/pkgconfig/ttpa.pc share/ share/bash-completion/ \
        share/bash-completion/completions/ share/bash-completion/completions/ttpa share/man/ share/man/man1/ share/man/man1/ttpa.1; do
        case $entry in
        '' | */) mode=drwxr-xr-x ;;
        bin/ttpa) mode=-rwxr-xr-x ;;
        *) mode=-rw-r--r-- ;;
        esac
        echo "$mode 0/0 1980-01-01 00:00 $1/$entry"
    done
}

# Nothing that was packed tells where it was built.
tells_no_folder() { [ -d "$1" ] && ! grep -rqaF -e "$work" -e "$PWD" "$1"; }

version=$(sed -n 's/^#define TTPA_VERSION_[A-Z]* //p' include/ttpa.h | paste -sd.)

runs() {
    [ "$("$1/bin/ttpa" --version)" = "ttpa $version (library $version)" ] &&
        [[ $("$1/bin/ttpa" check c/demo.cluster) == 'c/demo.cluster: accepted, 3 slaves, 2 unnamed, '* ]]
}

# The demo, built by what pkg-config says of a folder, prints what it has to.
links() {
    local flags
    flags=$(PKG_CONFIG_PATH=$1/lib/pkgconfig pkg-config --cflags --libs ttpa) || return
    # pkg-config quotes for the shell, so that a folder's name may have blanks
    eval "\"\$cc\" -std=c99 c/demo.c $flags -o \"\$work/demo\"" && "$work/demo" c/demo.cluster | diff c/expected.txt -
}

# Without names for a debugger.
stripped() { [ -z "$(nm "$1/bin/ttpa" 2>/dev/null)" ]; }

pkg_version() { [ "$(PKG_CONFIG_PATH=$1/lib/pkgconfig pkg-config --modversion ttpa)" = "$version" ]; }

# The folder may be installed or unpacked anywhere.
folder_is_whole() {
    check "$2: files" has_files "$1"
    check "$2: names a folder of the build" tells_no_folder "$1"
    check "$2: the program" runs "$1"
    check "$2: the program has names for a debugger" stripped "$1"
    check "$2: a C program by pkg-config" links "$1"
    check "$2: pkg-config's version" pkg_version "$1"
}

same_bytes() { cmp "$work/$1/target/dist/$2" "$work/$1 elsewhere/target/dist/$2"; }

sums_hold() { (cd "$1" && sha256sum --quiet -c SHA256SUMS); }

machine=$(uname -m)-linux

# ENGINE, and what its name has of it: made twice, in folders of that name, the same bytes.
dists() {
    local engine=$1 name=ttpa-$version-$2$machine file
    check "make dist, $engine" dist_in "$work/$engine" "$engine"
    check "make dist elsewhere, $engine" dist_elsewhere "$work/$engine elsewhere" "$engine"
    for file in "$name.tar.gz" SHA256SUMS; do check "two builds, $engine: $file" same_bytes "$engine" "$file"; done
    check "SHA256SUMS, $engine" sums_hold "$work/$engine/target/dist"
    check "entries of the tar file, $engine" has_entries "$work/$engine/target/dist/$name.tar.gz" "$name"
    mkdir "$work/unpacked $engine" && tar -xzf "$work/$engine/target/dist/$name.tar.gz" -C "$work/unpacked $engine"
    folder_is_whole "$work/unpacked $engine/$name" "the tar file, $engine"
}

installs() {
    check "make install" make --silent -C "$work/rattle" install PREFIX=/prefix DESTDIR="$work/installed"
    folder_is_whole "$work/installed/prefix" "the installed folder"
}

# Where names of folders have blanks too; again over what is there.
with_blanks() {
    local told=("PREFIX=/of all" "DESTDIR=$work/a folder")
    check "make install with blanks" make --silent -C "$work/rattle" install "${told[@]}"
    check "make install once more" make --silent -C "$work/rattle" install "${told[@]}"
    check "blanks: files" has_files "$work/a folder/of all"
    check "blanks: the program" runs "$work/a folder/of all"
}

# Who installs need not have cargo, once all is made: here it is a program that fails.
installs_without_cargo() {
    mkdir "$work/programs" && printf '#!/bin/sh\nexit 1\n' >"$work/programs/cargo" && chmod 755 "$work/programs/cargo" &&
        PATH=$work/programs:$PATH make --silent -C "$work/rattle" install PREFIX=/p DESTDIR="$work/without" && has_files "$work/without/p"
}

# Another compiler, and another archive of the same time, make the program anew; another word for the engine is told.
makes_anew() {
    local made=$work/c/target/package/bin/ttpa before
    (
        unset TTPA_LIB_DIR
        before=$(sha256sum <"$made")
        make --silent -C "$work/c" ENGINE=c CFLAGS='-std=c99 -O0' && [ "$before" != "$(sha256sum <"$made")" ] &&
            mkdir "$work/old" && cp "$proved/libttpa.a" "$work/old" && touch -d 2000-01-01 "$work/old/libttpa.a" && before=$(sha256sum <"$made") &&
            make --silent -C "$work/c" TTPA_LIB_DIR="$work/old" && [ "$before" != "$(sha256sum <"$made")" ] &&
            ! make --silent -C "$work/c" ENGINE=C 2>"$work/messages" && grep -q 'ENGINE is rattle or c' "$work/messages"
    )
}

# A folder that cannot be made is a failure: here a file is in its place.
cannot_install() { touch "$work/file" && ! make --silent -C "$work/rattle" install PREFIX=/prefix DESTDIR="$work/file" 2>"$work/messages"; }

# All crates, the static library among them.
crates() { sed -nE 's/^([a-z_]+)( staticlib)?:.*/\1/p' crates.txt; }

# Every crate but those of test programs has its room, and there is no other.
rooms_of_crates() {
    diff <(crates | grep -vE '_cases$|^case_input$' | sort) \
        <(sed -nE 's,.*font-weight="bold">([a-z_]+)</text>,\1,p' docs/map.svg | sort)
}

# Which room stands on which: those that touch it from below.
drawn_uses() {
    sed -nE -e 's/.*<rect x="([0-9]+)" y="([0-9]+)" width="([0-9]+)" height="([0-9]+)".*/at \1 \2 \3 \4/p' \
        -e 's,.*font-weight="bold">([a-z_]+)</text>,room \1,p' docs/map.svg | awk '
        $1 == "at" { x = $2; y = $3; w = $4; h = $5 }
        $1 == "room" { left[$2] = x; right[$2] = x + w; top[$2] = y; end[$2] = y + h }
        END { for (a in left) for (b in left) if (top[b] == end[a] + 6 && left[b] < right[a] && left[a] < right[b]) print a, b }'
}

# Which crate uses which, test programs aside.
kept_uses() {
    sed 's/ staticlib:/:/' crates.txt |
        awk '/^#/ || /_cases:|^case_input:/ { next } { a = $1; sub(":", "", a); room[a] = 1; for (i = 2; i <= NF; i++) use[a, $i] = 1 }
        END { for (a in room) for (b in room) if ((a, b) in use) print a, b }'
}

# With all that is reached.
closed() {
    awk '{ use[$1, $2] = 1; n[$1]; n[$2] }
        END { for (k in n) for (a in n) for (b in n) if ((a, k) in use && (k, b) in use) use[a, b] = 1
              for (a in n) for (b in n) if ((a, b) in use) print a, b }' | LC_ALL=C sort
}

# Each room stands on what its crate uses.
rooms_stand() { diff <(kept_uses | closed) <(drawn_uses | closed); }

# README has a row for each crate.
crates_told() {
    diff <(crates | sort) \
        <(sed -n '/^| crate |/,/^$/p' README.md | sed 's/ | .*//' | grep -oE '`[a-z_]+`' | tr -d '`' | cat - <(echo case_input) | sort)
}

# What changed for programs that link begins with this version.
version_told() { [ "$(grep -m 1 '^## ' CHANGELOG.md)" = "## $version" ]; }

# Every call of the header is told, and no other.
calls_told() {
    diff <(grep -oE '\bttpa_[a-z_0-9]+\(' include/ttpa.h | tr -d '(' | sort -u) <(grep -oE '\bttpa_[a-z_0-9]+' CHANGELOG.md | sort -u)
}

# The size that is told last is the header's.
size_told() {
    local told
    told=$(grep -oEm 1 "$1\`( is)? [0-9,]+" CHANGELOG.md | sed 's/.* //' | tr -d ,)
    [ -n "$told" ] && grep -qx "#define $1 $told" include/ttpa.h
}

# The first block that is set in below a heading of README.
block_below() { awk -v heading="$1" '$0 == heading { on = 1; next } on && /^    / { print substr($0, 5); begun = 1; next } begun { exit }' README.md; }

# README's commands, with the archive there already: they show the demo's cluster, draw it, name its slaves, install and pack.
readme_commands() {
    local commands home=$work/home
    commands=$(block_below '## Run')
    mkdir "$home" && [ "$(grep -c '' <<<"$commands")" -eq 6 ] &&
        (unset TTPA_LIB_DIR && bash -ec "${commands//'$HOME'/"$home"}") >"$work/told" && grep -qx 'slave 01 0000000700000042' "$work/told" &&
        grep -q '^all named: 2 given, ' "$work/told" && grep -q '</svg>' rounds.svg && has_files "$home/.local" && sums_hold target/dist
}

require
dists rattle ''
dists c from-c-
installs
with_blanks
check "make install without cargo" installs_without_cargo
check "made anew" makes_anew
check "make install where it cannot" cannot_install
if [ -f target/staticlib/libttpa.a ]; then
    check "README's commands" readme_commands
else
    echo "left out: README's commands (without target/staticlib/libttpa.a they prove the engine from nothing)"
fi
check "docs/map.svg: rooms" rooms_of_crates
check "docs/map.svg: what stands on what" rooms_stand
check "README: crates" crates_told
check "CHANGELOG.md: the version" version_told
check "CHANGELOG.md: calls" calls_told
check "CHANGELOG.md: TTPA_CODE_BYTES" size_told TTPA_CODE_BYTES
check "CHANGELOG.md: TTPA_STACK_BYTES" size_told TTPA_STACK_BYTES
finish
