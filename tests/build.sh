#!/usr/bin/env bash
# What `make` builds and says: nothing again that is current, all that is older than its sources, what is missing before the
# proof begins, and installing without the Rattle kit. `-W FILE` has make believe that a file has just changed.
set -uo pipefail
cd "$(dirname "${BASH_SOURCE[0]}")/.." || exit 2
. tests/tools.sh

if ! need_toolchain; then
    echo "0 passed, 1 failed"
    exit 1
fi
folder=$(mktemp -d) || exit 2
trap 'rm -rf "$folder"' EXIT

# A PATH without the Rattle kit, whose commands are all in one folder.
mkdir "$folder/bin"
for tool in bash sh awk cat chmod cut dirname env find gcc cc grep head id install ln make mkdir printf rm sed sort tail uname; do
    ln -s "$(command -v "$tool")" "$folder/bin/$tool"
done
without_kit() { PATH=$folder/bin "$@"; }

current() { make -sq command; }

# older FILE GOAL: with FILE changed, GOAL is no longer current.
older() { make -sq -W "$1" "$2"; [[ $? -eq 1 ]]; }

# stays FILE: with FILE changed, library and command are still current.
stays() { make -sq -W "$1" command; }

# says PATTERN COMMAND...: the command fails with the line on standard error, and begins no proof.
says() {
    local pattern=$1
    shift
    "$@" >"$folder/out" 2>"$folder/err" && { echo 'it succeeded'; return 1; }
    if ! grep -q -- "$pattern" "$folder/err" || grep -q '^rt:' "$folder/out"; then
        cat "$folder/out" "$folder/err"
        return 1
    fi
}

lists_goals() {
    make >"$folder/out" && for goal in demo lib command install uninstall deb test check fuzz bench clean; do
        grep -q "make $goal " "$folder/out" || { echo "$goal is not named"; return 1; }
    done
}

installs_without_kit() {
    without_kit make -s install PREFIX="$folder/usr" && "$folder/usr/bin/ballastwren" --version
}

installs_nothing_old() {
    says 'older than crates/pack/src/lib.rt' without_kit make -s install PREFIX="$folder/none" -W crates/pack/src/lib.rt && [[ ! -e $folder/none ]]
}

make -s command >/dev/null || exit 1
check "make alone names what there is to make" lists_goals
check "what is current is not built again" current
for file in crates.txt crates/runs/specs/Digits.antt crates/scrub/src/lib.rt crates/pmd/proofs crates/ballastwren_c/src/lib.rt packaging/archive.sh; do
    check "library and command are old after $file" older "$file" command
done
check "the command is old after include/ballastwren.h" older include/ballastwren.h command
check "the shared library is old after include/ballastwren.h" older include/ballastwren.h lib
check "the command is old after tools/scrub.c" older tools/scrub.c command
for file in crates/promises/proofs/Promises.antt crates/list/src/main.rt README.md; do
    check "nothing is old after $file" stays "$file"
done
check "a processor that there is nothing for" says "ARCH is 'vax'" make lib ARCH=vax
check "a missing compiler, before the proof" says 'there is no absent-cc' make lib CC=absent-cc -W crates/pack/src/lib.rt
check "a missing kit, before anything" says "'rt' is not on PATH" without_kit make lib -W crates/pack/src/lib.rt
check "make install without the kit" installs_without_kit
check "make install without the kit installs nothing old" installs_nothing_old
finish
