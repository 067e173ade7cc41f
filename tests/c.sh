#!/usr/bin/env bash
# The archive from C: the header in C99 and C++, every export on lent ranges of exact size, and the stack they use.
# shellcheck disable=SC2086  # RUN is a command of several words, or none
set -uo pipefail
cd "$(dirname "${BASH_SOURCE[0]}")/.." || exit 2
. tests/tools.sh

if ! need_toolchain; then
    echo "0 passed, 1 failed"
    exit 1
fi
folder=$(mktemp -d) || exit 2
trap 'rm -rf "$folder"' EXIT
strict=(-O1 -g -Wall -Wextra -pedantic -Werror -Iinclude)

include_alone() {
    echo '#include "ballastwren.h"' >"$folder/alone.c"
    $CC -std=c99 "${strict[@]}" -c -o "$folder/alone.o" "$folder/alone.c"
}

cxx() {
    $CXX -std=c++11 "${strict[@]}" -o "$folder/header" tests/c/header.cc "$ARCHIVE" && $RUN "$folder/header"
}

# build NAME: a program of tests/c.
build() { $CC -std=gnu99 "${strict[@]}" -o "$folder/$1" "tests/c/$1.c" tests/c/lent.c "$ARCHIVE"; }

check "the header alone, C99 without a warning" include_alone
check "the header in C++, and calls" cxx
check "tests/c/exports.c builds" build exports
tallied $RUN "$folder/exports" guard
# A memory checker sees every access outside the heap ranges. It runs programs of this machine's processor only. Bytes that were never written are not
# its business here: an optimiser may look at such bytes and throw the outcome away.
if [[ $RUN ]]; then
    echo "skipped the run under valgrind: the archive is for $ARCH, and this machine is $(uname -m)"
elif need valgrind valgrind; then
    tallied valgrind --quiet --undef-value-errors=no --error-exitcode=3 "$folder/exports" heap
fi
check "tests/c/stack.c builds" build stack
tallied $RUN "$folder/stack"
finish
