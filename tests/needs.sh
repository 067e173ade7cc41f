#!/usr/bin/env bash
# Sees to it that what the tests need is there, for ARCH, and says what is not: before the proofs begin, not after them.
set -uo pipefail
cd "$(dirname "${BASH_SOURCE[0]}")/.." || exit 2
. tests/tools.sh

need_compilers && need make make && need cargo cargo && need valgrind valgrind && need pkg-config pkg-config &&
    need mandoc mandoc && need dpkg-deb dpkg && need fakeroot fakeroot
