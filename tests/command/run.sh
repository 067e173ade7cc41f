#!/usr/bin/env bash
# The command `ballastwren` tried as it is used: every subcommand, good and bad input, exit statuses, what happens when a
# write fails or is interrupted, and 100,000 files of random bytes. Ends with 'N passed, M failed'.
#   ARCH, ARCHIVE, CC, RUN  see tests/tools.sh        LIST  what runs the program `list`; by default crates/list/out/list
set -uo pipefail
cd "$(dirname "${BASH_SOURCE[0]}")/../.." || exit 2
export LC_ALL=C.UTF-8
. tests/tools.sh
. tests/command/tools.sh

if ! { need_toolchain && need mandoc mandoc && need_list && build_all; }; then
    echo "0 passed, 1 failed"
    exit 1
fi
for part in usage packs scrub lookup objects sheets pmd json writes page random sanitized; do
    run_part "$part"
done
finish
