#!/usr/bin/env bash
# Builds the bridge to the archive: build.sh OUT. The last line it prints is the command that runs it here.
set -euo pipefail
cd "$(dirname "${BASH_SOURCE[0]}")/../.."
. tests/tools.sh

need_toolchain
"$CC" -std=gnu99 -O2 -Wall -Wextra -Werror -Iinclude -o "$1" tests/bridge/bridge.c "$ARCHIVE"
echo "$RUN"
