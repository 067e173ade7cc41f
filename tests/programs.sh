#!/usr/bin/env bash
# Runs each program of crates/ on its input, where its data lie, and compares what it prints with its file `stdout`, as the gate does.
# Ends with 'N passed, M failed'.
set -uo pipefail
cd "$(dirname "${BASH_SOURCE[0]}")/.." || exit 2

passed=0 failed=0
for main in crates/*/src/main.rt; do
    crate=${main%/src/main.rt} name=${main#crates/} name=${name%%/*}
    (cd "$crate" && rt run) </dev/null >/dev/null 2>&1
    input=/dev/null data=.
    if [[ -f $crate/stdin ]]; then input=$PWD/$crate/stdin; fi
    if [[ -d $crate/data ]]; then data=data; fi
    if (cd "$crate/$data" && "$OLDPWD/$crate/out/$name" <"$input") | cmp -s - "$crate/stdout"; then
        passed=$((passed + 1))
    else
        failed=$((failed + 1))
        echo "programs: $name does not print what it must"
    fi
done
echo "$passed passed, $failed failed"
[[ $failed -eq 0 ]]
