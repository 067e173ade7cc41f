#!/usr/bin/env bash
# Prints what an archive is made of: sources.sh CRATE. These are the code, specifications and proofs of the crate and of all
# that it stands on, and their folders, since a file that is gone is told by its folder alone.
set -euo pipefail
cd "$(dirname "${BASH_SOURCE[0]}")/.."

# reached CRATE: the crate and all that it stands on, by crates.txt.
reached() {
    awk -v todo="$1" '
        { sub(/#.*/, "") }
        NF { name = $1; sub(/:$/, "", name); $1 = ""; below[name] = $0 }
        END {
            while (n = split(todo, crate, " ")) {
                todo = ""
                for (k = 1; k <= n; k++) {
                    if (crate[k] in seen || !(crate[k] in below)) continue
                    seen[crate[k]] = 1
                    print crate[k]
                    todo = todo " " below[crate[k]]
                }
            }
        }' crates.txt
}

echo crates.txt
for crate in $(reached "$1"); do
    for part in src specs proofs; do
        if [[ -d crates/$crate/$part ]]; then find "crates/$crate/$part"; fi
    done
done
