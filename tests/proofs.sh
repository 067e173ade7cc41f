#!/usr/bin/env bash
# Finds specs and proofs that nothing needs: every file of specs/ and proofs/ is cited, over any number of steps, by the contracts of src/, by a
# function's proof, by the page of promises or by docs/GUARANTEES.md; and every law that a file gives to others is used or on a page. (A Worked.antt
# holds examples, each of which is there for itself.)
# Ends with 'N passed, M failed'.
set -uo pipefail
cd "$(dirname "$0")/.." || exit 2

passed=0 failed=0
pages=(README.md CHANGELOG.md docs/*.md)

# told GOOD WHAT: counts a check, and says what failed.
told() {
    if [[ $1 == yes ]]; then passed=$((passed + 1)); else failed=$((failed + 1)); echo "proofs: $2"; fi
}

# cited FILE...: the files of specs/ and proofs/ whose modules the files name.
cited() {
    grep -ohE 'Rattle\.[a-z0-9_]+\.(specs|proofs)\.[A-Za-z0-9_]+' "$@" |
        sed -E 's#^Rattle\.([a-z0-9_]+)\.(specs|proofs)\.(.*)$#crates/\1/\2/\3.antt#' | sort -u
}

# every file that is reached from what must stand.
reached() {
    local -A seen=()
    local todo=() next file
    mapfile -t todo < <(find crates/*/proofs -mindepth 2 -name '*.antt'; find crates/*/src -name '*.rt'; ls crates/promises/proofs/*.antt
        grep -ohE 'crates/[a-z0-9_]+/(specs|proofs)/[A-Za-z0-9_]+\.antt' docs/GUARANTEES.md)
    while [[ ${#todo[@]} -gt 0 ]]; do
        next=()
        for file in "${todo[@]}"; do
            if [[ -f $file && -z ${seen[$file]:-} ]]; then seen[$file]=1; next+=("$file"); fi
        done
        [[ ${#next[@]} -gt 0 ]] || break
        mapfile -t todo < <(cited "${next[@]}")
    done
    printf '%s\n' "${!seen[@]}" | sort
}

files() {
    local file
    while read -r file; do
        if grep -qxF -- "$file" <<<"$1"; then told yes; else told no "nothing needs $file"; fi
    done < <(find crates -mindepth 3 -maxdepth 3 \( -path '*/specs/*' -o -path '*/proofs/*' \) -name '*.antt' ! -name Lib.antt | sort)
}

# the laws that proofs/ give to others: each is named on a line that is not its own, or on a page.
laws() {
    local used file name
    while read -r used file name; do
        if [[ $used == yes ]] || grep -qF -- "\`$name\`" "${pages[@]}"; then told yes; else told no "nothing uses $name of $file"; fi
    done < <(find crates/*/{src,specs,proofs} \( -name '*.antt' -o -name '*.rt' \) -print0 2>/dev/null | xargs -0 awk '
        { line = $0; sub(/--.*/, "", line); own = "" }
        match(line, /^ *[^ ]+ /) {
            n = split(line, w, " "); k = 1; public = 0
            while (w[k] ~ /^(abbrev|unfoldable|pub|record|data)$/) if (w[k++] == "pub") public = 1
            own = w[k]
            if (public && own != "mod" && FILENAME ~ /\/proofs\/[A-Za-z0-9_]+\.antt$/ && FILENAME !~ /\/promises\/|\/Worked\.antt$/) given[own] = FILENAME
        }
        {
            gsub(/[(){}.,;«»λ]/, " ", line); n = split(line, w, " ")
            for (k = 1; k <= n; k++) {
                if (w[k] != own) used[w[k]] = 1
                else if (!((FILENAME, own) in told)) { told[FILENAME, own] = 1; tellers[own]++ }
            }
        }
        END { for (name in given) print (name in used || tellers[name] > 1) ? "yes" : "no", given[name], name }' | sort -k2)
}

files "$(reached)"
laws
echo "$passed passed, $failed failed"
[[ $failed -eq 0 ]]
