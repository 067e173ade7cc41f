#!/usr/bin/env bash
# Shows that the demands rest on the contracts of the exports. In a copy of the tree some exports promise what they do only where they succeed, and in
# another only where they refuse: crates/ballastwren still meets that, and the page of promises still stands; but each function of crates/demands that
# calls such an export must be refused, in its own proof, and every other must still be proved. No function there calls two exports that are weakened
# at once. Left out are bw_version, which cannot refuse, and the two exports that are lent a table of objects, which no function of crates/demands calls.
# Ends with 'N passed, M failed'.
set -uo pipefail
cd "$(dirname "$0")/.." || exit 2

passed=0 failed=0
copies=$(mktemp -d) || exit 2
trap 'rm -rf "$copies"' EXIT

# check WHAT COMMAND...: one check, and what is wrong if it failed.
check() {
    local what=$1
    shift
    if "$@"; then passed=$((passed + 1)); else failed=$((failed + 1)); echo "weakened: $what"; fi
}

# exports: the name of each.
exports() { sed -nE 's/^pub fn ([a-z_]+)\(.*/\1/p' crates/ballastwren/src/lib.rt; }

# contract EXPORT CRATE: the export's contract, where crates/ballastwren stands in CRATE.
contract() { sed -n "/^pub fn $1(/,/^{/ p" "$2/src/lib.rt"; }

# weaken EXPORT WHERE CRATE: its contract holds where the number that it tells is so, and its proof is handed that fact, if one is written.
weaken() {
    local answers="$3/proofs/$1/Answers.antt"
    sed -i -E "/^pub fn $1\(/,/^\{/ s/ensures \{ (.*) \}$/ensures { ($2 → \1) }/" "$3/src/lib.rt"
    if [[ -f $answers ]]; then sed -i -E 's/^(returns[-0-9A-Za-z_]*) c =/\1 c told =/' "$answers"; fi
    check "$1 has its contract still" test "$(contract "$1" "$3" | grep -cF -- "ensures { ($2 → ") $(contract "$1" "$3" | grep -c ensures)" = '1 1'
}

# callers EXPORT...: the functions of crates/demands that call one of the exports.
callers() {
    awk -v exports="$*" '
        BEGIN { n = split(exports, export, " ") }
        /^pub fn / { split($3, word, "(") }
        { for (k = 1; k <= n; k++) if (index($0, "ballastwren::" export[k] "(")) print word[1] }' crates/demands/src/lib.rt | sort -u
}

# judged CALLERS LOG: each of the callers is refused in its own proof, and no other function is. A proof that is not written down is refused where none is
# found.
judged() {
    local name
    while read -r name; do
        if grep -qxF -- "$name" <<<"$1"; then
            check "$name is not refused" grep -qE "^fn demands::$name: (not proved$|no proof: )" "$2"
            check "$name has no error of its own" grep -qE "(^|/)proofs/$name/[A-Za-z]+\.antt:[0-9:]+ error: |^fn demands::$name: no proof: expected .*proofs/$name/" "$2"
        else
            check "$name is refused for no reason" grep -qE "^fn demands::$name: proved" "$2"
        fi
    done < <(sed -nE 's/^pub fn ([a-z_]+)\(.*/\1/p' crates/demands/src/lib.rt)
}

# lessened COPY WHERE EXPORT...: a copy of the tree in which these promise something there alone. What was proved in the copy before stays.
lessened() {
    local copy=$1 where=$2 crate part name
    shift 2
    for crate in crates/*; do
        rm -rf "$copy/$crate"/{src,specs,proofs}
        mkdir -p "$copy/$crate"
        for part in src specs proofs; do
            if [[ -d $crate/$part ]]; then cp -r "$crate/$part" "$copy/$crate" || exit 2; fi
        done
    done
    for name in "$@"; do weaken "$name" "$where" "$copy/crates/ballastwren"; done
}

# proved COPY: what the prover says of the demands there, and of what they stand on.
proved() {
    local crate
    for crate in ballastwren promises; do
        if (cd "$1/crates/$crate" && rt lib); then echo "weakened: $crate is proved"; fi
    done
    (cd "$1/crates/demands" && rt check)
} >"$1/log" 2>&1

# refused COPY EXPORT...: what has become of the demands when these promise less.
refused() {
    local log=$1/log
    shift
    check "the weaker contracts are not met: $*" grep -qx 'weakened: ballastwren is proved' "$log"
    check "the page of promises does not stand: $*" grep -qx 'weakened: promises is proved' "$log"
    judged "$(callers "$@")" "$log"
}

some=(bw_check bw_scrub bw_pmd_read bw_gain) others=(bw_read bw_sheet_check bw_lookup bw_pmd_write)
check "an export is not tried" cmp -s <(printf '%s\n' "${some[@]}" "${others[@]}" bw_version bw_objects_apply bw_objects_clear | sort) <(exports | sort)
for copy in "$copies/some" "$copies/others"; do
    mkdir "$copy" && cp crates.txt "$copy" || exit 2
done
for where in 'result.number ≡ 0' '(result.number ≡ 0 → ⊥)'; do
    echo "promised only where $where"
    lessened "$copies/some" "$where" "${some[@]}"
    lessened "$copies/others" "$where" "${others[@]}"
    proved "$copies/some" &
    proved "$copies/others"
    wait
    refused "$copies/some" "${some[@]}"
    refused "$copies/others" "${others[@]}"
done

echo "$passed passed, $failed failed"
[[ $failed -eq 0 ]]
