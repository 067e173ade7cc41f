#!/usr/bin/env bash
# The incident on a sample pack, from the proof to the report: make demo.
# A rebuilt metadata inserter still held names of an earlier production, inside a Sync. Here it is scrubbed.
set -euo pipefail
cd "$(dirname "${BASH_SOURCE[0]}")/.."
. tests/tools.sh

PACK=samples/packs/incident.pack
OUT=target/demo/scrubbed.pack
COMMAND=target/$ARCH/bin/ballastwren
NAMES=('Harbour Derby world feed' 'Harbour Derby flux mondial' 'Derby referee microphone' 'Derby north stand')

# say TEXT: what comes next.
say() {
    if [[ -t 1 ]]; then printf '\n\033[1m%s\033[0m\n' "$*"; else printf '\n%s\n' "$*"; fi
}

# shown WORDS...: a call of the command as it would be typed, and then the call.
shown() {
    printf '$ ballastwren %s\n' "$*"
    # shellcheck disable=SC2086  # RUN is empty or a command with its options
    $RUN "$COMMAND" "$@"
}

# bits FILE: its bits as a string of 0 and 1.
bits() {
    local byte i all=''
    for byte in $(od -An -v -tu1 "$1"); do
        for ((i = 7; i >= 0; i--)); do all+=$((byte >> i & 1)); done
    done
    printf '%s' "$all"
}

# search FILE COUNT: looks for each old name at every bit, since names need not begin on a byte. As many must be there.
search() {
    local all name wanted before found=0
    all=$(bits "$1")
    for name in "${NAMES[@]}"; do
        wanted=$(bits <(printf '%s' "$name"))
        before=${all%%"$wanted"*}
        if [[ $before == "$all" ]]; then
            echo "  '$name': not found"
        else
            echo "  '$name': found at byte $((${#before} / 8)), bit $((${#before} % 8))"
            found=$((found + 1))
        fi
    done
    echo "  $found of ${#NAMES[@]} names found"
    [[ $found -eq $2 ]]
}

# prove: builds the library anew, and shows what the prover says of each crate.
prove() {
    local start=$SECONDS
    say 'Proving what the command calls. The first time takes some minutes; each crate is named when it is proved.'
    if ! make lib ARCH="$ARCH" CC="$CC" 2>&1 | tee target/demo/proof.log | sed -u -n 's/^rt: /  /p'; then
        tail -n 20 target/demo/proof.log
        echo 'It did not go through; target/demo/proof.log has all that was said.'
        return 1
    fi
    echo "Proved in $((SECONDS - start)) s; target/demo/proof.log has all that was said."
}

need_compilers
mkdir -p "${OUT%/*}"
rm -f "$OUT"
if make -sq lib ARCH="$ARCH" CC="$CC"; then say "What the command calls is proved, and nothing of it has changed since."; else prove; fi
say 'Compiling the command over it.'
make -s command ARCH="$ARCH" CC="$CC"

say 'The pack that came with the rack, as it is listed. Names of payloads are labels.'
shown list "$PACK"

say 'What its PMD payloads say. The Syncs hold names of an earlier production.'
shown pmd find "$PACK"

say 'A search for those names, at every bit.'
search "$PACK" ${#NAMES[@]}

say 'The keep sheet: what may stay. It is written as text ...'
sed 's/^/  /' samples/sheets/rack.txt

say '... made into a sheet, and shown.'
shown sheet make samples/sheets/rack.txt target/demo/rack.sheet
shown sheet show target/demo/rack.sheet

say 'The scrub, with the report for the person who signs.'
shown scrub --sheet target/demo/rack.sheet --report "$PACK" "$OUT"

say 'The written pack, as it is listed. One Sync is left; the other held nothing that may stay.'
shown list "$OUT"

say 'What its PMD payloads say now.'
shown pmd find "$OUT"

say 'The same search.'
search "$OUT" 0

say "Done in $SECONDS s. The scrubbed pack is $OUT; '$COMMAND --help' shows what else there is."
