# shellcheck shell=bash
# Help, version, and command lines that make no sense.

SHEET=$SAMPLES/sheets/rack.sheet PACK=$SAMPLES/packs/incident.pack

check '--version' gives 0 "ballastwren $VERSION" '' "$BW" --version
check '--help' gives 0 'ballastwren: *pmd find*Exit status*' '' "$BW" --help
for words in check list scrub lookup objects 'sheet make' 'sheet show' 'pmd read' 'pmd write' 'pmd find'; do
    read -ra split <<<"$words"
    check "$words --help" gives 0 "ballastwren $words *" '' "$BW" "${split[@]}" --help
    check "$words: is in --help" gives 0 "*ballastwren $words *" '' "$BW" --help
done
check 'list --help: JSON' gives 0 'ballastwren list \[--json\] PACK*  --json *JSON*' '' "$BW" list --help
check 'objects --help: options' gives 0 'ballastwren objects \[--each\] \[--json\] PACK...*  --each *  --json *JSON*' '' "$BW" objects --help
check '--help: JSON of list' gives 0 '*ballastwren list \[--json\] PACK *' '' "$BW" --help
check 'sheet --help' gives 0 '*sheet make*sheet show*' '' "$BW" sheet --help
check 'pmd --help' gives 0 '*pmd read*pmd write*pmd find*' '' "$BW" pmd --help

check 'nothing said' gives 2 '' '*no subcommand*--help*' "$BW"
check 'no such subcommand' gives 2 '' '*frobnicate: no such subcommand*' "$BW" frobnicate
check 'half a subcommand' gives 2 '' '*sheet: no such subcommand*' "$BW" sheet
check 'no such option' gives 2 '' '*--json: no such option*' "$BW" check --json "$PACK"
check 'an option of another subcommand' gives 2 '' '*--report: no such option*' "$BW" list --report "$PACK"
check 'list takes no --numbers' gives 2 '' '*--numbers: no such option*' "$BW" list --numbers "$PACK"
check 'list takes no --numbers beside --json' gives 2 '' '*--numbers: no such option*' "$BW" list --json --numbers "$PACK"
for words in 'scrub --sheet S' lookup 'sheet make' 'sheet show'; do
    read -ra split <<<"$words"
    check "${words%% --*} takes no --json" gives 2 '' '*--json: no such option*' "$BW" "${split[@]}" --json
done
check 'an operand missing' gives 2 '' '*check: an operand is missing*' "$BW" check
check 'an option and no operand' gives 2 '' '*list: an operand is missing*' "$BW" list --json
check 'an operand too many' gives 2 '' '*b: one operand too many*' "$BW" list a b
check 'scrub without a sheet' gives 2 '' '*--sheet SHEET is missing*' "$BW" scrub "$PACK" "$T/x"
check '--sheet without its file' gives 2 '' '*--sheet: no such option here, or it lacks its argument*' \
    "$BW" scrub "$PACK" "$T/x" --sheet
check '--report with standard output' gives 2 '' '*--report: OUT must be a file*' "$BW" scrub --sheet "$SHEET" --report "$PACK" -
check '--numbers with --json' gives 2 '' '*--json: does not go with --numbers*' \
    "$BW" pmd read --numbers --json APN "$SAMPLES/values/apn.value"
check '--numbers with --json, writing' gives 2 '' '*--json: does not go with --numbers*' \
    "$BW" pmd write --numbers --json APN "$SAMPLES/values/apn.txt"
check 'standard input twice' gives 2 '' '*standard input can be read only once*' "$BW" check - -
check 'standard input as sheet and pack' gives 2 '' '*only once*' "$BW" scrub --sheet - - "$T/x"
check '-- ends options' gives 2 '' '*--help: No such file or directory' "$BW" check -- --help
check '--sheet=SHEET' gives 0 '' '' "$BW" scrub "--sheet=$SHEET" "$PACK" "$T/equals.pack"
check 'options after operands' gives 0 '' '' "$BW" scrub "$PACK" "$T/after.pack" --sheet "$SHEET"
check 'a name that steers a terminal is escaped' gives 2 '' '*\\x1B\[31m*' "$BW" check $'\e[31m'
