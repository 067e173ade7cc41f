# shellcheck shell=bash
# scrub and its report.

RACK=$SAMPLES/sheets/rack.sheet ALL=$SAMPLES/sheets/keep-all.sheet NONE=$SAMPLES/sheets/keep-none.sheet
EMPTY=$SAMPLES/sheets/empty.sheet
W=$T/scrub
mkdir "$W"

# scrubbed WANT SHEET PACK: OUT is the file WANT, and nothing else is in its folder.
scrubbed() {
    rm -rf "$W" && mkdir "$W"
    gives 0 '' '' "$BW" scrub --sheet "$2" "$3" "$W/out" && cmp "$1" "$W/out" && [[ $(ls -A "$W") == out ]]
}

bytes "$KEY" 09 0501AA 0304 DAE95B7A >"$T/kept"
check 'scrub: the bench example' scrubbed "$T/kept" "$ALL" "$SAMPLES/packs/number.pack"
check 'scrub: a longer length form leaves no trace' scrubbed "$T/kept" "$ALL" "$SAMPLES/packs/long-length.pack"
"$BW" scrub --sheet "$RACK" "$SAMPLES/packs/incident.pack" "$T/clean"
check 'scrub: the incident' gives 0 'pack -48 6 good
label 90 060E2B340401010D0404020400000000 2 -48
label 94 060E2B340401010D0404020700000000 17 -48
label 113 060E2B340401010D0404020600000000 17 -48
number 132 70 4 -48
sync 138 480 1920 1
label 144 060E2B340401010D0404020D00000000 12 432' '' "$BW" list "$T/clean"
"$BW" scrub --sheet "$RACK" "$SAMPLES/packs/lowest-offsets.pack" "$T/lowest"
check 'scrub: the lowest offsets' gives 0 'pack -32768 8 good
number 38 70 1 -32768
sync 41 -32768 1920 1
label 47 * 12 -65536
label 61 * 12 -32768
sync 75 32767 1920 2
number 81 70 1 -1
label 84 * 12 -1
number 98 70 1 -32768' '' "$BW" list "$T/lowest"
check 'scrub: again gives the same pack' scrubbed "$T/clean" "$RACK" "$T/clean"
"$BW" scrub --sheet "$NONE" "$SAMPLES/packs/incident.pack" "$T/none"
check 'scrub: nothing kept' gives 0 'pack -48 0 good' '' "$BW" list "$T/none"
check 'scrub: an empty sheet keeps nothing, and says so' gives 0 '' "ballastwren: $EMPTY: the sheet is empty, so it keeps nothing" \
    "$BW" scrub --sheet "$EMPTY" "$SAMPLES/packs/incident.pack" "$T/emptied"
check 'scrub: by an empty sheet as by keep none' cmp "$T/none" "$T/emptied"
check 'scrub: an empty sheet on standard input' writes "$T/none" 0 'ballastwren: standard input: the sheet is empty, so it keeps nothing' \
    from /dev/null "$BW" scrub --sheet - "$SAMPLES/packs/incident.pack" -
check 'scrub: to standard output' writes "$T/clean" 0 '' "$BW" scrub --sheet "$RACK" "$SAMPLES/packs/incident.pack" -
check 'scrub: the pack on standard input' writes "$T/clean" 0 '' \
    from "$SAMPLES/packs/incident.pack" "$BW" scrub --sheet "$RACK" - -
check 'scrub: the sheet on standard input' writes "$T/clean" 0 '' \
    from "$RACK" "$BW" scrub --sheet - "$SAMPLES/packs/incident.pack" -

# refused_scrub ERR WORDS...: refused, and OUT is not there.
refused_scrub() {
    rm -rf "$W" && mkdir "$W"
    gives 1 '' "$1" "$BW" scrub "${@:2}" "$W/out" && [[ -z $(ls -A "$W") ]]
}
{ bytes "$KEY" 82 7FED 05 82 7FE9 && head -c $((0x7FE9)) /dev/zero; } >"$T/largest"
check 'scrub: the largest pack is accepted' gives 0 '*: 1' '' "$BW" check "$T/largest"
check 'scrub: NOROOM, a CRC pushes it over' refused_scrub "*largest: refused: NOROOM (15) at byte 0: *" --sheet "$ALL" "$T/largest"
check 'scrub: SHEET' refused_scrub "*refused.sheet: refused: SHEET (14) at byte 0: *" --sheet "$SAMPLES/sheets/refused.sheet" "$SAMPLES/packs/sync.pack"
check 'scrub: SHEET comes before the pack' refused_scrub '*SHEET (14)*' --sheet "$SAMPLES/sheets/rack.txt" "$SAMPLES/packs/refused-crc.pack"
check 'scrub: a sheet without end' refused_scrub '*SHEET (14)*' --sheet /dev/zero "$SAMPLES/packs/sync.pack"
check "scrub: the pack's own refusal" refused_scrub '*refused-crc.pack: refused: CRC (13) at byte 20: *' --sheet "$ALL" "$SAMPLES/packs/refused-crc.pack"
check 'scrub: a bad pack under an empty sheet is refused in one line' refused_scrub '*CRC (13)*' --sheet "$EMPTY" "$SAMPLES/packs/refused-crc.pack"
check 'scrub: no such sheet' gives 2 '' '*absent: No such file*' "$BW" scrub --sheet "$T/absent" "$SAMPLES/packs/sync.pack" "$T/x"

# The report.
for each in a b; do
    "$BW" scrub --report --sheet "$RACK" "$SAMPLES/packs/same-kept-$each.pack" "$T/$each.pack" >"$T/$each.report"
done
check 'report: packs with the same kept items have the same report' cmp "$T/a.report" "$T/b.report"
check 'report: and the same scrub' cmp "$T/a.pack" "$T/b.pack"
check 'report: sheet, pack, items, statement' gives 0 "Scrub report

Keep sheet
  label 060E2B340401010D0404020400000000  # PMD Version
*
  number 70

Written pack
  length in bytes: 103
  CRC: 9122ACBE
  pack offset: 5

Items kept, as they stand in the written pack
  label 060E2B340401010D0404020600000000 at byte 55, value bytes: 17 (Audio Object Description)
  Sync at byte 74, sample_offset -3, duration 7, payloads inside: 1
    label 060E2B340401010D0404020D00000000 at byte 80, value bytes: 12 (Dynamic Position Update)
  number 70 at byte 94, value bytes: 1

What is proved, of ballastwren $VERSION
*" '' cat "$T/a.report"
# Only the CRC of the written pack is that of the report: the last four bytes.
check 'report: its CRC is the written one' gives 0 '9122acbe' '' sh -c "tail -c 4 '$T/a.pack' | od -An -v -tx1 | tr -d ' \n'"
check 'report: nothing kept' gives 0 '*Items kept*  none*' '' \
    "$BW" scrub --report --sheet "$NONE" "$SAMPLES/packs/incident.pack" "$T/none"
check 'report: nothing kept by an empty sheet' gives 0 $'*Keep sheet\n  keep none\n*Items kept*  none*' '*empty.sheet: the sheet is empty*' \
    "$BW" scrub --report --sheet "$EMPTY" "$SAMPLES/packs/incident.pack" "$T/none"
check 'report: keep none in words' gives 0 $'*Keep sheet\n  keep none\n\nWritten pack*' '' \
    "$BW" scrub --report --sheet "$NONE" "$SAMPLES/packs/incident.pack" "$T/none"
check 'report: all kept' gives 0 $'*Keep sheet\n  keep all\n\nWritten pack*' '' "$BW" scrub --report --sheet "$ALL" "$SAMPLES/packs/sync.pack" "$T/all"
check 'report: OUT must be a regular file' gives 2 '' '*null: a report is made by reading OUT back*' \
    "$BW" scrub --report --sheet "$ALL" "$SAMPLES/packs/sync.pack" /dev/null

# theorems: each theorem that the report names stands on the page of promises, where its words are joined as Rattle joins them.
theorems() {
    local name
    for name in kept-whole kept-in-place kept-only read-back same-kept-same-buffer no-trace; do
        grep -q -- "$name" "$T/a.report" || { echo "$name is not in the report"; return 1; }
        grep -q "^ *pub ${name//-/_} :" crates/promises/proofs/Promises.antt || { echo "$name is not promised"; return 1; }
    done
}
check 'report: the theorems that it names are promised' theorems
