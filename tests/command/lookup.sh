# shellcheck shell=bash
# lookup: a label's value from the main or the backup pack.

MAIN=$SAMPLES/packs/main.pack BACKUP=$SAMPLES/packs/backup.pack BAD=$SAMPLES/packs/refused-crc.pack
VERSIONS=060E2B340401010D0404020400000000 NAMES=060E2B340401010D0404020900000000
SUBSTREAMS=060E2B340401010D0404020B00000000 POSITIONS=060E2B340401010D0404020D00000000
AEN=$SAMPLES/values/aen.value XYZ=$SAMPLES/values/xyz.value
W=$T/lookup

# emptied: a folder for OUT with nothing in it.
emptied() { rm -rf "$W" && mkdir "$W"; }

# found FROM START TOTAL WANT LABEL MAIN BACKUP: the value is the file WANT, on standard output and as OUT, and one line says
# that it is from the main or the backup pack, where, and its total offset.
found() {
    local pack=$6 size note
    [[ $1 == main ]] || pack=$7
    size=$(stat -c %s "$4")
    note="ballastwren: $pack: the value is from the $1 pack, $size byte$([[ $size -eq 1 ]] || echo s) at byte $2, total offset $3"
    writes "$4" 0 "$note" "$BW" lookup "${@:5}" && writes "$4" 0 "$note" "$BW" lookup "${@:5}" - &&
        emptied && gives 0 '' "$note" "$BW" lookup "${@:5}" "$W/out" && cmp "$4" "$W/out" && [[ $(ls -A "$W") == out ]]
}

# unlooked WANT WORDS...: refused, and nothing is written.
unlooked() {
    emptied && gives 1 '' "ballastwren: $1" "$BW" lookup "${@:2}" "$W/out" && [[ -z $(ls -A "$W") ]] &&
        gives 1 '' "ballastwren: $1" "$BW" lookup "${@:2}"
}

# absent LABEL MAIN BACKUP: neither has it, and the label is told as it was given.
absent() { unlooked "$1: refused: ABSENT (20) at byte 0: neither pack has a payload with this label; *" "$@"; }

bytes 0100 >"$T/version" && bytes 0101 >"$T/other" && : >"$T/nothing"
check 'lookup: both have it, it is from main' found main 74 0 "$T/version" $VERSIONS "$MAIN" "$BACKUP"
check 'lookup: and from the other one, if that is main' found main 57 0 "$T/other" $VERSIONS "$BACKUP" "$MAIN"
check 'lookup: in a Sync of main' found main 84 480 "$XYZ" $POSITIONS "$MAIN" "$BACKUP"
check 'lookup: in a Sync of backup' found backup 84 480 "$XYZ" $POSITIONS "$BACKUP" "$MAIN"
check 'lookup: main maps it and has none; the first of backup' found backup 70 480 "$AEN" $NAMES "$MAIN" "$BACKUP"
check 'lookup: main has no Config' found backup 70 480 "$AEN" $NAMES "$SAMPLES/packs/empty.pack" "$BACKUP"
check 'lookup: one file as both packs' found main 74 0 "$T/version" $VERSIONS "$MAIN" "$MAIN"
check 'lookup: neither has it' absent $SUBSTREAMS "$MAIN" "$BACKUP"
check 'lookup: both map it and have none' absent $NAMES "$MAIN" "$MAIN"
check 'lookup: packs without items' absent $VERSIONS "$SAMPLES/packs/empty.pack" "$SAMPLES/packs/empty.pack"
check 'lookup: another label by its last byte' absent "${VERSIONS%0}1" "$MAIN" "$BACKUP"
check 'lookup: the pack key is no label of a payload' absent "$KEY" "$MAIN" "$BACKUP"
for nn in 01 02 03; do
    check "lookup: the fixed label $nn" absent "${VERSIONS/0204/02$nn}" "$MAIN" "$SAMPLES/packs/incident.pack"
done

# Packs that map the label to tag 40: its value has 0 bytes, or 1, or 1 in a Sync and then 0 outside, or as many as can be.
MAPPED="0113000040$NAMES"
bytes "$KEY" 17 "$MAPPED" 4000 >"$T/hollow" && bytes "$KEY" 18 "$MAPPED" 400107 >"$T/one" && bytes 07 >"$T/07"
bytes "$KEY" 23 "$MAPPED" 410199 02070000000040012A 4000 >"$T/synced" && bytes 2A >"$T/2A"
head -c $((0x7FD4)) /dev/zero >"$T/zeros" && { bytes "$KEY" 827FED "$MAPPED" 40827FD4 && cat "$T/zeros"; } >"$T/largest"
check 'lookup: a value of 0 bytes is a value' found main 40 0 "$T/nothing" $NAMES "$T/hollow" "$BACKUP"
check 'lookup: a value of 0 bytes, from backup' found backup 40 0 "$T/nothing" $NAMES "$MAIN" "$T/hollow"
check 'lookup: a value of 1 byte' found main 40 0 "$T/07" $NAMES "$T/one" "$BACKUP"
check 'lookup: in a Sync before one of 0 bytes' found main 49 0 "$T/2A" $NAMES "$T/synced" "$T/one"
check 'lookup: the longest value' found backup 44 0 "$T/zeros" $NAMES "$MAIN" "$T/largest"

# Packs of offset 32,767 that map it: in a Sync of the same offset, and after one that does not have it.
MAPPED="01137FFF40$NAMES"
bytes "$KEY" 1E "$MAPPED" 02077FFF000040012A >"$T/highest" && bytes "$KEY" 20 "$MAPPED" 0206800000004100 40012A >"$T/after"
check 'lookup: the highest total offset' found main 46 65534 "$T/2A" $NAMES "$T/highest" "$BACKUP"
check 'lookup: the highest total offset, from backup' found backup 46 65534 "$T/2A" $NAMES "$MAIN" "$T/highest"
check 'lookup: the lowest total offset' found main 49 -65536 "$XYZ" $POSITIONS "$SAMPLES/packs/lowest-offsets.pack" "$BACKUP"
check 'lookup: after a Sync the pack offset alone' found main 48 32767 "$T/2A" $NAMES "$T/after" "$BACKUP"

# stretches PACK: of each PMD label, the stretch of the pack and the total offset that `pmd find` tells first.
stretches() {
    local label start length total count=0
    "$BW" pmd find --json "$1" 2>/dev/null |
        sed -nE 's/.*"label":"([0-9A-F]+)".*"value_start":([0-9]+),"value_length":([0-9]+),"total_offset":(-?[0-9]+).*/\1 \2 \3 \4/p' |
        awk '!seen[$1]++' >"$T/labels"
    while read -r label start length total; do
        tail -c +$((start + 1)) "$1" | head -c "$length" >"$T/stretch"
        found main "$start" "$total" "$T/stretch" "$label" "$1" "$BACKUP" || return
        count=$((count + 1))
    done <"$T/labels"
    [[ $count -gt 0 ]]
}
for file in "$SAMPLES"/packs/{incident,each-kind,same-kept-a,same-kept-b,bad-value,main,backup,lowest-offsets,highest-offsets}.pack; do
    check "lookup: every PMD label of ${file##*/}" stretches "$file"
done

for file in "$SAMPLES"/packs/refused-*.pack; do
    name=${file##*-} name=${name%.pack} told="refused: ${name^^} (+([0-9])) at byte +([0-9]): ?*"
    check "lookup: main is ${name^^}" unlooked "$file: main pack: $told" $VERSIONS "$file" "$BACKUP"
    check "lookup: backup is ${name^^}, though main has the label" unlooked "$file: backup pack: $told" $VERSIONS "$MAIN" "$file"
done
told='refused: CRC (13) at byte 20: *'
check 'lookup: the place in the backup pack' unlooked "$BAD: backup pack: $told" $VERSIONS "$MAIN" "$BAD"
check 'lookup: both are refused, main is told' unlooked "$BAD: main pack: $told" $VERSIONS "$BAD" "$SAMPLES/packs/refused-key.pack"
check 'lookup: both are refused, one file' unlooked "$BAD: main pack: $told" $VERSIONS "$BAD" "$BAD"
check 'lookup: backup is refused before the label is absent' unlooked "$BAD: backup pack: $told" $SUBSTREAMS "$MAIN" "$BAD"
{ cat "$MAIN" && head -c 32768 /dev/zero; } >"$T/above"
told='refused: BIG (1) at byte 0: *'
check 'lookup: main above the cap' unlooked "$T/above: main pack: $told" $VERSIONS "$T/above" "$BACKUP"
check 'lookup: backup above the cap' unlooked "$T/above: backup pack: $told" $VERSIONS "$MAIN" "$T/above"
check 'lookup: backup without end' unlooked "/dev/zero: backup pack: $told" $VERSIONS "$MAIN" /dev/zero
told='refused: SHORT (2) at byte 0: *'
check 'lookup: an empty main' unlooked "$T/nothing: main pack: $told" $VERSIONS "$T/nothing" "$BACKUP"
check 'lookup: an empty backup' unlooked "$T/nothing: backup pack: $told" $VERSIONS "$MAIN" "$T/nothing"

# spelled LABEL: the version's label for lookup, and for sheet make.
bytes 0001 0008 0000 0018 $VERSIONS >"$T/sheet"
spelled() {
    printf 'label %s\n' "$1" >"$T/text" && writes "$T/sheet" 0 '' "$BW" sheet make "$T/text" &&
        writes "$T/version" 0 '*main pack, 2 bytes at byte 74, total offset 0' "$BW" lookup "$1" "$MAIN" "$BACKUP"
}
for label in $VERSIONS ${VERSIONS,,} 060e2B340401010d0404020400000000 06.0E.2B.34.04.01.01.0D.04.04.02.04.00.00.00.00 \
    06.0e.2b.34.04.01.01.0d.04.04.02.04.00.00.00.00 060E2B34.0401010D.04040204.00000000 06.0E2B340401010d04040204000000.00; do
    check "lookup: $label" spelled "$label"
done
check 'lookup: a label that is absent is told as it was spelled' absent 060e2b34.0401010d.0404020b.00000000 "$MAIN" "$BACKUP"

# misspelled LABEL: no label for lookup, which looks at no file, and none for sheet make.
misspelled() {
    printf 'label %s\n' "$1" >"$T/text" && emptied &&
        gives 1 '' '*SHEET (14) at line 1: @(a label has 32 hex digits|a line has two words)' "$BW" sheet make "$T/text" &&
        gives 2 '' "ballastwren: $1: is not a label: a label has 32 hex digits, *" "$BW" lookup "$1" "$T/absent" "$BACKUP" "$W/out" &&
        [[ -z $(ls -A "$W") ]]
}
for label in '' 0 ${VERSIONS%00} ${VERSIONS%0} ${VERSIONS}0 ${VERSIONS}00 ${VERSIONS%0}G 0x$VERSIONS .$VERSIONS $VERSIONS. \
    0.60E2B340401010D0404020400000000 06..0E2B340401010D0404020400000000 06:0E2B340401010D0404020400000000 \
    060E2B34-0401010D-04040204-00000000 "${VERSIONS:0:16} ${VERSIONS:16}" urn:smpte:ul:060e2b34.0401010d.04040204.00000000; do
    check "lookup: not a label: '$label'" misspelled "$label"
done
check 'lookup: a blank before a label' gives 2 '' '*is not a label: *' "$BW" lookup " $VERSIONS" "$MAIN" "$BACKUP"
check 'lookup: a line end after a label' gives 2 '' '*00\\x0A: is not a label: *' "$BW" lookup $VERSIONS$'\n' "$MAIN" "$BACKUP"
check 'lookup: standard input is no label' gives 2 '' '*: -: is not a label: *' "$BW" lookup - "$MAIN" "$BACKUP"

check 'lookup: main on standard input' writes "$T/version" 0 \
    'ballastwren: standard input: the value is from the main pack, 2 bytes at byte 74, total offset 0' from "$MAIN" "$BW" lookup $VERSIONS - "$BACKUP"
check 'lookup: backup on standard input' writes "$AEN" 0 \
    'ballastwren: standard input: the value is from the backup pack, 20 bytes at byte 70, total offset 480' from "$BACKUP" "$BW" lookup $NAMES "$MAIN" -
check 'lookup: backup on standard input is refused' gives 1 '' 'ballastwren: standard input: backup pack: refused: CRC (13)*' \
    from "$BAD" "$BW" lookup $VERSIONS "$MAIN" -
check 'lookup: both on standard input' gives 2 '' '*: -: standard input can be read only once*' from "$MAIN" "$BW" lookup $VERSIONS - -
check 'lookup: from standard input to standard output' writes "$T/version" 0 '*main pack*' from "$MAIN" "$BW" lookup $VERSIONS - "$BACKUP" -

check 'lookup: no operands' gives 2 '' '*lookup: an operand is missing*' "$BW" lookup
check 'lookup: no backup' gives 2 '' '*lookup: an operand is missing*' "$BW" lookup $VERSIONS "$MAIN"
check 'lookup: one operand too many' gives 2 '' '*more: one operand too many*' "$BW" lookup $VERSIONS "$MAIN" "$BACKUP" "$T/x" more
check 'lookup: an option of another subcommand' gives 2 '' '*--json: no such option*' "$BW" lookup --json $VERSIONS "$MAIN" "$BACKUP"
check 'lookup: no such main' gives 2 '' '*/absent: No such file or directory' "$BW" lookup $VERSIONS "$T/absent" "$BACKUP"
check 'lookup: no such backup, though main has the label' gives 2 '' '*/absent: No such file or directory' \
    "$BW" lookup $VERSIONS "$MAIN" "$T/absent"
check 'lookup: no such folder' gives 2 '' '*: No such file or directory' "$BW" lookup $VERSIONS "$MAIN" "$BACKUP" "$T/absent/out"

# replaced_by_nothing: an OUT that was there is replaced, by a value of 0 bytes too; a refusal leaves it as it is.
replaced_by_nothing() {
    emptied && echo before >"$W/out" &&
        gives 1 '' '*ABSENT*' "$BW" lookup $SUBSTREAMS "$MAIN" "$BACKUP" "$W/out" && [[ $(<"$W/out") == before ]] &&
        gives 0 '' '*main pack, 0 bytes*' "$BW" lookup $NAMES "$T/hollow" "$BACKUP" "$W/out" &&
        cmp "$T/nothing" "$W/out" && [[ $(ls -A "$W") == out ]]
}
check 'lookup: OUT is replaced by an empty file' replaced_by_nothing

# names_read: the line of README, from lookup to pmd read.
names_read() { "$BW" lookup $NAMES "$MAIN" "$BACKUP" | "$BW" pmd read AEN -; }
check 'lookup: piped into pmd read' gives 0 "$(<"${AEN%.value}.txt")" "*: the value is from the backup pack, *" names_read
