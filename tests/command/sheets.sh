# shellcheck shell=bash
# sheet make and sheet show.

for name in rack keep-all keep-none; do
    check "sheet make: $name" writes "$SAMPLES/sheets/$name.sheet" 0 '' "$BW" sheet make "$SAMPLES/sheets/$name.txt"
    check "sheet make: $name from standard input" writes "$SAMPLES/sheets/$name.sheet" 0 '' from "$SAMPLES/sheets/$name.txt" "$BW" sheet make
    "$BW" sheet show "$SAMPLES/sheets/$name.sheet" >"$T/shown"
    check "sheet show, then make: $name" writes "$SAMPLES/sheets/$name.sheet" 0 '' "$BW" sheet make "$T/shown"
done
rm -f "$T/made"
check 'sheet make: to a file' gives 0 '' '' "$BW" sheet make "$SAMPLES/sheets/rack.txt" "$T/made"
check 'sheet make: which is the sheet' cmp "$T/made" "$SAMPLES/sheets/rack.sheet"
check 'sheet show: labels, titles, numbers' gives 0 $'label 060E2B340401010D0404020400000000  # PMD Version\n*\nnumber 70' '' \
    "$BW" sheet show "$SAMPLES/sheets/rack.sheet"
check 'sheet show: keep all' gives 0 'keep all' '' "$BW" sheet show "$SAMPLES/sheets/keep-all.sheet"
check 'sheet show: keep none' gives 0 'keep none' '' "$BW" sheet show "$SAMPLES/sheets/keep-none.sheet"
check 'sheet show: an empty sheet' gives 0 'keep none' "ballastwren: $SAMPLES/sheets/empty.sheet: the sheet is empty, so it keeps nothing" \
    "$BW" sheet show "$SAMPLES/sheets/empty.sheet"
check 'sheet show: an empty standard input' gives 0 'keep none' 'ballastwren: standard input: the sheet is empty*' from /dev/null "$BW" sheet show -
check 'sheet show: SHEET' gives 1 '' '*refused.sheet: refused: SHEET (14) at byte 0: *' \
    "$BW" sheet show "$SAMPLES/sheets/refused.sheet"
check 'sheet show: a text is not a sheet' gives 1 '' '*SHEET (14)*sheet make*' "$BW" sheet show "$SAMPLES/sheets/rack.txt"
check 'sheet show: a file without end' gives 1 '' '*SHEET (14)*' "$BW" sheet show /dev/zero

# said TEXT HEX...: the text makes the sheet of these bytes.
said() {
    printf '%b' "$1" >"$T/text" && bytes "${@:2}" >"$T/want" && writes "$T/want" 0 '' "$BW" sheet make "$T/text"
}
L=060E2B340401010D0404020400000000
check 'sheet make: keep all' said 'keep all\n' FFFF 0008 FFFF 0008
check 'sheet make: keep none' said 'keep none\n' 0000 0008 0000 0008
check 'sheet make: small hex digits' said "label ${L,,}" 0001 0008 0000 0018 $L
check 'sheet make: full stops between bytes' said 'label 06.0E.2B.34.04.01.01.0D.04.04.02.04.00.00.00.00\n' 0001 0008 0000 0018 $L
check 'sheet make: numbers among labels' said "number 4\nlabel $L\nnumber 268435455\n" 0001 0008 0002 0018 $L 00000004 0FFFFFFF
check 'sheet make: comments, blanks, tabs, CR LF, no last line end' said '# a\r\n\r\n \t# b\n\tnumber\t70 # c\r\n\nnumber 071' 0000 0008 0002 0008 00000046 00000047

# bad LINE SENTENCE TEXT: the line is told, and nothing is written.
bad() {
    printf '%b' "$3" >"$T/text"
    rm -f "$T/made"
    gives 1 '' "ballastwren: $T/text: refused: SHEET (14) at line $1: $2" "$BW" sheet make "$T/text" "$T/made" && [[ ! -e $T/made ]]
}
check 'sheet make: an unknown word' bad 3 "a line is 'label HEX'*" '# a\n\nkeeep all\n'
check 'sheet make: keep what' bad 1 "it is 'keep all' or 'keep none'" 'keep some\n'
check 'sheet make: keep after an entry' bad 2 '*stand alone' 'number 70\nkeep all\n'
check 'sheet make: an entry after keep' bad 2 '*stand alone' 'keep none\nnumber 70\n'
check 'sheet make: three words' bad 1 'a line has two words' 'number 70 71\n'
check 'sheet make: one word' bad 1 'a tag number has decimal digits' 'number\n'
check 'sheet make: not a number' bad 1 'a tag number has decimal digits' 'number 71#x\n'
check 'sheet make: hex is no tag number' bad 1 'a tag number has decimal digits' 'number 0x46\n'
for number in 0 1 3 268435456 4294967300 99999999999999999999999; do
    check "sheet make: number $number" bad 2 'tag numbers run from 4 to 268435455' "number 4\nnumber $number\n"
done
check 'sheet make: a number twice' bad 3 'this number is on the sheet already' 'number 70\nnumber 71\nnumber 70\n'
check 'sheet make: a label twice' bad 2 'this label is on the sheet already' "label $L\nlabel ${L,,}\n"
for nn in 01 02 03; do
    check "sheet make: the fixed label $nn" bad 1 'the labels of Config, Sync and CRC are not on a sheet' "label 060E2B340401010D040402${nn}00000000\n"
done
check 'sheet make: a short label' bad 1 'a label has 32 hex digits' "label ${L%0}\n"
check 'sheet make: a long label' bad 1 'a label has 32 hex digits' "label ${L}0\n"
check 'sheet make: a label that is not hex' bad 1 'a label has 32 hex digits' "label ${L%0}G\n"
check 'sheet make: full stops in the wrong place' bad 1 'a label has 32 hex digits' "label 0.60E2B340401010D0404020400000000\n"
check 'sheet make: a byte 0' bad 1 "a line is *" 'number\\0 70\n'
check 'sheet make: an empty text' bad 0 "the text keeps nothing; say 'keep all' or 'keep none'" ''
check 'sheet make: only comments' bad 2 'the text keeps nothing*' '# nothing\n\n'
many_labels=$(for i in {10..42}; do echo "label 060E2B340401010D0404${i}0400000000"; done)
many_numbers=$(for i in {70..102}; do echo "number $i"; done)
check 'sheet make: 33 labels' bad 33 'a sheet has at most 32 labels' "$many_labels"
check 'sheet make: 33 numbers' bad 33 'a sheet has at most 32 numbers' "$many_numbers"
printf '%s\n' "$many_labels" | head -n 32 >"$T/full" && printf '%s\n' "$many_numbers" | head -n 32 >>"$T/full"
check 'sheet make: 32 of each' gives 0 '' '' "$BW" sheet make "$T/full" "$T/made"
check 'sheet make: is 648 bytes' gives 0 648 '' stat -c %s "$T/made"
check 'sheet show: 32 of each' gives 0 "label*number 101" '' "$BW" sheet show "$T/made"
check 'sheet make: a text without end is cut off' gives 1 '' '*SHEET (14)*at most 262144 bytes' "$BW" sheet make /dev/zero
check 'sheet make: no such text' gives 2 '' '*: No such file or directory' "$BW" sheet make "$T/absent"

# no_sheet HEX...: not a sheet, for sheet show and for scrub, which writes nothing.
no_sheet() {
    bytes "$@" >"$T/sheet" && rm -f "$T/made"
    gives 1 '' '*sheet: refused: SHEET (14) at byte 0: *' "$BW" sheet show "$T/sheet" &&
        gives 1 '' '*sheet: refused: SHEET (14) at byte 0: *' "$BW" scrub --sheet "$T/sheet" "$SAMPLES/packs/number.pack" "$T/made" && [[ ! -e $T/made ]]
}
KEEP_ALL=FFFF0008FFFF0008
check 'keep all: by the count of labels alone' no_sheet FFFF 0008 0000 0008
check 'keep all: by the count of numbers alone' no_sheet 0000 0008 FFFF 0008
check 'keep all: of 7 bytes' no_sheet ${KEEP_ALL%08}
check 'keep all: of 9 bytes' no_sheet $KEEP_ALL 00
check 'keep all: with an entry' no_sheet $KEEP_ALL 00000005
check 'keep all: as long as the longest sheet' no_sheet $KEEP_ALL "$(printf '05%.0s' {1..640})"
check 'keep all: and longer' no_sheet $KEEP_ALL "$(printf '05%.0s' {1..2000})"
check 'keep all: with another offset' no_sheet FFFF 0008 FFFF FFF8

# A mistyped text into a redirection leaves a sheet of 0 bytes, by which nothing is kept.
redirected() {
    printf 'label %s\nkeeep all\n' $L >"$T/text"
    "$BW" sheet make "$T/text" >"$T/sheet" 2>"$T/err"
    [[ $? -eq 1 && $(<"$T/err") == *'SHEET (14) at line 2: '* && -e $T/sheet && ! -s $T/sheet ]] &&
        gives 0 '' "ballastwren: $T/sheet: the sheet is empty, so it keeps nothing" \
            "$BW" scrub --sheet "$T/sheet" "$SAMPLES/packs/incident.pack" "$T/made" &&
        gives 0 'pack -48 0 good' '' "$BW" list "$T/made"
}
check 'sheet make: a bad line and a redirection, then a scrub' redirected
