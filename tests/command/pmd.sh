# shellcheck shell=bash
# pmd read, pmd write and pmd find.

V=$SAMPLES/values
for file in "$V"/[!r]*.value; do
    name=${file##*/} name=${name%.value} kind=${name%-*}
    check "pmd read: $name in words" writes "$V/$name.txt" 0 '' "$BW" pmd read "$kind" "$file"
    check "pmd write: $name from words" writes "$file" 0 '' "$BW" pmd write "$kind" "$V/$name.txt"
    "$BW" pmd read --numbers "$kind" "$file" >"$T/numbers"
    check "pmd write: $name from numbers" writes "$file" 0 '' "$BW" pmd write --numbers "$kind" "$T/numbers"
done
check 'pmd read: standard input, a kind in capitals' writes "$V/apn.txt" 0 '' from "$V/apn.value" "$BW" pmd read APN -
check 'pmd read: a kind by its number' writes "$V/apn.txt" 0 '' "$BW" pmd read 2 "$V/apn.value"
check 'pmd write: standard input' writes "$V/apn.value" 0 '' from "$V/apn.txt" "$BW" pmd write APN
check 'pmd write: to a file' gives 0 '' '' "$BW" pmd write APN "$V/apn.txt" "$T/apn"
check 'pmd write: which is the value' cmp "$T/apn" "$V/apn.value"

# numbers KIND HEX LIST: the bench examples.
numbers() {
    bytes "$2" >"$T/value" && gives 0 "$3" '' "$BW" pmd read --numbers "$1" "$T/value"
}
check 'pmd read: bench, kind 4' numbers 4 0400401803FF '1 1 1 512 1023'
check 'pmd read: bench, kind 6' numbers 6 141000 '1 65 0'
check 'pmd read: bench, kind 1' numbers 1 0080AE000000 '1 0 5568 0'
check 'pmd read: a turnaround for nothing' numbers 7 0700 '7 0 0'
check 'pmd read: a turnaround for ED2' numbers 7 019814240006 '1 1 3 5 9 0 3 0'
check 'pmd read: a turnaround for Dolby E' numbers 7 0156FFF00007F8 '1 0 1 5 23 511 0 0 255'
check 'pmd read: BITS' gives 1 '' '*BITS (16) at bit 12: *' "$BW" pmd read ESN "$V/refused-bits.value"
check 'pmd read: FIELD' gives 1 '' '*FIELD (17) at bit 9: *' "$BW" pmd read APD "$V/refused-field.value"
check 'pmd read: PAD' gives 1 '' '*PAD (18) at bit 20: *' "$BW" pmd read ESN "$V/refused-pad.value"
check 'pmd read: FIELD, a frame rate' gives 1 '' '*FIELD (17) at bit 9: *' "$BW" pmd read ETD "$V/refused-rate.value"
bytes 0147000000 >"$T/program" && bytes 070000 >"$T/zero" && bytes 018800 >"$T/closing"
check 'pmd read: FIELD, a program' gives 1 '' '*FIELD (17) at bit 14: *' "$BW" pmd read ETD "$T/program"
check 'pmd read: FIELD, a turnaround 0' gives 1 '' '*FIELD (17) at bit 10: *' "$BW" pmd read ETD "$T/zero"
check 'pmd read: BITS, a closing pair without parameters' gives 1 '' '*BITS (16) at bit 22: *' "$BW" pmd read ETD "$T/closing"

# A code 27 is told in words, in each of the three groups, for a record that is not the first, and for no other field.
no_letter='its language has a code 27, which is no letter: 1 to 26 are a to z; versions before 0.5.0 took 27 too'
# reserved WANT KIND HEX: a value that is refused as FIELD.
reserved() { bytes "$3" >"$T/value" && gives 1 '' "ballastwren: $T/value: refused: FIELD (17) $1" "$BW" pmd read "$2" "$T/value"; }
check 'pmd read: 27, the sample' gives 1 '' "*: FIELD (17) at bit 9: $no_letter" "$BW" pmd read APN "$V/refused-letter.value"
for value in 00EF5A00 00EB7A00 00EB5B00 00EF7B00 00876000; do
    check "pmd read: 27 in the language of name $value" reserved "at bit 9: $no_letter" APN $value
done
for value in 00836E000000 0080BB000000 0080AED80000; do
    check "pmd read: 27 in the language of presentation $value" reserved "at bit 14: $no_letter" APD $value
done
check 'pmd read: 27 in the second language' reserved "at bit 49: $no_letter" APN 0095C0410000EF5A00
for value in 00F35A00 00800000 0087E000; do
    check "pmd read: a language without 27, $value" reserved 'at bit 9: a reserved value, *' APN $value
done
check 'pmd read: a presentation 0 before 27' reserved 'at bit 0: a reserved value, *' APN 006F7B00
check 'pmd read: speakers 27' reserved 'at bit 9: a reserved value, *' APD 00EF5AD00000
bytes 060E2B34027F01010C04010000000000 1B 0113000040 060E2B340401010D0404020800000000 400400EF5A00 >"$T/old.pack"
check 'pmd find: 27' gives 1 $'APN*\n  refused 17 9' "*: payload at byte 38: refused: FIELD (17) at bit 9: $no_letter" "$BW" pmd find "$T/old.pack"
check 'check: a pack with 27 in a value is good' gives 0 '*' '' "$BW" check "$T/old.pack"

check 'pmd read: an empty value' gives 1 '' '*BITS (16) at bit 0: *' "$BW" pmd read ESN /dev/null
check 'pmd read: a value without end' gives 1 '' '*BIG (1) at byte 0: *' "$BW" pmd read ESN /dev/zero
for kind in 0 8 4294967295 4294967298 99999999999999999999; do
    check "pmd read: kind $kind" gives 1 '' '*KIND (19) at byte 0: *' "$BW" pmd read "$kind" "$V/apn.value"
    check "pmd write: kind $kind" gives 1 '' '*KIND (19) at number 0: *' "$BW" pmd write "$kind" "$V/apn.txt"
done
check 'pmd read: not a kind' gives 2 '' '*APX: is not a kind: *' "$BW" pmd read APX "$V/apn.value"
check 'pmd write: not a kind' gives 2 '' '*: is not a kind: *' "$BW" pmd write '' "$V/apn.txt"
check 'pmd read: no such file' gives 2 '' '*: No such file or directory' "$BW" pmd read APN "$T/absent"

for name in apd apn aod xyz aen esn etd apn-odd; do
    check "pmd read --json: $name" writes "tests/command/json/$name.json" 0 '' "$BW" pmd read --json "${name%-*}" "$V/$name.value"
done

# back KIND TEXT: the text makes a value that reads as the text.
back() {
    printf '%s\n' "$2" >"$T/text" && "$BW" pmd write "$1" "$T/text" "$T/value" && writes "$T/text" 0 '' "$BW" pmd read "$1" "$T/value"
}
all=''
for speakers in 2.0 3.0 5.1 5.1.2 5.1.4 7.1.4 9.1.6 portable-speakers portable-headphone not-indicated; do
    all+="${all:+$'\n'}presentation 511 speakers $speakers language zz elements none"
done
check 'pmd: every speaker layout' back APD "$all"
all=''
for class in dialog vds voiceover generic spoken-subtitle emergency-alert emergency-information; do
    all+="${all:+$'\n'}element 4095 class $class dynamic no x 1 y 1 z 1 size 0 size_3d no diverge no source 255 gain +6.0 dB"
done
check 'pmd: every object class' back AOD "$all"
all=''
for ((half = -51; half <= 12; half++)); do
    gain="$((half < 0 ? -half / 2 : half / 2)).$((half % 2 ? 5 : 0)) dB"
    if ((half == -51)); then gain=muted; elif ((half < 0)); then gain=-$gain; elif ((half > 0)); then gain=+$gain; fi
    all+="${all:+$'\n'}element 1 class dialog dynamic yes x 1 y 1 z 1 size 0 size_3d no diverge no source 0 gain $gain"
done
check 'pmd: every gain' back AOD "$all"
all=''
for letter in {a..z}; do
    for language in "$letter$letter" "a$letter$letter"; do all+="${all:+$'\n'}presentation 1 language $language name \"\""; done
done
check 'pmd: every letter' back APN "$all"
all=''
for ((i = 1; i < 256; i++)); do
    printf -v byte '\\x%02X' $i
    case $i in
    34 | 92) printf -v byte '\\%b' "$byte" ;; # quote and backslash
    *) ((i < 32 || i > 126)) || printf -v byte '%b' "$byte" ;;
    esac
    all+=$byte
done
check 'pmd: every byte of a name' back ESN "substream 15 name \"$all\""
check 'pmd: controls of direction and of C1, and what is not UTF-8, are escaped' back ESN \
    'substream 1 name "é\xC2\x9B \xE2\x80\xAE € 𝄞 \xED\xA0\x80\xF4\x90\x80\x80\xC0\xAF"'

all=''
for rate in 23.98 24 25 29.97 30; do
    all+="${all:+$'\n'}turnaround 1 ed2 yes rate $rate pairs 0:0 dolby_e yes rate $rate program 4 pairs 0:0"
done
check 'pmd: every frame rate' back ETD "$all"
programs=(5.1+2 5.1+1+1 4+4 4+2+2 4+2+1+1 4+1+1+1 2+2+2+2 2+2+2+1+1 2+2+1+1+1 2+1+1+1+1+1 1+1+1+1+1+1+1 5.1 4+2 4+1+1 2+2+2 2+2+1+1
    2+1+1+1 1+1+1+1+1 4 2+2 2+1+1 1+1+1+1 7.1 7.1-screen)
all='' list=''
for i in "${!programs[@]}"; do
    all+="${all:+$'\n'}turnaround 9 ed2 no dolby_e yes rate 24 program ${programs[i]} pairs $((i + 1)):$i 0:255"
    list+="${list:+ }9 0 1 2 $i $((i + 1)) $i 0 255"
done
check 'pmd: every program' back ETD "$all"
check 'pmd: every program by its number' gives 0 "$list" '' "$BW" pmd read --numbers ETD "$T/value"
for ed2 in no 'yes rate 25 pairs 511:255 511:255 1:0 0:255' 'yes rate 25 pairs 0:0'; do
    for dolby_e in no 'yes rate 29.97 program 5.1 pairs 1:0 256:128 0:1' 'yes rate 29.97 program 5.1 pairs 0:0'; do
        check "pmd: ed2 $ed2, dolby_e $dolby_e" back ETD \
            "turnaround 255 ed2 $ed2 dolby_e $dolby_e"$'\n'"turnaround 1 ed2 $ed2 dolby_e $dolby_e"
    done
done
all=$(printf 'turnaround 255 ed2 no dolby_e no\n%.0s' {1..3276})
check 'pmd: as many turnarounds as fit' back ETD "$all"
printf '%s\nturnaround 255 ed2 no dolby_e no\n' "$all" >"$T/text"
check 'pmd write: NOROOM for one more' gives 1 '' '*NOROOM (15) at number 0: *' "$BW" pmd write ETD "$T/text"
all=$(printf '511:255 %.0s' {1..1925})
check 'pmd: as many pairs as fit' back ETD "turnaround 255 ed2 yes rate 29.97 pairs ${all}0:255 dolby_e no"

# lines KIND WANT TEXT: a bad line is told with its number.
lines() {
    printf '%b' "$3" >"$T/text"
    gives 1 '' "ballastwren: $T/text: refused: $2" "$BW" pmd write "$1" "$T/text"
}
# line KIND WANT TEXT: the same with a text of one line.
line() { lines "$1" "${2/LINE/at line 1:}" "$3\n"; }
object='element 1 class dialog dynamic no x 1 y 1 z 1 size 0 size_3d no diverge no source 0 gain'
check 'pmd write: another field is due' lines APN "FIELD (17) at line 2: 'lang' stands where language is due" \
    'presentation 1 language en name "a"\npresentation 1 lang en name "b"\n'
check 'pmd write: the line ends' line APN 'BITS (16) LINE the line ends where name is due' 'presentation 1 language en # name "x"'
check 'pmd write: something after a record' line APN "FIELD (17) LINE 'x' stands where the end of the line is due" \
    'presentation 1 language en name "a" x'
check 'pmd write: no such layout' line APD "FIELD (17) LINE '6.1' stands where a speaker layout*" \
    'presentation 1 speakers 6.1 language en elements none'
check 'pmd write: no such language' line APN "FIELD (17) LINE 'e' stands where a language*" 'presentation 1 language e name "a"'
check 'pmd write: a code is no language' line APN "FIELD (17) LINE '(27)a' stands where a language of two or three small letters, a to z, is due" \
    'presentation 1 language (27)a name "a"'
check 'pmd write: capitals are no language' line APN "FIELD (17) LINE 'EN'*" 'presentation 1 language EN name "a"'
check 'pmd write: four letters' line APN "FIELD (17) LINE 'engl'*" 'presentation 1 language engl name "a"'
check 'pmd write: a name without quotes' line ESN "FIELD (17) LINE 'a' stands where a name*" 'substream 1 name a'
check 'pmd write: a name that never closes' line ESN 'BITS (16) LINE *the closing double quote is due' 'substream 1 name "a'
check 'pmd write: an unknown escape' line ESN 'FIELD (17) LINE *' 'substream 1 name "\\n"'
check 'pmd write: half an escape' line ESN 'FIELD (17) LINE *' 'substream 1 name "\\x4'
check 'pmd write: an escaped byte 0' line ESN 'FIELD (17) LINE *' 'substream 1 name "\\x00"'
check 'pmd write: a bare byte 0' line ESN 'FIELD (17) LINE *not 0*' 'substream 1 name "a\0b"'
check 'pmd write: a gain out of range' line AOD "FIELD (17) LINE '+6.5' stands where muted*" "$object +6.5 dB"
check 'pmd write: a gain between steps' line AOD "FIELD (17) LINE '0.3'*" "$object 0.3 dB"
check 'pmd write: a gain without dB' line AOD 'BITS (16) LINE the line ends where dB is due' "$object 0"
check 'pmd write: element 0 in a list' line APD "FIELD (17) LINE '0' stands where an element id*" \
    'presentation 1 speakers 2.0 language en elements 1 0 2'
check 'pmd write: elements of nothing' line APD 'BITS (16) LINE *' 'presentation 1 speakers 2.0 language en elements'
check 'pmd write: ed2 of neither' line ETD "FIELD (17) LINE '1' stands where yes or no is due" 'turnaround 1 ed2 1'
check 'pmd write: no such rate' line ETD "FIELD (17) LINE '50' stands where a frame rate, 23.98, 24, 25, 29.97 or 30, is due" \
    'turnaround 1 ed2 yes rate 50 pairs 0:0 dolby_e no'
check 'pmd write: no such program' line ETD "FIELD (17) LINE '5.1+3' stands where a program configuration*" \
    'turnaround 1 ed2 no dolby_e yes rate 24 program 5.1+3 pairs 0:0'
for pair in 5 5: :9 5:9:1 5-9 5:x x:9 -1:0 : ''; do
    check "pmd write: '$pair' is no pair" line ETD "* LINE *where a pair such as 5:9, or 0:N, which closes the list, is due" \
        "turnaround 1 ed2 yes rate 24 pairs 1:2 $pair"
done
check 'pmd write: pairs that do not close' line ETD 'BITS (16) LINE the line ends where a pair such as 5:9, or 0:N*' \
    'turnaround 1 ed2 no dolby_e yes rate 24 program 4 pairs 1:2'
check 'pmd write: the next field before the pairs close' line ETD "FIELD (17) LINE 'dolby_e' stands where a pair*" \
    'turnaround 1 ed2 yes rate 24 pairs 1:2 dolby_e no'
check 'pmd write: a pair after the closing one' line ETD "FIELD (17) LINE '1:2' stands where dolby_e is due" \
    'turnaround 1 ed2 yes rate 24 pairs 0:0 1:2 dolby_e no'
check 'pmd write: a field that a flag leaves out' line ETD "FIELD (17) LINE 'rate' stands where dolby_e is due" \
    'turnaround 1 ed2 no rate 24 pairs 0:0 dolby_e no'
for field in 'turnaround 0 ed2 no' 'turnaround 256 ed2 no' 'turnaround 1 ed2 yes rate 24 pairs 512:0 0:0' \
    'turnaround 1 ed2 yes rate 24 pairs 1:256 0:0' 'turnaround 1 ed2 yes rate 24 pairs 0:4294967296'; do
    check "pmd write: $field, told by line" lines ETD 'FIELD (17) at line 2: a reserved value*' \
        "turnaround 1 ed2 no dolby_e no\n$field dolby_e no\n"
done
check 'pmd write: a reserved id, told by line' lines AEN 'FIELD (17) at line 3: a reserved value*' '\nelement 1 name "a"\nelement 0 name "b"\n'
check 'pmd write: a number too wide, told by line' lines AEN 'FIELD (17) at line 2: *' 'element 4095 name ""\nelement 4096 name ""\n'
check 'pmd write: a number wider than 32 bits' lines AEN 'FIELD (17) at line 1: *' 'element 4294967297 name ""\n'
check 'pmd write: no record' lines XYZ 'BITS (16) at number 1: *' 'sample_time 5\n'
check 'pmd write: nothing' lines XYZ 'BITS (16) at number 0: *' '# nothing\n'
printf '# a\n\n substream 1\tname "#" # b\r\n' >"$T/text" && bytes 123000 >"$T/want"
check 'pmd write: comments and blanks' writes "$T/want" 0 '' "$BW" pmd write ESN "$T/text"
printf 'substream 1 name "%s"\n' "$(head -c 4096 /dev/zero | tr '\0' a)" >"$T/text"
check 'pmd write: NOROOM' gives 1 '' '*NOROOM (15) at number 0: *' "$BW" pmd write ESN "$T/text"
check 'pmd write: a text without end is cut off' gives 1 '' '*BIG (1) at line 0: a text has at most*' \
    "$BW" pmd write ESN /dev/zero
# bare WANT TEXT [KIND]: a bad list of bare numbers, of ESN unless said.
bare() { printf '%b' "$2" >"$T/text" && gives 1 '' "*: refused: $1" "$BW" pmd write --numbers "${3-ESN}" "$T/text"; }
check 'pmd write --numbers: FIELD at an index' bare 'FIELD (17) at number 4: *' '1 65 0\n2 256 0\n'
check 'pmd write --numbers: a list that ends early' bare 'BITS (16) at number 2: *' '1 65\n'
check 'pmd write --numbers: a flag above 1' bare 'FIELD (17) at number 1: *' '1 2 0\n' ETD
check 'pmd write --numbers: a closing pair without parameters' bare 'BITS (16) at number 4: *' '1 1 3 0\n' ETD
for langcod in 28506 27514 27483 28539; do
    check "pmd write --numbers: 27 in langcod $langcod of a name" bare "FIELD (17) at number 1: $no_letter" "1 $langcod 0\n" APN
    check "pmd write --numbers: 27 in langcod $langcod of a presentation" bare "FIELD (17) at number 6: $no_letter" "1 4 5568 0 2 0 $langcod 0\n" APD
done
for list in '1 27 5568' '28506 0 5568' '1 0 61274'; do
    check "pmd write --numbers: no langcod of 27 in $list" bare 'FIELD (17) at number *: a reserved value*' "$list 0\n" APD
done
check 'pmd write --numbers: not a number' bare "FIELD (17) at line 2: '-1' stands where a number is due" '1\n-1\n'

check 'pmd find: every kind, in and out of Syncs' gives 0 "PMD Version at byte 177, value bytes: 2, total offset 0
  values of this kind are not decoded
Audio Bed Description at byte 181, value bytes: 1, total offset 0
  values of this kind are not decoded
APD Audio Presentation Description at byte 184, value bytes: 17, total offset 0
  presentation 1 speakers 5.1.4*
APN*
AEN*
ESN*
ETD ED2 Turnaround Description at byte 266, value bytes: 24, total offset 0
  turnaround 1 ed2 yes rate 25 pairs 1:1 2:9 0:0 dolby_e yes*
  turnaround 255 ed2 no dolby_e no
AOD Audio Object Description at byte *, in the Sync at byte *
XYZ Dynamic Position Update at byte *, in the Sync at byte *
  sample_time 1
*" '' "$BW" pmd find "$SAMPLES/packs/each-kind.pack"
check 'pmd find --numbers' gives 0 $'*ESN*\n  1 65 0\nETD*\n  1 1 3 * 255 0 0\nAOD*' '' "$BW" pmd find --numbers "$SAMPLES/packs/each-kind.pack"
check 'pmd find --json' writes tests/command/json/each-kind.json 0 '' "$BW" pmd find --json "$SAMPLES/packs/each-kind.pack"
check 'pmd find: total offsets' gives 0 'XYZ * at byte 47, in the Sync at byte 41, value bytes: 12, total offset -65536
*
XYZ * at byte 61, value bytes: 12, total offset -32768
*
XYZ * at byte 84, in the Sync at byte 75, value bytes: 12, total offset -1
*' '' "$BW" pmd find "$SAMPLES/packs/lowest-offsets.pack"
check 'pmd find --json: total offsets' gives 0 '\[{"start":47,"sync":41,*,"value_length":12,"total_offset":65534,*
 {"start":61,"sync":null,*,"total_offset":32767,*
 {"start":84,"sync":75,*,"total_offset":-1,"kind":4,"name":"XYZ",*}\]' '' "$BW" pmd find --json "$SAMPLES/packs/highest-offsets.pack"
check 'pmd find: a value that is refused' gives 1 $'APN*\n  refused 16 264\nAPN*name "Main mix"*' '*bad-value.pack: payload at byte 38: refused: BITS (16) at bit 264: *' \
    "$BW" pmd find "$SAMPLES/packs/bad-value.pack"
check 'pmd find --json: a value that is refused' writes tests/command/json/bad-value.json 1 '*BITS (16)*' \
    "$BW" pmd find --json "$SAMPLES/packs/bad-value.pack"
# A payload of 4,097 bytes: a pack and its payload may be as long, a value that is read may not.
{ bytes 060E2B34027F01010C04010000000000 82101A 0113000040 060E2B340401010D0404020800000000 40821001 && head -c 4097 /dev/zero; } >"$T/big.pack"
check 'pmd find: a value above the cap' gives 1 $'APN*\n  refused 1 0' '*: payload at byte 40: refused: BIG (1) at byte 0: *' "$BW" pmd find "$T/big.pack"
check 'pmd find: a pack without PMD' gives 0 '' '' "$BW" pmd find "$SAMPLES/packs/number.pack"
check 'pmd find --json: a pack without PMD' writes tests/command/json/number.json 0 '' "$BW" pmd find --json "$SAMPLES/packs/number.pack"
check 'pmd find: a pack that is refused' gives 1 '' '*CRC (13) at byte 20: *' "$BW" pmd find "$SAMPLES/packs/refused-crc.pack"

# nameless FILE: no PMD payload has a name in it.
nameless() { "$BW" pmd find "$1" >"$T/out" && [[ -s $T/out ]] && ! grep -i name "$T/out"; }
check 'pmd find: the scrubbed incident has no names' nameless "$T/clean"
