#!/usr/bin/env bash
# Makes the samples: samples/make.sh [FOLDER], by default in this folder. It needs bash alone and calls nothing of
# Ballastwren, so the samples are outside evidence of what the command does. README.md says what each one shows.
set -euo pipefail
export LC_ALL=C
cd "${1:-$(dirname "${BASH_SOURCE[0]}")}"
mkdir -p packs sheets values

# Everything below is made as capital hex digits; `save` turns them into bytes.

# save FILE HEX...
save() {
    local file=$1 hex
    shift
    hex=$(printf '%s' "$@" | tr -d ' ')
    # shellcheck disable=SC2059  # the format is the bytes, \xNN each
    printf "$(printf '%s' "$hex" | sed 's/../\\x&/g')" >"$file"
}

# hex WIDTH NUMBER: a number in so many digits, negative numbers as two's complement.
hex() { printf "%0$1X" $(($2 & ((1 << 4 * $1) - 1))); }

# ascii TEXT: the bytes of a text.
ascii() {
    local i byte
    for ((i = 0; i < ${#1}; i++)); do
        printf -v byte '%d' "'${1:i:1}"
        printf '%02X' $((byte & 255))
    done
}

# bits WIDTH:NUMBER...: fields, most significant bit first, filled up with zeros to a whole byte.
bits() {
    local field all='' i
    for field in "$@"; do
        for ((i = ${field%%:*} - 1; i >= 0; i--)); do all+=$((${field#*:} >> i & 1)); done
    done
    while ((${#all} % 8)); do all+=0; done
    for ((i = 0; i < ${#all}; i += 8)); do printf '%02X' $((2#${all:i:8})); done
}

# name TEXT: the bytes of a name and its closing 0, as fields.
name() {
    local digits i
    digits=$(ascii "$1")
    for ((i = 0; i < ${#digits}; i += 2)); do printf '8:%d ' $((16#${digits:i:2})); done
    printf '8:0'
}

# pairs PRESENTATION:PARAMETERS...: the pairs of a turnaround, the closing one included, as fields.
pairs() {
    local pair
    for pair in "$@"; do printf '9:%d 8:%d ' "${pair%:*}" "${pair#*:}"; done
}

# object ELEMENT CLASS DYNAMIC X Y Z SIZE GAIN: an object's description, of a source with its number, as fields.
object() { printf '12:%d 4:%d 1:%d 10:%d 10:%d 10:%d 5:%d 1:0 1:0 8:%d 6:%d ' "${@:1:7}" "$1" "$8"; }

# place ELEMENT X Y Z: where an object is, as fields.
place() { printf '12:%d 10:%d 10:%d 10:%d ' "$@"; }

# langcod LETTERS: two or three small letters, as a field.
langcod() {
    local i sum=0 letter code
    for ((i = 0; i < 3; i++)); do
        letter=${1:i:1}
        code=0
        if [[ $letter ]]; then printf -v code '%d' "'$letter"; code=$((code - 96)); fi
        sum=$((sum << 5 | code))
    done
    printf '15:%d' "$sum"
}

# size HEX: how many bytes.
size() { printf '%d' $((${#1} / 2)); }

# length NUMBER: the shortest form.
length() {
    if (($1 < 128)); then hex 2 "$1"
    elif (($1 < 256)); then printf '81%s' "$(hex 2 "$1")"
    else printf '82%s' "$(hex 4 "$1")"; fi
}

# tag NUMBER: base 128, most significant group first.
tag() {
    local n=$1 all
    all=$(hex 2 $((n & 127)))
    while ((n >>= 7)); do all=$(hex 2 $((n & 127 | 128)))$all; done
    printf '%s' "$all"
}

# payload TAG HEX
payload() { printf '%s%s%s' "$(tag "$1")" "$(length "$(size "$2")")" "$2"; }

# long_payload TAG HEX: the same with a length of four bytes.
long_payload() { printf '%s84%s%s' "$(tag "$1")" "$(hex 8 "$(size "$2")")" "$2"; }

# config OFFSET [TAG LABEL]...
config() {
    local value
    value=$(hex 4 "$1")
    shift
    while (($#)); do value+=$(tag "$1")$2; shift 2; done
    payload 1 "$value"
}

# sync OFFSET DURATION PAYLOADS
sync() { payload 2 "$(hex 4 "$1")$(hex 4 "$2")$3"; }

KEY=060E2B34027F01010C04010000000000

# pmd_label NN: a label of Table 29 by its twelfth byte.
pmd_label() { printf '060E2B340401010D040402%s00000000' "$1"; }
VERSION=$(pmd_label 04) BEDS=$(pmd_label 05) OBJECTS=$(pmd_label 06) PRESENTATIONS=$(pmd_label 07)
PRESENTATION_NAMES=$(pmd_label 08) ELEMENT_NAMES=$(pmd_label 09) SUBSTREAM_NAMES=$(pmd_label 0B)
POSITIONS=$(pmd_label 0D) TURNAROUNDS=$(pmd_label 10)

# crc HEX: bit by bit, by EN 300 468 Annex B.
crc() {
    local i bit register=$((16#FFFFFFFF)) byte top
    for ((i = 0; i < ${#1}; i += 2)); do
        byte=$((16#${1:i:2}))
        for ((bit = 7; bit >= 0; bit--)); do
            top=$((register >> 31 & 1 ^ byte >> bit & 1))
            register=$((register << 1 & 16#FFFFFFFF))
            if ((top)); then register=$((register ^ 16#04C11DB7)); fi
        done
    done
    hex 8 "$register"
}

# bare VALUE: a pack without a CRC.
bare() { printf '%s%s%s' $KEY "$(length "$(size "$1")")" "$1"; }

# pack VALUE: a pack with its CRC.
pack() {
    local start
    start=$KEY$(length $(($(size "$1") + 6)))${1}0304
    printf '%s%s' "$start" "$(crc "$start")"
}

# sheet LABELS NUMBERS: two lists of words.
sheet() {
    local labels numbers label number
    read -ra labels <<<"$1"
    read -ra numbers <<<"$2"
    printf '%s0008%s%s' "$(hex 4 ${#labels[@]})" "$(hex 4 ${#numbers[@]})" "$(hex 4 $((8 + 16 * ${#labels[@]})))"
    for label in "${labels[@]}"; do printf '%s' "$label"; done
    for number in "${numbers[@]}"; do hex 8 "$number"; done
}

# text FILE LINES...: a text.
text() {
    local file=$1
    shift
    printf '%s\n' "$@" >"$file"
}


# The values of each kind, and their fields in words.
# shellcheck disable=SC2046  # the functions give several fields each
{
    APD=$(bits 9:1 5:4 $(langcod en) 12:1 12:2 12:3 12:0 9:2 5:0 $(langcod fra) 12:1 12:0)
    APN=$(bits 9:1 $(langcod en) $(name 'Main mix') 9:2 $(langcod fra) $(name $'Version fran\xc3\xa7aise'))
    AOD=$(bits 12:2 4:0 1:0 10:512 10:1023 10:1 5:0 1:0 1:0 8:3 6:51 12:3 4:3 1:1 10:1 10:512 10:1023 5:31 1:1 1:1 8:4 6:0)
    XYZ=$(bits 6:1 12:3 10:1 10:512 10:1023 12:2 10:512 10:512 10:512)
    AEN=$(bits 12:2 $(name 'Commentary') 12:3 $(name 'Crowd'))
    ESN=$(bits 4:1 $(name 'A'))
    ETD=$(bits 8:1 1:1 4:3 $(pairs 1:1 2:9 0:0) 1:1 4:3 5:0 $(pairs 1:0 2:9 0:3) \
        8:2 1:0 1:1 4:4 5:23 $(pairs 511:0 0:255) 8:255 1:0 1:0)
    ODD=$(bits 9:3 $(langcod de) $(name $'quote " slash \\ tab \t bell \a bare \xff escape \e[31m'))
}

make_values() {
    save values/apd.value "$APD"
    text values/apd.txt 'presentation 1 speakers 5.1.4 language en elements 1 2 3' \
        'presentation 2 speakers 2.0 language fra elements 1'
    save values/apn.value "$APN"
    text values/apn.txt 'presentation 1 language en name "Main mix"' \
        $'presentation 2 language fra name "Version fran\xc3\xa7aise"'
    save values/aod.value "$AOD"
    text values/aod.txt \
        'element 2 class dialog dynamic no x 512 y 1023 z 1 size 0 size_3d no diverge no source 3 gain 0.0 dB' \
        'element 3 class generic dynamic yes x 1 y 512 z 1023 size 31 size_3d yes diverge yes source 4 gain muted'
    save values/xyz.value "$XYZ"
    text values/xyz.txt 'sample_time 1' 'element 3 x 1 y 512 z 1023' 'element 2 x 512 y 512 z 512'
    save values/aen.value "$AEN"
    text values/aen.txt 'element 2 name "Commentary"' 'element 3 name "Crowd"'
    save values/esn.value "$ESN"
    text values/esn.txt 'substream 1 name "A"'
    save values/etd.value "$ETD"
    text values/etd.txt \
        'turnaround 1 ed2 yes rate 25 pairs 1:1 2:9 0:0 dolby_e yes rate 25 program 5.1+2 pairs 1:0 2:9 0:3' \
        'turnaround 2 ed2 no dolby_e yes rate 29.97 program 7.1-screen pairs 511:0 0:255' \
        'turnaround 255 ed2 no dolby_e no'
    save values/apn-odd.value "$ODD"
    text values/apn-odd.txt \
        'presentation 3 language de name "quote \" slash \\ tab \x09 bell \x07 bare \xFF escape \x1B[31m"'
    save values/refused-bits.value "${ESN%00}"
    save values/refused-field.value "$(bits 9:1 5:7 15:5568 12:0)"
    # shellcheck disable=SC2046
    save values/refused-letter.value "$(bits 9:1 15:$((5 << 10 | 27 << 5)) $(name 'Main mix'))"
    save values/refused-pad.value 141001
    # shellcheck disable=SC2046
    save values/refused-rate.value "$(bits 8:1 1:1 4:6 $(pairs 5:9 0:3) 1:0)"
}

# keep_sheet NAME LABELS NUMBERS LINES...: a sheet and its text.
keep_sheet() {
    save "sheets/$1.sheet" "$(sheet "$2" "$3")"
    text "sheets/$1.txt" "${@:4}"
}

make_sheets() {
    : >sheets/empty.sheet
    save sheets/keep-all.sheet FFFF0008FFFF0008
    text sheets/keep-all.txt '# Everything, as it stands.' 'keep all'
    keep_sheet keep-none '' '' '# Nothing: the pack offset alone is left.' 'keep none'
    keep_sheet rack "$VERSION $PRESENTATIONS $OBJECTS $POSITIONS" 70 \
        '# What a rebuilt inserter may hold: no names of anything.' '' \
        '# PMD Version, and the descriptions of presentations and objects' \
        "label $VERSION" 'label 06.0E.2B.34.04.01.01.0D.04.04.02.07.00.00.00.00' \
        "label $OBJECTS" "label $POSITIONS  # where objects are" '' '# the line-up tone' 'number 70'
    save sheets/refused.sheet "$(sheet "$VERSION $VERSION" '')"
}

# The incident: a Sync, and a second one, hold the names of an earlier production.
incident() {
    local maps names elements
    maps=$(config -48 128 "$VERSION" 129 "$PRESENTATIONS" 130 "$OBJECTS" 131 "$POSITIONS" 132 "$PRESENTATION_NAMES" \
        133 "$ELEMENT_NAMES")
    # shellcheck disable=SC2046
    names=$(bits 9:1 $(langcod en) $(name 'Harbour Derby world feed') 9:2 $(langcod fr) $(name 'Harbour Derby flux mondial'))
    # shellcheck disable=SC2046
    elements=$(bits 12:2 $(name 'Derby referee microphone') 12:3 $(name 'Derby north stand'))
    pack "$maps$(payload 128 0100)$(payload 129 "$APD")$(payload 130 "$AOD")$(payload 70 00112233)$(
        sync 480 1920 "$(payload 131 "$XYZ")$(payload 132 "$names")$(payload 133 "$elements")")$(
        sync 960 1920 "$(payload 132 "$names")")"
}

# Two packs of which the sheet `rack` keeps the same, made as differently as two packs can be.
same_kept_a() {
    bare "$(config 5 64 "$OBJECTS" 65 "$POSITIONS" 66 "$ELEMENT_NAMES")$(payload 64 "$AOD")$(payload 66 "$AEN")$(
        sync -3 7 "$(payload 66 "$AEN")$(payload 65 "$XYZ")")$(payload 70 5A)"
}
same_kept_b() {
    pack "$(config 5 300 "$POSITIONS" 71 "$OBJECTS" 72 "$BEDS" 4 "$SUBSTREAM_NAMES")$(payload 99 C0FFEE)$(
        long_payload 71 "$AOD")$(sync 1 1 "$(payload 98 00)")$(
        sync -3 7 "$(long_payload 300 "$XYZ")$(payload 4 "$ESN")")$(long_payload 70 5A)$(payload 97 "$APN")"
}

# A payload of each kind that is decoded, and two of PMD that are not.
each_kind() {
    bare "$(config 0 64 "$VERSION" 65 "$BEDS" 66 "$OBJECTS" 67 "$PRESENTATIONS" 68 "$PRESENTATION_NAMES" \
        69 "$ELEMENT_NAMES" 70 "$SUBSTREAM_NAMES" 71 "$POSITIONS" 72 "$TURNAROUNDS")$(payload 64 0100)$(payload 65 00)$(
        payload 67 "$APD")$(payload 68 "$APN")$(payload 69 "$AEN")$(payload 70 "$ESN")$(
        payload 72 "$ETD")$(sync 0 0 "$(payload 66 "$AOD")$(payload 71 "$XYZ")")"
}

# Two feeds of one programme. Both have its version. The main one maps the label of element names and has none; the
# backup one has them in a Sync, and others after it.
main_feed() {
    pack "$(config 0 64 "$VERSION" 65 "$ELEMENT_NAMES" 66 "$POSITIONS")$(payload 64 0100)$(
        sync 480 1920 "$(payload 66 "$XYZ")")"
}
backup_feed() {
    local later
    # shellcheck disable=SC2046
    later=$(bits 12:2 $(name 'Reporter'))
    pack "$(config 0 70 "$ELEMENT_NAMES" 71 "$VERSION")$(payload 71 0101)$(
        sync 480 1920 "$(payload 5 AA)$(payload 70 "$AEN")")$(payload 70 "$later")"
}

# A commentator who stays, and two objects that move.
objects() {
    # shellcheck disable=SC2046
    pack "$(config 0 64 "$OBJECTS")$(payload 64 "$(
        bits $(object 11 0 0 512 1 512 0 51) $(object 12 3 1 256 256 512 4 45) $(object 13 3 1 768 256 512 4 0))")"
}

# moves [PLACES]...: a pack with a position update of these objects in a Sync each.
moves() {
    local all places
    all=$(config 0 64 "$POSITIONS")
    # shellcheck disable=SC2086
    for places in "$@"; do all+=$(sync 480 1920 "$(payload 64 "$(bits 6:0 $places)")"); done
    pack "$all"
}

# offsets PACK SYNC OTHER: a pack of this offset with payloads before, between and after Syncs of the other two.
offsets() {
    bare "$(config "$1" 64 "$POSITIONS")$(payload 70 00)$(sync "$2" 1920 "$(payload 64 "$XYZ")")$(payload 64 "$XYZ")$(
        sync "$3" 1920 "$(payload 70 01)$(payload 64 "$XYZ")")$(payload 70 02)"
}

# payloads COUNT: so many payloads with tags from 100 on.
payloads() {
    local i
    for ((i = 0; i < $1; i++)); do payload $((100 + i)) ''; done
}

make_good_packs() {
    save packs/empty.pack "$(bare '')"
    save packs/number.pack "$(bare 0501AA)"
    save packs/long-length.pack "$(bare 058101AA)"
    save packs/sync.pack "$(bare 0206FFFF00000500)"
    save packs/full.pack "$(bare "$(payloads 64)")"
    save packs/each-kind.pack "$(each_kind)"
    save packs/bad-value.pack "$(bare "$(config 0 68 "$PRESENTATION_NAMES")$(payload 68 "${APN%00}")$(payload 68 "$APN")")"
    save packs/incident.pack "$(incident)"
    save packs/main.pack "$(main_feed)"
    save packs/backup.pack "$(backup_feed)"
    save packs/objects.pack "$(objects)"
    save packs/moves.pack "$(moves "$(place 12 300 256 512) $(place 13 700 256 512)" "$(place 13 650 256 600)")"
    save packs/moves-refused.pack "$(moves "$(place 12 400 256 512) $(place 11 1 1 1)" "$(place 20 1 1 1)" \
        "$(place 13 600 256 700)")"
    save packs/lowest-offsets.pack "$(offsets -32768 -32768 32767)"
    save packs/highest-offsets.pack "$(offsets 32767 32767 -32768)"
    save packs/same-kept-a.pack "$(same_kept_a)"
    save packs/same-kept-b.pack "$(same_kept_b)"
}

# One pack for each refusal of a pack, but BIG, which a file of 32,769 bytes shows.
make_refused_packs() {
    local good
    good=$(pack 0501AA)
    save packs/refused-short.pack "${good:0:40}"
    save packs/refused-key.pack "07${good:2}"
    save packs/refused-length.pack "${KEY}80"
    save packs/refused-trail.pack "${good}00"
    save packs/refused-tag.pack "$(bare 8000)"
    save packs/refused-cut.pack "$(bare 0501)"
    save packs/refused-place.pack "$(bare "$(sync 0 0 "$(config 0)")")"
    save packs/refused-count.pack "$(bare "$(payloads 65)")"
    save packs/refused-config.pack "$(bare "$(payload 1 000045)")"
    save packs/refused-map.pack "$(bare "$(config 0 70 "$VERSION" 70 "$BEDS")")"
    save packs/refused-sync.pack "$(bare "$(sync 0 0 '')")"
    save packs/refused-crc.pack "${good%??}00"
}

make_values
make_sheets
make_good_packs
make_refused_packs
