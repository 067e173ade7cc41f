# shellcheck shell=bash
# pmd write --json.

V=$SAMPLES/values
for file in "$V"/[!r]*.value; do
    name=${file##*/} name=${name%.value} kind=${name%-*}
    check "pmd write --json: $name" writes "$file" 0 '' "$BW" pmd write --json "$kind" "tests/command/json/$name.json"
done

# made HEX KIND TEXT: the text makes these bytes.
made() {
    printf '%b' "$3" >"$T/text" && bytes "$1" >"$T/want" && writes "$T/want" 0 '' "$BW" pmd write --json "$2" "$T/text"
}
check 'pmd write --json: numbers alone' made 019814240006 ETD \
    '{"kind":7,"records":[{"turnaround":1,"ed2":{"frame_rate":3,"pairs":[{"presentation":5,"parameters":9}],"closing_parameters":3},"dolby_e":null}]}'
check 'pmd write --json: another order, and blanks' made 019814240006 ETD ' {\n\t"records" : [ { "dolby_e" : null , "ed2" : { "closing_parameters" : 3 ,
    "pairs" : [ { "parameters" : 9 , "presentation" : 5 } ] , "frame_rate" : 3 } ,\r\n "turnaround" : 1 } ] , "kind" : 7 } \n'
check 'pmd write --json: a name with every escape' made 1412FC3A9F09F9880FF1B225C080C0A0D09000 ESN '{"kind":6,"records":[{"substream":1,
    "name":"\\u0041\\/\\u00e9\\ud83d\\uDE00\\uFFFD\\u001b\\"\\\\\\b\\f\\n\\r\\t","name_hex":"412FC3A9F09F9880FF1B225C080C0A0D09"}]}'
check 'pmd write --json: a name with few escapes' made 1412FC3A9F09F9880FF1B225C080C0A0D09000 ESN '{"kind":6,"records":[{"substream":1,
    "name":"A/é😀�\\u001B\\u0022\\u005C\\u0008\\u000C\\u000A\\u000D\\u0009","name_hex":"412FC3A9F09F9880FF1B225C080C0A0D09"}]}'
check 'pmd write --json: small hex digits' made 1F3AB000 ESN '{"kind":6,"records":[{"substream":1,"name_hex":"f3ab"}]}'
check 'pmd write --json: a name and a list of nothing' made 0090AE000000 APD \
    '{"kind":1,"records":[{"presentation":1,"speaker_config":4,"langcod":5568,"elements":[]}]}'

# both KIND TEXT: the value of these words is made again from its JSON.
both() {
    printf '%s\n' "$2" >"$T/text" && "$BW" pmd write "$1" "$T/text" "$T/value" && "$BW" pmd read --json "$1" "$T/value" >"$T/json" &&
        writes "$T/value" 0 '' "$BW" pmd write --json "$1" "$T/json"
}
check 'pmd write --json: as many turnarounds as fit' both ETD "$(printf 'turnaround 255 ed2 no dolby_e no\n%.0s' {1..3276})"
check 'pmd write --json: as many pairs as fit' both ETD \
    "turnaround 255 ed2 yes rate 29.97 pairs $(printf '511:255 %.0s' {1..1925})0:255 dolby_e no"
check 'pmd write --json: the longest of Dolby E' both ETD \
    "$(printf 'turnaround 255 ed2 no dolby_e yes rate 29.97 program 1+1+1+1+1+1+1 pairs 0:255\n%.0s' {1..910})"
check 'pmd write --json: as many names as fit' both ESN "$(printf 'substream 15 name ""\n%.0s' {1..2730})"
check 'pmd write --json: a name of odd bytes' both ESN "substream 15 name \"$(printf '\\xFF\\x01\\"%.0s' {1..1364})\""
check 'pmd write --json: as many objects as fit' both AOD "$(printf \
    'element 4095 class emergency-information dynamic yes x 1023 y 1023 z 1023 size 31 size_3d yes diverge yes source 255 gain -25.0 dB\n%.0s' {1..481})"
check 'pmd write --json: every gain' both AOD "$(
    for ((half = -51; half <= 12; half++)); do
        printf 'element 1 class vds dynamic no x 1 y 1 z 1 size 0 size_3d no diverge no source 0 gain '
        ((half > -51)) && printf '%s%d.%d dB\n' "$( ((half < 0)) && echo -)" $((${half#-} / 2)) $((${half#-} % 2 * 5)) || echo muted
    done
)"
check 'pmd write --json: a name of every byte' both ESN "substream 1 name \"$(printf '\\x%02X' {1..255})\""

# wrong WANT KIND TEXT: the text is refused, and nothing is written.
wrong() {
    printf '%b' "$3" >"$T/text" && rm -f "$T/none" &&
        gives 1 '' "ballastwren: $T/text: refused: $1" "$BW" pmd write --json "$2" "$T/text" "$T/none" && [[ ! -e $T/none ]]
}
# turnaround WANT MEMBERS: the same for the members of a turnaround, which stand on the second line.
turnaround() { wrong "FIELD (17) at line 2: $1" ETD '{"kind":7,"records":[\n{'"$2}\n]}\n"; }
# deliverable WANT MEMBERS: the same for the members of what is delivered.
deliverable() { turnaround "$1" '"turnaround":1,"ed2":null,"dolby_e":{'"$2}"; }
none='"ed2":null,"dolby_e":null'
check 'pmd write --json: another kind' wrong "FIELD (17) at line 1: '*kind*6' stands where the number of the kind*" ETD '{"kind":6,"records":[]}'
check 'pmd write --json: a kind as text' wrong "FIELD (17) at line 1: *the number of the kind*" ETD '{"kind":"7","records":[]}'
check 'pmd write --json: another name' wrong "FIELD (17) at line 2: *ESN* stands where a member that agrees with \"kind\"*" ETD '{"kind":7,\n"name":"ESN","records":[]}'
check 'pmd write --json: no kind' wrong 'FIELD (17) at line 1: * stands where an object with "kind" is due' ETD '{"records":[]}'
check 'pmd write --json: no records' wrong '* stands where an object with "records" is due' ETD '{"kind":7}'
check 'pmd write --json: records of none' wrong 'BITS (16) at number 0: *' ETD '{"kind":7,"records":[]}'
check 'pmd write --json: records that are no array' wrong '*: *records* stands where an array is due' ETD '{"kind":7,"records":{}}'
check 'pmd write --json: a record that is no object' wrong "*: '7' stands where an object is due" ETD '{"kind":7,"records":[7]}'
check 'pmd write --json: not an object' wrong "*: '\[\]' stands where an object is due" ETD '[]'
check 'pmd write --json: no sample time' wrong '* stands where an object with "sample_time" is due' XYZ '{"kind":4,"records":[]}'
check 'pmd write --json: a member that is missing' turnaround '* stands where an object with "ed2" is due' '"turnaround":1,"dolby_e":null'
check 'pmd write --json: a member that is not known' turnaround "'*turnarond*' stands where a member that is known here is due" "$none,\"turnarond\":1"
check 'pmd write --json: a member without a name' deliverable "'*' stands where a member that is known here is due" \
    '"":1,"frame_rate":1,"pgmconfig":2,"pairs":[],"closing_parameters":0'
check 'pmd write --json: a member of words' turnaround "'*rate*' stands where a member that is known here is due" "$none,\"turnaround\":1,\"rate\":1"
check 'pmd write --json: a member of another object' turnaround "'*frame_rate*' stands where a member that is known*" "$none,\"turnaround\":1,\"frame_rate\":1"
check 'pmd write --json: a member twice' turnaround "'*ed2*' stands where a member that does not stand there already is due" "$none,\"turnaround\":1,\"ed2\":null"
for number in -1 1.0 1e0 '"1"' null true '[1]' '{}'; do
    check "pmd write --json: $number is no whole number" turnaround '* stands where a whole number is due' "$none,\"turnaround\":$number"
done
for number in 0 256 4294967297 99999999999999999999; do
    check "pmd write --json: $number is reserved or too wide" turnaround "'*turnaround*$number' stands where a number that is not reserved*" \
        "$none,\"turnaround\":$number"
done
check 'pmd write --json: a flag' turnaround "'*ed2*1' stands where an object or null is due" '"turnaround":1,"ed2":1,"dolby_e":null'
check 'pmd write --json: a reserved program' deliverable "'*pgmconfig*24' stands where a number that is not reserved*" \
    '"frame_rate":1,"pgmconfig":24,"pairs":[],"closing_parameters":0'
check 'pmd write --json: a pair that closes' deliverable '* stands where a pair of a presentation that is not 0 is due' \
    '"frame_rate":1,"pgmconfig":2,"pairs":[{"presentation":0,"parameters":1}],"closing_parameters":0'
check 'pmd write --json: half a pair' deliverable '* stands where an object with "parameters" is due' \
    '"frame_rate":1,"pgmconfig":2,"pairs":[{"presentation":1}],"closing_parameters":0'
check 'pmd write --json: a pair too wide' deliverable "'*parameters*256' stands where a number that is not reserved*" \
    '"frame_rate":1,"pgmconfig":2,"pairs":[{"presentation":1,"parameters":256}],"closing_parameters":0'
check 'pmd write --json: pairs that do not close' deliverable '* stands where an object with "closing_parameters" is due' \
    '"frame_rate":1,"pgmconfig":2,"pairs":[]'
check 'pmd write --json: pairs of words' deliverable '* stands where an array is due' \
    '"frame_rate":1,"pgmconfig":2,"pairs":"5:9 0:3","closing_parameters":0'
for name in '"4"' '"4100"' '"4 "' '"4g"' '"\\u0041"' 65 '[]' null; do
    check "pmd write --json: $name is no name" wrong '*stands where a string of two hex digits*' ESN "{\"kind\":6,\"records\":[{\"substream\":1,\"name_hex\":$name}]}"
done
check 'pmd write --json: element 0' wrong "*: '0' stands where an element id*" APD \
    '{"kind":1,"records":[{"presentation":1,"speaker_config":4,"langcod":5568,"elements":[1,0]}]}'
for langcod in 28506 27514 27483; do
    check "pmd write --json: 27 in langcod $langcod" wrong "*: '*langcod*$langcod' stands where a langcod without 27, which is no letter's code, is due" APN \
        "{\"kind\":2,\"records\":[{\"presentation\":1,\"langcod\":$langcod,\"name_hex\":\"\"}]}"
done
check 'pmd write --json: a number for true or false' wrong '*: *dynamic*1* stands where true or false is due' AOD \
    '{"kind":3,"records":[{"element":2,"class":0,"dynamic":1,"x":512,"y":1023,"z":1,"size":0,"size_3d":false,"diverge":false,"source":3,"gain":51}]}'

# object NAME MEMBER INSTEAD: the object of a sample with something else for its first member that stands so.
object() {
    local text
    text=$(<"tests/command/json/$1.json")
    [[ $text == *"$2"* ]] && printf '%s\n' "${text%%"$2"*}$3${text#*"$2"}"
}
# same NAME MEMBER INSTEAD: that makes the sample.
same() { object "$@" >"$T/text" && writes "$V/$1.value" 0 '' "$BW" pmd write --json "${1%-*}" "$T/text"; }
for number in 0 -0 0.00 0e9 -0.0E-1; do
    check "pmd write --json: $number dB" same aod '"gain_db":0.0' "\"gain_db\":$number"
done
for number in 25.0 25.000 2.5e1 0.25E+2 250e-1; do
    check "pmd write --json: $number frames per second" same etd '"frames_per_second":25' "\"frames_per_second\":$number"
done
# lines: each member on a line of its own.
lines() { sed 's/,"/,\n"/g' "$@"; }
# other DECIDES NAME MEMBER INSTEAD: that is refused with its line, and nothing is written.
other() {
    local line
    line=$(lines "tests/command/json/$2.json" | grep -nF -m 1 -- "$3") && object "${@:2}" | lines >"$T/text" && rm -f "$T/none" &&
        gives 1 '' "ballastwren: $T/text: refused: FIELD (17) at line ${line%%:*}: '*' stands where a member that agrees with \"$1\", which decides, or none is due" \
            "$BW" pmd write --json "${2%-*}" "$T/text" "$T/none" && [[ ! -e $T/none ]]
}
while read -r decides name key values; do
    IFS='|' read -ra values <<<"$values"
    member="\"$key\":${values[0]}"
    check "pmd write --json: $name without $member" same "$name" ",$member" ''
    for value in "${values[@]:1}"; do
        check "pmd write --json: $name with $key $value for ${values[0]}" other "$decides" "$name" "$member" "\"$key\":$value"
    done
done <<'END'
kind apn name "APN"|"AEN"|"apn"|2|null
kind apn title "Audio Presentation Names"|"Audio Element Names"|"Names"|""|-1.5e+3
name_hex apn name "Main mix"|"World feed"|"Main mix "|"Main mi"|""|"Main\u0000mix"|"\ud83dMain mix"|null|["Main mix"]|{}
name_hex apn name "Version française"|"Version francaise"|"Version fran\u00E8aise"
name_hex aen name "Crowd"|"Commentary"|"Cro\u0077\u0064\ude00"|0
name_hex esn name "A"|"B"|"\ud800"|"\ud800\u0041"|"\ud800\ud800"|true
langcod apn language "fra"|"fre"|"fr"|"FRA"
langcod apd language "en"|"eng"|5568
speaker_config apd speakers "2.0"|"3.0"|2.0
class aod class_name "generic"|"dialog"|3
gain aod muted false|true|0|null|"false"
gain aod muted true|false|1
gain aod gain_db 0.0|0.5|-0.5|1e-1|"0.0"|null
gain aod gain_db null|-25.0|0|"null"
frame_rate etd frames_per_second 29.97|30|29.9|"29.97"
pgmconfig etd program "7.1-screen"|"7.1"|23
END
check 'pmd write --json: a number that is not that of its words' wrong "FIELD (17) at line 2: '*name*:*A*' stands where a member that agrees with \"name_hex\"*" \
    ESN '{"kind":6,"records":[{\n"name":"A","substream":1,"name_hex":"42"}]}'
check 'pmd write --json: a reserved number and its words' wrong "*'*class*:9' stands where a number that is not reserved*" \
    AOD "$(object aod '"class":0' '"class":9')"

# passed_on NAME ARGUMENTS: what Python makes of the object makes the sample.
passed_on() {
    python3 -X utf8 -c "import json, sys; json.dump(json.load(sys.stdin), sys.stdout, $2)" <"tests/command/json/$1.json" >"$T/text" &&
        writes "$V/$1.value" 0 '' "$BW" pmd write --json "${1%-*}" "$T/text"
}
if command -v python3 >/dev/null; then
    for name in apd apn aod xyz aen esn etd apn-odd; do
        for arguments in '' 'ensure_ascii=False' 'indent=1' 'sort_keys=True, ensure_ascii=False, indent=1'; do
            check "pmd write --json: $name from json.dump($arguments)" passed_on "$name" "$arguments"
        done
    done
else
    echo 'skipped: what Python prints, as there is no python3'
fi

check 'pmd write --json: nothing' wrong 'BITS (16) at line 1: the line ends where a value is due' ETD ''
check 'pmd write --json: words' wrong "FIELD (17) at line 1: 'turnaround*' stands where a value is due" ETD 'turnaround 1 ed2 no dolby_e no\n'
check 'pmd write --json: something after the object' wrong "FIELD (17) at line 2: 'x' stands where the end of the text is due" ETD '{"kind":7,"records":[]}\nx'
# syntax WANT TEXT: what is not JSON, on the second line.
syntax() { wrong "FIELD (17) at line 2: $1" ETD "{\"kind\":7,\n$2"; }
check 'pmd write --json: a comma at the end' syntax "'}' stands where a string in double quotes is due" '}'
check 'pmd write --json: a key without quotes' syntax "'records*' stands where a string in double quotes is due" 'records:[]}'
check 'pmd write --json: no colon' syntax "'\[\]}' stands where ':' is due" '"records"[]}'
check 'pmd write --json: no comma' syntax "'*name*' stands where ',' or '}' is due" '"records":[] "name":"ETD"}'
check 'pmd write --json: no comma in an array' syntax "'2\]}' stands where ',' or '\]' is due" '"records":[1 2]}'
check 'pmd write --json: a number that begins with 0' syntax "'1}' stands where ',' or '}' is due" '"title":01}'
check 'pmd write --json: a point without a digit' syntax "'}' stands where a digit is due" '"title":1.}'
check 'pmd write --json: an exponent without a digit' syntax "'}' stands where a digit is due" '"title":1e+}'
check 'pmd write --json: a sign alone' syntax "'}' stands where a digit is due" '"title":-}'
check 'pmd write --json: not a word of JSON' syntax "'True}' stands where a value is due" '"title":True}'
check 'pmd write --json: an unknown escape' syntax "'x41*' stands where an escape of JSON is due" '"title":"\\x41"}'
check 'pmd write --json: a short escape' syntax "'*' stands where a hex digit is due" '"title":"\\u00"}'
check 'pmd write --json: a control' syntax "'\\\\x09*' stands where a character*" '"title":"\t"}'
check 'pmd write --json: a byte 0' syntax "* stands where a character*" '"title":"\0"}'
check 'pmd write --json: a byte 0 outside a string' syntax "* stands where a value is due" '"title":\0}'
check 'pmd write --json: what is not UTF-8' syntax "'\\\\xFF*' stands where a character*" '"title":"\xff"}'
check 'pmd write --json: nested too deep' syntax "'\[\]*' stands where something that is not nested as deep is due" '"title":[[[[[[]]]]]]}'
check 'pmd write --json: a text without end is cut off' gives 1 '' '*BIG (1) at line 0: a text has at most*' "$BW" pmd write --json ETD /dev/zero
check 'pmd write --json: not a kind' gives 1 '' '*KIND (19) at number 0: *' "$BW" pmd write --json 8 tests/command/json/etd.json

# cut NAME: an object that ends anywhere before its end is refused.
cut() {
    local size
    for ((size = $(wc -c <"tests/command/json/$1.json") - 2; size >= 0; size -= 1 + size / 40)); do
        head -c "$size" "tests/command/json/$1.json" >"$T/text"
        gives 1 '' '*: refused: * at line 1: * where * is due' "$BW" pmd write --json "${1%-*}" "$T/text" || return
    done
}
for name in apn-odd etd; do
    check "pmd write --json: $name cut off" cut "$name"
done
