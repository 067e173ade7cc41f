# shellcheck shell=bash
# objects: the live object table.

DESCRIPTIONS=060E2B340401010D0404020600000000 POSITIONS=060E2B340401010D0404020D00000000
SCENE=packs/objects.pack MOVES=packs/moves.pack ODD=packs/moves-refused.pack

# objects STATUS OUT ERR WORDS...: the exit status of objects among the samples, and what comes on standard output and standard error, each as a
# pattern. No byte steers a terminal.
objects() {
    local status
    (cd "$SAMPLES" && "$BW" objects "${@:4}") >"$T/out" 2>"$T/err"
    status=$?
    # shellcheck disable=SC2053  # patterns
    [[ $status -eq $1 && $(<"$T/out") == $2 && $(<"$T/err") == $3 ]] && ! grep -q $'[\001-\010\013-\037\177]' "$T/out" "$T/err" && return
    printf 'wanted %s\n%s\n%s\ngot %s\n' "${@:1:3}" "$status"
    cat "$T/out" "$T/err"
    return 1
}

# objects_json NAME STATUS ERR WORDS...: the same with a file of the tests as standard output.
objects_json() { objects "$2" '*' "$3" --json "${@:4}" && cmp "$T/out" "tests/command/json/$1.json"; }

still='element 11 class dialog dynamic no x 512 y 1 z 512 size 0 size_3d no diverge no source 11 gain 0.0 dB'
# scene X12 X13 Z13 [INDENT]: the objects of the samples, with the two that move at these places.
scene() {
    printf '%s%s\n' "${4-}" "$still" \
        "${4-}" "element 12 class generic dynamic yes x $1 y 256 z 512 size 4 size_3d no diverge no source 12 gain -3.0 dB" \
        "${4-}" "element 13 class generic dynamic yes x $2 y 256 z $3 size 4 size_3d no diverge no source 13 gain muted"
}
static="ballastwren: $ODD: payload at byte 44: refused: STATIC (23) at record 1: element 11: ?*"
unknown="ballastwren: $ODD: payload at byte 64: refused: UNKNOWN (22) at record 0: element 20: ?*"
described=$(scene 256 768 512) moved=$(scene 300 650 600) last=$(scene 300 600 700)
check 'objects: as they are described' objects 0 "$described" '' "$SCENE"
check 'objects: as they were moved last, in two Syncs' objects 0 "$moved" '' "$SCENE" "$MOVES"
check 'objects: two values are refused, the third is applied' objects 1 "$last" "$static"$'\n'"$unknown" "$SCENE" "$MOVES" "$ODD"
check 'objects: described anew' objects 0 "$described" '' "$SCENE" "$MOVES" "$SCENE"
check 'objects --each' objects 1 "after $SCENE
$(scene 256 768 512 '  ')
after $MOVES
$(scene 300 650 600 '  ')
after $ODD
$(scene 300 600 700 '  ')" "$static"$'\n'"$unknown" --each "$SCENE" "$MOVES" "$ODD"
check 'objects --each: one pack' objects 0 "after $SCENE"$'\n'"$(scene 256 768 512 '  ')" '' "$SCENE" --each
check 'objects --json' objects_json objects 0 '' "$SCENE" "$MOVES"
check 'objects --json: after what is refused' objects_json objects-refused 1 "$static"$'\n'"$unknown" "$SCENE" "$MOVES" "$ODD"
check 'objects --each --json' objects_json objects-each 1 "$static"$'\n'"$unknown" --each "$SCENE" "$MOVES" "$ODD" packs/empty.pack
check 'objects: standard input' gives 0 "$described" '' from "$SAMPLES/$SCENE" "$BW" objects -
check 'objects --each: standard input' gives 0 $'after standard input\n  element 11 *' '' from "$SAMPLES/$SCENE" "$BW" objects --each -
check 'objects --each --json: standard input' gives 0 '{"pack":"standard input","objects":\[{"element":11,*}\]}' '' \
    from "$SAMPLES/$SCENE" "$BW" objects --json --each -
check 'objects: standard input after a file' gives 0 "$moved" '' from "$SAMPLES/$MOVES" "$BW" objects "$SAMPLES/$SCENE" -
# in_readme: the table that README.md shows.
in_readme() { objects 0 "$(sed -n 's/^    \(element \)/\1/p' README.md)" '' "$SCENE" "$MOVES"; }
check 'objects: the table of README.md' in_readme

for words in packs/empty.pack packs/number.pack packs/full.pack packs/bad-value.pack 'packs/empty.pack packs/number.pack'; do
    read -ra split <<<"$words"
    check "objects: none in $words" objects 0 'no objects' '' "${split[@]}"
done
check 'objects --json: none' objects 0 '{"objects":\[\]}' '' --json packs/empty.pack
check 'objects --each: none' objects 0 $'after packs/empty.pack\n  no objects\nafter packs/number.pack\n  no objects' '' --each packs/empty.pack packs/number.pack
check 'objects --each --json: none' objects 0 '{"pack":"packs/empty.pack","objects":\[\]}' '' --each --json packs/empty.pack
check 'objects: a position of what nobody described' objects 1 'no objects' \
    'ballastwren: packs/main.pack: payload at byte 82: refused: UNKNOWN (22) at record 0: element 3: no entry of the object table*' packs/main.pack
check 'objects: the incident' objects 1 "$(<"$SAMPLES/values/aod.txt")" \
    'ballastwren: packs/incident.pack: payload at byte 189: refused: STATIC (23) at record 1: element 2: the entry of this element is not dynamic*' packs/incident.pack
check 'objects: a description inside a Sync' objects 1 "$(<"$SAMPLES/values/aod.txt")" '*: payload at byte 317: refused: STATIC (23) at record 1: *' packs/each-kind.pack

# Packs that are refused and files that cannot be read change nothing, and what comes after them is applied.
crc='ballastwren: packs/refused-crc.pack: refused: CRC (13) at byte 20: ?*' gone='ballastwren: absent: No such file or directory'
check 'objects: a pack that is refused' objects 1 "$moved" "$crc" "$SCENE" packs/refused-crc.pack "$MOVES"
check 'objects --each: a pack that is refused' objects 1 "after $SCENE
$(scene 256 768 512 '  ')
after packs/refused-crc.pack
$(scene 256 768 512 '  ')
after $MOVES
$(scene 300 650 600 '  ')" "$crc" --each "$SCENE" packs/refused-crc.pack "$MOVES"
check 'objects: a file that is not there' objects 2 "$moved" "$gone" "$SCENE" absent "$MOVES"
check 'objects --each: a file that is not there' objects 2 $'after absent\n  no objects\nafter '"$SCENE"$'\n  element 11 *' "$gone" --each absent "$SCENE"
check 'objects: trouble is worse than a refusal' objects 2 "$moved" "$gone"$'\n'"$crc" "$SCENE" absent packs/refused-crc.pack "$MOVES"
check 'objects: trouble before refusals' objects 2 "$(<"$SAMPLES/values/aod.txt")" "$gone"$'\n*STATIC*\n'"$crc" absent packs/incident.pack packs/refused-crc.pack
check 'objects: nothing can be read' objects 2 'no objects' "$gone" absent
check 'objects: a folder' objects 2 'no objects' 'ballastwren: packs: Is a directory' packs
check 'objects: a pack without end' objects 1 'no objects' 'ballastwren: /dev/zero: refused: BIG (1) at byte 0: *' /dev/zero
check 'objects: reading fails' gives 2 'no objects' '*: No space left on device' env FAIL=read "$FAILING" objects "$SAMPLES/$SCENE"
check 'objects: read byte by byte' gives 0 "$moved" '' env SHORTEN=read "$FAILING" objects "$SAMPLES/$SCENE" "$SAMPLES/$MOVES"
for file in "$SAMPLES"/packs/refused-*.pack; do
    name=${file##*-} name=${name%.pack}
    check "objects: a pack that is ${name^^}" gives 1 "$described" "*: refused: ${name^^} (+([0-9])) at byte +([0-9]): ?*" "$BW" objects "$SAMPLES/$SCENE" "$file"
done

# value KIND: the value that the words on standard input make, as hex digits.
value() { "$BW" pmd write "$1" | od -An -v -tx1 | tr -d ' \n'; }
# payload TAG HEX: a payload.
payload() { printf '%s82%04X%s' "$1" $((${#2} / 2)) "$2"; }
# packed FILE PAYLOADS...: a pack in which 40 is the tag of descriptions and 41 that of positions.
packed() {
    local all
    all=$(printf '%s' 0124000040 $DESCRIPTIONS 41 $POSITIONS "${@:2}")
    bytes "$KEY" 82 "$(printf '%04X' $((${#all} / 2)))" "$all" >"$T/$1"
}
# line ELEMENT [X [DYNAMIC]]: an object in words.
line() { echo "element $1 class vds dynamic ${3-yes} x ${2-1} y 2 z 3 size 31 size_3d yes diverge yes source 255 gain +6.0 dB"; }
# place ELEMENT X: its position in words.
place() { echo "element $1 x $2 y 2 z 3"; }
# aod LINES..., xyz LINES...: a payload of these objects or positions.
aod() { payload 40 "$(printf '%s\n' "$@" | value AOD)"; }
xyz() { payload 41 "$(printf '%s\n' 'sample_time 63' "$@" | value XYZ)"; }

# made WANT ERR PAYLOADS...: the table that a pack of these payloads makes; ERR is '' or what one line says after the file's name.
made() {
    packed made "${@:3}" && gives $((${#2} > 0)) "$1" "${2:+"ballastwren: $T/made: payload at byte $2"}" "$BW" objects "$T/made"
}
FIRST=57 # where the first payload stands
check 'objects: slots by first appearance' made "$(line 9; line 4095; line 1)" '' "$(aod "$(line 9)" "$(line 4095)" "$(line 9)" "$(line 1)")"
check 'objects: the later record of a description wins' made "$(line 5 7; line 6)" '' "$(aod "$(line 5)" "$(line 6)" "$(line 5 7)")"
check 'objects: the later record of an update wins' made "$(line 5 9)" '' "$(aod "$(line 5)")" "$(xyz "$(place 5 8)" "$(place 5 7)" "$(place 5 9)")"
check 'objects: a description replaces an object in its slot' made "$(line 5 6 no; line 7)" '' "$(aod "$(line 5)" "$(line 7)")" "$(aod "$(line 5 6 no)")"
check 'objects: and one that is static' made "$(line 5 9)" '' "$(aod "$(line 5 6 no)")" "$(aod "$(line 5 8)")" "$(xyz "$(place 5 9)")"
check 'objects: an update before its description' made "$(line 5)" "$FIRST: refused: UNKNOWN (22) at record 0: element 5: ?*" "$(xyz "$(place 5 9)")" "$(aod "$(line 5)")"
check 'objects: STATIC at record 0 before UNKNOWN at record 1' made "$(line 5 1 no)" '?*: refused: STATIC (23) at record 0: element 5: ?*' \
    "$(aod "$(line 5 1 no)")" "$(xyz "$(place 5 9)" "$(place 6 9)")"
check 'objects: UNKNOWN at record 1 before STATIC at record 2' made "$(line 5; line 7 1 no)" '?*: refused: UNKNOWN (22) at record 1: element 4095: ?*' \
    "$(aod "$(line 5)" "$(line 7 1 no)")" "$(xyz "$(place 5 9)" "$(place 4095 9)" "$(place 7 9)")"
check 'objects: the last record of a long update' made "$(line 5)" '?*: refused: UNKNOWN (22) at record 700: element 6: ?*' \
    "$(aod "$(line 5)")" "$(xyz "$(for i in {1..700}; do place 5 "$i"; done)" "$(place 6 1)")"
check 'objects: inside a Sync' made "$(line 5 9)" '' "$(payload 02 "00000000$(aod "$(line 5)")$(xyz "$(place 5 9)")")"

# Values whose fields are bad, and a good one after each.
good=$(aod "$(line 5)") record=$(line 5 | value AOD)
check 'objects: an empty value' made "$(line 5)" "$FIRST: refused: BITS (16) at bit 0: *" "$(payload 40 '')" "$good"
check 'objects: a value that is cut off' made "$(line 5)" "$FIRST: refused: BITS (16) at bit 62: *" "$(payload 40 "${record%??}")" "$good"
check 'objects: element 0' made "$(line 5)" "$FIRST: refused: FIELD (17) at bit 0: *" "$(payload 40 000100401002F8FFF0)" "$good"
check 'objects: an x of 0' made "$(line 5)" '?*: refused: FIELD (17) at bit 18: *' "$good" "$(payload 41 0400400803FF)"
check 'objects: bits left over' made "$(line 5)" '?*: refused: PAD (18) at bit 68: *' "$good" "$(payload 40 "${record%?}1")"
check 'objects: a value above the cap' made "$(line 5)" "$FIRST: refused: BIG (1) at byte 0: *" "$(payload 40 "$(printf '00%.0s' {1..4097})")" "$good"
check 'objects: values under other names' made 'no objects' '' "$(payload 42 "$record")"
bytes "$KEY" 1C "0113000040${DESCRIPTIONS/0206/0207}" 40 05 0000000000 >"$T/other"
check 'objects: a label that is not of objects' gives 0 'no objects' '' "$BW" objects "$T/other"

# many FIRST LAST [X]: objects with these elements in words.
many() { local i; for ((i = $1; i <= $2; i++)); do line "$i" "${3-1}"; done; }
# describing FIRST LAST [X]: their description as a payload.
describing() { payload 40 "$(many "$@" | value AOD)"; }
full='refused: FULL (24) at byte 0: the object table has 128 entries, *'
check 'objects: 128 of them' made "$(many 1 128)" '' "$(describing 1 128)"
check 'objects: 128 of them, twice' made "$(many 1 128 7)" '' "$(describing 1 128)" "$(describing 1 128 7)"
check 'objects: FULL, 129 in one value' made 'no objects' "$FIRST: $full" "$(describing 1 129)"
check 'objects: FULL, and what stands is not changed' made "$(many 1 128)" "?*: $full" "$(describing 1 128)" "$(describing 128 129 7)"
check 'objects: FULL, and the next is applied' made "$(many 1 127; line 200 9)" "?*: $full" \
    "$(describing 1 127)" "$(describing 128 129)" "$(aod "$(line 200)")" "$(xyz "$(place 200 9)")"
check 'objects: new elements that repeat count once' made "$(many 1 128)" '' "$(describing 1 126)" "$(aod "$(line 127)" "$(line 128)" "$(line 127)" "$(line 128)")"

# again: the table, written as a description and applied to an empty table, is the same table.
again() {
    "$BW" objects "$SAMPLES/$SCENE" "$SAMPLES/$MOVES" >"$T/table" && made "$(<"$T/table")" '' "$(payload 40 "$(value AOD <"$T/table")")"
}
check 'objects: what is printed is a description' again

# A file's name cannot steer a terminal, nor break JSON.
cp "$SAMPLES/packs/empty.pack" "$T/"$'\e"\\é\xff'
check 'objects --each: an odd name' gives 0 $'after *\\\\x1B\\\\"\\\\\\\\é\\\\xFF\n  no objects' '' "$BW" objects --each "$T/"$'\e"\\é\xff'
check 'objects --each --json: an odd name' gives 0 '{"pack":"*\\u001B\\"\\\\é\\uFFFD","objects":\[\]}' '' "$BW" objects --each --json "$T/"$'\e"\\é\xff'

check 'objects: no operands' gives 2 '' '*objects: an operand is missing*' "$BW" objects
check 'objects: options and no operands' gives 2 '' '*objects: an operand is missing*' "$BW" objects --each --json
check 'objects: an option of another subcommand' gives 2 '' '*--numbers: no such option*' "$BW" objects --numbers "$T/made"
check 'objects: standard input twice' gives 2 '' '*standard input can be read only once*' "$BW" objects - -
check 'list takes no --each' gives 2 '' '*--each: no such option*' "$BW" list --each "$T/made"
check 'check takes no --each' gives 2 '' '*--each: no such option*' "$BW" check --each "$T/made"

# modelled FILES...: the tables and refusals that follow, by the rules, from what `pmd find` tells of each pack.
modelled() {
    python3 -X utf8 -c '
import json, re, subprocess, sys

def run(*words):
    return subprocess.run([sys.argv[1], *words], capture_output=True, encoding="utf-8")

def applied(table, payload):
    """Applies a payload. The table is kept by first appearance, since nothing leaves it. Returns the refusal."""
    if "refused" in payload:
        return payload["refused"]["name"], payload["refused"]["place"]
    records = payload["records"]
    for place, record in enumerate(records if payload["name"] == "XYZ" else []):
        if record["element"] not in table:
            return "UNKNOWN", place
        if not table[record["element"]]["dynamic"]:
            return "STATIC", place
    if len(table.keys() | {record["element"] for record in records}) > 128:
        return "FULL", 0
    for record in records:
        table.setdefault(record["element"], {}).update(record)

table, tables, refusals = {}, [], []
for name in sys.argv[2:]:
    for payload in json.loads(run("pmd", "find", "--json", name).stdout or "[]"):
        refusal = applied(table, payload) if payload.get("name") in ("AOD", "XYZ") else None
        if refusal is not None:
            refusals.append((name, payload["start"], *refusal))
    tables.append({"pack": name, "objects": [dict(entry) for entry in table.values()]})
told = run("objects", "--each", "--json", *sys.argv[2:])
lines = re.findall(r"^ballastwren: (.*): payload at byte (\d+): refused: (\w+) \(\d+\) at \w+ (\d+): ", told.stderr, re.M)
assert told.returncode == (1 if told.stderr else 0), told.returncode
assert [json.loads(line) for line in told.stdout.splitlines()] == tables, told.stdout
assert [(name, int(at), why, int(place)) for name, at, why, place in lines] == refusals, told.stderr' "$BW" "$@"
}
if command -v python3 >/dev/null; then
    check 'objects: every sample, by the rules' modelled "$SAMPLES"/packs/*.pack
    check 'objects: samples in another order, by the rules' \
        modelled "$SAMPLES"/packs/{main,objects,moves,incident,moves-refused,each-kind,objects,moves-refused}.pack "$T/made"
else
    echo 'skipped: what Python works out, as there is no python3'
fi
