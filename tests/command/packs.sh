# shellcheck shell=bash
# check and list.

declare -A places=([short]=0 [key]=0 [length]=16 [trail]=0 [tag]=17 [cut]=17 [place]=23 [count]=182 [config]=17 [map]=17
    [sync]=17 [crc]=20)
declare -A numbers=([big]=1 [short]=2 [key]=3 [length]=4 [trail]=5 [tag]=6 [cut]=7 [place]=8 [count]=9 [config]=10 [map]=11
    [sync]=12 [crc]=13)

# A sample of each refusal, told by check and by list, and by list as JSON.
for name in "${!places[@]}"; do
    file=$SAMPLES/packs/refused-$name.pack told="${name^^} (${numbers[$name]}) at byte ${places[$name]}: ?*"
    check "check: ${name^^}" gives 1 '' "ballastwren: $file: refused: $told" "$BW" check "$file"
    check "list: ${name^^}" gives 1 "refused ${numbers[$name]} ${places[$name]}" "ballastwren: $file: refused: $told" "$BW" list "$file"
    check "list --json: ${name^^}" gives 1 "{\"refused\":{\"name\":\"${name^^}\",\"number\":${numbers[$name]},\"place\":${places[$name]}}}" \
        "ballastwren: $file: refused: $told" "$BW" list --json "$file"
done
for file in "$SAMPLES"/packs/[!r]*.pack; do
    check "check: ${file##*/} is accepted" gives 0 "$file: accepted, items and inner payloads: +([0-9])" '' "$BW" check "$file"
done

head -c 32768 /dev/zero >"$T/cap" && head -c 32769 /dev/zero >"$T/big" && : >"$T/empty"
check 'check: BIG, one byte above the cap' gives 1 '' '*BIG (1) at byte 0: *' "$BW" check "$T/big"
check 'check: at the cap it is the key that is wrong' gives 1 '' '*KEY (3) at byte 0: *' "$BW" check "$T/cap"
check 'check: a file without end is cut off past the cap' gives 1 '' '*BIG (1)*' "$BW" check /dev/zero
check 'check: an empty file' gives 1 '' '*SHORT (2) at byte 0: *' "$BW" check "$T/empty"
check 'check: standard input' gives 0 'standard input: accepted*: 2' '' from "$SAMPLES/packs/sync.pack" "$BW" check -
check 'check: no such file' gives 2 '' '*absent: No such file or directory' "$BW" check "$T/absent"
check 'check: a folder' gives 2 '' '*: Is a directory' "$BW" check "$T"
check 'check: standard input that is closed' gives 2 '' '*standard input: Bad file descriptor' sh -c "exec '$BW' check - <&-"

# several STATUS OUT ERR FILES...: check of several packs, with the count of lines on each side.
several() {
    "$BW" check "${@:4}" >"$T/out" 2>"$T/err"
    [[ $? -eq $1 && $(wc -l <"$T/out") -eq $2 && $(wc -l <"$T/err") -eq $3 ]]
}
check 'check: all good' several 0 2 0 "$SAMPLES"/packs/{empty,full}.pack
check 'check: one refused, all judged' several 1 2 1 "$SAMPLES"/packs/{empty,refused-crc,full}.pack
check 'check: one cannot be read, all judged' several 2 1 2 "$T/absent" "$SAMPLES"/packs/{refused-crc,full}.pack

bytes "$KEY" 08 0206FFFF0000 0500 >"$T/p"
check 'list: the bench example' gives 0 $'pack 0 2 none\nsync 17 -1 0 1\nnumber 23 5 0 -1' '' "$BW" list "$T/p"
example='{"pack_offset":0,"crc":false,"items":\[
 {"start":17,"sample_offset":-1,"duration":0,"payloads":\[
  {"start":23,"number":5,"value_start":25,"value_length":0,"total_offset":-1}\]}\]}'
check 'list --json: the bench example' gives 0 "$example" '' "$BW" list --json "$T/p"
check 'list --json: after the pack' gives 0 "$example" '' "$BW" list "$T/p" --json
check 'list --json: standard input' gives 0 "$example" '' from "$T/p" "$BW" list --json -
check 'list: a longer length form' gives 0 $'pack 0 1 none\nnumber 17 5 1 0' '' "$BW" list "$SAMPLES/packs/long-length.pack"
check 'list: no items' gives 0 'pack 0 0 none' '' "$BW" list "$SAMPLES/packs/empty.pack"
check 'list --json: no items' gives 0 '{"pack_offset":0,"crc":false,"items":\[\]}' '' "$BW" list --json "$SAMPLES/packs/empty.pack"
check 'list --json: no such file' gives 2 '' '*absent: No such file or directory' "$BW" list --json "$T/absent"
check 'list: labels, a Sync, the CRC' gives 0 $'pack -48 10 good\nlabel 131 060E2B340401010D0404020400000000 2 -48\n*sync 314 960 1920 1\nlabel 320 * 58 912' '' \
    "$BW" list "$SAMPLES/packs/incident.pack"

# Total offsets: the sum of both offsets at the ends of their range, and outside a Sync the pack offset alone.
POSITIONS=060E2B340401010D0404020D00000000
check 'list: the lowest offsets' gives 0 "pack -32768 8 none
number 38 70 1 -32768
sync 41 -32768 1920 1
label 47 $POSITIONS 12 -65536
label 61 $POSITIONS 12 -32768
sync 75 32767 1920 2
number 81 70 1 -1
label 84 $POSITIONS 12 -1
number 98 70 1 -32768" '' "$BW" list "$SAMPLES/packs/lowest-offsets.pack"
check 'list: the highest offsets' gives 0 "pack 32767 8 none
number 38 70 1 32767
sync 41 32767 1920 1
label 47 $POSITIONS 12 65534
label 61 $POSITIONS 12 32767
sync 75 -32768 1920 2
number 81 70 1 -1
label 84 $POSITIONS 12 -1
number 98 70 1 32767" '' "$BW" list "$SAMPLES/packs/highest-offsets.pack"
bytes "$KEY" 1A 0206000700000500 0500 020600000000 0500 0206FFF800000500 >"$T/p"
check 'list: no Config, three Syncs' gives 0 'pack 0 7 none
sync 17 7 0 1
number 23 5 0 7
number 25 5 0 0
sync 27 0 0 1
number 33 5 0 0
sync 35 -8 0 1
number 41 5 0 -8' '' "$BW" list "$T/p"
check 'list --json: no Config, three Syncs' gives 0 '{"pack_offset":0,"crc":false,"items":\[
 {"start":17,"sample_offset":7,"duration":0,"payloads":\[
  {"start":23,"number":5,"value_start":25,"value_length":0,"total_offset":7}\]},
 {"start":25,"number":5,"value_start":27,"value_length":0,"total_offset":0},
 {"start":27,"sample_offset":0,"duration":0,"payloads":\[
  {"start":33,"number":5,"value_start":35,"value_length":0,"total_offset":0}\]},
 {"start":35,"sample_offset":-8,"duration":0,"payloads":\[
  {"start":41,"number":5,"value_start":43,"value_length":0,"total_offset":-8}\]}\]}' '' "$BW" list --json "$T/p"
for name in incident lowest-offsets highest-offsets; do
    check "list --json: $name" writes "tests/command/json/list-$name.json" 0 '' "$BW" list --json "$SAMPLES/packs/$name.pack"
done

# as_list FILE: the program `list` prints the same bytes.
as_list() {
    $LIST <"$1" >"$T/want" && [[ -s $T/want ]] && { "$BW" list "$1" >"$T/out" 2>"$T/err" || [[ $? -eq 1 ]]; } && cmp "$T/want" "$T/out"
}
for file in "$SAMPLES"/packs/*.pack "$T/big" "$T/cap" "$T/empty"; do
    check "list: ${file##*/} byte for byte as the program list prints it" as_list "$file"
done

# in_words: the listings that objects on standard input say, a newline after each object. A total offset that is not the sum of the two fails.
in_words() {
    python3 -c '
import json, sys

def payload(item, total):
    assert item["total_offset"] == total, item
    name = "label {start} {label}" if "label" in item else "number {start} {number}"
    return (name + " {value_length} {total_offset}").format(**item)

def item_lines(item, offset):
    if "payloads" not in item:
        return [payload(item, offset)]
    inside = [payload(inner, offset + item["sample_offset"]) for inner in item["payloads"]]
    return ["sync {start} {sample_offset} {duration} {}".format(len(inside), **item)] + inside

def pack_lines(pack):
    if "refused" in pack:
        return ["refused {number} {place}".format(**pack["refused"])]
    lines = [line for item in pack["items"] for line in item_lines(item, pack["pack_offset"])]
    crc = {True: "good", False: "none"}[pack["crc"]]
    return ["pack {} {} {}".format(pack["pack_offset"], len(lines), crc)] + lines

text, decoder = sys.stdin.read(), json.JSONDecoder()
while text:
    pack, end = decoder.raw_decode(text)
    assert text[end] == "\n"
    print("\n".join(pack_lines(pack)))
    text = text[end + 1:]'
}
# as_json FILES...: the JSON of packs says what their text does, with the same status.
as_json() {
    local file status
    : >"$T/want" && : >"$T/json"
    for file; do
        "$BW" list "$file" >>"$T/want" 2>"$T/err"
        status=$?
        "$BW" list --json "$file" >>"$T/json" 2>"$T/err"
        [[ $? -eq $status && $status -le 1 ]] || { echo "$file: status $status"; return 1; }
    done
    in_words <"$T/json" >"$T/out" && cmp "$T/want" "$T/out"
}
# as_found FILE: list tells a payload in members of pmd find, with the same in each, and inside the Sync that pmd find says.
as_found() {
    "$BW" list --json "$1" >"$T/json" && { "$BW" pmd find --json "$1" >"$T/found" 2>"$T/err" || [[ $? -eq 1 ]]; } &&
        python3 -X utf8 -c '
import json, sys

pack, found = (json.load(open(name)) for name in sys.argv[1:])
told = {}
for item in pack["items"]:
    for payload in item.get("payloads", [item]):
        told[payload["start"]] = dict(payload, sync=item["start"] if "payloads" in item else None)
for payload in found:
    assert told[payload["start"]].items() <= payload.items(), payload' "$T/json" "$T/found"
}
if command -v python3 >/dev/null; then
    for file in "$SAMPLES"/packs/*.pack "$T/big" "$T/cap" "$T/empty"; do
        check "list --json: ${file##*/} says what the text does" as_json "$file"
    done
    for file in "$SAMPLES"/packs/[!r]*.pack; do
        check "list --json: ${file##*/} as pmd find tells it" as_found "$file"
    done
else
    echo 'skipped: what Python reads, as there is no python3'
fi
