# shellcheck shell=bash
# 100,000 files of random bytes through check: each gets its line, and nothing crashes.

R=$T/random
FILES=${FILES:-100000} BATCH=5000
mkdir "$R"
: >"$T/lines"

# batch FIRST: files FIRST to FIRST + BATCH - 1.
batch() {
    local status
    "$T/random_files" "$R" "$1" $BATCH "$SAMPLES"/packs/*.pack || return
    "$BW" check "$R"/* >"$T/out" 2>"$T/err"
    status=$?
    cat "$T/out" "$T/err" >>"$T/lines"
    [[ $status -le 1 ]] || { echo "exit status $status"; return 1; }
    [[ $(cat "$T/out" "$T/err" | wc -l) -eq $BATCH ]] || { echo 'not a line for each file'; return 1; }
}
for ((first = 0; first < FILES; first += BATCH)); do
    check "check: random files $first to $((first + BATCH - 1))" batch $first
done

# reached: the files were accepted, and refused for every reason that a pack can be.
reached() {
    grep -q ': accepted, ' "$T/lines" || return
    for name in BIG SHORT KEY LENGTH TRAIL TAG CUT PLACE COUNT CONFIG MAP SYNC CRC; do
        grep -q ": refused: $name (" "$T/lines" || { echo "none is $name"; return 1; }
    done
}
check 'check: random files meet every refusal of a pack' reached

# same_list: list prints what the program list prints, for files of the last batch.
same_list() {
    local i
    for ((i = 0; i < 200; i++)); do as_list "$R/$i" || { echo "file $i of the last batch"; return 1; }; done
}
check 'list: 200 random files as the program list prints them' same_list
if command -v python3 >/dev/null; then
    check 'list --json: 200 random files say what the text does' as_json "$R"/{0..199}
    check 'objects: 1,000 random files, by the rules' modelled "$R"/{0..999}
fi
