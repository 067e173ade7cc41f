# shellcheck shell=bash
# Outputs are written whole or not at all, never over an input; a write that fails or is interrupted leaves nothing.

PACK=$SAMPLES/packs/incident.pack RACK=$SAMPLES/sheets/rack.sheet LABEL=060E2B340401010D0404020400000000
MOVING=("$SAMPLES"/packs/{objects,moves}.pack)
W=$T/writes

# fresh: an empty folder, a copy of the inputs beside it.
fresh() {
    rm -rf "$W" "$T/in" && mkdir -p "$W" "$T/in" && cp "$PACK" "$T/in/pack" && cp "$RACK" "$T/in/sheet"
}

# left NAME...: these files and no others are in the folder.
left() {
    local want
    want=$(printf '%s\n' "$@" | sed '/^$/d')
    [[ $(ls -A "$W") == "$want" ]] || { echo "left behind: $(ls -A "$W")"; return 1; }
}

# scrub COMMAND WORDS...: a scrub into the folder.
scrub() { "$1" scrub --sheet "$T/in/sheet" "${@:2}" "$T/in/pack" "$W/out"; }

# Each step of writing fails in turn: nothing is left, or what was there before stands unaltered.
# broken VARIABLE=CALL WORDS...
broken() {
    fresh && gives 2 '*' '*: ?*' env "$1" "$FAILING" scrub --sheet "$T/in/sheet" "${@:2}" "$T/in/pack" "$W/out" && left '' || return
    echo before >"$W/out"
    gives 2 '*' '*: ?*' env "$1" "$FAILING" scrub --sheet "$T/in/sheet" "${@:2}" "$T/in/pack" "$W/out" && left out &&
        [[ $(<"$W/out") == before ]]
}
for call in read write 'second write' fchmod fsync rename; do
    check "write: $call fails" broken "FAIL=$call"
done
check 'write: closing it fails' broken FAIL=close
for call in 'write' fsync pread rename; do
    check "write with a report: $call fails" broken "FAIL=$call" --report
done
check 'write with a report: the file gives back something else' broken CHANGE=pread --report

# unfound VARIABLE=CALL: the same of a value that was looked up; no line says where it is from.
unfound() {
    local lookup=(env "$1" "$FAILING" lookup "$LABEL" "$T/in/pack" "$PACK" "$W/out")
    fresh && gives 2 '' '*: ?*' "${lookup[@]}" && left '' || return
    echo before >"$W/out"
    gives 2 '' '*: ?*' "${lookup[@]}" && left out && [[ $(<"$W/out") == before ]]
}
for call in read write 'second write' fchmod fsync close rename; do
    check "write a value: $call fails" unfound "FAIL=$call"
done

# piecemeal CALL: one byte at a time is as good.
piecemeal() {
    fresh && gives 0 '' '' env "SHORTEN=$1" "$FAILING" scrub --sheet "$T/in/sheet" "$T/in/pack" "$W/out" && cmp "$W/out" "$T/clean"
}
check 'write: bytes go out one by one' piecemeal write
check 'read: bytes come in one by one' piecemeal read

# interrupted CALL: a signal ends the command, and the temporary file is gone.
interrupted() {
    fresh
    INTERRUPT=$1 scrub "$FAILING" 2>/dev/null
    [[ $? -gt 128 ]] && left ''
}
for call in write fsync fchmod rename; do
    check "write: interrupted at $call" interrupted "$call"
done
# ignored: a signal that the caller ignores stays ignored.
ignored() {
    fresh
    (trap '' TERM && INTERRUPT=fsync scrub "$FAILING") && left out && cmp "$W/out" "$T/clean"
}
check 'write: a signal that is ignored' ignored

# over WORDS...: OUT is an input under one name or another, and stays as it is.
over() {
    gives 2 '*' '*is an input of this command and is not written over' "$@" && cmp "$PACK" "$T/in/pack" && cmp "$RACK" "$T/in/sheet"
}
fresh
ln -s "$T/in/pack" "$W/link" && ln "$T/in/pack" "$W/hard" && ln -s in "$T/folder"
check 'write: over the pack' over "$BW" scrub --sheet "$T/in/sheet" "$T/in/pack" "$T/in/pack"
check 'write: over the sheet' over "$BW" scrub --sheet "$T/in/sheet" "$T/in/pack" "$T/in/sheet"
check 'write: over the pack by a link' over "$BW" scrub --sheet "$T/in/sheet" "$T/in/pack" "$W/link"
check 'write: over the pack by a second name' over "$BW" scrub --sheet "$T/in/sheet" "$T/in/pack" "$W/hard"
check 'write: over the pack by another path' over "$BW" scrub --sheet "$T/in/sheet" "$T/in/pack" "$T/folder/../in/./pack"
check 'write: over the pack on standard input' over from "$T/in/pack" "$BW" scrub --sheet "$T/in/sheet" - "$T/in/pack"
# shellcheck disable=SC2094  # that it reads and writes one file is the point
appended() { "$BW" scrub --sheet "$T/in/sheet" "$T/in/pack" - >>"$T/in/pack"; }
check 'write: over the pack by standard output' over appended
check 'write: lookup over its main pack' over "$BW" lookup $LABEL "$T/in/pack" "$SAMPLES/packs/main.pack" "$T/in/pack"
check 'write: lookup over its backup pack' over "$BW" lookup $LABEL "$SAMPLES/packs/main.pack" "$T/in/pack" "$T/in/pack"
check 'write: lookup over its backup pack by a link' over "$BW" lookup $LABEL "$SAMPLES/packs/main.pack" "$T/in/pack" "$W/link"
check 'write: lookup over its main pack on standard input' over from "$T/in/pack" "$BW" lookup $LABEL - "$SAMPLES/packs/main.pack" "$T/in/pack"
# shellcheck disable=SC2094
value_appended() { "$BW" lookup $LABEL "$SAMPLES/packs/main.pack" "$T/in/pack" >>"$T/in/pack"; }
check 'write: lookup over its backup pack by standard output' over value_appended
cp "$SAMPLES/sheets/rack.txt" "$T/in/text"
check 'write: sheet make over its text' gives 2 '' '*is an input*' "$BW" sheet make "$T/in/text" "$T/in/text"
check 'write: pmd write over its fields' gives 2 '' '*is an input*' sh -c "cp '$SAMPLES/values/apn.txt' '$T/in/text' && '$BW' pmd write APN '$T/in/text' '$T/in/text'"

# Where OUT stands already, it is replaced, with its mode; a link is followed; what is not a file is not.
replaced() {
    fresh && echo before >"$W/out" && chmod 640 "$W/out" && scrub "$BW" && cmp "$W/out" "$T/clean" && [[ $(stat -c %a "$W/out") == 640 ]] && left out
}
check 'write: OUT is replaced' replaced
created() { fresh && (umask 027 && scrub "$BW") && [[ $(stat -c %a "$W/out") == 640 ]]; }
check 'write: a new OUT has the mode that the mask leaves' created
linked() {
    fresh && echo before >"$W/real" && ln -s real "$W/out" && scrub "$BW" && [[ -L $W/out ]] && cmp "$W/real" "$T/clean" && left out real
}
check 'write: a link is followed' linked
fresh
check 'write: OUT is a folder' gives 2 '' '*is not a file that can be written' "$BW" scrub --sheet "$RACK" "$PACK" "$W"
check 'write: no such folder' gives 2 '' '*: No such file or directory' "$BW" scrub --sheet "$RACK" "$PACK" "$W/absent/out"
check 'write: to /dev/null' gives 0 '' '' "$BW" scrub --sheet "$RACK" "$PACK" /dev/null
check 'write: which stays a device' test -c /dev/null
check 'write: to a pipe that has a name' writes "$T/clean" 0 '' sh -c "mkfifo '$W/pipe' && { cat '$W/pipe' & '$BW' scrub --sheet '$RACK' '$PACK' '$W/pipe' && wait; }"
check 'write a value: to /dev/null' gives 0 '' '*: the value is from the main pack, *' "$BW" lookup $LABEL "$PACK" "$PACK" /dev/null
check 'write a value: to a full device' gives 2 '' '*full: No space left on device' "$BW" lookup $LABEL "$PACK" "$PACK" /dev/full
check 'write: to a full device' gives 2 '' '*full: No space left on device' "$BW" scrub --sheet "$RACK" "$PACK" /dev/full
check 'write: standard output is full' gives 2 '' '*standard output: No space left on device' sh -c "'$BW' scrub --sheet '$RACK' '$PACK' - >/dev/full"

# A report that cannot be printed leaves no pack.
unreported() {
    fresh && gives 2 '' '*standard output: *' sh -c "'$BW' scrub --report --sheet '$RACK' '$PACK' '$W/out' >$1" && left ''
}
check 'write: a report to a full device' unreported /dev/full
check 'write: a report to a closed output' unreported '&-'

for words in 'check PACK' 'list PACK' 'list --json PACK' "lookup $LABEL PACK PACK" 'objects MOVING' 'objects --each --json MOVING' 'sheet show SHEET' 'pmd find PACK' --help --version; do
    words=${words//PACK/$PACK} words=${words/SHEET/$RACK} words=${words/MOVING/${MOVING[*]}}
    check "standard output is full: ${words%% /*}" gives 2 '' '*standard output: No space left on device' sh -c "'$BW' $words >/dev/full"
    check "standard output is closed: ${words%% /*}" gives 2 '' '*standard output: Bad file descriptor' sh -c "'$BW' $words >&-"
done

# closed_pipe WORDS...: nobody reads any more.
closed_pipe() {
    local pipe
    exec {pipe}> >(:)
    wait $!
    "$BW" "$@" 1>&"$pipe" 2>"$T/err"
    [[ $? -eq 2 ]] && grep -q 'standard output: Broken pipe' "$T/err"
}
check 'a closed pipe: list' closed_pipe list "$PACK"
check 'a closed pipe: list --json' closed_pipe list --json "$PACK"
check 'a closed pipe: objects' closed_pipe objects "${MOVING[@]}"
check 'a closed pipe: objects --each --json' closed_pipe objects --each --json "${MOVING[@]}"
check 'a closed pipe: scrub' closed_pipe scrub --sheet "$RACK" "$PACK" -
check 'a closed pipe: lookup' closed_pipe lookup $LABEL "$PACK" "$PACK"
check 'a closed pipe: pmd write' closed_pipe pmd write APN "$SAMPLES/values/apn.txt"
closed_report() { fresh && closed_pipe scrub --report --sheet "$RACK" "$PACK" "$W/out" && left ''; }
check 'a closed pipe: a report, and no pack is left' closed_report

# Standard error that is closed is not taken for the output.
silent() { fresh && scrub "$BW" 2>&- && cmp "$W/out" "$T/clean" && left out; }
check 'standard error is closed' silent
all_closed() { fresh && scrub "$BW" <&- >&- 2>&- && cmp "$W/out" "$T/clean" && left out; }
check 'all three are closed' all_closed

# A file that may not grow, a full disk and a folder that may not be written.
limited() {
    local said status
    fresh
    said=$( (ulimit -f 0 && scrub "$BW") 2>&1)
    status=$?
    [[ $status -eq 2 && $said == *': File too large' ]] && left ''
}
check 'write: a file that may not grow' limited
full_disk() {
    fresh
    # shellcheck disable=SC2016
    unshare -m bash -c 'mount -t tmpfs -o size=16k tmpfs "$1" && { cat /dev/zero >"$1/filler" 2>/dev/null; "${@:2}"; } ; status=$?; ls -A "$1"; exit $status' \
        - "$W" "$BW" scrub --sheet "$RACK" "$PACK" "$W/out"
}
if [[ $(id -u) -eq 0 ]] && unshare -m true 2>/dev/null; then
    check 'write: a disk that is full' gives 2 filler '*: No space left on device' full_disk
fi
# locked WORDS...: the command of these words and an OUT there.
locked() {
    local as=()
    fresh && chmod 555 "$W" && chmod 755 "$T/in"
    [[ $(id -u) -ne 0 ]] || as=(setpriv --reuid=65534 --regid=65534 --clear-groups)
    gives 2 '' '*: Permission denied' "${as[@]}" "$BW" "$@" "$W/out" && left ''
}
check 'write: a folder that may not be written' locked scrub --sheet "$T/in/sheet" "$T/in/pack"
check 'write a value: a folder that may not be written' locked lookup $LABEL "$T/in/pack" "$T/in/pack"
locked_file() {
    local as=()
    fresh && chmod 777 "$W" && echo before >"$W/out" && chmod 444 "$W/out"
    [[ $(id -u) -ne 0 ]] || as=(setpriv --reuid=65534 --regid=65534 --clear-groups)
    gives 2 '' '*: Permission denied' "${as[@]}" "$BW" scrub --sheet "$T/in/sheet" "$T/in/pack" "$W/out" && left out && [[ $(<"$W/out") == before ]]
}
check 'write: a file that may not be written' locked_file
