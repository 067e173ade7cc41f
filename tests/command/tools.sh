# shellcheck shell=bash
# shellcheck disable=SC2034  # used by the parts
# Sourced by run.sh: the programs under test, and how an outcome is compared.

T=$(mktemp -d) || exit 2
chmod 755 "$T"
trap 'rm -rf "$T"' EXIT

: "${LIST:=$(emulator x86_64) $PWD/crates/list/out/list}" # the toolchain's programs are for x86-64
SAMPLES=$PWD/samples
BW=$T/ballastwren         # the command, started as the machine needs it
FAILING=$T/failing        # the same over tests/command/fail.c
VERSION=$(sed -n 's/^.define BW_VERSION "\(.*\)"$/\1/p' include/ballastwren.h)

# compile OUT FLAGS...: compiles the command, warnings being errors.
compile() {
    local out=$1
    shift
    # shellcheck disable=SC2086  # LDLIBS is a list
    "$CC" -std=c99 -D_XOPEN_SOURCE=700 -O2 -Wall -Wextra -pedantic -Werror -Iinclude "$@" -o "$out" tools/*.c "$ARCHIVE" ${LDLIBS-}
}

# starter FILE PROGRAM: a program that starts another one as the machine needs it.
starter() {
    printf '#!/bin/sh\nexec %s %s "$@"\n' "$RUN" "$2" >"$1"
    chmod 755 "$1"
}

# need_list: what runs the program `list`, whose C library is the cross compiler's; and that program, which `rt ci` leaves where it is looked for.
need_list() {
    local run sources built=crates/list/out/list
    run=$(emulator x86_64)
    [[ -z $run ]] || { need "${run%% *}" qemu-user && need x86_64-linux-gnu-gcc gcc-x86-64-linux-gnu; } || return
    [[ $LIST == *"/$built" ]] || return 0
    mapfile -t sources < <(packaging/sources.sh list)
    if [[ ! -x $built || -n $(find "${sources[@]}" -maxdepth 0 -newer "$built") ]]; then
        rm -f "$built"
        (cd crates/list && rt run) </dev/null >/dev/null 2>&1
    fi
    [[ -x $built ]] || { echo "there is no program list at $built: rt run in crates/list"; return 1; }
}

build_all() {
    local wraps=(read write pread fsync fchmod close rename)
    compile "$T/command.bin" &&
        compile "$T/failing.bin" "${wraps[@]/#/-Wl,--wrap=}" tests/command/fail.c &&
        starter "$BW" "$T/command.bin" && starter "$FAILING" "$T/failing.bin" &&
        cc -std=c99 -O2 -Wall -Wextra -pedantic -Werror -o "$T/random_files" tests/command/random_files.c
}

# run_part NAME: the checks of one file.
run_part() {
    echo "-- $1"
    # shellcheck source=/dev/null
    . "tests/command/$1.sh"
}

# gives STATUS OUT ERR COMMAND...: the exit status, and what comes on standard output and standard error, each as a
# pattern. Standard error has one line where the status is not 0 or ERR wants one, and no byte that steers a terminal.
gives() {
    local want_status=$1 want_out=$2 want_err=$3 status out err good=1
    shift 3
    "$@" >"$T/out" 2>"$T/err"
    status=$?
    out=$(tr -d '\0' <"$T/out") err=$(tr -d '\0' <"$T/err")
    [[ $status -eq $want_status ]] || good=0
    # shellcheck disable=SC2053  # patterns
    [[ $out == $want_out && $err == $want_err ]] || good=0
    [[ $(wc -l <"$T/err") -eq $((want_status > 0 || ${#want_err} > 0)) ]] || good=0
    grep -q $'[\001-\010\013-\037\177]' "$T/err" && good=0
    [[ $good -eq 1 ]] && return
    printf 'wanted %s\n  out: %s\n  err: %s\ngot %s\n  out: %s\n  err: %s\n' "$want_status" "$want_out" "$want_err" \
        "$status" "$out" "$err"
    return 1
}

# writes FILE STATUS ERR COMMAND...: as `gives`, with FILE as what standard output must be byte for byte.
writes() {
    gives "$2" '*' "$3" "${@:4}" && cmp "$T/out" "$1"
}

# bytes HEX...: bytes.
bytes() {
    local hex
    hex=$(printf '%s' "$@" | tr -d ' ')
    # shellcheck disable=SC2059  # the format is the bytes
    printf "$(printf '%s' "$hex" | sed 's/../\\x&/g')"
}

# from FILE COMMAND...: with the file as standard input.
from() {
    local file=$1
    shift
    "$@" <"$file"
}

KEY=060E2B34027F01010C04010000000000
