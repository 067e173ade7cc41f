#!/usr/bin/env bash
# Installs into a folder, whose name has a space, and builds from there by pkg-config, over the shared library and over the
# archive: examples/controller.c, held to what it prints for a keep sheet and five packs, most of them with something to drop;
# examples/objects.c, held to what it prints for eight packs and for objects that it takes from its table; and README's lines
# of C, as they stand there.
set -uo pipefail
cd "$(dirname "${BASH_SOURCE[0]}")/.." || exit 2
. tests/tools.sh

if ! need_toolchain || ! need pkg-config pkg-config; then
    echo "0 passed, 1 failed"
    exit 1
fi
folder=$(mktemp -d) || exit 2
trap 'rm -rf "$folder"' EXIT

# put FILE HEX...: makes a file of these bytes.
put() {
    local file=$1 hex
    shift
    hex=$(printf '%s' "$@" | tr -d ' ')
    printf '%b' "$(sed 's/../\\x&/g' <<<"$hex")" >"$folder/$file"
}

key='06 0E 2B 34 02 7F 01 01 0C 04 01 00 00 00 00 00'
positions='06 0E 2B 34 04 01 01 0D 04 04 02 0D 00 00 00 00'
objects='06 0E 2B 34 04 01 01 0D 04 04 02 06 00 00 00 00'

# Keeps the label of positions and number 300.
put sheet '0001 0008 0001 0018' "$positions" '0000012C'
# Pack offset -2; tags 50 and 51 are mapped to positions and objects. A value of positions, an object, a Sync of
# another value of positions and a payload of number 7.
put moving "$key" 4E '01 24 FFFE 50' "$positions" 51 "$objects" '50 06 04 00 40 18 03 FF' '51 06 6F 62 6A 65 63 74' \
    '02 16 0010 0020 50 0C 14 00 C6 43 21 2C 00 4F FC 01 80 00 07 02 AA BB'
# Number 300, kept, under a length form that is longer than it need be.
put still "$key" 07 '82 2C 83 00 00 01 AA'
put nothing "$key" 00
# An x of 0, and a payload that is cut off.
put reserved "$key" 1D '01 13 0000 40' "$positions" '40 06 00 00 40 08 03 FF'
put cut "$key" 02 '05 01'

cat >"$folder/expected" <<'LINES'
moving: 95 bytes scrubbed to 72, pack offset -2
moving: object 1 at 1 512 1023, sample time 1, total offset -2
moving: object 3 at 100 200 300, sample time 5, total offset 14
moving: object 4 at 1023 1 512, sample time 5, total offset 14
still: 24 bytes scrubbed to 27, pack offset 0
nothing: 17 bytes scrubbed to 23, pack offset 0
reserved: 46 bytes scrubbed to 52, pack offset 0
reserved: refused FIELD at 18
cut: refused CUT at 17
LINES

# The same for a table of objects, in a folder of its own.
mkdir "$folder/table" && cp "$folder"/{still,nothing,reserved,cut} "$folder/table" || exit 2
# Keeps the labels of positions and objects and number 300.
put table/sheet '0002 0008 0001 0028' "$positions" "$objects" '0000012C'
# Pack offset -2; tags 50 and 51 are mapped to positions and objects. Objects 1, 3 and 4, a position of the first, a Sync of
# positions of the others and a payload of number 7.
put table/moving "$key" 62 '01 24 FFFE 50' "$positions" 51 "$objects" \
    '51 1A 00 10 81 40 A0 3C 00 07 30 03 28 0A 02 80 A3 80 80 00 46 80 20 08 03 F4 0F F0' '50 06 04 00 40 18 03 FF' \
    '02 16 0010 0020 50 0C 14 00 C6 43 21 2C 00 4F FC 01 80 00 07 02 AA BB'
# In a Sync an object 9 that is not dynamic, and a position for it; positions of object 1 and of one that is not there.
put table/fixed "$key" 3F '01 24 0000 50' "$positions" 51 "$objects" \
    '02 0F 0000 0000 51 09 00 91 00 E0 40 12 00 13 20' '50 06 00 02 40 10 04 01'
put table/strange "$key" 23 '01 13 0000 50' "$positions" '50 0C 00 00 40 90 24 09 04 D0 04 01 00 40'
# Object 5.
put table/late "$key" 20 '01 13 0000 51' "$objects" '51 09 00 53 85 01 90 78 10 14 10'

cat >"$folder/table/expected" <<'LINES'
moving: 115 bytes scrubbed to 117, pack offset -2
moving: object 1 moves to 1 512 1023, sample time 1, total offset -2
moving: object 3 moves to 100 200 300, sample time 5, total offset 14
moving: object 4 moves to 1023 1 512, sample time 5, total offset 14
moving: entry 0 has object 1 at 1 512 1023, dynamic, gain 0.0 dB
moving: entry 1 has object 3 at 100 200 300, dynamic, muted
moving: entry 2 has object 4 at 1023 1 512, dynamic, gain 6.0 dB
fixed: 80 bytes scrubbed to 86, pack offset 0
fixed: refused STATIC at 0
fixed: entry 0 has object 1 at 1 512 1023, dynamic, gain 0.0 dB
fixed: entry 1 has object 3 at 100 200 300, dynamic, muted
fixed: entry 2 has object 4 at 1023 1 512, dynamic, gain 6.0 dB
fixed: entry 3 has object 9 at 7 8 9, static, gain -0.5 dB
strange: 52 bytes scrubbed to 58, pack offset 0
strange: refused UNKNOWN at 1
strange: entry 0 has object 1 at 1 512 1023, dynamic, gain 0.0 dB
strange: entry 1 has object 3 at 100 200 300, dynamic, muted
strange: entry 2 has object 4 at 1023 1 512, dynamic, gain 6.0 dB
strange: entry 3 has object 9 at 7 8 9, static, gain -0.5 dB
-3: refused UNKNOWN at 0
-x: refused UNKNOWN at 0
late: 49 bytes scrubbed to 55, pack offset 0
late: entry 0 has object 1 at 1 512 1023, dynamic, gain 0.0 dB
late: entry 1 has object 5 at 40 50 60, dynamic, gain -25.0 dB
late: entry 2 has object 4 at 1023 1 512, dynamic, gain 6.0 dB
still: 24 bytes scrubbed to 27, pack offset 0
nothing: 17 bytes scrubbed to 23, pack offset 0
reserved: 46 bytes scrubbed to 52, pack offset 0
reserved: refused FIELD at 18
reserved: entry 0 has object 1 at 1 512 1023, dynamic, gain 0.0 dB
reserved: entry 1 has object 5 at 40 50 60, dynamic, gain -25.0 dB
reserved: entry 2 has object 4 at 1023 1 512, dynamic, gain 6.0 dB
cut: refused CUT at 17
LINES

prefix="$folder/a prefix"

# flags MODULE: what pkg-config says of what was installed, one word to a line.
flags() {
    PKG_CONFIG_PATH=$prefix/lib/pkgconfig pkg-config --cflags --libs "$1" | xargs -n 1 printf '%s\n'
}

# build MODULE SOURCE WORDS...: compiles a program over the library as MODULE of pkg-config has it.
build() {
    local words
    mapfile -t words < <(flags "$1")
    [[ ${#words[@]} -gt 1 ]] && "$CC" -Wall -Wextra -pedantic -Werror "${@:3}" -o "$folder/$1" "$2" "${words[@]}"
}

# run MODULE WORDS...: runs it with the loader told where the shared library is.
run() {
    # shellcheck disable=SC2086  # RUN is empty or a command with its options
    LD_LIBRARY_PATH=$prefix/lib $RUN "$folder/$1" "${@:2}"
}

# Status 1 is right: two of the packs are refused.
controls() {
    build "$1" examples/controller.c -std=c99 -O2 || return
    (cd "$folder" && run "$1" sheet moving still nothing reserved cut >printed; [[ $? -eq 1 ]]) && diff "$folder/expected" "$folder/printed"
}

# Objects 3 and 9 are taken from the table, and the first of their entries is used again. Status 1 is right: a pack, some
# values and some objects are refused.
keeps_table() {
    build "$1" examples/objects.c -std=c99 -O2 || return
    (cd "$folder/table" && run "$1" sheet moving fixed strange -3 -9 -3 -x late still nothing reserved cut >printed; [[ $? -eq 1 ]]) &&
        diff "$folder/table/expected" "$folder/table/printed"
}

# What is accepted whole leaves status 0.
accepted() {
    (cd "$folder/table" && run "$1" sheet moving -3 late -5 nothing >printed) && [[ $(wc -l <"$folder/table/printed") -eq 12 ]]
}

# A sheet that is refused is told by its own name, once and before any pack; one of 0 bytes is told to keep nothing.
sheets_told() {
    : >"$folder/empty"
    put malformed 0001
    (cd "$folder" && run "$1" malformed moving still >printed 2>said; [[ $? -eq 2 ]]) || return
    [[ $(<"$folder/printed") == 'malformed: refused SHEET at 0' && ! -s $folder/said ]] || return
    (cd "$folder" && run "$1" empty nothing >printed 2>said) || return
    [[ $(<"$folder/printed") == 'nothing: 17 bytes scrubbed to 23, pack offset 0' && $(<"$folder/said") == *'keeps nothing' ]]
}

# README's lines: they compile as they stand, keep every payload of a pack, and refuse what is no pack.
sed -n '/^## From C/,/^## /p' README.md | sed -n 's/^    //p' | sed '/^cc /,$d' >"$folder/lines.c"
as_in_readme() {
    build "$1" "$folder/lines.c" || return
    run "$1" <"$folder/still" >"$folder/kept" && [[ $(wc -c <"$folder/kept") -eq 27 ]] || return
    run "$1" <"$folder/cut" >"$folder/kept" 2>"$folder/said" && return 1
    [[ ! -s $folder/kept && $(<"$folder/said") == 'refused CUT at 17' ]]
}

# links_shared MODULE: the program that was built needs the shared library by its name, or does not.
links_shared() { readelf -d "$folder/$1" | grep -q 'NEEDED.*\[libballastwren\.so\.[0-9]*\.[0-9]*\]'; }
links_archive() { ! links_shared "$1"; }

# The shared library has the version's name, and exports what the header declares and nothing else.
exports() {
    local declared exported
    declared=$(sed -nE 's/^[a-z0-9_]+ (bw_[a-z_]+)\(.*/\1/p' include/ballastwren.h | sort)
    exported=$(readelf -W --dyn-syms "$prefix/lib/libballastwren.so" | awk '$5 == "GLOBAL" && $7 != "UND" { print $8 }' | sort)
    diff <(echo "$declared") <(echo "$exported") && readelf -d "$prefix/lib/libballastwren.so" | grep -q "SONAME.*\[$soname\]"
}
soname=libballastwren.so.$(sed -n 's/^.define BW_VERSION "\([0-9]*\.[0-9]*\)\..*"$/\1/p' include/ballastwren.h)

uninstalled() {
    make -s uninstall PREFIX="$prefix" ARCH="$ARCH" && [[ -z $(find "$prefix" ! -type d) ]]
}

check "make install, below a folder with a space in its name" make -s install PREFIX="$prefix" ARCH="$ARCH" CC="$CC"
check "the shared library exports bw_… alone, as $soname" exports
for module in ballastwren ballastwren-static; do
    check "$module: examples/controller.c prints the positions that are kept" controls "$module"
    check "$module: the controller tells what is wrong with a sheet" sheets_told "$module"
    check "$module: examples/objects.c prints the table that it keeps" keeps_table "$module"
    check "$module: its status is 0 where nothing is refused" accepted "$module"
    check "$module: it tells what is wrong with a sheet" sheets_told "$module"
    check "$module: README's lines of C compile as they stand" as_in_readme "$module"
done
check "ballastwren links the shared library" links_shared ballastwren
check "ballastwren-static links the archive" links_archive ballastwren-static
check "make uninstall leaves no file" uninstalled
finish
