# shellcheck shell=bash
# The manual page, completion, installing, and the samples.

check 'manual page: mandoc finds no fault' gives 0 '' '' mandoc -Tlint -W all tools/ballastwren.1
# documented WORD: the manual page has it.
mandoc -Tascii -O width=200 tools/ballastwren.1 | sed $'s/.\b//g' >"$T/page"
documented() { grep -q -- "$1" "$T/page"; }
for word in 'ballastwren check' 'ballastwren list' 'ballastwren scrub' 'ballastwren lookup' 'ballastwren objects' 'sheet make' 'sheet show' 'pmd read' 'pmd write' \
    'pmd find' --sheet --report --numbers --json --each 'list \[--json\] pack' 'objects \[--each\] \[--json\] pack' pack_offset sample_offset \
    total_offset '19 KIND' '20 ABSENT' '21 TABLE' '22 UNKNOWN' '23 STATIC' '24 FULL'; do
    check "manual page: $word" documented "$word"
done

# completes WANT WORDS...: the words offered for the last one.
completes() {
    # shellcheck disable=SC1091,SC2034
    (
        . tools/ballastwren.bash
        COMP_WORDS=("${@:2}") COMP_CWORD=$(($# - 2))
        _ballastwren
        echo "${COMPREPLY[*]}"
    ) >"$T/out"
    [[ $(<"$T/out") == "$1" ]] || { cat "$T/out"; return 1; }
}
check 'completion: subcommands' completes 'check list scrub lookup sheet pmd --help --version' ballastwren ''
check 'completion: a subcommand begun' completes 'scrub sheet' ballastwren s
check 'completion: the second word' completes 'make show --help' ballastwren sheet ''
check 'completion: kinds' completes 'APD APN AOD AEN' ballastwren pmd read A
check 'completion: a kind of ED2' completes 'ESN ETD' ballastwren pmd write E
check 'completion: options' completes '--sheet --report --help' ballastwren scrub --
check 'completion: options of list' completes '--json --help' ballastwren list -
check 'completion: a pack after --json' completes 'samples/packs/full.pack' ballastwren list --json samples/packs/fu
check 'completion: options of pmd write' completes '--numbers --json --help' ballastwren pmd write -
check 'completion: files' completes 'samples/packs/full.pack' ballastwren check samples/packs/fu
check 'completion: the file of an option' completes 'samples/sheets/rack.sheet' ballastwren scrub --sheet samples/sheets/rack.s
check 'completion: OUT after PACK' completes 'samples/packs/full.pack' ballastwren scrub --sheet a b samples/packs/fu
for words in 'lookup L' 'lookup L a' 'lookup L a b'; do
    read -ra split <<<"$words"
    check "completion: the next file of $words" completes 'samples/packs/full.pack' ballastwren "${split[@]}" samples/packs/fu
done
check 'completion: no file for a label' completes '' ballastwren lookup samples/packs/fu
check 'completion: no file after OUT' completes '' ballastwren lookup L a b c samples/packs/fu
check 'completion: options of lookup' completes '--help' ballastwren lookup --
check 'completion: options of objects' completes '--each --json --help' ballastwren objects -
check 'completion: a further pack of objects' completes 'samples/packs/full.pack' ballastwren objects --each a b samples/packs/fu
check 'completion: nothing after the last operand' completes '' ballastwren list a samples/packs/fu

# installed: all files stand where they belong, the command runs, and uninstall leaves none.
installed() {
    local make=(make --no-print-directory "DESTDIR=$T/root" PREFIX=/usr "ARCH=$ARCH" "CC=$CC")
    "${make[@]}" install &&
        (cd "$T/root/usr" && ls bin/ballastwren share/man/man1/ballastwren.1 share/bash-completion/completions/ballastwren) &&
        $RUN "$T/root/usr/bin/ballastwren" --version &&
        "${make[@]}" uninstall && [[ -z $(find "$T/root" -type f) ]]
}
check 'make install, make uninstall' installed

# remade: the script makes the samples that are in the tree.
remade() { mkdir "$T/samples" && samples/make.sh "$T/samples" && diff -r -x '*.md' -x '*.sh' "$T/samples" samples; }
check 'samples: made again' remade
# listed FILE: README.md says what it shows.
listed() { (cd samples && for file in */*; do grep -q "\b$file\b" README.md || { echo "$file"; exit 1; }; done); }
check 'samples: each has its line' listed

check 'demo: the old names are found before, and not after' gives 0 '*4 of 4 names found*0 of 4 names found*' '' samples/demo.sh
