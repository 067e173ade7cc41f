#!/usr/bin/env bash
# Holds the pages to the tree: every path that the pages at the root and in docs/ name exists, every theorem that they name is stated
# (in the file that follows it in brackets, or on the page of promises), every form of docs/FORMS.md stands at its line, every heading of
# docs/DECISIONS.md is in its index, every must-fail edit says which wrong answer it is, the border between trusted and inner specifications
# is the one that the promises draw, every public function stands once in docs/GUARANTEES.md under the law that it has one outcome, and the version
# that is promised is the header's and the newest of CHANGELOG.md, and what is exported to C is what crates/ballastwren promises.
# Ends with 'N passed, M failed'.
set -uo pipefail
cd "$(dirname "$0")/.." || exit 2

passed=0 failed=0
pages=(README.md CHANGELOG.md CONTRIBUTING.md SECURITY.md docs/*.md)
promises=crates/promises/proofs/Promises.antt
ours=$(sed -nE 's/^([a-z0-9_]+)( staticlib)?:.*/\1/p' crates.txt | paste -sd '|')

# told GOOD WHAT: counts a check, and says what failed.
told() {
    if [[ $1 == yes ]]; then passed=$((passed + 1)); else failed=$((failed + 1)); echo "docs: $2"; fi
}

# stated NAME FILE: whether FILE states a theorem or a definition NAME.
stated() { grep -qE "^ *(abbrev |unfoldable )?(pub )?(record |data )?$1 [:({]" "$2" 2>/dev/null; }

paths() {
    local page path
    for page in "${pages[@]}"; do
        while read -r path; do
            path=${path%[.,:]}
            if [[ -e $path ]]; then told yes; else told no "$page names $path, which is not there"; fi
        done < <(grep -oE '(^|[^A-Za-z0-9_./-])(crates|reference|bench|docs|include|tests|tools|examples|samples|packaging|\.ci)/[A-Za-z0-9_./-]+' "$page" |
            grep -oE '(crates|reference|bench|docs|include|tests|tools|examples|samples|packaging|\.ci)/.*' | sort -u)
    done
}

# `name` (file.antt): stated in that file.
theorems_with_files() {
    local page name file
    for page in "${pages[@]}"; do
        while read -r name file; do
            if stated "$name" "$file"; then told yes; else told no "$page: $name is not stated in $file"; fi
        done < <(tr '\n' ' ' <"$page" | grep -oE '`[A-Za-z0-9_]+` \(crates/[A-Za-z0-9_/]+\.antt\)' | sed -E 's/`([^`]+)` \((.*)\)/\1 \2/' | sort -u)
    done
}

# specified NAME TEXT: whether TEXT names it, alone or as one of several, before a file of specs/ that states it.
specified() {
    local file
    for file in $(grep -oE "\`$1\`((,| and) \`[A-Za-z0-9_]+\`)* \(crates/[a-z0-9_]+/specs/[A-Za-z0-9]+\.antt\)" <<<"$2" | grep -oE 'crates/[^)]*' | sort -u); do
        stated "$1" "$file" && return
    done
    return 1
}

# every name with an underscore in backquotes of GUARANTEES that no file follows: stated on the page of promises, unless it is a public function's, or a
# definition's of specs/ that the page names with its file.
theorems_promised() {
    local name text
    text=$(tr '\n' ' ' <docs/GUARANTEES.md)
    while read -r name; do
        if stated "$name" "$promises" || grep -qE "^pub fn ${name}[<(]" crates/*/src/*.rt || specified "$name" "$text"; then
            told yes
        else
            told no "docs/GUARANTEES.md: $name is not on the page of promises"
        fi
    done < <(sed -E 's/`[A-Za-z0-9_]+` \(crates[^)]*\)//g' <<<"$text" | grep -oE '`[a-z]+(_[a-z0-9]+)+`' | tr -d '`' | sort -u)
}

# `form`, file:line of docs/FORMS.md: the line has the form's name.
forms() {
    local name file line
    while read -r name file line; do
        if sed -n "${line}p" "$file" 2>/dev/null | grep -qF -- "$name"; then told yes; else told no "docs/FORMS.md: $name is not at $file:$line"; fi
    done < <(grep -oE '`[A-Za-z0-9_]+`, crates/[A-Za-z0-9_/]+\.rt:[0-9]+' docs/FORMS.md | sed -E 's/`([^`]+)`, (.*):([0-9]+)/\1 \2 \3/')
}

# specs_used FILE: the specification files of our crates that its `use` lines name.
specs_used() {
    sed -nE 's/^ *(ghost )?use Rattle\.([a-z0-9_]+)\.specs\.([A-Za-z0-9]+).*/crates\/\2\/specs\/\3.antt/p' "$1" |
        grep -E "^crates/($ours)/" | grep -v '/declared\.antt$'
}

# trusted_specs: the specification files that the page of promises, the contracts of the exports and the demands rest on.
trusted_specs() {
    local file used todo=("$promises" crates/promises/proofs/Bench.antt crates/ballastwren{,_c}/src/lib.rt crates/demands/src/lib.rt)
    local -A seen=()
    while [[ ${#todo[@]} -gt 0 ]]; do
        file=${todo[0]}
        todo=("${todo[@]:1}")
        while read -r used; do
            [[ -n ${seen[$used]:-} ]] && continue
            seen[$used]=yes
            todo+=("$used")
        done < <(specs_used "$file")
    done
    printf '%s\n' "${!seen[@]}" | sort
}

# The first word of a specification is Trusted where a promise rests on it, else Inner; and docs/TRUST.md lists the trusted files with their lines.
border() {
    local file word list lines=0 count=0
    list=$(trusted_specs)
    for file in crates/*/specs/*.antt; do
        [[ $file == */Lib.antt ]] && continue
        if grep -qxF "$file" <<<"$list"; then word=Trusted; else word=Inner; fi
        if [[ $(head -n 1 "$file") == "-- $word. "* ]]; then told yes; else told no "$file: its first line does not begin with '-- $word. '"; fi
    done
    while read -r file; do
        count=$((count + 1)) lines=$((lines + $(wc -l <"$file")))
        if grep -qE "^\\| +$(wc -l <"$file") \\| $file \\|" docs/TRUST.md; then told yes; else told no "docs/TRUST.md does not list $file with $(wc -l <"$file") lines"; fi
    done <<<"$list"
    while read -r file; do
        if grep -qxF "$file" <<<"$list"; then told yes; else told no "docs/TRUST.md lists $file, on which no promise rests"; fi
    done < <(grep -oE '^\| +[0-9]+ \| crates/[a-z_]+/specs/[A-Za-z]+\.antt' docs/TRUST.md | grep -oE 'crates/.*')
    if grep -qF "$count files, $lines lines" docs/TRUST.md; then told yes; else told no "docs/TRUST.md: the list has $count files, $lines lines"; fi
}

# every must-fail edit begins with the wrong answer that it is, and its name has underscores.
edits() {
    local file
    for file in crates/*/must-fail/*; do
        if [[ $file =~ /[a-z0-9_]+\.edit$ && $(head -n 1 "$file") == "# "* ]]; then told yes; else told no "$file: its name, or no first line '# …'"; fi
    done
}

# every heading of docs/DECISIONS.md is in the index at its top, and nothing else is.
index() {
    local heading
    while read -r heading; do
        if grep -qF -- "- [$heading](" docs/DECISIONS.md; then told yes; else told no "docs/DECISIONS.md: '$heading' is not in its index"; fi
    done < <(sed -nE 's/^## (.*)$/\1/p' docs/DECISIONS.md)
    while read -r heading; do
        if grep -qxF -- "## $heading" docs/DECISIONS.md; then told yes; else told no "docs/DECISIONS.md: the index names '$heading', which is not there"; fi
    done < <(sed -nE 's/^- \[([^]]*)\].*/\1/p' docs/DECISIONS.md)
}

# functions: each public function as CRATE::NAME, or as CRATE::TYPE::NAME where it is a method, and on the same line its clauses on what it answers and
# leaves, each behind a '|'.
functions() {
    awk '/^impl/ {
            type = $0; sub(/^impl(<[^>]*>)? /, "", type); sub(/[<{ ].*/, "", type); type = type "::"
        }
        /^\}$/ { type = "" }
        /^(    )?pub (extern "C" )?(const )?fn / {
            name = $0; sub(/^ *pub (extern "C" )?(const )?fn /, "", name); sub(/[<(].*/, "", name)
            crate = FILENAME; sub(/^crates\//, "", crate); sub(/\/.*/, "", crate); text = ""
        }
        name != "" { text = text " " $0 }
        name != "" && /^(    )?\{$/ {
            gsub(/\|/, "", text); gsub(/ +ensures ([a-z_]+ )?\{ /, "|", text)
            print crate "::" type name " " (index(text, "|") ? substr(text, index(text, "|")) : ""); name = ""
        }' crates/*/src/*.rt
}

# equations NAME: whether every field of the record NAME of a specification is an equation.
equations() {
    awk -v name="$1" '/^pub record / { here = ($3 == name) }
        here && /^  pub / { fields++; if ($0 !~ / ≡ /) others++ }
        /^$/ { here = 0 }
        END { exit !(fields > 0 && others == 0) }' crates/*/specs/*.antt
}

# formed HEADING CLAUSES: whether one of the clauses has the form that the heading speaks of.
formed() {
    local word
    case $1 in
    "An equation with a definition") [[ $2 =~ \|\(?(result|result\.now|[a-z]+\.new)\ ≡\  ]] ;;
    "Bytes or numbers written from a place on") [[ $2 == *"|Wrote "* || $2 == *") × Wrote "* ]] ;;
    "A call that is lent a run") [[ $2 =~ \|(Delivered|Scrubs|Bw[A-Za-z]+)\  ]] ;;
    "A record of equations") for word in $(grep -oE '\|[A-Za-z]+' <<<"$2" | tr -d '|'); do equations "$word" && return; done; return 1 ;;
    *) [[ -n $2 ]] ;;
    esac
}

# The part of docs/GUARANTEES.md on one outcome names every public function once and no other; what it lists under a form of contract has that form.
outcomes() {
    local section heading='' line name contract count=0 open=0 lent=0
    local -A contracts=() stands=()
    section=$(sed -n '/^## One outcome for every public function$/,/^## The listing$/p' docs/GUARANTEES.md)
    while read -r name contract; do contracts[$name]=$contract; done < <(functions)
    while read -r line; do
        [[ $line == "### "* ]] && heading=${line#\#\#\# }
        for name in $(grep -oE '`[a-z_0-9]+(::[A-Z][A-Za-z0-9]*)?::[a-z_0-9]+`' <<<"$line" | tr -d '`'); do
            stands[$name]=${stands[$name]:-}x
            [[ $heading == Exceptions ]] && open=$((open + 1))
            [[ $heading == "A function that is lent a reader" ]] && lent=$((lent + 1))
            if formed "$heading" "${contracts[$name]:-}"; then told yes; else told no "docs/GUARANTEES.md: $name has no contract for '$heading'"; fi
        done
    done <<<"$section"
    for name in "${!contracts[@]}"; do
        count=$((count + 1))
        if [[ ${stands[$name]:-} == x ]]; then told yes; else told no "docs/GUARANTEES.md: $name does not stand once under 'One outcome'"; fi
    done
    line="$count public functions, $((count - open - lent)) with one outcome by a theorem, $lent that is lent a reader, $open exceptions"
    if grep -qF -- "$line" <<<"$section"; then told yes; else told no "docs/GUARANTEES.md: there are $line"; fi
}

# exported CRATE: the functions bw_… of a crate: names and types of what they take and answer, and their clauses, with nothing of how they are called.
exported() { sed -nE '/^pub (extern "C" )?fn bw_/,/^\{/ { s/^pub (extern "C" )?fn /fn /; p }' "crates/$1/src/lib.rt"; }

# imported CRATE: what its clauses name, each with the module that it is from.
imported() {
    sed -nE 's/^ghost use (Rattle\.[A-Za-z0-9_.]+)\.\{(.*)\};$/\1 \2/p' "crates/$1/src/lib.rt" |
        awk '{ module = $1; $1 = ""; n = split($0, name, ","); for (k = 1; k <= n; k++) { gsub(/ /, "", name[k]); print module "." name[k] } }' | sort -u
}

# crates/ballastwren_c exports each function of crates/ballastwren to C, with the same clauses in words that mean the same, by a call of it and nothing else.
exports() {
    local name arguments call
    if diff <(exported ballastwren) <(exported ballastwren_c); then told yes; else told no "crates/ballastwren_c does not promise what crates/ballastwren does"; fi
    if [[ -z $(comm -13 <(imported ballastwren) <(imported ballastwren_c)) ]]; then told yes; else told no "crates/ballastwren_c names what crates/ballastwren does not"; fi
    while read -r name arguments; do
        call=$(grep -A 1 '^#\[unsafe(no_mangle)\]$' crates/ballastwren_c/src/lib.rt | grep -cE "^pub extern \"C\" fn $name\(")
        if [[ $call == 1 ]] && sed -n "/^pub extern \"C\" fn $name(/,/^}/p" crates/ballastwren_c/src/lib.rt | sed '1,/^{$/d' | diff - <(printf '    ballastwren::%s(%s)\n}\n' "$name" "$arguments"); then
            told yes
        else
            told no "crates/ballastwren_c: $name is no call of ballastwren::$name"
        fi
    done < <(sed -nE 's/^pub fn (bw_[a-z_]+)\((.*)\).*/\1 \2/p' crates/ballastwren/src/lib.rt | sed -E 's/([a-z]+): &mut [^,]*/\&mut *\1/g; s/([a-z]+): [^,]*/\1/g')
}

# The three numbers of the version: those of the specification are the header's, and the header's text and the newest part of CHANGELOG.md say the same.
version() {
    local part held parts=()
    for part in major minor patch; do
        held=$(sed -nE "s/^#define BW_VERSION_${part^^} ([0-9]+)$/\1/p" include/ballastwren.h)
        parts+=("$held")
        if grep -qx "$part = $held" crates/ballastwren/specs/Version.antt; then told yes; else told no "crates/ballastwren/specs/Version.antt: $part is $held in the header"; fi
    done
    held=$(IFS=. && echo "${parts[*]}")
    if grep -qxF "#define BW_VERSION \"$held\"" include/ballastwren.h; then told yes; else told no "include/ballastwren.h: BW_VERSION is not $held"; fi
    if [[ $(grep -m 1 '^## ' CHANGELOG.md) == "## $held" ]]; then told yes; else told no "CHANGELOG.md does not begin with $held"; fi
}

paths
theorems_with_files
theorems_promised
forms
border
edits
index
outcomes
exports
version
echo "$passed passed, $failed failed"
[[ $failed -eq 0 ]]
