# shellcheck shell=bash
# Completion of ballastwren for bash.

# The words that may stand next, given the subcommand's words and how many operands stand before; 'files' for a file.
_ballastwren_next() {
    case $1:$2 in
    :*) echo 'check list scrub lookup sheet pmd --help --version' ;;
    sheet:*) echo 'make show --help' ;;
    pmd:*) echo 'read write find --help' ;;
    'pmd read:0' | 'pmd write:0') echo 'APD APN AOD XYZ AEN ESN ETD' ;;
    check:* | list:0 | scrub:[01] | lookup:[123] | objects:* | 'sheet make':[01] | 'sheet show:0' | \
        'pmd read:1' | 'pmd write':[12] | 'pmd find:0') echo files ;;
    esac
}

# The options of a subcommand.
_ballastwren_options() {
    case $1 in
    list) echo '--json --help' ;;
    scrub) echo '--sheet --report --help' ;;
    objects) echo '--each --json --help' ;;
    'pmd read' | 'pmd write' | 'pmd find') echo '--numbers --json --help' ;;
    *) echo '--help' ;;
    esac
}

_ballastwren() {
    local current=${COMP_WORDS[COMP_CWORD]} subcommand='' operands=0 i word next
    COMPREPLY=()
    for ((i = 1; i < COMP_CWORD; i++)); do
        word=${COMP_WORDS[i]}
        case $subcommand:$word in
        scrub:--sheet) i=$((i + 1)) ;;
        *:--*) ;;
        :*) subcommand=$word ;;
        sheet:* | pmd:*) subcommand+=" $word" ;;
        *) operands=$((operands + 1)) ;;
        esac
    done
    next=$(_ballastwren_next "$subcommand" "$operands")
    if [[ $subcommand == scrub && ${COMP_WORDS[COMP_CWORD - 1]} == --sheet ]]; then
        next=files
    elif [[ $current == -* && $subcommand ]]; then
        next=$(_ballastwren_options "$subcommand")
    fi
    if [[ $next == files ]]; then
        mapfile -t COMPREPLY < <(compgen -f -- "$current")
    else
        mapfile -t COMPREPLY < <(compgen -W "$next" -- "$current")
    fi
}

complete -o filenames -F _ballastwren ballastwren
