# Completion of officed's commands in bash. A helper's words are those that it prints with --help,
# so this file needs no change when a helper gets a new option.

# The words of the program, whose order is fixed.
_officed_program() {
    case $COMP_CWORD,${COMP_WORDS[1]},$1 in
        1,*) echo serve import drill seal check ;;
        *,--store) echo memory ;;
        2,serve,* | 2,import,*) echo --store ;;
        4,import,*) echo subscribers modems ;;
        4,serve,*) echo --ports ;;
        6,serve,*) echo --turns ;;
    esac
}

# The options of a helper, and the choices that its help has in braces.
_officed_helper() {
    "$1" --help 2>/dev/null | grep -oE -e '(^| |\[)--[a-z][a-z-]*' -e '\{[a-z,-]+\}' |
        tr -d '[ {}' | tr ',' '\n' | sort -u
}

_officed() {
    local words word
    case ${1##*/} in
        officed) words=$(_officed_program "$3") ;;
        *) words=$(_officed_helper "$1") ;;
    esac
    COMPREPLY=()
    while read -r word; do
        COMPREPLY+=("$word")
    done < <(compgen -W "$words" -- "$2")
}

complete -o default -F _officed officed office-all office-clerk office-copy office-counts \
    office-desk office-modem office-sql office-unit office-watch
