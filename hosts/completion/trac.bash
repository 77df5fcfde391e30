# Completion in bash for trac, trac_trace and trac_terminal: the options are those that the program's --help shows.

# Prints the options of a program that take a value, or those that take none: the pattern matches the text after one.
_trac_options() {
    "$1" --help 2>/dev/null </dev/null | sed -n "s/^ *\(-[a-zA-Z], \)\{0,1\}\(--[a-z-]*\)$2.*/\2/p"
}

_trac() {
    local program=$1 word=$2 previous=$3 options option
    COMPREPLY=()
    # The value of an option: a number, for which there is nothing to offer, or a file.
    options=$(_trac_options "$program" ' <N>')
    case " ${options//$'\n'/ } " in *" $previous "*) return ;; esac
    if [[ $word == -* ]]; then
        for option in $(_trac_options "$program" ''); do
            [[ $option != "$word"* || " ${COMP_WORDS[*]} " == *" $option "* ]] || COMPREPLY+=("$option")
        done
    elif [[ ${program##*/} == trac_terminal || $previous == -* || $previous == *[\<\>] ]]; then
        compopt -o filenames 2>/dev/null
        mapfile -t COMPREPLY < <(compgen -f -- "$word")
    fi
}

complete -F _trac trac trac_trace trac_terminal
