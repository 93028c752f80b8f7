# Completion of ets for bash. share/check compares it with the table of `ets help`.

# The options of a command that take a value, and then those that take none.
_ets_options() {
    case $1 in
        run) echo --elements --frames --steps --mode --turn --take --cells --grid --format --quiet ;;
        exec) echo --elements --frames --steps --mode --turn --take ;;
        trace) echo --elements --frames --steps --mode --turn --take --last --format --quiet ;;
        profile) echo --elements --frames --steps --take --svg --format --quiet ;;
        orders) echo --elements --frames --steps --take --count --seed --cells --grid --format --quiet ;;
        mean) echo --steps --cells --grid --format --quiet ;;
        dis) echo --literals --map --quiet ;;
        dot) echo --code --quiet ;;
        lower) echo --map --format --quiet ;;
        check) echo --format --quiet ;;
        compile) echo --map --quiet ;;
    esac
}

# The words that may be the value of an option of a command.
_ets_values() {
    case "$1 $2" in
        "run --frames") echo enough ;;
        *" --mode") echo one rounds free ;;
        "orders --take") echo oldest ;;
        *" --take") echo oldest depth ;;
        *" --cells") echo none ;;
        "trace --format") echo text chrome html json ;;
        *" --format") echo text json ;;
    esac
}

# Whether the option takes a value.
_ets_wants_value() {
    case $1 in
        --elements | --frames | --steps | --mode | --turn | --take | --last | --format | --count | --seed | --cells | --grid) return 0 ;;
    esac
    return 1
}

_ets() {
    local commands="lower run mean check compile dis asm upgrade dot exec trace profile orders help"
    local cur=${COMP_WORDS[COMP_CWORD]} prev=${COMP_WORDS[COMP_CWORD - 1]} command=${COMP_WORDS[1]}
    local -a words=("${COMP_WORDS[@]:0:COMP_CWORD}")
    COMPREPLY=()

    # After a redirection comes a file.
    case $cur in
        '<' | '>' | '>>' | '>|') cur= prev=\< ;;
    esac
    case $prev in
        '<' | '>' | '>>' | '>|')
            compopt -o filenames 2>/dev/null
            mapfile -t COMPREPLY < <(compgen -f -- "$cur")
            return
            ;;
    esac

    if ((COMP_CWORD == 1)); then
        mapfile -t COMPREPLY < <(compgen -W "$commands -h --help -V --version" -- "$cur")
        return
    fi
    if [[ $command == help ]]; then
        ((COMP_CWORD == 2)) && mapfile -t COMPREPLY < <(compgen -W "$commands" -- "$cur")
        return
    fi
    [[ " $commands " == *" $command "* ]] || return

    # bash takes --NAME=VALUE for three words.
    [[ $prev == = ]] && prev=${COMP_WORDS[COMP_CWORD - 2]}
    [[ $cur == = ]] && cur=
    if _ets_wants_value "$prev"; then
        mapfile -t COMPREPLY < <(compgen -W "$(_ets_values "$command" "$prev")" -- "$cur")
        return
    fi

    # A word that begins no option may be the name of a file. After `--` there are only that and inputs.
    if [[ $cur != -* || " ${words[*]} " == *" -- "* ]]; then
        compopt -o filenames 2>/dev/null
        mapfile -t COMPREPLY < <(compgen -f -- "$cur")
    fi

    # The options that were not given yet.
    [[ " ${words[*]} " == *" -- "* ]] && return
    local option options=
    for option in $(_ets_options "$command"); do
        [[ " ${words[*]} " == *" $option "* ]] || options+=" $option"
    done
    mapfile -t -O "${#COMPREPLY[@]}" COMPREPLY < <(compgen -W "$options -h --help" -- "$cur")
}

complete -F _ets ets
