# Completions of npd for bash: `source completions/npd.bash`. Of a number the least, the default and the greatest value
# are offered.

# The options of a command.
_npd_options() {
    case "$1" in
    decode) echo "--db --cap --pdml --psml --trace --report --workers --window --max-packets" ;;
    check) echo "--db" ;;
    gen) echo "--seed --packets --workers --window" ;;
    esac
}

# The values of a command's option that are offered; of one that is a file, nothing.
_npd_values() {
    case "$1 $2" in
    "decode --workers") echo "0 4 64" ;;
    "gen --workers") echo "0 64" ;;
    "decode --window" | "gen --window") echo "1 64 256" ;;
    "decode --max-packets") echo "1 4294967295" ;;
    "gen --seed") echo "0 4294967295" ;;
    "gen --packets") echo "1 100000" ;;
    esac
}

# Offers the values of an option.
_npd_value() {
    local values
    values=$(_npd_values "$1" "$2")
    if [ -n "$values" ]; then
        mapfile -t COMPREPLY < <(compgen -W "$values" -- "$3")
    else
        compopt -o filenames 2>/dev/null
        mapfile -t COMPREPLY < <(compgen -f -- "$3")
        [ -n "$3" ] || COMPREPLY+=("-")
    fi
}

# Offers the options that aren't given yet, or the values of the one before.
_npd_option() {
    local command=${COMP_WORDS[1]} word=${COMP_WORDS[COMP_CWORD]} before=${COMP_WORDS[COMP_CWORD - 1]} option left=""
    # (`--name=value` comes as three words)
    if [ "$word" = "=" ]; then
        word=""
    elif [ "$before" = "=" ]; then
        before=${COMP_WORDS[COMP_CWORD - 2]}
    fi
    if [[ " $(_npd_options "$command") " == *" $before "* ]]; then
        _npd_value "$command" "$before" "$word"
        return
    fi
    for option in $(_npd_options "$command"); do
        [[ " ${COMP_WORDS[*]:2:COMP_CWORD-2} " == *" $option "* ]] || left+=" $option"
    done
    mapfile -t COMPREPLY < <(compgen -W "$left" -- "$word")
}

# What `help` tells: the commands, and the lines by which the program refuses; of those that have codes, the codes.
_npd_help() {
    case "$1" in
    "") echo "decode check gen words open read write database capture packet memory unbuilt" ;;
    words) echo "1 2 3 4 5 6 7 8 9" ;;
    database) echo "1 2 3 4 20 21 22 23 24 25 26 27 40 41 42 43 44 45 46 47" ;;
    capture) echo "1 2 3 4 5 6" ;;
    esac
}

_npd() {
    COMPREPLY=()
    if [ "$COMP_CWORD" -eq 1 ]; then
        mapfile -t COMPREPLY < <(compgen -W "decode check gen help -h --help --version" -- "${COMP_WORDS[1]}")
    elif [ "${COMP_WORDS[1]}" = help ] && [ "$COMP_CWORD" -eq 2 ]; then
        mapfile -t COMPREPLY < <(compgen -W "$(_npd_help "")" -- "${COMP_WORDS[2]}")
    elif [ "${COMP_WORDS[1]}" = help ]; then
        [ "$COMP_CWORD" -ne 3 ] || mapfile -t COMPREPLY < <(compgen -W "$(_npd_help "${COMP_WORDS[2]}")" -- "${COMP_WORDS[3]}")
    else
        _npd_option
    fi
}

complete -F _npd npd
