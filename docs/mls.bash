# bash's completions of `mls`: `source` this file
_mls() {
    local word="${COMP_WORDS[COMP_CWORD]}" options=""
    case "${COMP_WORDS[1]}" in
        show)
            options="--full --raw --json --where --help"
            ;;
        check)
            options="--suite --group --signatures --group-info --raw --json --where --draw --width --svg --help"
            ;;
        replay)
            options="--suite --message --tree --quiet --record --draw --width --svg --progress --where --help"
            ;;
        vectors)
            options="--where --help"
            ;;
    esac
    if [ "$COMP_CWORD" -eq 1 ]; then
        COMPREPLY=($(compgen -W "show check replay vectors help --explain --help --version" -- "$word"))
    elif [[ "$word" == -* ]]; then
        COMPREPLY=($(compgen -W "$options" -- "$word"))
    else
        COMPREPLY=($(compgen -f -- "$word"))
    fi
}
complete -o filenames -F _mls mls
