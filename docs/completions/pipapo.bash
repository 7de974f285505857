# bash completion of pipapo
_pipapo() {
    local word=${COMP_WORDS[COMP_CWORD]} before=${COMP_WORDS[COMP_CWORD - 1]} command=${COMP_WORDS[1]}
    # bash makes '=' a word of its own
    if [ "$word" = "=" ]; then
        word=
    elif [ "$before" = "=" ]; then
        before=${COMP_WORDS[COMP_CWORD - 2]}
    fi
    COMPREPLY=()
    if [ "$COMP_CWORD" -eq 1 ]; then
        mapfile -t COMPREPLY < <(compgen -W "run list dump drill judge capture desk get explain compare stat sets help --help --version -V" -- "$word")
    elif [ "$command" = help ]; then
        mapfile -t COMPREPLY < <(compgen -W "run list dump drill judge capture desk get explain compare stat sets" -- "$word")
    elif [ "$before" = --threads ]; then
        mapfile -t COMPREPLY < <(compgen -W "$(seq 1 16)" -- "$word")
    elif [[ $word == -* ]]; then
        case $command in
        run | capture) mapfile -t COMPREPLY < <(compgen -W "--threads --keep-going --sets --elements --help" -- "$word") ;;
        judge) mapfile -t COMPREPLY < <(compgen -W "--threads --keep-going --sets --help" -- "$word") ;;
        list) mapfile -t COMPREPLY < <(compgen -W "--keep-going --sets --json --help" -- "$word") ;;
        dump | desk | explain | compare | stat) mapfile -t COMPREPLY < <(compgen -W "--keep-going --sets --help" -- "$word") ;;
        get) mapfile -t COMPREPLY < <(compgen -W "--at --keep-going --sets --help" -- "$word") ;;
        sets) mapfile -t COMPREPLY < <(compgen -W "--help" -- "$word") ;;
        drill) mapfile -t COMPREPLY < <(compgen -W "--threads --help" -- "$word") ;;
        esac
    elif [ "$command" != drill ]; then
        mapfile -t COMPREPLY < <(compgen -f -- "$word")
    fi
}
complete -o filenames -F _pipapo pipapo
