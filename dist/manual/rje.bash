# Completions of rje for bash: source this file.
_rje() {
    local word=${COMP_WORDS[COMP_CWORD]} before=${COMP_WORDS[COMP_CWORD - 1]} command=${COMP_WORDS[1]}
    local commands='blocks cards show check print try monitor take mark loop send receive exchange station status help' words=--help
    local connection='--to --listen --from --timeout --adapter --trace --quiet'
    case $command in
    show) words+=' --job --records' ;;
    print) words+=' --job --printer --punch --raw' ;;
    cards) words+=' --printer --punch --transparent --name --append' ;;
    monitor) words+=' --hex' ;;
    take) words+=' --job --append' ;;
    mark) words+=' --job --sent --waiting' ;;
    loop) words+=' --timeout --trace --quiet' ;;
    send) words+=" $connection" ;;
    receive) words+=" $connection --patience --wait --new --append" ;;
    exchange) words+=" $connection --patience --primary --secondary --new --append" ;;
    station) words+=' --to --listen --from --every --timeout --patience --progress --primary --secondary --adapter --once --settle --quiet' ;;
    status) words+=' --json' ;;
    esac
    COMPREPLY=()
    if [ "$COMP_CWORD" = 1 ]; then
        mapfile -t COMPREPLY < <(compgen -W "$commands --help --version" -- "$word")
    elif [ "$command" = help ]; then
        mapfile -t COMPREPLY < <(compgen -W "$commands" -- "$word")
    elif [[ $before = --@(job|name|timeout|to|listen|from|patience|progress|every) ]]; then
        return
    elif [[ $word = -* ]]; then
        mapfile -t COMPREPLY < <(compgen -W "$words" -- "$word")
    else
        mapfile -t COMPREPLY < <(compgen -f -- "$word")
    fi
}
complete -o filenames -F _rje rje
