# Completion of asancol for bash.
# Made by `make options` from options/asancol.options.

_asancol() {
    local word=$2 before=$3 command='' at
    COMPREPLY=()
    for ((at = 1; at < COMP_CWORD; at++)); do
        case ${COMP_WORDS[at]} in
        help | check | serve)
            command=${COMP_WORDS[at]}
            break
            ;;
        esac
    done
    if [[ $before == = ]]; then
        before=${COMP_WORDS[COMP_CWORD - 2]}
    elif [[ $word == = ]]; then
        word=
    fi
    case $before in
    --quarantine | --limit | --memory | --workers | --ring | --count)
        return
        ;;
    --ready)
        mapfile -t COMPREPLY < <(compgen -f -- "$word")
        compopt -o filenames 2> /dev/null
        return
        ;;
    esac
    case $command in
    help)
        mapfile -t COMPREPLY < <(compgen -W 'check serve' -- "$word")
        ;;
    check)
        if [[ $word == -* ]]; then
            mapfile -t COMPREPLY < <(compgen -W '--quarantine --limit --memory --workers --ring --live --verbose --help' -- "$word")
        else
            mapfile -t COMPREPLY < <(compgen -f -- "$word")
            compopt -o filenames 2> /dev/null
        fi
        ;;
    serve)
        if [[ $word == -* ]]; then
            mapfile -t COMPREPLY < <(compgen -W '--quarantine --limit --memory --workers --ring --live --count --ready --help' -- "$word")
        else
            mapfile -t COMPREPLY < <(compgen -f -- "$word")
            compopt -o filenames 2> /dev/null
        fi
        ;;
    *) mapfile -t COMPREPLY < <(compgen -W 'help check serve --help --version' -- "$word") ;;
    esac
}

complete -F _asancol asancol
