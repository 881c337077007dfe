# Completion of asancol-listen for bash.
# Made by `make options` from options/asancol-listen.options.

_asancol_listen() {
    local word=$2 before=$3 ended='' others=0 at
    COMPREPLY=()
    # After the command's name it is the command's turn.
    for ((at = 1; at < COMP_CWORD; at++)); do
        case $ended${COMP_WORDS[at]} in
        --) ended=' ' ;;
        --mode | --group | --connections)
            ((at++))
            [[ ${COMP_WORDS[at]} == = ]] && ((at++))
            ;;
        -*) ;;
        *)
            if ((others++ == 2)); then
                _asancol_listen_command "$at"
                return
            fi
            ;;
        esac
    done
    if [[ $before == = ]]; then
        before=${COMP_WORDS[COMP_CWORD - 2]}
    elif [[ $word == = ]]; then
        word=
    fi
    case $before in
    --mode | --connections)
        return
        ;;
    --group)
        mapfile -t COMPREPLY < <(compgen -g -- "$word")
        return
        ;;
    esac
    if [[ $word == -* && -z $ended ]]; then
        mapfile -t COMPREPLY < <(compgen -W '--mode --group --connections --help --version --' -- "$word")
    else
        case $others in
        0)
            mapfile -t COMPREPLY < <(compgen -f -- "$word")
            compopt -o filenames 2> /dev/null
            ;;
        1)
            mapfile -t COMPREPLY < <(compgen -d -- "$word")
            compopt -o filenames 2> /dev/null
            ;;
        *) mapfile -t COMPREPLY < <(compgen -c -- "$word"; compgen -f -- "$word") ;;
        esac
    fi
}

_asancol_listen_command() {
    if declare -F _command_offset > /dev/null; then
        _command_offset "$1"
    elif ((COMP_CWORD == $1)); then
        mapfile -t COMPREPLY < <(compgen -c -- "${COMP_WORDS[COMP_CWORD]}"; compgen -f -- "${COMP_WORDS[COMP_CWORD]}")
    else
        mapfile -t COMPREPLY < <(compgen -f -- "${COMP_WORDS[COMP_CWORD]}")
    fi
}

complete -F _asancol_listen asancol-listen
