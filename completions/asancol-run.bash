# Completion of asancol-run for bash.
# Made by `make options` from options/asancol-run.options.

_asancol_run() {
    local word=$2 before=$3 ended='' others=0 at
    COMPREPLY=()
    # After the command's name it is the command's turn.
    for ((at = 1; at < COMP_CWORD; at++)); do
        case $ended${COMP_WORDS[at]} in
        --) ended=' ' ;;
        --exitcode | --error-exitcode | --incomplete-exitcode | --nothing-exitcode | --at-least | --wait | --timeout | \
            --json | --sarif | --junit | --codequality | --markdown | --html | --source-url | --category | --keep | \
            --log-file | --format | --log-path | --live | --source-root | --color | --hide-frames | --unchecked | \
            --leaks | --suppressions | --baseline | --quarantine | --memory | --limit)
            ((at++))
            [[ ${COMP_WORDS[at]} == = ]] && ((at++))
            ;;
        -*) ;;
        *)
            if ((others++ == 0)); then
                _asancol_run_command "$at"
                return
            fi
            ;;
        esac
    done
    if [[ $before == = ]]; then
        before=${COMP_WORDS[COMP_CWORD - 2]}
    elif [[ $word == = ]]; then
        word=
    fi
    case $before in
    --exitcode | --error-exitcode | --incomplete-exitcode | --nothing-exitcode | --at-least | --wait | --timeout | \
        --source-url | --category | --hide-frames | --quarantine | --memory | --limit)
        return
        ;;
    --json | --sarif | --junit | --codequality | --markdown | --html | --log-file | --log-path | --suppressions | \
        --baseline)
        mapfile -t COMPREPLY < <(compgen -f -- "$word")
        compopt -o filenames 2> /dev/null
        return
        ;;
    --keep | --source-root)
        mapfile -t COMPREPLY < <(compgen -d -- "$word")
        compopt -o filenames 2> /dev/null
        return
        ;;
    --format)
        mapfile -t COMPREPLY < <(compgen -W 'asancol asan gcc github' -- "$word")
        return
        ;;
    --live)
        mapfile -t COMPREPLY < <(compgen -W 'access exit end' -- "$word")
        return
        ;;
    --color)
        mapfile -t COMPREPLY < <(compgen -W 'auto always never' -- "$word")
        return
        ;;
    --unchecked)
        mapfile -t COMPREPLY < <(compgen -W 'list list-all no error' -- "$word")
        return
        ;;
    --leaks)
        mapfile -t COMPREPLY < <(compgen -W 'yes summary no' -- "$word")
        return
        ;;
    esac
    if [[ $word == -* && -z $ended ]]; then
        mapfile -t COMPREPLY < <(compgen -W '--exitcode --error-exitcode --incomplete-exitcode --nothing-exitcode
            --at-least --wait --timeout --json --sarif --junit --codequality --markdown --html --source-url --category
            --keep --log-file --format --log-path --live --crashes --source-root --color --full-stacks --hide-frames
            --all-places --shadow --unchecked --quiet --verbose --leaks --suppressions --gen-suppressions --baseline
            --quarantine --no-mismatches --full --preload --memory --limit --doctor --help --version --' -- "$word")
    else
        mapfile -t COMPREPLY < <(compgen -c -- "$word"; compgen -f -- "$word")
    fi
}

_asancol_run_command() {
    if declare -F _command_offset > /dev/null; then
        _command_offset "$1"
    elif ((COMP_CWORD == $1)); then
        mapfile -t COMPREPLY < <(compgen -c -- "${COMP_WORDS[COMP_CWORD]}"; compgen -f -- "${COMP_WORDS[COMP_CWORD]}")
    else
        mapfile -t COMPREPLY < <(compgen -f -- "${COMP_WORDS[COMP_CWORD]}")
    fi
}

complete -F _asancol_run asancol-run
