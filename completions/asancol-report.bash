# Completion of asancol-report for bash.
# Made by `make options` from options/asancol-run.options.

_asancol_report() {
    local word=$2 before=$3
    COMPREPLY=()
    if [[ $before == = ]]; then
        before=${COMP_WORDS[COMP_CWORD - 2]}
    elif [[ $word == = ]]; then
        word=
    fi
    case $before in
    --json | --sarif | --junit | --codequality | --markdown | --html | --log-path | --suppressions | --baseline)
        mapfile -t COMPREPLY < <(compgen -f -- "$word")
        compopt -o filenames 2> /dev/null
        return
        ;;
    --source-url | --category | --hide-frames | --quarantine | --memory | --limit)
        return
        ;;
    --format)
        mapfile -t COMPREPLY < <(compgen -W 'asancol asan gcc github' -- "$word")
        return
        ;;
    --live)
        mapfile -t COMPREPLY < <(compgen -W 'access exit end' -- "$word")
        return
        ;;
    --source-root)
        mapfile -t COMPREPLY < <(compgen -d -- "$word")
        compopt -o filenames 2> /dev/null
        return
        ;;
    --color)
        mapfile -t COMPREPLY < <(compgen -W 'auto always never' -- "$word")
        return
        ;;
    --unchecked)
        mapfile -t COMPREPLY < <(compgen -W 'list list-all no error' -- "$word")
        return
        ;;
    --leaks)
        mapfile -t COMPREPLY < <(compgen -W 'yes summary no' -- "$word")
        return
        ;;
    esac
    if [[ $word == -* ]]; then
        mapfile -t COMPREPLY < <(compgen -W '--json --sarif --junit --codequality --markdown --html --source-url
            --category --format --log-path --live --crashes --source-root --color --full-stacks --hide-frames --all-places
            --shadow --unchecked --no-machines --quiet --leaks --suppressions --gen-suppressions --baseline --trace
            --quarantine --memory --limit --run --help --version' -- "$word")
    else
        local end='*.jsonl'
        [[ " ${COMP_WORDS[*]} " == *' --trace '* ]] && end='*.trace'
        mapfile -t COMPREPLY < <(compgen -d -- "$word"; compgen -f -X "!$end" -- "$word")
        compopt -o filenames 2> /dev/null
    fi
}

complete -F _asancol_report asancol-report
