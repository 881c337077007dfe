# Completion of asancol-run for fish.
# Made by `make options` from options/asancol-run.options.

# Whether an option, or the command and its own words, may stand at the cursor.
function _asancol_run_takes -a what
    set -l words (commandline -opc)
    set -e words[1]
    set -l others 0
    set -l ends no
    set -l skips no
    for word in $words
        switch $skips$ends$word
            case 'yes*'
                set skips no
            case nono--
                set ends yes
            case 'nono--*=*'
            case nono--exitcode nono--error-exitcode nono--incomplete-exitcode nono--nothing-exitcode nono--at-least nono--wait nono--timeout nono--json nono--sarif nono--junit nono--codequality nono--markdown nono--html nono--source-url nono--category nono--keep nono--log-file nono--format nono--log-path nono--live nono--source-root nono--color nono--hide-frames nono--unchecked nono--leaks nono--suppressions nono--baseline nono--quarantine nono--memory nono--limit
                set skips yes
            case 'nono-*'
            case '*'
                set others (math $others + 1)
        end
    end
    if test $what = command
        test $others -ge 0
    else
        test $ends = no -a $others -le 0
    end
end

complete -c asancol-run -n '_asancol_run_takes command' -x -a '(__fish_complete_subcommand --fcs-skip=1 - --exitcode --error-exitcode --incomplete-exitcode --nothing-exitcode --at-least --wait --timeout --json --sarif --junit --codequality --markdown --html --source-url --category --keep --log-file --format --log-path --live --source-root --color --hide-frames --unchecked --leaks --suppressions --baseline --quarantine --memory --limit)'
complete -c asancol-run -n '_asancol_run_takes option' -l exitcode -x -d 'status if a report counts'
complete -c asancol-run -n '_asancol_run_takes option' -l error-exitcode -x -d 'status if a report counts'
complete -c asancol-run -n '_asancol_run_takes option' -l incomplete-exitcode -x -d 'status if the run was incomplete'
complete -c asancol-run -n '_asancol_run_takes option' -l nothing-exitcode -x -d 'status if nothing was recorded'
complete -c asancol-run -n '_asancol_run_takes option' -l at-least -x -d 'least number of processes to be recorded'
complete -c asancol-run -n '_asancol_run_takes option' -l wait -x -d 'seconds for processes that outlive COMMAND'
complete -c asancol-run -n '_asancol_run_takes option' -l timeout -x -d 'end COMMAND after S seconds'
complete -c asancol-run -n '_asancol_run_takes option' -l json -r -F -d 'JSON lines, which asancol-report reads'
complete -c asancol-run -n '_asancol_run_takes option' -l sarif -r -F -d 'SARIF 2.1.0, for code scanning'
complete -c asancol-run -n '_asancol_run_takes option' -l junit -r -F -d 'JUnit XML: a test case for each run'
complete -c asancol-run -n '_asancol_run_takes option' -l codequality -r -F -d 'a Code Quality report of GitLab'
complete -c asancol-run -n '_asancol_run_takes option' -l markdown -r -F -d 'a summary in Markdown, for the page of a CI job'
complete -c asancol-run -n '_asancol_run_takes option' -l html -r -F -d 'a page that needs no other file and no network'
complete -c asancol-run -n '_asancol_run_takes option' -l source-url -x -d 'address of a line of source, for --html, --markdown'
complete -c asancol-run -n '_asancol_run_takes option' -l category -x -d 'what tells this result from others, in --sarif'
complete -c asancol-run -n '_asancol_run_takes option' -l keep -x -a '(__fish_complete_directories)' -d 'keep the traces of processes with reports'
complete -c asancol-run -n '_asancol_run_takes option' -l log-file -r -F -d 'write all lines here, not to standard error'
complete -c asancol-run -n '_asancol_run_takes option' -l format -x -a 'asancol asan gcc github' -d 'reports as asancol, asan, gcc or github'
complete -c asancol-run -n '_asancol_run_takes option' -l log-path -x -d 'write the text of asan to PREFIX.PID, too'
complete -c asancol-run -n '_asancol_run_takes option' -l live -x -a 'access exit end' -d 'reports come at: access, exit or end'
complete -c asancol-run -n '_asancol_run_takes option' -l crashes -d 'count crashes that a parent waited for, too'
complete -c asancol-run -n '_asancol_run_takes option' -l source-root -x -a '(__fish_complete_directories)' -d 'show files under DIR by their paths from there'
complete -c asancol-run -n '_asancol_run_takes option' -l color -x -a 'auto always never' -d 'colors: auto, always or never'
complete -c asancol-run -n '_asancol_run_takes option' -l full-stacks -d 'print all frames of a stack, and whole names'
complete -c asancol-run -n '_asancol_run_takes option' -l hide-frames -x -d 'make matching frames one line'
complete -c asancol-run -n '_asancol_run_takes option' -l all-places -d 'print what may follow from another report, too'
complete -c asancol-run -n '_asancol_run_takes option' -l shadow -d 'print the shadow bytes around each bad byte'
complete -c asancol-run -n '_asancol_run_takes option' -l unchecked -x -a 'list list-all no error' -d 'unchecked code: list, list-all, no or error'
complete -c asancol-run -n '_asancol_run_takes option' -s q -l quiet -d 'print nothing if all is clean'
complete -c asancol-run -n '_asancol_run_takes option' -s v -l verbose -d 'print a line for each process'
complete -c asancol-run -n '_asancol_run_takes option' -l leaks -x -a 'yes summary no' -d 'leaks: yes (reports), summary or no'
complete -c asancol-run -n '_asancol_run_takes option' -l suppressions -r -F -d 'reports that do not count'
complete -c asancol-run -n '_asancol_run_takes option' -l gen-suppressions -d 'print with each report the line that suppresses it'
complete -c asancol-run -n '_asancol_run_takes option' -l baseline -r -F -d 'reports of this result of --json do not count'
complete -c asancol-run -n '_asancol_run_takes option' -l quarantine -x -d 'bytes of freed blocks to hold'
complete -c asancol-run -n '_asancol_run_takes option' -l no-mismatches -d 'allow delete of a malloc block, and the like'
complete -c asancol-run -n '_asancol_run_takes option' -l full -d 'record all mallocs and frees, not only near faults'
complete -c asancol-run -n '_asancol_run_takes option' -l preload -d 'record modules of plain programs, too'
complete -c asancol-run -n '_asancol_run_takes option' -l memory -x -d 'most bytes that each checker may hold'
complete -c asancol-run -n '_asancol_run_takes option' -l limit -x -d 'most events of a process to check'
complete -c asancol-run -n '_asancol_run_takes option' -l doctor -d 'look for missing tools'
complete -c asancol-run -n '_asancol_run_takes option' -s h -l help -d 'print this help'
complete -c asancol-run -n '_asancol_run_takes option' -l version -d 'print the name and the release'
