#compdef asancol-run
# Completion of asancol-run for zsh.
# Made by `make options` from options/asancol-run.options.

_arguments -S \
    '(--exitcode --error-exitcode)--exitcode=[status if a report counts]:number (99)' \
    '(--exitcode --error-exitcode)--error-exitcode=[status if a report counts]:number (99)' \
    '--incomplete-exitcode=[status if the run was incomplete]:number (98)' \
    '--nothing-exitcode=[status if nothing was recorded]:number (98)' \
    '--at-least=[least number of processes to be recorded]:number (0)' \
    '--wait=[seconds for processes that outlive COMMAND]:seconds (5)' \
    '--timeout=[end COMMAND after S seconds]:seconds' \
    '--json=[JSON lines, which asancol-report reads]:file:_files' \
    '--sarif=[SARIF 2.1.0, for code scanning]:file:_files' \
    '--junit=[JUnit XML: a test case for each run]:file:_files' \
    '--codequality=[a Code Quality report of GitLab]:file:_files' \
    '--markdown=[a summary in Markdown, for the page of a CI job]:file:_files' \
    '--html=[a page that needs no other file and no network]:file:_files' \
    '--source-url=[address of a line of source, for --html, --markdown]:url' \
    '--category=[what tells this result from others, in --sarif]:name' \
    '--keep=[keep the traces of processes with reports]:folder:_files -/' \
    '--log-file=[write all lines here, not to standard error]:file:_files' \
    '--format=[reports as asancol, asan, gcc or github]:form:(asancol asan gcc github)' \
    '--log-path=[write the text of asan to PREFIX.PID, too]:file:_files' \
    '--live=[reports come at: access, exit or end]:how:(access exit end)' \
    '--crashes[count crashes that a parent waited for, too]' \
    '--source-root=[show files under DIR by their paths from there]:folder:_files -/' \
    '--color=[colors: auto, always or never]:when:(auto always never)' \
    '--full-stacks[print all frames of a stack, and whole names]' \
    '*--hide-frames=[make matching frames one line]:name' \
    '--all-places[print what may follow from another report, too]' \
    '--shadow[print the shadow bytes around each bad byte]' \
    '--unchecked=[unchecked code: list, list-all, no or error]:how:(list list-all no error)' \
    '(-q --quiet)'{-q,--quiet}'[print nothing if all is clean]' \
    '(-v --verbose)'{-v,--verbose}'[print a line for each process]' \
    '--leaks=[leaks: yes (reports), summary or no]:how:(yes summary no)' \
    '*--suppressions=[reports that do not count]:file:_files' \
    '--gen-suppressions[print with each report the line that suppresses it]' \
    '--baseline=[reports of this result of --json do not count]:file:_files -g "*.jsonl(-.)"' \
    '--quarantine=[bytes of freed blocks to hold]:number (268435456)' \
    '--no-mismatches[allow delete of a malloc block, and the like]' \
    '--full[record all mallocs and frees, not only near faults]' \
    '--preload[record modules of plain programs, too]' \
    '--memory=[most bytes that each checker may hold]:number (no bound)' \
    '--limit=[most events of a process to check]:number (16777216)' \
    '(- *)--doctor[look for missing tools]' \
    '(- *)'{-h,--help}'[print this help]' \
    '(- *)--version[print the name and the release]' \
    '(-)1:command: _command_names -e' \
    '*::arguments: _normal'
