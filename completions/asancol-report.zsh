#compdef asancol-report
# Completion of asancol-report for zsh.
# Made by `make options` from options/asancol-run.options.

local files='*.jsonl(-.)'
(( ${words[(I)--trace]} )) && files='*.trace(-.)'
_arguments -S \
    '--json=[JSON lines, which asancol-report reads]:file:_files' \
    '--sarif=[SARIF 2.1.0, for code scanning]:file:_files' \
    '--junit=[JUnit XML: a test case for each run]:file:_files' \
    '--codequality=[a Code Quality report of GitLab]:file:_files' \
    '--markdown=[a summary in Markdown, for the page of a CI job]:file:_files' \
    '--html=[a page that needs no other file and no network]:file:_files' \
    '--source-url=[address of a line of source, for --html, --markdown]:url' \
    '--category=[what tells this result from others, in --sarif]:name' \
    '--format=[reports as asancol, asan, gcc or github]:form:(asancol asan gcc github)' \
    '--log-path=[write the text of asan to PREFIX.PID, too]:file:_files' \
    '--live=[reports come at: access, exit or end]:how:(access exit end)' \
    '--crashes[count crashes that a parent waited for, too]' \
    '--source-root=[show files under DIR by their paths from there]:folder:_files -/' \
    '--color=[colors: auto, always or never]:when:(auto always never)' \
    '--full-stacks[print all frames of a stack, and whole names]' \
    '*--hide-frames=[make matching frames one line]:name' \
    '--all-places[print what may follow from another report, too]' \
    '--shadow[print the shadow bytes around each bad byte]' \
    '--unchecked=[unchecked code: list, list-all, no or error]:how:(list list-all no error)' \
    '--no-machines[omit names of machines and times of runs]' \
    '(-q --quiet)'{-q,--quiet}'[print nothing if all is clean]' \
    '--leaks=[leaks: yes (reports), summary or no]:how:(yes summary no)' \
    '*--suppressions=[reports that do not count]:file:_files' \
    '--gen-suppressions[print with each report the line that suppresses it]' \
    '--baseline=[reports of this result of --json do not count]:file:_files -g "*.jsonl(-.)"' \
    '--trace[the files are traces]' \
    '--quarantine=[bytes of freed blocks to hold]:number (as recorded)' \
    '--memory=[most bytes that each checker may hold]:number (no bound)' \
    '--limit=[how many events of a trace are checked]:number (16777216)' \
    '--run[read from asancol-run on standard input]' \
    '(- *)'{-h,--help}'[print this help]' \
    '(- *)--version[print the name and the release]' \
    "*:file:_files -g '$files'"
