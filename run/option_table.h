/* Made by `make options` from options/asancol-run.options.

   Called: options.c includes it, in the one thread of asancol-run; no lock. */
#ifndef ASANCOL_RUN_OPTION_TABLE_H
#define ASANCOL_RUN_OPTION_TABLE_H

/* clang-format off */
#define OPTION_HELP \
    "usage: asancol-run [options] [--] COMMAND [ARGUMENT...]\n" \
    "Runs COMMAND, and checks each process under it that was built with asancol-cc.\n" \
    "Status and time:\n" \
    "  --exitcode N             status if a report counts (99); 0: the command's\n" \
    "  --incomplete-exitcode N  status if the run was incomplete (98)\n" \
    "  --nothing-exitcode N     status if nothing was recorded (98); 77: test skipped\n" \
    "  --at-least N             least number of processes to be recorded (0)\n" \
    "  --wait S                 seconds for processes that outlive COMMAND (5)\n" \
    "  --timeout S              end COMMAND after S seconds\n" \
    "Output files:\n" \
    "  --json FILE              JSON lines, which asancol-report reads\n" \
    "  --sarif FILE             SARIF 2.1.0, for code scanning\n" \
    "  --junit FILE             JUnit XML: a test case for each run\n" \
    "  --codequality FILE       a Code Quality report of GitLab\n" \
    "  --markdown FILE          a summary in Markdown, for the page of a CI job\n" \
    "  --html FILE              a page that needs no other file and no network\n" \
    "  --source-url URL         address of a line of source, for --html, --markdown\n" \
    "  --category NAME          what tells this result from others, in --sarif\n" \
    "  --keep DIR               keep the traces of processes with reports\n" \
    "Text:\n" \
    "  --log-file FILE          write all lines here, not to standard error\n" \
    "  --format FORM            reports as asancol, asan, gcc or github (asancol)\n" \
    "  --log-path PREFIX        write the text of asan to PREFIX.PID, too\n" \
    "  --live HOW               reports come at: access, exit or end (access)\n" \
    "  --crashes                count crashes that a parent waited for, too\n" \
    "  --source-root DIR        show files under DIR by their paths from there\n" \
    "  --color WHEN             colors: auto, always or never (auto)\n" \
    "  --full-stacks            print all frames of a stack, and whole names\n" \
    "  --hide-frames PATTERN    make matching frames one line; may be repeated\n" \
    "  --all-places             print what may follow from another report, too\n" \
    "  --shadow                 print the shadow bytes around each bad byte\n" \
    "  --unchecked HOW          unchecked code: list, list-all, no or error (list)\n" \
    "  -q, --quiet              print nothing if all is clean\n" \
    "  -v, --verbose            print a line for each process\n" \
    "Which reports count:\n" \
    "  --leaks HOW              leaks: yes (reports), summary or no (yes)\n" \
    "  --suppressions FILE      reports that do not count; may be repeated\n" \
    "  --gen-suppressions       print with each report the line that suppresses it\n" \
    "  --baseline FILE          reports of this result of --json do not count\n" \
    "Checking and others:\n" \
    "  --quarantine B           bytes of freed blocks to hold (268435456)\n" \
    "  --no-mismatches          allow delete of a malloc block, and the like\n" \
    "  --full                   record all mallocs and frees, not only near faults\n" \
    "  --preload                record modules of plain programs, too\n" \
    "  --memory B               most bytes that each checker may hold (no bound)\n" \
    "  --limit N                most events of a process to check (16777216)\n" \
    "  --doctor                 look for missing tools; find a sample bug\n" \
    "  -h, --help               print this help\n" \
    "  --version                print the name and the release\n" \
    "%p in a FILE is the process, %q{VAR} a variable. Status 125 to 127: not started.\n"

#define OPTION_DEFAULTS \
    .exitcode = 99, \
    .incomplete = 98, \
    .nothing = 98, \
    .at_least = 0, \
    .wait = 5, \
    .live = 0, \
    .leaks = 0, \
    .unchecked = 0

#define OPTION_ROWS \
    {"exitcode", 0, SET_NUMBER, AT(exitcode), 0, 255, NULL}, \
    {"error-exitcode", 0, SET_NUMBER, AT(exitcode), 0, 255, NULL}, \
    {"incomplete-exitcode", 0, SET_NUMBER, AT(incomplete), 0, 255, NULL}, \
    {"nothing-exitcode", 0, SET_NUMBER, AT(nothing), 0, 255, NULL}, \
    {"at-least", 0, SET_NUMBER, AT(at_least), 0, 1000000000, NULL}, \
    {"wait", 0, SET_SECONDS, AT(wait), 0, 86400, NULL}, \
    {"timeout", 0, SET_SECONDS, AT(timeout), 1, 31536000, NULL}, \
    {"json", 0, PASS_OUTPUT, 0, 0, 0, NULL}, \
    {"sarif", 0, PASS_OUTPUT, 0, 0, 0, NULL}, \
    {"junit", 0, PASS_OUTPUT, 0, 0, 0, NULL}, \
    {"codequality", 0, PASS_OUTPUT, 0, 0, 0, NULL}, \
    {"markdown", 0, PASS_OUTPUT, 0, 0, 0, NULL}, \
    {"html", 0, PASS_OUTPUT, 0, 0, 0, NULL}, \
    {"source-url", 0, PASS_URL, 0, 0, 0, NULL}, \
    {"category", 0, PASS_NAME, 0, 0, 0, NULL}, \
    {"keep", 0, SET_FOLDER, AT(keep), 0, 0, NULL}, \
    {"log-file", 0, SET_OUTPUT, AT(log), 0, 0, NULL}, \
    {"format", 0, PASS_WORDS, 0, 0, 0, (const char *const[]){"asancol", "asan", "gcc", "github", NULL}}, \
    {"log-path", 0, PASS_PREFIX, 0, 0, 0, NULL}, \
    {"live", 0, PASS_WORDS, AT(live), 0, 0, (const char *const[]){"access", "exit", "end", NULL}}, \
    {"crashes", 0, PASS_FLAG, AT(crashes), 0, 0, NULL}, \
    {"source-root", 0, PASS_FOLDER, 0, 0, 0, NULL}, \
    {"color", 0, PASS_WORDS, 0, 0, 0, (const char *const[]){"auto", "always", "never", NULL}}, \
    {"full-stacks", 0, PASS_FLAG, 0, 0, 0, NULL}, \
    {"hide-frames", 0, PASS_NAME, 0, 0, 0, NULL}, \
    {"all-places", 0, PASS_FLAG, 0, 0, 0, NULL}, \
    {"shadow", 0, PASS_FLAG, 0, 0, 0, NULL}, \
    {"leaks", 0, PASS_WORDS, AT(leaks), 0, 0, (const char *const[]){"yes", "summary", "no", NULL}}, \
    {"unchecked", 0, PASS_WORDS, AT(unchecked), 0, 0, (const char *const[]){"list", "list-all", "no", "error", NULL}}, \
    {"quiet", 'q', SET_FLAG, AT(quiet), 0, 0, NULL}, \
    {"verbose", 'v', SET_FLAG, AT(verbose), 0, 0, NULL}, \
    {"suppressions", 0, PASS_INPUT, 0, 0, 0, NULL}, \
    {"gen-suppressions", 0, PASS_FLAG, 0, 0, 0, NULL}, \
    {"baseline", 0, PASS_INPUT, 0, 0, 0, NULL}, \
    {"quarantine", 0, PASS_CHECK, AT(quarantine), 0, 1099511627776, NULL}, \
    {"no-mismatches", 0, SET_FLAG, AT(no_mismatches), 0, 0, NULL}, \
    {"full", 0, SET_FLAG, AT(records_full), 0, 0, NULL}, \
    {"preload", 0, SET_FLAG, AT(preloads), 0, 0, NULL}, \
    {"memory", 0, PASS_CHECK, 0, 1048576, 1099511627776, NULL}, \
    {"limit", 0, PASS_CHECK, 0, 1, 16777216, NULL}, \
    {"files", 0, SET_FLAG, AT(are_files), 0, 0, NULL}, \
    {"serve", 0, SET_NUMBER, AT(served), 1, 999999999, NULL}, \
    {"sockets", 0, SET_INPUT, AT(sockets), 0, 0, NULL}, \
    {"held", 0, SET_FLAG, AT(are_held), 0, 0, NULL}, \
    {"doctor", 0, SHOW_DOCTOR, 0, 0, 0, NULL}, \
    {"help", 'h', SHOW_HELP, 0, 0, 0, NULL}, \
    {"version", 0, SHOW_VERSION, 0, 0, 0, NULL}

#define MAX_OF_QUARANTINE 1099511627776
#define MAX_OF_MEMORY 1099511627776
#define MAX_OF_LIMIT 16777216
#define DEFAULT_OF_QUARANTINE 268435456
#define DEFAULT_OF_LIMIT 16777216

#endif
