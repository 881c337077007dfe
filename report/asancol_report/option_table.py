"""Made by `make options` from options/asancol-run.options."""

HELP = """\
usage: asancol-report [options] RESULT.jsonl...
           merges results of asancol-run --json; a folder: all results in it
       asancol-report [options] --trace A.trace...
           checks traces, and reads A.trace.where
Output files:
  --json FILE            JSON lines, which asancol-report reads
  --sarif FILE           SARIF 2.1.0, for code scanning
  --junit FILE           JUnit XML: a test case for each run
  --codequality FILE     a Code Quality report of GitLab
  --markdown FILE        a summary in Markdown, for the page of a CI job
  --html FILE            a page that needs no other file and no network
  --source-url URL       address of a line of source, for --html, --markdown
  --category NAME        what tells this result from others, in --sarif
Text:
  --format FORM          reports as asancol, asan, gcc or github (asancol)
  --log-path PREFIX      write the text of asan to PREFIX.PID, too
  --live HOW             reports come at: access, exit or end (access)
  --crashes              count crashes that a parent waited for, too
  --source-root DIR      show files under DIR by their paths from there
  --color WHEN           colors: auto, always or never (auto)
  --full-stacks          print all frames of a stack, and whole names
  --hide-frames PATTERN  make matching frames one line; may be repeated
  --all-places           print what may follow from another report, too
  --shadow               print the shadow bytes around each bad byte
  --unchecked HOW        unchecked code: list, list-all, no or error (list)
  --no-machines          omit names of machines and times of runs
  -q, --quiet            print nothing if all is clean
Which reports count:
  --leaks HOW            leaks: yes (reports), summary or no (yes)
  --suppressions FILE    reports that do not count; may be repeated
  --gen-suppressions     print with each report the line that suppresses it
  --baseline FILE        reports of this result of --json do not count
Traces:
  --trace                the files are traces
  --quarantine B         bytes of freed blocks to hold (as recorded)
  --memory B             most bytes that each checker may hold (no bound)
  --limit N              how many events of a trace are checked (16777216)
Others:
  --run                  read from asancol-run on standard input
  -h, --help             print this help
  --version              print the name and the release
A FILE - is standard output, instead of the text.
Status: 0 no report counts; 1 a report counts; 2 the command line was refused;
        3 incomplete, or nothing recorded; 4 a file could not be read or written
"""
OUTPUTS = {
    "--json": "json_lines",
    "--sarif": "sarif",
    "--junit": "junit",
    "--codequality": "code_quality",
    "--markdown": "markdown",
    "--html": "html",
}
SHORT = {
    "-q": "--quiet",
    "-h": "--help",
}
WORDS = {
    "--format": ("asancol", "asan", "gcc", "github"),
    "--live": ("access", "exit", "end"),
    "--color": ("auto", "always", "never"),
    "--leaks": ("yes", "summary", "no"),
    "--unchecked": ("list", "list-all", "no", "error"),
}
DEFAULTS = {
    "--format": "asancol",
    "--live": "access",
    "--color": "auto",
    "--leaks": "yes",
    "--unchecked": "list",
}
OF_CHECK = (
    "--quarantine",
    "--memory",
    "--limit",
)
WITH_VALUE = (
    "--json",
    "--sarif",
    "--junit",
    "--codequality",
    "--markdown",
    "--html",
    "--source-url",
    "--category",
    "--format",
    "--log-path",
    "--live",
    "--source-root",
    "--color",
    "--hide-frames",
    "--leaks",
    "--unchecked",
    "--suppressions",
    "--baseline",
    "--quarantine",
    "--memory",
    "--limit",
    "--nested",
    "--doctor-of",
)
SWITCHES = (
    "--crashes",
    "--full-stacks",
    "--all-places",
    "--shadow",
    "--no-machines",
    "--quiet",
    "--gen-suppressions",
    "--trace",
    "--run",
    "--log-alone",
    "--rules-alone",
    "--help",
    "--version",
)
