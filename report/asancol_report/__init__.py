"""Reports from the verdicts of asancol: what asancol-report runs.

In the order in which data flows:

- `options` reads the command line, by `option_table`, which `make options` makes.
- `hub` and `json_lines` read a run that goes on, or traces in files, which asancol-run checks, and earlier results.
  `segments` finds the traces that are one process.
- `verdicts` and `side` read what a process left. `modules`, `elf` and `symbols` turn addresses into frames. `gather`
  puts them together to findings.
- `findings` and `results` are what all of this comes to. `suppressions` and `baseline` say what of it counts.
- `text`, `asan_text`, `gcc_text`, `github_text`, `log_path`, `json_lines`, `sarif`, `junit`, `code_quality`, `markdown`
  and `html` write it, through `files`. `alerts` has what those share that show a place as one alert.
"""

import os


def _release() -> str:
    """Returns the release. The file that says it lies beside the package, and in the tree at the top."""
    beside = os.path.dirname(os.path.dirname(os.path.abspath(__file__)))
    for folder in (beside, os.path.dirname(beside)):
        if os.path.isfile(f"{folder}/VERSION"):
            with open(f"{folder}/VERSION", encoding="utf-8") as file:
                return file.read().strip()
    return "unknown"


RELEASE = _release()
