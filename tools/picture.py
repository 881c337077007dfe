#!/usr/bin/env python3
"""Takes docs/report.png, the picture of the HTML page of README's first example, in headless Chromium.

usage: tools/picture.py ASANCOL

It is taken again by hand when the page looks otherwise: no test compares pictures, which differ by fonts.
"""

import os
import shutil
import subprocess
import sys
import tempfile
from typing import List

TOP = os.path.dirname(os.path.dirname(os.path.abspath(__file__)))
BROWSERS = ("chromium", "chromium-browser", "google-chrome")
WIDTH, HEIGHT = 1000, 760


def main(argv: List[str]) -> int:
    browser = next(filter(None, map(shutil.which, BROWSERS)), None)
    if len(argv) != 1 or browser is None:
        print(f"usage: tools/picture.py ASANCOL, with one of {', '.join(BROWSERS)} on the path", file=sys.stderr)
        return 2
    with tempfile.TemporaryDirectory(prefix="asancol-picture-") as folder:
        shutil.copytree(f"{TOP}/examples", f"{folder}/examples")
        argv_of_build = [f"{TOP}/recorder/asancol-cc", "-g", "examples/bug.c", "-o", "bug"]
        subprocess.run(argv_of_build, cwd=folder, check=True)
        subprocess.run([f"{TOP}/run/asancol-run", "-q", "--html", "report.html", "--", "./bug", "Alice"], cwd=folder,
                       env={**os.environ, "ASANCOL": os.path.abspath(argv[0])}, check=False)
        subprocess.run([str(browser), "--headless", "--no-sandbox", "--disable-gpu", "--hide-scrollbars",
                        f"--window-size={WIDTH},{HEIGHT}", f"--screenshot={TOP}/docs/report.png",
                        f"file://{folder}/report.html"], stderr=subprocess.DEVNULL, check=True)
    return 0


if __name__ == "__main__":
    sys.exit(main(sys.argv[1:]))
