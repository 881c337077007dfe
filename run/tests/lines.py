"""Sources without lines, and newer ones: the place is the innermost frame of the program, and a line says why."""

import json
import os
import re
from typing import List, Tuple

from support import CC, REPORT, Suite, compilers_there, expect, expect_in, expect_not_in, write_text
from testing.programs import call

SESSION_C = """
#include <string.h>
const char *session_user(char **table, int at) { return table[at]; }
void session_name(char *to, const char *from) { strcpy(to, from); }
"""
MAIN_C = """
#include <stdio.h>
#include <stdlib.h>
const char *session_user(char **table, int at);
void session_name(char *to, const char *from);
static char **volatile table;
int main(void) {
    table = calloc(3, sizeof *table);
    char *volatile name = malloc(4);
    int found = session_user(table, 3) != NULL;
    session_name(name, "12345");
    if (name[4] == '5' && table[5]) found++;
    free(name);
    free(table);
    return found; }
"""


def make(folder: str, compiler: str) -> str:
    """Builds a program of a source with lines and one without."""
    for name, text, flag in (("session", SESSION_C, "-g0"), ("main", MAIN_C, "-g")):
        write_text(f"{folder}/{name}.c", text)
        call([CC, flag, "-O1", "-c", f"{folder}/{name}.c", "-o", f"{folder}/{name}.o"], check=True,
             env={**os.environ, "ASANCOL_CC": compiler})
    call([CC, f"{folder}/session.o", f"{folder}/main.o", "-o", f"{folder}/program"], check=True)
    return f"{folder}/program"


def places_in(path: str) -> List[Tuple[str, int]]:
    """Returns the function and line of the first frame of each report, or its offset."""
    with open(path, encoding="utf-8") as file:
        found = [it for it in map(json.loads, file) if it["type"] == "finding"]
    return [(it["stack"][0].get("function", ""), it["stack"][0].get("line", 0)) for it in found]


def check_bare(suite: Suite, folder: str, compiler: str) -> None:
    program = make(folder, compiler)
    ran = suite.run("--json", f"{folder}/a.jsonl", "--", program, ASANCOL_REPORT=REPORT)
    wanted = [("session_user", 0), ("session_name", 0), ("main", 12), ("main", 12)]
    expect(places_in(f"{folder}/a.jsonl"), wanted, ran.err)
    expect_in(ran.err, "asancol: session_user and 1 more function in ",
              "/program: no lines, since the source was compiled without -g\n")
    summary = re.search(r"^SUMMARY: asancol: heap-buffer-overflow \(.*program\+0x[0-9a-f]+\) in session_user$", ran.err,
                        re.M)
    expect(summary is not None, True, ran.err)
    caller = re.search(r"#1 .* in main .*main\.c:10:\d+\n +10 \| int found = session_user", ran.err)
    expect(caller is not None, True, ran.err)
    again = call([REPORT, f"{folder}/a.jsonl"], capture_output=True, text=True, check=False, cwd=folder).stdout
    expect_in(again, "/program+0x", "in main main.c:10:", "asancol: session_user and 1 more function in ")


def check_newer(suite: Suite, folder: str, compiler: str) -> None:
    program = make(folder, compiler)
    words = f"asancol: {folder}/main.c is newer than {program}: was that built again?\n"
    expect_not_in(suite.run("--", program, ASANCOL_REPORT=REPORT).err, "is newer")
    os.utime(f"{folder}/main.c", (2e9, 2e9))
    expect_in(suite.run("--", program, ASANCOL_REPORT=REPORT).err, words)


def tests(suite: Suite) -> None:
    for compiler in compilers_there():
        suite.test(f"{compiler} lines: of one source only", check_bare, compiler)
        suite.test(f"{compiler} lines: newer than the program", check_newer, compiler)
