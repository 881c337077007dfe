"""Numbers that stand in C and in Python: those of the side memory, and what a quarantine holds."""

import subprocess

from testing import TOP, expect
from asancol_report import side
from testing.programs import call
from testing.reports import report_test

# What common/format.h and recorder/stacks/stacks.h have, and what stands for it in Python.
NUMBERS = [
    ("sizeof SIDE_HEADER - 1", len(side.HEADER)),
    *[(f"SIDE_HEADER[{at}]", byte) for at, byte in enumerate(side.HEADER)],
    ("offsetof(struct side, argv)", side.HEAD.size),
    ("offsetof(struct side, argv)", side.ARGV_AT),
    ("SIDE_ARGV", side.ARGV_ROOM),
    ("offsetof(struct side, last)", side.LAST_AT),
    ("sizeof(struct side) - offsetof(struct side, last)", side.LAST.size),
    ("SIDE_BUILDS", side.BUILDS_AT),
    ("sizeof(struct side_build)", side.BUILD.size),
    ("SIDE_PROGRESS", side.PROGRESS_AT),
    ("sizeof(struct side_progress)", side.PROGRESS.size),
    ("SIDE_BESIDE_THREADS", side.BESIDE_THREADS_AT),
    ("sizeof(struct side_beside_threads)", side.BESIDE_THREADS.size),
    ("sizeof(struct side_found)", side.FOUND.size),
    *[(name, getattr(side, name)) for name in vars(side) if name.startswith("FINDING_")],
    ("FINDING_LAST", side.FINDING_LAST),
    ("SIDE_MAPS", side.MAPS_AT),
    ("SIDE_INDEX", side.INDEX_AT),
    ("SIDE_INDEX_ENTRY", side.ENTRY_BYTES),
    ("EVENT_LIMIT", side.EVENT_LIMIT),
    ("SIDE_IS_PIECE", side.IS_PIECE),
    ("SIDE_THREADS_AT", side.THREADS_AT),
    ("SIDE_THREADS", side.MAX_THREADS),
    ("sizeof(struct side_thread)", side.THREAD.size),
    ("SIDE_ROW", side.SHADOW_ROW),
    ("SIDE_ROWS_BESIDE", side.SHADOW_ROWS_BESIDE),
    ("SIDE_TEXT", side.MAX_TEXT),
    ("(struct side_fault){.variable = 255}.variable", side.VARIABLE_MASK),
    ("((uint32_t *)&(struct side_fault){.test = 1})[offsetof(struct side_fault, line) / 4 - 1]", 1 << side.TEST_SHIFT),
    ("SIDE_FAULTS_AT", side.FAULTS_AT),
    ("sizeof(struct side_fault)", side.FAULT.size),
    ("SIDE_FAULTS", side.MAX_FAULTS),
    ("SIDE_STACKS_AT", side.STACKS_AT),
    ("SIDE_STACK_WORDS", side.MAX_STACK_WORDS),
    ("MAX_FRAMES", side.MAX_FRAMES),
    ("ENDING_NONE", side.ENDING_NONE),
    ("ENDING_EXIT", side.ENDING_EXIT),
    ("ENDING_EXEC", side.ENDING_EXEC),
    ("ENDING_SIGNAL", side.ENDING_SIGNAL),
    ("ENDING_LOST", side.ENDING_LOST),
    ("ENDING_SEGMENT", side.ENDING_SEGMENT),
    ("VARIABLE_NONE", side.VARIABLE_NONE),
    ("VARIABLE_STACK", side.VARIABLE_STACK),
    ("VARIABLE_GLOBAL", side.VARIABLE_GLOBAL),
    ("VARIABLE_FORGOTTEN", side.VARIABLE_FORGOTTEN),
    ("offsetof(struct side, quarantine)", side.HEAD.size - side.WORD.size),
]


@report_test
def numbers_are_the_recorders(folder: str) -> None:
    lines = "".join(f'    printf("%lld\\n", (long long)({text}));\n' for text, _ in NUMBERS)
    with open(f"{folder}/numbers.c", "w", encoding="utf-8") as file:
        file.write('#include <stdio.h>\n#include "common/format.h"\n#include "stacks/stacks.h"\n'
                   f"int main(void)\n{{\n{lines}    return 0;\n}}\n")
    call(["gcc", f"-I{TOP}", f"-I{TOP}/recorder", f"{folder}/numbers.c", "-o", f"{folder}/numbers"],
         check=True)
    said = call([f"{folder}/numbers"], stdout=subprocess.PIPE, check=True, text=True).stdout.split()
    for (text, number), recorder in zip(NUMBERS, said):
        expect(number, int(recorder), text)
