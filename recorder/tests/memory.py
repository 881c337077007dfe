"""What memory a process has, and when that of freed blocks goes back to the system."""

from support import TESTS, Compiler, Suite, expect, run

NAMES = ("falls", "stays", "never_grows", "grows_by_doubling", "falls_at_once_if_large", "is_bounded", "trims",
         "gets_zeros", "is_locked", "forks", "is_refused", "has_little_data")


def check_memory(suite: Suite, folder: str, program: str, name: str, is_recorded: bool) -> None:
    """If it is recorded, nothing is held in the quarantine: freed blocks are free at once, as if nothing is
    recorded."""
    settings = {"ASANCOL_TRACE": "%p.trace", "ASANCOL_QUARANTINE": "0"} if is_recorded else {}
    ran = run([program, name], folder, **settings)
    expect((ran.returncode, ran.stderr), (0, b""), "the program")


def tests(suite: Suite, compiler: Compiler) -> None:
    program = suite.built(compiler.c, [f"{TESTS}/memory.c"], f"memory-{compiler}", "-O1")
    for name in NAMES:
        for is_recorded in (False, True):
            suite.test(f"{compiler} memory {name}{', recorded' if is_recorded else ''}", check_memory, program, name,
                       is_recorded)
