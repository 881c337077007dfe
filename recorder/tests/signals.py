"""Tests of the handlers of a program: it sees those that it has set and is told what it is told alone, and what they
interrupt goes on."""

from support import TESTS, Compiler, Suite, expect, reports, run


def check_alone(_suite: Suite, folder: str, compiler: Compiler, program: str) -> None:
    """What calls that set a handler answer, and what handlers are told that come once."""
    compiler.c(folder, [f"{TESTS}/signals.c"], "alone", "-w", "-pthread", native=True)
    for name in ("answers", "told"):
        alone = run(["./alone", name], folder)
        ran = run([program, name], folder, ASANCOL_TRACE="%p.trace")
        expect((ran.returncode, ran.stdout, ran.stderr), (0, alone.stdout, b""), name)


def check_once(suite: Suite, folder: str, program: str) -> None:
    """A handler that comes once is there for a signal that the recorder had wait, which is as it was sent."""
    ran = run([program, "once_while_recording"], folder, ASANCOL_TRACE="t.trace", ASANCOL_WHERE="1")
    expect((ran.returncode, ran.stderr), (0, b""), "the program")
    expect(reports(suite.asancol, f"{folder}/t.trace")[2].split()[0], "closed", "fate")


def check_disarmed(suite: Suite, folder: str, program: str) -> None:
    """A handler on a stack that is taken away while it runs has not left what it interrupts, by a jump."""
    for name in ("disarmed", "disarmed_beside_a_thread"):
        ran = run([program, name], folder, ASANCOL_TRACE=f"{name}.trace", ASANCOL_WHERE="1")
        expect((ran.returncode, ran.stderr), (0, b""), name)
        _, texts, end = reports(suite.asancol, f"{folder}/{name}.trace")
        expect((texts, end.split()[0]), ([], "closed"), name)


def tests(suite: Suite, compiler: Compiler) -> None:
    program = suite.built(compiler.c, [f"{TESTS}/signals.c"], f"signals-{compiler}", "-O1", "-w", "-pthread")
    suite.test(f"{compiler} signals as alone", check_alone, compiler, program)
    suite.test(f"{compiler} signals once while recording", check_once, program)
    suite.test(f"{compiler} signals on a disarmed stack", check_disarmed, program)
