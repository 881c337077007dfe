"""Modules of programs that asancol-cc did not build, by --preload."""

import importlib.util
import os
import shutil
import sys
import sysconfig

from support import CC, REPORT, RUN, TOP, Suite, compilers_there, expect, expect_ran, leave_out, write_text
from testing.programs import call

PRELOADED = "libasancol_preload.so"
HOST = f"{TOP}/recorder/tests/preload_host.c"
MODULE = f"{TOP}/recorder/tests/preload_module.c"
OF_SYSTEM = "/usr/libexec"

EXTENSION = """
#define PY_SSIZE_T_CLEAN
#include <Python.h>
static PyObject *copy(PyObject *self, PyObject *words)
{
    const char *text;
    Py_ssize_t size, more;
    (void)self;
    if (!PyArg_ParseTuple(words, "s#n", &text, &size, &more))
        return NULL;
    char *copied = malloc((size_t)(size + more));
    strcpy(copied, text);
    PyObject *result = PyUnicode_FromString(copied);
    free(copied);
    return result;
}
static PyMethodDef methods[] = {{"copy", copy, METH_VARARGS, NULL}, {NULL, NULL, 0, NULL}};
static struct PyModuleDef module = {.m_base = PyModuleDef_HEAD_INIT, .m_name = "texts", .m_size = -1,
                                    .m_methods = methods};
PyMODINIT_FUNC PyInit_texts(void) { return PyModule_Create(&module); }
"""
SETUP = """
from setuptools import Extension, setup
setup(name="texts", ext_modules=[Extension("texts", ["texts.c"])])
"""
TESTS = """
import multiprocessing
import os
import subprocess
import sys
import unittest
import texts

MORE = int(os.environ.get("MORE", "1"))


class Texts(unittest.TestCase):
    def test_copy(self):
        self.assertEqual(texts.copy("a text", MORE), "a text")

    def test_children(self):
        for method in ("fork", "spawn"):
            with multiprocessing.get_context(method).Pool(2) as pool:
                self.assertEqual(pool.starmap(texts.copy, [("one", 1), ("two", 1)]), ["one", "two"])
                pool.close()
                pool.join()

    def test_programs(self):
        subprocess.run(["sh", "-c", "ls / | sort > /dev/null"], check=True)
        subprocess.run([sys.executable, "-c", "import os, texts; os._exit(0)"], check=True)


if __name__ == "__main__":
    unittest.main()
"""


def build(folder: str, compiler: str) -> None:
    call([compiler, "-g", "-O1", "-pthread", HOST, "-o", "host"], cwd=folder, check=True)
    call([CC, "-g", "-O1", "-shared", "-fPIC", MODULE, "-o", "module.so"], cwd=folder, check=True,
         env={**os.environ, "ASANCOL_CC": compiler})


def check_module(suite: Suite, folder: str, compiler: str) -> None:
    build(folder, compiler)
    good, over = ["--", "./host", "./module.so", "read"], ["--", "./host", "./module.so", "over"]
    ran = suite.run("--preload", *good, cwd=folder)
    expect_ran(ran, 0, "asancol: no reports; 1 process, ", "; not checked: host\n")
    ran = suite.run("--preload", *over, cwd=folder, ASANCOL_REPORT=REPORT)
    expect_ran(ran, 99, "heap-buffer-overflow: load of 1 byte", f"in act {MODULE}:", f"in fill {HOST}:",
               "; not checked: host\n", absent=["INCOMPLETE"])
    words = "which was built by asancol-cc, and was not built so itself; --preload records it"
    expect_ran(suite.run(*over, cwd=folder), 98, words)
    expect_ran(suite.run("--preload", "--unchecked=error", *good, cwd=folder), 98, "; not checked: host\n")
    expect_ran(suite.run("--preload", "--", "./host", cwd=folder), 98, "NOTHING WAS RECORDED")


def check_system(suite: Suite, folder: str, compiler: str) -> None:
    """A program is named even where the system has its libraries and the programs that only others start."""
    build(folder, compiler)
    line = f"mount --bind {folder} {OF_SYSTEM} && exec {RUN} --preload -- {OF_SYSTEM}/host ./module.so read"
    ran = suite.run_argv(["unshare", "-rm", "sh", "-c", line], cwd=folder)
    expect_ran(ran, 0, "; not checked: host\n")


def check_processes(suite: Suite, folder: str, compiler: str) -> None:
    """Tools are not recorded, and each process with a module is complete, however it ends."""
    build(folder, compiler)
    script = "ls / | sort | head -1; for i in read _exit vfork fork exec; do ./host ./module.so $i; done; env true"
    ran = suite.run("--preload", "sh", "-c", script, cwd=folder, ASANCOL_REPORT=REPORT)
    expect_ran(ran, 99, "2 reports at 1 place; 7 processes, ", absent=["INCOMPLETE"])
    expect_ran(suite.run("--preload", "./host", "./module.so", "abort", cwd=folder, ASANCOL_REPORT=REPORT), -6,
               "1 crashed", f"in act {MODULE}:", absent=["INCOMPLETE"])
    ran = suite.run("--preload", RUN, "--preload", "./host", "./module.so", "over", cwd=folder, ASANCOL_REPORT=REPORT)
    expect_ran(ran, 99, "1 report at 1 place; 1 process, ", absent=["INCOMPLETE"])
    expect_ran(suite.run("--preload", "env", "-i", "./host", "./module.so", "over", cwd=folder), 98)


def check_own_programs(suite: Suite, folder: str, compiler: str) -> None:
    """A program of asancol-cc has what it has without the option."""
    argv = [CC, "-g", f"{TOP}/examples/bug.c", "-o"]
    environment = {**os.environ, "ASANCOL_CC": compiler}
    call([*argv, f"{folder}/bug"], check=True, env=environment)
    call([*argv, f"{folder}/static", "-static"], check=True, env=environment)
    for name in ("bug", "static"):
        said = []
        for option in ((), ["--preload"]):
            ran = suite.run(*option, f"{folder}/{name}", "Alice", ASANCOL_REPORT=REPORT)
            lines = [it for it in ran.err.splitlines() if it.startswith(("asancol:", "SUMMARY"))]
            said.append((ran.status, ran.out, lines))
        expect(said[1], said[0], name)


def check_places(suite: Suite, folder: str) -> None:
    """The library lies beside asancol-run, as it is installed or built; if it can't be used, a line says why."""
    library = f"{TOP}/recorder/{PRELOADED}"

    def copied(name: str, *parts: str) -> str:
        place = os.path.join(folder, name, *parts[:-1])
        os.makedirs(place, exist_ok=True)
        return shutil.copy(library if parts[-1] == PRELOADED else RUN, os.path.join(place, parts[-1]))

    run = copied("all", "bin", "asancol-run")
    used = copied("all", "lib", "asancol", PRELOADED)
    say = ["--preload", "--unchecked=no", "sh", "-c", "echo $LD_PRELOAD"]
    expect(suite.run_argv([run, *say]).out, f"{os.path.realpath(used)}\n", "as it is installed")
    other = "/lib/x86_64-linux-gnu/libm.so.6"
    for before, after in (("", ""), (other, f":{other}")):
        expect(suite.run(*say, LD_PRELOAD=before).out, f"{os.path.realpath(library)}{after}\n", "as it is built")
    ran = suite.run_argv([copied("alone", "bin", "asancol-run"), *say])
    expect((ran.status, ran.out, PRELOADED in ran.err), (125, "", True), ran.err)
    run = copied("a folder", "bin", "asancol-run")
    copied("a folder", "lib", "asancol", PRELOADED)
    ran = suite.run_argv([run, *say])
    expect((ran.status, ran.out, "with a blank or a colon in its path" in ran.err), (125, "", True), ran.err)


def has_python() -> bool:
    """Whether extensions can be built for the Python that runs this."""
    header = f"{sysconfig.get_path('include')}/Python.h"
    return os.path.exists(header) and importlib.util.find_spec("setuptools") is not None


def check_python(suite: Suite, folder: str, compiler: str) -> None:
    """The commands of the manual page: an extension is built, and its tests run."""
    for name, text in (("texts.c", EXTENSION), ("setup.py", SETUP), ("test_texts.py", TESTS)):
        write_text(f"{folder}/{name}", text)
    python = os.path.realpath(sys.executable)
    made = suite.run_argv([python, "setup.py", "-q", "build_ext", "--inplace"], cwd=folder, CC=CC,
                           ASANCOL_CC=compiler, CFLAGS="-g")
    expect(made.status, 0, made.err)
    for allocator, leaks in (("", "no"), ("malloc", "yes")):
        settings = {"PYTHONMALLOC": allocator} if allocator else {}
        argv = ["--preload", f"--leaks={leaks}", "--", python, "-m", "unittest"]
        ran = suite.run(*argv, cwd=folder, ASANCOL_REPORT=REPORT, **settings)
        expect_ran(ran, 0, "asancol: no reports; ", "not checked: ", absent=["INCOMPLETE"])
        ran = suite.run(*argv, cwd=folder, ASANCOL_REPORT=REPORT, MORE="0", **settings)
        expect_ran(ran, 99, "heap-buffer-overflow: store of 7 bytes in strcpy", "in copy texts.c:11:",
                   absent=["INCOMPLETE"])


def tests(suite: Suite) -> None:
    can_mount = os.path.isdir(OF_SYSTEM) and suite.run_argv(["unshare", "-rm", "true"]).status == 0
    if not can_mount:
        leave_out(f"a program of the system: unshare cannot make namespaces, or {OF_SYSTEM} is not there")
    for compiler in compilers_there():
        suite.test(f"preload, {compiler}", check_module, compiler)
        suite.test(f"preload, processes, {compiler}", check_processes, compiler)
        if can_mount:
            suite.test(f"preload, program of the system, {compiler}", check_system, compiler)
        suite.test(f"preload, programs of asancol-cc, {compiler}", check_own_programs, compiler)
        if has_python():
            suite.long_test(f"preload, Python, {compiler}", check_python, compiler)
    if not has_python():
        leave_out("Python.h or setuptools is not there")
    suite.test("preload, places", check_places)
