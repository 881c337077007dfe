"""The ways in which builds call a compiler: each stands here with the wrapper in the compiler's place."""

import os
import re
import shutil

from support import (CC, CXX, HELPER, PAST_THE_END, TOP, Failure, build, expect, noted, one_mark, reports, run,
                     write)


class Builder:
    """A folder with a program of two sources, and the wrapper of a compiler."""

    def __init__(self, suite, folder, compiler):
        self.suite, self.folder, self.compiler = suite, folder, compiler
        write(folder, main_c=PAST_THE_END, helper_c=HELPER)

    def cc(self, *argv, stdin=None, warning=None, command=None):
        """Runs the wrapper, which gives this warning and no other, and returns what it prints."""
        made = run([CC, *argv], self.folder, stdin, ASANCOL_CC=command or self.compiler.name)
        if made.returncode != 0:
            raise Failure(f"{argv}: {made.stderr.decode()}")
        wanted = f"asancol-cc: warning: {warning}\n" if warning else ""
        expect(made.stderr.decode(), wanted, f"{argv}")
        return made.stdout

    def objects(self):
        """Compiles both sources, each by itself."""
        self.cc("-c", "main.c")
        self.cc("-c", "-DVALUE=1", "-o", "helper.o", "helper.c")

    def link(self, *argv, **more):
        """Makes the program, which has to show its mark."""
        self.cc(*argv, "-o", "program", **more)
        one_mark(self.suite, self.folder)

    def text_of(self, name):
        with open(f"{self.folder}/{name}", encoding="utf-8") as file:
            return file.read()


def check_objects(suite, folder, compiler):
    """By steps, and in one; a partial link, and an archive."""
    made = Builder(suite, folder, compiler)
    made.objects()
    made.link("main.o", "helper.o")
    made.link("-DVALUE=1", "main.c", "helper.c")
    made.cc("-r", "main.o", "helper.o", "-o", "both.o")
    made.link("both.o")
    build(["ar", "rcs", "libhelper.a", "helper.o"], folder)
    made.link("main.o", "libhelper.a")


def check_texts(suite, folder, compiler):
    """The output in place of an object."""
    made = Builder(suite, folder, compiler)
    # Scripts such as configure read preprocessed text: it has nothing of the recorder's.
    shown = made.cc("-E", "-DVALUE=7", "helper.c")
    expect((b"((volatile char *)p)[8] = 7" in shown, b"asan" in shown), (True, False), "-E")
    expect(b"helper.o: helper.c" in made.cc("-M", "helper.c"), True, "-M")
    expect(b"helper.o: helper.c" in made.cc("-MM", "helper.c"), True, "-MM")
    made.cc("-MMD", "-MF", "deps", "-MT", "it", "-DVALUE=1", "-c", "helper.c", "-o", "helper.o")
    expect(made.text_of("deps").startswith("it: helper.c"), True, "-MF")
    made.cc("-S", "-DVALUE=1", "helper.c")
    expect("_report_" in made.text_of("helper.s"), True, "-S")
    made.link("main.c", "helper.s")


def check_inputs(suite, folder, compiler):
    """The language of what follows, standard input, and response files, with what they say of the link."""
    made = Builder(suite, folder, compiler)
    made.cc("-c", "main.c")
    shutil.copy(f"{folder}/helper.c", f"{folder}/helper.txt")
    made.link("-DVALUE=1", "-x", "c", "helper.txt", "-x", "none", "main.o")
    made.cc("-x", "c", "-", "-c", "-o", "in.o", stdin=HELPER.replace("VALUE", "3").encode())
    made.link("-DVALUE=1", "main.c", "-x", "c", "helper.txt")
    # It is linked twice if it is stripped, or has a variable with the name of a function.
    standard = (HELPER.replace("VALUE", "1") + "int read = 1;\n").encode()
    made.link("-w", "main.c", "-x", "c", "-", "-s", stdin=standard)
    made.link("-w", "main.c", "-x", "c", "/dev/stdin", stdin=standard)
    write(folder, a_rsp="-c -DVALUE='1' helper.c -o 'helper two.o'\n", b_rsp="main.o \"helper two.o\" -o program\n")
    made.cc("@a.rsp")
    made.cc("@b.rsp")
    one_mark(suite, folder)


def check_shared_object(suite, folder, compiler):
    """One that allows nothing undefined and shows one name. It can be used without a recorder too."""
    made = Builder(suite, folder, compiler)
    write(folder, one_map="{ global: helper; local: *; };\n")
    script = ("-Wl,-z,defs", "-Wl,--version-script=one.map")
    made.cc("-fPIC", "-shared", "-DVALUE=1", "helper.c", *script, "-o", "libhelper.so")
    made.link("main.c", "-L.", "-lhelper", "-Wl,-rpath,$ORIGIN")
    build([compiler.name, "main.c", "-L.", "-lhelper", "-Wl,-rpath,$ORIGIN", "-o", "plain"], folder)
    expect(run(["./plain"], folder).returncode, 0, "a plain program with such an object")


SUM = """
#include <limits.h>
int main(int count, char **argv) { (void)argv; volatile int sum = INT_MAX; sum += count; return 0; }
"""

LINKERS = [name for name in ("bfd", "gold", "lld", "mold") if shutil.which(f"ld.{name}")]

# Words that leave checks out.
LACKING = {
    "gcc": [
        "--param asan-stack=0",
        "--param=asan-stack=0",
        "--param asan-globals=0",
        "--param=asan-instrument-reads=0",
        "--param asan-instrument-writes=0",
        "--param asan-instrument-allocas=0",
        "--param asan-memintrin=0",
        "-fno-sanitize-address-use-after-scope",
    ],
    "clang": [
        "-mllvm -asan-stack=0",
        "-mllvm --asan-stack=false",
        "-mllvm -asan-globals=0",
        "-mllvm -asan-instrument-reads=false",
        "-mllvm -asan-instrument-writes=0",
        "-mllvm -asan-instrument-atomics=0",
        "-mllvm -asan-instrument-byval=0",
        "-mllvm -asan-instrument-dynamic-allocas=0",
        "-Xclang -mllvm -Xclang -asan-instrument-reads=0",
        "-mllvm -asan-redzone-byval-args=0",
    ],
}


def check_options(suite, folder, compiler):
    """Other kinds of programs, all warnings, and the sanitizer for undefined behaviour."""
    made = Builder(suite, folder, compiler)
    both = ("-DVALUE=1", "main.c", "helper.c")
    for flags in (["-no-pie"], ["-O2", "-D_FORTIFY_SOURCE=2"], ["-std=c99", "-pedantic-errors"]):
        made.link(*flags, *both)
    made.link("-static", *both)
    if compiler.name != "clang":
        made.link("-O2", "-flto", *both)
    elif shutil.which("ld.lld"):
        made.link("-O2", "-flto", "-fuse-ld=lld", *both)
    write(folder, sound_c="int main(void)\n{\n    return 0;\n}\n")
    everything = ["-Weverything"] if compiler.name == "clang" else ["-Wextra", "-Wmissing-declarations"]
    made.cc("-std=c89", "-Wall", "-Wpedantic", "-Werror", *everything, "sound.c", "-o", "sound")
    if run([compiler.name, "-fsanitize=undefined", "sound.c", "-o", "undefined"], folder).returncode == 0:
        made.link("-fsanitize=undefined", *both)


def check_no_recovery(suite, folder, compiler):
    """-fno-sanitize-recover=all, often beside -fsanitize=undefined: a bad access does not end the process, and
    undefined behaviour does, as it says."""
    made = Builder(suite, folder, compiler)
    both = ("-DVALUE=1", "main.c", "helper.c")
    made.link("-fno-sanitize-recover=all", *both)
    made.link("-fno-sanitize-recover=address,undefined", "-O2", *both)
    if compiler.name != "clang":
        flags = ("-O2", "-flto", "-fno-sanitize-recover=all")
        made.cc(*flags, "-c", *both)
        made.link(*flags, "main.o", "helper.o")
    made.link("-fno-sanitize-recover=all", "--asancol-all", *both)
    write(folder, sum_c=SUM)
    if run([compiler.name, "-fsanitize=undefined", "sum.c", "-o", "undefined"], folder).returncode != 0:
        return
    for recovery, status in (("-fno-sanitize-recover=all", 1), ("-fno-sanitize-recover=undefined", 1),
                             ("-fsanitize-recover=all", 0)):
        made.link("-fsanitize=undefined", recovery, *both)
        made.cc("-fsanitize=undefined", recovery, "sum.c", "-o", "sum")
        ran = run(["./sum"], folder)
        expect((ran.returncode, b"signed integer overflow" in ran.stderr), (status, True), recovery)


# As configure looks for a function in a library.
LOOKS_FOR_INIT = "char __asan_init();\nint main(void) { return __asan_init(); }\n"


def check_runtimes(suite, folder, compiler):
    """AddressSanitizer's runtime, in each form in which a link names it, is left out, whether it is there or not. That
    of a sanitizer that can't be beside it is refused, or makes a program in which nothing is recorded."""
    made = Builder(suite, folder, compiler)
    made.objects()
    both = ("main.o", "helper.o")
    write(folder, a_rsp="-lasan helper.o -l asan\n", b_rsp="@a.rsp\n")
    for name in ("libasan.so.8", "libclang_rt.asan-x86_64.a"):
        with open(f"{folder}/{name}", "w", encoding="utf-8"):
            pass
    for words in (["-lasan"], ["-l", "asan"], ["-l:libasan.so"], ["-l:libasan.a"], ["-Wl,-lasan"], ["-llsan", "-lasan"],
                  ["-Wl,--push-state,--no-as-needed,-lasan,--pop-state"], ["-Xlinker", "-lasan"], ["./libasan.so.8"],
                  [f"{folder}/libclang_rt.asan-x86_64.a"], ["-L.", "-lclang_rt.asan-x86_64"],
                  ["-fsanitize=address", "-lasan"],
                  ["-Wl,--whole-archive,/none/libasan.a,--no-whole-archive"], ["-lasan", "-lm"]):
        made.link(*both, *words)
    made.link("main.o", "@a.rsp")
    made.link("main.o", "@b.rsp")
    write(folder, look_c=LOOKS_FOR_INIT)
    made.cc("-w", "look.c", "-lasan", "-o", "look")
    expect(run(["./look"], folder).returncode, 0, "what configure does")
    foreign = "remove it: nothing is recorded with this option"
    write(folder, empty_c="int main(void) { return 0; }\n")
    for words in (["-ltsan"], ["-l", "tsan"], ["-Wl,-ltsan"], ["-l:libtsan.so.2"], ["./libtsan.a"],
                  ["-lclang_rt.tsan-x86_64"], ["-lhwasan"]):
        named = "-ltsan" if words == ["-l", "tsan"] else words[-1].replace("-Wl,", "")
        said = run([CC, "empty.c", *words, "-o", "empty"], folder, ASANCOL_CC=compiler.name).stderr.decode()
        expect(f"asancol-cc: warning: {named}: {foreign}" in said.splitlines(), True, f"{words}: {said}")
        ran = run([CC, *both, *words, "-o", "program"], folder, ASANCOL_CC=compiler.name)
        no_place = "remove it: code compiled by asancol-cc can't be in a program with another sanitizer"
        expect((ran.returncode, ran.stderr.decode()), (1, f"asancol-cc: error: {named}: {no_place}\n"), f"{words}")
    # A file may be made that has such a name.
    made.cc("-fPIC", "-shared", "helper.c", "-DVALUE=1", "-o", "libasan.so", "-Wl,-soname,libasan.so")
    made.cc("-c", "-MD", "-MF", "libasan.a", "-MT", "libasan.so", "helper.c", "-DVALUE=1")
    expect(made.text_of("libasan.a").startswith("libasan.so: "), True, "-MF and -MT")


# A resolver with a variable, which calls wrapped functions.
RESOLVES = """
#include <pthread.h>
#include <stdlib.h>
#include <string.h>
static pthread_mutex_t lock = PTHREAD_MUTEX_INITIALIZER;
static int zero(void) { return 0; }
static int one(void) { return 1; }
static char *volatile word = "abcdefg";
static int (*resolve(void))(void)
{
    char text[16], *volatile at = text;
    pthread_mutex_lock(&lock);
    strcpy(at, word);
    pthread_mutex_unlock(&lock);
    return strlen(at) == 7 && memcmp(at, word, 8) == 0 ? zero : one;
}
int call(void) __attribute__((ifunc("resolve")));
int main(int count, char **argv) { (void)argv; free(malloc(count)); return call(); }
"""


def check_before_start(suite, folder, compiler):
    """What runs before the recorder's start calls wrapped functions: a resolver; and the runtime of Clang for undefined
    behaviour, whose entry of .preinit_array comes first."""
    write(folder, resolves_c=RESOLVES, sound_c="int main(void) { return 0; }\n")
    made = Builder(suite, folder, compiler)

    def runs(program, **settings):
        ran = run([program], folder, ASANCOL_TRACE="t", **settings)
        expect((ran.returncode, ran.stderr), (0, b""), f"{program} with {settings}")
        status, found, _ = reports(suite.asancol, f"{folder}/t")
        expect((status, found), (0, []), f"{program} with {settings}")
        os.unlink(f"{folder}/t")
    for flags in ([], ["-O2"], ["-no-pie"], ["-Wl,-z,now"]):
        made.cc(*flags, "resolves.c", "-o", "resolves")
        runs("./resolves")
    names = [compiler.name] if compiler.name != "clang" else ["clang", "clang-16", "clang-19", "clang-22"]
    for name in (it for it in names if shutil.which(it)):
        if run([name, "-fsanitize=undefined", "sound.c", "-o", "undefined"], folder).returncode == 0:
            made.cc("-fsanitize=address,undefined", "sound.c", "-o", "sound", command=name)
            for options in "log_path=a/b/log", "log_path=log:log_exe_name=1:print_stacktrace=1":
                runs("./sound", UBSAN_OPTIONS=options)


LOST = """
volatile int sink;
__attribute__((noinline)) int bug(int i) { int *p = new int[4]; return p[i]; }
int main(int count, char **) { sink = bug(4 * count); }
"""


def check_new(suite, folder, compiler):
    """A read past what `new` has returned: no optimisation takes it away. No source, of any kind, gets a word for that
    of which the compiler says that it does not use it."""
    write(folder, lost_cpp=LOST, sound_c="int main(void) { return 0; }\n", code_s='.section .note.GNU-stack,""\n')
    settings = {"ASANCOL_CC": compiler.name, "ASANCOL_CXX": compiler.cxx}
    for flags in (["-O0"], ["-O1"], ["-O2"], ["-O3"], ["-O2", "--asancol-all"]):
        build([CXX, "-Werror", *flags, "lost.cpp", "-o", "lost"], folder, **settings)
        build(["./lost"], folder, ASANCOL_TRACE="lost.trace")
        status, said, _ = reports(suite.asancol, f"{folder}/lost.trace")
        expect((status, said), (1, ["load 4 +16 heap-buffer-overflow"]), f"{flags}")
        os.unlink(f"{folder}/lost.trace")
    made = Builder(suite, folder, compiler)
    for argv in (["-c", "code.s"], ["sound.c", "code.s"], ["-x", "c++", "lost.cpp", "-c"], ["-E", "sound.c"],
                  ["-M", "sound.c"], ["-fsyntax-only", "sound.c"], ["-c", "sound.c"], ["sound.o", "-o", "sound"]):
        made.cc("-Werror", *argv)


# The same, and nothing takes these back. GCC says of some what it leaves out.
LACKING_FOR_GOOD = {
    "gcc": ["-fdisable-tree-asan -O1", "-fdisable-tree-asan0"],
    "clang": [
        "-mllvm -asan-max-ins-per-bb=1",
        "-Xclang -disable-llvm-passes",
        "-Xclang -fsanitize-ignorelist=list.txt",
        "-fsanitize-ignorelist=list.txt",
        "-fsanitize-blacklist=list.txt",
    ],
}


def check_lacking_checks(suite, folder, compiler):
    """Words that take some of the checks away are let through, and said: the verdict does not say of code compiled with
    them that it was checked. The last one holds."""
    made = Builder(suite, folder, compiler)
    write(folder, words_rsp=f"{LACKING[compiler.name][0]}\n", list_txt="fun:helper\n")
    text = "code compiled with this option lacks checks, and misses some bad accesses"
    for words in LACKING[compiler.name]:
        named = words.replace("--param=", "--param ").replace("-Xclang ", "")
        made.cc("-c", "-DVALUE=1", "helper.c", *words.split(), warning=f"{named}: {text}")
        made.cc("main.c", "helper.o", "-o", "program")
        expect(noted(f"{folder}/program"), ["helper.o"], f"an object with {words}")
        made.cc("-DVALUE=1", "main.c", "helper.c", *words.split(), "-o", "program", warning=f"{named}: {text}")
        expect(noted(f"{folder}/program"), ["main.c", "helper.c"], f"sources with {words}")
        again = words.replace("=0", "=1").replace("false", "true").replace("-fno-", "-f")
        made.link("-DVALUE=1", "main.c", "helper.c", *again.split())
        expect(noted(f"{folder}/program"), [], again)
    for words in LACKING_FOR_GOOD[compiler.name]:
        argv = ["-c", "-DVALUE=1", "helper.c", *words.split()]
        said = run([CC, *argv], folder, ASANCOL_CC=compiler.name).stderr.decode()
        expect(f"asancol-cc: warning: {words.replace(' -O1', '')}: {text}" in said.splitlines(), True, said)
        made.cc("main.c", "helper.o", "-o", "program")
        expect(noted(f"{folder}/program"), ["helper.o"], f"an object with {words}")
    made.cc("-c", "-DVALUE=1", f"-DTEXT=\"a {LACKING[compiler.name][0]}\"", "helper.c")
    made.link("main.c", "helper.o")
    expect(noted(f"{folder}/program"), [], "a macro with such words")
    made.cc("-c", "-DVALUE=1", "helper.c", "@words.rsp", warning=f"{LACKING[compiler.name][0]}: {text}")


STREAM = """
#include <iostream>
extern "C" int say(int n) { std::cout << n << std::endl; return 0; }
#ifdef MAIN
int main(int count, char **) { return say(count); }
#endif
"""


def check_cxx_inside(suite, folder, compiler):
    """The library of C++ as an archive, in a program and in a shared object that calls no operator itself."""
    write(folder, say_cpp=STREAM, user_c="int say(int);\nint main(int count, char **argv) { return say(count); }\n")
    settings = {"ASANCOL_CC": compiler.name, "ASANCOL_CXX": compiler.cxx}
    for linker in LINKERS:
        argv = [CXX, f"-fuse-ld={linker}", "-static-libstdc++", "say.cpp"]
        build([*argv, "-DMAIN", "-o", "program"], folder, **settings)
        build([*argv, "-fPIC", "-shared", "-o", "libsay.so"], folder, **settings)
        build([CC, f"-fuse-ld={linker}", "user.c", "./libsay.so", "-lm", "-o", "user"], folder, **settings)
        for program in ("./program", "./user"):
            ran = run([program], folder, ASANCOL_TRACE="t.trace")
            expect((ran.returncode, ran.stdout, ran.stderr), (0, b"1\n", b""), f"{program} by {linker}")
            expect(reports(suite.asancol, f"{folder}/t.trace")[:2], (0, []), f"{program} by {linker}")
            os.unlink(f"{folder}/t.trace")


def check_languages(suite, folder, compiler):
    """Headers, one that is precompiled and then included first; preprocessed text, and assembly."""
    made = Builder(suite, folder, compiler)
    made.objects()
    write(folder, one_h="extern int one;\n")
    made.cc("-x", "c-header", "one.h", "-o", "one.h.gch")
    made.cc("one.h", "-o", "one.h.gch")
    write(folder, main_h="int helper(char *);\n")
    made.cc("-x", "c-header", "main.h", "-o", "main.h.pch" if compiler.name == "clang" else "main.h.gch")
    made.link("-Winvalid-pch", "-include", "main.h", "main.c", "helper.o")
    made.cc("-DVALUE=1", "-E", "helper.c", "-o", "helper.i")
    made.link("main.c", "helper.i")
    made.cc("-c", "helper.i", "-o", "helper.o")
    made.cc("-c", "-x", "cpp-output", "helper.i", "-o", "helper.o")
    made.link("main.o", "helper.o")
    write(folder, one_S="#define NAME one\n.globl NAME\nNAME: ret\n.section .note.GNU-stack,\"\",@progbits\n")
    made.link("-DVALUE=1", "main.c", "helper.c", "one.S")
    expect(noted(f"{folder}/program"), ["one.S"], "what was not compiled")


def check_passed_on(suite, folder, compiler):
    """What compiles nothing is passed on as it is, and errors are the compiler's own, with its status."""
    made = Builder(suite, folder, compiler)
    for argv in (["-dumpmachine"], ["-print-prog-name=ld"], ["-print-search-dirs"], ["--version", "-w"]):
        expect(made.cc(*argv), run([compiler.name, *argv], folder).stdout, f"{argv}")
    with open(f"{TOP}/VERSION", "rb") as file:
        release = file.read()
    wanted = run([compiler.name, "--version"], folder).stdout + b"asancol-cc (asancol) " + release
    expect(made.cc("--version"), wanted, "--version")
    shown = made.cc("--asancol-help")
    expect((b"  --asancol-all " in shown, shown.endswith(b"\nasancol " + release)), (True, True), shown)
    ours = run([CC, "-v"], folder, ASANCOL_CC=compiler.name)
    theirs = run([compiler.name, "-v"], folder)
    expect((ours.returncode, ours.stderr.splitlines()[-1]), (0, theirs.stderr.splitlines()[-1]), "-v")
    made.link("-DVALUE=1", "main.c", "helper.c")
    before = os.stat(f"{folder}/program").st_mtime_ns
    write(folder, other_c="int main(void) { return 0; }\n")
    ours = run([CC, "-###", "other.c", "-o", "program"], folder, ASANCOL_CC=compiler.name)
    expect((ours.returncode, b"libasancol_record.a" in ours.stderr), (0, True), "-###")
    expect(os.stat(f"{folder}/program").st_mtime_ns, before, "what was there before -###")
    write(folder, bad_c="int main(void) { return nothing; }\n")
    theirs = run([compiler.name, "-c", "bad.c"], folder)
    ours = run([CC, "-c", "bad.c"], folder, ASANCOL_CC=compiler.name)
    expect((ours.returncode, ours.stderr), (theirs.returncode, theirs.stderr), "an error")


def script(folder, path, text):
    os.makedirs(os.path.dirname(f"{folder}/{path}"), exist_ok=True)
    with open(f"{folder}/{path}", "w", encoding="utf-8") as file:
        file.write(f"#!/bin/sh\n{text}\n")
    os.chmod(f"{folder}/{path}", 0o755)
    return f"{folder}/{path}"


def check_kinds(suite, folder, compiler):
    """The compiler says which it is, and no name does: neither that of a script or a folder, nor a word of the line."""
    made = Builder(suite, folder, compiler)
    name, other = compiler.name, "gcc" if compiler.name == "clang" else "clang"
    commands = [
        f"env A=1 {name}",
        f"{name} -B/usr/lib/{other}",
        script(folder, f"bin/{other}", f'exec {name} "$@"'),
        f"{os.path.realpath(shutil.which(name))} -O1",
    ]
    if name == "clang":
        commands.append("clang --driver-mode=g++ -x c")
    if shutil.which("ccache"):
        commands.append(f"ccache {name}")
    for command in commands:
        made.link("-DVALUE=1", "main.c", "helper.c", command=command)
    # Words of the compiler's own are looked at too.
    foreign = ["-c", "-DVALUE=1", "helper.c"]
    made.cc(*foreign, command=f"{name} -m32", warning="-m32: nothing is recorded with this option")
    warning = "-fsanitize=thread: remove it: nothing is recorded with this option"
    made.cc(*foreign, command=f"{name} -fsanitize=thread", warning=warning)
    if name == "clang":
        made.cc(*foreign, "-fsanitize=safe-stack", warning=warning.replace("thread", "safe-stack"))
    unknown = script(folder, "unknown", f'[ "$1" = --version ] || exec {name} "$@"')
    warning = f"{unknown}: neither GCC nor Clang by its --version: its code is not recorded"
    made.cc("-c", "main.c", command=unknown, warning=warning)


def check_own_flag(suite, folder, compiler):
    """-fsanitize=address and =leak ask for what the wrapper and asancol-run do; others stay."""
    made = Builder(suite, folder, compiler)
    write(folder, flags="-fsanitize=undefined,address\n", wide_c="int wide(int by) { return 1 << by; }\n")
    for flags in (
        ["-fsanitize=address"], ["-fsanitize=leak"], ["-fsanitize=leak,address"], ["@flags"],
        ["-fsanitize=address", "-flto"],
        ["-fsanitize=address", "-fno-sanitize-recover=all"], ["-fno-sanitize=address", "-fsanitize=address"],
        ["-fsanitize=address", "-Wall", "-Wextra", "-Werror"],
    ):
        made.cc(*flags, "-c", "-DVALUE=1", "main.c", "helper.c")
        made.link(*flags, "main.o", "helper.o")
        made.link(*flags, "-DVALUE=1", "main.c", "helper.c")
        needed = run(["ldd", "./program"], folder).stdout
        expect([it for it in (b"libasan", b"liblsan", b"libclang_rt.asan") if it in needed], [], f"{flags}")
    for flags in (["@flags"], ["-fsanitize=address,undefined"]):
        made.cc(*flags, "-S", "wide.c")
        expect("__ubsan_handle_shift_out_of_bounds" in made.text_of("wide.s"), True, f"{flags}")
    if compiler.name == "gcc":
        made.link("-fsanitize=address,undefined", "-static-libubsan", "-DVALUE=1", "main.c", "helper.c")
    refused = "-fno-sanitize=address: code compiled with this option is not recorded"
    made.cc("-fsanitize=address", "-fno-sanitize=address", "-DVALUE=1", "-c", "helper.c", warning=refused)


# What a compiler's program has among its texts.
TEXTS = {"gcc": "%{!fsyntax-only", "clang": "libclang-cpp.so.14"}

# It does not say its version.
SILENT = """
#include <string.h>
#include <unistd.h>
const char text[] = "TEXT";
int main(int count, char **argv)
{
    argv[0] = "COMPILER";
    return count > 1 && strcmp(argv[1], "--version") == 0 ? 1 : execvp(argv[0], argv);
}
"""


def check_not_asked(suite, folder, compiler):
    """A compiler is known by a text of its program, and then it is not run for its version."""
    made = Builder(suite, folder, compiler)
    for text in (TEXTS[compiler.name], "nothing"):
        write(folder, silent_c=SILENT.replace("TEXT", text).replace("COMPILER", compiler.name))
        build([compiler.name, "-w", "silent.c", "-o", "silent"], folder)
        silent = f"{folder}/silent"
        if text != "nothing":
            made.link("-DVALUE=1", "main.c", "helper.c", command=silent)
    warning = f"{silent}: neither GCC nor Clang by its --version: its code is not recorded"
    made.cc("-c", "main.c", command=silent, warning=warning)


# What the wrapper is called, to what that leads, and for which language it is then.
CALLED = (
    ("asancol-cc", CC, "C"),
    ("asancol-c++", CC, "C++"),
    ("cc", CC, "C"),
    ("g++", CC, "C++"),
    ("asancol-fc", CC, "Fortran"),
    ("gfortran-12", CC, "Fortran"),
    ("clang++-15", CC, "C++"),
    ("x86_64-linux-gnu-asancol-cc-14.2", CXX, "C"),
    ("x86_64-linux-gnu-asancol-c++-14.2", CC, "C++"),
    ("compiler", CC, "C"),
    ("cxx", CXX, "C++"),
    ("first", "second", "C++"),
    ("second", "asancol-c++", "C++"),
    ("round", "round-about", None),
)


# Names that say which compiler is run, whatever the variables say.
NAMED = ("gcc", "gcc-12", "g++", "clang", "clang-15", "clang++", "aarch64-linux-gnu-gcc")
NO_COMPILER = "there is no such compiler in PATH: install it, or name another by --asancol-compiler="


def check_named(suite, folder, compiler):
    """A name that begins with asancol- and is no other runs the compiler that it says; the option goes before that."""
    settings = {"ASANCOL_CC": "echo C", "ASANCOL_CXX": "echo C++", "PATH": f"{folder}/bin:{os.environ['PATH']}"}
    os.mkdir(f"{folder}/bin")
    for name in (*NAMED, "other"):
        write(f"{folder}/bin", **{name: f"#!/bin/sh\necho {name} $*\n"})
        os.chmod(f"{folder}/bin/{name}", 0o755)
        os.symlink(CC, f"{folder}/bin/asancol-{name}")
    os.symlink("asancol-clang++", f"{folder}/bin/first")
    for name, word in (*((it, f"asancol-{it}") for it in NAMED), ("clang++", "first")):
        for option, wanted in (([], name), (["--asancol-compiler=other"], "other")):
            said = run([word, *option, "-dumpmachine"], folder, **settings).stdout.decode()
            expect(said, f"{wanted} -dumpmachine\n", word)
    os.symlink(CC, f"{folder}/bin/asancol-no-such-one")
    said = run(["asancol-no-such-one", "a.c"], folder, **settings).stderr.decode()
    expect(said, f"asancol-no-such-one: error: no-such-one: {NO_COMPILER}\n", "a compiler that is missing")


def check_names(suite, folder, compiler):
    """Its name says for which language it is: first that by which it was called, and then those along the links."""
    settings = {"ASANCOL_CC": "echo C", "ASANCOL_CXX": "echo C++", "ASANCOL_FC": "echo Fortran",
                "PATH": f"{folder}/bin:{os.environ['PATH']}"}
    os.mkdir(f"{folder}/bin")
    for name, target, _ in CALLED:
        os.symlink(target, f"{folder}/bin/{name}")
    for name, _, language in CALLED:
        for word in filter(lambda _, language=language: language, (name, f"bin/{name}", f"{folder}/bin/{name}")):
            said = run([word, "-dumpmachine"], folder, **settings).stdout.decode()
            expect(said, f"{language} -dumpmachine\n", word)
    shutil.copy(CC, f"{folder}/g++")
    expect(run(["./g++", "-dumpmachine"], folder, **settings).stdout, b"C++ -dumpmachine\n", "a copy")
    said = run(["g++", "a.cc"], folder, **{**settings, "ASANCOL_CXX": "no-such-one"}).stderr.decode()
    expect(said, f"asancol-c++: error: no-such-one: {NO_COMPILER}\n", "what it calls itself")


OWN_WRAP = """
#include <unistd.h>
ssize_t __real_read(int, void *, size_t);
ssize_t __wrap_read(int file, void *to, size_t count) { return file == 77 ? 5 : __real_read(file, to, count); }
int helper(char *p) { if (read(77, p, 8) == 5) ((volatile char *)p)[8] = 1; return 0; }
"""


def check_own_wrap(suite, folder, compiler):
    """A program that wraps a function which the recorder wraps too, as tests do: its own is called, by each linker."""
    made = Builder(suite, folder, compiler)
    write(folder, wrap_c=OWN_WRAP)
    for linker in filter(lambda it: shutil.which(f"ld.{it}"), ("bfd", "gold", "lld", "mold")):
        for asked in ("-Wl,--wrap=read", "-Wl,--wrap,read"):
            made.link(f"-fuse-ld={linker}", "main.c", "wrap.c", asked)
        if linker == "mold":
            continue  # it keeps no sign of which symbol was weak
        ran = run([CC, f"-fuse-ld={linker}", "main.c", "wrap.c"], folder, ASANCOL_CC=compiler.name)
        said = ran.stderr.decode().partition(":")[2].split(":")[:2]
        expect((ran.returncode, said), (1, [" error", " __wrap_read"]), "without --wrap it would be called")


def check_sanitized(suite, folder, compiler):
    """An object with checks for AddressSanitizer's runtime is named before the linker refuses it. One that goes on
    after its reports fits."""
    made = Builder(suite, folder, compiler)
    made.objects()
    for other in ("gcc", "clang"):
        if shutil.which(other) is None:
            continue
        build([other, "-w", "-fsanitize=address", "-DVALUE=1", "-c", "helper.c", "-o", "other.o"], folder)
        for words in ([], ["-shared"]):
            ran = run([CC, "main.o", "other.o", *words, "-o", "program"], folder, ASANCOL_CC=compiler.name)
            wanted = "asancol-cc: error: other.o: another compiler made it with -fsanitize=address: compile it again"
            expect((ran.returncode, ran.stderr.decode()), (1, f"{wanted} with asancol-cc\n"), other)
        build([other, "-w", "-fsanitize=address", "-fsanitize-recover=address", "-DVALUE=1", "-c", "helper.c", "-o",
               "other.o"], folder)
        made.link("main.o", "other.o")


def check_own_options(suite, folder, compiler):
    """Options in the place of variables, which ccache does not see."""
    made = Builder(suite, folder, compiler)
    made.cc("-S", "-DVALUE=1", "helper.c", "--asancol-all", f"--asancol-compiler={compiler.name}",
            command="no-such-one")
    expect("__asan_store1_noabort" in made.text_of("helper.s"), True, "a call before each access")


BIG = """#include <stdio.h>
#include <stdlib.h>
char big[3000000000];
int main(int argc, char **argv)
{
    big[2999999999] = 5;
    char *volatile q = malloc(5);
    q[big[2999999999]] = 1;
    big[2999999999ul + argc] = **argv;
    free(q);
    return 0;
}
"""


def check_code_models(suite, folder, compiler):
    """More variables than the small code model reaches over, before the recorder's own or behind them."""
    write(folder, big_c=BIG)
    for model in ("medium", "large"):
        compiler.c(folder, ["big.c"], f"{folder}/big", f"-mcmodel={model}")
        ran = run(["./big"], folder, ASANCOL_TRACE=f"{model}.trace")
        expect((ran.returncode, ran.stderr), (0, b""), model)
        found = [it.split()[-1] for it in reports(suite.asancol, f"{folder}/{model}.trace")[1]]
        expect(found, ["heap-buffer-overflow", "global-buffer-overflow"], model)


def check_ccache(suite, folder, compiler):
    """Before the compiler it sees all, and before the wrapper the wrapper's options: each gives another object."""
    made = Builder(suite, folder, compiler)
    argv = ["-c", "-DVALUE=1", "helper.c", "-o", "helper.o"]
    setting = f"--asancol-compiler={compiler.name}"
    forms = {
        "inside": ([CC], {"ASANCOL_CC": f"ccache {compiler.name}"}, [CC], {"ASANCOL_ALL": "1"}),
        "outside": (["ccache", CC, setting], {}, ["ccache", CC, setting, "--asancol-all"], {}),
    }
    for name, (inline, settings, every, more) in forms.items():
        cache = {"CCACHE_DIR": f"{folder}/{name}", **settings}
        for command, added, call in ((inline, {}, "_report_"), (every, more, "__asan_store1_noabort")) * 2:
            build([*command, *argv], folder, **cache, **added)
            undefined = run(["nm", "-u", "helper.o"], folder).stdout.decode()
            expect(call in undefined, True, f"{name}: {undefined}")
        said = run(["ccache", "--print-stats"], folder, **cache).stdout.decode()
        expect(re.findall(r"(?:direct|preprocessed)_cache_hit\t(\d+)", said).count("2"), 1, f"{name}: {said}")
    made.link("main.c", "helper.o")


def tests(suite, compiler):
    if shutil.which("ccache"):
        suite.test(f"{compiler} builds: ccache", check_ccache, compiler)
    else:
        print("left out: ccache is not there")
    suite.test(f"{compiler} builds: kinds", check_kinds, compiler)
    suite.test(f"{compiler} builds: own flag", check_own_flag, compiler)
    suite.test(f"{compiler} builds: not asked", check_not_asked, compiler)
    suite.test(f"{compiler} builds: names", check_names, compiler)
    suite.test(f"{compiler} builds: named compiler", check_named, compiler)
    suite.test(f"{compiler} builds: own wrap", check_own_wrap, compiler)
    suite.test(f"{compiler} builds: for another runtime", check_sanitized, compiler)
    suite.test(f"{compiler} builds: own options", check_own_options, compiler)
    suite.test(f"{compiler} builds: code models", check_code_models, compiler)
    suite.test(f"{compiler} builds: objects", check_objects, compiler)
    suite.test(f"{compiler} builds: texts", check_texts, compiler)
    suite.test(f"{compiler} builds: inputs", check_inputs, compiler)
    suite.test(f"{compiler} builds: shared object", check_shared_object, compiler)
    suite.test(f"{compiler} builds: options", check_options, compiler)
    if compiler.cxx:
        suite.test(f"{compiler} builds: C++ inside", check_cxx_inside, compiler)
    suite.test(f"{compiler} builds: languages", check_languages, compiler)
    suite.test(f"{compiler} builds: no recovery", check_no_recovery, compiler)
    suite.test(f"{compiler} builds: before the start", check_before_start, compiler)
    suite.test(f"{compiler} builds: runtimes", check_runtimes, compiler)
    suite.test(f"{compiler} builds: new", check_new, compiler)
    suite.test(f"{compiler} builds: lacking checks", check_lacking_checks, compiler)
    suite.test(f"{compiler} builds: passed on", check_passed_on, compiler)
