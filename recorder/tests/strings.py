"""The library of C++: strings and streams have checks, whether an object takes them from the recorder's archive or they
are compiled with the program. Programs and shared objects built this way work beside others, whatever they take
from the library."""

import os
import signal
import time
from typing import Set

from support import (
    CC, CXX, RECORDER, TESTS, Compiler, Failure, Suite, build, by_sanitizer, environment, expect, leave_out, noted,
    one_mark, reports, run, write,
)
from testing.programs import Started
from unchecked import LINKERS

# By the library: the flags, and a header of it.
LIBRARIES = {
    "libstdc++": (["-O0"], "bits/c++config.h"),
    "libc++": (["-O1", "-stdlib=libc++"], "__config"),
}


def has(compiler: Compiler, library: str) -> bool:
    flags, header = LIBRARIES[library]
    argv = [compiler.cxx, *flags, "-fsyntax-only", "-x", "c++", "-include", header, "/dev/null"]
    return run(argv, "/").returncode == 0


def check_faults(suite: Suite, folder: str, compiler: Compiler, library: str, by_object: bool, *more: str) -> None:
    """Each has a report, of the same class as AddressSanitizer's if that names one."""
    flags = [*LIBRARIES[library][0], "-w", "-std=c++17", *more]
    if by_object:
        compiler.cpp(folder, [f"{TESTS}/strings.cpp"], "strings.o", *flags, "-c")
    compiler.cpp(folder, ["strings.o" if by_object else f"{TESTS}/strings.cpp"], "strings", *flags)
    if compiler.has_sanitizer:
        compiler.cpp(folder, [f"{TESTS}/strings.cpp"], "sanitized", *flags, "-fsanitize=address", native=True)
    names = run(["./strings", "--list"], folder).stdout.decode().split()
    expect(len(names) > 20, True, "tests")
    for name in names:
        ran = run(["./strings", name], folder, ASANCOL_TRACE=f"{name}.trace")
        expect(ran.returncode, 0, name)
        status, texts, _ = reports(suite.asancol, f"{folder}/{name}.trace")
        expect(status, 1, f"{name}: {texts}")
        if compiler.has_sanitizer:
            text = run(["./sanitized", name], folder, ASAN_OPTIONS="symbolize=0").stderr.decode(errors="replace")
            said = by_sanitizer(text)
            if said is not None and said[0] not in ["SEGV", *(it.split()[-1] for it in texts)]:
                raise Failure(f"{name}: AddressSanitizer says {said}, the trace {texts}")


MAIN = """
#include <stdlib.h>
int main(void)
{
    char *volatile block = (char *)malloc(8);
    block[8] = 1;
    free((void *)block);
    return 0;
}
"""

# An object that uses what the library has only once: the identities of facets, the empty string, cout.
OBJECT = """
#include <iostream>
#include <locale>
#include <sstream>
#include <stdexcept>
#include <string>
struct Mine : std::runtime_error { using std::runtime_error::runtime_error; };
std::string made_early = "a string that is made by a constructor";
int object(const std::string &text) {
    std::ostringstream out;
    out << text << 1.5 << std::hex << 255 << std::string();
    std::use_facet<std::num_put<char> >(std::locale());
    std::use_facet<std::collate<char> >(std::cout.getloc());
    int number;
    std::string word;
    std::istringstream("12 word") >> number >> word;
    if (text.empty()) throw Mine(out.str() + word);
    std::cout << out.str() << " " << number << std::endl;
    return number; }
"""
HOST = """
#include <iostream>
#include <sstream>
#include <string>
template class std::basic_string<char>;
int object(const std::string &text);
static std::string text() { std::ostringstream out; out << 1.25; return out.str(); }
static std::string early = text();
int main() {
    int number = object(early);
    try { object(std::string()); } catch (std::runtime_error &error) { std::cout << error.what() << std::endl; }
    return number - 12; }
"""
SAID = "1.251.5ff 12\n1.5ffword\n"


def check_objects(suite: Suite, folder: str, compiler: Compiler, flags: "list[str]") -> None:
    """In a host built with the recorder and in a plain one, where the library's own constructors take what the object
    has of it; with no name shown but one; and with nothing undefined."""
    write(folder, object_cpp=OBJECT, host_cpp=HOST, one_map="{ global: *6object*; local: *; };\n")
    link = ["-L.", "-lobject", "-Wl,-rpath,$ORIGIN"]
    for name, argv in (("recorded", [CXX]), ("plain", [compiler.cxx])):
        build([compiler.cxx, *flags, "-shared", "-fPIC", "object.cpp", "-o", "libobject.so"], folder)
        build([*argv, *flags, "-c", "host.cpp"], folder, ASANCOL_CXX=compiler.cxx)
        build([*argv, *flags, "host.o", *link, "-o", name], folder, ASANCOL_CXX=compiler.cxx)
    build([CXX, *flags, "-fPIC", "-fvisibility-inlines-hidden", "-c", "object.cpp"], folder, ASANCOL_CXX=compiler.cxx)
    for more in ((), ["-Wl,--version-script=one.map"], ["-Wl,-Bsymbolic"]):
        shared = ["-shared", "-Wl,-z,defs", "object.o"]
        build([CXX, *flags, *shared, *more, "-o", "libobject.so"], folder, ASANCOL_CXX=compiler.cxx)
        for name in ("recorded", "plain"):
            ran = run([f"./{name}"], folder, ASANCOL_TRACE="t.trace")
            expect((ran.returncode, ran.stdout.decode(), ran.stderr), (0, SAID, b""), f"{name} {more}")
        expect(reports(suite.asancol, f"{folder}/t.trace")[:2], (0, []), f"{more}")
        os.unlink(f"{folder}/t.trace")


INSTANTIATED = "_ZNSt7__cxx1112basic_stringIcSt11char_traitsIcESaIcEE9_M_appendEPKcm"
SMALL = "#include <string>\nint main(int n, char **argv) { return (std::string(argv[0]) += argv[n - 1]).empty(); }\n"


def check_texts(suite: Suite, folder: str, compiler: Compiler) -> None:
    """Precompiled headers, texts that were preprocessed, dependencies, and a caller who says where the headers are."""
    write(folder, main_cpp=SMALL, first_h="#include <string>\n")

    def make(*words: str) -> None:
        made = run([CXX, *words], folder, ASANCOL_CXX=compiler.cxx)
        expect((made.returncode, made.stderr), (0, b""), f"{words}")

    def make_instantiated(*words: str) -> None:
        make(*words, "-o", "made")
        expect(INSTANTIATED in run(["nm", "--defined-only", "made"], folder).stdout.decode(), True, f"{words}")

    make("-E", "main.cpp", "-o", "main.ii")
    make("-c", "main.ii")
    make_instantiated("main.o")
    make("-x", "c++-header", "first.h", "-o", "first.h.pch" if compiler.name == "clang" else "first.h.gch")
    make_instantiated("-Winvalid-pch", "-Werror", "-include", "first.h", "main.cpp")
    make_instantiated("-Wall", "-Wextra", "-Wundef", "-pedantic-errors", "-Werror", "-std=c++98", "main.cpp")
    make("-MD", "-MP", "-MF", "deps", "-fsyntax-only", "main.cpp")
    with open(f"{folder}/deps", encoding="utf-8") as file:
        expect([it for it in file.read().split() if "/" in it and not os.path.exists(it.rstrip(":"))], [], "deps")
    said = run([compiler.cxx, "-E", "-v", "-x", "c++", "/dev/null"], folder).stderr.decode()
    places = said.split("starts here:")[-1].split("End of")[0].split()
    makes = [f"-I{it}" for it in places if "c++" in it]
    make_instantiated("-nostdinc++", *makes, "main.cpp")
    build([CC, "-c", "main.cpp", "-o", "main.o"], folder, ASANCOL_CC=compiler.name)
    make_instantiated("main.o")


def names_in(folder: str, *words: str) -> Set[str]:
    said = run(["nm", *words], folder).stdout.decode()
    return {it.split()[-1] for it in said.splitlines() if " " in it}


# What a process may have only once: the identities of types, a constant, and functions whose addresses are taken.
ONCE = ("_ZTI", "_ZTS", "_ZNSt7__cxx1112basic_stringIcSt11char_traitsIcESaIcEE4nposE",
        "_ZNSt7__cxx1112basic_stringIcSt11char_traitsIcESaIcEED1Ev", "_ZSt4endlIcSt11char_traitsIcEE")
SUFFIX = ".asancol"


def names_of_archive(folder: str) -> Set[str]:
    """What an object can ask it for, without the suffix."""
    found = names_in(folder, "--defined-only", f"{RECORDER}/libasancol_cxx.a")
    return {it[: -len(SUFFIX)] for it in found if it.endswith(SUFFIX)}


def asks_once(folder: str, path: str) -> bool:
    return any(it.endswith(SUFFIX) for it in names_in(folder, "-u", path))


def check_once(suite: Suite, folder: str, compiler: Compiler) -> None:
    """An object asks the recorder's archive for all that it would compile of the library, or compiles it, by each
    standard."""
    write(folder, object_cpp=OBJECT, host_cpp=HOST, main_cpp=SMALL)
    known = names_of_archive(folder)
    for standard in ("c++98", "c++11", "gnu++14", "gnu++17", "c++20"):
        for source in ("main",) if standard == "c++98" else ("main", "object", "host"):
            words = [f"-std={standard}", "-w", "-O0", "-c", f"{source}.cpp"]
            build([CXX, "--asancol-all", *words, "-o", "all.o"], folder, ASANCOL_CXX=compiler.cxx)
            build([CXX, *words], folder, ASANCOL_CXX=compiler.cxx)
            asked, wanted = (names_in(folder, *it) for it in (("-u", f"{source}.o"), ("--defined-only", "all.o")))
            expect({it for it in asked & (wanted | known) if not it.startswith(ONCE)}, set(), f"{source}, {standard}")
            if source == "main":
                expect(asks_once(folder, "main.o"), standard not in ("c++98", "c++20"), standard)


# Each object that uses these has them, whatever the library declares; and one, of C++11 alone, only calls others.
IN_EACH = ("_ZNSt7__cxx1112basic_stringIcSt11char_traitsIcESaIcEE12_M_constructI", "_ZNSt11char_traits",
           "_ZNSt15basic_streambufIcSt11char_traitsIcEE6stosscEv")


def check_standards(suite: Suite, folder: str, compiler: Compiler) -> None:
    """The archive has all that the library declares to be compiled in it by the first standard for which it is
    taken."""
    known = names_of_archive(folder)
    shared = run([compiler.cxx, "-print-file-name=libstdc++.so.6"], folder).stdout.decode().strip()
    has = {it.split("@")[0] for it in names_in(folder, "-D", "--defined-only", shared)}
    with open(f"{RECORDER}/cxx/once/asancol/instances.h", encoding="ascii") as file:
        library = file.read().replace("#define ", "-D").strip().replace(" ", "=")
    for number in range(1, 9):
        words = [library, f"-DASANCOL_INSTANTIATES={number}", "-D_GLIBCXX_DEFINING_STRING_INSTANTIATIONS=1"]
        words += ["-std=c++11", "-O0", "-c", f"{RECORDER}/cxx/instances.cpp", "-o", "all.o"]
        build([CXX, "--asancol-all", *words], folder, ASANCOL_CXX=compiler.cxx)
        found = names_in(folder, "--defined-only", "all.o") & has
        expect(len(found) > 0, True, f"{number}")
        expect({it for it in found - known if not it.startswith((*ONCE, *IN_EACH))}, set(), f"{number}")


# Ways to compile that don't make the object that the arguments name, or not of this machine; that keep a text, which
# may be compiled again; and for a shared object, which any linker may make.
OTHERWISE = (["-S"], ["-E"], ["-fsyntax-only"], ["-M"], ["-c", "-flto"], ["-c", "-o", "/dev/null"],
             ["-c", "-save-temps=obj"], ["-c", "-fPIC"], ["-c", "main.cpp"])


def check_otherwise(suite: Suite, folder: str, compiler: Compiler) -> None:
    """A source compiled in another way than to one object has its own strings; and an object that others hold too, as a
    store of them, is not changed under them."""
    write(folder, main_cpp=SMALL, other_cpp=SMALL.replace("main", "other"))
    for words in OTHERWISE:
        made = run([CXX, *words, "other.cpp"], folder, ASANCOL_CXX=compiler.cxx)
        expect((made.returncode, made.stderr), (0, b""), f"{words}")
        if words[1:] and not {"-o", "-flto"} & set(words):
            expect(asks_once(folder, "other.o"), False, f"{words}")
    with open(f"{folder}/other.s", encoding="utf-8") as file:
        expect(SUFFIX in file.read(), False, "assembly")
    os.link(f"{folder}/other.o", f"{folder}/kept.o")
    build([CXX, "-c", "other.cpp"], folder, ASANCOL_CXX=compiler.cxx)
    expect((asks_once(folder, "other.o"), asks_once(folder, "kept.o")), (True, False), "one source")
    build([CXX, "-c", "other.cpp", "-o", 250 * "a" + ".o"], folder, ASANCOL_CXX=compiler.cxx)


# The address of a function is compared, as loggers do.
COMPARED = """
#include <ostream>
bool is_end(std::ostream &(*what)(std::ostream &)) {
    return what == static_cast<std::ostream &(*)(std::ostream &)>(std::endl); }
"""
COMPARES = """
#include <iostream>
bool is_end(std::ostream &(*what)(std::ostream &));
int main() { return is_end(std::endl) && !is_end(std::flush) ? 0 : 1; }
"""


def check_addresses(suite: Suite, folder: str, compiler: Compiler) -> None:
    """A function of the library has one address in all parts of a process, however each of them was compiled."""
    write(folder, compared_cpp=COMPARED, compares_cpp=COMPARES)
    for compared in (["-c"], ["-c", "-std=c++20"], ["-c", "-fPIC"]):
        build([CXX, *compared, "compared.cpp"], folder, ASANCOL_CXX=compiler.cxx)
        if "-fPIC" in compared:
            build([compiler.cxx, "-shared", "compared.o", "-o", "libcompared.so"], folder)
        parts = ["libcompared.so", "-Wl,-rpath,$ORIGIN"] if "-fPIC" in compared else ["compared.o"]
        for compares in ("-c", "-c -std=c++20", ""):
            program = "compares.o" if compares else "compares.cpp"
            if compares:
                build([CXX, *compares.split(), "compares.cpp"], folder, ASANCOL_CXX=compiler.cxx)
            for order in ([program, *parts], [*parts, program])[: 1 if "-fPIC" in compared else 2]:
                build([CXX, *order, "-o", "compares"], folder, ASANCOL_CXX=compiler.cxx)
                expect(run(["./compares"], folder).returncode, 0, f"{compared} {compares} {order}")


# A compiler after which its wrapper has no time to change the object.
KILLER = """#!/bin/sh
%s "$@" || exit
case " $* " in *" -c "*) kill -KILL $PPID ;; esac
"""


def check_unfinished(suite: Suite, folder: str, compiler: Compiler) -> None:
    """An object that the wrapper was not left to finish is named as not checked; and if it is ended, so is the
    compiler, which then leaves none."""
    write(folder, freed_cpp=FREED, killer=KILLER % compiler.cxx)
    os.chmod(f"{folder}/killer", 0o700)
    made = run([CXX, "-O1", "-g", "-c", "freed.cpp"], folder, ASANCOL_CXX=f"{folder}/killer")
    expect((made.returncode, asks_once(folder, "freed.o")), (-signal.SIGKILL, False), "killed")
    build([CXX, "freed.o", "-o", "freed"], folder, ASANCOL_CXX=compiler.cxx)
    expect(noted(f"{folder}/freed"), ["freed.o"], "the note")
    os.unlink(f"{folder}/freed.o")
    write(folder, slow_cpp=f"#include <regex>\n#include <filesystem>\n#include <iostream>\n{FREED}")
    settings = environment(ASANCOL_CXX=compiler.cxx)
    child = Started([CXX, "-O1", "-g", "-c", "slow.cpp"], cwd=folder, env=settings)
    time.sleep(0.2)
    child.terminate()
    expect((child.wait(), os.path.exists(f"{folder}/slow.o")), (-signal.SIGTERM, False), "ended")


# A loop of the library goes over bytes that were freed.
FREED = """
#include <new>
#include <string>
int main()
{
    std::string *text = new std::string(40, 'c');
    ::operator delete((void *)text->data());
    return text->rfind('x') == 0;
}
"""

# How a link may name the library, where the wrapper of C does not by itself.
NAMED = (
    ["-lstdc++", "-lm"], ["-static", "-lstdc++", "-lm"], ["-static", "-Wl,-lstdc++", "-lm"],
    ["@words"], ["-static", "@words"],
    ["-l:libstdc++.a", "-lm"], ["-Wl,-Bstatic", "-lstdc++", "-Wl,-Bdynamic", "-lm"], ["-Xlinker", "-lstdc++", "-lm"],
)


def check_named(suite: Suite, folder: str, compiler: Compiler) -> None:
    """What the library does with freed memory is found however a link names it, as an archive too."""
    write(folder, freed_cpp=FREED, words="-lstdc++ -lm\n")
    build([CXX, "-O1", "-g", "-c", "freed.cpp"], folder, ASANCOL_CXX=compiler.cxx)
    archive = run([compiler.cxx, "-print-file-name=libstdc++.a"], folder).stdout.decode().strip()
    by_c = [[CC, "freed.o", *words] for words in (*NAMED, [archive, "-lm"], [f"-Wl,{archive}", "-lm"])]
    by_cxx = [[CXX, "freed.o", *words.split()] for words in ("", "-static", "-static-libstdc++")]
    for argv in (*by_c, *by_cxx):
        build([*argv, "-o", "freed"], folder, ASANCOL_CC=compiler.name, ASANCOL_CXX=compiler.cxx)
        run(["./freed"], folder, ASANCOL_TRACE="t.trace")
        expect(reports(suite.asancol, f"{folder}/t.trace")[0], 1, " ".join(argv[1:]))
        os.unlink(f"{folder}/t.trace")


def check_least(suite: Suite, folder: str, compiler: Compiler, library: str) -> None:
    """A program links that has nothing of the library, or a stream alone, by each linker."""
    write(folder, none_cpp=MAIN, stream_cpp=f"#include <iostream>\nstatic std::ostream &out = std::cout << 1;\n{MAIN}")
    for linker in LINKERS:
        for name in ("none", "stream"):
            compiler.cpp(folder, [f"{name}.cpp"], f"{name}.o", *LIBRARIES[library][0], "-c")
            compiler.cpp(folder, [f"{name}.o"], name, *LIBRARIES[library][0], f"-fuse-ld={linker}")
        one_mark(suite, folder, "./none")
        expect(run(["./stream"], folder).stdout, b"1", linker)


def tests(suite: Suite, compiler: Compiler) -> None:
    for library in LIBRARIES:
        if has(compiler, library):
            suite.test(f"{compiler} strings links {library}", check_least, compiler, library)
            suite.test(f"{compiler} strings {library}", check_faults, compiler, library, False)
            suite.test(f"{compiler} strings {library} object", check_faults, compiler, library, True)
        else:
            leave_out(f"{library} is not there for {compiler}")
    suite.test(f"{compiler} strings objects", check_objects, compiler, ["-O0"])
    suite.long_test(f"{compiler} strings old objects", check_objects, compiler, ["-O1", "-D_GLIBCXX_USE_CXX11_ABI=0"])
    suite.test(f"{compiler} strings texts", check_texts, compiler)
    suite.test(f"{compiler} strings once", check_once, compiler)
    if compiler.name == "gcc":  # Clang wants to see all of a stream before an instance of what reads it
        suite.test(f"{compiler} strings standards", check_standards, compiler)
    suite.test(f"{compiler} strings otherwise", check_otherwise, compiler)
    suite.test(f"{compiler} strings addresses", check_addresses, compiler)
    suite.test(f"{compiler} strings unfinished", check_unfinished, compiler)
    suite.test(f"{compiler} strings named", check_named, compiler)
