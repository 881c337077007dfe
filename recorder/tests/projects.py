"""The recorder built and installed by each compiler; and whole programs with it, their names and makefiles."""

import glob
import os
import re
import shutil

from support import (
    CC, HELPER, PAST_THE_END, RECORDER, TESTS, Failure, Trace, build, by_sanitizer, expect, one_mark, placed, reports,
    run, same_as_sanitizer, write,
)


def check_by_itself(suite, folder, compiler):
    """The recorder, built by the compiler without a warning; and without one of C++, so that each object has its own
    strings."""
    copy = f"{folder}/recorder"
    built = ("out", "tests", "*.a", "*.so", "asancol-cc", "asancol-c++", "asancol-fc", "asancol-gcc",
             "asancol-g++", "asancol-clang", "asancol-clang++")
    shutil.copytree(RECORDER, copy, ignore=shutil.ignore_patterns(*built))
    for name in ("install.mk", "VERSION"):
        shutil.copy(f"{RECORDER}/../{name}", folder)
    shutil.copytree(f"{RECORDER}/../common", f"{folder}/common")
    made = run(["make", "-s", "-j4", f"CC={compiler.name}", "CXX=false"], copy)
    expect((made.returncode, made.stderr), (0, b""), "make")
    write(folder, main_c=PAST_THE_END, helper_c=HELPER)
    build(["recorder/asancol-cc", "-DVALUE=1", "main.c", "helper.c", "-o", "program"], folder, ASANCOL_CC=compiler.name)
    one_mark(suite, folder)
    write(folder, text_cpp="#include <string>\nvoid add(std::string &s, char *more) { s += more; }\n")
    build(["recorder/asancol-c++", "-c", "text.cpp"], folder, ASANCOL_CXX=compiler.cxx)
    expect(b"W _ZNSt7__cxx1112basic_string" in run(["nm", "text.o"], folder).stdout, True, "its own strings")


def check_own_names(suite, folder, compiler):
    """A program may have every name that the recorder has for itself."""
    others = (f"{RECORDER}/tests/", f"{RECORDER}/out/")
    sources = [it for it in glob.glob(f"{RECORDER}/**/*.c", recursive=True) if not it.startswith(others)]
    sources.remove(f"{RECORDER}/libc/own.c")  # where the C library is a part of the program it calls these itself
    names = set()
    for source in sources:
        names |= set(re.findall(r"^(?:[\w ]+[ *])(\w+)\([^;]*\)$", open(source).read(), re.M))
    ours = ("__wrap_", "main", "asancol_", "__asan_", "__sanitizer_", "__lsan_")
    names = {name for name in names | {"arena", "locked", "shared"} if not name.startswith(ours)}
    names -= {"malloc", "free", "calloc", "realloc", "reallocarray", "memalign", "aligned_alloc", "posix_memalign"}
    names -= {"valloc", "pvalloc", "malloc_usable_size", "__attribute__", "_Unwind_SetIP"}  # the last is the language's
    expect(len(names) > 100, True, "names")
    write(folder, main_c=PAST_THE_END, helper_c=HELPER, names_c="".join(f"int {name};\n" for name in sorted(names)))
    for flags in ([], ["-static"]):
        compiler.c(folder, ["main.c", "helper.c", "names.c"], "program", "-w", "-DVALUE=1", "-fno-builtin", *flags)
        one_mark(suite, folder)


def check_own_malloc(suite, folder, compiler):
    """A program with its own allocator keeps it: its accesses are recorded, and its blocks are not."""
    write(
        folder,
        own_c="""
#include <stddef.h>
static _Alignas(16) char room[1 << 20];
static size_t used;
void *malloc(size_t n) { void *p = room + used; used += (n + 31) / 16 * 16; return used < sizeof room ? p : NULL; }
void free(void *p) { (void)p; }
void *calloc(size_t n, size_t m) { return malloc(n * m); }
void *realloc(void *p, size_t n) { (void)p; return malloc(n); }
int main(void) { char *p = malloc(8); p[7] = 1; free(p); free(p); return p >= room && p < room + sizeof room ? 0 : 9; }
""",
    )
    compiler.c(folder, ["own.c"], "own", "-w")
    ran = run(["./own"], folder, ASANCOL_TRACE="t.trace")
    expect((ran.returncode, ran.stderr), (0, b""))
    trace = Trace(f"{folder}/t.trace")
    expect((trace.is_closed, trace.count(3), trace.count(4)), (True, 0, 0))


def check_make(suite, folder, compiler):
    """A makefile that knows nothing of the recorder."""
    write(folder, main_c=PAST_THE_END, helper_c=HELPER)
    write(folder, Makefile="program: main.o helper.o\nhelper.o: CPPFLAGS += -DVALUE=1\n")
    shutil.move(f"{folder}/Makefile", f"{folder}/makefile")
    with open(f"{folder}/makefile", "a") as file:
        file.write("program:\n\t$(CC) $(LDFLAGS) $^ -o $@\n")
    build(["make", f"CC={CC}"], folder, ASANCOL_CC=compiler.name)
    one_mark(suite, folder)


def check_install(suite, folder, compiler):
    build(["make", "-s", "-C", RECORDER, "install", f"PREFIX={folder}/there"], folder)
    write(folder, main_c=PAST_THE_END, helper_c=HELPER)
    there = f"{folder}/there/bin"
    build([f"{there}/asancol-cc", "-DVALUE=1", "main.c", "helper.c", "-o", "program"], folder, ASANCOL_CC=compiler.name)
    one_mark(suite, folder)


def check_command(suite, folder, compiler):
    """ASANCOL_CC of several words; one that is not there; the wrapper itself in the place of cc."""
    write(folder, main_c=PAST_THE_END, helper_c=HELPER)
    build([CC, "-DVALUE=1", "main.c", "helper.c", "-o", "program"], folder, ASANCOL_CC=f"env {compiler.name}")
    one_mark(suite, folder)
    expect(run([CC, "main.c"], folder, ASANCOL_CC="asancol-no-such-compiler").returncode, 1)
    os.mkdir(f"{folder}/first")
    os.symlink(CC, f"{folder}/first/cc")
    path = f"{folder}/first:{os.environ['PATH']}"
    build(["cc", "-DVALUE=1", "main.c", "helper.c", "-o", "program"], folder, PATH=path)
    one_mark(suite, folder)


def store_commands():
    """What the store is asked, the same each time."""
    lines = [
        'set first {"name":"Alice","tags":["a","b","c","d"],"deep":{"x":[1,2,{"y":null}]},"e":"\\u00e9\\ud83d\\ude00"}',
        "get first name",
        "get first tags.3",
        "get first tags.4",
        "get first deep.x.2.y",
        "set list []",
    ]
    for i in range(40):
        lines += [f"set key{i * 7 % 40} [{i},{i * i},-{i}.5,true,false]", f'push list "item {i * 13 % 40}"']
        lines += [f'merge map {{"m{i}":{{"n":{i}}},"again":[{i}]}}', f"get key{i * 7 % 40} 1"]
    lines += ["sort list", "get list", "sum map", "size", "keys key1", "copy map other", "find item", "find Alice"]
    lines += ["del key3", "del key3", "set bad {", 'set bad ["a", "b" "c"]', "set bad 1 2", "nothing"]
    lines += [f'set first "{n}"' for n in range(10)] + ["undo"] * 30 + ["get first", "dump", "# the end"]
    return ("\n".join(lines) + "\n").encode()


# The planted bugs: how the first report ends, and the function it is in.
PLANTED = {
    "short-string": ("heap-buffer-overflow", None),  # copy_bytes may stand in its caller's code
    "old-array": ("heap-use-after-free", "array_push"),
    "twice": ("heap-use-after-free", None),
    "short-table": ("heap-buffer-overflow", "place_of"),
    "read-past": ("heap-buffer-overflow", None),
}


def check_store(suite, folder, compiler, level):
    source, commands = f"{TESTS}/store.c", store_commands()
    compiler.c(folder, [source], "plain", level, "-w", native=True)
    compiler.c(folder, [source], "store", level, "-w")
    plain = run(["./plain"], folder, commands)
    ran = run(["./store"], folder, commands, ASANCOL_TRACE="t.trace")
    expect((plain.returncode, ran.returncode, ran.stderr), (0, 0, b""))
    expect(ran.stdout, plain.stdout, "what the store prints")
    expect(len(plain.stdout.splitlines()) > 200, True, "that it prints something")
    status, texts, end = reports(suite.asancol, f"{folder}/t.trace")
    expect((status, texts, end.split()[0]), (0, [], "closed"), "clean")
    if compiler.has_sanitizer:
        compiler.c(folder, [source], "sanitized", level, "-w", "-fsanitize=address", native=True)
    for bug, (wrong, function) in PLANTED.items():
        trace = f"{folder}/{bug}.trace"
        run(["./store", "--bug", bug], folder, commands, ASANCOL_TRACE=trace, ASANCOL_WHERE="1")
        _, texts, _ = reports(suite.asancol, trace, most=1)
        expect(texts[0].split()[-1] if texts else None, wrong, bug)
        if function:
            expect(placed(suite.asancol, trace)[0][0].function, function, bug)
        if os.path.exists(f"{folder}/sanitized"):
            options = "detect_leaks=0"
            said = run(["./sanitized", "--bug", bug], folder, commands, ASAN_OPTIONS=options).stderr.decode()
            said = by_sanitizer(said)
            if said is None or not same_as_sanitizer(texts[0], said):
                raise Failure(f"{bug}: AddressSanitizer says {said}, the trace {texts[0]!r}")


def tests(suite, compiler):
    for level in ("-O0", "-O2"):
        suite.test(f"{compiler} store {level}", check_store, compiler, level)
    suite.long_test(f"{compiler} by itself", check_by_itself, compiler)
    suite.test(f"{compiler} own names", check_own_names, compiler)
    suite.test(f"{compiler} own malloc", check_own_malloc, compiler)
    suite.test(f"{compiler} make", check_make, compiler)
    suite.test(f"{compiler} install", check_install, compiler)
    suite.test(f"{compiler} command", check_command, compiler)
