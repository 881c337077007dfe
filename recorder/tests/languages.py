"""Rust, Fortran, D, and C in Go: bugs are found and named as in the language, good code has no report, and mixed
programs too."""

import glob
import os
import re
import shutil
import signal
import sys
from typing import Any, Dict, List, Optional, Tuple

from support import CC, TESTS, TOP, Suite, build, expect, has_plugin, noted, run, write
from testing.programs import REPORT, write_text
from testing.expectations import leave_out

CARGO = f"{os.path.dirname(CC)}/cargo/asancol-cargo"
RUN = f"{TOP}/run/asancol-run"
FC = f"{os.path.dirname(CC)}/asancol-fc"

TITLE = re.compile(r"ERROR: asancol: (.*)")
OWN_FRAME = re.compile(r"^ +#\d+ 0x\w+ in (.*) (?!/rustc/)\S+:\d+(?::\d+)?(?: \(inlined\))?$", re.M)
WHERE = re.compile(r"^  0x\w+ is (.*)$", re.M)
END_OF_WHERE = re.compile(r"(on the stack|a global variable), .*")

# The report of each bug: the class and the access, the function, and where the bad byte is.
Said = Tuple[str, str, str]
RUST: Dict[str, Optional[Said]] = {
    "vector": ("heap-buffer-overflow: load of 1 byte", "bug::past_a_vector",
               "0 bytes past the end of a block of 5 bytes"),
    "freed": ("heap-use-after-free: load of 4 bytes", "bug::after_its_end", "byte 0 of a freed block of 40 bytes"),
    "array": ("stack-buffer-overflow: load of 4 bytes", "bug::past_an_array",
              "0 bytes past the end of 'array' (20 bytes) on the stack"),
    "table": ("global-buffer-overflow: load of 4 bytes", "bug::past_a_table",
              "0 bytes past the end of 'bug::TABLE' (28 bytes), a global variable"),
    "scope": ("stack-use-after-scope: load of 4 bytes", "bug::past_a_scope",
              "byte 0 of 'inner' (32 bytes) on the stack"),
    "copy": ("heap-buffer-overflow: store of 12 bytes in memcpy", "bug::copied_past",
             "0 bytes past the end of a block of 10 bytes"),
    "generic": ("heap-buffer-overflow: load of 2 bytes", "<bug::inner::Row<u16>>::read",
                "0 bytes past the end of a block of 4 bytes"),
    "thread": ("heap-buffer-overflow: load of 1 byte in thread T1", "bug::past_a_vector",
               "0 bytes past the end of a block of 5 bytes"),
    "panic": None,
    "good": None,
}
FORTRAN: Dict[str, Optional[Said]] = {
    "row": ("heap-buffer-overflow: load of 4 bytes", "MAIN__", "0 bytes past the end of a block of 20 bytes"),
    "table": ("global-buffer-overflow: load of 4 bytes", "tables::element",
              "0 bytes past the end of 'table' (16 bytes), a global variable"),
    "automatic": ("heap-buffer-overflow: load of 4 bytes", "tables::element",
                  "0 bytes past the end of a block of 20 bytes"),
    "local": ("stack-buffer-overflow: load of 4 bytes", "tables::element",
              "0 bytes past the end of 'local' (16 bytes) on the stack"),
    "block": ("heap-buffer-overflow: load of 4 bytes", "tables::element",
              "0 bytes past the end of a block of 12 bytes"),
    "freed": ("heap-use-after-free: load of 4 bytes", "tables::element", "byte 0 of a freed block of 12 bytes"),
    "complex": ("heap-buffer-overflow: load of 8 bytes", "past_waves", "0 bytes past the end of a block of 48 bytes"),
    "good": None,
}


def is_there(*programs: str) -> bool:
    missing = [it for it in programs if not shutil.which(it)]
    for name in missing:
        leave_out(f"{name} is not there")
    return not missing


def found(pattern: "re.Pattern[str]", text: str) -> str:
    first = pattern.search(text)
    return first[1] if first else ""


def report_of(suite: Suite, folder: str, traces: List[str]) -> str:
    ran = run([REPORT, "--trace", *traces], folder, ASANCOL=suite.asancol)
    return ran.stdout.decode() + ran.stderr.decode()


def said_of(suite: Suite, folder: str, argv: List[str], status: int = 0, **settings: str) -> List[Said]:
    """Runs a program, and returns what the report says of each bug, except leaks. All of it was seen."""
    ran = run(argv, folder, ASANCOL_TRACE="t%p.trace", ASANCOL_WHERE="1",
              **{"ASANCOL_LEAKS": "1", **settings})
    expect(ran.returncode, status, f"{argv}: {ran.stderr.decode()}")
    traces = sorted(it for it in os.listdir(folder) if it.endswith(".trace"))
    text = report_of(suite, folder, traces)
    expect("all complete" in text, True, f"{argv}: {text}")
    for name in traces:
        os.unlink(f"{folder}/{name}")
        os.unlink(f"{folder}/{name}.where")
    reports = [it for it in re.split(r"^==\d+==", text, flags=re.M)[1:] if "detected memory leaks" not in it]
    return [(found(TITLE, it), found(OWN_FRAME, it), END_OF_WHERE.sub(r"\1", found(WHERE, it))) for it in reports]


def check_cases(suite: Suite, folder: str, program: str, cases: Dict[str, Optional[Said]]) -> None:
    for name, wanted in cases.items():
        expect(said_of(suite, folder, [program, name]), [wanted] if wanted else [], name)


MANIFEST = '[package]\nname = "bug"\nversion = "0.1.0"\nedition = "2021"\n'


def crate(folder: str, more: str = "", **files: str) -> None:
    """Makes a crate of these files."""
    os.makedirs(f"{folder}/src", exist_ok=True)
    write(folder, Cargo_toml=MANIFEST + more)
    write(f"{folder}/src", **files)


def cargo(folder: str, *argv: str, status: int = 0, **settings: str) -> Tuple[str, str]:
    ran = run([CARGO, *argv], folder, CARGO_TERM_COLOR="never", **settings)
    expect(ran.returncode, status, f"{argv}: {ran.stderr.decode()}")
    return ran.stdout.decode(), ran.stderr.decode()


def built(folder: str, kind: str, name: str = "bug") -> str:
    """The path of the output for the target."""
    (path,) = glob.glob(f"{folder}/target/asancol/*-*/{kind}/{name}")
    return path


def check_rust(suite: Suite, folder: str, kind: str, *flags: str) -> None:
    """Bugs of all kinds of memory, by rustc's linker and by that of the binutils."""
    with open(f"{TESTS}/bug.rs", encoding="utf-8") as file:
        crate(folder, "[profile.release]\ndebug = true\n", main_rs=file.read())
    for linker in ("", "-Clink-arg=-fuse-ld=bfd"):
        cargo(folder, "build", *flags, RUSTFLAGS=linker)
        check_cases(suite, folder, built(folder, kind), RUST)


LIBRARY = """
/// Reads the third.
/// ```
/// assert_eq!(bug::third(&[1, 2, 3]), 3);
/// let short = vec![1u8, 2].into_boxed_slice();
/// bug::third(&short);
/// ```
pub fn third(of: &[u8]) -> u8 { unsafe { *of.as_ptr().add(2) } }
#[cfg(test)]
mod tests {
    #[test] fn good() { assert_eq!(super::third(&vec![1, 2, 3]), 3); }
    #[test] fn bad() { let short = vec![1u8, 2].into_boxed_slice(); super::third(&short); }
}
"""
# It sees whether the rustc that it is given takes features that are not stable, and is no program of the target.
BUILD = """
use std::process::{Command, Stdio};
fn takes(target: bool) -> bool {
    let Ok(wrapper) = std::env::var("RUSTC_WRAPPER") else { return false };
    let out = std::env::var("OUT_DIR").unwrap();
    std::fs::write(format!("{out}/probe.rs"), "#![feature(never_type)]").unwrap();
    let mut probe = Command::new(wrapper);
    probe.arg(std::env::var("RUSTC").unwrap()).args(["--crate-type", "rlib", "--emit", "metadata", "--out-dir", &out]);
    if target { probe.args(["--target", &std::env::var("TARGET").unwrap()]); }
    probe.arg(format!("{out}/probe.rs")).stderr(Stdio::null()).status().unwrap().success()
}
fn main() {
    assert_eq!(takes(true), takes(false));
    println!("cargo:rerun-if-changed=build.rs");
}
"""


def check_rust_tests(suite: Suite, folder: str) -> None:
    """Unit tests and tests of documents. What runs in the build is built as usual, and features as usual."""
    crate(folder, lib_rs=LIBRARY)
    write(folder, build_rs=BUILD)
    said = said_of(suite, folder, [CARGO, "test", "-q"])
    expect(said[0][:2], ("heap-buffer-overflow: load of 1 byte in thread T1 (tests::bad)", "bug::third"), "a unit test")
    # Its program is gone when this report is made, and with it the names.
    expect([it[0] for it in said[1:]], ["heap-buffer-overflow: load of 1 byte"], "a test of a document")
    scripts = f"{folder}/target/asancol/debug/build"
    for name in os.listdir(scripts):
        program = f"{scripts}/{name}/build-script-build"
        if os.path.exists(program):
            expect(b"__asan_" in run(["nm", program], folder).stdout, False, "a build script")
    usual = run(["cargo", "build", "-q"], folder)
    expect((usual.returncode, usual.stderr), (0, b""), "cargo beside it")


WITH_C = """
use std::ffi::c_char;
extern "C" { fn fill(at: *mut c_char, count: usize); fn block() -> *mut c_char; }
#[no_mangle] pub extern "C" fn past_of_rust(at: *mut c_char) { unsafe { *at.add(8) = 1 } }
#[no_mangle] pub extern "C" fn run(kind: i32) {
    unsafe {
        let mut bytes = vec![0 as c_char; 10];
        if kind == 1 { fill(bytes.as_mut_ptr(), 11) }
        if kind == 2 { past_of_rust(block()) }
        std::hint::black_box(&mut bytes);
    }
}
"""
C_PART = """
#include <stdlib.h>
void fill(char *at, size_t count) { while (count-- > 0) at[count] = 1; }
char *block(void) { static char *kept; return kept = malloc(8); }
"""
C_MAIN = """
#include <stdlib.h>
void run(int);
int main(int count, char **argv) { run(count > 1 ? atoi(argv[1]) : 0); return 0; }
"""
MIXED: Dict[str, Optional[Said]] = {
    "0": None,
    "1": ("heap-buffer-overflow: store of 1 byte", "fill", "0 bytes past the end of a block of 10 bytes"),
    "2": ("heap-buffer-overflow: store of 1 byte", "past_of_rust", "0 bytes past the end of a block of 8 bytes"),
}
# As the crate `cc` does it, for the target.
BUILD_C = """
fn main() {
    let compiler = std::env::var(format!("CC_{}", std::env::var("TARGET").unwrap().replace('-', "_"))).unwrap();
    let out = std::env::var("OUT_DIR").unwrap();
    let mut made = std::process::Command::new(compiler);
    made.args(["-g", "-fPIC", "-c", "part.c", "-o", &format!("{out}/part.o")]);
    assert!(made.status().unwrap().success());
    println!("cargo:rustc-link-arg={out}/part.o");
}
"""


def check_rust_with_c(suite: Suite, folder: str, compiler: str) -> None:
    """C in a program of Rust, and Rust in a program of C, as a static library and as a shared object."""
    crate(folder, '[lib]\ncrate-type = ["staticlib", "cdylib", "rlib"]\n', lib_rs=WITH_C, main_rs=(
        "fn main() { bug::run(std::env::args().nth(1).map_or(0, |it| it.parse().unwrap())) }\n"))
    write(folder, build_rs=BUILD_C, part_c=C_PART, main_c=C_MAIN)
    cargo(folder, "build", "-q", CC=compiler)
    check_cases(suite, folder, built(folder, "debug"), MIXED)
    settings = {"ASANCOL_CC": compiler}
    build([CC, "-g", "main.c", "part.c", built(folder, "debug", "libbug.a"), "-o", "with_static"], folder, **settings)
    expect(noted(f"{folder}/with_static"), [], "what was not compiled by us")
    check_cases(suite, folder, "./with_static", MIXED)
    library = built(folder, "debug", "libbug.so")
    at_run = f"-Wl,-rpath,{os.path.dirname(library)}"
    build([CC, "-g", "main.c", library, at_run, "-o", "with_shared"], folder, **settings)
    check_cases(suite, folder, "./with_shared", MIXED)


FROM_PYTHON = "import ctypes, sys; ctypes.CDLL(sys.argv[1]).third_of(int(sys.argv[2]))"


def check_rust_in_python(suite: Suite, folder: str) -> None:
    """A shared object of Rust in a plain Python, which nothing of ours has linked."""
    crate(folder, '[lib]\ncrate-type = ["cdylib"]\n', lib_rs=(
        '#[no_mangle] pub extern "C" fn third_of(count: usize) -> i32 '
        '{ let all = vec![1i32; count]; unsafe { *std::hint::black_box(all.as_ptr()).add(2) } }\n'))
    cargo(folder, "build", "-q")
    for count, status in ((3, 0), (2, 99)):
        argv = [sys.executable, "-c", FROM_PYTHON, built(folder, "debug", "libbug.so"), str(count)]
        ran = run([RUN, "--preload", "--", *argv], folder, ASANCOL=suite.asancol, PYTHONMALLOC="malloc")
        expect((ran.returncode, b"heap-buffer-overflow: load of 4 bytes\n    #0" in ran.stderr), (status, status != 0),
               f"{count}: {ran.stderr.decode()}")


def check_cargo_errors(suite: Suite, folder: str) -> None:
    """No words, no rustc, one that is too old; and what a crate's compiler says comes with cargo's status."""
    crate(folder, main_rs="fn main() { nothing() }\n")
    ran = run([CARGO], folder)
    expect((ran.returncode, ran.stderr[:20]), (2, b"usage: asancol-cargo"), "no words")
    expect("cannot find function" in cargo(folder, "build", status=101)[1], True, "an error of a crate")
    old = f"{folder}/old"
    with open(old, "w", encoding="utf-8") as file:
        file.write('#!/bin/sh\ncase "$*" in *external-clangrt*) exit 1;; *) exec rustc "$@";; esac\n')
    os.chmod(old, 0o755)
    version = run(["rustc", "-V"], folder).stdout.decode().strip()
    expect(cargo(folder, "build", status=1, RUSTC=old)[1],
           f"asancol-cargo: {version} does not know -Zexternal-clangrt: a newer one is wanted\n", "an old one")
    for flags in ("-Cllvm-args=-asan-stack=0", "-C llvm-args=-asan-instrument-reads=false"):
        said = cargo(folder, "build", status=101, RUSTFLAGS=flags)[1]
        expect("remove it: what would be compiled with this could lack checks\n" in said, True, flags)
    said = cargo(folder, "rustc", "--", "-Cllvm-args=-asan-stack=0", status=101)[1]
    expect("remove it: what would be compiled with this could lack checks\n" in said, True, "after the target")
    none = cargo(folder, "build", status=1, RUSTC="./no-such-one")[1]
    expect("asancol-cargo: ./no-such-one does not say what it builds for\n" in none, True, "none")


FEATURE = "#![feature(never_type)]\npub type Never = !;\nfn main() {}\n"


def check_features(suite: Suite, folder: str) -> None:
    """Features that are not stable: as plain cargo has them."""
    for number, (allowed, status) in enumerate({"": 101, "other": 101, "other,bug": 0, "1": 0}.items()):
        own = f"{folder}/{number}"
        crate(own, main_rs=FEATURE)
        settings = {"RUSTC_BOOTSTRAP": allowed} if allowed else {}
        cargo(own, "build", "-q", status=status, **settings)
        expect(run(["cargo", "build", "-q"], own, **settings).returncode, status, f"plain cargo: {allowed}")
    if run(["rustc", "+nightly", "-V"], folder).returncode != 0:
        return leave_out("rustc +nightly is not there")
    cargo(f"{folder}/0", "+nightly", "build", "-q")
    cargo(f"{folder}/0", "build", "-q", RUSTUP_TOOLCHAIN="nightly")


def host_of(folder: str) -> str:
    return found(re.compile("^host: (.*)$", re.M), run(["rustc", "-vV"], folder).stdout.decode())


def check_settings(suite: Suite, folder: str) -> None:
    """Flags of the project's settings hold, and the target and wrapper that the environment names."""
    crate(folder, main_rs='fn main() { std::process::exit(if cfg!(flag_of_settings) { 0 } else { 1 }) }\n')
    os.mkdir(f"{folder}/.cargo")
    write(f"{folder}/.cargo", config_toml='[build]\nrustflags = ["--cfg", "flag_of_settings"]\n')
    wrapper = f"{folder}/wrapper"
    with open(wrapper, "w", encoding="utf-8") as file:
        file.write(f'#!/bin/sh\necho "$*" >> "{folder}/calls"\nexec "$@"\n')
    os.chmod(wrapper, 0o755)
    named: Dict[str, Any] = {"RUSTC_WRAPPER": wrapper, "CARGO_BUILD_TARGET": host_of(folder)}
    expect(said_of(suite, folder, [CARGO, "run", "-q"], **named), [], "the flag of the settings")
    with open(f"{folder}/calls", encoding="utf-8") as calls:
        expect("--crate-name bug" in calls.read(), True, "the wrapper")


def has_checks(program: str) -> bool:
    return b"__asan_" in run(["nm", program], os.path.dirname(program)).stdout


def check_folders(suite: Suite, folder: str) -> None:
    """By its name on the path, from another folder, and in a folder where plain cargo has built for the target."""
    own = f"{folder}/the crate"
    crate(own, main_rs="fn main() {}\n")
    host = host_of(folder)
    path = f"{os.path.dirname(CARGO)}:{os.environ['PATH']}"
    for argv in (["--manifest-path", "the crate/Cargo.toml"], ["--manifest-path=the crate/Cargo.toml"]):
        made = run(["asancol-cargo", "build", "-q", *argv], folder, PATH=path)
        expect(made.returncode, 0, made.stderr.decode())
        expect(has_checks(built(own, "debug")), True, "from another folder")
        expect(os.listdir(f"{own}/target"), ["asancol"], "from another folder")
        shutil.rmtree(f"{own}/target")
    program = f"{folder}/shared/{host}/debug/bug"
    for _ in range(2):
        plain = run(["cargo", "build", "-q", "--target", host], own, CARGO_TARGET_DIR=f"{folder}/shared")
        expect((plain.returncode, has_checks(program)), (0, False), "plain cargo")
        cargo(own, "build", "-q", CARGO_TARGET_DIR=f"{folder}/shared")
        expect(has_checks(program), True, "after plain cargo")


def cases_of_fortran() -> Dict[str, Optional[Said]]:
    return {name: it for name, it in FORTRAN.items() if name != "complex" or has_plugin(FC)}


def check_fortran(suite: Suite, folder: str, *flags: str) -> None:
    build([FC, "-g", *flags, f"{TESTS}/bug.f90", "-o", "bug"], folder)
    check_cases(suite, folder, "./bug", cases_of_fortran())


NULL_IN_FORTRAN = """program no_where
  integer, pointer :: nowhere(:)
  nowhere => null()
  nowhere(command_argument_count() + 1) = 4
end program
"""


def check_fortran_null(suite: Suite, folder: str) -> None:
    """A null access: its place is said by gfortran's library, or by the report if that makes no backtrace."""
    write(folder, null_f90=NULL_IN_FORTRAN)
    for flags, where in (((), r"\sat .*null\.f90:4"), (["-fno-backtrace"], r"#0 .* MAIN__ .*null\.f90:4")):
        build([FC, "-g", *flags, "null.f90", "-o", "null"], folder)
        ran = run([RUN, "--", "./null"], folder, ASANCOL=suite.asancol)
        expect((ran.returncode, bool(re.search(where, ran.stderr.decode()))), (-signal.SIGSEGV, True), str(ran))


def check_fortran_projects(suite: Suite, folder: str, tool: str) -> None:
    """A project in Fortran that finds its compiler by FC, with two files and a module."""
    with open(f"{TESTS}/bug.f90", encoding="utf-8") as file:
        module, _, program = file.read().partition("end module\n")
    write(folder, tables_f90=f"{module}end module\n", bug_f90=program)
    write(folder, CMakeLists_txt="cmake_minimum_required(VERSION 3.13)\nproject(bug Fortran)\n"
                                 "add_executable(bug tables.f90 bug.f90)\n",
          meson_build="project('bug', 'fortran')\nexecutable('bug', 'tables.f90', 'bug.f90')\n")
    made = {"cmake": [["cmake", "-S", ".", "-B", "made", "-DCMAKE_BUILD_TYPE=Debug"], ["cmake", "--build", "made"]],
            "meson": [["meson", "setup", "made"], ["meson", "compile", "-C", "made"]]}[tool]
    for argv in made:
        build(argv, folder, FC=FC)
    check_cases(suite, folder, "made/bug", cases_of_fortran())


D_PROGRAM = """
import core.stdc.stdlib : malloc, free;
import core.stdc.stdio : puts;
int past_a_block(size_t at) { auto block = cast(int*) malloc(20); int one = block[at]; free(block); return one; }
int past_an_array(size_t at) { int[4] array; array[] = 7; return array.ptr[at]; }
int main(string[] words)
{
    string wanted = words.length > 1 ? words[1] : "";
    int one = wanted == "block" ? past_a_block(5) : wanted == "array" ? past_an_array(4) : past_an_array(3);
    auto kept = new int[100];
    kept[99] = one;
    puts(kept[99] == 7 ? "seven" : "other");
    return 0;
}
"""
LACKS = "--param asan-globals=0: code compiled with this option lacks checks, and misses some bad accesses"


def check_d(suite: Suite, folder: str) -> None:
    """By gdc, without what would move the list of modules of D's library. It is said that this is not checked."""
    write(folder, bug_d=D_PROGRAM)
    made = run([CC, "-g", "--param", "asan-globals=0", "bug.d", "-o", "bug"], folder, ASANCOL_CC="gdc")
    expect((made.returncode, made.stderr.decode()), (0, f"asancol-cc: warning: {LACKS}\n"), "the build")
    expect(noted(f"{folder}/bug"), ["bug.d"], "what was not checked")
    for name, wanted in {"block": "heap-buffer-overflow", "array": "stack-buffer-overflow", "good": ""}.items():
        ran = run(["./bug", name], folder, ASANCOL_TRACE="t.trace", ASANCOL_WHERE="1")
        expect((ran.returncode, ran.stderr), (0, b""), name)
        text = report_of(suite, folder, ["t.trace"])
        expect([it.split(":")[0] for it in TITLE.findall(text)], [wanted] if wanted else [], name)
        os.unlink(f"{folder}/t.trace")


GO = """package words
/*
#include <stdlib.h>
#include <string.h>
static char *copy(const char *text, size_t more)
{
    char *it = malloc(strlen(text) + more);
    strcpy(it, text); // BUG without more
    return it;
}
*/
import "C"
import "unsafe"
func Copy(text string, more int) string {
    from := C.CString(text)
    defer C.free(unsafe.Pointer(from))
    it := C.copy(from, C.size_t(more))
    defer C.free(unsafe.Pointer(it))
    return C.GoString(it)
}
"""
GO_TEST = """package words
import "testing"
func TestGood(t *testing.T) { Copy("abc", 1) }
func TestCopy(t *testing.T) { Copy("abc", MORE) }
"""


def write_go(folder: str, more: int) -> None:
    write_text(f"{folder}/words.go", GO)
    write_text(f"{folder}/words_test.go", GO_TEST.replace("MORE", str(more)))
    write_text(f"{folder}/go.mod", "module example.com/words\ngo 1.19\n")


def check_go(suite: Suite, folder: str) -> None:
    """A bug in C of cgo is reported below the line of its test."""
    write_go(folder, 0)
    with open(PAGE, encoding="utf-8") as page:
        command = found(re.compile(r"^(.*CGO_CFLAGS.*)$", re.M), page.read())
    programs = f"{os.path.dirname(CC)}:{os.path.dirname(RUN)}:{os.environ['PATH']}"
    ran = run(["sh", "-c", f"{command} 2>&1"], folder, ASANCOL=suite.asancol, PATH=programs)
    text = ran.stdout.decode()
    order = (r"=== RUN   TestCopy\n(?s:.*)heap-buffer-overflow: store of 4 bytes in strcpy\n"
             r" +#0 0x\w+ in copy words\.go:8:")
    expect((ran.returncode, re.search(order, text) is not None), (99, True), text)


PAGE = f"{TOP}/docs/LANGUAGES.md"
TOOLS = {"asancol-cargo": "cargo", "asancol-fc": "gfortran", "ASANCOL_CC=gdc": "gdc", "CGO_CFLAGS": "go"}
# What summaries of clean programs have.
SUMMARIES = {"gdc": "; not checked: program.d", "go": "1 ended abruptly; not checked: "}


def check_page(suite: Suite, folder: str) -> None:
    """The commands of the page: clean programs are complete, except D's."""
    with open(f"{TESTS}/bug.f90", encoding="utf-8") as file:
        write(folder, program_f90=file.read(), program_d=D_PROGRAM)
    os.mkdir(f"{folder}/go")
    write_go(f"{folder}/go", 1)
    crate(folder, lib_rs="pub fn one() -> i32 { 1 }\n#[test] fn is_one() { assert_eq!(one(), 1) }\n")
    with open(PAGE, encoding="utf-8") as page:
        blocks = re.findall(r"^```sh\n(.*?)^```", page.read(), re.M | re.S)
    expect(len(blocks), len(TOOLS), "blocks of commands")
    os.mkdir(f"{folder}/bin")
    for path in (CC, FC, CARGO, RUN):
        os.symlink(path, f"{folder}/bin/{os.path.basename(path)}")
    for block in blocks:
        if not all(shutil.which(tool) for word, tool in TOOLS.items() if word in block):
            continue
        (tool,) = [tool for word, tool in TOOLS.items() if word in block]
        ran = run(["sh", "-ec", block], f"{folder}/go" if tool == "go" else folder, ASANCOL=suite.asancol,
                  PATH=f"{folder}/bin:{os.environ['PATH']}")
        text = ran.stderr.decode()
        expect(ran.returncode, 0, f"{block}: {text}")
        expect(SUMMARIES.get(tool, "; all complete\n") in text, True, text)


def tests_of_all(suite: Suite) -> None:
    if is_there("cargo", "rustc"):
        suite.test("rust: debug", check_rust, "debug")
        suite.test("rust: release", check_rust, "release", "--release")
        suite.test("rust: tests", check_rust_tests)
        suite.test("rust: errors", check_cargo_errors)
        suite.test("rust: in Python", check_rust_in_python)
        suite.test("rust: features", check_features)
        suite.test("rust: folders", check_folders)
        suite.test("rust: settings", check_settings)
        for compiler in suite.compilers:
            suite.test(f"rust: with C by {compiler}", check_rust_with_c, compiler.name)
    if is_there("gfortran"):
        for flags in ((), ("-O2",)):
            suite.test(f"fortran: {' '.join(flags) or 'plain'}", check_fortran, *flags)
        suite.test("fortran: null", check_fortran_null)
        for tool in ("cmake", "meson"):
            if is_there(tool):
                suite.test(f"fortran: {tool}", check_fortran_projects, tool)
    if is_there("gdc"):
        suite.test("D: gdc", check_d)
    if is_there("go"):
        suite.test("go: a test", check_go)
    suite.test("languages: page", check_page)


def tests(suite: Suite, compiler: object) -> None:
    """None of these is for a compiler of C."""
