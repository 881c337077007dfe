"""What AddressSanitizer's tests are about and asancol does not claim, and the known differences of the others."""

from typing import List, NamedTuple


class Row(NamedTuple):
    """Tests of a suite by a pattern of their names."""

    suite: str
    name: str
    why: str


# How AddressSanitizer calls what asancol-run says by the signal.
CRASHES = {
    "SEGV": "SIGSEGV", "stack-overflow": "SIGSEGV", "BUS": "SIGBUS", "FPE": "SIGFPE", "ILL": "SIGILL",
    "TRAP": "SIGTRAP", "ABRT": "SIGABRT",
}

# Classes that are not claimed.
UNCLAIMED = {
    "CHECK": "the runtime's own checks",
    "does not build": "does not build here",
    "memmove-param-overlap": "ranges that may overlap",
    "rss-limit-exceeded": "limits of the allocator",
}

# Tests that are not run.
OUTSIDE = [
    Row("compiler-rt", "Linux/allocator_oom_test.cpp", "limits of the allocator"),
    Row("compiler-rt", "Linux/asan_default_suppressions.cpp", "a wrong suppression, which ends the process there"),
    Row("compiler-rt", "Linux/asan_prelink_test.cpp", "libraries at the addresses of the shadow"),
    Row("compiler-rt", "Linux/nohugepage_test.cpp", "the runtime's own memory"),
    Row("compiler-rt", "Linux/rlimit_mmap_test.cpp", "limits of the allocator"),
    Row("compiler-rt", "Posix/mmap_limit_mb.cpp", "limits of the allocator"),
    Row("gcc", "*/rlimit-mmap-test-1.c*", "limits of the allocator"),
    Row("compiler-rt", "error_report_callback.cpp", "interface: a report that the program makes itself"),
    Row("compiler-rt", "replaceable_new_delete.cpp", "the runtime as a shared library"),
    Row("compiler-rt", "set_shadow_test.c", "interface: the compilers' own calls, made by the program"),
    Row("compiler-rt", "strcmp_strict.c", "what the runtime's own strcmp answers"),
    Row("units", "*_MlockTest by *", "the runtime's own memory"),
    Row("units", "*_SignalTest by *", "options of the runtime"),
]

# How many tests of a suite may be left out. More are a failure: they would not be compared any more.
MOST_LEFT_OUT = {"compiler-rt": 36, "gcc": 2, "units": 4}

PIECES = "AddressSanitizer names the class by the first byte, which is good; here it is that of the bad byte"

# Tests with executions that are not the same.
KNOWN: List[Row] = [
    Row("compiler-rt", "Linux/interception_test.cpp", "what lies below a program's own function is not checked"),
    Row("compiler-rt", "Linux/odr-violation.cpp",
        "a violation, which AddressSanitizer does not see with private aliases and no indicators"),
    Row("compiler-rt", "Linux/odr_c_test.c", "AddressSanitizer reports an unaligned variable of code without checks"),
    Row("compiler-rt", "Linux/quarantine_size_mb.cpp", "AddressSanitizer refuses two options together"),
    Row("compiler-rt", "Linux/thread_local_quarantine_size_kb.cpp", "AddressSanitizer refuses two options together"),
    Row("compiler-rt", "Posix/closed-fds.cpp", "AddressSanitizer's report goes to a file"),
    Row("compiler-rt", "Linux/printf-fortify-5.c",
        "AddressSanitizer fills a new block with bytes that are no end of a format; here its first byte is one"),
    Row("compiler-rt", "Linux/stack-trace-dlclose.cpp",
        "AddressSanitizer loses the lines of a library that was closed"),
    Row("compiler-rt", "Posix/ioctl.cpp", "a bug, which AddressSanitizer looks for with handle_ioctl=1"),
    Row("compiler-rt", "Posix/new_array_cookie_uaf_test.cpp",
        "AddressSanitizer ends in a check before it has named the free"),
    Row("compiler-rt", "log-path_test.cpp", "AddressSanitizer's report goes to a file"),
    Row("compiler-rt", "suppressions-exec-relative-location.cpp",
        "AddressSanitizer does not start without its file of suppressions; here a line names it"),
    Row("compiler-rt", "wild_pointer.cpp",
        "AddressSanitizer looks at the end of the range first, which no process has; here the first bad byte counts"),
    Row("compiler-rt", "contiguous_container_crash.cpp",
        "a container may begin at any address, as with later versions of AddressSanitizer"),
    Row("gcc", "c-c++-common/asan/misalign-*", PIECES),
    Row("gcc", "g++.dg/asan/interception-test-1.C", "what lies below a program's own function is not checked"),
]

# Tests of compiler-rt of which each line that they look for is in the text of --log-path. Others look for options of
# the runtime or classes that are not claimed, or have not been tried.
TEXTS = (
    "Linux/abort_on_error.cpp", "Linux/bzero.cpp", "Linux/clone_test.cpp", "Linux/global-overflow-bfd.cpp",
    "Linux/global-overflow-lld.cpp", "Linux/init_fini_sections.cpp", "Linux/initialization-bug-any-order.cpp",
    "Linux/interception_malloc_test.cpp", "Linux/interception_readdir_r_test.cpp", "Linux/malloc-in-qsort.cpp",
    "Linux/malloc_delete_mismatch.cpp", "Linux/memmem_test.cpp", "Linux/new_delete_mismatch.cpp",
    "Linux/new_delete_mismatch_global.cpp", "Linux/new_delete_mismatch_stack.cpp", "Linux/overflow-in-qsort.cpp",
    "Linux/printf-fortify-1.c", "Linux/printf-fortify-2.c", "Linux/printf-fortify-3.c", "Linux/printf-fortify-4.c",
    "Linux/ptrace.cpp", "Linux/recvfrom.cpp", "Linux/segv_read_write.c", "Linux/signal_during_stop_the_world.cpp",
    "Linux/sized_delete_test.cpp", "Linux/stack-overflow-recovery-mode.cpp", "Linux/stack-overflow-sigbus.cpp",
    "Linux/syscalls.cpp", "Linux/thread_local_quarantine_pthread_join.cpp", "PR52382.c", "Posix/asprintf.cpp",
    "Posix/concurrent_overflow.cpp", "Posix/deep_thread_stack.cpp", "Posix/dlclose-test.cpp", "Posix/fgets_fputs.cpp",
    "Posix/fread_fwrite.cpp", "Posix/free_hook_realloc.cpp", "Posix/glob.cpp", "Posix/global-registration.c",
    "Posix/handle_abort_on_error.cpp", "Posix/interception-in-shared-lib-test.cpp", "Posix/ioctl.cpp",
    "Posix/new_array_cookie_test.cpp", "Posix/no-fd.cpp", "Posix/no_asan_gen_globals.c", "Posix/readv.cpp",
    "Posix/shared-lib-test.cpp", "Posix/strndup_oob_test.cpp", "Posix/strndup_oob_test2.cpp", "Posix/wait3.cpp",
    "Posix/wait4.cpp", "Posix/wcrtomb.c", "alloca_big_alignment.cpp", "alloca_constant_size.cpp",
    "alloca_detect_custom_size_.cpp", "alloca_overflow_partial.cpp", "alloca_overflow_right.cpp",
    "alloca_underflow_left.cpp", "asan_and_llvm_coverage_test.cpp", "asan_update_allocation.cpp",
    "atol_strict.c", "calloc-overflow.cpp",
    "deep_tail_call.cpp", "double-free.cpp", "frexp_interceptor.cpp", "frexpf_interceptor.cpp",
    "frexpl_interceptor.cpp", "global-address.cpp", "global-overflow.cpp", "global-underflow.cpp", "halt_on_error-1.c",
    "heap-overflow-large.cpp", "heap-overflow.cpp", "heavy_uar_test.cpp", "init-order-atexit.cpp",
    "intra-object-overflow.cpp", "invalid-free.cpp", "invalid-pointer-pairs-subtract-errors.cpp", "large_func_test.cpp",
    "memset_test.cpp", "null_deref.cpp", "on_error_callback.cpp", "partial_right.cpp", "printf-1.c", "printf-2.c",
    "realloc.cpp", "stack-buffer-overflow-with-position.cpp", "stack-buffer-overflow.cpp", "stack-oob-frames.cpp",
    "strchr_strict.c", "strcmp.c", "strcpy-overlap.cpp", "strncpy-overflow.cpp", "strspn_strict.c", "strstr-1.c",
    "strstr_strict.c", "strtol_strict.c", "strtoll_strict.c", "time_interceptor.cpp", "unaligned_loads_and_stores.cpp",
    "use-after-delete.cpp", "use-after-free-right.cpp", "use-after-free.cpp", "use-after-poison.cpp",
    "use-after-scope-capture.cpp", "use-after-scope-dtor-order.cpp", "use-after-scope-if.cpp",
    "use-after-scope-inlined.cpp", "use-after-scope-loop-bug.cpp", "use-after-scope-loop-removed.cpp",
    "use-after-scope-loop.cpp", "use-after-scope-temp.cpp", "use-after-scope-temp2.cpp", "use-after-scope-types.cpp",
    "use-after-scope.cpp", "vla_chrome_testcase.cpp", "vla_condition_overflow.cpp", "vla_loop_overfow.cpp",
    "zero_page_pc.cpp",
)
