"""Programs with more rights than who starts them: set-user-ID, set-group-ID, capabilities. They believe no setting,
whatever the dynamic linker does with the environment."""

import os
import shutil

from support import expect, leave_out, write
from testing.expectations import LeftOut
from testing.programs import PATIENCE, call

PROGRAM = """#include <stdio.h>
#include <stdlib.h>
#include <sys/auxv.h>
static int four(void) { return 4; }
__attribute__((used)) static int (*choose(void))(void) { return four; }
int resolved(void) __attribute__((ifunc("choose")));
int main(void)
{
    char *volatile q = malloc(4);
    q[resolved()] = 1;
    free(q);
    printf("%lu\\n", getauxval(AT_SECURE));
    return 0;
}
"""

# What the dynamic linker takes out of the environment of such a program.
UNSECURE = """GCONV_PATH GETCONF_DIR GLIBC_TUNABLES HOSTALIASES LD_AUDIT LD_DEBUG LD_DEBUG_OUTPUT LD_DYNAMIC_WEAK
LD_LIBRARY_PATH LD_ORIGIN_PATH LD_PRELOAD LD_PROFILE LD_SHOW_AUXV LOCALDOMAIN LOCPATH MALLOC_ARENA_MAX MALLOC_ARENA_TEST
MALLOC_CHECK_ MALLOC_MMAP_MAX_ MALLOC_MMAP_THRESHOLD_ MALLOC_PERTURB_ MALLOC_TOP_PAD_ MALLOC_TRACE
MALLOC_TRIM_THRESHOLD_ NIS_PATH NLSPATH RESOLV_HOST_CONF RES_OPTIONS TMPDIR TZDIR""".split()

# What happens to the program's file, by the name of the way.
WAYS = {
    "set-user-ID": ["chmod", "4755"],
    "set-group-ID": ["chmod", "2755"],
    "capabilities": ["setcap", "cap_net_bind_service+ep"],
}

# Its settings. A hub has its marks beside its path.
SETTINGS = (
    {"ASANCOL_TRACE": "%p.trace", "ASANCOL_LOG": "said", "ASANCOL_HALT": "1", "ASANCOL_NONE": "1"},
    {"ASANCOL_HUB": "{folder}/hub-1", "ASANCOL_HALT": "1"},
    {"ASANCOL_SOCKET": "{folder}/socket", "ASANCOL_LOG": "said"},
)


def ran_as(user, folder, settings):
    """What a run says, and the files that it leaves."""
    given = {name: value.format(folder=folder) for name, value in settings.items()}
    before = set(os.listdir(folder))
    ran = call(["./it"], cwd=folder, env=given, user=user, group=user, extra_groups=[], check=False,
               capture_output=True, timeout=PATIENCE)
    left = set(os.listdir(folder)) - before
    for name in left:
        os.unlink(f"{folder}/{name}")
    return (ran.returncode, ran.stdout, ran.stderr), left


def check_rights(_, folder, compiler, flags):
    if os.geteuid() != 0:
        raise LeftOut("only root makes a program set-user-ID for others")
    if os.statvfs(folder).f_flag & os.ST_NOSUID:
        raise LeftOut(f"{folder} is mounted with nosuid")
    write(folder, it_c=PROGRAM)
    compiler.c(folder, ["it.c"], f"{folder}/it", "-w", *flags)
    os.chmod(folder, 0o777)
    believed = [ran_as(0, folder, settings) for settings in SETTINGS[:1]]
    expect([(ran[0] != 0, bool(left)) for ran, left in believed], [(True, True)], "without more rights it believes")
    unsecure = {**dict.fromkeys(UNSECURE, "/x"), "LD_DEBUG": ""}  # of an unknown word of this one there is a line
    for way, (tool, *words) in WAYS.items():
        if shutil.which(tool) is None:
            leave_out(f"programs with {way}: there is no {tool}")
            continue
        shutil.copy(f"{folder}/it", f"{folder}/of-another")
        os.replace(f"{folder}/of-another", f"{folder}/it")
        call([tool, *words, f"{folder}/it"], check=True)
        for settings in SETTINGS:
            for others in ({}, {"LD_PRELOAD": "/x"}, unsecure):
                seen = ran_as(65534, folder, {**others, **settings})
                expect(seen, ((0, b"1\n", b""), set()), f"{way}, with {[*others, *settings]}")


def tests(suite, compiler):
    for flags in ([], ["-no-pie"], ["-static"], ["-static-pie"]):
        suite.test(" ".join([str(compiler), "more rights", *flags]), check_rights, compiler, flags)
