"""Tests of calls of the C library: each row of calls.def used well and with a block that is one byte too short."""

import glob
import grp
import os
import pwd
import re
import shutil
from typing import Dict, List, NamedTuple, Sequence, Set, Tuple, Union

from support import RECORDER, TESTS, Compiler, Suite, Trace, expect, leave_out, placed, reports, run, side_of, write
from testing.programs import NO_SETTINGS
from testing.side import GLOBAL, NO_VARIABLE, OF_STACK

CALLS = ("CALL", "QUICK", "QUICK_AFTER")
WORD = "CALL|QUICK|QUICK_AFTER|NO_RESULT|LOCK|(?:WIDE_)?(?:PRINT|SCAN)|LOG|MESSAGE"
ROW = re.compile(rf"^({WORD})\((.*?)\)(?=\n(?! )|\Z)", re.M | re.S)


class Row(NamedTuple):
    """A row of calls.def: its word, its names, and what stands between its commas."""

    word: str
    names: List[str]
    rest: List[str]

    def parameters(self) -> str:
        return self.rest[0] if self.word in ("NO_RESULT", "LOCK", "MESSAGE") else self.rest[1]

    def result(self) -> str:
        if self.word in ("NO_RESULT", "LOG", "MESSAGE"):
            return "void"
        return self.rest[0] if self.word in CALLS else "int"

    def has_format(self) -> bool:
        return self.word not in (*CALLS, "NO_RESULT", "LOCK")

    def has_list(self) -> bool:
        """Whether there is a function with a va_list beside it: the first of the rest."""
        return self.has_format() and self.word != "MESSAGE"


def split(text: str) -> List[str]:
    """What stands between the commas outside of parentheses and braces."""
    parts, depth = [""], 0
    for letter in text:
        depth += (letter in "({[") - (letter in ")}]")
        if letter == "," and depth == 0:
            parts.append("")
        else:
            parts[-1] += letter
    return [" ".join(part.split()) for part in parts]


def rows(text: str) -> List[Row]:
    """The rows of a table, as it is written or as calls.awk leaves it."""
    text = re.sub(r"/\*.*?\*/", "", text, flags=re.S)
    found = []
    for match in ROW.finditer(text):
        names, *rest = split(match.group(2))
        found.append(Row(match.group(1), names.split(), rest))
    return found


def table(name: str = "calls/calls.def") -> List[Row]:
    with open(f"{RECORDER}/{name}", encoding="ascii") as file:
        return rows(file.read())


def wide(text: str) -> bytes:
    return (text + "\0").encode("utf-32-le")


# How rows are tried, by their first names: what a block `p` holds, or how many bytes of zeros, and the arguments. With
# one byte less the call must be found, and its line. Text has its end, a zero.
Use = Tuple[Union[str, bytes, int], str]

ADDRESS = "(struct sockaddr *)p"
# A lock that a thread has to have before it waits for a condition, so that nothing waits; a semaphore to pass once.
REFUSING = bytes(16) + b"\2" + bytes(23)
ONE_PERMIT = b"\1" + bytes(31)
# As the C library keeps the line of root, with a zero at its end.
LENGTH_OF_ROOT = len(":".join(map(str, pwd.getpwuid(0)))) + 1
# The same for the line of its group, and after that, at a multiple of 8, the addresses of its members.
GROUP_OF_ROOT = grp.getgrgid(0)
LENGTH_OF_GROUP = len(":".join(map(str, GROUP_OF_ROOT[:3]))) + 1 + len(",".join(GROUP_OF_ROOT.gr_mem)) + 1
LENGTH_OF_GROUP = (LENGTH_OF_GROUP + 7) // 8 * 8 + 8 * (len(GROUP_OF_ROOT.gr_mem) + 1)

USES: Dict[str, Sequence[Use]] = {
    # Memory.
    "memcpy": [(8, "p, text, 8"), (8, "room, p, 8")],
    "memmove": [(8, "p, text, 8"), (8, "room, p, 8")],
    "__memcpy_chk": [(8, "p, text, 8, ANY"), (8, "room, p, 8, ANY")],
    "__memmove_chk": [(8, "p, text, 8, ANY"), (8, "room, p, 8, ANY")],
    "memccpy": [(8, "p, text, 'h', 20"), ("abcdefg", "room, p, 0, 20")],
    "memset": [(8, "p, 1, 8")],
    "__memset_chk": [(8, "p, 1, 8, ANY")],
    "bzero": [(8, "p, 8")],
    "__explicit_bzero_chk": [(8, "p, 8, ANY")],
    "bcopy": [(8, "p, room, 8"), (8, "text, p, 8")],
    "swab": [(8, "p, room, 9"), (8, "text, p, 9")],
    "memcmp": [("abcdefg", "p, text, 8"), ("abcdefg", "text, p, 8")],
    "memchr": [(8, "p, 'a', 8"), ("abcdefg", "p, 0, 20")],
    "memrchr": [(8, "p, 'a', 8")],
    "rawmemchr": [("abcdefg", "p, 0")],
    "memmem": [(8, "p, 8, text, 2"), ("abcdefg", "p, 8, text, 2"), (8, "room, 20, p, 8")],
    # Strings.
    "strlen": [("abcdefg", "p")],
    "strnlen": [("abcdefg", "p, 20"), ("abcdefgh", "p, 9")],
    "strcpy": [("abcdefg", "room, p"), (8, 'p, "abcdefg"')],
    "__strcpy_chk": [("abcdefg", "room, p, ANY"), (8, 'p, "abcdefg", ANY')],
    "strncpy": [("abcdefg", "room, p, 20"), (8, 'p, "a", 8')],
    "__strncpy_chk": [("abcdefg", "room, p, 20, ANY"), (8, 'p, "a", 8, ANY')],
    "strlcpy": [("abcdefg", "room, p, 3"), (4, "p, text, 4")],
    "__strlcpy_chk": [("abcdefg", "room, p, 3, ANY"), (4, "p, text, 4, ANY")],
    "strlcat": [("abcdefg", "clear(room), p, 3"), (4, "clear(p), text, 4")],
    "__strlcat_chk": [("abcdefg", "clear(room), p, 3, ANY"), (4, "clear(p), text, 4, ANY")],
    "strcat": [("abcdefg", "clear(room), p"), (8, 'clear(p), "abcdefg"')],
    "__strcat_chk": [("abcdefg", "clear(room), p, ANY"), (8, 'clear(p), "abcdefg", ANY')],
    "strncat": [("abcdefg", "clear(room), p, 20"), (8, "clear(p), text, 7")],
    "__strncat_chk": [("abcdefg", "clear(room), p, 20, ANY"), (8, "clear(p), text, 7, ANY")],
    "strcmp": [("abcdefg", 'p, "abcdefg"'), ("abcdefg", '"abcdefg", p')],
    "strncmp": [("abcdefg", 'p, "abcdefg", 20'), ("abcdefg", '"abcdefg", p, 8')],
    "strcasecmp": [("abcdefg", 'p, "ABCDEFG"'), ("abcdefg", '"ABCDEFG", p')],
    "strncasecmp": [("abcdefg", 'p, "ABCDEFG", 20'), ("abcdefg", '"ABCDEFG", p, 8')],
    "strcasecmp_l": [("abcdefg", 'p, "ABCDEFG", latin_locale()'), ("abcdefg", '"ABCDEFG", p, latin_locale()')],
    "strncasecmp_l": [("abcdefg", 'p, "ABCDEFG", 20, latin_locale()')],
    "strverscmp": [("abcdefg", 'p, "abcdefg"'), ("abcdefg", '"abcdefg", p')],
    "strcoll": [("abcdefg", "p, text"), ("abcdefg", "text, p")],
    "strcoll_l": [("abcdefg", "p, text, latin_locale()"), ("abcdefg", "text, p, latin_locale()")],
    "strxfrm": [("abcdefg", "room, p, 20"), (8, 'p, "abcdefg", 8')],
    "strxfrm_l": [("abcdefg", "room, p, 20, latin_locale()"), (8, 'p, "abcdefg", 8, latin_locale()')],
    "strchr": [("abcdefg", "p, 'z'"), ("abcdefg", "p, 0")],
    "strrchr": [("abcdefg", "p, 'a'")],
    "strchrnul": [("abcdefg", "p, 'z'")],
    "strstr": [("abcdefg", 'p, "z"'), ("abc", "text, p")],
    "strspn": [("aaaaaaa", 'p, "a"'), ("abcdefg", "text, p")],
    "strcspn": [("aaaaaaa", 'p, "z"'), ("xyz", "text, p")],
    "strpbrk": [("abcdefg", 'p, "z"'), ("xyz", "text, p")],
    "strtok": [("abcdefg", 'p, ","'), ("xyz", "copy(text), p")],
    "strtok_r": [("abcdefg", 'p, ",", (char **)room'), ("xyz", "copy(text), p, (char **)room"),
                 (8, 'copy(text), ",", (char **)p')],
    "strsep": [("abcdefg", '&p, ","'), ("xyz", "address_of(copy(text)), p")],
    "strdup": [("abcdefg", "p")],
    "strndup": [("abcdefg", "p, 20")],
    "strerror_r": [(8, "12345, p, 8")],
    "__xpg_strerror_r": [("No such file or directory", "ENOENT, p, 26")],
    "basename": [("/a/b/cd", "p")],
    "gettext": [("abcdefg", "p")],
    "dgettext": [("abcdefg", "p, text"), ("abcdefg", '"name", p')],
    "dcgettext": [("abcdefg", "p, text, LC_MESSAGES"), ("abcdefg", '"name", p, LC_MESSAGES')],
    "ngettext": [("abcdefg", "p, text, 1"), ("abcdefg", "text, p, 2")],
    # Numbers.
    "strtol": [("1234567", "p, NULL, 10"), (8, '"12", (char **)p, 10'), ("  -", "p, NULL, 10")],
    "strtoul": [("1234567", "p, NULL, 10"), (8, '"12", (char **)p, 10')],
    "strtod": [("1234.67", "p, NULL"), (8, '"12", (char **)p')],
    "strtof": [("1234.67", "p, NULL"), (8, '"12", (char **)p')],
    "strtold": [("1234.67", "p, NULL"), (8, '"12", (char **)p')],
    "strtol_l": [("1234567", "p, NULL, 10, latin_locale()"), (8, '"12", (char **)p, 10, latin_locale()')],
    "strtoul_l": [("1234567", "p, NULL, 10, latin_locale()"), (8, '"12", (char **)p, 10, latin_locale()')],
    "strtod_l": [("1234.67", "p, NULL, latin_locale()"), (8, '"12", (char **)p, latin_locale()')],
    "strtof_l": [("1234.67", "p, NULL, latin_locale()"), (8, '"12", (char **)p, latin_locale()')],
    "strtold_l": [("1234.67", "p, NULL, latin_locale()"), (8, '"12", (char **)p, latin_locale()')],
    "atoi": [("1234567", "p"), (" +", "p")],
    "atol": [("1234567", "p")],
    "atof": [("1234.67", "p")],
    "gcvt": [(4, "1.5, 9, p")],
    # Random numbers.
    "rand_r": [(4, "(unsigned *)p")],
    "random_r": [(4, "random_state(), (int32_t *)p")],
    "drand48_r": [(8, "(struct drand48_data *)zeros(), (double *)p"), (24, "(struct drand48_data *)p, (double *)room")],
    "lrand48_r": [(8, "(struct drand48_data *)zeros(), (long *)p"), (24, "(struct drand48_data *)p, (long *)room")],
    # Mathematics.
    "frexp": [(4, "2.0, (int *)p")],
    "frexpf": [(4, "2.0f, (int *)p")],
    "frexpl": [(4, "2.0L, (int *)p")],
    "modf": [(8, "2.5, (double *)p")],
    "modff": [(4, "2.5f, (float *)p")],
    "modfl": [(16, "2.5L, (long double *)p")],
    "remquo": [(4, "7.0, 2.0, (int *)p")],
    "remquof": [(4, "7.0f, 2.0f, (int *)p")],
    "remquol": [(4, "7.0L, 2.0L, (int *)p")],
    "lgamma_r": [(4, "2.5, (int *)p")],
    "lgammaf_r": [(4, "2.5f, (int *)p")],
    "lgammal_r": [(4, "2.5L, (int *)p")],
    "sincos": [(8, "1.0, (double *)p, (double *)room"), (8, "1.0, (double *)room, (double *)p")],
    "sincosf": [(4, "1.0f, (float *)p, (float *)room"), (4, "1.0f, (float *)room, (float *)p")],
    "sincosl": [(16, "1.0L, (long double *)p, (long double *)room"),
                (16, "1.0L, (long double *)room, (long double *)p")],
    # Wide strings, and those of several bytes a character.
    "wcslen": [(wide("abc"), "WIDE(p)")],
    "wcsnlen": [(wide("abc"), "WIDE(p), 20")],
    "wcscpy": [(wide("abc"), "WIDE(room), WIDE(p)"), (16, 'WIDE(p), L"abc"')],
    "__wcscpy_chk": [(wide("abc"), "WIDE(room), WIDE(p), ANY"), (16, 'WIDE(p), L"abc", ANY')],
    "wcsncpy": [(wide("abc"), "WIDE(room), WIDE(p), 20"), (16, 'WIDE(p), L"a", 4')],
    "__wcsncpy_chk": [(wide("abc"), "WIDE(room), WIDE(p), 20, ANY"), (16, 'WIDE(p), L"a", 4, ANY')],
    "wcscat": [(wide("abc"), "WIDE(clear(room)), WIDE(p)"), (16, 'WIDE(clear(p)), L"abc"')],
    "__wcscat_chk": [(wide("abc"), "WIDE(clear(room)), WIDE(p), ANY"), (16, 'WIDE(clear(p)), L"abc", ANY')],
    "wcsncat": [(wide("abc"), "WIDE(clear(room)), WIDE(p), 20"), (16, 'WIDE(clear(p)), L"abcdef", 3')],
    "__wcsncat_chk": [(wide("abc"), "WIDE(clear(room)), WIDE(p), 20, ANY"),
                      (16, 'WIDE(clear(p)), L"abcdef", 3, ANY')],
    "wcscmp": [(wide("abc"), 'WIDE(p), L"abc"'), (wide("abc"), 'L"abc", WIDE(p)')],
    "wcsncmp": [(wide("abc"), 'WIDE(p), L"abc", 20'), (wide("abc"), 'L"abc", WIDE(p), 4')],
    "wcscasecmp": [(wide("abc"), 'WIDE(p), L"ABC"'), (wide("abc"), 'L"ABC", WIDE(p)')],
    "wcsncasecmp": [(wide("abc"), 'WIDE(p), L"ABC", 20'), (wide("abc"), 'L"ABC", WIDE(p), 4')],
    "wcscoll": [(wide("abc"), 'WIDE(p), L"abc"'), (wide("abc"), 'L"abc", WIDE(p)')],
    "wcswidth": [(wide("abc"), "WIDE(p), 20")],
    "wcstok": [(wide("abc"), 'WIDE(p), L",", (wchar_t **)room'),
               (wide("xyz"), "WIDE(clear(room)), WIDE(p), (wchar_t **)room"),
               (8, 'WIDE(clear(room)), L",", (wchar_t **)p')],
    "wcschr": [(wide("abc"), "WIDE(p), 'z'")],
    "wcsrchr": [(wide("abc"), "WIDE(p), 'a'")],
    "wcsstr": [(wide("abc"), 'WIDE(p), L"z"'), (wide("abc"), 'L"abcdef", WIDE(p)')],
    "wcsspn": [(wide("aaa"), 'WIDE(p), L"a"'), (wide("abc"), 'L"xyz", WIDE(p)')],
    "wcscspn": [(wide("aaa"), 'WIDE(p), L"z"'), (wide("abc"), 'L"xyz", WIDE(p)')],
    "wcspbrk": [(wide("abc"), 'WIDE(p), L"z"'), (wide("abc"), 'L"xyz", WIDE(p)')],
    "wcsdup": [(wide("abc"), "WIDE(p)")],
    "wcsxfrm": [(wide("abc"), "WIDE(room), WIDE(p), 20"), (16, 'WIDE(p), L"abc", 4')],
    "wcsxfrm_l": [(wide("abc"), "WIDE(room), WIDE(p), 20, latin_locale()"),
                  (16, 'WIDE(p), L"abc", 4, latin_locale()')],
    "wmemcpy": [(16, "WIDE(room), WIDE(p), 4"), (16, "WIDE(p), WIDE(room), 4")],
    "wmemmove": [(16, "WIDE(room), WIDE(p), 4"), (16, "WIDE(p), WIDE(room), 4")],
    "__wmemmove_chk": [(16, "WIDE(room), WIDE(p), 4, ANY"), (16, "WIDE(p), WIDE(room), 4, ANY")],
    "__wmemcpy_chk": [(16, "WIDE(room), WIDE(p), 4, ANY"), (16, "WIDE(p), WIDE(room), 4, ANY")],
    "wmemset": [(16, "WIDE(p), 'a', 4")],
    "__wmemset_chk": [(16, "WIDE(p), 'a', 4, ANY")],
    "wmemcmp": [(16, "WIDE(p), WIDE(room), 4"), (16, "WIDE(room), WIDE(p), 4")],
    "wmemchr": [(16, "WIDE(p), 'z', 4")],
    "wcstol": [(wide("123"), "WIDE(p), NULL, 10"), (8, 'L"12", (wchar_t **)p, 10')],
    "wcstoul": [(wide("123"), "WIDE(p), NULL, 10"), (8, 'L"12", (wchar_t **)p, 10')],
    "wcstod": [(wide("123"), "WIDE(p), NULL"), (8, 'L"12", (wchar_t **)p')],
    "wcstof": [(wide("123"), "WIDE(p), NULL"), (8, 'L"12", (wchar_t **)p')],
    "wcstold": [(wide("123"), "WIDE(p), NULL"), (8, 'L"12", (wchar_t **)p')],
    "mbstowcs": [(16, 'WIDE(p), "abc", 20')],
    "__mbstowcs_chk": [(16, 'WIDE(p), "abc", 20, ANY')],
    "wcstombs": [(4, 'p, L"abc", 20')],
    "__wcstombs_chk": [(4, 'p, L"abc", 20, ANY')],
    "mbsrtowcs": [(16, "WIDE(p), (const char **)address_of(\"abc\"), 20, state()"),
                 (8, 'WIDE(room), (const char **)address_of("abc"), 20, p')],
    "__mbsrtowcs_chk": [(16, "WIDE(p), (const char **)address_of(\"abc\"), 20, state(), ANY"),
                       (8, 'WIDE(room), (const char **)address_of("abc"), 20, p, ANY')],
    "wcsrtombs": [(4, "p, (const wchar_t **)address_of(L\"abc\"), 20, state()"),
                 (8, 'room, (const wchar_t **)address_of(L"abc"), 20, p')],
    "__wcsrtombs_chk": [(4, "p, (const wchar_t **)address_of(L\"abc\"), 20, state(), ANY"),
                       (8, 'room, (const wchar_t **)address_of(L"abc"), 20, p, ANY')],
    "mbsnrtowcs": [(16, "WIDE(p), (const char **)address_of(\"abc\"), 20, 20, state()"),
                  ("abc", "WIDE(room), (const char **)address_of(p), 20, 20, state()"),
                  ("ab", "NULL, (const char **)address_of(p), 3, 20, state()"),
                  (8, 'WIDE(room), (const char **)address_of("abc"), 20, 20, p')],
    "__mbsnrtowcs_chk": [(16, "WIDE(p), (const char **)address_of(\"abc\"), 20, 20, state(), ANY"),
                        ("abc", "WIDE(room), (const char **)address_of(p), 20, 20, state(), ANY"),
                        (8, 'WIDE(room), (const char **)address_of("abc"), 20, 20, p, ANY')],
    "wcsnrtombs": [(4, "p, (const wchar_t **)address_of(L\"abc\"), 20, 20, state()"),
                  (wide("abc"), "room, (const wchar_t **)address_of(p), 20, 20, state()"),
                  (8, 'room, (const wchar_t **)address_of(L"abc"), 20, 20, p')],
    "__wcsnrtombs_chk": [(4, "p, (const wchar_t **)address_of(L\"abc\"), 20, 20, state(), ANY"),
                        (wide("abc"), "room, (const wchar_t **)address_of(p), 20, 20, state(), ANY"),
                        (8, 'room, (const wchar_t **)address_of(L"abc"), 20, 20, p, ANY')],
    "mbtowc": [(4, 'WIDE(p), "abc", 3')],
    "mbrtowc": [(4, 'WIDE(p), "abc", 3, state()'),
               (8, 'WIDE(room), "abc", 3, p')],
    "mblen": [(b"ab", "p + 1, 1")],
    "mbrlen": [(b"ab", "p + 1, 1, state()"), (8, "text, 3, p")],
    "wctomb": [(2, "p + 1, 'a'")],
    "__wctomb_chk": [(2, "p + 1, 'a', ANY")],
    "wcrtomb": [(2, "p + 1, 'a', state()"),
               (8, "room, 'a', p")],
    "__wcrtomb_chk": [(2, "p + 1, 'a', state(), ANY"),
                     (8, "room, 'a', p, ANY")],
    "iconv": [(8, "latin(), address_of(text), size_of(8), address_of(p), size_of(8)"),
              ("abcdefgh", "latin(), address_of(p), size_of(9), address_of(room), size_of(20)"),
             (8, "latin(), address_of(text), (size_t *)p, address_of(room), size_of(8)"),
             (8, "latin(), address_of(text), size_of(8), address_of(room), (size_t *)p"),
             (8, "latin(), (char **)p, size_of(0), address_of(room), size_of(8)")],
    # Descriptors.
    "read": [(8, "zero, p, 8")],
    "__read_chk": [(8, "zero, p, 8, ANY")],
    "pread": [(8, "hello, p, 8, 0")],
    "__pread_chk": [(8, "hello, p, 8, 0, ANY")],
    "readv": [(8, "zero, pieces(p, 8), 2")],
    "preadv": [(8, "hello, pieces(p, 8), 2, 0")],
    "preadv2": [(8, "hello, pieces(p, 8), 2, 0, 0")],
    "write": [(8, "null, p, 8")],
    "pwrite": [(8, "null, p, 8, 0")],
    "writev": [(8, "null, pieces(p, 8), 2")],
    "pwritev": [(8, "null, pieces(p, 8), 2, 0")],
    "pwritev2": [(8, "null, pieces(p, 8), 2, 0, 0")],
    "process_vm_readv": [(8, "getpid(), pieces(p, 8), 2, from_pieces(), 2, 0")],
    "process_vm_writev": [(8, "getpid(), pieces(p, 8), 2, to_pieces(), 2, 0")],
    "ioctl": [(4, "pair[0], FIONREAD, p"), (4, "pair[0], FIONBIO, p"), (36, "terminal(), TCGETS, p"),
              (8, "terminal(), TIOCGWINSZ, p"), (40, "pair[0], SIOCGIFINDEX, p"), (16, "pair[0], SIOCGIFCONF, p")],
    "getrandom": [(8, "p, 8, 0")],
    "getentropy": [(8, "p, 8")],
    "pipe": [(8, "(int *)p")],
    "pipe2": [(8, "(int *)p, 0")],
    "poll": [(8, "(struct pollfd *)p, 1, 0")],
    "__poll_chk": [(8, "(struct pollfd *)p, 1, 0, ANY")],
    "ppoll": [(8, "(struct pollfd *)p, 1, zeros(), NULL"), (16, "NULL, 0, (struct timespec *)p, NULL"),
             (128, "NULL, 0, zeros(), (sigset_t *)p")],
    "__ppoll_chk": [(8, "(struct pollfd *)p, 1, zeros(), NULL, ANY")],
    "select": [(8, "3, p, NULL, NULL, zeros()"), (16, "0, NULL, NULL, NULL, (struct timeval *)p")],
    "pselect": [(8, "3, p, NULL, NULL, zeros(), NULL")],
    "epoll_ctl": [(12, "epoll_create1(0), EPOLL_CTL_ADD, pair[0], (struct epoll_event *)p")],
    "epoll_wait": [(12, "epoll_of(pair[1]), (struct epoll_event *)p, 1, 0")],
    "epoll_pwait": [(12, "epoll_of(pair[1]), (struct epoll_event *)p, 1, 0, NULL")],
    "eventfd_read": [(8, "eventfd(1, 0), (uint64_t *)p")],
    "timerfd_settime": [(32, "timerfd_create(CLOCK_MONOTONIC, 0), 0, (struct itimerspec *)p, NULL"),
                        (32, "timerfd_create(CLOCK_MONOTONIC, 0), 0, zeros(), "
                             "(struct itimerspec *)p")],
    "timerfd_gettime": [(32, "timerfd_create(CLOCK_MONOTONIC, 0), (struct itimerspec *)p")],
    "tcgetattr": [(60, "terminal(), (struct termios *)p")],
    "tcsetattr": [(60, "null, 0, (struct termios *)p")],
    "fcntl": [(32, "null, F_GETLK, p"), (32, "-1, F_SETLK, p"), (8, "null, F_GETOWN_EX, p")],
    "splice": [(8, "-1, (off_t *)p, -1, NULL, 0, 0"), (8, "-1, NULL, -1, (off_t *)p, 0, 0")],
    "sendfile": [(8, "-1, -1, (off_t *)p, 1")],
    "vmsplice": [(32, "-1, (struct iovec *)p, 2, 0")],
    "getdents64": [(48, "empty_folder(), p, 48")],
    "getdirentries": [(48, "empty_folder(), p, 48, (off_t *)room"), (8, "empty_folder(), room, 48, (off_t *)p")],
    "epoll_pwait2": [(16, "epoll_of(pair[1]), (struct epoll_event *)room, 1, (struct timespec *)p, NULL")],
    "signalfd": [(128, "-1, (sigset_t *)p, 0")],
    "aio_read": [(168, "(struct aiocb *)p")],
    "aio_write": [(168, "(struct aiocb *)p"), (8, "request_of(null, p, 8)")],
    "aio_error": [(168, "(struct aiocb *)p")],
    "aio_fsync": [(168, "O_SYNC, (struct aiocb *)p")],
    "aio_cancel": [(168, "null, (struct aiocb *)p")],
    "aio_return": [(168, "(struct aiocb *)p"), (8, "read_request(zero, p, 8)")],
    "aio_suspend": [(8, "(const struct aiocb **)p, 1, zeros()"), (16, "zeros(), 1, (struct timespec *)p")],
    "lio_listio": [(8, "LIO_WAIT, (struct aiocb **)p, 1, NULL")],
    # Sockets and messages.
    "recv": [(8, "filled(), p, 8, 0")],
    "__recv_chk": [(8, "filled(), p, 8, ANY, 0")],
    "recvfrom": [(8, "filled(), p, 8, 0, NULL, NULL")],
    "__recvfrom_chk": [(8, "filled(), p, 8, ANY, 0, NULL, NULL")],
    "recvmsg": [(8, "filled(), message(p, 8), 0")],
    "recvmmsg": [(8, "filled(), messages(p, 8), 1, 0, NULL"),
                (16, "filled(), messages(room, 8), 1, 0, (struct timespec *)p")],
    "send": [(8, "filled(), p, 8, 0")],
    "sendto": [(8, "filled(), p, 8, 0, NULL, 0")],
    "sendmsg": [(8, "filled(), message(p, 8), 0")],
    "sendmmsg": [(64, "filled(), (struct mmsghdr *)p, 1, 0"), (8, "filled(), messages(p, 8), 1, 0")],
    "bind": [(110, f"pair[0], {ADDRESS}, 110")],
    "accept": [(2, f"connected(), {ADDRESS}, (socklen_t *)size_of(16)"),
               (4, "connected(), (struct sockaddr *)room, (socklen_t *)p")],
    "getsockname": [(2, f"pair[0], {ADDRESS}, (socklen_t *)size_of(16)")],
    "getpeername": [(2, f"pair[0], {ADDRESS}, (socklen_t *)size_of(16)")],
    "accept4": [(2, f"connected(), {ADDRESS}, (socklen_t *)size_of(16), 0")],
    "socketpair": [(8, "AF_UNIX, SOCK_STREAM, 0, (int *)p")],
    "setsockopt": [(4, "pair[0], SOL_SOCKET, SO_REUSEADDR, p, 4")],
    "getsockopt": [(4, "pair[0], SOL_SOCKET, SO_TYPE, p, (socklen_t *)size_of(4)"),
                   (4, "pair[0], SOL_SOCKET, SO_TYPE, room, (socklen_t *)memset(p, 1, 3)")],
    "msgrcv": [(16, "queue(), p, 8, 0, 0")],
    "msgsnd": [(16, "-1, p, 8, 0")],
    "shm_open": [("/no such", "p, 0, 0")],
    "memfd_create": [("name", "p, 0")],
    "mq_open": [("/no such", "p, 0, 0, NULL")],
    "shm_unlink": [("/no such", "p")],
    "mq_send": [(8, "-1, p, 8, 0")],
    "mq_receive": [(8, "message_queue(), p, 8, NULL"), (4, "message_queue(), room, 8, (unsigned *)p")],
    "mq_getattr": [(64, "message_queue(), (struct mq_attr *)p")],
    "semop": [(6, "-1, (struct sembuf *)p, 1")],
    "shmctl": [(112, "shared_memory(), IPC_STAT, (struct shmid_ds *)p"), (112, "-1, IPC_SET, (struct shmid_ds *)p")],
    # Streams.
    "fread": [(8, "p, 1, 8, stream(text)"), (8, "p, 4, 2, stream(text)")],
    "__fread_chk": [(8, "p, ANY, 1, 8, stream(text)")],
    "fwrite": [(8, "p, 1, 8, nowhere"), (8, "p, 4, 2, nowhere")],
    "fgets": [(8, 'p, 20, stream("abcdefg")'), (8, "p, 8, stream(text)")],
    "__fgets_chk": [(8, 'p, ANY, 20, stream("abcdefg")')],
    "fgetws": [(16, 'WIDE(p), 20, stream("abc")')],
    "__fgetws_chk": [(16, 'WIDE(p), ANY, 20, stream("abc")')],
    "fputs": [("abcdefg", "p, nowhere")],
    "fputws": [(wide("abc"), "WIDE(p), wide_nowhere")],
    "puts": [("abcdefg", "p")],
    "perror": [("abcdefg", "p")],
    "getline": [(8, "(char **)p, size_of(0), stream(text)"), (8, "address_of(NULL), (size_t *)p, stream(text)")],
    "getdelim": [(8, "(char **)p, size_of(0), '\\n', stream(text)")],
    "fopen": [("/dev/null", 'p, "r"'), ("r", '"/dev/null", p')],
    "freopen": [("/dev/null", 'p, "r", stream(text)'), ("r", '"/dev/null", p, stream(text)')],
    "fdopen": [("r", "dup(null), p")],
    "popen": [("true", 'p, "r"'), ("r", '"true", p')],
    "fmemopen": [("r", "room, 8, p"), (8, 'p, 8, "r"'), (8, 'p, 8, "w"'), (8, 'p, 8, "rb+"')],
    "open_memstream": [(8, "(char **)p, (size_t *)room"), (8, "(char **)room, (size_t *)p")],
    "open_wmemstream": [(8, "(wchar_t **)p, (size_t *)room")],
    "getmntent_r": [(40, 'stream("a b c d 0 0\\n"), (struct mntent *)p, room, 99'),
                   (8, 'stream("a b c d 0 0\\n"), (struct mntent *)room, p, 99')],
    "setbuf": [(8192, "fdopen(dup(null), \"r\"), p")],
    "setbuffer": [(64, "fdopen(dup(null), \"r\"), p, 64")],
    "setvbuf": [(64, "fdopen(dup(null), \"r\"), p, _IOFBF, 64")],
    "fgetpos": [(16, "nowhere, (fpos_t *)p")],
    "fsetpos": [(16, "nowhere, (fpos_t *)p")],
    # Files and directories.
    "open": [("/dev/null", "p, 0, 0")],
    "__open_2": [("/dev/null", "p, 0")],
    "openat": [("/dev/null", "0, p, 0, 0")],
    "__openat_2": [("/dev/null", "0, p, 0")],
    "creat": [("/no/such", "p, 0")],
    "mkdirat": [("/no/such", "0, p, 0")],
    "fchmodat": [("/no/such", "0, p, 0, 0")],
    "chown": [("/no/such", "p, 0, 0")],
    "truncate": [("/no/such", "p, 0")],
    "access": [("/dev/null", "p, 0")],
    "pathconf": [("/dev", "p, _PC_NAME_MAX")],
    "ftok": [("/dev", "p, 1")],
    "mknod": [("/no/such", "p, 0, 0")],
    "mknodat": [("/no/such", "0, p, 0, 0")],
    "faccessat": [("/dev/null", "0, p, 0, 0")],
    "chdir": [("/no/such", "p")],
    "unlinkat": [("/no/such", "0, p, 0")],
    "rename": [("/no/such", 'p, "/no/such"'), ("/no/such", '"/no/such", p')],
    "renameat": [("/no/such", '0, p, 0, "/no/such"')],
    "renameat2": [("/no/such", '0, p, 0, "/no/such", 0'), ("/no/such", '0, "/no/such", 0, p, 0')],
    "mount": [("/no", 'p, "/no/such", "", 0, NULL'), ("/no", '"", p, "", 0, NULL'), ("abc", '"", "/no", p, 0, NULL')],
    "umount": [("/no/such", "p")],
    "umount2": [("/no/such", "p, 0")],
    "inotify_add_watch": [("/no/such", "-1, p, 1")],
    "symlinkat": [("/no/such", 'p, 0, "/no/such/folder"')],
    "readlink": [("/proc/self/cwd", "p, room, 99"), (13, '"/dev/fd", p, 99')],
    "__readlink_chk": [("/proc/self/cwd", "p, room, 99, ANY")],
    "readlinkat": [("/proc/self/cwd", "0, p, room, 99")],
    "__readlinkat_chk": [("/proc/self/cwd", "0, p, room, 99, ANY")],
    "realpath": [("/dev", "p, NULL"), (5, '"/dev", p')],
    "__realpath_chk": [("/dev", "p, room, ANY")],
    "canonicalize_file_name": [("/dev", "p")],
    "getcwd": [(2, "in_root(p), 20")],
    "__getcwd_chk": [(2, "in_root(p), 20, ANY")],
    "stat": [("/dev", "p, (struct stat *)room"), (144, '"/dev", (struct stat *)p')],
    "fstat": [(144, "null, (struct stat *)p")],
    "fstatat": [("/dev", "0, p, (struct stat *)room, 0"), (144, '0, "/dev", (struct stat *)p, 0')],
    "__xstat": [("/dev", "1, p, (struct stat *)room"), (144, '1, "/dev", (struct stat *)p')],
    "__fxstat": [(144, "1, null, (struct stat *)p")],
    "statx": [("/dev", "0, p, 0, 0, (struct statx *)room"), (256, '0, "/dev", 0, 0, (struct statx *)p')],
    "statfs": [("/dev", "p, (struct statfs *)room"), (120, '"/dev", (struct statfs *)p')],
    "fstatfs": [(120, "null, (struct statfs *)p")],
    "statvfs": [("/dev", "p, (struct statvfs *)room"), (112, '"/dev", (struct statvfs *)p')],
    "fstatvfs": [(112, "null, (struct statvfs *)p")],
    "utime": [("/no/such", "p, NULL"), (16, '"/no/such", (struct utimbuf *)p')],
    "utimes": [("/no/such", "p, NULL"), (32, '"/no/such", (struct timeval *)p')],
    "utimensat": [("/no/such", "0, p, NULL, 0"), (32, '0, "/no/such", (struct timespec *)p, 0')],
    "futimens": [(32, "-1, (struct timespec *)p")],
    "futimes": [(32, "-1, (struct timeval *)p")],
    "opendir": [("/dev", "p")],
    "readdir_r": [(8, 'opendir("/"), (struct dirent *)room, (struct dirent **)p')],
    "scandir": [("/no/such", "p, (struct dirent ***)room, NULL, NULL")],
    "glob": [("/no/such", "p, 0, NULL, (glob_t *)room"), (72, '"/", 0, NULL, (glob_t *)p')],
    "fnmatch": [("abc", 'p, "abc", 0'), ("abc", '"*", p, 0')],
    "ftw": [("/no/such", "p, NULL, 1")],
    "nftw": [("/no/such", "p, NULL, 1, 0")],
    "mkstemp": [("/no/such/XXXXXX", "p")],
    "mkostemp": [("/no/such/XXXXXX", "p, 0")],
    "mkdtemp": [("/no/such/XXXXXX", "p")],
    "ttyname_r": [(64, "terminal(), before_end_of_name(p), 99")],
    "__ttyname_r_chk": [(64, "terminal(), before_end_of_name(p), 99, ANY")],
    "ptsname_r": [(64, "terminal_master(), before_end_of_name(p), 99")],
    "__ptsname_r_chk": [(64, "terminal_master(), before_end_of_name(p), 99, ANY")],
    "ctermid": [("/dev/tty", "p")],
    "getxattr": [("/dev", 'p, "user.a", room, 9'), ("user.a", '"/dev", p, room, 9')],
    "fgetxattr": [("user.a", "null, p, room, 9"), (8, 'with_attribute(), "user.a", p, 9')],
    "listxattr": [("/dev", "p, room, 9")],
    "flistxattr": [(64, "with_attribute(), before_end_of_attributes(p), 64")],
    "setxattr": [("/no", 'p, "user.a", room, 9, 0'), ("user.a", '"/no", p, room, 9, 0'),
                 (9, '"/no", "user.a", p, 9, 0')],
    "fsetxattr": [("user.a", "-1, p, room, 9, 0"), (9, '-1, "user.a", p, 9, 0')],
    "removexattr": [("/no", 'p, "user.a"'), ("user.a", '"/no", p')],
    "name_to_handle_at": [("/no", "0, p, zeros(), (int *)room, 0"), (4, '0, "/no", (struct file_handle *)p, NULL, 0')],
    "open_by_handle_at": [(8, "-1, (struct file_handle *)p, 0")],
    # Time.
    "time": [(8, "(time_t *)p")],
    "gettimeofday": [(16, "(struct timeval *)p, NULL")],
    "clock_gettime": [(16, "CLOCK_MONOTONIC, (struct timespec *)p")],
    "clock_settime": [(16, "-1, (struct timespec *)p")],
    "timespec_get": [(16, "(struct timespec *)p, TIME_UTC")],
    "timer_create": [(8, "CLOCK_MONOTONIC, NULL, (timer_t *)p"), (64, "-1, (struct sigevent *)p, (timer_t *)room")],
    "timer_settime": [(32, "made_timer(), 0, (struct itimerspec *)p, NULL"),
                      (32, "made_timer(), 0, zeros(), (struct itimerspec *)p")],
    "timer_gettime": [(32, "made_timer(), (struct itimerspec *)p")],
    "adjtimex": [(208, "(struct timex *)p")],
    "nanosleep": [(16, "(struct timespec *)p, NULL")],
    "clock_nanosleep": [(16, "CLOCK_MONOTONIC, 0, (struct timespec *)p, NULL")],
    "getitimer": [(32, "ITIMER_REAL, (struct itimerval *)p")],
    "setitimer": [(32, "ITIMER_REAL, (struct itimerval *)p, NULL"),
                  (32, "ITIMER_REAL, zeros(), (struct itimerval *)p")],
    "times": [(32, "(struct tms *)p")],
    "ftime": [(16, "(struct timeb *)p")],
    "clock_getcpuclockid": [(4, "0, (clockid_t *)p")],
    "gmtime_r": [(8, "(time_t *)p, (struct tm *)room"), (56, "zeros(), (struct tm *)p")],
    "gmtime": [(8, "(time_t *)p")],
    "ctime": [(8, "(time_t *)p")],
    "ctime_r": [(8, "(time_t *)p, room"), ("Thu Jan  1 00:00:00 1970\n", "zeros(), p")],
    "asctime": [(56, "(struct tm *)p")],
    "asctime_r": [(56, "(struct tm *)p, room")],
    "mktime": [(56, "(struct tm *)p")],
    "strftime": [("%Y", "room, 20, p, zeros()"), (56, 'room, 20, "%Y", (struct tm *)p'),
                 (5, 'p, 20, "%Y", zeros()')],
    "strftime_l": [("%Y", "room, 20, p, zeros(), latin_locale()"), (5, 'p, 20, "%Y", zeros(), latin_locale()')],
    "wcsftime": [(wide("%Y"), "WIDE(room), 20, WIDE(p), zeros()")],
    "strptime": [("%Y", '"2000", p, (struct tm *)room'), (56, '"2000", "%Y", (struct tm *)p')],
    # Processes, users and the system.
    "wait": [(4, "(ended(), (int *)p)")],
    "waitpid": [(4, "ended(), (int *)p, 0"), (4, "running(), (int *)p, WNOHANG")],
    "wait3": [(4, "(ended(), (int *)p), 0, NULL"), (4, "(running(), (int *)p), WNOHANG, NULL"),
              (144, "(ended(), NULL), 0, (struct rusage *)p")],
    "wait4": [(4, "ended(), (int *)p, 0, NULL"), (144, "running(), NULL, WNOHANG, (struct rusage *)p"),
              (144, "ended(), NULL, 0, (struct rusage *)p")],
    "waitid": [(128, "P_PID, (id_t)ended(), (siginfo_t *)p, WEXITED")],
    "sigwait": [(4, "waiting(), (int *)p"),
               (128, "waiting_in(p), (int *)room")],
    "sigwaitinfo": [(128, "waiting(), (siginfo_t *)p"),
                   (128, "waiting_in(p), (siginfo_t *)room")],
    "sigtimedwait": [(128, "waiting(), (siginfo_t *)p, NULL"), (16, "waiting(), NULL, (struct timespec *)p"),
                    (128, "waiting_in(p), (siginfo_t *)room, NULL")],
    "sigaltstack": [(24, "NULL, (stack_t *)p")],
    "sigemptyset": [(128, "(sigset_t *)p")],
    "sigandset": [(128, "(sigset_t *)p, zeros(), zeros()"), (128, "(sigset_t *)room, (sigset_t *)p, zeros()"),
                  (128, "(sigset_t *)room, zeros(), (sigset_t *)p")],
    "sigaddset": [(128, "(sigset_t *)p, SIGUSR2")],
    "sigismember": [(128, "(sigset_t *)p, SIGUSR2")],
    "sigprocmask": [(128, "SIG_BLOCK, (sigset_t *)p, NULL"), (128, "SIG_BLOCK, NULL, (sigset_t *)p")],
    "system": [("true", "p")],
    "posix_spawn": [("/no", "(pid_t *)room, p, NULL, NULL, nothing, nothing"),
                    (4, '(pid_t *)p, "/bin/true", NULL, NULL, nothing, nothing'),
                   (8, '(pid_t *)room, "/bin/true", NULL, NULL, (char **)p, nothing'),
                   (8, '(pid_t *)room, "/bin/true", NULL, NULL, nothing, (char **)p'),
                   (80, '(pid_t *)room, "/bin/true", (void *)p, NULL, nothing, nothing'),
                   (336, '(pid_t *)room, "/bin/true", NULL, (void *)p, nothing, nothing'),
                   ("abc", '(pid_t *)room, "/bin/true", NULL, NULL, (char *[]){p, NULL}, nothing')],
    "posix_spawn_file_actions_init": [(80, "(posix_spawn_file_actions_t *)p")],
    "posix_spawn_file_actions_addopen": [(80, '(posix_spawn_file_actions_t *)p, 0, "/", 0, 0'),
                                         ("/dev/null", "zeros(), 0, p, 0, 0")],
    "posix_spawn_file_actions_adddup2": [(80, "(posix_spawn_file_actions_t *)p, 0, 1")],
    "posix_spawn_file_actions_addclose": [(80, "(posix_spawn_file_actions_t *)p, 3")],
    "posix_spawnattr_init": [(336, "(posix_spawnattr_t *)p")],
    "getenv": [("HOME", "p")],
    "setenv": [("HOME", 'p, "/", 0'), ("/", '"HOME", p, 0')],
    "unsetenv": [("NOTHING", "p")],
    "putenv": [("NOTHING=1", "p")],
    "setlocale": [("C", "LC_ALL, p")],
    "uname": [(390, "(struct utsname *)p")],
    "sysinfo": [(112, "(struct sysinfo *)p")],
    "getrusage": [(144, "RUSAGE_SELF, (struct rusage *)p")],
    "getrlimit": [(16, "RLIMIT_CORE, (struct rlimit *)p")],
    "setrlimit": [(16, "RLIMIT_CORE, (struct rlimit *)p")],
    "prlimit": [(16, "0, RLIMIT_CORE, (struct rlimit *)p, NULL"), (16, "0, RLIMIT_CORE, NULL, (struct rlimit *)p")],
    "getopt": [(8, 'from_first(1), (char **)p, "a"'), ("abc", "from_first(1), nothing, p"),
               ("-a", 'from_first(2), words_with(p), "a"')],
    "getopt_long": [(8, 'from_first(1), (char **)p, "a", NULL, NULL'), ("abc", "from_first(1), nothing, p, NULL, NULL"),
                    ("--of", 'from_first(2), words_with(p), "", options_with("of"), NULL'),
                    (32, 'from_first(2), words_with("--of"), "a", (struct option *)p, NULL'),
                    (64, 'from_first(2), words_with("--of"), "a", options_in(p), NULL'),
                    ("of", 'from_first(2), words_with("--of"), "a", options_with(p), NULL'),
                    (4, 'from_first(2), words_with("--of"), "", options_with("of"), (int *)p')],
    "setgroups": [(4, "1, (gid_t *)p")],
    "gethostname": [(64, "before_end_of_host(p, gethostname), 64")],
    "__gethostname_chk": [(64, "before_end_of_host(p, gethostname), 64, ANY")],
    "getdomainname": [(64, "before_end_of_host(p, getdomainname), 64")],
    "__getdomainname_chk": [(64, "before_end_of_host(p, getdomainname), 64, ANY")],
    "getgroups": [(64, "getgroups(0, NULL), before_end_of_groups(p)")],
    "__getgroups_chk": [(64, "getgroups(0, NULL), before_end_of_groups(p), ANY")],
    "getloadavg": [(24, "(double *)p, 3")],
    "confstr": [("/bin:/usr/bin", "_CS_PATH, p, 99")],
    "__confstr_chk": [("/bin:/usr/bin", "_CS_PATH, p, 99, ANY")],
    "getresuid": [(4, "(uid_t *)p, (uid_t *)room, (uid_t *)room"), (4, "(uid_t *)room, (uid_t *)room, (uid_t *)p")],
    "getgrouplist": [("root", "p, 0, (gid_t *)room, (int *)size_of(9)"),
                     (4, '"root", 0, (gid_t *)p, (int *)size_of(1)')],
    "initgroups": [("root", "p, 0")],
    "getpwnam": [("root", "p")],
    "getgrnam": [("root", "p")],
    "getpwnam_r": [("root", "p, (struct passwd *)room, room + 99, 999, (struct passwd **)room"),
                   (48, '"root", (struct passwd *)p, room + 99, 999, (struct passwd **)room'),
                   (8, '"root", (struct passwd *)room, room + 99, 999, (struct passwd **)p')],
    "getpwuid_r": [(48, "0, (struct passwd *)p, room + 99, 999, (struct passwd **)room"),
                   (LENGTH_OF_ROOT, "0, (struct passwd *)(room + 8), p, 999, (struct passwd **)room")],
    "getpwent_r": [(48, "(struct passwd *)p, room + 99, 999, (struct passwd **)room")],
    "fgetpwent_r": [(48, 'fopen("/etc/passwd", "r"), (struct passwd *)p, room + 99, 999, (struct passwd **)room')],
    "getpass": [("abcdefg", "after_input(\"secret\\n\", p)")],
    "textdomain": [("name", "p")],
    "bindtextdomain": [("name", "p, NULL"), ("name", '"name", p')],
    "newlocale": [("C", "LC_ALL_MASK, p, NULL")],
    "openlog": [("name", "p, 0, 0")],
    "ptrace": [(216, "PTRACE_SETREGS, -1, NULL, p"), (512, "PTRACE_SETFPREGS, -1, NULL, p"),
               (16, "PTRACE_GETREGSET, -1, NULL, p"),
               (9, "PTRACE_SETREGSET, -1, NULL, &(struct iovec){p, 9}")],
    "backtrace": [(8, "(void **)p, 1")],
    "prctl": [("name", "PR_SET_NAME, p, 0, 0, 0"), (16, "PR_GET_NAME, p, 0, 0, 0")],
    "capget": [(8, "(struct __user_cap_header_struct *)p, NULL"),
               (24, "capability_head(), (struct __user_cap_data_struct *)p")],
    "capset": [(8, "(struct __user_cap_header_struct *)p, NULL"),
               (24, "capability_head_of_none(), (struct __user_cap_data_struct *)p")],
    "mincore": [(2, "page_of(room), 4097, (unsigned char *)p")],
    "backtrace_symbols": [(8, "(void **)p, 1")],
    "backtrace_symbols_fd": [(8, "(void **)p, 1, null")],
    "pututxline": [(384, "no_accounts((struct utmpx *)p)")],
    "getgrnam_r": [("root", "p, (struct group *)room, room + 99, 999, (struct group **)room")],
    "getgrgid_r": [(32, "0, (struct group *)p, room + 99, 999, (struct group **)room"),
                   (LENGTH_OF_GROUP, "0, (struct group *)(room + 8), p, 999, (struct group **)room")],
    "getgrent_r": [(32, "(struct group *)p, room + 99, 999, (struct group **)room")],
    "fgetgrent_r": [(32, 'fopen("/etc/group", "r"), (struct group *)p, room + 99, 999, (struct group **)room')],
    # Threads.
    "pthread_join": [(8, "made_thread(), (void **)p")],
    "pthread_setname_np": [("name", "pthread_self(), p")],
    "pthread_getname_np": [("name", "pthread_self(), p, 16")],
    "pthread_setcancelstate": [(4, "0, (int *)p")],
    "pthread_getcpuclockid": [(4, "pthread_self(), (clockid_t *)p")],
    "pthread_getschedparam": [(4, "pthread_self(), (int *)p, (struct sched_param *)room"),
                              (4, "pthread_self(), (int *)room, (struct sched_param *)p")],
    "sched_getparam": [(4, "0, (struct sched_param *)p")],
    "sched_getaffinity": [(128, "0, 128, p")],
    "pthread_getaffinity_np": [(128, "pthread_self(), 128, p")],
    "sched_setaffinity": [(128, "-1, 128, p")],
    "pthread_setaffinity_np": [(128, "pthread_self(), 128, p")],
    "sched_setparam": [(4, "-1, (struct sched_param *)p")],
    "sched_setscheduler": [(4, "-1, 0, (struct sched_param *)p")],
    "pthread_setschedparam": [(4, "pthread_self(), 0, (struct sched_param *)p")],
    "sched_rr_get_interval": [(16, "0, (struct timespec *)p")],
    "pthread_key_create": [(4, "(pthread_key_t *)p, NULL")],
    "pthread_attr_init": [(56, "(pthread_attr_t *)p")],
    "pthread_attr_setdetachstate": [(56, "(pthread_attr_t *)p, 0")],
    "pthread_attr_setguardsize": [(56, "(pthread_attr_t *)p, 4096")],
    "pthread_attr_setschedparam": [(56, "(pthread_attr_t *)p, zeros()"),
                                   (4, "own_settings(), (struct sched_param *)p")],
    "pthread_attr_setstack": [(56, "(pthread_attr_t *)p, room, sizeof room")],
    "pthread_attr_setaffinity_np": [(56, "(pthread_attr_t *)p, 128, zeros()"), (128, "own_settings(), 128, p")],
    "pthread_attr_getdetachstate": [(4, "zeros(), (int *)p")],
    "pthread_attr_getguardsize": [(8, "zeros(), (size_t *)p")],
    "pthread_attr_getschedparam": [(4, "zeros(), (struct sched_param *)p")],
    "pthread_attr_getstack": [(8, "own_settings(), (void **)p, (size_t *)room"),
                              (8, "own_settings(), (void **)room, (size_t *)p")],
    "pthread_attr_getaffinity_np": [(128, "own_settings(), 128, p")],
    # Locks.
    "pthread_mutex_lock": [(40, "(pthread_mutex_t *)p")],
    "pthread_mutex_init": [(40, "(pthread_mutex_t *)p, NULL"),
                           (4, "(pthread_mutex_t *)room, (pthread_mutexattr_t *)p")],
    "pthread_mutex_timedlock": [(40, "(pthread_mutex_t *)p, zeros()"), (16, "zeros(), (struct timespec *)p")],
    "pthread_mutex_clocklock": [(40, "(pthread_mutex_t *)p, CLOCK_REALTIME, zeros()"),
                                (16, "zeros(), CLOCK_REALTIME, (struct timespec *)p")],
    "pthread_cond_signal": [(48, "(pthread_cond_t *)p")],
    "pthread_cond_init": [(48, "(pthread_cond_t *)p, NULL"), (4, "(pthread_cond_t *)room, (pthread_condattr_t *)p")],
    "pthread_cond_wait": [(48, "(pthread_cond_t *)p, refusing()"), (REFUSING, "zeros(), (pthread_mutex_t *)p")],
    "pthread_cond_timedwait": [(48, "(pthread_cond_t *)p, refusing(), zeros()"),
                               (REFUSING, "zeros(), (pthread_mutex_t *)p, past_time()"),
                               (16, "zeros(), refusing(), (struct timespec *)p")],
    "pthread_cond_clockwait": [(48, "(pthread_cond_t *)p, refusing(), CLOCK_REALTIME, zeros()"),
                               (REFUSING, "zeros(), (pthread_mutex_t *)p, CLOCK_REALTIME, past_time()"),
                               (16, "zeros(), refusing(), CLOCK_REALTIME, (struct timespec *)p")],
    "pthread_rwlock_rdlock": [(56, "(pthread_rwlock_t *)p")],
    "pthread_rwlock_init": [(56, "(pthread_rwlock_t *)p, NULL"),
                            (8, "(pthread_rwlock_t *)room, (pthread_rwlockattr_t *)p")],
    "pthread_rwlock_timedrdlock": [(56, "(pthread_rwlock_t *)p, zeros()"), (16, "zeros(), (struct timespec *)p")],
    "pthread_rwlock_clockrdlock": [(56, "(pthread_rwlock_t *)p, CLOCK_REALTIME, zeros()"),
                                   (16, "zeros(), CLOCK_REALTIME, (struct timespec *)p")],
    "pthread_spin_lock": [(b"\1\0\0\0", "(pthread_spinlock_t *)p")],
    "pthread_spin_init": [(4, "(pthread_spinlock_t *)p, 0")],
    "pthread_barrier_wait": [(bytes(8) + b"\1" + bytes(23), "(pthread_barrier_t *)p")],
    "pthread_barrier_init": [(32, "(pthread_barrier_t *)p, NULL, 1"),
                             (4, "(pthread_barrier_t *)room, (pthread_barrierattr_t *)p, 1")],
    "pthread_once": [(4, "(pthread_once_t *)p, does_nothing")],
    "pthread_mutexattr_init": [(4, "(pthread_mutexattr_t *)p")],
    "pthread_mutexattr_setprioceiling": [(4, "(pthread_mutexattr_t *)p, 0")],
    "pthread_condattr_init": [(4, "(pthread_condattr_t *)p")],
    "pthread_condattr_setclock": [(4, "(pthread_condattr_t *)p, 0")],
    "sem_post": [(ONE_PERMIT, "(sem_t *)p")],
    "sem_init": [(32, "(sem_t *)p, 0, 1")],
    "sem_timedwait": [(ONE_PERMIT, "(sem_t *)p, zeros()"), (16, "one_permit(), (struct timespec *)p")],
    "sem_clockwait": [(ONE_PERMIT, "(sem_t *)p, CLOCK_REALTIME, zeros()"),
                      (16, "one_permit(), CLOCK_REALTIME, (struct timespec *)p")],
    "sem_getvalue": [(4, "zeros(), (int *)p"), (32, "(sem_t *)p, (int *)room")],
    "sem_open": [("/no/such", "p, 0, 0, 0")],
    "sem_unlink": [("/no/such", "p")],
    "mtx_lock": [(40, "(mtx_t *)p")],
    "mtx_init": [(40, "(mtx_t *)p, mtx_plain")],
    "mtx_timedlock": [(40, "(mtx_t *)p, zeros()"), (16, "zeros(), (struct timespec *)p")],
    "mtx_destroy": [(40, "(mtx_t *)p")],
    "cnd_init": [(48, "(cnd_t *)p")],
    "cnd_wait": [(48, "(cnd_t *)p, (mtx_t *)refusing()"), (REFUSING, "zeros(), (mtx_t *)p")],
    "cnd_timedwait": [(48, "(cnd_t *)p, (mtx_t *)refusing(), zeros()"),
                      (16, "zeros(), (mtx_t *)refusing(), (void *)p")],
    "cnd_destroy": [(48, "(cnd_t *)p")],
    "call_once": [(4, "(once_flag *)p, does_nothing")],
    # Hosts and networks.
    "inet_ntop": [(4, "AF_INET, p, room, 99"), (16, "AF_INET6, p, room, 99"),
                  ("0.0.0.0", "AF_INET, clear(room), p, 99")],
    "inet_pton": [("1.2.3.4", "AF_INET, p, room"), (4, 'AF_INET, "1.2.3.4", p'), (16, 'AF_INET6, "::1", p')],
    "inet_aton": [("1.2.3.4", "p, (struct in_addr *)room"), (4, '"1.2.3.4", (struct in_addr *)p')],
    "inet_addr": [("1.2.3.4", "p")],
    "getaddrinfo": [("127.0.0.1", "p, NULL, NULL, (struct addrinfo **)room"),
                    (8, '"127.0.0.1", NULL, NULL, (struct addrinfo **)p')],
    "getnameinfo": [(16, f"{ADDRESS}, 16, room, 99, NULL, 0, NI_NUMERICHOST")],
    "gethostbyname": [("127.0.0.1", "p")],
    "gethostbyname2": [("127.0.0.1", "p, AF_INET")],
    "gethostbyname_r": [("127.0.0.1", "p, (struct hostent *)room, room + 99, 999, (struct hostent **)room, "
                                      "(int *)room"),
                        (32, '"127.0.0.1", (struct hostent *)p, room + 99, 999, (struct hostent **)room, (int *)room'),
                        (4, '"127.0.0.1", (struct hostent *)room, room + 99, 999, found(), (int *)p')],
    "gethostbyname2_r": [("127.0.0.1", "p, AF_INET, (struct hostent *)room, room + 99, 999, (struct hostent **)room, "
                                       "(int *)room"),
                        (4, '"127.0.0.1", AF_INET, (struct hostent *)room, room + 99, 999, found(), (int *)p')],
    "gethostbyaddr": [(4, "p, 4, AF_UNSPEC")],
    "gethostbyaddr_r": [(4, "p, 4, AF_UNSPEC, (struct hostent *)room, room + 99, 999, (struct hostent **)room, "
                            "(int *)room")],
    "gethostent_r": [(32, "(struct hostent *)p, room + 99, 999, (struct hostent **)found(), (int *)room"),
                     (8, "(struct hostent *)room, room + 99, 999, (struct hostent **)p, (int *)room"),
                    (4, "(struct hostent *)room, room + 99, 999, (struct hostent **)found(), (int *)p")],
    "getnetbyname": [("loopback", "p")],
    "getnetbyname_r": [("loopback", "p, (struct netent *)room, room + 99, 999, (struct netent **)found(), (int *)room"),
                       (24, '"loopback", (struct netent *)p, room + 99, 999, (struct netent **)found(), (int *)room')],
    "getnetbyaddr_r": [(24, "0x7f000000, AF_INET, (struct netent *)p, room + 99, 999, (struct netent **)found(), "
                            "(int *)room")],
    "getnetent_r": [(24, "(struct netent *)p, room + 99, 999, (struct netent **)found(), (int *)room")],
    "getprotobyname": [("tcp", "p")],
    "getprotobyname_r": [("tcp", "p, (struct protoent *)room, room + 99, 999, (struct protoent **)found()"),
                         (24, '"tcp", (struct protoent *)p, room + 99, 999, (struct protoent **)found()')],
    "getprotobynumber_r": [(24, "6, (struct protoent *)p, room + 99, 999, (struct protoent **)found()")],
    "getprotoent_r": [(24, "(struct protoent *)p, room + 99, 999, (struct protoent **)found()")],
    "getservbyname": [("http", 'p, "tcp"'), ("tcp", '"http", p')],
    "getservbyname_r": [("http", 'p, "tcp", (struct servent *)room, room + 99, 999, (struct servent **)found()'),
                        ("tcp", '"http", p, (struct servent *)room, room + 99, 999, (struct servent **)found()'),
                        (32, '"http", "tcp", (struct servent *)p, room + 99, 999, (struct servent **)found()')],
    "getservbyport": [("tcp", "htons(80), p")],
    "getservbyport_r": [("tcp", "htons(80), p, (struct servent *)room, room + 99, 999, (struct servent **)found()"),
                        (32, 'htons(80), "tcp", (struct servent *)p, room + 99, 999, (struct servent **)found()')],
    "getservent_r": [(32, "(struct servent *)p, room + 99, 999, (struct servent **)found()")],
    "if_nametoindex": [("lo", "p")],
    "if_indextoname": [(64, "1, before_end_of_interface(p)")],
    "getifaddrs": [(8, "(struct ifaddrs **)p")],
    "ether_aton": [("1:2:3:4:5:6", "p")],
    "ether_aton_r": [("1:2:3:4:5:6", "p, (struct ether_addr *)room"), (6, '"1:2:3:4:5:6", (struct ether_addr *)p')],
    "ether_ntoa": [(6, "(struct ether_addr *)p")],
    "ether_ntoa_r": [(6, "(struct ether_addr *)p, room"), ("0:0:0:0:0:0", "zeros(), p")],
    "ether_hostton": [("host", "p, (struct ether_addr *)room")],
    "ether_ntohost": [(6, "room, (struct ether_addr *)p")],
    "ether_line": [("1:2:3:4:5:6 abc", "p, (struct ether_addr *)room, room + 99"),
                   (6, '"1:2:3:4:5:6 abc", (struct ether_addr *)p, room'),
                   ("abc", '"1:2:3:4:5:6 abc", (struct ether_addr *)room, p')],
    # Patterns and arrays.
    "regcomp": [("a*", "(regex_t *)room, p, 0"), (64, '(regex_t *)p, "a*", 0')],
    "regexec": [("abc", "pattern(), p, 0, NULL, 0"), (16, 'pattern(), "abc", 2, (regmatch_t *)p, 0'),
                (b"xxabc", "pattern(), p, 1, match_of(2, 5), REG_STARTEND")],
    "regerror": [(5, "1, NULL, p, 5")],
    "regfree": [(64, "(regex_t *)p")],
    "wordexp": [("abc", "p, (wordexp_t *)room, 0"), (24, '"abc", (wordexp_t *)p, 0')],
    "qsort": [(8, "p, 2, 4, same")],
    "qsort_r": [(8, "p, 2, 4, (void *)same, NULL")],
    # Formats.
    "printf": [("abc", '"%d%s", 1, p'), ("abc", '"%Lf%5.*s", 1.0L, 9, p'), ("abc", "p"), (wide("abc"), '"%ls", p')],
    "fprintf": [("abc", 'nowhere, "%s%n", p, (int *)room'), (4, 'nowhere, "abc%n", p')],
    "dprintf": [("abc", 'null, "%g%s", 1.0, p')],
    "sprintf": [("abc", 'room, "%s", p'), (4, 'p, "%d", 123')],
    "snprintf": [("abc", 'room, 99, "%s", p'), (4, 'p, 99, "%d", 123'), (4, 'p, 4, "%d", 1234567')],
    "asprintf": [("abc", '(char **)room, "%s", p'), (8, '(char **)p, "%d", 123')],
    "__printf_chk": [("abc", '1, "%s", p')],
    "__fprintf_chk": [("abc", 'nowhere, 1, "%s", p')],
    "__dprintf_chk": [("abc", 'null, 1, "%s", p')],
    "__sprintf_chk": [("abc", 'room, 1, 99, "%s", p'), (4, 'p, 1, 99, "%d", 123')],
    "__snprintf_chk": [("abc", 'room, 99, 1, 99, "%s", p'), (4, 'p, 99, 1, 99, "%d", 123')],
    "__asprintf_chk": [("abc", '(char **)room, 1, "%s", p')],
    "wprintf": [(wide("abc"), 'L"%d%ls", 1, p'), ("abc", 'L"%Lf%5.*s", 1.0L, 9, p'), (wide("abc"), "WIDE(p)")],
    "fwprintf": [(wide("abc"), 'wide_nowhere, L"%S", p'), (4, 'wide_nowhere, L"abc%n", p')],
    "swprintf": [("abc", 'WIDE(room), 99, L"%s", p'), (16, 'WIDE(p), 99, L"%d", 123')],
    "__wprintf_chk": [("abc", '1, L"%s", p')],
    "__fwprintf_chk": [("abc", 'wide_nowhere, 1, L"%s", p')],
    "__swprintf_chk": [("abc", 'WIDE(room), 99, 1, 99, L"%s", p'), (16, 'WIDE(p), 99, 1, 99, L"%d", 123')],
    "syslog": [("abc", 'LOG_DEBUG, "%s", p'), ("abc", "LOG_DEBUG, p")],
    "__syslog_chk": [("abc", 'LOG_DEBUG, 1, "%s", p')],
    "warn": [("abc", '"%s", p'), ("abc", "p")],
    "warnx": [("abc", '"%s", p')],
    "err": [("abc", '0, "%s", p')],
    "errx": [("abc", '0, "%s", p')],
    "error": [("abc", '0, 0, "%s", p'), ("abc", "0, 0, p")],
    "error_at_line": [("abc", '0, 0, "a", 1, "%s", p'), ("abc", '0, 0, p, 1, "a"')],
    "scanf": [(4, 'after_input("12", "%d"), p')],
    "fscanf": [(4, 'stream("12"), "%d", p'), (8, 'stream("12"), "%ld", p'), (4, 'stream("abc d"), "%s", p'),
               (2, 'stream("12"), "%hd", p'), (8, 'stream("1.5"), "%lf", p'), (4, 'stream("7 abc"), "%*d %[a-c]", p'),
               (3, 'stream("abcdef"), "%3c", p'), (16, 'stream("abc"), "%ls", p'), (8, 'stream("abc"), "%ms", p')],
    "sscanf": [("12 ", 'p, "%d", (int *)room'), (4, '"12 x", "%d %n%d", room, p, room'), (4, '"", " %n%d", p, room'),
               (4, '"12", "%d", p'), (4, '"1 abc 3", "%d %s %d", room, p, room + 9')],
    "wscanf": [(4, 'after_wide_input("12", L"%d"), p')],
    "fwscanf": [(4, 'stream("12"), L"%d", p'), (4, 'stream("abc d"), L"%s", p'), (16, 'stream("abc"), L"%ls", p'),
                (4, 'stream("7 abc"), L"%*d %[a-c]", p')],
    "swscanf": [(wide("12 "), 'WIDE(p), L"%d", (int *)room'), (4, 'L"12 x", L"%d %n%d", room, p, room'),
                (4, 'L"1 abc 3", L"%d %s %d", room, p, room + 9')],
}
# They end the process.
ENDING = ("err", "errx")
ENDING_FORMS = (*ENDING, "verr", "verrx")
for name in ("scanf", "fscanf", "sscanf", "wscanf", "fwscanf", "swscanf"):
    USES[f"__isoc99_{name}"] = USES[f"__isoc23_{name}"] = USES[name]

HEAD = f'#include "{TESTS}/calls.h"\n'
MAIN = """
struct use {
    void (*run)(char *p);
    const char *holds;
    size_t size;
    int ends;
    unsigned unit; /* of the room that the C library is told of, or 0 if it is told none */
};
static const struct use uses[] = {
%s
};
static sigjmp_buf next;
static void go_on(int number)
{
    siglongjmp(next, number);
}
/* How many bytes less each block has, of which the C library knows then; and with another word that use alone, which
   may end the process. */
int main(int count, char **argv)
{
    static volatile size_t i;
    size_t less = argv[1][0] - '0';
    prepare();
    signal(SIGABRT, go_on);
    for (i = 0; i < sizeof uses / sizeof *uses; i++) {
        if (count > 2 ? i != (size_t)atoi(argv[2]) : uses[i].ends)
            continue;
        size_t size = uses[i].size - less;
        char *p = malloc(size);
        for (size_t j = 0; j < size; j++)
            ((volatile char *)p)[j] = uses[i].holds[j];
        is_left_out = 0;
        any = less > 0 && uses[i].unit > 0 ? size / uses[i].unit : (size_t)-1;
        if (sigsetjmp(next, 1) == 0)
            uses[i].run(p);
        if (is_left_out)
            printf("\\nleft out %%zu\\n", i);
        fflush(stdout);
    }
    return 0;
}
"""


def quoted(data: bytes) -> str:
    return '"' + "".join(f"\\{byte:03o}" for byte in data) + '"'


def holds(use: Use) -> bytes:
    held = use[0]
    if isinstance(held, int):
        return bytes(held)
    return held if isinstance(held, bytes) else held.encode() + b"\0"


def unit_of(use: Use) -> int:
    """In which units the room of the block is counted if it is an argument; or 0."""
    return 0 if "ANY" not in use[1] or "room" in use[1] else 4 if "WIDE(" in use[1] else 1


def declared(result: str, name: str, parameters: str) -> str:
    """A function under a name apart from what a header says of it, and called so that no compiler leaves it out."""
    return (
        f'extern {result} real_{name}{parameters} __asm__("{name}"); '
        f"static {result} (*volatile call_{name}){parameters} = real_{name};"
    )


def apart(name: Union[str, int]) -> str:
    """What keeps a compiler from making one of two functions that do the same."""
    return f'__asm__("# {name}");'


def with_list(row: Row, name: str) -> str:
    """A function of this name that calls the form of a format that has a va_list."""
    parameters, arguments, last = row.parameters()[:-1], row.rest[2][:-1], row.rest[3]
    return (
        f"static void {name}{parameters}, ...) {{ va_list list; {apart(name)} va_start(list, {last}); "
        f"call_{row.rest[0]}{arguments}, list); va_end(list); }} "
    )


def uses_of(row: Row, name: str) -> Sequence[Use]:
    return USES.get(name, USES.get(row.names[0], ()))


def source_of(names: Sequence[str]) -> Tuple[str, Dict[str, str]]:
    """A program that tries each use of these names, and what each of its lines is."""
    lines, entries, tried = [HEAD.strip()], [], {}
    by_name = {name: row for row in table() for name in row.names}
    for name in names:
        row = by_name[name]
        parameters = row.parameters()[:-1] + ", ...)" if row.has_format() else row.parameters()
        lines.append(declared(row.result(), name, parameters))
        if row.has_list():
            lines.append(declared(row.result(), row.rest[0], row.parameters()[:-1] + ", va_list)"))
        for use in uses_of(row, name):
            for form in [f"call_{name}"] + [f"list_{len(lines) + 2}"] * row.has_list():
                number = len(lines) + 1
                shared = with_list(row, form) if form.startswith("list_") else ""
                lines.append(f"{shared}static void use_{number}(char *p) {{ {apart(number)} {form}({use[1]}); }}")
                entries.append(
                    f"    {{use_{number}, {quoted(holds(use))}, {len(holds(use))}, {int(name in ENDING)}, "
                    f"{unit_of(use)}}},"
                )
                tried[f"calls.c:{number}"] = f"{row.rest[0] if shared else name}({use[1]})"
    return "\n".join(lines) + MAIN % "\n".join(entries), tried


def names_there() -> List[str]:
    """The names that the C library has, by what the recorder was made with."""
    tables = [*sorted(glob.glob(f"{RECORDER}/out/groups/*.def")), f"{RECORDER}/out/mathematics.def"]
    return [name for of in tables for row in table(os.path.relpath(of, RECORDER)) for name in row.names]


def found_by(suite: Suite, folder: str, less: int, alone: Sequence[int]) -> Tuple[Set[str], Set[int]]:
    """The lines that are found with this many bytes less, and the numbers of the uses that were left out."""
    lines, left_out = set(), set()
    for argv in [(), *([str(number)] for number in alone)]:
        trace = f"{folder}/calls.trace"
        ran = run(["./calls", str(less), *argv], folder, ASANCOL_TRACE=trace, ASANCOL_WHERE="1")
        end = reports(suite.asancol, trace)[2]
        expect((ran.returncode, end.split()[0]), (0, "closed"), f"status, and the fate, of {less} {argv}")
        lines |= {it.line for it in placed(suite.asancol, trace)[0]}
        left_out |= {int(number) for number in re.findall(rb"^left out (\d+)$", ran.stdout, re.M)}
        os.unlink(trace)
    return lines, left_out


def check_rows(suite: Suite, folder: str, compiler: Compiler, level: str) -> None:
    """Each use is silent with a block that has room, and found at its line with one byte less. What the system does
    not have or allow is left out, and said."""
    source, tried = source_of(names_there())
    write(folder, calls_c=source)
    # Each use keeps its place in the code.
    flags = ["-w", "-fno-builtin", "-fno-inline", "-fno-optimize-sibling-calls"]
    compiler.c(folder, ["calls.c"], f"{folder}/calls", level, *flags, "-lm")
    ending = [number for number, use in enumerate(tried.values()) if use.split("(")[0] in ENDING_FORMS]
    said, _ = found_by(suite, folder, 0, ending)
    expect([(line, tried.get(line)) for line in said], [], "reports of good uses")
    found, numbers = found_by(suite, folder, 1, ending)
    left_out = {list(tried)[number] for number in numbers}
    for line in left_out:
        leave_out(f"{tried[line]} needs what this system does not have")
    expect([tried[line] for line in tried if line not in found | left_out], [], "what is not found")
    expect(found - set(tried), set(), "other lines")


# What a call does first is looked at first here, and by AddressSanitizer after the call; or it reads more of a text
# than the call may have read.
OTHER_ACCESSES = {"sendmmsg", "mbsnrtowcs", "wcsnrtombs"}
PLACE = re.compile(r"is located (\d+) bytes (to the right of|to the left of|inside of) (\d+)-byte region")


def first_by_sanitizer(folder: str, ending: Sequence[int]) -> Dict[str, Tuple[str, int]]:
    """What AddressSanitizer says first of each line: a load or a store, and the first bad byte."""
    found: Dict[str, Tuple[str, int]] = {}
    options = "detect_leaks=0:halt_on_error=0:suppress_equal_pcs=0:handle_abort=0:alloc_dealloc_mismatch=0"
    for argv in [(), *([str(number)] for number in ending)]:
        ran = run(["./sanitized", "1", *argv], folder, ASAN_OPTIONS=options)
        expect(ran.returncode, 0, f"status with AddressSanitizer, {argv}")
        for text in re.split(r"^={65}$", ran.stderr.decode(errors="replace"), flags=re.M):
            kind, line = re.search(r"^(READ|WRITE) of size", text, re.M), re.search(r"/(calls\.c:\d+)", text)
            place = PLACE.search(text)
            if kind and line and place:
                distance, side, size = int(place.group(1)), place.group(2), int(place.group(3))
                at = {"to the right of": size + distance, "to the left of": -distance, "inside of": distance}[side]
                found.setdefault(line.group(1), ("load" if kind.group(1) == "READ" else "store", at))
    return found


def check_rows_beside(suite: Suite, folder: str, compiler: Compiler) -> None:
    """With one byte less, what AddressSanitizer finds is found, as the same kind of access and at the same byte."""
    source, tried = source_of(names_there())
    write(folder, calls_c=source)
    flags = ["-w", "-O0", "-fno-builtin", "-lm"]
    compiler.c(folder, ["calls.c"], f"{folder}/calls", *flags)
    compiler.c(folder, ["calls.c"], f"{folder}/sanitized", *flags, "-fsanitize=address", "-fsanitize-recover=address",
               native=True)
    ending = [number for number, use in enumerate(tried.values()) if use.split("(")[0] in ENDING_FORMS]
    found: Dict[str, Tuple[str, int]] = {}
    for argv in [(), *([str(number)] for number in ending)]:
        run(["./calls", "1", *argv], folder, ASANCOL_TRACE="calls.trace", ASANCOL_WHERE="1")
        _, texts, _ = reports(suite.asancol, f"{folder}/calls.trace", most=1 << 20)
        for it, text in zip(placed(suite.asancol, f"{folder}/calls.trace")[0], texts):
            places = [int(word) for word in text.split() if word[0] in "+-"]
            found.setdefault(it.line, (it.kind, places[-1] if places else -1))
        os.unlink(f"{folder}/calls.trace")
    wanted = first_by_sanitizer(folder, ending)
    expect(len(wanted) > 300, True, "that AddressSanitizer finds many")
    other = {tried[line]: (found.get(line), it) for line,
             it in wanted.items() if line in tried and found.get(line) != it}
    expect({use: it for use, it in other.items() if use.split("(")[0] not in OTHER_ACCESSES}, {}, "other accesses")


def check_all_tried(suite: Suite, folder: str) -> None:
    """Each row has a use."""
    first = [row.names[0] for row in table()]
    expect([name for name in first if not USES.get(name)], [], "rows without a use")
    names = {name for row in table() for name in row.names}
    expect([name for name in USES if name not in names], [], "uses without a row")


BUG = re.compile(r"^static void bug_(\w+)\(void\)", re.M)


# What AddressSanitizer does not find: it looks at no input of sscanf, no name that `open` gets, no lock and no exec.
FOUND_HERE_ALONE = {"scanned", "open", "locked", "posted", "program", "word"}


def innermost(module: str, places: Sequence[int]) -> List[str]:
    """The line of each place of a module, beside those of the headers' inline functions that it is in. addr2line takes
    the file <artificial> for that of functions that GCC compiles with -flto, and llvm-addr2line does not."""
    tool = shutil.which("llvm-addr2line") or "addr2line"
    asked = "\n".join(hex(place - 1) for place in places)
    # Of each place: its address, and then a function and its line, from the innermost on.
    said = run([tool, "-a", "-f", "-i", "-e", module], ".", asked.encode()).stdout.decode()
    ends = [part.rstrip().split("\n")[-1] for part in re.split(r"^0x[0-9a-f]+\n", said, flags=re.M)[1:]]
    return [os.path.basename(end.split(" (")[0]) for end in ends]


def lines_of_stacks(module: str, stacks: Dict[str, List[int]]) -> Dict[str, List[str]]:
    """The lines of each of some lists of places."""
    lines = iter(innermost(module, [place for stack in stacks.values() for place in stack]))
    return {name: [next(lines) for _ in stack] for name, stack in stacks.items()}


def faults_of(path: str) -> List[int]:
    """Where the faults of a trace are in its program."""
    side = side_of(path)
    return [fault.place[0] - side.module(fault.place[0])[1] for fault in side.faults()]


FRAME = re.compile(r"^ +#\d+ 0x[0-9a-f]+ +(?:in \S+ +)?\((\S+)\+0x([0-9a-f]+)\)", re.M)


def lines_by_sanitizer(folder: str, program: str, names: Sequence[str], source: str) -> Dict[str, str]:
    """The line of a source that AddressSanitizer names first of each of its bugs, if it finds the bug."""
    stacks = {}
    for name in names:
        log = f"{folder}/{name}.log"
        run([program, name], folder, ASAN_OPTIONS=f"detect_leaks=0:symbolize=0:log_path={log}")
        for written in glob.glob(f"{log}.*"):
            with open(written, encoding="utf-8") as file:
                frames = FRAME.findall(file.read().partition("\n\n")[0])
            stacks[name] = [int(place, 16) for module, place in frames if module == program]
    # Clang's runtime is a part of the program. It has no lines.
    found = lines_of_stacks(program, stacks)
    return {name: next((line for line in stack if line.startswith(source)), "") for name, stack in found.items()}


def check_common_bugs(suite: Suite, folder: str, compiler: Compiler, flags: Sequence[str]) -> None:
    """Each is found at its line, which is also the one that AddressSanitizer names."""
    source = f"{TESTS}/common_bugs.c"
    with open(source, encoding="ascii") as file:
        text = file.read()
    # A call that ends a function would have its caller's place.
    kept = ["-w", "-fno-optimize-sibling-calls", *flags]
    compiler.c(folder, [source], f"{folder}/bugs", *kept)
    wanted = {it.group(1): f"common_bugs.c:{text.count(chr(10), 0, it.start()) + 1}" for it in BUG.finditer(text)}
    places = {}
    for name in wanted:
        trace = f"{folder}/{name}.trace"
        ran = run(["./bugs", name], folder, ASANCOL_TRACE=trace, ASANCOL_WHERE="1")
        expect((ran.returncode, reports(suite.asancol, trace)[0]), (0, 1), name)
        places[name] = faults_of(trace)
    found = lines_of_stacks(f"{folder}/bugs", places)
    expect({name: lines for name, lines in found.items() if set(lines) != {wanted[name]}}, {}, "other lines")
    if compiler.has_sanitizer and flags != FORTIFIED:  # it has none of the functions of _FORTIFY_SOURCE
        compiler.c(folder, [source], f"{folder}/sanitized", *kept, "-fsanitize=address", native=True)
        said = lines_by_sanitizer(folder, f"{folder}/sanitized", list(wanted), "common_bugs.c")
        other = {name: said.get(name) for name, line in wanted.items() if said.get(name) != line}
        expect(other, dict.fromkeys(FOUND_HERE_ALONE), "other lines by AddressSanitizer")


def check_fortified(suite: Suite, folder: str, compiler: Compiler, flags: Sequence[str]) -> None:
    """Each overflow has its report at its line, though the C library ends the process there, and nothing else has."""
    source = f"{TESTS}/fortified.c"
    compiler.c(folder, [source], f"{folder}/fortified", "-w", *flags)
    with open(source, encoding="ascii") as file:
        lines = list(enumerate(file, 1))
    wanted = {f"fortified.c:{number}": line.strip() for number, line in lines if line.startswith("USES(")}
    for argv in ((), ["good"]):
        trace = f"{folder}/fortified{len(argv)}.trace"
        ran = run(["./fortified", *argv], folder, ASANCOL_TRACE=trace, ASANCOL_WHERE="1")
        expect((ran.returncode, Trace(trace).is_closed), (0, True), f"status, and the close: {argv}")
        found: Dict[str, List[int]] = {}
        side = side_of(trace)
        for line, fault in zip(innermost(f"{folder}/fortified", faults_of(trace)), side.faults()):
            found.setdefault(line, []).append(fault.variable)
        good = dict.fromkeys(wanted, 0) if argv else {}
        seen = {it: sorted(set(found.get(name, []))) for name, it in wanted.items()}
        expect(set(found) - set(wanted), set(), "other lines")
        missed = {it: kinds for it, kinds in seen.items() if kinds != ([] if good else [NO_VARIABLE, OF_STACK, GLOBAL])}
        expect(missed, {}, f"the memory of the reports of each line: {argv}")
        fewer = [wanted[name] for name, kinds in found.items() if kinds.count(NO_VARIABLE) < 2]
        expect(fewer, [], "lines without a report of both blocks")
        ended = ran.stderr.count(b"buffer overflow detected")
        expect(ended > 0, not argv, "that the C library ends the process")
    ran = run(["./fortified", "dies"], folder, ASANCOL_TRACE="dies.trace", ASANCOL_WHERE="1")
    _, texts, end = reports(suite.asancol, f"{folder}/dies.trace")
    expect((ran.returncode, end.split()[0]), (-6, "no-close"), "if nobody handles its end")
    overflow = ["store 8 +8 bad +12 heap-buffer-overflow", "store 4 +16 heap-buffer-overflow"]
    expect(texts, overflow, "what was recorded before")


def check_good_calls(suite: Suite, folder: str, compiler: Compiler, flags: Sequence[str]) -> None:
    """What the caller sees is as without the recorder, and nothing is reported."""
    source = f"{TESTS}/library_calls.c"
    compiler.c(folder, [source], f"{folder}/plain", "-w", "-pthread", *flags, native=True)
    compiler.c(folder, [source], f"{folder}/good", "-w", "-pthread", *flags)
    plain = run(["./plain"], folder)
    for settings in (NO_SETTINGS, {"ASANCOL_TRACE": "good.trace"}, {"ASANCOL_HALT": "1"}):
        ran = run(["./good"], folder, **settings)
        expect((ran.returncode, ran.stderr, ran.stdout), (0, b"", plain.stdout), f"with {settings}")
    _, texts, end = reports(suite.asancol, f"{folder}/good.trace")
    expect((texts, end.split()[0]), ([], "closed"))


def check_own_names(suite: Suite, folder: str, compiler: Compiler) -> None:
    """Functions and variables of a program that have names of the C library's, in one object and in a shared one."""
    source = f"{TESTS}/own_calls.c"
    wanted = b"5 8 abc 16 3.5 1 2 3 4 5 6 7 8 9 1 1 1 1 1 1\n"
    for flags in ((), ["-s"], ["-fvisibility=hidden"], ["-O2"], ["-no-pie", "-fno-pie"]):
        compiler.c(folder, ["-c", source], f"{folder}/own.o", "-w", "-DOWN", "-fno-builtin", *flags[:1])
        compiler.c(folder, [source, "own.o"], f"{folder}/own", "-w", "-fno-builtin", *flags)
        ran = run(["./own"], folder, ASANCOL_TRACE="own.trace")
        expect((ran.returncode, ran.stdout, ran.stderr), (0, wanted, b""), f"{flags}")
        os.unlink(f"{folder}/own.trace")


OBJECT = """
#include <stdio.h>
#include <stdlib.h>
#include <string.h>
#include <unistd.h>
int use(char *p, size_t n)
{
    int length = snprintf(p, n, "%s", "12345678");
    return length + (int)strlen(p);
}
"""
PROGRAM = """
#include <dlfcn.h>
#include <stdlib.h>
int use(char *, size_t);
int main(int count, char **argv)
{
    volatile size_t size = 9;
    char *p = malloc(count > 1 ? 9 : 8);
#ifdef OPENS
    void *library = dlopen("./libused.so", RTLD_NOW);
    int (*use)(char *, size_t) = library ? (int (*)(char *, size_t))dlsym(library, "use") : NULL;
#endif
    int length = use(p, size);
    free(p);
    return length - 16;
}
"""


def check_objects(suite: Suite, folder: str, compiler: Compiler) -> None:
    """Calls of a shared object, linked or opened; also in a program that has no recorder."""
    write(folder, used_c=OBJECT, uses_c=PROGRAM)
    compiler.c(folder, ["used.c"], f"{folder}/libused.so", "-fPIC", "-shared", "-w", "-Wl,-z,defs")
    for flags in (["-L.", "-lused", "-Wl,-rpath,$ORIGIN"], ["-DOPENS", "-ldl"]):
        compiler.c(folder, ["uses.c", *flags], f"{folder}/uses", "-w")
        for argv, wanted in (((), ["used.c:8", "used.c:9"]), (["good"], [])):
            ran = run(["./uses", *argv], folder, ASANCOL_TRACE="u.trace", ASANCOL_WHERE="1")
            expect((ran.returncode, ran.stderr), (0, b""))
            said = {it.line for it in placed(suite.asancol, f"{folder}/u.trace")[0]}
            expect(sorted(said), wanted, f"{flags} {argv}")
            os.unlink(f"{folder}/u.trace")
        expect(run(["./uses"], folder).returncode, 0, "off")
        expect(run(["./uses"], folder, ASANCOL_HALT="1").returncode, -6, "to end at the first fault")
        compiler.c(folder, ["uses.c", *flags], f"{folder}/plain", "-w", native=True)
        expect(run(["./plain"], folder).returncode, 0, "in a program that has no recorder")


TURNED = """
#define _GNU_SOURCE
#include <math.h>
#include <stdlib.h>
double turned(double by)
{
    double *both = malloc(2 * sizeof *both - (by > 1));
    volatile double sum;
    sincos(by, &both[0], &both[1]);
    sum = both[0];
    free(both);
    return sum;
}
"""
PARTED = """
#include <dlfcn.h>
#include <math.h>
#include <stdio.h>
double turned(double by);
int main(int count, char **argv)
{
    double (*turn)(double) = NULL;
    int power;
    double volatile number = count * 0.75;
#ifdef OPENS
    void *library = dlopen("./libturned.so", RTLD_NOW);
    turn = library ? (double (*)(double))dlsym(library, "turned") : NULL;
#elif !defined ALONE
    turn = turned;
#endif
    if (turn != NULL)
        turn(number);
    return frexp(number, &power) == 0.75 && power == count - 1 ? 0 : 9;
}
"""


def check_mathematics(suite: Suite, folder: str, compiler: Compiler) -> None:
    """The library of mathematics: also if the linker takes only the needed parts of it, if it comes with a library that
    is opened, and if it is not there."""
    write(folder, turned_c=TURNED, parted_c=PARTED)
    compiler.c(folder, ["-c", "turned.c"], f"{folder}/turned.o", "-fPIC", "-w")
    compiler.c(folder, ["turned.o", "-lm"], f"{folder}/libturned.so", "-shared", "-Wl,-z,defs")
    for flags in (["turned.o", "-lm"], ["turned.o", "-Wl,--as-needed", "-lm"], ["turned.o", "-l:libm.so.6"],
                  ["-DOPENS", "-ldl"]):
        compiler.c(folder, ["parted.c", *flags], f"{folder}/parted", "-w", "-fno-builtin")
        for argv, wanted in (((), []), (["less"], ["turned.c:9"])):
            ran = run(["./parted", *argv], folder, ASANCOL_TRACE="m.trace", ASANCOL_WHERE="1")
            expect((ran.returncode, ran.stderr), (0, b""), f"{flags} {argv}")
            said = {it.line for it in placed(suite.asancol, f"{folder}/m.trace")[0]}
            expect(sorted(said), wanted, f"{flags} {argv}")
            os.unlink(f"{folder}/m.trace")
        expect(run(["./parted", "less"], folder).returncode, 0, f"{flags}, off")
    compiler.c(folder, ["parted.c"], f"{folder}/parted", "-w", "-fno-builtin", "-DALONE")
    expect(run(["./parted"], folder).returncode, 0, "without the library")
    needed = run(["readelf", "-d", "parted"], folder).stdout
    expect(b"libm.so" in needed, False, "that the library comes in")


# Sizes that lead from low addresses into the shadow, of calls that the system refuses.
INTO_SHADOW = """
#include <errno.h>
#include <stdio.h>
#include <sys/socket.h>
#include <sys/xattr.h>
#include <unistd.h>
static void tell(long result) { printf("%ld %d\\n", result, errno); }
int main(void)
{
    char *volatile null = NULL;
    tell(write(1, null, (size_t)-1));
    tell(send(-1, null + 4096, (size_t)-1, 0));
    tell(setxattr("/", "user.a", null, (size_t)-1, 0));
    tell(setxattr("/", "user.a", null, (size_t)1 << 40, 0));
    return 0;
}
"""


def check_into_shadow(suite: Suite, folder: str, compiler: Compiler) -> None:
    """A call that the system refuses is refused, whatever size it has."""
    write(folder, into_c=INTO_SHADOW)
    compiler.c(folder, ["into.c"], f"{folder}/plain", "-w", native=True)
    compiler.c(folder, ["into.c"], f"{folder}/into", "-w")
    ran = run(["./into"], folder, ASANCOL_TRACE="t.trace")
    expect((ran.returncode, ran.stdout), (0, run(["./plain"], folder).stdout), "what the program is told")
    expect(reports(suite.asancol, f"{folder}/t.trace")[1], [], "reports")


def check_page(suite: Suite, folder: str) -> None:
    """The page can be made. It has a line for each row, in their order, with all names of the row and its
    parameters, and lists the reads, writes and allocations of each."""
    made = run([f"{TESTS}/calls_page.py"], folder)
    expect((made.returncode, made.stderr), (0, b""), "calls_page.py")
    lines = [it.strip("|").split(" | ") for it in made.stdout.decode().splitlines() if it.startswith("| `")]
    known = table()
    expect(len(lines), len(known), "lines of the page")
    for row, cells in zip(known, lines):
        names = row.names + [row.rest[0]] * row.has_list()
        expect((len(cells), re.findall(r"\w+", cells[0]), cells[1]), (4, names, f"`{row.parameters()}`"), "a line")
        expect(any(re.search(r"\b(reads?|writes|malloc)\b", it) for it in cells[2:]), True, f"what {names} does")


FORTIFIED = ["-O2", "-D_FORTIFY_SOURCE=2"]


def tests(suite: Suite, compiler: Compiler) -> None:
    for level in ("-O0", "-O2"):
        suite.test(f"{compiler} calls, each row {level}", check_rows, compiler, level)
    if compiler.has_sanitizer:
        suite.test(f"{compiler} calls, each row beside AddressSanitizer", check_rows_beside, compiler)
    suite.test(f"{compiler} calls, all rows tried", check_all_tried)
    for flags in (["-O0"], ["-O2"], FORTIFIED):
        suite.test(f"{compiler} calls, common bugs {' '.join(flags)}", check_common_bugs, compiler, flags)
    for flags in (["-O1", "-D_FORTIFY_SOURCE=1"], FORTIFIED, ["-O2", "-D_FORTIFY_SOURCE=3"]):
        suite.test(f"{compiler} calls, fortified {' '.join(flags)}", check_fortified, compiler, flags)
    for flags in (["-O0"], ["-O2"], FORTIFIED, ["-no-pie", "-fno-pie"], ["-static"]):
        suite.test(f"{compiler} calls, good ones {' '.join(flags)}", check_good_calls, compiler, flags)
    suite.test(f"{compiler} calls, own names", check_own_names, compiler)
    suite.test(f"{compiler} calls, shared objects", check_objects, compiler)
    suite.test(f"{compiler} calls, mathematics", check_mathematics, compiler)
    suite.test(f"{compiler} calls, sizes into the shadow", check_into_shadow, compiler)
    suite.test(f"{compiler} calls, the page", check_page)
