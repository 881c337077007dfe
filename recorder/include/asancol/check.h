/* Include this in one source of a program with Check: a report ends the test in which it comes, and makes it fail.

   Called: by the recorder (interface/reports.c), in the thread that has made the error, also in a handler; no lock. */
#ifndef ASANCOL_CHECK_H
#define ASANCOL_CHECK_H

#include <check.h>

extern const char *__asan_get_report_description(void) __attribute__((weak));

__attribute__((visibility("default"))) void __asan_on_error(void)
{
    ck_abort_msg("asancol: %s", __asan_get_report_description());
}

#endif
