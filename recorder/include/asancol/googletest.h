/* Include this in one source of a program with googletest: a report names the test in which it comes, and makes it
   fail.

   Called: __asan_on_error by the recorder (interface/reports.c), in the thread that has made the error, also in a
   handler; no lock. */
#ifndef ASANCOL_GOOGLETEST_H
#define ASANCOL_GOOGLETEST_H

#include <gtest/gtest.h>

#include "current_test.h"

extern "C" const char *__asan_get_report_description(void) __attribute__((weak));

extern "C" __attribute__((visibility("default"))) void __asan_on_error(void)
{
    ADD_FAILURE() << "asancol: " << __asan_get_report_description();
}

namespace
{

class asancol_listener : public ::testing::EmptyTestEventListener
{
    void OnTestStart(const ::testing::TestInfo &test) override
    {
        current.begin(std::string(test.test_suite_name()) + "." + test.name());
    }

    void OnTestEnd(const ::testing::TestInfo &) override
    {
        current.end();
    }

    asancol_current_test current;
};

/* googletest deletes it. */
__attribute__((constructor)) void asancol_listen()
{
    ::testing::UnitTest::GetInstance()->listeners().Append(new asancol_listener);
}

} // namespace

#endif
