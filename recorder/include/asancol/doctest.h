/* Include this in one source of a program with doctest: a report names the test case in which it comes, and makes it
   fail.

   Called: __asan_on_error by the recorder (interface/reports.c), in the thread that has made the error, also in a
   handler; no lock. */
#ifndef ASANCOL_DOCTEST_H
#define ASANCOL_DOCTEST_H

#include <doctest/doctest.h>

#include "current_test.h"

extern "C" const char *__asan_get_report_description(void) __attribute__((weak));

extern "C" __attribute__((visibility("default"))) void __asan_on_error(void)
{
    if (doctest::is_running_in_test)
        FAIL_CHECK((doctest::String("asancol: ") + __asan_get_report_description()));
}

#ifndef DOCTEST_CONFIG_DISABLE

namespace
{

class asancol_listener : public doctest::IReporter
{
  public:
    explicit asancol_listener(const doctest::ContextOptions &)
    {
    }

    void test_case_start(const doctest::TestCaseData &test) override
    {
        current.begin(test.m_name);
    }
    void test_case_end(const doctest::CurrentTestCaseStats &) override
    {
        current.end();
    }
    void report_query(const doctest::QueryData &) override
    {
    }
    void test_run_start() override
    {
    }
    void test_run_end(const doctest::TestRunStats &) override
    {
    }
    void test_case_reenter(const doctest::TestCaseData &) override
    {
    }
    void test_case_exception(const doctest::TestCaseException &) override
    {
    }
    void subcase_start(const doctest::SubcaseSignature &) override
    {
    }
    void subcase_end() override
    {
    }
    void log_assert(const doctest::AssertData &) override
    {
    }
    void log_message(const doctest::MessageData &) override
    {
    }
    void test_case_skipped(const doctest::TestCaseData &) override
    {
    }

  private:
    asancol_current_test current;
};

DOCTEST_REGISTER_LISTENER("asancol", 1, asancol_listener);

} // namespace

#endif

#endif
