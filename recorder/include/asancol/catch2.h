/* Include this in one source of a program with Catch2: a report names the test case in which it comes, and makes it
   fail. With Catch2 2 it is named only if this source has CATCH_CONFIG_MAIN, or includes this before Catch2.

   Called: __asan_on_error by the recorder (interface/reports.c), in the thread that has made the error, also in a
   handler; no lock. */
#ifndef ASANCOL_CATCH2_H
#define ASANCOL_CATCH2_H

#if __has_include(<catch2/catch_test_macros.hpp>)
#include <catch2/catch_test_macros.hpp>
#include <catch2/reporters/catch_reporter_event_listener.hpp>
#include <catch2/reporters/catch_reporter_registrars.hpp>
#else
#ifndef CATCH_CONFIG_EXTERNAL_INTERFACES
#define CATCH_CONFIG_EXTERNAL_INTERFACES
#endif
#include <catch2/catch.hpp>
#endif

#include "current_test.h"

extern "C" const char *__asan_get_report_description(void) __attribute__((weak));

/* Before the first test case and after the last one Catch2 throws. */
extern "C" __attribute__((visibility("default"))) void __asan_on_error(void)
{
    try {
        FAIL_CHECK("asancol: " << __asan_get_report_description());
    } catch (...) {
    }
}

#ifdef CATCH_REGISTER_LISTENER

namespace
{

#if __has_include(<catch2/catch_test_macros.hpp>)
using asancol_listener_base = Catch::EventListenerBase;
#else
using asancol_listener_base = Catch::TestEventListenerBase;
#endif

class asancol_listener : public asancol_listener_base
{
  public:
    using asancol_listener_base::asancol_listener_base;

    void testCaseStarting(const Catch::TestCaseInfo &test) override
    {
        current.begin(test.name);
    }
    void testCaseEnded(const Catch::TestCaseStats &) override
    {
        current.end();
    }

  private:
    asancol_current_test current;
};

CATCH_REGISTER_LISTENER(asancol_listener)

} // namespace

#endif

#endif
