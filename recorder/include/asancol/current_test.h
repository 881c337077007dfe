/* Reports name the test that is running by the variable ASANCOL_TEST (stream/test_name.h), which this sets. The headers
   for frameworks of C++ include it.

   Called: by these headers, as a test begins and ends, in the thread that runs the tests; no lock: as with each setenv,
   other threads should not read the environment then. */
#ifndef ASANCOL_CURRENT_TEST_H
#define ASANCOL_CURRENT_TEST_H

#include <stdlib.h>
#include <string>

class asancol_current_test
{
  public:
    void begin(const std::string &name)
    {
        const char *before = getenv("ASANCOL_TEST");
        outer = before != nullptr ? before : "";
        setenv("ASANCOL_TEST", name.c_str(), 1);
    }

    void end()
    {
        if (outer.empty())
            unsetenv("ASANCOL_TEST");
        else
            setenv("ASANCOL_TEST", outer.c_str(), 1);
    }

  private:
    std::string outer; /* what a harness calls the whole program; empty: it does not say */
};

#endif
