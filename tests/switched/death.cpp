#include "text.h"

#include <gtest/gtest.h>

TEST(TextDeathTest, Overflow)
{
    EXPECT_DEATH(copy_short("overflow"), "AddressSanitizer: heap-buffer-overflow");
}

TEST(TextDeathTest, Freed)
{
    EXPECT_DEATH(first_of_freed("freed"), "AddressSanitizer: heap-use-after-free.* in first_of_freed .*text\\.c:[0-9]");
}
