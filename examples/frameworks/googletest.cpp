#include "words.h"
#include <asancol/googletest.h>

TEST(Words, AreCopied)
{
    char *copy = copy_of("word", 5);
    EXPECT_STREQ(copy, "word");
    free(copy);
}

TEST(Words, HaveRoom)
{
    char *copy = copy_of("longer", 6); // BUG
    EXPECT_STREQ(copy, "longer");
    free(copy);
}
