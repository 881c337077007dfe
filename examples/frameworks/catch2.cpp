#define CATCH_CONFIG_MAIN
#include "words.h"
#include <asancol/catch2.h>

TEST_CASE("AreCopied")
{
    char *copy = copy_of("word", 5);
    CHECK(strcmp(copy, "word") == 0);
    free(copy);
}

TEST_CASE("HaveRoom")
{
    char *copy = copy_of("longer", 6); // BUG
    CHECK(strcmp(copy, "longer") == 0);
    free(copy);
}
