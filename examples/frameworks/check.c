#include "words.h"
#include <asancol/check.h>

START_TEST(AreCopied)
{
    char *copy = copy_of("word", 5);
    ck_assert_str_eq(copy, "word");
    free(copy);
}
END_TEST

START_TEST(HaveRoom)
{
    char *copy = copy_of("longer", 6); /* BUG */
    ck_assert_str_eq(copy, "longer");
    free(copy);
}
END_TEST

int main(void)
{
    Suite *suite = suite_create("words");
    TCase *words = tcase_create("words");
    tcase_add_test(words, AreCopied);
    tcase_add_test(words, HaveRoom);
    suite_add_tcase(suite, words);
    SRunner *runner = srunner_create(suite);
    srunner_run_all(runner, CK_VERBOSE);
    int failed = srunner_ntests_failed(runner);
    srunner_free(runner);
    return failed != 0;
}
