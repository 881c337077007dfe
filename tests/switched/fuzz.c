#include "text.h"

#include <stdint.h>
#include <stdlib.h>
#include <string.h>

int LLVMFuzzerTestOneInput(const uint8_t *data, size_t size)
{
    char word[16] = "";
    memcpy(word, data, size < sizeof word ? size : sizeof word - 1);
    free(strncmp(word, "BUG", 3) == 0 ? copy_short(word) : copy(word));
    return 0;
}
