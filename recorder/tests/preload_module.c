/* A module of asancol-cc that a plain program opens (preload_host.c). */
#include <stdlib.h>
#include <string.h>

void *act(const char *what, void *block);

static volatile char table[10];

/* No compiler knows what these are. */
static volatile size_t end = 10, size = 11;

void *act(const char *what, void *block)
{
    volatile char *of_host = block, local[10] = {1};
    if (strcmp(what, "over") == 0)
        local[0] = of_host[end];
    else if (strcmp(what, "stack") == 0)
        local[end] = 1;
    else if (strcmp(what, "global") == 0)
        table[end] = 1;
    else if (strcmp(what, "call") == 0)
        memcpy((void *)table, block, end), memcpy(block, (void *)table, size);
    else if (strcmp(what, "own") == 0) {
        volatile char *own = malloc(end);
        own[end] = 1;
        free((void *)own);
    } else if (strcmp(what, "free") == 0 || strcmp(what, "module frees it") == 0)
        free(block);
    else if (strcmp(what, "module frees twice") == 0)
        free(block), free(block);
    else if (strcmp(what, "module reads freed") == 0)
        free(block), local[0] = of_host[2];
    else if (strcmp(what, "give") == 0)
        return strcpy(malloc(20), "given");
    else if (strcmp(what, "fault") == 0)
        *(volatile char *)8 = 1;
    else if (strcmp(what, "abort") == 0)
        abort();
    else if (block != NULL)
        local[0] = of_host[2];
    return local[0] == 77 ? block : NULL;
}
