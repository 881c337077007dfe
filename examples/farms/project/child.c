/* A forked child counts words, after it has freed them. The parent looks only whether it has ended. */
#include <stdlib.h>
#include <sys/wait.h>
#include <unistd.h>

#include "words.h"

static int count_words(const char *text)
{
    struct words *list = words_split(text);
    if (list == NULL)
        return 0;
    words_free(list);
    return (int)list->count; /* BUG of child: the list is freed */
}

int main(void)
{
    int status;
    pid_t child = fork();
    if (child == 0)
        exit(count_words("two words") == 2 ? 0 : 1);
    return child > 0 && waitpid(child, &status, 0) == child && WIFEXITED(status) ? 0 : 1;
}
