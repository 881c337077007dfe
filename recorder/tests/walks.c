/* Places of walks (stacks/walks.h): each is one thread's, also if a handler comes after the place was taken and before
   the thread has noted it, and forks or leaves by a jump. */
#include "tests/fuzz/tables.h"

#include <pthread.h>
#include <stdio.h>

#include "stacks/walks.c"

_Thread_local struct own_stack own_stack = {.low = 1 << 20, .top = 2 << 20};

bool stack_note_rights(uintptr_t start, size_t size, bool can_be_read)
{
    return can_be_read && start < own_stack.top && size > 0;
}

/* The place of this thread after more walks than it needs for one. */
static struct walks *walk_often(void)
{
    struct walks *found = NULL;
    for (int i = 0; i <= AFTER_WALKS; i++)
        found = walks_take();
    return found;
}

static void *walk_and_end(void *unused)
{
    (void)unused;
    void *found = walk_often();
    walks_give();
    return found;
}

static void *place_of_other_thread(void)
{
    pthread_t thread;
    void *found;
    bool has_run = pthread_create(&thread, NULL, walk_and_end, NULL) == 0 && pthread_join(thread, &found) == 0;
    return has_run ? found : NULL;
}

/* The own place, which is not noted yet. */
static struct walks *take_and_come_in(void)
{
    own_walks.count = 0;
    struct walks *own = walk_often();
    own_walks.walks = NULL;
    return own;
}

int main(void)
{
    struct walks *own = take_and_come_in();
    walks_are_alone();
    if (own == NULL || place_of_other_thread() == own)
        puts("in a child two threads have one place");
    walks_give();
    own = take_and_come_in();
    walks_give();
    if (own == NULL || place_of_other_thread() != own)
        puts("a place was lost");
    return 0;
}
