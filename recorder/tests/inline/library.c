/* What a library does that was not compiled to be recorded. */
#include <setjmp.h>

void jump_over(void callback(void), jmp_buf to);

void jump_over(void callback(void), jmp_buf to)
{
    callback();
    longjmp(to, 1);
}
