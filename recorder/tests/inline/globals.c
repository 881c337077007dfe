/* Accesses past and before globals of all sorts. */
#include <string.h>

int first[5];
static int with_value[7] = {1};
char text[] = "abc";
const char *literal = "hello";
static struct {
    char letters[3];
    int number;
} structures[2];
__attribute__((weak)) int weak_one[3];
_Thread_local int of_thread[4];
int common[3];

volatile int sink;

int main(void)
{
    volatile int five = 5;
    first[five] = 1;
    first[five - 6] = 1;
    sink = with_value[five + 2];
    sink = text[five - 1];
    sink = literal[five + 1];
    ((char *)structures)[five + 11] = 1;
    sink = weak_one[five - 2];
    sink = of_thread[five - 1];
    sink = common[five - 2];
    memset(first, 0, (size_t)five * 4 + 1);
    memcpy(with_value, first, (size_t)five * 4 + 4);
    static int inner[2];
    inner[five - 3] = 1;
    (void)inner;
    sink = first[4];
    return 0;
}
