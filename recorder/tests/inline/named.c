/* Accesses past globals whose names or sections are their own, each in the place of a line that reports have. */
static volatile char sink;
char __underlined[5];
static char __hidden[6];
char in_section[5] __attribute__((section(".x.y")));

static int hide(int number)
{
    __asm__ volatile("" : "+r"(number));
    return number;
}

int main(void)
{
    static char __local[3];
    static const char __text[] = "abcde";
    __underlined[hide(5)] = 1;
    __hidden[hide(6)] = 1;
    sink = __hidden[hide(1)];
    __local[hide(3)] = 1;
    sink = __text[hide(6)];
    sink = __func__[hide(5)];
    in_section[hide(5)] = 1;
    return 0;
}
