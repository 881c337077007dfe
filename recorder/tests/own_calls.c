/* A program whose own functions and variables have names of the C library's, and its own parameters. With
   OWN it is the file that has them. */
#ifndef __clang__
#pragma GCC diagnostic ignored "-Wbuiltin-declaration-mismatch" /* that a variable has a function's name is meant */
#endif
struct nine {
    long numbers[9];
};
#ifdef OWN
struct nine send(long a, double b, long c, long d, long e, long f, long g, long h, long i)
{
    return (struct nine){{a, (long)b, c, d, e, f, g, h, i}};
}
int getline(char *line, int size)
{
    line[size - 1] = 0;
    return size * 2;
}
double read(double one, double other)
{
    return one + other;
}
/* No address of a lock: among them the one past the last, and one that reads as one below it. */
long sem_post(long number, double other)
{
    return number + (long)other;
}
int index = 4, link[100] = {1, 2, 3};
const char *access = "abc";
#else
struct nine send(long a, double b, long c, long d, long e, long f, long g, long h, long i);
int getline(char *line, int size);
double read(double one, double other);
long sem_post(long number, double other);
int printf(const char *format, ...);
extern int index, link[100];
extern const char *access;
int main(void)
{
    char line[8];
    struct nine sent = send(1, 2.0, 3, 4, 5, 6, 7, 8, 9);
    index++;
    link[99] = index;
    printf("%d %d %s %d %g", index, link[2] + link[99], access, getline(line, 8), read(1.5, 2));
    for (int i = 0; i < 9; i++)
        printf(" %ld", sent.numbers[i]);
    static const long numbers[] = {0, -8, 1, 0x7ffffffffff8, 0x800000000000, -0x7fffffffffffffff - 1};
    for (unsigned i = 0; i < sizeof numbers / sizeof *numbers; i++)
        printf(" %d", sem_post(numbers[i], 2) == numbers[i] + 2);
    printf("\n");
    return 0;
}
#endif
