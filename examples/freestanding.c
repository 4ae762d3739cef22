/* Freestanding: no C library, an entry of its own, raw system calls, and data: strings, a table and a buffer. */
static long system_call(long number, long a, long b, long c)
{
    long result;
    __asm__ volatile("syscall" : "=a"(result) : "a"(number), "D"(a), "S"(b), "d"(c) : "rcx", "r11", "memory");
    return result;
}

enum { WRITE = 1, GETPID = 39, EXIT = 60 };

static char buffer[256];
static unsigned used;

static void put(const char *text)
{
    while (*text)
        buffer[used++] = *text++;
}

static void put_number(unsigned long n)
{
    if (n >= 10)
        put_number(n / 10);
    buffer[used++] = '0' + n % 10;
}

__attribute__((noinline)) static unsigned fibonacci(unsigned n)
{
    return n < 2 ? n : fibonacci(n - 1) + fibonacci(n - 2);
}

static const unsigned expected[] = {0, 1, 1, 2, 3, 5, 8, 13, 21, 34, 55};

__attribute__((noreturn)) void _start(void)
{
    int good = system_call(GETPID, 0, 0, 0) > 0;
    for (unsigned n = 0; n < sizeof expected / sizeof expected[0]; n++) {
        unsigned f = fibonacci(n);
        put_number(f);
        put(" ");
        good &= f == expected[n];
    }
    put(good ? "\nfreestanding: ok\n" : "\nfreestanding: wrong\n");
    long written = system_call(WRITE, 1, (long)buffer, used);
    system_call(EXIT, written == used ? 42 : 1, 0, 0);
    for (;;) {
    }
}
