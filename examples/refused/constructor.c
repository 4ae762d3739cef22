/* A function that runs before main. */
#include <stdio.h>

__attribute__((constructor)) static void before(void)
{
    puts("before main");
}

int main(void)
{
    puts("main");
    return 0;
}
