/* Compiled without -mgeneral-regs-only: numbers with a fraction stand in vector registers. */
#include <stdio.h>

int main(int count, char **words)
{
    (void)words;
    printf("%f\n", count / 3.0);
    return 0;
}
