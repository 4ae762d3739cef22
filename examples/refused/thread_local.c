/* A variable that each thread has for itself. */
#include <stdio.h>

static _Thread_local int count = 3;

int main(int words, char **word)
{
    (void)word;
    count += words;
    printf("%d\n", count);
    return 0;
}
