/* Sorting: a quicksort over integers, and the C library's qsort, which calls back into this program. */
#include <stdio.h>
#include <stdlib.h>
#include <string.h>

enum { COUNT = 1000 };

static unsigned random_state = 12345;

static int next_random(void)
{
    random_state = random_state * 1103515245 + 12345;
    return (int)(random_state >> 8) % 10000 - 5000;
}

static void quicksort(int *low, int *high)
{
    if (high - low < 2)
        return;
    int pivot = low[(high - low) / 2];
    int *left = low, *right = high - 1;
    while (left <= right) {
        while (*left < pivot)
            left++;
        while (*right > pivot)
            right--;
        if (left <= right) {
            int kept = *left;
            *left++ = *right;
            *right-- = kept;
        }
    }
    quicksort(low, right + 1);
    quicksort(left, high);
}

static int by_value(const void *a, const void *b)
{
    int x = *(const int *)a, y = *(const int *)b;
    return (x > y) - (x < y);
}

static int by_name(const void *a, const void *b)
{
    return strcmp(*(const char *const *)a, *(const char *const *)b);
}

static const char *cities[] = {"Oslo", "Lima", "Quito", "Accra", "Riga", "Hanoi"};

int main(void)
{
    static int ours[COUNT], theirs[COUNT];
    for (int i = 0; i < COUNT; i++)
        ours[i] = theirs[i] = next_random();
    quicksort(ours, ours + COUNT);
    qsort(theirs, COUNT, sizeof theirs[0], by_value);
    qsort(cities, sizeof cities / sizeof cities[0], sizeof cities[0], by_name);

    int good = memcmp(ours, theirs, sizeof ours) == 0;
    for (int i = 1; i < COUNT; i++)
        good &= ours[i - 1] <= ours[i];
    printf("least %d, middle %d, greatest %d\n", ours[0], ours[COUNT / 2], ours[COUNT - 1]);
    for (unsigned i = 0; i < sizeof cities / sizeof cities[0]; i++)
        printf("%s\n", cities[i]);
    puts(good ? "sort: ok" : "sort: wrong");
    return !good;
}
