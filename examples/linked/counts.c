// Linked to a program with probes: at exit it writes the counters, one number a line, to the file that COUNTS names.
// COUNTERS is their number, one for each line of `retro blocks`.
#include <stdio.h>
#include <stdlib.h>

extern const unsigned long long __retro_counts[COUNTERS];

__attribute__((destructor)) static void write_counts(void)
{
    const char *name = getenv("COUNTS");
    FILE *file = name ? fopen(name, "w") : NULL;
    if (!file)
        return;
    for (size_t k = 0; k < COUNTERS; k++)
        fprintf(file, "%llu\n", __retro_counts[k]);
    fclose(file);
}
