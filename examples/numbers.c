/* Numbers: products, quotients, shifts, rotations and conditions at all four widths, printed by printf. */
#include <limits.h>
#include <stdint.h>
#include <stdio.h>

static const int64_t values[] = {0, 1, -1, 7, -7, 127, 128, -129, 65535, INT_MAX, INT_MIN, 1000000007, LONG_MAX, LONG_MIN + 1};

static uint64_t mix(uint64_t sum, uint64_t value)
{
    sum = (sum << 13 | sum >> 51) ^ value;
    return sum * 0x9e3779b97f4a7c15;
}

static uint64_t widths(int64_t a, int64_t b)
{
    uint64_t sum = 0;
    if ((int8_t)b)
        sum = mix(sum, (int8_t)((int8_t)a / (int8_t)b) + ((uint8_t)a % (uint8_t)b << 8));
    if ((int16_t)b)
        sum = mix(sum, (int16_t)((int16_t)a / (int16_t)b) + ((int64_t)((uint16_t)a % (uint16_t)b) << 16));
    if ((int32_t)b && (int32_t)b != -1)
        sum = mix(sum, (int64_t)((int32_t)a / (int32_t)b) + (uint32_t)a % (uint32_t)b);
    if (b)
        sum = mix(sum, a / b + (uint64_t)a % (uint64_t)b);
    sum = mix(sum, (unsigned __int128)((__int128)a * b) >> 64);
    sum = mix(sum, (uint8_t)a * (uint8_t)b + (int16_t)((int16_t)a * (uint16_t)b));
    sum = mix(sum, (a >> (b & 63)) ^ ((uint64_t)a << (b & 31)) ^ ((int32_t)a >> (b & 31)));
    sum = mix(sum, (a < b) + 2 * ((uint64_t)a < (uint64_t)b) + 4 * ((int8_t)a <= (int8_t)b) + 8 * ((uint16_t)a > (uint16_t)b));
    return sum;
}

static int collatz(uint32_t n)
{
    int steps = 0;
    for (; n != 1; steps++)
        n = n % 2 ? 3 * n + 1 : n / 2;
    return steps;
}

int main(void)
{
    const int count = sizeof values / sizeof values[0];
    uint64_t sum = 0;
    for (int i = 0; i < count; i++)
        for (int k = 0; k < count; k++)
            sum = mix(sum, widths(values[i], values[k]));
    for (int i = 0; i < count; i++)
        printf("%20ld %#18lx %hd %o\n", (long)values[i], (unsigned long)values[i], (short)values[i], (unsigned)values[i] & 0777);
    printf("sum %016lx, collatz %d %s %c %%\n", (unsigned long)sum, collatz(97), "steps", '!');
    int good = sum == 0x0da4c47aa0fec9ea && collatz(97) == 118;
    puts(good ? "numbers: ok" : "numbers: wrong");
    return !good;
}
