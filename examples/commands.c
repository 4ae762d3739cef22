/* A calculator: a table of strings with pointers to functions, some of them the C library's. */
#include <ctype.h>
#include <stdio.h>
#include <stdlib.h>
#include <string.h>

static long add(long a, long b) { return a + b; }
static long subtract(long a, long b) { return a - b; }
static long multiply(long a, long b) { return a * b; }
static long divide(long a, long b) { return b ? a / b : 0; }
static long power(long a, long b) { return b ? a * power(a, b - 1) : 1; }

static const struct command {
    const char *name;
    long (*run)(long, long);
} commands[] = {
    {"add", add}, {"subtract", subtract}, {"multiply", multiply}, {"divide", divide}, {"power", power},
};

static const struct line {
    const char *text;
    long expected;
} lines[] = {
    {"add 2 40", 42},        {"subtract 1 100", -99},   {"multiply -12 12", -144},
    {"divide 1000 -7", -142}, {"power 3 20", 3486784401}, {"divide 5 0", 0},
};

static int (*const letters[])(int) = {toupper, tolower};

static const struct command *find(const char *name, size_t length)
{
    for (size_t i = 0; i < sizeof commands / sizeof commands[0]; i++)
        if (strlen(commands[i].name) == length && strncmp(commands[i].name, name, length) == 0)
            return &commands[i];
    return NULL;
}

int main(void)
{
    int good = find("root", 4) == NULL;
    for (size_t i = 0; i < sizeof lines / sizeof lines[0]; i++) {
        const char *text = lines[i].text;
        size_t length = strcspn(text, " ");
        const struct command *command = find(text, length);
        char *rest;
        long a = strtol(text + length, &rest, 10);
        long b = strtol(rest, NULL, 10);
        long result = command->run(a, b);
        printf("%c%s = %ld\n", letters[i % 2](text[0]), text + 1, result);
        good &= result == lines[i].expected;
    }
    puts(good ? "commands: ok" : "commands: wrong");
    return !good;
}
