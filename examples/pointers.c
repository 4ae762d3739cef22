/* Static data that holds addresses: pointers to pointers, into the middle of arrays, past their end, and rings of structures. */
#include <stdio.h>
#include <string.h>

static int numbers[8] = {10, 11, 12, 13, 14, 15, 16, 17};
static int *middle = &numbers[4];
static int *end = numbers + 8;
static int **to_middle = &middle;
static int ***to_pointer = &to_middle;

static const char *const days[] = {"Mon", "Tue", "Wed", "Thu", "Fri", "Sat", "Sun"};
static const char *const *const weekend = days + 5;
static const char *tail = "a suffix of a string" + 2;

struct node {
    const char *name;
    struct node *next, **entry;
};

static struct node *entry;
static struct node nodes[3] = {
    {"first", &nodes[1], &entry}, {"second", &nodes[2], &entry}, {"third", &nodes[0], &entry},
};
static struct node *entry = &nodes[2];

static FILE **const streams[] = {&stdout, &stderr};
static char board[3][4] = {"abc", "def", "ghi"};
static char *const corners[] = {&board[0][0], &board[0][2], &board[2][0], &board[2][2]};

int main(void)
{
    ***to_pointer += 100;
    to_middle[0]++;
    int sum = 0;
    for (int *at = numbers; at != end; at++)
        sum += *at;

    struct node *node = *nodes[0].entry;
    for (int i = 0; i < 5; i++, node = node->next)
        printf("%s ", node->name);
    *node->entry = node;

    char word[5] = {0};
    for (int i = 0; i < 4; i++)
        word[i] = *corners[i];
    fprintf(*streams[1], "%s %s %s\n", weekend[0], weekend[1], tail);
    fprintf(*streams[0], "%d %ld %s\n", sum, (long)(end - middle), word);
    int good = sum == 208 && end - middle == 3 && *middle == 15 && numbers[4] == 114 && entry == &nodes[1]
        && strcmp(word, "acgi") == 0 && strcmp(weekend[1], "Sun") == 0 && strcmp(tail, "suffix of a string") == 0;
    puts(good ? "pointers: ok" : "pointers: wrong");
    return !good;
}
