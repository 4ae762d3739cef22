/* A hash map from words to counts, in memory from malloc, which grows as it is filled. Errors go to stderr. */
#include <stdio.h>
#include <stdlib.h>
#include <string.h>

struct entry {
    struct entry *next;
    unsigned long count;
    char word[];
};

struct map {
    struct entry **heads;
    size_t size, used;
};

static unsigned long hash(const char *word)
{
    unsigned long h = 0xcbf29ce484222325;
    while (*word)
        h = (h ^ (unsigned char)*word++) * 0x100000001b3;
    return h;
}

static void *must(void *memory)
{
    if (!memory) {
        fputs("hashmap: memory is short\n", stderr);
        exit(3);
    }
    return memory;
}

static void grow(struct map *map)
{
    size_t size = map->size ? 2 * map->size : 4;
    struct entry **heads = must(calloc(size, sizeof *heads));
    for (size_t i = 0; i < map->size; i++) {
        for (struct entry *entry = map->heads[i], *next; entry; entry = next) {
            struct entry **head = &heads[hash(entry->word) % size];
            next = entry->next;
            entry->next = *head;
            *head = entry;
        }
    }
    free(map->heads);
    map->heads = heads;
    map->size = size;
}

static unsigned long *count_of(struct map *map, const char *word)
{
    if (map->used >= map->size)
        grow(map);
    struct entry **head = &map->heads[hash(word) % map->size];
    for (struct entry *entry = *head; entry; entry = entry->next)
        if (strcmp(entry->word, word) == 0)
            return &entry->count;
    struct entry *made = must(malloc(sizeof *made + strlen(word) + 1));
    made->next = *head;
    made->count = 0;
    strcpy(made->word, word);
    *head = made;
    map->used++;
    return &made->count;
}

int main(void)
{
    struct map map = {0};
    char word[16];
    for (unsigned i = 0; i < 3000; i++) {
        sprintf(word, "w%u", i * i % 509);
        ++*count_of(&map, word);
    }
    unsigned long sum = 0;
    for (size_t i = 0; i < map.size; i++) {
        for (struct entry *entry = map.heads[i], *next; entry; entry = next) {
            next = entry->next;
            sum += entry->count;
            free(entry);
        }
    }
    free(map.heads);
    fprintf(stderr, "%zu words in %zu places, %lu counted\n", map.used, map.size, sum);
    int good = map.used == 255 && map.size == 256 && sum == 3000;
    puts(good ? "hashmap: ok" : "hashmap: wrong");
    return !good;
}
