// Dictionaries: open addressing, with room for all names that they get.
#include <stdio.h>
#include <stdlib.h>
#include <string.h>

#include "runner.h"

void fail(const char *what, const char *word)
{
    fprintf(stderr, "suitesparse: %s %s\n", what, word);
    exit(1);
}

void *new_memory(size_t count, size_t size)
{
    void *memory = malloc(count * size + 1);
    if (!memory)
        fail("no memory for", "a list");
    return memory;
}

// `slots` is a power of two, above the number of names.
Dictionary new_dictionary(size_t slots)
{
    Named *empty = calloc(slots, sizeof(Named));
    if (!empty)
        fail("no memory for", "names");
    return (Dictionary){empty, slots - 1};
}

// The slot with the name, or the empty one where it belongs.
static Named *slot_of(const Dictionary *dictionary, const char *name)
{
    size_t hash = 5381;
    for (const char *p = name; *p; p++)
        hash = hash * 33 + (unsigned char)*p;
    hash ^= hash >> 16;
    while (dictionary->slots[hash & dictionary->mask].name
           && strcmp(dictionary->slots[hash & dictionary->mask].name, name) != 0)
        hash++;
    return &dictionary->slots[hash & dictionary->mask];
}

const void *meaning_of(const Dictionary *dictionary, const char *name)
{
    const void *meaning = slot_of(dictionary, name)->meaning;
    if (!meaning)
        fail("no meaning is known of", name);
    return meaning;
}

void give_meaning(Dictionary *dictionary, const char *name, const void *meaning)
{
    *slot_of(dictionary, name) = (Named){name, meaning};
}
