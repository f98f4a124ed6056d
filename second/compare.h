/* How the programs that compare read the second program's files of cases and answers. PROGRAM is the name of the one that includes it. */
#ifndef COMPARE_H
#define COMPARE_H

#include <stdint.h>
#include <stdio.h>
#include <stdlib.h>
#include <string.h>

/* A file, from its front on. */
typedef struct {
    const char *name;
    uint8_t *bytes;
    size_t size;
    size_t place;
} input;

static inline _Noreturn void fail(const char *name, const char *what)
{
    fprintf(stderr, PROGRAM ": %s: %s\n", name, what);
    exit(2);
}

static inline void *lend(size_t bytes)
{
    void *found = malloc(bytes);
    if (found == NULL)
        fail("memory", "there is too little");
    return found;
}

static inline input opened(const char *name)
{
    input found = {name, NULL, 0, 0};
    FILE *file = fopen(name, "rb");
    if (file == NULL || fseek(file, 0, SEEK_END) != 0)
        fail(name, "cannot be read");
    long size = ftell(file);
    if (size < 0 || fseek(file, 0, SEEK_SET) != 0)
        fail(name, "cannot be read");
    found.size = (size_t)size;
    found.bytes = lend(found.size + 1);
    if (fread(found.bytes, 1, found.size, file) != found.size)
        fail(name, "cannot be read");
    fclose(file);
    return found;
}

static inline const uint8_t *taken(input *from, size_t bytes)
{
    if (from->size - from->place < bytes)
        fail(from->name, "ends inside a case");
    from->place += bytes;
    return from->bytes + from->place - bytes;
}

static inline uint64_t number(input *from, size_t bytes, uint64_t most)
{
    const uint8_t *digits = taken(from, bytes);
    uint64_t value = 0;
    for (size_t place = bytes; place > 0; place--)
        value = value * 256 + digits[place - 1];
    if (value > most)
        fail(from->name, "has a number that is too large");
    return value;
}

/* The next line of the answers, without its byte 10, which becomes 0. */
static inline char *line_of(input *from)
{
    char *line = (char *)from->bytes + from->place;
    uint8_t *end = memchr(line, '\n', from->size - from->place);
    if (end == NULL)
        fail(from->name, "has too few lines");
    *end = 0;
    from->place = (size_t)(end - from->bytes) + 1;
    return line;
}

#endif
