/* Answers the second program's cases with a search or certificate check of this folder, or the library's.
 *
 *     answers search WHO FOUND < CASES
 *     answers certificate WHO < CASES
 *
 * WHO is plain, whole, same or library; second/README.md has the form of cases, answers and FOUND. After a search, all that was
 * lent is compared with what document 01 says of it; a difference is told and ends the program with status 1. */
#include <stdio.h>
#include <stdlib.h>

#include "library.h"

static struct {
    const char *name;
    search_function *search;
    check_function *check;
} const parties[] = {
    {"plain", plain_search, plain_check},
    {"whole", plain_search_whole, plain_check},
    {"same", same_search, same_check},
    {"library", library_search, library_check},
};

static unsigned long number_of_case;

static void stop(const char *what)
{
    fprintf(stderr, "case %lu: %s\n", number_of_case, what);
    exit(1);
}

static int read_number(size_t bytes, uint64_t *number)
{
    uint8_t b[8];
    size_t found = fread(b, 1, bytes, stdin);
    *number = 0;
    for (size_t i = 0; i < found; i++)
        *number |= (uint64_t)b[i] << (8 * i);
    if (found != 0 && found != bytes)
        stop("the file ends inside it");
    return found == bytes;
}

static size_t next_number(size_t bytes)
{
    uint64_t number;
    if (!read_number(bytes, &number))
        stop("the file ends inside it");
    return number;
}

/* So many entries of a size, in the order of bytes that the machine has. */
static void *next_entries(size_t count, size_t size)
{
    void *entries = malloc(count * size + 1);
    if (entries == NULL || fread(entries, size, count, stdin) != count)
        stop("the file ends inside it");
    return entries;
}

static void *filled(size_t bytes, int fill)
{
    void *memory = malloc(bytes + 1);
    if (memory == NULL)
        stop("no memory");
    memset(memory, fill, bytes);
    return memory;
}

/* Are the bytes from one on and before another all `fill`? */
static int all(const void *memory, size_t from, size_t to, int fill)
{
    const uint8_t *bytes = memory;
    for (size_t i = from; i < to; i++)
        if (bytes[i] != fill)
            return 0;
    return 1;
}

/* From a search that does not finish the set it is 0, and not told. */
static void print_looked(uint64_t looked)
{
    if (looked != 0)
        printf(" looked=%lu", (unsigned long)looked);
}

static void answer_search(search_function *search, size_t t, size_t n, const uint16_t *table, size_t len, size_t callers,
                          FILE *found)
{
    size_t c_len = next_number(4), q_len = next_number(4), p_len = next_number(4), w_len = next_number(4);
    int fill = (int)next_number(1);
    uint8_t *c = filled(c_len, fill);
    uint32_t *q = filled(4 * q_len, fill), *p = filled(4 * p_len, fill), *w = filled(4 * w_len, fill);
    search_reply r = search(t, n, table, len, callers, c, c_len, q, q_len, p, p_len, w, w_len);
    struct grammar g;
    struct chains chains;
    size_t cleared = 0, certificate = 0, entries = 0;
    if (r.cause == 0 && check_table(t, n, table, len, &g).cause == 0 && check_callers(&g, callers, &chains).cause == 0) {
        cleared = 2 * chains.states * chains.states;
        certificate = r.verdict == UNAMBIGUOUS ? (cleared + 7) / 8 : 0;
        entries = r.verdict == POTENTIAL ? r.count : 0;
    }
    if (!all(q, 0, 4 * cleared, 0) || !all(p, 0, 4 * cleared, 0))
        stop("queue or parents is not 0");
    if (!all(q, 4 * cleared, 4 * q_len, fill) || !all(p, 4 * cleared, 4 * p_len, fill))
        stop("queue or parents changed past its front");
    if (!all(c, certificate, c_len, fill) || !all(w, 4 * entries, 4 * w_len, fill))
        stop("certificate or witness changed past what was written");
    if (r.cause != 0) {
        printf("refused=%lu at=%lu\n", (unsigned long)r.cause, (unsigned long)r.at);
    } else if (r.verdict == POTENTIAL) {
        uint32_t count = (uint32_t)r.count;
        printf("potential");
        print_looked(r.looked);
        printf("\n");
        fwrite(&count, 4, 1, found);
        fwrite(w, 4, count, found);
    } else {
        printf("unambiguous size=%lu", (unsigned long)r.count);
        print_looked(r.looked);
        printf(" certificate=");
        for (size_t i = 0; i < certificate; i++)
            printf("%02x", c[i]);
        printf("\n");
    }
    free(c);
    free(q);
    free(p);
    free(w);
}

static void answer_check(check_function *check, size_t t, size_t n, const uint16_t *table, size_t len, size_t callers)
{
    size_t c_len = next_number(4);
    uint8_t *c = next_entries(c_len, sizeof *c);
    check_reply r = check(t, n, table, len, callers, c, c_len);
    if (r.cause != 0)
        printf("refused=%lu at=%lu\n", (unsigned long)r.cause, (unsigned long)r.at);
    else
        printf("accepted\n");
    free(c);
}

int main(int argc, char **argv)
{
    int searches = argc == 4 && strcmp(argv[1], "search") == 0;
    FILE *found = searches ? fopen(argv[3], "wb") : NULL;
    size_t who = 0, parties_count = sizeof parties / sizeof parties[0];
    while (argc >= 3 && who < parties_count && strcmp(argv[2], parties[who].name) != 0)
        who++;
    if (argc < 3 || who == parties_count || (searches && found == NULL) || (!searches && strcmp(argv[1], "certificate") != 0)) {
        fprintf(stderr, "usage: answers search WHO FOUND, or answers certificate WHO\n");
        return 2;
    }
    uint64_t t;
    while (read_number(8, &t)) {
        size_t n = next_number(8), len = next_number(4);
        uint16_t *table = next_entries(len, sizeof *table);
        size_t callers = next_number(8);
        if (searches)
            answer_search(parties[who].search, t, n, table, len, callers, found);
        else
            answer_check(parties[who].check, t, n, table, len, callers);
        free(table);
        number_of_case++;
    }
    if (found != NULL)
        fclose(found);
    return 0;
}
