/* Times the reader on the text from standard input, by the library and by plain C, interleaved; or reading back.
 *
 *     texts SECONDS           prints the least milliseconds of a call by the library and by plain C, and what both answer
 *     texts SECONDS LINES     the same for reading the lines of a file back in the grammar of the text, where 0 stands for plain C
 *
 * About SECONDS are spent. If the library and plain C answer differently, or write different rows, the status is 1. */
#include <stdio.h>
#include <stdlib.h>
#include <string.h>
#include <time.h>

#include "read.h"

enum { FEWEST = 5, MOST = 150, LONGEST_LINES = 1 << 21 };

typedef ambiguity_read_reply read_function(const uint8_t *, size_t, uint16_t *, size_t, uint32_t *, size_t, uint32_t *, size_t);

/* What a reader writes. */
struct rows {
    uint16_t table[AMBIGUITY_MAX_TABLE_ENTRIES];
    uint32_t starts[AMBIGUITY_MAX_NAMES], lengths[AMBIGUITY_MAX_NAMES];
};

static uint8_t text[AMBIGUITY_MAX_TEXT_BYTES], lines[LONGEST_LINES];
static uint32_t left[LONGEST_LINES], right[LONGEST_LINES];
static size_t text_bytes, lines_bytes;
static struct rows library_rows, plain_rows;

static double now(void)
{
    struct timespec t;
    clock_gettime(CLOCK_THREAD_CPUTIME_ID, &t);
    return 1e3 * (double)t.tv_sec + 1e-6 * (double)t.tv_nsec;
}

static ambiguity_read_reply read_by(read_function *reader, struct rows *rows, double *least)
{
    double begin = now();
    ambiguity_read_reply reply = reader(text, text_bytes, rows->table, AMBIGUITY_MAX_TABLE_ENTRIES, rows->starts,
                                        AMBIGUITY_MAX_NAMES, rows->lengths, AMBIGUITY_MAX_NAMES);
    double spent = now() - begin;
    if (spent < *least)
        *least = spent;
    return reply;
}

static int time_reader(double budget)
{
    ambiguity_read_reply a = {0}, b = {0};
    double by_library = 1e9, by_plain = 1e9, begin = now();
    for (int turn = 0; turn < MOST && (turn < FEWEST || now() - begin < budget); turn++) {
        a = read_by(ambiguity_read_text, &library_rows, &by_library);
        b = read_by(plain_read, &plain_rows, &by_plain);
    }
    if (memcmp(&a, &b, sizeof a) != 0 || memcmp(&library_rows, &plain_rows, sizeof library_rows) != 0) {
        fprintf(stderr, "the library answers %llu at %llu, plain C %llu at %llu\n", (unsigned long long)a.cause,
                (unsigned long long)a.at, (unsigned long long)b.cause, (unsigned long long)b.at);
        return 1;
    }
    printf("%f %f ", by_library, by_plain);
    if (a.cause != AMBIGUITY_NOT_REFUSED)
        printf("refused=%llu at=%llu\n", (unsigned long long)a.cause, (unsigned long long)a.at);
    else
        printf("states=%llu\n", (unsigned long long)a.states);
    return 0;
}

static int time_reading_back(double budget)
{
    ambiguity_read_back_reply reply = {0};
    double least = 1e9, begin = now();
    for (int turn = 0; turn < MOST && (turn < FEWEST || now() - begin < budget); turn++) {
        double start = now(), spent;
        reply = ambiguity_read_back(text, text_bytes, lines, lines_bytes, left, LONGEST_LINES, right, LONGEST_LINES);
        spent = now() - start;
        if (spent < least)
            least = spent;
    }
    printf("%f 0 ", least);
    if (reply.cause != AMBIGUITY_NOT_REFUSED)
        printf("refused=%llu at=%llu\n", (unsigned long long)reply.cause, (unsigned long long)reply.at);
    else
        printf("letters=%llu\n", (unsigned long long)(reply.left + reply.right));
    return 0;
}

int main(int argc, char **argv)
{
    FILE *file = argc == 3 ? fopen(argv[2], "rb") : NULL;
    if (argc < 2 || argc > 3 || (argc == 3 && file == NULL)) {
        fprintf(stderr, "usage: texts SECONDS [LINES] < TEXT\n");
        return 2;
    }
    text_bytes = fread(text, 1, sizeof text, stdin);
    if (file == NULL)
        return time_reader(atof(argv[1]) * 1e3);
    lines_bytes = fread(lines, 1, sizeof lines, file);
    fclose(file);
    return time_reading_back(atof(argv[1]) * 1e3);
}
