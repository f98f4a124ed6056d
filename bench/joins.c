/* Times the join of two files by the library and by plain C, interleaved: the table, the joined text, and the name of the last symbol.
 *
 *     joins SECONDS ROBOT MODULE      prints for each the least milliseconds of a call by the library and by plain C, and the answer
 *
 * About SECONDS are spent. If the library and plain C answer differently, or write different rows, the status is 1. */
#include <stdio.h>
#include <stdlib.h>
#include <string.h>
#include <time.h>

#include "join.h"

enum { FEWEST = 5, MOST = 150 };

typedef ambiguity_read_reply join_function(const uint8_t *, size_t, const uint8_t *, size_t, uint16_t *, size_t);
typedef ambiguity_write_reply write_function(const uint8_t *, size_t, const uint8_t *, size_t, uint8_t *, size_t);
typedef ambiguity_part_reply name_function(const uint8_t *, size_t, const uint8_t *, size_t, size_t);

/* One who joins: the functions, what they write and answer, and the least time of each. */
struct party {
    join_function *join;
    write_function *write;
    name_function *name;
    uint16_t table[AMBIGUITY_MAX_TABLE_ENTRIES];
    uint8_t text[AMBIGUITY_MAX_TEXT_BYTES];
    ambiguity_read_reply joined;
    ambiguity_write_reply written;
    ambiguity_part_reply shown;
    double least[3];
};

static struct party library = {.join = ambiguity_join_texts, .write = ambiguity_write_joined, .name = ambiguity_joined_name};
static struct party plain = {.join = plain_join, .write = plain_write_joined, .name = plain_name};
static uint8_t robot[AMBIGUITY_MAX_TEXT_BYTES], module[AMBIGUITY_MAX_TEXT_BYTES];
static size_t robot_bytes, module_bytes;

static double now(void)
{
    struct timespec t;
    clock_gettime(CLOCK_THREAD_CPUTIME_ID, &t);
    return 1e3 * (double)t.tv_sec + 1e-6 * (double)t.tv_nsec;
}

static void note(double *least, double begin)
{
    double spent = now() - begin;
    if (*least == 0 || spent < *least)
        *least = spent;
}

static void take_turn(struct party *party)
{
    double begin = now();
    party->joined = party->join(robot, robot_bytes, module, module_bytes, party->table, AMBIGUITY_MAX_TABLE_ENTRIES);
    note(&party->least[0], begin);
    begin = now();
    party->written = party->write(robot, robot_bytes, module, module_bytes, party->text, AMBIGUITY_MAX_TEXT_BYTES);
    note(&party->least[1], begin);
    size_t symbols = party->joined.terminals + party->joined.nonterminals;
    begin = now();
    party->shown = party->name(robot, robot_bytes, module, module_bytes, symbols == 0 ? 0 : symbols - 1);
    note(&party->least[2], begin);
}

static int agree(void)
{
    return memcmp(&library.joined, &plain.joined, sizeof plain.joined) == 0 && memcmp(library.table, plain.table, sizeof plain.table) == 0
        && memcmp(&library.written, &plain.written, sizeof plain.written) == 0 && memcmp(library.text, plain.text, sizeof plain.text) == 0
        && memcmp(&library.shown, &plain.shown, sizeof plain.shown) == 0;
}

static size_t read_file(const char *path, uint8_t *text)
{
    FILE *file = fopen(path, "rb");
    if (file == NULL) {
        perror(path);
        exit(2);
    }
    size_t bytes = fread(text, 1, AMBIGUITY_MAX_TEXT_BYTES, file);
    fclose(file);
    return bytes;
}

int main(int argc, char **argv)
{
    if (argc != 4) {
        fprintf(stderr, "usage: joins SECONDS ROBOT MODULE\n");
        return 2;
    }
    double budget = atof(argv[1]) * 1e3, begin = now();
    robot_bytes = read_file(argv[2], robot);
    module_bytes = read_file(argv[3], module);
    for (int turn = 0; turn < MOST && (turn < FEWEST || now() - begin < budget); turn++) {
        take_turn(&library);
        take_turn(&plain);
        if (!agree()) {
            fprintf(stderr, "the library answers %llu at %llu, plain C %llu at %llu\n", (unsigned long long)library.joined.cause,
                    (unsigned long long)library.joined.at, (unsigned long long)plain.joined.cause, (unsigned long long)plain.joined.at);
            return 1;
        }
    }
    for (int i = 0; i < 3; i++)
        printf("%f %f ", library.least[i], plain.least[i]);
    if (library.joined.cause != AMBIGUITY_NOT_REFUSED)
        printf("refused=%llu at=%llu\n", (unsigned long long)library.joined.cause, (unsigned long long)library.joined.at);
    else
        printf("states=%llu\n", (unsigned long long)library.joined.states);
    return 0;
}
