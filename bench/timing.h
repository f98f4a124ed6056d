/* What the programs that time share: an input, which is a line of grammars.py, and clocks. */
#ifndef TIMING_H
#define TIMING_H

#include <stdio.h>
#include <stdlib.h>
#include <time.h>

#include "searches.h"

enum { MOST_TURNS = 4000, FEWEST_TURNS = 25, FEWEST_LONG_TURNS = 7, TABLE = MAX_STATES + MAX_RULES };

struct input {
    char name[64];
    size_t t, n, len;
    uint16_t table[TABLE];
    struct grammar g;
};

static inline void stop(const char *name, const char *who, const char *what)
{
    fprintf(stderr, "%s: %s: %s\n", name, who, what);
    exit(1);
}

/* Short calls are timed by the wall clock, whose reading is cheap; long ones by this thread's processor time, which does not run
 * while another process has the processor. Calls of a millisecond and more are timed less often. In nanoseconds. */
static clockid_t timer = CLOCK_MONOTONIC;
enum { LONG_CALL = 20000, RARE_CALL = 1000000 };
static size_t fewest = FEWEST_TURNS;

static inline double now(void)
{
    struct timespec t;
    clock_gettime(timer, &t);
    return (double)t.tv_sec * 1e9 + (double)t.tv_nsec;
}

static inline int ascending(const void *a, const void *b)
{
    double x = *(const double *)a, y = *(const double *)b;
    return (x > y) - (x < y);
}

static inline double median(double *times, size_t count)
{
    qsort(times, count, sizeof *times, ascending);
    return times[count / 2];
}

/* What taking the time itself takes. */
static inline double clock_cost(void)
{
    static double times[MOST_TURNS];
    for (size_t i = 0; i < MOST_TURNS; i++) {
        double begin = now();
        times[i] = now() - begin;
    }
    return median(times, MOST_TURNS);
}

/* The clock for calls like one that took so long; back comes what taking the time takes. */
static inline double choose_clock(double call)
{
    timer = call < LONG_CALL ? CLOCK_MONOTONIC : CLOCK_THREAD_CPUTIME_ID;
    fewest = call < RARE_CALL ? FEWEST_TURNS : FEWEST_LONG_TURNS;
    return clock_cost();
}

static inline int read_input(FILE *file, struct input *in)
{
    static char hex[8192 + 1];
    int found = fscanf(file, "%63s %zu %zu %8192s", in->name, &in->t, &in->n, hex);
    if (found == EOF)
        return 0;
    in->len = strlen(hex) / 4;
    if (in->len > TABLE)
        stop(in->name, "input", "a table too long");
    for (size_t i = 0; i < in->len; i++) {
        unsigned entry = 0;
        if (found != 4 || sscanf(hex + 4 * i, "%4x", &entry) != 1)
            stop(in->name, "input", "not a line of four words");
        in->table[i] = (uint16_t)entry;
    }
    if (check_table(in->t, in->n, in->table, in->len, &in->g).cause != 0)
        stop(in->name, "input", "the table is refused");
    return 1;
}

#endif
