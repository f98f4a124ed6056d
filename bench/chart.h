/* The trees of one sentence, as document 02's [12] asks for them: what is answered, and the plain C that answers it. */
#ifndef CHART_H
#define CHART_H

#include "searches.h"

enum { MAX_ROW = 64, PLACES = MAX_ROW + 1 };

enum { NO_TREE = 1, ONE_TREE = 2, SEVERAL_TREES = 3 };

/* cause 0: not refused, and found is one of these three; else it is REFUSED. count: with one tree, how many rules are listed. */
typedef struct {
    uint64_t cause, at, found, count;
} trees_reply;

/* work has room for PLACES * PLACES * Q entries, which are 0 after every answer; the rules are listed from 1. */
typedef trees_reply trees_function(size_t t, size_t n, const uint16_t *table, size_t table_len, const uint16_t *row, size_t row_len,
                                   uint32_t *work, size_t work_len, uint16_t *list, size_t list_len);

/* chart.c: plain_trees does all that is asked. plain_trees_bare only answers, and leaves the work row as it is. */
trees_function plain_trees, plain_trees_bare;

#endif
