/* The library's functions as the benchmark calls them: the one place to change if the exported functions change.
 * The replies have the layout of searches.h: cause, at, verdict (0 refused, 1 unambiguous, 2 potential), count and looked; cause, at;
 * and of chart.h: cause, at, found (0 refused, 1 none, 2 one, 3 several) and count.
 * With STAND_IN defined, same.c stands in for the search and the certificate check, so that the benchmark itself can be tried without
 * it. */
#ifndef LIBRARY_H
#define LIBRARY_H

#include "chart.h"
#include "searches.h"

typedef struct {
    uint64_t cause, at, states, certificate, entries, moves;
} room_reply;

room_reply ambiguity_search_room(size_t t, size_t n, const uint16_t *table, size_t table_len, size_t callers);
check_reply ambiguity_check_witness(size_t t, size_t n, const uint16_t *table, size_t table_len, size_t callers, const uint32_t *row,
                                    size_t row_len);

typedef struct {
    uint64_t cause, at, entries;
} trees_room_reply;

trees_function ambiguity_find_trees;
trees_room_reply ambiguity_trees_room(size_t t, size_t n, const uint16_t *table, size_t table_len);

#ifdef STAND_IN
#define library_search same_search
#define library_check same_check
#else
search_function ambiguity_search;
check_function ambiguity_check_certificate;
#define library_search ambiguity_search
#define library_check ambiguity_check_certificate
#endif

#endif
