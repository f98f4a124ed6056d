/* A witness is judged by the words of documents 01 and 02, rule by rule and with no tables: slow, and only for this benchmark's own
 * check. */
#ifndef WITNESS_H
#define WITNESS_H

#include "searches.h"

/* An item: rule 0 is S' -> S. States 0 and 1 have no item. The items of a rule that no sentence uses have no moves, and no move
 * leads to them: they are taken for none, too. */
struct item {
    int rule;
    unsigned left, k, dot;
    const uint16_t *codes;
};

static const uint16_t START_CODE[1] = {START};

static struct item any_item(const struct grammar *g, unsigned p)
{
    if (p < 2)
        return (struct item){-1, 0, 0, 0, START_CODE};
    if (p < 4)
        return (struct item){0, 0, 1, p - 2, START_CODE};
    unsigned base = 4, i = 0;
    while (p > base + g->rule[i][1])
        base += g->rule[i++][1] + 1;
    return (struct item){(int)i + 1, g->rule[i][0], g->rule[i][1], p - base, g->rule[i] + 2};
}

static struct item item_of(const struct grammar *g, unsigned p)
{
    uint8_t live[MAX_RULES + 1];
    struct item x = any_item(g, p);
    find_live(g, live);
    return x.rule >= 0 && live[x.rule] ? x : any_item(g, 0);
}

/* The symbol ahead, or 0. */
static unsigned ahead_of(const struct grammar *g, unsigned p)
{
    struct item x = item_of(g, p);
    return x.rule >= 0 && x.dot < x.k ? x.codes[x.dot] : 0;
}

static int is_terminal(unsigned code)
{
    return code >= 1 && code < START;
}

static int opens(const struct grammar *g, unsigned p, unsigned r)
{
    if (p == 0 || r < 4)
        return p == 0 && r == 2 && item_of(g, r).rule == 0;
    struct item y = item_of(g, r);
    return ahead_of(g, p) >= START && y.dot == 0 && y.left == ahead_of(g, p);
}

static int closes(const struct grammar *g, unsigned p, unsigned r)
{
    if (p == 3 || r < 2)
        return p == 3 && r == 1 && item_of(g, p).rule == 0;
    struct item x = item_of(g, p), y = item_of(g, r);
    return x.rule > 0 && x.dot == x.k && y.dot > 0 && y.codes[y.dot - 1] == x.left;
}

static int is_successor(const struct grammar *g, unsigned from, unsigned to)
{
    unsigned states = g->states, square = states * states;
    unsigned f = from / square, p = from / states % states, q = from % states;
    unsigned e = to / square, r = to / states % states, s = to % states;
    unsigned x = ahead_of(g, p), y = ahead_of(g, q);
    int both = x != 0 && x == y && r == p + 1 && s == q + 1;
    if (f == 0 && e == 0)
        return (opens(g, p, r) && s == q) || (opens(g, q, s) && r == p) || both;
    if (f == 0 && e == 1)
        return (closes(g, p, r) && closes(g, q, s) && item_of(g, p).rule != item_of(g, q).rule) ||
               (closes(g, p, r) && s == q && is_terminal(y)) || (closes(g, q, s) && r == p && is_terminal(x));
    if (f == 1 && e == 1)
        return ((opens(g, p, r) || closes(g, p, r)) && s == q) || ((opens(g, q, s) || closes(g, q, s)) && r == p) ||
               (both && is_terminal(x));
    return 0;
}

static inline int is_witness(const struct grammar *g, const uint32_t *row, size_t entries)
{
    unsigned square = g->states * g->states;
    for (size_t i = 0; i < entries; i++)
        if (row[i] >= 2 * square || (i > 0 && !is_successor(g, row[i - 1], row[i])))
            return 0;
    return entries > 0 && row[0] == 0 && row[entries - 1] == square + g->states + 1;
}

#endif
