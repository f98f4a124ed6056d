/* The trees of one sentence in plain C: the baseline of the benchmark.
 *
 * A chart over items, column by column. Column j has a word for each item: bit i is set if what follows the dot derives the terminals
 * from i to j. Each place i has a word for each nonterminal: bit j - 1 is set if it derives them. 64 terminals just fit. So a nonterminal
 * and what follows it meet somewhere between if two words have a bit in common; second words have the bits of what is derived in two
 * ways or more. Counts end at 2.
 *
 * What derives the empty row is counted beforehand. From then on a count of a span depends on others of the same span only where
 * all else may be empty, and then it is their sum: a stack of rises carries them on, each count rises at most twice, and where rules
 * go in a circle it ends at 2 by itself. Of a column only items are looked at of which something is counted there.
 */
#include <stdlib.h>

#include "chart.h"

enum { NO_HEAD = MAX_RULES, SEVERAL = 2 };

/* What stands before an item's dot: nothing, a terminal, a nonterminal, or a nonterminal without rules. */
enum kind { FRONT, PAST_TERMINAL, PAST_HEAD, PAST_NOTHING };

/* head: the number of the nonterminal before the dot, in front that of the left side. code: the symbol ahead, or 0. next: another item
 * before the same symbol which only what may be empty follows, or 0. empty: in how many ways what follows the dot derives nothing. */
struct item {
    uint16_t code, head, next;
    uint8_t kind, empty;
};

struct rise {
    uint16_t item, by;
};

/* Nonterminals with rules are heads, and have numbers. Rules have theirs from 1, and the lists of a head's rules end with 0. */
struct chart {
    const struct grammar *g;
    const uint16_t *row;
    unsigned length, heads;
    struct item item[MAX_STATES];
    uint16_t number[MAX_NONTERMINALS], begin[MAX_RULES + 1], first[MAX_RULES], other[MAX_RULES + 1];
    uint16_t past_terminal[MAX_TERMINALS + 1], past_head[MAX_RULES]; /* by symbol, where its list of `next` begins */
    uint8_t empty[MAX_RULES];

    uint64_t *some, *two;           /* by place and head */
    uint64_t *rest;                 /* by column and item */
    uint64_t rest_two[MAX_STATES]; /* in this column */

    /* in this span */
    uint8_t ways[MAX_STATES], whole[MAX_RULES];
    uint16_t found[MAX_STATES], found_heads[MAX_RULES];
    struct rise stack[2 * MAX_STATES];
    size_t items_found, heads_found, depth;
};

static inline unsigned capped(unsigned ways)
{
    return ways < SEVERAL ? ways : SEVERAL;
}

static void *allocated(void *memory)
{
    if (memory == NULL)
        abort();
    return memory;
}

static unsigned head_of(const struct chart *c, unsigned code)
{
    return code >= START ? c->number[code - START] : NO_HEAD;
}

static void number_heads(struct chart *c)
{
    const struct grammar *g = c->g;
    c->heads = 0;
    for (unsigned b = 0; b < g->n; b++)
        c->number[b] = NO_HEAD;
    for (unsigned i = g->rules; i > 0; i--) {
        uint16_t *number = &c->number[g->rule[i - 1][0] - START];
        if (*number == NO_HEAD) {
            *number = (uint16_t)c->heads;
            c->first[c->heads++] = 0;
        }
        c->other[i] = c->first[*number];
        c->first[*number] = (uint16_t)i;
    }
}

static void lay_items(struct chart *c)
{
    unsigned p = 4;
    for (unsigned i = 1; i <= c->g->rules; i++) {
        const uint16_t *rule = c->g->rule[i - 1];
        c->begin[i] = (uint16_t)p;
        c->item[p] = (struct item){0, (uint16_t)head_of(c, rule[0]), 0, FRONT, 0};
        for (unsigned d = 0; d < rule[1]; d++, p++) {
            unsigned code = rule[2 + d], head = head_of(c, code);
            enum kind kind = code < START ? PAST_TERMINAL : head == NO_HEAD ? PAST_NOTHING : PAST_HEAD;
            c->item[p].code = (uint16_t)code;
            c->item[p + 1] = (struct item){0, (uint16_t)head, 0, (uint8_t)kind, 0};
        }
        c->item[p++].empty = 1;
    }
}

/* Passes over the rules, from the last to the first, count what derives the empty row until one counts nothing more. */
static void count_empty(struct chart *c)
{
    const struct grammar *g = c->g;
    int fresh = 0;
    memset(c->empty, 0, c->heads);
    for (unsigned i = 1; i <= g->rules; i++)
        if (g->rule[i - 1][1] == 0)
            fresh = c->empty[c->item[c->begin[i]].head] = 1;
    while (fresh) {
        fresh = 0;
        for (unsigned i = g->rules; i > 0; i--) {
            unsigned begin = c->begin[i], p = begin + g->rule[i - 1][1], old = c->item[begin].empty;
            if (p == begin)
                continue;
            for (; p > begin && c->item[p].kind == PAST_HEAD && c->item[p].empty != 0; p--)
                c->item[p - 1].empty = (uint8_t)capped(c->item[p].empty * c->empty[c->item[p].head]);
            if (p == begin && c->item[begin].empty > old) {
                uint8_t *empty = &c->empty[c->item[begin].head];
                *empty = (uint8_t)capped(*empty + c->item[begin].empty - old);
                fresh = 1;
            }
        }
    }
}

/* The items that only what may be empty follows past the next symbol, in lists by that symbol. */
static void link_items(struct chart *c)
{
    memset(c->past_terminal, 0, (c->g->t + 1) * sizeof *c->past_terminal);
    memset(c->past_head, 0, c->heads * sizeof *c->past_head);
    for (unsigned p = 4; p < c->g->states; p++) {
        struct item *item = &c->item[p];
        if (item->code == 0 || item[1].empty == 0 || item[1].kind == PAST_NOTHING)
            continue;
        uint16_t *list = item->code < START ? &c->past_terminal[item->code] : &c->past_head[item[1].head];
        item->next = *list;
        *list = (uint16_t)p;
    }
}

static inline void raise(struct chart *c, unsigned p, unsigned by)
{
    unsigned old = c->ways[p], ways = capped(old + by);
    if (ways == old)
        return;
    if (old == 0)
        c->found[c->items_found++] = (uint16_t)p;
    c->ways[p] = (uint8_t)ways;
    c->stack[c->depth++] = (struct rise){(uint16_t)p, (uint16_t)(ways - old)};
}

/* The symbol of a list derives the span in so many ways more. */
static inline void raise_all(struct chart *c, unsigned list, unsigned by)
{
    for (unsigned p = list; p != 0; p = c->item[p].next)
        raise(c, p, by * c->item[p + 1].empty);
}

/* Carries the rises on, to the item before where the symbol between may be empty, and from an item in front to the left side. */
static void settle(struct chart *c)
{
    while (c->depth > 0) {
        struct rise rise = c->stack[--c->depth];
        const struct item *item = &c->item[rise.item];
        unsigned head = item->head;
        if (item->kind == PAST_HEAD && c->empty[head] != 0)
            raise(c, rise.item - 1u, rise.by * c->empty[head]);
        if (item->kind == FRONT) {
            unsigned old = c->whole[head], ways = capped(old + rise.by);
            if (ways == old)
                continue;
            if (old == 0)
                c->found_heads[c->heads_found++] = (uint16_t)head;
            c->whole[head] = (uint8_t)ways;
            raise_all(c, c->past_head[head], ways - old);
        }
    }
}

/* The spans that end at j, the shortest first. `waiting` are the items past a nonterminal of which something is counted in the column,
 * `carried` those that get over a terminal to the next span. */
static void fill_column(struct chart *c, unsigned j)
{
    uint16_t waiting[MAX_STATES];
    struct rise carried[MAX_STATES];
    size_t waits = 0, carries = 0;
    uint64_t *rest = c->rest + (size_t)(j - 1) * c->g->states;
    memset(c->rest_two, 0, c->g->states * sizeof *c->rest_two);
    raise_all(c, c->past_terminal[c->row[j - 1]], 1);
    for (unsigned i = j; i-- > 0;) {
        uint64_t *some = c->some + (size_t)i * c->heads, *two = c->two + (size_t)i * c->heads, bit = (uint64_t)1 << i;
        for (size_t k = 0; k < carries; k++)
            raise(c, carried[k].item, carried[k].by);
        for (size_t k = 0; k < waits; k++) {
            unsigned p = waiting[k], head = c->item[p].head;
            uint64_t both = some[head] << 1 & rest[p];
            if (both != 0)
                raise(c, p - 1, both & (both - 1) || both & (two[head] << 1 | c->rest_two[p]) ? SEVERAL : 1);
        }
        settle(c);
        carries = 0;
        for (size_t k = 0; k < c->items_found; k++) {
            unsigned p = c->found[k], ways = c->ways[p];
            if (c->item[p].kind == PAST_HEAD && rest[p] == 0)
                waiting[waits++] = (uint16_t)p;
            if (c->item[p].kind == PAST_TERMINAL && i > 0 && c->item[p - 1].code == c->row[i - 1])
                carried[carries++] = (struct rise){(uint16_t)(p - 1), (uint16_t)ways};
            rest[p] |= bit;
            c->rest_two[p] |= ways == SEVERAL ? bit : 0;
            c->ways[p] = 0;
        }
        for (size_t k = 0; k < c->heads_found; k++) {
            unsigned head = c->found_heads[k];
            some[head] |= (uint64_t)1 << (j - 1);
            two[head] |= (uint64_t)(c->whole[head] == SEVERAL) << (j - 1);
            c->whole[head] = 0;
        }
        c->items_found = c->heads_found = 0;
    }
}

/* Does what follows an item's dot derive the terminals from i to j? */
static int derives(const struct chart *c, unsigned p, unsigned i, unsigned j)
{
    return i == j ? c->item[p].empty != 0 : c->rest[(size_t)(j - 1) * c->g->states + p] >> i & 1;
}

/* Where the nonterminal ahead of an item ends, if it and what follows it derive the terminals from i to j in one way. */
static unsigned parting(const struct chart *c, unsigned p, unsigned i, unsigned j)
{
    unsigned head = c->item[p + 1].head;
    if (c->empty[head] != 0 && derives(c, p + 1, i, j))
        return i;
    uint64_t some = c->some[(size_t)i * c->heads + head];
    if (some >> (j - 1) & 1 && c->item[p + 1].empty != 0)
        return j;
    return (unsigned)__builtin_ctzll(some << 1 & c->rest[(size_t)(j - 1) * c->g->states + p + 1]);
}

/* An item, and the terminals that are left for what follows its dot. */
struct frame {
    uint16_t item;
    uint8_t from, to;
};

/* The rules of the one tree from the root, children left to right, in memory of its own; at most one more than so many. */
static size_t read_rules(const struct chart *c, uint16_t **rules, size_t most)
{
    size_t count = 0, room = 256, depth = 0, deepest = 256;
    uint16_t *list = allocated(malloc(room * sizeof *list));
    struct frame *stack = allocated(malloc(deepest * sizeof *stack));
    unsigned head = c->number[0], i = 0, j = c->length;
    for (;;) {
        unsigned rule = c->first[head];
        while (!derives(c, c->begin[rule], i, j))
            rule = c->other[rule];
        if (count == room)
            list = allocated(realloc(list, (room *= 2) * sizeof *list));
        list[count++] = (uint16_t)rule;
        if (count > most)
            break;
        unsigned p = c->begin[rule];
        for (;;) {
            if (c->item[p].code == 0) {
                if (depth == 0)
                    goto done;
                struct frame back = stack[--depth];
                p = back.item;
                i = back.from;
                j = back.to;
            } else if (c->item[p].code < START) {
                p++;
                i++;
            } else {
                break;
            }
        }
        unsigned k = parting(c, p, i, j);
        if (c->item[p + 1].code != 0) {
            if (depth == deepest)
                stack = allocated(realloc(stack, (deepest *= 2) * sizeof *stack));
            stack[depth++] = (struct frame){(uint16_t)(p + 1), (uint8_t)k, (uint8_t)j};
        }
        head = c->item[p + 1].head;
        j = k;
    }
done:
    free(stack);
    *rules = list;
    return count;
}

/* The chart in words that are all 0 before; in how many ways the row is derived. */
static unsigned fill(struct chart *c)
{
    c->items_found = c->heads_found = c->depth = 0;
    memset(c->ways, 0, c->g->states);
    memset(c->whole, 0, c->heads);
    for (unsigned j = 1; j <= c->length; j++)
        fill_column(c, j);
    unsigned start = c->number[0], last = c->length - 1;
    if (c->length == 0)
        return c->empty[start];
    return (unsigned)((c->some[start] >> last & 1) + (c->two[start] >> last & 1));
}

static trees_reply refused(uint64_t cause, uint64_t at)
{
    return (trees_reply){cause, at, REFUSED, 0};
}

static trees_reply answered(struct chart *c, uint16_t *list, size_t list_len)
{
    unsigned ways = fill(c);
    if (ways != 1)
        return (trees_reply){0, 0, ways == 0 ? NO_TREE : SEVERAL_TREES, 0};
    uint16_t *rules;
    size_t count = read_rules(c, &rules, list_len);
    if (count <= list_len)
        memcpy(list, rules, count * sizeof *list);
    free(rules);
    return count <= list_len ? (trees_reply){0, 0, ONE_TREE, count} : refused(14, 0);
}

static inline trees_reply trees(size_t t, size_t n, const uint16_t *table, size_t table_len, const uint16_t *row, size_t row_len,
                                uint32_t *work, size_t work_len, uint16_t *list, size_t list_len, int clears)
{
    struct grammar g;
    struct chart c;
    check_reply checked = check_table(t, n, table, table_len, &g);
    if (checked.cause != 0)
        return refused(checked.cause, checked.at);
    for (size_t i = 0; i < row_len; i++)
        if (i == MAX_ROW || row[i] < 1 || row[i] > t)
            return refused(22, i);
    size_t cells = (size_t)PLACES * PLACES * g.states;
    if (work_len < cells)
        return refused(14, 0);
    c.g = &g;
    c.row = row;
    c.length = (unsigned)row_len;
    number_heads(&c);
    lay_items(&c);
    count_empty(&c);
    link_items(&c);
    uint64_t *words = allocated(calloc(c.length * (g.states + 2 * (size_t)c.heads) + 1, sizeof *words));
    c.rest = words;
    c.some = c.rest + (size_t)c.length * g.states;
    c.two = c.some + (size_t)c.length * c.heads;
    trees_reply reply = answered(&c, list, list_len);
    free(words);
    if (clears)
        memset(work, 0, cells * sizeof *work);
    return reply;
}

trees_reply plain_trees(size_t t, size_t n, const uint16_t *table, size_t table_len, const uint16_t *row, size_t row_len, uint32_t *work,
                        size_t work_len, uint16_t *list, size_t list_len)
{
    return trees(t, n, table, table_len, row, row_len, work, work_len, list, list_len, 1);
}

trees_reply plain_trees_bare(size_t t, size_t n, const uint16_t *table, size_t table_len, const uint16_t *row, size_t row_len,
                             uint32_t *work, size_t work_len, uint16_t *list, size_t list_len)
{
    return trees(t, n, table, table_len, row, row_len, work, work_len, list, list_len, 0);
}
