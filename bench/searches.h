/* What the searches and certificate checks of this folder answer, and what they share: document 02's limits, the causes of
 * refusal that they meet, the table check, and which rules some sentence uses. */
#ifndef SEARCHES_H
#define SEARCHES_H

#include <stddef.h>
#include <stdint.h>
#include <string.h>

enum { MAX_TERMINALS = 2000, MAX_NONTERMINALS = 2000, START = 32768, MAX_LENGTH = 12, MAX_RULES = 400, MAX_STATES = 1024 };
enum { MAX_CALLERS = 2 };

enum { REFUSED = 0, UNAMBIGUOUS = 1, POTENTIAL = 2 };

/* cause 0: not refused. count: the size of the smallest set, or the witness's number of entries. looked: the number of successors of
 * all triples reached, each choice of moves counted; 0 with a refusal, and from plain_search, which does not finish the set. */
typedef struct {
    uint64_t cause, at, verdict, count, looked;
} search_reply;

/* cause 0: accepted. */
typedef struct {
    uint64_t cause, at;
} check_reply;

/* callers: how many callers a state remembers. */
typedef search_reply search_function(size_t t, size_t n, const uint16_t *table, size_t table_len, size_t callers,
                                     uint8_t *certificate, size_t certificate_len, uint32_t *queue, size_t queue_len,
                                     uint32_t *parents, size_t parents_len, uint32_t *witness, size_t witness_len);

typedef check_reply check_function(size_t t, size_t n, const uint16_t *table, size_t table_len, size_t callers,
                                   const uint8_t *certificate, size_t certificate_len);

struct grammar;

/* plain.c: plain_search stops when it finds (1,1,1), plain_search_whole finishes the set first; plain_reached is the set's size.
 * plain_largest writes the largest closed set without (1,1,1), which is a certificate if (0,0,0) is in it, and tells its size. */
search_function plain_search, plain_search_whole;
check_function plain_check;
size_t plain_reached(const struct grammar *g, size_t callers, uint32_t *queue, uint32_t *parents);
size_t plain_largest(const struct grammar *g, size_t callers, uint8_t *certificate, uint32_t *queue);

/* same.c */
search_function same_search;
check_function same_check;

/* A checked table: each rule is its left code, its length and its codes. By nonterminal whether it has a finite tree. */
struct grammar {
    unsigned t, n, rules, states;
    const uint16_t *rule[MAX_RULES];
    uint8_t has_tree[MAX_NONTERMINALS];
};

static inline search_reply search_refused(uint64_t cause, uint64_t at)
{
    return (search_reply){cause, at, REFUSED, 0, 0};
}

static inline int is_declared(unsigned t, unsigned n, unsigned code)
{
    return (code >= 1 && code <= t) || (code >= START && code < START + n);
}

static inline int is_repeated(const struct grammar *g, const uint16_t *rule)
{
    for (unsigned i = 0; i < g->rules; i++) {
        const uint16_t *earlier = g->rule[i];
        if (earlier[0] == rule[0] && earlier[1] == rule[1] && memcmp(earlier + 2, rule + 2, rule[1] * sizeof *rule) == 0)
            return 1;
    }
    return 0;
}

/* Is every nonterminal of a right side marked? */
static inline int all_marked(const uint8_t *marks, const uint16_t *rule)
{
    for (unsigned d = 0; d < rule[1]; d++)
        if (rule[2 + d] >= START && !marks[rule[2 + d] - START])
            return 0;
    return 1;
}

/* Passes over the rules, from the last to the first, mark what has a tree until one marks nothing. */
static inline void find_trees(struct grammar *g)
{
    memset(g->has_tree, 0, g->n);
    for (int fresh = 1; fresh;) {
        fresh = 0;
        for (unsigned i = g->rules; i-- > 0;) {
            const uint16_t *rule = g->rule[i];
            if (!g->has_tree[rule[0] - START] && all_marked(g->has_tree, rule))
                fresh = g->has_tree[rule[0] - START] = 1;
        }
    }
}

/* Causes 1 to 8, in document 01's order, then 19. */
static inline check_reply check_table(size_t t, size_t n, const uint16_t *table, size_t table_len, struct grammar *g)
{
    if (t > MAX_TERMINALS || n < 1 || n > MAX_NONTERMINALS)
        return (check_reply){1, 0};
    g->t = (unsigned)t;
    g->n = (unsigned)n;
    g->rules = 0;
    g->states = 4;
    for (size_t at = 0; at < table_len;) {
        const uint16_t *rule = table + at;
        if (g->rules == MAX_RULES)
            return (check_reply){7, at};
        if (table_len - at < 2)
            return (check_reply){2, at};
        if (rule[0] < START || rule[0] >= START + n)
            return (check_reply){3, at};
        unsigned k = rule[1];
        if (k > MAX_LENGTH)
            return (check_reply){4, at};
        if (table_len - at - 2 < k)
            return (check_reply){2, at};
        for (unsigned i = 0; i < k; i++)
            if (!is_declared(g->t, g->n, rule[2 + i]))
                return (check_reply){5, at + 2 + i};
        if (is_repeated(g, rule))
            return (check_reply){6, at};
        if (g->states + k + 1 > MAX_STATES)
            return (check_reply){8, at};
        g->rule[g->rules++] = rule;
        g->states += k + 1;
        at += 2 + k;
    }
    find_trees(g);
    return (check_reply){g->has_tree[0] ? 0 : 19, 0};
}

/* By number whether some sentence uses a rule. Rule 0 is used, for S has a tree. Passes over the rules, from the first to the last,
 * mark what S reaches through rules that can stand in a tree. */
static inline void find_live(const struct grammar *g, uint8_t *live)
{
    uint8_t is_reached[MAX_NONTERMINALS];
    memset(is_reached, 0, g->n);
    is_reached[0] = 1;
    for (int fresh = 1; fresh;) {
        fresh = 0;
        for (unsigned i = 0; i < g->rules; i++) {
            const uint16_t *rule = g->rule[i];
            if (!is_reached[rule[0] - START] || !all_marked(g->has_tree, rule))
                continue;
            for (unsigned d = 0; d < rule[1]; d++)
                if (rule[2 + d] >= START && !is_reached[rule[2 + d] - START])
                    fresh = is_reached[rule[2 + d] - START] = 1;
        }
    }
    live[0] = 1;
    for (unsigned i = 0; i < g->rules; i++)
        live[i + 1] = is_reached[g->rule[i][0] - START] && all_marked(g->has_tree, g->rule[i]);
}

/* Of a grammar whose states remember callers: the rules that some sentence uses, by nonterminal how many chains of callers its rules
 * have, with so many callers and with one less, and Q. Rule 0 has one chain, the empty one. */
struct chains {
    uint8_t live[MAX_RULES + 1];
    size_t narrow[MAX_NONTERMINALS], wide[MAX_NONTERMINALS], states;
};

/* The chains with one caller more: one for each place before the nonterminal and each chain of the rule that has this place. */
static inline void add_caller(const struct grammar *g, struct chains *c, const size_t *fewer, size_t *more)
{
    memset(more, 0, g->n * sizeof *more);
    more[0] = 1;
    for (unsigned i = 0; i < g->rules; i++) {
        const uint16_t *rule = g->rule[i];
        for (unsigned d = 0; d < rule[1] && c->live[i + 1]; d++)
            if (rule[2 + d] >= START)
                more[rule[2 + d] - START] += fewer[rule[0] - START];
    }
}

/* What comes between 19 and the causes of certificates and rows: 21 at 0 for too many callers, 8 at 0 for too many chains. At 0 callers
 * nothing is counted but Q. */
static inline check_reply check_callers(const struct grammar *g, size_t callers, struct chains *c)
{
    c->states = g->states;
    if (callers > MAX_CALLERS)
        return (check_reply){21, 0};
    if (callers == 0)
        return (check_reply){0, 0};
    find_live(g, c->live);
    for (unsigned b = 0; b < g->n; b++)
        c->wide[b] = 1;
    for (size_t level = 0; level < callers; level++) {
        memcpy(c->narrow, c->wide, g->n * sizeof *c->wide);
        add_caller(g, c, c->narrow, c->wide);
    }
    c->states = 4;
    for (unsigned i = 0; i < g->rules; i++)
        if (c->live[i + 1])
            c->states += (g->rule[i][1] + 1u) * c->wide[g->rule[i][0] - START];
    return (check_reply){c->states > MAX_STATES ? 8 : 0, 0};
}

#endif
