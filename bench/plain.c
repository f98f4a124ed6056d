/* The search and the certificate check in plain C: the baseline of the benchmark.
 *
 * Breadth first over triples, one successor at a time: a bit for each triple that was seen, the queue first in first out, the
 * parent of each triple at its index. The states that a state can move to stand in a row, one part of it for each nonterminal's
 * openings and closings, so that no move is searched for. Queue entries are packed, so that the loop does not divide.
 */
#include "searches.h"

enum kind { STAYS, OPENS, CLOSES, READS };

/* What a state does: where its targets stand, the symbol ahead or 0, and the rule that it is in. */
struct state {
    uint16_t from, to, ahead, rule, kind;
};

/* A state is a target of at most one class, so the row has at most one entry for each. after: the state past the symbol ahead, where
 * callers are remembered; else it is the next one. */
struct moves {
    struct state state[MAX_STATES];
    uint16_t targets[MAX_STATES];
    uint16_t after[MAX_STATES];
};

/* Counting sort: the openings of each nonterminal, its dot-0 items; then its closings, the items just past it. Rules that no
 * sentence uses have no moves, and nothing leads to them. */
static void build(const struct grammar *g, struct moves *m)
{
    uint16_t opens[MAX_NONTERMINALS + 1], closes[MAX_NONTERMINALS];
    uint16_t opens_at[MAX_NONTERMINALS], closes_at[MAX_NONTERMINALS];
    uint8_t live[MAX_RULES + 1];

    find_live(g, live);
    memset(opens, 0, g->n * sizeof *opens);
    memset(closes, 0, g->n * sizeof *closes);
    for (unsigned i = 0; i < g->rules; i++) {
        const uint16_t *rule = g->rule[i];
        if (!live[i + 1])
            continue;
        opens[rule[0] - START]++;
        for (unsigned d = 0; d < rule[1]; d++)
            if (rule[2 + d] >= START)
                closes[rule[2 + d] - START]++;
    }
    closes[0]++; /* S' -> S */

    m->targets[0] = 2;
    m->targets[1] = 1;
    unsigned next = 2;
    unsigned b = 0;
    do {
        unsigned count = opens[b];
        opens_at[b] = opens[b] = (uint16_t)next;
        next += count;
        count = closes[b];
        closes_at[b] = closes[b] = (uint16_t)next;
        next += count;
    } while (++b < g->n);
    opens[g->n] = (uint16_t)next;

    m->targets[closes_at[0]++] = 3;
    unsigned p = 4;
    for (unsigned i = 0; i < g->rules; i++) {
        const uint16_t *rule = g->rule[i];
        if (!live[i + 1]) {
            for (unsigned end = p + rule[1]; p <= end; p++)
                m->state[p] = (struct state){0, 0, 0, (uint16_t)(i + 1), STAYS};
            continue;
        }
        m->targets[opens_at[rule[0] - START]++] = (uint16_t)p;
        for (unsigned d = 0; d < rule[1]; d++, p++) {
            unsigned x = rule[2 + d];
            if (x >= START) {
                m->targets[closes_at[x - START]++] = (uint16_t)(p + 1);
                m->state[p] = (struct state){opens[x - START], closes[x - START], (uint16_t)x, (uint16_t)(i + 1), OPENS};
            } else {
                m->state[p] = (struct state){0, 0, (uint16_t)x, (uint16_t)(i + 1), READS};
            }
        }
        b = rule[0] - START;
        m->state[p++] = (struct state){closes[b], opens[b + 1], 0, (uint16_t)(i + 1), CLOSES};
    }
    m->state[0] = (struct state){0, 1, 0, 0, OPENS};
    m->state[1] = (struct state){0, 0, 0, 0, STAYS};
    m->state[2] = (struct state){opens[0], closes[0], START, 0, OPENS};
    m->state[3] = (struct state){1, 2, 0, 0, CLOSES};
}

/* Where callers are remembered: of each rule its first state; of each nonterminal its rules, ascending, by their numbers and 0 at the
 * end; and how many chains of callers begin with each chain that has one caller less, in its order. */
struct layout {
    uint16_t begin[MAX_RULES + 1], first[MAX_NONTERMINALS], next[MAX_RULES + 1];
    uint16_t shares[MAX_NONTERMINALS + MAX_STATES], shares_at[MAX_NONTERMINALS];
};

static void lay(const struct grammar *g, size_t callers, const struct chains *c, struct layout *l)
{
    uint16_t filled[MAX_NONTERMINALS];
    unsigned at = 0;
    memset(l->first, 0, g->n * sizeof *l->first);
    for (unsigned i = g->rules; i > 0; i--)
        if (c->live[i]) {
            l->next[i] = l->first[g->rule[i - 1][0] - START];
            l->first[g->rule[i - 1][0] - START] = (uint16_t)i;
        }
    unsigned b = 0;
    do {
        l->shares_at[b] = filled[b] = (uint16_t)at;
        if (callers == 1)
            l->shares[at] = (uint16_t)c->wide[b];
        at += (unsigned)c->narrow[b];
    } while (++b < g->n);
    if (callers == 2)
        l->shares[filled[0]++] = 1; /* S' -> S */
    l->begin[0] = 2;
    at = 4;
    for (unsigned i = 1; i <= g->rules; i++) {
        const uint16_t *rule = g->rule[i - 1];
        if (!c->live[i])
            continue;
        l->begin[i] = (uint16_t)at;
        at += (rule[1] + 1u) * (unsigned)c->wide[rule[0] - START];
        for (unsigned d = 0; d < rule[1] && callers == 2; d++)
            if (rule[2 + d] >= START)
                l->shares[filled[rule[2 + d] - START]++] = (uint16_t)c->narrow[rule[0] - START];
    }
}

/* The states of a rule lie dot by dot, at each dot one for each chain of its callers, in the order of the calling items. What leads
 * where goes by places: an item before a nonterminal, with one caller less than a state has. States that have it in front open one
 * state of each rule of the nonterminal, since it is the nearest caller there; these rules' ends close past the nonterminal, to all
 * chains that begin with the place's callers. */
static void build_chains(const struct grammar *g, size_t callers, const struct chains *c, struct moves *m)
{
    static const uint16_t rule_0[] = {START, 1, START}, one = 1;
    struct layout l;
    uint16_t ranks[MAX_NONTERMINALS];
    unsigned next = 2;
    lay(g, callers, c, &l);
    memset(ranks, 0, g->n * sizeof *ranks);
    m->targets[0] = 2;
    m->targets[1] = 1;
    m->state[0] = (struct state){0, 1, 0, 0, OPENS};
    m->state[1] = (struct state){0, 0, 0, 0, STAYS};
    m->state[3] = (struct state){1, 2, 0, 0, CLOSES};
    for (unsigned i = 0; i <= g->rules; i++) {
        if (!c->live[i])
            continue;
        const uint16_t *rule = i == 0 ? rule_0 : g->rule[i - 1], *shares = i == 0 ? &one : l.shares + l.shares_at[rule[0] - START];
        unsigned narrow = i == 0 ? 1 : (unsigned)c->narrow[rule[0] - START], wide = i == 0 ? 1 : (unsigned)c->wide[rule[0] - START];
        unsigned p = l.begin[i];
        for (unsigned d = 0; d < rule[1]; d++) {
            unsigned x = rule[2 + d], end = p + wide;
            for (unsigned s = p; s < end; s++)
                m->after[s] = (uint16_t)(s + wide);
            if (x < START) {
                for (; p < end; p++)
                    m->state[p] = (struct state){0, 0, (uint16_t)x, (uint16_t)i, READS};
                continue;
            }
            for (unsigned r = 0; r < narrow; r++) {
                unsigned opens = next, rank = ranks[x - START]++, share = shares[r];
                for (unsigned j = l.first[x - START]; j != 0; j = l.next[j])
                    m->targets[next++] = (uint16_t)(l.begin[j] + rank);
                unsigned closes = next;
                for (unsigned s = 0; s < share; s++, p++) {
                    m->targets[next++] = (uint16_t)(p + wide);
                    m->state[p] = (struct state){(uint16_t)opens, (uint16_t)closes, (uint16_t)x, (uint16_t)i, OPENS};
                }
                for (unsigned j = l.first[x - START]; j != 0; j = l.next[j]) {
                    unsigned last = l.begin[j] + g->rule[j - 1][1] * (unsigned)c->wide[x - START] + rank;
                    m->state[last] = (struct state){(uint16_t)closes, (uint16_t)next, 0, (uint16_t)j, CLOSES};
                }
            }
        }
    }
}

/* With callers: 21, 8, or the moves and how many states there are. Apart, so that what is timed without callers is what it was. */
static __attribute__((noinline)) check_reply remember(const struct grammar *g, size_t callers, struct moves *m, size_t *states)
{
    struct chains c;
    check_reply checked = check_callers(g, callers, &c);
    *states = c.states;
    if (checked.cause == 0)
        build_chains(g, callers, &c, m);
    return checked;
}

/* For functions that are compiled twice, with callers and without: `far` is constant in each. */
#define TWICE static inline __attribute__((always_inline))

static inline int is_seen(const uint64_t *seen, size_t index)
{
    return seen[index / 64] >> (index % 64) & 1;
}

static inline uint32_t packed(unsigned f, unsigned p, unsigned q)
{
    return f << 20 | p << 10 | q;
}

/* One successor: if it was not seen, it goes to the queue's end. */
static inline size_t find(uint64_t *restrict seen, uint32_t *restrict queue, uint32_t *restrict parents, size_t tail,
                          size_t index, uint32_t triple, uint32_t from)
{
    uint64_t bit = (uint64_t)1 << (index % 64);
    if (seen[index / 64] & bit)
        return tail;
    seen[index / 64] |= bit;
    parents[index] = from;
    queue[tail] = triple;
    return tail + 1;
}

/* Explores until nothing is left, or, if `stops`, until (1,1,1) is seen; the number of triples that are seen then. Unless it stops, the
 * successors are counted. far: callers are remembered, so that the state past a symbol is not the next one. */
TWICE size_t explore(const struct moves *restrict m, size_t states, uint64_t *restrict seen, uint32_t *restrict queue,
                     uint32_t *restrict parents, int stops, int far, uint64_t *restrict looked)
{
    uint64_t tried = 0;
    const uint16_t *targets = m->targets;
    size_t square = states * states, goal = square + states + 1;
    size_t head = 0, tail = 1;
    queue[0] = 0;
    seen[0] = 1;
    while (head < tail) {
        uint32_t triple = queue[head++];
        unsigned f = triple >> 20, p = triple >> 10 & 1023, q = triple & 1023;
        const struct state *a = &m->state[p], *b = &m->state[q];
        uint32_t from = (uint32_t)(f * square + p * states + q);
        int left = a->kind == OPENS, right = b->kind == OPENS; /* moves alone, and the layer that it leads to */
        unsigned left_f = f, right_f = f;
        if (f == 1) {
            left = right = 1;
        } else {
            if (a->kind == CLOSES && b->kind == READS)
                left = left_f = 1;
            if (b->kind == CLOSES && a->kind == READS)
                right = right_f = 1;
            if (a->kind == CLOSES && b->kind == CLOSES && a->rule != b->rule) {
                tried += (unsigned)(a->to - a->from) * (unsigned)(b->to - b->from);
                for (unsigned i = a->from; i < a->to; i++)
                    for (unsigned j = b->from; j < b->to; j++)
                        tail = find(seen, queue, parents, tail, square + targets[i] * states + targets[j],
                                    packed(1, targets[i], targets[j]), from);
            }
        }
        tried += (left ? (unsigned)(a->to - a->from) : 0) + (right ? (unsigned)(b->to - b->from) : 0);
        if (left)
            for (unsigned i = a->from; i < a->to; i++)
                tail = find(seen, queue, parents, tail, left_f * square + targets[i] * states + q,
                            packed(left_f, targets[i], q), from);
        if (right)
            for (unsigned j = b->from; j < b->to; j++)
                tail = find(seen, queue, parents, tail, right_f * square + p * states + targets[j],
                            packed(right_f, p, targets[j]), from);
        if (a->ahead != 0 && a->ahead == b->ahead && (f == 0 || a->kind == READS)) {
            unsigned r = far ? m->after[p] : p + 1, s = far ? m->after[q] : q + 1;
            tried++;
            tail = find(seen, queue, parents, tail, far ? f * square + r * states + s : from + states + 1, packed(f, r, s), from);
        }
        if (stops && is_seen(seen, goal))
            break;
    }
    *looked = stops ? 0 : tried;
    return tail;
}

TWICE search_reply search(size_t t, size_t n, const uint16_t *table, size_t table_len, size_t callers, uint8_t *certificate,
                          size_t certificate_len, uint32_t *queue, size_t queue_len, uint32_t *parents, size_t parents_len,
                          uint32_t *witness, size_t witness_len, int stops, int far)
{
    struct grammar g;
    struct moves m;
    check_reply checked = check_table(t, n, table, table_len, &g);
    size_t states = g.states;
    if (far && checked.cause == 0)
        checked = remember(&g, callers, &m, &states);
    if (checked.cause != 0)
        return search_refused(checked.cause, checked.at);
    size_t square = states * states, count = 2 * square, bytes = (count + 7) / 8;
    if (certificate_len < bytes || queue_len < count || parents_len < count || witness_len < count)
        return search_refused(14, 0);
    if (!far)
        build(&g, &m);
    uint64_t seen[2 * MAX_STATES * MAX_STATES / 64];
    memset(seen, 0, (count + 63) / 64 * 8);
    search_reply reply = {0, 0, UNAMBIGUOUS, 0, 0};
    reply.count = explore(&m, states, seen, queue, parents, stops, far, &reply.looked);
    size_t goal = square + states + 1;
    if (is_seen(seen, goal)) {
        size_t entries = 1;
        for (size_t at = goal; at != 0; at = parents[at])
            entries++;
        size_t at = goal;
        for (size_t k = entries; k-- > 0; at = parents[at])
            witness[k] = (uint32_t)at;
        reply.verdict = POTENTIAL;
        reply.count = entries;
    } else {
        memcpy(certificate, seen, bytes);
    }
    memset(queue, 0, count * sizeof *queue);
    memset(parents, 0, count * sizeof *parents);
    return reply;
}

/* One function for each pair of constants. */
#define SEARCH(name, stops, far)                                                                                                       \
    static __attribute__((noinline)) search_reply name(size_t t, size_t n, const uint16_t *table, size_t table_len, size_t callers,    \
                                                       uint8_t *certificate, size_t certificate_len, uint32_t *queue,                  \
                                                       size_t queue_len, uint32_t *parents, size_t parents_len, uint32_t *witness,     \
                                                       size_t witness_len)                                                             \
    {                                                                                                                                  \
        return search(t, n, table, table_len, callers, certificate, certificate_len, queue, queue_len, parents, parents_len, witness,  \
                      witness_len, stops, far);                                                                                        \
    }

SEARCH(search_near, 1, 0)
SEARCH(search_far, 1, 1)
SEARCH(search_near_whole, 0, 0)
SEARCH(search_far_whole, 0, 1)

search_reply plain_search(size_t t, size_t n, const uint16_t *table, size_t table_len, size_t callers, uint8_t *certificate,
                          size_t certificate_len, uint32_t *queue, size_t queue_len, uint32_t *parents, size_t parents_len,
                          uint32_t *witness, size_t witness_len)
{
    search_function *asked = callers == 0 ? search_near : search_far;
    return asked(t, n, table, table_len, callers, certificate, certificate_len, queue, queue_len, parents, parents_len, witness,
                 witness_len);
}

search_reply plain_search_whole(size_t t, size_t n, const uint16_t *table, size_t table_len, size_t callers,
                                uint8_t *certificate, size_t certificate_len, uint32_t *queue, size_t queue_len,
                                uint32_t *parents, size_t parents_len, uint32_t *witness, size_t witness_len)
{
    search_function *asked = callers == 0 ? search_near_whole : search_far_whole;
    return asked(t, n, table, table_len, callers, certificate, certificate_len, queue, queue_len, parents, parents_len, witness,
                 witness_len);
}

/* 0 where the states do not fit. */
size_t plain_reached(const struct grammar *g, size_t callers, uint32_t *queue, uint32_t *parents)
{
    struct moves m;
    size_t states = g->states;
    uint64_t seen[2 * MAX_STATES * MAX_STATES / 64] = {0};
    uint64_t looked;
    if (callers == 0) {
        build(g, &m);
        return explore(&m, states, seen, queue, parents, 0, 0, &looked);
    }
    if (remember(g, callers, &m, &states).cause != 0)
        return 0;
    return explore(&m, states, seen, queue, parents, 0, 1, &looked);
}

static inline int is_held(const uint8_t *certificate, size_t index)
{
    return certificate[index / 8] >> (index % 8) & 1;
}

/* Eight bytes of the certificate as a word, past its end 0. */
static inline uint64_t word_at(const uint8_t *certificate, size_t bytes, size_t at)
{
    uint64_t word = 0;
    if (bytes - at >= 8)
        memcpy(&word, certificate + at, 8);
    else
        memcpy(&word, certificate + at, bytes - at);
    return word;
}

/* Are all successors of a triple held? */
TWICE int is_closed_at(const struct moves *m, size_t states, const uint8_t *certificate, unsigned f, unsigned p, unsigned q,
                       size_t index, int far)
{
    const uint16_t *targets = m->targets;
    size_t square = states * states;
    const struct state *a = &m->state[p], *b = &m->state[q];
    int left = a->kind == OPENS, right = b->kind == OPENS;
    unsigned left_f = f, right_f = f;
    if (f == 1) {
        left = right = 1;
    } else {
        if (a->kind == CLOSES && b->kind == READS)
            left = left_f = 1;
        if (b->kind == CLOSES && a->kind == READS)
            right = right_f = 1;
        if (a->kind == CLOSES && b->kind == CLOSES && a->rule != b->rule)
            for (unsigned i = a->from; i < a->to; i++)
                for (unsigned j = b->from; j < b->to; j++)
                    if (!is_held(certificate, square + targets[i] * states + targets[j]))
                        return 0;
    }
    if (left)
        for (unsigned i = a->from; i < a->to; i++)
            if (!is_held(certificate, left_f * square + targets[i] * states + q))
                return 0;
    if (right)
        for (unsigned j = b->from; j < b->to; j++)
            if (!is_held(certificate, right_f * square + p * states + targets[j]))
                return 0;
    if (a->ahead != 0 && a->ahead == b->ahead && (f == 0 || a->kind == READS))
        return is_held(certificate, far ? f * square + m->after[p] * states + m->after[q] : index + states + 1);
    return 1;
}

/* The held triples, upwards, eight bytes at a time; each successor of each is tested. */
TWICE check_reply check(size_t t, size_t n, const uint16_t *table, size_t table_len, size_t callers, const uint8_t *certificate,
                        size_t certificate_len, int far)
{
    struct grammar g;
    struct moves m;
    check_reply checked = check_table(t, n, table, table_len, &g);
    size_t states = g.states;
    if (far && checked.cause == 0)
        checked = remember(&g, callers, &m, &states);
    if (checked.cause != 0)
        return checked;
    size_t square = states * states, count = 2 * square, bytes = (count + 7) / 8;
    if (certificate_len != bytes)
        return (check_reply){9, 0};
    for (size_t index = count; index < 8 * bytes; index++)
        if (is_held(certificate, index))
            return (check_reply){10, index};
    if (!is_held(certificate, 0))
        return (check_reply){11, 0};
    if (is_held(certificate, square + states + 1))
        return (check_reply){12, square + states + 1};

    if (!far)
        build(&g, &m);
    for (size_t at = 0; at < bytes; at += 8) {
        for (uint64_t word = word_at(certificate, bytes, at); word != 0; word &= word - 1) {
            size_t index = 8 * at + (size_t)__builtin_ctzll(word);
            unsigned f = index >= square;
            unsigned rest = (unsigned)(index - f * square);
            unsigned p = rest / (unsigned)states, q = rest - p * (unsigned)states;
            if (!is_closed_at(&m, states, certificate, f, p, q, index, far))
                return (check_reply){13, index};
        }
    }
    return (check_reply){0, 0};
}

static __attribute__((noinline)) check_reply check_near(size_t t, size_t n, const uint16_t *table, size_t table_len, size_t callers,
                                                        const uint8_t *certificate, size_t certificate_len)
{
    return check(t, n, table, table_len, callers, certificate, certificate_len, 0);
}

static __attribute__((noinline)) check_reply check_far(size_t t, size_t n, const uint16_t *table, size_t table_len, size_t callers,
                                                       const uint8_t *certificate, size_t certificate_len)
{
    return check(t, n, table, table_len, callers, certificate, certificate_len, 1);
}

check_reply plain_check(size_t t, size_t n, const uint16_t *table, size_t table_len, size_t callers, const uint8_t *certificate,
                        size_t certificate_len)
{
    check_function *asked = callers == 0 ? check_near : check_far;
    return asked(t, n, table, table_len, callers, certificate, certificate_len);
}

/* The largest acceptable certificate holds all triples but those that lead to (1,1,1), which a walk backwards from there finds. */

enum { NONE = UINT16_MAX };

/* Where a state is come from: the class that moves to it, by the place in the row where its targets begin; the state from which it is
 * come to past a symbol; of each class one state, and of each state another one of its class. NONE where there is none. */
struct sources {
    uint16_t class_of[MAX_STATES], passed[MAX_STATES], first[MAX_STATES], next[MAX_STATES];
};

/* is_done: what is come from depends on the class and not on the state, so it is taken out once for each class. */
struct walk {
    struct moves moves;
    struct sources from;
    size_t states, tail;
    uint8_t *held;
    uint32_t *queue;
    uint8_t is_alone_done[2][2][MAX_STATES][MAX_STATES], is_both_done[MAX_STATES][MAX_STATES];
};

static void find_sources(struct walk *w, int far)
{
    struct sources *from = &w->from;
    memset(from, 0xff, sizeof *from);
    for (unsigned p = 0; p < w->states; p++) {
        const struct state *a = &w->moves.state[p];
        if (a->ahead != 0)
            from->passed[far ? w->moves.after[p] : p + 1] = (uint16_t)p;
        if (a->from == a->to)
            continue;
        from->next[p] = from->first[a->from];
        from->first[a->from] = (uint16_t)p;
        for (unsigned i = a->from; i < a->to; i++)
            from->class_of[w->moves.targets[i]] = a->from;
    }
}

static int is_first(uint8_t *mark)
{
    int first = *mark == 0;
    *mark = 1;
    return first;
}

static void take_out(struct walk *w, unsigned f, unsigned p, unsigned q)
{
    size_t index = (f * w->states + p) * w->states + q;
    uint8_t bit = (uint8_t)(1 << index % 8);
    if (w->held[index / 8] & bit) {
        w->held[index / 8] ^= bit;
        w->queue[w->tail++] = packed(f, p, q);
    }
}

/* What leads to a triple by a move of one side, which comes to `to` there. */
static void take_out_alone(struct walk *w, unsigned f, unsigned to, unsigned other, int is_left)
{
    const struct state *state = w->moves.state;
    unsigned c = w->from.class_of[to];
    if (c == NONE || !is_first(&w->is_alone_done[f][is_left][c][other]))
        return;
    for (unsigned p = w->from.first[c]; p != NONE; p = w->from.next[p]) {
        unsigned left = is_left ? p : other, right = is_left ? other : p;
        if (f == 1 || state[p].kind == OPENS)
            take_out(w, f, left, right);
        if (f == 1 && state[p].kind == CLOSES && state[other].kind == READS)
            take_out(w, 0, left, right);
    }
}

/* The same by a closing on each side, of two rules. */
static void take_out_closings(struct walk *w, unsigned u, unsigned v)
{
    const struct state *state = w->moves.state;
    unsigned c = w->from.class_of[u], d = w->from.class_of[v];
    if (c == NONE || d == NONE || !is_first(&w->is_both_done[c][d]))
        return;
    for (unsigned p = w->from.first[c]; p != NONE; p = w->from.next[p])
        for (unsigned q = w->from.first[d]; q != NONE; q = w->from.next[q])
            if (state[p].kind == CLOSES && state[q].kind == CLOSES && state[p].rule != state[q].rule)
                take_out(w, 0, p, q);
}

size_t plain_largest(const struct grammar *g, size_t callers, uint8_t *certificate, uint32_t *queue)
{
    static struct walk w;
    memset(&w, 0, sizeof w);
    w.states = g->states;
    w.held = certificate;
    w.queue = queue;
    if (callers == 0)
        build(g, &w.moves);
    else if (remember(g, callers, &w.moves, &w.states).cause != 0)
        return 0;
    find_sources(&w, callers != 0);
    size_t count = 2 * w.states * w.states;
    memset(certificate, 0, (count + 7) / 8);
    for (size_t index = 0; index < count; index++)
        certificate[index / 8] |= (uint8_t)(1 << index % 8);
    take_out(&w, 1, 1, 1);
    for (size_t head = 0; head < w.tail; head++) {
        unsigned f = queue[head] >> 20, u = queue[head] >> 10 & 1023, v = queue[head] & 1023;
        unsigned p = w.from.passed[u], q = w.from.passed[v];
        take_out_alone(&w, f, u, v, 1);
        take_out_alone(&w, f, v, u, 0);
        if (f == 1)
            take_out_closings(&w, u, v);
        if (p != NONE && q != NONE && w.moves.state[p].ahead == w.moves.state[q].ahead && (f == 0 || w.moves.state[p].kind == READS))
            take_out(&w, f, p, q);
    }
    return count - w.tail;
}
