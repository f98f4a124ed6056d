/* Times a draft's edits by the library and by plain C, interleaved.
 *
 *     drafts GRAMMARS SECONDS
 *
 * GRAMMARS is as for search.c. For each grammar a line is printed: its name, rules and states, then for each call the medians in
 * nanoseconds by the library and by plain C. The calls, on a draft that has all rules: a new draft; rule 1 withdrawn; mark 8 returned to,
 * which brings it back; mark 1 set; the last rule withdrawn; the last rule added; a rule that is already there, which is refused with 6.
 * Answers and whole rows are compared. It stops at the first difference, with status 1. */
#include "ambiguity.h"
#include "timing.h"

enum { BLOCK = AMBIGUITY_DRAFT_BLOCK, ROW = AMBIGUITY_DRAFT_ENTRIES, CALLS = 7 };
enum { NEW, FIRST, BACK, MARK, LAST, ADD, EQUAL };

static uint16_t rows[2][ROW];
static double spent[2][CALLS][MOST_TURNS];

/* Plain C: the same row, read by pointers. Where the rules of a block end, or 0. */
static size_t block_end(const uint16_t *block)
{
    if (block[0] == 0)
        return 0;
    size_t at = 1;
    for (unsigned i = 1; i < block[0]; i++) {
        if (at + 2 > BLOCK || at + 2 + block[at + 1] > BLOCK)
            return 0;
        at += 2u + block[at + 1];
    }
    return at;
}

static ambiguity_draft_reply refused(uint64_t cause, uint64_t at) { return (ambiguity_draft_reply){cause, at}; }

static ambiguity_draft_reply plain_new(size_t t, size_t n, const uint16_t *table, size_t entries, uint16_t *row, size_t size)
{
    struct grammar g;
    check_reply checked = check_table(t, n, table, entries, &g);
    if (checked.cause != 0)
        return refused(checked.cause, checked.at);
    if (size < ROW)
        return refused(14, 0);
    row[0] = (uint16_t)t;
    row[1] = (uint16_t)n;
    row[2] = (uint16_t)(g.rules + 1);
    memcpy(row + 3, table, entries * sizeof *table);
    for (unsigned k = 1; k <= AMBIGUITY_MARKS; k++)
        row[2 + k * BLOCK] = 0;
    return refused(0, 0);
}

static int declared(const uint16_t *row, unsigned code)
{
    return code >= START ? code - START < row[1] : code != 0 && code <= row[0];
}

static ambiguity_draft_reply plain_add(uint16_t *row, size_t size, const uint16_t *rule, size_t entries)
{
    size_t end = size < ROW ? 0 : block_end(row + 2);
    if (end == 0)
        return refused(size < ROW ? 14 : 23, 0);
    size_t at = end - 1, rules = row[2] - 1u;
    if (rules >= MAX_RULES)
        return refused(7, at);
    if (entries < 2)
        return refused(2, at);
    if (rule[0] < START || rule[0] - START >= row[1])
        return refused(3, at);
    if (rule[1] > MAX_LENGTH)
        return refused(4, at);
    if (entries - 2 < rule[1])
        return refused(2, at);
    for (unsigned d = 0; d < rule[1]; d++)
        if (!declared(row, rule[2 + d]))
            return refused(5, at + 2 + d);
    const uint16_t *table = row + 3;
    for (size_t o = 0; o < at; o += 2u + table[o + 1])
        if (table[o] == rule[0] && table[o + 1] == rule[1] && memcmp(table + o + 2, rule + 2, rule[1] * sizeof *rule) == 0)
            return refused(6, at);
    if (at + 4 - rules + rule[1] + 1 > MAX_STATES)
        return refused(8, at);
    memcpy(row + 3 + at, rule, (2u + rule[1]) * sizeof *rule);
    row[2]++;
    return refused(0, 0);
}

static ambiguity_draft_reply plain_withdraw(uint16_t *row, size_t size, size_t number)
{
    size_t end = size < ROW ? 0 : block_end(row + 2);
    if (end == 0)
        return refused(size < ROW ? 14 : 23, 0);
    if (number == 0 || number >= row[2])
        return refused(23, number);
    uint16_t *rule = row + 3;
    for (size_t i = 1; i < number; i++)
        rule += 2u + rule[1];
    uint16_t *next = rule + 2u + rule[1];
    memmove(rule, next, (size_t)(row + 2 + end - next) * sizeof *row);
    row[2]--;
    return refused(0, 0);
}

static ambiguity_draft_reply plain_copy(uint16_t *row, size_t size, size_t mark, int back)
{
    size_t end = size < ROW ? 0 : block_end(row + 2);
    if (end == 0)
        return refused(size < ROW ? 14 : 23, 0);
    if (mark == 0 || mark > AMBIGUITY_MARKS)
        return refused(23, mark);
    uint16_t *block = row + 2 + mark * BLOCK;
    if (back && (end = block_end(block)) == 0)
        return refused(23, mark);
    memcpy(back ? row + 2 : block, back ? block : row + 2, end * sizeof *row);
    return refused(0, 0);
}

struct edited {
    const struct input *in;
    const uint16_t *last; /* the last rule */
    size_t entries, rules;
};

static ambiguity_draft_reply call_library(const struct edited *e, unsigned call, uint16_t *row)
{
    switch (call) {
    case NEW: return ambiguity_new_draft(e->in->t, e->in->n, e->in->table, e->in->len, row, ROW);
    case FIRST: return ambiguity_withdraw_rule(row, ROW, 1);
    case BACK: return ambiguity_return_to_mark(row, ROW, 8);
    case MARK: return ambiguity_set_mark(row, ROW, 1);
    case LAST: return ambiguity_withdraw_rule(row, ROW, e->rules);
    default: return ambiguity_add_rule(row, ROW, e->last, e->entries);
    }
}

static ambiguity_draft_reply call_plain(const struct edited *e, unsigned call, uint16_t *row)
{
    switch (call) {
    case NEW: return plain_new(e->in->t, e->in->n, e->in->table, e->in->len, row, ROW);
    case FIRST: return plain_withdraw(row, ROW, 1);
    case BACK: return plain_copy(row, ROW, 8, 1);
    case MARK: return plain_copy(row, ROW, 1, 0);
    case LAST: return plain_withdraw(row, ROW, e->rules);
    default: return plain_add(row, ROW, e->last, e->entries);
    }
}

/* What one call takes, beyond taking the time; at least a nanosecond, since the clock tells no less. */
static double timed(const struct edited *e, unsigned call, unsigned who, ambiguity_draft_reply *r, double cost)
{
    double begin = now();
    *r = who == 0 ? call_library(e, call, rows[0]) : call_plain(e, call, rows[1]);
    double spent = now() - begin - cost;
    return spent < 1 ? 1 : spent;
}

static void measure(const struct input *in, double seconds)
{
    struct edited e = {in, in->table, 0, 0};
    for (const uint16_t *rule = in->table; rule < in->table + in->len; rule += 2u + rule[1]) {
        e.last = rule;
        e.rules++;
    }
    e.entries = 2u + e.last[1];
    memset(rows, 0x5a, sizeof rows);
    double cost = choose_clock(0), begin = now();
    size_t turns = 0;
    for (; turns < MOST_TURNS && (turns < FEWEST_TURNS || now() - begin < seconds * 1e9); turns++)
        for (unsigned call = 0; call < CALLS; call++) {
            ambiguity_draft_reply r[2];
            for (unsigned i = 0; i < 2; i++)
                spent[(i + turns) % 2][call][turns] = timed(&e, call, (i + turns) % 2, &r[(i + turns) % 2], cost);
            if (r[0].cause != r[1].cause || r[0].at != r[1].at || (r[0].cause != 0) != (call == EQUAL) ||
                memcmp(rows[0], rows[1], sizeof rows[0]) != 0)
                stop(in->name, "a draft", "the library and plain C differ");
            if (call == NEW) /* mark 8 is for BACK */
                for (unsigned who = 0; who < 2; who++)
                    memcpy(rows[who] + 2 + 8 * BLOCK, rows[who] + 2, BLOCK * sizeof rows[0][0]);
        }
    printf("%s %zu %u", in->name, e.rules, in->g.states);
    for (unsigned call = 0; call < CALLS; call++)
        printf(" %.1f %.1f", median(spent[0][call], turns), median(spent[1][call], turns));
    printf("\n");
    fflush(stdout);
}

int main(int count, char **words)
{
    FILE *file = count == 3 ? fopen(words[1], "r") : NULL;
    if (file == NULL)
        stop("drafts", "usage", "drafts GRAMMARS SECONDS");
    static struct input in;
    while (read_input(file, &in))
        measure(&in, atof(words[2]));
    fclose(file);
    return 0;
}
