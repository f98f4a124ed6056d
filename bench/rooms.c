/* Times what is told beforehand, the room of a search and the length of a text, by the library and by plain C, interleaved.
 *
 *     rooms GRAMMARS SECONDS
 *
 * GRAMMARS is as for search.c. The names have 15 bytes and differ in their last four. For each grammar a line is printed: name, Q, the
 * number of moves, the length of the text; medians in nanoseconds of the room by the library and by plain C, and of the length by the
 * library and by plain C. It stops at the first disagreement, with status 1. */
#include "ambiguity.h"
#include "timing.h"

enum { NAME = 15, NAMES = MAX_TERMINALS + MAX_NONTERMINALS, SLOTS = 8192 };

static uint8_t names[NAMES * NAME];
static uint32_t starts[NAMES], lengths[NAMES];
static double spent[2][MOST_TURNS];

/* Openings and closings go by pairs: each place before a nonterminal has one of each for each of its rules. */
static ambiguity_room_reply plain_room(const struct input *in)
{
    struct grammar g;
    check_reply checked = check_table(in->t, in->n, in->table, in->len, &g);
    if (checked.cause != 0)
        return (ambiguity_room_reply){checked.cause, checked.at, 0, 0, 0, 0};
    uint8_t live[MAX_RULES + 1];
    find_live(&g, live);
    size_t rules[MAX_NONTERMINALS] = {0}, places[MAX_NONTERMINALS] = {1};
    size_t moves = 3; /* rule 0 is opened and closed, and S passed */
    for (unsigned i = 0; i < g.rules; i++) {
        const uint16_t *rule = g.rule[i];
        if (!live[i + 1])
            continue;
        rules[rule[0] - START]++;
        moves += rule[1];
        for (unsigned d = 0; d < rule[1]; d++)
            if (rule[2 + d] >= START)
                places[rule[2 + d] - START]++;
    }
    for (unsigned b = 0; b < g.n; b++)
        moves += 2 * rules[b] * places[b];
    size_t entries = 2 * (size_t)g.states * g.states;
    return (ambiguity_room_reply){0, 0, g.states, (entries + 7) / 8, entries, moves};
}

static int is_name(const uint8_t *name, size_t length)
{
    if (length < 1 || length > NAME)
        return 0;
    for (size_t i = 0; i < length; i++) {
        uint8_t c = name[i], letter = c | 32;
        if (c != '-' && (c < '0' || c > '9') && (letter < 'a' || letter > 'z'))
            return 0;
    }
    return 1;
}

/* A byte of a name as it is compared: letters are small ones. */
static inline uint8_t small(uint8_t c) { return c >= 'A' && c <= 'Z' ? (uint8_t)(c | 32) : c; }

static int same(const uint8_t *one, const uint8_t *other, size_t length)
{
    while (length != 0 && small(one[length - 1]) == small(other[length - 1]))
        length--;
    return length == 0;
}

static uint32_t hash_of(const uint8_t *name, size_t length)
{
    uint32_t hash = (uint32_t)length;
    for (size_t i = 0; i < length; i++)
        hash = (hash ^ small(name[i])) * 16777619u;
    return hash ^ hash >> 15;
}

/* The first symbol whose name an earlier one has, or their number: by a hash table with at least two slots for each. */
static size_t first_double(size_t symbols)
{
    static uint16_t slots[SLOTS];
    size_t last = 1;
    while (last < 2 * symbols)
        last *= 2;
    memset(slots, 0, last * sizeof *slots);
    last--;
    for (size_t i = 0; i < symbols; i++) {
        const uint8_t *name = names + starts[i];
        size_t k = hash_of(name, lengths[i]) & last;
        for (; slots[k] != 0; k = (k + 1) & last) {
            size_t other = slots[k] - 1u;
            if (lengths[other] == lengths[i] && same(names + starts[other], name, lengths[i]))
                return i;
        }
        slots[k] = (uint16_t)(i + 1);
    }
    return symbols;
}

static size_t length_of(const struct grammar *g, unsigned code)
{
    return lengths[code < START ? code - 1 : g->t + code - START];
}

static ambiguity_length_reply plain_length(const struct input *in)
{
    struct grammar g;
    check_reply checked = check_table(in->t, in->n, in->table, in->len, &g);
    if (checked.cause != 0)
        return (ambiguity_length_reply){checked.cause, checked.at, 0};
    size_t symbols = g.t + g.n, length = strlen("terminals=\nnonterminals=\n") + symbols - (g.t != 0) - 1;
    for (size_t i = 0; i < symbols; i++) {
        if ((size_t)starts[i] + lengths[i] > sizeof names || !is_name(names + starts[i], lengths[i]))
            return (ambiguity_length_reply){16, i, 0};
        length += lengths[i];
    }
    size_t twice = first_double(symbols);
    if (twice != symbols)
        return (ambiguity_length_reply){18, twice, 0};
    for (unsigned i = 0; i < g.rules; i++) {
        const uint16_t *rule = g.rule[i];
        length += strlen("rule=:\n") + length_of(&g, rule[0]);
        for (unsigned d = 0; d < rule[1]; d++)
            length += 1 + length_of(&g, rule[2 + d]);
    }
    return (ambiguity_length_reply){0, 0, length};
}

/* What is told, as numbers: the fields of a reply, then 0. */
struct told {
    uint64_t number[6];
};

typedef struct told ask_function(const struct input *in);

static struct told told_room(ambiguity_room_reply r)
{
    return (struct told){{r.cause, r.at, r.states, r.certificate, r.entries, r.moves}};
}

static struct told told_length(ambiguity_length_reply r) { return (struct told){{r.cause, r.at, r.length, 0, 0, 0}}; }

static struct told library_asked_room(const struct input *in)
{
    return told_room(ambiguity_search_room(in->t, in->n, in->table, in->len, 0));
}

static struct told plain_asked_room(const struct input *in) { return told_room(plain_room(in)); }

static struct told library_asked_length(const struct input *in)
{
    return told_length(
        ambiguity_written_length(in->t, in->n, in->table, in->len, names, sizeof names, starts, NAMES, lengths, NAMES));
}

static struct told plain_asked_length(const struct input *in) { return told_length(plain_length(in)); }

/* Rounds of both, each round beginning with the other one; the medians. Every answer is compared. */
static struct told time_calls(const struct input *in, ask_function *library, ask_function *plain, double budget, double *medians)
{
    ask_function *const asked[2] = {library, plain};
    double begin = now();
    struct told expected = plain(in);
    double cost = choose_clock(now() - begin);
    size_t turns = 0;
    begin = now();
    while (turns < MOST_TURNS && (turns < fewest || now() - begin < budget)) {
        for (size_t k = 0; k < 2; k++) {
            size_t who = (k + turns) % 2;
            double start = now();
            struct told told = asked[who](in);
            spent[who][turns] = now() - start - cost;
            if (memcmp(&told, &expected, sizeof told) != 0)
                stop(in->name, "library", "another answer than plain C");
        }
        turns++;
    }
    for (size_t who = 0; who < 2; who++)
        medians[who] = median(spent[who], turns);
    if (expected.number[0] != 0)
        stop(in->name, "plain C", "refused");
    return expected;
}

int main(int argc, char **argv)
{
    FILE *file = argc == 3 ? fopen(argv[1], "r") : NULL;
    if (file == NULL) {
        fprintf(stderr, "usage: rooms GRAMMARS SECONDS\n");
        return 2;
    }
    double budget = atof(argv[2]) * 1e9 / 2;
    memset(names, 'x', sizeof names);
    for (uint32_t i = 0; i < NAMES; i++) {
        starts[i] = i * NAME;
        lengths[i] = NAME;
        for (uint32_t digit = 0, rest = i; digit < 4; digit++, rest /= 10)
            names[(i + 1) * NAME - 1 - digit] = (uint8_t)('0' + rest % 10);
    }
    static struct input in;
    while (read_input(file, &in)) {
        double rooms[2], texts[2];
        struct told room = time_calls(&in, library_asked_room, plain_asked_room, budget, rooms);
        struct told length = time_calls(&in, library_asked_length, plain_asked_length, budget, texts);
        printf("%s %lu %lu %lu %.1f %.1f %.1f %.1f\n", in.name, (unsigned long)room.number[2], (unsigned long)room.number[5],
               (unsigned long)length.number[2], rooms[0], rooms[1], texts[0], texts[1]);
        fflush(stdout);
    }
    fclose(file);
    return 0;
}
