/* Times the trees of one sentence by the library and by plain C, interleaved in one process on the same inputs.
 *
 *     trees ROWS SECONDS
 *
 * ROWS has a line for each row of terminals: name, t, n, the table in hexadecimal digits, four for an entry, and the row likewise, or -
 * if it is empty. SECONDS is spent on each, about. For each a line is printed: name, Q, how many terminals, the answer, how many rules;
 * medians in nanoseconds of the library, of plain C, and of plain C that leaves the lent row as it is. It stops at the first
 * disagreement, with status 1. */
#include "library.h"
#include "timing.h"

enum { PARTIES = 3, JUDGED_TURNS = 4, GUARD = 4, CELLS = PLACES * PLACES * MAX_STATES, LIST = 1 << 20 };
/* Calls of this many nanoseconds and more are timed this often. */
enum { SLOW_CALL = 50000000, FEWEST_SLOW_TURNS = 3 };

static trees_function *const asked[PARTIES] = {ambiguity_find_trees, plain_trees, plain_trees_bare};
static const char *const names[PARTIES] = {"library", "plain C", "plain C, bare"};

static uint32_t work[CELLS + GUARD], garbage[CELLS + GUARD + MOST_TURNS];
static uint16_t list[LIST], right[LIST], lent[LIST];
static double spent[PARTIES][MOST_TURNS];

struct sentence {
    struct input in;
    uint16_t row[MAX_ROW];
    size_t length;
};

static int read_sentence(FILE *file, struct sentence *s)
{
    static char hex[4 * MAX_ROW + 2];
    if (!read_input(file, &s->in))
        return 0;
    if (fscanf(file, "%257s", hex) != 1 || strlen(hex) > 4 * MAX_ROW)
        stop(s->in.name, "input", "no row of terminals, or too long");
    s->length = strcmp(hex, "-") == 0 ? 0 : strlen(hex) / 4;
    for (size_t i = 0; i < s->length; i++) {
        unsigned code = 0;
        if (sscanf(hex + 4 * i, "%4x", &code) != 1 || code < 1 || code > s->in.t)
            stop(s->in.name, "input", "no terminal");
        s->row[i] = (uint16_t)code;
    }
    return 1;
}

static size_t cells_of(const struct sentence *s)
{
    return (size_t)PLACES * PLACES * s->in.g.states;
}

/* The row is garbage before a call, not the same each time, and as long as is asked for; so is the list where the answer is judged. */
static void refill(const struct sentence *s, size_t turn)
{
    memcpy(work, garbage + turn, (cells_of(s) + GUARD) * sizeof *work);
    if (turn < JUDGED_TURNS)
        memcpy(list, lent, sizeof list);
}

static trees_reply call(trees_function *trees, const struct sentence *s)
{
    return trees(s->in.t, s->in.n, s->in.table, s->in.len, s->row, s->length, work, cells_of(s), list, LIST);
}

/* One call's answer and all that it left, against what plain C answered and listed at first. */
static void judge(const struct sentence *s, size_t who, trees_reply r, trees_reply expected, size_t turn)
{
    size_t cells = cells_of(s), zeros = asked[who] == plain_trees_bare ? 0 : cells;
    if (r.cause != expected.cause || r.at != expected.at || r.found != expected.found || r.count != expected.count)
        stop(s->in.name, names[who], "another answer");
    if (memcmp(list, right, sizeof list) != 0)
        stop(s->in.name, names[who], "another list");
    for (size_t i = 0; i < zeros; i++)
        if (work[i] != 0)
            stop(s->in.name, names[who], "the row is not 0 after");
    if (memcmp(work + zeros, garbage + turn + zeros, (cells + GUARD - zeros) * sizeof *work) != 0)
        stop(s->in.name, names[who], "the row changed past its end");
}

/* A call that was made before the timing tells which clock is taken, and how often it is called. */
static double choose_turns(const struct sentence *s)
{
    double begin = now(), plain, library;
    call(plain_trees, s);
    plain = now() - begin;
    begin = now();
    call(ambiguity_find_trees, s);
    library = now() - begin;
    double cost = choose_clock(plain);
    fewest = library < RARE_CALL ? FEWEST_TURNS : library < SLOW_CALL ? FEWEST_LONG_TURNS : FEWEST_SLOW_TURNS;
    return cost;
}

/* Rounds of all, each round beginning with another one; the medians. */
static void time_calls(const struct sentence *s, trees_reply expected, double budget, double *medians)
{
    double cost = choose_turns(s), begin = now();
    size_t turns = 0;
    for (; turns < MOST_TURNS && (turns < fewest || now() - begin < budget); turns++)
        for (size_t k = 0; k < PARTIES; k++) {
            size_t who = (k + turns) % PARTIES;
            refill(s, turns);
            double start = now();
            trees_reply r = call(asked[who], s);
            spent[who][turns] = now() - start - cost;
            if (turns < JUDGED_TURNS)
                judge(s, who, r, expected, turns);
        }
    for (size_t who = 0; who < PARTIES; who++)
        medians[who] = median(spent[who], turns);
}

static const char *told(trees_reply r)
{
    return r.found == NO_TREE ? "none" : r.found == ONE_TREE ? "one" : r.found == SEVERAL_TREES ? "several" : "short";
}

int main(int argc, char **argv)
{
    FILE *file = argc == 3 ? fopen(argv[1], "r") : NULL;
    if (file == NULL) {
        fprintf(stderr, "usage: trees ROWS SECONDS\n");
        return 2;
    }
    uint32_t x = 2463534242u;
    for (size_t i = 0; i < sizeof garbage / sizeof *garbage; i++) {
        x ^= x << 13;
        x ^= x >> 17;
        x ^= x << 5;
        garbage[i] = x;
    }
    memcpy(lent, garbage, sizeof lent);
    static struct sentence s;
    while (read_sentence(file, &s)) {
        double medians[PARTIES];
        trees_room_reply room = ambiguity_trees_room(s.in.t, s.in.n, s.in.table, s.in.len);
        if (room.cause != 0 || room.entries != cells_of(&s))
            stop(s.in.name, "library", "another room");
        refill(&s, 0);
        trees_reply expected = call(plain_trees, &s);
        memcpy(right, list, sizeof list);
        if (expected.cause != 0 && expected.cause != 14)
            stop(s.in.name, "plain C", "refused");
        time_calls(&s, expected, atof(argv[2]) * 1e9, medians);
        printf("%s %u %zu %s %lu", s.in.name, s.in.g.states, s.length, told(expected), (unsigned long)expected.count);
        for (size_t who = 0; who < PARTIES; who++)
            printf(" %.1f", medians[who]);
        printf("\n");
        fflush(stdout);
    }
    fclose(file);
    return 0;
}
