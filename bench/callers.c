/* Times searches, certificate checks and rooms with 0, 1 and 2 remembered callers, by the library, by plain C and by the same algorithm
 * in C, interleaved.
 *
 *     callers GRAMMARS SECONDS
 *
 * GRAMMARS is as for search.c. For each grammar and each number of callers a line is printed: name, callers, Q, verdict, size of the
 * reached set; medians in nanoseconds of the search by the library, plain C that finishes the set, the same algorithm in C, plain C that
 * stops; of the check of its certificate by the first three, or 0 0 0; of the check of the largest certificate likewise, or 0 0 0, also at
 * 0 callers, for which search.c has it; of the room by the library and by plain C. Where there are too many states, Q is that number, the
 * verdict `refused`, and all times are 0 but those of the room, which is refused with 8. It stops at the first disagreement, with
 * status 1. */
#include "library.h"
#include "timing.h"

enum { SEARCHES = 4, PARTIES = 3, ROOMS = 2 };
enum { ENTRIES = 2 * MAX_STATES * MAX_STATES, BYTES = ENTRIES / 8 };

static search_function *const searches[SEARCHES] = {library_search, plain_search_whole, same_search, plain_search};
static check_function *const checks[PARTIES] = {library_check, plain_check, same_check};
static const char *const names[SEARCHES] = {"library", "plain C", "same algorithm in C", "plain C that stops"};

static uint8_t certificate[BYTES], right[BYTES];
static uint32_t queue[ENTRIES], parents[ENTRIES], witness[ENTRIES], shortest[ENTRIES];
static double spent[SEARCHES][MOST_TURNS];

/* A grammar with so many callers. */
struct asked {
    const struct input *in;
    size_t callers, states;
};

/* Each opening has a closing that leads back from it: one for each state before a nonterminal and each of its rules. */
static room_reply plain_room(struct asked a)
{
    struct grammar g;
    struct chains c;
    check_reply checked = check_table(a.in->t, a.in->n, a.in->table, a.in->len, &g);
    if (checked.cause == 0)
        checked = check_callers(&g, a.callers, &c);
    if (checked.cause != 0)
        return (room_reply){checked.cause, checked.at, 0, 0, 0, 0};
    if (a.callers == 0) {
        find_live(&g, c.live);
        for (unsigned b = 0; b < g.n; b++)
            c.wide[b] = 1;
    }
    size_t rules[MAX_NONTERMINALS], moves = 3; /* rule 0 is opened and closed, and S passed */
    memset(rules, 0, g.n * sizeof *rules);
    for (unsigned i = 0; i < g.rules; i++)
        rules[g.rule[i][0] - START] += c.live[i + 1];
    moves += 2 * rules[0];
    for (unsigned i = 0; i < g.rules; i++) {
        const uint16_t *rule = g.rule[i];
        size_t wide = c.wide[rule[0] - START];
        for (unsigned d = 0; d < rule[1] && c.live[i + 1]; d++)
            moves += wide * (1 + (rule[2 + d] >= START ? 2 * rules[rule[2 + d] - START] : 0));
    }
    size_t entries = 2 * c.states * c.states;
    return (room_reply){0, 0, c.states, (entries + 7) / 8, entries, moves};
}

static room_reply room_of(struct asked a, size_t who)
{
    return who == 0 ? ambiguity_search_room(a.in->t, a.in->n, a.in->table, a.in->len, a.callers) : plain_room(a);
}

static void time_rooms(struct asked a, double budget, double *medians)
{
    double begin = now();
    room_reply expected = plain_room(a);
    double cost = choose_clock(now() - begin);
    size_t turns = 0;
    for (begin = now(); turns < MOST_TURNS && (turns < fewest || now() - begin < budget); turns++)
        for (size_t k = 0; k < ROOMS; k++) {
            size_t who = (k + turns) % ROOMS;
            double start = now();
            room_reply r = room_of(a, who);
            spent[who][turns] = now() - start - cost;
            if (memcmp(&r, &expected, sizeof r) != 0)
                stop(a.in->name, "library", "another room than plain C");
        }
    for (size_t who = 0; who < ROOMS; who++)
        medians[who] = median(spent[who], turns);
}

static search_reply search_by(struct asked a, search_function *search)
{
    size_t entries = 2 * a.states * a.states;
    return search(a.in->t, a.in->n, a.in->table, a.in->len, a.callers, certificate, (entries + 7) / 8, queue, entries, parents, entries,
                  witness, entries);
}

/* One search against that of plain C; the library's witness against that of the same algorithm, and by its own check. */
static void judge(struct asked a, size_t who, search_reply r, search_reply expected)
{
    size_t entries = 2 * a.states * a.states;
    uint64_t looked = searches[who] == plain_search ? 0 : expected.looked;
    if (r.cause != 0 || r.verdict != expected.verdict || r.count != expected.count || r.looked != looked)
        stop(a.in->name, names[who], "another answer");
    for (size_t i = 0; i < entries; i++)
        if (queue[i] != 0 || parents[i] != 0)
            stop(a.in->name, names[who], "queue or parents is not 0 after");
    if (r.verdict == UNAMBIGUOUS && memcmp(certificate, right, (entries + 7) / 8) != 0)
        stop(a.in->name, names[who], "another certificate");
    if (r.verdict == POTENTIAL && who == 0) {
        memcpy(shortest, witness, r.count * sizeof *witness);
        if (ambiguity_check_witness(a.in->t, a.in->n, a.in->table, a.in->len, a.callers, witness, r.count).cause != 0)
            stop(a.in->name, names[who], "no witness");
    }
    if (r.verdict == POTENTIAL && who == 2 && memcmp(shortest, witness, r.count * sizeof *witness) != 0)
        stop(a.in->name, names[who], "another witness than the library");
}

static void time_searches(struct asked a, search_reply expected, double budget, double *medians)
{
    double begin = now();
    search_by(a, plain_search_whole);
    double cost = choose_clock(now() - begin);
    size_t turns = 0;
    for (begin = now(); turns < MOST_TURNS && (turns < fewest || now() - begin < budget); turns++)
        for (size_t k = 0; k < SEARCHES; k++) {
            size_t who = turns < 1 ? k : (k + turns) % SEARCHES;
            double start = now();
            search_reply r = search_by(a, searches[who]);
            spent[who][turns] = now() - start - cost;
            if (turns < 1)
                judge(a, who, r, expected);
        }
    for (size_t who = 0; who < SEARCHES; who++)
        medians[who] = median(spent[who], turns);
}

static check_reply check_by(struct asked a, check_function *check)
{
    return check(a.in->t, a.in->n, a.in->table, a.in->len, a.callers, right, (2 * a.states * a.states + 7) / 8);
}

/* A certificate with one bit flipped, so many times another one, is refused by all in the same way. */
static void damage(struct asked a, size_t times)
{
    size_t entries = 2 * a.states * a.states, step = entries / times + 1;
    for (size_t i = 0; i < entries; i += step) {
        right[i / 8] ^= (uint8_t)(1 << i % 8);
        check_reply expected = check_by(a, plain_check);
        for (size_t who = 0; who < PARTIES; who++) {
            check_reply r = check_by(a, checks[who]);
            if (r.cause != expected.cause || r.at != expected.at)
                stop(a.in->name, names[who], "another refusal of a damaged certificate");
        }
        right[i / 8] ^= (uint8_t)(1 << i % 8);
    }
}

static void time_checks(struct asked a, double budget, double *medians)
{
    double begin = now();
    check_by(a, plain_check);
    double cost = choose_clock(now() - begin);
    size_t turns = 0;
    for (begin = now(); turns < MOST_TURNS && (turns < fewest || now() - begin < budget); turns++)
        for (size_t k = 0; k < PARTIES; k++) {
            size_t who = (k + turns) % PARTIES;
            double start = now();
            check_reply r = check_by(a, checks[who]);
            spent[who][turns] = now() - start - cost;
            if (r.cause != 0)
                stop(a.in->name, names[who], "the certificate is refused");
        }
    for (size_t who = 0; who < PARTIES; who++)
        medians[who] = median(spent[who], turns);
}

static void print_asked(const struct input *in, size_t callers, double budget)
{
    struct chains c;
    double search_times[SEARCHES] = {0}, check_times[PARTIES] = {0}, largest_times[PARTIES] = {0}, room_times[ROOMS];
    check_reply fits = check_callers(&in->g, callers, &c);
    struct asked a = {in, callers, c.states};
    size_t reached = 0;
    const char *verdict = "refused";
    time_rooms(a, budget / 4, room_times);
    if (fits.cause == 0) {
        reached = plain_reached(&in->g, callers, queue, parents);
        search_reply expected = search_by(a, plain_search_whole);
        memcpy(right, certificate, (2 * a.states * a.states + 7) / 8);
        time_searches(a, expected, budget / 2, search_times);
        verdict = expected.verdict == UNAMBIGUOUS ? "unambiguous" : "potential";
        if (expected.verdict == UNAMBIGUOUS) {
            damage(a, 40);
            time_checks(a, budget / 4, check_times);
        }
        if (expected.verdict == UNAMBIGUOUS && callers != 0) {
            plain_largest(&in->g, callers, right, queue);
            damage(a, 8);
            time_checks(a, budget / 4, largest_times);
        }
    }
    printf("%s %zu %zu %s %zu", in->name, callers, a.states, verdict, reached);
    for (size_t who = 0; who < SEARCHES; who++)
        printf(" %.1f", search_times[who]);
    for (size_t who = 0; who < PARTIES; who++)
        printf(" %.1f", check_times[who]);
    for (size_t who = 0; who < PARTIES; who++)
        printf(" %.1f", largest_times[who]);
    printf(" %.1f %.1f\n", room_times[0], room_times[1]);
    fflush(stdout);
}

int main(int argc, char **argv)
{
    FILE *file = argc == 3 ? fopen(argv[1], "r") : NULL;
    if (file == NULL) {
        fprintf(stderr, "usage: callers GRAMMARS SECONDS\n");
        return 2;
    }
    static struct input in;
    while (read_input(file, &in))
        for (size_t callers = 0; callers <= MAX_CALLERS; callers++)
            print_asked(&in, callers, atof(argv[2]) * 1e9);
    fclose(file);
    return 0;
}
