/* Times the searches and certificate checks of this folder and the library's, interleaved in one process on the same inputs.
 *
 *     search GRAMMARS SECONDS
 *
 * GRAMMARS has a line for each grammar: name, t, n, the table in hexadecimal digits, four for an entry. All are searched at 0 callers;
 * callers.c has the others. SECONDS is spent on each, about. For each grammar a line is printed: name, Q, verdict, count, size of the
 * reached set; medians in nanoseconds of the search by the library, plain C, plain C that finishes the set, the same algorithm in C; of
 * the certificate check by the library, plain C, the same algorithm in C; how many triples the largest acceptable certificate holds,
 * and medians of its check by these three. The last seven are 0 where there is no certificate. It stops at the first disagreement,
 * with status 1. */
#include "library.h"
#include "timing.h"
#include "witness.h"

enum { SEARCHES = 4, CHECKS = 3 };
enum { ENTRIES = 2 * MAX_STATES * MAX_STATES, BYTES = ENTRIES / 8 };

static search_function *const searches[SEARCHES] = {library_search, plain_search, plain_search_whole, same_search};
static check_function *const checks[CHECKS] = {library_check, plain_check, same_check};
static const char *const names[SEARCHES] = {"library", "plain C", "plain C, whole set", "same algorithm in C"};

static uint8_t certificate[BYTES], right[BYTES];
static uint32_t queue[ENTRIES], parents[ENTRIES], witness[ENTRIES], garbage[2 * ENTRIES + 4];
static double spent[SEARCHES][MOST_TURNS];

/* All that is lent is garbage before a call, not the same each time. */
static void refill(size_t entries, size_t turn)
{
    const uint32_t *from = garbage + turn * 97 % ENTRIES;
    memcpy(queue, from, entries * 4);
    memcpy(parents, from + 1, entries * 4);
    memcpy(witness, from + 2, entries * 4);
    memcpy(certificate, from + 3, (entries + 7) / 8);
}

static search_reply call(search_function *search, const struct input *in)
{
    size_t q = in->g.states, entries = 2 * q * q;
    return search(in->t, in->n, in->table, in->len, 0, certificate, (entries + 7) / 8, queue, entries, parents, entries, witness,
                  entries);
}

/* One call's answer and all that it left, against the size and the certificate that plain C found for the whole set. */
static void judge(const struct input *in, size_t number, search_reply r, search_reply expected, size_t turn)
{
    const char *who = names[number];
    size_t q = in->g.states, entries = 2 * q * q, bytes = (entries + 7) / 8;
    const uint32_t *from = garbage + turn * 97 % ENTRIES;
    if (r.cause != 0 || r.verdict != expected.verdict || r.count != expected.count)
        stop(in->name, who, "another verdict or count");
    if (r.looked != (searches[number] == plain_search ? 0 : expected.looked))
        stop(in->name, who, "another number of successors looked at");
    for (size_t i = 0; i < entries; i++)
        if (queue[i] != 0 || parents[i] != 0)
            stop(in->name, who, "queue or parents is not 0 after");
    if (r.verdict == UNAMBIGUOUS) {
        if (memcmp(certificate, right, bytes) != 0)
            stop(in->name, who, "another certificate");
        if (memcmp(witness, from + 2, entries * 4) != 0)
            stop(in->name, who, "the witness row changed");
    } else {
        if (!is_witness(&in->g, witness, r.count))
            stop(in->name, who, "no witness");
        if (memcmp(witness + r.count, from + 2 + r.count, (entries - r.count) * 4) != 0)
            stop(in->name, who, "the witness row changed past its end");
        if (memcmp(certificate, from + 3, bytes) != 0)
            stop(in->name, who, "the certificate changed");
    }
}

/* Rounds of all searches, each round beginning with another one; the medians. */
static void time_searches(const struct input *in, search_reply expected, double budget, double *medians)
{
    size_t q = in->g.states, entries = 2 * q * q, turns = 0;
    double begin = now(), cost;
    call(plain_search, in);
    cost = choose_clock(now() - begin);
    begin = now();
    while (turns < MOST_TURNS && (turns < fewest || now() - begin < budget)) {
        for (size_t k = 0; k < SEARCHES; k++) {
            size_t who = (k + turns) % SEARCHES;
            refill(entries, turns);
            double start = now();
            search_reply r = call(searches[who], in);
            spent[who][turns] = now() - start - cost;
            if (turns < 4)
                judge(in, who, r, expected, turns);
        }
        turns++;
    }
    for (size_t who = 0; who < SEARCHES; who++)
        medians[who] = median(spent[who], turns);
}

static void time_checks(const struct input *in, double budget, double *medians)
{
    static const char *const who_is[CHECKS] = {"library", "plain C", "same algorithm in C"};
    size_t q = in->g.states, bytes = (2 * q * q + 7) / 8, turns = 0;
    double begin = now(), cost;
    plain_check(in->t, in->n, in->table, in->len, 0, right, bytes);
    cost = choose_clock(now() - begin);
    begin = now();
    while (turns < MOST_TURNS && (turns < fewest || now() - begin < budget)) {
        for (size_t k = 0; k < CHECKS; k++) {
            size_t who = (k + turns) % CHECKS;
            double start = now();
            check_reply r = checks[who](in->t, in->n, in->table, in->len, 0, right, bytes);
            spent[who][turns] = now() - start - cost;
            if (r.cause != 0)
                stop(in->name, who_is[who], "the certificate is refused");
        }
        turns++;
    }
    for (size_t who = 0; who < CHECKS; who++)
        medians[who] = median(spent[who], turns);
}

/* A damaged certificate is refused by all in the same way: some of the bits are flipped in turn, fewer where a check takes long. The
 * largest certificate with a triple more is always refused. */
static void damage(const struct input *in, int is_largest)
{
    size_t q = in->g.states, entries = 2 * q * q, bytes = (entries + 7) / 8;
    size_t step = entries / (q < 300 ? 200 : 20) * (is_largest ? 5 : 1) + 1;
    for (size_t i = 0; i < entries; i += step) {
        right[i / 8] ^= (uint8_t)(1 << i % 8);
        check_reply expected = plain_check(in->t, in->n, in->table, in->len, 0, right, bytes);
        if (is_largest && expected.cause == 0 && right[i / 8] >> i % 8 & 1)
            stop(in->name, "plain C", "a larger certificate is accepted");
        for (size_t who = 0; who < CHECKS; who++) {
            if (checks[who] == plain_check)
                continue;
            check_reply r = checks[who](in->t, in->n, in->table, in->len, 0, right, bytes);
            if (r.cause != expected.cause || r.at != expected.at)
                stop(in->name, "certificate check", "another refusal of a damaged certificate");
        }
        right[i / 8] ^= (uint8_t)(1 << i % 8);
    }
}

int main(int argc, char **argv)
{
    FILE *file = argc == 3 ? fopen(argv[1], "r") : NULL;
    if (file == NULL) {
        fprintf(stderr, "usage: search GRAMMARS SECONDS\n");
        return 2;
    }
    double budget = atof(argv[2]) * 1e9;
    uint32_t x = 2463534242u;
    for (size_t i = 0; i < 2 * ENTRIES + 4; i++) {
        x ^= x << 13;
        x ^= x >> 17;
        x ^= x << 5;
        garbage[i] = x;
    }
    static struct input in;
    while (read_input(file, &in)) {
        size_t q = in.g.states, entries = 2 * q * q;
        double search_times[SEARCHES], check_times[2][CHECKS] = {{0}};
        size_t reached = plain_reached(&in.g, 0, queue, parents), held = 0;
        refill(entries, 0);
        search_reply expected = call(plain_search_whole, &in);
        memcpy(right, certificate, (entries + 7) / 8);
        time_searches(&in, expected, budget, search_times);
        if (expected.verdict == UNAMBIGUOUS) {
            damage(&in, 0);
            time_checks(&in, budget / 3, check_times[0]);
            held = plain_largest(&in.g, 0, right, queue);
            damage(&in, 1);
            time_checks(&in, budget / 3, check_times[1]);
        }
        printf("%s %zu %s %lu %zu", in.name, q, expected.verdict == UNAMBIGUOUS ? "unambiguous" : "potential",
               (unsigned long)expected.count, reached);
        for (size_t who = 0; who < SEARCHES; who++)
            printf(" %.1f", search_times[who]);
        for (size_t who = 0; who < CHECKS; who++)
            printf(" %.1f", check_times[0][who]);
        printf(" %zu", held);
        for (size_t who = 0; who < CHECKS; who++)
            printf(" %.1f", check_times[1][who]);
        printf("\n");
        fflush(stdout);
    }
    fclose(file);
    return 0;
}
