/* Times the certificate checks of this folder and the library's on two kinds of certificates that are made to be slow.
 *
 *     hostile SECONDS RULES..
 *
 * chequered: so many rules S -> t_i S S, and S -> x. The certificate holds all of layer 1 but (1,1,1); of layer 0 the smallest closed
 * set, and the pairs of ends of rules i and j with i + j even. Each of these pairs leads to every pair of places past an S.
 * in turn: as many states at most, and rules of two nonterminals in turn whose right sides are all rows of the two, shortest first.
 * The certificate holds all but (1,1,1). Each row of ends has another class than the one before.
 * In both only (1,1,3) and (1,3,1) lack a successor, so a check that goes upwards has looked at all of layer 0 when it refuses.
 * A line is printed for each: the kind, Q, the pairs of ends, the successors of one of them; the least milliseconds of a check
 * by the library, plain C and the same algorithm in C. About SECONDS are spent on each. A check that takes longer than 20 times
 * SECONDS is not asked about more rules; 0 stands for it there. It stops at the first disagreement, with status 1. */
#include "library.h"
#include "timing.h"

enum { CHECKS = 3 };
enum { ENTRIES = 2 * MAX_STATES * MAX_STATES, BYTES = ENTRIES / 8 };

static check_function *const checks[CHECKS] = {library_check, plain_check, same_check};
static const char *const names[CHECKS] = {"library", "plain C", "same algorithm in C"};

static uint8_t certificate[BYTES];
static uint32_t queue[ENTRIES], parents[ENTRIES], witness[ENTRIES];

static uint16_t *add_rule(uint16_t *end, unsigned left, size_t length, const uint16_t *right)
{
    *end++ = (uint16_t)(START + left);
    *end++ = (uint16_t)length;
    memcpy(end, right, length * sizeof *right);
    return end + length;
}

static void finish(struct input *in, size_t t, size_t n, const uint16_t *end)
{
    in->t = t;
    in->n = n;
    in->len = (size_t)(end - in->table);
    if (check_table(in->t, in->n, in->table, in->len, &in->g).cause != 0)
        stop(in->name, "input", "the table is refused");
}

static void make_chequered(struct input *in, size_t rules)
{
    uint16_t *end = in->table;
    for (size_t i = 0; i < rules; i++)
        end = add_rule(end, 0, 3, (const uint16_t[]){(uint16_t)(i + 1), START, START});
    end = add_rule(end, 0, 1, (const uint16_t[]){(uint16_t)(rules + 1)});
    finish(in, rules + 1, 1, end);
}

/* The number of rules. */
static size_t make_in_turn(struct input *in, size_t most_states)
{
    uint16_t *end = in->table, right[MAX_LENGTH];
    size_t states = 4, rules = 0;
    for (; rules < 2; rules++, states += 2)
        end = add_rule(end, (unsigned)rules, 1, (const uint16_t[]){(uint16_t)(rules + 1)});
    for (size_t length = 1; length <= MAX_LENGTH; length++)
        for (unsigned row = 0; row < 1u << length; row++)
            for (unsigned left = 0; left < 2; left++) {
                if (states + length + 1 > most_states || rules == MAX_RULES) {
                    finish(in, 2, 2, end);
                    return rules;
                }
                for (size_t k = 0; k < length; k++)
                    right[k] = (uint16_t)(START + (row >> k & 1));
                end = add_rule(end, left, length, right);
                states += length + 1;
                rules++;
            }
    return 0;
}

static void hold(size_t index)
{
    certificate[index / 8] |= (uint8_t)(1 << index % 8);
}

static void hold_layer_1(size_t q)
{
    for (size_t index = q * q; index < 2 * q * q; index++)
        if (index != q * q + q + 1)
            hold(index);
}

/* The number of pairs of ends that it holds. */
static size_t hold_chequered(const struct input *in, size_t rules)
{
    size_t q = in->g.states, entries = 2 * q * q, pairs = 0;
    search_reply r = plain_search_whole(in->t, in->n, in->table, in->len, 0, certificate, (entries + 7) / 8, queue, entries, parents,
                                        entries, witness, entries);
    if (r.verdict != UNAMBIGUOUS)
        stop(in->name, "plain C", "not unambiguous");
    for (size_t i = 0; i < rules; i++)
        for (size_t j = i % 2; j < rules; j += 2)
            if (i != j) {
                hold((4 + 4 * i + 3) * q + 4 + 4 * j + 3);
                pairs++;
            }
    return pairs;
}

static double time_check(const struct input *in, size_t who, double budget)
{
    size_t q = in->g.states, bytes = (2 * q * q + 7) / 8, place = q * q + q + 3;
    double begin = now(), least = 1e18;
    do {
        double start = now();
        check_reply r = checks[who](in->t, in->n, in->table, in->len, 0, certificate, bytes);
        double spent = now() - start;
        if (r.cause != 13 || r.at != place)
            stop(in->name, names[who], "another answer than 13 at (1,1,3)");
        if (spent < least)
            least = spent;
    } while (now() - begin < budget);
    return least;
}

static void print_times(const struct input *in, size_t pairs, size_t successors, double budget, int *is_slow)
{
    printf("%s %u %zu %zu", in->name, in->g.states, pairs, successors);
    for (size_t who = 0; who < CHECKS; who++) {
        double spent = is_slow[who] ? 0 : time_check(in, who, budget);
        is_slow[who] = is_slow[who] || spent > 20 * budget;
        printf(" %.4f", spent / 1e6);
    }
    printf("\n");
    fflush(stdout);
}

int main(int argc, char **argv)
{
    double budget = argc > 2 ? atof(argv[1]) * 1e9 : 0;
    int is_slow[2][CHECKS] = {{0}};
    static struct input chequered = {.name = "chequered"}, in_turn = {.name = "in-turn"};
    if (argc < 3) {
        fprintf(stderr, "usage: hostile SECONDS RULES..\n");
        return 2;
    }
    timer = CLOCK_THREAD_CPUTIME_ID;
    for (int k = 2; k < argc; k++) {
        size_t rules = (size_t)atoi(argv[k]), targets = 2 * rules + 1;
        make_chequered(&chequered, rules);
        memset(certificate, 0, sizeof certificate);
        size_t pairs = hold_chequered(&chequered, rules);
        hold_layer_1(chequered.g.states);
        print_times(&chequered, pairs, targets * targets, budget, is_slow[0]);

        rules = make_in_turn(&in_turn, chequered.g.states);
        memset(certificate, 0, sizeof certificate);
        for (size_t index = 0; index < (size_t)in_turn.g.states * in_turn.g.states; index++)
            hold(index);
        hold_layer_1(in_turn.g.states);
        targets = (in_turn.g.states - 4 - rules - 2) / 2;
        print_times(&in_turn, rules * (rules - 1), targets * targets, budget, is_slow[1]);
    }
    return 0;
}
