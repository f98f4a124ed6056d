/* From grammar text to the verdict: reads a text from standard input, searches it, and prints the verdict: with the certificate's
 * bytes, which are then checked, or with the two strings of the witness. Exits with 0 for unambiguous, 1 for potential, 2 for a
 * refusal. */
#include <stdio.h>
#include <stdlib.h>

#include "ambiguity.h"

/* How many callers a state remembers; with 1 or 2 there are more states, and fewer false alarms. */
#ifndef CALLERS
#define CALLERS 0
#endif

static uint8_t text[AMBIGUITY_MAX_TEXT_BYTES + 1];
static uint16_t table[AMBIGUITY_MAX_TABLE_ENTRIES];
static uint32_t starts[AMBIGUITY_MAX_NAMES];
static uint32_t lengths[AMBIGUITY_MAX_NAMES];

static int refused(uint64_t cause, uint64_t at)
{
    fprintf(stderr, "refused=%llu at=%llu: %s\n", (unsigned long long)cause, (unsigned long long)at, ambiguity_cause_text(cause));
    return 2;
}

/* The rows of the search, and Q. */
struct rows {
    size_t states;
    size_t bytes;
    size_t entries;
    uint8_t *certificate;
    uint32_t *queue, *parents, *witness;
};

/* As much as a search is to be lent, and no more. */
static int lend(struct rows *rows, ambiguity_room_reply room)
{
    rows->states = room.states;
    rows->bytes = room.certificate;
    rows->entries = room.entries;
    rows->certificate = malloc(rows->bytes);
    rows->queue = malloc(rows->entries * sizeof *rows->queue);
    rows->parents = malloc(rows->entries * sizeof *rows->parents);
    rows->witness = malloc(rows->entries * sizeof *rows->witness);
    return rows->certificate != NULL && rows->queue != NULL && rows->parents != NULL && rows->witness != NULL;
}

static void give_back(struct rows *rows)
{
    free(rows->certificate);
    free(rows->queue);
    free(rows->parents);
    free(rows->witness);
}

/* The step record that leads from an entry of the witness to the next one. */
static ambiguity_step_reply step_between(ambiguity_read_reply grammar, size_t q, uint32_t from, uint32_t to)
{
    for (size_t nth = 0;; nth++) {
        ambiguity_step_reply step = ambiguity_nth_step(grammar.terminals, grammar.nonterminals, table, grammar.entries, CALLERS,
                                                       from / q / q, from / q % q, from % q, nth);
        if (step.kind != AMBIGUITY_RECORD || (step.layer * q + step.left) * q + step.right == to)
            return step;
    }
}

/* A letter as a word: (i opens rule i, )i closes it, a symbol stands by its name. */
static void print_letter(ambiguity_read_reply grammar, ambiguity_move move)
{
    if (move.moved == AMBIGUITY_SYMBOL) {
        size_t symbol = (size_t)(move.number < AMBIGUITY_START ? move.number - 1 : grammar.terminals + move.number - AMBIGUITY_START);
        printf("%.*s", (int)lengths[symbol], (const char *)text + starts[symbol]);
    } else {
        printf("%c%llu", move.moved == AMBIGUITY_OPENING ? '(' : ')', (unsigned long long)move.number);
    }
}

/* The string of one side: its letters in order, and nothing where it stays. */
static void print_string(ambiguity_read_reply grammar, const struct rows *rows, size_t entries, int on_left)
{
    const char *between = "";
    printf(on_left ? "left=" : "right=");
    for (size_t i = 0; i + 1 < entries; i++) {
        ambiguity_step_reply step = step_between(grammar, rows->states, rows->witness[i], rows->witness[i + 1]);
        ambiguity_move move = on_left ? step.on_left : step.on_right;
        if (move.moved != AMBIGUITY_STILL) {
            printf("%s", between);
            print_letter(grammar, move);
            between = " ";
        }
    }
    printf("\n");
}

static int judge(ambiguity_read_reply grammar, struct rows *rows)
{
    size_t t = grammar.terminals, n = grammar.nonterminals, entries = grammar.entries;
    ambiguity_search_reply found =
        ambiguity_search(t, n, table, entries, CALLERS, rows->certificate, rows->bytes, rows->queue, rows->entries, rows->parents,
                         rows->entries, rows->witness, rows->entries);
    if (found.cause != AMBIGUITY_NOT_REFUSED)
        return refused(found.cause, found.at);
    printf("states=%llu\n", (unsigned long long)rows->states);
    if (found.verdict == AMBIGUITY_POTENTIAL) {
        printf("verdict=potential\n");
        print_string(grammar, rows, found.count, 1);
        print_string(grammar, rows, found.count, 0);
        return 1;
    }
    printf("verdict=unambiguous\nreached=%llu\ncertificate=", (unsigned long long)found.count);
    for (size_t i = 0; i < rows->bytes; i++)
        printf("%02x", rows->certificate[i]);
    printf("\n");
    ambiguity_check_reply checked = ambiguity_check_certificate(t, n, table, entries, CALLERS, rows->certificate, rows->bytes);
    return checked.cause == AMBIGUITY_NOT_REFUSED ? 0 : refused(checked.cause, checked.at);
}

int main(void)
{
    size_t bytes = fread(text, 1, sizeof text, stdin);
    if (ferror(stdin)) {
        perror("standard input");
        return 2;
    }
    ambiguity_read_reply grammar = ambiguity_read_text(text, bytes, table, AMBIGUITY_MAX_TABLE_ENTRIES, starts,
                                                       AMBIGUITY_MAX_NAMES, lengths, AMBIGUITY_MAX_NAMES);
    if (grammar.cause != AMBIGUITY_NOT_REFUSED)
        return refused(grammar.cause, grammar.at);
    ambiguity_room_reply room = ambiguity_search_room(grammar.terminals, grammar.nonterminals, table, grammar.entries, CALLERS);
    if (room.cause != AMBIGUITY_NOT_REFUSED)
        return refused(room.cause, room.at);
    struct rows rows;
    int status = lend(&rows, room) ? judge(grammar, &rows) : refused(AMBIGUITY_BUFFER_TOO_SHORT, 0);
    give_back(&rows);
    return status;
}
