/* Compares the functions of drafts with the second program, call by call.
 *
 *     compare_drafts CASES ANSWERS
 *
 * draft_cases.py beside this file writes these files; README.md has the layout of a case and what a line of the answers says. A case is a
 * history on one row. What the row is to hold is kept beside it: a line of the answers tells which entries a call changes, and after every
 * call all entries of the row are compared, lent or not, some on either side of it too, and what is only read. Prints how many calls of
 * each function have each answer and each cause. The exit status is 0 only if no call differs and none of these numbers is 0. */
#define _POSIX_C_SOURCE 200809L

#include <signal.h>
#include <stdint.h>
#include <stdio.h>
#include <stdlib.h>
#include <string.h>
#include <unistd.h>

#define PROGRAM "compare_drafts"
#include "ambiguity.h"
#include "compare.h"

enum {
    ENTRIES = 12827,        /* of a row that is long enough */
    MAX_SIZE = 2 * ENTRIES, /* of the longest row of a case */
    MAX_GIVEN = 65536,      /* of a table, an added rule, or what is put into a row */
    MAX_STEPS = 20000,
    GUARD = 32,   /* entries on either side of a row */
    SECONDS = 60, /* that a call may take */
    SHOWN = 10,   /* differences that are printed */
    MAX_LINE = 200,
    CAUSES = 32
};

/* The steps, by their number in a case: the first seven are calls. */
enum { NEW, ADD, WITHDRAW, MARK, RETURN, COUNTS, TABLE, CALLS, PUT = CALLS, LEND, STEPS };

static const char *names[CALLS] = {"new", "add", "withdraw", "mark", "return", "counts", "table"};

/* The causes that each call has cases of; 0 is an answer. */
static const int causes[CALLS][CAUSES] = {
    {0, 1, 2, 3, 4, 5, 6, 7, 8, 14, -1}, {0, 2, 3, 4, 5, 6, 7, 8, 14, 23, -1}, {0, 14, 23, -1}, {0, 14, 23, -1}, {0, 14, 23, -1},
    {0, 14, 23, -1},                     {0, 14, 23, -1},
};

/* Entries that a call is given: as `source` they are compared again when they were lent. */
typedef struct {
    const uint8_t *source;
    uint16_t *entries;
    size_t count;
} lent_input;

static uint16_t given_room[MAX_GIVEN];

static lent_input entries_of(input *from)
{
    lent_input found = {NULL, given_room, (size_t)number(from, 4, MAX_GIVEN)};
    found.source = taken(from, 2 * found.count);
    memcpy(given_room, found.source, 2 * found.count);
    return found;
}

/* A row and what it is to hold, each with entries on either side. `lent` of its `size` entries are lent. */
static uint16_t row_room[MAX_SIZE + 2 * GUARD], right_room[MAX_SIZE + 2 * GUARD];
static uint16_t *const row = row_room + GUARD, *const right = right_room + GUARD;
static size_t size, lent;

/* What entry `place` of a row holds before. */
static uint16_t before(unsigned fill, size_t place)
{
    if (fill < 4)
        return (uint16_t)fill;
    if (fill == 255)
        return UINT16_MAX;
    return (uint16_t)(((uint32_t)(place + 1) * fill * 2654435761u) >> (fill % 32));
}

static unsigned digit(const char *name, char letter)
{
    if (letter >= '0' && letter <= '9')
        return (unsigned)(letter - '0');
    if (letter >= 'a' && letter <= 'f')
        return (unsigned)(letter - 'a') + 10;
    fail(name, "has a wrong digit");
}

/* Takes the changes of a line, PLACE:HEX,PLACE:HEX, into what the row is to hold. */
static void change(const char *name, const char *changes)
{
    while (*changes != 0) {
        char *end;
        size_t place = (size_t)strtoul(changes, &end, 10);
        if (*end != ':')
            fail(name, "has a wrong change");
        for (changes = end + 1; *changes != 0 && *changes != ','; changes += 4, place++) {
            unsigned value = 0;
            for (int step = 0; step < 4; step++)
                value = value * 16 + digit(name, changes[(step + 2) % 4]);
            if (place >= size)
                fail(name, "changes an entry past the row");
            right[place] = (uint16_t)value;
        }
        changes += *changes == ',';
    }
}

/* The replies, each with the fields that all have. */
static char *refusal(char *line, uint64_t cause, uint64_t at)
{
    return line + sprintf(line, "refused=%llu at=%llu", (unsigned long long)cause, (unsigned long long)at);
}

/* The line of a step: what is never right is written behind. */
static void line_of_step(char *line, uint64_t cause, uint64_t at)
{
    if (cause != 0)
        refusal(line, cause, at);
    else
        sprintf(line, at == 0 ? "done" : "done at=%llu", (unsigned long long)at);
}

static void line_of_counts(char *line)
{
    __auto_type reply = ambiguity_draft_counts(row, lent);
    if (reply.cause != 0)
        line = refusal(line, reply.cause, reply.at);
    if (reply.cause == 0 || reply.terminals != 0 || reply.nonterminals != 0 || reply.rules != 0 || reply.entries != 0 ||
        reply.states != 0)
        line += sprintf(line, "terminals=%llu nonterminals=%llu rules=%llu entries=%llu states=%llu",
                        (unsigned long long)reply.terminals, (unsigned long long)reply.nonterminals,
                        (unsigned long long)reply.rules, (unsigned long long)reply.entries, (unsigned long long)reply.states);
    if (reply.cause == 0 && reply.at != 0)
        sprintf(line, " at=%llu", (unsigned long long)reply.at);
}

static void line_of_table(char *line)
{
    __auto_type reply = ambiguity_draft_table(row, lent);
    if (reply.cause != 0)
        line = refusal(line, reply.cause, reply.at);
    if (reply.cause == 0 || reply.start != 0 || reply.entries != 0)
        line += sprintf(line, "start=%llu entries=%llu", (unsigned long long)reply.start, (unsigned long long)reply.entries);
    if (reply.cause == 0 && reply.at != 0)
        sprintf(line, " at=%llu", (unsigned long long)reply.at);
}

/* Takes a call from the file and makes it; its line. */
static void line_of_call(char *line, input *from, unsigned kind)
{
    lent_input given = {NULL, given_room, 0};
    size_t t = 0, n = 0;
    if (kind == NEW) {
        t = (size_t)number(from, 8, UINT64_MAX);
        n = (size_t)number(from, 8, UINT64_MAX);
    }
    if (kind == NEW || kind == ADD)
        given = entries_of(from);
    size_t which = kind == WITHDRAW || kind == MARK || kind == RETURN ? (size_t)number(from, 8, UINT64_MAX) : 0;
    alarm(SECONDS);
    if (kind == COUNTS)
        line_of_counts(line);
    else if (kind == TABLE)
        line_of_table(line);
    else {
        __auto_type reply = kind == NEW        ? ambiguity_new_draft(t, n, given.entries, given.count, row, lent)
                            : kind == ADD      ? ambiguity_add_rule(row, lent, given.entries, given.count)
                            : kind == WITHDRAW ? ambiguity_withdraw_rule(row, lent, which)
                            : kind == MARK     ? ambiguity_set_mark(row, lent, which)
                                               : ambiguity_return_to_mark(row, lent, which);
        line_of_step(line, reply.cause, reply.at);
    }
    alarm(0);
    if (given.source != NULL && memcmp(given.source, given.entries, 2 * given.count) != 0)
        strcat(line, " an input is changed");
}

static void too_slow(int signal_number)
{
    static const char said[] = "compare_drafts: a call takes more than 60 seconds\n";
    (void)signal_number;
    ssize_t ignored = write(STDERR_FILENO, said, sizeof said - 1);
    (void)ignored;
    _exit(1);
}

/* How many calls have each answer and each cause, and how many changed the row. */
static size_t tally[CALLS][CAUSES], calls, different, changing;

static void told(size_t case_number, const char *expected, const char *found)
{
    if (different++ < SHOWN)
        fprintf(stderr, "case %zu call %zu: expected %.*s, found %s\n", case_number, calls, MAX_LINE, expected, found);
}

/* One call beside its line of the answers. */
static void compared(size_t case_number, input *from, input *answers, unsigned kind)
{
    char found[2 * MAX_LINE] = "";
    char *expected = line_of(answers);
    line_of_call(found, from, kind);
    char *changes = strstr(expected, " changed=");
    if (changes != NULL) {
        *changes = 0;
        changes += strlen(" changed=");
        changing += *changes != 0;
        change(answers->name, changes);
    }
    size_t cause = strncmp(expected, "refused=", 8) == 0 ? (size_t)strtoul(expected + 8, NULL, 10) : 0;
    if (cause >= CAUSES)
        fail(answers->name, "has a cause that there is not");
    tally[kind][cause]++;
    size_t whole = size + 2 * GUARD;
    if (memcmp(row_room, right_room, whole * sizeof *row) != 0) {
        size_t place = 0;
        while (row_room[place] == right_room[place])
            place++;
        sprintf(found + strlen(found), " and entry %ld is %u, not %u", (long)place - GUARD, (unsigned)row_room[place],
                (unsigned)right_room[place]);
        memcpy(row_room, right_room, whole * sizeof *row);
        told(case_number, expected, found);
    } else if (strcmp(expected, found) != 0)
        told(case_number, expected, found);
    calls++;
}

static void history(size_t case_number, input *from, input *answers)
{
    size = (size_t)number(from, 4, MAX_SIZE);
    lent = size;
    unsigned fill = (unsigned)number(from, 1, 255);
    for (size_t place = 0; place < size + 2 * GUARD; place++)
        row_room[place] = 0xA5A5;
    for (size_t place = 0; place < size; place++)
        row[place] = before(fill, place);
    memcpy(right_room, row_room, (size + 2 * GUARD) * sizeof *row);
    for (uint64_t steps = number(from, 4, MAX_STEPS); steps > 0; steps--) {
        unsigned kind = (unsigned)number(from, 1, STEPS - 1);
        if (kind == LEND)
            lent = (size_t)number(from, 4, size);
        else if (kind == PUT) {
            size_t place = (size_t)number(from, 4, size);
            lent_input given = entries_of(from);
            if (given.count > size - place)
                fail(from->name, "puts entries past a row");
            memcpy(row + place, given.entries, 2 * given.count);
            memcpy(right + place, given.entries, 2 * given.count);
        } else
            compared(case_number, from, answers, kind);
    }
}

int main(int count, char **words)
{
    if (count != 3) {
        fprintf(stderr, "usage: compare_drafts CASES ANSWERS\n");
        return 2;
    }
    signal(SIGALRM, too_slow);
    int wrong = 0;
    if (ambiguity_draft_room() != ENTRIES || AMBIGUITY_DRAFT_ENTRIES != ENTRIES) {
        fprintf(stderr, "the entries of a row are %zu and %zu, not %d\n", (size_t)ambiguity_draft_room(),
                (size_t)AMBIGUITY_DRAFT_ENTRIES, ENTRIES);
        wrong = 1;
    }
    input from = opened(words[1]), answers = opened(words[2]);
    size_t cases = 0, counted = 0;
    while (from.place < from.size)
        history(cases++, &from, &answers);
    if (answers.place != answers.size)
        fail(answers.name, "has too many lines");
    for (size_t kind = 0; kind < CALLS; kind++)
        for (const int *cause = causes[kind]; *cause >= 0; cause++) {
            if (*cause == 0)
                printf("drafts %s done %zu\n", names[kind], tally[kind][0]);
            else
                printf("drafts %s refused-%d %zu\n", names[kind], *cause, tally[kind][*cause]);
            wrong |= tally[kind][*cause] == 0;
            counted += tally[kind][*cause];
        }
    printf("drafts changing %zu\n", changing);
    printf("drafts cases %zu calls %zu different %zu\n", cases, calls, different);
    return wrong || different != 0 || counted != calls || changing == 0;
}
