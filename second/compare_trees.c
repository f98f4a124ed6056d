/* Compares ambiguity_find_trees and ambiguity_trees_room with the second program, case by case.
 *
 *     compare_trees TREES.cases TREES.answers ROOMS.cases ROOMS.answers
 *
 * tree_cases.py beside this file writes these files; README.md has the layout of a case, what a line of the answers says and what the lent
 * rows hold before. All entries of the lent rows are looked at afterwards, some on either side of them too, and what is only read. Prints
 * how many cases have each answer and each cause. The exit status is 0 only if no case differs and none of these numbers is 0. */
#define _POSIX_C_SOURCE 200809L

#include <signal.h>
#include <stdint.h>
#include <stdio.h>
#include <stdlib.h>
#include <string.h>
#include <unistd.h>

#define PROGRAM "compare_trees"
#include "ambiguity.h"
#include "compare.h"

enum {
    MAX_TABLE = 65536,
    MAX_ROW = 70000,
    MAX_WORK = 4400000,
    MAX_LIST = 300000,
    MAX_LINE = 4000000,
    GUARD = 32,   /* entries on either side of a lent row */
    SECONDS = 60, /* that a call may take */
    SHOWN = 10,   /* differences that are printed */
    MAX_SHOWN = 300
};

/* Entries of 16 bits as a case has them: as `source` they are compared again when they were lent. */
typedef struct {
    const uint8_t *source;
    uint16_t *entries;
    size_t count;
} lent_input;

static lent_input entries_of(input *from, uint16_t *room, size_t most)
{
    lent_input found = {NULL, room, (size_t)number(from, 4, most)};
    found.source = taken(from, 2 * found.count);
    memcpy(room, found.source, 2 * found.count);
    return found;
}

static int changed(lent_input input_row)
{
    return memcmp(input_row.source, input_row.entries, 2 * input_row.count) != 0;
}

/* What entry `place` of a lent row holds before; of a list the low 16 bits of it. */
static uint32_t before(unsigned fill, size_t place)
{
    if (fill < 4)
        return fill;
    if (fill == 255)
        return UINT32_MAX;
    return ((uint32_t)(place + 1) * fill * 2654435761u) >> (fill % 32);
}

/* Cases by answer and cause. */
enum { NONE, ONE, SEVERAL, ENTRIES, WORK_SHORT, LIST_SHORT, FIRST_CAUSE, KINDS = FIRST_CAUSE + 32 };

typedef struct {
    const char *what;
    size_t of[KINDS];
    size_t cases;
    size_t different;
} counts;

static size_t kind_of(const char *line)
{
    if (strncmp(line, "none", 4) == 0)
        return NONE;
    if (strncmp(line, "one", 3) == 0)
        return ONE;
    if (strncmp(line, "several", 7) == 0)
        return SEVERAL;
    if (strncmp(line, "entries", 7) == 0)
        return ENTRIES;
    size_t cause = (size_t)strtoul(line + strlen("refused="), NULL, 10);
    if (cause == 14)
        return strstr(line, " cleared=") == NULL ? WORK_SHORT : LIST_SHORT;
    return FIRST_CAUSE + (cause < 32 ? cause : 0);
}

static void compared(counts *tally, const char *expected, const char *found)
{
    tally->of[kind_of(expected)]++;
    if (strcmp(expected, found) != 0 && tally->different++ < SHOWN)
        fprintf(stderr, "%s case %zu: expected %.*s, found %.*s\n", tally->what, tally->cases, MAX_SHOWN, expected, MAX_SHOWN, found);
    tally->cases++;
}

/* Prints the counts of these kinds; 1 if a case differs or a count is 0. */
static int told(const counts *tally, const size_t *kinds, size_t kinds_count)
{
    static const char *names[] = {"none", "one", "several", "entries", "refused-14-for-the-work-row", "refused-14-for-the-list"};
    size_t counted = 0;
    int wrong = tally->different != 0;
    for (size_t place = 0; place < kinds_count; place++) {
        size_t kind = kinds[place];
        if (kind < FIRST_CAUSE)
            printf("%s %s %zu\n", tally->what, names[kind], tally->of[kind]);
        else
            printf("%s refused-%zu %zu\n", tally->what, kind - FIRST_CAUSE, tally->of[kind]);
        wrong |= tally->of[kind] == 0;
        counted += tally->of[kind];
    }
    printf("%s cases %zu different %zu\n", tally->what, tally->cases, tally->different);
    return wrong || counted != tally->cases;
}

static void too_slow(int signal_number)
{
    static const char said[] = "compare_trees: a call takes more than 60 seconds\n";
    (void)signal_number;
    ssize_t ignored = write(STDERR_FILENO, said, sizeof said - 1);
    (void)ignored;
    _exit(1);
}

static uint16_t table_room[MAX_TABLE], row_room[MAX_ROW];

/* What came back: `found` is 1 for none, 2 for one, 3 for several, and 0 with a refusal. */
typedef struct {
    uint64_t cause;
    uint64_t at;
    uint64_t found;
    uint64_t count;
} trees;

/* The line of what a call answered and changed, `cleared` being how many entries of the work row are to be 0. */
static void line_of_reply(char *line, trees reply, const uint32_t *work, size_t work_entries, const uint16_t *list,
                          size_t list_entries, unsigned fill, size_t cleared)
{
    static const char *answers[] = {"refused", "none", "one", "several"};
    size_t rules = 0;
    if (reply.cause != 0)
        line += sprintf(line, "refused=%llu at=%llu", (unsigned long long)reply.cause, (unsigned long long)reply.at);
    else
        line += sprintf(line, "%s", reply.found < 4 ? answers[reply.found] : "other");
    if (reply.cause == 0 && reply.found == 2 && reply.count <= list_entries) {
        rules = (size_t)reply.count;
        for (size_t place = 0; place < rules; place++)
            line += sprintf(line, "%s%u", place == 0 ? " rules=" : ",", (unsigned)list[place]);
    }
    if (cleared != 0)
        line += sprintf(line, " cleared=%zu", cleared);
    /* What is never right. */
    if (reply.cause != 0 && (reply.found != 0 || reply.count != 0))
        line += sprintf(line, " found=%llu count=%llu", (unsigned long long)reply.found, (unsigned long long)reply.count);
    if (reply.cause == 0 && (reply.at != 0 || reply.count != rules || (reply.found == 2) != (rules != 0)))
        line += sprintf(line, " at=%llu count=%llu", (unsigned long long)reply.at, (unsigned long long)reply.count);
    for (size_t place = 0; place < work_entries; place++) {
        uint32_t right = place < cleared ? 0 : before(fill, place);
        if (work[place] != right) {
            line += sprintf(line, " work[%zu]=%lu", place, (unsigned long)work[place]);
            break;
        }
    }
    for (size_t place = rules; place < list_entries; place++)
        if (list[place] != (uint16_t)before(fill, place)) {
            line += sprintf(line, " list[%zu]=%u", place, (unsigned)list[place]);
            break;
        }
}

/* Whether entries beside a lent row of so many bytes still hold byte 165. */
static int guarded(const uint8_t *row, size_t bytes)
{
    for (size_t place = 1; place <= GUARD; place++)
        if (row[-(ptrdiff_t)place] != 165 || row[bytes + place - 1] != 165)
            return 0;
    return 1;
}

static int compare_trees(const char *cases, const char *answers)
{
    static const size_t kinds[] = {NONE,
                                   ONE,
                                   SEVERAL,
                                   WORK_SHORT,
                                   LIST_SHORT,
                                   FIRST_CAUSE + 1,
                                   FIRST_CAUSE + 2,
                                   FIRST_CAUSE + 3,
                                   FIRST_CAUSE + 4,
                                   FIRST_CAUSE + 5,
                                   FIRST_CAUSE + 6,
                                   FIRST_CAUSE + 7,
                                   FIRST_CAUSE + 8,
                                   FIRST_CAUSE + 19,
                                   FIRST_CAUSE + 22};
    input from = opened(cases), lines = opened(answers);
    counts tally = {"trees", {0}, 0, 0};
    uint32_t *work_room = lend((MAX_WORK + 2 * GUARD) * sizeof *work_room);
    uint16_t *list_room = lend((MAX_LIST + 2 * GUARD) * sizeof *list_room);
    char *found = lend(MAX_LINE);
    while (from.place < from.size) {
        size_t t = (size_t)number(&from, 8, UINT64_MAX), n = (size_t)number(&from, 8, UINT64_MAX);
        lent_input table = entries_of(&from, table_room, MAX_TABLE), row = entries_of(&from, row_room, MAX_ROW);
        size_t work_entries = (size_t)number(&from, 4, MAX_WORK), list_entries = (size_t)number(&from, 4, MAX_LIST);
        unsigned fill = (unsigned)number(&from, 1, 255);
        uint32_t *work = work_room + GUARD;
        uint16_t *list = list_room + GUARD;
        memset(work - GUARD, 165, (work_entries + 2 * GUARD) * sizeof *work);
        memset(list - GUARD, 165, (list_entries + 2 * GUARD) * sizeof *list);
        for (size_t place = 0; place < work_entries; place++)
            work[place] = before(fill, place);
        for (size_t place = 0; place < list_entries; place++)
            list[place] = (uint16_t)before(fill, place);
        const char *expected = line_of(&lines);
        const char *cleared = strstr(expected, " cleared=");
        alarm(SECONDS);
        __auto_type reply = ambiguity_find_trees(t, n, table.entries, table.count, row.entries, row.count, work, work_entries,
                                                 list, list_entries);
        alarm(0);
        line_of_reply(found, (trees){reply.cause, reply.at, reply.found, reply.count}, work, work_entries, list, list_entries, fill,
                      cleared == NULL ? 0 : (size_t)strtoul(cleared + strlen(" cleared="), NULL, 10));
        if (changed(table) || changed(row))
            strcat(found, " an input is changed");
        if (!guarded((uint8_t *)work, work_entries * sizeof *work) || !guarded((uint8_t *)list, list_entries * sizeof *list))
            strcat(found, " an entry beside a lent row is changed");
        compared(&tally, expected, found);
    }
    if (lines.place != lines.size)
        fail(answers, "has too many lines");
    return told(&tally, kinds, sizeof kinds / sizeof *kinds);
}

static int compare_rooms(const char *cases, const char *answers)
{
    static const size_t kinds[] = {ENTRIES,         FIRST_CAUSE + 1, FIRST_CAUSE + 2, FIRST_CAUSE + 3, FIRST_CAUSE + 4,
                                   FIRST_CAUSE + 5, FIRST_CAUSE + 6, FIRST_CAUSE + 7, FIRST_CAUSE + 8, FIRST_CAUSE + 19};
    input from = opened(cases), lines = opened(answers);
    counts tally = {"tree-rooms", {0}, 0, 0};
    char found[200];
    while (from.place < from.size) {
        size_t t = (size_t)number(&from, 8, UINT64_MAX), n = (size_t)number(&from, 8, UINT64_MAX);
        lent_input table = entries_of(&from, table_room, MAX_TABLE);
        alarm(SECONDS);
        __auto_type reply = ambiguity_trees_room(t, n, table.entries, table.count);
        alarm(0);
        int length;
        if (reply.cause != 0)
            length = sprintf(found, "refused=%llu at=%llu", (unsigned long long)reply.cause, (unsigned long long)reply.at);
        else
            length = sprintf(found, "entries=%llu", (unsigned long long)reply.entries);
        if ((reply.cause != 0) ? reply.entries != 0 : reply.at != 0)
            sprintf(found + length, " at=%llu entries=%llu", (unsigned long long)reply.at, (unsigned long long)reply.entries);
        if (changed(table))
            strcat(found, " an input is changed");
        compared(&tally, line_of(&lines), found);
    }
    if (lines.place != lines.size)
        fail(answers, "has too many lines");
    return told(&tally, kinds, sizeof kinds / sizeof *kinds);
}

int main(int count, char **words)
{
    if (count != 5) {
        fprintf(stderr, "usage: compare_trees TREES.cases TREES.answers ROOMS.cases ROOMS.answers\n");
        return 2;
    }
    signal(SIGALRM, too_slow);
    int wrong = compare_trees(words[1], words[2]);
    return compare_rooms(words[3], words[4]) | wrong;
}
