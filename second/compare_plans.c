/* Compares ambiguity_read_plan, ambiguity_plan_room and ambiguity_plan_certificate_byte with the second program, case by case.
 *
 *     compare_plans CASES ANSWERS
 *
 * plan_cases.py beside this file writes these files; README.md has the layout of a case, what a line of the answers says and what the lent
 * rows hold before. What they are to hold is kept beside them, and after every call all of their entries are compared, some on either side
 * of them too, and what is only read. Prints how many cases have each answer and each cause. The exit status is 0 only if no case differs,
 * none of these numbers is too small, and the constants of the header are those of document 02. */
#define _POSIX_C_SOURCE 200809L

#include <signal.h>
#include <stdint.h>
#include <stdio.h>
#include <stdlib.h>
#include <string.h>
#include <unistd.h>

#define PROGRAM "compare_plans"
#include "ambiguity.h"
#include "compare.h"

enum {
    MAX_ROW = 70000,
    MAX_WORK = 120000,
    MAX_LIST = 1000,
    FILLS = 256,
    GUARD = 32,   /* entries on either side of a lent row */
    SECONDS = 60, /* that a call may take */
    SHOWN = 10,   /* differences that are printed */
    MAX_LINE = 9000
};

/* What a lent work row holds before; of a list the low 16 bits of it. Made once for each fill. */
static const uint32_t *before(unsigned fill)
{
    static uint32_t *made[FILLS];
    if (made[fill] == NULL) {
        made[fill] = lend(MAX_WORK * sizeof **made);
        for (size_t place = 0; place < MAX_WORK; place++)
            made[fill][place] = fill < 4      ? fill
                                : fill == 255 ? UINT32_MAX
                                              : ((uint32_t)(place + 1) * fill * 2654435761u) >> (fill % 32);
    }
    return made[fill];
}

/* Cases by what the second program answers, and how many there are at least. */
enum { NONE, PLAN, WORK_SHORT, LIST_SHORT, ROW_WRONG, ENTRIES, BYTE, BYTE_NOT_0, KINDS };

static const struct {
    const char *name;
    size_t least;
} kinds[KINDS] = {
    {"none", 10000},        {"plan", 3000}, {"refused-14-for-the-work-row", 500}, {"refused-14-for-the-list", 500},
    {"refused-22", 1000},   {"room", 1},    {"certificate-byte-0", 100},          {"certificate-byte-not-0", 50},
};
enum { LEAST_ROWS = 20000 };

static size_t of_kind[KINDS], cases, different;

static size_t kind_of(const char *name, const char *line)
{
    if (strncmp(line, "none ", 5) == 0)
        return NONE;
    if (strncmp(line, "plan ", 5) == 0)
        return PLAN;
    if (strncmp(line, "entries=", 8) == 0)
        return ENTRIES;
    if (strncmp(line, "byte=", 5) == 0)
        return strcmp(line, "byte=0") == 0 ? BYTE : BYTE_NOT_0;
    if (strncmp(line, "refused=22 ", 11) == 0)
        return ROW_WRONG;
    if (strncmp(line, "refused=14 ", 11) != 0)
        fail(name, "has a line of no kind");
    return strstr(line, " cleared=") == NULL ? WORK_SHORT : LIST_SHORT;
}

static void compared(const char *name, const char *expected, const char *found)
{
    of_kind[kind_of(name, expected)]++;
    if (strcmp(expected, found) != 0 && different++ < SHOWN)
        fprintf(stderr, "plans case %zu: expected %s, found %s\n", cases, expected, found);
    cases++;
}

static void too_slow(int signal_number)
{
    static const char said[] = "compare_plans: a call takes more than 60 seconds\n";
    (void)signal_number;
    ssize_t ignored = write(STDERR_FILENO, said, sizeof said - 1);
    (void)ignored;
    _exit(1);
}

/* The lent rows with what stands beside them, and what they are to hold. */
static uint32_t work_room[MAX_WORK + 2 * GUARD], right_work[MAX_WORK + 2 * GUARD];
static uint16_t list_room[MAX_LIST + 2 * GUARD], right_list[MAX_LIST + 2 * GUARD];

/* What a line says that the rows are to hold: its rules in front of the list, 0 in front of the work row. */
static void change(const char *name, const char *line, size_t work_entries, size_t list_entries)
{
    const char *cleared = strstr(line, " cleared="), *rules = strstr(line, " rules=");
    if (cleared != NULL) {
        size_t count = (size_t)strtoul(cleared + strlen(" cleared="), NULL, 10);
        if (count > work_entries)
            fail(name, "clears entries that are not lent");
        memset(right_work + GUARD, 0, count * sizeof *right_work);
    }
    if (rules == NULL)
        return;
    char *end = (char *)rules + strlen(" rules=") - 1;
    for (size_t place = 0; place == 0 || *end == ','; place++) {
        if (place == list_entries)
            fail(name, "lists rules that do not fit");
        right_list[GUARD + place] = (uint16_t)strtoul(end + 1, &end, 10);
    }
}

/* The line of a reply, as far as it does not tell what the work row holds; the rules are those that the list holds now. */
static char *line_of_reply(char *line, ambiguity_plan_reply reply, size_t list_entries)
{
    static const char *answers[] = {"refused", "none", "plan", "several"};
    size_t rules = 0;
    if (reply.cause != 0)
        line += sprintf(line, "refused=%llu at=%llu", (unsigned long long)reply.cause, (unsigned long long)reply.at);
    else
        line += sprintf(line, "%s", reply.found < 4 ? answers[reply.found] : "other");
    if (reply.cause == 0 && reply.found == AMBIGUITY_ONE_TREE && reply.count <= list_entries) {
        rules = (size_t)reply.count;
        for (size_t place = 0; place < rules; place++)
            line += sprintf(line, "%s%u", place == 0 ? " rules=" : ",", (unsigned)list_room[GUARD + place]);
    }
    /* What is never right. */
    if (reply.cause != 0 && (reply.found != AMBIGUITY_NO_ANSWER || reply.count != 0))
        line += sprintf(line, " found=%llu count=%llu", (unsigned long long)reply.found, (unsigned long long)reply.count);
    if (reply.cause == 0 && (reply.at != 0 || reply.count != rules || (reply.found == AMBIGUITY_ONE_TREE) != (rules != 0)))
        line += sprintf(line, " at=%llu count=%llu", (unsigned long long)reply.at, (unsigned long long)reply.count);
    return line;
}

/* Behind the line of a reply what the work row holds, as the expected line has it if that is right, and what else is wrong. */
static void line_of_rows(char *line, const char *expected, size_t work_entries, size_t list_entries)
{
    const char *cleared = strstr(expected, " cleared=");
    if (cleared != NULL)
        line += sprintf(line, "%s", cleared);
    size_t work_whole = work_entries + 2 * GUARD, list_whole = list_entries + 2 * GUARD;
    if (memcmp(work_room, right_work, work_whole * sizeof *work_room) != 0) {
        size_t place = 0;
        while (work_room[place] == right_work[place])
            place++;
        line += sprintf(line, " work[%ld]=%lu", (long)place - GUARD, (unsigned long)work_room[place]);
    }
    if (memcmp(list_room, right_list, list_whole * sizeof *list_room) != 0) {
        size_t place = 0;
        while (list_room[place] == right_list[place])
            place++;
        sprintf(line, " list[%ld]=%u", (long)place - GUARD, (unsigned)list_room[place]);
    }
}

static void compare_row(input *from, input *lines)
{
    static uint16_t row[MAX_ROW];
    static char found[MAX_LINE];
    size_t row_entries = (size_t)number(from, 4, MAX_ROW);
    const uint8_t *source = taken(from, 2 * row_entries);
    memcpy(row, source, 2 * row_entries);
    size_t work_entries = (size_t)number(from, 4, MAX_WORK), list_entries = (size_t)number(from, 4, MAX_LIST);
    const uint32_t *held = before((unsigned)number(from, 1, FILLS - 1));
    memset(work_room, 165, (work_entries + 2 * GUARD) * sizeof *work_room);
    memset(list_room, 165, (list_entries + 2 * GUARD) * sizeof *list_room);
    memcpy(work_room + GUARD, held, work_entries * sizeof *work_room);
    for (size_t place = 0; place < list_entries; place++)
        list_room[GUARD + place] = (uint16_t)held[place];
    memcpy(right_work, work_room, (work_entries + 2 * GUARD) * sizeof *work_room);
    memcpy(right_list, list_room, (list_entries + 2 * GUARD) * sizeof *list_room);
    const char *expected = line_of(lines);
    change(lines->name, expected, work_entries, list_entries);
    alarm(SECONDS);
    ambiguity_plan_reply reply = ambiguity_read_plan(row, row_entries, work_room + GUARD, work_entries, list_room + GUARD, list_entries);
    alarm(0);
    line_of_rows(line_of_reply(found, reply, list_entries), expected, work_entries, list_entries);
    if (memcmp(source, row, 2 * row_entries) != 0)
        strcat(found, " the row is changed");
    compared(lines->name, expected, found);
}

static void compare_case(input *from, input *lines)
{
    char found[100];
    switch (number(from, 1, 2)) {
    case 0:
        compare_row(from, lines);
        break;
    case 1:
        sprintf(found, "entries=%zu", (size_t)ambiguity_plan_room());
        compared(lines->name, line_of(lines), found);
        break;
    default:
        sprintf(found, "byte=%u", (unsigned)ambiguity_plan_certificate_byte((size_t)number(from, 8, UINT64_MAX)));
        compared(lines->name, line_of(lines), found);
    }
}

/* The constants of the header against the figures of document 02; 1 if one differs. */
static int constants(void)
{
    static const struct {
        const char *name;
        size_t found;
        size_t right;
    } all[] = {
        {"AMBIGUITY_PLAN_STATES", AMBIGUITY_PLAN_STATES, 27},
        {"AMBIGUITY_PLAN_WORK_ENTRIES", AMBIGUITY_PLAN_WORK_ENTRIES, 114075},
        {"AMBIGUITY_PLAN_CERTIFICATE_BYTES", AMBIGUITY_PLAN_CERTIFICATE_BYTES, 183},
        {"AMBIGUITY_TAKE", AMBIGUITY_TAKE, 1},
        {"AMBIGUITY_VOL", AMBIGUITY_VOL, 2},
        {"AMBIGUITY_GIVE", AMBIGUITY_GIVE, 3},
        {"AMBIGUITY_REPEAT", AMBIGUITY_REPEAT, 4},
        {"AMBIGUITY_NUM", AMBIGUITY_NUM, 5},
        {"AMBIGUITY_CLOSE", AMBIGUITY_CLOSE, 6},
        {"AMBIGUITY_CH", AMBIGUITY_CH, 7},
        {"AMBIGUITY_SEP", AMBIGUITY_SEP, 8},
    };
    int wrong = 0;
    for (size_t place = 0; place < sizeof all / sizeof *all; place++)
        if (all[place].found != all[place].right) {
            fprintf(stderr, "%s is %zu, not %zu\n", all[place].name, all[place].found, all[place].right);
            wrong = 1;
        }
    return wrong;
}

int main(int count, char **words)
{
    if (count != 3) {
        fprintf(stderr, "usage: compare_plans CASES ANSWERS\n");
        return 2;
    }
    signal(SIGALRM, too_slow);
    int wrong = constants();
    input from = opened(words[1]), lines = opened(words[2]);
    while (from.place < from.size)
        compare_case(&from, &lines);
    if (lines.place != lines.size)
        fail(lines.name, "has too many lines");
    size_t rows = 0;
    for (size_t kind = 0; kind < KINDS; kind++) {
        printf("plans %s %zu\n", kinds[kind].name, of_kind[kind]);
        if (of_kind[kind] < kinds[kind].least) {
            fprintf(stderr, "plans %s: fewer than %zu cases\n", kinds[kind].name, kinds[kind].least);
            wrong = 1;
        }
        rows += kind <= ROW_WRONG ? of_kind[kind] : 0;
    }
    printf("plans cases %zu rows %zu different %zu\n", cases, rows, different);
    return wrong || different != 0 || rows < LEAST_ROWS;
}
