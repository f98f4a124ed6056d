/* The stack that each function uses, in bytes. A thread runs on a stack that was painted; after the call the paint tells how deep
 * the stack went below the caller. Exits with 0 if none went deeper than ambiguity.h says. The frames are of fixed size and no
 * function calls itself, so the largest grammar, with the most names, has the deepest calls that there are. Functions that take callers
 * are measured with 0, 1 and 2. A line with more names than the limit is read another way, which is measured too, in the robot's text and
 * in a module's. The report takes no more than 48 states; its two strings are read back. Trees are found of the longest rows: none, one,
 * also where the list is too short for it, and several. A draft begins from the longest table, is marked, and gets its last rule back.
 * Plans are read of the longest methods: none, a plan, also where the list is too short for it. */
#define _XOPEN_SOURCE 700
#include <pthread.h>
#include <stdio.h>
#include <stdlib.h>
#include <string.h>

#include "ambiguity.h"

#define STACK (1 << 23)
#define PAINT 0xA5
#define MOST AMBIGUITY_MAX_STATES
#define ROW AMBIGUITY_ROW_ENTRIES(MOST)
#define END (ROW / 2 + MOST + 1)
#define REPORT_STATES 46
#define REPORT_NAMES 150
#define LAST "rule=S: a19 a19\n"
#define LAST_POTENTIAL "rule=S: S\nrule=S:\n"
#define LAST_PAIRS "rule=S: a0 a0 S\n"
#define LAST_TREES "rule=S: S S\n"
#define LINES "left=(0 (1 a0 )1 )0\nright=S (0 a9\n"
#define LETTERS 5

static uint16_t table[AMBIGUITY_MAX_TABLE_ENTRIES];
static uint8_t certificate[AMBIGUITY_CERTIFICATE_BYTES(MOST)];
static uint8_t text[AMBIGUITY_MAX_TEXT_BYTES + 1];
static uint8_t addon[AMBIGUITY_MAX_TEXT_BYTES + 1];
static uint8_t out[AMBIGUITY_MAX_TEXT_BYTES];
static uint32_t starts[AMBIGUITY_MAX_NAMES];
static uint32_t lengths[AMBIGUITY_MAX_NAMES];
static uint32_t queue[ROW];
static uint32_t parents[ROW];
static uint32_t witness[ROW];
static uint32_t row[] = {0, MOST * 2 + 2, MOST * 2 + 3};
static ambiguity_triple_record records[] = {{0, 0, 0}, {0, 2, 2}, {0, 2, 3}};
static uint32_t strings[2][LETTERS];
static uint32_t work[AMBIGUITY_TREES_ENTRIES(MOST)];
static uint16_t sentence[AMBIGUITY_MAX_ROW];
static uint16_t list[AMBIGUITY_MAX_ROW];
static size_t list_entries;
static ambiguity_trees_reply trees;
static ambiguity_trees_room_reply trees_room;
static uint16_t draft[AMBIGUITY_DRAFT_ENTRIES];
static uint16_t rule[14];
static ambiguity_draft_reply drafted;
static ambiguity_draft_counts_reply counts;
static ambiguity_draft_table_reply place;
static size_t sentence_entries;
static ambiguity_plan_reply plan;
static ambiguity_read_back_reply read_back;
static ambiguity_read_reply grammar;
static ambiguity_read_reply joined;
static ambiguity_part_reply name;
static ambiguity_check_reply checked;
static ambiguity_room_reply room;
static ambiguity_write_reply written;
static uint64_t verdict;
static size_t callers;
static uint8_t *below;

static void run_table(void) { ambiguity_check_table(grammar.terminals, grammar.nonterminals, table, grammar.entries); }

static void run_step(void)
{
    size_t p, k;
    for (p = 0; p < grammar.states; p++)
        for (k = 0; k < 4; k++)
            ambiguity_nth_step(grammar.terminals, grammar.nonterminals, table, grammar.entries, callers, k % 2, p, p, k);
}

static void run_certificate(void)
{
    checked = ambiguity_check_certificate(grammar.terminals, grammar.nonterminals, table, grammar.entries, callers, certificate,
                                          sizeof certificate);
}

static void run_witness(void)
{
    ambiguity_check_witness(grammar.terminals, grammar.nonterminals, table, grammar.entries, callers, row, 3);
}

static void run_records(void)
{
    ambiguity_check_witness_records(grammar.terminals, grammar.nonterminals, table, grammar.entries, callers, records, 3);
}

static void run_search(void)
{
    ambiguity_search_reply reply =
        ambiguity_search(grammar.terminals, grammar.nonterminals, table, grammar.entries, callers, certificate, sizeof certificate,
                         queue, ROW, parents, ROW, witness, ROW);
    verdict = reply.verdict;
}

static void run_room(void)
{
    room = ambiguity_search_room(grammar.terminals, grammar.nonterminals, table, grammar.entries, callers);
}

static void run_read(void)
{
    grammar = ambiguity_read_text(text, strlen((char *)text), table, AMBIGUITY_MAX_TABLE_ENTRIES, starts, AMBIGUITY_MAX_NAMES,
                                  lengths, AMBIGUITY_MAX_NAMES);
}

static void run_write(void)
{
    written = ambiguity_write_text(grammar.terminals, grammar.nonterminals, table, grammar.entries, text, strlen((char *)text),
                                   starts, AMBIGUITY_MAX_NAMES, lengths, AMBIGUITY_MAX_NAMES, out, sizeof out);
}

static void run_length(void)
{
    ambiguity_written_length(grammar.terminals, grammar.nonterminals, table, grammar.entries, text, strlen((char *)text), starts,
                             AMBIGUITY_MAX_NAMES, lengths, AMBIGUITY_MAX_NAMES);
}

static void run_read_back(void)
{
    read_back = ambiguity_read_back(text, strlen((char *)text), (const uint8_t *)LINES, strlen(LINES), strings[0], LETTERS,
                                    strings[1], LETTERS);
}

static void run_join(void)
{
    joined = ambiguity_join_texts(text, strlen((char *)text), addon, strlen((char *)addon), table, AMBIGUITY_MAX_TABLE_ENTRIES);
}

static void run_name(void)
{
    name = ambiguity_joined_name(text, strlen((char *)text), addon, strlen((char *)addon), AMBIGUITY_MAX_NAMES - 1);
}

static void run_write_joined(void)
{
    written = ambiguity_write_joined(text, strlen((char *)text), addon, strlen((char *)addon), out, sizeof out);
}

static void run_trees_room(void)
{
    trees_room = ambiguity_trees_room(grammar.terminals, grammar.nonterminals, table, grammar.entries);
}

static void run_trees(void)
{
    trees = ambiguity_find_trees(grammar.terminals, grammar.nonterminals, table, grammar.entries, sentence, AMBIGUITY_MAX_ROW, work,
                                 AMBIGUITY_TREES_ENTRIES(MOST), list, list_entries);
}

static void run_draft_room(void) { place.entries = ambiguity_draft_room(); }

static void run_new_draft(void)
{
    drafted = ambiguity_new_draft(grammar.terminals, grammar.nonterminals, table, grammar.entries, draft, AMBIGUITY_DRAFT_ENTRIES);
}

static void run_add(void) { drafted = ambiguity_add_rule(draft, AMBIGUITY_DRAFT_ENTRIES, rule, sizeof rule / sizeof *rule); }

static void run_withdraw(void) { drafted = ambiguity_withdraw_rule(draft, AMBIGUITY_DRAFT_ENTRIES, counts.rules); }

static void run_mark(void) { drafted = ambiguity_set_mark(draft, AMBIGUITY_DRAFT_ENTRIES, AMBIGUITY_MARKS); }

static void run_return(void) { drafted = ambiguity_return_to_mark(draft, AMBIGUITY_DRAFT_ENTRIES, AMBIGUITY_MARKS); }

static void run_counts(void) { counts = ambiguity_draft_counts(draft, AMBIGUITY_DRAFT_ENTRIES); }

static void run_draft_table(void) { place = ambiguity_draft_table(draft, AMBIGUITY_DRAFT_ENTRIES); }

static void run_plan_room(void) { place.entries = ambiguity_plan_room(); }

static void run_plan(void)
{
    plan = ambiguity_read_plan(sentence, sentence_entries, work, AMBIGUITY_PLAN_WORK_ENTRIES, list, list_entries);
}

static void run_plan_certificate(void) { place.entries = ambiguity_plan_certificate_byte(0); }

static void run_report(void) { ambiguity_report(text, strlen((char *)text), out, sizeof out); }

static void *on_thread(void *run)
{
    uint8_t here;
    below = &here;
    ((void (*)(void))(size_t)run)();
    return NULL;
}

/* 1 if the function went deeper than it may. */
static int measure(const char *what, void (*run)(void), size_t most)
{
    uint8_t *stack = aligned_alloc(4096, STACK);
    size_t low = 0;
    pthread_attr_t attributes;
    pthread_t thread;
    memset(stack, PAINT, STACK);
    if (pthread_attr_init(&attributes) || pthread_attr_setstack(&attributes, stack, STACK)
        || pthread_create(&thread, &attributes, on_thread, (void *)(size_t)run) || pthread_join(thread, NULL))
        return 1;
    while (stack[low] == PAINT)
        low++;
    size_t depth = (size_t)(below - (stack + low));
    printf("%s: %s uses %zu bytes of stack, may use %zu\n", depth <= most ? "ok" : "WRONG", what, depth, most);
    free(stack);
    return depth > most;
}

/* So many names of either kind; rules of two terminals each, no two equal, until Q is so many states; the last three states are those
 * of `last`. */
static void make_text(int states, int names, const char *last)
{
    char *end = (char *)text;
    int i;
    end += sprintf(end, "terminals=a0");
    for (i = 1; i < names; i++)
        end += sprintf(end, ",a%d", i);
    end += sprintf(end, "\nnonterminals=S");
    for (i = 1; i < names; i++)
        end += sprintf(end, ",Nonterminal%d", i);
    end += sprintf(end, "\n");
    for (i = 0; 3 * i + 4 < states - 3; i++)
        end += sprintf(end, "rule=S: a%d a%d\n", i / 20, i % 20);
    strcpy(end, last);
}

/* The certificate that holds all triples but (1,1,1). */
static void make_certificate(void)
{
    memset(certificate, 0xFF, sizeof certificate);
    certificate[END / 8] &= (uint8_t)~(1 << END % 8);
}

/* A line of names that are unequal and more than a grammar may have, behind `front`; the text has so many bytes. */
static void make_long_text(size_t bytes, const char *front)
{
    char *end = (char *)text;
    int i;
    end += sprintf(end, "%sn0", front);
    for (i = 1; (size_t)(end - (char *)text) + 8 < bytes; i++)
        end += sprintf(end, ",n%x", i);
    strcpy(end, "\n");
}

/* A first line with the name `a` as often as so many bytes allow. */
static void make_doubled_text(size_t bytes)
{
    char *end = (char *)text;
    end += sprintf(end, "terminals=a");
    while ((size_t)(end - (char *)text) + 3 <= bytes)
        end += sprintf(end, ",a");
    strcpy(end, "\n");
}

/* The reader, and reading back, of a text that is refused with this cause at a line. */
static int measure_refused_text(const char *reader, const char *back, uint64_t cause, uint64_t at)
{
    int wrong = measure(reader, run_read, AMBIGUITY_READ_TEXT_STACK_BYTES);
    wrong += grammar.cause != cause || grammar.at != at;
    wrong += measure(back, run_read_back, AMBIGUITY_READ_BACK_STACK_BYTES);
    return wrong + (read_back.cause != cause || read_back.at != at);
}

/* Texts with a line of too many names. In a report's text so many cannot be unequal. */
static int measure_long_texts(void)
{
    int wrong;
    make_long_text(AMBIGUITY_MAX_TEXT_BYTES, "terminals=");
    wrong = measure_refused_text("ambiguity_read_text, many terminals", "ambiguity_read_back, many terminals",
                                 AMBIGUITY_OUT_OF_RANGE, 1);
    make_long_text(AMBIGUITY_MAX_TEXT_BYTES, "terminals=a\nnonterminals=");
    wrong += measure_refused_text("ambiguity_read_text, many nonterminals", "ambiguity_read_back, many nonterminals",
                                  AMBIGUITY_OUT_OF_RANGE, 2);
    make_doubled_text(AMBIGUITY_MAX_TEXT_BYTES);
    wrong += measure_refused_text("ambiguity_read_text, many doubles", "ambiguity_read_back, many doubles",
                                  AMBIGUITY_NAME_REPEATED, 1);
    make_doubled_text(AMBIGUITY_MAX_REPORT_TEXT_BYTES);
    wrong += measure("ambiguity_report, many doubles", run_report, AMBIGUITY_REPORT_STACK_BYTES);
    return wrong + (memcmp(out, "refused=18\nat=1\n", 16) != 0);
}

/* The join of the text and the module, its last name, and the joined text, with this cause. */
static int measure_joined(const char *join, const char *shown, const char *write, uint64_t cause)
{
    int wrong = measure(join, run_join, AMBIGUITY_JOIN_STACK_BYTES);
    wrong += joined.cause != cause;
    wrong += measure(shown, run_name, AMBIGUITY_JOIN_STACK_BYTES);
    wrong += (name.text == AMBIGUITY_NO_TEXT) != (cause != AMBIGUITY_NOT_REFUSED);
    wrong += measure(write, run_write_joined, AMBIGUITY_WRITE_JOINED_STACK_BYTES);
    return wrong + (written.cause != cause);
}

/* A module with the names and rules of the largest grammar in capitals; one with a line of too many names; then such a robot. */
static int measure_joins(void)
{
    int wrong;
    size_t i;
    make_text(MOST, AMBIGUITY_MAX_TERMINALS, LAST);
    strcpy((char *)addon, (char *)text);
    for (i = 0; addon[i] != 0; i++)
        if (addon[i] == 'a' && addon[i + 1] >= '0' && addon[i + 1] <= '9')
            addon[i] = 'A';
    wrong = measure_joined("ambiguity_join_texts", "ambiguity_joined_name", "ambiguity_write_joined", AMBIGUITY_NOT_REFUSED);
    wrong += joined.states != MOST || written.length != strlen((char *)text);
    make_long_text(AMBIGUITY_MAX_TEXT_BYTES, "terminals=a\nnonterminals=");
    strcpy((char *)addon, (char *)text);
    make_text(MOST, AMBIGUITY_MAX_TERMINALS, LAST);
    wrong += measure_joined("ambiguity_join_texts, a module of many names", "ambiguity_joined_name, a module of many names",
                            "ambiguity_write_joined, a module of many names", AMBIGUITY_OUT_OF_RANGE);
    make_doubled_text(AMBIGUITY_MAX_TEXT_BYTES);
    wrong += measure_joined("ambiguity_join_texts, many doubles", "ambiguity_joined_name, many doubles",
                            "ambiguity_write_joined, many doubles", AMBIGUITY_NAME_REPEATED);
    return wrong;
}

/* The same with the number of callers. */
static int measure_with_callers(const char *what, void (*run)(void), size_t most)
{
    static char words[64];
    sprintf(words, "%s, %zu callers", what, callers);
    return measure(words, run, most);
}

/* The search of a grammar of so many items that ends so and has this verdict. */
static int measure_search(const char *what, int states, const char *last, uint64_t right)
{
    make_text(states, AMBIGUITY_MAX_TERMINALS, last);
    run_read();
    if (grammar.cause != AMBIGUITY_NOT_REFUSED || grammar.states != (uint64_t)states)
        return 1;
    return measure_with_callers(what, run_search, AMBIGUITY_SEARCH_STACK_BYTES) + (verdict != right);
}

/* With LAST_POTENTIAL the start has one caller more: two chains of one caller, three of two. So these have 1024, 1024 and 1021 states. */
static int measure_searches(void)
{
    static const int most[] = {MOST, 514, 343};
    int wrong = measure_search("ambiguity_search, potential", most[callers], LAST_POTENTIAL, AMBIGUITY_POTENTIAL);
    wrong += measure_search("ambiguity_search, unambiguous", MOST, LAST, AMBIGUITY_UNAMBIGUOUS);
    wrong += measure_with_callers("ambiguity_check_certificate, accepted", run_certificate, AMBIGUITY_STACK_BYTES);
    return wrong + (checked.cause != AMBIGUITY_NOT_REFUSED);
}

/* The report of a grammar that ends so; it begins with these lines. */
static int measure_report(const char *what, const char *last, const char *right)
{
    make_text(REPORT_STATES, REPORT_NAMES, last);
    return measure(what, run_report, AMBIGUITY_REPORT_STACK_BYTES) + (memcmp(out, right, strlen(right)) != 0);
}

/* Of the largest grammar, all that takes a text or names. */
static int measure_names(void)
{
    int wrong = measure("ambiguity_read_back", run_read_back, AMBIGUITY_READ_BACK_STACK_BYTES);
    wrong += read_back.cause != AMBIGUITY_NOT_REFUSED || read_back.left != LETTERS;
    wrong += measure("ambiguity_write_text", run_write, AMBIGUITY_STACK_BYTES);
    wrong += written.cause != AMBIGUITY_NOT_REFUSED || written.length != strlen((char *)text);
    wrong += measure("ambiguity_written_length", run_length, AMBIGUITY_STACK_BYTES);
    return wrong + measure("ambiguity_check_table", run_table, AMBIGUITY_STACK_BYTES);
}

/* The trees of 64 times the first terminal, with this answer, or refused with 14. */
static int measure_found(const char *what, uint64_t found)
{
    int wrong = measure(what, run_trees, AMBIGUITY_STACK_BYTES);
    return wrong + (trees.found != found) + (trees.cause != (found == AMBIGUITY_NO_ANSWER ? AMBIGUITY_BUFFER_TOO_SHORT : 0));
}

/* The largest grammar that ends so. With LAST_PAIRS, which has a state more, it has two fewer. */
static int read_largest(const char *last, uint64_t states)
{
    make_text(states == MOST ? MOST : MOST - 3, AMBIGUITY_MAX_TERMINALS, last);
    run_read();
    return grammar.cause != AMBIGUITY_NOT_REFUSED || grammar.states != states;
}

/* The row has no tree where rules have two terminals alone, one of 32 rules with LAST_PAIRS, and several with LAST_TREES. */
static int measure_trees(void)
{
    int wrong = read_largest(LAST, MOST), i;
    for (i = 0; i < AMBIGUITY_MAX_ROW; i++)
        sentence[i] = 1;
    wrong += measure("ambiguity_trees_room", run_trees_room, AMBIGUITY_STACK_BYTES);
    wrong += trees_room.cause != AMBIGUITY_NOT_REFUSED || trees_room.entries != AMBIGUITY_TREES_ENTRIES(MOST);
    wrong += measure_found("ambiguity_find_trees, none", AMBIGUITY_NO_TREE);
    wrong += read_largest(LAST_PAIRS, MOST - 2);
    list_entries = AMBIGUITY_MAX_ROW / 2 - 1;
    wrong += measure_found("ambiguity_find_trees, a list too short", AMBIGUITY_NO_ANSWER);
    list_entries = AMBIGUITY_MAX_ROW / 2;
    wrong += measure_found("ambiguity_find_trees, one", AMBIGUITY_ONE_TREE) + (trees.count != list_entries);
    wrong += read_largest(LAST_TREES, MOST);
    return wrong + measure_found("ambiguity_find_trees, several", AMBIGUITY_SEVERAL_TREES);
}

/* A call about a draft, which is refused with this cause or done. */
static int measure_draft(const char *what, void (*run)(void), uint64_t cause)
{
    drafted = (ambiguity_draft_reply){0, 0};
    return measure(what, run, AMBIGUITY_STACK_BYTES) + (drafted.cause != cause);
}

/* The draft of the largest grammar has no room for a rule more: with its last one withdrawn, which has two codes, it has room for that. */
static int measure_drafts(void)
{
    int wrong = read_largest(LAST, MOST);
    memcpy(rule, table + grammar.entries - 4, 4 * sizeof *rule);
    wrong += measure("ambiguity_draft_room", run_draft_room, AMBIGUITY_STACK_BYTES) + (place.entries != AMBIGUITY_DRAFT_ENTRIES);
    wrong += measure_draft("ambiguity_new_draft", run_new_draft, AMBIGUITY_NOT_REFUSED);
    wrong += measure("ambiguity_draft_counts", run_counts, AMBIGUITY_STACK_BYTES) + (counts.states != MOST);
    wrong += measure("ambiguity_draft_table", run_draft_table, AMBIGUITY_STACK_BYTES) + (place.entries != grammar.entries);
    wrong += measure_draft("ambiguity_set_mark", run_mark, AMBIGUITY_NOT_REFUSED);
    wrong += measure_draft("ambiguity_add_rule, refused", run_add, AMBIGUITY_RULE_REPEATED);
    rule[0] = AMBIGUITY_START + 1;
    wrong += measure_draft("ambiguity_add_rule, too many states", run_add, AMBIGUITY_TOO_MANY_STATES);
    wrong += measure_draft("ambiguity_withdraw_rule", run_withdraw, AMBIGUITY_NOT_REFUSED);
    wrong += measure_draft("ambiguity_add_rule", run_add, AMBIGUITY_NOT_REFUSED);
    return wrong + measure_draft("ambiguity_return_to_mark", run_return, AMBIGUITY_NOT_REFUSED);
}

/* The plan of the sentence, with this answer, or refused with 14. */
static int measure_plan(const char *what, uint64_t found)
{
    int wrong = measure(what, run_plan, AMBIGUITY_STACK_BYTES);
    return wrong + (plan.found != found) + (plan.cause != (found == AMBIGUITY_NO_ANSWER ? AMBIGUITY_BUFFER_TOO_SHORT : 0));
}

/* take ch vol, 21 times, has as many rules as a plan has at most, 64; a take behind them has no end. */
static int measure_plans(void)
{
    static const uint16_t words[] = {AMBIGUITY_TAKE, AMBIGUITY_CH, AMBIGUITY_VOL};
    int wrong = 0, i;
    for (i = 0; i < AMBIGUITY_MAX_ROW; i++)
        sentence[i] = words[i % 3];
    wrong += measure("ambiguity_plan_room", run_plan_room, AMBIGUITY_STACK_BYTES) + (place.entries != AMBIGUITY_PLAN_WORK_ENTRIES);
    sentence_entries = AMBIGUITY_MAX_ROW;
    list_entries = AMBIGUITY_MAX_ROW;
    wrong += measure_plan("ambiguity_read_plan, none", AMBIGUITY_NO_TREE);
    sentence_entries = AMBIGUITY_MAX_ROW - 1;
    wrong += measure_plan("ambiguity_read_plan, a plan", AMBIGUITY_ONE_TREE) + (plan.count != AMBIGUITY_MAX_ROW);
    list_entries = AMBIGUITY_MAX_ROW - 1;
    wrong += measure_plan("ambiguity_read_plan, a list too short", AMBIGUITY_NO_ANSWER);
    return wrong + measure("ambiguity_plan_certificate_byte", run_plan_certificate, AMBIGUITY_STACK_BYTES) + (place.entries % 2 != 1);
}

/* Of the largest grammar, whose start has one caller, so that it has as many states whatever the callers, all that takes them. */
static int measure_callers(void)
{
    int wrong = measure_with_callers("ambiguity_search_room", run_room, AMBIGUITY_STACK_BYTES);
    wrong += room.cause != AMBIGUITY_NOT_REFUSED || room.states != MOST;
    wrong += measure_with_callers("ambiguity_nth_step", run_step, AMBIGUITY_STACK_BYTES);
    wrong += measure_with_callers("ambiguity_check_witness", run_witness, AMBIGUITY_STACK_BYTES);
    wrong += measure_with_callers("ambiguity_check_witness_records", run_records, AMBIGUITY_STACK_BYTES);
    make_certificate();
    wrong += measure_with_callers("ambiguity_check_certificate, refused", run_certificate, AMBIGUITY_STACK_BYTES);
    return wrong + (checked.cause != AMBIGUITY_SUCCESSOR_MISSING) + measure_searches();
}

int main(void)
{
    int wrong = 0;
    make_text(MOST, AMBIGUITY_MAX_TERMINALS, LAST);
    wrong += measure("ambiguity_read_text", run_read, AMBIGUITY_READ_TEXT_STACK_BYTES);
    if (grammar.cause != AMBIGUITY_NOT_REFUSED || grammar.states != MOST
        || grammar.terminals + grammar.nonterminals != AMBIGUITY_MAX_NAMES)
        return 1;
    wrong += measure_names();
    for (callers = 0; callers <= AMBIGUITY_MAX_CALLERS; callers++)
        wrong += measure_callers();
    wrong += measure_report("ambiguity_report, unambiguous", LAST, "states=46\nverdict=unambiguous\n");
    wrong += measure_report("ambiguity_report, potential", LAST_POTENTIAL, "states=46\nverdict=potential\nleft=(0 ");
    wrong += measure_long_texts();
    wrong += measure_joins();
    wrong += measure_trees();
    wrong += measure_drafts();
    wrong += measure_plans();
    return wrong != 0;
}
