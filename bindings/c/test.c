/* The certificate check on document 01's cases of S -> a, the witness check over records on those of S -> S; S -> a, the report,
 * and reading its two strings back; searches and texts lent just what is told beforehand, and one less, with 0, 1 and 2 callers; names in
 * any case; a heating module joined to the robot's text, with each kind of refusal; the trees of one sentence, none, one and several, with
 * each kind of refusal, and rows that are lent exactly, one less and more; a draft with its marks, every entry of its row after each call,
 * with each kind of refusal, full drafts, and rows that no new draft made; plans of the eight-channel command set, as the trees of its
 * table, with each kind of refusal, and its certificate, as the search writes it; all functions that take a whole grammar on grammars
 * without a sentence; too many callers and too many chains of them, and certificates of another number of callers; and tables and texts at
 * the limits and just past them. Exits with 0 if every answer is document 01's and document 02's. */
#include <stdio.h>
#include <string.h>

#include "ambiguity.h"

#define STATES 6
#define BYTES AMBIGUITY_CERTIFICATE_BYTES(STATES)
#define ENTRIES(row) (sizeof(row) / sizeof((row)[0]))
#define S AMBIGUITY_START

/* S -> a: left code, length, codes. */
static const uint16_t TABLE[] = {S, 1, 1};

static const uint8_t CERTIFICATE[] = {0x15, 0x50, 0x21, 0x15, 0x08, 0x00, 0x00, 0x00, 0x00};

/* S -> S; S -> a, and a witness of its eight states. */
static const uint16_t CYCLE[] = {S, 1, S, S, 1, 1};

static const ambiguity_triple_record WITNESS[] = {{0, 0, 0}, {0, 0, 2}, {0, 2, 2}, {0, 2, 4}, {0, 3, 5}, {1, 1, 3}, {1, 1, 1}};

#define WITNESS_ENTRIES ENTRIES(WITNESS)

/* The same as text, and the two strings of its shortest witness. */
static const char CYCLE_TEXT[] = "terminals=a\nnonterminals=S\nrule=S: S\nrule=S: a\n";
static const char CYCLE_LINES[] = "left=(0 S )0\nright=(0 (1 S )1 )0\n";

_Static_assert(sizeof(ambiguity_triple_record) == 12, "a record is three numbers of 32 bits");
_Static_assert(AMBIGUITY_MAX_REPORT_BYTES == 64 + 2 * 16 * AMBIGUITY_ROW_ENTRIES(AMBIGUITY_MAX_REPORT_STATES),
               "a report has 64 bytes, and 16 for each letter");

static int wrong = 0;

static void expect(const char *what, ambiguity_check_reply reply, uint64_t cause, uint64_t at)
{
    int right = reply.cause == cause && reply.at == at;
    printf("%s: %s, cause %llu at %llu\n", right ? "ok" : "WRONG", what, (unsigned long long)reply.cause,
           (unsigned long long)reply.at);
    wrong += !right;
}

static ambiguity_check_reply check(const uint8_t *certificate, size_t bytes)
{
    return ambiguity_check_certificate(1, 1, TABLE, ENTRIES(TABLE), 0, certificate, bytes);
}

static ambiguity_check_reply check_filled(uint8_t first, uint8_t others)
{
    uint8_t certificate[BYTES];
    memset(certificate, others, sizeof certificate);
    certificate[0] = first;
    return check(certificate, sizeof certificate);
}

static ambiguity_check_reply check_records(size_t records_entries)
{
    return ambiguity_check_witness_records(1, 1, CYCLE, ENTRIES(CYCLE), 0, WITNESS, records_entries);
}

/* The witness with another record at a place. */
static ambiguity_check_reply check_other(size_t place, uint32_t layer, uint32_t left, uint32_t right)
{
    ambiguity_triple_record records[WITNESS_ENTRIES];
    memcpy(records, WITNESS, sizeof WITNESS);
    records[place] = (ambiguity_triple_record){layer, left, right};
    return ambiguity_check_witness_records(1, 1, CYCLE, ENTRIES(CYCLE), 0, records, WITNESS_ENTRIES);
}

/* The report of a text is these lines, at the front of what is lent; one byte less is refused and stays as it was. */
static void expect_report(const char *text, const char *lines)
{
    static uint8_t out[AMBIGUITY_MAX_REPORT_BYTES + 1];
    size_t length = strlen(lines), i;
    ambiguity_report_reply reply, refused;
    memset(out, 7, sizeof out);
    refused = ambiguity_report((const uint8_t *)text, strlen(text), out, length - 1);
    for (i = 0; i < sizeof out && out[i] == 7; i++)
        ;
    reply = ambiguity_report((const uint8_t *)text, strlen(text), out, AMBIGUITY_MAX_REPORT_BYTES);
    int right = refused.cause == AMBIGUITY_BUFFER_TOO_SHORT && refused.at == 0 && refused.length == 0 && i == sizeof out
        && reply.cause == AMBIGUITY_NOT_REFUSED && reply.at == 0 && reply.length == length && memcmp(out, lines, length) == 0;
    for (i = length; i < sizeof out; i++)
        right = right && out[i] == 7;
    printf("%s: a report of %llu bytes\n", right ? "ok" : "WRONG", (unsigned long long)reply.length);
    wrong += !right;
}

/* The letter of an entry as the lines have it, for symbols of one byte: `(1`, `)1`, S. */
static void put_letter(char *word, uint32_t entry)
{
    uint32_t kind = AMBIGUITY_LETTER_KIND(entry), number = AMBIGUITY_LETTER_NUMBER(entry);
    if (kind == AMBIGUITY_SYMBOL)
        sprintf(word, "%s", number == S ? "S" : "?");
    else
        sprintf(word, "%s%u", kind == AMBIGUITY_OPENING ? "(" : kind == AMBIGUITY_CLOSING ? ")" : "?", (unsigned)number);
}

/* The letters of a row give this string again; nothing past them was written. */
static int has_string(const uint32_t *row, size_t letters, size_t entries, const char *string)
{
    char read[64] = "", word[16];
    size_t i;
    for (i = 0; i < letters; i++) {
        put_letter(word, row[i]);
        strcat(strcat(read, i == 0 ? "" : " "), word);
    }
    for (i = letters; i < entries; i++)
        if (row[i] != 7)
            return 0;
    return strcmp(read, string) == 0;
}

#define ROOM 6

/* What reading back answers for lines in S -> S; S -> a, with rows of so many entries. */
static void expect_read_back(const char *what, const char *text, const char *lines, size_t room, ambiguity_read_back_reply right)
{
    uint32_t rows[2][ROOM];
    size_t i;
    for (i = 0; i < 2 * ROOM; i++)
        rows[i / ROOM][i % ROOM] = 7;
    ambiguity_read_back_reply reply = ambiguity_read_back((const uint8_t *)text, strlen(text), (const uint8_t *)lines, strlen(lines),
                                                          rows[0], room, rows[1], room);
    int same = reply.cause == right.cause && reply.at == right.at && reply.part == right.part && reply.left == right.left
        && reply.right == right.right;
    int read = reply.cause == AMBIGUITY_NOT_REFUSED;
    same = same && has_string(rows[0], reply.left, ROOM, read ? "(0 S )0" : "")
        && has_string(rows[1], reply.right, ROOM, read ? "(0 (1 S )1 )0" : "");
    printf("%s: %s, cause %llu at %llu of part %llu\n", same ? "ok" : "WRONG", what, (unsigned long long)reply.cause,
           (unsigned long long)reply.at, (unsigned long long)reply.part);
    wrong += !same;
}

/* S -> S has no finite tree. Its triples would have this smallest certificate. */
static const uint16_t ENDLESS[] = {S, 1, S};
static const char ENDLESS_TEXT[] = "terminals=\nnonterminals=S\nrule=S: S\n";
static const uint8_t ENDLESS_CERTIFICATE[BYTES] = {0x01};
static const uint8_t NO_NAMES[] = {0};

/* So with no rules; and what is acceptable of them in document 01's automaton, where every rule has moves, rule 0 too. */
static const uint8_t NONE_CERTIFICATES[][4] = {{0x01}, {0x05, 0x85}};

/* Rows for grammars of up to 93 states. */
#define LENT AMBIGUITY_ROW_ENTRIES(93)

static uint8_t lent_bytes[LENT];
static uint16_t lent_table[LENT];
static uint32_t lent_rows[3][LENT];

static void fill_lent(void)
{
    size_t i;
    memset(lent_bytes, 7, sizeof lent_bytes);
    for (i = 0; i < LENT; i++)
        lent_table[i] = 7;
    for (i = 0; i < 3 * LENT; i++)
        lent_rows[i / LENT][i % LENT] = 7;
}

/* Nothing that is lent has changed past these fronts. */
static int is_kept(size_t bytes, size_t queue, size_t parents, size_t witness)
{
    size_t i;
    for (i = 0; i < LENT; i++)
        if ((i >= bytes && lent_bytes[i] != 7) || (i >= queue && lent_rows[0][i] != 7) || (i >= parents && lent_rows[1][i] != 7)
            || (i >= witness && lent_rows[2][i] != 7) || lent_table[i] != 7)
            return 0;
    return 1;
}

/* 19 at 0; no other field of the reply is set, and nothing that is lent has changed. */
static void expect_no_sentence(const char *what, uint64_t cause, uint64_t at, uint64_t others)
{
    int right = cause == AMBIGUITY_NO_SENTENCE && at == 0 && others == 0 && is_kept(0, 0, 0, 0);
    printf("%s: no sentence, %s, cause %llu at %llu\n", right ? "ok" : "WRONG", what, (unsigned long long)cause,
           (unsigned long long)at);
    wrong += !right;
}

/* A table, with how many callers are remembered. */
struct asked {
    size_t t, n;
    const uint16_t *table;
    size_t entries, callers;
};

/* All six functions that take callers refuse this, with rows of so many entries: certificate, witness and rows are at fault too. No other
 * field of a reply is set, and nothing that is lent has changed. */
static void expect_refused(const char *what, struct asked in, size_t lent, uint64_t cause, uint64_t at)
{
    ambiguity_step_reply step = ambiguity_nth_step(in.t, in.n, in.table, in.entries, in.callers, lent, 0, 0, 0);
    ambiguity_check_reply certificate = ambiguity_check_certificate(in.t, in.n, in.table, in.entries, in.callers, lent_bytes, lent);
    ambiguity_check_reply witness = ambiguity_check_witness(in.t, in.n, in.table, in.entries, in.callers, lent_rows[0], lent);
    ambiguity_check_reply records =
        ambiguity_check_witness_records(in.t, in.n, in.table, in.entries, in.callers, WITNESS, lent == 0 ? 0 : WITNESS_ENTRIES);
    ambiguity_search_reply search = ambiguity_search(in.t, in.n, in.table, in.entries, in.callers, lent_bytes, lent, lent_rows[0], lent,
                                                     lent_rows[1], lent, lent_rows[2], lent);
    ambiguity_room_reply room = ambiguity_search_room(in.t, in.n, in.table, in.entries, in.callers);
    uint64_t others = step.kind | step.layer | step.left | step.right | step.on_left.moved | step.on_left.number | step.on_right.moved
        | step.on_right.number | search.verdict | search.count | search.looked | room.states | room.certificate | room.entries | room.moves;
    uint64_t causes[] = {step.cause, certificate.cause, witness.cause, records.cause, search.cause, room.cause};
    uint64_t places[] = {step.at, certificate.at, witness.at, records.at, search.at, room.at};
    int right = others == 0 && is_kept(0, 0, 0, 0);
    size_t i;
    for (i = 0; i < ENTRIES(causes); i++)
        right = right && causes[i] == cause && places[i] == at;
    printf("%s: %s, %zu callers, lent %zu, cause %llu at %llu\n", right ? "ok" : "WRONG", what, in.callers, lent,
           (unsigned long long)search.cause, (unsigned long long)search.at);
    wrong += !right;
}

/* All functions that take a table, with rows of so many entries: certificate, witness, names and callers are at fault too. */
static void expect_table_without_sentence(size_t lent)
{
    ambiguity_table_reply table = ambiguity_check_table(0, 1, ENDLESS, ENTRIES(ENDLESS));
    ambiguity_write_reply written = ambiguity_write_text(0, 1, ENDLESS, ENTRIES(ENDLESS), NO_NAMES, 0, lent_rows[0], lent,
                                                         lent_rows[1], lent, lent_bytes, lent);
    ambiguity_length_reply length = ambiguity_written_length(0, 1, ENDLESS, ENTRIES(ENDLESS), NO_NAMES, 0, lent_rows[0], lent,
                                                             lent_rows[1], lent);
    ambiguity_trees_room_reply room = ambiguity_trees_room(0, 1, ENDLESS, ENTRIES(ENDLESS));
    ambiguity_trees_reply trees = ambiguity_find_trees(0, 1, ENDLESS, ENTRIES(ENDLESS), lent_table, lent, lent_rows[0], lent, lent_table, 0);
    size_t callers;
    expect_no_sentence("room of trees", room.cause, room.at, room.entries);
    expect_no_sentence("trees of a sentence", trees.cause, trees.at, trees.found | trees.count);
    expect_no_sentence("table check", table.cause, table.at, table.states);
    expect_no_sentence("writer", written.cause, written.at, written.length);
    expect_no_sentence("written length", length.cause, length.at, length.length);
    for (callers = 0; callers <= AMBIGUITY_MAX_CALLERS + 1; callers++)
        expect_refused("no sentence", (struct asked){0, 1, ENDLESS, ENTRIES(ENDLESS), callers}, lent, AMBIGUITY_NO_SENTENCE, 0);
    expect_refused("no sentence", (struct asked){0, 1, ENDLESS, ENTRIES(ENDLESS), SIZE_MAX}, lent, AMBIGUITY_NO_SENTENCE, 0);
}

/* The functions that take a text and refuse it, with rows of so many entries; the two lines, and the module, are at fault too. */
static void expect_text_without_sentence(size_t lent)
{
    const uint8_t *text = (const uint8_t *)ENDLESS_TEXT;
    size_t bytes = strlen(ENDLESS_TEXT);
    ambiguity_read_reply joined = ambiguity_join_texts(text, bytes, lent_bytes, lent, lent_table, lent);
    ambiguity_part_reply name = ambiguity_joined_name(text, bytes, text, bytes, 0);
    ambiguity_write_reply written = ambiguity_write_joined(text, bytes, NO_NAMES, 0, lent_bytes, lent);
    ambiguity_read_reply read = ambiguity_read_text((const uint8_t *)ENDLESS_TEXT, strlen(ENDLESS_TEXT), lent_table, lent,
                                                    lent_rows[0], lent, lent_rows[1], lent);
    ambiguity_read_back_reply back = ambiguity_read_back((const uint8_t *)ENDLESS_TEXT, strlen(ENDLESS_TEXT), lent_bytes, lent,
                                                         lent_rows[0], lent, lent_rows[1], lent);
    expect_no_sentence("reader", read.cause, read.at, read.terminals | read.nonterminals | read.entries | read.states);
    expect_no_sentence("reading back", back.cause, back.at, (back.part ^ AMBIGUITY_GRAMMAR) | back.left | back.right);
    expect_no_sentence("join", joined.cause, joined.at, joined.terminals | joined.nonterminals | joined.entries | joined.states);
    expect_no_sentence("joined text", written.cause, written.at, written.length | name.text | name.start | name.length);
}

static void expect_without_sentence(void)
{
    size_t i;
    fill_lent();
    expect_table_without_sentence(0);
    expect_table_without_sentence(LENT);
    expect_text_without_sentence(0);
    expect_text_without_sentence(LENT);
    expect("a certificate of S -> S",
           ambiguity_check_certificate(0, 1, ENDLESS, ENTRIES(ENDLESS), 0, ENDLESS_CERTIFICATE, sizeof ENDLESS_CERTIFICATE),
           AMBIGUITY_NO_SENTENCE, 0);
    for (i = 0; i < 2; i++)
        expect("a certificate of no rules", ambiguity_check_certificate(0, 1, ENDLESS, 0, 0, NONE_CERTIFICATES[i], 4),
               AMBIGUITY_NO_SENTENCE, 0);
}

/* A rule of a nonterminal with so many times the same code; back comes where it ends. */
static uint16_t *put_rule(uint16_t *table, unsigned left, unsigned length, unsigned code)
{
    unsigned i;
    table[0] = (uint16_t)left;
    table[1] = (uint16_t)length;
    for (i = 0; i < length; i++)
        table[2 + i] = (uint16_t)code;
    return table + 2 + length;
}

static ambiguity_check_reply check_table(size_t t, size_t n, const uint16_t *table, size_t entries)
{
    ambiguity_table_reply reply = ambiguity_check_table(t, n, table, entries);
    return (ambiguity_check_reply){reply.cause, reply.at};
}

/* The twelve rules of a nonterminal with 1 to 12 codes S have 90 states and 102 entries. 8 comes before 19, here at the seventh rule of
 * the twelfth nonterminal, and 19 before the report's limit of states. */
static void expect_order(void)
{
    static uint16_t table[12 * 102];
    char text[512] = "terminals=\nnonterminals=S\n";
    uint16_t *end = table;
    unsigned left, length, i;
    for (left = S; left < S + 12; left++)
        for (length = 1; length <= 12; length++)
            end = put_rule(end, left, length, S);
    expect("994 states without a sentence", check_table(0, 12, table, 11 * 102), AMBIGUITY_NO_SENTENCE, 0);
    expect("too many states without a sentence", check_table(0, 12, table, ENTRIES(table)), AMBIGUITY_TOO_MANY_STATES, 11 * 102 + 33);
    for (length = 1; length <= 12; length++) {
        strcat(text, "rule=S:");
        for (i = 0; i < length; i++)
            strcat(text, " S");
        strcat(text, "\n");
    }
    expect_report(text, "refused=19\nat=0\n");
}

/* S -> , and a last rule with these two codes: what the table check says with so many symbols. */
static ambiguity_check_reply check_codes(size_t t, size_t n, unsigned left, unsigned code)
{
    const uint16_t table[] = {S, 0, (uint16_t)left, 2, (uint16_t)code, (uint16_t)code};
    return check_table(t, n, table, ENTRIES(table));
}

static void expect_codes(void)
{
    expect("the most symbols, the last terminal", check_codes(2000, 2000, S + 1999, 2000), AMBIGUITY_NOT_REFUSED, 0);
    expect("the most symbols, the last nonterminal", check_codes(2000, 2000, S + 1999, S + 1999), AMBIGUITY_NOT_REFUSED, 0);
    expect("a terminal too many", check_codes(2001, 1, S, 1), AMBIGUITY_OUT_OF_RANGE, 0);
    expect("a nonterminal too many", check_codes(1, 2001, S, 1), AMBIGUITY_OUT_OF_RANGE, 0);
    expect("no nonterminal", check_codes(1, 0, S, 1), AMBIGUITY_OUT_OF_RANGE, 0);
    expect("the left code 32767", check_codes(2000, 2000, S - 1, 1), AMBIGUITY_LEFT_UNDECLARED, 2);
    expect("the left code 34768", check_codes(2000, 2000, S + 2000, 1), AMBIGUITY_LEFT_UNDECLARED, 2);
    expect("a terminal on the left", check_codes(2000, 2000, 1, 1), AMBIGUITY_LEFT_UNDECLARED, 2);
    expect("the code 0", check_codes(2000, 2000, S, 0), AMBIGUITY_CODE_UNDECLARED, 4);
    expect("the code 2001", check_codes(2000, 2000, S, 2001), AMBIGUITY_CODE_UNDECLARED, 4);
    expect("the code 32767", check_codes(2000, 2000, S, S - 1), AMBIGUITY_CODE_UNDECLARED, 4);
    expect("the code 34768", check_codes(2000, 2000, S, S + 2000), AMBIGUITY_CODE_UNDECLARED, 4);
    expect("the code 65535", check_codes(2000, 2000, S, 65535), AMBIGUITY_CODE_UNDECLARED, 4);
}

/* 400 rules of a code each, and one more; 78 rules of twelve codes and one of five, or of six. */
static void expect_limits(void)
{
    static uint16_t units[401 * 3], longs[79 * 14];
    static uint8_t text[AMBIGUITY_MAX_TEXT_BYTES + 1];
    uint16_t *end = units;
    unsigned code, left;
    ambiguity_read_reply just, over;
    for (code = 1; code <= 401; code++)
        end = put_rule(end, S, 1, code);
    expect("400 rules", check_table(401, 1, units, 400 * 3), AMBIGUITY_NOT_REFUSED, 0);
    expect("401 rules", check_table(401, 1, units, 401 * 3), AMBIGUITY_TOO_MANY_RULES, 400 * 3);
    end = longs;
    for (left = S; left < S + 78; left++)
        end = put_rule(end, left, 12, 1);
    put_rule(end, S, 5, 1);
    expect("1024 states", check_table(1, 78, longs, 78 * 14 + 7), AMBIGUITY_NOT_REFUSED, 0);
    put_rule(end, S, 6, 1);
    expect("1025 states", check_table(1, 78, longs, 78 * 14 + 8), AMBIGUITY_TOO_MANY_STATES, 78 * 14);
    memset(text, 'a', sizeof text);
    just = ambiguity_read_text(text, AMBIGUITY_MAX_TEXT_BYTES, lent_table, 0, lent_rows[0], 0, lent_rows[1], 0);
    over = ambiguity_read_text(text, AMBIGUITY_MAX_TEXT_BYTES + 1, lent_table, 0, lent_rows[0], 0, lent_rows[1], 0);
    expect("262144 bytes of a text", (ambiguity_check_reply){just.cause, just.at}, AMBIGUITY_MALFORMED, 1);
    expect("262145 bytes of a text", (ambiguity_check_reply){over.cause, over.at}, AMBIGUITY_MALFORMED, 0);
}

/* A table and callers, with what a search of it is to be lent, its verdict, and how much it looks at. */
struct told {
    const char *name;
    size_t t, n, entries, callers;
    const uint16_t *table;
    ambiguity_room_reply room;
    uint64_t verdict, looked;
};

/* S -> ; S -> S S. */
static const uint16_t PAIRS[] = {S, 0, S, 2, S, S};

/* Of S -> a; S -> A; A -> A only the first rule has moves. */
static const uint16_t DEAD[] = {S, 1, 1, S, 1, S + 1, S + 1, 1, S + 1};

/* Document 02's eight-channel command set: P -> , P -> P K; K -> take L vol, give L vol, repeat num P close; L -> ch, L sep ch. */
static const uint16_t CHANNELS[] = {S, 0, S, 2, S, S + 1, S + 1, 3, 1, S + 2, 2, S + 1, 3, 3, S + 2, 2, S + 1, 4, 4, 5, S, 6,
                                    S + 2, 1, 7, S + 2, 3, S + 2, 8, 7};

/* Document 02's grammar of a biology group, S -> b A c; S -> b e d; S -> A d; A -> e, and a rule B -> B that no sentence uses. The items of
 * that rule are states at 0 callers alone: with it Q is 19 whatever the callers. */
static const uint16_t BIOLOGY[] = {S, 3, 1, S + 1, 2, S, 3, 1, 3, 4, S, 2, S + 1, 4, S + 1, 1, 3, S + 2, 1, S + 2};

#define BIOLOGY_ENTRIES (ENTRIES(BIOLOGY) - 3)

static const struct told TOLD[] = {
    {"room of S -> a", 1, 1, ENTRIES(TABLE), 0, TABLE, {0, 0, 6, 9, 72, 6}, AMBIGUITY_UNAMBIGUOUS, 14},
    {"room of S -> S; S -> a", 1, 1, ENTRIES(CYCLE), 0, CYCLE, {0, 0, 8, 16, 128, 13}, AMBIGUITY_POTENTIAL, 55},
    {"room of S -> ; S -> S S", 0, 1, ENTRIES(PAIRS), 0, PAIRS, {0, 0, 8, 16, 128, 17}, AMBIGUITY_POTENTIAL, 235},
    {"room of S -> a; S -> A; A -> A", 1, 2, ENTRIES(DEAD), 0, DEAD, {0, 0, 10, 25, 200, 6}, AMBIGUITY_UNAMBIGUOUS, 14},
    {"room of S -> a; S -> A; A -> A, one caller", 1, 2, ENTRIES(DEAD), 1, DEAD, {0, 0, 6, 9, 72, 6}, AMBIGUITY_UNAMBIGUOUS, 14},
    {"room of the biology group's grammar", 4, 2, BIOLOGY_ENTRIES, 0, BIOLOGY, {0, 0, 17, 73, 578, 22}, AMBIGUITY_POTENTIAL, 106},
    {"room of it, one caller", 4, 2, BIOLOGY_ENTRIES, 1, BIOLOGY, {0, 0, 19, 91, 722, 23}, AMBIGUITY_UNAMBIGUOUS, 83},
    {"room of it, two callers", 4, 2, BIOLOGY_ENTRIES, 2, BIOLOGY, {0, 0, 19, 91, 722, 23}, AMBIGUITY_UNAMBIGUOUS, 83},
    {"room of the eight-channel command set", 8, 3, ENTRIES(CHANNELS), 0, CHANNELS, {0, 0, 27, 183, 1458, 49}, AMBIGUITY_UNAMBIGUOUS, 163},
    {"room of it, one caller", 8, 3, ENTRIES(CHANNELS), 1, CHANNELS, {0, 0, 47, 553, 4418, 89}, AMBIGUITY_UNAMBIGUOUS, 443},
    {"room of it, two callers", 8, 3, ENTRIES(CHANNELS), 2, CHANNELS, {0, 0, 93, 2163, 17298, 173}, AMBIGUITY_UNAMBIGUOUS, 1369},
};

static int expect_room(const char *what, ambiguity_room_reply room, ambiguity_room_reply expected)
{
    int right = room.cause == expected.cause && room.at == expected.at && room.states == expected.states
        && room.certificate == expected.certificate && room.entries == expected.entries && room.moves == expected.moves;
    printf("%s: %s, cause %llu at %llu, %llu states, %llu bytes, %llu entries, %llu moves\n", right ? "ok" : "WRONG", what,
           (unsigned long long)room.cause, (unsigned long long)room.at, (unsigned long long)room.states,
           (unsigned long long)room.certificate, (unsigned long long)room.entries, (unsigned long long)room.moves);
    wrong += !right;
    return right;
}

/* A search that is lent just its room, and looks at no more than the room tells; or, with `less` from 1 to 4, one less of certificate,
 * queue, parents or witness. */
static void expect_search(const struct told *told, ambiguity_room_reply room, int less)
{
    size_t bytes = room.certificate - (less == 1), queue = room.entries - (less == 2), parents = room.entries - (less == 3),
           witness = room.entries - (less == 4);
    fill_lent();
    ambiguity_search_reply reply = ambiguity_search(told->t, told->n, told->table, told->entries, told->callers, lent_bytes, bytes,
                                                    lent_rows[0], queue, lent_rows[1], parents, lent_rows[2], witness);
    int refused = reply.cause == AMBIGUITY_BUFFER_TOO_SHORT && reply.at == 0 && reply.verdict == AMBIGUITY_NO_VERDICT
        && reply.count == 0 && reply.looked == 0 && is_kept(0, 0, 0, 0);
    int found = reply.cause == AMBIGUITY_NOT_REFUSED && reply.verdict == told->verdict && reply.looked == told->looked
        && reply.looked <= room.moves * room.moves + 2 * room.states * room.moves && is_kept(bytes, queue, parents, witness);
    int right = less != 0 ? refused : found;
    printf("%s: %s, lent %zu, %zu, %zu, %zu, cause %llu at %llu, looked at %llu\n", right ? "ok" : "WRONG", told->name, bytes, queue,
           parents, witness, (unsigned long long)reply.cause, (unsigned long long)reply.at, (unsigned long long)reply.looked);
    wrong += !right;
}

static void expect_rooms(void)
{
    size_t i;
    int less;
    for (i = 0; i < ENTRIES(TOLD); i++) {
        const struct told *told = &TOLD[i];
        ambiguity_room_reply room = ambiguity_search_room(told->t, told->n, told->table, told->entries, told->callers);
        if (expect_room(told->name, room, told->room))
            for (less = 0; less <= 4; less++)
                expect_search(told, room, less);
    }
    expect_room("the room of a table cut", ambiguity_search_room(1, 1, CYCLE, 5, 0), (ambiguity_room_reply){2, 3, 0, 0, 0, 0});
    expect_room("the room with 2001 terminals", ambiguity_search_room(2001, 1, CYCLE, 5, 0), (ambiguity_room_reply){1, 0, 0, 0, 0, 0});
}

/* The certificate that a search of the biology group's grammar with one caller writes, checked with others. With one caller S -> . A d,
 * state 12, opens state 16, since 15 is for the earlier caller; at 0 callers it opens 15. */
static void expect_other_callers(void)
{
    size_t bytes = AMBIGUITY_CERTIFICATE_BYTES(19), entries = AMBIGUITY_ROW_ENTRIES(19);
    fill_lent();
    ambiguity_search_reply found = ambiguity_search(4, 2, BIOLOGY, BIOLOGY_ENTRIES, 1, lent_bytes, bytes, lent_rows[0], entries,
                                                    lent_rows[1], entries, lent_rows[2], entries);
    expect("a search with one caller", (ambiguity_check_reply){found.cause, found.at}, AMBIGUITY_NOT_REFUSED, 0);
    expect("its certificate with one caller", ambiguity_check_certificate(4, 2, BIOLOGY, BIOLOGY_ENTRIES, 1, lent_bytes, bytes), 0, 0);
    expect("its certificate at 0 callers", ambiguity_check_certificate(4, 2, BIOLOGY, BIOLOGY_ENTRIES, 0, lent_bytes, bytes),
           AMBIGUITY_CERTIFICATE_LENGTH, 0);
    expect("its certificate at 0 callers, with as many states",
           ambiguity_check_certificate(4, 3, BIOLOGY, ENTRIES(BIOLOGY), 0, lent_bytes, bytes), AMBIGUITY_SUCCESSOR_MISSING, 12);
    expect("its certificate with two callers, where the states are the same",
           ambiguity_check_certificate(4, 2, BIOLOGY, BIOLOGY_ENTRIES, 2, lent_bytes, bytes), 0, 0);
    expect("its certificate with three callers", ambiguity_check_certificate(4, 2, BIOLOGY, BIOLOGY_ENTRIES, 3, lent_bytes, bytes),
           AMBIGUITY_TOO_MANY_CALLERS, 0);
}

/* S -> A .. A, twelve times, and rules of terminals: 47 items of S and `more`, 80 of A. A has 12 callers, so that with one caller, and with
 * two, there are 1024 states and as many more. Back comes the number of entries. */
static size_t put_chains(uint16_t *table, unsigned more)
{
    static const unsigned of_start[] = {12, 12, 12, 7}, of_called[] = {12, 12, 12, 12, 12, 12, 1};
    uint16_t *end = put_rule(table, S, 12, S + 1);
    unsigned i;
    for (i = 0; i < ENTRIES(of_start); i++)
        end = put_rule(end, S, of_start[i] + (i == 3 ? more : 0), i + 1);
    for (i = 0; i < ENTRIES(of_called); i++)
        end = put_rule(end, S + 1, of_called[i], i + 1);
    return (size_t)(end - table);
}

/* S -> A .. A, A -> B .. B, B -> b .. b, twelve times each: B has 12 callers, and 144 chains of two. */
static size_t put_deep_chains(uint16_t *table)
{
    return (size_t)(put_rule(put_rule(put_rule(table, S, 12, S + 1), S + 1, 12, S + 2), S + 2, 12, 1) - table);
}

/* What callers alone are refused for, behind the causes of the table and before all others. */
static void expect_callers(void)
{
    static const size_t too_many[] = {3, 4, 255, 256, 65536, (size_t)1 << 32, SIZE_MAX};
    uint16_t table[200];
    size_t i, lent, entries;
    fill_lent();
    for (lent = 0; lent <= LENT; lent += LENT) {
        for (i = 0; i < ENTRIES(too_many); i++) {
            expect_refused("too many callers", (struct asked){4, 2, BIOLOGY, BIOLOGY_ENTRIES, too_many[i]}, lent,
                           AMBIGUITY_TOO_MANY_CALLERS, 0);
            expect_refused("a table cut", (struct asked){4, 2, BIOLOGY, BIOLOGY_ENTRIES - 1, too_many[i]}, lent, AMBIGUITY_TRUNCATED, 14);
        }
        entries = put_chains(table, 1);
        for (i = 1; i <= 2; i++)
            expect_refused("1025 states", (struct asked){7, 2, table, entries, i}, lent, AMBIGUITY_TOO_MANY_STATES, 0);
        expect_refused("1025 states", (struct asked){7, 2, table, entries, 3}, lent, AMBIGUITY_TOO_MANY_CALLERS, 0);
        entries = put_deep_chains(table);
        expect_refused("144 chains", (struct asked){1, 3, table, entries, 2}, lent, AMBIGUITY_TOO_MANY_STATES, 0);
    }
    expect_other_callers();
}

static void expect_states(const char *what, ambiguity_room_reply room, uint64_t states)
{
    int right = room.cause == AMBIGUITY_NOT_REFUSED && room.states == states && room.entries == AMBIGUITY_ROW_ENTRIES(states)
        && room.certificate == AMBIGUITY_CERTIFICATE_BYTES(states);
    printf("%s: %s, %llu states\n", right ? "ok" : "WRONG", what, (unsigned long long)room.states);
    wrong += !right;
}

/* The most states that there are with callers. */
static void expect_chains(void)
{
    uint16_t table[200];
    size_t entries = put_chains(table, 0);
    expect_states("chains without callers", ambiguity_search_room(7, 2, table, entries, 0), 144);
    expect_states("chains of one caller", ambiguity_search_room(7, 2, table, entries, 1), 1024);
    expect_states("chains of two callers", ambiguity_search_room(7, 2, table, entries, 2), 1024);
    entries = put_deep_chains(table);
    expect_states("deep chains without callers", ambiguity_search_room(1, 3, table, entries, 0), 43);
    expect_states("deep chains of one caller", ambiguity_search_room(1, 3, table, entries, 1), 329);
}

/* The names of S -> S; S -> a in CYCLE_TEXT, and such as are malformed or doubled. */
static const uint32_t STARTS[] = {10, 25}, PAST_THE_END[] = {10, 1000}, TWICE[] = {10, 10}, LENGTHS[] = {1, 1};

static ambiguity_length_reply length_of(size_t entries, const uint32_t *starts)
{
    return ambiguity_written_length(1, 1, CYCLE, entries, (const uint8_t *)CYCLE_TEXT, strlen(CYCLE_TEXT), starts, 2, LENGTHS, 2);
}

/* The writer that is lent so many bytes. */
static ambiguity_write_reply write_in(size_t bytes)
{
    fill_lent();
    return ambiguity_write_text(1, 1, CYCLE, ENTRIES(CYCLE), (const uint8_t *)CYCLE_TEXT, strlen(CYCLE_TEXT), STARTS, 2, LENGTHS, 2,
                                lent_bytes, bytes);
}

static void expect_length(const char *what, ambiguity_length_reply reply, uint64_t cause, uint64_t at, uint64_t length)
{
    int right = reply.cause == cause && reply.at == at && reply.length == length;
    printf("%s: %s, cause %llu at %llu, length %llu\n", right ? "ok" : "WRONG", what, (unsigned long long)reply.cause,
           (unsigned long long)reply.at, (unsigned long long)reply.length);
    wrong += !right;
}

static void expect_lengths(void)
{
    size_t length = strlen(CYCLE_TEXT);
    expect_length("the length of a text", length_of(ENTRIES(CYCLE), STARTS), AMBIGUITY_NOT_REFUSED, 0, length);
    expect_length("a name past the end", length_of(ENTRIES(CYCLE), PAST_THE_END), AMBIGUITY_MALFORMED, 1, 0);
    expect_length("a name that stands twice", length_of(ENTRIES(CYCLE), TWICE), AMBIGUITY_NAME_REPEATED, 1, 0);
    expect_length("the table cut", length_of(ENTRIES(CYCLE) - 1, TWICE), AMBIGUITY_TRUNCATED, 3, 0);
    ambiguity_write_reply written = write_in(length);
    int right = written.cause == AMBIGUITY_NOT_REFUSED && written.length == length && memcmp(lent_bytes, CYCLE_TEXT, length) == 0
        && is_kept(length, 0, 0, 0);
    ambiguity_write_reply refused = write_in(length - 1);
    right = right && refused.cause == AMBIGUITY_BUFFER_TOO_SHORT && refused.at == 0 && refused.length == 0 && is_kept(0, 0, 0, 0);
    printf("%s: the writer, lent that length and one less\n", right ? "ok" : "WRONG");
    wrong += !right;
}

/* S -> S; S -> a with its names used in another case than they are declared in, and as they are declared. */
static const char MIXED_TEXT[] = "terminals=Take\nnonterminals=step\nrule=Step: STEP\nrule=step: tAKE\n";
static const char DECLARED_TEXT[] = "terminals=Take\nnonterminals=step\nrule=step: step\nrule=step: Take\n";
static const uint32_t CASES[] = {10, 11};

/* The cause and position with which the reader refuses a text that is lent no rows. */
static ambiguity_check_reply read_refused(const char *text)
{
    ambiguity_read_reply reply =
        ambiguity_read_text((const uint8_t *)text, strlen(text), lent_table, 0, lent_rows[0], 0, lent_rows[1], 0);
    return (ambiguity_check_reply){reply.cause, reply.at};
}

/* A text in any case is read, and written with each use as it is declared. */
static void expect_spelling(void)
{
    uint16_t table[6];
    uint32_t starts[2], lengths[2];
    const uint8_t *text = (const uint8_t *)MIXED_TEXT;
    size_t length = strlen(DECLARED_TEXT);
    ambiguity_read_reply read = ambiguity_read_text(text, strlen(MIXED_TEXT), table, 6, starts, 2, lengths, 2);
    fill_lent();
    ambiguity_write_reply written =
        ambiguity_write_text(1, 1, table, 6, text, strlen(MIXED_TEXT), starts, 2, lengths, 2, lent_bytes, length);
    int right = read.cause == AMBIGUITY_NOT_REFUSED && read.entries == 6 && memcmp(table, CYCLE, sizeof CYCLE) == 0
        && starts[0] == 10 && lengths[0] == 4 && starts[1] == 28 && lengths[1] == 4 && written.cause == AMBIGUITY_NOT_REFUSED
        && written.length == length && memcmp(lent_bytes, DECLARED_TEXT, length) == 0 && is_kept(length, 0, 0, 0);
    printf("%s: a text in any case, read and written\n", right ? "ok" : "WRONG");
    wrong += !right;
}

static void expect_case(void)
{
    expect_spelling();
    expect_report(MIXED_TEXT, "states=8\nverdict=potential\nleft=(0 step )0\nright=(0 (1 step )1 )0\n");
    expect_read_back("two strings in another case", CYCLE_TEXT, "left=(0 s )0\nright=(0 (1 s )1 )0\n", 5,
                     (ambiguity_read_back_reply){0, 0, 0, 3, 5});
    expect_read_back("a key in another case", CYCLE_TEXT, "left=\nRight=\n", 0,
                     (ambiguity_read_back_reply){16, 2, AMBIGUITY_LINES, 0, 0});
    expect("declared in two cases", read_refused("terminals=a,A\nnonterminals=S\nrule=S: a\n"), AMBIGUITY_NAME_REPEATED, 1);
    expect("declared in both lists", read_refused("terminals=a\nnonterminals=S,A\nrule=S: a\n"), AMBIGUITY_NAME_REPEATED, 2);
    expect("equal rules in two cases", read_refused("terminals=a\nnonterminals=S\nrule=S: a\nrule=s: A\n"), AMBIGUITY_RULE_REPEATED, 3);
    expect("a key in capitals", read_refused("terminals=a\nnonterminals=S\nRule=S: a\n"), AMBIGUITY_MALFORMED, 3);
    ambiguity_length_reply length =
        ambiguity_written_length(1, 1, CYCLE, ENTRIES(CYCLE), (const uint8_t *)"terminals=aA", 12, CASES, 2, LENGTHS, 2);
    expect_length("names in two cases", length, AMBIGUITY_NAME_REPEATED, 1, 0);
}

/* A robot's text, a heating module that declares what it uses in its own spelling, and both joined. Of the module's four rules one is
 * the robot's; Step has a rule in it and Method has none, so that it has no sentence. */
static const char ROBOT[] = "terminals=take,Vol\nnonterminals=Method,Step\nrule=Method: Step\nrule=Step: take vol\n";
static const char HEATING[] =
    "terminals=heat,VOL,Take\nnonterminals=method,STEP,Warm\nrule=step: TAKE Vol\nrule=Step: Warm VOL\nrule=WARM: Heat\nrule=warm:\n";
static const char JOINED[] = "terminals=take,Vol,heat\nnonterminals=Method,Step,Warm\nrule=Method: Step\nrule=Step: take Vol\n"
                             "rule=Step: Warm Vol\nrule=Warm: heat\nrule=Warm:\n";
static const uint16_t JOINED_TABLE[] = {S, 1, S + 1, S + 1, 2, 1, 2, S + 1, 2, S + 2, 2, S + 2, 1, 3, S + 2, 0};

/* The joined table in a row of so many entries: it is written, or refused with 14, and nothing behind it changes. */
static int is_joined(size_t entries, int is_enough)
{
    ambiguity_read_reply right = {AMBIGUITY_NOT_REFUSED, 0, 3, 3, ENTRIES(JOINED_TABLE), 15}, short_of = {14, 0, 0, 0, 0, 0};
    ambiguity_read_reply joined = ambiguity_join_texts((const uint8_t *)ROBOT, strlen(ROBOT), (const uint8_t *)HEATING, strlen(HEATING),
                                                       lent_table, entries);
    size_t front = is_enough ? ENTRIES(JOINED_TABLE) : 0, i;
    for (i = front; i < LENT; i++)
        if (lent_table[i] != 7)
            return 0;
    return memcmp(&joined, is_enough ? &right : &short_of, sizeof joined) == 0
        && memcmp(lent_table, JOINED_TABLE, front * sizeof *lent_table) == 0;
}

/* The joined text, likewise. */
static int is_written(size_t bytes, int is_enough)
{
    ambiguity_write_reply right = {AMBIGUITY_NOT_REFUSED, 0, strlen(JOINED)}, short_of = {14, 0, 0};
    ambiguity_write_reply written = ambiguity_write_joined((const uint8_t *)ROBOT, strlen(ROBOT), (const uint8_t *)HEATING,
                                                           strlen(HEATING), lent_bytes, bytes);
    size_t length = is_enough ? strlen(JOINED) : 0;
    return memcmp(&written, is_enough ? &right : &short_of, sizeof written) == 0 && memcmp(lent_bytes, JOINED, length) == 0
        && is_kept(length, 0, 0, 0);
}

static void expect_joined(size_t entries, size_t bytes, int is_enough)
{
    fill_lent();
    int right = is_joined(entries, is_enough);
    fill_lent();
    right = is_written(bytes, is_enough) && right;
    printf("%s: a heating module joined, lent %zu entries and %zu bytes, which is %s\n", right ? "ok" : "WRONG", entries, bytes,
           is_enough ? "enough" : "too little");
    wrong += !right;
}

/* All three functions refuse these texts, whatever is lent, and change nothing. */
static void expect_not_joined(const char *what, const char *robot, const char *addon, uint64_t cause, uint64_t at)
{
    const uint8_t *texts[] = {(const uint8_t *)robot, (const uint8_t *)addon};
    size_t lengths[] = {strlen(robot), strlen(addon)}, lent;
    int right = 1;
    fill_lent();
    for (lent = 0; lent <= LENT; lent += LENT) {
        ambiguity_read_reply joined = ambiguity_join_texts(texts[0], lengths[0], texts[1], lengths[1], lent_table, lent);
        ambiguity_write_reply written = ambiguity_write_joined(texts[0], lengths[0], texts[1], lengths[1], lent_bytes, lent);
        ambiguity_part_reply name = ambiguity_joined_name(texts[0], lengths[0], texts[1], lengths[1], lent);
        right = right && joined.cause == cause && joined.at == at
            && (joined.terminals | joined.nonterminals | joined.entries | joined.states) == 0 && written.cause == cause
            && written.at == at && written.length == 0 && (name.text | name.start | name.length) == 0 && is_kept(0, 0, 0, 0);
    }
    printf("%s: %s, cause %llu at %llu\n", right ? "ok" : "WRONG", what, (unsigned long long)cause, (unsigned long long)at);
    wrong += !right;
}

/* The name of a joined symbol is this part of this text; at 0 bytes none. */
static void expect_name(size_t symbol, uint64_t text, const char *name)
{
    ambiguity_part_reply part = ambiguity_joined_name((const uint8_t *)ROBOT, strlen(ROBOT), (const uint8_t *)HEATING, strlen(HEATING),
                                                      symbol);
    const char *from = text == AMBIGUITY_MODULE ? HEATING : ROBOT;
    const char *found = strstr(from, name);
    int right = part.text == text && part.length == strlen(name) && found != NULL && part.start == (size_t)(found - from);
    printf("%s: symbol %zu is '%s' of text %llu\n", right ? "ok" : "WRONG", symbol, name, (unsigned long long)part.text);
    wrong += !right;
}

static void expect_names(void)
{
    expect_name(0, AMBIGUITY_ROBOT, "take");
    expect_name(1, AMBIGUITY_ROBOT, "Vol");
    expect_name(2, AMBIGUITY_MODULE, "heat");
    expect_name(3, AMBIGUITY_ROBOT, "Method");
    expect_name(4, AMBIGUITY_ROBOT, "Step");
    expect_name(5, AMBIGUITY_MODULE, "Warm");
    expect_name(6, AMBIGUITY_NO_TEXT, "");
    expect_name(65538, AMBIGUITY_NO_TEXT, "");
    expect_name(((size_t)1 << 32) + 2, AMBIGUITY_NO_TEXT, "");
    expect_name((size_t)-1, AMBIGUITY_NO_TEXT, "");
}

/* A text with the terminals `front` from a number to a number, S, and a rule of S for each of those from `rules` on. */
static void put_numbered(char *end, const char *front, int from, int to, int rules)
{
    int i;
    end += sprintf(end, "terminals=%s%d", front, from);
    for (i = from + 1; i < to; i++)
        end += sprintf(end, ",%s%d", front, i);
    end += sprintf(end, "\nnonterminals=S\nrule=S:\n");
    for (i = rules; i < to; i++)
        end += sprintf(end, "rule=S: %s%d\n", front, i);
}

/* 1,500 and 1,000 names of which 500 are alike but for case make 2,000, 501 more make one too many; 300 rules and 200 others likewise.
 * The empty rule of S is in both. */
static void expect_joined_limits(void)
{
    static char robot[32768], addon[32768];
    ambiguity_read_reply joined;
    put_numbered(robot, "t", 0, 1500, 1500);
    put_numbered(addon, "T", 1000, 2000, 2000);
    joined = ambiguity_join_texts((uint8_t *)robot, strlen(robot), (uint8_t *)addon, strlen(addon), lent_table, LENT);
    expect("2000 joined terminals", (ambiguity_check_reply){joined.cause, joined.at}, AMBIGUITY_NOT_REFUSED, 0);
    put_numbered(addon, "T", 1000, 2001, 2001);
    expect_not_joined("2001 joined terminals", robot, addon, AMBIGUITY_OUT_OF_RANGE, 1);
    put_numbered(robot, "t", 0, 299, 0);
    put_numbered(addon, "T", 100, 399, 199);
    joined = ambiguity_join_texts((uint8_t *)robot, strlen(robot), (uint8_t *)addon, strlen(addon), lent_table, LENT);
    expect("400 joined rules", (ambiguity_check_reply){joined.cause, joined.at}, AMBIGUITY_NOT_REFUSED, 0);
    put_numbered(addon, "T", 100, 400, 199);
    expect_not_joined("401 joined rules", robot, addon, AMBIGUITY_TOO_MANY_RULES, 2 + 399 * 3);
}

/* The causes of either text, of names of two kinds and of what is joined, in this order. */
static void expect_joins(void)
{
    static const char clash[] = "terminals=Step\nnonterminals=Heat\n", other_clash[] = "terminals=heat\nnonterminals=Method,TAKE\n";
    expect_joined(ENTRIES(JOINED_TABLE), strlen(JOINED), 1);
    expect_joined(LENT, LENT, 1);
    expect_joined(ENTRIES(JOINED_TABLE) - 1, strlen(JOINED) - 1, 0);
    expect_joined(0, 0, 0);
    expect_names();
    expect_not_joined("the robot's text empty, and the module's", "", "", AMBIGUITY_MALFORMED, 1);
    expect_not_joined("a fault of the robot's text, and of the module's", "terminals=a\nnonterminals=S\nrule=S: b\n", "",
                      AMBIGUITY_NAME_UNKNOWN, 3);
    expect_not_joined("the robot's text without a sentence", HEATING, ROBOT, AMBIGUITY_NO_SENTENCE, 0);
    expect_not_joined("a fault of the module's text", ROBOT, "terminals=Step,step\nnonterminals=S\n", AMBIGUITY_NAME_REPEATED, 1);
    expect_not_joined("a name that the robot's text alone declares", ROBOT, "terminals=heat\nnonterminals=Step\nrule=Step: heat Vol\n",
                      AMBIGUITY_NAME_UNKNOWN, 3);
    expect_not_joined("a terminal that is the robot's nonterminal", ROBOT, clash, AMBIGUITY_KINDS_CLASH, 1);
    expect_not_joined("a nonterminal that is the robot's terminal", ROBOT, other_clash, AMBIGUITY_KINDS_CLASH, 2);
    expect_joined_limits();
}

/* S -> A B; A -> C; B -> b; C -> c. */
static const uint16_t IN_ORDER[] = {S, 2, S + 1, S + 2, S + 1, 1, S + 3, S + 2, 1, 1, S + 3, 1, 2};

/* S -> if S; S -> if S else S; S -> x. */
static const uint16_t DANGLING[] = {S, 2, 1, S, S, 4, 1, S, 2, S, S, 1, 3};

/* Rows for the trees of grammars of up to 27 states. */
#define TREES_STATES 27
#define TREES_WORK (AMBIGUITY_TREES_ENTRIES(TREES_STATES) + 3)
#define TREES_LIST 72

static uint32_t work_row[TREES_WORK];
static uint16_t rule_list[TREES_LIST];

_Static_assert(AMBIGUITY_MAX_ROW == 64 && AMBIGUITY_PLACES == 65, "65 places are before, between and behind 64 terminals");
_Static_assert(AMBIGUITY_TREES_ENTRIES(AMBIGUITY_MAX_STATES) * 4 == 17305600, "the bytes of the longest work row");
_Static_assert(sizeof(ambiguity_trees_reply) == 32 && sizeof(ambiguity_trees_room_reply) == 24, "replies are numbers of 64 bits");

/* The trees of a row of this table, with rows of so many entries: this reply; of the work row the first `zeros` entries are 0 then and the
 * others unchanged; the list has these rules in front, and is unchanged behind them. */
static void expect_trees(const char *what, struct asked in, const uint16_t *row, size_t row_entries, size_t work, size_t list,
                         ambiguity_trees_reply right, size_t zeros, const uint16_t *rules)
{
    size_t i;
    for (i = 0; i < TREES_WORK; i++)
        work_row[i] = 7;
    for (i = 0; i < TREES_LIST; i++)
        rule_list[i] = 7;
    ambiguity_trees_reply reply =
        ambiguity_find_trees(in.t, in.n, in.table, in.entries, row, row_entries, work_row, work, rule_list, list);
    int same = reply.cause == right.cause && reply.at == right.at && reply.found == right.found && reply.count == right.count;
    for (i = 0; i < TREES_WORK; i++)
        same = same && work_row[i] == (i < zeros ? 0 : 7);
    for (i = 0; i < TREES_LIST; i++)
        same = same && rule_list[i] == (i < right.count ? rules[i] : 7);
    printf("%s: %s, lent %zu and %zu, cause %llu at %llu, found %llu of %llu rules\n", same ? "ok" : "WRONG", what, work, list,
           (unsigned long long)reply.cause, (unsigned long long)reply.at, (unsigned long long)reply.found,
           (unsigned long long)reply.count);
    wrong += !same;
}

/* The answer for a row with rows that are just long enough and longer ones, and 14 with one entry less: of the work row, which then stays
 * as it was, and, where there is one tree, of the list, where the work row is 0 afterwards. */
static void expect_answer(const char *what, struct asked in, const uint16_t *row, size_t row_entries, uint64_t found,
                          const uint16_t *rules, size_t count)
{
    const ambiguity_trees_reply right = {AMBIGUITY_NOT_REFUSED, 0, found, count};
    const ambiguity_trees_reply short_of = {AMBIGUITY_BUFFER_TOO_SHORT, 0, AMBIGUITY_NO_ANSWER, 0};
    ambiguity_trees_room_reply room = ambiguity_trees_room(in.t, in.n, in.table, in.entries);
    size_t work = (size_t)room.entries;
    expect_trees(what, in, row, row_entries, work, count, right, work, rules);
    expect_trees(what, in, row, row_entries, work + 2, TREES_LIST, right, work, rules);
    expect_trees(what, in, row, row_entries, work - 1, TREES_LIST, short_of, 0, rules);
    expect_trees(what, in, row, row_entries, 0, 0, short_of, 0, rules);
    if (found == AMBIGUITY_ONE_TREE) {
        expect_trees(what, in, row, row_entries, work, count - 1, short_of, work, rules);
        expect_trees(what, in, row, row_entries, TREES_WORK, 0, short_of, work, rules);
    }
}

/* 22 at a place, whatever is lent. */
static void expect_row_refused(const char *what, struct asked in, const uint16_t *row, size_t row_entries, uint64_t at)
{
    const ambiguity_trees_reply right = {AMBIGUITY_ROW_WRONG, at, AMBIGUITY_NO_ANSWER, 0};
    expect_trees(what, in, row, row_entries, TREES_WORK, TREES_LIST, right, 0, row);
    expect_trees(what, in, row, row_entries, 0, 0, right, 0, row);
}

static void expect_rows_refused(struct asked in)
{
    uint16_t row[AMBIGUITY_MAX_ROW + 3];
    size_t i;
    for (i = 0; i < ENTRIES(row); i++)
        row[i] = 1;
    expect_row_refused("65 terminals", in, row, AMBIGUITY_MAX_ROW + 1, AMBIGUITY_MAX_ROW);
    expect_row_refused("67 terminals", in, row, ENTRIES(row), AMBIGUITY_MAX_ROW);
    row[65] = S;
    expect_row_refused("67 codes, of which one past place 64 is no terminal", in, row, ENTRIES(row), AMBIGUITY_MAX_ROW);
    row[63] = S;
    expect_row_refused("67 codes, of which that at place 63 is no terminal", in, row, ENTRIES(row), 63);
    row[0] = 0;
    expect_row_refused("a code that is 0", in, row, 1, 0);
    row[0] = (uint16_t)(in.t + 1);
    expect_row_refused("the code past the last terminal", in, row, ENTRIES(row), 0);
}

/* A table that is refused, whatever the row and what is lent. */
static void expect_no_trees(const char *what, struct asked in, uint64_t cause, uint64_t at)
{
    static const uint16_t none[] = {0};
    const ambiguity_trees_reply right = {cause, at, AMBIGUITY_NO_ANSWER, 0};
    ambiguity_trees_room_reply room = ambiguity_trees_room(in.t, in.n, in.table, in.entries);
    expect(what, (ambiguity_check_reply){room.cause, room.at}, cause, at);
    wrong += room.entries != 0;
    expect_trees(what, in, none, 1, TREES_WORK, TREES_LIST, right, 0, none);
    expect_trees(what, in, none, 0, 0, 0, right, 0, none);
}

static void expect_sentences(void)
{
    static const uint16_t c_b[] = {2, 1}, in_order[] = {1, 2, 4, 3}, a[] = {1}, first[] = {1};
    static const uint16_t if_if_x_else_x[] = {1, 1, 3, 2, 3}, if_x_else_x[] = {1, 3, 2, 3}, two[] = {2, 3, 3};
    static const uint16_t take_two[] = {1, 7, 8, 7, 2, 4, 5, 6}, channels[] = {2, 2, 1, 3, 7, 6, 5, 1};
    struct asked ordered = {2, 4, IN_ORDER, ENTRIES(IN_ORDER), 0}, cycle = {1, 1, CYCLE, ENTRIES(CYCLE), 0};
    struct asked dangling = {3, 1, DANGLING, ENTRIES(DANGLING), 0}, set = {8, 3, CHANNELS, ENTRIES(CHANNELS), 0};
    struct asked pairs = {0, 1, PAIRS, ENTRIES(PAIRS), 0};
    ambiguity_trees_room_reply room = ambiguity_trees_room(1, 1, TABLE, ENTRIES(TABLE));
    expect("the room of S -> a", (ambiguity_check_reply){room.cause, room.entries}, AMBIGUITY_NOT_REFUSED, 25350);
    expect_answer("c b, each node before its children", ordered, c_b, 2, AMBIGUITY_ONE_TREE, in_order, 4);
    expect_answer("no sentence", ordered, a, 1, AMBIGUITY_NO_TREE, first, 0);
    expect_answer("infinitely many trees", cycle, a, 1, AMBIGUITY_SEVERAL_TREES, first, 0);
    expect_answer("the empty row, which is no sentence", cycle, a, 0, AMBIGUITY_NO_TREE, first, 0);
    expect_answer("the empty row, several trees", pairs, a, 0, AMBIGUITY_SEVERAL_TREES, first, 0);
    expect_answer("the empty row, one tree", set, a, 0, AMBIGUITY_ONE_TREE, first, 1);
    expect_answer("a method of two commands", set, take_two, 8, AMBIGUITY_ONE_TREE, channels, 8);
    expect_answer("two trees", dangling, if_if_x_else_x, 5, AMBIGUITY_SEVERAL_TREES, first, 0);
    expect_answer("one tree", dangling, if_x_else_x, 4, AMBIGUITY_ONE_TREE, two, 3);
    expect_rows_refused(dangling);
    expect_rows_refused(set);
    expect_no_trees("a table cut, trees", (struct asked){3, 1, DANGLING, ENTRIES(DANGLING) - 1, 0}, AMBIGUITY_TRUNCATED, 10);
    expect_no_trees("no nonterminal, trees", (struct asked){3, 0, DANGLING, ENTRIES(DANGLING), 0}, AMBIGUITY_OUT_OF_RANGE, 0);
    expect_no_trees("no sentence, trees", (struct asked){0, 1, ENDLESS, ENTRIES(ENDLESS), 0}, AMBIGUITY_NO_SENTENCE, 0);
}

/* 64 terminals are taken: S -> S a; S -> ; a tree of 65 rules, and one entry of the list less. */
static void expect_longest(void)
{
    static const uint16_t list[] = {S, 2, S, 1, S, 0};
    uint16_t row[AMBIGUITY_MAX_ROW], rules[AMBIGUITY_MAX_ROW + 1];
    size_t i;
    for (i = 0; i < AMBIGUITY_MAX_ROW; i++) {
        row[i] = 1;
        rules[i] = 1;
    }
    rules[AMBIGUITY_MAX_ROW] = 2;
    expect_answer("64 terminals", (struct asked){1, 1, list, ENTRIES(list), 0}, row, AMBIGUITY_MAX_ROW, AMBIGUITY_ONE_TREE, rules,
                  AMBIGUITY_MAX_ROW + 1);
}

/* A draft's row with entries behind it, and what that row is to be after each call, put down here by hand. */
#define DRAFT_ROW (AMBIGUITY_DRAFT_ENTRIES + 3)
#define BLOCK AMBIGUITY_DRAFT_BLOCK
#define ADD(rule) ambiguity_add_rule(draft, DRAFT_ROW, rule, ENTRIES(rule))

static uint16_t draft[DRAFT_ROW], draft_right[DRAFT_ROW];

_Static_assert(AMBIGUITY_DRAFT_BLOCK == 1425 && AMBIGUITY_DRAFT_ENTRIES == 12827, "document 02's limits give these lengths");
_Static_assert(AMBIGUITY_MAX_TABLE_ENTRIES < AMBIGUITY_DRAFT_BLOCK, "a block holds the longest table");
_Static_assert(sizeof(ambiguity_draft_reply) == 16 && sizeof(ambiguity_draft_counts_reply) == 56
                   && sizeof(ambiguity_draft_table_reply) == 32,
               "replies are numbers of 64 bits");

/* Block k is to have these rules. */
static void put_block(size_t k, const uint16_t *table, size_t entries, unsigned rules)
{
    uint16_t *block = draft_right + 2 + k * BLOCK;
    block[0] = (uint16_t)(rules + 1);
    memcpy(block + 1, table, entries * sizeof *table);
}

/* A call answers so, and leaves the whole row as it is to be. */
static void expect_draft(const char *what, ambiguity_draft_reply reply, uint64_t cause, uint64_t at)
{
    int right = reply.cause == cause && reply.at == at && memcmp(draft, draft_right, sizeof draft) == 0;
    printf("%s: %s, cause %llu at %llu\n", right ? "ok" : "WRONG", what, (unsigned long long)reply.cause,
           (unsigned long long)reply.at);
    wrong += !right;
}

/* The draft has these counts; its table stands at 3. Nothing is written. */
static void expect_counts(const char *what, uint64_t t, uint64_t n, uint64_t rules, uint64_t entries, uint64_t states)
{
    ambiguity_draft_counts_reply counts = ambiguity_draft_counts(draft, DRAFT_ROW);
    ambiguity_draft_table_reply table = ambiguity_draft_table(draft, DRAFT_ROW);
    int right = counts.cause == 0 && counts.at == 0 && counts.terminals == t && counts.nonterminals == n && counts.rules == rules
        && counts.entries == entries && counts.states == states && table.cause == 0 && table.at == 0 && table.start == 3
        && table.entries == entries && memcmp(draft, draft_right, sizeof draft) == 0;
    printf("%s: %s, %llu rules, %llu entries, %llu states\n", right ? "ok" : "WRONG", what, (unsigned long long)counts.rules,
           (unsigned long long)counts.entries, (unsigned long long)counts.states);
    wrong += !right;
}

/* The row holds a number in each entry, so that each that is written shows. */
static void fill_draft(unsigned first)
{
    size_t i;
    for (i = 0; i < DRAFT_ROW; i++)
        draft[i] = draft_right[i] = (uint16_t)(first + 7 * i);
}

/* A new draft with this table is to be there. */
static void put_draft(size_t t, size_t n, const uint16_t *table, size_t entries, unsigned rules)
{
    size_t k;
    draft_right[0] = (uint16_t)t;
    draft_right[1] = (uint16_t)n;
    put_block(0, table, entries, rules);
    for (k = 1; k <= AMBIGUITY_MARKS; k++)
        draft_right[2 + k * BLOCK] = 0;
}

/* All functions that take a draft refuse a row of so many entries, and change nothing; so do numbers that are no marks and no rules. */
static void expect_no_draft(const char *what, size_t entries, uint64_t cause)
{
    static const size_t numbers[] = {0, 1, 8, 9, SIZE_MAX};
    ambiguity_draft_counts_reply counts = ambiguity_draft_counts(draft, entries);
    ambiguity_draft_table_reply table = ambiguity_draft_table(draft, entries);
    size_t i;
    expect_draft(what, (ambiguity_draft_reply){counts.cause, counts.at}, cause, 0);
    expect_draft(what, (ambiguity_draft_reply){table.cause, table.at}, cause, 0);
    wrong += (counts.terminals | counts.nonterminals | counts.rules | counts.entries | counts.states | table.start | table.entries) != 0;
    expect_draft(what, ambiguity_add_rule(draft, entries, TABLE, ENTRIES(TABLE)), cause, 0);
    expect_draft(what, ambiguity_add_rule(draft, entries, TABLE, 0), cause, 0);
    for (i = 0; i < ENTRIES(numbers); i++) {
        expect_draft(what, ambiguity_withdraw_rule(draft, entries, numbers[i]), cause, 0);
        expect_draft(what, ambiguity_set_mark(draft, entries, numbers[i]), cause, 0);
        expect_draft(what, ambiguity_return_to_mark(draft, entries, numbers[i]), cause, 0);
    }
}

/* A class: S -> a S b; S -> ; S -> A; A -> a; with marks. The codes are a, b; S, A. */
static void expect_history(void)
{
    static const uint16_t first[] = {S, 3, 1, S, 2, 65535, 13, 0}, second[] = {S, 0}, third[] = {S, 1, S + 1}, fourth[] = {S + 1, 1, 1, 9};
    static const uint16_t all[] = {S, 3, 1, S, 2, S, 0, S, 1, S + 1, S + 1, 1, 1};
    static const uint16_t without_second[] = {S, 3, 1, S, 2, S, 1, S + 1, S + 1, 1, 1};
    fill_draft(5);
    put_draft(2, 2, all, 0, 0);
    expect_draft("a draft without rules", ambiguity_new_draft(2, 2, all, 0, draft, DRAFT_ROW), 0, 0);
    expect_counts("it", 2, 2, 0, 0, 4);
    expect_draft("there is no rule 1", ambiguity_withdraw_rule(draft, DRAFT_ROW, 1), AMBIGUITY_NOT_PRESENT, 1);
    put_block(8, all, 0, 0);
    expect_draft("mark 8, no rules", ambiguity_set_mark(draft, DRAFT_ROW, 8), 0, 0);
    put_block(0, all, 5, 1);
    expect_draft("S -> a S b, entries past it are not read", ADD(first), 0, 0);
    put_block(0, all, 7, 2);
    expect_draft("S -> ", ADD(second), 0, 0);
    put_block(1, all, 7, 2);
    expect_draft("mark 1, two rules", ambiguity_set_mark(draft, AMBIGUITY_DRAFT_ENTRIES, 1), 0, 0);
    put_block(0, all, 10, 3);
    expect_draft("S -> A", ADD(third), 0, 0);
    put_block(0, all, 13, 4);
    expect_draft("A -> a", ADD(fourth), 0, 0);
    expect_counts("four rules", 2, 2, 4, 13, 13);
    expect_draft("S -> A again", ADD(third), AMBIGUITY_RULE_REPEATED, 13);
    put_block(1, all, 13, 4);
    expect_draft("mark 1 again, four rules", ambiguity_set_mark(draft, DRAFT_ROW, 1), 0, 0);
    put_block(0, without_second, 11, 3);
    expect_draft("rule 2 withdrawn, later ones move down", ambiguity_withdraw_rule(draft, DRAFT_ROW, 2), 0, 0);
    expect_counts("three rules", 2, 2, 3, 11, 12);
    put_block(0, without_second, 8, 2);
    expect_draft("the last rule withdrawn", ambiguity_withdraw_rule(draft, DRAFT_ROW, 3), 0, 0);
    put_block(0, without_second + 5, 3, 1);
    expect_draft("the first rule withdrawn", ambiguity_withdraw_rule(draft, DRAFT_ROW, 1), 0, 0);
    expect_draft("a return to an empty mark", ambiguity_return_to_mark(draft, DRAFT_ROW, 2), AMBIGUITY_NOT_PRESENT, 2);
    put_block(0, all, 13, 4);
    expect_draft("a return to mark 1", ambiguity_return_to_mark(draft, DRAFT_ROW, 1), 0, 0);
    put_block(0, all, 0, 0);
    expect_draft("a return to mark 8, no rules", ambiguity_return_to_mark(draft, DRAFT_ROW, 8), 0, 0);
    put_block(0, all, 13, 4);
    expect_draft("mark 1 is still there", ambiguity_return_to_mark(draft, DRAFT_ROW, 1), 0, 0);
}

/* What is refused of the draft that stands there, four rules of 13 entries. */
static void expect_steps_refused(void)
{
    static const size_t no_marks[] = {0, 9, 65537, SIZE_MAX}, no_rules[] = {0, 5, 65537, SIZE_MAX};
    static const uint16_t of_terminal[] = {1, 0}, undeclared_left[] = {S + 2, 99}, longer[] = {S, 13}, cut[] = {S, 2, 0};
    static const uint16_t undeclared[] = {S, 3, 1, S + 2, 3}, no_code[] = {S, 1, 0}, fourth[] = {S + 1, 1, 1};
    size_t i;
    for (i = 0; i < 4; i++) {
        expect_draft("no such mark", ambiguity_set_mark(draft, DRAFT_ROW, no_marks[i]), AMBIGUITY_NOT_PRESENT, no_marks[i]);
        expect_draft("no mark to return to", ambiguity_return_to_mark(draft, DRAFT_ROW, no_marks[i]), AMBIGUITY_NOT_PRESENT, no_marks[i]);
        expect_draft("no such rule", ambiguity_withdraw_rule(draft, DRAFT_ROW, no_rules[i]), AMBIGUITY_NOT_PRESENT, no_rules[i]);
    }
    expect_draft("no entry to add", ambiguity_add_rule(draft, DRAFT_ROW, longer, 0), AMBIGUITY_TRUNCATED, 13);
    expect_draft("one entry to add", ambiguity_add_rule(draft, DRAFT_ROW, of_terminal, 1), AMBIGUITY_TRUNCATED, 13);
    expect_draft("a terminal on the left", ADD(of_terminal), AMBIGUITY_LEFT_UNDECLARED, 13);
    expect_draft("an undeclared left code, and too long", ADD(undeclared_left), AMBIGUITY_LEFT_UNDECLARED, 13);
    expect_draft("thirteen codes, and cut", ADD(longer), AMBIGUITY_RULE_TOO_LONG, 13);
    expect_draft("a rule cut, and a code undeclared", ADD(cut), AMBIGUITY_TRUNCATED, 13);
    expect_draft("the first undeclared code", ADD(undeclared), AMBIGUITY_CODE_UNDECLARED, 16);
    expect_draft("the code 0", ADD(no_code), AMBIGUITY_CODE_UNDECLARED, 15);
    expect_draft("a rule that is there", ADD(fourth), AMBIGUITY_RULE_REPEATED, 13);
    expect_no_draft("a row one entry short", AMBIGUITY_DRAFT_ENTRIES - 1, AMBIGUITY_BUFFER_TOO_SHORT);
    expect_no_draft("a row of no entries", 0, AMBIGUITY_BUFFER_TOO_SHORT);
}

static ambiguity_draft_reply new_draft(size_t t, size_t n, const uint16_t *table, size_t entries, size_t lent)
{
    return ambiguity_new_draft(t, n, table, entries, draft, lent);
}

/* A new draft's table is tried as by the table check, but for 19; then the row has to be long enough. */
static void expect_new_drafts(void)
{
    static const uint16_t cut[] = {S, 0, S, 2, 1}, left[] = {S, 0, 1, 99}, long_rule[] = {S, 0, S, 13}, code[] = {S, 2, 1, 9};
    static const uint16_t twice[] = {S, 1, 1, S, 1, 1, S, 9};
    size_t lent, turn;
    fill_draft(11);
    for (turn = 0; turn < 2; turn++) {
        lent = turn == 0 ? 0 : DRAFT_ROW;
        expect_draft("no nonterminal", new_draft(1, 0, TABLE, 3, lent), AMBIGUITY_OUT_OF_RANGE, 0);
        expect_draft("a terminal too many", new_draft(2001, 1, cut, 5, lent), AMBIGUITY_OUT_OF_RANGE, 0);
        expect_draft("2^64 - 1 nonterminals", new_draft(0, SIZE_MAX, cut, 0, lent), AMBIGUITY_OUT_OF_RANGE, 0);
        expect_draft("a table cut", new_draft(1, 1, cut, ENTRIES(cut), lent), AMBIGUITY_TRUNCATED, 2);
        expect_draft("one entry of a rule", new_draft(1, 1, cut, 3, lent), AMBIGUITY_TRUNCATED, 2);
        expect_draft("a left code undeclared", new_draft(1, 1, left, ENTRIES(left), lent), AMBIGUITY_LEFT_UNDECLARED, 2);
        expect_draft("thirteen codes", new_draft(1, 1, long_rule, ENTRIES(long_rule), lent), AMBIGUITY_RULE_TOO_LONG, 2);
        expect_draft("a code undeclared", new_draft(1, 1, code, ENTRIES(code), lent), AMBIGUITY_CODE_UNDECLARED, 3);
        expect_draft("a rule twice", new_draft(1, 1, twice, ENTRIES(twice), lent), AMBIGUITY_RULE_REPEATED, 3);
    }
    for (lent = 0; lent < AMBIGUITY_DRAFT_ENTRIES; lent += 6413)
        expect_draft("a row too short", new_draft(1, 1, TABLE, 3, lent), AMBIGUITY_BUFFER_TOO_SHORT, 0);
    put_draft(0, 1, ENDLESS, 3, 1);
    expect_draft("S -> S, which has no sentence", new_draft(0, 1, ENDLESS, 3, AMBIGUITY_DRAFT_ENTRIES), 0, 0);
    expect("its table has no sentence", check_table(0, 1, draft + 3, 3), AMBIGUITY_NO_SENTENCE, 0);
    put_draft(8, 3, CHANNELS, ENTRIES(CHANNELS), 7);
    expect_draft("a new draft in the same row", new_draft(8, 3, CHANNELS, ENTRIES(CHANNELS), DRAFT_ROW), 0, 0);
    expect_counts("the command set", 8, 3, 7, ENTRIES(CHANNELS), 27);
    expect("its table", check_table(8, 3, draft + 3, ENTRIES(CHANNELS)), AMBIGUITY_NOT_REFUSED, 0);
}

/* 400 rules, and 1024 states: full drafts, to which nothing is added until a rule is withdrawn. */
static void expect_full_drafts(void)
{
    static uint16_t units[400 * 3], longs[79 * 14];
    static const uint16_t more[] = {S, 1, 401}, empty[] = {S, 0}, other[] = {S, 5, 1, 1, 1, 1, 1};
    uint16_t *end = units;
    unsigned code, left;
    for (code = 1; code <= 400; code++)
        end = put_rule(end, S, 1, code);
    put_draft(401, 1, units, 399 * 3, 399);
    expect_draft("399 rules", new_draft(401, 1, units, 399 * 3, DRAFT_ROW), 0, 0);
    put_block(0, units, 400 * 3, 400);
    expect_draft("the 400th", ambiguity_add_rule(draft, DRAFT_ROW, units + 399 * 3, 3), 0, 0);
    expect_counts("400 rules", 401, 1, 400, 1200, 804);
    expect_draft("a 401st rule", ADD(more), AMBIGUITY_TOO_MANY_RULES, 1200);
    expect_draft("a 401st rule of no entries", ambiguity_add_rule(draft, DRAFT_ROW, more, 0), AMBIGUITY_TOO_MANY_RULES, 1200);
    put_block(0, units, 399 * 3, 399);
    expect_draft("the last one withdrawn", ambiguity_withdraw_rule(draft, DRAFT_ROW, 400), 0, 0);
    draft_right[2] = 401;
    memcpy(draft_right + 3 + 399 * 3, more, sizeof more);
    expect_draft("another in its place", ADD(more), 0, 0);
    end = longs;
    for (left = S; left < S + 78; left++)
        end = put_rule(end, left, 12, 1);
    put_rule(end, S, 5, 1);
    put_draft(1, 78, longs, 78 * 14 + 7, 79);
    expect_draft("1024 states", new_draft(1, 78, longs, 78 * 14 + 7, DRAFT_ROW), 0, 0);
    expect_counts("79 rules", 1, 78, 79, 78 * 14 + 7, 1024);
    expect_draft("a state too many", ADD(empty), AMBIGUITY_TOO_MANY_STATES, 78 * 14 + 7);
    expect_draft("a rule that is there comes before", ADD(other), AMBIGUITY_RULE_REPEATED, 78 * 14 + 7);
    put_rule(end, S, 6, 1);
    expect_draft("1025 states", new_draft(1, 78, longs, 78 * 14 + 8, DRAFT_ROW), AMBIGUITY_TOO_MANY_STATES, 78 * 14);
}

/* Rows that no new draft made: each holds one draft or none. */
static void expect_other_rows(void)
{
    static const uint16_t empty[] = {S, 0}, undeclared[] = {S, 1, 5}, strange[] = {9, 2, 7, 8};
    size_t i;
    memset(draft_right, 0, sizeof draft_right);
    memcpy(draft, draft_right, sizeof draft);
    expect_no_draft("a row of zeros", DRAFT_ROW, AMBIGUITY_NOT_PRESENT);
    draft[2] = draft_right[2] = 2;
    draft[4] = draft_right[4] = BLOCK - 2;
    expect_no_draft("a rule that is one code too long for its block", DRAFT_ROW, AMBIGUITY_NOT_PRESENT);
    draft[4] = draft_right[4] = BLOCK - 3;
    expect_counts("a rule that just fits its block", 0, 0, 1, BLOCK - 1, BLOCK + 2);
    draft[2] = draft_right[2] = 3;
    expect_no_draft("a second rule behind it", DRAFT_ROW, AMBIGUITY_NOT_PRESENT);
    draft[4] = draft_right[4] = 0;
    draft[2] = draft_right[2] = 713;
    expect_counts("712 empty rules", 0, 0, 712, 1424, 716);
    expect_draft("one more", ADD(empty), AMBIGUITY_TOO_MANY_RULES, 1424);
    draft[2] = draft_right[2] = 714;
    expect_no_draft("a 713th rule, which does not fit", DRAFT_ROW, AMBIGUITY_NOT_PRESENT);
    draft_right[0] = 5;
    draft_right[1] = 1;
    put_block(0, strange, 4, 1);
    memcpy(draft, draft_right, sizeof draft);
    expect_counts("a rule with other codes", 5, 1, 1, 4, 7);
    draft_right[2] = 3;
    memcpy(draft_right + 7, undeclared, sizeof undeclared);
    expect_draft("the added rule alone is tried", ADD(undeclared), 0, 0);
    expect_draft("it is there now", ADD(undeclared), AMBIGUITY_RULE_REPEATED, 7);
    for (i = 1; i <= 4; i++)
        draft[2 + i * BLOCK] = draft_right[2 + i * BLOCK] = (uint16_t)(i == 1 ? 65535 : i == 2 ? 714 : i == 3 ? 713 : 1);
    expect_draft("a mark with too many rules", ambiguity_return_to_mark(draft, DRAFT_ROW, 1), AMBIGUITY_NOT_PRESENT, 1);
    expect_draft("a mark with a rule too many", ambiguity_return_to_mark(draft, DRAFT_ROW, 2), AMBIGUITY_NOT_PRESENT, 2);
    draft_right[2] = 713;
    memcpy(draft_right + 3, draft + 3 + 3 * BLOCK, (BLOCK - 1) * sizeof *draft);
    expect_draft("a mark that just fits", ambiguity_return_to_mark(draft, DRAFT_ROW, 3), 0, 0);
    draft_right[2] = 1;
    expect_draft("a mark without rules", ambiguity_return_to_mark(draft, DRAFT_ROW, 4), 0, 0);
}

static void expect_drafts(void)
{
    expect("the room of a draft", (ambiguity_check_reply){0, ambiguity_draft_room()}, 0, AMBIGUITY_DRAFT_ENTRIES);
    expect_history();
    expect_steps_refused();
    expect_new_drafts();
    expect_full_drafts();
    expect_other_rows();
}

/* The plan of a row, with rows of so many entries: what ambiguity_find_trees answers and leaves for the table of the command set, and this
 * reply; of the work row the first `zeros` entries are 0 then and the others unchanged, and the list has these rules in front. */
static void expect_plan(const char *what, const uint16_t *row, size_t row_entries, size_t work, size_t list, ambiguity_plan_reply right,
                        size_t zeros, const uint16_t *rules)
{
    const struct asked set = {8, 3, CHANNELS, ENTRIES(CHANNELS), 0};
    size_t i;
    expect_trees(what, set, row, row_entries, work, list, (ambiguity_trees_reply){right.cause, right.at, right.found, right.count}, zeros,
                 rules);
    for (i = 0; i < TREES_WORK; i++)
        work_row[i] = 7;
    for (i = 0; i < TREES_LIST; i++)
        rule_list[i] = 7;
    ambiguity_plan_reply reply = ambiguity_read_plan(row, row_entries, work_row, work, rule_list, list);
    int same = reply.cause == right.cause && reply.at == right.at && reply.found == right.found && reply.count == right.count;
    for (i = 0; i < TREES_WORK; i++)
        same = same && work_row[i] == (i < zeros ? 0 : 7);
    for (i = 0; i < TREES_LIST; i++)
        same = same && rule_list[i] == (i < right.count ? rules[i] : 7);
    printf("%s: %s, plan, lent %zu and %zu, cause %llu at %llu, found %llu of %llu rules\n", same ? "ok" : "WRONG", what, work, list,
           (unsigned long long)reply.cause, (unsigned long long)reply.at, (unsigned long long)reply.found,
           (unsigned long long)reply.count);
    wrong += !same;
}

/* A row with its plan, or none where it has no rules: with rows that are just long enough and longer ones, and 14 with one entry less. */
static void expect_read(const char *what, const uint16_t *row, size_t row_entries, const uint16_t *rules, size_t count)
{
    const ambiguity_plan_reply right = {AMBIGUITY_NOT_REFUSED, 0, count > 0 ? AMBIGUITY_ONE_TREE : AMBIGUITY_NO_TREE, count};
    const ambiguity_plan_reply short_of = {AMBIGUITY_BUFFER_TOO_SHORT, 0, AMBIGUITY_NO_ANSWER, 0};
    const size_t work = AMBIGUITY_PLAN_WORK_ENTRIES;
    expect_plan(what, row, row_entries, work, count, right, work, rules);
    expect_plan(what, row, row_entries, TREES_WORK, TREES_LIST, right, work, rules);
    expect_plan(what, row, row_entries, work - 1, TREES_LIST, short_of, 0, rules);
    expect_plan(what, row, row_entries, 0, 0, short_of, 0, rules);
    if (count > 0) {
        expect_plan(what, row, row_entries, work, count - 1, short_of, work, rules);
        expect_plan(what, row, row_entries, TREES_WORK, 0, short_of, work, rules);
    }
}

/* 22 at a place, whatever is lent. */
static void expect_not_read(const char *what, const uint16_t *row, size_t row_entries, uint64_t at)
{
    const ambiguity_plan_reply right = {AMBIGUITY_ROW_WRONG, at, AMBIGUITY_NO_ANSWER, 0};
    expect_plan(what, row, row_entries, TREES_WORK, TREES_LIST, right, 0, row);
    expect_plan(what, row, row_entries, 0, 0, right, 0, row);
}

/* take ch vol, so often that no more terminals are taken, and what comes behind them. */
static void expect_longest_plans(void)
{
    uint16_t row[AMBIGUITY_MAX_ROW + 3], rules[AMBIGUITY_MAX_ROW];
    size_t i;
    for (i = 0; i < AMBIGUITY_MAX_ROW - 1; i += 3) {
        row[i] = AMBIGUITY_TAKE;
        row[i + 1] = AMBIGUITY_CH;
        row[i + 2] = AMBIGUITY_VOL;
        rules[i / 3] = 2;
        rules[22 + i / 3 * 2] = 3;
        rules[23 + i / 3 * 2] = 6;
    }
    rules[21] = 1;
    expect_read("the most rules", row, AMBIGUITY_MAX_ROW - 1, rules, AMBIGUITY_MAX_ROW);
    row[63] = row[64] = row[65] = row[66] = AMBIGUITY_TAKE;
    expect_read("64 terminals, of which the last begins a command", row, AMBIGUITY_MAX_ROW, rules, 0);
    expect_not_read("65 terminals", row, AMBIGUITY_MAX_ROW + 1, AMBIGUITY_MAX_ROW);
    expect_not_read("67 terminals", row, ENTRIES(row), AMBIGUITY_MAX_ROW);
    row[64] = S;
    expect_not_read("67 codes, of which that at place 64 is no terminal", row, ENTRIES(row), AMBIGUITY_MAX_ROW);
    row[63] = AMBIGUITY_SEP + 1;
    expect_not_read("67 codes, of which that at place 63 is no terminal", row, ENTRIES(row), 63);
    row[0] = 0;
    expect_not_read("67 codes, of which the first is 0", row, ENTRIES(row), 0);
    row[0] = S;
    expect_not_read("a nonterminal", row, 1, 0);
    row[0] = UINT16_MAX;
    expect_not_read("the largest code", row, 1, 0);
}

/* The certificate's bytes are what the search writes for the table, and are accepted; past them all is 0. */
static void expect_plan_certificate(void)
{
    static uint8_t found[AMBIGUITY_PLAN_CERTIFICATE_BYTES], told[AMBIGUITY_PLAN_CERTIFICATE_BYTES];
    static uint32_t rows[3][AMBIGUITY_ROW_ENTRIES(AMBIGUITY_PLAN_STATES)];
    const size_t entries = ENTRIES(rows[0]);
    size_t i;
    ambiguity_search_reply reply = ambiguity_search(8, 3, CHANNELS, ENTRIES(CHANNELS), 0, found, sizeof found, rows[0], entries, rows[1],
                                                    entries, rows[2], entries);
    expect("the size of the certificate that is searched", (ambiguity_check_reply){reply.cause, reply.count}, AMBIGUITY_NOT_REFUSED, 90);
    for (i = 0; i < sizeof told; i++)
        told[i] = ambiguity_plan_certificate_byte(i);
    for (i = 0; i < sizeof told && told[i] == found[i]; i++)
        ;
    expect("the bytes that are as it", (ambiguity_check_reply){0, i}, 0, AMBIGUITY_PLAN_CERTIFICATE_BYTES);
    expect("the certificate is checked", ambiguity_check_certificate(8, 3, CHANNELS, ENTRIES(CHANNELS), 0, told, sizeof told),
           AMBIGUITY_NOT_REFUSED, 0);
    expect("bytes past the last", (ambiguity_check_reply){ambiguity_plan_certificate_byte(AMBIGUITY_PLAN_CERTIFICATE_BYTES),
                                                          ambiguity_plan_certificate_byte(SIZE_MAX)}, 0, 0);
}

_Static_assert(AMBIGUITY_PLAN_WORK_ENTRIES == 114075 && TREES_STATES == AMBIGUITY_PLAN_STATES, "the entries of the work row for a plan");
_Static_assert(AMBIGUITY_CERTIFICATE_BYTES(AMBIGUITY_PLAN_STATES) == AMBIGUITY_PLAN_CERTIFICATE_BYTES, "the bytes of its certificate");
_Static_assert(AMBIGUITY_TAKE == 1 && AMBIGUITY_SEP == 8 && sizeof(ambiguity_plan_reply) == 32, "codes, and a reply of 64-bit numbers");

static void expect_plans(void)
{
    static const uint16_t method[] = {AMBIGUITY_TAKE, AMBIGUITY_CH,   AMBIGUITY_SEP, AMBIGUITY_CH, AMBIGUITY_VOL,  AMBIGUITY_REPEAT,
                                      AMBIGUITY_NUM,  AMBIGUITY_GIVE, AMBIGUITY_CH,  AMBIGUITY_VOL, AMBIGUITY_CLOSE};
    static const uint16_t rules[] = {2, 2, 1, 3, 7, 6, 5, 2, 1, 4, 6}, empty[] = {1}, take[] = {2, 1, 3, 7, 6}, give[] = {2, 1, 4, 6};
    expect("the room of a plan", (ambiguity_check_reply){0, ambiguity_plan_room()}, 0, AMBIGUITY_PLAN_WORK_ENTRIES);
    expect_read("a method", method, ENTRIES(method), rules, ENTRIES(rules));
    expect_read("the empty method", method, 0, empty, 1);
    expect_read("its first command", method, 5, take, ENTRIES(take));
    expect_read("what it repeats", method + 7, 3, give, ENTRIES(give));
    expect_read("without its end", method, ENTRIES(method) - 1, rules, 0);
    expect_read("without its beginning", method + 1, ENTRIES(method) - 1, rules, 0);
    expect_read("a single word", method + 4, 1, rules, 0);
    expect_longest_plans();
    expect_plan_certificate();
}

int main(void)
{
    uint8_t longer[BYTES + 1] = {0};
    memcpy(longer, CERTIFICATE, sizeof CERTIFICATE);
    expect("its certificate", check(CERTIFICATE, sizeof CERTIFICATE), AMBIGUITY_NOT_REFUSED, 0);
    expect("the first eight bytes alone", check(CERTIFICATE, 8), AMBIGUITY_CERTIFICATE_LENGTH, 0);
    expect("one byte more", check(longer, sizeof longer), AMBIGUITY_CERTIFICATE_LENGTH, 0);
    expect("no byte", check(CERTIFICATE, 0), AMBIGUITY_CERTIFICATE_LENGTH, 0);
    expect("all zero", check_filled(0x00, 0x00), AMBIGUITY_START_MISSING, 0);
    expect("all 0xFF", check_filled(0xFF, 0xFF), AMBIGUITY_END_PRESENT, 43);
    expect("only bit 0", check_filled(0x01, 0x00), AMBIGUITY_SUCCESSOR_MISSING, 0);
    expect("the table cut", ambiguity_check_certificate(1, 1, TABLE, 2, 0, CERTIFICATE, sizeof CERTIFICATE), AMBIGUITY_TRUNCATED, 0);
    expect("a witness as records", check_records(WITNESS_ENTRIES), AMBIGUITY_NOT_REFUSED, 0);
    expect("its first four records", check_records(4), AMBIGUITY_WITNESS_WRONG, 4);
    expect("no record", check_records(0), AMBIGUITY_WITNESS_WRONG, 0);
    expect("a layer of 2", check_other(1, 2, 0, 2), AMBIGUITY_WITNESS_WRONG, 1);
    expect("a left state of Q", check_other(1, 0, 8, 2), AMBIGUITY_WITNESS_WRONG, 1);
    expect("a right state of Q and more, though the index is right", check_other(2, 0, 1, 10), AMBIGUITY_WITNESS_WRONG, 2);
    expect_report("terminals=a\nnonterminals=S\nrule=S: a\n", "states=6\nverdict=unambiguous\nreached=11\n");
    expect_report(CYCLE_TEXT, "states=8\nverdict=potential\nleft=(0 S )0\nright=(0 (1 S )1 )0\n");
    expect_report("terminals=a\nnonterminals=S,W\nrule=S: a\nrule=S: W\nrule=W: W\n",
                  "states=10\nverdict=unambiguous\nreached=11\n");
    expect_report("", "refused=16\nat=1\n");
    expect_read_back("its two strings read back", CYCLE_TEXT, CYCLE_LINES, 5, (ambiguity_read_back_reply){0, 0, 0, 3, 5});
    expect_read_back("rows that are longer", CYCLE_TEXT, CYCLE_LINES, ROOM, (ambiguity_read_back_reply){0, 0, 0, 3, 5});
    expect_read_back("a row too short", CYCLE_TEXT, CYCLE_LINES, 4, (ambiguity_read_back_reply){14, 0, AMBIGUITY_LINES, 0, 0});
    expect_read_back("a rule that is not there", CYCLE_TEXT, "left=(3\nright=\n", 0,
                     (ambiguity_read_back_reply){16, 1, AMBIGUITY_LINES, 0, 0});
    expect_read_back("a name that is not there", CYCLE_TEXT, "left=\nright=b\n", 0,
                     (ambiguity_read_back_reply){17, 2, AMBIGUITY_LINES, 0, 0});
    expect_read_back("a fault of the grammar", "", CYCLE_LINES, 0, (ambiguity_read_back_reply){16, 1, AMBIGUITY_GRAMMAR, 0, 0});
    expect_rooms();
    expect_callers();
    expect_chains();
    expect_lengths();
    expect_case();
    expect_joins();
    expect_sentences();
    expect_longest();
    expect_drafts();
    expect_plans();
    expect_report(ENDLESS_TEXT, "refused=19\nat=0\n");
    expect_without_sentence();
    expect_order();
    expect_codes();
    expect_limits();
    return wrong != 0;
}
