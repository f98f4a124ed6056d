/* The library for C: the table check, the step records, the certificate check, the witness check over indices and over records, the
 * search, the reader and the writer of grammar text, what search and writer are to be lent, told beforehand, the report that the program
 * prints, reading back of the two strings that it prints, the join of a module's text to the robot's, the derivation trees of one
 * sentence, a draft: a grammar while it is edited, with marks to return to, and the plans of the eight-channel command set. Each function
 * answers as its entry promises; crates/ambiguity_c/src/lib.rt has the promises, proved.
 * "Document 01" is the paper that the library follows: it has the tables, the certificates and the causes of refusal. Causes 19 to 23,
 * the codes of 16 bits, the limits, names in any case, modules, remembered callers, the trees of one sentence, drafts and the
 * eight-channel command set are document 02's, which has the requests after it.
 *
 * What holds of every function:
 * - Every input is taken: what is wrong is refused, with a cause from 1 to 23 and a position. `cause` 0 says that nothing is
 *   refused. A refusal changes no lent row, but for the work row of ambiguity_find_trees and ambiguity_read_plan, which tell when. A
 *   field that an answer does not have is 0.
 * - A row is lent as a pointer and its number of entries. The pointer is never NULL, also at 0 entries, and is aligned as its
 *   type is. A row that is written overlaps no other row of the call. Nothing is kept after the return.
 * - A written row may be longer than needed: its front is written, the rest stays as it was.
 * - Names that differ only in the case of ASCII letters are the same name wherever names are compared: in lists, rules, two texts that
 *   are joined, what the writer is given and lines that are read back. The spelling of the declaration is written out. Keys, as
 *   `rule=`, are no names.
 * - Six functions take `callers`, how many callers a state of the automaton remembers: 0, 1 or 2. A paragraph before them says what
 *   that costs, and when to try 1 or 2; 0 is the usual number.
 * - There is no state, no allocation and no lock: every function is re-entrant, and calls may run at the same time.
 * - The archive needs memcpy and memset and nothing else. It is for x86-64 with the System V calling convention.
 */
#ifndef AMBIGUITY_H
#define AMBIGUITY_H

#include <stddef.h>
#include <stdint.h>

#if !defined(__x86_64__)
#error "the archive is for x86-64"
#endif

/* The version of the whole: library, header, wrapper, tools. The first number changes when a caller has to. */
#define AMBIGUITY_VERSION "5.3.0"
#define AMBIGUITY_VERSION_MAJOR 5

/* The limits of document 02. A right side has at most 12 codes. */
#define AMBIGUITY_MAX_TERMINALS 2000
#define AMBIGUITY_MAX_NONTERMINALS 2000
#define AMBIGUITY_MAX_RULES 400
#define AMBIGUITY_MAX_STATES 1024
#define AMBIGUITY_MAX_CALLERS 2
#define AMBIGUITY_MAX_TEXT_BYTES 262144
#define AMBIGUITY_MAX_ROW 64

/* The code of the first nonterminal, the start. Terminals have the codes 1 to t, nonterminals the n codes from this one on; all others
 * are undeclared. */
#define AMBIGUITY_START 32768

/* Sizes by Q, the number of states: the triples, so the entries of a row with one for each; the bytes of a certificate. They serve
 * where memory is set aside when a program is compiled; ambiguity_search_room tells the same of a table, at run time. */
#define AMBIGUITY_ROW_ENTRIES(states) ((size_t)2 * (states) * (states))
#define AMBIGUITY_CERTIFICATE_BYTES(states) ((AMBIGUITY_ROW_ENTRIES(states) + 7) / 8)

/* The entries of the work row for the trees of one sentence, by Q at 0 callers: one for each state and each pair of the places before,
 * between and behind AMBIGUITY_MAX_ROW terminals. ambiguity_trees_room tells the same of a table. */
#define AMBIGUITY_PLACES (AMBIGUITY_MAX_ROW + 1)
#define AMBIGUITY_TREES_ENTRIES(states) ((size_t)AMBIGUITY_PLACES * AMBIGUITY_PLACES * (states))

/* Enough for any grammar: entries of its table (a rule takes one more than its states), and symbols. */
#define AMBIGUITY_MAX_TABLE_ENTRIES (AMBIGUITY_MAX_STATES - 4 + AMBIGUITY_MAX_RULES)
#define AMBIGUITY_MAX_NAMES (AMBIGUITY_MAX_TERMINALS + AMBIGUITY_MAX_NONTERMINALS)

/* A draft's marks are 1 to AMBIGUITY_MARKS. Its row has t and n, then a block for the draft and one for each mark: the entries of a
 * block, and of the whole row. ambiguity_draft_room tells the same at run time. */
#define AMBIGUITY_MARKS 8
#define AMBIGUITY_DRAFT_BLOCK (1 + AMBIGUITY_MAX_RULES + AMBIGUITY_MAX_STATES)
#define AMBIGUITY_DRAFT_ENTRIES (2 + (1 + AMBIGUITY_MARKS) * AMBIGUITY_DRAFT_BLOCK)

/* The eight-channel command set: Q at 0 callers, the entries of the work row for a plan, and the bytes of its certificate at 0 callers.
 * ambiguity_plan_room tells the entries at run time. */
#define AMBIGUITY_PLAN_STATES 27
#define AMBIGUITY_PLAN_WORK_ENTRIES AMBIGUITY_TREES_ENTRIES(AMBIGUITY_PLAN_STATES)
#define AMBIGUITY_PLAN_CERTIFICATE_BYTES 183

/* What the report takes of a text, and the bytes that are always enough for it: 64, and 16 for each letter of two strings with at
 * most AMBIGUITY_ROW_ENTRIES(AMBIGUITY_MAX_REPORT_STATES) letters each. A report without strings has at most 64. */
#define AMBIGUITY_MAX_REPORT_TEXT_BYTES 4096
#define AMBIGUITY_MAX_REPORT_STATES 48
#define AMBIGUITY_MAX_REPORT_BYTES 147520

/* A letter of a string as an entry of a row: its kind, an ambiguity_moved but AMBIGUITY_STILL, times 65536, and its number, that of
 * the rule that is opened or closed, or the symbol's code. */
#define AMBIGUITY_LETTER_KIND(entry) ((entry) / 65536)
#define AMBIGUITY_LETTER_NUMBER(entry) ((entry) % 65536)

/* The stack that a call may use, below the caller's frame. It is measured on a painted stack, with the largest grammars and texts, and
 * not proved: where there is less, a call crashes. bindings/c/stack.c measures it, and prints the figure of each function.
 * The reader, the search, the report, which lends both of them their rows, reading back, which calls the reader, and the join, whose
 * second figure is for writing the joined text, have figures of their own; the first figure is for all others. */
#define AMBIGUITY_STACK_BYTES 66560
#define AMBIGUITY_READ_TEXT_STACK_BYTES 65536
#define AMBIGUITY_SEARCH_STACK_BYTES 53248
#define AMBIGUITY_REPORT_STACK_BYTES 372736
#define AMBIGUITY_READ_BACK_STACK_BYTES 65536
#define AMBIGUITY_JOIN_STACK_BYTES 126976
#define AMBIGUITY_WRITE_JOINED_STACK_BYTES 233472

/* The causes of refusal. */
enum ambiguity_cause {
    AMBIGUITY_NOT_REFUSED = 0,
    AMBIGUITY_OUT_OF_RANGE = 1,       /* t or n outside its range: at 0, or line */
    AMBIGUITY_TRUNCATED = 2,          /* table ends inside a rule: at the rule's offset */
    AMBIGUITY_LEFT_UNDECLARED = 3,    /* left code no declared nonterminal: at the rule's offset */
    AMBIGUITY_RULE_TOO_LONG = 4,      /* more than 12 codes: at the rule's offset, or line */
    AMBIGUITY_CODE_UNDECLARED = 5,    /* right code undeclared: at the code's offset */
    AMBIGUITY_RULE_REPEATED = 6,      /* rule equals an earlier one: at the later rule's offset */
    AMBIGUITY_TOO_MANY_RULES = 7,     /* a 401st rule: at its offset */
    AMBIGUITY_TOO_MANY_STATES = 8,    /* Q would pass 1024: at the rule's offset; at 0 if it does so only with these callers */
    AMBIGUITY_CERTIFICATE_LENGTH = 9, /* certificate length wrong: at 0 */
    AMBIGUITY_SPARE_BIT = 10,         /* bit past 2Q^2 set: at the lowest such index */
    AMBIGUITY_START_MISSING = 11,     /* (0,0,0) missing: at 0 */
    AMBIGUITY_END_PRESENT = 12,       /* (1,1,1) present: at its index */
    AMBIGUITY_SUCCESSOR_MISSING = 13, /* successor missing: at the lowest index that lacks one */
    AMBIGUITY_BUFFER_TOO_SHORT = 14,  /* a lent output or work row too short: at 0 */
    AMBIGUITY_WITNESS_WRONG = 15,     /* at the first wrong entry, or at the row's length if only the end fails */
    AMBIGUITY_MALFORMED = 16,         /* malformed line, or name: at the line; for the writer at the symbol number from 0 */
    AMBIGUITY_NAME_UNKNOWN = 17,      /* name unknown or of the wrong kind: at the line; one declared in another case is known */
    AMBIGUITY_NAME_REPEATED = 18,     /* name declared twice, in whatever case: at the line, or at the symbol number */
    AMBIGUITY_NO_SENTENCE = 19,       /* the start, the first nonterminal, has no finite tree: at 0 */
    AMBIGUITY_KINDS_CLASH = 20,       /* name a terminal in one text and a nonterminal in the other: at the module's line */
    AMBIGUITY_TOO_MANY_CALLERS = 21,  /* more than 2 callers are to be remembered: at 0 */
    AMBIGUITY_ROW_WRONG = 22,         /* a 65th terminal, or a code that is no terminal: at the first such place of the row, from 0 */
    AMBIGUITY_NOT_PRESENT = 23        /* no such mark, an empty mark, no rule of this number: at the number; no draft in the row: at 0 */
};

enum ambiguity_moved { AMBIGUITY_STILL = 0, AMBIGUITY_OPENING = 1, AMBIGUITY_CLOSING = 2, AMBIGUITY_SYMBOL = 3 };

enum ambiguity_kind { AMBIGUITY_REFUSED = 0, AMBIGUITY_RECORD = 1, AMBIGUITY_NO_MORE = 2 };

enum ambiguity_verdict { AMBIGUITY_NO_VERDICT = 0, AMBIGUITY_UNAMBIGUOUS = 1, AMBIGUITY_POTENTIAL = 2 };

/* How many derivation trees a row of terminals has; several may be infinitely many. */
enum ambiguity_found { AMBIGUITY_NO_ANSWER = 0, AMBIGUITY_NO_TREE = 1, AMBIGUITY_ONE_TREE = 2, AMBIGUITY_SEVERAL_TREES = 3 };

/* The terminals of the eight-channel command set. */
enum ambiguity_plan_terminal {
    AMBIGUITY_TAKE = 1,
    AMBIGUITY_VOL = 2,
    AMBIGUITY_GIVE = 3,
    AMBIGUITY_REPEAT = 4,
    AMBIGUITY_NUM = 5,
    AMBIGUITY_CLOSE = 6,
    AMBIGUITY_CH = 7,
    AMBIGUITY_SEP = 8
};

/* What reading back refuses: the grammar's text, or the two lines and the rows for them. */
enum ambiguity_part { AMBIGUITY_NO_PART = 0, AMBIGUITY_GRAMMAR = 1, AMBIGUITY_LINES = 2 };

/* Which text a name is a part of. */
enum ambiguity_text { AMBIGUITY_NO_TEXT = 0, AMBIGUITY_ROBOT = 1, AMBIGUITY_MODULE = 2 };

typedef struct {
    uint64_t cause;
    uint64_t at;
    uint64_t states; /* Q at 0 callers */
} ambiguity_table_reply;

typedef struct {
    uint64_t moved;  /* an ambiguity_moved */
    uint64_t number; /* of the rule that is opened or closed, or the symbol's code */
} ambiguity_move;

typedef struct {
    uint64_t cause;
    uint64_t at;
    uint64_t kind;           /* an ambiguity_kind */
    uint64_t layer;          /* the next triple */
    uint64_t left;
    uint64_t right;
    ambiguity_move on_left;  /* what moved on either side */
    ambiguity_move on_right;
} ambiguity_step_reply;

typedef struct {
    uint64_t cause; /* 0: accepted */
    uint64_t at;
} ambiguity_check_reply;

/* An entry of a witness as a triple. */
typedef struct {
    uint32_t layer;
    uint32_t left;
    uint32_t right;
} ambiguity_triple_record;

typedef struct {
    uint64_t cause;
    uint64_t at;
    uint64_t verdict; /* an ambiguity_verdict; with a refusal AMBIGUITY_NO_VERDICT */
    uint64_t count;   /* unambiguous: the size, the triples that the certificate holds; potential: the witness's entries */
    uint64_t looked;  /* with either verdict how many successors there are to look at; with a refusal 0 */
} ambiguity_search_reply;

typedef struct {
    uint64_t cause;
    uint64_t at;
    uint64_t states;      /* Q, with these callers */
    uint64_t certificate; /* bytes of the certificate */
    uint64_t entries;     /* of each of the rows queue, parents and witness */
    uint64_t moves;       /* M, the moves of the automaton */
} ambiguity_room_reply;

typedef struct {
    uint64_t cause;
    uint64_t at;
    uint64_t terminals;    /* t */
    uint64_t nonterminals; /* n */
    uint64_t entries;      /* of the table */
    uint64_t states;       /* Q at 0 callers */
} ambiguity_read_reply;

typedef struct {
    uint64_t cause;
    uint64_t at;
    uint64_t length; /* bytes written */
} ambiguity_write_reply;

typedef struct {
    uint64_t cause;
    uint64_t at;
    uint64_t length; /* bytes that would be written */
} ambiguity_length_reply;

typedef struct {
    uint64_t cause;
    uint64_t at;
    uint64_t length; /* bytes written */
} ambiguity_report_reply;

typedef struct {
    uint64_t cause;
    uint64_t at;
    uint64_t part;  /* an ambiguity_part; with cause 0 AMBIGUITY_NO_PART */
    uint64_t left;  /* letters of the left string */
    uint64_t right; /* letters of the right string */
} ambiguity_read_back_reply;

/* A part of one of two texts; all 0 for none. */
typedef struct {
    uint64_t text;   /* an ambiguity_text */
    uint64_t start;  /* from 0 */
    uint64_t length; /* in bytes */
} ambiguity_part_reply;

typedef struct {
    uint64_t cause;
    uint64_t at;
    uint64_t found; /* an ambiguity_found; with a refusal AMBIGUITY_NO_ANSWER */
    uint64_t count; /* one tree: its rules; else 0 */
} ambiguity_trees_reply;

typedef struct {
    uint64_t cause;
    uint64_t at;
    uint64_t entries; /* of the work row */
} ambiguity_trees_room_reply;

typedef struct {
    uint64_t cause; /* 0: done */
    uint64_t at;
} ambiguity_draft_reply;

typedef struct {
    uint64_t cause;
    uint64_t at;
    uint64_t terminals;    /* t */
    uint64_t nonterminals; /* n */
    uint64_t rules;
    uint64_t entries;      /* of the table */
    uint64_t states;       /* Q at 0 callers: 4, and for each rule its codes and 1 */
} ambiguity_draft_counts_reply;

typedef struct {
    uint64_t cause;
    uint64_t at;
    uint64_t start;   /* where in the row the table begins, from 0: 3 */
    uint64_t entries; /* of the table */
} ambiguity_draft_table_reply;

typedef struct {
    uint64_t cause;
    uint64_t at;
    uint64_t found; /* AMBIGUITY_NO_TREE: no plan, or AMBIGUITY_ONE_TREE: the plan; with a refusal AMBIGUITY_NO_ANSWER */
    uint64_t count; /* a plan: its rules; else 0 */
} ambiguity_plan_reply;

#ifdef __cplusplus
extern "C" {
#endif

/* Checks a grammar's table: t terminals, n nonterminals, the rules end to end, each as its left code, the length of its right side and
 * the codes of that, an entry of 16 bits for each. Offsets count entries. Back comes Q at 0 callers. Refuses with 1 to 8, then with 19 a
 * grammar without a sentence; so do all functions that take a table, before their own causes. */
ambiguity_table_reply ambiguity_check_table(size_t t, size_t n, const uint16_t *table, size_t table_entries);

/* Remembered callers. The six functions below take `callers`, right behind the table: 0, 1 or 2.
 *
 * At 0 a state is an item, a place in a rule, and a rule that ends returns to every place that may have called it. At 1 or 2 a state is
 * an item together with its nearest calling items, fewer only if these begin in rule 0, and a rule that ends returns to its nearest
 * caller. So fewer alarms are false. S -> b A c; S -> b e d; S -> A d; A -> e is potential at 0 and unambiguous at 1.
 *
 * What it costs: a rule has its states once for each chain of its callers. ambiguity_search_room tells Q with these callers; the rows of
 * a search grow with Q squared, its automaton is built in time that grows with Q. Items of rules that no sentence uses have no states at
 * 1 and 2, so Q may be smaller there too.
 *
 * When to try it: begin with 0. Where the verdict is potential and you believe it to be a false alarm, try 1, then 2. Unambiguous at some
 * number stays unambiguous at the next, where the states fit. Whatever the number, an accepted certificate says that no sentence has two
 * derivation trees. States, indices, certificate and witness are those of their number of callers: a certificate holds with the number
 * that it was made with, and is checked with it. With another Q is mostly another, and it is refused with 9.
 *
 * Refused are, after the causes of the table: callers above AMBIGUITY_MAX_CALLERS with 21 at 0; then more than AMBIGUITY_MAX_STATES
 * states with these callers, with 8 at 0. All other causes come behind. */

/* The step record of the triple (layer, left, right) at place nth, counted from 0: those back to the triple itself first, left
 * before right, then ascending by the next triple's index. AMBIGUITY_NO_MORE past the last, and for a triple out of range. An item
 * of a rule that no sentence uses has no moves, and no move leads to it. */
ambiguity_step_reply ambiguity_nth_step(size_t t, size_t n, const uint16_t *table, size_t table_entries, size_t callers, size_t layer,
                                        size_t left, size_t right, size_t nth);

/* Checks a certificate of AMBIGUITY_CERTIFICATE_BYTES(Q) bytes, Q being that of these callers: accepted exactly if it is acceptable,
 * and then no sentence of the grammar has two derivation trees. Refuses with 9 to 13. Whatever certificate comes with a grammar without
 * a sentence, it is 19. */
ambiguity_check_reply ambiguity_check_certificate(size_t t, size_t n, const uint16_t *table, size_t table_entries, size_t callers,
                                                  const uint8_t *certificate, size_t certificate_bytes);

/* Checks a witness, a row of triples' indices: accepted exactly if it leads from (0,0,0) to (1,1,1) by successors, and then two
 * strings part. Refuses with 15. */
ambiguity_check_reply ambiguity_check_witness(size_t t, size_t n, const uint16_t *table, size_t table_entries, size_t callers,
                                              const uint32_t *row, size_t row_entries);

/* The witness check over a row of records, which answers alike: a layer above 1 or a state of Q or more is a wrong entry. */
ambiguity_check_reply ambiguity_check_witness_records(size_t t, size_t n, const uint16_t *table, size_t table_entries,
                                                      size_t callers, const ambiguity_triple_record *records,
                                                      size_t records_entries);

/* What a search of this table with these callers is to be lent, from the table alone: no search is made. Back come Q, the bytes of the
 * certificate, the entries of each of the rows queue, parents and witness, 4 bytes each, and M, the number of moves of the automaton:
 * from each state by each letter to each state that it leads to, the shifts of terminals and of nonterminals among them. Refuses with
 * the causes of the table, then with 21 and 8, and no others: so it tells, too, whether the states fit. ambiguity_search, lent so much,
 * is never refused with 14; lent less for the certificate or in any row it always is. So a caller lends as follows, and looks at
 * `room.cause` first:
 *
 *     ambiguity_room_reply room = ambiguity_search_room(t, n, table, table_entries, 0);
 *     uint8_t *certificate = malloc(room.certificate);
 *     uint32_t *queue = malloc(room.entries * sizeof *queue);     ... and so parents and witness
 *
 * That is room.certificate + 12 * room.entries bytes in all. */
ambiguity_room_reply ambiguity_search_room(size_t t, size_t n, const uint16_t *table, size_t table_entries, size_t callers);

/* Searches: the smallest acceptable certificate, or the shortest witness, which has the fewest entries and, among those, the smaller
 * index where two first differ. Lent are AMBIGUITY_CERTIFICATE_BYTES(Q) bytes of certificate, and
 * AMBIGUITY_ROW_ENTRIES(Q) entries of each row, as ambiguity_search_room tells them with these callers; Q at 0 callers comes from
 * ambiguity_check_table or ambiguity_read_text too. What they hold before does not matter. Unambiguous writes the certificate and keeps
 * the witness row.
 * Potential writes `count` entries of the witness row, and keeps the certificate and the rest of that row. The first
 * AMBIGUITY_ROW_ENTRIES(Q) entries of queue and parents are then 0. Refuses with 14.
 *
 * `looked` says how many successors there are to look at, with either verdict: how many choices of moves give one, each choice
 * counted, over all triples that are reached from (0,0,0). Each such triple is taken up once; of its successors the code may try
 * fewer, since it leaves out blocks that were had. The figure depends on the table and the callers alone, and is at most
 * M * M + 2 * Q * M, with `moves` and `states` of ambiguity_search_room, which needs no search. */
ambiguity_search_reply ambiguity_search(size_t t, size_t n, const uint16_t *table, size_t table_entries, size_t callers,
                                        uint8_t *certificate, size_t certificate_bytes, uint32_t *queue, size_t queue_entries,
                                        uint32_t *parents, size_t parents_entries, uint32_t *witness, size_t witness_entries);

/* Reads grammar text. Written are the table, and the start in the text and the length of each symbol's name as it is declared,
 * terminals first. Names that differ only in the case of ASCII letters are the same: `rule=take: Vol` uses `Take` and `vol`, and a
 * second declaration that differs in case is 18.
 * AMBIGUITY_MAX_TABLE_ENTRIES and AMBIGUITY_MAX_NAMES are always enough. Refuses with 16, 17, 18, 1, 4, 7, 6, 8, 19, 14; the
 * positions of 6, 7 and 8 are offsets in the table that it would write, those of 19 and 14 are 0, all others are lines from 1. A
 * text of more than AMBIGUITY_MAX_TEXT_BYTES is 16 at 0. */
ambiguity_read_reply ambiguity_read_text(const uint8_t *text, size_t text_bytes, uint16_t *table, size_t table_entries,
                                         uint32_t *starts, size_t starts_entries, uint32_t *lengths, size_t lengths_entries);

/* How many bytes ambiguity_write_text would write, from what it would be given; nothing is written. Refuses as the writer does, but
 * never with 14: with the causes of the table, then with 16, 18. The writer, lent so many bytes, writes as many; lent fewer it always
 * refuses with 14. */
ambiguity_length_reply ambiguity_written_length(size_t t, size_t n, const uint16_t *table, size_t table_entries, const uint8_t *names,
                                                size_t names_bytes, const uint32_t *starts, size_t starts_entries,
                                                const uint32_t *lengths, size_t lengths_entries);

/* Writes grammar text. The name of symbol i, terminals first, is the part of `names` that starts at starts[i] and has lengths[i]
 * bytes; the text that was read serves as `names`: it comes back with each use in its declared spelling. Two names that differ only in
 * case are 18. Lent are as many bytes as ambiguity_written_length tells; AMBIGUITY_MAX_TEXT_BYTES is always enough. Refuses with 16,
 * 18, 14. */
ambiguity_write_reply ambiguity_write_text(size_t t, size_t n, const uint16_t *table, size_t table_entries, const uint8_t *names,
                                           size_t names_bytes, const uint32_t *starts, size_t starts_entries,
                                           const uint32_t *lengths, size_t lengths_entries, uint8_t *out, size_t out_bytes);

/* Writes what the program prints for a text, each line ended by byte 10: `states=` and `verdict=`, then with unambiguous `reached=`,
 * with potential `left=` and `right=`, the two strings of the shortest witness, all at 0 callers; or `refused=` and `at=`. In a string
 * `(i` opens rule i, `)i` closes it, a symbol stands by its name as declared, and one space stands between two letters. A text that has
 * more than AMBIGUITY_MAX_REPORT_TEXT_BYTES, is at fault, 19 among its faults, or has more than AMBIGUITY_MAX_REPORT_STATES states is
 * answered by a report of its refusal, the first in this order, and `cause` is 0. Refuses with 14 alone, if the output is too short;
 * AMBIGUITY_MAX_REPORT_BYTES are always enough. */
ambiguity_report_reply ambiguity_report(const uint8_t *text, size_t text_bytes, uint8_t *out, size_t out_bytes);

/* Reads two lines `left=` and `right=` back, in the grammar of a text: the two strings are written, an entry for each letter. Lines
 * and strings may have any length; rows of `lines_bytes` entries are always enough. The strings need be neither accepted by the
 * automaton nor parting. First the text is refused, as by ambiguity_read_text but never with 14 (AMBIGUITY_GRAMMAR); then line 1 with
 * 16 or 17, line 2 likewise, and the rows with 14 (AMBIGUITY_LINES). 16 is a line that is missing or not of this form, a rule number
 * that the grammar lacks, and anything behind line 2; 17 is a name that it lacks in any case of its letters. */
ambiguity_read_back_reply ambiguity_read_back(const uint8_t *text, size_t text_bytes, const uint8_t *lines, size_t lines_bytes,
                                              uint32_t *left, size_t left_entries, uint32_t *right, size_t right_entries);

/* Joins a module's text, `addon`, to the robot's. The joined terminals are the robot's, then those that the module adds; so the
 * nonterminals, and the start is the robot's. The joined rules are the robot's, then those of the module that are not already there, with
 * the joined codes. The table is written, and t, n, entries and Q come back: all is what ambiguity_read_text gives for the joined text,
 * and every derivation tree of the robot's grammar is one of the joined grammar.
 * AMBIGUITY_MAX_TABLE_ENTRIES are always enough. First the robot's text is refused, then the module's text read alone, both as by
 * ambiguity_read_text but never with 14, and the module's never with 19: it may lack sentences. Then a name of the module that the robot
 * declares as the other kind is 20, at line 1 or 2 of the module, the first that has one. Then the joined text is refused: 1 at 1, 1 at
 * 2, 7, 8 at an offset in the joined table; then 14 at 0. A position does not say which text it is of; ambiguity_read_text does, asked
 * about the robot's text and then about the module's. */
ambiguity_read_reply ambiguity_join_texts(const uint8_t *robot, size_t robot_bytes, const uint8_t *addon, size_t addon_bytes,
                                          uint16_t *table, size_t table_entries);

/* The name shown for a symbol of the joined grammar, by its number: joined terminals from 0, then joined nonterminals. It is the part of
 * the text that declares it, the robot's where both do, so that it has the declared spelling. All is 0 for a number past the last
 * symbol, and for texts that ambiguity_join_texts refuses with another cause than 14. Each call reads both texts: whoever wants all
 * names reads the text of ambiguity_write_joined. */
ambiguity_part_reply ambiguity_joined_name(const uint8_t *robot, size_t robot_bytes, const uint8_t *addon, size_t addon_bytes,
                                           size_t symbol);

/* Writes the joined text, each use of a name as it is shown. Refuses as ambiguity_join_texts does, with 14 at 0 if the output is shorter
 * than the text; AMBIGUITY_MAX_TEXT_BYTES are always enough. */
ambiguity_write_reply ambiguity_write_joined(const uint8_t *robot, size_t robot_bytes, const uint8_t *addon, size_t addon_bytes,
                                             uint8_t *out, size_t out_bytes);

/* What ambiguity_find_trees is to be lent for any row of this table: the entries of its work row, 4 bytes each, which are
 * AMBIGUITY_TREES_ENTRIES(Q) with Q at 0 callers. Refuses with the causes of the table and no others. ambiguity_find_trees, lent so many,
 * is refused with 14 for its list alone; lent fewer, it always is, if the row has no fault. At 1024 states that is 17305600 bytes. */
ambiguity_trees_room_reply ambiguity_trees_room(size_t t, size_t n, const uint16_t *table, size_t table_entries);

/* The derivation trees of one row of terminals, which are given by their codes: none, one or several. The answer is that of the count of
 * its trees, also for the empty row, and where the count is infinite, as with S -> S; S -> a for every row that has a tree. With an
 * accepted certificate of the table, at whatever number of callers, several is never the answer.
 *
 * One comes with its rules: the first `count` entries of the list are the numbers of the rules that the tree applies, from 1, each node
 * before its children and children from left to right. They determine the tree. S -> A B; A -> C; B -> b; C -> c on c b gives 1 2 4 3.
 * How many rules a tree has depends on the row; where nonterminals have empty trees it may be more than any list holds.
 *
 * Lent are the work row, as ambiguity_trees_room tells it, whatever it holds, and the list. Refuses, in this order: with the causes of
 * the table; with 22 at the first place of the row that is at fault, counted from 0, which is place 64 for a longer row if no earlier one
 * holds a code that is no terminal (codes past it are not looked at); with 14 at 0 if the work row is shorter; and, behind all that, with
 * 14 at 0 if there is one tree and the list is shorter than its rules. None and several need no list: it may have 0 entries.
 *
 * Afterwards: whatever is answered, the first AMBIGUITY_TREES_ENTRIES(Q) entries of the work row are 0. So they are after the 14 for the
 * list, which is known only once the work row has been used. Every other refusal leaves it as it was. Past these entries it is never
 * changed. One writes `count` entries of the list; none, several and every refusal leave the whole list as it was. */
ambiguity_trees_reply ambiguity_find_trees(size_t t, size_t n, const uint16_t *table, size_t table_entries, const uint16_t *row,
                                           size_t row_entries, uint32_t *work, size_t work_entries, uint16_t *list,
                                           size_t list_entries);

/* Drafts. A draft is a grammar while it is edited: t, n, rules, and eight marks, 1 to AMBIGUITY_MARKS, each empty or with the rules as
 * they were when it was set. A rule is added at the end or withdrawn by its number, a mark is set, and returning to a mark brings its
 * rules back; all marks stay then. A draft may lack rules and sentences: 19 comes when its table is checked. After any history of calls
 * from ambiguity_new_draft on the rules are those that the history gives; a refused call changes nothing.
 *
 *     static uint16_t draft[AMBIGUITY_DRAFT_ENTRIES];
 *     ambiguity_new_draft(t, n, table, 0, draft, AMBIGUITY_DRAFT_ENTRIES);      no rules yet
 *     ambiguity_add_rule(draft, AMBIGUITY_DRAFT_ENTRIES, rule, rule_entries);
 *     ambiguity_draft_table_reply there = ambiguity_draft_table(draft, AMBIGUITY_DRAFT_ENTRIES);
 *     ambiguity_check_table(t, n, draft + there.start, there.entries);          and so the search and the rest
 *
 * The row is the caller's, and all that there is of a draft: it may be copied, stored and lent again. Entries 0 and 1 are t and n; then
 * come blocks of AMBIGUITY_DRAFT_BLOCK entries each, from entry 2 on the draft's, and from entry 2 + k * AMBIGUITY_DRAFT_BLOCK on that
 * of mark k. A block's first entry is one more than the number of its rules, and 0 if the mark is empty; a mark of a draft without rules
 * is not empty. The table of these rules follows. What lies past the table in a block is never read, and entries past
 * AMBIGUITY_DRAFT_ENTRIES are neither read nor written. A call that is done writes the first entry and the table of the block that it
 * changes, and nothing else.
 *
 * Any row may be lent. A block holds rules if its first entry c is not 0 and c - 1 rules, walked by their lengths, lie whole in it; a
 * row holds a draft if the draft's block holds rules. A row that ambiguity_new_draft made, and other calls changed, always does; of
 * another one t, n and the numbers that are told may pass the limits, so no memory is to be set aside by them. Every function behind
 * ambiguity_new_draft refuses a row of fewer than AMBIGUITY_DRAFT_ENTRIES entries with 14 at 0, then one that holds no draft with 23 at
 * 0, then what its own comment has. */

/* How many entries the row of a draft is to have: AMBIGUITY_DRAFT_ENTRIES. */
size_t ambiguity_draft_room(void);

/* Begins a draft from t, n and a table, perhaps without entries; all marks are empty. The row may hold anything before. Refuses the
 * table as ambiguity_check_table does, with 1, then for each rule 7, 2, 3, 4, 2, 5, 6, 8, but never with 19; then with 14 at 0 a row
 * that is too short. Done, entries 0 and 1, the draft's block and the first entry of each mark are written. */
ambiguity_draft_reply ambiguity_new_draft(size_t t, size_t n, const uint16_t *table, size_t table_entries, uint16_t *draft,
                                          size_t draft_entries);

/* Adds a rule behind the last one: the rule that the given entries begin with, its left code, the length of its right side and the codes
 * of that. Entries past its last code are not read. Refuses with 7, then 2, 3, 4, 2, 5, 6, 8, as the table check does where this rule
 * follows the draft's table; offsets count on from the end of that table, so that its number of entries is the rule's offset. Adding
 * nothing is 2 there. The draft's own rules are not tried again: of a row that no ambiguity_new_draft made, the rule is tried alone, 7
 * if there are AMBIGUITY_MAX_RULES rules or more, 6 if it equals one of them, 8 if it has too many states together with them. */
ambiguity_draft_reply ambiguity_add_rule(uint16_t *draft, size_t draft_entries, const uint16_t *rule, size_t rule_entries);

/* Withdraws the rule of a number, from 1; later rules move down by one number. Refuses with 23, at the number given, if there is no such
 * rule. */
ambiguity_draft_reply ambiguity_withdraw_rule(uint16_t *draft, size_t draft_entries, size_t number);

/* Keeps the rules under a mark, whose former rules are lost. Refuses with 23, at the number given, if it is not 1 to AMBIGUITY_MARKS. */
ambiguity_draft_reply ambiguity_set_mark(uint16_t *draft, size_t draft_entries, size_t mark);

/* Brings the rules of a mark back; the draft's own are lost unless a mark keeps them. All marks stay as they are. Refuses with 23, at
 * the number given, if it is not 1 to AMBIGUITY_MARKS, or if the mark is empty. */
ambiguity_draft_reply ambiguity_return_to_mark(uint16_t *draft, size_t draft_entries, size_t mark);

/* t, n, how many rules there are, the entries of their table, and Q. Refuses with 14 and 23 at 0 alone; the row is only read. */
ambiguity_draft_counts_reply ambiguity_draft_counts(const uint16_t *draft, size_t draft_entries);

/* Where the table stands in the row: `entries` entries from `start` on, to be lent to whatever takes a table, with t and n. Refuses with
 * 14 and 23 at 0 alone; the row is only read. */
ambiguity_draft_table_reply ambiguity_draft_table(const uint16_t *draft, size_t draft_entries);

/* The eight-channel command set. Its grammar is fixed: the terminals are those of ambiguity_plan_terminal, the nonterminals P, the start,
 * K and L have the codes from AMBIGUITY_START on, and the rules are
 *
 *     1  P ->              a plan is empty,
 *     2  P -> P K          or a plan and a command behind it
 *     3  K -> take L vol
 *     4  K -> give L vol
 *     5  K -> repeat num P close
 *     6  L -> ch           a list of channels
 *     7  L -> L sep ch
 *
 * It has AMBIGUITY_PLAN_STATES states, and a certificate, with which no sentence has two derivation trees. That is proved of this
 * grammar once: a method, a row of its terminals, has one plan or none, and several is no answer. */

/* Reads a method of up to AMBIGUITY_MAX_ROW terminals, given by their codes, to its plan: its only derivation tree, or none if the method
 * is no sentence. The answer is that of ambiguity_find_trees with this grammar's table, t = 8 and n = 3.
 *
 * A plan comes with its rules: the first `count` entries of the list are their numbers, each node before its children and children from
 * left to right. They determine the plan. `take ch vol` gives 2 1 3 6; the empty row gives 1. By count, which is no part of the promise,
 * a plan has at most one rule more than the row has terminals, and at most AMBIGUITY_MAX_ROW: a list of so many entries is enough.
 *
 * Lent are the work row of AMBIGUITY_PLAN_WORK_ENTRIES entries, whatever it holds, and the list. Refuses, in this order: with 22 at the
 * first place of the row that is at fault, counted from 0, which is a code that is not 1 to 8, or place 64 of a longer row; with 14 at 0
 * if the work row is shorter; and, behind that, with 14 at 0 if there is a plan and the list is shorter than its rules. No plan needs no
 * list: it may have 0 entries. No other cause occurs.
 *
 * Afterwards: whatever is answered, the first AMBIGUITY_PLAN_WORK_ENTRIES entries of the work row are 0. So they are after the 14 for the
 * list, which is known only once the work row has been used. Every other refusal leaves it as it was. Past these entries it is never
 * changed. A plan writes `count` entries of the list; none and every refusal leave the whole list as it was. */
ambiguity_plan_reply ambiguity_read_plan(const uint16_t *row, size_t row_entries, uint32_t *work, size_t work_entries, uint16_t *list,
                                         size_t list_entries);

/* How many entries the work row of ambiguity_read_plan is to have: AMBIGUITY_PLAN_WORK_ENTRIES. */
size_t ambiguity_plan_room(void);

/* A byte of the certificate of this grammar at 0 callers, by its place from 0; 0 past the last one. The AMBIGUITY_PLAN_CERTIFICATE_BYTES
 * bytes are those that ambiguity_search writes for its table, and ambiguity_check_certificate accepts them. */
uint8_t ambiguity_plan_certificate_byte(size_t place);

#ifdef __cplusplus
}
#endif

#include "ambiguity_cause_text.h"

#endif
