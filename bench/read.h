/* The reader of grammar text in plain C; it answers as the library's does. What it keeps of a text serves the join of two. */
#ifndef READ_H
#define READ_H

#include "ambiguity.h"
#include "searches.h"

enum { NAMES = MAX_TERMINALS + MAX_NONTERMINALS, LONGEST_NAME = 15, SLOTS = 8192, KEPT_ENTRIES = (MAX_RULES + 1) * (MAX_LENGTH + 2) };

/* Names by number, and slots with numbers from 1. There are at least two slots for each name. */
struct names {
    uint32_t start[NAMES], length[NAMES];
    uint16_t slot[SLOTS];
    size_t count, last_slot;
};

/* What is kept of a text: its names, t of them terminals, and its table. */
struct kept {
    struct names names;
    uint16_t row[KEPT_ENTRIES];
    size_t used, t;
    unsigned states;
};

ambiguity_read_reply plain_read(const uint8_t *text, size_t text_bytes, uint16_t *table, size_t table_entries, uint32_t *starts,
                                size_t starts_entries, uint32_t *lengths, size_t lengths_entries);

/* Reads a text; all causes but 14. With 19 all is kept too. */
check_reply plain_keep(const uint8_t *text, size_t text_bytes, struct kept *kept);

/* The number of a name among those of a text, or -1; case does not count. */
int plain_find(const struct names *names, const uint8_t *text, const uint8_t *name, size_t length);

#endif
