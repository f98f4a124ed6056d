/* The reader of grammar text in plain C: one pass over the lines, names in a hash table, compared in small letters. A list with more
 * names than a grammar may have goes through a hash table of its own, since a double in it comes before its length. */
#include "read.h"

enum { MANY_SLOTS = 262144 };

/* Bytes of names, letters as small ones; 0 for all others. */
#define LETTERS \
    'a', 'b', 'c', 'd', 'e', 'f', 'g', 'h', 'i', 'j', 'k', 'l', 'm', 'n', 'o', 'p', 'q', 'r', 's', 't', 'u', 'v', 'w', 'x', 'y', 'z'
static const uint8_t NAME_BYTES[256] = {
    ['-'] = '-', ['0'] = '0', '1', '2', '3', '4', '5', '6', '7', '8', '9', ['A'] = LETTERS, ['a'] = LETTERS};

static size_t slots_for(size_t names, size_t most)
{
    size_t slots = 16;
    while (slots < 2 * names && slots < most)
        slots *= 2;
    return slots;
}

static inline uint32_t hash_of(const uint8_t *name, size_t length)
{
    uint32_t hash = (uint32_t)length;
    for (size_t i = 0; i < length; i++)
        hash = (hash ^ NAME_BYTES[name[i]]) * 16777619u;
    return hash ^ hash >> 15;
}

static inline int same(const uint8_t *one, const uint8_t *other, size_t length)
{
    while (length != 0 && NAME_BYTES[one[length - 1]] == NAME_BYTES[other[length - 1]])
        length--;
    return length == 0;
}

/* The number of a name, or -1; then it is put in if it is to be. */
static int find(struct names *names, const uint8_t *text, const uint8_t *name, size_t length, int puts)
{
    size_t k = hash_of(name, length) & names->last_slot;
    for (; names->slot[k] != 0; k = (k + 1) & names->last_slot) {
        size_t i = names->slot[k] - 1u;
        if (names->length[i] == length && same(text + names->start[i], name, length))
            return (int)i;
    }
    if (puts) {
        names->start[names->count] = (uint32_t)(name - text);
        names->length[names->count] = (uint32_t)length;
        names->slot[k] = (uint16_t)++names->count;
    }
    return -1;
}

int plain_find(const struct names *names, const uint8_t *text, const uint8_t *name, size_t length)
{
    /* Nothing is put in. */
    return find((struct names *)names, text, name, length, 0);
}

/* Past a name; a name that is malformed has no byte or too many. */
static inline const uint8_t *past_name(const uint8_t *at, const uint8_t *end)
{
    while (at < end && NAME_BYTES[*at])
        at++;
    return at;
}

static inline int is_name(const uint8_t *from, const uint8_t *to)
{
    return to != from && to - from <= LONGEST_NAME;
}

/* How many names a list has, or -1 if it is malformed. */
static long count_names(const uint8_t *at, const uint8_t *end)
{
    if (at == end)
        return 0;
    for (long count = 1;; count++) {
        const uint8_t *past = past_name(at, end);
        if (!is_name(at, past))
            return -1;
        if (past == end)
            return count;
        if (*past != ',')
            return -1;
        at = past + 1;
    }
}

/* Does a name of a list with so many stand twice in it, or among the names? */
static int has_double(struct names *names, const uint8_t *text, const uint8_t *at, const uint8_t *end, size_t count)
{
    static uint32_t slots[MANY_SLOTS];
    size_t last_slot = slots_for(count, MANY_SLOTS) - 1;
    memset(slots, 0, (last_slot + 1) * sizeof *slots);
    for (;; at++) {
        const uint8_t *past = past_name(at, end);
        size_t length = (size_t)(past - at), k = hash_of(at, length) & last_slot;
        if (find(names, text, at, length, 0) >= 0)
            return 1;
        for (; slots[k] != 0; k = (k + 1) & last_slot) {
            const uint8_t *other = text + slots[k] - 1;
            if (same(other, at, length) && !NAME_BYTES[other[length]])
                return 1;
        }
        slots[k] = (uint32_t)(at - text) + 1;
        if (past == end)
            return 0;
        at = past;
    }
}

/* The list of a line: 0, or its cause of refusal. */
static uint64_t read_list(struct names *names, const uint8_t *text, const uint8_t *at, const uint8_t *end, long fewest)
{
    long count = count_names(at, end);
    if (count < 0)
        return 16;
    if (count > MAX_TERMINALS)
        return has_double(names, text, at, end, (size_t)count) ? 18 : 1;
    for (long i = 0; i < count; i++) {
        const uint8_t *past = past_name(at, end);
        if (find(names, text, at, (size_t)(past - at), 1) >= 0)
            return 18;
        at = past + 1;
    }
    return count < fewest ? 1 : 0;
}

/* Is the line a rule's? Back come where its colon is, and how many symbols stand behind. */
static int is_rule(const uint8_t *at, const uint8_t *end, const uint8_t **colon, size_t *symbols)
{
    const uint8_t *past = past_name(at, end);
    if (!is_name(at, past) || past == end || *past != ':')
        return 0;
    *colon = past++;
    for (*symbols = 0; past < end; ++*symbols) {
        const uint8_t *name = past + 1;
        if (*past != ' ')
            return 0;
        past = past_name(name, end);
        if (!is_name(name, past))
            return 0;
    }
    return 1;
}

/* A rule's line as entries, of which those past the room are left out: 0, or its cause of refusal. */
static uint64_t read_rule(struct names *names, size_t t, const uint8_t *text, const uint8_t *at, const uint8_t *end, int keeps,
                          uint16_t *row, size_t *used)
{
    const uint8_t *colon;
    size_t symbols, place = *used;
    if (!is_rule(at, end, &colon, &symbols))
        return 16;
    int left = find(names, text, at, (size_t)(colon - at), 0);
    if (left < (int)t)
        return 17;
    keeps = keeps && symbols <= MAX_LENGTH;
    if (keeps) {
        row[place++] = (uint16_t)(START + (unsigned)left - t);
        row[place++] = (uint16_t)symbols;
    }
    for (const uint8_t *past = colon + 1; past < end;) {
        const uint8_t *name = past + 1;
        past = past_name(name, end);
        int symbol = find(names, text, name, (size_t)(past - name), 0);
        if (symbol < 0)
            return 17;
        if (keeps)
            row[place++] = (uint16_t)((unsigned)symbol < t ? (unsigned)symbol + 1 : START + (unsigned)symbol - t);
    }
    *used = place;
    return symbols > MAX_LENGTH ? 4 : 0;
}

/* Does a line that ends there begin so? */
static int begins(const uint8_t *at, const uint8_t *end, const char *front)
{
    size_t length = strlen(front);
    return end != NULL && (size_t)(end - at) >= length && memcmp(at, front, length) == 0;
}

check_reply plain_keep(const uint8_t *text, size_t text_bytes, struct kept *kept)
{
    static const char *const fronts[2] = {"terminals=", "nonterminals="};
    struct names *names = &kept->names;
    size_t line = 1;
    const uint8_t *at = text, *stop = text + text_bytes, *end;
    if (text_bytes > AMBIGUITY_MAX_TEXT_BYTES)
        return (check_reply){16, 0};
    kept->used = 0;
    names->count = 0;
    names->last_slot = slots_for(text_bytes / 2, SLOTS) - 1;
    memset(names->slot, 0, (names->last_slot + 1) * sizeof *names->slot);
    for (; line <= 2; line++, at = end + 1) {
        end = memchr(at, '\n', (size_t)(stop - at));
        if (!begins(at, end, fronts[line - 1]))
            return (check_reply){16, line};
        kept->t = names->count;
        uint64_t cause = read_list(names, text, at + strlen(fronts[line - 1]), end, line == 2);
        if (cause != 0)
            return (check_reply){cause, line};
    }
    for (size_t rules = 0; at < stop; rules++, line++, at = end + 1) {
        end = memchr(at, '\n', (size_t)(stop - at));
        if (!begins(at, end, "rule="))
            return (check_reply){16, line};
        uint64_t cause = read_rule(names, kept->t, text, at + strlen("rule="), end, rules <= MAX_RULES, kept->row, &kept->used);
        if (cause != 0)
            return (check_reply){cause, line};
    }
    struct grammar g;
    check_reply checked = check_table(kept->t, names->count - kept->t, kept->row, kept->used, &g);
    kept->states = checked.cause == 0 || checked.cause == 19 ? g.states : 0;
    return checked;
}

ambiguity_read_reply plain_read(const uint8_t *text, size_t text_bytes, uint16_t *table, size_t table_entries, uint32_t *starts,
                                size_t starts_entries, uint32_t *lengths, size_t lengths_entries)
{
    struct kept kept;
    check_reply checked = plain_keep(text, text_bytes, &kept);
    if (checked.cause != 0)
        return (ambiguity_read_reply){checked.cause, checked.at, 0, 0, 0, 0};
    size_t count = kept.names.count;
    if (table_entries < kept.used || starts_entries < count || lengths_entries < count)
        return (ambiguity_read_reply){14, 0, 0, 0, 0, 0};
    memcpy(table, kept.row, kept.used * sizeof *table);
    memcpy(starts, kept.names.start, count * sizeof *starts);
    memcpy(lengths, kept.names.length, count * sizeof *lengths);
    return (ambiguity_read_reply){0, 0, kept.t, count - kept.t, kept.used, kept.states};
}
