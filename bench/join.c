/* The join of two texts in plain C: both are read into hash tables of names, the module's names are looked up in the robot's, and its
 * rules, with the robot's codes, in a hash table of the robot's rules. */
#include "join.h"
#include "read.h"

enum { ROBOT = 1, MODULE = 2, RULE_SLOTS = 1024, CLASH = 20 };

/* Where a name stands. */
struct place {
    unsigned text;
    uint32_t start, length;
};

/* A joined grammar: the places of its names, by kind, and its table. */
struct joined {
    struct kept robot, module;
    struct place terminals[2 * MAX_TERMINALS], nonterminals[2 * MAX_NONTERMINALS];
    uint16_t code[NAMES]; /* of the module's names */
    uint16_t row[2 * KEPT_ENTRIES];
    size_t t, n, used;
    unsigned states;
};

/* Does the module declare a name from `from` to `to` that the robot has as the other kind? */
static int clashes(const struct joined *j, const uint8_t *robot, const uint8_t *module, size_t from, size_t to)
{
    for (size_t i = from; i < to; i++) {
        int found = plain_find(&j->robot.names, robot, module + j->module.names.start[i], j->module.names.length[i]);
        if (found >= 0 && (i < j->module.t) != ((size_t)found < j->robot.t))
            return 1;
    }
    return 0;
}

/* The robot's names of a kind from `from` to `to`; back comes how many. */
static size_t put_names(const struct names *names, size_t from, size_t to, struct place *list)
{
    for (size_t i = from; i < to; i++)
        list[i - from] = (struct place){ROBOT, names->start[i], names->length[i]};
    return to - from;
}

/* The module's behind them, where the robot has them not; `base` is the code of the first of this kind. Back comes how many there are
 * together. */
static size_t add_names(struct joined *j, const uint8_t *robot, const uint8_t *module, size_t from, size_t to, struct place *list,
                        size_t count, unsigned base)
{
    const struct names *names = &j->module.names;
    size_t before = base == START ? j->robot.t : 0;
    for (size_t i = from; i < to; i++) {
        int found = plain_find(&j->robot.names, robot, module + names->start[i], names->length[i]);
        size_t number = found >= 0 ? (size_t)found - before : count;
        if (found < 0)
            list[count++] = (struct place){MODULE, names->start[i], names->length[i]};
        j->code[i] = (uint16_t)(base + number);
    }
    return count;
}

static uint32_t rule_hash(const uint16_t *rule)
{
    uint32_t hash = rule[0];
    for (unsigned i = 1; i < 2u + rule[1]; i++)
        hash = (hash ^ rule[i]) * 16777619u;
    return hash ^ hash >> 15;
}

static int same_rule(const uint16_t *one, const uint16_t *other)
{
    return one[0] == other[0] && one[1] == other[1] && memcmp(one + 2, other + 2, one[1] * sizeof *one) == 0;
}

/* The robot's rules, then the module's with the codes of the join that are not among them. */
static void join_rules(struct joined *j)
{
    uint16_t slots[RULE_SLOTS] = {0}; /* offsets from 1 */
    size_t at, k;
    memcpy(j->row, j->robot.row, j->robot.used * sizeof *j->row);
    j->used = j->robot.used;
    for (at = 0; at < j->robot.used; at += 2u + j->row[at + 1]) {
        for (k = rule_hash(j->row + at) % RULE_SLOTS; slots[k] != 0; k = (k + 1) % RULE_SLOTS)
            ;
        slots[k] = (uint16_t)(at + 1);
    }
    for (at = 0; at < j->module.used; at += 2u + j->module.row[at + 1]) {
        const uint16_t *from = j->module.row + at;
        uint16_t *rule = j->row + j->used;
        for (unsigned i = 0; i < 2u + from[1]; i++) {
            unsigned number = from[i] < START ? from[i] - 1u : j->module.t + from[i] - START;
            rule[i] = i == 1 ? from[1] : j->code[number];
        }
        for (k = rule_hash(rule) % RULE_SLOTS; slots[k] != 0 && !same_rule(j->row + slots[k] - 1, rule); k = (k + 1) % RULE_SLOTS)
            ;
        if (slots[k] == 0)
            j->used += 2u + from[1];
    }
}

/* All causes but 14. */
static check_reply join(const uint8_t *robot, size_t robot_bytes, const uint8_t *module, size_t module_bytes, struct joined *j)
{
    struct grammar g;
    check_reply checked = plain_keep(robot, robot_bytes, &j->robot);
    if (checked.cause != 0)
        return checked;
    checked = plain_keep(module, module_bytes, &j->module);
    if (checked.cause != 0 && checked.cause != 19)
        return checked;
    size_t names = j->robot.names.count, t = j->robot.t, more = j->module.names.count, u = j->module.t;
    if (clashes(j, robot, module, 0, u))
        return (check_reply){CLASH, 1};
    if (clashes(j, robot, module, u, more))
        return (check_reply){CLASH, 2};
    j->t = add_names(j, robot, module, 0, u, j->terminals, put_names(&j->robot.names, 0, t, j->terminals), 1);
    j->n = add_names(j, robot, module, u, more, j->nonterminals, put_names(&j->robot.names, t, names, j->nonterminals), START);
    if (j->t > MAX_TERMINALS)
        return (check_reply){1, 1};
    if (j->n > MAX_NONTERMINALS)
        return (check_reply){1, 2};
    join_rules(j);
    checked = check_table(j->t, j->n, j->row, j->used, &g);
    j->states = checked.cause == 0 ? g.states : 0;
    return checked;
}

ambiguity_read_reply plain_join(const uint8_t *robot, size_t robot_bytes, const uint8_t *addon, size_t addon_bytes, uint16_t *table,
                                size_t table_entries)
{
    struct joined j;
    check_reply checked = join(robot, robot_bytes, addon, addon_bytes, &j);
    if (checked.cause != 0)
        return (ambiguity_read_reply){checked.cause, checked.at, 0, 0, 0, 0};
    if (table_entries < j.used)
        return (ambiguity_read_reply){14, 0, 0, 0, 0, 0};
    memcpy(table, j.row, j.used * sizeof *table);
    return (ambiguity_read_reply){0, 0, j.t, j.n, j.used, j.states};
}

ambiguity_part_reply plain_name(const uint8_t *robot, size_t robot_bytes, const uint8_t *addon, size_t addon_bytes, size_t symbol)
{
    struct joined j;
    if (join(robot, robot_bytes, addon, addon_bytes, &j).cause != 0 || symbol >= j.t + j.n)
        return (ambiguity_part_reply){0, 0, 0};
    const struct place *place = symbol < j.t ? &j.terminals[symbol] : &j.nonterminals[symbol - j.t];
    return (ambiguity_part_reply){place->text, place->start, place->length};
}

static uint8_t *put(uint8_t *end, const void *bytes, size_t length)
{
    return (uint8_t *)memcpy(end, bytes, length) + length;
}

static uint8_t *put_place(uint8_t *end, const uint8_t *const *texts, const struct place *place)
{
    return put(end, texts[place->text - 1] + place->start, place->length);
}

static uint8_t *put_list(uint8_t *end, const char *key, const uint8_t *const *texts, const struct place *list, size_t count)
{
    end = put(end, key, strlen(key));
    for (size_t i = 0; i < count; i++) {
        if (i != 0)
            *end++ = ',';
        end = put_place(end, texts, &list[i]);
    }
    *end++ = '\n';
    return end;
}

ambiguity_write_reply plain_write_joined(const uint8_t *robot, size_t robot_bytes, const uint8_t *addon, size_t addon_bytes,
                                         uint8_t *out, size_t out_bytes)
{
    const uint8_t *const texts[2] = {robot, addon};
    struct joined j;
    uint8_t text[AMBIGUITY_MAX_TEXT_BYTES], *end = text;
    check_reply checked = join(robot, robot_bytes, addon, addon_bytes, &j);
    if (checked.cause != 0)
        return (ambiguity_write_reply){checked.cause, checked.at, 0};
    end = put_list(end, "terminals=", texts, j.terminals, j.t);
    end = put_list(end, "nonterminals=", texts, j.nonterminals, j.n);
    for (size_t at = 0; at < j.used; at += 2u + j.row[at + 1]) {
        const uint16_t *rule = j.row + at;
        end = put(end, "rule=", 5);
        end = put_place(end, texts, &j.nonterminals[rule[0] - START]);
        *end++ = ':';
        for (unsigned i = 0; i < rule[1]; i++) {
            unsigned code = rule[2 + i];
            *end++ = ' ';
            end = put_place(end, texts, code < START ? &j.terminals[code - 1] : &j.nonterminals[code - START]);
        }
        *end++ = '\n';
    }
    size_t length = (size_t)(end - text);
    if (out_bytes < length)
        return (ambiguity_write_reply){14, 0, 0};
    memcpy(out, text, length);
    return (ambiguity_write_reply){0, 0, length};
}
