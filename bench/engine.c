/*
 * The engine: document 01's eight calls in plain C, with document 02's wishes 1, 4, 5, 6 and 9, and
 * with `next` and `go on`.
 *
 * A card is checked once a call; after that nothing is tested that its acceptance settles. All
 * conditions are judged in one pass over the nodes, one mark a node, and again only when beliefs
 * or goals have changed. What settled a condition is looked for only where a choice is refused for
 * it. In a run the plan stands at the end of its 1,024 bytes, so that its front moves and its rest
 * never does; in a deliberation what remains of the program stands so in its 128.
 */
#include <string.h>

#include "engine.h"

/* "Numbers the guide may answer." */
enum {
    DONE,
    SHORT,
    MARK,
    COUNT,
    OFFSETS,
    WEIGHT,
    NODE,
    RULE,
    ACTION_BYTE,
    ATOM,
    PLAN_FULL = 11,
    NO_ROOM,
    CONFIGURATION,
    NO_RULE,
    FRONT,
    CONDITION,
    PROGRAM = 19,
    OPEN_OR_HEAVY = 22
};

enum { SELECT, ACT, REVISE };                                  /* the kinds, in the phases' order */
enum { TRUE, BELIEVES, HAS_GOAL, NOT, AND, OR };               /* the kinds of nodes */
enum { EXECUTE, APPLY, CHOOSE, WHILE_PLAN, WHILE_BELIEF, THEN, EITHER }; /* those of entries */
enum { SPENT, REST, FULL };                                    /* the endings of a run */
enum { A_MOVE };                                               /* what comes next, or REST, FULL */
enum { FINISHED = 1, STUCK, TOO_LONG };                        /* the others of a deliberation */
enum { BOUNDED, OPEN };                                        /* the verdicts */
enum { NONE, INITIAL_PLAN, SELECTION_RULE, REVISION_RULE };    /* the offenders */
enum { NODE_BYTES = 4, SELECTION_BYTES = 8, REVISION_BYTES = 12, ENTRY_BYTES = 4 };
enum { SET_BYTES = 32, NARROW_SET_BYTES = 16 };                /* of edition 2, and of edition 1 */
enum { LEAST_FILE_BYTES = 4 };                                 /* mark and edition */
enum { SETS_OF_CARD = 32, SETS_OF_PLACE = 12, SETS_OF_SPECIFICATION = 4 }; /* where sets begin */
enum { MOST_ENTRIES = 256, LONGEST_PLAN = 1024, LARGEST_POOL = 8192, MOST_CHOICES = 768 };
enum { LONGEST_PROGRAM = 128 };
enum { MOST_FINISHED = 65535 };
enum { NO_MOVE = -1 };

/* What a condition is made of; a number past the last node is UNKNOWN. */
enum { BELIEF_ATOM = 1, GOAL_ATOM = 2, UNKNOWN = 4 };

/* A set of atoms as four words; the last two are empty in edition 1. */
struct set {
    uint64_t word[SET_BYTES / 8];
};

/* A card, taken apart: its edition, the bytes of a set and what follows from them, how many of
 * each, and where each section begins. */
struct card {
    const uint8_t *bytes;
    unsigned edition, set_bytes, header_bytes, specification_bytes, place_bytes;
    unsigned atoms, actions, nodes, specifications, selections, revisions, pool_bytes;
    const uint8_t *weight, *node, *specification, *selection, *revision, *pool;
    struct set known; /* the atoms that the card has */
};

/* A configuration's parts, where the caller keeps them. */
struct parts {
    uint8_t *beliefs, *goals, *plan;
    uint16_t *length;
    uint8_t *phase;
    uint16_t *finished;
};

/* ---- bytes ---- */

/* "Numbers are two bytes, low byte first." */
static inline unsigned number(const uint8_t *at)
{
    return at[0] | (unsigned)at[1] << 8;
}

static inline void put_number(uint8_t *at, unsigned value)
{
    at[0] = (uint8_t)value;
    at[1] = (uint8_t)(value >> 8);
}

/* A set of so many bytes, 16 or 32. */
static inline struct set read_set(const uint8_t *at, unsigned bytes)
{
    struct set s = {{0}};
    memcpy(s.word, at, NARROW_SET_BYTES);
    if (bytes == SET_BYTES)
        memcpy(s.word + 2, at + NARROW_SET_BYTES, NARROW_SET_BYTES);
    return s;
}

/* A set of a configuration, which has no edition. */
static inline struct set wide_set(const uint8_t *at)
{
    return read_set(at, SET_BYTES);
}

static inline void put_set(uint8_t *at, struct set s)
{
    memcpy(at, s.word, SET_BYTES);
}

static inline struct set set_with(struct set s, struct set other)
{
    for (unsigned i = 0; i < SET_BYTES / 8; i++)
        s.word[i] |= other.word[i];
    return s;
}

static inline struct set set_without(struct set s, struct set other)
{
    for (unsigned i = 0; i < SET_BYTES / 8; i++)
        s.word[i] &= ~other.word[i];
    return s;
}

static inline int same_set(struct set s, struct set other)
{
    uint64_t bits = 0;
    for (unsigned i = 0; i < SET_BYTES / 8; i++)
        bits |= s.word[i] ^ other.word[i];
    return bits == 0;
}

/* "Atom k is bit (k modulo 8) of byte (k divided by 8)." */
static inline uint8_t has_atom(const uint8_t *set, unsigned atom)
{
    return set[atom >> 3] >> (atom & 7) & 1;
}

/* Whether all atoms of a set are known to the card. */
static inline int known_set(const struct card *c, struct set s)
{
    return same_set(set_without(s, c->known), (struct set){{0}});
}

/* Whether each byte is the number of an action: the greatest is. */
static int known_actions(const struct card *c, const uint8_t *bytes, unsigned count)
{
    uint8_t greatest = 0;
    for (unsigned i = 0; i < count; i++)
        greatest = bytes[i] > greatest ? bytes[i] : greatest;
    return greatest < c->actions;
}

static int all_zero(const uint8_t *bytes, unsigned count)
{
    uint8_t bits = 0;
    for (unsigned i = 0; i < count; i++)
        bits |= bytes[i];
    return bits == 0;
}

/* ---- the card's check ---- */

/* The set of the atoms 0 to atoms - 1. */
static struct set first_atoms(unsigned atoms)
{
    uint8_t bytes[SET_BYTES];
    for (unsigned i = 0; i < SET_BYTES; i++) {
        unsigned left = atoms > 8 * i ? atoms - 8 * i : 0;
        bytes[i] = left >= 8 ? 0xFF : (uint8_t)((1u << left) - 1);
    }
    return wide_set(bytes);
}

/* Reads the edition, 1 or 2, and what follows from it; whether it is one of the two. */
static int read_edition(struct card *c)
{
    c->edition = number(c->bytes + 2);
    c->set_bytes = c->edition == 1 ? NARROW_SET_BYTES : SET_BYTES;
    c->header_bytes = SETS_OF_CARD + 2 * c->set_bytes;
    c->specification_bytes = SETS_OF_SPECIFICATION + 2 * c->set_bytes;
    c->place_bytes = SETS_OF_PLACE + 2 * c->set_bytes;
    return c->edition - 1 < 2;
}

/* Reads the counts of the header; whether each is in its range (row 3). */
static int read_counts(struct card *c)
{
    const uint8_t *header = c->bytes;
    c->atoms = number(header + 4);
    c->actions = number(header + 6);
    c->nodes = number(header + 8);
    c->specifications = number(header + 12);
    c->selections = number(header + 16);
    c->revisions = number(header + 20);
    c->pool_bytes = number(header + 24);
    return c->atoms - 1 < 8 * c->set_bytes && c->actions - 1 < MOST_ENTRIES &&
           c->nodes - 1 < MOST_ENTRIES && c->specifications <= MOST_ENTRIES &&
           c->selections <= MOST_ENTRIES && c->revisions <= MOST_ENTRIES &&
           c->pool_bytes <= LARGEST_POOL;
}

/* "The sections follow the weights in the header's order with no gap; the card ends with the
 * pool" (row 4). */
static int read_offsets(struct card *c, size_t card_len)
{
    const uint8_t *header = c->bytes;
    unsigned node = c->header_bytes + 2 * c->actions;
    unsigned specification = node + NODE_BYTES * c->nodes;
    unsigned selection = specification + c->specification_bytes * c->specifications;
    unsigned revision = selection + SELECTION_BYTES * c->selections;
    unsigned pool = revision + REVISION_BYTES * c->revisions;
    if (number(header + 10) != node || number(header + 14) != specification ||
        number(header + 18) != selection || number(header + 22) != revision ||
        number(header + 26) != pool || card_len != pool + c->pool_bytes)
        return 0;
    c->weight = header + c->header_bytes;
    c->node = header + node;
    c->specification = header + specification;
    c->selection = header + selection;
    c->revision = header + revision;
    c->pool = header + pool;
    c->known = first_atoms(c->atoms);
    return 1;
}

/* "Each action weighs 1 to 1,024" (row 5). */
static int good_weights(const struct card *c)
{
    uint16_t bad = 0;
    for (unsigned i = 0; i < c->actions; i++)
        bad |= (uint16_t)(number(c->weight + 2 * i) - 1) > 1023;
    return bad == 0;
}

/* Whether every node keeps its rule (row 6); `form` tells what each is made of. */
static int good_nodes(const struct card *c, uint8_t form[MOST_ENTRIES])
{
    unsigned bad = 0;
    memset(form, UNKNOWN, MOST_ENTRIES);
    for (unsigned k = 0; k < c->nodes; k++) {
        const uint8_t *node = c->node + NODE_BYTES * k;
        unsigned kind = node[0], a = node[1], b = node[2];
        bad |= node[3];
        switch (kind) {
        case TRUE:
            bad |= a | b;
            form[k] = 0;
            break;
        case BELIEVES:
        case HAS_GOAL:
            bad |= b | (a >= c->atoms);
            form[k] = (uint8_t)kind;
            break;
        case NOT:
            bad |= b | (a >= k);
            form[k] = form[a];
            break;
        case AND:
        case OR:
            bad |= (a >= k) | (b >= k);
            form[k] = form[a] | form[b];
            break;
        default:
            return 0;
        }
    }
    return bad == 0;
}

/* Whether a plan of the pool breaks its rule: outside the pool, or a length out of range. */
static inline unsigned bad_plan(const struct card *c, unsigned start, unsigned length,
                                unsigned least)
{
    return (start + length > c->pool_bytes) | (length - least > LONGEST_PLAN - least);
}

/* Add and Del of a specification. */
static inline struct set add_of(const struct card *c, const uint8_t *specification)
{
    return read_set(specification + SETS_OF_SPECIFICATION, c->set_bytes);
}

static inline struct set del_of(const struct card *c, const uint8_t *specification)
{
    return read_set(specification + SETS_OF_SPECIFICATION + c->set_bytes, c->set_bytes);
}

/* Whether a specification breaks its rule (row 7); the union of all sets goes to `sets`. */
static unsigned bad_specifications(const struct card *c, const uint8_t *form, struct set *sets)
{
    unsigned bad = 0;
    struct set all = *sets;
    for (unsigned i = 0; i < c->specifications; i++) {
        const uint8_t *entry = c->specification + c->specification_bytes * i;
        bad |= (entry[0] >= c->actions) | (form[entry[1]] & (GOAL_ATOM | UNKNOWN));
        bad |= entry[2] | entry[3];
        all = set_with(all, add_of(c, entry));
        all = set_with(all, del_of(c, entry));
    }
    *sets = all;
    return bad;
}

static unsigned bad_selections(const struct card *c, const uint8_t *form)
{
    unsigned bad = 0;
    for (unsigned i = 0; i < c->selections; i++) {
        const uint8_t *rule = c->selection + SELECTION_BYTES * i;
        bad |= form[rule[0]] & (GOAL_ATOM | UNKNOWN);
        bad |= form[rule[1]] & (BELIEF_ATOM | UNKNOWN);
        bad |= bad_plan(c, number(rule + 2), number(rule + 4), 1) | number(rule + 6);
    }
    return bad;
}

static unsigned bad_revisions(const struct card *c, const uint8_t *form)
{
    unsigned bad = 0;
    for (unsigned i = 0; i < c->revisions; i++) {
        const uint8_t *rule = c->revision + REVISION_BYTES * i;
        bad |= form[rule[0]] & (GOAL_ATOM | UNKNOWN);
        bad |= rule[1] | number(rule + 10);
        bad |= bad_plan(c, number(rule + 2), number(rule + 4), 1);
        bad |= bad_plan(c, number(rule + 6), number(rule + 8), 0);
    }
    return bad;
}

/* The card's check, rows 1 to 9 in the table's order, "a file under 4 bytes is 1, then a wrong mark
 * or edition is 2, then one shorter than its edition's header is 1"; if done, `c` is the card taken
 * apart and `form` tells what each node is made of. */
static uint16_t check_forms(const uint8_t *card, size_t card_len, struct card *c,
                            uint8_t form[MOST_ENTRIES])
{
    if (card_len < LEAST_FILE_BYTES)
        return SHORT;
    c->bytes = card;
    if (card[0] != 0x33 || card[1] != 0x41 || !read_edition(c))
        return MARK;
    if (card_len < c->header_bytes)
        return SHORT;
    if (!read_counts(c))
        return COUNT;
    if (!read_offsets(c, card_len))
        return OFFSETS;
    if (!good_weights(c))
        return WEIGHT;
    if (!good_nodes(c, form))
        return NODE;
    struct set sets = set_with(read_set(card + SETS_OF_CARD, c->set_bytes),
                               read_set(card + SETS_OF_CARD + c->set_bytes, c->set_bytes));
    if (bad_specifications(c, form, &sets) | bad_selections(c, form) | bad_revisions(c, form) |
        bad_plan(c, number(card + 28), number(card + 30), 0))
        return RULE;
    if (!known_actions(c, c->pool, c->pool_bytes))
        return ACTION_BYTE;
    return known_set(c, sets) ? DONE : ATOM;
}

static uint16_t check(const uint8_t *card, size_t card_len, struct card *c)
{
    uint8_t form[MOST_ENTRIES];
    return check_forms(card, card_len, c, form);
}

uint16_t engine_check(const uint8_t *card, size_t card_len)
{
    struct card c;
    return check(card, card_len, &c);
}

/* Row 13: whether the configuration belongs to the card. */
static int known_configuration(const struct card *c, const uint8_t *beliefs, const uint8_t *goals,
                               const uint8_t *plan, unsigned length, unsigned phase)
{
    return length <= LONGEST_PLAN && phase <= 2 && known_set(c, wide_set(beliefs)) &&
           known_set(c, wide_set(goals)) && known_actions(c, plan, length) &&
           all_zero(plan + length, LONGEST_PLAN - length);
}

/* ---- load and grade ---- */

/* The empty configuration: no atoms, empty plan, phase 0, nothing finished. */
static void empty(struct parts d)
{
    memset(d.beliefs, 0, SET_BYTES);
    memset(d.goals, 0, SET_BYTES);
    memset(d.plan, 0, LONGEST_PLAN);
    *d.length = 0;
    *d.phase = 0;
    *d.finished = 0;
}

/* "the goals are those not believed": of the goals those that are not in the beliefs. */
static inline struct set struck_by(struct set beliefs, struct set goals)
{
    return set_without(goals, beliefs);
}

/* Writes a configuration. */
static void fill(struct parts d, struct set beliefs, struct set goals, const uint8_t *plan,
                 unsigned length, unsigned phase, unsigned finished)
{
    put_set(d.beliefs, beliefs);
    put_set(d.goals, goals);
    memcpy(d.plan, plan, length);
    memset(d.plan + length, 0, LONGEST_PLAN - length);
    *d.length = (uint16_t)length;
    *d.phase = (uint8_t)phase;
    *d.finished = (uint16_t)finished;
}

uint16_t engine_load(const uint8_t *card, size_t card_len, uint8_t *beliefs, uint8_t *goals,
                     uint8_t *plan, uint16_t *length, uint8_t *phase, uint16_t *finished)
{
    struct card c;
    struct parts d = {beliefs, goals, plan, length, phase, finished};
    uint16_t answer = check(card, card_len, &c);
    if (answer != DONE) {
        empty(d);
        return answer;
    }
    struct set believed = read_set(card + SETS_OF_CARD, c.set_bytes);
    struct set wanted = read_set(card + SETS_OF_CARD + c.set_bytes, c.set_bytes);
    fill(d, believed, struck_by(believed, wanted), c.pool + number(card + 28), number(card + 30), 0,
         0);
    return answer;
}

/* The pool's weights summed up at every GAP-th byte, so that a plan's weight is a difference of
 * two sums and of at most 2 * GAP - 2 weights more. */
enum { GAP = 8 };

struct sums {
    const struct card *card;
    uint32_t before[LARGEST_POOL / GAP + 1]; /* before[i]: the weight of the first i * GAP bytes */
};

static inline uint32_t weigh_bytes(const struct card *c, unsigned from, unsigned to)
{
    uint32_t sum = 0;
    for (unsigned i = from; i < to; i++)
        sum += number(c->weight + 2 * c->pool[i]);
    return sum;
}

static void sum_up(struct sums *s, const struct card *c)
{
    s->card = c;
    s->before[0] = 0;
    for (unsigned i = 0; i < c->pool_bytes / GAP; i++)
        s->before[i + 1] = s->before[i] + weigh_bytes(c, i * GAP, (i + 1) * GAP);
}

/* The weight of a plan in the pool: "the sum of its actions, each occurrence counted". */
static uint32_t weigh(const struct sums *s, unsigned start, unsigned length)
{
    unsigned end = start + length, first = start / GAP, last = end / GAP;
    return s->before[last] + weigh_bytes(s->card, last * GAP, end) - s->before[first] -
           weigh_bytes(s->card, first * GAP, start);
}

/* The first offender: the initial plan, then selection rule n, then revision rule n. */
static unsigned first_offender(const struct sums *s, unsigned *n)
{
    const struct card *c = s->card;
    *n = 0;
    if (weigh(s, number(c->bytes + 28), number(c->bytes + 30)) > 1024)
        return INITIAL_PLAN;
    for (*n = 0; *n < c->selections; ++*n) {
        const uint8_t *rule = c->selection + SELECTION_BYTES * *n;
        if (weigh(s, number(rule + 2), number(rule + 4)) > 1024)
            return SELECTION_RULE;
    }
    for (*n = 0; *n < c->revisions; ++*n) {
        const uint8_t *rule = c->revision + REVISION_BYTES * *n;
        if (weigh(s, number(rule + 6), number(rule + 8)) >=
            weigh(s, number(rule + 2), number(rule + 4)))
            return REVISION_RULE;
    }
    *n = 0;
    return NONE;
}

uint16_t engine_grade(const uint8_t *card, size_t card_len, uint8_t *verdict, uint8_t *offender,
                      uint16_t *number_of_it)
{
    struct card c;
    struct sums s;
    unsigned found = INITIAL_PLAN, n = 0;
    uint16_t answer = check(card, card_len, &c);
    if (answer == DONE) {
        sum_up(&s, &c);
        found = first_offender(&s, &n);
    }
    *verdict = found == NONE ? BOUNDED : OPEN;
    *offender = (uint8_t)found;
    *number_of_it = (uint16_t)n;
    return answer;
}

/* Whether a card is open or a plan beside it weighs over 1,024. */
static int open_or_heavy(const struct card *c, const uint8_t *plan, unsigned length)
{
    struct sums s;
    uint32_t weight = 0;
    unsigned n;
    for (unsigned i = 0; i < length; i++)
        weight += number(c->weight + 2 * plan[i]);
    if (weight > 1024)
        return 1;
    sum_up(&s, c);
    return first_offender(&s, &n) != NONE;
}

/* ---- conditions and enabled rules ---- */

/* Judges the first `count` nodes, each after its children: one mark a node. */
static void judge(const struct card *c, unsigned count, const uint8_t *beliefs,
                  const uint8_t *goals, uint8_t mark[MOST_ENTRIES])
{
    for (unsigned k = 0; k < count; k++) {
        const uint8_t *node = c->node + NODE_BYTES * k;
        unsigned a = node[1], b = node[2];
        switch (node[0]) {
        case TRUE:
            mark[k] = 1;
            break;
        case BELIEVES:
            mark[k] = has_atom(beliefs, a);
            break;
        case HAS_GOAL:
            mark[k] = has_atom(goals, a);
            break;
        case NOT:
            mark[k] = mark[a] ^ 1;
            break;
        case AND:
            mark[k] = mark[a] & mark[b];
            break;
        default:
            mark[k] = mark[a] | mark[b];
        }
    }
}

/* Whether the head of a revision rule is a prefix of the plan. */
static inline int head_fits(const struct card *c, const uint8_t *rule, const uint8_t *plan,
                            unsigned length)
{
    const uint8_t *head = c->pool + number(rule + 2);
    unsigned head_length = number(rule + 4);
    return head_length <= length && head[0] == plan[0] && memcmp(head, plan, head_length) == 0;
}

/* "Enabled if the head is a prefix of the plan and the condition holds." */
static inline int revision_enabled(const struct card *c, const uint8_t *mark, const uint8_t *rule,
                                   const uint8_t *plan, unsigned length)
{
    return mark[rule[0]] && head_fits(c, rule, plan, length);
}

/* Whether both conditions of a selection rule hold. */
static inline int selection_holds(const uint8_t *mark, const uint8_t *rule)
{
    return mark[rule[0]] & mark[rule[1]];
}

/* The lowest enabled selection rule, of an empty plan, from `i` on. */
static int next_selection(const struct card *c, const uint8_t *mark, unsigned i)
{
    for (; i < c->selections; i++)
        if (selection_holds(mark, c->selection + SELECTION_BYTES * i))
            return (int)i;
    return NO_MOVE;
}

/* The lowest enabled specification of an action, from `i` on. */
static int next_specification(const struct card *c, const uint8_t *mark, unsigned action,
                              unsigned i)
{
    for (; i < c->specifications; i++) {
        const uint8_t *entry = c->specification + c->specification_bytes * i;
        if (entry[0] == action && mark[entry[1]])
            return (int)i;
    }
    return NO_MOVE;
}

/* The lowest enabled revision rule, of a plan that is not empty, from `i` on. */
static int next_revision(const struct card *c, const uint8_t *mark, const uint8_t *plan,
                         unsigned length, unsigned i)
{
    for (; i < c->revisions; i++)
        if (revision_enabled(c, mark, c->revision + REVISION_BYTES * i, plan, length))
            return (int)i;
    return NO_MOVE;
}

/* The lowest enabled number of a kind from `i` on, or NO_MOVE. */
static int next_of_kind(const struct card *c, const uint8_t *mark, unsigned kind,
                        const uint8_t *plan, unsigned length, unsigned i)
{
    if (kind == SELECT)
        return length == 0 ? next_selection(c, mark, i) : NO_MOVE;
    if (length == 0)
        return NO_MOVE;
    return kind == ACT ? next_specification(c, mark, plan[0], i)
                       : next_revision(c, mark, plan, length, i);
}

/* ---- list ---- */

/* The enabled choices, as they are found, and the conditions that are judged for them. */
struct found {
    uint16_t code[MOST_CHOICES];
    unsigned codes, judged;
};

static inline void find(struct found *f, unsigned kind, unsigned i)
{
    f->code[f->codes++] = (uint16_t)(256 * kind + i);
}

/* "One for each selection rule, and one more where its belief condition holds." */
static void find_selections(const struct card *c, const uint8_t *mark, struct found *f)
{
    f->judged = c->selections;
    for (unsigned i = 0; i < c->selections; i++) {
        const uint8_t *rule = c->selection + SELECTION_BYTES * i;
        f->judged += mark[rule[0]];
        if (selection_holds(mark, rule))
            find(f, SELECT, i);
    }
}

/* "One for each specification of the first action and one for each revision rule whose head is a
 * prefix." */
static void find_others(const struct card *c, const uint8_t *mark, const uint8_t *plan,
                        unsigned length, struct found *f)
{
    for (unsigned i = 0; i < c->specifications; i++) {
        const uint8_t *entry = c->specification + c->specification_bytes * i;
        if (entry[0] != plan[0])
            continue;
        f->judged++;
        if (mark[entry[1]])
            find(f, ACT, i);
    }
    for (unsigned i = 0; i < c->revisions; i++) {
        const uint8_t *rule = c->revision + REVISION_BYTES * i;
        if (!head_fits(c, rule, plan, length))
            continue;
        f->judged++;
        if (mark[rule[0]])
            find(f, REVISE, i);
    }
}

static unsigned atoms_of(const uint8_t *set)
{
    struct set s = wide_set(set);
    unsigned atoms = 0;
    for (unsigned i = 0; i < SET_BYTES / 8; i++)
        atoms += (unsigned)__builtin_popcountll(s.word[i]);
    return atoms;
}

uint16_t engine_list_looks(const uint8_t *card, size_t card_len, const uint8_t *beliefs,
                           const uint8_t *goals, const uint8_t *plan, uint16_t length,
                           uint8_t phase, uint16_t finished, uint16_t *list, size_t list_len,
                           uint16_t *count, uint16_t *judged, uint16_t *open_goals)
{
    struct card c;
    uint8_t mark[MOST_ENTRIES];
    struct found f;
    f.codes = f.judged = 0;
    (void)finished;
    *count = *judged = *open_goals = 0;
    uint16_t answer = check(card, card_len, &c);
    if (answer != DONE)
        return answer;
    if (!known_configuration(&c, beliefs, goals, plan, length, phase))
        return CONFIGURATION;
    judge(&c, c.nodes, beliefs, goals, mark);
    if (length == 0)
        find_selections(&c, mark, &f);
    else
        find_others(&c, mark, plan, length, &f);
    if (f.codes > list_len)
        return NO_ROOM;
    memcpy(list, f.code, 2 * f.codes);
    *count = (uint16_t)f.codes;
    *judged = (uint16_t)f.judged;
    *open_goals = (uint16_t)atoms_of(goals);
    return DONE;
}

uint16_t engine_list(const uint8_t *card, size_t card_len, const uint8_t *beliefs,
                     const uint8_t *goals, const uint8_t *plan, uint16_t length, uint8_t phase,
                     uint16_t finished, uint16_t *list, size_t list_len, uint16_t *count)
{
    uint16_t judged, open_goals;
    return engine_list_looks(card, card_len, beliefs, goals, plan, length, phase, finished, list,
                             list_len, count, &judged, &open_goals);
}

/* ---- moves ---- */

/* "How many transitions have left the plan empty since load, stopping at 65,535", after one that
 * leaves a plan of that length. */
static inline unsigned finished_after(unsigned finished, unsigned length)
{
    return finished + (length == 0 && finished < MOST_FINISHED);
}

/* "Beliefs become (beliefs with Add) without Del."; "after an action the goals are those not
 * believed". Whether either has changed. */
static int act(const struct card *c, const uint8_t *specification, uint8_t *beliefs, uint8_t *goals)
{
    struct set b = wide_set(beliefs), g = wide_set(goals);
    struct set believed = set_with(b, add_of(c, specification));
    believed = set_without(believed, del_of(c, specification));
    struct set wanted = struck_by(believed, g);
    put_set(beliefs, believed);
    put_set(goals, wanted);
    return !same_set(b, believed) || !same_set(g, wanted);
}

/* Puts `body` in the place of the plan's first `head_length` actions; what is left of a longer
 * plan at the end becomes zero, and a plan that is empty then is counted. Whether it fits; if not,
 * nothing changes. */
static int replace(struct parts d, unsigned head_length, const uint8_t *body, unsigned body_length)
{
    unsigned old = *d.length, rest = old - head_length, new = rest + body_length;
    if (new > LONGEST_PLAN)
        return 0;
    memmove(d.plan + body_length, d.plan + head_length, rest);
    memcpy(d.plan, body, body_length);
    if (new < old)
        memset(d.plan + new, 0, old - new);
    *d.length = (uint16_t)new;
    *d.finished = (uint16_t)finished_after(*d.finished, new);
    return 1;
}

/* Refuses a choice whose condition, node k, is false, with what settled it: by the marks down from
 * k, of a "not" to its child, of an "and" and an "or" to "the left child's where the left alone
 * settles the value, else the right's". */
static uint16_t refuse_condition(const struct card *c, const uint8_t *mark, unsigned k,
                                 uint16_t *settled)
{
    for (;;) {
        const uint8_t *node = c->node + NODE_BYTES * k;
        unsigned a = node[1], b = node[2];
        switch (node[0]) {
        case NOT:
            k = a;
            break;
        case AND:
            k = mark[a] ? b : a;
            break;
        case OR:
            k = mark[a] ? a : b;
            break;
        default:
            *settled = (uint16_t)k;
            return CONDITION;
        }
    }
}

/* Takes selection rule i. */
static uint16_t take_selection(const struct card *c, struct parts d, unsigned i, uint16_t *settled)
{
    uint8_t mark[MOST_ENTRIES];
    if (i >= c->selections)
        return NO_RULE;
    if (*d.length != 0)
        return FRONT;
    const uint8_t *rule = c->selection + SELECTION_BYTES * i;
    judge(c, 1u + (rule[0] > rule[1] ? rule[0] : rule[1]), d.beliefs, d.goals, mark);
    if (!(mark[rule[0]] & mark[rule[1]]))
        return refuse_condition(c, mark, mark[rule[0]] ? rule[1] : rule[0], settled);
    replace(d, 0, c->pool + number(rule + 2), number(rule + 4));
    *d.phase = ACT;
    return DONE;
}

/* Takes the first action by specification i. */
static uint16_t take_action(const struct card *c, struct parts d, unsigned i, uint16_t *settled)
{
    uint8_t mark[MOST_ENTRIES];
    if (i >= c->specifications)
        return NO_RULE;
    const uint8_t *entry = c->specification + c->specification_bytes * i;
    if (*d.length == 0 || entry[0] != d.plan[0])
        return FRONT;
    judge(c, 1u + entry[1], d.beliefs, d.goals, mark);
    if (!mark[entry[1]])
        return refuse_condition(c, mark, entry[1], settled);
    act(c, entry, d.beliefs, d.goals);
    replace(d, 1, c->pool, 0);
    *d.phase = REVISE;
    return DONE;
}

/* Takes revision rule i; no head is a prefix of an empty plan. */
static uint16_t take_revision(const struct card *c, struct parts d, unsigned i, uint16_t *settled)
{
    uint8_t mark[MOST_ENTRIES];
    if (i >= c->revisions)
        return NO_RULE;
    const uint8_t *rule = c->revision + REVISION_BYTES * i;
    if (!head_fits(c, rule, d.plan, *d.length))
        return FRONT;
    judge(c, 1u + rule[0], d.beliefs, d.goals, mark);
    if (!mark[rule[0]])
        return refuse_condition(c, mark, rule[0], settled);
    if (!replace(d, number(rule + 4), c->pool + number(rule + 6), number(rule + 8)))
        return PLAN_FULL;
    *d.phase = SELECT;
    return DONE;
}

static uint16_t take(const struct card *c, struct parts d, uint16_t choice, uint16_t *node)
{
    switch (choice / 256) {
    case SELECT:
        return take_selection(c, d, choice % 256u, node);
    case ACT:
        return take_action(c, d, choice % 256u, node);
    case REVISE:
        return take_revision(c, d, choice % 256u, node);
    default:
        return NO_RULE;
    }
}

uint16_t engine_take(const uint8_t *card, size_t card_len, uint8_t *beliefs, uint8_t *goals,
                     uint8_t *plan, uint16_t *length, uint8_t *phase, uint16_t *finished,
                     uint16_t choice, uint16_t *node)
{
    struct card c;
    struct parts d = {beliefs, goals, plan, length, phase, finished};
    *node = 0;
    uint16_t answer = check(card, card_len, &c);
    if (answer != DONE)
        return answer;
    if (!known_configuration(&c, beliefs, goals, plan, *length, *phase))
        return CONFIGURATION;
    return take(&c, d, choice, node);
}

uint16_t engine_take_bounded(const uint8_t *card, size_t card_len, uint8_t *beliefs,
                             uint8_t *goals, uint8_t *plan, uint16_t *length, uint8_t *phase,
                             uint16_t *finished, uint16_t choice, uint16_t *node)
{
    struct card c;
    struct parts d = {beliefs, goals, plan, length, phase, finished};
    *node = 0;
    uint16_t answer = check(card, card_len, &c);
    if (answer != DONE)
        return answer;
    if (!known_configuration(&c, beliefs, goals, plan, *length, *phase))
        return CONFIGURATION;
    if (open_or_heavy(&c, plan, *length))
        return OPEN_OR_HEAVY;
    return take(&c, d, choice, node);
}

/* ---- run ---- */

/* A run under way: the plan is the last `length` bytes before `end`. */
struct walk {
    const struct card *card;
    uint8_t *beliefs, *goals, *end;
    unsigned length, phase, finished;
    uint8_t mark[MOST_ENTRIES];
};

/* Begins where a configuration stands. */
static void set_out(struct walk *w, const struct card *c, struct parts d)
{
    w->card = c;
    w->beliefs = d.beliefs;
    w->goals = d.goals;
    w->end = d.plan + LONGEST_PLAN;
    w->length = *d.length;
    w->phase = *d.phase;
    w->finished = *d.finished;
    memmove(w->end - w->length, d.plan, w->length);
    judge(c, c->nodes, w->beliefs, w->goals, w->mark);
}

/* Leaves the configuration as it is then. */
static void arrive(const struct walk *w, struct parts d)
{
    memmove(d.plan, w->end - w->length, w->length);
    memset(d.plan + w->length, 0, LONGEST_PLAN - w->length);
    *d.length = (uint16_t)w->length;
    *d.phase = (uint8_t)w->phase;
    *d.finished = (uint16_t)w->finished;
}

/* Puts a plan of the pool in the place of the first actions; whether it fits. */
static inline int put_in_front(struct walk *w, unsigned head_length, const uint8_t *body)
{
    unsigned body_length = number(body + 2), length = w->length - head_length + body_length;
    if (length > LONGEST_PLAN)
        return 0;
    memcpy(w->end - length, w->card->pool + number(body), body_length);
    w->length = length;
    return 1;
}

/* Takes the enabled move i of a kind; whether its plan fits. */
static inline int move(struct walk *w, unsigned kind, unsigned i)
{
    const struct card *c = w->card;
    if (kind == SELECT) {
        put_in_front(w, 0, c->selection + SELECTION_BYTES * i + 2);
    } else if (kind == ACT) {
        w->length--;
        if (act(c, c->specification + c->specification_bytes * i, w->beliefs, w->goals))
            judge(c, c->nodes, w->beliefs, w->goals, w->mark);
    } else {
        const uint8_t *rule = c->revision + REVISION_BYTES * i;
        if (!put_in_front(w, number(rule + 4), rule + 6))
            return 0;
    }
    w->phase = kind == REVISE ? SELECT : kind + 1;
    w->finished = finished_after(w->finished, w->length);
    return 1;
}

/* "From phase p the kinds p, p+1, p+2 (modulo 3) are tried in turn. In the first kind with an
 * enabled transition, the lowest number is taken." The number, and its kind; or NO_MOVE. */
static inline int next_move(const struct card *c, const uint8_t *mark, const uint8_t *plan,
                            unsigned length, unsigned phase, unsigned *kind)
{
    int found = NO_MOVE;
    *kind = phase;
    for (unsigned tried = 0; tried < 3; tried++) {
        found = next_of_kind(c, mark, *kind, plan, length, 0);
        if (found != NO_MOVE)
            break;
        *kind = *kind == REVISE ? SELECT : *kind + 1;
    }
    return found;
}

/* Runs until the budget is spent, at rest or full; how many moves were taken. */
static unsigned walk(struct walk *w, unsigned budget, uint8_t *ending)
{
    unsigned kind;
    for (unsigned count = 0; count < budget; count++) {
        int found =
            next_move(w->card, w->mark, w->end - w->length, w->length, w->phase, &kind);
        if (found == NO_MOVE || !move(w, kind, (unsigned)found)) {
            *ending = found == NO_MOVE ? REST : FULL;
            return count;
        }
    }
    *ending = SPENT;
    return budget;
}

uint16_t engine_run(const uint8_t *card, size_t card_len, uint8_t *beliefs, uint8_t *goals,
                    uint8_t *plan, uint16_t *length, uint8_t *phase, uint16_t *finished,
                    uint16_t budget, uint16_t *count, uint8_t *ending)
{
    struct card c;
    struct walk w;
    struct parts d = {beliefs, goals, plan, length, phase, finished};
    *count = 0;
    *ending = SPENT;
    uint16_t answer = check(card, card_len, &c);
    if (answer != DONE)
        return answer;
    if (!known_configuration(&c, beliefs, goals, plan, *length, *phase))
        return CONFIGURATION;
    set_out(&w, &c, d);
    *count = (uint16_t)walk(&w, budget, ending);
    arrive(&w, d);
    return DONE;
}

uint16_t engine_run_bounded(const uint8_t *card, size_t card_len, uint8_t *beliefs, uint8_t *goals,
                            uint8_t *plan, uint16_t *length, uint8_t *phase, uint16_t *finished,
                            uint16_t budget, uint16_t *count, uint8_t *ending)
{
    struct card c;
    struct walk w;
    struct parts d = {beliefs, goals, plan, length, phase, finished};
    *count = 0;
    *ending = SPENT;
    uint16_t answer = check(card, card_len, &c);
    if (answer != DONE)
        return answer;
    if (!known_configuration(&c, beliefs, goals, plan, *length, *phase))
        return CONFIGURATION;
    if (open_or_heavy(&c, plan, *length))
        return OPEN_OR_HEAVY;
    set_out(&w, &c, d);
    *count = (uint16_t)walk(&w, budget, ending);
    arrive(&w, d);
    return DONE;
}

/* ---- next ---- */

/* Whether the enabled move i of a kind leaves a plan that fits; only a revision's may not. */
static int fits(const struct card *c, unsigned kind, unsigned i, unsigned length)
{
    const uint8_t *rule = c->revision + REVISION_BYTES * i;
    return kind != REVISE || length - number(rule + 4) + number(rule + 8) <= LONGEST_PLAN;
}

uint16_t engine_next(const uint8_t *card, size_t card_len, const uint8_t *beliefs,
                     const uint8_t *goals, const uint8_t *plan, uint16_t length, uint8_t phase,
                     uint16_t finished, uint8_t *coming, uint16_t *choice)
{
    struct card c;
    uint8_t mark[MOST_ENTRIES];
    unsigned kind;
    (void)finished;
    *coming = REST;
    *choice = 0;
    uint16_t answer = check(card, card_len, &c);
    if (answer != DONE)
        return answer;
    if (!known_configuration(&c, beliefs, goals, plan, length, phase))
        return CONFIGURATION;
    judge(&c, c.nodes, beliefs, goals, mark);
    int found = next_move(&c, mark, plan, length, phase, &kind);
    if (found == NO_MOVE)
        return DONE;
    *coming = fits(&c, kind, (unsigned)found, length) ? A_MOVE : FULL;
    *choice = (uint16_t)(256 * kind + (unsigned)found);
    return DONE;
}

/* ---- deliberate and go on ---- */

/* Whether a program keeps its rules for a card, of whose nodes `form` tells what they are made of
 * (row 19): "part numbers are lower than their own". */
static int good_program(const struct card *c, const uint8_t *form, const uint8_t *program,
                        size_t program_len)
{
    unsigned bad = 0;
    if (program_len == 0 || program_len > ENTRY_BYTES * LONGEST_PROGRAM ||
        program_len % ENTRY_BYTES != 0)
        return 0;
    for (unsigned k = 0; k < program_len / ENTRY_BYTES; k++) {
        const uint8_t *entry = program + ENTRY_BYTES * k;
        unsigned a = entry[1], b = entry[2];
        bad |= entry[3];
        switch (entry[0]) {
        case EXECUTE:
            bad |= a | b;
            break;
        case APPLY:
            bad |= b | (a >= c->revisions);
            break;
        case CHOOSE:
            bad |= b | (a >= c->selections);
            break;
        case WHILE_PLAN:
            bad |= a | (b >= k);
            break;
        case WHILE_BELIEF:
            bad |= (form[a] & (GOAL_ATOM | UNKNOWN)) | (b >= k);
            break;
        case THEN:
        case EITHER:
            bad |= (a >= k) | (b >= k);
            break;
        default:
            return 0;
        }
    }
    return bad == 0;
}

/* A deliberation under way: what remains are the numbers from `next` up to `none`. */
struct course {
    struct walk walk;
    const uint8_t *program;
    uint8_t *next, *none;
    int action;                       /* the lowest enabled specification, or NO_MOVE */
    unsigned marked;                  /* how many entries are marked for where the walk stands */
    uint8_t movable[LONGEST_PROGRAM]; /* the marks: whether the entry has a first move */
};

/* Whether an entry without parts, or a "while", has a first move; the action was looked for. */
static inline int movable_alone(const struct course *d, const uint8_t *entry)
{
    const struct walk *w = &d->walk;
    const struct card *c = w->card;
    switch (entry[0]) {
    case EXECUTE:
        return d->action != NO_MOVE;
    case APPLY:
        return revision_enabled(c, w->mark, c->revision + REVISION_BYTES * entry[1],
                                w->end - w->length, w->length);
    case CHOOSE:
        return w->length == 0 &&
               selection_holds(w->mark, c->selection + SELECTION_BYTES * entry[1]);
    default:
        return 1;
    }
}

/* Marks the entries up to n, each after its parts: whether it has a first move. */
static inline void mark_moves(struct course *d, unsigned n)
{
    for (unsigned k = d->marked; k <= n; k++) {
        const uint8_t *entry = d->program + ENTRY_BYTES * k;
        unsigned a = entry[1], b = entry[2];
        switch (entry[0]) {
        case THEN:
            d->movable[k] = d->movable[a];
            break;
        case EITHER:
            d->movable[k] = d->movable[a] | d->movable[b];
            break;
        default:
            d->movable[k] = (uint8_t)movable_alone(d, entry);
        }
    }
    d->marked = d->marked > n ? d->marked : n + 1;
}

/* Whether entry n has a first move: a "while" always, an entry without parts is asked by itself,
 * and else those below it are marked, and it. */
static inline int movable(struct course *d, unsigned n)
{
    const struct walk *w = &d->walk;
    const uint8_t *entry = d->program + ENTRY_BYTES * n;
    if (entry[0] == WHILE_PLAN || entry[0] == WHILE_BELIEF)
        return 1;
    if (d->marked == 0 && entry[0] != APPLY && entry[0] != CHOOSE)
        d->action = next_of_kind(w->card, w->mark, ACT, w->end - w->length, w->length, 0);
    if (entry[0] < THEN)
        return movable_alone(d, entry);
    mark_moves(d, n);
    return d->movable[n];
}

/* Takes the enabled move that an entry stands for; whether its plan fits. */
static int take_entry(struct course *d, const uint8_t *entry)
{
    unsigned kind = entry[0] == EXECUTE ? ACT : entry[0] == APPLY ? REVISE : SELECT;
    d->marked = 0;
    return move(&d->walk, kind, kind == ACT ? (unsigned)d->action : entry[1]);
}

/* Makes the first move of the next entry, which has one: down to the part that moves, with the
 * right of each sequence on the way before what remains. Whether its plan fits; if not, the same
 * remains. */
static int make_move(struct course *d)
{
    uint8_t *next = d->next + 1, whole = *d->next, n = whole;
    const uint8_t *entry = d->program + ENTRY_BYTES * n;
    for (; entry[0] >= THEN; entry = d->program + ENTRY_BYTES * n) {
        if (entry[0] == THEN)
            *--next = entry[2];
        n = entry[0] == THEN || d->movable[entry[1]] ? entry[1] : entry[2];
    }
    if (entry[0] < WHILE_PLAN) {
        if (!take_entry(d, entry)) {
            *d->next = whole;
            return 0;
        }
    } else if (entry[0] == WHILE_PLAN ? d->walk.length != 0 : d->walk.mark[entry[1]]) {
        *--next = n;
        *--next = entry[2];
    }
    d->next = next;
    return 1;
}

/* Makes a move, if there is one that fits: SPENT, or why there is none. "Endings, in this order:
 * spent, finished, stuck, full." */
static unsigned one_move(struct course *d)
{
    if (d->next == d->none)
        return FINISHED;
    if (!movable(d, *d->next))
        return STUCK;
    return make_move(d) ? SPENT : TOO_LONG;
}

/* Moves until the budget is spent or there is no move; how many were made. */
static unsigned follow(struct course *d, unsigned budget, uint8_t *ending)
{
    for (unsigned count = 0; count < budget; count++) {
        unsigned end = one_move(d);
        if (end != SPENT) {
            *ending = (uint8_t)end;
            return count;
        }
    }
    *ending = SPENT;
    return budget;
}

/* Whether numbers may remain of a program of so many entries (row 19): each, plus how many stand
 * behind it, is below their number. So no more than 128 ever remain. */
static int good_numbers(const uint8_t *numbers, size_t numbers_len, unsigned entries)
{
    unsigned bad = 0;
    if (numbers_len > entries)
        return 0;
    for (size_t i = 0; i < numbers_len; i++)
        bad |= numbers[i] + (numbers_len - 1 - i) >= entries;
    return bad == 0;
}

/* What a deliberation writes beside the configuration. */
struct told {
    uint16_t *count;
    uint8_t *ending, *remaining, *remaining_length;
};

/* A deliberation from given numbers, compiled once for each of the two calls. */
static inline __attribute__((always_inline)) uint16_t
deliberation(const uint8_t *card, size_t card_len, const uint8_t *program, size_t program_len,
             const uint8_t *numbers, size_t numbers_len, struct parts d, uint16_t budget,
             struct told t)
{
    struct card c;
    struct course course;
    uint8_t form[MOST_ENTRIES];
    *t.count = 0;
    *t.ending = SPENT;
    *t.remaining_length = 0;
    uint16_t answer = check_forms(card, card_len, &c, form);
    if (answer != DONE)
        return answer;
    if (!good_program(&c, form, program, program_len) ||
        !good_numbers(numbers, numbers_len, (unsigned)(program_len / ENTRY_BYTES)))
        return PROGRAM;
    if (!known_configuration(&c, d.beliefs, d.goals, d.plan, *d.length, *d.phase))
        return CONFIGURATION;
    set_out(&course.walk, &c, d);
    course.program = program;
    course.marked = 0;
    course.none = t.remaining + LONGEST_PROGRAM;
    course.next = course.none - numbers_len;
    memcpy(course.next, numbers, numbers_len);
    *t.count = (uint16_t)follow(&course, budget, t.ending);
    arrive(&course.walk, d);
    unsigned left = (unsigned)(course.none - course.next);
    *t.remaining_length = (uint8_t)left;
    memmove(t.remaining, course.next, left);
    memset(t.remaining + left, 0, LONGEST_PROGRAM - left);
    return DONE;
}

uint16_t engine_go_on(const uint8_t *card, size_t card_len, const uint8_t *program,
                      size_t program_len, const uint8_t *numbers, size_t numbers_len,
                      uint8_t *beliefs, uint8_t *goals, uint8_t *plan, uint16_t *length,
                      uint8_t *phase, uint16_t *finished, uint16_t budget, uint16_t *count,
                      uint8_t *ending, uint8_t *remaining, uint8_t *remaining_length)
{
    return deliberation(card, card_len, program, program_len, numbers, numbers_len,
                        (struct parts){beliefs, goals, plan, length, phase, finished}, budget,
                        (struct told){count, ending, remaining, remaining_length});
}

uint16_t engine_deliberate(const uint8_t *card, size_t card_len, const uint8_t *program,
                           size_t program_len, uint8_t *beliefs, uint8_t *goals, uint8_t *plan,
                           uint16_t *length, uint8_t *phase, uint16_t *finished, uint16_t budget,
                           uint16_t *count, uint8_t *ending, uint8_t *remaining,
                           uint8_t *remaining_length)
{
    uint8_t whole = (uint8_t)(program_len / ENTRY_BYTES - 1); /* "the last one the whole" */
    return deliberation(card, card_len, program, program_len, &whole, 1,
                        (struct parts){beliefs, goals, plan, length, phase, finished}, budget,
                        (struct told){count, ending, remaining, remaining_length});
}

/* ---- save and restore ---- */

/* "Bytes 33 50 hex; edition 1 at 2; plan length L at 4; plan offset 44 at 6; phase at 8", the
 * finished count "in bytes 10 and 11", "beliefs at 12; goals at 28; the plan's L bytes at 44"; in
 * edition 2 goals at 44 and the plan at 76. "A place is saved in its card's edition." */
uint16_t engine_save(const uint8_t *card, size_t card_len, const uint8_t *beliefs,
                     const uint8_t *goals, const uint8_t *plan, uint16_t length, uint8_t phase,
                     uint16_t finished, uint8_t *place, size_t place_len, uint16_t *count)
{
    struct card c;
    *count = 0;
    uint16_t answer = check(card, card_len, &c);
    if (answer != DONE)
        return answer;
    if (!known_configuration(&c, beliefs, goals, plan, length, phase))
        return CONFIGURATION;
    if (place_len < (size_t)c.place_bytes + length)
        return NO_ROOM;
    place[0] = 0x33;
    place[1] = 0x50;
    put_number(place + 2, c.edition);
    put_number(place + 4, length);
    put_number(place + 6, c.place_bytes);
    put_number(place + 8, phase);
    put_number(place + 10, finished);
    memcpy(place + SETS_OF_PLACE, beliefs, c.set_bytes);
    memcpy(place + SETS_OF_PLACE + c.set_bytes, goals, c.set_bytes);
    memcpy(place + c.place_bytes, plan, length);
    *count = (uint16_t)(c.place_bytes + length);
    return DONE;
}

/* The beliefs and the goals of a place. */
static inline struct set beliefs_of(const struct card *c, const uint8_t *place)
{
    return read_set(place + SETS_OF_PLACE, c->set_bytes);
}

static inline struct set goals_of(const struct card *c, const uint8_t *place)
{
    return read_set(place + SETS_OF_PLACE + c->set_bytes, c->set_bytes);
}

/* A place against a card: rows 1, 2, 1 again, 3, 4, 8, 9. "A place whose edition isn't its card's
 * is met with refusal 2." */
static uint16_t check_place(const struct card *c, const uint8_t *place, size_t place_len)
{
    if (place_len < LEAST_FILE_BYTES)
        return SHORT;
    if (place[0] != 0x33 || place[1] != 0x50 || number(place + 2) != c->edition)
        return MARK;
    if (place_len < c->place_bytes)
        return SHORT;
    unsigned length = number(place + 4);
    if (length > LONGEST_PLAN || number(place + 8) > 2)
        return COUNT;
    if (number(place + 6) != c->place_bytes || place_len != c->place_bytes + length)
        return OFFSETS;
    if (!known_actions(c, place + c->place_bytes, length))
        return ACTION_BYTE;
    if (!known_set(c, beliefs_of(c, place)) || !known_set(c, goals_of(c, place)))
        return ATOM;
    return DONE;
}

uint16_t engine_restore(const uint8_t *card, size_t card_len, const uint8_t *place,
                        size_t place_len, uint8_t *beliefs, uint8_t *goals, uint8_t *plan,
                        uint16_t *length, uint8_t *phase, uint16_t *finished)
{
    struct card c;
    struct parts d = {beliefs, goals, plan, length, phase, finished};
    uint16_t answer = check(card, card_len, &c);
    if (answer == DONE)
        answer = check_place(&c, place, place_len);
    if (answer != DONE)
        empty(d);
    else
        fill(d, beliefs_of(&c, place), goals_of(&c, place), place + c.place_bytes,
             number(place + 4), number(place + 8), number(place + 10));
    return answer;
}
