/*
 * rigtemple_deliberate and rigtemple_go_on of include/rigtemple.h by hand, on the stripe card: the
 * programs of the two sheds move by move, each kind of entry and each ending, programs whose parts
 * are shared, the refusals in their order, which numbers are gone on with and which are refused,
 * and a deliberation that is cut anywhere and gone on with from a place.
 */
#include <stdio.h>
#include <string.h>

#include "cards.h"
#include "programs.h"

#include "../include/rigtemple.h"

enum { LENT = 0xEE };

static unsigned passed, failed;

/* Counts one check; says which one failed. */
static void expect(int holds, const char *what)
{
    if (holds) {
        passed++;
    } else {
        failed++;
        printf("failed: %s\n", what);
    }
}

static struct card_bytes card;

/* Its atoms, as bits of a set's first byte, its actions, and the node "broken". */
enum { THREADED = 1 << 0, BOBBIN = 1 << 1, BAND = 1 << 2, BROKEN = 1 << 3 };
enum { WEAVE, WIND, REPAIR, PICK, STRIPE };
enum { IS_BROKEN = 2 };

enum {
    SPENT = RIGTEMPLE_DELIBERATION_SPENT,
    FINISHED = RIGTEMPLE_DELIBERATION_FINISHED,
    STUCK = RIGTEMPLE_DELIBERATION_STUCK,
    FULL = RIGTEMPLE_DELIBERATION_FULL
};

/* ---- configurations ---- */

/* A configuration of the card: its sets, a plan of few actions, phase and finished count. */
struct standing {
    uint8_t beliefs, goals, plan[4], length, phase;
    uint16_t finished;
};

static struct rigtemple_configuration configuration(const struct standing *s)
{
    struct rigtemple_configuration c = {.beliefs = {s->beliefs}, .goals = {s->goals}};
    memcpy(c.plan, s->plan, s->length);
    c.length = s->length;
    c.phase = s->phase;
    c.finished = s->finished;
    return c;
}

/* So many times an action, all believed but the band. */
static struct rigtemple_configuration repeated(uint8_t action, unsigned times)
{
    struct rigtemple_configuration c = {.beliefs = {THREADED | BOBBIN | BROKEN}};
    memset(c.plan, action, times);
    c.length = (uint16_t)times;
    return c;
}

/* Whether two configurations are the same; the struct's padding does not count. */
static int same(const struct rigtemple_configuration *one,
                const struct rigtemple_configuration *other)
{
    return memcmp(one->beliefs, other->beliefs, sizeof one->beliefs) == 0 &&
           memcmp(one->goals, other->goals, sizeof one->goals) == 0 &&
           memcmp(one->plan, other->plan, sizeof one->plan) == 0 && one->length == other->length &&
           one->phase == other->phase && one->finished == other->finished;
}

/* ---- deliberations ---- */

/* What the call leaves beside the configuration. */
struct left {
    uint16_t answer, moves;
    uint8_t ending, remaining[RIGTEMPLE_MOST_REMAINING], count;
};

/* Makes the call on a card, with all that is lent filled before. */
static struct left deliberate_on(const struct card_bytes *of, const struct program_bytes *program,
                                 struct rigtemple_configuration *c, uint16_t budget)
{
    struct left l;
    memset(&l, LENT, sizeof l);
    l.answer = rigtemple_deliberate(of->bytes, of->len, program->bytes, program->len, c, budget,
                                    &l.moves, &l.ending, l.remaining, &l.count);
    return l;
}

static struct left deliberate(const struct program_bytes *program,
                              struct rigtemple_configuration *c, uint16_t budget)
{
    return deliberate_on(&card, program, c, budget);
}

/* Entry numbers to go on from, with room for more than there may be. */
struct numbers {
    uint8_t bytes[4 * RIGTEMPLE_MOST_REMAINING];
    size_t count;
};

/* The same from numbers, which are not written. */
static struct left go_on_on(const struct card_bytes *of, const struct program_bytes *program,
                            const struct numbers *given, struct rigtemple_configuration *c,
                            uint16_t budget)
{
    struct left l;
    struct numbers before = *given;
    memset(&l, LENT, sizeof l);
    l.answer = rigtemple_go_on(of->bytes, of->len, program->bytes, program->len, given->bytes,
                               given->count, c, budget, &l.moves, &l.ending, l.remaining,
                               &l.count);
    if (memcmp(before.bytes, given->bytes, sizeof before.bytes) != 0)
        expect(0, "numbers are only read");
    return l;
}

static struct left go_on(const struct program_bytes *program, const struct numbers *given,
                         struct rigtemple_configuration *c, uint16_t budget)
{
    return go_on_on(&card, program, given, c, budget);
}

/* The numbers that a call left, to go on from. */
static struct numbers numbers_of(const struct left *l)
{
    struct numbers n = {.count = l->count};
    memcpy(n.bytes, l->remaining, sizeof l->remaining);
    return n;
}

/* Whether the call is done with so many moves and that ending, and just these numbers remain: all
 * bytes behind them are 0. */
static int comes_to(const struct left *l, unsigned moves, unsigned ending, const uint8_t *numbers,
                    unsigned count)
{
    static const uint8_t zeros[RIGTEMPLE_MOST_REMAINING];
    return l->answer == RIGTEMPLE_ANSWER_DONE && l->moves == moves && l->ending == ending &&
           l->count == count && memcmp(l->remaining, numbers, count) == 0 &&
           memcmp(l->remaining + count, zeros, sizeof zeros - count) == 0;
}

/* The same for the numbers from `first` up to `last`. */
static int leaves_from(const struct left *l, unsigned moves, unsigned ending, unsigned first,
                       unsigned last)
{
    uint8_t numbers[RIGTEMPLE_MOST_REMAINING];
    for (unsigned n = first; n <= last; n++)
        numbers[n - first] = (uint8_t)n;
    return comes_to(l, moves, ending, numbers, last + 1 - first);
}

/* The same for no number. */
static int leaves_none(const struct left *l, unsigned moves, unsigned ending)
{
    return comes_to(l, moves, ending, l->remaining, 0);
}

/* ---- the two sheds ---- */

/* The configuration after some moves of the guide's own. */
static struct rigtemple_configuration after_run(uint16_t budget)
{
    struct rigtemple_configuration c;
    uint16_t moves;
    uint8_t ending;
    expect(rigtemple_load(card.bytes, card.len, &c) == RIGTEMPLE_ANSWER_DONE &&
               rigtemple_run(card.bytes, card.len, &c, budget, &moves, &ending) ==
                   RIGTEMPLE_ANSWER_DONE &&
               moves == budget,
           "the card runs");
    return c;
}

/* Both go through the six steps of document 01, and before each but the first there is an idle
 * move, and one at the end. With an even number of moves the loop's body is next. */
static void test_shed(void (*shed)(struct program_bytes *, unsigned), uint16_t budget)
{
    static const uint8_t body_and_loop[] = {6, 7};
    struct program_bytes program;
    uint16_t moves = budget < 12 ? budget : 12;
    struct rigtemple_configuration c = after_run(0);
    struct rigtemple_configuration wanted = after_run((uint16_t)((moves + 1) / 2));
    shed(&program, 3);
    struct left l = deliberate(&program, &c, budget);
    if (budget == 0)
        expect(leaves_from(&l, 0, SPENT, 9, 9), "no move is made: the whole remains");
    else if (budget >= 12)
        expect(leaves_none(&l, 12, budget == 12 ? SPENT : FINISHED), "nothing remains after 12");
    else if (budget % 2 == 1)
        expect(leaves_from(&l, moves, SPENT, 7, 7), "the loop remains after a move of the card");
    else
        expect(comes_to(&l, moves, SPENT, body_and_loop, 2), "after an idle move its body, too");
    expect(same(&c, &wanted), "idle moves leave the configuration as it is");
}

/* The stripe card's text with a line more: a pick can be woven as it is, with a broken thread, too.
 * There the two sheds part. */
static void test_sheds_part(void)
{
    static const char line[] = "do 3 if B1 add 2 del 1\n";
    struct program_bytes program;
    struct card_bytes other;
    struct rigtemple_configuration c;
    uint8_t text[512];
    uint16_t bytes;
    size_t place, at = 0, added = strlen(line), whole = strlen(stripe_text);
    while (memcmp(stripe_text + at, "select", 6) != 0)
        at++;
    memcpy(text, stripe_text, at);
    memcpy(text + at, line, added);
    memcpy(text + at + added, stripe_text + at, whole - at);
    expect(rigtemple_text(text, whole + added, other.bytes, sizeof other.bytes, &bytes, &place) ==
               RIGTEMPLE_ANSWER_DONE,
           "the text is read");
    other.len = bytes;
    teaching_program(&program, 3);
    expect(rigtemple_load(other.bytes, other.len, &c) == RIGTEMPLE_ANSWER_DONE, "the card loads");
    struct left l = deliberate_on(&other, &program, &c, 1000);
    expect(leaves_none(&l, 12, FINISHED) && c.beliefs[0] == (THREADED | BAND) && c.finished == 1,
           "the teaching shed repairs the thread");
    fast_program(&program, 3);
    expect(rigtemple_load(other.bytes, other.len, &c) == RIGTEMPLE_ANSWER_DONE, "the card loads");
    l = deliberate_on(&other, &program, &c, 1000);
    expect(leaves_none(&l, 8, FINISHED) && c.beliefs[0] == (THREADED | BAND | BROKEN) &&
               c.finished == 1,
           "the fast shed weaves on");
}

/* ---- each kind of entry, and each ending ---- */

#define EXECUTE {RIGTEMPLE_ENTRY_EXECUTE, 0, 0}
#define APPLY(rule) {RIGTEMPLE_ENTRY_APPLY, rule, 0}
#define SELECT(rule) {RIGTEMPLE_ENTRY_SELECT, rule, 0}
#define WHILE_PLAN(body) {RIGTEMPLE_ENTRY_WHILE_PLAN, 0, body}
#define WHILE_BELIEF(node, body) {RIGTEMPLE_ENTRY_WHILE_BELIEF, node, body}
#define THEN(first, second) {RIGTEMPLE_ENTRY_THEN, first, second}
#define OR(first, second) {RIGTEMPLE_ENTRY_OR, first, second}
#define NO_PLAN {0}, 0

/* A program of few entries, the configuration and the budget; what it comes to. */
static const struct by_hand {
    const char *what;
    uint8_t entries[5][3], entry_count;
    struct standing before;
    uint16_t budget;
    struct standing after;
    uint16_t moves;
    uint8_t ending, numbers[4], number_count;
} by_hand[] = {
    {"execute: the last action", {EXECUTE}, 1, {0, 0, {WIND}, 1, 1, 7}, 9,
     {BOBBIN, 0, NO_PLAN, 2, 8}, 1, FINISHED, {0}, 0},
    {"execute: another behind it", {EXECUTE}, 1, {0, 0, {WIND, WEAVE}, 2, 0, 7}, 9,
     {BOBBIN, 0, {WEAVE}, 1, 2, 7}, 1, FINISHED, {0}, 0},
    {"execute: the count is at its most", {EXECUTE}, 1, {0, 0, {WIND}, 1, 0, 65535}, 1,
     {BOBBIN, 0, NO_PLAN, 2, 65535}, 1, SPENT, {0}, 0},
    {"execute: no specification", {EXECUTE}, 1, {0, 0, {STRIPE}, 1, 1, 7}, 9,
     {0, 0, {STRIPE}, 1, 1, 7}, 0, STUCK, {0}, 1},
    {"execute: the condition is false", {EXECUTE}, 1, {0, 0, {WEAVE}, 1, 1, 7}, 9,
     {0, 0, {WEAVE}, 1, 1, 7}, 0, STUCK, {0}, 1},
    {"execute: no plan", {EXECUTE}, 1, {0, 0, NO_PLAN, 1, 7}, 9,
     {0, 0, NO_PLAN, 1, 7}, 0, STUCK, {0}, 1},
    {"execute: a believed goal falls", {EXECUTE}, 1, {BOBBIN, BAND | BOBBIN, {WEAVE}, 1, 0, 0}, 9,
     {BAND, BOBBIN, NO_PLAN, 2, 1}, 1, FINISHED, {0}, 0},
    {"apply", {APPLY(0)}, 1, {0, 0, {STRIPE, WIND}, 2, 2, 7}, 9,
     {0, 0, {WIND, PICK, WIND}, 3, 0, 7}, 1, FINISHED, {0}, 0},
    {"apply: another head", {APPLY(0)}, 1, {0, 0, {PICK, STRIPE}, 2, 2, 7}, 9,
     {0, 0, {PICK, STRIPE}, 2, 2, 7}, 0, STUCK, {0}, 1},
    {"apply: the condition is false", {APPLY(1)}, 1, {0, 0, {PICK}, 1, 2, 7}, 9,
     {0, 0, {PICK}, 1, 2, 7}, 0, STUCK, {0}, 1},
    {"select", {SELECT(0)}, 1, {0, BAND, NO_PLAN, 2, 7}, 9,
     {0, BAND, {STRIPE}, 1, 1, 7}, 1, FINISHED, {0}, 0},
    {"select: no goal", {SELECT(0)}, 1, {0, 0, NO_PLAN, 2, 7}, 9,
     {0, 0, NO_PLAN, 2, 7}, 0, STUCK, {0}, 1},
    {"select: a plan", {SELECT(0)}, 1, {0, BAND, {WIND}, 1, 2, 7}, 9,
     {0, BAND, {WIND}, 1, 2, 7}, 0, STUCK, {0}, 1},
    {"the last entry is the whole", {SELECT(0), APPLY(1), EXECUTE}, 3,
     {0, BAND, {WIND}, 1, 0, 0}, 9, {BOBBIN, BAND, NO_PLAN, 2, 1}, 1, FINISHED, {0}, 0},
    {"while: it fails, which is a move", {EXECUTE, WHILE_PLAN(0)}, 2, {0, 0, NO_PLAN, 2, 65535}, 9,
     {0, 0, NO_PLAN, 2, 65535}, 1, FINISHED, {0}, 0},
    {"while: it is kept behind its body", {EXECUTE, WHILE_PLAN(0)}, 2, {0, 0, {WIND}, 1, 1, 7}, 1,
     {0, 0, {WIND}, 1, 1, 7}, 1, SPENT, {0, 1}, 2},
    {"while: it remains", {EXECUTE, WHILE_PLAN(0)}, 2, {0, 0, {WIND}, 1, 1, 7}, 2,
     {BOBBIN, 0, NO_PLAN, 2, 8}, 2, SPENT, {1}, 1},
    {"while: two actions", {EXECUTE, WHILE_PLAN(0)}, 2, {BROKEN, 0, {WIND, REPAIR}, 2, 1, 7}, 99,
     {BOBBIN, 0, NO_PLAN, 2, 8}, 5, FINISHED, {0}, 0},
    {"while: its body is stuck", {EXECUTE, WHILE_PLAN(0)}, 2, {0, 0, {STRIPE}, 1, 1, 7}, 99,
     {0, 0, {STRIPE}, 1, 1, 7}, 1, STUCK, {0, 1}, 2},
    {"while broken: one repair", {EXECUTE, WHILE_BELIEF(IS_BROKEN, 0)}, 2,
     {BROKEN, 0, {REPAIR, REPAIR}, 2, 0, 7}, 99, {0, 0, {REPAIR}, 1, 2, 7}, 3, FINISHED, {0}, 0},
    {"while broken: not broken", {EXECUTE, WHILE_BELIEF(IS_BROKEN, 0)}, 2,
     {0, 0, {REPAIR}, 1, 0, 7}, 99, {0, 0, {REPAIR}, 1, 0, 7}, 1, FINISHED, {0}, 0},
    {"while broken: nothing to repair", {EXECUTE, WHILE_BELIEF(IS_BROKEN, 0)}, 2,
     {BROKEN, 0, NO_PLAN, 1, 7}, 99, {BROKEN, 0, NO_PLAN, 1, 7}, 1, STUCK, {0, 1}, 2},
    {"while true: idle moves to the end of the budget",
     {EXECUTE, WHILE_PLAN(0), WHILE_BELIEF(0, 1)}, 3, {0, 0, NO_PLAN, 1, 7}, 65535,
     {0, 0, NO_PLAN, 1, 7}, 65535, SPENT, {1, 2}, 2},
    {"then: one number before the first move", {SELECT(0), APPLY(0), THEN(0, 1)}, 3,
     {0, BAND, NO_PLAN, 0, 7}, 0, {0, BAND, NO_PLAN, 0, 7}, 0, SPENT, {2}, 1},
    {"then: the right", {SELECT(0), APPLY(0), THEN(0, 1)}, 3, {0, BAND, NO_PLAN, 0, 7}, 1,
     {0, BAND, {STRIPE}, 1, 1, 7}, 1, SPENT, {1}, 1},
    {"then: both", {SELECT(0), APPLY(0), THEN(0, 1)}, 3, {0, BAND, NO_PLAN, 0, 7}, 9,
     {0, BAND, {WIND, PICK}, 2, 0, 7}, 2, FINISHED, {0}, 0},
    {"then: the left is stuck, and not passed", {APPLY(0), SELECT(0), THEN(0, 1)}, 3,
     {0, BAND, NO_PLAN, 0, 7}, 9, {0, BAND, NO_PLAN, 0, 7}, 0, STUCK, {2}, 1},
    {"then: a while that fails on its left", {EXECUTE, WHILE_PLAN(0), SELECT(0), THEN(1, 2)}, 4,
     {0, BAND, NO_PLAN, 0, 7}, 1, {0, BAND, NO_PLAN, 0, 7}, 1, SPENT, {2}, 1},
    {"then: a while that holds on its left", {EXECUTE, WHILE_PLAN(0), SELECT(0), THEN(1, 2)}, 4,
     {0, BAND, {WIND}, 1, 0, 7}, 1, {0, BAND, {WIND}, 1, 0, 7}, 1, SPENT, {0, 1, 2}, 3},
    {"or: the left", {SELECT(0), EXECUTE, OR(0, 1)}, 3, {0, BAND, NO_PLAN, 0, 7}, 9,
     {0, BAND, {STRIPE}, 1, 1, 7}, 1, FINISHED, {0}, 0},
    {"or: the right", {SELECT(0), EXECUTE, OR(1, 0)}, 3, {0, BAND, NO_PLAN, 0, 7}, 9,
     {0, BAND, {STRIPE}, 1, 1, 7}, 1, FINISHED, {0}, 0},
    {"or: neither", {SELECT(0), EXECUTE, OR(0, 1)}, 3, {0, 0, NO_PLAN, 0, 7}, 9,
     {0, 0, NO_PLAN, 0, 7}, 0, STUCK, {2}, 1},
    {"or: an idle left", {EXECUTE, WHILE_PLAN(0), SELECT(0), OR(1, 2)}, 4,
     {0, BAND, NO_PLAN, 0, 7}, 9, {0, BAND, NO_PLAN, 0, 7}, 1, FINISHED, {0}, 0},
    {"or: an idle left whose body is stuck", {APPLY(1), WHILE_PLAN(0), EXECUTE, OR(1, 2)}, 4,
     {0, 0, {WIND}, 1, 0, 7}, 9, {0, 0, {WIND}, 1, 0, 7}, 1, STUCK, {0, 1}, 2},
    {"or: a left that is stuck after its first move", {SELECT(0), EXECUTE, THEN(0, 1), OR(2, 0)}, 4,
     {0, BAND, NO_PLAN, 0, 7}, 9, {0, BAND, {STRIPE}, 1, 1, 7}, 1, STUCK, {1}, 1},
};

static void set_program(struct program_bytes *program, const uint8_t entries[][3], unsigned count)
{
    program->len = 0;
    for (unsigned i = 0; i < count; i++)
        put_entry(program, entries[i][0], entries[i][1], entries[i][2]);
}

static void test_by_hand(const struct by_hand *one)
{
    struct program_bytes program;
    struct rigtemple_configuration c = configuration(&one->before);
    struct rigtemple_configuration wanted = configuration(&one->after);
    set_program(&program, one->entries, one->entry_count);
    struct left l = deliberate(&program, &c, one->budget);
    expect(comes_to(&l, one->moves, one->ending, one->numbers, one->number_count) &&
               same(&c, &wanted),
           one->what);
}

/* Winding has three specifications, of which only the first is not enabled. */
static void test_lowest(void)
{
    static const uint8_t execute[][3] = {EXECUTE};
    struct card_bytes three = card;
    struct program_bytes program;
    struct rigtemple_configuration c = configuration(&(struct standing){0, 0, {WIND}, 1, 0, 0});
    for (unsigned i = 0; i < 3; i++)
        put_specification(&three, i, WIND, i == 0 ? IS_BROKEN : 0);
    set_program(&program, execute, 1);
    struct left l = deliberate_on(&three, &program, &c, 9);
    expect(leaves_none(&l, 1, FINISHED) && c.beliefs[0] == BOBBIN,
           "execute takes the lowest enabled specification");
}

/* ---- a plan that would get too long ---- */

/* Revision 1 makes a plan of picks one longer; revision 2 does not, and needs a whole thread. */
static const uint8_t longer[][3] = {APPLY(1), WHILE_PLAN(0), OR(0, 1), OR(1, 0), THEN(0, 0)};

static void test_full(void)
{
    struct program_bytes program;
    struct rigtemple_configuration c = repeated(PICK, 1024), before;
    static const uint8_t body_and_loop[] = {0, 1};
    c.phase = 1;
    c.finished = 9;
    before = c;
    set_program(&program, longer, 1);
    struct left l = deliberate(&program, &c, 9);
    expect(leaves_from(&l, 0, FULL, 0, 0) && same(&c, &before), "apply: too long");
    l = deliberate(&program, &c, 0);
    expect(leaves_from(&l, 0, SPENT, 0, 0) && same(&c, &before), "the budget is looked at first");
    set_program(&program, longer, 3);
    l = deliberate(&program, &c, 9);
    expect(leaves_from(&l, 0, FULL, 2, 2) && same(&c, &before), "or: its left does not fit");
    set_program(&program, longer, 4);
    l = deliberate(&program, &c, 9);
    expect(comes_to(&l, 1, FULL, body_and_loop, 2) && same(&c, &before), "or: its left is idle");
    set_program(&program, longer, 5);
    l = deliberate(&program, &c, 9);
    expect(leaves_from(&l, 0, FULL, 4, 4) && same(&c, &before), "then: its left does not fit");
    c = repeated(PICK, 1023);
    l = deliberate(&program, &c, 9);
    expect(leaves_from(&l, 1, STUCK, 0, 0) && c.length == 1024 && c.plan[0] == REPAIR &&
               c.plan[1] == WEAVE && c.plan[1023] == PICK,
           "then: the left fits just so, and the right has another head");
}

/* ---- programs whose parts are shared ---- */

static void test_choices(void)
{
    struct program_bytes program;
    struct rigtemple_configuration c = repeated(WIND, 2);
    tower_program(&program, RIGTEMPLE_ENTRY_OR);
    struct left l = deliberate(&program, &c, 2);
    expect(program.len == RIGTEMPLE_MOST_PROGRAM_BYTES && leaves_none(&l, 1, FINISHED) &&
               c.length == 1,
           "2^127 choices: one move");
    c = repeated(WIND, 0);
    l = deliberate(&program, &c, 2);
    expect(leaves_from(&l, 0, STUCK, 127, 127), "2^127 choices: stuck");
}

static void test_sequences(void)
{
    struct program_bytes program;
    struct rigtemple_configuration c = repeated(WIND, 10);
    tower_program(&program, RIGTEMPLE_ENTRY_THEN);
    struct left l = deliberate(&program, &c, 0);
    expect(leaves_from(&l, 0, SPENT, 127, 127), "2^127 actions: one number");
    l = deliberate(&program, &c, 1);
    expect(leaves_from(&l, 1, SPENT, 0, 126) && c.length == 9, "2^127 actions: one is done");
    c = repeated(WIND, 1024);
    l = deliberate(&program, &c, 1024);
    expect(leaves_from(&l, 1024, SPENT, 10, 126) && c.length == 0, "2^127 actions: 2^10 are done");
    c = repeated(WIND, 1024);
    l = deliberate(&program, &c, 1025);
    expect(leaves_from(&l, 1024, STUCK, 10, 126), "2^127 actions: no plan for more");
}

static void test_whiles(void)
{
    struct program_bytes program;
    struct rigtemple_configuration c = repeated(WIND, 1);
    tower_program(&program, RIGTEMPLE_ENTRY_WHILE_PLAN);
    struct left l = deliberate(&program, &c, 127);
    expect(leaves_from(&l, 127, SPENT, 0, 127) && c.length == 1, "128 numbers remain");
    c = repeated(WIND, 1);
    l = deliberate(&program, &c, 65535);
    expect(leaves_none(&l, 255, FINISHED) && c.length == 0 && c.finished == 1,
           "127 loops, each left once the plan is empty");
}

/* ---- refusals ---- */

/* Programs that break a rule for the stripe card: 6 nodes, of which 5 is on a goal, one selection
 * and three revisions. Entry 0 is "execute" where there are two. */
static const struct refused {
    const char *what;
    uint8_t bytes[8];
    size_t len;
} refused[] = {
    {"no bytes", {0}, 0},
    {"a byte", {0}, 1},
    {"three bytes", {0}, 3},
    {"a byte more than an entry", {0}, 5},
    {"a kind that there is not", {7, 0, 0, 0}, 4},
    {"the last kind", {255, 0, 0, 0}, 4},
    {"a fourth byte", {0, 0, 0, 1}, 4},
    {"execute: a", {0, 1, 0, 0}, 4},
    {"execute: b", {0, 0, 1, 0}, 4},
    {"apply: no such revision", {1, 3, 0, 0}, 4},
    {"apply: b", {1, 0, 1, 0}, 4},
    {"select: no such selection", {2, 1, 0, 0}, 4},
    {"select: b", {2, 0, 1, 0}, 4},
    {"while the plan is not empty: a", {0, 0, 0, 0, 3, 1, 0, 0}, 8},
    {"while the plan is not empty: itself", {0, 0, 0, 0, 3, 0, 1, 0}, 8},
    {"while a condition holds: no such node", {0, 0, 0, 0, 4, 6, 0, 0}, 8},
    {"while a condition holds: on a goal", {0, 0, 0, 0, 4, 5, 0, 0}, 8},
    {"while a condition holds: itself", {0, 0, 0, 0, 4, 0, 1, 0}, 8},
    {"then: the left not lower", {0, 0, 0, 0, 5, 1, 0, 0}, 8},
    {"then: the right not lower", {0, 0, 0, 0, 5, 0, 1, 0}, 8},
    {"or: the left not lower", {0, 0, 0, 0, 6, 1, 0, 0}, 8},
    {"or: the right not lower", {0, 0, 0, 0, 6, 0, 255, 0}, 8},
    {"an entry that is not used", {1, 3, 0, 0, 0, 0, 0, 0}, 8},
};

/* The same with all that they name there. */
static const uint8_t kept[][3] = {APPLY(2), SELECT(0), WHILE_PLAN(1), WHILE_BELIEF(4, 2), OR(3, 0)};

/* Whether a call is refused with that answer: count 0, spent, none remains, and of the numbers lent
 * no byte is written. */
static int is_refused(const struct left *l, uint16_t answer)
{
    int lent = 1;
    for (unsigned i = 0; i < RIGTEMPLE_MOST_REMAINING; i++)
        lent &= l->remaining[i] == LENT;
    return l->answer == answer && l->moves == 0 && l->ending == SPENT && l->count == 0 && lent;
}

/* Whether a program is refused on a card with that answer, by both calls, with the configuration as
 * it came in. */
static int refuses(const struct card_bytes *of, const struct program_bytes *program,
                   const struct rigtemple_configuration *c, uint16_t answer)
{
    static const struct numbers none;
    struct rigtemple_configuration given = *c;
    struct left l = deliberate_on(of, program, &given, 9);
    struct left gone_on = go_on_on(of, program, &none, &given, 9);
    return is_refused(&l, answer) && is_refused(&gone_on, answer) && same(&given, c);
}

static void test_refused_programs(void)
{
    struct program_bytes program;
    struct rigtemple_configuration c = after_run(4);
    for (unsigned i = 0; i < sizeof refused / sizeof refused[0]; i++) {
        memcpy(program.bytes, refused[i].bytes, sizeof refused[i].bytes);
        program.len = refused[i].len;
        expect(refuses(&card, &program, &c, RIGTEMPLE_ANSWER_PROGRAM), refused[i].what);
    }
    tower_program(&program, RIGTEMPLE_ENTRY_OR);
    put_entry(&program, RIGTEMPLE_ENTRY_EXECUTE, 0, 0);
    expect(refuses(&card, &program, &c, RIGTEMPLE_ANSWER_PROGRAM), "129 entries");
    program.len -= 1;
    expect(refuses(&card, &program, &c, RIGTEMPLE_ANSWER_PROGRAM), "128 entries and 3 bytes");
    set_program(&program, kept, 5);
    struct left l = deliberate(&program, &c, 0);
    expect(leaves_from(&l, 0, SPENT, 4, 4), "the last rules and the last belief condition");
}

/* A card, a program and a configuration that would each be refused: the card comes first, then the
 * program. */
static void test_order(void)
{
    struct card_bytes bad = card;
    struct program_bytes good, wrong;
    struct rigtemple_configuration c = after_run(4), wild = c;
    teaching_program(&good, 3);
    teaching_program(&wrong, 4);
    wild.phase = 3;
    expect(refuses(&card, &good, &wild, RIGTEMPLE_ANSWER_CONFIGURATION), "13 alone");
    expect(refuses(&card, &wrong, &wild, RIGTEMPLE_ANSWER_PROGRAM), "19 before 13");
    bad.bytes[48] = 1 << 4; /* the goals have an atom that there is not */
    expect(refuses(&bad, &wrong, &wild, RIGTEMPLE_ANSWER_ATOM), "9 before 19");
    put_node(&bad, 0, NODE_NOT, 0, 0);
    expect(refuses(&bad, &wrong, &wild, RIGTEMPLE_ANSWER_NODE), "6 before 9");
    expect(refuses(&bad, &good, &c, RIGTEMPLE_ANSWER_NODE), "6 alone");
    bad.len = 63;
    expect(refuses(&bad, &wrong, &wild, RIGTEMPLE_ANSWER_SHORT), "1 before all");
}

/* ---- numbers ---- */

/* Whether numbers are accepted of a program: with budget 0 they remain as they are. */
static int accepts(const struct program_bytes *program, const struct numbers *given)
{
    struct rigtemple_configuration c = after_run(4), before = c;
    struct left l = go_on(program, given, &c, 0);
    return comes_to(&l, 0, SPENT, given->bytes, (unsigned)given->count) && same(&c, &before);
}

static int refuses_numbers(const struct program_bytes *program, const struct numbers *given)
{
    struct rigtemple_configuration c = after_run(4), before = c;
    struct left l = go_on(program, given, &c, 9);
    return is_refused(&l, RIGTEMPLE_ANSWER_PROGRAM) && same(&c, &before);
}

/* The greatest that are accepted, so many of them, of a program of so many entries: the last is the
 * last entry's number, and each before it one less. */
static struct numbers greatest(unsigned count, unsigned entries)
{
    struct numbers n = {.count = count};
    for (unsigned i = 0; i < count; i++)
        n.bytes[i] = (uint8_t)(entries - count + i);
    return n;
}

/* Numbers of each length: the greatest and the least are accepted, and each of the greatest by one
 * more is refused; so is a number more than there are entries. */
static void test_numbers(unsigned entries)
{
    struct program_bytes program = {.len = 0};
    struct numbers n;
    for (unsigned i = 0; i < entries; i++)
        put_entry(&program, RIGTEMPLE_ENTRY_EXECUTE, 0, 0);
    for (unsigned count = 0; count <= entries; count++) {
        n = greatest(count, entries);
        expect(accepts(&program, &n), "the greatest numbers are accepted");
        for (unsigned i = 0; i < count; i++) {
            n.bytes[i]++;
            expect(refuses_numbers(&program, &n), "one more is refused");
            n.bytes[i]--;
        }
        n = (struct numbers){.count = count};
        expect(accepts(&program, &n), "zeros are accepted");
    }
    for (n = (struct numbers){.count = entries + 1}; n.count <= sizeof n.bytes; n.count++)
        expect(refuses_numbers(&program, &n), "more numbers than entries are refused");
    n = (struct numbers){.bytes = {255}, .count = 1};
    expect(refuses_numbers(&program, &n), "the number 255");
}

/* Numbers of any length are refused, and not gone through. */
static void test_many_numbers(void)
{
    static uint8_t many[1 << 20];
    struct program_bytes program;
    struct rigtemple_configuration c = after_run(4), before = c;
    struct left l;
    teaching_program(&program, 3);
    for (size_t count = 256; count <= sizeof many; count *= 2) {
        memset(&l, LENT, sizeof l);
        l.answer = rigtemple_go_on(card.bytes, card.len, program.bytes, program.len, many, count,
                                   &c, 9, &l.moves, &l.ending, l.remaining, &l.count);
        expect(is_refused(&l, RIGTEMPLE_ANSWER_PROGRAM) && same(&c, &before), "many numbers");
    }
}

/* Numbers that are refused come behind the card and before the configuration. */
static void test_numbers_order(void)
{
    static const struct numbers ten = {.bytes = {10}, .count = 1};
    static const struct numbers nine = {.bytes = {9}, .count = 1};
    struct card_bytes bad = card;
    struct program_bytes program;
    struct rigtemple_configuration c = after_run(4), wild = c, before = c;
    teaching_program(&program, 3); /* ten entries */
    wild.phase = 3;
    bad.bytes[48] = 1 << 4; /* the goals have an atom that there is not */
    struct left l = go_on(&program, &ten, &wild, 9);
    expect(is_refused(&l, RIGTEMPLE_ANSWER_PROGRAM), "19 for numbers before 13");
    l = go_on(&program, &nine, &wild, 9);
    expect(is_refused(&l, RIGTEMPLE_ANSWER_CONFIGURATION), "13 with numbers that are accepted");
    l = go_on_on(&bad, &program, &ten, &c, 9);
    expect(is_refused(&l, RIGTEMPLE_ANSWER_ATOM) && same(&c, &before), "9 before 19 for numbers");
}

/* No numbers: finished, or spent where there is no budget. The next number is the first. */
static void test_given_numbers(void)
{
    static const uint8_t entries[][3] = {SELECT(0), APPLY(0), EXECUTE, WHILE_PLAN(2)};
    static const struct numbers none, in_order = {.bytes = {0, 1, 2}, .count = 3};
    static const struct numbers other_order = {.bytes = {1, 0}, .count = 2};
    static const uint8_t rest[] = {1, 2};
    struct program_bytes program;
    struct rigtemple_configuration c = configuration(&(struct standing){0, BAND, NO_PLAN, 0, 7}), d;
    struct rigtemple_configuration before = c;
    set_program(&program, entries, 4);
    struct left l = go_on(&program, &none, &c, 0);
    expect(leaves_none(&l, 0, SPENT) && same(&c, &before), "no numbers and no budget: spent");
    l = go_on(&program, &none, &c, 1);
    expect(leaves_none(&l, 0, FINISHED) && same(&c, &before), "no numbers: finished");
    l = go_on(&program, &other_order, &c, 9);
    expect(comes_to(&l, 0, STUCK, other_order.bytes, 2) && same(&c, &before),
           "the first number is the next: here it is stuck");
    d = c;
    l = go_on(&program, &in_order, &d, 1);
    expect(comes_to(&l, 1, SPENT, rest, 2) && d.length == 1 && d.plan[0] == STRIPE,
           "the first number is done, and the others remain");
    l = go_on(&program, &in_order, &c, 9);
    expect(leaves_none(&l, 3, FINISHED) && c.length == 1 && c.plan[0] == PICK &&
               c.beliefs[0] == BOBBIN,
           "all three are done, and the last entry is not");
}

/* ---- cut, and gone on with ---- */

/* The screen is turned: only the place is kept of a configuration. Whether it is saved and
 * restored. */
static int turn(struct rigtemple_configuration *c)
{
    uint8_t place[RIGTEMPLE_MOST_PLACE_BYTES];
    uint16_t bytes;
    if (rigtemple_save(card.bytes, card.len, c, place, sizeof place, &bytes) !=
        RIGTEMPLE_ANSWER_DONE)
        return 0;
    memset(c, LENT, sizeof *c);
    return rigtemple_restore(card.bytes, card.len, place, bytes, c) == RIGTEMPLE_ANSWER_DONE;
}

/* A program is cut after so many moves at most and gone on with: it comes to what it comes to
 * without that. */
static void test_gone_on(const struct program_bytes *program, struct rigtemple_configuration c,
                         uint16_t before, uint16_t budget)
{
    struct rigtemple_configuration straight = c;
    struct left all = deliberate(program, &straight, budget);
    struct left first = deliberate(program, &c, before);
    struct numbers kept = numbers_of(&first);
    expect(turn(&c), "the place is kept");
    struct left second = go_on(program, &kept, &c, (uint16_t)(budget - before));
    expect(comes_to(&second, (unsigned)(all.moves - first.moves), all.ending, all.remaining,
                    all.count) &&
               same(&c, &straight),
           "cut once, it comes to the same");
}

/* A program is cut after each move and gone on with: after each it stands where the same moves
 * without a cut come to. */
static void test_turned(const struct program_bytes *program, struct rigtemple_configuration c,
                        uint16_t budget)
{
    struct rigtemple_configuration start = c;
    struct left one = deliberate(program, &c, 0);
    unsigned moves = 0;
    for (uint16_t made = 1; made <= budget; made++) {
        struct rigtemple_configuration straight = start;
        struct left all = deliberate(program, &straight, made);
        struct numbers kept = numbers_of(&one);
        expect(turn(&c), "the place is kept");
        one = go_on(program, &kept, &c, 1);
        moves += one.moves;
        expect(comes_to(&one, one.moves, all.ending, all.remaining, all.count) &&
                   moves == all.moves && same(&c, &straight),
               "cut after each move, it comes to the same");
    }
}

static void test_turns(void)
{
    static const uint8_t nested[][3] = {EXECUTE, THEN(0, 0), WHILE_PLAN(1), THEN(2, 1), OR(3, 0)};
    struct program_bytes program;
    for (uint16_t before = 0; before < 14; before++) {
        teaching_program(&program, 3);
        test_gone_on(&program, after_run(0), before, 14);
        test_turned(&program, after_run(0), before);
        set_program(&program, nested, 5);
        for (unsigned actions = 0; actions < 9; actions++) {
            test_gone_on(&program, repeated(WIND, actions), before, 14);
            test_turned(&program, repeated(WIND, actions), before);
        }
        set_program(&program, longer, 4);
        test_gone_on(&program, repeated(PICK, 1024), before, 14);
        test_turned(&program, repeated(PICK, 1024), before);
        for (unsigned kind = RIGTEMPLE_ENTRY_WHILE_PLAN; kind <= RIGTEMPLE_ENTRY_OR; kind++) {
            tower_program(&program, kind);
            test_gone_on(&program, repeated(WIND, 70), (uint16_t)(20 * before), 300);
            test_turned(&program, repeated(WIND, 3), (uint16_t)(20 * before));
        }
    }
}

int main(void)
{
    stripe_card(&card);
    for (uint16_t budget = 0; budget < 15; budget++) {
        test_shed(teaching_program, budget);
        test_shed(fast_program, budget);
    }
    test_sheds_part();
    for (unsigned i = 0; i < sizeof by_hand / sizeof by_hand[0]; i++)
        test_by_hand(&by_hand[i]);
    test_lowest();
    test_full();
    test_choices();
    test_sequences();
    test_whiles();
    test_refused_programs();
    test_order();
    test_numbers(1);
    test_numbers(5);
    test_numbers(RIGTEMPLE_MOST_REMAINING);
    test_many_numbers();
    test_numbers_order();
    test_given_numbers();
    test_turns();
    printf("%u passed, %u failed\n", passed, failed);
    return failed != 0;
}
