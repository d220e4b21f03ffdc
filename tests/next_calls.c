/*
 * rigtemple_next of include/rigtemple.h by hand, on the stripe card: which move comes next, in each
 * phase, at rest and where the plan would get too long; that it is what a run of budget 1 does; the
 * refusals; and the rule for an app: what is told is taken and saved, with the screen turned
 * anywhere, and comes to one run.
 */
#include <stdio.h>
#include <string.h>

#include "cards.h"

#include "../include/rigtemple.h"

static unsigned passed, failed;

/* Counts one check; says which one failed. */
static void expect(int holds, const char *what)
{
    if (holds) {
        passed++;
    } else {
        failed++;
        printf("failed: %s\n", what);
    }
}

static struct card_bytes card;

/* Its atoms, as bits of a set's first byte, and its actions. */
enum { THREADED = 1 << 0, BOBBIN = 1 << 1, BAND = 1 << 2, BROKEN = 1 << 3 };
enum { WEAVE, WIND, REPAIR, PICK, STRIPE };

enum { MOVE = RIGTEMPLE_NEXT_MOVE, REST = RIGTEMPLE_NEXT_REST, FULL = RIGTEMPLE_NEXT_FULL };

/* Whether two configurations are the same; the struct's padding does not count. */
static int same(const struct rigtemple_configuration *one,
                const struct rigtemple_configuration *other)
{
    return memcmp(one->beliefs, other->beliefs, sizeof one->beliefs) == 0 &&
           memcmp(one->goals, other->goals, sizeof one->goals) == 0 &&
           memcmp(one->plan, other->plan, sizeof one->plan) == 0 && one->length == other->length &&
           one->phase == other->phase && one->finished == other->finished;
}

/* So many times an action, with some atoms believed, the band wanted, and a phase. */
static struct rigtemple_configuration standing(uint8_t beliefs, uint8_t action, unsigned times,
                                               uint8_t phase)
{
    struct rigtemple_configuration c = {.beliefs = {beliefs}, .goals = {BAND}};
    memset(c.plan, action, times);
    c.length = (uint16_t)times;
    c.phase = phase;
    return c;
}

/* Whether the call answers so; the configuration has to be as it was. */
static int tells(const struct card_bytes *of, const struct rigtemple_configuration *c,
                 uint16_t answer, uint8_t coming, uint16_t choice)
{
    struct rigtemple_configuration before = *c;
    uint8_t told = 0xEE;
    uint16_t code = 0xEEEE;
    return rigtemple_next(of->bytes, of->len, c, &told, &code) == answer && told == coming &&
           code == choice && same(c, &before);
}

/* Whether what is told is what a run of budget 1 does, and what rigtemple_take answers. */
static int as_a_run(const struct card_bytes *of, const struct rigtemple_configuration *c)
{
    struct rigtemple_configuration ran = *c, taken = *c;
    uint8_t coming = 0xEE, ending = 0xEE;
    uint16_t code = 0xEEEE, moves = 9, node = 9;
    if (rigtemple_next(of->bytes, of->len, c, &coming, &code) != RIGTEMPLE_ANSWER_DONE ||
        rigtemple_run(of->bytes, of->len, &ran, 1, &moves, &ending) != RIGTEMPLE_ANSWER_DONE)
        return 0;
    uint16_t answer = rigtemple_take(of->bytes, of->len, &taken, code, &node);
    if (coming == MOVE)
        return answer == RIGTEMPLE_ANSWER_DONE && moves == 1 && same(&taken, &ran);
    if (coming == FULL)
        return answer == RIGTEMPLE_ANSWER_PLAN_FULL && moves == 0 &&
               ending == RIGTEMPLE_ENDING_FULL && same(&ran, c);
    return coming == REST && code == 0 && moves == 0 && ending == RIGTEMPLE_ENDING_REST;
}

/* ---- which move ---- */

/* The six steps of document 01, and rest. */
static void test_steps(void)
{
    static const uint16_t steps[] = {0, 512, 257, 513, 258, 256};
    struct rigtemple_configuration c;
    uint16_t node;
    expect(rigtemple_load(card.bytes, card.len, &c) == RIGTEMPLE_ANSWER_DONE, "the card loads");
    for (unsigned i = 0; i < 6; i++) {
        expect(tells(&card, &c, RIGTEMPLE_ANSWER_DONE, MOVE, steps[i]), "the step is told");
        expect(as_a_run(&card, &c), "a run of budget 1 makes it");
        expect(rigtemple_take(card.bytes, card.len, &c, steps[i], &node) == RIGTEMPLE_ANSWER_DONE,
               "the step is taken");
    }
    expect(tells(&card, &c, RIGTEMPLE_ANSWER_DONE, REST, 0), "rest after the last step");
    expect(as_a_run(&card, &c), "a run of budget 1 rests");
}

/* The stripe card with a specification of pick, in place of weave's, and with revision 2, which is
 * to weave, enabled beside it where no thread is broken. */
static void two_kinds_card(struct card_bytes *to)
{
    *to = card;
    put_specification(to, 0, PICK, 0);
}

/* What comes next goes by the phase, and is not the lowest that is listed. */
static void test_phases(void)
{
    static const uint16_t wanted[] = {256, 256, 514};
    struct card_bytes two;
    uint16_t list[RIGTEMPLE_MOST_LIST_ENTRIES], count = 0;
    two_kinds_card(&two);
    for (uint8_t phase = 0; phase < 3; phase++) {
        struct rigtemple_configuration c = standing(THREADED, PICK, 2, phase);
        expect(rigtemple_list(two.bytes, two.len, &c, list, RIGTEMPLE_MOST_LIST_ENTRIES, &count) ==
                       RIGTEMPLE_ANSWER_DONE &&
                   count == 2 && list[0] == 256 && list[1] == 514,
               "an action and a revision are possible");
        expect(tells(&two, &c, RIGTEMPLE_ANSWER_DONE, MOVE, wanted[phase]), "by the phase");
        expect(as_a_run(&two, &c), "as a run does");
    }
}

/* How many bands are finished does not matter. */
static void test_finished(void)
{
    static const uint16_t counts[] = {0, 1, 255, 65534, 65535};
    for (unsigned i = 0; i < sizeof counts / sizeof counts[0]; i++) {
        struct rigtemple_configuration c = standing(BOBBIN, WEAVE, 1, 1);
        c.finished = counts[i];
        expect(tells(&card, &c, RIGTEMPLE_ANSWER_DONE, MOVE, 256) && as_a_run(&card, &c),
               "the same move with each count");
    }
}

/* Revision 1 makes a plan of picks one longer; revision 2, to one as long, needs a whole thread. */
static void test_full(void)
{
    for (uint8_t phase = 0; phase < 3; phase++) {
        struct rigtemple_configuration c = standing(BROKEN, PICK, 1024, phase);
        expect(tells(&card, &c, RIGTEMPLE_ANSWER_DONE, FULL, 513), "a move that does not fit");
        expect(as_a_run(&card, &c), "a run of budget 1 is full");
        c = standing(BROKEN, PICK, 1023, phase);
        expect(tells(&card, &c, RIGTEMPLE_ANSWER_DONE, MOVE, 513), "the same move fits just so");
        expect(as_a_run(&card, &c), "a run of budget 1 makes it");
        c = standing(THREADED, PICK, 1024, phase);
        expect(tells(&card, &c, RIGTEMPLE_ANSWER_DONE, MOVE, 514), "a body as long as its head");
        c = standing(0, STRIPE, 1024, phase);
        expect(tells(&card, &c, RIGTEMPLE_ANSWER_DONE, FULL, 512), "a move that does not fit");
        c = standing(0, WIND, 1024, phase);
        expect(tells(&card, &c, RIGTEMPLE_ANSWER_DONE, MOVE, 257), "an action always fits");
        c = standing(0, WEAVE, 1024, phase);
        expect(tells(&card, &c, RIGTEMPLE_ANSWER_DONE, REST, 0), "a long plan that rests");
    }
}

/* ---- refusals ---- */

static void test_refused(void)
{
    struct card_bytes bad = card;
    struct rigtemple_configuration c = standing(BROKEN, PICK, 2, 3);
    expect(tells(&card, &c, RIGTEMPLE_ANSWER_CONFIGURATION, REST, 0), "phase 3");
    bad.bytes[48] = 1 << 4; /* the goals have an atom that there is not */
    expect(tells(&bad, &c, RIGTEMPLE_ANSWER_ATOM, REST, 0), "9 before 13");
    put_node(&bad, 0, NODE_NOT, 0, 0);
    c.phase = 0;
    expect(tells(&bad, &c, RIGTEMPLE_ANSWER_NODE, REST, 0), "6 before 9, and tells no move");
    bad.len = 63;
    expect(tells(&bad, &c, RIGTEMPLE_ANSWER_SHORT, REST, 0), "1 before all");
    c.plan[2] = PICK;
    expect(tells(&card, &c, RIGTEMPLE_ANSWER_CONFIGURATION, REST, 0), "a byte after the plan");
    c.plan[2] = 0;
    c.plan[0] = 5;
    expect(tells(&card, &c, RIGTEMPLE_ANSWER_CONFIGURATION, REST, 0), "an unknown action");
    c = standing(1 << 4, PICK, 2, 0);
    expect(tells(&card, &c, RIGTEMPLE_ANSWER_CONFIGURATION, REST, 0), "an unknown atom");
}

/* ---- the rule for an app ---- */

/* The tablet dies, or the screen is turned: what was saved is all that is left. */
static void turn(const struct card_bytes *of, struct rigtemple_configuration *c,
                 const uint8_t *place, uint16_t bytes)
{
    memset(c, 0xEE, sizeof *c);
    expect(rigtemple_restore(of->bytes, of->len, place, bytes, c) == RIGTEMPLE_ANSWER_DONE,
           "the place is restored");
}

/* Takes what is told, and saves, until the budget is spent or no move is told. Each `often`-th time
 * the tablet dies between the take and the save, and the same move is told again. The moves taken
 * and saved. */
static unsigned follow(const struct card_bytes *of, struct rigtemple_configuration *c,
                       unsigned budget, unsigned often, uint8_t *coming)
{
    uint8_t place[RIGTEMPLE_MOST_PLACE_BYTES];
    uint16_t bytes, choice, again, node;
    unsigned made = 0, tries = 0;
    *coming = MOVE;
    if (rigtemple_save(of->bytes, of->len, c, place, sizeof place, &bytes) != RIGTEMPLE_ANSWER_DONE)
        return 0;
    while (made < budget) {
        if (rigtemple_next(of->bytes, of->len, c, coming, &choice) != RIGTEMPLE_ANSWER_DONE ||
            *coming != MOVE)
            break;
        expect(rigtemple_take(of->bytes, of->len, c, choice, &node) == RIGTEMPLE_ANSWER_DONE,
               "what is told is taken");
        if (++tries % often == 0) {
            turn(of, c, place, bytes);
            expect(rigtemple_next(of->bytes, of->len, c, coming, &again) == RIGTEMPLE_ANSWER_DONE &&
                       *coming == MOVE && again == choice,
                   "the same move is told again");
            continue;
        }
        expect(rigtemple_save(of->bytes, of->len, c, place, sizeof place, &bytes) ==
                   RIGTEMPLE_ANSWER_DONE,
               "the place is saved");
        turn(of, c, place, bytes);
        made++;
    }
    return made;
}

/* With any number of turns it is one run. */
static void test_rule(const struct card_bytes *of, unsigned budget, unsigned often)
{
    struct rigtemple_configuration c, straight;
    uint16_t moves;
    uint8_t ending, coming;
    expect(rigtemple_load(of->bytes, of->len, &c) == RIGTEMPLE_ANSWER_DONE, "the card loads");
    straight = c;
    unsigned made = follow(of, &c, budget, often, &coming);
    expect(rigtemple_run(of->bytes, of->len, &straight, (uint16_t)made, &moves, &ending) ==
                   RIGTEMPLE_ANSWER_DONE &&
               moves == made && ending == RIGTEMPLE_ENDING_SPENT && same(&c, &straight),
           "what was told, taken and saved is one run");
    expect(made == budget || coming != MOVE, "it ends at the budget, or where no move is told");
    expect(as_a_run(of, &c), "and there as a run does");
}

int main(void)
{
    static struct card_bytes other;
    stripe_card(&card);
    test_steps();
    test_phases();
    test_finished();
    test_full();
    test_refused();
    for (unsigned often = 2; often < 6; often++) {
        test_rule(&card, 20, often);
        endless_stripe_card(&other);
        test_rule(&other, 100, often);
        typical_card(&other);
        test_rule(&other, 200, often);
    }
    printf("%u passed, %u failed\n", passed, failed);
    return failed != 0;
}
