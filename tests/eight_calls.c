/*
 * All eight calls through include/rigtemple.h, on the stripe card, as an app makes them; and the
 * turn of the screen: in the middle of a run the place is saved, everything else is forgotten,
 * and the run goes on from the place as if nothing had been.
 */
#include <stdio.h>
#include <string.h>

#include "cards.h"

#include "../include/rigtemple.h"

static unsigned passed, failed;

/* Counts one check; says which one failed. */
static void expect(int holds, const char *what)
{
    if (holds) {
        passed++;
    } else {
        failed++;
        printf("failed: %s\n", what);
    }
}

static struct card_bytes card;

/* Its atoms, as bits of a set's first byte, and its actions. */
enum { THREADED = 1 << 0, BOBBIN = 1 << 1, BAND = 1 << 2, BROKEN = 1 << 3 };
enum { WEAVE, WIND, REPAIR, PICK, STRIPE, NO_ACTION = 255 };

/* Whether two configurations are the same; the struct's padding does not count. */
static int same(const struct rigtemple_configuration *one,
                const struct rigtemple_configuration *other)
{
    return memcmp(one->beliefs, other->beliefs, sizeof one->beliefs) == 0 &&
           memcmp(one->goals, other->goals, sizeof one->goals) == 0 &&
           memcmp(one->plan, other->plan, sizeof one->plan) == 0 && one->length == other->length &&
           one->phase == other->phase && one->finished == other->finished;
}

/* Whether a set is the atoms of `bits`, atom k for bit k. */
static int set_is(const uint8_t *set, uint8_t bits)
{
    static const uint8_t zeros[RIGTEMPLE_SET_BYTES - 1];
    return set[0] == bits && memcmp(set + 1, zeros, sizeof zeros) == 0;
}

static int is_empty(const struct rigtemple_configuration *c)
{
    static const struct rigtemple_configuration empty;
    return same(c, &empty);
}

/* The configuration that a weaver begins with. */
static struct rigtemple_configuration begin(void)
{
    struct rigtemple_configuration c;
    expect(rigtemple_load(card.bytes, card.len, &c) == RIGTEMPLE_ANSWER_DONE, "the card loads");
    return c;
}

/* Runs the card, which is never refused. */
static void run(struct rigtemple_configuration *c, uint16_t budget, uint16_t *moves,
                uint8_t *ending)
{
    expect(rigtemple_run(card.bytes, card.len, c, budget, moves, ending) == RIGTEMPLE_ANSWER_DONE,
           "the card runs");
}

/* The configuration after some moves of the guide's own. */
static struct rigtemple_configuration after(uint16_t moves)
{
    struct rigtemple_configuration c = begin();
    uint16_t taken;
    uint8_t ending;
    run(&c, moves, &taken, &ending);
    expect(taken == moves, "the moves are taken");
    return c;
}

/* A configuration with some of the card's atoms believed and wanted, and a plan of one action or of
 * none. */
static struct rigtemple_configuration standing(uint8_t beliefs, uint8_t goals, uint8_t action)
{
    struct rigtemple_configuration c = {.beliefs = {beliefs}, .goals = {goals}};
    if (action != NO_ACTION) {
        c.plan[0] = action;
        c.length = 1;
    }
    return c;
}

/* Whether a choice of the card is taken, which tells no node. */
static int takes(const struct card_bytes *of, struct rigtemple_configuration *c, uint16_t choice)
{
    uint16_t node = 0xEEEE;
    return rigtemple_take(of->bytes, of->len, c, choice, &node) == RIGTEMPLE_ANSWER_DONE &&
           node == 0;
}

/* Whether a choice is refused with that answer and that node, and the configuration stays. */
static int refuses(const struct card_bytes *of, struct rigtemple_configuration *c, uint16_t choice,
                   uint16_t answer, uint16_t node)
{
    struct rigtemple_configuration before = *c;
    uint16_t told = 0xEEEE;
    return rigtemple_take(of->bytes, of->len, c, choice, &told) == answer && told == node &&
           same(c, &before);
}

/* ---- check, load, grade ---- */

static void test_card(void)
{
    uint8_t verdict = 9, offender = 9;
    uint16_t number = 9;
    expect(card.len == 255, "the card is 255 bytes");
    expect(rigtemple_check(card.bytes, card.len) == RIGTEMPLE_ANSWER_DONE, "the card is good");
    expect(rigtemple_grade(card.bytes, card.len, &verdict, &offender, &number) ==
               RIGTEMPLE_ANSWER_DONE,
           "the card is graded");
    expect(verdict == RIGTEMPLE_VERDICT_BOUNDED && offender == RIGTEMPLE_OFFENDER_NONE &&
               number == 0,
           "the card is bounded");
    struct rigtemple_configuration c = begin();
    expect(set_is(c.beliefs, 1 << 0 | 1 << 3) && set_is(c.goals, 1 << 2), "the initial sets");
    expect(c.length == 0 && c.phase == 0, "the initial plan and phase");
    expect(c.finished == 0, "nothing is finished at load");
}

/* P10: revision 1's body weighs 3, as much as its head. */
static void test_open_card(void)
{
    struct card_bytes open = card;
    uint8_t verdict, offender;
    uint16_t number;
    put_weight(&open, 2, 2);
    expect(rigtemple_grade(open.bytes, open.len, &verdict, &offender, &number) ==
                   RIGTEMPLE_ANSWER_DONE &&
               verdict == RIGTEMPLE_VERDICT_OPEN && offender == RIGTEMPLE_OFFENDER_REVISION &&
               number == 1,
           "a body that weighs as much as its head makes the card open");
}

/* A refused card: every call answers its number. P13: node 0 "not 0" is 6. */
static void test_refused_card(void)
{
    struct card_bytes bad = card;
    struct rigtemple_configuration c = after(6), before = c;
    uint8_t verdict = 0, offender = 0, ending = 9, place[RIGTEMPLE_MOST_PLACE_BYTES] = {0xEE};
    uint16_t number = 9, count = 9, list[2] = {0xEEEE};
    put_node(&bad, 0, NODE_NOT, 0, 0);
    expect(rigtemple_check(bad.bytes, bad.len) == RIGTEMPLE_ANSWER_NODE, "check refuses");
    expect(rigtemple_grade(bad.bytes, bad.len, &verdict, &offender, &number) ==
                   RIGTEMPLE_ANSWER_NODE &&
               verdict == RIGTEMPLE_VERDICT_OPEN && offender == RIGTEMPLE_OFFENDER_INITIAL_PLAN &&
               number == 0,
           "grade refuses, and does not say bounded");
    expect(rigtemple_list(bad.bytes, bad.len, &c, list, 2, &count) == RIGTEMPLE_ANSWER_NODE &&
               count == 0 && list[0] == 0xEEEE,
           "list refuses");
    expect(refuses(&bad, &c, 0, RIGTEMPLE_ANSWER_NODE, 0), "take refuses");
    count = 9;
    expect(rigtemple_run(bad.bytes, bad.len, &c, 5, &count, &ending) == RIGTEMPLE_ANSWER_NODE &&
               count == 0 && ending == RIGTEMPLE_ENDING_SPENT && same(&c, &before),
           "run refuses");
    count = 9;
    expect(rigtemple_save(bad.bytes, bad.len, &c, place, sizeof place, &count) ==
                   RIGTEMPLE_ANSWER_NODE &&
               count == 0 && place[0] == 0xEE,
           "save refuses");
    expect(rigtemple_load(bad.bytes, bad.len, &c) == RIGTEMPLE_ANSWER_NODE && is_empty(&c),
           "load refuses, and leaves the empty configuration");
}

/* ---- list, take, run ---- */

/* The six steps of document 01: kind, number, plan length after. */
static const struct step {
    uint8_t kind, number, length;
} steps[6] = {
    {RIGTEMPLE_KIND_SELECTION, 0, 1}, {RIGTEMPLE_KIND_REVISION, 0, 2},
    {RIGTEMPLE_KIND_ACTION, 1, 1},    {RIGTEMPLE_KIND_REVISION, 1, 2},
    {RIGTEMPLE_KIND_ACTION, 2, 1},    {RIGTEMPLE_KIND_ACTION, 0, 0},
};

/* Each step is in the list, is taken, and is what the guide takes by itself. */
static void test_steps(void)
{
    struct rigtemple_configuration c = begin();
    for (unsigned i = 0; i < 6; i++) {
        struct rigtemple_configuration own = c;
        uint16_t choice = RIGTEMPLE_CHOICE(steps[i].kind, steps[i].number), count = 9, taken = 9;
        uint16_t list[RIGTEMPLE_MOST_LIST_ENTRIES];
        uint8_t ending = 9;
        expect(rigtemple_list(card.bytes, card.len, &c, list, RIGTEMPLE_MOST_LIST_ENTRIES,
                              &count) == RIGTEMPLE_ANSWER_DONE,
               "the moves are listed");
        expect(count == 1 && list[0] == choice, "the step is the one that is listed");
        expect(takes(&card, &c, choice), "the step is taken");
        expect(c.length == steps[i].length && c.phase == (steps[i].kind + 1) % 3,
               "the plan's length and the phase after it");
        expect(c.finished == (i == 5), "the last step alone is counted");
        expect(rigtemple_run(card.bytes, card.len, &own, 1, &taken, &ending) ==
                       RIGTEMPLE_ANSWER_DONE &&
                   taken == 1 && ending == RIGTEMPLE_ENDING_SPENT && same(&own, &c),
               "the guide takes the same step");
    }
    expect(set_is(c.beliefs, 1 << 0 | 1 << 2) && set_is(c.goals, 0) && c.phase == 2 &&
               c.finished == 1,
           "P1: beliefs {0, 2}, no goals, phase 2; finished 1");
}

/* P2 and P3: budgets 6 and 7 from the start, budget 0 at rest. */
static void test_budgets(void)
{
    struct rigtemple_configuration c = begin();
    uint16_t count = 9;
    uint8_t ending = 9;
    run(&c, 6, &count, &ending);
    expect(count == 6 && ending == RIGTEMPLE_ENDING_SPENT, "budget 6: spent, 6");
    run(&c, 0, &count, &ending);
    expect(count == 0 && ending == RIGTEMPLE_ENDING_SPENT, "budget 0 at rest: spent, 0");
    c = begin();
    run(&c, 7, &count, &ending);
    expect(count == 6 && ending == RIGTEMPLE_ENDING_REST, "budget 7: rest, 6");
}

/* Choices with nothing believed, the band wanted and the plan "pick": why each is refused. */
static const struct refused {
    uint16_t choice, answer, node;
} refused[] = {
    {0, RIGTEMPLE_ANSWER_FRONT, 0},       /* the plan is not empty */
    {1, RIGTEMPLE_ANSWER_NO_RULE, 0},     /* there is one selection rule */
    {255, RIGTEMPLE_ANSWER_NO_RULE, 0},   /* the last number of a selection rule */
    {256, RIGTEMPLE_ANSWER_FRONT, 0},     /* weave is not first; its condition is false too */
    {257, RIGTEMPLE_ANSWER_FRONT, 0},     /* wind is not first; its condition is true */
    {259, RIGTEMPLE_ANSWER_NO_RULE, 0},   /* there are three specifications */
    {511, RIGTEMPLE_ANSWER_NO_RULE, 0},   /* the last number of a specification */
    {512, RIGTEMPLE_ANSWER_FRONT, 0},     /* the head is stripe; the condition is true */
    {513, RIGTEMPLE_ANSWER_CONDITION, 2}, /* P6: the head is pick; broken is not believed */
    {515, RIGTEMPLE_ANSWER_NO_RULE, 0},   /* there are three revision rules */
    {767, RIGTEMPLE_ANSWER_NO_RULE, 0},   /* the last number of a revision rule */
    {768, RIGTEMPLE_ANSWER_NO_RULE, 0},   /* there are three kinds */
    {65535, RIGTEMPLE_ANSWER_NO_RULE, 0}, /* the last number of all */
};

static void test_refused_choices(void)
{
    struct rigtemple_configuration c = standing(0, BAND, PICK);
    for (unsigned i = 0; i < sizeof refused / sizeof refused[0]; i++)
        expect(refuses(&card, &c, refused[i].choice, refused[i].answer, refused[i].node),
               "a choice is refused for its reason");
    c.plan[1] = 1;
    expect(refuses(&card, &c, 514, RIGTEMPLE_ANSWER_CONFIGURATION, 0) &&
               refuses(&card, &c, 513, RIGTEMPLE_ANSWER_CONFIGURATION, 0) &&
               refuses(&card, &c, 768, RIGTEMPLE_ANSWER_CONFIGURATION, 0),
           "a byte after the plan's end");
    c = standing(0, BAND, NO_ACTION);
    expect(refuses(&card, &c, 257, RIGTEMPLE_ANSWER_FRONT, 0) &&
               refuses(&card, &c, 512, RIGTEMPLE_ANSWER_FRONT, 0),
           "an empty plan has no first action and no head");
}

/* Choices of which only a condition is false, and the node that settles it. Node 4 is "1 and 3",
 * with 1 for the bobbin; 3 is "not 2", with 2 for broken. */
static const struct closed {
    uint8_t beliefs, goals, action;
    uint16_t choice, node;
} closed[] = {
    {0, 0, NO_ACTION, 0, 5},                /* node 5, an atom: that node */
    {BROKEN, BAND, PICK, 514, 2},           /* node 3: its child's */
    {THREADED, BAND, WEAVE, 256, 1},        /* node 4: the left is false, the right true */
    {BROKEN, BAND, WEAVE, 256, 1},          /* node 4: the left is false, and the right too */
    {BOBBIN | BROKEN, BAND, WEAVE, 256, 2}, /* node 4: the left is true, so the right's */
};

static void test_settling_nodes(void)
{
    struct rigtemple_configuration c;
    for (unsigned i = 0; i < sizeof closed / sizeof closed[0]; i++) {
        c = standing(closed[i].beliefs, closed[i].goals, closed[i].action);
        expect(refuses(&card, &c, closed[i].choice, RIGTEMPLE_ANSWER_CONDITION, closed[i].node),
               "the node that settles a condition");
    }
    c = standing(BOBBIN, BAND, WEAVE);
    expect(takes(&card, &c, 256), "the condition is true, and nothing is told");
}

/* Selection 0 with node 4 for its belief condition, and node 5 for its goal condition. */
static void test_two_conditions(void)
{
    struct card_bytes two = card;
    struct rigtemple_configuration c = standing(0, 0, NO_ACTION);
    put_selection(&two, 0, 4, 5, 0, 1);
    expect(refuses(&two, &c, 0, RIGTEMPLE_ANSWER_CONDITION, 1),
           "both are false: the belief condition's node");
    c = standing(BOBBIN | BROKEN, BAND, NO_ACTION);
    expect(refuses(&two, &c, 0, RIGTEMPLE_ANSWER_CONDITION, 2), "the belief condition is false");
    c = standing(BOBBIN, 0, NO_ACTION);
    expect(refuses(&two, &c, 0, RIGTEMPLE_ANSWER_CONDITION, 5), "the goal condition is false");
    c = standing(0, 0, PICK);
    expect(refuses(&two, &c, 0, RIGTEMPLE_ANSWER_FRONT, 0), "both are false; the front is first");
    c = standing(BOBBIN, BAND, NO_ACTION);
    expect(takes(&two, &c, 0), "both are true");
}

/* Goals are struck by the beliefs: after an action and at load, and by nothing else. */
static void test_struck_goals(void)
{
    struct card_bytes other = card;
    struct rigtemple_configuration c = standing(BOBBIN, BAND, WEAVE);
    other.bytes[other.specification + 20] = BAND; /* weave adds the band and withdraws it: P4 */
    expect(takes(&other, &c, 256) && set_is(c.beliefs, BOBBIN) && set_is(c.goals, BAND),
           "P4: a fact that is added and withdrawn leaves its goal");
    c = standing(BAND | BROKEN, BAND | BOBBIN, REPAIR);
    expect(takes(&card, &c, 258) && set_is(c.beliefs, BAND) && set_is(c.goals, BOBBIN),
           "a goal that was believed before falls with an action that does not touch it");
    c = standing(BAND, BAND, NO_ACTION);
    expect(takes(&card, &c, 0) && set_is(c.goals, BAND), "a selection strikes nothing");
    expect(takes(&card, &c, 512) && set_is(c.goals, BAND), "a revision strikes nothing");
    other = card;
    other.bytes[48] = BAND | BROKEN; /* broken is believed at first */
    expect(rigtemple_load(other.bytes, other.len, &c) == RIGTEMPLE_ANSWER_DONE &&
               set_is(c.goals, BAND),
           "loading strikes a believed goal");
}

/* What settles an "or", a "not" over "true", and a node over 253 others. */
static void test_other_conditions(void)
{
    struct card_bytes other = card;
    struct rigtemple_configuration c = standing(BROKEN, BAND, WEAVE);
    put_node(&other, 4, NODE_OR, 1, 3);
    expect(refuses(&other, &c, 256, RIGTEMPLE_ANSWER_CONDITION, 2), "a false or: the right's");
    put_node(&other, 3, NODE_OR, 2, 1);
    put_node(&other, 4, NODE_NOT, 3, 0);
    expect(refuses(&other, &c, 256, RIGTEMPLE_ANSWER_CONDITION, 2), "a true or: the left's");
    put_node(&other, 4, NODE_NOT, 0, 0);
    expect(refuses(&other, &c, 256, RIGTEMPLE_ANSWER_CONDITION, 0), "true, which is node 0");
    shared_nodes_card(&other);
    put_node(&other, 0, NODE_TRUE, 0, 0);
    put_node(&other, 1, NODE_BELIEVES, 0, 0);
    c = standing(0, 0, 0);
    expect(refuses(&other, &c, 256, RIGTEMPLE_ANSWER_CONDITION, 1), "from node 254 down to node 1");
}

/* The code of a choice is never that of another kind, whatever number is asked for. */
static void test_codes(void)
{
    static const long long numbers[] = {256, 257, 511, 512, 65536, 1LL << 32, -1};
    struct rigtemple_configuration c = begin();
    for (unsigned kind = 0; kind < 3; kind++) {
        uint16_t last = RIGTEMPLE_CHOICE(kind, 255);
        expect(RIGTEMPLE_KIND_OF(last) == kind && RIGTEMPLE_NUMBER_OF(last) == 255,
               "the last number of a kind");
        for (unsigned i = 0; i < sizeof numbers / sizeof numbers[0]; i++)
            expect(RIGTEMPLE_CHOICE(kind, numbers[i]) == RIGTEMPLE_NO_CHOICE,
                   "a number that no rule has");
    }
    expect(RIGTEMPLE_CHOICE(3, 0) == RIGTEMPLE_NO_CHOICE, "a kind that there is not");
    expect(refuses(&card, &c, RIGTEMPLE_NO_CHOICE, RIGTEMPLE_ANSWER_NO_RULE, 0),
           "no choice has no rule");
}

/* The empty configuration is accepted, and a run from it tells nothing of why it is empty. */
static void test_empty_configuration(void)
{
    static const struct rigtemple_configuration empty;
    struct rigtemple_configuration c = empty;
    struct card_bytes endless;
    uint16_t count = 9;
    uint8_t ending = 9;
    run(&c, 1000, &count, &ending);
    expect(count == 0 && ending == RIGTEMPLE_ENDING_REST, "without goals the card rests at once");
    endless_stripe_card(&endless);
    expect(rigtemple_run(endless.bytes, endless.len, &c, 1000, &count, &ending) ==
                   RIGTEMPLE_ANSWER_DONE &&
               count == 1000 && ending == RIGTEMPLE_ENDING_SPENT,
           "a rule that asks for no goal goes on");
}

/* P11: plan of 1,024 picks; revision 1 makes it longer, revision 2 does not. */
static void test_full_plan(void)
{
    struct rigtemple_configuration c = begin();
    memset(c.plan, 3, sizeof c.plan);
    c.length = RIGTEMPLE_MOST_PLAN_ACTIONS;
    c.phase = 2;
    c.finished = 9;
    struct rigtemple_configuration before = c;
    uint16_t count = 9;
    uint8_t ending = 9;
    expect(refuses(&card, &c, 513, RIGTEMPLE_ANSWER_PLAN_FULL, 0), "a plan too long is refused");
    expect(rigtemple_run(card.bytes, card.len, &c, 1, &count, &ending) == RIGTEMPLE_ANSWER_DONE &&
               count == 0 && ending == RIGTEMPLE_ENDING_FULL && same(&c, &before),
           "a run stops before it");
    c.beliefs[0] = 1 << 0;
    expect(refuses(&card, &c, 513, RIGTEMPLE_ANSWER_CONDITION, 2),
           "a false condition is told before a plan too long");
    expect(takes(&card, &c, 514) && c.length == 1024 && c.plan[0] == 0 && c.plan[1] == 3 &&
               c.plan[1023] == 3,
           "a body as long as its head is taken");
}

/* P12: the list at the start and at rest, and room for nothing. */
static void test_list_room(void)
{
    struct rigtemple_configuration c = begin();
    uint16_t list[2] = {0xEEEE, 0xEEEE}, count = 9;
    expect(rigtemple_list(card.bytes, card.len, &c, list, 0, &count) == RIGTEMPLE_ANSWER_NO_ROOM &&
               count == 0 && list[0] == 0xEEEE,
           "no room for the list");
    expect(rigtemple_list(card.bytes, card.len, &c, list, 1, &count) == RIGTEMPLE_ANSWER_DONE &&
               count == 1 && list[0] == 0 && list[1] == 0xEEEE,
           "room for just the list");
    c = after(6);
    list[0] = 0xEEEE;
    expect(rigtemple_list(card.bytes, card.len, &c, list, 0, &count) == RIGTEMPLE_ANSWER_DONE &&
               count == 0 && list[0] == 0xEEEE,
           "nothing to list at rest");
}

/* How much the list looks at: at the start, after each of the six steps, and refused. */
static void test_list_looks(void)
{
    static const uint16_t judged_after[7] = {2, 1, 1, 2, 1, 1, 2};
    uint16_t list[2], count = 9, judged = 9, goals = 9;
    struct rigtemple_configuration c;
    for (unsigned i = 0; i <= 6; i++) {
        c = after(i);
        expect(rigtemple_list_looks(card.bytes, card.len, &c, list, 2, &count, &judged, &goals) ==
                       RIGTEMPLE_ANSWER_DONE &&
                   count == (i < 6) && judged == judged_after[i] && goals == (i < 6),
               "how many conditions were judged, and how many goals are open");
    }
    c = begin();
    c.goals[0] = 15;
    expect(rigtemple_list_looks(card.bytes, card.len, &c, list, 2, &count, &judged, &goals) ==
                   RIGTEMPLE_ANSWER_DONE &&
               goals == 4,
           "goals that are believed are counted");
    expect(rigtemple_list_looks(card.bytes, card.len, &c, list, 0, &count, &judged, &goals) ==
                   RIGTEMPLE_ANSWER_NO_ROOM &&
               count == 0 && judged == 0 && goals == 0,
           "no count with 12");
    c.phase = 3;
    judged = goals = 9;
    expect(rigtemple_list_looks(card.bytes, card.len, &c, list, 2, &count, &judged, &goals) ==
                   RIGTEMPLE_ANSWER_CONFIGURATION &&
               count == 0 && judged == 0 && goals == 0,
           "no count with 13");
}

/* ---- how many moves have left the plan empty ---- */

/* Counts to go on from, and what they become. */
static const struct counted {
    uint16_t before, after;
} counted[] = {{0, 1}, {1, 2}, {255, 256}, {256, 257}, {65534, 65535}, {65535, 65535}};
enum { COUNTED = sizeof counted / sizeof counted[0] };

/* The stripe card with an empty body for its revision 1, of the head "pick": P9. */
static void empty_body_card(struct card_bytes *to)
{
    *to = card;
    put_revision(to, 1, 2, 2, 1, 0, 0);
}

/* The last action of a plan, and a revision of the whole plan to an empty body, chosen and by the
 * guide itself. */
static void test_finished(const struct counted *count)
{
    struct card_bytes other;
    struct rigtemple_configuration last = standing(BOBBIN, BAND, WEAVE), own;
    uint16_t taken = 9;
    uint8_t ending = 9;
    last.finished = count->before;
    own = last;
    expect(takes(&card, &last, 256) && last.length == 0 && set_is(last.goals, 0) &&
               last.finished == count->after,
           "a chosen last action is counted");
    run(&own, 9, &taken, &ending);
    expect(taken == 1 && ending == RIGTEMPLE_ENDING_REST && own.finished == count->after,
           "the guide's own last action is counted");
    empty_body_card(&other);
    last = standing(BROKEN, 0, PICK);
    last.finished = count->before;
    own = last;
    expect(takes(&other, &last, 513) && last.length == 0 && last.finished == count->after,
           "a chosen revision to an empty body is counted");
    expect(rigtemple_run(other.bytes, other.len, &own, 9, &taken, &ending) ==
                   RIGTEMPLE_ANSWER_DONE &&
               taken == 1 && ending == RIGTEMPLE_ENDING_REST && own.finished == count->after,
           "the guide's own revision to an empty body is counted");
}

/* Moves that leave actions, a refused one, rest, and a run of no moves: the count stays. */
static void test_not_finished(uint16_t count)
{
    struct card_bytes other;
    struct rigtemple_configuration c = standing(0, BAND, NO_ACTION);
    uint16_t taken = 9;
    uint8_t ending = 9;
    c.finished = count;
    expect(takes(&card, &c, 0) && c.length == 1 && c.finished == count, "a selection");
    expect(takes(&card, &c, 512) && c.length == 2 && c.finished == count, "a revision");
    expect(takes(&card, &c, 257) && c.length == 1 && c.finished == count,
           "an action before another");
    expect(refuses(&card, &c, 257, RIGTEMPLE_ANSWER_FRONT, 0) && c.finished == count,
           "a refused choice");
    run(&c, 0, &taken, &ending);
    expect(taken == 0 && c.finished == count, "budget 0");
    c = standing(0, 0, NO_ACTION);
    c.finished = count;
    run(&c, 9, &taken, &ending);
    expect(taken == 0 && ending == RIGTEMPLE_ENDING_REST && c.finished == count,
           "rest with an empty plan");
    empty_body_card(&other);
    c = standing(BROKEN, 0, PICK);
    c.plan[1] = PICK;
    c.length = 2;
    c.finished = count;
    expect(takes(&other, &c, 513) && c.length == 1 && c.finished == count,
           "an empty body before another action");
}

/* Bands woven one after the other: six moves for the first, whose thread is broken, and five for
 * each other. */
static void test_bands(void)
{
    struct card_bytes endless;
    struct rigtemple_configuration c;
    uint16_t moves = 9;
    uint8_t ending = 9;
    endless_stripe_card(&endless);
    expect(rigtemple_load(endless.bytes, endless.len, &c) == RIGTEMPLE_ANSWER_DONE,
           "the endless card loads");
    expect(rigtemple_run(endless.bytes, endless.len, &c, 1000, &moves, &ending) ==
                   RIGTEMPLE_ANSWER_DONE &&
               moves == 1000 && c.finished == 1 + (1000 - 6) / 5,
           "each band of a run is counted");
    c.finished = 65530;
    expect(rigtemple_run(endless.bytes, endless.len, &c, 1000, &moves, &ending) ==
                   RIGTEMPLE_ANSWER_DONE &&
               moves == 1000 && ending == RIGTEMPLE_ENDING_SPENT && c.finished == 65535,
           "the count stops in a run, and the run goes on");
}

/* ---- save, restore, and the turn of the screen ---- */

/* The count stands in bytes 10 and 11 of a place, low byte first, and comes back from there. */
static void test_kept_count(uint16_t finished)
{
    uint8_t place[RIGTEMPLE_MOST_PLACE_BYTES];
    struct rigtemple_configuration c = after(6), back;
    uint16_t count = 9;
    c.finished = finished;
    memset(&back, 0xEE, sizeof back);
    expect(rigtemple_save(card.bytes, card.len, &c, place, sizeof place, &count) ==
                   RIGTEMPLE_ANSWER_DONE &&
               count == 44 && place[10] == finished % 256 && place[11] == finished / 256,
           "the count is in bytes 10 and 11");
    expect(rigtemple_restore(card.bytes, card.len, place, count, &back) ==
                   RIGTEMPLE_ANSWER_DONE &&
               same(&back, &c),
           "the count is restored");
    place[10] = place[11] = 0;
    expect(rigtemple_restore(card.bytes, card.len, place, count, &back) ==
                   RIGTEMPLE_ANSWER_DONE &&
               back.finished == 0,
           "zeros there are count 0");
}

/* P7 and P8: the place after step 4, byte for byte; and with phase 3, whatever the count. */
static void test_place(void)
{
    static const uint8_t wanted[46] = {0x33, 0x50, 1, 0, 2, 0, 0x2C, 0, 0, 0, 0, 0, 0x0B,
                                       [28] = 0x04, [44] = 2, 0};
    uint8_t place[RIGTEMPLE_MOST_PLACE_BYTES];
    struct rigtemple_configuration c = after(4);
    uint16_t count = 9;
    memset(place, 0xEE, sizeof place);
    expect(rigtemple_save(card.bytes, card.len, &c, place, 45, &count) ==
                   RIGTEMPLE_ANSWER_NO_ROOM &&
               count == 0 && place[0] == 0xEE,
           "no room for the place");
    expect(rigtemple_save(card.bytes, card.len, &c, place, 46, &count) == RIGTEMPLE_ANSWER_DONE &&
               count == 46 && memcmp(place, wanted, 46) == 0 && place[46] == 0xEE,
           "the place after step 4");
    place[8] = 3;
    c.finished = place[10] = 9;
    expect(rigtemple_restore(card.bytes, card.len, place, 46, &c) == RIGTEMPLE_ANSWER_COUNT &&
               is_empty(&c),
           "a place with phase 3 is refused");
}

/* The screen is turned after `before` of seven moves: only the place is kept. */
static void test_turn(uint16_t before)
{
    struct rigtemple_configuration straight = begin(), c = begin(), held;
    uint8_t place[RIGTEMPLE_MOST_PLACE_BYTES], again[RIGTEMPLE_MOST_PLACE_BYTES], ending;
    uint16_t all, first, rest, size, size_again;
    uint8_t straight_ending;
    run(&straight, 7, &all, &straight_ending);
    run(&c, before, &first, &ending);
    expect(rigtemple_save(card.bytes, card.len, &c, place, sizeof place, &size) ==
               RIGTEMPLE_ANSWER_DONE,
           "the place is saved");
    held = c;
    memset(&c, 0xEE, sizeof c);
    ending = 0xEE;
    expect(rigtemple_restore(card.bytes, card.len, place, size, &c) == RIGTEMPLE_ANSWER_DONE &&
               same(&c, &held),
           "the restored configuration is the one that was saved");
    expect(rigtemple_save(card.bytes, card.len, &c, again, sizeof again, &size_again) ==
                   RIGTEMPLE_ANSWER_DONE &&
               size_again == size && memcmp(again, place, size) == 0,
           "the restored place, saved, is the same bytes");
    run(&c, (uint16_t)(7 - before), &rest, &ending);
    expect(first + rest == all && ending == straight_ending && same(&c, &straight),
           "the run goes on as if the screen had not been turned");
}

int main(void)
{
    stripe_card(&card);
    test_card();
    test_open_card();
    test_refused_card();
    test_steps();
    test_budgets();
    test_refused_choices();
    test_settling_nodes();
    test_two_conditions();
    test_struck_goals();
    test_other_conditions();
    test_codes();
    test_empty_configuration();
    test_full_plan();
    test_list_room();
    test_list_looks();
    for (unsigned i = 0; i < COUNTED; i++) {
        test_finished(&counted[i]);
        test_not_finished(counted[i].before);
        test_kept_count(counted[i].before);
    }
    test_bands();
    test_place();
    for (uint16_t before = 0; before < 7; before++)
        test_turn(before);
    printf("%u passed, %u failed\n", passed, failed);
    return failed != 0;
}
