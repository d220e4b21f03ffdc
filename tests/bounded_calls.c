/*
 * rigtemple_take_bounded and rigtemple_run_bounded of include/rigtemple.h by hand, on the stripe
 * card, whose weave, wind and repair weigh 1, whose pick weighs 3 and whose stripe 5: beside take
 * and run, with plans of 1,024 and of 1,025, on the card made open, and where other refusals come
 * first.
 */
#include <stdio.h>
#include <string.h>

#include "cards.h"

#include "../include/rigtemple.h"

static unsigned passed, failed;

/* Counts one check; says which one failed. */
static void expect(int holds, const char *what)
{
    if (holds) {
        passed++;
    } else {
        failed++;
        printf("failed: %s\n", what);
    }
}

static struct card_bytes card;

enum { BAND = 1 << 2, BROKEN = 1 << 3 };
enum { WEAVE, WIND, REPAIR, PICK, STRIPE };

/* Whether two configurations are the same; the struct's padding does not count. */
static int same(const struct rigtemple_configuration *one,
                const struct rigtemple_configuration *other)
{
    return memcmp(one->beliefs, other->beliefs, sizeof one->beliefs) == 0 &&
           memcmp(one->goals, other->goals, sizeof one->goals) == 0 &&
           memcmp(one->plan, other->plan, sizeof one->plan) == 0 && one->length == other->length &&
           one->phase == other->phase && one->finished == other->finished;
}

/* So many times an action, with the thread broken and the band wanted. */
static struct rigtemple_configuration standing(uint8_t action, unsigned times)
{
    struct rigtemple_configuration c = {.beliefs = {BROKEN}, .goals = {BAND}};
    memset(c.plan, action, times);
    c.length = (uint16_t)times;
    return c;
}

/* Whether both calls answer as take and run do, whole: every choice of the card, some that it does
 * not have, and some budgets. */
static int as_before(struct rigtemple_configuration from)
{
    static const uint16_t choices[] = {0, 1, 256, 257, 258, 259, 512, 513, 514, 515, 768, 65535};
    static const uint16_t budgets[] = {0, 1, 2, 5, 6, 7, 1000};
    int holds = 1;
    for (unsigned i = 0; i < sizeof choices / sizeof choices[0]; i++) {
        struct rigtemple_configuration one = from, other = from;
        uint16_t node = 1, node_then = 2;
        holds &= rigtemple_take(card.bytes, card.len, &one, choices[i], &node) ==
                 rigtemple_take_bounded(card.bytes, card.len, &other, choices[i], &node_then);
        holds &= node == node_then && same(&one, &other);
    }
    for (unsigned i = 0; i < sizeof budgets / sizeof budgets[0]; i++) {
        struct rigtemple_configuration one = from, other = from;
        uint16_t moves = 1, moves_then = 2;
        uint8_t ending = 3;
        enum rigtemple_bounded_ending ending_then = RIGTEMPLE_BOUNDED_REST;
        holds &= rigtemple_run(card.bytes, card.len, &one, budgets[i], &moves, &ending) ==
                 rigtemple_run_bounded(card.bytes, card.len, &other, budgets[i], &moves_then,
                                       &ending_then);
        holds &= moves == moves_then && ending == (uint8_t)ending_then && same(&one, &other);
    }
    return holds;
}

/* Whether both calls are refused with a number, whatever is asked, and leave all as it was. */
static int refused(struct rigtemple_configuration from, uint16_t number)
{
    struct rigtemple_configuration c = from;
    enum rigtemple_bounded_ending ending = RIGTEMPLE_BOUNDED_REST;
    uint16_t node = 1, moves = 1;
    int holds = 1;
    for (unsigned choice = 0; choice < 1024; choice += 64) {
        holds &= rigtemple_take_bounded(card.bytes, card.len, &c, (uint16_t)choice, &node) ==
                 number;
        holds &= node == 0 && same(&c, &from);
    }
    holds &= rigtemple_run_bounded(card.bytes, card.len, &c, 0, &moves, &ending) == number;
    holds &= moves == 0 && ending == RIGTEMPLE_BOUNDED_SPENT && same(&c, &from);
    return holds;
}

static void test_weights(void)
{
    stripe_card(&card);
    expect(as_before(standing(WIND, 0)), "no plan");
    expect(as_before(standing(WIND, 1024)), "1,024 winds weigh 1,024");
    expect(as_before(standing(PICK, 341)), "341 picks weigh 1,023");
    expect(refused(standing(PICK, 342), 22), "342 picks weigh 1,026");
    expect(refused(standing(STRIPE, 205), 22), "205 stripes weigh 1,025");
    struct rigtemple_configuration just = standing(STRIPE, 205);
    just.plan[204] = WIND;
    expect(as_before(just), "204 stripes and a wind weigh 1,021");
    just.plan[204] = PICK;
    just.plan[205] = WIND;
    just.length = 206;
    expect(as_before(just), "204 stripes, a pick and a wind weigh 1,024");
    just.plan[206] = WIND;
    just.length = 207;
    expect(refused(just, 22), "with one wind more 1,025");
    lay_out(&card, (struct counts){.atoms = 4, .actions = 2, .nodes = 1}); /* and no rule */
    put_weight(&card, WIND, 1024);
    expect(as_before(standing(WIND, 1)), "a wind that weighs 1,024");
    expect(refused(standing(WIND, 1024), 22), "1,024 of them weigh 1,048,576");
    expect(refused(standing(WIND, 64), 22), "64 of them weigh 65,536");
}

static void test_open_cards(void)
{
    stripe_card(&card);
    put_weight(&card, PICK, 1); /* revision 1's body weighs 2 */
    expect(refused(standing(WIND, 0), 22), "a revision that does not lower the weight");
    stripe_card(&card);
    put_weight(&card, STRIPE, 1024);
    expect(as_before(standing(WIND, 0)), "a selection's plan that weighs 1,024");
    card.bytes[card.selection + 4] = 2; /* its plan is a stripe and a wind */
    expect(refused(standing(WIND, 0), 22), "a selection's plan that weighs 1,025");
}

static void test_order(void)
{
    struct rigtemple_configuration c = standing(STRIPE, 1024);
    stripe_card(&card);
    c.phase = 3;
    expect(refused(c, 13), "13 before 22");
    put_weight(&card, PICK, 1);
    expect(refused(c, 13), "13 before 22 on an open card");
    card.bytes[card.node] = 6;
    expect(refused(c, 6), "the card's refusals before both");
}

/* Moves of the guide's own by both calls, with the screen turned after each: 22 never comes. */
static void test_day(void)
{
    struct rigtemple_configuration c;
    uint8_t place[RIGTEMPLE_MOST_PLACE_BYTES], coming;
    uint16_t bytes, choice, node, moves;
    enum rigtemple_bounded_ending ending;
    int holds = 1;
    typical_card(&card);
    holds &= rigtemple_load(card.bytes, card.len, &c) == 0;
    for (unsigned i = 0; i < 300; i++) {
        holds &= rigtemple_next(card.bytes, card.len, &c, &coming, &choice) == 0;
        holds &= rigtemple_take_bounded(card.bytes, card.len, &c, choice, &node) == 0;
        holds &= rigtemple_save(card.bytes, card.len, &c, place, sizeof place, &bytes) == 0;
        holds &= rigtemple_restore(card.bytes, card.len, place, bytes, &c) == 0;
        holds &= rigtemple_run_bounded(card.bytes, card.len, &c, i, &moves, &ending) == 0;
        holds &= moves == i && ending == RIGTEMPLE_BOUNDED_SPENT;
    }
    expect(holds, "a day on the typical card");
}

int main(void)
{
    test_weights();
    test_open_cards();
    test_order();
    test_day();
    printf("%u passed, %u failed\n", passed, failed);
    return failed == 0 ? 0 : 1;
}
