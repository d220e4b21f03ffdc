/*
 * rigtemple_reach of include/rigtemple.h by hand, and rigtemple_reached_at: the lists of the stripe
 * card and of small cards of revisions, the phase and the finished count that do not matter, plans
 * that get too long, both editions, the room, and the refusals in their order. What is listed is
 * held against rigtemple_list and rigtemple_take too: each list leads to its configuration, every
 * transition from what is listed leads to what is listed, and no list is earlier than the one told.
 */
#include <stdio.h>
#include <string.h>

#include "cards.h"

#include "../include/rigtemple.h"

static unsigned passed, failed;

/* Counts one check; says which one failed. */
static void expect(int holds, const char *what)
{
    if (holds) {
        passed++;
    } else {
        failed++;
        printf("failed: %s\n", what);
    }
}

enum { FAR = RIGTEMPLE_MOST_TRANSITIONS, MOST = RIGTEMPLE_MOST_REACHED };
enum { ENTRY = RIGTEMPLE_REACHED_BYTES, ROOM = RIGTEMPLE_REACH_ROOM_BYTES };
enum { MORE = 132, LENT = 0xEE };
enum { DONE = RIGTEMPLE_ANSWER_DONE, FULL = RIGTEMPLE_ANSWER_PLAN_FULL };
enum { TOO_FAR = RIGTEMPLE_ANSWER_TOO_FAR, TOO_MANY = RIGTEMPLE_ANSWER_TOO_MANY };

/* The room that is lent, with bytes of the same behind it, and how many are listed in it. */
static uint8_t room[ROOM + MORE];
static uint16_t count;

static struct card_bytes card;

/* ---- configurations ---- */

/* So many times an action, and nothing else. */
static struct rigtemple_configuration planned(uint8_t action, unsigned times)
{
    struct rigtemple_configuration c = {.length = (uint16_t)times};
    memset(c.plan, action, times);
    return c;
}

/* Whether beliefs, goals and plan are the same. */
static int same(const struct rigtemple_configuration *one,
                const struct rigtemple_configuration *other)
{
    return memcmp(one->beliefs, other->beliefs, sizeof one->beliefs) == 0 &&
           memcmp(one->goals, other->goals, sizeof one->goals) == 0 &&
           memcmp(one->plan, other->plan, sizeof one->plan) == 0 && one->length == other->length;
}

/* ---- the call ---- */

/* Whether all bytes of the room from one on are as they were lent. */
static int lent_from(size_t at)
{
    while (at < sizeof room && room[at] == LENT)
        at++;
    return at == sizeof room;
}

/* Makes the call in so much of the room: what it answers. The configuration has to be as it was,
 * and so has what lies behind the entries; of a refusal there are none. */
static uint16_t reach_in(const struct card_bytes *of, const struct rigtemple_configuration *c,
                         unsigned far, size_t room_len)
{
    struct rigtemple_configuration before = *c;
    memset(room, LENT, sizeof room);
    count = 0xEEEE;
    uint16_t answer =
        rigtemple_reach(of->bytes, of->len, c, (uint16_t)far, room, room_len, &count);
    expect(same(c, &before) && c->phase == before.phase && c->finished == before.finished,
           "the configuration is as it was");
    expect(count <= MOST && lent_from((size_t)ENTRY * count), "no more of the room is written");
    expect((answer == DONE) == (count > 0), "one at least is listed, and none by a refusal");
    return answer;
}

static uint16_t reach(const struct card_bytes *of, const struct rigtemple_configuration *c,
                      unsigned far)
{
    return reach_in(of, c, far, ROOM);
}

static struct rigtemple_reached entry(unsigned k)
{
    struct rigtemple_reached told;
    memset(&told, LENT, sizeof told);
    rigtemple_reached_at(room, (uint16_t)k, &told);
    return told;
}

/* Whether entry k is of so many choices, and of those. */
static int by_choices(unsigned k, const uint16_t *choices, unsigned transitions)
{
    struct rigtemple_reached told = entry(k);
    uint16_t wanted[FAR] = {0};
    memcpy(wanted, choices, sizeof wanted[0] * transitions);
    return told.transitions == transitions &&
           memcmp(told.choices, wanted, sizeof told.choices) == 0 && told.c.phase == 0 &&
           told.c.finished == 0;
}

/* ---- what is listed, held against the list and the take ---- */

/* Whether a list of choices stands before another, or is the same. */
static int not_later(const uint16_t *one, unsigned length, const uint16_t *other, unsigned limit)
{
    if (length != limit)
        return length < limit;
    for (unsigned i = 0; i < length; i++)
        if (one[i] != other[i])
            return one[i] < other[i];
    return 1;
}

/* The entry of a configuration; `count` if it is not listed. */
static unsigned entry_of(const struct rigtemple_configuration *c)
{
    unsigned k = 0;
    for (; k < count; k++) {
        struct rigtemple_reached told = entry(k);
        if (same(&told.c, c))
            break;
    }
    return k;
}

/* Whether the choices of an entry, taken one after the other, lead to its configuration. */
static int leads_there(const struct card_bytes *of, struct rigtemple_configuration c, unsigned k)
{
    struct rigtemple_reached told = entry(k);
    uint16_t node;
    for (unsigned i = 0; i < told.transitions; i++)
        if (rigtemple_take(of->bytes, of->len, &c, told.choices[i], &node) != DONE)
            return 0;
    return same(&c, &told.c) && entry_of(&c) == k;
}

/* Whether each transition from an entry leads to one whose list is no later than this one's and the
 * choice behind it. */
static int leads_on(const struct card_bytes *of, unsigned k)
{
    struct rigtemple_reached from = entry(k);
    uint16_t codes[RIGTEMPLE_MOST_LIST_ENTRIES], entries, node;
    if (rigtemple_list(of->bytes, of->len, &from.c, codes, RIGTEMPLE_MOST_LIST_ENTRIES,
                       &entries) != DONE)
        return 0;
    for (unsigned i = 0; i < entries; i++) {
        struct rigtemple_configuration c = from.c;
        if (rigtemple_take(of->bytes, of->len, &c, codes[i], &node) != DONE)
            return 0;
        unsigned at = entry_of(&c);
        if (at == count)
            return 0;
        struct rigtemple_reached to = entry(at);
        from.choices[from.transitions] = codes[i];
        if (!not_later(to.choices, to.transitions, from.choices, from.transitions + 1u))
            return 0;
    }
    return 1;
}

/* Every one that is reachable is listed, once, by its first list, in order; so many they are. */
static void test_every_one(const struct card_bytes *of, const struct rigtemple_configuration *c,
                           unsigned far, unsigned wanted)
{
    expect(reach(of, c, far) == DONE && count == wanted, "so many are reachable");
    for (unsigned k = 0; k < count; k++) {
        struct rigtemple_reached told = entry(k), next = entry(k + 1 < count ? k + 1 : k);
        expect(told.transitions <= far && leads_there(of, *c, k), "the list leads there");
        expect(told.transitions == far || leads_on(of, k), "what is behind it is listed, too");
        expect(not_later(told.choices, told.transitions, next.choices, next.transitions),
               "they are in order");
    }
    expect(count > 0 && entry(0).transitions == 0 && entry_of(c) == 0, "the first is this one");
}

/* ---- the stripe card ---- */

/* Document 01's six steps, by their codes. */
static const uint16_t steps[] = {0, 512, 257, 513, 258, 256};

/* The steps, a choice each, by each d; beliefs, goals and plan are those of the run. */
static void test_steps(void)
{
    struct rigtemple_configuration c, ran;
    uint16_t moves;
    uint8_t ending;
    expect(rigtemple_load(card.bytes, card.len, &c) == DONE, "the card loads");
    for (unsigned far = 0; far <= FAR; far++) {
        test_every_one(&card, &c, far, far < 6 ? far + 1 : 7);
        for (unsigned k = 0; k < count; k++) {
            struct rigtemple_reached told = entry(k);
            ran = c;
            uint16_t answer =
                rigtemple_run(card.bytes, card.len, &ran, (uint16_t)k, &moves, &ending);
            expect(answer == DONE && same(&told.c, &ran) && by_choices(k, steps, k),
                   "each step is one further");
        }
    }
}

/* Where the third entry has what: at 2,248 the transitions, then the choices, the plan's length,
 * beliefs, goals and plan. */
static void test_layout(void)
{
    static const uint8_t first[] = {2, 0, 0, 0, 0, 2};
    struct rigtemple_configuration c;
    const uint8_t *third = room + 2 * 1124;
    uint8_t wanted[ENTRY] = {0};
    expect(rigtemple_load(card.bytes, card.len, &c) == DONE && reach(&card, &c, 2) == DONE &&
               count == 3,
           "three are listed");
    memcpy(wanted, first, sizeof first);
    wanted[34] = 2;  /* the plan's length */
    wanted[36] = 9;  /* threaded and broken */
    wanted[68] = 4;  /* the band is wanted */
    wanted[100] = 1; /* wind */
    wanted[101] = 3; /* pick */
    expect(memcmp(third, wanted, ENTRY) == 0, "the bytes of an entry");
}

/* "Phase and finished count ignored": the same bytes from each, where each is accepted. */
static void test_phases(void)
{
    static const uint16_t counts[] = {0, 1, 65535};
    static uint8_t first[ROOM + MORE];
    struct rigtemple_configuration c;
    expect(rigtemple_load(card.bytes, card.len, &c) == DONE && reach(&card, &c, FAR) == DONE,
           "what is reachable");
    memcpy(first, room, sizeof room);
    for (c.phase = 0; c.phase < 3; c.phase++)
        for (unsigned i = 0; i < 3; i++) {
            c.finished = counts[i];
            expect(reach(&card, &c, FAR) == DONE && memcmp(first, room, sizeof room) == 0,
                   "the same from each phase and count");
        }
}

/* ---- cards of revisions ---- */

/* Revisions between plans of one action, "from" and "to" of each. */
static void edges_card(struct card_bytes *to, unsigned actions, const uint8_t (*edges)[2],
                       unsigned edge_count)
{
    lay_out(to, (struct counts){.atoms = 1,
                                .actions = actions,
                                .nodes = 1,
                                .revisions = edge_count,
                                .pool = actions});
    for (unsigned k = 0; k < actions; k++)
        to->bytes[to->pool + k] = (uint8_t)k;
    for (unsigned i = 0; i < edge_count; i++)
        put_revision(to, i, 0, edges[i][0], 1, edges[i][1], 1);
}

/* An entry wanted: its action, how many choices, and those. */
struct wanted {
    uint8_t action;
    unsigned transitions;
    uint16_t choices[3];
};

static void test_wanted(const struct wanted *wanted, unsigned entries, unsigned far)
{
    struct rigtemple_configuration c = planned(0, 1);
    test_every_one(&card, &c, far, entries);
    for (unsigned k = 0; k < entries; k++) {
        struct rigtemple_configuration there = planned(wanted[k].action, 1);
        struct rigtemple_reached told = entry(k);
        expect(same(&told.c, &there), "the plan is that");
        expect(by_choices(k, wanted[k].choices, wanted[k].transitions), "by that list");
    }
}

/* Two lists of two choices to 3; and with the numbers of the last choices turned. */
static void test_diamonds(void)
{
    static const uint8_t diamond[][2] = {{0, 1}, {0, 2}, {1, 3}, {2, 3}};
    static const uint8_t crossed[][2] = {{0, 1}, {0, 2}, {2, 3}, {1, 3}};
    static const struct wanted by_1[] = {
        {0, 0, {0}}, {1, 1, {512}}, {2, 1, {513}}, {3, 2, {512, 514}}};
    static const struct wanted by_higher[] = {
        {0, 0, {0}}, {1, 1, {512}}, {2, 1, {513}}, {3, 2, {512, 515}}};
    edges_card(&card, 4, diamond, 4);
    test_wanted(by_1, 4, FAR);
    test_wanted(by_1, 4, 2);
    test_wanted(by_1, 3, 1);
    test_wanted(by_1, 1, 0);
    edges_card(&card, 4, crossed, 4);
    test_wanted(by_higher, 4, FAR);
}

/* A short list of a high number before a long one of low ones; and choices that lead back, stay, or
 * lead to the same. */
static void test_short_cut(void)
{
    static const uint8_t cut[][2] = {{0, 1}, {1, 2}, {2, 3}, {0, 3}};
    static const uint8_t loops[][2] = {{0, 0}, {0, 1}, {0, 1}, {1, 0}, {1, 1}};
    static const struct wanted cut_wanted[] = {
        {0, 0, {0}}, {1, 1, {512}}, {3, 1, {515}}, {2, 2, {512, 513}}};
    static const struct wanted loops_wanted[] = {{0, 0, {0}}, {1, 1, {513}}};
    edges_card(&card, 4, cut, 4);
    test_wanted(cut_wanted, 4, FAR);
    edges_card(&card, 2, loops, 5);
    test_wanted(loops_wanted, 2, FAR);
}

/* A ring of so many plans: from each to the next and to the one before. */
static void ring_card(unsigned places)
{
    static uint8_t edges[2 * 40][2];
    for (unsigned k = 0; k < places; k++) {
        edges[2 * k][0] = edges[2 * k + 1][0] = (uint8_t)k;
        edges[2 * k][1] = (uint8_t)((k + 1) % places);
        edges[2 * k + 1][1] = (uint8_t)((k + places - 1) % places);
    }
    edges_card(&card, places, (const uint8_t(*)[2])edges, 2 * places);
}

/* 32 are listed, and 33 are too many, also where they are that only at the last transition. */
static void test_rings(void)
{
    struct rigtemple_configuration c = planned(0, 1);
    ring_card(31);
    test_every_one(&card, &c, FAR, 31);
    ring_card(32);
    test_every_one(&card, &c, FAR, 32);
    test_every_one(&card, &c, 15, 31);
    ring_card(33);
    expect(reach(&card, &c, FAR) == TOO_MANY, "33 are too many");
    test_every_one(&card, &c, 15, 31);
    ring_card(40);
    expect(reach(&card, &c, FAR) == TOO_MANY, "33 of 40 are too many");
    test_every_one(&card, &c, 15, 31);
}

/* ---- other cards ---- */

/* All kinds of transitions; of edition 2 too, and with goals that fall on the way. */
static void test_kinds(void)
{
    struct rigtemple_configuration c = planned(0, 0);
    switches_card(&card);
    test_every_one(&card, &c, FAR, 32);
    test_every_one(&card, &c, 4, 19);
    widen(&card);
    test_every_one(&card, &c, FAR, 32);
    c.goals[0] = 1;
    expect(reach(&card, &c, FAR) == TOO_MANY, "with a goal they are more");
    test_every_one(&card, &c, 3, 16);
    high_stripe_card(&card);
    expect(rigtemple_load(card.bytes, card.len, &c) == DONE, "the card loads");
    test_every_one(&card, &c, FAR, 7);
    struct rigtemple_reached last = entry(6);
    expect(last.c.beliefs[31] == 0x50 && last.c.goals[31] == 0, "atoms 252 and 254, and no goal");
    endless_stripe_card(&card);
    expect(rigtemple_load(card.bytes, card.len, &c) == DONE, "the card loads");
    test_every_one(&card, &c, FAR, 11);
}

/* The cards that take longest. */
static void test_worst(void)
{
    struct rigtemple_configuration c;
    for (int acts = 0; acts < 2; acts++) {
        worst_reach_card(&card, acts);
        expect(rigtemple_load(card.bytes, card.len, &c) == DONE && c.length == 1024,
               "the card loads");
        test_every_one(&card, &c, FAR, 32);
    }
}

/* ---- plans that get too long ---- */

/* Revision 0 makes 0 0 of 0; the others another action each. */
static void longer_card(unsigned others)
{
    lay_out(&card, (struct counts){.atoms = 1,
                                   .actions = 33,
                                   .nodes = 1,
                                   .revisions = 1 + others,
                                   .pool = 34});
    for (unsigned k = 1; k < 33; k++)
        card.bytes[card.pool + k + 1] = (uint8_t)k;
    put_revision(&card, 0, 0, 0, 1, 0, 2);
    for (unsigned k = 1; k <= others; k++)
        put_revision(&card, k, 0, 0, 1, k + 1, 1);
}

/* 11 if one that is reachable in fewer than d has such a transition; 24 is before it. */
static void test_full(void)
{
    struct rigtemple_configuration c = planned(0, 1024);
    longer_card(0);
    test_every_one(&card, &c, 0, 1);
    expect(reach(&card, &c, 1) == FULL, "the first has a transition that does not fit");
    expect(reach(&card, &c, FAR) == FULL, "the same, further");
    c = planned(0, 1022);
    test_every_one(&card, &c, 2, 3);
    expect(reach(&card, &c, 3) == FULL, "one reached in two has such a transition");
    c = planned(0, 1);
    test_every_one(&card, &c, FAR, 17);
    c = planned(0, 1024);
    longer_card(31);
    expect(reach(&card, &c, 1) == FULL, "32 are reachable, and one transition does not fit");
    longer_card(32);
    expect(reach(&card, &c, 1) == TOO_MANY, "33 are reachable, and one transition does not fit");
    test_every_one(&card, &c, 0, 1);
}

/* ---- the room and the refusals ---- */

static void test_room(void)
{
    struct rigtemple_configuration c;
    stripe_card(&card);
    expect(rigtemple_load(card.bytes, card.len, &c) == DONE, "the card loads");
    for (size_t more = 0; more <= MORE; more += 66)
        expect(reach_in(&card, &c, FAR, ROOM + more) == DONE && count == 7, "more room will do");
    static const size_t too_short[] = {0, 1, ENTRY, 7 * ENTRY, ROOM - ENTRY, ROOM - 1};
    for (unsigned i = 0; i < sizeof too_short / sizeof too_short[0]; i++)
        for (unsigned far = 0; far <= FAR; far += FAR)
            expect(reach_in(&card, &c, far, too_short[i]) == RIGTEMPLE_ANSWER_NO_ROOM,
                   "less room will not do, however few there are");
}

/* Each refusal before the next: 1 to 9, 13, 23, 12, 24, 11. */
static void test_refused(void)
{
    struct card_bytes bad;
    struct rigtemple_configuration c = planned(0, 1024), wrong = c;
    wrong.phase = 3;
    longer_card(32);
    bad = card;
    bad.len--;
    expect(reach_in(&bad, &wrong, 17, 0) == RIGTEMPLE_ANSWER_OFFSETS, "4 before 13");
    bad.len = 63;
    expect(reach_in(&bad, &wrong, 17, 0) == RIGTEMPLE_ANSWER_SHORT, "1 before all");
    expect(reach_in(&card, &wrong, 17, 0) == RIGTEMPLE_ANSWER_CONFIGURATION, "13 before 23");
    wrong = planned(33, 1);
    expect(reach(&card, &wrong, FAR) == RIGTEMPLE_ANSWER_CONFIGURATION, "an unknown action");
    wrong = planned(0, 2);
    wrong.length = 1;
    wrong.plan[1] = 1;
    expect(reach(&card, &wrong, FAR) == RIGTEMPLE_ANSWER_CONFIGURATION, "a byte after the plan");
    static const unsigned far[] = {17, 18, 255, 256, 272, 32768, 65535};
    for (unsigned i = 0; i < sizeof far / sizeof far[0]; i++)
        expect(reach_in(&card, &c, far[i], 0) == TOO_FAR, "23 before 12");
    expect(reach_in(&card, &c, FAR, ROOM - 1) == RIGTEMPLE_ANSWER_NO_ROOM, "12 before 24");
    expect(reach(&card, &c, FAR) == TOO_MANY, "24 before 11");
}

int main(void)
{
    stripe_card(&card);
    test_steps();
    test_layout();
    test_phases();
    test_diamonds();
    test_short_cut();
    test_rings();
    test_kinds();
    test_worst();
    test_full();
    test_room();
    test_refused();
    printf("%u passed, %u failed\n", passed, failed);
    return failed != 0;
}
