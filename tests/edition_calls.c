/*
 * Cards and places of both editions through include/rigtemple.h, as an app makes the calls: the
 * sizes of edition 2, atoms from 128 on, a place under a card of the other edition, and the order
 * of the answers 1 and 2.
 */
#include <stdio.h>
#include <string.h>

#include "cards.h"

#include "../include/rigtemple.h"

static unsigned passed, failed;

/* Counts one check; says which one failed. */
static void expect(int holds, const char *what)
{
    if (holds) {
        passed++;
    } else {
        failed++;
        printf("failed: %s\n", what);
    }
}

/* The stripe card, the same in edition 2, and the same with its atoms from 252 on. */
static struct card_bytes stripe, wide, high;

static int is_empty(const struct rigtemple_configuration *c)
{
    static const struct rigtemple_configuration empty;
    return memcmp(c->beliefs, empty.beliefs, sizeof c->beliefs) == 0 &&
           memcmp(c->goals, empty.goals, sizeof c->goals) == 0 &&
           memcmp(c->plan, empty.plan, sizeof c->plan) == 0 && c->length == 0 && c->phase == 0 &&
           c->finished == 0;
}

static int has_atom(const uint8_t *set, unsigned atom)
{
    return set[atom / 8] >> atom % 8 & 1;
}

static struct rigtemple_configuration begin(const struct card_bytes *card)
{
    struct rigtemple_configuration c;
    memset(&c, 0xEE, sizeof c);
    expect(rigtemple_load(card->bytes, card->len, &c) == RIGTEMPLE_ANSWER_DONE, "the card loads");
    return c;
}

/* ---- sizes ---- */

static void test_sizes(void)
{
    static struct card_bytes widest;
    struct rigtemple_configuration c;
    uint8_t place[RIGTEMPLE_MOST_PLACE_BYTES + 1];
    uint16_t bytes = 9;
    expect(wide.len == 383 && high.len == 383, "the stripe card in edition 2 is 383 bytes");
    widest_card(&widest, 0);
    expect(widest.len == RIGTEMPLE_MOST_CARD_BYTES, "the largest card is 32,352 bytes");
    c = begin(&widest);
    expect(c.length == RIGTEMPLE_MOST_PLAN_ACTIONS && has_atom(c.beliefs, 255) &&
               has_atom(c.goals, 254),
           "the largest card's plan, and its last atoms");
    memset(place, 0xEE, sizeof place);
    expect(rigtemple_save(widest.bytes, widest.len, &c, place, RIGTEMPLE_MOST_PLACE_BYTES - 1,
                          &bytes) == RIGTEMPLE_ANSWER_NO_ROOM &&
               bytes == 0 && place[0] == 0xEE,
           "no room for the largest place");
    expect(rigtemple_save(widest.bytes, widest.len, &c, place, RIGTEMPLE_MOST_PLACE_BYTES,
                          &bytes) == RIGTEMPLE_ANSWER_DONE &&
               bytes == RIGTEMPLE_MOST_PLACE_BYTES && place[RIGTEMPLE_MOST_PLACE_BYTES] == 0xEE,
           "the largest place is 1,100 bytes");
    put_card_number(widest.bytes + 2, 1);
    expect(rigtemple_check(widest.bytes, widest.len) == RIGTEMPLE_ANSWER_COUNT,
           "256 atoms are too many for edition 1");
}

/* The number of atoms: up to 128 in edition 1, up to 256 in edition 2. */
static void test_atoms(void)
{
    static const unsigned counts[] = {0, 4, 127, 128, 129, 255, 256, 257, 65535};
    for (unsigned i = 0; i < sizeof counts / sizeof counts[0]; i++) {
        struct card_bytes narrow = stripe, other = wide;
        put_card_number(narrow.bytes + 4, counts[i]);
        put_card_number(other.bytes + 4, counts[i]);
        expect((rigtemple_check(narrow.bytes, narrow.len) == RIGTEMPLE_ANSWER_DONE) ==
                   (counts[i] >= 4 && counts[i] <= 128),
               "the atoms of edition 1");
        expect((rigtemple_check(other.bytes, other.len) == RIGTEMPLE_ANSWER_DONE) ==
                   (counts[i] >= 4 && counts[i] <= RIGTEMPLE_MOST_ATOMS),
               "the atoms of edition 2");
    }
}

/* ---- moves ---- */

/* The six moves of the stripe card, whatever its atoms are called. */
static void test_moves(const struct card_bytes *card, unsigned first)
{
    static const uint16_t wanted[] = {0, 512, 257, 513, 258, 256};
    struct rigtemple_configuration c = begin(card);
    uint8_t coming;
    uint16_t choice, node;
    for (unsigned i = 0; i < 6; i++)
        expect(rigtemple_next(card->bytes, card->len, &c, &coming, &choice) ==
                       RIGTEMPLE_ANSWER_DONE &&
                   coming == RIGTEMPLE_NEXT_MOVE && choice == wanted[i] &&
                   rigtemple_take(card->bytes, card->len, &c, choice, &node) ==
                       RIGTEMPLE_ANSWER_DONE,
               "a move of the stripe card");
    expect(has_atom(c.beliefs, first) && has_atom(c.beliefs, first + 2) &&
               !has_atom(c.beliefs, first + 1) && !has_atom(c.beliefs, first + 3) &&
               !has_atom(c.goals, first + 2) && c.finished == 1,
           "the band is believed, and is no goal");
    expect(rigtemple_next(card->bytes, card->len, &c, &coming, &choice) == RIGTEMPLE_ANSWER_DONE &&
               coming == RIGTEMPLE_NEXT_REST,
           "the card is at rest");
}

/* "P6 becomes 16 with node 2", with atom 255. */
static void test_node(void)
{
    struct rigtemple_configuration c = {.plan = {3}, .length = 1};
    uint16_t node = 9;
    expect(rigtemple_take(high.bytes, high.len, &c, 513, &node) ==
                   RIGTEMPLE_ANSWER_CONDITION &&
               node == 2,
           "a condition on atom 255 is false");
    c.beliefs[31] = 0x80;
    expect(rigtemple_take(high.bytes, high.len, &c, 513, &node) == RIGTEMPLE_ANSWER_DONE,
           "a condition on atom 255 is true");
}

/* An atom from 128 on is unknown to each card of edition 1, and to one of few atoms. */
static void test_unknown_atoms(void)
{
    uint16_t moves;
    uint8_t ending;
    for (unsigned atom = 4; atom < RIGTEMPLE_MOST_ATOMS; atom++) {
        struct rigtemple_configuration c = {.phase = 0};
        uint8_t *set = atom % 2 ? c.beliefs : c.goals;
        put_atom(set, atom);
        expect(rigtemple_run(stripe.bytes, stripe.len, &c, 1, &moves, &ending) ==
                       RIGTEMPLE_ANSWER_CONFIGURATION &&
                   rigtemple_run(wide.bytes, wide.len, &c, 1, &moves, &ending) ==
                       RIGTEMPLE_ANSWER_CONFIGURATION &&
                   has_atom(set, atom),
               "an unknown atom");
        expect(rigtemple_run(high.bytes, high.len, &c, 0, &moves, &ending) ==
                   RIGTEMPLE_ANSWER_DONE,
               "a card of 256 atoms knows them all");
    }
}

static void test_print(void)
{
    uint8_t text[RIGTEMPLE_MOST_PRINTED_BYTES];
    uint16_t bytes;
    expect(rigtemple_print(high.bytes, high.len, 4, text, sizeof text, &bytes) ==
                   RIGTEMPLE_ANSWER_DONE &&
               bytes == 10 && memcmp(text, "B253&!B255", 10) == 0,
           "a condition on atoms from 128 on is printed");
}

/* ---- places ---- */

/* The place of the high stripe card after its first move, byte for byte. */
static void test_place(void)
{
    static const uint8_t wanted[77] = {0x33, 0x50, 2, 0, 1, 0, 76, 0, 1, 0, 0, 0,
                                       [43] = 0x90, [75] = 0x40, [76] = 4};
    struct rigtemple_configuration c = begin(&high), back;
    uint8_t place[RIGTEMPLE_MOST_PLACE_BYTES];
    uint16_t bytes = 0, node;
    expect(rigtemple_take(high.bytes, high.len, &c, 0, &node) == RIGTEMPLE_ANSWER_DONE &&
               rigtemple_save(high.bytes, high.len, &c, place, sizeof place, &bytes) ==
                   RIGTEMPLE_ANSWER_DONE &&
               bytes == sizeof wanted && memcmp(place, wanted, sizeof wanted) == 0,
           "a place of edition 2");
    memset(&back, 0xEE, sizeof back);
    expect(rigtemple_restore(high.bytes, high.len, place, bytes, &back) ==
                   RIGTEMPLE_ANSWER_DONE &&
               memcmp(back.beliefs, c.beliefs, sizeof c.beliefs) == 0 &&
               memcmp(back.goals, c.goals, sizeof c.goals) == 0 && back.length == 1 &&
               back.plan[0] == 4 && back.phase == 1,
           "a place of edition 2 is restored");
    expect(rigtemple_restore(wide.bytes, wide.len, place, bytes, &back) ==
                   RIGTEMPLE_ANSWER_ATOM &&
               is_empty(&back),
           "a place of another card of the edition");
    expect(rigtemple_restore(stripe.bytes, stripe.len, place, bytes, &back) ==
                   RIGTEMPLE_ANSWER_MARK &&
               is_empty(&back),
           "a place of edition 2 under a card of edition 1");
}

/* A place cut at each length, under its own card and under one of the other edition. */
static void test_cut_places(const struct card_bytes *card, const struct card_bytes *other,
                            unsigned header)
{
    struct rigtemple_configuration c = begin(card), back;
    uint8_t place[RIGTEMPLE_MOST_PLACE_BYTES];
    uint16_t bytes = 0, node;
    int own = rigtemple_take(card->bytes, card->len, &c, 0, &node) == RIGTEMPLE_ANSWER_DONE &&
              rigtemple_save(card->bytes, card->len, &c, place, sizeof place, &bytes) ==
                  RIGTEMPLE_ANSWER_DONE;
    expect(own && bytes == header + 1, "a place");
    for (unsigned size = 0; size < bytes; size++) {
        uint16_t short_of = size < header ? RIGTEMPLE_ANSWER_SHORT : RIGTEMPLE_ANSWER_OFFSETS;
        expect(rigtemple_restore(card->bytes, card->len, place, size, &back) == short_of &&
                   is_empty(&back),
               "a place that is cut");
        expect(rigtemple_restore(other->bytes, other->len, place, size, &back) ==
                       (size < 4 ? RIGTEMPLE_ANSWER_SHORT : RIGTEMPLE_ANSWER_MARK) &&
                   is_empty(&back),
               "a place of the other edition that is cut");
    }
}

/* ---- the order of 1 and 2 ---- */

/* A card cut at each length, as it is, with a wrong mark, and with an edition that is none. */
static void test_cut_cards(const struct card_bytes *card, unsigned header)
{
    struct card_bytes marked = *card, of_none = *card;
    marked.bytes[1] = 0x50;
    put_card_number(of_none.bytes + 2, 3);
    for (size_t size = 0; size < card->len; size++) {
        uint16_t wrong = size < 4 ? RIGTEMPLE_ANSWER_SHORT : RIGTEMPLE_ANSWER_MARK;
        expect(rigtemple_check(card->bytes, size) ==
                   (size < header ? RIGTEMPLE_ANSWER_SHORT : RIGTEMPLE_ANSWER_OFFSETS),
               "a card that is cut");
        expect(rigtemple_check(marked.bytes, size) == wrong, "a wrong mark, cut");
        expect(rigtemple_check(of_none.bytes, size) == wrong, "a wrong edition, cut");
    }
}

static void test_editions(void)
{
    static const unsigned none[] = {0, 3, 255, 256, 257, 258, 512, 513, 514, 65535};
    struct card_bytes other = wide;
    for (unsigned i = 0; i < sizeof none / sizeof none[0]; i++) {
        put_card_number(other.bytes + 2, none[i]);
        expect(rigtemple_check(other.bytes, other.len) == RIGTEMPLE_ANSWER_MARK,
               "an edition that is none");
    }
    put_card_number(other.bytes + 2, 1);
    expect(rigtemple_check(other.bytes, other.len) == RIGTEMPLE_ANSWER_OFFSETS,
           "a card of edition 2 that says 1");
    other = stripe;
    put_card_number(other.bytes + 2, 2);
    expect(rigtemple_check(other.bytes, other.len) == RIGTEMPLE_ANSWER_OFFSETS &&
               rigtemple_check(other.bytes, 95) == RIGTEMPLE_ANSWER_SHORT,
           "a card of edition 1 that says 2");
}

int main(void)
{
    stripe_card(&stripe);
    wide = stripe;
    widen(&wide);
    high_stripe_card(&high);
    test_sizes();
    test_atoms();
    test_moves(&stripe, 0);
    test_moves(&wide, 0);
    test_moves(&high, 252);
    test_node();
    test_unknown_atoms();
    test_print();
    test_place();
    test_cut_places(&stripe, &wide, 44);
    test_cut_places(&wide, &stripe, 76);
    test_cut_places(&high, &stripe, 76);
    test_cut_cards(&stripe, 64);
    test_cut_cards(&wide, 96);
    test_editions();
    printf("%u passed, %u failed\n", passed, failed);
    return failed != 0;
}
