/*
 * The two calls of include/rigtemple.h over text: cards made from texts, with every refusal of
 * theirs, and conditions printed, up to the longest.
 */
#include <stdio.h>
#include <string.h>

#include "cards.h"

#include "../include/rigtemple.h"

enum { LENT = 0xEE };

static unsigned passed, failed;

/* Counts one check; says which one failed. */
static void expect(int holds, const char *what)
{
    if (holds) {
        passed++;
    } else {
        failed++;
        printf("failed: %s\n", what);
    }
}

/* Whether all bytes from `at` on are as they were lent. */
static int lent(const uint8_t *bytes, size_t at, size_t end)
{
    while (at < end && bytes[at] == LENT)
        at++;
    return at == end;
}

/* ---- texts ---- */

static uint8_t made[RIGTEMPLE_MOST_CARD_BYTES];
static uint16_t made_len;
static size_t place;

/* Reads a text into `made`, lent filled, with so much of it for room. */
static uint16_t text(const char *bytes, size_t room)
{
    memset(made, LENT, sizeof made);
    made_len = LENT;
    place = LENT;
    return rigtemple_text((const uint8_t *)bytes, strlen(bytes), made, room, &made_len, &place);
}

/* Whether a text is refused so, with nothing written. */
static int refuses(const char *bytes, size_t room, uint16_t answer, size_t at)
{
    return text(bytes, room) == answer && place == at && made_len == 0 &&
           lent(made, 0, sizeof made);
}

/* The stripe card's text makes a card of 283 bytes that is woven in six moves. */
static void test_stripe_text(void)
{
    struct rigtemple_configuration c;
    uint16_t moves;
    uint8_t ending;
    expect(text(stripe_text, sizeof made) == RIGTEMPLE_ANSWER_DONE && made_len == 283 && place == 0 &&
               lent(made, 283, sizeof made),
           "the text is read, and nothing written behind the card");
    expect(rigtemple_check(made, made_len) == RIGTEMPLE_ANSWER_DONE, "the card is good");
    expect(rigtemple_load(made, made_len, &c) == RIGTEMPLE_ANSWER_DONE &&
               rigtemple_run(made, made_len, &c, 1000, &moves, &ending) == RIGTEMPLE_ANSWER_DONE &&
               moves == 6 && ending == RIGTEMPLE_ENDING_REST,
           "the card runs as the stripe card does");
    expect(text(stripe_text, 283) == RIGTEMPLE_ANSWER_DONE && lent(made, 283, sizeof made),
           "just the room");
    expect(refuses(stripe_text, 282, RIGTEMPLE_ANSWER_NO_ROOM, 0), "a byte too few");
    expect(refuses(stripe_text, 0, RIGTEMPLE_ANSWER_NO_ROOM, 0), "no room");
}

#define ACTION "atoms 2\naction 1\n"
#define BEGIN "begin beliefs goals plan\n"
#define DO(condition) ACTION "do 0 if " condition " add del\n" BEGIN
#define EIGHT "!!!!!!!!"

static const struct {
    const char *text;
    uint16_t answer;
    size_t place;
} refused[] = {
    {"", RIGTEMPLE_ANSWER_TEXT, 0},
    {"atoms", RIGTEMPLE_ANSWER_TEXT, 5},
    {"atoms x", RIGTEMPLE_ANSWER_TEXT, 6},
    {"atoms 2", RIGTEMPLE_ANSWER_TEXT, 7},
    {"atoms 2 \n", RIGTEMPLE_ANSWER_TEXT, 8},
    {ACTION "begin beliefs goals plan", RIGTEMPLE_ANSWER_TEXT, 41},
    {ACTION BEGIN "atoms 2\n", RIGTEMPLE_ANSWER_TEXT, 42},
    {DO("(B0|B1"), RIGTEMPLE_ANSWER_TEXT, 31},
    {DO(EIGHT EIGHT EIGHT EIGHT "!T)"), RIGTEMPLE_ANSWER_TEXT, 59},
    {DO(EIGHT EIGHT EIGHT EIGHT "!T"), RIGTEMPLE_ANSWER_NESTED, 0},
    {DO(EIGHT EIGHT EIGHT EIGHT "!B256"), RIGTEMPLE_ANSWER_NESTED, 0},
    {DO("B256"), RIGTEMPLE_ANSWER_LARGE, 0},
    {"atoms 65536\n" BEGIN, RIGTEMPLE_ANSWER_LARGE, 0},
    {ACTION BEGIN, RIGTEMPLE_ANSWER_COUNT, 0}, /* no condition, so no node */
    {"atoms 2\naction 0\nselect if T goal T plan 0\n" BEGIN, RIGTEMPLE_ANSWER_WEIGHT, 0},
    {DO("B2"), RIGTEMPLE_ANSWER_NODE, 0},
    {DO("G0"), RIGTEMPLE_ANSWER_RULE, 0},
    {ACTION "revise 1 if T to\n" BEGIN, RIGTEMPLE_ANSWER_ACTION_BYTE, 0},
    {ACTION "do 0 if T add 2 del\n" BEGIN, RIGTEMPLE_ANSWER_ATOM, 0},
};

static void test_refused_texts(void)
{
    for (unsigned i = 0; i < sizeof refused / sizeof refused[0]; i++)
        expect(refuses(refused[i].text, 0, refused[i].answer, refused[i].place) &&
                   refuses(refused[i].text, sizeof made, refused[i].answer, refused[i].place),
               refused[i].text);
    expect(text(DO(EIGHT EIGHT EIGHT EIGHT "T"), sizeof made) == RIGTEMPLE_ANSWER_DONE,
           "32 deep is read");
}

/* ---- conditions ---- */

static struct card_bytes card;
static uint8_t printed[RIGTEMPLE_MOST_PRINTED_BYTES + 8];
static uint16_t printed_len;

/* Prints a node into `printed`, lent filled, with so much of it for room. */
static uint16_t print(uint16_t node, size_t room)
{
    memset(printed, LENT, sizeof printed);
    printed_len = LENT;
    return rigtemple_print(card.bytes, card.len, node, printed, room, &printed_len);
}

static int prints(uint16_t node, const char *wanted)
{
    size_t len = strlen(wanted);
    return print(node, len) == RIGTEMPLE_ANSWER_DONE && printed_len == len &&
           memcmp(printed, wanted, len) == 0 && lent(printed, len, sizeof printed);
}

static int prints_not(uint16_t node, size_t room, uint16_t answer)
{
    return print(node, room) == answer && printed_len == 0 && lent(printed, 0, sizeof printed);
}

static void test_prints(void)
{
    stripe_card(&card);
    expect(prints(0, "T") && prints(1, "B1") && prints(3, "!B3") && prints(5, "G2"), "units");
    expect(prints(4, "B1&!B3"), "node 4");
    expect(prints_not(4, 5, RIGTEMPLE_ANSWER_NO_ROOM), "a byte too few");
    expect(prints_not(6, 9, RIGTEMPLE_ANSWER_RULE) && prints_not(65535, 9, RIGTEMPLE_ANSWER_RULE),
           "there is no such node");
    put_node(&card, 4, NODE_AND, 1, 4);
    expect(prints_not(1, 9, RIGTEMPLE_ANSWER_NODE), "the card is refused");
    put_node(&card, 3, NODE_OR, 1, 2);
    put_node(&card, 4, NODE_AND, 3, 3);
    expect(prints(4, "(B1|B3)&(B1|B3)"), "brackets where they must be");
    shared_nodes_card(&card);
    expect(prints_not(254, 9, RIGTEMPLE_ANSWER_NESTED), "too deep, and too large");
}

/* 256 printed nodes with all the brackets that there can be: node 24 is "not 23"; 10 to 23 are a
 * chain of "and", each with a chain of eight or nine "or" (nodes 8 and 9) for its left. */
static void test_longest(void)
{
    lay_out(&card, (struct counts){.atoms = 128, .actions = 1, .nodes = 60});
    put_node(&card, 0, NODE_BELIEVES, 127, 0);
    for (unsigned k = 1; k <= 9; k++)
        put_node(&card, k, NODE_OR, 0, k - 1);
    put_node(&card, 10, NODE_AND, 0, 0);
    for (unsigned k = 11; k <= 23; k++)
        put_node(&card, k, NODE_AND, k < 15 ? 8 : 9, k - 1);
    put_node(&card, 24, NODE_NOT, 23, 0);
    put_node(&card, 25, NODE_NOT, 24, 0);
    expect(print(24, sizeof printed) == RIGTEMPLE_ANSWER_DONE &&
               printed_len == RIGTEMPLE_MOST_PRINTED_BYTES &&
               lent(printed, RIGTEMPLE_MOST_PRINTED_BYTES, sizeof printed),
           "the longest text is printed");
    expect(prints_not(24, RIGTEMPLE_MOST_PRINTED_BYTES - 1, RIGTEMPLE_ANSWER_NO_ROOM),
           "a byte too few for the longest");
    expect(prints_not(25, sizeof printed, RIGTEMPLE_ANSWER_LARGE), "257 nodes");
    for (unsigned k = 26; k <= 58; k++)
        put_node(&card, k, NODE_NOT, k == 26 ? 0 : k - 1, 0);
    expect(print(57, sizeof printed) == RIGTEMPLE_ANSWER_DONE && printed_len == 36, "32 deep");
    expect(prints_not(58, sizeof printed, RIGTEMPLE_ANSWER_NESTED), "33 deep");
}

int main(void)
{
    test_stripe_text();
    test_refused_texts();
    test_prints();
    test_longest();
    printf("%u passed, %u failed\n", passed, failed);
    return failed != 0;
}
