/*
 * The sixteen calls of include/rigtemple.h, each as a function without arguments, and the cases in
 * which they are made: tests/stack.c measures the stack of these, and tests/bound.c holds these to
 * their bounds.
 */
#ifndef RIGTEMPLE_TESTS_CALLS_H
#define RIGTEMPLE_TESTS_CALLS_H

#include "../include/rigtemple.h"

enum { CALLS = 16 };

/* A call through the header: `make` answers what it answers. */
struct call {
    const char *name;
    uint16_t (*make)(void);
};
extern const struct call calls[CALLS];

/* All that the calls may write; `made` is what load and restore make. */
struct lent {
    struct rigtemple_configuration c, made;
    uint16_t list[RIGTEMPLE_MOST_LIST_ENTRIES], entries, judged, open_goals;
    uint8_t verdict, offender, ending, coming;
    enum rigtemple_bounded_ending bounded_ending;
    uint16_t number, node, moves, choice;
    uint8_t place[RIGTEMPLE_MOST_PLACE_BYTES];
    uint8_t card[RIGTEMPLE_MOST_CARD_BYTES];
    uint8_t text[RIGTEMPLE_MOST_PRINTED_BYTES];
    uint8_t remaining[RIGTEMPLE_MOST_REMAINING], remaining_length;
    const uint8_t *name;
    uint8_t sheet;
    uint16_t bytes;
    size_t wrong;
};
extern struct lent lent;

/* Lends it anew: `c` is the configuration of the case at hand, all else is filled. */
void lend(void);

/* The case at hand, in words: the card or text, and what else is given with it. */
extern const char *made_on, *made_with;

/* Visits every call, by its number in `calls`, in each of its cases. For the eight calls, next
 * and the two for bounded cards these are the stripe card, that one made endless, the typical card, the two worst, the card of
 * shared nodes, the deepest card and a refused one, and of edition 2 the high stripe card, the
 * typical one, the two widest and a refused one, each with its first configuration, with no plan
 * and with one of 1,024 actions, in each phase, with beliefs and without, and with a configuration
 * that is refused; for deliberate the same with programs that revise and act by the card's first
 * rules and by its last, with 128 entries that share their parts, of each kind that has some, and
 * with a refused program; for go on with each of these one number, as many as may remain, none, and
 * numbers that are refused; for name on each of these cards a master's sheet, alone and with a
 * shed's, with characters of one to four bytes, refused sheets, and known and unknown actions; for
 * print every node of these cards and of two that print much; for text texts with few and many
 * lines, nested 32 to 34 deep, and 60,000 brackets deep. */
void each_case(void (*visit)(unsigned call));

#endif
