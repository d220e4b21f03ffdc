/*
 * Cards written in C: the layout of both editions, entry by entry, and the cards that the C
 * programs under tests/ and bench/ use.
 */
#ifndef RIGTEMPLE_TESTS_CARDS_H
#define RIGTEMPLE_TESTS_CARDS_H

#include <stddef.h>
#include <stdint.h>

/* The kinds of nodes. */
enum { NODE_TRUE, NODE_BELIEVES, NODE_HAS_GOAL, NODE_NOT, NODE_AND, NODE_OR };

/* How many of each a card holds; its edition, where that is not 1. */
struct counts {
    unsigned atoms, actions, nodes, specifications, selections, revisions, pool, edition;
};

/* A card, the bytes of its sets, and where its sections begin. */
struct card_bytes {
    uint8_t bytes[32352];
    size_t len;
    unsigned set, node, specification, selection, revision, pool;
};

/* "Numbers are two bytes, low byte first." */
void put_card_number(uint8_t *at, unsigned value);

/* Puts an atom in a set: "atom k is bit (k modulo 8) of byte (k divided by 8)". */
void put_atom(uint8_t *set, unsigned atom);

/* Writes header and weights (1 each); every section is zeros, so that all nodes are "true". */
void lay_out(struct card_bytes *card, struct counts counts);

void put_weight(struct card_bytes *card, unsigned action, unsigned weight);
void put_node(struct card_bytes *card, unsigned number, unsigned kind, unsigned a, unsigned b);
void put_initial_plan(struct card_bytes *card, unsigned start, unsigned length);
void put_selection(struct card_bytes *card, unsigned number, unsigned belief_node,
                   unsigned goal_node, unsigned start, unsigned length);
void put_revision(struct card_bytes *card, unsigned number, unsigned node, unsigned head_start,
                  unsigned head_length, unsigned body_start, unsigned body_length);

/* Writes a specification that adds and deletes nothing; its sets are added_by and deleted_by. */
void put_specification(struct card_bytes *card, unsigned number, unsigned action, unsigned node);
uint8_t *added_by(struct card_bytes *card, unsigned number);
uint8_t *deleted_by(struct card_bytes *card, unsigned number);

uint8_t *initial_beliefs(struct card_bytes *card);
uint8_t *initial_goals(struct card_bytes *card);

/* "The stripe card": 255 bytes. */
void stripe_card(struct card_bytes *card);

/* A text that makes the stripe card, but for its nodes, of which none is shared: 283 bytes. */
extern const char stripe_text[];

/* The stripe card made endless: its selection rule asks for no goal, so that a stripe that is
 * woven is woven again. */
void endless_stripe_card(struct card_bytes *card);

/* 256 nodes: 0 "believes 0", each from the second on "k-1 and k-1", and the last "true". An entry
 * of each kind uses node 254, which as a tree has 2^254 leaves. */
void shared_nodes_card(struct card_bytes *card);

/* 256 nodes: 0 "believes 0", each from the second on "not k-1", and the last "true". An entry of
 * each kind uses node 254, which nests 254 deep. */
void deepest_card(struct card_bytes *card);

/* The same card in edition 2: sets of 32 bytes, and the same atoms. */
void widen(struct card_bytes *card);

/* The stripe card in edition 2 with 256 atoms, of which its four are 252 to 255. */
void high_stripe_card(struct card_bytes *card);

/* A card of 24,128 bytes as a designer might fill it: half of the actions are done, each in one
 * of two ways, the others are abstract plans that revisions spell out, at most 4 actions at a
 * time; selection plans of 16 actions. Bounded; its run never rests. */
void typical_card(struct card_bytes *card);

/* What a chain card looks like. `rules` is the number of specifications, of selection rules and
 * of revision rules, at least 2; `nodes` is at least 5. */
struct chain {
    unsigned atoms, actions, nodes, rules, pool, head, plan;
    int acts;
    unsigned edition; /* 0 for 1 */
};

/* A card whose every move is the last that is looked at. The plan is action 0, `plan` times; the
 * conditions are a chain in which each node needs the one before. All revision heads are `head`
 * actions long and all but the last rule's differ from the plan in their last action. If `acts`
 * is 0 every move is a revision of the plan to itself, and before it all specifications are
 * looked at in vain. Otherwise actions that change the beliefs take turns with revisions that
 * put the action back. The run never rests. The pool has at least 1,024 + head bytes, the head is
 * shorter than the plan if `acts`, and no longer otherwise. */
void chain_card(struct card_bytes *card, struct chain chain);

/* The worst card for a run: 24,128 bytes, heads of 1,024, or of 1,023 if `acts`. */
void worst_card(struct card_bytes *card, int acts);

/* The same in edition 2, with 256 atoms: 32,352 bytes. */
void widest_card(struct card_bytes *card, int acts);

#endif
