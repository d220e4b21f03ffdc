/* Cards written in C: the layout of both editions, and the cards of the C programs. */
#include <string.h>

#include "cards.h"

/* ---- the layout ---- */

void put_card_number(uint8_t *at, unsigned value)
{
    at[0] = (uint8_t)value;
    at[1] = (uint8_t)(value >> 8);
}

void put_atom(uint8_t *set, unsigned atom)
{
    set[atom / 8] |= (uint8_t)(1u << atom % 8);
}

/* Writes the number of a section's entries and its offset; the offset of the next one. */
static unsigned put_section(uint8_t *at, unsigned count, unsigned offset, unsigned size)
{
    put_card_number(at, count);
    put_card_number(at + 2, offset);
    return offset + count * size;
}

/* The bytes before the weights, and those of a specification, by the bytes of a set. */
static unsigned weights_at(const struct card_bytes *card)
{
    return 32 + 2 * card->set;
}

static unsigned specification_bytes(const struct card_bytes *card)
{
    return 4 + 2 * card->set;
}

void lay_out(struct card_bytes *card, struct counts counts)
{
    uint8_t *header = card->bytes;
    unsigned edition = counts.edition == 2 ? 2 : 1;
    memset(card, 0, sizeof *card);
    card->set = 16 * edition;
    header[0] = 0x33;
    header[1] = 0x41;
    put_card_number(header + 2, edition);
    put_card_number(header + 4, counts.atoms);
    put_card_number(header + 6, counts.actions);
    card->node = weights_at(card) + 2 * counts.actions;
    card->specification = put_section(header + 8, counts.nodes, card->node, 4);
    card->selection = put_section(header + 12, counts.specifications, card->specification,
                                  specification_bytes(card));
    card->revision = put_section(header + 16, counts.selections, card->selection, 8);
    card->pool = put_section(header + 20, counts.revisions, card->revision, 12);
    card->len = put_section(header + 24, counts.pool, card->pool, 1);
    for (unsigned action = 0; action < counts.actions; action++)
        put_weight(card, action, 1);
}

void put_weight(struct card_bytes *card, unsigned action, unsigned weight)
{
    put_card_number(card->bytes + weights_at(card) + 2 * action, weight);
}

void put_node(struct card_bytes *card, unsigned number, unsigned kind, unsigned a, unsigned b)
{
    uint8_t *node = card->bytes + card->node + 4 * number;
    node[0] = (uint8_t)kind;
    node[1] = (uint8_t)a;
    node[2] = (uint8_t)b;
}

void put_initial_plan(struct card_bytes *card, unsigned start, unsigned length)
{
    put_card_number(card->bytes + 28, start);
    put_card_number(card->bytes + 30, length);
}

void put_specification(struct card_bytes *card, unsigned number, unsigned action, unsigned node)
{
    uint8_t *entry = card->bytes + card->specification + specification_bytes(card) * number;
    entry[0] = (uint8_t)action;
    entry[1] = (uint8_t)node;
}

uint8_t *added_by(struct card_bytes *card, unsigned number)
{
    return card->bytes + card->specification + specification_bytes(card) * number + 4;
}

uint8_t *deleted_by(struct card_bytes *card, unsigned number)
{
    return added_by(card, number) + card->set;
}

void put_selection(struct card_bytes *card, unsigned number, unsigned belief_node,
                   unsigned goal_node, unsigned start, unsigned length)
{
    uint8_t *rule = card->bytes + card->selection + 8 * number;
    rule[0] = (uint8_t)belief_node;
    rule[1] = (uint8_t)goal_node;
    put_card_number(rule + 2, start);
    put_card_number(rule + 4, length);
}

void put_revision(struct card_bytes *card, unsigned number, unsigned node, unsigned head_start,
                  unsigned head_length, unsigned body_start, unsigned body_length)
{
    uint8_t *rule = card->bytes + card->revision + 12 * number;
    rule[0] = (uint8_t)node;
    put_card_number(rule + 2, head_start);
    put_card_number(rule + 4, head_length);
    put_card_number(rule + 6, body_start);
    put_card_number(rule + 8, body_length);
}

uint8_t *initial_beliefs(struct card_bytes *card)
{
    return card->bytes + 32;
}

uint8_t *initial_goals(struct card_bytes *card)
{
    return card->bytes + 32 + card->set;
}

/* ---- edition 2 ---- */

/* A number of a card. */
static unsigned card_number(const struct card_bytes *card, unsigned at)
{
    return card->bytes[at] + 256u * card->bytes[at + 1];
}

void widen(struct card_bytes *card)
{
    static struct card_bytes old;
    old = *card;
    unsigned actions = card_number(&old, 6), specifications = card_number(&old, 12);
    lay_out(card, (struct counts){card_number(&old, 4), actions, card_number(&old, 8),
                                  specifications, card_number(&old, 16), card_number(&old, 20),
                                  card_number(&old, 24), 2});
    memcpy(card->bytes + 28, old.bytes + 28, 4);
    memcpy(initial_beliefs(card), initial_beliefs(&old), old.set);
    memcpy(initial_goals(card), initial_goals(&old), old.set);
    memcpy(card->bytes + weights_at(card), old.bytes + weights_at(&old), 2 * actions);
    memcpy(card->bytes + card->node, old.bytes + old.node, old.specification - old.node);
    for (unsigned i = 0; i < specifications; i++) {
        memcpy(added_by(card, i) - 4, added_by(&old, i) - 4, 4);
        memcpy(added_by(card, i), added_by(&old, i), old.set);
        memcpy(deleted_by(card, i), deleted_by(&old, i), old.set);
    }
    memcpy(card->bytes + card->selection, old.bytes + old.selection, old.len - old.selection);
}

/* ---- the stripe card ---- */

/* Atoms: 0 threaded, 1 bobbin, 2 band, 3 broken. */
enum { THREADED, BOBBIN, BAND, BROKEN };

/* Actions: 0 weave, 1 wind, 2 repair, 3 pick, 4 stripe. */
enum { WEAVE, WIND, REPAIR, PICK, STRIPE };

/* The stripe card of an edition, with so many atoms, its four those from `first` on. */
static void lay_stripe(struct card_bytes *card, unsigned edition, unsigned atoms, unsigned first)
{
    static const uint8_t pool[] = {STRIPE, WIND, PICK, REPAIR, WEAVE};
    lay_out(card, (struct counts){.atoms = atoms,
                                  .actions = 5,
                                  .nodes = 6,
                                  .specifications = 3,
                                  .selections = 1,
                                  .revisions = 3,
                                  .pool = sizeof pool,
                                  .edition = edition});
    put_weight(card, PICK, 3);
    put_weight(card, STRIPE, 5);
    put_node(card, 0, NODE_TRUE, 0, 0);
    put_node(card, 1, NODE_BELIEVES, first + BOBBIN, 0);
    put_node(card, 2, NODE_BELIEVES, first + BROKEN, 0);
    put_node(card, 3, NODE_NOT, 2, 0);
    put_node(card, 4, NODE_AND, 1, 3);
    put_node(card, 5, NODE_HAS_GOAL, first + BAND, 0);
    put_specification(card, 0, WEAVE, 4);
    put_atom(added_by(card, 0), first + BAND);
    put_atom(deleted_by(card, 0), first + BOBBIN);
    put_specification(card, 1, WIND, 0);
    put_atom(added_by(card, 1), first + BOBBIN);
    put_specification(card, 2, REPAIR, 2);
    put_atom(deleted_by(card, 2), first + BROKEN);
    put_selection(card, 0, 0, 5, 0, 1);
    put_revision(card, 0, 0, 0, 1, 1, 2); /* stripe: wind pick */
    put_revision(card, 1, 2, 2, 1, 3, 2); /* pick, if broken: repair weave */
    put_revision(card, 2, 3, 2, 1, 4, 1); /* pick, if not broken: weave */
    memcpy(card->bytes + card->pool, pool, sizeof pool);
    put_atom(initial_beliefs(card), first + THREADED);
    put_atom(initial_beliefs(card), first + BROKEN);
    put_atom(initial_goals(card), first + BAND);
}

void stripe_card(struct card_bytes *card)
{
    lay_stripe(card, 1, 4, 0);
}

void high_stripe_card(struct card_bytes *card)
{
    lay_stripe(card, 2, 256, 252);
}

const char stripe_text[] = "# the stripe card: 0 threaded, 1 bobbin, 2 band, 3 broken\n"
                           "atoms 4\n"
                           "action 1 # 0 weave\n"
                           "action 1 # 1 wind\n"
                           "action 1 # 2 repair\n"
                           "action 3 # 3 pick\n"
                           "action 5 # 4 stripe\n"
                           "do 0 if B1&!B3 add 2 del 1\n"
                           "do 1 if T add 1 del\n"
                           "do 2 if B3 add del 3\n"
                           "select if T goal G2 plan 4\n"
                           "revise 4 if T to 1 3\n"
                           "revise 3 if B3 to 2 0\n"
                           "revise 3 if !B3 to 0\n"
                           "begin beliefs 0 3 goals 2 plan\n";

void endless_stripe_card(struct card_bytes *card)
{
    stripe_card(card);
    put_selection(card, 0, 0, 0, 0, 1);
}

/* ---- the shared-nodes card and the deepest card ---- */

/* 256 nodes: 0 "believes 0", each from the second on of that kind over the one below, and the last
 * "true". A specification, a selection rule and a revision rule have node 254 for their belief
 * condition; it is true at the beginning, and the run never rests. */
static void tower_card(struct card_bytes *card, unsigned kind)
{
    lay_out(card, (struct counts){.atoms = 1,
                                  .actions = 2,
                                  .nodes = 256,
                                  .specifications = 1,
                                  .selections = 1,
                                  .revisions = 1,
                                  .pool = 2});
    put_node(card, 0, NODE_BELIEVES, 0, 0);
    for (unsigned k = 1; k < 255; k++)
        put_node(card, k, kind, k - 1, kind == NODE_NOT ? 0 : k - 1);
    put_node(card, 255, NODE_TRUE, 0, 0);
    put_specification(card, 0, 0, 254);
    put_selection(card, 0, 254, 255, 0, 1);
    put_revision(card, 0, 254, 0, 1, 1, 1);
    card->bytes[card->pool] = 1;
    put_initial_plan(card, 0, 1);
    put_atom(initial_beliefs(card), 0);
}

void shared_nodes_card(struct card_bytes *card)
{
    tower_card(card, NODE_AND);
}

void deepest_card(struct card_bytes *card)
{
    tower_card(card, NODE_NOT);
}

/* ---- the typical card ---- */

/* Numbers that look random and are the same in each run. */
static unsigned some(uint32_t *state, unsigned below)
{
    *state ^= *state << 13;
    *state ^= *state >> 17;
    *state ^= *state << 5;
    return *state % below;
}

/* Nodes of the typical card: 0 true; 1 to 64 believe; 65 to 96 have goals; 97 to 176 mix beliefs;
 * 177 to 216 mix goals; 217 to 255 negate 138 to 176. */
static void typical_nodes(struct card_bytes *card, uint32_t *state)
{
    for (unsigned k = 1; k < 65; k++)
        put_node(card, k, NODE_BELIEVES, some(state, 128), 0);
    for (unsigned k = 65; k < 97; k++)
        put_node(card, k, NODE_HAS_GOAL, 64 + some(state, 64), 0);
    for (unsigned k = 97; k < 217; k++) {
        int belief = k < 177;
        unsigned kind = NODE_NOT + some(state, 3);
        unsigned a = belief ? 1 + some(state, 64) : 65 + some(state, 32);
        unsigned b = belief ? 97 + some(state, k - 96) : 177 + some(state, k - 176);
        if (b >= k)
            b = a;
        put_node(card, k, kind, a, kind == NODE_NOT ? 0 : b);
    }
    for (unsigned k = 217; k < 256; k++)
        put_node(card, k, NODE_NOT, k - 217 + 138, 0);
}

/* Actions 0 to 127 have two specifications each, for a condition and for its negation. */
static void typical_specifications(struct card_bytes *card, uint32_t *state)
{
    for (unsigned action = 0; action < 128; action++) {
        unsigned pair = some(state, 39);
        put_specification(card, 2 * action, action, 138 + pair);
        put_specification(card, 2 * action + 1, action, 217 + pair);
    }
    for (unsigned i = 0; i < 512; i++) {
        put_atom(added_by(card, i / 2), some(state, 96));
        put_atom(deleted_by(card, i / 2), some(state, 128));
    }
}

/* A plan of the pool from `at` on; where the next one begins. Actions below 128 weigh 1, an
 * abstract action 128 + q weighs 8 q + 8; the first of the plan is 128 + q, if q is below 128. */
static unsigned typical_plan(struct card_bytes *card, uint32_t *state, unsigned at, unsigned length,
                             unsigned q)
{
    uint8_t *pool = card->bytes + card->pool;
    for (unsigned i = 0; i < length; i++)
        pool[at + i] = (uint8_t)(i == 0 && q < 128 ? 128 + q : some(state, 128));
    return at + length;
}

/* Abstract action 128 + q: two rules, for a condition and its negation, or for two actions and
 * for one; the body begins with a lower abstract action. */
static unsigned typical_revisions(struct card_bytes *card, uint32_t *state, unsigned at)
{
    for (unsigned q = 0; q < 128; q++) {
        unsigned pair = some(state, 39), by_condition = q % 2;
        for (unsigned i = 0; i < 2; i++) {
            unsigned node = !by_condition ? 0 : i == 0 ? 138 + pair : 217 + pair;
            unsigned head_length = !by_condition && i == 0 ? 2 : 1, head = at;
            unsigned body = typical_plan(card, state, head, head_length, q);
            unsigned body_length = 1 + some(state, 4);
            at = typical_plan(card, state, body, body_length, q > 0 ? some(state, q) : 128);
            put_revision(card, 2 * q + i, node, head, head_length, body, body_length);
        }
    }
    return at;
}

void typical_card(struct card_bytes *card)
{
    uint32_t state = 20261115;
    unsigned at = 0;
    lay_out(card, (struct counts){128, 256, 256, 256, 256, 256, 8192, 1});
    for (unsigned q = 0; q < 128; q++)
        put_weight(card, 128 + q, 8 * q + 8);
    typical_nodes(card, &state);
    typical_specifications(card, &state);
    for (unsigned i = 0; i < 256; i++) {
        int last = i == 255;
        put_selection(card, i, last ? 0 : 97 + some(&state, 80), last ? 0 : 177 + some(&state, 40),
                      at, 16);
        at = typical_plan(card, &state, at, 16, some(&state, 126));
    }
    at = typical_revisions(card, &state, at);
    typical_plan(card, &state, at, 8192 - at, 128);
    for (unsigned atom = 0; atom < 128; atom += 2) {
        put_atom(initial_beliefs(card), atom);
        put_atom(initial_goals(card), atom + 1);
    }
}

/* ---- chain cards ---- */

void chain_card(struct card_bytes *card, struct chain chain)
{
    unsigned rules = chain.rules, nodes = chain.nodes, head = chain.head;
    lay_out(card, (struct counts){chain.atoms, chain.actions, nodes, rules, rules, rules,
                                  chain.pool, chain.edition});
    put_node(card, 1, NODE_BELIEVES, 0, 0);
    put_node(card, 2, NODE_NOT, 1, 0);
    put_node(card, 3, NODE_AND, 1, 2); /* never */
    put_node(card, 4, NODE_OR, 1, 2);  /* always */
    for (unsigned k = 5; k < nodes; k++)
        put_node(card, k, NODE_AND, k - 1, k - 1);
    for (unsigned i = 0; i < rules; i++) {
        put_specification(card, i, 0, 3);
        put_selection(card, i, 3, 0, 0, 1024);
        put_revision(card, i, nodes - 1, 1024, head, 0, head - 1);
    }
    if (chain.acts) {
        put_specification(card, rules - 2, 0, 1);
        put_atom(deleted_by(card, rules - 2), 0);
        put_specification(card, rules - 1, 0, 2);
        put_atom(added_by(card, rules - 1), 0);
    }
    put_revision(card, rules - 1, nodes - 1, 0, head, 0, chain.acts ? head + 1 : head);
    card->bytes[card->pool + 1024 + head - 1] = 1;
    put_initial_plan(card, 0, chain.plan);
}

void worst_card(struct card_bytes *card, int acts)
{
    chain_card(card, (struct chain){128, 256, 256, 256, 8192, acts ? 1023 : 1024, 1024, acts, 1});
}

void widest_card(struct card_bytes *card, int acts)
{
    chain_card(card, (struct chain){256, 256, 256, 256, 8192, acts ? 1023 : 1024, 1024, acts, 2});
    put_atom(initial_beliefs(card), 255);
    put_atom(initial_goals(card), 254);
}
