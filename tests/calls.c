/* The calls and the cases of calls.h. */
#include <string.h>

#include "calls.h"
#include "cards.h"
#include "programs.h"
#include "sheets.h"
#include "texts.h"

enum { LENT = 0xEE };

/* ---- the calls ---- */

/* What they are made on, and the configuration that is lent. */
static struct card_bytes card;
static struct program_bytes program;
static struct text_bytes text;
static struct rigtemple_configuration held;
static uint8_t numbers[4 * RIGTEMPLE_MOST_REMAINING];
static size_t numbers_len;
static uint8_t kept[RIGTEMPLE_MOST_PLACE_BYTES];
static uint16_t kept_len, choice, printed_node, named_action;
static struct sheet_bytes shed, master;

struct lent lent;

void lend(void)
{
    memset(&lent, LENT, sizeof lent);
    memcpy(&lent.c, &held, sizeof held);
}

static uint16_t call_check(void)
{
    return rigtemple_check(card.bytes, card.len);
}

static uint16_t call_load(void)
{
    return rigtemple_load(card.bytes, card.len, &lent.made);
}

static uint16_t call_grade(void)
{
    return rigtemple_grade(card.bytes, card.len, &lent.verdict, &lent.offender, &lent.number);
}

static uint16_t call_list(void)
{
    return rigtemple_list_looks(card.bytes, card.len, &lent.c, lent.list,
                                RIGTEMPLE_MOST_LIST_ENTRIES, &lent.entries, &lent.judged,
                                &lent.open_goals);
}

static uint16_t call_next(void)
{
    return rigtemple_next(card.bytes, card.len, &lent.c, &lent.coming, &lent.choice);
}

static uint16_t call_take(void)
{
    return rigtemple_take(card.bytes, card.len, &lent.c, choice, &lent.node);
}

static uint16_t call_run(void)
{
    return rigtemple_run(card.bytes, card.len, &lent.c, 500, &lent.moves, &lent.ending);
}

static uint16_t call_take_bounded(void)
{
    return rigtemple_take_bounded(card.bytes, card.len, &lent.c, choice, &lent.node);
}

static uint16_t call_run_bounded(void)
{
    return rigtemple_run_bounded(card.bytes, card.len, &lent.c, 500, &lent.moves,
                                 &lent.bounded_ending);
}

static uint16_t call_deliberate(void)
{
    return rigtemple_deliberate(card.bytes, card.len, program.bytes, program.len, &lent.c, 500,
                                &lent.moves, &lent.ending, lent.remaining,
                                &lent.remaining_length);
}

static uint16_t call_go_on(void)
{
    return rigtemple_go_on(card.bytes, card.len, program.bytes, program.len, numbers, numbers_len,
                           &lent.c, 500, &lent.moves, &lent.ending, lent.remaining,
                           &lent.remaining_length);
}

static uint16_t call_save(void)
{
    return rigtemple_save(card.bytes, card.len, &lent.c, lent.place, sizeof lent.place,
                          &lent.bytes);
}

static uint16_t call_restore(void)
{
    return rigtemple_restore(card.bytes, card.len, kept, kept_len, &lent.made);
}

static uint16_t call_text(void)
{
    return rigtemple_text(text.bytes, text.len, lent.card, sizeof lent.card, &lent.bytes,
                          &lent.wrong);
}

static uint16_t call_print(void)
{
    return rigtemple_print(card.bytes, card.len, printed_node, lent.text, sizeof lent.text,
                           &lent.bytes);
}

static uint16_t call_name(void)
{
    return rigtemple_name(card.bytes, card.len, shed.bytes, shed.len, master.bytes, master.len,
                          named_action, &lent.name, &lent.bytes, &lent.sheet);
}

enum { CHECK, LOAD, GRADE, LIST, NEXT, TAKE, RUN, TAKE_BOUNDED, RUN_BOUNDED, SAVE, RESTORE,
       DELIBERATE, GO_ON, TEXT, PRINT, NAME };

const struct call calls[CALLS] = {
    [CHECK] = {"check", call_check}, [LOAD] = {"load", call_load},
    [GRADE] = {"grade", call_grade}, [LIST] = {"list", call_list},
    [NEXT] = {"next", call_next},    [TAKE] = {"take", call_take},
    [RUN] = {"run", call_run},       [SAVE] = {"save", call_save},
    [TEXT] = {"text", call_text},    [RESTORE] = {"restore", call_restore},
    [PRINT] = {"print", call_print}, [DELIBERATE] = {"deliberate", call_deliberate},
    [NAME] = {"name", call_name},    [GO_ON] = {"go_on", call_go_on},
    [TAKE_BOUNDED] = {"take_bounded", call_take_bounded},
    [RUN_BOUNDED] = {"run_bounded", call_run_bounded},
};

/* ---- the cases ---- */

const char *made_on, *made_with;

/* While the plan is not empty the last revision rule of the card at hand, or else an action. */
static void last_rule_program(void)
{
    program.len = 0;
    put_entry(&program, RIGTEMPLE_ENTRY_EXECUTE, 0, 0);
    put_entry(&program, RIGTEMPLE_ENTRY_APPLY, card.bytes[20] + 256u * card.bytes[21] - 1, 0);
    put_entry(&program, RIGTEMPLE_ENTRY_OR, 1, 0);
    put_entry(&program, RIGTEMPLE_ENTRY_WHILE_PLAN, 0, 2);
}

/* The program at hand, begun and gone on with: from the last entry's number alone and from as many
 * as may remain, the greatest and the least; from none, from one more, and from many more, which
 * are refused. */
static void each_number(void (*visit)(unsigned call))
{
    size_t entries = program.len / RIGTEMPLE_ENTRY_BYTES;
    visit(DELIBERATE);
    numbers[0] = (uint8_t)(entries - 1);
    numbers_len = 1;
    visit(GO_ON);
    for (size_t i = 0; i < entries; i++)
        numbers[i] = (uint8_t)i;
    numbers_len = entries;
    visit(GO_ON);
    memset(numbers, 0, sizeof numbers);
    visit(GO_ON);
    const size_t lengths[] = {0, entries + 1, sizeof numbers};
    for (unsigned i = 0; i < sizeof lengths / sizeof lengths[0]; i++) {
        numbers_len = lengths[i];
        visit(GO_ON);
    }
}

/* Deliberations on the card and the configuration at hand. */
static void each_program(void (*visit)(unsigned call))
{
    teaching_program(&program, 1);
    each_number(visit);
    last_rule_program();
    each_number(visit);
    for (unsigned kind = RIGTEMPLE_ENTRY_WHILE_PLAN; kind <= RIGTEMPLE_ENTRY_OR; kind++) {
        tower_program(&program, kind);
        each_number(visit);
    }
    program.len -= 1; /* which is refused */
    each_number(visit);
}

/* The calls over a configuration, and check, load and grade, on the card and the configuration at
 * hand: take with each of some choices, deliberate and go on with each of some programs. */
static void each_of_these(void (*visit)(unsigned call), const char *with)
{
    static const uint16_t choices[] = {0, 255, 256, 511, 512, 513, 767, 65535};
    made_with = with;
    each_program(visit);
    for (unsigned call = CHECK; call <= RESTORE; call++)
        if (call != TAKE && call != TAKE_BOUNDED)
            visit(call);
    for (unsigned i = 0; i < sizeof choices / sizeof choices[0]; i++) {
        choice = choices[i];
        visit(TAKE);
        visit(TAKE_BOUNDED);
    }
}

/* The configuration at hand in each phase; the place that is kept is its own. */
static void each_phase(void (*visit)(unsigned call), const char *with)
{
    for (held.phase = 0; held.phase < 3; held.phase++) {
        if (rigtemple_save(card.bytes, card.len, &held, kept, sizeof kept, &kept_len) != 0)
            kept_len = 0;
        each_of_these(visit, with);
    }
}

/* Every node of the card at hand, and one that it does not have. */
static void each_node(void (*visit)(unsigned call), const char *on)
{
    made_on = on;
    made_with = "a node";
    for (printed_node = 0; printed_node <= 256; printed_node++)
        visit(PRINT);
}

/* Names on the card and the sheets at hand, also cut by a byte, of known and unknown actions. */
static void each_action(void (*visit)(unsigned call), unsigned actions)
{
    static const uint16_t unknown[] = {256, 65535};
    for (named_action = 0; named_action <= actions; named_action++)
        visit(NAME);
    for (unsigned i = 0; i < sizeof unknown / sizeof unknown[0]; i++) {
        named_action = unknown[i];
        visit(NAME);
    }
    named_action = 0;
    master.len -= 1;
    visit(NAME);
    master.len += 1;
    shed.len -= shed.len > 0;
    visit(NAME);
}

/* The same with sheets of characters of one to four bytes; the shed has none, or every second
 * name. */
static void each_sheet(void (*visit)(unsigned call), const char *on)
{
    static const char *const words[] = {"w", "\xC3\xA4", "\xE7\xB9\x94", "\xF0\x9F\xA7\xB5"};
    unsigned actions = card.bytes[6] + 256u * card.bytes[7];
    made_on = on;
    made_with = "a name";
    for (unsigned i = 0; i < 4; i++) {
        word_sheet(&master, actions, words[i], 10);
        shed.len = 0;
        each_action(visit, actions);
        lay_sheet(&shed, actions);
        for (unsigned k = 0; k < actions; k += 2)
            put_name(&shed, k, words[3 - i], strlen(words[3 - i]));
        each_action(visit, actions);
    }
}

/* All calls but text on the card at hand; it may be refused, and its first configuration is then
 * the empty one. */
static void on_card(void (*visit)(unsigned call), const char *on)
{
    each_node(visit, on);
    each_sheet(visit, on);
    kept_len = 0;
    if (rigtemple_load(card.bytes, card.len, &held) == 0)
        each_of_these(visit, "its first configuration");
    memset(held.plan, 0, sizeof held.plan);
    held.length = 0;
    each_phase(visit, "no plan");
    held.length = RIGTEMPLE_MOST_PLAN_ACTIONS;
    each_phase(visit, "a plan of 1,024 actions");
    each_of_these(visit, "a configuration in phase 3");
    memset(held.beliefs, 0, sizeof held.beliefs);
    each_phase(visit, "a plan of 1,024 actions and no beliefs");
    held.length = 0;
    each_phase(visit, "no plan and no beliefs");
}

static void on_text(void (*visit)(unsigned call), const char *on)
{
    made_on = on;
    made_with = "room for the largest card";
    visit(TEXT);
}

static void each_text(void (*visit)(unsigned call))
{
    stripe_as_text(&text);
    on_text(visit, "the stripe card's text");
    full_text(&text);
    on_text(visit, "a text of many lines");
    deep_text(&text, 32);
    on_text(visit, "brackets and ! 32 deep");
    deep_text(&text, 34);
    on_text(visit, "brackets and ! 34 deep");
    brackets_text(&text, 32);
    on_text(visit, "32 brackets");
    brackets_text(&text, 33);
    on_text(visit, "33 brackets");
    nots_text(&text, 32);
    on_text(visit, "32 !");
    nots_text(&text, 33);
    on_text(visit, "33 !");
    open_text(&text, 60000);
    on_text(visit, "60,000 open brackets");
}

void each_case(void (*visit)(unsigned call))
{
    stripe_card(&card);
    on_card(visit, "the stripe card");
    endless_stripe_card(&card);
    on_card(visit, "the endless stripe card");
    typical_card(&card);
    on_card(visit, "the typical card");
    worst_card(&card, 0);
    on_card(visit, "the worst card that revises");
    worst_card(&card, 1);
    on_card(visit, "the worst card that acts");
    shared_nodes_card(&card);
    on_card(visit, "the shared-nodes card");
    deepest_card(&card);
    on_card(visit, "the deepest card");
    card.len = 64;
    on_card(visit, "a card cut to its header");
    high_stripe_card(&card);
    on_card(visit, "the high stripe card");
    typical_card(&card);
    widen(&card);
    on_card(visit, "the typical card in edition 2");
    widest_card(&card, 0);
    on_card(visit, "the widest card that revises");
    widest_card(&card, 1);
    on_card(visit, "the widest card that acts");
    card.len = 96;
    on_card(visit, "a card of edition 2 cut to its header");
    printed_list_card(&card);
    each_node(visit, "the card that prints a list");
    printed_deep_card(&card);
    each_node(visit, "the card that prints 32 deep");
    each_text(visit);
}
