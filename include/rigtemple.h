/*
 * rigtemple: the core of the weaving guide, for C and C++.
 *
 * A card is a pattern: the bytes of a file, which the guide only reads. A configuration
 * is where a weaver stands in it: what is believed of the warp, which goals are open, the
 * plan of actions still to be done, the phase, and how many plans are finished. A place is a
 * configuration as bytes to keep. A program says in a shed's own words which move comes next. A
 * sheet has a name for each action of a card, in one language. The sixteen calls below check and
 * grade a card, make the first configuration, list the moves that are possible, tell the one that
 * comes next, take one, run by themselves or by a program, go on with a program, take one and run on
 * a bounded card, save and restore a place, make a card from a designer's text, print a condition of
 * a card as such text, and find the name of an action.
 *
 * The rule for an app, so that no pick is skipped and no band is woven twice:
 *
 *  - Show the move that comes next, as rigtemple_next tells it, and beside it the last one done,
 *    each with its number from the beginning: two moves in a row may be alike.
 *  - When the weaver has made it and says so, take it with rigtemple_take and save at once. Show
 *    the one after when that is kept, and not before. A touch is for the number that was shown: a
 *    second one says nothing of the move after it.
 *  - After a turn of the screen or a restart restore, and show both again. If the tablet died
 *    between her touch and the save, the move that she has made is shown as the next one still,
 *    beside the one before it: she sees that, and says once more that it is made.
 *  - Keep in one file, replaced in one step (write another, have it on the disk, rename it): the
 *    place, the last choice, how many moves are done, the card's fingerprint (any sum of its bytes
 *    that you like: a place does not say which card it came from, and another card's is not to be
 *    gone on with), and, where there is a program, that and the numbers that remain of it.
 *  - With a program, rigtemple_go_on with budget 1, from the numbers kept (at first the last
 *    entry's alone) and on a copy of the configuration, tells the next move of the shed's own: it
 *    is what became of the copy. An idle move leaves the copy as it is, and is passed: it is not
 *    shown, and the next is asked for from the numbers that it left. (A program can idle without an
 *    end: pass so many at a time.) When the weaver says that the move is made, the copy and the
 *    numbers that it left take the place of those kept.
 *  - Where what was kept is refused, say so, and keep nothing over it: to load the card instead
 *    begins again from the top. Only where there is no file a card is begun.
 *
 * The example turned_screen.c does all of this.
 *
 * What holds for every call:
 *
 *  - It ends, on all bytes and all numbers, and answers a number: 0 for done, another for a
 *    refusal. Where more than one refusal would fit, the card's come first (1 for a file under 4
 *    bytes, 2, 1 for one shorter than its edition's header, and 3 to 9 in that order), then the
 *    place's (the same, of 1, 2, 3, 4, 8, 9) or those of the program and its numbers (19) and
 *    the configuration's (13), then 22, 14, 15, 16, 11 and 12. A text is refused with 17, 18, 25, then
 *    with what the card that it would make is refused with, then with 12; a name with 1 to 9, then
 *    20 for the shed's sheet, 20 for the master's, and 21. No call answers 10.
 *  - Every buffer is the caller's. The library keeps no memory, no pointer and no state
 *    between calls, and allocates nothing.
 *  - No pointer may be null, not even beside a length of 0, and no two that are given to
 *    one call may overlap. Pointers to uint16_t are aligned as C has it. Give a buffer to
 *    one thread at a time.
 *  - A card, a program, its numbers and a sheet may be any bytes at all: they are judged anew in
 *    each call, and what is not good is refused, a card with 1 to 9, a program or its numbers with
 *    19, a sheet with 20.
 *
 * Cards and places have an edition, 1 or 2, in their bytes: edition 1 has up to 128 atoms and sets
 * of 16 bytes, edition 2 up to 256 and sets of 32. Every call takes cards of both. A place is saved
 * in its card's edition, and one of the other edition is refused with 2. A configuration has no
 * edition: its sets are 32 bytes, and under a card of edition 1 an atom from 128 on is unknown.
 *
 * New in 4.2: rigtemple_list_looks, which tells beside the list how many conditions it judges and how
 * many goals are open. It is only added: rigtemple_list stays as it was.
 *
 * New in 4.1: rigtemple_take_bounded and rigtemple_run_bounded, for cards that rigtemple_grade calls
 * bounded and plans that weigh at most 1,024: an app that uses them needs no panel for a plan that
 * got too long. They are only added: what an app did with 4.0 it does as before.
 *
 * New in 4.0: cards and places of edition 2, and so sets of 32 bytes in struct
 * rigtemple_configuration, larger cards and places, and refusal 2 before 1 for a file of 4 bytes or
 * more with a wrong mark or edition. Files of edition 1 that were accepted are read as before. An
 * app has to be compiled anew with this header and to lend RIGTEMPLE_SET_BYTES where it lends sets.
 * The symbols of the library have the version's first number in their names, so that an app that
 * was built with an older header does not link with this library.
 *
 * Memory to lend: the card (RIGTEMPLE_MOST_CARD_BYTES), a configuration (1,094 bytes), a list
 * of RIGTEMPLE_MOST_LIST_ENTRIES (1,536 bytes) and a place of RIGTEMPLE_MOST_PLACE_BYTES are
 * always enough: 36,082 bytes together, or 27,826 for cards of edition 1 alone. A program takes
 * RIGTEMPLE_MOST_PROGRAM_BYTES at most, and what remains of it RIGTEMPLE_MOST_REMAINING, to go on
 * with it twice that; to print takes RIGTEMPLE_MOST_PRINTED_BYTES; a sheet has
 * RIGTEMPLE_MOST_SHEET_BYTES at most; a text to be read has no limit.
 *
 * Bytes of stack, as tests/stack.sh measures them on x86-64: check 576, load 656, grade 1,336,
 * list 1,520, next 1,312, take 1,128, run 1,160, take_bounded 1,640, run_bounded 1,672,
 * deliberate 1,240, go_on 1,272, save 720, restore 976, text 32,880 (24,960 where nothing nests,
 * 240 more for a second bracket in the first and 256 for each further one), print 1,808, name 736.
 * All but text run on a stack of 2,048. On 64-bit Arm they were measured with an older compiler
 * alone, by which text took 33,952 there, and each other call at most 8 more than on x86-64.
 */
#ifndef RIGTEMPLE_H
#define RIGTEMPLE_H

#include <stddef.h>
#include <stdint.h>

#ifdef __cplusplus
extern "C" {
#endif

/* The version of this header's interface. The first number rises with a change that an app has
 * to follow, and the second is then 0; the second rises with what is only added. */
#define RIGTEMPLE_VERSION "4.2"
#define RIGTEMPLE_VERSION_FIRST 4
#define RIGTEMPLE_VERSION_SECOND 2

/* Marks an answer that must not be ignored, for the compilers that know it. */
#if defined(__cplusplus) && __cplusplus >= 201703L
#define RIGTEMPLE_LOOK_AT_ANSWER [[nodiscard]]
#elif defined(__STDC_VERSION__) && __STDC_VERSION__ >= 202311L
#define RIGTEMPLE_LOOK_AT_ANSWER [[nodiscard]]
#elif defined(__GNUC__)
#define RIGTEMPLE_LOOK_AT_ANSWER __attribute__((__warn_unused_result__))
#else
#define RIGTEMPLE_LOOK_AT_ANSWER
#endif

/* Sizes, each with its unit. */
#define RIGTEMPLE_SET_BYTES 32          /* a set of atoms in a configuration */
#define RIGTEMPLE_MOST_ATOMS 256        /* the atoms that a card of edition 2 can have */
#define RIGTEMPLE_MOST_CARD_BYTES 32352 /* the largest card, of edition 2 */
#define RIGTEMPLE_MOST_PLAN_ACTIONS 1024
#define RIGTEMPLE_MOST_PLACE_BYTES 1100 /* the largest place: 76 and the longest plan */
#define RIGTEMPLE_MOST_CARD_BYTES_OF_EDITION_1 24128 /* its largest: no text makes a larger one */
#define RIGTEMPLE_MOST_PLACE_BYTES_OF_EDITION_1 1068 /* its largest: 44 and the longest plan */
#define RIGTEMPLE_MOST_LIST_ENTRIES 768 /* choices that there are codes for: no list is longer */
#define RIGTEMPLE_MOST_JUDGED 512       /* conditions that one listing judges */
#define RIGTEMPLE_MOST_PRINTED_BYTES 894 /* the longest condition that is printed */
#define RIGTEMPLE_ENTRY_BYTES 4          /* an entry of a program */
#define RIGTEMPLE_MOST_PROGRAM_BYTES 512 /* the longest program: 128 entries */
#define RIGTEMPLE_MOST_REMAINING 128     /* entry numbers, one byte each: no more ever remain */
#define RIGTEMPLE_MOST_SHEET_BYTES 65535 /* the largest sheet: its last offset is its length */

/* Answers; rigtemple_answer_name and rigtemple_answer_sentence say them in words. */
#define RIGTEMPLE_ANSWER_DONE 0
#define RIGTEMPLE_ANSWER_SHORT 1
#define RIGTEMPLE_ANSWER_MARK 2
#define RIGTEMPLE_ANSWER_COUNT 3
#define RIGTEMPLE_ANSWER_OFFSETS 4
#define RIGTEMPLE_ANSWER_WEIGHT 5
#define RIGTEMPLE_ANSWER_NODE 6
#define RIGTEMPLE_ANSWER_RULE 7
#define RIGTEMPLE_ANSWER_ACTION_BYTE 8
#define RIGTEMPLE_ANSWER_ATOM 9
#define RIGTEMPLE_ANSWER_PLAN_FULL 11
#define RIGTEMPLE_ANSWER_NO_ROOM 12
#define RIGTEMPLE_ANSWER_CONFIGURATION 13
#define RIGTEMPLE_ANSWER_NO_RULE 14
#define RIGTEMPLE_ANSWER_FRONT 15
#define RIGTEMPLE_ANSWER_CONDITION 16
#define RIGTEMPLE_ANSWER_TEXT 17
#define RIGTEMPLE_ANSWER_NESTED 18
#define RIGTEMPLE_ANSWER_PROGRAM 19
#define RIGTEMPLE_ANSWER_SHEET 20
#define RIGTEMPLE_ANSWER_NO_ACTION 21
#define RIGTEMPLE_ANSWER_OPEN_OR_HEAVY 22
#define RIGTEMPLE_ANSWER_LARGE 25

/* The name of an answer, for a log: "plan full" for 11. */
static inline const char *rigtemple_answer_name(uint16_t answer)
{
    static const char *const names[] = {
        "done",    "short",         "mark",        "count", "offsets",   "weight",
        "node",    "rule",          "action byte", "atom",  "given up",  "plan full",
        "no room", "configuration", "no rule",     "front", "condition", "text",
        "nested",  "program",       "sheet",       "no action", "open or heavy",
    };
    if (answer == RIGTEMPLE_ANSWER_LARGE)
        return "large";
    return answer <= RIGTEMPLE_ANSWER_OPEN_OR_HEAVY ? names[answer] : "no answer of the guide";
}

/* What an answer says was refused. */
static inline const char *rigtemple_answer_sentence(uint16_t answer)
{
    static const char *const sentences[] = {
        "nothing was refused",
        "the card or place is under 4 bytes, or shorter than its edition's header: 64 bytes of a "
        "card and 44 of a place in edition 1, 96 and 76 in edition 2",
        "the first two bytes are not 33 41 hex (a card) or 33 50 hex (a place), the edition is not "
        "1 or 2, or a place's edition is not its card's",
        "the number of atoms, of actions or of a section's entries or bytes is out of range; in a "
        "place the plan is over 1,024 or the phase over 2",
        "an offset or the total length is not the required one",
        "an action's weight is 0 or over 1,024",
        "a node has an unknown kind, an unknown atom, a child that is not lower, or a field that "
        "should be zero",
        "a specification, a rule or the initial plan has an unknown action or node, a condition "
        "of the wrong kind, a plan outside the pool, a length out of range, or a field that "
        "should be zero; or the node to be printed is unknown",
        "a byte of the pool, or of a place's plan, is not below the number of actions",
        "a set has an atom at or above the number of atoms",
        "no call answers this: 14, 15 and 16 stand in its place",
        "the choice is enabled, but leaves more than 1,024 actions",
        "the lent list or buffer is too short",
        "the configuration has a plan over 1,024, an action or atom that the card doesn't know, a "
        "phase over 2, or something after the plan's end",
        "the card has no such rule or specification",
        "the plan's front does not fit: it is empty, or not empty, or has another first action or "
        "another head",
        "a condition of the choice is false; the node that settled it is told with it",
        "the text is not of the grammar; the place of the first byte that no continuation could "
        "make right is told with it",
        "brackets and ! nest more than 32 deep in a condition",
        "the program is not 1 to 128 entries of 4 bytes; or an entry has an unknown kind, a part "
        "that is not lower, an unknown rule or node, a condition of the wrong kind, or a byte that "
        "should be zero; or a number to go on from, plus how many stand behind it, is not below "
        "the number of entries",
        "a sheet's count is not the card's number of actions, an offset is not the required one or "
        "falls, a name is not UTF-8, or a master name is empty; which of the two is told with it",
        "the card has no such action",
        "the card is open, or the plan weighs more than 1,024",
    };
    if (answer == RIGTEMPLE_ANSWER_LARGE)
        return "a number is too large for its field, or there are more entries, nodes or pool "
               "bytes than a card can have; or a printed condition has more than 256 nodes";
    return answer <= RIGTEMPLE_ANSWER_OPEN_OR_HEAVY ? sentences[answer]
                                                    : "the guide gives no such answer";
}

/* Kinds of moves. */
#define RIGTEMPLE_KIND_SELECTION 0 /* the plan is empty: a selection rule's plan becomes the plan */
#define RIGTEMPLE_KIND_ACTION 1    /* the first action is done, by one of its specifications */
#define RIGTEMPLE_KIND_REVISION 2  /* a revision rule's body takes its head's place in front */

/* The code of a choice: 256 times the kind plus the number of the selection rule, specification
 * or revision rule, from 0. A kind over 2 or a number over 255, also one below 0, makes
 * RIGTEMPLE_NO_CHOICE, which rigtemple_take refuses with 14. It is a constant where its arguments
 * are; each is written twice in it, so give it no i++. */
#define RIGTEMPLE_NO_CHOICE 65535
#define RIGTEMPLE_CHOICE(kind, number)                                                        \
    ((uint16_t)((unsigned long long)(kind) > 2 || (unsigned long long)(number) > 255          \
                    ? RIGTEMPLE_NO_CHOICE                                                     \
                    : 256 * (unsigned long long)(kind) + (unsigned long long)(number)))
#define RIGTEMPLE_KIND_OF(choice) ((choice) / 256)
#define RIGTEMPLE_NUMBER_OF(choice) ((choice) % 256)

/* Endings of a run. */
#define RIGTEMPLE_ENDING_SPENT 0 /* as many moves were taken as the budget allows */
#define RIGTEMPLE_ENDING_REST 1  /* no move is possible */
#define RIGTEMPLE_ENDING_FULL 2  /* the next move would leave more than 1,024 actions: not taken */

/* Endings of a run on a bounded card: there is no third. */
enum rigtemple_bounded_ending {
    RIGTEMPLE_BOUNDED_SPENT = 0, /* as many moves were taken as the budget allows */
    RIGTEMPLE_BOUNDED_REST = 1   /* no move is possible */
};

/* What comes next of the guide's own. */
#define RIGTEMPLE_NEXT_MOVE 0 /* a move */
#define RIGTEMPLE_NEXT_REST 1 /* no move is possible */
#define RIGTEMPLE_NEXT_FULL 2 /* a move, but it would leave more than 1,024 actions */

/* Entries of a program: 1 to 128 of 4 bytes each, a kind, a, b and 0; a byte that a kind does not
 * use is 0 too. They are numbered from 0, a part has a lower number than the entry that it is a
 * part of, and several may share one. The last entry is the whole program. */
#define RIGTEMPLE_ENTRY_EXECUTE 0      /* take the lowest enabled specification */
#define RIGTEMPLE_ENTRY_APPLY 1        /* apply revision rule a */
#define RIGTEMPLE_ENTRY_SELECT 2       /* apply selection rule a */
#define RIGTEMPLE_ENTRY_WHILE_PLAN 3   /* while the plan is not empty do entry b */
#define RIGTEMPLE_ENTRY_WHILE_BELIEF 4 /* while node a holds, a belief condition, do entry b */
#define RIGTEMPLE_ENTRY_THEN 5         /* entry a, then entry b */
#define RIGTEMPLE_ENTRY_OR 6           /* entry a if it has a first move, else entry b */

/* Endings of a deliberation. */
#define RIGTEMPLE_DELIBERATION_SPENT 0    /* as many moves were made as the budget allows */
#define RIGTEMPLE_DELIBERATION_FINISHED 1 /* nothing remains of the program */
#define RIGTEMPLE_DELIBERATION_STUCK 2    /* what remains has no first move */
#define RIGTEMPLE_DELIBERATION_FULL 3     /* its first move would leave more than 1,024 actions */

/* The two sheets of names: the one that a name lies in, or with 20 the one that is refused. */
#define RIGTEMPLE_SHEET_MASTER 0 /* the names in the master's language, none of them empty */
#define RIGTEMPLE_SHEET_SHED 1   /* those in the shed's own, where there are any */

/* Verdicts on a card, and what makes it open. */
#define RIGTEMPLE_VERDICT_BOUNDED 0 /* starting plans weigh at most 1,024, revisions lower it */
#define RIGTEMPLE_VERDICT_OPEN 1    /* not so; an open card runs too */
#define RIGTEMPLE_OFFENDER_NONE 0
#define RIGTEMPLE_OFFENDER_INITIAL_PLAN 1
#define RIGTEMPLE_OFFENDER_SELECTION 2
#define RIGTEMPLE_OFFENDER_REVISION 3

/* A configuration. Atom k is in a set if bit (k modulo 8) of byte (k divided by 8) is 1. The
 * plan is the first `length` bytes of `plan`, one action each, next action first; all bytes
 * after them are zero. The phase (0, 1 or 2) is the kind of move that the guide tries first:
 * it is part of the place as much as the plan is. `finished` is how many moves have left the
 * plan empty since the card was loaded, and an app shows it as it is: "bands finished". It counts
 * an action that was the plan's last and a revision that leaves nothing, the guide's own, chosen
 * ones and a program's alike; at 65,535 it stays, and moves are taken all the same. No move
 * depends on it, and no value of it is refused. The empty configuration is all zeros, and every
 * good card accepts it: after a refused load or restore a run from it may rest at once, like a
 * pattern that is done, so look at the answer first. Compare two by their members: the struct may
 * have padding that no call writes. */
struct rigtemple_configuration {
    uint8_t beliefs[RIGTEMPLE_SET_BYTES];
    uint8_t goals[RIGTEMPLE_SET_BYTES];
    uint8_t plan[RIGTEMPLE_MOST_PLAN_ACTIONS];
    uint16_t length;
    uint8_t phase;
    uint16_t finished;
};

/* ---- the functions of the library: the sixteen calls over the parts of a configuration.
 * `beliefs` and `goals` are 32 bytes each, `plan` is 1,024 bytes, `remaining` is 128 bytes. An app
 * writes rigtemple_..._parts in C and C++; the symbol has the version's first number too. ---- */

#define rigtemple_check_parts rigtemple_4_check_parts
#define rigtemple_load_parts rigtemple_4_load_parts
#define rigtemple_grade_parts rigtemple_4_grade_parts
#define rigtemple_list_parts rigtemple_4_list_parts
#define rigtemple_list_looks_parts rigtemple_4_list_looks_parts
#define rigtemple_next_parts rigtemple_4_next_parts
#define rigtemple_take_parts rigtemple_4_take_parts
#define rigtemple_run_parts rigtemple_4_run_parts
#define rigtemple_take_bounded_parts rigtemple_4_take_bounded_parts
#define rigtemple_run_bounded_parts rigtemple_4_run_bounded_parts
#define rigtemple_deliberate_parts rigtemple_4_deliberate_parts
#define rigtemple_go_on_parts rigtemple_4_go_on_parts
#define rigtemple_save_parts rigtemple_4_save_parts
#define rigtemple_restore_parts rigtemple_4_restore_parts
#define rigtemple_text_parts rigtemple_4_text_parts
#define rigtemple_print_parts rigtemple_4_print_parts
#define rigtemple_name_parts rigtemple_4_name_parts

RIGTEMPLE_LOOK_AT_ANSWER
uint16_t rigtemple_4_check_parts(const uint8_t *card, size_t card_len);

RIGTEMPLE_LOOK_AT_ANSWER
uint16_t rigtemple_4_load_parts(const uint8_t *card, size_t card_len, uint8_t *beliefs,
                                uint8_t *goals, uint8_t *plan, uint16_t *length, uint8_t *phase,
                                uint16_t *finished);

RIGTEMPLE_LOOK_AT_ANSWER
uint16_t rigtemple_4_grade_parts(const uint8_t *card, size_t card_len, uint8_t *verdict,
                                 uint8_t *offender, uint16_t *number);

RIGTEMPLE_LOOK_AT_ANSWER
uint16_t rigtemple_4_list_parts(const uint8_t *card, size_t card_len, const uint8_t *beliefs,
                                const uint8_t *goals, const uint8_t *plan, uint16_t length,
                                uint8_t phase, uint16_t finished, uint16_t *list,
                                size_t room_in_entries, uint16_t *entries);

RIGTEMPLE_LOOK_AT_ANSWER
uint16_t rigtemple_4_list_looks_parts(const uint8_t *card, size_t card_len, const uint8_t *beliefs,
                                      const uint8_t *goals, const uint8_t *plan, uint16_t length,
                                      uint8_t phase, uint16_t finished, uint16_t *list,
                                      size_t room_in_entries, uint16_t *entries, uint16_t *judged,
                                      uint16_t *open_goals);

RIGTEMPLE_LOOK_AT_ANSWER
uint16_t rigtemple_4_next_parts(const uint8_t *card, size_t card_len, const uint8_t *beliefs,
                                const uint8_t *goals, const uint8_t *plan, uint16_t length,
                                uint8_t phase, uint16_t finished, uint8_t *coming,
                                uint16_t *choice);

RIGTEMPLE_LOOK_AT_ANSWER
uint16_t rigtemple_4_take_parts(const uint8_t *card, size_t card_len, uint8_t *beliefs,
                                uint8_t *goals, uint8_t *plan, uint16_t *length, uint8_t *phase,
                                uint16_t *finished, uint16_t choice, uint16_t *node);

RIGTEMPLE_LOOK_AT_ANSWER
uint16_t rigtemple_4_run_parts(const uint8_t *card, size_t card_len, uint8_t *beliefs,
                               uint8_t *goals, uint8_t *plan, uint16_t *length, uint8_t *phase,
                               uint16_t *finished, uint16_t budget, uint16_t *moves,
                               uint8_t *ending);

RIGTEMPLE_LOOK_AT_ANSWER
uint16_t rigtemple_4_take_bounded_parts(const uint8_t *card, size_t card_len, uint8_t *beliefs,
                                        uint8_t *goals, uint8_t *plan, uint16_t *length,
                                        uint8_t *phase, uint16_t *finished, uint16_t choice,
                                        uint16_t *node);

RIGTEMPLE_LOOK_AT_ANSWER
uint16_t rigtemple_4_run_bounded_parts(const uint8_t *card, size_t card_len, uint8_t *beliefs,
                                       uint8_t *goals, uint8_t *plan, uint16_t *length,
                                       uint8_t *phase, uint16_t *finished, uint16_t budget,
                                       uint16_t *moves, uint8_t *ending);

RIGTEMPLE_LOOK_AT_ANSWER
uint16_t rigtemple_4_deliberate_parts(const uint8_t *card, size_t card_len, const uint8_t *program,
                                      size_t program_len, uint8_t *beliefs, uint8_t *goals,
                                      uint8_t *plan, uint16_t *length, uint8_t *phase,
                                      uint16_t *finished, uint16_t budget, uint16_t *moves,
                                      uint8_t *ending, uint8_t *remaining,
                                      uint8_t *remaining_length);

RIGTEMPLE_LOOK_AT_ANSWER
uint16_t rigtemple_4_go_on_parts(const uint8_t *card, size_t card_len, const uint8_t *program,
                                 size_t program_len, const uint8_t *numbers, size_t numbers_len,
                                 uint8_t *beliefs, uint8_t *goals, uint8_t *plan, uint16_t *length,
                                 uint8_t *phase, uint16_t *finished, uint16_t budget,
                                 uint16_t *moves, uint8_t *ending, uint8_t *remaining,
                                 uint8_t *remaining_length);

RIGTEMPLE_LOOK_AT_ANSWER
uint16_t rigtemple_4_save_parts(const uint8_t *card, size_t card_len, const uint8_t *beliefs,
                                const uint8_t *goals, const uint8_t *plan, uint16_t length,
                                uint8_t phase, uint16_t finished, uint8_t *place,
                                size_t room_in_bytes, uint16_t *bytes);

RIGTEMPLE_LOOK_AT_ANSWER
uint16_t rigtemple_4_restore_parts(const uint8_t *card, size_t card_len, const uint8_t *place,
                                   size_t place_len, uint8_t *beliefs, uint8_t *goals,
                                   uint8_t *plan, uint16_t *length, uint8_t *phase,
                                   uint16_t *finished);

RIGTEMPLE_LOOK_AT_ANSWER
uint16_t rigtemple_4_text_parts(const uint8_t *text, size_t text_len, uint8_t *card,
                                size_t room_in_bytes, uint16_t *bytes, size_t *place);

RIGTEMPLE_LOOK_AT_ANSWER
uint16_t rigtemple_4_print_parts(const uint8_t *card, size_t card_len, uint16_t node, uint8_t *text,
                                 size_t room_in_bytes, uint16_t *bytes);

RIGTEMPLE_LOOK_AT_ANSWER
uint16_t rigtemple_4_name_parts(const uint8_t *card, size_t card_len, const uint8_t *shed,
                                size_t shed_len, const uint8_t *master, size_t master_len,
                                uint16_t action, uint8_t *sheet, uint16_t *start, uint16_t *length);

/* ---- the sixteen calls ---- */

/* Judges a card.
 * Answers 0 if it is good, and 1 to 9 if it is not. Nothing is written. */
RIGTEMPLE_LOOK_AT_ANSWER
static inline uint16_t rigtemple_check(const uint8_t *card, size_t card_len)
{
    return rigtemple_check_parts(card, card_len);
}

/* Makes the configuration that a weaver begins with: the card's initial beliefs, those of its
 * initial goals that are not believed, its initial plan, phase 0, and nothing finished, also where
 * the initial plan is empty.
 * Answers 0, or 1 to 9. `c` is written in each case; a refusal leaves the empty
 * configuration in it. */
RIGTEMPLE_LOOK_AT_ANSWER
static inline uint16_t rigtemple_load(const uint8_t *card, size_t card_len,
                                      struct rigtemple_configuration *c)
{
    return rigtemple_load_parts(card, card_len, c->beliefs, c->goals, c->plan, &c->length,
                                &c->phase, &c->finished);
}

/* Grades a card: bounded or open, and if open what the first offender is: the initial plan,
 * else a selection rule, else a revision rule, and the rule's number from 0 (0 with no rule).
 * On a bounded card a configuration whose plan weighs W, at most 1,024, takes at most W moves
 * before it needs a selection, whoever chooses, and no plan ever gets too long.
 * Answers 0, or 1 to 9. All three are written in each case; a refusal says open, the initial
 * plan, 0: a card that is refused is never called bounded. */
RIGTEMPLE_LOOK_AT_ANSWER
static inline uint16_t rigtemple_grade(const uint8_t *card, size_t card_len, uint8_t *verdict,
                                       uint8_t *offender, uint16_t *number)
{
    return rigtemple_grade_parts(card, card_len, verdict, offender, number);
}

/* Lists every enabled choice, as codes, rising, each once. The phase and `finished` do not matter
 * to it, nor whether the plan that a choice leaves would fit.
 * `room_in_entries` is how many codes `list` can hold, not its bytes;
 * RIGTEMPLE_MOST_LIST_ENTRIES are always enough. The codes are written to the front of `list`
 * and their number to `entries`; what lies after them stays.
 * Answers 0, or 1 to 9, 13, or 12 if there are more choices than room. A refusal writes nothing
 * to `list`, and 0 to `entries`. */
RIGTEMPLE_LOOK_AT_ANSWER
static inline uint16_t rigtemple_list(const uint8_t *card, size_t card_len,
                                      const struct rigtemple_configuration *c, uint16_t *list,
                                      size_t room_in_entries, uint16_t *entries)
{
    return rigtemple_list_parts(card, card_len, c->beliefs, c->goals, c->plan, c->length,
                                c->phase, c->finished, list, room_in_entries, entries);
}

/* rigtemple_list, and how much it looks at: `judged` becomes how many conditions the listing
 * judges, at most RIGTEMPLE_MOST_JUDGED, and `open_goals` how many goals there are, believed ones
 * too. With an empty plan a listing judges one condition for each selection rule, and one more
 * where its belief condition holds; otherwise one for each specification of the first action, and
 * one for each revision rule whose head is a prefix of the plan. A refusal writes 0 to both. */
RIGTEMPLE_LOOK_AT_ANSWER
static inline uint16_t rigtemple_list_looks(const uint8_t *card, size_t card_len,
                                            const struct rigtemple_configuration *c,
                                            uint16_t *list, size_t room_in_entries,
                                            uint16_t *entries, uint16_t *judged,
                                            uint16_t *open_goals)
{
    return rigtemple_list_looks_parts(card, card_len, c->beliefs, c->goals, c->plan, c->length,
                                      c->phase, c->finished, list, room_in_entries, entries, judged,
                                      open_goals);
}

/* Tells which move comes next of the guide's own, and makes none: what a run of budget 1 would do.
 * `coming` becomes RIGTEMPLE_NEXT_MOVE, and `choice` the move's code, which rigtemple_take then
 * takes; or RIGTEMPLE_NEXT_FULL, and `choice` the code of the move that does not fit, which
 * rigtemple_take refuses with 11; or RIGTEMPLE_NEXT_REST, and `choice` 0. It need not be the lowest
 * of the list: the kinds are tried from the phase on.
 * Answers 0 (with each of the three), or 1 to 9, or 13. Both are written in each case; a refusal
 * says rest and 0: it never tells a move. */
RIGTEMPLE_LOOK_AT_ANSWER
static inline uint16_t rigtemple_next(const uint8_t *card, size_t card_len,
                                      const struct rigtemple_configuration *c, uint8_t *coming,
                                      uint16_t *choice)
{
    return rigtemple_next_parts(card, card_len, c->beliefs, c->goals, c->plan, c->length, c->phase,
                                c->finished, coming, choice);
}

/* Takes the move that the weaver chose, and changes `c` to what it leaves; where that is an empty
 * plan, `finished` is one more. After an action the goals are those that are not believed then: a
 * goal falls when its fact is believed. No other move changes a goal.
 * Answers 0, or 1 to 9, 13, or why the move is closed: 14 if the card has no rule or specification
 * of that number (any code may be given), 15 if the front of the plan is not the one that the move
 * needs, 16 if a condition is false; or 11 if the plan would get too long. A move is closed, and
 * answered with 14, 15 or 16, exactly if rigtemple_list does not give it. A refusal leaves `c` as
 * it came in.
 * `node` is written in each case: with 16 it becomes the number of the node that settled the
 * condition, the belief condition's before the goal condition's, and else 0. That node is "true"
 * or an atom of the card: the atom that is missing, or, where an odd number of "not" stands on
 * the way to it, the one that is in the way. */
RIGTEMPLE_LOOK_AT_ANSWER
static inline uint16_t rigtemple_take(const uint8_t *card, size_t card_len,
                                      struct rigtemple_configuration *c, uint16_t choice,
                                      uint16_t *node)
{
    return rigtemple_take_parts(card, card_len, c->beliefs, c->goals, c->plan, &c->length,
                                &c->phase, &c->finished, choice, node);
}

/* Runs by itself, for `budget` moves at most, and changes `c` to the configuration reached;
 * `finished` is one more for each move that left the plan empty.
 * `moves` becomes the number of moves taken and `ending` why it stopped: spent, rest or full.
 * The budget is looked at first: a run of budget 0 is spent, at rest too. Which move a run of
 * budget 1 makes rigtemple_next tells before it; after it, its kind is the phase minus 1, modulo 3,
 * and its number the lowest of that kind in the list before it.
 * Answers 0 (with each of the three endings), or 1 to 9, or 13. A refusal leaves `c` as it came
 * in, and writes 0 to `moves` and RIGTEMPLE_ENDING_SPENT to `ending`. */
RIGTEMPLE_LOOK_AT_ANSWER
static inline uint16_t rigtemple_run(const uint8_t *card, size_t card_len,
                                     struct rigtemple_configuration *c, uint16_t budget,
                                     uint16_t *moves, uint8_t *ending)
{
    return rigtemple_run_parts(card, card_len, c->beliefs, c->goals, c->plan, &c->length,
                               &c->phase, &c->finished, budget, moves, ending);
}

/* Takes the move that the weaver chose, on a bounded card: as rigtemple_take, but that the plan
 * never gets too long, so that it never answers 11.
 * Answers 0, or 1 to 9, 13, then 22 if rigtemple_grade calls the card open or the plan of `c` weighs
 * more than 1,024 (each action as much as the card says, as often as it stands there), and else 14,
 * 15 or 16 as rigtemple_take does. What it leaves weighs at most 1,024 again, and so do what
 * rigtemple_load and rigtemple_run_bounded leave of a bounded card, and what is saved and restored:
 * a day that begins with one of these never meets 22. A refusal leaves `c` as it came in, and `node`
 * is written in each case as by rigtemple_take.
 * The card is graded in each call, which takes longer than the move itself: docs/MEASURED.md. */
RIGTEMPLE_LOOK_AT_ANSWER
static inline uint16_t rigtemple_take_bounded(const uint8_t *card, size_t card_len,
                                              struct rigtemple_configuration *c, uint16_t choice,
                                              uint16_t *node)
{
    return rigtemple_take_bounded_parts(card, card_len, c->beliefs, c->goals, c->plan, &c->length,
                                        &c->phase, &c->finished, choice, node);
}

/* Runs by itself on a bounded card: as rigtemple_run, but that it is never full, so that `ending`
 * has two values.
 * Answers 0 (with each of the two endings), or 1 to 9, 13, or 22 as rigtemple_take_bounded does. A
 * refusal leaves `c` as it came in, and writes 0 to `moves` and RIGTEMPLE_BOUNDED_SPENT to `ending`.
 * The card is graded once, before the first move. */
RIGTEMPLE_LOOK_AT_ANSWER
static inline uint16_t rigtemple_run_bounded(const uint8_t *card, size_t card_len,
                                             struct rigtemple_configuration *c, uint16_t budget,
                                             uint16_t *moves,
                                             enum rigtemple_bounded_ending *ending)
{
    uint8_t number;
    uint16_t answer = rigtemple_run_bounded_parts(card, card_len, c->beliefs, c->goals, c->plan,
                                                  &c->length, &c->phase, &c->finished, budget,
                                                  moves, &number);
    *ending = number == 0 ? RIGTEMPLE_BOUNDED_SPENT : RIGTEMPLE_BOUNDED_REST;
    return answer;
}

/* Moves by a program of the shed's own, for `budget` moves at most, and changes `c` to the
 * configuration reached.
 * A program, of RIGTEMPLE_ENTRY_... entries, says which move is made next, where rigtemple_run goes
 * by the phase. An execute, an apply and a select make one move of the card, which changes `c` as
 * a chosen one does, its phase and `finished` too. A `while` makes an idle move, which counts as
 * one move and leaves `c` as it is: if its condition holds, its body is next and then the `while`
 * again, else it is done. So a `while` always has a first move, and an `or` with one on its left
 * never takes its right; nor does an `or` whose left is enabled but would leave too long a plan.
 * `moves` becomes the number of moves made, idle ones too, and `ending` why it stopped, looked at
 * in this order before each move: spent, finished, stuck or full. So a program that is done with
 * the last move of its budget is spent, and none remains.
 * What remains of the program are entry numbers, to be done one after the other. All 128 bytes of
 * `remaining` are written, the next number first, then zeros, and how many numbers they are goes to
 * `remaining_length`, for 0 is an entry's number too. At first the last entry's alone remains, and
 * a sequence is one number until a move is made in it. Stuck and full leave what could not be done.
 * To go on later keep the program and the remaining numbers beside the place, which does not hold
 * them, and give them to rigtemple_go_on.
 * Answers 0 (with each of the four endings), or 1 to 9, 19, or 13. A refusal leaves `c` as it came
 * in, writes nothing to `remaining`, and writes 0 to `moves`, RIGTEMPLE_DELIBERATION_SPENT to
 * `ending` and 0 to `remaining_length`. */
RIGTEMPLE_LOOK_AT_ANSWER
static inline uint16_t rigtemple_deliberate(const uint8_t *card, size_t card_len,
                                            const uint8_t *program, size_t program_len,
                                            struct rigtemple_configuration *c, uint16_t budget,
                                            uint16_t *moves, uint8_t *ending, uint8_t *remaining,
                                            uint8_t *remaining_length)
{
    return rigtemple_deliberate_parts(card, card_len, program, program_len, c->beliefs, c->goals,
                                      c->plan, &c->length, &c->phase, &c->finished, budget, moves,
                                      ending, remaining, remaining_length);
}

/* Goes on with a program, from the numbers that remain of it: rigtemple_deliberate is the case of
 * the last entry's number alone, and what is not said here is as it is there. A deliberation that
 * is cut by its budget, saved, restored and gone on with, as often as you like and with a budget of
 * at least 1 each time, comes to the configuration, the ending and the remaining numbers of one
 * that was never cut, and the counts of its moves add up.
 * `numbers` are the entry numbers that remain, the next first, as rigtemple_deliberate or this call
 * left them in `remaining`, and `numbers_len` is how many they are. They are only read, and
 * `remaining` is another buffer: the two must not overlap. Any bytes may be given, and any number
 * of them; accepted are those of which each, plus how many stand behind it, is below the number of
 * entries. All that a done call leaves are accepted with its program. None at all are accepted too:
 * that is finished, or with budget 0 spent.
 * To know which move was made with budget 1: if `c` is as it was, an idle one (or a revision by
 * which nothing changes); else its kind is the phase afterwards minus 1, modulo 3. An action was
 * made by the lowest of that kind in the list before it, and a rule is one of that kind in that
 * list of which rigtemple_take makes the same.
 * Answers 0 (with each of the four endings), or 1 to 9, 19 for the program or the numbers, or 13. A
 * refusal leaves `c` as it came in, writes nothing to `remaining`, and writes 0 to `moves`,
 * RIGTEMPLE_DELIBERATION_SPENT to `ending` and 0 to `remaining_length`: keep the numbers that were
 * given. */
RIGTEMPLE_LOOK_AT_ANSWER
static inline uint16_t rigtemple_go_on(const uint8_t *card, size_t card_len,
                                       const uint8_t *program, size_t program_len,
                                       const uint8_t *numbers, size_t numbers_len,
                                       struct rigtemple_configuration *c, uint16_t budget,
                                       uint16_t *moves, uint8_t *ending, uint8_t *remaining,
                                       uint8_t *remaining_length)
{
    return rigtemple_go_on_parts(card, card_len, program, program_len, numbers, numbers_len,
                                 c->beliefs, c->goals, c->plan, &c->length, &c->phase,
                                 &c->finished, budget, moves, ending, remaining, remaining_length);
}

/* Saves a configuration as a place. `room_in_bytes` is how many bytes `place` has;
 * RIGTEMPLE_MOST_PLACE_BYTES are always enough. Writes 44 bytes, or 76 under a card of edition 2,
 * and one for each action of the plan, no others, and their number to `bytes`. `finished` stands in
 * bytes 10 and 11 of them, low byte first. A place does not say which card it came from: keep that
 * beside it.
 * Answers 0, or 1 to 9, 13, or 12 if the room is too short. A refusal writes nothing to
 * `place`, and 0 to `bytes`. */
RIGTEMPLE_LOOK_AT_ANSWER
static inline uint16_t rigtemple_save(const uint8_t *card, size_t card_len,
                                      const struct rigtemple_configuration *c, uint8_t *place,
                                      size_t room_in_bytes, uint16_t *bytes)
{
    return rigtemple_save_parts(card, card_len, c->beliefs, c->goals, c->plan, c->length,
                                c->phase, c->finished, place, room_in_bytes, bytes);
}

/* Restores the configuration that was saved, `finished` too: `place_len` is the number that
 * rigtemple_save gave as its bytes, no more and no less. The place may be any bytes at all and is
 * judged against the card it is given with; bytes 10 and 11 may have any value, and a place in
 * which they are zero has nothing finished.
 * Answers 0, or 1 to 9 for the card, or 1, 2, 3, 4, 8 or 9 for the place; ask rigtemple_check
 * which of the two it was. `c` is written in each case; a refusal leaves the empty
 * configuration in it. */
RIGTEMPLE_LOOK_AT_ANSWER
static inline uint16_t rigtemple_restore(const uint8_t *card, size_t card_len,
                                         const uint8_t *place, size_t place_len,
                                         struct rigtemple_configuration *c)
{
    return rigtemple_restore_parts(card, card_len, place, place_len, c->beliefs, c->goals, c->plan,
                                   &c->length, &c->phase, &c->finished);
}

/* Makes a card from a text, as docs/TEXT.md has its grammar. `room_in_bytes` is how many bytes
 * `card` has; RIGTEMPLE_MOST_CARD_BYTES_OF_EDITION_1 are always enough. The card, of edition 1, is
 * written to the front of `card`, no bytes after it, and its length to `bytes`; rigtemple_check
 * answers 0 for it.
 * Answers 0; or 17 if the text is not of the grammar, 18 if brackets and ! nest more than 32 deep,
 * 25 if a number, or how many lines, nodes or actions there are, is too large for a card; or 3 or
 * 5 to 9 as rigtemple_check would for the card; or 12 if the room is too short. A refusal writes
 * nothing to `card`, and 0 to `bytes`.
 * `place` is written in each case: with 17 it becomes the place, from 0, of the first byte that no
 * continuation could make right, or `text_len` if the text just ends too soon, and else 0. */
RIGTEMPLE_LOOK_AT_ANSWER
static inline uint16_t rigtemple_text(const uint8_t *text, size_t text_len, uint8_t *card,
                                      size_t room_in_bytes, uint16_t *bytes, size_t *place)
{
    return rigtemple_text_parts(text, text_len, card, room_in_bytes, bytes, place);
}

/* Prints the condition that a node of a card stands for, as a text of it, with brackets only where
 * it must have them: "B1&!B3". `room_in_bytes` is how many bytes `text` has;
 * RIGTEMPLE_MOST_PRINTED_BYTES are always enough. The text is written to the front of `text`, no
 * zero behind it, and its length to `bytes`.
 * Answers 0; or 1 to 9 for the card, or 7 if it has no such node (ask rigtemple_check which of the
 * two it was); or 18 if the text would nest more than 32 deep, 25 if it would have more than 256
 * nodes, a shared one counted each time, or 12 if the room is too short. A refusal writes nothing
 * to `text`, and 0 to `bytes`. */
RIGTEMPLE_LOOK_AT_ANSWER
static inline uint16_t rigtemple_print(const uint8_t *card, size_t card_len, uint16_t node,
                                       uint8_t *text, size_t room_in_bytes, uint16_t *bytes)
{
    return rigtemple_print_parts(card, card_len, node, text, room_in_bytes, bytes);
}

/* Finds the name of an action: in the shed's sheet, or in the master's where the shed's has an
 * empty name for it.
 * A sheet has a count n, which is the card's number of actions, then n + 1 offsets, then the names
 * one behind the other: the name of action i lies from offset i up to offset i + 1. Count and
 * offsets are two bytes each, low byte first; the offsets never fall, the first is 2n + 4, and the
 * last is the sheet's length. Each name is UTF-8 by itself, as RFC 3629 has it: 00, a byte order
 * mark and noncharacters are characters. No name of the master's sheet is empty. A shed that has
 * no sheet gives a `shed_len` of 0 and any pointer but null, be it the master's. Both sheets are
 * checked whole in each call, names that nobody asked for too.
 * `name` becomes a pointer into the caller's own sheet and `bytes` a length, never 0 when done.
 * Nothing is copied: the name is there as long as that sheet is. It is not ended by a zero byte:
 * the next name follows at once, and a name may have a zero byte inside. fwrite writes it;
 * printf("%.*s", (int)bytes, (const char *)name) up to its first zero byte.
 * Answers 0; or 1 to 9 for the card; or 20 if a sheet breaks these rules, the shed's looked at
 * before the master's; or 21 if the card has no such action. `sheet` is written in each case: with
 * 0 it becomes the sheet that the name lies in, with 20 the one that is refused, and else
 * RIGTEMPLE_SHEET_MASTER. A refusal hands back an empty part of the master's sheet: `name` is
 * `master`, and `bytes` 0. */
RIGTEMPLE_LOOK_AT_ANSWER
static inline uint16_t rigtemple_name(const uint8_t *card, size_t card_len, const uint8_t *shed,
                                      size_t shed_len, const uint8_t *master, size_t master_len,
                                      uint16_t action, const uint8_t **name, uint16_t *bytes,
                                      uint8_t *sheet)
{
    uint16_t start;
    uint16_t answer = rigtemple_name_parts(card, card_len, shed, shed_len, master, master_len,
                                           action, sheet, &start, bytes);
    int own = answer == RIGTEMPLE_ANSWER_DONE && *sheet == RIGTEMPLE_SHEET_SHED;
    *name = (own ? shed : master) + start;
    return answer;
}

#ifdef __cplusplus
}
#endif

#endif
