/*
 * Makes one call of the library or of the C engine so many times, for bench/instructions.sh, which
 * counts the instructions that it takes.
 *
 *   instructions SIDE CARD CALL TIMES    0 ours, 1 the engine's; 0 stripe, 1 typical; a call of the
 *                                        enum below; 0 to 9 times
 *
 * With the stripe card its text is read and node 4 printed, with the typical card a full text and a
 * node that prints 255. A deliberation is of one plan, by the program of the teaching shed, with 3
 * revisions and with 50; it is gone on with from where its first moves left it, by one move and to
 * its end. A name is found in the shed's sheet, with a master's beside it: of the stripe
 * card's five, and of 256 of about 40 bytes each.
 */
#include <stdlib.h>

#include "../include/rigtemple.h"
#include "../tests/cards.h"
#include "../tests/programs.h"
#include "../tests/sheets.h"
#include "../tests/texts.h"
#include "engine.h"

enum { CHECK, LOAD, GRADE, LIST, TAKE, REFUSED, RUN_1, RUN_9, SAVE, RESTORE, DELIBERATE, TEXT,
       PRINT, NAME, NEXT, TAKE_BOUNDED, RUN_BOUNDED, GO_ON_1, GO_ON };
enum { BEFORE = 3, ENOUGH = 1000 };

/* A revision of the stripe card whose condition is false then. */
enum { CLOSED = 514 };

/* An action that both sheds have a name for. */
enum { NAMED = 3 };

static struct card_bytes card, printed;
static struct program_bytes program;
static struct text_bytes text;
static struct rigtemple_configuration middle, woven, begun, c;
static uint8_t remaining[RIGTEMPLE_MOST_REMAINING], remaining_length;
static uint8_t numbers[RIGTEMPLE_MOST_REMAINING], numbers_len, coming;
static uint8_t place[RIGTEMPLE_MOST_PLACE_BYTES], verdict, offender, ending;
static uint16_t list[RIGTEMPLE_MOST_LIST_ENTRIES], place_len, number, moves, node, of_printed;
static uint8_t made[RIGTEMPLE_MOST_CARD_BYTES], sheet;
static struct sheet_bytes shed, master;
static uint16_t start, length;
static size_t wrong;

#define CARD card.bytes, card.len
#define PROGRAM program.bytes, program.len
#define NUMBERS numbers, numbers_len
#define SHEETS shed.bytes, shed.len, master.bytes, master.len
#define LEFT &moves, &ending, remaining, &remaining_length
#define PARTS c.beliefs, c.goals, c.plan, &c.length, &c.phase, &c.finished
#define PARTS_READ c.beliefs, c.goals, c.plan, c.length, c.phase, c.finished

/* One call by the functions whose names begin and end as told. */
#define CALL(of, parts)                                                                       \
    switch (call) {                                                                           \
    case CHECK: return of##check##parts(CARD);                                                \
    case LOAD: return of##load##parts(CARD, PARTS);                                           \
    case GRADE: return of##grade##parts(CARD, &verdict, &offender, &number);                  \
    case LIST: return of##list##parts(CARD, PARTS_READ, list, sizeof list / 2, &number);      \
    case TAKE: return of##take##parts(CARD, PARTS, list[0], &node);                           \
    case REFUSED: return of##take##parts(CARD, PARTS, CLOSED, &node);                         \
    case RUN_1: return of##run##parts(CARD, PARTS, 1, &moves, &ending);                       \
    case RUN_9: return of##run##parts(CARD, PARTS, 9, &moves, &ending);                       \
    case SAVE: return of##save##parts(CARD, PARTS_READ, place, sizeof place, &number);        \
    case RESTORE: return of##restore##parts(CARD, place, place_len, PARTS);                   \
    case DELIBERATE: return of##deliberate##parts(CARD, PROGRAM, PARTS, ENOUGH, LEFT);        \
    case NEXT: return of##next##parts(CARD, PARTS_READ, &coming, &number);                    \
    case TAKE_BOUNDED: return of##take_bounded##parts(CARD, PARTS, list[0], &node);           \
    case RUN_BOUNDED: return of##run_bounded##parts(CARD, PARTS, 9, &moves, &ending);         \
    case GO_ON_1: return of##go_on##parts(CARD, PROGRAM, NUMBERS, PARTS, 1, LEFT);            \
    case GO_ON: return of##go_on##parts(CARD, PROGRAM, NUMBERS, PARTS, ENOUGH, LEFT);         \
    case TEXT: return of##text##parts(text.bytes, text.len, made, sizeof made, &number, &wrong); \
    case NAME: return of##name##parts(CARD, SHEETS, NAMED, &sheet, &start, &length);          \
    default:                                                                                  \
        return of##print##parts(printed.bytes, printed.len, of_printed, made, sizeof made, &number); \
    }

static uint16_t ours(int call)
{
    CALL(rigtemple_, _parts)
}

static uint16_t engines(int call)
{
    CALL(engine_, )
}

/* The configuration after three moves, its place, and the first of its choices; the one in which
 * the first plan is finished, from which the program comes to its end; where three moves of it
 * leave it; what is read and printed. */
static int begin(int which)
{
    if (which == 0) {
        endless_stripe_card(&card);
        teaching_program(&program, 3);
        stripe_master(&master);
        stripe_shed(&shed);
        stripe_as_text(&text);
        stripe_card(&printed);
        of_printed = 4;
    } else {
        typical_card(&card);
        teaching_program(&program, 50);
        typical_master(&master);
        typical_shed(&shed);
        full_text(&text);
        printed_list_card(&printed);
        of_printed = 254;
    }
    if (rigtemple_load(CARD, &c) || rigtemple_run(CARD, &c, BEFORE, &moves, &ending) ||
        rigtemple_save(CARD, &c, place, sizeof place, &place_len))
        return 1;
    middle = woven = c;
    while (woven.finished == 0)
        if (rigtemple_run(CARD, &woven, 1, &moves, &ending) || moves == 0)
            return 1;
    c = woven;
    if (rigtemple_deliberate(CARD, PROGRAM, &c, ENOUGH, LEFT) ||
        ending != RIGTEMPLE_DELIBERATION_FINISHED)
        return 1;
    begun = woven;
    if (rigtemple_deliberate(CARD, PROGRAM, &begun, BEFORE, &moves, &ending, numbers, &numbers_len))
        return 1;
    if (rigtemple_name_parts(CARD, SHEETS, NAMED, &sheet, &start, &length) ||
        sheet != RIGTEMPLE_SHEET_SHED)
        return 1;
    return rigtemple_list(CARD, &middle, list, sizeof list / 2, &number);
}

int main(int count, char **words)
{
    unsigned answers = 0;
    if (count != 5 || begin(words[2][0] - '0'))
        return 2;
    int call = (int)strtoul(words[3], NULL, 10);
    for (int i = 0; i < words[4][0] - '0'; i++) {
        c = call == DELIBERATE ? woven : call >= GO_ON_1 ? begun : middle;
        answers |= words[1][0] == '0' ? ours(call) : engines(call);
    }
    return answers == 0 ? 0 : 1;
}
