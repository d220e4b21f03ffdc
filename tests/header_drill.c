/*
 * The drill over include/rigtemple.h: reads requests on standard input until the input ends and
 * writes an answer for each, so that the library as C sees it can be compared with any other
 * program, byte for byte. A request is a byte for its kind and what follows it:
 *
 *   0 card     length (2), bytes        the card of the requests that follow
 *   1 check                             number (2)
 *   2 load                              number (2), image
 *   3 grade                             number (2), verdict (1), offender (1), its number (2)
 *   4 list     image, room (2)          number (2), count (2), the lent list (room entries)
 *   5 take     image, choice (2)        number (2), node (2), image
 *   6 run      image, budget (2)        number (2), image, count (2), ending (1)
 *   7 save     image, room (2)          number (2), the lent place (room bytes)
 *   8 restore  length (2), bytes        number (2), image
 *   9 text     length (4), bytes, room (2)
 *                                       number (2), place (4), length (2), the lent card (room)
 *  10 print    node (2), room (2)       number (2), length (2), the lent text (room bytes)
 *  11 deliberate  length (2), bytes of program, image, budget (2)
 *                                       number (2), image, count (2), ending (1), m (2), the
 *                                       remaining program: m numbers (1)
 *  12 name     length (2), bytes of the shed's sheet, length (2), bytes of the master's, action (2)
 *                                       number (2), sheet (1), start (2), length (2)
 *  13 take on a bounded card            as 5
 *  14 run on a bounded card             as 6
 *  21 go on    length (2), bytes of program, m (2), m numbers (1), image, budget (2)
 *                                       as 11
 *  22 next     image                    number (2), ending (1), code (2)
 *
 * An image: beliefs (32), goals (32), plan length (2), phase (1), finished count (2), m (2), m
 * bytes of the plan's array; the rest of it is zero. In an answer m is the least that serves. The
 * node of a take is with 16 the one that settled the condition, else 0; the place of a text with 17
 * that of the first wrong byte, else 0; the sheet of a name is 0 the master's or 1 the shed's: the
 * one that it lies in, or with 20 the one that is refused. What a refused grading and a refused
 * "next" say beside their number is written as 0. A request that breaks these rules ends the
 * program, and so does what a call leaves wrong and no answer shows.
 *
 * All that a call may write is lent filled with EE hex, with bytes of the same around it. They are
 * looked at after each call: one that is written ends the program. What a call may only read ends
 * where a guard begins that cannot be read, so that reading past it faults; the card and what is
 * beside it have to be the same afterwards.
 */
#include <stdlib.h>
#include <string.h>
#include <sys/mman.h>
#include <unistd.h>

#include "../include/rigtemple.h"

enum { CARD, CHECK, LOAD, GRADE, LIST, TAKE, RUN, SAVE, RESTORE, TEXT, PRINT, DELIBERATE, NAME,
       TAKE_BOUNDED, RUN_BOUNDED };
enum { GO_ON = 21, NEXT };
enum { LIST_LIMIT = 1024, SAVE_LIMIT = 2048, PLACE_LIMIT = 4096, LENT = 0xEE };
enum { TEXT_LIMIT = 65536, CARD_ROOM_LIMIT = 24200, PRINT_LIMIT = 2048, PROGRAM_LIMIT = 1024 };
enum { NUMBERS_LIMIT = 512 };

/* ---- standard input and output ---- */

static uint8_t in[1 << 16], out[1 << 16];
static size_t in_at, in_end, out_at;

/* Writes what is waiting. */
static void flush(void)
{
    size_t done = 0;
    while (done < out_at) {
        long count = write(1, out + done, out_at - done);
        if (count <= 0)
            exit(2);
        done += (size_t)count;
    }
    out_at = 0;
}

/* Ends the program, with all answers written. */
static void end(int status)
{
    flush();
    exit(status);
}

/* Whether there is a byte more; it is read to `in`. */
static int more(void)
{
    if (in_at < in_end)
        return 1;
    long count = read(0, in, sizeof in);
    in_at = 0;
    in_end = count > 0 ? (size_t)count : 0;
    return in_end > 0;
}

static uint8_t get_byte(void)
{
    if (!more())
        end(1);
    return in[in_at++];
}

static void get_bytes(uint8_t *to, size_t count)
{
    for (size_t i = 0; i < count; i++)
        to[i] = get_byte();
}

/* A number of two bytes, `most` at most. */
static uint16_t get_number(unsigned most)
{
    unsigned low = get_byte(), value = low + 256u * get_byte();
    if (value > most)
        end(1);
    return (uint16_t)value;
}

/* A length of four bytes, `most` at most. */
static size_t get_length(size_t most)
{
    size_t low = get_number(65535), value = low + 65536 * (size_t)get_number(65535);
    if (value > most)
        end(1);
    return value;
}

static void put_byte(uint8_t byte)
{
    if (out_at == sizeof out)
        flush();
    out[out_at++] = byte;
}

static void put_bytes(const uint8_t *from, size_t count)
{
    for (size_t i = 0; i < count; i++)
        put_byte(from[i]);
}

static void put_number(uint16_t value)
{
    put_byte((uint8_t)value);
    put_byte((uint8_t)(value >> 8));
}

/* ---- what a call may only read ---- */

/* The card, and what else is given with it: where each part ends, a guard begins. */
enum { THE_CARD, FIRST, SECOND, READ_PARTS, ROOM = 1 << 17 };
static uint8_t *guard[READ_PARTS], before[READ_PARTS][65536];
static size_t given[READ_PARTS];
static uint8_t *card;
static size_t card_len;

/* Lays the guards, each behind room for what is given. */
static void lay_guards(void)
{
    for (unsigned part = 0; part < READ_PARTS; part++) {
        uint8_t *at = mmap(NULL, 2 * ROOM, PROT_READ | PROT_WRITE, MAP_PRIVATE | MAP_ANONYMOUS, -1,
                           0);
        if (at == MAP_FAILED || mprotect(at + ROOM, ROOM, PROT_NONE) != 0)
            end(2);
        guard[part] = at + ROOM;
    }
    card = guard[THE_CARD];
}

/* So many bytes of the input, for a part. */
static uint8_t *get_part(unsigned part, size_t count)
{
    given[part] = count;
    get_bytes(before[part], count);
    return memcpy(guard[part] - count, before[part], count);
}

/* Looks whether a call has changed what it may only read. */
static void look_at_parts(void)
{
    for (unsigned part = 0; part < READ_PARTS; part++)
        if (memcmp(guard[part] - given[part], before[part], given[part]) != 0)
            end(3);
    given[FIRST] = given[SECOND] = 0;
}

/* ---- lending ---- */

enum { GUARD = 64, PARTS = 8 };
static _Alignas(16) uint8_t arena[32768];
static struct { size_t from, to; } lent[PARTS];
static size_t parts;

/* Lends so many bytes of the arena, behind the guard of what was lent before. */
static void *lend(size_t bytes)
{
    size_t from = (parts > 0 ? lent[parts - 1].to + 15 : 0) / 16 * 16 + GUARD;
    if (parts == PARTS || bytes > sizeof arena - GUARD - from)
        end(3);
    lent[parts].from = from;
    lent[parts].to = from + bytes;
    return arena + lent[parts++].from;
}

/* Looks at all of the arena that was not lent, and takes back what was. */
static void take_back(void)
{
    size_t at = 0;
    for (size_t part = 0; part <= parts; part++) {
        for (size_t to = part < parts ? lent[part].from : sizeof arena; at < to; at++)
            if (arena[at] != LENT)
                end(3);
        at = part < parts ? lent[part].to : at;
    }
    memset(arena, LENT, sizeof arena);
    parts = 0;
}

/* ---- images ---- */

static struct rigtemple_configuration *get_image(void)
{
    struct rigtemple_configuration *c = lend(sizeof *c);
    memset(c, 0, sizeof *c);
    get_bytes(c->beliefs, sizeof c->beliefs);
    get_bytes(c->goals, sizeof c->goals);
    c->length = get_number(65535);
    c->phase = get_byte();
    c->finished = get_number(65535);
    get_bytes(c->plan, get_number(sizeof c->plan));
    return c;
}

static void put_image(const struct rigtemple_configuration *c)
{
    size_t m = sizeof c->plan;
    while (m > 0 && c->plan[m - 1] == 0)
        m--;
    put_bytes(c->beliefs, sizeof c->beliefs);
    put_bytes(c->goals, sizeof c->goals);
    put_number(c->length);
    put_byte(c->phase);
    put_number(c->finished);
    put_number((uint16_t)m);
    put_bytes(c->plan, m);
}

/* ---- requests ---- */

static void answer_load(void)
{
    struct rigtemple_configuration *c = lend(sizeof *c);
    put_number(rigtemple_load(card, card_len, c));
    put_image(c);
}

static void answer_grade(void)
{
    uint8_t *verdict = lend(1), *offender = lend(1);
    uint16_t *rule = lend(2);
    uint16_t number = rigtemple_grade(card, card_len, verdict, offender, rule);
    int done = number == RIGTEMPLE_ANSWER_DONE;
    put_number(number);
    put_byte(done ? *verdict : 0);
    put_byte(done ? *offender : 0);
    put_number(done ? *rule : 0);
}

static void answer_list(void)
{
    struct rigtemple_configuration *c = get_image();
    size_t room = get_number(LIST_LIMIT);
    uint16_t *list = lend(2 * room), *count = lend(2), *judged = lend(2), *open_goals = lend(2);
    put_number(rigtemple_list_looks(card, card_len, c, list, room, count, judged, open_goals));
    put_number(*count);
    put_number(*judged);
    put_number(*open_goals);
    for (size_t i = 0; i < room; i++)
        put_number(list[i]);
}

static void answer_take(void)
{
    struct rigtemple_configuration *c = get_image();
    uint16_t *node = lend(2);
    put_number(rigtemple_take(card, card_len, c, get_number(65535), node));
    put_number(*node);
    put_image(c);
}

static void answer_run(void)
{
    struct rigtemple_configuration *c = get_image();
    uint16_t *count = lend(2);
    uint8_t *ending = lend(1);
    put_number(rigtemple_run(card, card_len, c, get_number(65535), count, ending));
    put_image(c);
    put_number(*count);
    put_byte(*ending);
}

static void answer_take_bounded(void)
{
    struct rigtemple_configuration *c = get_image();
    uint16_t *node = lend(2);
    put_number(rigtemple_take_bounded(card, card_len, c, get_number(65535), node));
    put_number(*node);
    put_image(c);
}

static void answer_run_bounded(void)
{
    struct rigtemple_configuration *c = get_image();
    uint16_t *count = lend(2);
    enum rigtemple_bounded_ending *ending = lend(sizeof *ending);
    put_number(rigtemple_run_bounded(card, card_len, c, get_number(65535), count, ending));
    put_image(c);
    put_number(*count);
    put_byte((uint8_t)*ending);
}

/* The count is not in the answer: one that is wrong ends the program. */
static void answer_save(void)
{
    struct rigtemple_configuration *c = get_image();
    size_t room = get_number(SAVE_LIMIT);
    uint8_t *place = lend(room);
    uint16_t *count = lend(2);
    uint16_t number = rigtemple_save(card, card_len, c, place, room, count);
    unsigned header = card_len > 2 && card[2] == 2 ? 76 : 44;
    if (*count != (number == RIGTEMPLE_ANSWER_DONE ? header + c->length : 0))
        end(3);
    put_number(number);
    put_bytes(place, room);
}

static void answer_restore(void)
{
    size_t place_len = get_number(PLACE_LIMIT);
    const uint8_t *place = get_part(FIRST, place_len);
    struct rigtemple_configuration *c = lend(sizeof *c);
    put_number(rigtemple_restore(card, card_len, place, place_len, c));
    put_image(c);
}

static void answer_text(void)
{
    size_t text_len = get_length(TEXT_LIMIT);
    const uint8_t *text = get_part(FIRST, text_len);
    size_t room = get_number(CARD_ROOM_LIMIT), *place = lend(sizeof *place);
    uint8_t *made = lend(room);
    uint16_t *count = lend(2);
    put_number(rigtemple_text(text, text_len, made, room, count, place));
    put_number((uint16_t)*place);
    put_number((uint16_t)(*place >> 16));
    put_number(*count);
    put_bytes(made, room);
}

static void answer_print(void)
{
    uint16_t node = get_number(65535);
    size_t room = get_number(PRINT_LIMIT);
    uint8_t *text = lend(room);
    uint16_t *count = lend(2);
    put_number(rigtemple_print(card, card_len, node, text, room, count));
    put_number(*count);
    put_bytes(text, room);
}

/* A configuration that is written ends the program, and so does a refusal that tells a move. */
static void answer_next(void)
{
    struct rigtemple_configuration *c = get_image(), as_given;
    uint8_t *coming = lend(1);
    uint16_t *choice = lend(2);
    memcpy(&as_given, c, sizeof as_given);
    uint16_t number = rigtemple_next(card, card_len, c, coming, choice);
    int done = number == RIGTEMPLE_ANSWER_DONE;
    if (memcmp(c, &as_given, sizeof as_given) != 0 || (!done && *coming != RIGTEMPLE_NEXT_REST))
        end(3);
    put_number(number);
    put_byte(done ? *coming : 0);
    put_number(*choice);
}

/* What a deliberation may write beside the configuration. */
struct left {
    uint16_t *count;
    uint8_t *ending, *remaining, *length;
};

static struct left lend_left(void)
{
    struct left l;
    l.count = lend(2);
    l.ending = lend(1);
    l.remaining = lend(RIGTEMPLE_MOST_REMAINING);
    l.length = lend(1);
    return l;
}

/* What lies behind the numbers that remain is not in the answer: it is 0 if the call is done, and
 * as it was lent if it is refused, when none remain; else the program ends. */
static void put_left(uint16_t number, const struct rigtemple_configuration *c, const struct left *l)
{
    int done = number == RIGTEMPLE_ANSWER_DONE;
    if (*l->length > (done ? RIGTEMPLE_MOST_REMAINING : 0))
        end(3);
    for (size_t i = *l->length; i < RIGTEMPLE_MOST_REMAINING; i++)
        if (l->remaining[i] != (done ? 0 : LENT))
            end(3);
    put_number(number);
    put_image(c);
    put_number(*l->count);
    put_byte(*l->ending);
    put_number(*l->length);
    put_bytes(l->remaining, *l->length);
}

static void answer_deliberate(void)
{
    size_t program_len = get_number(PROGRAM_LIMIT);
    const uint8_t *program = get_part(FIRST, program_len);
    struct rigtemple_configuration *c = get_image();
    struct left l = lend_left();
    uint16_t number =
        rigtemple_deliberate(card, card_len, program, program_len, c, get_number(65535), l.count,
                             l.ending, l.remaining, l.length);
    put_left(number, c, &l);
}

static void answer_go_on(void)
{
    size_t program_len = get_number(PROGRAM_LIMIT);
    const uint8_t *program = get_part(FIRST, program_len);
    size_t numbers_len = get_number(NUMBERS_LIMIT);
    const uint8_t *numbers = get_part(SECOND, numbers_len);
    struct rigtemple_configuration *c = get_image();
    struct left l = lend_left();
    uint16_t number =
        rigtemple_go_on(card, card_len, program, program_len, numbers, numbers_len, c,
                        get_number(65535), l.count, l.ending, l.remaining, l.length);
    put_left(number, c, &l);
}

/* The start is where the name lies behind its sheet's first byte. A name that does not lie in its
 * sheet, and what a refusal hands back beside an empty part of the master's, end the program. */
static void answer_name(void)
{
    uint16_t *bytes = lend(2);
    uint8_t *sheet = lend(1);
    size_t shed_len = get_number(RIGTEMPLE_MOST_SHEET_BYTES);
    const uint8_t *shed = get_part(FIRST, shed_len);
    size_t master_len = get_number(RIGTEMPLE_MOST_SHEET_BYTES), held_len = master_len;
    const uint8_t *master = get_part(SECOND, master_len), *held = master, *name = card;
    uint16_t number = rigtemple_name(card, card_len, shed, shed_len, master, master_len,
                                     get_number(65535), &name, bytes, sheet);
    if (number == RIGTEMPLE_ANSWER_DONE && *sheet == RIGTEMPLE_SHEET_SHED) {
        held = shed;
        held_len = shed_len;
    }
    if (name < held || *bytes > held_len || name > held + (held_len - *bytes))
        end(3);
    if (number != RIGTEMPLE_ANSWER_DONE && (name != master || *bytes != 0))
        end(3);
    put_number(number);
    put_byte(*sheet);
    put_number((uint16_t)(name - held));
    put_number(*bytes);
}

static void answer(uint8_t request)
{
    switch (request) {
    case CARD:
        card_len = get_number(65535);
        card = get_part(THE_CARD, card_len);
        break;
    case CHECK:
        put_number(rigtemple_check(card, card_len));
        break;
    case LOAD:
        answer_load();
        break;
    case GRADE:
        answer_grade();
        break;
    case LIST:
        answer_list();
        break;
    case TAKE:
        answer_take();
        break;
    case RUN:
        answer_run();
        break;
    case SAVE:
        answer_save();
        break;
    case RESTORE:
        answer_restore();
        break;
    case TEXT:
        answer_text();
        break;
    case PRINT:
        answer_print();
        break;
    case DELIBERATE:
        answer_deliberate();
        break;
    case NAME:
        answer_name();
        break;
    case TAKE_BOUNDED:
        answer_take_bounded();
        break;
    case RUN_BOUNDED:
        answer_run_bounded();
        break;
    case GO_ON:
        answer_go_on();
        break;
    case NEXT:
        answer_next();
        break;
    default:
        end(1);
    }
}

int main(void)
{
    memset(arena, LENT, sizeof arena);
    lay_guards();
    while (more()) {
        answer(get_byte());
        look_at_parts();
        take_back();
    }
    end(0);
}
