/*
 * The engine's call for move names, in hand-written C: each sheet in one pass, name by name. UTF-8
 * is read by its characters: eight plain bytes at a time where there are so many, else one character,
 * whose number has to be one that its form is the shortest of.
 */
#include <string.h>

#include "engine.h"

enum { DONE, SHEET = 20, NO_ACTION = 21 };
enum { MASTER, SHED };

static unsigned number(const uint8_t *at)
{
    return at[0] + 256u * at[1];
}

/* ---- UTF-8 ---- */

enum { TOO_LARGE = 0x7FFFFFFF };

/* A number with a tail's six bits behind those read before; a byte that is no tail makes it too
 * large. */
static inline uint32_t with_tail(uint32_t read, uint8_t byte)
{
    return (byte & 0xC0) == 0x80 ? read << 6 | (byte & 0x3Fu) : TOO_LARGE;
}

/* The characters of two, three and four bytes; 0 or the bytes. `left` is how many there are. */
static inline size_t two_bytes(const uint8_t *at, size_t left)
{
    if (left < 2)
        return 0;
    uint32_t c = with_tail(at[0] & 0x1Fu, at[1]);
    return c >= 0x80 && c <= 0x7FF ? 2 : 0;
}

static inline size_t three_bytes(const uint8_t *at, size_t left)
{
    if (left < 3 || (at[2] & 0xC0) != 0x80)
        return 0;
    uint32_t high = with_tail(at[0] & 0x0Fu, at[1]); /* without the last six bits */
    return high >= 0x20 && high <= 0x3FF && high >> 5 != 0x1B ? 3 : 0;
}

static inline size_t four_bytes(const uint8_t *at, size_t left)
{
    if (left < 4 || (at[2] & 0xC0) != 0x80 || (at[3] & 0xC0) != 0x80)
        return 0;
    uint32_t high = with_tail(at[0] & 0x07u, at[1]); /* without the last twelve bits */
    return high >= 0x10 && high <= 0x10F ? 4 : 0;
}

/* How many bytes the character has that begins with a byte over 7F; 0 if there is none. */
static inline size_t character(const uint8_t *at, size_t left)
{
    if (at[0] < 0xC0 || at[0] > 0xF7)
        return 0;
    if (at[0] < 0xE0)
        return two_bytes(at, left);
    return at[0] < 0xF0 ? three_bytes(at, left) : four_bytes(at, left);
}

static int is_utf8(const uint8_t *at, size_t left)
{
    while (left > 0) {
        uint64_t eight;
        size_t passed = 1;
        if (left >= sizeof eight) {
            memcpy(&eight, at, sizeof eight);
            if ((eight & 0x8080808080808080u) == 0)
                passed = sizeof eight;
        }
        if (*at > 0x7F)
            passed = character(at, left);
        if (passed == 0)
            return 0;
        at += passed;
        left -= passed;
    }
    return 1;
}

/* ---- sheets ---- */

/* Whether a sheet keeps its rules for so many actions, with names of so many bytes at least. */
static int good_sheet(const uint8_t *sheet, size_t len, unsigned actions, unsigned least)
{
    unsigned from = 2 * actions + 4;
    if (len < from || number(sheet) != actions || number(sheet + 2) != from)
        return 0;
    for (unsigned i = 0; i < actions; i++) {
        unsigned to = number(sheet + 4 + 2 * i);
        if (to < from + least || to > len || !is_utf8(sheet + from, to - from))
            return 0;
        from = to;
    }
    return from == len;
}

/* The part of a good sheet that holds an action's name; its length. */
static unsigned part(const uint8_t *sheet, unsigned action, uint16_t *start, uint16_t *length)
{
    unsigned from = number(sheet + 2 + 2 * action), to = number(sheet + 4 + 2 * action);
    *start = (uint16_t)from;
    *length = (uint16_t)(to - from);
    return to - from;
}

uint16_t engine_name(const uint8_t *card, size_t card_len, const uint8_t *shed, size_t shed_len,
                     const uint8_t *master, size_t master_len, uint16_t action, uint8_t *sheet,
                     uint16_t *start, uint16_t *length)
{
    uint16_t answer = engine_check(card, card_len);
    *sheet = MASTER;
    *start = *length = 0;
    if (answer != DONE)
        return answer;
    unsigned actions = number(card + 6);
    if (shed_len != 0 && !good_sheet(shed, shed_len, actions, 0)) {
        *sheet = SHED;
        return SHEET;
    }
    if (!good_sheet(master, master_len, actions, 1))
        return SHEET;
    if (action >= actions)
        return NO_ACTION;
    if (shed_len != 0 && part(shed, action, start, length) != 0)
        *sheet = SHED;
    else
        part(master, action, start, length);
    return DONE;
}
