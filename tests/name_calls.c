/*
 * rigtemple_name of include/rigtemple.h by hand: the stripe card's names in two languages, each rule
 * of a sheet broken in either, the edges of UTF-8, the refusals in their order, and that a name is a
 * part of the caller's own sheet. Card and sheets are lent at the end of memory: a byte behind them
 * cannot be read.
 */
#include <stdio.h>
#include <stdlib.h>
#include <string.h>
#include <sys/mman.h>

#include "cards.h"
#include "sheets.h"

#include "../include/rigtemple.h"

enum { LENT = 0xEE };
enum { MASTER = RIGTEMPLE_SHEET_MASTER, SHED = RIGTEMPLE_SHEET_SHED };

static unsigned passed, failed;

/* Counts one check; says which one failed. */
static void expect(int holds, const char *what)
{
    if (holds) {
        passed++;
    } else {
        failed++;
        printf("failed: %s\n", what);
    }
}

/* ---- what is lent ---- */

/* Whole pages of any size that a machine has, and as many behind them that nobody may touch. */
enum { ROOM = 1 << 16 };

static uint8_t *card_end, *shed_end, *master_end;

/* The end of a room before such pages. */
static uint8_t *end_of_room(void)
{
    uint8_t *at = mmap(NULL, 2 * ROOM, PROT_READ | PROT_WRITE, MAP_PRIVATE | MAP_ANONYMOUS, -1, 0);
    if (at == MAP_FAILED || mprotect(at + ROOM, ROOM, PROT_NONE) != 0) {
        printf("there is no memory for a sheet\n");
        exit(2);
    }
    return at + ROOM;
}

static struct card_bytes card;

/* What the call leaves, and where both sheets lay. */
struct left {
    uint16_t answer, bytes;
    const uint8_t *name, *shed, *master;
    uint8_t sheet;
};

/* Makes the call on a card, with all that is written filled before; no sheet is one of length 0. */
static struct left name_on(const struct card_bytes *of, const struct sheet_bytes *shed,
                           const struct sheet_bytes *master, uint16_t action)
{
    struct left l;
    size_t shed_len = shed ? shed->len : 0, master_len = master ? master->len : 0;
    memset(&l, LENT, sizeof l);
    memcpy(card_end - of->len, of->bytes, of->len);
    l.shed = shed_end - shed_len;
    l.master = master_end - master_len;
    if (shed)
        memcpy(shed_end - shed_len, shed->bytes, shed_len);
    if (master)
        memcpy(master_end - master_len, master->bytes, master_len);
    l.answer = rigtemple_name(card_end - of->len, of->len, l.shed, shed_len, l.master, master_len,
                              action, &l.name, &l.bytes, &l.sheet);
    return l;
}

static struct left name(const struct sheet_bytes *shed, const struct sheet_bytes *master,
                        uint16_t action)
{
    return name_on(&card, shed, master, action);
}

/* Whether the call is done with that part of that sheet. */
static int lies(const struct left *l, uint8_t sheet, size_t start, size_t bytes)
{
    const uint8_t *held = sheet == SHED ? l->shed : l->master;
    return l->answer == RIGTEMPLE_ANSWER_DONE && l->sheet == sheet && l->name == held + start &&
           l->bytes == bytes;
}

/* Whether the call is refused so: with an empty part of the master's sheet. */
static int refused(const struct left *l, uint16_t answer, uint8_t sheet)
{
    return l->answer == answer && l->sheet == sheet && l->name == l->master && l->bytes == 0;
}

/* ---- the stripe card in two languages ---- */

static struct sheet_bytes english, swedish;

static void test_languages(void)
{
    static const struct {
        uint8_t sheet;
        size_t start, bytes;
        const char *name;
    } both[] = {{SHED, 14, 4, "v\xC3\xA4v"},
                {SHED, 18, 5, "spola"},
                {MASTER, 23, 6, "repair"},
                {SHED, 23, 6, "inslag"},
                {MASTER, 33, 6, "stripe"}};
    static const size_t starts[] = {14, 19, 23, 29, 33, 39};
    struct sheet_bytes none;
    lay_sheet(&none, 5);
    for (uint16_t i = 0; i < 5; i++) {
        struct left l = name(&swedish, &english, i);
        expect(lies(&l, both[i].sheet, both[i].start, both[i].bytes) &&
                   memcmp(l.name, both[i].name, l.bytes) == 0,
               "the shed's name, or the master's where it is empty");
        l = name(NULL, &english, i);
        expect(lies(&l, MASTER, starts[i], starts[i + 1] - starts[i]), "a shed without a sheet");
        l = name(&none, &english, i);
        expect(lies(&l, MASTER, starts[i], starts[i + 1] - starts[i]), "a shed without names");
        l = name(&english, &english, i);
        expect(lies(&l, SHED, starts[i], starts[i + 1] - starts[i]), "two sheets that are equal");
    }
}

/* An action that the card does not have, up to the last number. */
static void test_unknown_actions(void)
{
    static const uint16_t actions[] = {5, 6, 255, 256, 260, 261, 32768, 65535};
    for (unsigned i = 0; i < sizeof actions / sizeof actions[0]; i++) {
        struct left l = name(&swedish, &english, actions[i]);
        expect(refused(&l, RIGTEMPLE_ANSWER_NO_ACTION, MASTER), "an unknown action");
        l = name(NULL, &english, actions[i]);
        expect(refused(&l, RIGTEMPLE_ANSWER_NO_ACTION, MASTER), "an unknown action, no shed's");
    }
}

/* ---- the rules of a sheet ---- */

/* Holds a sheet in the shed's place and in the master's, the other one good: both are as told. The
 * action that is asked for is known, or not. */
static void in_both(const struct sheet_bytes *sheet, int good_shed, int good_master,
                    const char *what)
{
    for (uint16_t action = 0; action < 6; action++) {
        struct left l = name(sheet, &english, action);
        expect(good_shed ? l.answer == (action < 5 ? 0 : RIGTEMPLE_ANSWER_NO_ACTION)
                         : refused(&l, RIGTEMPLE_ANSWER_SHEET, SHED),
               what);
        l = name(&swedish, sheet, action);
        expect(good_master ? l.answer == (action < 5 ? 0 : RIGTEMPLE_ANSWER_NO_ACTION)
                           : refused(&l, RIGTEMPLE_ANSWER_SHEET, MASTER),
               what);
    }
}

/* A sheet of a few bytes. */
static void test_bytes(const void *bytes, size_t len, const char *what)
{
    struct sheet_bytes sheet;
    memcpy(sheet.bytes, bytes, len);
    sheet.len = len;
    in_both(&sheet, 0, 0, what);
}

/* The English sheet with a number at a place. */
static void test_number(size_t at, unsigned value, const char *what)
{
    struct sheet_bytes sheet = english;
    put_card_number(sheet.bytes + at, value);
    in_both(&sheet, 0, 0, what);
}

/* The English sheet has its count at 0, its offsets 14, 19, 23, 29, 33 and 39 from 2 on. */
static void test_numbers(void)
{
    test_number(0, 0, "count 0");
    test_number(0, 4, "one too few");
    test_number(0, 6, "one too many");
    test_number(0, 5 + 256, "256 too many");
    test_number(0, 65535, "the highest count");
    test_number(2, 13, "the first offset one less");
    test_number(2, 15, "the first offset one more");
    test_number(2, 19, "the first offset at the second name");
    test_number(2, 65535, "the first offset past the end");
    test_number(4, 13, "an offset in the header");
    test_number(4, 0, "an offset of 0");
    test_number(4, 24, "an offset above the next");
    test_number(8, 22, "an offset below the one before");
    test_number(10, 40, "an offset past the end");
    test_number(10, 65535, "the highest offset");
    test_number(12, 38, "the last offset one less");
    test_number(12, 40, "the last offset one more");
    test_number(12, 39 + 256, "the last offset 256 more");
    test_number(12, 0, "the last offset 0");
}

static void test_lengths(void)
{
    static const uint8_t no_names[] = {0, 0, 4, 0}, zeros[64];
    struct sheet_bytes sheet = english;
    test_bytes(no_names, 4, "00 00 04 00");
    for (size_t len = 1; len < sizeof zeros; len++)
        test_bytes(zeros, len, "zeros");
    for (size_t len = 1; len < english.len; len++)
        test_bytes(english.bytes, len, "cut off");
    sheet.bytes[sheet.len++] = 'x';
    in_both(&sheet, 0, 0, "a byte more");
    in_both(&english, 1, 1, "the sheet itself");
    sheet.len = 0;
    in_both(&sheet, 1, 0, "no sheet: the shed's alone may be none");
    lay_sheet(&sheet, 5);
    in_both(&sheet, 1, 0, "no names: the shed's alone");
    in_both(&swedish, 1, 0, "a name that is empty: the shed's alone");
    lay_sheet(&sheet, 4);
    in_both(&sheet, 0, 0, "the sheet of a card with four actions");
    lay_sheet(&sheet, 6);
    in_both(&sheet, 0, 0, "the sheet of a card with six actions");
    for (unsigned empty = 0; empty < 5; empty++) {
        lay_sheet(&sheet, 5);
        for (unsigned i = 0; i < 5; i++)
            put_name(&sheet, i, "x", i != empty);
        in_both(&sheet, 1, 0, "one empty name: the shed's alone");
    }
}

/* ---- UTF-8 ---- */

/* Whether the call hands back just these bytes, as a part of that sheet; 2 where it neither does nor
 * refuses that sheet. */
static unsigned hands_back(const struct left *l, uint8_t sheet, size_t start, const void *bytes,
                           size_t len)
{
    if (lies(l, sheet, start, len) && memcmp(l->name, bytes, len) == 0)
        return 1;
    return refused(l, RIGTEMPLE_ANSWER_SHEET, sheet) ? 0 : 2;
}

/* Whether bytes are a name: of the first, a middle and the last action of either sheet, asked for
 * or not. 2 where these do not agree. */
static unsigned is_name(const void *bytes, size_t len)
{
    struct sheet_bytes sheet;
    unsigned accepted = 0, tried = 0, wrong = 0;
    for (uint16_t at = 0; at < 5; at += 2) {
        unsigned told[4];
        lay_sheet(&sheet, 5);
        for (unsigned i = 0; i < 5; i++)
            put_name(&sheet, i, i == at ? bytes : "x", i == at ? len : 1);
        struct left l = name(&sheet, &english, at);
        told[0] = hands_back(&l, SHED, 14u + at, bytes, len);
        l = name(NULL, &sheet, at);
        told[1] = hands_back(&l, MASTER, 14u + at, bytes, len);
        l = name(&sheet, &english, 1);
        told[2] = hands_back(&l, SHED, 15 + (at == 0 ? len - 1 : 0), "x", 1);
        l = name(NULL, &sheet, 3);
        told[3] = hands_back(&l, MASTER, 17 + (at < 3 ? len - 1 : 0), "x", 1);
        for (unsigned i = 0; i < 4; i++, tried++) {
            accepted += told[i];
            wrong |= told[i] == 2;
        }
    }
    return !wrong && accepted == tried ? 1 : !wrong && accepted == 0 ? 0 : 2;
}

/* Bytes that are characters, and bytes that are none. */
static const struct bytes {
    const char *what;
    uint8_t bytes[8];
    size_t len;
} characters[] = {
    {"00", {0x00}, 1},
    {"A", {0x41}, 1},
    {"7F", {0x7F}, 1},
    {"80, the first of two bytes", {0xC2, 0x80}, 2},
    {"7FF, the last of two bytes", {0xDF, 0xBF}, 2},
    {"800, the first of three bytes", {0xE0, 0xA0, 0x80}, 3},
    {"FFF", {0xE0, 0xBF, 0xBF}, 3},
    {"1000", {0xE1, 0x80, 0x80}, 3},
    {"CFFF", {0xEC, 0xBF, 0xBF}, 3},
    {"D000", {0xED, 0x80, 0x80}, 3},
    {"D7FF, before the surrogates", {0xED, 0x9F, 0xBF}, 3},
    {"E000, behind the surrogates", {0xEE, 0x80, 0x80}, 3},
    {"FDD0, a noncharacter", {0xEF, 0xB7, 0x90}, 3},
    {"FEFF, a byte order mark", {0xEF, 0xBB, 0xBF}, 3},
    {"FFFE, a noncharacter", {0xEF, 0xBF, 0xBE}, 3},
    {"FFFF, a noncharacter", {0xEF, 0xBF, 0xBF}, 3},
    {"10000, the first of four bytes", {0xF0, 0x90, 0x80, 0x80}, 4},
    {"3FFFF", {0xF0, 0xBF, 0xBF, 0xBF}, 4},
    {"40000", {0xF1, 0x80, 0x80, 0x80}, 4},
    {"FFFFF", {0xF3, 0xBF, 0xBF, 0xBF}, 4},
    {"100000", {0xF4, 0x80, 0x80, 0x80}, 4},
    {"10FFFF, the last, a noncharacter", {0xF4, 0x8F, 0xBF, 0xBF}, 4},
    {"two characters", {0xC3, 0xA4, 0xF0, 0x9F, 0xA7, 0xB5}, 6},
    {"00 between two letters", {0x41, 0x00, 0x42}, 3},
    {"eight letters", {'s', 't', 'r', 'i', 'p', 'e', 's', '.'}, 8},
};

static const struct bytes none[] = {
    {"a lone tail", {0x80}, 1},
    {"a lone tail", {0xBF}, 1},
    {"a tail behind a letter", {0x41, 0x80}, 2},
    {"a tail too many behind two bytes", {0xC3, 0xA4, 0x80}, 3},
    {"a tail too many behind three bytes", {0xE2, 0x82, 0xAC, 0x80}, 4},
    {"a tail too many behind four bytes", {0xF0, 0x90, 0x80, 0x80, 0x80}, 5},
    {"C0", {0xC0}, 1},
    {"C1", {0xC1}, 1},
    {"00 in two bytes", {0xC0, 0x80}, 2},
    {"7F in two bytes", {0xC1, 0xBF}, 2},
    {"00 in three bytes", {0xE0, 0x80, 0x80}, 3},
    {"7FF in three bytes", {0xE0, 0x9F, 0xBF}, 3},
    {"00 in four bytes", {0xF0, 0x80, 0x80, 0x80}, 4},
    {"FFFF in four bytes", {0xF0, 0x8F, 0xBF, 0xBF}, 4},
    {"D800, the first surrogate", {0xED, 0xA0, 0x80}, 3},
    {"DFFF, the last surrogate", {0xED, 0xBF, 0xBF}, 3},
    {"10000 as two surrogates", {0xED, 0xA0, 0x80, 0xED, 0xB0, 0x80}, 6},
    {"110000", {0xF4, 0x90, 0x80, 0x80}, 4},
    {"F4 BF", {0xF4, 0xBF, 0xBF, 0xBF}, 4},
    {"F5", {0xF5, 0x80, 0x80, 0x80}, 4},
    {"F7", {0xF7, 0xBF, 0xBF, 0xBF}, 4},
    {"F8, five bytes", {0xF8, 0x88, 0x80, 0x80, 0x80}, 5},
    {"FC, six bytes", {0xFC, 0x84, 0x80, 0x80, 0x80, 0x80}, 6},
    {"FE", {0xFE}, 1},
    {"FF", {0xFF}, 1},
    {"FF FE, another byte order mark", {0xFF, 0xFE}, 2},
    {"one byte of two", {0xC3}, 1},
    {"one byte of three", {0xE2}, 1},
    {"two bytes of three", {0xE2, 0x82}, 2},
    {"one byte of four", {0xF0}, 1},
    {"two bytes of four", {0xF0, 0x90}, 2},
    {"three bytes of four", {0xF0, 0x90, 0x80}, 3},
    {"a letter for a tail of two bytes", {0xC3, 0x41}, 2},
    {"a letter for the second of three bytes", {0xE2, 0x41, 0x80}, 3},
    {"a letter for the third of three bytes", {0xE2, 0x82, 0x41}, 3},
    {"a letter for the second of four bytes", {0xF1, 0x41, 0x80, 0x80}, 4},
    {"a letter for the third of four bytes", {0xF1, 0x80, 0x41, 0x80}, 4},
    {"a letter for the fourth of four bytes", {0xF1, 0x80, 0x80, 0x41}, 4},
    {"C0 for a tail", {0xF1, 0x80, 0xC0, 0x80}, 4},
    {"seven letters and a lone tail", {'s', 't', 'r', 'i', 'p', 'e', 's', 0x80}, 8},
    {"a lone tail and seven letters", {0x80, 's', 't', 'r', 'i', 'p', 'e', 's'}, 8},
};

static void test_characters(void)
{
    for (unsigned i = 0; i < sizeof characters / sizeof characters[0]; i++)
        expect(is_name(characters[i].bytes, characters[i].len) == 1, characters[i].what);
    for (unsigned i = 0; i < sizeof none / sizeof none[0]; i++)
        expect(is_name(none[i].bytes, none[i].len) == 0, none[i].what);
}

/* The same among letters: in a name of each length, at each place of it. */
static unsigned all_among_letters(const struct bytes *some, unsigned count, unsigned wanted)
{
    uint8_t letters[32];
    unsigned good = 1;
    for (unsigned i = 0; i < count; i++)
        for (size_t len = some[i].len + 1; len <= 20; len++)
            for (size_t at = 0; at + some[i].len <= len; at++) {
                memset(letters, 'w', sizeof letters);
                memcpy(letters + at, some[i].bytes, some[i].len);
                good &= is_name(letters, len) == wanted;
            }
    return good;
}

static void test_among_letters(void)
{
    expect(all_among_letters(characters, sizeof characters / sizeof characters[0], 1),
           "characters among letters");
    expect(all_among_letters(none, sizeof none / sizeof none[0], 0),
           "what is no character among letters");
}

/* A character of several bytes whose parts are two names: each name is judged by itself. */
static void test_cut_characters(void)
{
    for (unsigned i = 0; i < sizeof characters / sizeof characters[0]; i++) {
        const struct bytes *one = &characters[i];
        for (size_t cut = 1; one->bytes[0] >= 0x80 && cut < one->len; cut++) {
            struct sheet_bytes sheet;
            int apart = one->len == 6 && cut == 2; /* between the two characters */
            lay_sheet(&sheet, 5);
            put_name(&sheet, 0, "x", 1);
            put_name(&sheet, 1, one->bytes, cut);
            put_name(&sheet, 2, one->bytes + cut, one->len - cut);
            put_name(&sheet, 3, "x", 1);
            put_name(&sheet, 4, "x", 1);
            in_both(&sheet, apart, apart, one->what);
        }
    }
}

/* The form of a number in so many bytes: the low six bits of each tail, the rest in the first. */
static size_t put_form(uint8_t *at, uint32_t c, size_t len)
{
    static const uint8_t first[] = {0, 0x00, 0xC0, 0xE0, 0xF0};
    for (size_t i = len - 1; i > 0; i--, c >>= 6)
        at[i] = (uint8_t)(0x80 | (c & 0x3F));
    at[0] = (uint8_t)(first[len] | c);
    return len;
}

/* How many bytes a code point's form has: the fewest that it fits in. */
static size_t form_bytes(uint32_t c)
{
    return c < 0x80 ? 1 : c < 0x800 ? 2 : c < 0x10000 ? 3 : 4;
}

static int is_surrogate(uint32_t c)
{
    return c >= 0xD800 && c <= 0xDFFF;
}

/* All 1,112,064 code points, as many to a name as there is room for. */
static void test_all_characters(void)
{
    struct sheet_bytes sheet;
    static uint8_t some[60000];
    size_t len = 0;
    unsigned count = 0;
    int good = 1;
    for (uint32_t c = 0; c <= 0x10FFFF; c++) {
        if (is_surrogate(c))
            continue;
        count++;
        len += put_form(some + len, c, form_bytes(c));
        if (len + 4 > sizeof some || c == 0x10FFFF) {
            lay_sheet(&sheet, 5);
            for (unsigned i = 0; i < 5; i++)
                put_name(&sheet, i, i == 2 ? (const void *)some : "x", i == 2 ? len : 1);
            struct left l = name(&sheet, &english, 2);
            good &= lies(&l, SHED, 16, len);
            len = 0;
        }
    }
    expect(good && count == 1112064, "all code points");
}

/* Every other form: numbers in more bytes than they need, surrogates, and those above 10FFFF. */
static void test_other_forms(void)
{
    uint8_t form[4];
    unsigned longer = 1, surrogates = 1, above = 1;
    for (size_t len = 2; len <= 4; len++)
        for (uint32_t c = 0; form_bytes(c) < len; c += len == 4 ? 61 : 1)
            longer &= is_name(form, put_form(form, c, len)) == 0;
    for (uint32_t c = 0xD800; c <= 0xDFFF; c++)
        surrogates &= is_name(form, put_form(form, c, 3)) == 0;
    for (uint32_t c = 0x110000; c <= 0x1FFFFF; c += 4093)
        above &= is_name(form, put_form(form, c, 4)) == 0;
    above &= is_name(form, put_form(form, 0x1FFFFF, 4)) == 0;
    expect(longer, "numbers in more bytes than they need");
    expect(surrogates, "all surrogates");
    expect(above, "numbers above 10FFFF");
}

/* Whether bytes are one character: the form of the number that their bits spell. */
static int is_character(const uint8_t *bytes, size_t len)
{
    static const uint8_t bits[] = {0, 0x7F, 0x1F, 0x0F, 0x07};
    uint8_t form[4];
    uint32_t c = bytes[0] & bits[len];
    for (size_t i = 1; i < len; i++)
        c = c << 6 | (bytes[i] & 0x3F);
    return form_bytes(c) == len && c <= 0x10FFFF && !is_surrogate(c) &&
           put_form(form, c, len) == len && memcmp(form, bytes, len) == 0;
}

/* Whether bytes are characters, whatever the first of them is. */
static int are_characters(const uint8_t *bytes, size_t len)
{
    int so = len == 0;
    for (size_t first = 1; first <= len && first <= 4 && !so; first++)
        so = is_character(bytes, first) && are_characters(bytes + first, len - first);
    return so;
}

/* Every name of one and of two bytes; and of three and four, those around which tails begin or end
 * behind every first byte. */
static void test_short_names(void)
{
    static const uint8_t edges[] = {0x41, 0x7F, 0x80, 0x8F, 0x90, 0x9F, 0xA0, 0xBF, 0xC0, 0xC2};
    enum { EDGES = sizeof edges };
    uint8_t some[4];
    unsigned one = 1, two = 1, more = 1;
    for (unsigned a = 0; a < 256; a++) {
        some[0] = (uint8_t)a;
        one &= is_name(some, 1) == (unsigned)are_characters(some, 1);
        for (unsigned b = 0; b < 256; b++) {
            some[1] = (uint8_t)b;
            two &= is_name(some, 2) == (unsigned)are_characters(some, 2);
        }
        for (unsigned n = 0; n < EDGES * EDGES * EDGES; n++) {
            some[1] = edges[n % EDGES];
            some[2] = edges[n / EDGES % EDGES];
            some[3] = edges[n / EDGES / EDGES];
            if (n < EDGES * EDGES)
                more &= is_name(some, 3) == (unsigned)are_characters(some, 3);
            if (a >= 0xC0)
                more &= is_name(some, 4) == (unsigned)are_characters(some, 4);
        }
    }
    expect(one, "every name of one byte");
    expect(two, "every name of two bytes");
    expect(more, "names of three and four bytes around the edges");
}

/* ---- small and large ---- */

/* One action, and 256 of them: the count's low byte is then 0. */
static void test_counts(void)
{
    struct card_bytes of;
    struct sheet_bytes master, shed;
    actions_card(&of, 1);
    word_sheet(&master, 1, "x", 1);
    struct left l = name_on(&of, NULL, &master, 0);
    expect(lies(&l, MASTER, 6, 1), "one action");
    l = name_on(&of, &master, &master, 1);
    expect(refused(&l, RIGTEMPLE_ANSWER_NO_ACTION, MASTER), "one action: another");
    actions_card(&of, 256);
    word_sheet(&master, 256, "weft", 1);
    lay_sheet(&shed, 256);
    put_name(&shed, 255, "v\xC3\xA4v", 4);
    l = name_on(&of, &shed, &master, 255);
    expect(lies(&l, SHED, 516, 4), "256 actions: the last");
    l = name_on(&of, &shed, &master, 254);
    expect(lies(&l, MASTER, 516 + 4 * 254, 4), "256 actions: the last but one");
    l = name_on(&of, &shed, &master, 256);
    expect(refused(&l, RIGTEMPLE_ANSWER_NO_ACTION, MASTER), "256 actions: one more");
    lay_sheet(&shed, 0);
    l = name_on(&of, &shed, &master, 0);
    expect(refused(&l, RIGTEMPLE_ANSWER_SHEET, SHED), "256 actions, and a count of 0");
}

/* A sheet of 65,535 bytes, and one of a byte more: what its last offset would be is 0 again. */
static void test_longest(void)
{
    struct card_bytes of;
    struct sheet_bytes sheet;
    actions_card(&of, 1);
    word_sheet(&sheet, 1, "w", RIGTEMPLE_MOST_SHEET_BYTES - 6);
    struct left l = name_on(&of, &sheet, &sheet, 0);
    expect(lies(&l, SHED, 6, RIGTEMPLE_MOST_SHEET_BYTES - 6), "the longest sheet");
    sheet.bytes[sheet.len - 1] = 0xC3;
    l = name_on(&of, NULL, &sheet, 0);
    expect(refused(&l, RIGTEMPLE_ANSWER_SHEET, MASTER), "its last byte is no character");
    sheet.bytes[sheet.len - 1] = 'w';
    sheet.bytes[sheet.len++] = 'w';
    for (unsigned last = 65535; last <= 65536; last++) {
        put_card_number(sheet.bytes + 4, last % 65536);
        l = name_on(&of, &sheet, &sheet, 0);
        expect(refused(&l, RIGTEMPLE_ANSWER_SHEET, SHED), "a byte more than the longest");
    }
}

/* ---- the order of refusals ---- */

/* A card, both sheets and an action that would each be refused. */
static void test_order(void)
{
    struct card_bytes bad = card;
    struct sheet_bytes wrong = english;
    wrong.bytes[14] = 0xFF;
    struct left l = name(&wrong, &wrong, 5);
    expect(refused(&l, RIGTEMPLE_ANSWER_SHEET, SHED), "the shed's sheet before all behind it");
    l = name(&swedish, &wrong, 5);
    expect(refused(&l, RIGTEMPLE_ANSWER_SHEET, MASTER), "the master's before 21");
    l = name(&wrong, &english, 5);
    expect(refused(&l, RIGTEMPLE_ANSWER_SHEET, SHED), "the shed's before 21");
    l = name(NULL, NULL, 5);
    expect(refused(&l, RIGTEMPLE_ANSWER_SHEET, MASTER), "no sheet at all");
    bad.bytes[48] = 1 << 4; /* the goals have an atom that there is not */
    l = name_on(&bad, &wrong, &wrong, 5);
    expect(refused(&l, RIGTEMPLE_ANSWER_ATOM, MASTER), "9 before 20");
    put_node(&bad, 0, NODE_NOT, 0, 0);
    l = name_on(&bad, &swedish, &english, 0);
    expect(refused(&l, RIGTEMPLE_ANSWER_NODE, MASTER), "6 before 9");
    put_card_number(bad.bytes + 64, 0);
    l = name_on(&bad, &wrong, NULL, 65535);
    expect(refused(&l, RIGTEMPLE_ANSWER_WEIGHT, MASTER), "5 before 6");
    bad.len -= 1;
    l = name_on(&bad, &wrong, NULL, 65535);
    expect(refused(&l, RIGTEMPLE_ANSWER_OFFSETS, MASTER), "4 before 5");
    put_card_number(bad.bytes + 6, 0);
    l = name_on(&bad, NULL, NULL, 0);
    expect(refused(&l, RIGTEMPLE_ANSWER_COUNT, MASTER), "3 before 4: no actions");
    bad.bytes[0] = 0;
    l = name_on(&bad, &swedish, &english, 0);
    expect(refused(&l, RIGTEMPLE_ANSWER_MARK, MASTER), "2 before 3");
    bad.len = 63;
    l = name_on(&bad, &swedish, &english, 0);
    expect(refused(&l, RIGTEMPLE_ANSWER_MARK, MASTER), "2 before 1 of a short header");
    bad.len = 3;
    l = name_on(&bad, &swedish, &english, 0);
    expect(refused(&l, RIGTEMPLE_ANSWER_SHORT, MASTER), "1 of under 4 bytes before all");
    bad.bytes[0] = 0x33;
    bad.len = 63;
    l = name_on(&bad, &swedish, &english, 0);
    expect(refused(&l, RIGTEMPLE_ANSWER_SHORT, MASTER), "1 of a short header before 3");
}

int main(void)
{
    card_end = end_of_room();
    shed_end = end_of_room();
    master_end = end_of_room();
    stripe_card(&card);
    stripe_master(&english);
    stripe_shed(&swedish);
    test_languages();
    test_unknown_actions();
    test_numbers();
    test_lengths();
    test_characters();
    test_among_letters();
    test_cut_characters();
    test_all_characters();
    test_other_forms();
    test_short_names();
    test_counts();
    test_order();
    test_longest();
    printf("%u passed, %u failed\n", passed, failed);
    return failed != 0;
}
