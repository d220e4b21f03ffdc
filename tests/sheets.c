/* Sheets for rigtemple_name: names, and the sheets of the C programs. */
#include <string.h>

#include "sheets.h"

void lay_sheet(struct sheet_bytes *sheet, unsigned actions)
{
    sheet->len = 2 * actions + 4;
    put_card_number(sheet->bytes, actions);
    for (unsigned i = 0; i <= actions; i++)
        put_card_number(sheet->bytes + 2 + 2 * i, (unsigned)sheet->len);
}

void put_name(struct sheet_bytes *sheet, unsigned next, const void *name, size_t len)
{
    unsigned actions = sheet->bytes[0] + 256u * sheet->bytes[1];
    memcpy(sheet->bytes + sheet->len, name, len);
    sheet->len += len;
    for (unsigned i = next + 1; i <= actions; i++)
        put_card_number(sheet->bytes + 2 + 2 * i, (unsigned)sheet->len);
}

void word_sheet(struct sheet_bytes *sheet, unsigned actions, const char *word, unsigned times)
{
    uint8_t name[RIGTEMPLE_MOST_SHEET_BYTES];
    size_t len = strlen(word);
    for (unsigned i = 0; i < times; i++)
        memcpy(name + len * i, word, len);
    lay_sheet(sheet, actions);
    for (unsigned i = 0; i < actions; i++)
        put_name(sheet, i, name, len * times);
}

/* ---- the stripe card ---- */

static void stripe_sheet(struct sheet_bytes *sheet, const char *const names[5])
{
    lay_sheet(sheet, 5);
    for (unsigned i = 0; i < 5; i++)
        put_name(sheet, i, names[i], strlen(names[i]));
}

void stripe_master(struct sheet_bytes *sheet)
{
    static const char *const names[] = {"weave", "wind", "repair", "pick", "stripe"};
    stripe_sheet(sheet, names);
}

void stripe_shed(struct sheet_bytes *sheet)
{
    static const char *const names[] = {"v\xC3\xA4v", "spola", "", "inslag", ""};
    stripe_sheet(sheet, names);
}

/* ---- a typical card ---- */

enum { TYPICAL = 256 };

/* Names that end in the action's number, every so many left out; 0 for none. */
static void numbered_sheet(struct sheet_bytes *sheet, const char *words, unsigned left_out)
{
    char name[64];
    size_t len = strlen(words);
    lay_sheet(sheet, TYPICAL);
    memcpy(name, words, len);
    for (unsigned i = 0; i < TYPICAL; i++) {
        name[len] = (char)('0' + i / 100);
        name[len + 1] = (char)('0' + i / 10 % 10);
        name[len + 2] = (char)('0' + i % 10);
        if (left_out == 0 || i % left_out != 0)
            put_name(sheet, i, name, len + 3);
    }
}

void typical_master(struct sheet_bytes *sheet)
{
    numbered_sheet(sheet, "pass the shuttle and beat the weft, ", 0);
}

void typical_shed(struct sheet_bytes *sheet)
{
    numbered_sheet(sheet, "f\xC3\xB6r skytteln och sl\xC3\xA5 till inslaget, ", 8);
}

void actions_card(struct card_bytes *card, unsigned actions)
{
    lay_out(card, (struct counts){.atoms = 1, .actions = actions, .nodes = 1});
}
