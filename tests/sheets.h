/*
 * Sheets of move names written in C, name by name, and those that the C programs under tests/ and
 * bench/ use.
 */
#ifndef RIGTEMPLE_TESTS_SHEETS_H
#define RIGTEMPLE_TESTS_SHEETS_H

#include "cards.h"

#include "../include/rigtemple.h"

/* A sheet, with room for a byte more than there may be. */
struct sheet_bytes {
    uint8_t bytes[RIGTEMPLE_MOST_SHEET_BYTES + 1];
    size_t len;
};

/* A sheet for so many actions, whose names are all empty. */
void lay_sheet(struct sheet_bytes *sheet, unsigned actions);

/* Gives the next action a name, the first one first: `next` is that action's number. */
void put_name(struct sheet_bytes *sheet, unsigned next, const void *name, size_t len);

/* A sheet in which every action's name is a word, so many times. */
void word_sheet(struct sheet_bytes *sheet, unsigned actions, const char *word, unsigned times);

/* The names of the stripe card's five actions: in English, and in Swedish with two of them left
 * out. */
void stripe_master(struct sheet_bytes *sheet);
void stripe_shed(struct sheet_bytes *sheet);

/* Names of about 40 bytes for 256 actions: in English, and in Swedish with every eighth left out. */
void typical_master(struct sheet_bytes *sheet);
void typical_shed(struct sheet_bytes *sheet);

/* A card of so many actions and little else. */
void actions_card(struct card_bytes *card, unsigned actions);

#endif
