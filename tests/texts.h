/*
 * Texts written in C, as docs/TEXT.md has them, and a card to be printed: what the C programs
 * under tests/ and bench/ use.
 */
#ifndef RIGTEMPLE_TESTS_TEXTS_H
#define RIGTEMPLE_TESTS_TEXTS_H

#include "cards.h"

/* A text. */
struct text_bytes {
    uint8_t bytes[65536];
    size_t len;
};

/* The stripe card as text. */
void stripe_as_text(struct text_bytes *text);

/* A text with 256 actions, 224 nodes and a pool of 8,163 bytes. */
void full_text(struct text_bytes *text);

/* Conditions in which brackets and "!" nest so deep, an even number from 4 on. */
void deep_text(struct text_bytes *text, unsigned deep);

/* A condition in so many brackets. */
void brackets_text(struct text_bytes *text, unsigned deep);

/* A condition under so many "!". */
void nots_text(struct text_bytes *text, unsigned deep);

/* A text that is mostly remarks. */
void remarks_text(struct text_bytes *text);

/* A text of so many open brackets in a condition, which just ends. */
void open_text(struct text_bytes *text, unsigned brackets);

/* A card whose node 254 prints 255 nodes: 128 atoms, joined one by one, 25 times in brackets. */
void printed_list_card(struct card_bytes *card);

/* A card whose node 142 prints 254 nodes and nests 32 deep. */
void printed_deep_card(struct card_bytes *card);

#endif
