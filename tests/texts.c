/* The texts of texts.h. */
#include <stdio.h>
#include <string.h>

#include "texts.h"

static void add(struct text_bytes *text, const char *line)
{
    size_t n = strlen(line);
    memcpy(text->bytes + text->len, line, n);
    text->len += n;
}

void stripe_as_text(struct text_bytes *text)
{
    text->len = 0;
    add(text, stripe_text);
}

void full_text(struct text_bytes *text)
{
    char line[256];
    text->len = 0;
    add(text, "atoms 128\n");
    for (unsigned i = 0; i < 256; i++)
        add(text, "action 4\n");
    for (unsigned i = 0; i < 32; i++) {
        snprintf(line, sizeof line, "do %u if B%u&!B%u add %u %u %u del %u %u\n", i, i, 127 - i,
                 i + 1, i + 2, i + 3, i + 4, i + 5);
        add(text, line);
    }
    for (unsigned i = 0; i < 32; i++) {
        snprintf(line, sizeof line, "select if T goal G%u plan", i);
        add(text, line);
        for (unsigned k = 0; k < 128; k++) {
            snprintf(line, sizeof line, " %u", (i + k) % 256);
            add(text, line);
        }
        add(text, "\n");
    }
    for (unsigned i = 0; i < 32; i++) {
        add(text, "revise");
        for (unsigned k = 0; k < 64; k++) {
            snprintf(line, sizeof line, " %u", (i + k) % 256);
            add(text, line);
        }
        snprintf(line, sizeof line, " if B%u to", i);
        add(text, line);
        for (unsigned k = 0; k < 63; k++) {
            snprintf(line, sizeof line, " %u", (i + 2 * k) % 256);
            add(text, line);
        }
        add(text, "\n");
    }
    add(text, "begin beliefs 0 1 2 goals 3 4 plan 0 1 2\n");
}

void deep_text(struct text_bytes *text, unsigned deep)
{
    text->len = 0;
    add(text, "atoms 1\naction 1\n");
    for (unsigned i = 0; i < 8; i++) {
        add(text, "do 0 if ");
        for (unsigned k = 0; k < deep / 2 - 1; k++)
            add(text, "!(");
        add(text, "!(B0|B0)");
        for (unsigned k = 0; k < deep / 2 - 1; k++)
            add(text, ")");
        add(text, " add del\n");
    }
    add(text, "begin beliefs goals plan\n");
}

/* A condition between so many of both. */
static void nested_text(struct text_bytes *text, unsigned deep, const char *left, const char *right)
{
    text->len = 0;
    add(text, "atoms 1\naction 1\ndo 0 if ");
    for (unsigned k = 0; k < deep; k++)
        add(text, left);
    add(text, "B0");
    for (unsigned k = 0; k < deep; k++)
        add(text, right);
    add(text, " add del\nbegin beliefs goals plan\n");
}

void brackets_text(struct text_bytes *text, unsigned deep)
{
    nested_text(text, deep, "T|T&(", ")");
}

void nots_text(struct text_bytes *text, unsigned deep)
{
    nested_text(text, deep, "!", "");
}

void remarks_text(struct text_bytes *text)
{
    text->len = 0;
    add(text, "atoms 1\naction 1\ndo 0 if T add del\n");
    for (unsigned i = 0; i < 800; i++)
        add(text, "# what a designer writes into the margin of a notebook\n");
    add(text, "begin beliefs goals plan\n");
}

void open_text(struct text_bytes *text, unsigned brackets)
{
    text->len = 0;
    add(text, "atoms 1\naction 1\ndo 0 if ");
    for (unsigned i = 0; i < brackets; i++)
        add(text, "(");
}

void printed_list_card(struct card_bytes *card)
{
    lay_out(card, (struct counts){.atoms = 128, .actions = 1, .nodes = 255});
    for (unsigned i = 0; i < 128; i++)
        put_node(card, i, NODE_BELIEVES, i, 0);
    put_node(card, 128, NODE_AND, 0, 1);
    for (unsigned i = 2; i < 128; i++)
        put_node(card, 127 + i, i % 5 ? NODE_AND : NODE_OR, 126 + i, i);
}

void printed_deep_card(struct card_bytes *card)
{
    lay_out(card, (struct counts){.atoms = 128, .actions = 1, .nodes = 143});
    put_node(card, 0, NODE_BELIEVES, 100, 0);
    for (unsigned i = 1; i < 112; i++)
        put_node(card, i, NODE_AND, i - 1, 0);
    for (unsigned i = 112; i < 143; i++)
        put_node(card, i, NODE_NOT, i - 1, 0);
}
