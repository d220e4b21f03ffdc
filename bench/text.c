/*
 * The text calls of the library and of the C engine side by side: the same texts and cards, in the
 * same run, batch after batch in turn. First both have to give the same answers. Then megabytes a
 * second of text read and printed, medians, and the library's time divided by the engine's.
 */
#include <stdio.h>
#include <string.h>

#include "../tests/cards.h"
#include "../tests/texts.h"

#include "../include/rigtemple.h"
#include "engine.h"
#include "timing.h"

enum { BATCHES = 101 };

/* The shortest batch that is measured, in nanoseconds. */
#define SHORTEST_BATCH 200000.0

/* A text to be read, or a card with a node to be printed. */
struct input {
    const char *name;
    struct text_bytes text;
    struct card_bytes card;
    uint16_t node;
};

/* What a call leaves. */
struct left {
    uint16_t answer, bytes;
    size_t place;
    uint8_t buffer[RIGTEMPLE_MOST_CARD_BYTES];
};

typedef void call(const struct input *in, struct left *l);

static void our_text(const struct input *in, struct left *l)
{
    l->answer = rigtemple_text_parts(in->text.bytes, in->text.len, l->buffer,
                                     sizeof l->buffer, &l->bytes, &l->place);
}

static void engines_text(const struct input *in, struct left *l)
{
    l->answer = engine_text(in->text.bytes, in->text.len, l->buffer, sizeof l->buffer,
                            &l->bytes, &l->place);
}

static void our_print(const struct input *in, struct left *l)
{
    l->answer = rigtemple_print_parts(in->card.bytes, in->card.len, in->node, l->buffer,
                                      sizeof l->buffer, &l->bytes);
}

static void engines_print(const struct input *in, struct left *l)
{
    l->answer = engine_print(in->card.bytes, in->card.len, in->node, l->buffer, sizeof l->buffer,
                             &l->bytes);
}

/* ---- time ---- */

static double time_of(call *make, const struct input *in, unsigned times)
{
    static struct left l;
    double start = now();
    for (unsigned i = 0; i < times; i++)
        make(in, &l);
    return now() - start;
}

/* Measures a call on an input by both sides, once they give the same answer. */
static void measure(const char *what, call *ours, call *engines, const struct input *in)
{
    static struct left one, other;
    double our[BATCHES], their[BATCHES];
    unsigned times = 1;
    memset(&one, 0, sizeof one);
    memset(&other, 0, sizeof other);
    ours(in, &one);
    engines(in, &other);
    if (memcmp(&one, &other, sizeof one) != 0 || one.answer != RIGTEMPLE_ANSWER_DONE) {
        printf("not the same answers: %s, %s\n", what, in->name);
        exit(1);
    }
    while (time_of(ours, in, times) < SHORTEST_BATCH || time_of(engines, in, times) < SHORTEST_BATCH)
        times *= 2;
    for (unsigned i = 0; i < BATCHES; i++) {
        our[i] = time_of(ours, in, times);
        their[i] = time_of(engines, in, times);
    }
    double bytes = in->text.len ? (double)in->text.len : one.bytes;
    double mine = median(our, BATCHES) / times, theirs = median(their, BATCHES) / times;
    printf("%-6s %-28s %7.0f %9.1f %9.1f %7.2f\n", what, in->name, bytes, 1e3 * bytes / mine,
           1e3 * bytes / theirs, mine / theirs);
}

int main(void)
{
    static struct input stripe = {.name = "the stripe card"}, full = {.name = "a full card"},
                        deep = {.name = "nested 32 deep"}, remarks = {.name = "mostly remarks"},
                        node = {.name = "node 4 of the stripe card"}, list = {.name = "a list of 128 atoms"};
    stripe_as_text(&stripe.text);
    full_text(&full.text);
    deep_text(&deep.text, 32);
    remarks_text(&remarks.text);
    stripe_card(&node.card);
    node.node = 4;
    printed_list_card(&list.card);
    list.node = 254;
    printf("%-6s %-28s %7s %9s %9s %7s\n", "call", "text", "bytes", "ours MB/s", "engine", "ratio");
    measure("text", our_text, engines_text, &stripe);
    measure("text", our_text, engines_text, &full);
    measure("text", our_text, engines_text, &deep);
    measure("text", our_text, engines_text, &remarks);
    measure("print", our_print, engines_print, &node);
    measure("print", our_print, engines_print, &list);
    return 0;
}
