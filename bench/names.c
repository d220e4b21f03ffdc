/*
 * The call for names of the library and of the C engine side by side: the same sheets, in the same
 * run, batch after batch in turn. First both have to give the same answers. Then megabytes a second
 * of sheets that are checked whole, medians, and the library's time divided by the engine's. The
 * card has 256 actions and little else; but for the last row the shed has no sheet.
 */
#include <stdio.h>
#include <string.h>

#include "../tests/cards.h"
#include "../tests/sheets.h"

#include "../include/rigtemple.h"
#include "engine.h"
#include "timing.h"

enum { BATCHES = 101, ACTIONS = 256 };

/* The shortest batch that is measured, in nanoseconds. */
#define SHORTEST_BATCH 200000.0

static struct card_bytes card;

/* Two sheets, of which the last action's name is asked for. */
struct input {
    const char *name;
    struct sheet_bytes shed, master;
};

/* What a call leaves. */
struct left {
    uint16_t answer, start, length;
    uint8_t sheet;
};

typedef void call(const struct input *in, struct left *l);

static void ours(const struct input *in, struct left *l)
{
    l->answer = rigtemple_name_parts(card.bytes, card.len, in->shed.bytes, in->shed.len,
                                     in->master.bytes, in->master.len, ACTIONS - 1, &l->sheet,
                                     &l->start, &l->length);
}

static void engines(const struct input *in, struct left *l)
{
    l->answer = engine_name(card.bytes, card.len, in->shed.bytes, in->shed.len, in->master.bytes,
                            in->master.len, ACTIONS - 1, &l->sheet, &l->start, &l->length);
}

static double time_of(call *make, const struct input *in, unsigned times)
{
    static struct left l;
    double start = now();
    for (unsigned i = 0; i < times; i++)
        make(in, &l);
    return now() - start;
}

/* Measures the call by both sides, once they give the same answer. */
static void measure(const struct input *in)
{
    static struct left one, other;
    double our[BATCHES], their[BATCHES];
    unsigned times = 1;
    memset(&one, 0, sizeof one);
    memset(&other, 0, sizeof other);
    ours(in, &one);
    engines(in, &other);
    if (memcmp(&one, &other, sizeof one) != 0 || one.answer != RIGTEMPLE_ANSWER_DONE) {
        printf("not the same answers: %s\n", in->name);
        exit(1);
    }
    while (time_of(ours, in, times) < SHORTEST_BATCH || time_of(engines, in, times) < SHORTEST_BATCH)
        times *= 2;
    for (unsigned i = 0; i < BATCHES; i++) {
        our[i] = time_of(ours, in, times);
        their[i] = time_of(engines, in, times);
    }
    double bytes = (double)(in->shed.len + in->master.len);
    double mine = median(our, BATCHES) / times, theirs = median(their, BATCHES) / times;
    printf("%-36s %7.0f %9.1f %9.1f %7.2f\n", in->name, bytes, 1e3 * bytes / mine,
           1e3 * bytes / theirs, mine / theirs);
}

/* Measures with a master's sheet of a word so many times for each action. */
static void measure_words(const char *name, const char *word, unsigned times)
{
    static struct input in;
    in.name = name;
    word_sheet(&in.master, ACTIONS, word, times);
    measure(&in);
}

int main(void)
{
    static struct input both = {.name = "two typical sheets"};
    actions_card(&card, ACTIONS);
    printf("%-36s %7s %9s %9s %7s\n", "names", "bytes", "ours MB/s", "engine", "ratio");
    measure_words("1 letter each", "w", 1);
    measure_words("8 letters each", "w", 8);
    measure_words("240 letters each", "w", 240);
    measure_words("120 characters of two bytes each", "\xCF\x89", 120);
    measure_words("80 characters of three bytes each", "\xE7\xB9\x94", 80);
    measure_words("60 characters of four bytes each", "\xF0\x9F\xA7\xB5", 60);
    measure_words("words of letters and two bytes", "sl\xC3\xA5 inslaget ", 17);
    typical_master(&both.master);
    typical_shed(&both.shed);
    measure(&both);
    return 0;
}
