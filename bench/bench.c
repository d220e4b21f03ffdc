/*
 * The library and the C engine side by side: the same cards and configurations, in the same run,
 * batch after batch in turn. First both have to give the same answers. Then nanoseconds for each
 * call on each card, for a transition inside a run, and how a transition's time grows with nodes,
 * rules and the plan: medians, and the library's time divided by the engine's. A deliberation is
 * of one plan, on the two cards whose plans come to an end; it is made at once, and gone on with
 * move by move.
 */
#include <stdio.h>
#include <stdlib.h>
#include <string.h>

#include "../tests/cards.h"
#include "../tests/programs.h"

#include "../include/rigtemple.h"
#include "engine.h"
#include "timing.h"

enum { FEWEST = 31, MOST = 301, CHOICES = 64, RUN_BUDGET = 1000 };
enum { ROOM = RIGTEMPLE_MOST_LIST_ENTRIES };

/* The shortest batch that is measured, and how long a table is to be measured, in nanoseconds. A
 * line of a table is FEWEST to MOST batches of each side. */
#define SHORTEST_BATCH 60000.0
#define TABLE_TIME 3000000000.0

/* The calls of one of the two programs, but for those over text and names. */
struct calls {
    uint16_t (*check)(const uint8_t *, size_t);
    uint16_t (*load)(const uint8_t *, size_t, uint8_t *, uint8_t *, uint8_t *, uint16_t *,
                     uint8_t *, uint16_t *);
    uint16_t (*grade)(const uint8_t *, size_t, uint8_t *, uint8_t *, uint16_t *);
    uint16_t (*list)(const uint8_t *, size_t, const uint8_t *, const uint8_t *, const uint8_t *,
                     uint16_t, uint8_t, uint16_t, uint16_t *, size_t, uint16_t *, uint16_t *,
                     uint16_t *);
    uint16_t (*next)(const uint8_t *, size_t, const uint8_t *, const uint8_t *, const uint8_t *,
                     uint16_t, uint8_t, uint16_t, uint8_t *, uint16_t *);
    uint16_t (*take)(const uint8_t *, size_t, uint8_t *, uint8_t *, uint8_t *, uint16_t *,
                     uint8_t *, uint16_t *, uint16_t, uint16_t *);
    uint16_t (*run)(const uint8_t *, size_t, uint8_t *, uint8_t *, uint8_t *, uint16_t *, uint8_t *,
                    uint16_t *, uint16_t, uint16_t *, uint8_t *);
    uint16_t (*deliberate)(const uint8_t *, size_t, const uint8_t *, size_t, uint8_t *, uint8_t *,
                           uint8_t *, uint16_t *, uint8_t *, uint16_t *, uint16_t, uint16_t *,
                           uint8_t *, uint8_t *, uint8_t *);
    uint16_t (*go_on)(const uint8_t *, size_t, const uint8_t *, size_t, const uint8_t *, size_t,
                      uint8_t *, uint8_t *, uint8_t *, uint16_t *, uint8_t *, uint16_t *, uint16_t,
                      uint16_t *, uint8_t *, uint8_t *, uint8_t *);
    uint16_t (*save)(const uint8_t *, size_t, const uint8_t *, const uint8_t *, const uint8_t *,
                     uint16_t, uint8_t, uint16_t, uint8_t *, size_t, uint16_t *);
    uint16_t (*restore)(const uint8_t *, size_t, const uint8_t *, size_t, uint8_t *, uint8_t *,
                        uint8_t *, uint16_t *, uint8_t *, uint16_t *);
};

static const struct calls ours = {
    rigtemple_check_parts,      rigtemple_load_parts,       rigtemple_grade_parts,
    rigtemple_list_looks_parts, rigtemple_next_parts,       rigtemple_take_parts,
    rigtemple_run_parts,        rigtemple_deliberate_parts, rigtemple_go_on_parts,
    rigtemple_save_parts,       rigtemple_restore_parts,
};

static const struct calls engine = {
    engine_check, engine_load,       engine_grade, engine_list_looks, engine_next,    engine_take,
    engine_run,   engine_deliberate, engine_go_on, engine_save,       engine_restore,
};

/* A card, a configuration in the middle of its run, the place of it, and the guide's own choices
 * from there on; a program, and the configuration in which the run's first plan is finished. */
struct input {
    const char *name;
    struct card_bytes card;
    struct program_bytes program;
    struct rigtemple_configuration middle, woven;
    uint8_t place[RIGTEMPLE_MOST_PLACE_BYTES];
    uint16_t place_len;
    uint16_t choice[CHOICES];
};

/* What a batch of calls leaves: answers and everything lent. */
struct left {
    struct rigtemple_configuration c;
    uint16_t answer, list[ROOM], count, judged, open_goals, number, node, choice;
    uint8_t verdict, offender, ending, coming, place[RIGTEMPLE_MOST_PLACE_BYTES];
    uint8_t remaining[RIGTEMPLE_MOST_REMAINING], remaining_length;
    uint8_t numbers[RIGTEMPLE_MOST_REMAINING], numbers_length;
};

/* The parts of the configuration `c` points to, as the calls take them. */
#define PARTS(c) (c)->beliefs, (c)->goals, (c)->plan, &(c)->length, &(c)->phase, &(c)->finished
#define PARTS_READ(c) (c)->beliefs, (c)->goals, (c)->plan, (c)->length, (c)->phase, (c)->finished
#define CARD(in) (in)->card.bytes, (in)->card.len

/* ---- batches: each makes a call so many times ---- */

typedef void batch(const struct calls *f, const struct input *in, unsigned times, struct left *l);

static void batch_check(const struct calls *f, const struct input *in, unsigned times,
                        struct left *l)
{
    for (unsigned i = 0; i < times; i++)
        l->answer |= f->check(CARD(in));
}

static void batch_load(const struct calls *f, const struct input *in, unsigned times,
                       struct left *l)
{
    for (unsigned i = 0; i < times; i++)
        l->answer |= f->load(CARD(in), PARTS(&l->c));
}

static void batch_grade(const struct calls *f, const struct input *in, unsigned times,
                        struct left *l)
{
    for (unsigned i = 0; i < times; i++)
        l->answer |= f->grade(CARD(in), &l->verdict, &l->offender, &l->number);
}

static void batch_list(const struct calls *f, const struct input *in, unsigned times,
                       struct left *l)
{
    for (unsigned i = 0; i < times; i++)
        l->answer |= f->list(CARD(in), PARTS_READ(&in->middle), l->list, ROOM, &l->count,
                             &l->judged, &l->open_goals);
}

static void batch_next(const struct calls *f, const struct input *in, unsigned times,
                       struct left *l)
{
    for (unsigned i = 0; i < times; i++)
        l->answer |= f->next(CARD(in), PARTS_READ(&in->middle), &l->coming, &l->choice);
}

static void batch_take(const struct calls *f, const struct input *in, unsigned times,
                       struct left *l)
{
    for (unsigned i = 0; i < times; i++) {
        if (i % CHOICES == 0)
            l->c = in->middle;
        l->answer |= f->take(CARD(in), PARTS(&l->c), in->choice[i % CHOICES], &l->node);
    }
}

/* Runs of one move, each from where the last one ended: what a guide does that shows each move. */
static void batch_run_one(const struct calls *f, const struct input *in, unsigned times,
                          struct left *l)
{
    l->c = in->middle;
    for (unsigned i = 0; i < times; i++)
        l->answer |= f->run(CARD(in), PARTS(&l->c), 1, &l->count, &l->ending);
}

/* Runs of RUN_BUDGET moves; `times` is the number of moves. */
static void batch_run(const struct calls *f, const struct input *in, unsigned times,
                      struct left *l)
{
    l->c = in->middle;
    for (unsigned i = 0; i < times; i += RUN_BUDGET)
        l->answer |= f->run(CARD(in), PARTS(&l->c), RUN_BUDGET, &l->count, &l->ending);
}

/* Deliberations of a plan, from its selection to its end. */
static void batch_deliberate(const struct calls *f, const struct input *in, unsigned times,
                             struct left *l)
{
    for (unsigned i = 0; i < times; i++) {
        l->c = in->woven;
        l->answer |= f->deliberate(CARD(in), in->program.bytes, in->program.len, PARTS(&l->c),
                                   RUN_BUDGET, &l->count, &l->ending, l->remaining,
                                   &l->remaining_length);
    }
}

/* Goes on by one move, each from where the last one ended, and begins anew where none remains: what
 * a guide does that shows each move of a shed's own. */
static void batch_go_on(const struct calls *f, const struct input *in, unsigned times,
                        struct left *l)
{
    l->remaining_length = 0;
    for (unsigned i = 0; i < times; i++) {
        l->numbers_length = l->remaining_length;
        memcpy(l->numbers, l->remaining, sizeof l->numbers);
        if (l->numbers_length == 0) {
            l->c = in->woven;
            l->numbers[0] = (uint8_t)(in->program.len / RIGTEMPLE_ENTRY_BYTES - 1);
            l->numbers_length = 1;
        }
        l->answer |= f->go_on(CARD(in), in->program.bytes, in->program.len, l->numbers,
                              l->numbers_length, PARTS(&l->c), 1, &l->count, &l->ending,
                              l->remaining, &l->remaining_length);
    }
}

static void batch_save(const struct calls *f, const struct input *in, unsigned times,
                       struct left *l)
{
    for (unsigned i = 0; i < times; i++)
        l->answer |= f->save(CARD(in), PARTS_READ(&in->middle), l->place, sizeof l->place,
                             &l->count);
}

static void batch_restore(const struct calls *f, const struct input *in, unsigned times,
                          struct left *l)
{
    for (unsigned i = 0; i < times; i++)
        l->answer |= f->restore(CARD(in), in->place, in->place_len, PARTS(&l->c));
}

static const struct row {
    const char *call;
    batch *make;
    unsigned least; /* a batch makes a multiple of this many */
} rows[] = {
    {"check", batch_check, 1},        {"load", batch_load, 1},
    {"grade", batch_grade, 1},        {"list", batch_list, 1},
    {"next", batch_next, 1},          {"take", batch_take, CHOICES},
    {"run of 1", batch_run_one, 1},   {"save", batch_save, 1},
    {"restore", batch_restore, 1},
};

static const struct row run_row = {"run of 1000", batch_run, RUN_BUDGET};
static const struct row program_rows[] = {
    {"deliberate", batch_deliberate, 1},
    {"go on by 1", batch_go_on, 1},
};

/* ---- inputs ---- */

/* Fills in what belongs to the card: a configuration in the middle of its run, and so on. */
static void prepare(struct input *in, const char *name)
{
    uint16_t count;
    uint8_t ending, coming;
    in->name = name;
    engine.load(CARD(in), PARTS(&in->middle));
    engine.run(CARD(in), PARTS(&in->middle), RUN_BUDGET, &count, &ending);
    engine.save(CARD(in), PARTS_READ(&in->middle), in->place, sizeof in->place, &in->place_len);
    struct rigtemple_configuration c = in->middle;
    for (unsigned i = 0; i < CHOICES; i++) {
        engine.next(CARD(in), PARTS_READ(&c), &coming, &in->choice[i]);
        engine.run(CARD(in), PARTS(&c), 1, &count, &ending);
        if (count != 1) {
            printf("the card '%s' has to run for ever\n", name);
            exit(1);
        }
    }
}

/* Fills in the program of the teaching shed with so many revisions, and where it begins. It has to
 * come to its end. */
static void prepare_program(struct input *in, unsigned revisions)
{
    uint16_t count;
    uint8_t ending, remaining[RIGTEMPLE_MOST_REMAINING], remaining_length;
    teaching_program(&in->program, revisions);
    engine.load(CARD(in), PARTS(&in->woven));
    while (in->woven.finished == 0)
        engine.run(CARD(in), PARTS(&in->woven), 1, &count, &ending);
    struct rigtemple_configuration c = in->woven;
    engine.deliberate(CARD(in), in->program.bytes, in->program.len, PARTS(&c), RUN_BUDGET, &count,
                      &ending, remaining, &remaining_length);
    if (ending != RIGTEMPLE_DELIBERATION_FINISHED) {
        printf("the program on the card '%s' has to come to its end\n", in->name);
        exit(1);
    }
    printf("A deliberation on the card '%s' has %u moves.\n", in->name, count);
}

/* ---- the same answers ---- */

/* Makes the same call with both programs; everything that they leave has to be the same. */
static void compare_once(const struct row *row, const struct input *in, unsigned times)
{
    static struct left one, other;
    memset(&one, 0, sizeof one);
    memset(&other, 0, sizeof other);
    row->make(&ours, in, times, &one);
    row->make(&engine, in, times, &other);
    if (memcmp(&one, &other, sizeof one) != 0 || one.answer != RIGTEMPLE_ANSWER_DONE) {
        printf("not the same answers: %s, %s\n", row->call, in->name);
        exit(1);
    }
}

static void compare(const struct input *in)
{
    for (unsigned i = 0; i < sizeof rows / sizeof rows[0]; i++)
        for (unsigned times = 1; times <= CHOICES; times++)
            compare_once(&rows[i], in, times);
    compare_once(&run_row, in, 3 * RUN_BUDGET);
}

/* ---- time ---- */

/* Nanoseconds of a batch. */
static double time_of(const struct row *row, const struct calls *f, const struct input *in,
                      unsigned times)
{
    static struct left l;
    double start = now();
    row->make(f, in, times, &l);
    return now() - start;
}

/* A line of a table: a call on an input, so many times in a batch, and the times of the batches,
 * later nanoseconds a call or move. */
struct line {
    const struct row *row;
    const struct input *in;
    unsigned times;
    double our_batches[MOST], their_batches[MOST], our, theirs;
};

/* Finds out how many calls a batch of the line needs, which is its warm-up; nanoseconds of a batch
 * of each side. */
static double warm_up(struct line *line)
{
    double first, second;
    line->times = line->row->least;
    while ((first = time_of(line->row, &ours, line->in, line->times)) < SHORTEST_BATCH ||
           (second = time_of(line->row, &engine, line->in, line->times)) < SHORTEST_BATCH)
        line->times *= 2;
    return first + second;
}

/* Measures batch i of the line, the library first or the engine first. */
static void measure_batch(struct line *line, unsigned i)
{
    if (i % 2 == 0)
        line->our_batches[i] = time_of(line->row, &ours, line->in, line->times);
    line->their_batches[i] = time_of(line->row, &engine, line->in, line->times);
    if (i % 2 == 1)
        line->our_batches[i] = time_of(line->row, &ours, line->in, line->times);
}

/* Measures a table: a batch of each line, over and over, so that what else the machine does falls
 * on all lines and on both sides alike. */
static void measure(struct line *lines, unsigned count)
{
    double round = 0;
    unsigned batches = FEWEST;
    for (unsigned i = 0; i < count; i++)
        round += warm_up(&lines[i]);
    while (batches < MOST && batches * round < TABLE_TIME)
        batches += 10;
    for (unsigned batch = 0; batch < batches; batch++)
        for (unsigned i = 0; i < count; i++)
            measure_batch(&lines[i], batch);
    for (unsigned i = 0; i < count; i++) {
        lines[i].our = median(lines[i].our_batches, batches) / lines[i].times;
        lines[i].theirs = median(lines[i].their_batches, batches) / lines[i].times;
    }
}

/* ---- tables ---- */

enum { ROWS = sizeof rows / sizeof rows[0], INPUTS = 5, SHEDS = 2, GROWTHS = 9 };
enum { OF_PROGRAMS = SHEDS * sizeof program_rows / sizeof program_rows[0] };

static struct line lines[ROWS * INPUTS + OF_PROGRAMS];

/* Measures and prints lines of calls on cards. */
static void print_calls(const char *unit, unsigned count)
{
    measure(lines, count);
    printf("\n%-12s  %-32s %10s %10s %7s\n", unit, "card", "ours", "engine", "ratio");
    for (unsigned i = 0; i < count; i++)
        printf("%-12s  %-32s %10.1f %10.1f %7.2f\n", lines[i].row->call, lines[i].in->name,
               lines[i].our, lines[i].theirs, lines[i].our / lines[i].theirs);
}

/* The chain cards of the growth table: 64 nodes, 64 rules of each kind and a plan of 500, but for
 * what the line names. */
static const struct {
    const char *what;
    unsigned size, nodes, rules, plan;
} growths[GROWTHS] = {
    {"nodes", 16, 16, 64, 500}, {"nodes", 64, 64, 64, 500}, {"nodes", 256, 256, 64, 500},
    {"rules", 16, 64, 16, 500}, {"rules", 64, 64, 64, 500}, {"rules", 256, 64, 256, 500},
    {"plan", 50, 64, 64, 50},   {"plan", 500, 64, 64, 500}, {"plan", 950, 64, 64, 950},
};

static void print_growth(void)
{
    static struct input cards[GROWTHS];
    for (unsigned i = 0; i < GROWTHS; i++) {
        chain_card(&cards[i].card, (struct chain){.atoms = 2,
                                                  .actions = 2,
                                                  .nodes = growths[i].nodes,
                                                  .rules = growths[i].rules,
                                                  .pool = 1028,
                                                  .head = 4,
                                                  .plan = growths[i].plan,
                                                  .acts = 1});
        prepare(&cards[i], growths[i].what);
        compare(&cards[i]);
        lines[i].row = &run_row;
        lines[i].in = &cards[i];
    }
    measure(lines, GROWTHS);
    printf("\nns a move with 64 nodes, 64 rules of each kind and a plan of 500, but for\n");
    printf("%-8s %6s %10s %10s %7s\n", "what", "size", "ours", "engine", "ratio");
    for (unsigned i = 0; i < GROWTHS; i++)
        printf("%-8s %6u %10.1f %10.1f %7.2f\n", growths[i].what, growths[i].size, lines[i].our,
               lines[i].theirs, lines[i].our / lines[i].theirs);
}

int main(void)
{
    static struct input inputs[INPUTS];
    endless_stripe_card(&inputs[0].card);
    typical_card(&inputs[1].card);
    worst_card(&inputs[2].card, 0);
    worst_card(&inputs[3].card, 1);
    typical_card(&inputs[4].card);
    widen(&inputs[4].card);
    prepare(&inputs[0], "stripe, endless");
    prepare(&inputs[1], "maximal, typical");
    prepare(&inputs[2], "maximal, worst: revisions");
    prepare(&inputs[3], "maximal, worst: acts, revisions");
    prepare(&inputs[4], "maximal, typical, edition 2");
    prepare_program(&inputs[0], 3);
    prepare_program(&inputs[1], 50);
    for (unsigned i = 0; i < INPUTS; i++)
        compare(&inputs[i]);
    for (unsigned i = 0; i < OF_PROGRAMS; i++)
        for (unsigned times = 1; times <= CHOICES; times++)
            compare_once(&program_rows[i / SHEDS], &inputs[i % SHEDS], times);
    printf("The same answers on %u cards.\n", INPUTS);
    for (unsigned i = 0; i < ROWS * INPUTS; i++) {
        lines[i].row = &rows[i / INPUTS];
        lines[i].in = &inputs[i % INPUTS];
    }
    for (unsigned i = 0; i < OF_PROGRAMS; i++) {
        lines[ROWS * INPUTS + i].row = &program_rows[i / SHEDS];
        lines[ROWS * INPUTS + i].in = &inputs[i % SHEDS];
    }
    print_calls("ns a call", ROWS * INPUTS + OF_PROGRAMS);
    for (unsigned i = 0; i < INPUTS; i++) {
        lines[i].row = &run_row;
        lines[i].in = &inputs[i];
    }
    print_calls("ns a move", INPUTS);
    print_growth();
    return 0;
}
