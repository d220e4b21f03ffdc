/*
 * The turned screen through include/rigtemple.h. Reads cards, runs and deliberations on standard
 * input, as the drill's requests 0, 6 and 11 write them (tests/header_drill.c has the bytes). Each
 * run is made in two ways: never turned, and with a turn of the screen before the first move and
 * after every single one. A turn saves the place into just the room that it needs, overwrites all
 * else, and restores. After each move the configuration by its members, the ending and the count of
 * all moves are those of one run that was never turned; what rigtemple_next tells before it is what
 * the move was; after each turn a chosen move, open or closed, is answered as without the turn. A
 * deliberation is cut after every move, and after other numbers of moves, and gone on with after a
 * turn by rigtemple_go_on, from the remaining numbers that were kept. Where the card, the program
 * or the configuration is refused, every call is refused alike.
 *
 *   turned            prints how many there were of each, and then 'N passed, M failed'
 *   turned phase      a caller that forgets the phase at each turn, and so has to fail
 *   turned count      a caller that forgets the finished count
 *   turned numbers    a caller that begins its program anew at each turn
 */
#include <stdio.h>
#include <string.h>

#include "../include/rigtemple.h"

enum { REQUEST_CARD = 0, REQUEST_RUN = 6, REQUEST_DELIBERATE = 11, LENT = 0xEE, MOST_TOLD = 5 };

static uint8_t card[65535], program[1024];
static size_t card_len, program_len;
static int forget_phase, forget_count, forget_numbers;
static unsigned long cards, runs, deliberations, refused, turns, passed, failed;

/* Counts one check; says of the first that failed which they were. */
static void expect(int holds, const char *what)
{
    if (holds)
        passed++;
    else if (failed++ < MOST_TOLD)
        printf("failed: card %lu, run %lu, deliberation %lu, turn %lu: %s\n", cards, runs,
               deliberations, turns, what);
}

/* ---- what is read ---- */

static int get_bytes(uint8_t *to, size_t count)
{
    return fread(to, 1, count, stdin) == count;
}

static int get_number(uint16_t *value)
{
    uint8_t bytes[2];
    if (!get_bytes(bytes, 2))
        return 0;
    *value = (uint16_t)(bytes[0] + 256 * bytes[1]);
    return 1;
}

static int get_card(void)
{
    uint16_t count;
    if (!get_number(&count) || !get_bytes(card, count))
        return 0;
    card_len = count;
    cards++;
    return 1;
}

static int get_program(void)
{
    uint16_t count;
    if (!get_number(&count) || count > sizeof program || !get_bytes(program, count))
        return 0;
    program_len = count;
    return 1;
}

/* A configuration, and the budget of a run from it. */
static int get_run(struct rigtemple_configuration *c, uint16_t *budget)
{
    uint16_t count;
    memset(c, 0, sizeof *c);
    return get_bytes(c->beliefs, sizeof c->beliefs) && get_bytes(c->goals, sizeof c->goals) &&
           get_number(&c->length) && get_bytes(&c->phase, 1) && get_number(&c->finished) &&
           get_number(&count) && count <= sizeof c->plan && get_bytes(c->plan, count) &&
           get_number(budget);
}

/* ---- the calls ---- */

/* Whether two configurations are the same; the struct's padding does not count. */
static int same(const struct rigtemple_configuration *one,
                const struct rigtemple_configuration *other)
{
    return memcmp(one->beliefs, other->beliefs, sizeof one->beliefs) == 0 &&
           memcmp(one->goals, other->goals, sizeof one->goals) == 0 &&
           memcmp(one->plan, other->plan, sizeof one->plan) == 0 && one->length == other->length &&
           one->phase == other->phase && one->finished == other->finished;
}

/* What a run comes to. */
struct run {
    struct rigtemple_configuration c;
    uint16_t answer, moves;
    uint8_t ending;
};

static struct run run_from(const struct rigtemple_configuration *c, uint16_t budget)
{
    struct run r = {*c, LENT, LENT, LENT};
    r.answer = rigtemple_run(card, card_len, &r.c, budget, &r.moves, &r.ending);
    return r;
}

/* A turn of the screen: nothing but the place is left of the configuration. */
static void turn(struct rigtemple_configuration *c)
{
    struct rigtemple_configuration before = *c;
    uint8_t place[RIGTEMPLE_MOST_PLACE_BYTES + 1];
    size_t room = (card[2] == 2 ? 76u : 44u) + c->length; /* by the edition of the card */
    uint16_t bytes = LENT;
    turns++;
    memset(place, LENT, sizeof place);
    expect(rigtemple_save(card, card_len, c, place, room, &bytes) == RIGTEMPLE_ANSWER_DONE &&
               bytes == room && place[room] == LENT,
           "the place is saved, in its room");
    memset(c, LENT, sizeof *c);
    expect(rigtemple_restore(card, card_len, place, bytes, c) == RIGTEMPLE_ANSWER_DONE &&
               same(c, &before),
           "what is restored is what was saved");
    if (forget_phase)
        c->phase = 0;
    if (forget_count)
        c->finished = 0;
}

/* Whether a choice is answered alike from both. */
static int taken_alike(struct rigtemple_configuration one, struct rigtemple_configuration other,
                       uint16_t choice)
{
    uint16_t node = LENT, other_node = LENT;
    uint16_t answer = rigtemple_take(card, card_len, &one, choice, &node);
    return rigtemple_take(card, card_len, &other, choice, &other_node) == answer &&
           node == other_node && same(&one, &other);
}

/* A move of those that are listed, and a choice of any kind, after a turn and without it. */
static void choose(const struct rigtemple_configuration *turned,
                   const struct rigtemple_configuration *never)
{
    uint16_t list[RIGTEMPLE_MOST_LIST_ENTRIES], count = 0;
    expect(rigtemple_list(card, card_len, never, list, RIGTEMPLE_MOST_LIST_ENTRIES, &count) ==
               RIGTEMPLE_ANSWER_DONE,
           "the moves are listed");
    if (count > 0)
        expect(taken_alike(*turned, *never, list[turns % count]), "a chosen move");
    expect(taken_alike(*turned, *never, (uint16_t)(turns % 770)), "a choice, open or closed");
}

/* Whether what is told of a configuration is what a run of budget 1 made of it. */
static int as_told(const struct rigtemple_configuration *before, const struct run *one)
{
    struct rigtemple_configuration c = *before;
    uint8_t coming = LENT;
    uint16_t choice = LENT, node = LENT;
    if (rigtemple_next(card, card_len, &c, &coming, &choice) != RIGTEMPLE_ANSWER_DONE ||
        !same(&c, before))
        return 0;
    if (coming == RIGTEMPLE_NEXT_REST)
        return choice == 0 && one->moves == 0 && one->ending == RIGTEMPLE_ENDING_REST;
    uint16_t answer = rigtemple_take(card, card_len, &c, choice, &node);
    if (coming == RIGTEMPLE_NEXT_FULL)
        return answer == RIGTEMPLE_ANSWER_PLAN_FULL && one->moves == 0 &&
               one->ending == RIGTEMPLE_ENDING_FULL;
    return coming == RIGTEMPLE_NEXT_MOVE && answer == RIGTEMPLE_ANSWER_DONE && one->moves == 1 &&
           same(&c, &one->c);
}

/* ---- a run, in both ways ---- */

static void compare(const struct rigtemple_configuration *c, uint16_t budget)
{
    struct run never = run_from(c, 0), turned = never;
    uint16_t moves = 0;
    turn(&turned.c);
    for (uint16_t made = 1; made <= budget; made++) {
        struct rigtemple_configuration before = turned.c;
        turned = run_from(&before, 1);
        never = run_from(c, made);
        expect(as_told(&before, &turned), "what is told is what comes");
        moves = (uint16_t)(moves + turned.moves);
        expect(turned.answer == RIGTEMPLE_ANSWER_DONE && never.answer == RIGTEMPLE_ANSWER_DONE,
               "both runs are done");
        expect(same(&turned.c, &never.c), "the configuration is that of one run");
        expect(turned.ending == never.ending, "the ending is that of one run");
        expect(moves == never.moves, "the counts add up to its count");
        turn(&turned.c);
        choose(&turned.c, &never.c);
        if (turned.moves == 0)
            break;
    }
    never = run_from(c, budget);
    expect(same(&turned.c, &never.c) && turned.ending == never.ending && moves == never.moves,
           "all of it is one run");
}

/* Whether a run is refused with an answer, and hands back the configuration. */
static int run_refused(const struct rigtemple_configuration *c, uint16_t budget, uint16_t answer)
{
    struct run r = run_from(c, budget);
    return r.answer == answer && r.moves == 0 && r.ending == RIGTEMPLE_ENDING_SPENT &&
           same(&r.c, c);
}

static int next_refused(const struct rigtemple_configuration *c, uint16_t answer)
{
    uint8_t coming = LENT;
    uint16_t choice = LENT;
    return rigtemple_next(card, card_len, c, &coming, &choice) == answer &&
           coming == RIGTEMPLE_NEXT_REST && choice == 0;
}

/* The card or the configuration is refused: so is every call, and nothing was saved to restore. */
static void refused_alike(const struct rigtemple_configuration *c, uint16_t budget, uint16_t answer)
{
    static const struct rigtemple_configuration empty;
    struct rigtemple_configuration restored;
    uint8_t place[RIGTEMPLE_MOST_PLACE_BYTES], lent[RIGTEMPLE_MOST_PLACE_BYTES];
    uint16_t bytes = LENT, of_card = rigtemple_check(card, card_len);
    refused++;
    memset(place, LENT, sizeof place);
    memset(lent, LENT, sizeof lent);
    memset(&restored, LENT, sizeof restored);
    expect(run_refused(c, 0, answer) && run_refused(c, budget, answer), "every run is refused");
    expect(next_refused(c, answer), "next is refused, and tells no move");
    expect(rigtemple_save(card, card_len, c, place, sizeof place, &bytes) == answer && bytes == 0 &&
               memcmp(place, lent, sizeof place) == 0,
           "save is refused, and writes nothing");
    expect(rigtemple_restore(card, card_len, place, bytes, &restored) ==
                   (of_card ? of_card : RIGTEMPLE_ANSWER_SHORT) &&
               same(&restored, &empty),
           "restore is refused, by the card or for no bytes");
}

static void compare_run(const struct rigtemple_configuration *c, uint16_t budget)
{
    uint16_t answer = run_from(c, budget).answer;
    runs++;
    if (answer == RIGTEMPLE_ANSWER_DONE)
        compare(c, budget);
    else
        refused_alike(c, budget, answer);
}

/* ---- a deliberation, in both ways ---- */

/* What a deliberation comes to. */
struct deliberation {
    struct rigtemple_configuration c;
    uint16_t answer, moves;
    uint8_t ending, numbers[RIGTEMPLE_MOST_REMAINING], count;
};

static struct deliberation deliberate_from(const struct rigtemple_configuration *c, uint16_t budget)
{
    struct deliberation d;
    memset(&d, LENT, sizeof d);
    d.c = *c;
    d.answer = rigtemple_deliberate(card, card_len, program, program_len, &d.c, budget, &d.moves,
                                    &d.ending, d.numbers, &d.count);
    return d;
}

static struct deliberation go_on_from(const struct deliberation *kept, uint16_t budget)
{
    struct deliberation d;
    memset(&d, LENT, sizeof d);
    d.c = kept->c;
    d.answer = rigtemple_go_on(card, card_len, program, program_len, kept->numbers, kept->count,
                               &d.c, budget, &d.moves, &d.ending, d.numbers, &d.count);
    return d;
}

/* A turn, with the numbers kept beside the place. */
static void turn_deliberation(struct deliberation *d)
{
    turn(&d->c);
    if (forget_numbers) {
        d->numbers[0] = (uint8_t)(program_len / RIGTEMPLE_ENTRY_BYTES - 1);
        d->count = 1;
    }
}

/* Whether two are the same but for their counts of moves: all 128 bytes of the numbers. */
static int same_but_moves(const struct deliberation *one, const struct deliberation *other)
{
    return one->answer == other->answer && one->ending == other->ending &&
           one->count == other->count &&
           memcmp(one->numbers, other->numbers, sizeof one->numbers) == 0 &&
           same(&one->c, &other->c);
}

/* Cut after so many moves, over and over, and gone on with after a turn. */
static void compare_cut(const struct rigtemple_configuration *c, uint16_t budget, uint16_t first,
                        uint16_t each)
{
    struct deliberation cut = deliberate_from(c, first), never;
    unsigned moves = cut.moves;
    for (unsigned made = first + each; made <= budget; made += each) {
        turn_deliberation(&cut);
        cut = go_on_from(&cut, each);
        moves += cut.moves;
        never = deliberate_from(c, (uint16_t)made);
        expect(same_but_moves(&cut, &never), "what is cut and gone on with is one deliberation");
        expect(moves == never.moves, "the counts add up to its count");
        if (cut.moves == 0)
            break;
    }
}

/* Numbers as the caller lent them. */
static int unwritten(const struct deliberation *d)
{
    for (unsigned i = 0; i < sizeof d->numbers; i++)
        if (d->numbers[i] != LENT)
            return 0;
    return d->moves == 0 && d->ending == RIGTEMPLE_DELIBERATION_SPENT && d->count == 0;
}

/* The card, the program or the configuration is refused: so is it from any numbers, and none of
 * those lent is written. Numbers that no program has are refused before a configuration. */
static void deliberation_refused(const struct rigtemple_configuration *c, uint16_t budget,
                                 uint16_t answer)
{
    struct deliberation d = deliberate_from(c, budget), none = {.c = *c, .count = 0}, wild = none;
    refused++;
    expect(unwritten(&d) && same(&d.c, c), "deliberate is refused, and writes no number");
    d = go_on_from(&none, budget);
    expect(d.answer == answer && unwritten(&d) && same(&d.c, c), "so is going on from none");
    wild.numbers[0] = RIGTEMPLE_MOST_REMAINING;
    wild.count = 1;
    d = go_on_from(&wild, budget);
    expect(d.answer == (answer > RIGTEMPLE_ANSWER_ATOM ? RIGTEMPLE_ANSWER_PROGRAM : answer) &&
               unwritten(&d) && same(&d.c, c),
           "and from numbers that no program has");
}

static void compare_deliberation(const struct rigtemple_configuration *c, uint16_t budget)
{
    uint16_t answer = deliberate_from(c, budget).answer;
    deliberations++;
    if (answer != RIGTEMPLE_ANSWER_DONE) {
        deliberation_refused(c, budget, answer);
        return;
    }
    compare_cut(c, budget, 0, 1);
    compare_cut(c, budget, (uint16_t)(turns % 5), (uint16_t)(1 + turns % 3));
}

int main(int count, char **words)
{
    struct rigtemple_configuration c;
    uint8_t request;
    uint16_t budget;
    forget_phase = count > 1 && strcmp(words[1], "phase") == 0;
    forget_count = count > 1 && strcmp(words[1], "count") == 0;
    forget_numbers = count > 1 && strcmp(words[1], "numbers") == 0;
    while (get_bytes(&request, 1)) {
        int good = request == REQUEST_CARD    ? get_card()
                   : request == REQUEST_RUN   ? get_run(&c, &budget)
                   : request == REQUEST_DELIBERATE && get_program() && get_run(&c, &budget);
        if (!good) {
            printf("failed: the input is not cards, runs and deliberations\n");
            return 2;
        }
        if (request == REQUEST_RUN)
            compare_run(&c, budget);
        else if (request == REQUEST_DELIBERATE)
            compare_deliberation(&c, budget);
    }
    printf("%lu cards, %lu runs, %lu deliberations, %lu of them refused, %lu turns of the screen\n",
           cards, runs, deliberations, refused, turns);
    printf("%lu passed, %lu failed\n", passed, failed);
    return failed != 0;
}
