/*
 * A screen for bounded cards. It has no panel for a plan that got too long, and could have none:
 * rigtemple_take_bounded never answers 11, and a run ends in one of two ways.
 *
 *   bounded_screen CARD [CHOICE...]
 *
 * Takes the choices, codes as rigtemple_list gives them, one after the other, and then runs by
 * itself for at most 1,000 moves, with a line for each. A card that is open is refused, with 22: it
 * is for the screen of turned_screen.c. What is kept of a weaver's place, and when, that example
 * shows. The exit status is 0, 1 for a refused card or choice, and 2 where there was no card.
 */
#include <stdio.h>
#include <stdlib.h>

#include <rigtemple.h>

static uint8_t card[RIGTEMPLE_MOST_CARD_BYTES + 1];

/* Whether an answer is done; else says which refusal it is. */
static int done(uint16_t answer)
{
    if (answer == RIGTEMPLE_ANSWER_DONE)
        return 1;
    printf("refused: %s: %s\n", rigtemple_answer_name(answer), rigtemple_answer_sentence(answer));
    return 0;
}

/* How a run ended, in words: there are no others. */
static const char *said(enum rigtemple_bounded_ending ending)
{
    switch (ending) {
    case RIGTEMPLE_BOUNDED_SPENT:
        return "goes on";
    case RIGTEMPLE_BOUNDED_REST:
        return "rests";
    }
    return "";
}

int main(int count, char **words)
{
    struct rigtemple_configuration c;
    enum rigtemple_bounded_ending ending;
    uint16_t node, moves;
    FILE *file = count > 1 ? fopen(words[1], "rb") : NULL;
    if (file == NULL) {
        fprintf(stderr, "usage: bounded_screen CARD [CHOICE...]\n");
        return 2;
    }
    size_t bytes = fread(card, 1, sizeof card, file);
    fclose(file);
    if (!done(rigtemple_load(card, bytes, &c)))
        return 1;
    for (int i = 2; i < count; i++) {
        uint16_t choice = (uint16_t)strtoul(words[i], NULL, 10);
        if (!done(rigtemple_take_bounded(card, bytes, &c, choice, &node)))
            return 1;
        printf("took %u: %u actions are left\n", (unsigned)choice, (unsigned)c.length);
    }
    if (!done(rigtemple_run_bounded(card, bytes, &c, 1000, &moves, &ending)))
        return 1;
    printf("%s after %u moves, bands finished: %u\n", said(ending), (unsigned)moves,
           (unsigned)c.finished);
    return 0;
}
