/*
 * What an app's screen calls of the guide, between the place that it has kept and what it shows:
 * the rule is in rigtemple.h, and turned_screen.c is a whole app. Each function is given a kept
 * place and leaves it as it is, so that nothing is lost if the tablet dies in one.
 */
#include <rigtemple.h>

enum { APP_REST = -100, APP_FULL = -101 }; /* no code, and no refusal */

int app_begin(const uint8_t *card, size_t card_len, uint8_t *place);
int app_next(const uint8_t *card, size_t card_len, const uint8_t *place, size_t place_len);
int app_made(const uint8_t *card, size_t card_len, const uint8_t *place, size_t place_len,
             uint16_t choice, uint8_t *after);

/* Saves to RIGTEMPLE_MOST_PLACE_BYTES: how many bytes are to be kept; below 0 the answer that
 * refused it. */
static int saved(const uint8_t *card, size_t card_len, const struct rigtemple_configuration *c,
                 uint8_t *place)
{
    uint16_t bytes;
    uint16_t answer =
        rigtemple_save(card, card_len, c, place, RIGTEMPLE_MOST_PLACE_BYTES, &bytes);
    return answer == RIGTEMPLE_ANSWER_DONE ? bytes : -answer;
}

/* The place that a weaver begins with, where none is kept: how many bytes; below 0 a refusal. */
int app_begin(const uint8_t *card, size_t card_len, uint8_t *place)
{
    struct rigtemple_configuration c;
    uint16_t answer = rigtemple_load(card, card_len, &c);
    return answer == RIGTEMPLE_ANSWER_DONE ? saved(card, card_len, &c, place) : -answer;
}

/* The code of the move to be shown as the next, beside the last one done; or rest or full; below 0
 * a refusal. Dies here: the same is shown again. */
int app_next(const uint8_t *card, size_t card_len, const uint8_t *place, size_t place_len)
{
    struct rigtemple_configuration c;
    uint8_t coming;
    uint16_t choice, answer = rigtemple_restore(card, card_len, place, place_len, &c);
    if (answer == RIGTEMPLE_ANSWER_DONE)
        answer = rigtemple_next(card, card_len, &c, &coming, &choice);
    if (answer != RIGTEMPLE_ANSWER_DONE)
        return -answer;
    if (coming == RIGTEMPLE_NEXT_MOVE)
        return choice;
    return coming == RIGTEMPLE_NEXT_REST ? APP_REST : APP_FULL;
}

/* The weaver says that the move is made: the place after it, how many bytes, to be kept at once
 * with the code as the last one, in one step, and before the one after is shown; below 0 a refusal.
 * Dies before it is kept: the move is shown as the next still, beside the one before it, and she
 * sees that it does not count yet. Dies after that: it is shown as the last one done. */
int app_made(const uint8_t *card, size_t card_len, const uint8_t *place, size_t place_len,
             uint16_t choice, uint8_t *after)
{
    struct rigtemple_configuration c;
    uint16_t node, answer = rigtemple_restore(card, card_len, place, place_len, &c);
    if (answer == RIGTEMPLE_ANSWER_DONE)
        answer = rigtemple_take(card, card_len, &c, choice, &node);
    return answer == RIGTEMPLE_ANSWER_DONE ? saved(card, card_len, &c, after) : -answer;
}
