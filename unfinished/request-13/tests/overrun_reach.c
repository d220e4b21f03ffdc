/*
 * A control for the guard bytes of tests/header_drill.c: put between it and the library, as
 * tests/tablets.sh does, it lets the room of each reach that is not refused run over by one byte.
 */
#include "../include/rigtemple.h"

typedef uint16_t reach_parts(const uint8_t *card, size_t card_len, const uint8_t *beliefs,
                             const uint8_t *goals, const uint8_t *plan, uint16_t length,
                             uint8_t phase, uint16_t finished, uint16_t transitions, uint8_t *room,
                             size_t room_len, uint16_t *count);
reach_parts __real_rigtemple_4_reach_parts, __wrap_rigtemple_4_reach_parts;

uint16_t __wrap_rigtemple_4_reach_parts(const uint8_t *card, size_t card_len,
                                        const uint8_t *beliefs, const uint8_t *goals,
                                        const uint8_t *plan, uint16_t length, uint8_t phase,
                                        uint16_t finished, uint16_t transitions, uint8_t *room,
                                        size_t room_len, uint16_t *count)
{
    uint16_t answer =
        __real_rigtemple_4_reach_parts(card, card_len, beliefs, goals, plan, length, phase,
                                       finished, transitions, room, room_len, count);
    if (answer == RIGTEMPLE_ANSWER_DONE)
        room[room_len] = 0;
    return answer;
}
