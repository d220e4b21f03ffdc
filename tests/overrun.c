/*
 * A control for the guard bytes of tests/header_drill.c: put between it and the library, as
 * tests/tablets.sh does, it lets each list that is not refused run over by one entry.
 */
#include "../include/rigtemple.h"

typedef uint16_t looks_parts(const uint8_t *card, size_t card_len, const uint8_t *beliefs,
                             const uint8_t *goals, const uint8_t *plan, uint16_t length,
                             uint8_t phase, uint16_t finished, uint16_t *list,
                             size_t room_in_entries, uint16_t *entries, uint16_t *judged,
                             uint16_t *open_goals);
looks_parts __real_rigtemple_4_list_looks_parts, __wrap_rigtemple_4_list_looks_parts;

uint16_t __wrap_rigtemple_4_list_looks_parts(const uint8_t *card, size_t card_len,
                                             const uint8_t *beliefs, const uint8_t *goals,
                                             const uint8_t *plan, uint16_t length, uint8_t phase,
                                             uint16_t finished, uint16_t *list,
                                             size_t room_in_entries, uint16_t *entries,
                                             uint16_t *judged, uint16_t *open_goals)
{
    uint16_t answer = __real_rigtemple_4_list_looks_parts(
        card, card_len, beliefs, goals, plan, length, phase, finished, list, room_in_entries,
        entries, judged, open_goals);
    if (answer == RIGTEMPLE_ANSWER_DONE)
        list[room_in_entries] = 0;
    return answer;
}
