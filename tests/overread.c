/*
 * A control for the guards of tests/header_drill.c: put between it and the library, as
 * tests/tablets.sh does, it reads a byte behind the numbers that are given to go on from.
 */
#include "../include/rigtemple.h"

typedef uint16_t go_on_parts(const uint8_t *card, size_t card_len, const uint8_t *program,
                             size_t program_len, const uint8_t *numbers, size_t numbers_len,
                             uint8_t *beliefs, uint8_t *goals, uint8_t *plan, uint16_t *length,
                             uint8_t *phase, uint16_t *finished, uint16_t budget, uint16_t *moves,
                             uint8_t *ending, uint8_t *remaining, uint8_t *remaining_length);
go_on_parts __real_rigtemple_4_go_on_parts, __wrap_rigtemple_4_go_on_parts;

uint16_t __wrap_rigtemple_4_go_on_parts(const uint8_t *card, size_t card_len,
                                        const uint8_t *program, size_t program_len,
                                        const uint8_t *numbers, size_t numbers_len,
                                        uint8_t *beliefs, uint8_t *goals, uint8_t *plan,
                                        uint16_t *length, uint8_t *phase, uint16_t *finished,
                                        uint16_t budget, uint16_t *moves, uint8_t *ending,
                                        uint8_t *remaining, uint8_t *remaining_length)
{
    const volatile uint8_t *read = numbers;
    (void)read[numbers_len];
    return __real_rigtemple_4_go_on_parts(card, card_len, program, program_len, numbers,
                                          numbers_len, beliefs, goals, plan, length, phase,
                                          finished, budget, moves, ending, remaining,
                                          remaining_length);
}
