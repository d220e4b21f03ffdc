/*
 * The engine: the eight calls of document 01, with document 02's wishes 1, 2, 4, 5, 6, 8, 9 and
 * 10, and `next` and `go on`, in hand-written C, with no proofs, as the program that the library is
 * measured against. The parameters and answers are those of the functions `rigtemple_..._parts` in
 * include/rigtemple.h.
 */
#ifndef RIGTEMPLE_ENGINE_H
#define RIGTEMPLE_ENGINE_H

#include <stddef.h>
#include <stdint.h>

uint16_t engine_check(const uint8_t *card, size_t card_len);

uint16_t engine_load(const uint8_t *card, size_t card_len, uint8_t *beliefs, uint8_t *goals,
                     uint8_t *plan, uint16_t *length, uint8_t *phase, uint16_t *finished);

uint16_t engine_grade(const uint8_t *card, size_t card_len, uint8_t *verdict, uint8_t *offender,
                      uint16_t *number);

uint16_t engine_list(const uint8_t *card, size_t card_len, const uint8_t *beliefs,
                     const uint8_t *goals, const uint8_t *plan, uint16_t length, uint8_t phase,
                     uint16_t finished, uint16_t *list, size_t list_len, uint16_t *count);

uint16_t engine_list_looks(const uint8_t *card, size_t card_len, const uint8_t *beliefs,
                           const uint8_t *goals, const uint8_t *plan, uint16_t length,
                           uint8_t phase, uint16_t finished, uint16_t *list, size_t list_len,
                           uint16_t *count, uint16_t *judged, uint16_t *open_goals);

uint16_t engine_take(const uint8_t *card, size_t card_len, uint8_t *beliefs, uint8_t *goals,
                     uint8_t *plan, uint16_t *length, uint8_t *phase, uint16_t *finished,
                     uint16_t choice, uint16_t *node);

uint16_t engine_run(const uint8_t *card, size_t card_len, uint8_t *beliefs, uint8_t *goals,
                    uint8_t *plan, uint16_t *length, uint8_t *phase, uint16_t *finished,
                    uint16_t budget, uint16_t *count, uint8_t *ending);

uint16_t engine_take_bounded(const uint8_t *card, size_t card_len, uint8_t *beliefs,
                             uint8_t *goals, uint8_t *plan, uint16_t *length, uint8_t *phase,
                             uint16_t *finished, uint16_t choice, uint16_t *node);

uint16_t engine_run_bounded(const uint8_t *card, size_t card_len, uint8_t *beliefs, uint8_t *goals,
                            uint8_t *plan, uint16_t *length, uint8_t *phase, uint16_t *finished,
                            uint16_t budget, uint16_t *count, uint8_t *ending);

uint16_t engine_next(const uint8_t *card, size_t card_len, const uint8_t *beliefs,
                     const uint8_t *goals, const uint8_t *plan, uint16_t length, uint8_t phase,
                     uint16_t finished, uint8_t *coming, uint16_t *choice);

uint16_t engine_deliberate(const uint8_t *card, size_t card_len, const uint8_t *program,
                           size_t program_len, uint8_t *beliefs, uint8_t *goals, uint8_t *plan,
                           uint16_t *length, uint8_t *phase, uint16_t *finished, uint16_t budget,
                           uint16_t *count, uint8_t *ending, uint8_t *remaining,
                           uint8_t *remaining_length);

uint16_t engine_go_on(const uint8_t *card, size_t card_len, const uint8_t *program,
                      size_t program_len, const uint8_t *numbers, size_t numbers_len,
                      uint8_t *beliefs, uint8_t *goals, uint8_t *plan, uint16_t *length,
                      uint8_t *phase, uint16_t *finished, uint16_t budget, uint16_t *count,
                      uint8_t *ending, uint8_t *remaining, uint8_t *remaining_length);

uint16_t engine_save(const uint8_t *card, size_t card_len, const uint8_t *beliefs,
                     const uint8_t *goals, const uint8_t *plan, uint16_t length, uint8_t phase,
                     uint16_t finished, uint8_t *place, size_t place_len, uint16_t *count);

uint16_t engine_restore(const uint8_t *card, size_t card_len, const uint8_t *place,
                        size_t place_len, uint8_t *beliefs, uint8_t *goals, uint8_t *plan,
                        uint16_t *length, uint8_t *phase, uint16_t *finished);

uint16_t engine_text(const uint8_t *text, size_t text_len, uint8_t *card, size_t card_len,
                     uint16_t *bytes, size_t *place);

uint16_t engine_print(const uint8_t *card, size_t card_len, uint16_t node, uint8_t *text,
                      size_t text_len, uint16_t *bytes);

uint16_t engine_name(const uint8_t *card, size_t card_len, const uint8_t *shed, size_t shed_len,
                     const uint8_t *master, size_t master_len, uint16_t action, uint8_t *sheet,
                     uint16_t *start, uint16_t *length);

#endif
