/*
 * The deepest stack of the plain engine's calls and of the first engine's, both by value: the stack below the caller is painted, the
 * call is made, and the paint that is gone tells how deep it went. The worst over the cards that are named. A line for each call: its
 * name, the first engine's bytes and the plain engine's.
 */
#include <stdint.h>
#include <stdio.h>

enum { PAINTED = 131072, PAINT = 0xA5, CALLS = 4, LARGEST = 32353 };

uint16_t first_load(const uint8_t *card, size_t length);
uint16_t plain_load(const uint8_t *card, size_t length);
uint16_t first_list(const uint8_t *card, size_t length, uint16_t *out, size_t room);
uint16_t plain_list(const uint8_t *card, size_t length, uint16_t *out, size_t room);
uint16_t first_take(const uint8_t *card, size_t length);
uint16_t plain_take(const uint8_t *card, size_t length);
uint16_t first_run(const uint8_t *card, size_t length);
uint16_t plain_run(const uint8_t *card, size_t length);

static uint8_t card[LARGEST];
static size_t length;
static uint16_t out[768], answer;
static size_t deepest[2 * CALLS];

static uint16_t call(unsigned which)
{
    switch (which) {
    case 0: return first_load(card, length);
    case 1: return plain_load(card, length);
    case 2: return first_list(card, length, out, 768);
    case 3: return plain_list(card, length, out, 768);
    case 4: return first_take(card, length);
    case 5: return plain_take(card, length);
    case 6: return first_run(card, length);
    default: return plain_run(card, length);
    }
}

/* The stack of one call: how far below this function's own the paint is gone. */
static __attribute__((noinline)) size_t stack_of(unsigned which)
{
    volatile uint8_t *own;
    __asm__ volatile("movq %%rsp, %0" : "=r"(own));
    for (size_t i = 1; i <= PAINTED; i++)
        own[-(long)i] = PAINT;
    answer = call(which);
    size_t deep = PAINTED;
    while (deep > 0 && own[-(long)deep] == PAINT)
        deep--;
    return deep;
}

int main(int count, char **names)
{
    static const char *const called[CALLS] = {"load", "list", "take", "run"};
    for (int i = 1; i < count; i++) {
        FILE *file = fopen(names[i], "rb");
        if (!file)
            return 2;
        length = fread(card, 1, LARGEST, file);
        fclose(file);
        for (unsigned which = 0; which < 2 * CALLS; which++) {
            size_t deep = stack_of(which);
            if (deep > deepest[which])
                deepest[which] = deep;
        }
    }
    for (unsigned i = 0; i < CALLS; i++)
        printf("%s %u %u\n", called[i], (unsigned)deepest[2 * i], (unsigned)deepest[2 * i + 1]);
    return 0;
}
