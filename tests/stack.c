/*
 * The deepest stack of each call through include/rigtemple.h: the stack below the caller is
 * painted, the call is made, and the paint that is gone tells how deep it went. The worst over the
 * cases of tests/calls.h. A line for each call: its name and the bytes.
 */
#include <stdio.h>

#include "calls.h"

enum { PAINTED = 65536, PAINT = 0xA5 };

/* Where the stack ends now. */
#if defined(__x86_64__)
#define STACK_POINTER(own) __asm__ volatile("movq %%rsp, %0" : "=r"(own))
#elif defined(__aarch64__)
#define STACK_POINTER(own) __asm__ volatile("mov %0, sp" : "=r"(own))
#endif

static uint16_t answer;
static size_t deepest[CALLS];

/* The stack of one call: how far below this function's own the paint is gone. */
static __attribute__((noinline)) size_t stack_of(uint16_t (*make)(void))
{
    volatile uint8_t *own;
    STACK_POINTER(own);
    for (size_t i = 1; i <= PAINTED; i++)
        own[-(long)i] = PAINT;
    answer = make();
    size_t deep = PAINTED;
    while (deep > 0 && own[-(long)deep] == PAINT)
        deep--;
    return deep;
}

/* Makes a call, and keeps how deep it went if that is the deepest. */
static void measure(unsigned call)
{
    lend();
    size_t deep = stack_of(calls[call].make);
    if (deep > deepest[call])
        deepest[call] = deep;
}

int main(void)
{
    each_case(measure);
    for (unsigned call = 0; call < CALLS; call++)
        printf("%s %u\n", calls[call].name, (unsigned)deepest[call]);
    return 0;
}
