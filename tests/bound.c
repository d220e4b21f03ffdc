/*
 * A call through include/rigtemple.h on a stack of so many bytes and no more, in all its cases of
 * tests/calls.h.
 *
 *   bound CALL BYTES
 *
 * The bytes, a multiple of 16, count as tests/stack.c counts them: from the stack pointer just
 * before the call. Below them lies a guard that cannot be read or written. Each case is made on the
 * ordinary stack first, and has to give the same answer and to leave the same bytes on the small
 * one. Prints the call, the bytes, and 'ok' and the number of cases; or 'goes over', 'answers
 * otherwise' or 'faults outside the guard', and the first such case. The exit status is 0 with ok,
 * else 1, and 2 where nothing was tried.
 */
#include <signal.h>
#include <stdio.h>
#include <stdlib.h>
#include <string.h>
#include <sys/mman.h>
#include <unistd.h>

#include "calls.h"

/* The guard is larger than any frame, so that none reaches across it; both are whole pages of any
 * size that a machine has. */
enum { GUARD = 1 << 20, ROOM = 1 << 17, MOST = 65536 };

/* The call, as a number and in the words given; the guard and, behind it, the small stack; where
 * that one begins. */
static unsigned call;
static const char *call_name, *bytes_given;
static uint8_t *guard, *top;

static struct lent wanted;
static unsigned cases;

static void say(const char *words)
{
    if (write(1, words, strlen(words)) < 0)
        _exit(2);
}

/* Says what became of the case at hand, and ends the program. */
static void end_with(const char *what)
{
    say(call_name);
    say(" ");
    say(bytes_given);
    say(what);
    say(made_on);
    say(", with ");
    say(made_with);
    say("\n");
    _exit(1);
}

/* A fault in the guard is a call that goes over; any other is none of the stack. */
static void at_fault(int number, siginfo_t *info, void *context)
{
    (void)number;
    (void)context;
    uint8_t *at = info->si_addr;
    if (at >= guard && at < guard + GUARD)
        end_with(" goes over, on ");
    end_with(" faults outside the guard, on ");
}

/* Has faults told on a stack of their own. */
static int watch(void)
{
    static uint8_t own[65536];
    stack_t stack = {.ss_sp = own, .ss_size = sizeof own};
    struct sigaction action = {.sa_sigaction = at_fault, .sa_flags = SA_SIGINFO | SA_ONSTACK};
    return sigaltstack(&stack, NULL) == 0 && sigaction(SIGSEGV, &action, NULL) == 0;
}

/* Makes the guard and, above it, the stack of so many bytes. */
static int lay_stack(size_t bytes)
{
    void *at = mmap(NULL, GUARD + ROOM, PROT_READ | PROT_WRITE, MAP_PRIVATE | MAP_ANONYMOUS, -1, 0);
    if (at == MAP_FAILED || mprotect(at, GUARD, PROT_NONE) != 0)
        return 0;
    guard = at;
    top = guard + GUARD + bytes;
    return 1;
}

/* Makes a call with `top` for its stack pointer. */
static __attribute__((noinline)) uint16_t make_on_top(uint16_t (*make)(void))
{
    uint16_t answer;
    __asm__ volatile("movq %%rsp, %%rbx\n\t"
                     "movq %[top], %%rsp\n\t"
                     "callq *%[make]\n\t"
                     "movq %%rbx, %%rsp"
                     : "=a"(answer)
                     : [top] "r"(top), [make] "r"(make)
                     : "rbx", "rcx", "rdx", "rsi", "rdi", "r8", "r9", "r10", "r11", "xmm0", "xmm1",
                       "xmm2", "xmm3", "xmm4", "xmm5", "xmm6", "xmm7", "xmm8", "xmm9", "xmm10",
                       "xmm11", "xmm12", "xmm13", "xmm14", "xmm15", "cc", "memory");
    return answer;
}

/* Makes the call on both stacks, and holds one against the other. */
static void hold(unsigned visited)
{
    if (visited != call)
        return;
    lend();
    uint16_t answer = calls[call].make();
    memcpy(&wanted, &lent, sizeof lent);
    lend();
    if (make_on_top(calls[call].make) != answer || memcmp(&wanted, &lent, sizeof lent) != 0)
        end_with(" answers otherwise, on ");
    cases++;
}

/* The number of a call; CALLS if there is none of that name. */
static unsigned call_named(const char *name)
{
    unsigned found = 0;
    while (found < CALLS && strcmp(calls[found].name, name) != 0)
        found++;
    return found;
}

int main(int count, char **words)
{
    char *end = "";
    size_t bytes = count == 3 ? strtoul(words[2], &end, 10) : 0;
    call = count == 3 ? call_named(words[1]) : CALLS;
    if (call == CALLS || *end != 0 || bytes == 0 || bytes % 16 != 0 || bytes > MOST) {
        fprintf(stderr, "usage: bound CALL BYTES, a multiple of 16 up to %d\n", MOST);
        return 2;
    }
    call_name = words[1];
    bytes_given = words[2];
    if (!lay_stack(bytes) || !watch()) {
        fprintf(stderr, "bound: there is no memory for a stack and its guard\n");
        return 2;
    }
    each_case(hold);
    printf("%s %s ok, %u cases\n", call_name, bytes_given, cases);
    return cases == 0;
}
