/* A stand-in for <signal.h>: what the C programs of this tree use of it, for Linux and glibc on
 * x86-64. */
#ifndef RIGTEMPLE_TESTS_SIGNAL_H
#define RIGTEMPLE_TESTS_SIGNAL_H

#include <stddef.h>

#define SIGSEGV 11
#define SA_SIGINFO 4
#define SA_ONSTACK 0x08000000

typedef struct {
    unsigned long bits[16];
} sigset_t;

typedef struct {
    int si_signo, si_errno, si_code;
    void *si_addr;
    char rest[104];
} siginfo_t;

struct sigaction {
    void (*sa_sigaction)(int number, siginfo_t *info, void *context);
    sigset_t sa_mask;
    int sa_flags;
    void (*sa_restorer)(void);
};
int sigaction(int number, const struct sigaction *action, struct sigaction *before);

typedef struct {
    void *ss_sp;
    int ss_flags;
    size_t ss_size;
} stack_t;
int sigaltstack(const stack_t *stack, stack_t *before);

#endif
