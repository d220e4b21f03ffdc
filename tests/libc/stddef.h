/* A stand-in for <stddef.h>: what the C programs of this tree use of it. */
#ifndef RIGTEMPLE_TESTS_STDDEF_H
#define RIGTEMPLE_TESTS_STDDEF_H

typedef __SIZE_TYPE__ size_t;
#define NULL ((void *)0)
#define offsetof(type, member) __builtin_offsetof(type, member)

#endif
